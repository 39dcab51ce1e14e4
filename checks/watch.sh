#!/bin/bash
# Watches a cluster of real processes with `watch`: the state that it shows, the length of which an observer has; the line of the view change
# after the leader was killed; what a screen shows; and each way in which it ends. Then one over a list of hosts, on addresses 127.0.1.1 to
# 127.0.1.4. It takes some fifteen seconds, leaves nothing behind, and ends with status 1 at any difference.
#
#   checks/watch.sh              the nodes are those of crates/nopaxos/out/nopaxos, or of the file that NOPAXOS names
#                                and it is crates/watch/out/watch, or the file that WATCH names; likewise nopaxos_hosts and HOSTS
. "$(dirname "$0")/common.bash" || exit 2
needs "${NOPAXOS:-}" nopaxos -- replay
nopaxos=$program
needs "${HOSTS:-}" nopaxos_hosts
nopaxos_hosts=$program
needs "${WATCH:-}" watch
. checks/nodes.bash
finds_ports
nodes_of "$nopaxos" --replicas 3 --sequencers 2 --base "$base"
number='\(0\|[1-9][0-9]*\)'
put=5000016b000176

# ends STATUS WANTED WORDS..: it ends with this status, and writes what is wanted.
ends() {
    local wanted=$1 text=$2 status
    shift 2
    timeout 60 "$program" "$@" > "$folder/out" 2> "$folder/err"
    status=$?
    same "'$*'" "$status" "$wanted" "$text"
}

# puts CLIENT COUNT: a new client puts so often.
puts() {
    # shellcheck disable=SC2046,SC2086
    timeout 60 "$nopaxos" client --id "$1" $site $(for ((i = 0; i < $2; i++)); do echo "$put"; done) > "$folder/client" 2>&1 ||
        differs "client $1: '$(tail -c 300 "$folder/client")'"
}

# shows: one state, of which $view, $leader and $synced are then the numbers.
shows() {
    local status
    made=$((made + 1))
    timeout 60 "$program" "$base" 3 o0 --once > "$folder/out" 2> "$folder/err"
    status=$?
    read -r _ view _ _ leader _ _ _ synced _ < <(tail -n 1 "$folder/out")
    if [ "$status" != 0 ] || [ -s "$folder/err" ] || ! tail -n 1 "$folder/out" |
        grep -qx "view $number $number leader r[0-2] controller ctl synced $number rate $number age $number"; then
        differs "one state: status $status, '$(head -c 300 "$folder/out")'"
    elif [ "$leader" != "r$((view % 3))" ]; then
        differs "view $view has the leader $leader"
    fi
}

# has_line PATTERN: the watch in the background has written such a line.
has_line() {
    grep -q "$1" "$folder/watch"
}

# ---- what is not taken
usage='usage: watch (PORT REPLICAS | LIST) OBSERVER [--once | --redraw] [--turns TURNS]'
ends 2 "$usage"
ends 2 "$usage" 1023 3 o0
ends 2 "$usage" "$base" 4 o0
ends 2 "$usage" "$base" 3 o4
ends 2 "$usage" "$base" 3 r0
ends 2 "$usage" "$base" 3 o0 --once --turns 0
ends 2 "$usage" "$base" 3 o0 --turns 5 --once
ends 2 "$usage" "$base" 3 o0 --once --redraw
ends 2 "$usage" "$base" o0 o0
ends 3 '' "$folder/none" o0 --once

# ---- no cluster: nothing is told
ends 7 '' "$base" 3 o0 --once --turns 100
ends 7 '' "$base" 3 o0 --turns 100

# ---- a cluster: the length that is shown is that of an observer
for i in 0 1 2; do start "r$i" node --id "$i" --observers 2; done
for i in 0 1; do start "s$i" sequencer --id "$i"; done
start ctl controller --id 0 --install 0
start o1 observer --id 1
are_up r0 r1 r2 s0 s1 ctl o1
puts 0 8
shows
[ "$synced" -ge 8 ] || differs "after 8 puts the length $synced is shown"
made=$((made + 1))
# shellcheck disable=SC2086
timeout 60 "$nopaxos" read --id 1 --observer 1 $site --position "$synced" 6b > "$folder/out" 2>&1 ||
    differs "an observer does not have the length $synced: '$(head -c 300 "$folder/out")'"

# ---- the leader is killed while it is watched
first=$leader
before=$synced
nodes_of "$program"
site=
start watch "$base" 3 o0
nodes_of "$nopaxos" --replicas 3 --sequencers 2 --base "$base"
made=$((made + 3))
awaits has_line ' synced ' || differs "nothing is shown: '$(cat "$folder/watch")'"
has_line ' changed ' && differs "a view change is shown: '$(cat "$folder/watch")'"
ends 5 '' "$base" 3 o0 --once
kills "$first"
puts 2 1
awaits has_line ' changed ' || differs "no view change is shown"
change=$(grep ' changed ' "$folder/watch" | tail -n 1)
read -r _ view session _ leader _ < <(echo "$change")
[ "$leader" = "r$((view % 3))" ] && [ "$leader" != "$first" ] || differs "$first was killed, and '$change' is shown"
awaits has_line "^view $view $session leader $leader .* synced" || differs "no state of view $view is shown: '$(cat "$folder/watch")'"
kills watch

# ---- one state again, and a full disk
shows
[ "$synced" -gt "$before" ] || differs "after one more put the length $synced is shown, and $before was before"
made=$((made + 1))
timeout 60 "$program" "$base" 3 o0 --once > /dev/full 2> "$folder/err"
status=$?
[ "$status" = 4 ] || differs "on a full disk: status $status and not 4"

# ---- on a screen the last lines stand alone
clearing=$'\e[H\e[J'
made=$((made + 1))
timeout 60 "$program" "$base" 3 o0 --redraw --turns 2500 > "$folder/out" 2> "$folder/err"
status=$?
text=$(cat "$folder/out"; echo .)
[ "$status" = 0 ] && [ "${text:0:6}" = "$clearing" ] || differs "a screen: status $status, '$(head -c 300 "$folder/out")'"
echo "${text##*"$clearing"}" | head -n -1 > "$folder/screen"
made=$((made + 1))
{ [ "$(wc -l < "$folder/screen")" = 1 ] && grep -qx "view $number $number leader r[0-2] controller ctl synced .*" "$folder/screen"; } ||
    differs "on the screen stands '$(cat "$folder/screen")'"
stop

# ---- nodes on several hosts: what is not taken
hosts=$folder/list
three_hosts 1 > "$hosts"
ends 2 "$usage" "$hosts"
ends 2 "$usage" "$hosts" o1
ends 2 "$usage" "$hosts" r0
ends 2 "$usage" "$hosts" o0 --now
ends 3 '' "$folder/none" o0
echo 'r0 here' > "$folder/bad"
ends 2 'error line 1 rule 4' "$folder/bad" o0

# ---- a cluster on several hosts: a watch takes no number, so another one may follow
nodes_of "$nopaxos_hosts"
site=
for name in r0 r1 r2 s0; do start "$name" "$hosts" "$name"; done
start ctl "$hosts" ctl --install 0
are_up r0 r1 r2 s0 ctl
made=$((made + 1))
timeout 60 "$nopaxos_hosts" "$hosts" c0 $put $put $put > "$folder/client" 2>&1 ||
    differs "client 0: '$(tail -c 300 "$folder/client")'"
for again in 1 2; do
    made=$((made + 1))
    timeout 60 "$program" "$hosts" o0 --once > "$folder/out" 2> "$folder/err"
    status=$?
    read -r _ view _ _ leader _ _ _ synced _ < <(tail -n 1 "$folder/out")
    [ "$status" = 0 ] && [ ! -s "$folder/err" ] && [ "$leader" = "r$((view % 3))" ] && [ "$synced" -ge 3 ] ||
        differs "watch $again of a list: status $status, '$(head -c 300 "$folder/out")'"
done

# ---- which nodes answer: a killed replica does not any more, and the killed controller of the session in use is a warning
nodes_of "$program"
start watch "$hosts" o0
nodes_of "$nopaxos_hosts"
made=$((made + 4))
for name in r0 r1 r2 s0 ctl; do
    awaits has_line "^node $name answers $number\$" || differs "$name answers, and it is not shown: '$(cat "$folder/watch")'"
done
has_line ' silent ' && differs "all nodes answer, and '$(grep ' silent ' "$folder/watch")' is shown"
for name in r0 r1 r2; do
    [ "$name" = "$leader" ] || other=$name
done
kills "$other"
awaits has_line "^node $other silent $number\$" || differs "$other was killed, and it is not shown: '$(cat "$folder/watch")'"
has_line '^warning ' && differs "the controller answers, and '$(grep '^warning ' "$folder/watch")' is shown"
kills ctl
awaits has_line "^warning ctl silent $number\$" || differs "the controller was killed, and there is no warning: '$(cat "$folder/watch")'"
kills watch

# ---- the recorded lines of docs/RUNNING.md: each is a line of a watch, the view rises where a line says so and only there, and the length
# never falls
made=$((made + 1))
sed -n '/^\*\*A leader is killed/,/^- /s/^    //p' docs/RUNNING.md > "$folder/told"
wrongs=$(awk -v form='^view [0-9]+ [0-9]+ leader r[0-9] controller ctl ' '
    !($0 ~ form "synced [0-9]+ rate [0-9]+ age [0-9]+$" || $0 ~ form "changed [0-9]+$") || $5 != "r" $2 % 3 { print NR; next }
    NR > 1 && ($8 == "changed") != ($3 > session || $3 == session && $2 > number) { print NR }
    $3 < session || $3 == session && $2 < number || $8 == "synced" && $9 < length_told { print NR }
    { number = $2; session = $3 }
    $8 == "synced" { length_told = $9 }
    $8 == "changed" { changes++ }
    END { if (changes != 1 || NR < 5) print "all" }' "$folder/told")
[ -z "$wrongs" ] || differs "docs/RUNNING.md records what no watch writes: lines $wrongs"
concludes
