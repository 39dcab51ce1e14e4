#!/bin/bash
# Runs nodes by a list of hosts as real processes, on addresses 127.0.1.1 to 127.0.1.4 in place of four machines: host 1 has the leader, the
# sequencer in use and the first controller. All of host 1 are killed: the next client is answered and reads what was put. What was killed is
# started again and refused, as are a client number that was used, the 257th, a node with another list, and with marks a whole cluster. Then
# examples/hosts.sh is run. It takes some fifteen seconds, leaves nothing behind, and ends with status 1 at any difference.
#
#   checks/hosts.sh              the program is crates/nopaxos_hosts/out/nopaxos_hosts, or the file that HOSTS names; KV names that of kv
. "$(dirname "$0")/common.bash" || exit 2
needs "${HOSTS:-}" nopaxos_hosts
. checks/nodes.bash
nodes_of "$program"
site=
finds_ports

# list NUMBER: the list of hosts of a cluster with this number.
list() {
    echo "cluster $1"
    echo "r0 127.0.1.1:$base"
    echo "s0 127.0.1.1:$((base + 8))"
    echo "ctl 127.0.1.1:$((base + 12))"
    echo "r1 127.0.1.2:$((base + 1))"
    echo "s1 127.0.1.2:$((base + 9))"
    echo "ctl1 127.0.1.2:$((base + 13))"
    echo "r2 127.0.1.3:$((base + 2))"
    for i in {0..15}; do echo "c$i 127.0.1.4:$((base + 16 + i))"; done
}
nodes='r0 r1 r2 s0 s1 ctl1'

# starts LIST WORDS..: all nodes of a list, the first controller with its order. The replicas write traces, from when they are admitted on.
starts() {
    local name
    for name in $nodes; do
        case $name in
        r*) start "$name" "$@" "$name" --trace ;;
        *) start "$name" "$@" "$name" ;;
        esac
    done
    start ctl "$@" ctl --install 0
}

# are_admitted: waits until all replicas are. One that is late is admitted by most of all nodes, so not once host 1 is lost.
are_admitted() {
    local name
    # shellcheck disable=SC2086
    are_up $nodes ctl
    for name in r0 r1 r2; do awaits test -s "$folder/$name" || differs "$name is not admitted"; done
}

# answered WANTED NAME OPS..: a new client is answered with these results, each after how often it came, in the order of the results.
answered() {
    local wanted=$1 status results
    shift
    made=$((made + 1))
    timeout 60 "$program" "$hosts" "$@" > "$folder/out" 2>&1
    status=$?
    results=$(sed -n 's/^accept [^ ]* [^ ]* //p' "$folder/out" | LC_ALL=C sort | uniq -c | xargs)
    [ "$status" = 0 ] && [ "$results" = "$wanted" ] ||
        differs "client $1: status $status, '$results' in place of '$wanted', '$(head -c 300 "$folder/out")'"
}

# refused WORDS..: this ends with status 5, long before the minute after which too few answered.
refused() {
    local status
    made=$((made + 1))
    timeout 20 "$program" "$@" > "$folder/out" 2>&1
    status=$?
    [ "$status" = 5 ] || differs "$*: status $status and not 5"
}

# ends NAME WANTED_STATUS WANTED WORDS..: the program is run with these words, and writes what is wanted.
ends() {
    local name=$1 wanted=$2 text=$3 status
    shift 3
    "$program" "$@" > "$folder/out" 2> "$folder/err"
    status=$?
    same "$name" "$status" "$wanted" "$text"
}

# ---- what is not taken
hosts=$folder/list
list 7 > "$hosts"
usage='usage: nopaxos_hosts LIST [--marks FOLDER] ACTOR [OPTION..] [OP..]'
ends 'no words' 2 "$usage"
ends 'an actor that is not in the list' 2 "$usage" "$hosts" r3
ends 'no actor' 2 "$usage" "$hosts" x
ends 'no file' 3 '' "$folder/none" r0
echo 'r0 here' > "$folder/bad"
ends 'a list that is none' 2 'error line 1 rule 4' "$folder/bad" r0
while read -r line rule text; do
    printf '%b' "$text" > "$folder/bad"
    ends "the list '$text'" 2 "error line $line rule $rule" "$folder/bad" r0
done < <(grep -v '^#' checks/hosts/refused)

# ---- 64 puts, and host 1 is lost
put=5000016b000176
get=4700016b
starts "$hosts"
are_admitted
# The put that is stamped first finds nothing there, whichever it is.
# shellcheck disable=SC2046
answered '63 3d76 1 6e6f6e65' c0 $(for _ in {1..64}; do echo $put; done)
killed='r0 s0 ctl'
# shellcheck disable=SC2086
kills $killed
began=$(date +%s%N)
answered '1 3d76' c1 "$get"
made=$((made + 1))
took=$((($(date +%s%N) - began) / 1000000))
# Four seconds, or more where more processes want a processor than there are.
most=4000
[ "$(cut -d. -f1 /proc/loadavg)" -lt "$(nproc)" ] || most=20000
[ "$took" -le "$most" ] || differs "host 1 lost: answered after $took ms"
for name in r0 s0 ctl; do refused "$hosts" "$name"; done
for name in c0 c1; do refused "$hosts" "$name" "$put"; done
list 8 > "$folder/other"
refused "$folder/other" c2 "$get"
answered '1 3d76' c2 "$get"

# ---- as many clients as a cluster serves, and one more; then all nodes end, and come again
stop
list 9 > "$hosts"
mkdir "$folder/marks"
starts "$hosts" --marks "$folder/marks"
for i in {0..255}; do
    timeout 60 "$program" "$hosts" "c$i" "$put" > "$folder/out" 2>&1 || differs "client c$i: status $?"
done
refused "$hosts" c256 "$put"
stop
for name in ctl $nodes; do refused "$hosts" --marks "$folder/marks" "$name"; done
list 10 > "$hosts"
starts "$hosts" --marks "$folder/marks"
answered '1 6e6f6e65' c0 "$get"

# ---- the example: the second client and the one after host 1 was lost read what was put, and the leader is refused
stop
made=$((made + 1))
hosted=$program
needs "${KV:-}" kv -- --version
if NOPAXOS_HOSTS=$hosted KV=$program BASE=$base examples/hosts.sh > "$folder/out" 2> "$folder/err"; then
    [ "$(grep -c '^c[12]: get k: =v, after ' "$folder/out")" = 2 ] && grep -q '^r0 .* status 5,' "$folder/out" ||
        differs "examples/hosts.sh writes '$(tail -n 8 "$folder/out")'"
else
    differs "examples/hosts.sh ends with status $?: $(tail -n 3 "$folder/err")"
fi
concludes
