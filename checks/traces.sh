#!/bin/bash
# Traces of real processes, audited. First how `braid`, `audit` and nodes with `--trace` end. Then runs of five replicas, two sequencers, two
# controllers, two observers, three clients and two that read, over a network that loses, repeats, delays and damages datagrams
# (checks/traces/relay.py): under way the leader and the sequencer in use are killed, in either order, now and then a controller or a
# follower too; in the end all nodes are. Where an observer is behind in the end, a fourth client puts until it answers. The lines of shell of
# docs/AUDITING.md then order the steps of all traces, audit them, replay what they are, judge it and draw it. It has to be a legal run of all
# these steps, with the answers that the clients wrote. Of a step that was torn when its node was killed nothing is left by then; how often
# that happened is told. It takes some seconds a run, leaves nothing behind, and ends with status 1 at any difference.
#
#   checks/traces.sh [RUNS]      how many runs (3);  NUMBER  what they are drawn from (1);  FIRST  the first one (0)
#                                KEEP  a folder to which the traces of each run go, with what is made of them; of more than 10 runs those
#                                that differ
#                                NOPAXOS, BRAID, SPACETIME  the program files (crates/NAME/out/NAME)
. "$(dirname "$0")/common.bash" || exit 2
needs "${BRAID:-}" braid
braid=$(realpath "$program")
needs "${SPACETIME:-}" spacetime
spacetime=$(realpath "$program")
needs "${NOPAXOS:-}" nopaxos -- replay
program=$(realpath "$program")
. checks/nodes.bash
runs=${1:-3}
first=${FIRST:-0}

# ---- braid
header='nopaxos 1 replicas 1 sequencers 1 clients 1'
put=5000016b000176
request=4e4f030100000000000000000000000100075000016b000176
stamped=4e4f03020000000000000001000000000000000100000000000000000000000100075000016b000176
submits="in c0 submit $put
out c0 submit 1 $put
out c0 send s* $request"
stamps="in s0 packet $request
out s0 send r* $stamped"
stamps_capitals="in s0 packet ${request^^}
out s0 send r* $stamped"

# braided NAME INPUT WANTED: what is written for an input.
braided() {
    printf %s "$2" | "$braid" > "$folder/out" 2> "$folder/err"
    same "braid, $1" $? 0 "$3"
}

braided 'no bytes' '' ''
braided 'a first line alone' "$header" "$header"
braided 'steps in their order' "$header
$submits
$stamps
" "$header
$submits
$stamps"
braided 'steps in another order' "$header
$stamps
$submits" "$header
$submits
$stamps"
braided 'capital digits' "$header
$stamps_capitals
$submits" "$header
$submits
$stamps_capitals"
braided 'a packet that nobody sent' "$header
$stamps" "$header
$stamps"
"$braid" --help < /dev/null > "$folder/out" 2> "$folder/err"
same 'braid, a word' $? 2 'usage: braid < TRACES > ORDER' err
"$braid" $'\377' < /dev/null > "$folder/out" 2> "$folder/err"
same 'braid, a word that is no text' $? 2 'usage: braid < TRACES > ORDER' err
"$braid" < "$folder" > "$folder/out" 2> "$folder/err"
same 'braid, a folder as input' $? 3 'error reading the traces' err
"$braid" <&- > "$folder/out" 2> "$folder/err"
same 'braid, no input' $? 3 'error reading the traces' err
echo "$header" | "$braid" > /dev/full 2> "$folder/err"
same 'braid, a full disk' $? 4 'error writing the order' err
echo "$header" | "$braid" 2> "$folder/err" >&-
same 'braid, no output' $? 4 'error writing the order' err
# Orders by hand, each also of traces without their last line end.
ordered_row() {
    local given status
    for given in "$1" "${1%$'\n'}"; do
        made=$((made + 1))
        printf %s "$given" | "$braid" > "$folder/out" 2> "$folder/err"
        status=$?
        [ $status = 0 ] && [ ! -s "$folder/err" ] && cmp -s "$folder/out" - <<< "${2:1:-1}" ||
            differs "braid, the row '$given': status $status, '$(head -c 300 "$folder/out")'"
    done
}
rows checks/traces/orders.txt ordered_row
longest=$(head -c 4096 /dev/zero | tr '\0' x)
braided 'a line of 4,096 bytes' "$header
$longest" "$header
$longest"
braided 'a line of 4,096 bytes and its end' "$header
$longest
" "$header
$longest"
braided 'a line of 4,096 bytes before a step' "$header
$longest
in r0" "$header
$longest
in r0"
for rest in '' $'\nin r0'; do
    printf %s "$header
${longest}x$rest" | "$braid" > "$folder/out" 2> "$folder/err"
    same "braid, a line of 4,097 bytes before '$rest'" $? 8 'braid line 2 fault 1' err
done
printf '%s\n' "$header" "${longest}x" "${longest}x" | "$braid" > "$folder/out" 2> "$folder/err"
same 'braid, a line of 4,097 bytes' $? 8 'braid line 2 fault 1' err
yes '' | head -n 4000000 | "$braid" > "$folder/out" 2> "$folder/err"
status=$?
made=$((made + 1))
[ $status = 0 ] && [ "$(tr -d '\n' < "$folder/out" | wc -c) $(wc -l < "$folder/out")" = '0 4000000' ] && [ ! -s "$folder/err" ] ||
    differs "braid, the most lines: status $status"
yes | head -n 4000001 | "$braid" > "$folder/out" 2> "$folder/err"
same 'braid, a line too many' $? 8 'braid line 4000001 fault 1' err
# 900,000 steps do not fit into 10 MB.
{ echo "$header"; yes 'in r0 tick sync' | head -n 900000; } > "$folder/long"
(ulimit -v 10000; exec "$braid" < "$folder/long" > "$folder/front" 2> "$folder/err")
status=$?
head -c "$(stat -c %s "$folder/front")" "$folder/long" | cmp - "$folder/front" > "$folder/out" 2>&1
same 'braid, 900,000 steps in 10 MB' $status 6 'error out of memory' err

# ---- audit: the example of docs/FORMATS.md, and what it says there
# audited NAME STATUS WANTED LINES..: what is answered to these lines.
audited() {
    printf '%s\n' "${@:4}" | "$program" audit > "$folder/out" 2> "$folder/err"
    same "audit, $1" $? "$2" "$3"
}

is_put="$header
submit c0 $put
deliver 0 s0
audited 2"
audited 'a put as far as the sequencer' 0 "$is_put" "$header" "$submits" "$stamps"
audited 'capital digits' 0 "$is_put" "$header" "$submits" "$stamps_capitals"
audited 'a packet that was not sent' 8 'audit line 5 fault 3' "$header" "$submits" "${stamps/76/77}"
audited 'an output that is missing' 8 'audit line 6 fault 4' "$header" "$submits" "in s0 packet $request"
audited 'an output that is missing before a step' 8 'audit line 4 fault 4' "$header" "$(head -n 2 <<< "$submits")" "$stamps"
audited 'an actor that is not there' 8 'audit line 2 fault 2' "$header" 'in c1 tick retry'
audited 'a line that is none' 8 'audit line 2 fault 1' "$header" 'served 1 lost 0'
audited 'a first line alone' 0 "$header
audited 0" "$header"
# Traces and what is written for them: a request that is taken by the sequencer; a put with its answer, a read of an observer, and inputs
# that give little; no steps; a client that is busy, of which no trace can tell; a put that three replicas log and the leader synchronises;
# two controllers that move to one sequencer, of which one goes on in an epoch above the other's. Datagrams are those of docs/FORMATS.md.
audited_row() {
    local wanted=0 status
    [[ $2 != $'\n'audit\ line\ * ]] || wanted=8
    made=$((made + 1))
    printf %s "$1" | "$program" audit > "$folder/out" 2> "$folder/err"
    status=$?
    [ $status = $wanted ] && [ ! -s "$folder/err" ] && cmp -s "$folder/out" - <<< "${2:1:-1}" ||
        differs "audit, the row '$1': status $status, '$(head -c 300 "$folder/out")'"
}
rows checks/traces/audits.txt audited_row
# Lines behind a first step that is whole, and behind one whose last output is missing: the number of the fault, of which a line has one or
# two. In lines `in` and `out` it is each that there can be, and each two that there can be.
whole="${header/1 replicas/3 replicas} controllers 2 observers 1
$submits"
torn=$(head -n 3 <<< "$whole")
while IFS='|' read -r after line fault; do
    line=${line//UNSENT/${request%76}77}
    printf '%s\n%s' "${!after}" "${line//SENT/$request}" | "$program" audit > "$folder/out" 2> "$folder/err"
    same "audit, '$line' behind a $after step" $? 8 "audit line $(($(wc -l <<< "${!after}") + 1)) fault $fault"
done < checks/traces/faults.txt
"$program" audit < /dev/null > "$folder/out" 2> "$folder/err"
same 'audit, no bytes' $? 8 'audit line 1 fault 1'
"$program" audit < "$folder" > "$folder/out" 2> "$folder/err"
same 'audit, a folder as input' $? 3 ''
echo "$header" | "$program" audit > /dev/full 2> "$folder/err"
same 'audit, a full disk' $? 4 ''
(ulimit -v 10000; exec "$program" audit < "$folder/long" > "$folder/out" 2> "$folder/err")
same 'audit, 900,000 steps in 10 MB' $? 6 ''

# ---- audit: which lines are steps, and which are none (fault 1). An answer, a line, and a piece that comes so many times at its end
many='nopaxos 3 replicas 1 sequencers 1 clients 1 controllers 4 observers 4'
while IFS='|' read -r answer text piece count; do
    for ((; count > 0; count--)); do text+=$piece; done
    case $answer in
    [0-9]*) audited "'${text:0:60}'" 8 "audit line ${answer%:*} fault ${answer#*:}" "$many" "$text" ;;
    *) audited "'${text:0:60}'" 0 "$many
$answer
audited 1" "$many" "$text" ;;
    esac
done << 'END'
3:4|in c0 submit 5000016b000176|0|0
2:4|out c0 submit 1 5000016B000176|0|0
2:4|out c0 send s* 4e4f|0|0
2:4|out s0 send r* -|0|0
2:2|out r6 send ctl3 00|0|0
2:4|out r0 send r300 00|0|0
2:1|in s0 packet |0|3001
2:1|in s0 packet |0|3002
junk s0 -|in s0 packet -|0|0
2:4|out s0 send r* |0|3000
2:1|out s0 send r* |0|3002
3:4|in c0 submit |0|1280
2:1|in c0 submit |0|1282
2:1|in c0 submit 0|g|1
2:1|in c0 submit|0|0
2:1|in c0 submit 00 |0|1
2:1|in c0 submit  0|0|1
2:4|out c0 accept 18446744073709551615 |0|514
2:1|out c0 accept 1 |0|516
2:1|out c0 accept 18446744073709551616 -|0|0
2:1|out c0 accept 0 -|0|0
2:1|out c0 accept 01 -|0|0
2:1|out c0 submit 0 -|0|0
tick r0 suspect|in r0 tick suspect|0|0
tick r0 watch|in r0 tick watch|0|0
tick r0 resend|in r0 tick resend|0|0
tick r0 sync|in r0 tick sync|0|0
tick c0 retry|in c0 tick retry|0|0
2:2|in s0 tick probe|0|0
2:1|in c0 tick next|0|0
2:1|in c0 tick install|0|0
3:4|in c0 read o1 6b|0|0
2:2|in c0 read o77 |0|128
2:1|in c0 read o1 |0|130
2:1|in c0 read o1 -|0|0
2:1|in c0 read r1 6b|0|0
2:1|in c0 read o01 6b|0|0
2:4|out c0 read 7 o3 6b|0|0
2:4|out c0 answer 7 o3 4294967295 -|0|0
2:1|out c0 answer 7 o3 4294967296 -|0|0
2:1|out c0 answer 7 o3 0 |0|516
2:1|out c0 answer 7 o3 0|0|0
2:2|in ctl install s1|0|0
2:2|in ctl1 install s300|0|0
2:2|in ctl2 install s9999999999999999999|9|1
2:1|in ctl install r1|0|0
2:1|in ctl0 tick probe|0|0
2:1|in ctl4 tick probe|0|0
2:2|in c18446744073709551615 tick retry|0|0
2:2|in c18446744073709551616 tick retry|0|0
2:1|in r01 tick sync|0|0
2:1|in r tick sync|0|0
2:1|in x0 tick sync|0|0
2:1|in r* tick sync|0|0
2:1|out r0 send x0 00|0|0
2:1|out r0 send r00 00|0|0
2:1|out r0 busy|0|0
2:1|in r0 crash|0|0
2:1|In r0 tick sync|0|0
2:1|nopaxos 1 replicas 1 sequencers 1 clients |1|1
2:1|in s0 packet -~|0|0
2:1||0|0
2:1|in c|9|4093
END
zeros=$(head -c 3000 /dev/zero | tr '\0' 0)
audited 'the longest packet' 0 "$many
junk s0 $zeros
audited 1" "$many" "in s0 packet $zeros"
second='nopaxos 2 replicas 1 sequencers 2 clients 1 controllers 3'
audited 'two controllers' 0 "$second
install s1 ctl2
install s0
audited 2" "$second" 'in ctl2 install s1' 'out ctl2 send s1 4e4f030402010000000200000001' \
    'in ctl install s0' 'out ctl send s0 4e4f030400000000000000000002'
third='nopaxos 3 replicas 1 sequencers 2 clients 3 controllers 3 observers 4'
audited 'a client that asks an observer' 0 "$third
read c2 o3 6bff
audited 1" "$third" 'in c2 read o3 6bff' 'out c2 read 1 o3 6bff' \
    'out c2 send o3 4e4f030900000002000000000000000100026bff'

# ---- nodes with a trace
finds_ports
# traces NAME STATUS WANTED WORDS..: what a node writes in its first turn.
traces() {
    "$program" "${@:4}" --replicas 3 --sequencers 1 --base "$base" --turns 1 --trace > "$folder/out" 2> "$folder/err"
    same "$1 with a trace" $? "$2" "$3"
}

traces 'a sequencer' 0 '' sequencer --id 0
traces 'a replica' 0 '' node --id 2
traces 'an observer' 0 '' observer --id 3
traces 'a controller' 0 'in ctl install s0
out ctl send s0 4e4f030400000000000000000002' controller --id 0 --install 0
traces 'a client' 7 "in c7 submit $put
out c7 submit 1 $put
out c7 send s* ${request/00000000/00000007}" client --id 7 $put
traces 'a client that reads' 7 'in c7 read o3 6b
out c7 read 1 o3 6b
out c7 send o3 4e4f030900000007000000000000000100016b' read --id 7 --observer 3 6B
"$program" client --id 7 --replicas 3 --sequencers 1 --base "$base" --turns 1 --trace $put > /dev/full 2> "$folder/err"
same 'a client with a trace on a full disk' $? 4 ''

# ---- runs
names=(r0 r1 r2 r3 r4 s0 s1 ctl ctl1 o0 o1 c0 c1 c2 c3 c4 c5)
site='--replicas 5 --sequencers 2'
# shellcheck disable=SC2086
nodes_of "$program" $site
mkdir "$folder/bin"
ln -s "$program" "$folder/bin/nopaxos"
ln -s "$braid" "$folder/bin/braid"
ln -s "$spacetime" "$folder/bin/spacetime"
# The lines of shell, as the page shows them.
sed -n '/^    # whole FILE/,/^    spacetime/s/^    //p' docs/AUDITING.md > "$folder/shown"
made=$((made + 1))
[ "$(grep -c . "$folder/shown")" = 11 ] || differs 'docs/AUDITING.md shows other lines of shell'

# with NAME: the words for a trace, and for a node's own ports.
with() {
    local at
    for at in "${!names[@]}"; do
        [ "${names[at]}" != "$1" ] || echo "--trace --base $((base + at * 64))"
    done
}

# network SEED: starts the relay, at ports that are free, and below those that the system gives to programs that ask for any.
network() {
    for _ in 1 2 3 4 5 6 7 8; do
        base=$((20480 + RANDOM % 11 * 1088))
        : > "$folder/relay"
        python3 checks/traces/relay.py $base "$1" 30 50 5 40 "${names[@]}" > "$folder/relay" &
        pids[relay]=$!
        for _ in $(seq 3000); do
            [ ! -s "$folder/relay" ] || return 0
            kill -0 "${pids[relay]}" 2> /dev/null || break
            sleep 0.02
        done
        kills relay
    done
    return 1
}

# nodes NAME..: starts these nodes, each by its own ports.
nodes() {
    local name words number
    for name in "$@"; do
        number=${name##*[a-z]}
        case $name in
        r*) words='node --observers 2' ;;
        s*) words=sequencer ;;
        ctl*) words=controller ;;
        o*) words=observer ;;
        esac
        # shellcheck disable=SC2046,SC2086
        start "$name" $words --id "${number:-0}" $(with "$name")
    done
}

# client NUMBER WORDS..: starts a client, or one that reads.
client() {
    # shellcheck disable=SC2046,SC2086
    timeout 300 "$program" "$2" --id "$1" $site $(with "c$1") "${@:3}" > "$folder/c$1" 2>&1 &
    pids[c$1]=$!
}

# ops COUNT: so many ops on three keys.
ops() {
    local i
    for ((i = 0; i < $1; i++)); do
        case $((RANDOM % 5)) in
        0) printf '470001%02x ' $((RANDOM % 3)) ;;
        1) printf '430001%02x0001%02x0001%02x ' $((RANDOM % 3)) $((RANDOM % 64)) "$i" ;;
        *) printf '500001%02x0001%02x ' $((RANDOM % 3)) "$i" ;;
        esac
    done
}

# view CLIENT: the greatest view of which it had a Reply, as its session and its leader number, in hexadecimal.
view() {
    awk '$1 == "in" && substr($4, 1, 8) == "4e4f0303" { view = substr($4, 19, 16) " " substr($4, 11, 8); if (view > most) most = view }
        END { print most }' "$folder/$1"
}

# leader, sequencer: the nodes of $view.
leader() { echo "r$((16#${view#* } % 5))"; }
sequencer() {
    if grep -q "^out s1 send r\* 4e4f0302${view% *}" "$folder/s1"; then echo s1; else echo s0; fi
}

# end_of leader|sequencer: who that is by the greatest view that client 0 knows of, is killed; what it knew then, is kept.
end_of() {
    view=$(view c0)
    victim=$("$1")
    kills "$victim"
    if [ "$1" = leader ]; then led=${view#* }; else session=${view% *}; fi
}

# happens: what is killed. Client 0 has many open requests then; client 2 comes after it, and finds another leader and another sequencer.
happens() {
    local victims=(leader sequencer) accepted=$((RANDOM % 16 + 1)) victim view
    [ $((RANDOM % 2)) = 0 ] || victims=(sequencer leader)
    for _ in $(seq 6000); do
        [ "$(grep -c '^out c0 accept ' "$folder/c0")" -lt $accepted ] || break
        sleep 0.01
    done
    end_of "${victims[0]}"
    killed=$victim
    case $((RANDOM % 4)) in
    0) victim=ctl ;;
    1) victim=$(if [ "$(leader)" = r4 ]; then echo r3; else echo r4; fi) ;;
    *) victim= ;;
    esac
    if [ -n "$victim" ]; then
        kills "$victim"
        killed="$killed $victim"
    fi
    sleep 0.$((RANDOM % 9))
    end_of "${victims[1]}"
    killed="$killed $victim"
    open=$((open + $(grep -c '^out c0 submit ' "$folder/c0") - $(grep -c '^out c0 accept ' "$folder/c0")))
    # shellcheck disable=SC2046
    client 2 client $(ops 8)
}

# is_answered NUMBER CLIENT: it ends, with all that it asked for.
is_answered() {
    made=$((made + 1))
    wait "${pids[c$2]}" || differs "run $1: client $2 ends with status $?"
    unset "pids[c$2]"
}

# has_more_synchronised NUMBER: if client 4 still waits some seconds later, client 5 puts. An observer that lost what was synchronised last
# stays behind until more is.
has_more_synchronised() {
    for _ in $(seq 150); do
        kill -0 "${pids[c4]}" 2> /dev/null || return
        sleep 0.02
    done
    # shellcheck disable=SC2046
    client 5 client $(ops 64)
    is_answered "$1" 5
    behind=$((behind + 1))
}

# runs NUMBER: all nodes run until the clients are answered, and are killed.
runs() {
    local name c
    for name in "${names[@]}"; do : > "$folder/$name"; done
    network "$1" || { differs "run $1: there are no free ports"; return 1; }
    nodes "${names[@]:0:11}"
    sleep 0.3
    # shellcheck disable=SC2046
    client 0 client $(ops 40)
    # shellcheck disable=SC2046
    client 1 client $(ops 12)
    client 3 read --observer 0 00
    client 4 read --observer 1 --position 8 01
    happens
    for c in 0 1 2 3; do is_answered "$1" $c; done
    has_more_synchronised "$1"
    is_answered "$1" 4
    for name in "${names[@]:0:11}"; do
        [ -z "${pids[$name]:-}" ] || kills "$name"
    done
    kill "${pids[relay]}"
    wait "${pids[relay]}"
    unset 'pids[relay]'
}

# ordered: what the lines of shell make of the traces in the folder audit. Where a step was torn between two of its lines, the audit says
# fault 4 behind it; if it is the last one of its file, it is cut off, as the page says.
ordered() {
    local line actor lines
    for _ in "${names[@]}" last; do
        (cd "$folder/audit" && PATH="$folder/bin:$PATH" header=$counts bash "$folder/shown" > said 2> err)
        line=$(sed -n 's/^audit line \([0-9]*\) fault 4$/\1/p' "$folder/audit/said")
        [ -n "$line" ] || return
        head -n $((line - 1)) "$folder/audit/order" |
            awk '/^in / { step = "" } { step = step $0 "\n" } END { printf "%s", step }' > "$folder/step"
        actor=$(awk '{ print $2; exit }' "$folder/step")
        lines=$(grep -c . "$folder/step")
        tail -n "$lines" "$folder/audit/traces/$actor" | cmp -s - "$folder/step" || return
        head -n "-$lines" "$folder/audit/traces/$actor" > "$folder/cut"
        mv "$folder/cut" "$folder/audit/traces/$actor"
        between=$((between + 1))
    done
}

# told CLIENT: what it wrote of its requests and reads, as lines of a transcript.
told() { sed -nE 's/^out (c[0-9]+) (submit|accept|read|answer) /\2 \1 /p' "$folder/audit/traces/$1"; }

# are_legal NUMBER: the traces that lie there are those of a legal run, with these answers.
are_legal() {
    local name steps claims found
    rm -rf "$folder/audit"
    mkdir -p "$folder/audit/traces"
    for name in "${names[@]}"; do
        cp "$folder/$name" "$folder/audit/traces"
        [ -z "$(tail -c 1 "$folder/$name")" ] || torn=$((torn + 1))
    done
    ordered
    steps=$(grep -c '^in ' "$folder/audit/order")
    all=$((all + steps))
    for name in c0 c1 c2 c3 c4 c5; do
        made=$((made + 1))
        told $name | cmp -s - <(grep -E "^(submit|accept|read|answer) $name " "$folder/audit/transcript") ||
            differs "run $1: what client $name wrote is not in the transcript"
    done
    claims=$(cat "$folder"/audit/traces/c* | awk '$1 == "out" { of[$3]++ } END { print of["submit"], of["accept"] }')
    made=$((made + 3))
    [ "$(cat "$folder/audit/said")" = "audited $steps
legal $claims $(grep -c '^history ' "$folder/audit/transcript")" ] && [ ! -s "$folder/audit/err" ] ||
        differs "run $1: $steps steps are '$(head -c 300 "$folder/audit/said" "$folder/audit/err")'"
    # in a later session than the sequencer stamped, and a later leader's view
    found=$(view c2)
    [[ "${found% *}" > "$session" && "${found#* }" > "$led" ]] ||
        differs "run $1: client 2 was answered in $found, after session $session and leader number $led"
    grep -qF ">$((steps + 1))</text>" "$folder/audit/picture.svg" && tail -n 1 "$folder/audit/picture.svg" | grep -q '</svg>$' ||
        differs "run $1: it is not drawn"
}

counts='nopaxos 3 replicas 5 sequencers 2 clients 6 controllers 2 observers 2'
all=0
open=0
torn=0
between=0
behind=0
for ((run = first; run < first + runs; run++)); do
    RANDOM=$((${NUMBER:-1} * 7919 + run))
    before=$wrong
    if runs $run; then are_legal $run; fi
    if [ -n "${KEEP:-}" ] && { [ "$runs" -le 10 ] || [ "$wrong" != "$before" ]; }; then
        mkdir -p "$KEEP/run-$run"
        cp -R "$folder/audit/." "$KEEP/run-$run"
    fi
    tail -n 1 "$folder/relay" >> "$folder/relays"
    [ "$runs" -le 10 ] || echo "$check: run $run: killed $killed, $(tr '\n' ' ' < "$folder/audit/said")"
done

# The last run once more, where client 0 was killed in its next step.
cp "$folder/audit/order" "$folder/whole-order"
cp "$folder/audit/traces/c0" "$folder/whole-c0"
torn_runs=$between
for rest in i in 'in c0 submit 4700016b' $'in c0 submit 4700016b\nout c0 s' $'in c0 submit 4700016b\nout c0 submit 41 4700016b' \
    $'in c0 submit 4700016b\n' $'in c0 submit 4700016b\nout c0 submit 41 4700016b\n'; do
    made=$((made + 1))
    { cat "$folder/whole-c0"; printf %s "$rest"; } > "$folder/audit/traces/c0"
    ordered
    cmp -s "$folder/audit/order" "$folder/whole-order" || differs "with '$rest' the answer is $(head -n 1 "$folder/audit/said")"
done
made=$((made + 1))
[ $((between - torn_runs)) = 2 ] || differs "$((between - torn_runs)) steps were cut off between two lines"
between=$torn_runs

# And without the trace of a node that others heard; and with another first line.
cp "$folder/whole-c0" "$folder/audit/traces/c0"
for name in c0 s0 r1; do
    made=$((made + 1))
    mv "$folder/audit/traces/$name" "$folder/missing"
    ordered
    grep -q '^audit line [0-9]* fault 3$' "$folder/audit/said" || differs "without the trace of $name: $(head -n 1 "$folder/audit/said")"
    mv "$folder/missing" "$folder/audit/traces/$name"
done
made=$((made + 1))
counts=${counts/replicas 5/replicas 3}
ordered
grep -q '^audit line [0-9]* fault 2$' "$folder/audit/said" || differs "with three replicas: $(head -n 1 "$folder/audit/said")"

# of all runs, what the network did
network=$(awk '{ for (i = 1; i < NF; i += 2) of[$i] += $(i + 1) }
    END {
        printf "%d datagrams, %d lost, %d repeated, %d damaged, %d overtaken",
            of["came"], of["lost"], of["repeated"], of["damaged"], of["overtook"]
    }' "$folder/relays")
made=$((made + 1))
[[ $network != *' 0 '* ]] || differs "the network was too good: $network"
echo "$check: $runs runs of $all steps; $network; $open open requests of client 0 at the second kill;" \
    "$torn torn last steps, $between more between two lines; observer 1 was behind $behind times"
concludes
