#!/bin/bash
# Runs examples/client.py, a client in another language that was written from docs/CLIENT.md, on a cluster of real processes that is started
# by the lines of docs/RUNNING.md: a put and what comes after it, more ops than may be open at a time, and gets after the leader was killed.
# It takes a few seconds, leaves nothing behind, and ends with status 1 at any difference.
#
#   checks/client.sh             the nodes are those of crates/nopaxos/out/nopaxos, or of the file that NOPAXOS names
. "$(dirname "$0")/common.bash" || exit 2
needs "${NOPAXOS:-}" nopaxos -- replay

. checks/nodes.bash
finds_ports
block=$(sed -n '/^## To copy/,/^## Sizing/p' docs/RUNNING.md | sed -n 's/^    //p' | head -n 4)
block=${block//47000/$base}
block=${block//crates\/nopaxos\/out\/nopaxos/$program}
eval "${block// > / > $folder/}"
# shellcheck disable=SC2207
started=($(jobs -p))
names=(s0 s1 r0 r1 r2 ctl0 ctl1)
for i in "${!names[@]}"; do pids[${names[i]}]=${started[i]}; done
are_up "${names[@]}"

# answers NUMBER WANTED OP..: a client of this number has these answers.
answers() {
    timeout 120 python3 -B examples/client.py "$base" 3 2 "$1" "${@:3}" > "$folder/out" 2> "$folder/err"
    same "client $1" $? 0 "$2"
}

answers 0 none put k v
answers 1 =v get k
answers 2 '=v
none' delete k get m
# sixty puts, of which up to eight are open, and then a get of each key by another client
puts=() gets=() nones=() values=()
for k in {1..60}; do
    puts+=(put "k$k" "v$k") gets+=(get "k$k") nones+=(none) values+=("=v$k")
done
answers 3 "$(printf '%s\n' "${nones[@]}")" "${puts[@]}"
answers 4 "$(printf '%s\n' "${values[@]}")" "${gets[@]}"
kills r0
answers 5 =v7 get k7
answers 6 '=v7' put k7 w
answers 7 =w get k7
kills s0
answers 8 =w get k7
# a client of other nodes says what may be wrong
timeout 6 python3 -B examples/client.py $((base + 100)) 3 2 9 get k7 > "$folder/out" 2> "$folder/err"
same 'a client of no nodes' $? 124 \
    'no answer yet: do nodes run with BASE, REPLICAS and SEQUENCERS, and had no client NUMBER before?' err
concludes
