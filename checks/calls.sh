#!/bin/bash
# Runs `kv`, the key-value store in words, on a cluster of real processes with an observer, also after its leader was killed, and on a full
# disk; `checks/tool.sh` has the wrong calls. A client that was told the slot of its write reads it of the observer at once, and waits while the
# observer does not have it. It takes a few seconds, leaves nothing behind, and ends with status 1 at any difference.
#
#   checks/calls.sh              the nodes are those of crates/nopaxos/out/nopaxos, or of the file that NOPAXOS names; KV names the tool
. "$(dirname "$0")/common.bash" || exit 2
. checks/nodes.bash
kv_cluster

# ends STATUS WANTED ARGUMENTS..: the program ends with this status, and writes what is wanted.
ends() {
    local wanted=$1 text=$2 status
    shift 2
    made=$((made + 1))
    timeout 60 "$program" "$@" > "$folder/out" 2> "$folder/err"
    status=$?
    if [ "$status" != "$wanted" ] || [ "$(cat "$folder/out")" != "$text" ] || [ -s "$folder/err" ]; then
        differs "'$*': status $status, '$(head -c 300 "$folder/out")', and on standard error '$(head -c 300 "$folder/err")'"
    fi
}

# fails ARGUMENTS..: on a full disk, the program ends with the status of a write that failed.
fails() {
    local status
    made=$((made + 1))
    timeout 60 "$program" "$@" > /dev/full 2> "$folder/err"
    status=$?
    [ "$status" = 4 ] && [ ! -s "$folder/err" ] || differs "'$*' on a full disk: status $status"
}

# called CLIENT WANTED OP..: a new client is answered so.
called() {
    local client=$1 wanted=$2
    shift 2
    # shellcheck disable=SC2086
    ends 0 "$wanted" $site --id "$client" "$@"
}

# slotted CLIENT WANTED OP..: a new client is answered so, behind a line of the op's slot, which is then $slot.
slotted() {
    local client=$1 wanted=$2
    shift 2
    made=$((made + 1))
    # shellcheck disable=SC2086
    timeout 60 "$program" $site --id "$client" --slot "$@" > "$folder/out" 2> "$folder/err"
    if ! grep -qx 'slot [1-9][0-9]*' <(head -n 1 "$folder/out") || [ "$(tail -n +2 "$folder/out")" != "$wanted" ]; then
        differs "'--slot $*': '$(head -c 300 "$folder/out")', and on standard error '$(head -c 300 "$folder/err")'"
    fi
    slot=$(sed -n '1s/^slot //p' "$folder/out")
}

# asks NAME CLIENT POSITION: a new client asks the observer for the key m, until an answer has this position. Its lines go to the file.
asks() {
    # shellcheck disable=SC2086
    timeout 60 "$nopaxos" read --id "$2" --observer 0 $site --position "$3" 6d > "$folder/$1" 2>&1
}

# answers NAME: the answers of this file, each a position and a result.
answers() {
    sed -n 's/^answer c[0-9]* [0-9]* o0 //p' "$folder/$1"
}

# sees NAME STATUS POSITION RESULT: the client ended with an answer that has this position or a greater one, and a result of this form.
sees() {
    local position result
    made=$((made + 1))
    read -r position result < <(answers "$1" | tail -n 1)
    # shellcheck disable=SC2053
    [ "$2" = 0 ] && [ "${position:-0}" -ge "${3:-0}" ] && [[ $result == $4 ]] ||
        differs "the read at position $3: status $2, '$(head -c 600 "$folder/$1")'"
}

# is_answered NAME: there is an answer in this file.
is_answered() {
    answers "$1" | grep -q .
}

# waits NAME PROCESS POSITION RESULT: the client is answered, with this result, but not at this position, and goes on.
waits() {
    made=$((made + 1))
    awaits is_answered "$1"
    sleep 0.3
    kill -0 "$2" 2> /dev/null && answers "$1" | awk -v at="$3" -v result="$4" '$1 >= at || $2 != result { wrong = 1 } END { exit wrong || !NR }' ||
        differs "the read that waits for position $3: '$(head -c 600 "$folder/$1")'"
}

start s0 sequencer --id 0
for i in 0 1 2; do start "r$i" node --id $i --observers 1; done
start o0 observer --id 0
start ctl controller --id 0
are_up s0 r0 r1 r2 o0 ctl
called 0 none put k v
called 1 '=v' get k
called 2 yes compare-and-set k v 0x00
called 3 no compare-and-set k v w
slotted 7 '=0x00' get k

# Who knows the slot of a write reads it at once.
slotted 20 none put m 0
asks read 48 "$slot"
sees read $? "$slot" 3d30
# No more slots are synchronised for now: also what was sent again has its slot by the time that the position stands still.
before=
for client in $(seq 49 79); do
    sleep 0.5
    asks read "$client" 0
    at=$(answers read | tail -n 1 | cut -d' ' -f1)
    [ "$at" != "$before" ] || break
    before=$at
done
later=$((at + 3))
: > "$folder/waiting"
asks waiting 31 "$later" &
pids[waiting]=$!
waits waiting "${pids[waiting]}" "$later" 3d30
before=0
for value in 1 2 3 4 5 6 7 8 9; do
    slotted $((20 + value)) "=$before" put m "$value"
    asks read $((32 + value)) "$slot"
    sees read $? "$slot" "3d3$value"
    before=$value
    [ "$slot" -lt "$later" ] || break
done
wait "${pids[waiting]}"
sees waiting $? "$later" '3d3[1-9]'
unset 'pids[waiting]'

# shellcheck disable=SC2086
fails $site --id 4 put k x
fails --help
kills r0
called 5 '=x' get k
called 6 yes compare-and-set k x 0x206b
called 4294967295 '=0x206b' delete k
concludes
