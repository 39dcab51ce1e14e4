#!/bin/bash
# A cluster on the loopback address: replicas, two sequencers, two controllers and an observer, each a process of its own. Two clients
# put and get, in words, and the observer is read; then the leader is killed, and a third client still gets its answers, and the
# observer what it put; then the sequencer and one of the controllers are, and two more do. Only processes that were started here
# are ended, by their ids. docs/FORMATS.md says what the lines mean, docs/RUNNING.md what else there is to know.
#
#   examples/cluster.sh [REPLICAS]       3 replicas, or 1, 5 or 7; with 1, the leader is not killed, and there is no observer
#   KV       the program file of `kv`, which turns words into ops and results into words (crates/kv/out/kv)
#   NOPAXOS  the program file (crates/nopaxos/out/nopaxos, which `rt run` leaves); a relative name counts from the repository
#   BASE     the port of replica 0, 1024 to 65000 (47000): the ports from there to BASE + 35 belong to the cluster
#
# Status 0: all ops were accepted; 1: not so, or a node did not start; 2: arguments that are not taken, nothing started; 130
# or 143: interrupted or terminated, at once and with all that was started, also while a client waits.
set -u
cd "$(dirname "$0")/.." || exit 2

# usage REASON: the arguments are not taken.
usage() {
    echo "cluster.sh: $1" >&2
    echo "usage: [NOPAXOS=FILE] [KV=FILE] [BASE=PORT] examples/cluster.sh [1 | 3 | 5 | 7]" >&2
    exit 2
}

program=${NOPAXOS:-crates/nopaxos/out/nopaxos}
replicas=${1-3}
base=${BASE:-47000}
[ $# -le 1 ] || usage "more than one argument"
case $replicas in
1 | 3 | 5 | 7) ;;
*) usage "there can be 1, 3, 5 or 7 replicas, and not '$replicas'" ;;
esac
if ! [[ $base =~ ^[1-9][0-9]{3,4}$ ]] || [ "$base" -lt 1024 ] || [ "$base" -gt 65000 ]; then
    usage "BASE is from 1024 to 65000, and not '$base'"
fi
site="--replicas $replicas --sequencers 2 --base $base"
# below CRATE: the crates that it is built on, and itself.
below() {
    awk -v top="$1" '
        { sub(/#.*/, "") }
        /:/ { name = $1; sub(/:.*/, "", name); $1 = ""; deps[name] = $0 }
        function visit(crate, list, count, i) {
            if (crate in seen || !(crate in deps)) return
            seen[crate] = 1
            count = split(deps[crate], list, " ")
            for (i = 1; i <= count; i++) visit(list[i])
            print crate
        }
        END { visit(top) }' crates.txt
}

# builds CRATE WORDS..: proves the crate and those below it, and builds its program; what is proved by now is said every ten seconds.
builds() {
    local crate=$1 all done name build
    all=$(below "$crate" | wc -l)
    echo "cluster.sh: there is no $crate yet: it is proved and built, once; the first time that takes half an hour or more" >&2
    (cd "crates/$crate" && exec rt run "${@:2}" < stdin > /dev/null 2>&1) &
    build=$!
    while kill -0 "$build" 2> /dev/null; do
        done=0
        for name in $(below "$crate"); do
            [ ! -e "crates/$name/out/rlib/$name.rlib" ] || done=$((done + 1))
        done
        echo "cluster.sh: $done of $all crates are proved" >&2
        sleep 10 &
        wait -n "$build" $! 2> /dev/null
    done
}

[ -x "$program" ] || builds nopaxos -- replay
[ -x "$program" ] || { echo "cluster.sh: there is no program file $program" >&2; exit 1; }
kv=${KV:-crates/kv/out/kv}
[ -x "$kv" ] || builds kv -- --version
[ -x "$kv" ] || { echo "cluster.sh: there is no program file $kv" >&2; exit 1; }

folder=$(mktemp -d) || exit 1
declare -A pids=()
stop() {
    for pid in "${pids[@]}"; do kill "$pid" 2> /dev/null && kill -CONT "$pid" 2> /dev/null; done
    for pid in "${pids[@]}"; do wait "$pid" 2> /dev/null; done
    rm -rf "$folder"
}
trap stop EXIT
trap 'exit 130' INT
trap 'exit 143' TERM

# start NAME ARGUMENTS..: a node whose lines go to a file of its name.
start() {
    local name=$1
    shift
    # shellcheck disable=SC2086
    "$program" "$@" $site > "$folder/$name" 2>&1 &
    pids[$name]=$!
}

# runs NAME: the node is still running. One that is not tells why by its status.
runs() {
    kill -0 "${pids[$1]}" 2> /dev/null && return
    wait "${pids[$1]}"
    echo "cluster.sh: $1 did not start: status $? (5: its port is in use), '$(head -n 1 "$folder/$1")'" >&2
    exit 1
}

# client NUMBER OPS..: what it does, each op in words, its lines, its answers in words, and its exit status. Its ops are under way at
# once: in which order they are executed is not promised, so what has to come after another op is left to another client. Only a `wait` is
# left at once for a trap.
client() {
    local number=$1 op ops=() status word result
    shift
    echo
    for op in "$@"; do
        echo "client $number: $op"
        # shellcheck disable=SC2086
        ops+=("$("$kv" op $op)")
    done
    # shellcheck disable=SC2086
    timeout 60 "$program" client --id "$number" $site "${ops[@]}" > "$folder/client" 2>&1 &
    pids[client]=$!
    wait "${pids[client]}"
    status=$?
    unset 'pids[client]'
    while read -r word _ _ result; do
        if [ "$word" = accept ]; then echo "answer: $("$kv" result "$result")"; fi
    done < "$folder/client"
    cat "$folder/client"
    echo "status $status"
    [ "$status" = 0 ] || failed=1
    [ "$status" != 124 ] || echo "client $number had no answer within a minute, and was ended"
}

# reads NUMBER KEY ANSWER: the observer is asked for a key by a client of this number; its lines, its answer in words, and its exit status.
# What was accepted a second ago is synchronised, and the observer has been told; where it is behind all the same, a client of a new number,
# 16 more, asks it a second later, ten of them at most.
reads() {
    local number op status answer
    op=$("$kv" op get "$2")
    for ((number = $1; number < $1 + 160; number += 16)); do
        sleep 1
        # The op is a letter, the length of the key in two bytes, and the key.
        # shellcheck disable=SC2086
        timeout 60 "$program" read --id "$number" --observer 0 $site "${op:6}" > "$folder/client" 2>&1 &
        pids[client]=$!
        wait "${pids[client]}"
        status=$?
        unset 'pids[client]'
        answer=$("$kv" result "$(sed -n 's/^answer .* //p' "$folder/client")")
        [ "$answer" != "$3" ] || break
    done
    echo
    echo "client $number reads $2 at observer 0"
    echo "answer: $answer"
    cat "$folder/client"
    echo "status $status"
    [ "$status" = 0 ] || failed=1
}

# ends NAME..: these nodes are killed.
ends() {
    local name
    for name in "$@"; do
        kill -9 "${pids[$name]}"
        wait "${pids[$name]}" 2> /dev/null
        unset "pids[$name]"
    done
}

failed=0
for ((i = 0; i < 2; i++)); do start "s$i" sequencer --id $i; done
observers=$((replicas > 1))
for ((i = 0; i < replicas; i++)); do start "r$i" node --id $i --observers $observers; done
for ((i = 0; i < observers; i++)); do start "o$i" observer --id $i; done
for ((i = 0; i < 2; i++)); do start "ctl$i" controller --id $i; done
sleep 0.5
for name in "${!pids[@]}"; do runs "$name"; done

echo "== $replicas replicas at ports $base to $((base + replicas - 1)); replica 0 leads"
client 0 'put k v' 'put m w'
client 1 'get k' 'get m'

if [ "$replicas" -gt 1 ]; then
    reads 4 m '=w'
    echo
    echo "== replica 0, the leader, is killed; the others suspect it after a second or two, and one of them leads then"
    ends r0
    client 2 'put k x'
    reads 5 k '=x'
fi

echo
echo "== sequencer 0, which numbers the requests, and controller 0 are killed; within two seconds controller 1 has sequencer 1 go on"
ends s0 ctl0
client 3 'put k y'
client 6 'get k'
[ "$failed" = 0 ] || exit 1
