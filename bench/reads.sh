#!/bin/bash
# Reads of observers of a cluster of real processes, beside puts: how many of both are answered in a second, how long a read waits, and
# whether what is answered is right: no position of an observer falls, a later position has no older value, and a position has one value.
#
#   bench/reads.sh [OBSERVERS..]  how many observers there are, a run for each (0 1 4);  NOPAXOS  the program file;  REPLICAS  (3)
#                                 PUTS  in all (100000);  CLIENTS  that put (8);  READERS  (8; with CLIENTS 16 at most; 0: none);  KEYS  in all (8)
#                                 ALONE  seconds for which readers read after the puts, and not beside them (0)
#                                 VALUE  bytes of a value (16);  RATE  puts a second at most (0: no limit);  BASE  the port of replica 0 (45000)
#                                 EVENT  what happens after two seconds: kill (the leader), stop (the first observer stands still for two)
#
# The clients that put are those of bench/long/client.rs, the readers those of bench/reads/client.rs; both are built first (rustc). With
# 4,096 KEYS and a VALUE of 256 each message of synchronisation has more than a megabyte. The status is 1 where a put or a read was not
# answered, or not rightly.
. "$(dirname "$0")/program.bash" || exit 2
replicas=${REPLICAS:-3}
clients=${CLIENTS:-8}
readers=${READERS:-8}
alone=${ALONE:-0}
base=${BASE:-45000}
[ $# != 0 ] || set -- 0 1 4
folder=$(mktemp -d) || exit 2
. checks/nodes.bash
nodes_of "$program" --replicas "$replicas" --sequencers 2 --base "$base"
rustc --edition 2021 -O -o "$folder/puts" bench/long/client.rs || exit 2
rustc --edition 2021 -O -o "$folder/reads" bench/reads/client.rs || exit 2

# happens: what is to happen while it runs.
happens() {
    sleep 2
    case ${EVENT:-none} in
    kill) kill -9 "${pids[r0]}" ;;
    stop)
        [ -n "${pids[o0]:-}" ] || return
        kill -STOP "${pids[o0]}"
        sleep 2
        kill -CONT "${pids[o0]}"
        ;;
    esac
}

# reading: the readers begin, where there are some and an observer.
reading() {
    reader=
    if [ "$observers" = 0 ] || [ "$readers" = 0 ]; then return; fi
    "$folder/reads" "$base" "$observers" "$readers" "$clients" "$folder/until" > "$folder/read" &
    reader=$!
}

failed=0
for observers in "$@"; do
    rm -f "$folder/until"
    for ((i = 0; i < 2; i++)); do start "s$i" sequencer --id $i; done
    for ((i = 0; i < replicas; i++)); do start "r$i" node --id $i --observers "$observers"; done
    for ((i = 0; i < observers; i++)); do start "o$i" observer --id $i; done
    start ctl controller --id 0
    sleep 0.5
    [ "$alone" != 0 ] || reading
    happens &
    happening=$!
    "$folder/puts" "$base" "$replicas" 2 "$clients" "${PUTS:-100000}" "${KEYS:-8}" "${VALUE:-16}" "${RATE:-0}" > "$folder/put" || failed=1
    wait "$happening"
    # What was accepted last is synchronised, and read.
    sleep 1
    if [ "$alone" != 0 ]; then
        reading
        sleep "$alone"
    fi
    touch "$folder/until"
    if [ -n "$reader" ]; then wait "$reader" || failed=1; fi
    stop 2> /dev/null
    awk -v observers="$observers" '/^all/ { printf "observers %s puts %s puts_per_second %.0f longest_wait_ms %s wrong %s\n", observers, $3, $3 / $11, $9, $5 }' "$folder/put"
    [ -z "$reader" ] || echo "observers $observers alone $alone $(cat "$folder/read")"
done
exit $failed
