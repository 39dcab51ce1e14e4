#!/bin/bash
# Times how soon an observer shows a put that was accepted, in a cluster of real processes; then how soon one does that is started while the
# cluster holds a state, with receive buffers of the system's default size.
#
#   bench/shown.sh [REPLICAS..]   numbers of replicas (3 5);  NOPAXOS  the program file;  TIMES  puts that are timed (200)
#                                 KEYS  of the state (4064; a map has at most 4,096);  VALUE  bytes of its values (256)
#                                 RATE  of its puts, in a second at most (10000);  BASE  the port of replica 0 (46000)
#                                 STARTS  of observers while there is that state (10)
#
# The clients are those of bench/shown/client.rs and, for the state, of bench/long/client.rs (rustc). While an observer starts, the one
# client puts, each time up to 100 ms after the last put was shown. A leader synchronises ten times a second. The datagrams that found a
# receive buffer full (RcvbufErrors of /proc/net/snmp) are counted over all programs of the network namespace. The status is 1 where a
# put was not shown.
. "$(dirname "$0")/program.bash" || exit 2
base=${BASE:-46000}
keys=${KEYS:-4064}
folder=$(mktemp -d) || exit 2
. checks/nodes.bash
rustc --edition 2021 -O -o "$folder/puts" bench/long/client.rs || exit 2
rustc --edition 2021 -O -o "$folder/shown" bench/shown/client.rs || exit 2

# The datagrams that found a receive buffer full, since the machine was started.
overflows() { awk '/^Udp:/ { if (column) print $column; else for (i = 2; i <= NF; i++) if ($i == "RcvbufErrors") column = i }' /proc/net/snmp; }

failed=0
[ $# != 0 ] || set -- 3 5
for replicas in "$@"; do
    nodes_of "$program" --replicas "$replicas" --sequencers 2 --base "$base"
    for ((i = 0; i < 2; i++)); do start "s$i" sequencer --id $i; done
    for ((i = 0; i < replicas; i++)); do start "r$i" node --id $i --observers 2; done
    start o0 observer --id 0
    start ctl controller --id 0
    sleep 0.5
    echo "replicas $replicas $("$folder/shown" "$base" "$replicas" 2 0 12 "${TIMES:-200}" 100)" || failed=1
    full=$(overflows)
    "$folder/puts" "$base" "$replicas" 2 8 $((2 * keys)) "$keys" "${VALUE:-256}" "${RATE:-10000}" > "$folder/filled" || failed=1
    echo "replicas $replicas, with the state, $("$folder/shown" "$base" "$replicas" 2 0 14 "${TIMES:-200}" 100), full $(($(overflows) - full))" || failed=1
    full=$(overflows)
    : > "$folder/first"
    for ((k = 2; k < ${STARTS:-10} + 2; k++)); do
        start o1 observer --id 1
        "$folder/shown" "$base" "$replicas" 2 1 $((16 * k)) 1 0 >> "$folder/first" || failed=1
        kills o1
    done
    sort -n -k 10 "$folder/first" | awk -v replicas="$replicas" -v full=$(($(overflows) - full)) '
        { position[NR] = $10; shown[NR] = $12; if ($12 > worst) worst = $12 }
        END { printf "replicas %s observers started %d, at a position after_ms_median %d worst %d, the put shown after_ms_worst %d, full %d\n", \
            replicas, NR, position[int((NR + 1) / 2)], position[NR], worst, full }'
    stop
done
exit "$failed"
