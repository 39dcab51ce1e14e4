#!/bin/bash
# A long run of a cluster of real processes: many more puts than a log has slots, all answered, in memory that stays bounded.
#
#   bench/long.sh [PUTS]          PUTS  in all (1000000);  NOPAXOS  the program file;  REPLICAS  (3);  CLIENTS  at once (16)
#                                 KEYS  in all (10);  VALUE  bytes of a value (16);  BASE  the port of replica 0 (48000)
#                                 EVENTS  what happens meanwhile, `stop kill` unless it is set; empty: nothing
#
# stop: at a quarter of the puts the last replica stands still for five seconds. kill: at a half the leader is killed. With three
# replicas the rest is then answered by replica 1 and the one that stood still, so it has caught up from a checkpoint.
#
# The clients are those of bench/long/client.rs, which is built first (rustc); each answer is compared with what was put before. After
# every 10,000 puts a line tells the rate, the longest wait, and the memory of each replica in KiB. The last lines tell how much the
# memory of any replica grew from the 10,000th put on, the rate of the last tenth of the puts over that of the first, and how many
# datagrams found a receive buffer full (RcvbufErrors, of all programs on the machine). The status is 1 where a put was not answered, or
# not rightly.
. "$(dirname "$0")/program.bash" || exit 2
puts=${1:-1000000}
replicas=${REPLICAS:-3}
base=${BASE:-48000}
events=${EVENTS-stop kill}
site="--replicas $replicas --sequencers 2 --base $base"
folder=$(mktemp -d) || exit 2
pids=()
trap '{ kill -9 "${pids[@]}"; wait; } 2> /dev/null; rm -rf "$folder"' EXIT
trap 'exit 130' INT TERM

rustc --edition 2021 -O -o "$folder/client" bench/long/client.rs || exit 2

start() {
    "$program" "$@" > /dev/null 2>&1 &
    pids+=($!)
}

overflows() { awk '/^Udp:/ { if (column) print $column; else for (i = 2; i <= NF; i++) if ($i == "RcvbufErrors") column = i }' /proc/net/snmp; }

# memory: of each replica, in KiB; 0 of one that was killed.
memory() {
    local i kib
    for ((i = 0; i < replicas; i++)); do
        kib=$(awk '/^VmRSS:/ { print $2 }' "/proc/${pids[i]}/status" 2> /dev/null)
        printf ' %s' "${kib:-0}"
    done
}

happens() { [[ " $events " == *" $1 "* ]]; }

# shellcheck disable=SC2086
for ((i = 0; i < replicas; i++)); do start node --id $i $site; done
# shellcheck disable=SC2086
for ((i = 0; i < 2; i++)); do start sequencer --id $i $site; done
# shellcheck disable=SC2086
start controller --id 0 $site
sleep 0.5
full=$(overflows)
stopped=0
killed=0
while read -r line; do
    echo "$line memory_kib$(memory)"
    answered=$(awk '{ print $2 }' <<< "$line")
    [[ $line == puts* ]] || continue
    if happens stop && [ "$stopped" = 0 ] && ((answered >= puts / 4)); then
        stopped=1
        (kill -STOP "${pids[replicas - 1]}"; sleep 5; kill -CONT "${pids[replicas - 1]}") &
        echo "replica $((replicas - 1)) stands still"
    fi
    if happens kill && [ "$killed" = 0 ] && ((answered >= puts / 2)); then
        killed=1
        kill -9 "${pids[0]}"
        echo 'the leader is killed'
    fi
done < <("$folder/client" "$base" "$replicas" 2 "${CLIENTS:-16}" "$puts" "${KEYS:-10}" "${VALUE:-16}" "${RATE:-0}") | tee "$folder/lines"
echo "datagrams that found a receive buffer full: $(($(overflows) - full))"
awk -v puts="$puts" '
/^puts/ {
    for (i = 10; i <= NF; i++) if ($i > 0) {
        if (!(i in first)) first[i] = $i
        if ($i > first[i] + grown) grown = $i - first[i]
        if ($i > most) most = $i
    }
    if ($2 <= puts / 10) { begins = $4; first_count = $2 }
    if ($2 <= puts * 9 / 10) { until = $4; at = $2; }
    last = $4; count = $2
}
/^all/ { ok = $3 == puts && $5 == 0 }
END {
    if (begins > 0 && last > until)
        printf "last tenth over first, in puts a second: %.2f\n", (count - at) / (last - until) / (first_count / begins)
    printf "memory of a replica: at most %d KiB, grown by at most %d KiB\n", most, grown
    exit !ok
}' "$folder/lines"
