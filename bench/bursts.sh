#!/bin/bash
# Kills the leader of a cluster of real processes whose checkpoints are large, and times how soon a client is answered again. The other
# replicas then send their checkpoints, each in hundreds of datagrams, to the new leader, and it sends its own to them; and before that
# each synchronisation sends one, ten times a second while ops come.
#
#   bench/bursts.sh [REPLICAS..]  numbers of replicas (3 5);  NOPAXOS  the program file;  KILLS  clusters for each number (20)
#                                 KEYS  in the map (4096);  VALUE  bytes of a value (256);  PUTS  before a kill (8192)
#                                 CLIENTS  that put at once (16);  RATE  puts in a second at most (10000; 0: as soon as answered)
#                                 BASE  the port of replica 0 (47000)
#                                 LOST  of a thousand datagrams that nodes and the last client send (0)
#                                 MILLIS  that each of these is delayed (0)
#                                 CUT  seconds that the leader is cut off, in place of being killed; then the last replica is
#                                 killed, and times count from there (0)
#                                 BEFORE  another program file, whose clusters are killed in turn with these
#
# The puts are those of bench/long/client.rs (rustc). Receive buffers have the system's default size. Clients that never pause fill
# the buffers of replicas with requests alone, since they wait for no more than a majority. A leader that is silent
# is suspected at a follower's second Watch from then on, so after 1 to 2 seconds. It is killed 100 ms before a Watch: of each time
# here 1.1 s are that wait. `unfilled` counts the clusters that did not answer all puts before the kill, `puts` is the median of the puts
# a second of the others. The last two numbers are the datagrams that found a receive buffer full, before the kills and after them
# (RcvbufErrors of /proc/net/snmp, which counts for all programs of the network namespace). It takes two minutes, and ends with status 1
# where a client is not answered within 20 s. Loss and delay are made where datagrams are sent, as bench/delayed.sh does (gcc);
# the clients that put send theirs at once, and lose none.
. "$(dirname "$0")/program.bash" || exit 2
kills=${KILLS:-20}
base=${BASE:-47000}
folder=$(mktemp -d) || exit 2
rustc --edition 2021 -O -o "$folder/client" bench/long/client.rs || exit 2
programs=("$program")
if [ -n "${BEFORE:-}" ]; then
    before=$(realpath "$BEFORE") || exit 2
    [ -x "$before" ] || { echo "no program file $before"; exit 2; }
    programs=("$before" "$program")
fi
if [ "${LOST:-0}" != 0 ] || [ "${MILLIS:-0}" != 0 ] || [ "${CUT:-0}" != 0 ]; then
    gcc -O2 -shared -fPIC -o "$folder/delay.so" bench/delayed/delay.c -lpthread || exit 2
    for ((which = 0; which < ${#programs[@]}; which++)); do
        cat > "$folder/nopaxos$which" << END
#!/bin/sh
export LD_PRELOAD="$folder/delay.so" DELAY_LOST=${LOST:-0} DELAY_MICROS=$((${MILLIS:-0} * 1000)) DELAY_FIRST=$base DELAY_LAST=$((base + 63))
export CUT_FILE="$folder/cut" CUT_PORT=$base
case "\$*" in "node --id 0 "*) CUT_PORT=0 ;; esac
exec "${programs[which]}" "\$@"
END
        chmod +x "$folder/nopaxos$which"
        programs[which]=$folder/nopaxos$which
    done
fi
pids=()
stop() {
    for pid in "${pids[@]}"; do kill "$pid" 2> /dev/null; done
    for pid in "${pids[@]}"; do wait "$pid" 2> /dev/null; done
    pids=()
}
trap 'stop; rm -rf "$folder"' EXIT
trap 'exit 130' INT TERM

# In microseconds.
now() { echo "${EPOCHREALTIME/[.,]/}"; }

# sleep_to_watch STARTED: until 100 ms before the next Watch of processes that were started then.
sleep_to_watch() {
    local until=$(($1 + 900000)) left
    while ((until < $(now))); do until=$((until + 1000000)); done
    left=$((until - $(now)))
    sleep "$((left / 1000000)).$(printf '%06d' $((left > 0 ? left % 1000000 : 0)))"
}

# The datagrams that found a receive buffer full, since the machine was started.
overflows() { awk '/^Udp:/ { if (column) print $column; else for (i = 2; i <= NF; i++) if ($i == "RcvbufErrors") column = i }' /proc/net/snmp; }

# The leader is the first of the processes.
# shellcheck disable=SC2086
cluster() {
    for ((i = 0; i < replicas; i++)); do
        "$program" node --id $i $site > "$folder/r$i" 2>&1 &
        pids+=($!)
    done
    for ((i = 0; i < 2; i++)); do
        "$program" sequencer --id $i $site > "$folder/s$i" 2>&1 &
        pids+=($!)
    done
    "$program" controller --id 0 $site > "$folder/ctl" 2>&1 &
    pids+=($!)
}

# One kill. In the file times: the microseconds until a client is answered, nothing where it is not; in rates: the puts a second before
# the kill, nothing where one was not answered; in overflows: the datagrams that found no space before the kill, and after it.
# shellcheck disable=SC2086
kill_leader() {
    local started killed before between killing
    before=$(overflows)
    cluster
    started=$(now)
    sleep 0.3
    "$folder/client" "$base" "$replicas" 2 "${CLIENTS:-16}" "${PUTS:-8192}" "${KEYS:-4096}" "${VALUE:-256}" "${RATE:-10000}" > "$folder/fill" &&
        awk '/^all answered/ { for (i = 2; i < NF; i++) if ($i == "seconds") print $3 / ($(i + 1) > 0 ? $(i + 1) : 0.1) }' "$folder/fill" >> "$folder/rates$which"
    sleep_to_watch "$started"
    between=$(overflows)
    killing=0
    if [ "${CUT:-0}" != 0 ]; then
        touch "$folder/cut"
        sleep "$CUT"
        rm "$folder/cut"
        killing=$((replicas - 1))
    fi
    killed=$(now)
    kill -9 "${pids[killing]}"
    timeout 20 "$program" client --id 255 $site 4700016b > "$folder/last" 2>&1
    if grep -q '^accept c255 1 ' "$folder/last"; then echo $(($(now) - killed)) >> "$folder/times$which"; fi
    stop
    echo $((between - before)) $(($(overflows) - between)) >> "$folder/overflows$which"
}

# tell WHICH: what the kills of this program came to.
tell() {
    local before after head
    read -r before after < <(awk '{ before += $1; after += $2 } END { print before + 0, after + 0 }' "$folder/overflows$1")
    head="replicas $replicas kills $kills"
    [ ${#programs[@]} = 1 ] || head="$([ "$1" = 0 ] && echo before || echo now) $head"
    head="$head unfilled $((kills - $(wc -l < "$folder/rates$1"))) puts $(sort -n "$folder/rates$1" | awk '{ rate[NR] = $1 } END { printf "%.0f", rate[int((NR + 1) / 2)] }')"
    sort -n "$folder/times$1" | awk -v head="$head" -v tail="overflows $before $after" '
        { time[NR] = $1 / 1000000 }
        END { printf "%s answered %d seconds: median %.2f worst %.2f %s\n", head, NR, time[int((NR + 1) / 2)], time[NR], tail }'
}

failed=0
[ $# -gt 0 ] || set -- 3 5
for replicas in "$@"; do
    site="--replicas $replicas --sequencers 2 --base $base"
    for ((which = 0; which < ${#programs[@]}; which++)); do
        for kept in times rates overflows; do : > "$folder/$kept$which"; done
    done
    for ((kill = 0; kill < kills; kill++)); do
        for ((which = 0; which < ${#programs[@]}; which++)); do
            program=${programs[which]}
            kill_leader
        done
    done 2> /dev/null
    for ((which = 0; which < ${#programs[@]}; which++)); do tell "$which"; done
    [ "$(wc -l < "$folder/times$((${#programs[@]} - 1))")" = "$kills" ] || failed=1
done
exit "$failed"
