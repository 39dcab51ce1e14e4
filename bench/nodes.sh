#!/bin/bash
# Times a cluster of real processes on the loopback address, with the program's own clients.
#
#   bench/nodes.sh [REPLICAS]     NOPAXOS  the program file;  LANES  clients at once (16);  BASE  the port of replica 0 (46000)
#
# 62 clients, each with 63 puts at a key of its own and then a get of it: 3,906 puts in one cluster. Each
# client has to be answered, and to read a value of its last eight puts: those after the first of them are open at one time with its
# get, so any of these may be the last one before it. The rate counts all ops and includes the starts of the client
# processes; then one client of 64 ops less one of 1 op, in a fresh cluster, gives the time of an op without a start, of up to eight
# that are open at a time.
# EVENT names what happens in the middle: kill (the leader), install (the controller is killed, and another one
# installs sequencer 1) or stop (a follower stands still for two seconds).
. "$(dirname "$0")/program.bash" || exit 2
replicas=${1:-3}
lanes=${LANES:-16}
event=${EVENT:-none}
folder=$(mktemp -d) || exit 2
. checks/nodes.bash
nodes_of "$program" --replicas "$replicas" --sequencers 2 --base "${BASE:-46000}"

cluster() {
    for ((i = 0; i < 2; i++)); do start "s$i" sequencer --id $i; done
    for ((i = 0; i < replicas; i++)); do start "r$i" node --id $i; done
    start ctl controller --id 0
    sleep 0.5
}

now() { echo "${EPOCHREALTIME/[.,]/}"; }

# ops NUMBER: 63 puts at the client's own key, and a get.
ops() {
    local key
    key=$(printf '0002%04x' "$1")
    for ((j = 1; j <= 63; j++)); do printf '50%s0002%04x ' "$key" "$j"; done
    printf '47%s' "$key"
}

# lane NUMBER: its clients, one after the other.
lane() {
    for ((c = $1; c < 62; c += lanes)); do
        # shellcheck disable=SC2046,SC2086
        timeout 20 "$program" client --id "$c" $site $(ops "$c") > "$folder/c$c" 2>&1
        echo "$?" > "$folder/status$c"
    done
}

happen() {
    case $event in
        kill) kills r0 ;;
        install)
            kills ctl
            start ctl1 controller --id 1 --install 1
            sleep 0.2
            ;;
        stop)
            kill -STOP "${pids[r1]}"
            sleep 2
            kill -CONT "${pids[r1]}"
            ;;
    esac
}

cluster
began=$(now)
running=()
for ((k = 0; k < lanes; k++)); do
    lane "$k" &
    running+=($!)
done
if [ "$event" != none ]; then
    sleep "${AFTER:-0.3}"
    happen
fi
for pid in "${running[@]}"; do wait "$pid"; done
ended=$(now)
stop

answered=0
own=0
for ((c = 0; c < 62; c++)); do
    if [ "$(cat "$folder/status$c")" = 0 ]; then answered=$((answered + 1)); fi
    # of its puts from 56 to 63
    if grep -q "^accept c$c 64 3d003[89a-f]$" "$folder/c$c"; then own=$((own + 1)); fi
done
accepted=$(cat "$folder"/c[0-9]* | grep -c '^accept')
echo "replicas $replicas event $event clients 62 answered $answered own_late_value $own accepted $accepted" \
    "ops_per_second $((accepted * 1000000 / (ended - began)))"

if [ "$event" = none ]; then
    cluster
    # shellcheck disable=SC2046,SC2086
    for ((c = 0; c < 9; c++)); do
        a=$(now)
        "$program" client --id "$c" $site 4700016b > /dev/null
        b=$(now)
        "$program" client --id "$((c + 16))" $site $(ops "$c") > /dev/null
        d=$(now)
        echo "$(((d - b - (b - a)) / 63))"
    done | sort -n | sed -n '5s/^/one client, microseconds an op, median of 9: /p'
    stop
fi
[ "$answered" = 62 ] && [ "$own" = 62 ]
