#!/bin/bash
# Times how soon a client is answered again after the sequencer in use was killed in a cluster of real processes.
#
#   bench/controllers.sh [EVENT..]   what happens (alone with order);  NOPAXOS  the program file;  KILLS  clusters for each event (20)
#                                    REPLICAS  (3);  BASE  the port of replica 0 (49000)
#
# alone: of two controllers one is left, which has to find out by its probes; where three in a row are not answered it installs the next
# sequencer, so 0.9 to 1.2 s after the kill. with: both are left, and both install that one, each in a session of its own. order: none is
# left, and a new controller is ordered to install it; the time begins with its start. It takes some two minutes, and ends with status 1
# where a client is not answered within 20 s.
. "$(dirname "$0")/program.bash" || exit 2
kills=${KILLS:-20}
replicas=${REPLICAS:-3}
folder=$(mktemp -d) || exit 2
. checks/nodes.bash
nodes_of "$program" --replicas "$replicas" --sequencers 2 --base "${BASE:-49000}"

# In microseconds.
now() { echo "${EPOCHREALTIME/[.,]/}"; }

# client NUMBER: a get. Whether it is answered.
client() {
    # shellcheck disable=SC2086
    timeout 20 "$program" client --id "$1" $site 4700016b > "$folder/client" 2>&1
}

# One cluster. In the file times: the microseconds until a client is answered, nothing where it, or one before the kill, is not. How long
# after a probe the kill comes is left to chance.
kill_sequencer() {
    local began
    for ((i = 0; i < 2; i++)); do start "s$i" sequencer --id $i; done
    for ((i = 0; i < replicas; i++)); do start "r$i" node --id $i; done
    for ((i = 0; i < 2; i++)); do start "ctl$i" controller --id $i; done
    sleep "0.$((400 + RANDOM % 300))"
    client 0 || { stop; return; }
    began=$(now)
    case $1 in
    alone) kills s0 ctl0 ;;
    with) kills s0 ;;
    order)
        kills s0 ctl0 ctl1
        began=$(now)
        start ctl2 controller --id 2 --install 1
        ;;
    esac
    if client 1; then echo $(($(now) - began)) >> "$folder/times"; fi
    stop
}

failed=0
[ $# -gt 0 ] || set -- alone with order
for event in "$@"; do
    case $event in
    alone | with | order) ;;
    *) echo "usage: bench/controllers.sh [alone | with | order]"; exit 2 ;;
    esac
    : > "$folder/times"
    for ((kill = 0; kill < kills; kill++)); do kill_sequencer "$event"; done 2> /dev/null
    sort -n "$folder/times" | awk -v head="event $event replicas $replicas kills $kills" '
        { time[NR] = $1 / 1000000 }
        END { printf "%s answered %d seconds: median %.2f worst %.2f\n", head, NR, time[int((NR + 1) / 2)], time[NR] }'
    [ "$(wc -l < "$folder/times")" = "$kills" ] || failed=1
done
exit "$failed"
