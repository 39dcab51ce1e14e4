#!/bin/bash
# Reads of two observers of clusters of real processes, while datagrams are lost and nodes stand still and are killed; each answer is
# judged from outside: there has to be one order of the puts, and each answer has to be what a first part of it makes, never an older
# one than that observer gave before (bench/observed/judge.py says it whole).
#
#   bench/observed.sh [RUNS]      how many clusters, with 3 and 5 replicas in turn (200);  NOPAXOS  the program file
#                                 NUMBER  what they are drawn from (1);  FIRST  the first run (0);  BASE  the port of replica 0 (30000)
#                                 KEEP  a folder to which the records of runs with a fault are copied
#
# A cluster has two sequencers, two controllers, four clients that put and four that read (bench/observed/clients.rs, rustc), for some
# eight seconds. In each a part of the datagrams is lost, up to five in a hundred; and at drawn times a replica, sequencer or observer
# stands still for up to 1.5 s, or is killed: sequencer 0, and no more replicas than may fail. Controllers then install sequencer 1. At
# the end nothing is lost for three seconds. Filters at the sockets lose datagrams (bench/observed/loss.py: Linux, and the right to
# trace the processes). It prints a line for each run and one for all. The status is 1 where an answer is wrong, a run had no put
# accepted or no read answered, or a put was not accepted in the end.
. "$(dirname "$0")/program.bash" || exit 2
runs=${1:-200}
first=${FIRST:-0}
base=${BASE:-30000}
folder=$(mktemp -d) || exit 2
. checks/nodes.bash
rustc --edition 2021 -O -o "$folder/clients" bench/observed/clients.rs || exit 2
keys=3

# still NAME TENTHS: a node stands still for so long.
still() {
    kill -STOP "${pids[$1]}"
    sleep "$(($2 / 10)).$(($2 % 10))"
    kill -CONT "${pids[$1]}"
}

# happens: one of what may happen; its words go to the list of them.
happens() {
    local name tenths
    case $((RANDOM % 8)) in
    0)
        name=r$((RANDOM % replicas))
        if [ "$may_fail" = 0 ] || [ -z "${pids[$name]:-}" ]; then return; fi
        may_fail=$((may_fail - 1))
        kills "$name"
        happened="$happened kill-$name"
        return
        ;;
    1)
        [ -n "${pids[s0]:-}" ] || return
        kills s0
        happened="$happened kill-s0"
        return
        ;;
    2) name=s0 ;;
    3) name=r0 ;;
    4 | 5) name=o$((RANDOM % 2)) ;;
    *) name=r$((RANDOM % replicas)) ;;
    esac
    [ -n "${pids[$name]:-}" ] || return
    tenths=$((RANDOM % 14 + 2))
    happened="$happened still-$name-$tenths"
    still "$name" "$tenths"
}

# loses THOUSANDTHS: of what comes to each node and each client from now on.
loses() { python3 bench/observed/loss.py "$1" "${pids[@]}"; }

wrong=0
for ((run = first; run < first + runs; run++)); do
    RANDOM=$((${NUMBER:-1} * 7919 + run))
    replicas=$((run % 2 == 0 ? 3 : 5))
    may_fail=$((replicas / 2))
    losses=(0 2 10 20 50)
    loss=${losses[RANDOM % 5]}
    happened=
    nodes_of "$program" --replicas $replicas --sequencers 2 --base $((base + run % 16 * 64))
    rm -f "$folder/until"
    for ((i = 0; i < 2; i++)); do start "s$i" sequencer --id $i; done
    for ((i = 0; i < replicas; i++)); do start "r$i" node --id $i --observers 2; done
    for ((i = 0; i < 2; i++)); do start "o$i" observer --id $i; done
    for ((i = 0; i < 2; i++)); do start "ctl$i" controller --id $i; done
    sleep 0.5
    "$folder/clients" $((base + run % 16 * 64)) $replicas 2 2 4 4 $keys 8000 "$folder/until" > "$folder/record" &
    pids[clients]=$!
    sleep 0.2
    loses "$loss"
    until=$((SECONDS + 5))
    while ((SECONDS < until)); do
        sleep "0.$((RANDOM % 7 + 2))"
        happens
    done
    loses 0
    sleep 3
    touch "$folder/until"
    wait "${pids[clients]}"
    unset 'pids[clients]'
    stop
    told=$(python3 bench/observed/judge.py $keys < "$folder/record")
    status=$?
    case $told in
    *' accepted 0 '* | *' reads 0 '*) status=1 ;;
    esac
    if grep -q '^put .* - ' "$folder/record"; then status=1; fi
    echo "run $run replicas $replicas loss $loss$happened: $told" | tee -a "$folder/told"
    if [ $status != 0 ]; then
        wrong=$((wrong + 1))
        [ -z "${KEEP:-}" ] || cp "$folder/record" "$KEEP/record-$run"
    fi
done
# the number behind each of these words, of all runs
awk -v runs="$runs" -v wrong="$wrong" '
    / faults [0-9]+$/ { for (i = 1; i < NF; i++) if ($i ~ /^(accepted|exact|retried|reads|positions|faults)$/) sum[$i] += $(i + 1) }
    / kill-s0/ { sequencers++ }
    / kill-r/ { killed++ }
    / still-/ { still++ }
    END {
        printf "runs %d wrong %d, with a replica killed %d, the sequencer %d, a node that stood still %d;", \
            runs, wrong, killed, sequencers, still
        printf " puts accepted %d, exact %d, retried %d; reads %d, positions %d, faults %d\n", \
            sum["accepted"], sum["exact"], sum["retried"], sum["reads"], sum["positions"], sum["faults"]
    }' "$folder/told"
[ "$wrong" = 0 ]
