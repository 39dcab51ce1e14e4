#!/bin/sh
# Replays damaged schedules with the program: bytes flipped, cut, inserted, schedules joined, lines repeated, dropped, swapped and
# lengthened to 4,096 bytes and about, numbers and hexadecimal at each limit, words in wrong places. Each run has to end Done with a
# transcript up to its `end`, or Malformed with an error line, and to write nothing to standard error; and with the status and
# the bytes of another program for the same protocol, where that one is asked too. A case that is wrong is printed, in hexadecimal.
#
#   bench/damaged.sh        COUNT     how many cases (1,000,000)
#                           COMPARED  how many of them the other program replays too (50,000)
#                           NUMBER    what the cases are drawn from (1);  FIRST  the first case (0)
#                           PEER      the other program, with its first words, if any; it takes the words `replay`, and `schedule SEED
#                                     STEPS REPLICAS SEQUENCERS CLIENTS CONTROLLERS OBSERVERS`, which writes a valid schedule
#                           NOPAXOS   the program file (crates/nopaxos/out/nopaxos)
#
# The same numbers, with the same PEER, give the same cases. The schedules that are damaged are those of examples/, and 400 that PEER
# writes, half of them with observers; without PEER only the former, and nothing is compared. It takes one to two milliseconds a case,
# on one processor.
set -eu

cd "$(dirname "$0")/.."
program=$(realpath "${NOPAXOS:-crates/nopaxos/out/nopaxos}")
[ -x "$program" ] || { echo "no program file $program"; exit 2; }
count=${COUNT:-1000000}
compared=${COMPARED:-50000}
peer=${PEER:-}

folder=$(mktemp -d)
trap 'rm -rf "$folder"' EXIT
trap 'exit 130' INT TERM

cp examples/*.schedule "$folder"
every=0
if [ -n "$peer" ]; then
    seed=0
    for replicas in 1 3 5 7; do
        for steps in 3 8 20 40 80; do
            for others in '1 1 1 0' '1 3 2 1' '2 2 2 0' '4 16 4 4'; do
                for _ in 1 2 3 4 5; do
                    seed=$((seed + 1))
                    # shellcheck disable=SC2086
                    $peer schedule $seed $steps $replicas $others >"$folder/drawn-$seed.schedule"
                done
            done
        done
    done
    [ "$compared" -eq 0 ] || every=$((count > compared ? count / compared : 1))
else
    echo "without PEER nothing is compared"
fi

python3 bench/damaged/damage.py "$folder" "$program" "$peer" "$count" "$every" "${NUMBER:-1}" "${FIRST:-0}"
