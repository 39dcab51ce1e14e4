#!/bin/sh
# Replays racy schedules with the program and with another program for the same protocol: messages lost, late and out of order, leaders
# that know nothing of each other, new sessions, crashes, reads of observers that lag. Both have to write the same, byte for byte, and to
# end with the same status; and both have to call what was written legal, with the numbers of its lines. A schedule for which this is
# not so is told by the words that draw it.
#
#   bench/racy.sh PEER       the other program, with its first words, if any, as one argument; it takes the words `replay`, `check` and
#                            `schedule SEED STEPS REPLICAS SEQUENCERS CLIENTS CONTROLLERS OBSERVERS`, which writes a racy schedule
#                            COUNT    how many schedules (5,000);  NUMBER  what they are drawn from (1);  FIRST  the first one (0)
#                            THIRD    one more program of this kind, which each EVERY-th (16) is compared with too
#                            NOPAXOS  the program file (crates/nopaxos/out/nopaxos)
#
# Schedules have 100 to 800 steps, three or five replicas, and one to four of each other actor, but up to eight clients. It takes some
# milliseconds a schedule.
set -eu

cd "$(dirname "$0")/.."
[ $# -eq 1 ] || { echo "usage: bench/racy.sh PEER"; exit 2; }
program=$(realpath "${NOPAXOS:-crates/nopaxos/out/nopaxos}")
[ -x "$program" ] || { echo "no program file $program"; exit 2; }
every=0
[ -z "${THIRD:-}" ] || every=${EVERY:-16}
python3 bench/racy/compare.py "$program" "$1" "${THIRD:-}" "$every" "${COUNT:-5000}" "${NUMBER:-1}" "${FIRST:-0}"
