#!/bin/sh
# Audits traces with the program and with two other programs for the same format: drawn ones, which have to pass, and damaged ones: a byte,
# a field of a line, two lines in each other's place, a line twice, a line missing. All have to write the same, byte for byte, and to end
# with the same status. What passes though it was damaged has to be another right run: its schedule is replayed to a legal transcript with
# the ops and answers of the trace, and has this trace, as the other program writes it. And `braid` has to find an order for the steps of each
# drawn trace, given node by node.
#
#   bench/audits.sh PEER     the other program, with its first words, if any, as one argument; it takes the words `audit`, `trace`, which
#                            writes the trace of a schedule, and `schedule SEED STEPS REPLICAS SEQUENCERS CLIENTS CONTROLLERS OBSERVERS`
#                            THIRD    one more program of this kind, which need only take `audit`
#                            COUNT    how many traces (2,000);  DAMAGED  how many damaged ones of each (5: one of each kind)
#                            NUMBER   what they are drawn from (1);  FIRST  the first one (0);  LANES  cases at once (as many as processors)
#                            ORDERS   a folder of orders of real runs, FOLDER/*/order, in place of drawn traces
#                            NOPAXOS, BRAID  the program files (crates/NAME/out/NAME)
#
# A trace that differs is kept, and its name is told. It takes some tens of milliseconds a trace.
set -eu

cd "$(dirname "$0")/.."
[ $# -eq 1 ] || { echo "usage: bench/audits.sh PEER"; exit 2; }
program=$(realpath "${NOPAXOS:-crates/nopaxos/out/nopaxos}")
braid=$(realpath "${BRAID:-crates/braid/out/braid}")
for it in "$program" "$braid"; do
    [ -x "$it" ] || { echo "no program file $it"; exit 2; }
done
words="${COUNT:-2000} ${DAMAGED:-5} ${NUMBER:-1} ${FIRST:-0} ${LANES:-$(nproc)}"
if [ -n "${ORDERS:-}" ]; then
    # shellcheck disable=SC2086
    python3 bench/audits/compare.py "$program" "$1" "${THIRD:-}" "$braid" $words "$ORDERS"/*/order
else
    # shellcheck disable=SC2086
    python3 bench/audits/compare.py "$program" "$1" "${THIRD:-}" "$braid" $words
fi
