#!/bin/sh
# Judges damaged transcripts with the program and with another program for the same format: one byte changed, lines swapped, dropped and
# repeated, results and ops of other lines put in their place, ids and numbers changed, the end cut off. Both have to write the same and
# to end with the same status. A case that differs is printed, in hexadecimal.
#
#   bench/judged.sh PEER     the other program, with its words before `check`, if any, as one argument
#                            COUNT     how many cases (2,000)
#                            NUMBER    what the cases are drawn from (1)
#                            NOPAXOS   the program file (crates/nopaxos/out/nopaxos)
#
# The transcripts that are damaged are those of examples/, and of drawn histories of several clients. It takes some milliseconds a case.
set -eu

cd "$(dirname "$0")/.."
[ $# -eq 1 ] || { echo "usage: bench/judged.sh PEER"; exit 2; }
program=$(realpath "${NOPAXOS:-crates/nopaxos/out/nopaxos}")
[ -x "$program" ] || { echo "no program file $program"; exit 2; }
python3 bench/judged/damage.py examples "$program" "$1" "${COUNT:-2000}" "${NUMBER:-1}"
