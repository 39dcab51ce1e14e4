#!/bin/sh
# Compares what `braid` writes of drawn traces with a plain model, some with an order and some without, some with a damaged line. Then
# measures it on traces of 100,000 and of 900,000 steps that have an order: seconds by the clock and peak memory, each the median of three
# runs. With PEER, the same of traces of a cluster that takes puts, node by node, and then of `audit` of the order that was found. Ends with
# status 1 where an output differs, where no drawn input had an order or each had one, where a run is not audited, and where `braid` takes
# for the longer input more than 11 times as long as for the shorter.
#
#   bench/braid.sh       BRAID   the program file (crates/braid/out/braid)
#                        COUNT   how many drawn inputs (2,000), and NUMBER, what they are drawn from (1)
#                        PEER    another program, with its first words, if any; it takes the word `trace`, which writes the trace of a schedule
#                        NOPAXOS the program file that audits (crates/nopaxos/out/nopaxos)
#                        STEPS   how many there are (100000 900000)
set -eu

cd "$(dirname "$0")/.."
program=$(realpath "${BRAID:-crates/braid/out/braid}")
[ -x "$program" ] || { echo "no program file $program"; exit 2; }
folder=$(mktemp -d)
trap 'rm -rf "$folder"' EXIT

python3 -B bench/braid/drawn.py "$program" "${COUNT:-2000}" "${NUMBER:-1}" | tee "$folder/said"
grep -qE ' alike: [1-9][0-9]* with an order, [1-9]' "$folder/said" || exit 1

# seconds FILE PROGRAM WORDS..: the median of three runs on a file, and its peak memory. What was written is in the file out.
seconds() {
    input=$1
    shift
    for _ in 1 2 3; do
        /usr/bin/env time -f '%e %M' "$@" < "$input" 2>&1 > "$folder/out"
    done | sort -n | sed -n 2p
}

# near_linear NAME: the times of the longer input, beside those of the shorter.
near_linear() {
    awk 'NR == FNR { short = $1; next } { exit $1 > 11 * (short < 0.01 ? 0.01 : short) }' "$folder/$1.$shorter" "$folder/$1.$longer" ||
        { echo "$1: more than 11 times as long"; exit 1; }
}

steps=${STEPS:-100000 900000}
shorter=${steps%% *}
longer=${steps##* }
for count in $steps; do
    python3 -B bench/braid/drawn.py --make "$count" 1 > "$folder/traces"
    echo "$count steps, $(stat -c %s "$folder/traces") bytes: $(seconds "$folder/traces" "$program" | tee "$folder/drawn.$count") (seconds, KiB)"
done
near_linear drawn
[ -n "${PEER:-}" ] || exit 0

nopaxos=$(realpath "${NOPAXOS:-crates/nopaxos/out/nopaxos}")
[ -x "$nopaxos" ] || { echo "no program file $nopaxos"; exit 2; }
for count in $steps; do
    python3 bench/braid/puts.py "$count" > "$folder/schedule"
    rm -rf "$folder/nodes"
    mkdir "$folder/nodes"
    # shellcheck disable=SC2086
    $PEER trace < "$folder/schedule" | awk -v folder="$folder/nodes" 'NR > 1 { print > (folder "/" $2) }'
    { head -n 1 "$folder/schedule"; cat "$folder"/nodes/*; } > "$folder/traces"
    seconds "$folder/traces" "$program" > "$folder/puts.$count"
    mv "$folder/out" "$folder/order"
    echo "$count steps of puts, $(stat -c %s "$folder/traces") bytes: braid $(cat "$folder/puts.$count") (seconds, KiB)"
    echo "$count steps of puts: audit $(seconds "$folder/order" "$nopaxos" audit) (seconds, KiB)"
    [ "$(tail -n 1 "$folder/out")" = "audited $count" ] || { echo "the audit says $(tail -n 1 "$folder/out")"; exit 1; }
done
near_linear puts
