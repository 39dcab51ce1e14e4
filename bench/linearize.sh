#!/bin/sh
# Measures `kv_linearize` on histories that are drawn: seconds by the clock, processor seconds and peak memory, each the median of three
# runs; what is found, `nopaxos check` judges. Beside it the same search in plain Rust, which has to answer the same, where rustc is there.
# Then the answers to small random histories are compared with those of brute force over all orders. Ends with status 1 where one differs.
#
#   bench/linearize.sh       KV_LINEARIZE  the program file (crates/kv_linearize/out/kv_linearize)
#                            NOPAXOS       the judge (crates/nopaxos/out/nopaxos)
#                            SMALL         how many small histories (20,000), and NUMBER, what they are drawn from (2)
#
# A history is named by its ops, how many are open at one time, and its keys; `stale` has a read of a value that was gone, and of `lost`
# one op of 100 is not accepted (bench/linearize/gen.py).
set -eu

cd "$(dirname "$0")/.."
program=$(realpath "${KV_LINEARIZE:-crates/kv_linearize/out/kv_linearize}")
judge=$(realpath "${NOPAXOS:-crates/nopaxos/out/nopaxos}")
for file in "$program" "$judge"; do
    [ -x "$file" ] || { echo "no program file $file"; exit 2; }
done
folder=$(mktemp -d)
trap 'rm -rf "$folder"' EXIT

status=0
if command -v rustc > /dev/null; then
    rustc -O --edition 2024 -o "$folder/rust" bench/linearize/plain.rs
    python3 bench/linearize/measure.py "$folder" "$judge" "proved=$program" "plain=$folder/rust" || status=1
else
    python3 bench/linearize/measure.py "$folder" "$judge" "proved=$program" || status=1
fi
python3 -B checks/linearize/small.py kv "$program" "$judge" "${SMALL:-20000}" "${NUMBER:-2}" || status=1
exit $status
