#!/bin/bash
# Tries the test vectors of examples/vectors.txt by the programs, but for those of peer messages, fragments, saved states, lists and greetings,
# which no command takes (`codec_tests` and `part_tests` have them). It takes a second or two, leaves nothing behind, and ends with status 1 at any difference.
#
#   checks/vectors.sh        the programs are crates/*/out/, or the files that NOPAXOS and KV_LINEARIZE name
. "$(dirname "$0")/common.bash" || exit 2
needs "${KV_LINEARIZE:-}" kv_linearize
judge=$program
needs "${NOPAXOS:-}" nopaxos -- replay

python3 -B checks/vectors/tried.py "$program" "$judge" > "$folder/out" || differs "not all were tried"
read -r made _ wrong_ones _ < <(tail -n 1 "$folder/out" | tr -d ,)
sed '$d' "$folder/out"
[ "${made:-0}" -ge 300 ] || differs "only ${made:-0} were tried"
wrong=$((wrong + ${wrong_ones:-1}))
concludes
