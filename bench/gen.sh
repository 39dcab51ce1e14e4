#!/bin/sh
# Compares `nopaxos gen` with another program that draws the same schedules, and times both.
#
#   PEER=PROGRAM bench/gen.sh [FIRST]
#
# The peer answers `PROGRAM gen NUMBER COUNT` with the same four lines, and `PROGRAM events NUMBER COUNT` with the header and the event
# lines of the schedule. The summaries of 200 numbers with 2,000 events each and of 5 with 100,000 are compared, from the number FIRST
# on, which is 1 if it is not given. Then one schedule of 20,000 events is replayed: it has to end well, with as many send lines, accept
# lines and members of the history as its summary says, and a second summary has to be the same. The program is built first, unless
# NOPAXOS names one that is built.
set -eu

peer=${PEER:?PEER names a program that draws schedules}
first=${1:-1}

crate=$(cd "$(dirname "$0")/../crates/nopaxos" && pwd)
program=${NOPAXOS:-$crate/out/nopaxos}
if [ -z "${NOPAXOS:-}" ]; then
    (cd "$crate" && rt run -- gen 1 1 >/dev/null)
fi

folder=$(mktemp -d)
trap 'rm -rf "$folder"' EXIT

# NUMBERS COUNT: both programs for so many numbers, one after the other
compare() {
    python3 - "$program" "$peer" "$first" "$1" "$2" <<'PYTHON'
import subprocess
import sys
import time

program, peer, first, numbers, count = sys.argv[1], sys.argv[2], *map(int, sys.argv[3:])
spent = {program: 0.0, peer: 0.0}


def summary(name, number):
    began = time.monotonic()
    text = subprocess.run([name, "gen", str(number), str(count)], capture_output=True, check=True).stdout
    spent[name] += time.monotonic() - began
    return text


different = [n for n in range(first, first + numbers) if summary(program, n) != summary(peer, n)]
print(f"{numbers} numbers of {count} events: {len(different)} differ", *different)
print(f"  seconds: {spent[program]:.3f}, the peer {spent[peer]:.3f}")
sys.exit(1 if different else 0)
PYTHON
}

# NUMBER COUNT: the schedule that the peer writes, replayed
replay() {
    "$peer" events "$1" "$2" >"$folder/schedule"
    "$program" replay <"$folder/schedule" >"$folder/transcript"
    "$program" gen "$1" "$2" >"$folder/summary"
    "$program" gen "$1" "$2" | cmp "$folder/summary" -
    counts=$(awk '$1 == "send" { sends++ } $1 == "accept" { accepts++ } $1 == "history" { members++ }
        END { printf "sends %d accepts %d history %d\n", sends, accepts, members }' "$folder/transcript")
    told=$(awk '$1 == "sends" { printf "%s ", $0 } $1 == "history" { print }' "$folder/summary")
    echo "$2 events of number $1, replayed: $counts"
    [ "$counts" = "$told" ] || { echo "the summary has: $told"; exit 1; }
}

compare 200 2000
compare 5 100000
replay 7 20000
