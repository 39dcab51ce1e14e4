#!/bin/sh
# Counts the instructions of `nopaxos replay` on schedules of rising length, with valgrind's callgrind, and measures its time and
# its greatest memory without it.
#
#   bench/replay.sh [LINES..]
#
# LINES are the lengths of the schedules; without any, 10,000, 100,000 and 1,000,000 lines. The program is built first, unless
# NOPAXOS names one that is built. A schedule has few puts, and many deliveries of packets that were delivered before, so the
# logs stay short. The greatest memory is told from about 14 MiB on.
set -eu

[ $# -gt 0 ] || set -- 10000 100000 1000000

crate=$(cd "$(dirname "$0")/../crates/nopaxos" && pwd)
program=${NOPAXOS:-$crate/out/nopaxos}
if [ -z "${NOPAXOS:-}" ]; then
    # an empty schedule, which is malformed
    (cd "$crate" && rt run -- replay </dev/null >/dev/null) || [ $? -eq 1 ]
fi

folder=$(mktemp -d)
trap 'rm -rf "$folder"' EXIT

echo "lines instructions instructions/line seconds events/second peak-KiB"
for lines in "$@"; do
    python3 "$crate/../../bench/replay/steady.py" "$lines" >"$folder/schedule"
    valgrind --tool=callgrind --callgrind-out-file="$folder/out" "$program" replay \
        <"$folder/schedule" >/dev/null 2>"$folder/log"
    counted=$(sed -n 's/.*Collected : \([0-9]*\).*/\1/p' "$folder/log")
    python3 - "$program" "$folder/schedule" "$lines" "$counted" <<'PYTHON'
import resource
import subprocess
import sys
import time

program, schedule, lines, counted = sys.argv[1], sys.argv[2], int(sys.argv[3]), int(sys.argv[4])
with open(schedule, "rb") as source:
    began = time.monotonic()
    subprocess.run([program, "replay"], stdin=source, stdout=subprocess.DEVNULL, check=True)
    seconds = time.monotonic() - began
peak = resource.getrusage(resource.RUSAGE_CHILDREN).ru_maxrss
print(lines, counted, counted // lines, f"{seconds:.3f}", f"{(lines - 1) / seconds:.0f}", peak)
PYTHON
done
