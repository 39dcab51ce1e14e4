#!/bin/sh
# Replays a schedule of 1,000,000 lines, the most that a schedule may have, and one of a line more, and compares status and
# transcript with those of another program for the same protocol, which are kept here as SHA-256 sums. Ends with status 1
# where they differ.
#
#   bench/million.sh
#
# The program is built first, unless NOPAXOS names one that is built. Ten puts of one client come first; from then on requests,
# packets and replies that were delivered before are delivered again, and each request is stamped again: 200,000 datagrams.
set -eu

crate=$(cd "$(dirname "$0")/../crates/nopaxos" && pwd)
program=${NOPAXOS:-$crate/out/nopaxos}
if [ -z "${NOPAXOS:-}" ]; then
    (cd "$crate" && rt run -- replay <stdin >/dev/null)
fi

folder=$(mktemp -d)
trap 'rm -rf "$folder"' EXIT

# lines, the status that is wanted, and the sum of the transcript
replays() {
    python3 "$crate/../../bench/replay/steady.py" "$1" requests >"$folder/schedule"
    status=0
    "$program" replay <"$folder/schedule" >"$folder/transcript" || status=$?
    sum=$(sha256sum <"$folder/transcript" | cut -d' ' -f1)
    if [ "$status" != "$2" ] || [ "$sum" != "$3" ]; then
        echo "$1 lines: status $status and transcript $sum, wanted $2 and $3"
        exit 1
    fi
    echo "$1 lines: as wanted"
}

replays 1000000 0 3672c9e10da2defecda440bd917aa62a8e658194e9935f8a48791ff4422a27d6
replays 1000001 1 4f9263089127ccbe877848301324dfa75443eb749dbc156fb1afc651cc9e428e
