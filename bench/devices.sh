#!/bin/bash
# Runs the program with devices that fail, and floods a cluster of real processes with datagrams. It prints what was found, and ends
# with status 1 where something is not as it has to be.
#
#   bench/devices.sh        NOPAXOS  the program file (crates/nopaxos/out/nopaxos);  BASE  the port of replica 0 (45000)
#                           COUNT    how many datagrams flood the cluster (1,000,000);  NUMBER  what they are drawn from (1)
#                           RATE     how many are sent a second (50,000)
#
# First single processes: a full disk, one that fills in the middle, a closed pipe, files that are closed, of the wrong kind or opened
# the wrong way, and a port in use. The exit status and the output of each are compared with what they have to be. Then the
# flood, in three rounds that bench/devices/flood.py describes. It takes about two minutes.
. "$(dirname "$0")/program.bash" || exit 2
base=${BASE:-45000}
folder=$(mktemp -d) || exit 2
. checks/nodes.bash
failed=0
schedule=examples/one-put.schedule
site="--replicas 3 --sequencers 1 --base $base"

# row NAME STATUS WANTED_STATUS WANTED_OUTPUT: what a process wrote lies in out, and on standard error in err.
row() {
    local found='as wanted'
    if [ "$2" != "$3" ] || ! cmp -s "$folder/out" "$4" || [ -s "$folder/err" ]; then
        found="wanted $3; output '$(head -c 200 "$folder/out")', on standard error '$(head -c 200 "$folder/err")'"
        failed=1
    fi
    printf '%-50s %6s  %s\n' "$1" "$2" "$found"
    : > "$folder/out"
    : > "$folder/err"
}

# ---- input and output
printf '%-50s %6s\n' device status
: > "$folder/out"
: > "$folder/err"
{ head -n 2 "$schedule"; yes 'deliver 0 s0' | head -n 20000; } > "$folder/long"
"$program" replay < "$folder/long" > "$folder/whole" || failed=1
"$program" replay < "$folder" > "$folder/out" 2> "$folder/err"
row 'replay: the input is a folder' $? 3 /dev/null
"$program" replay <&- > "$folder/out" 2> "$folder/err"
row 'replay: the input is closed' $? 3 /dev/null
"$program" replay 0> "$folder/written" > "$folder/out" 2> "$folder/err"
row 'replay: the input is open for writing' $? 3 /dev/null
"$program" replay < "$schedule" > /dev/full 2> "$folder/err"
row 'replay: a full disk' $? 4 /dev/null
(ulimit -f 100; trap '' XFSZ; exec "$program" replay < "$folder/long" > "$folder/front" 2> "$folder/err")
status=$?
size=$(stat -c %s "$folder/front")
head -c "$size" "$folder/whole" | cmp "$folder/front" - > "$folder/out" 2>&1
row "replay: a disk that is full after $size bytes" $status 4 /dev/null
"$program" replay < "$schedule" >&- 2> "$folder/err"
row 'replay: the output is closed' $? 4 /dev/null
"$program" replay < "$schedule" 1< "$folder/long" 2> "$folder/err"
row 'replay: the output is open for reading' $? 4 /dev/null
{ (sleep 0.2; "$program" replay < "$schedule" 2> "$folder/err"; echo $? > "$folder/status"); } | :
row 'replay: a closed pipe' "$(cat "$folder/status")" 4 /dev/null
{ "$program" replay < "$folder/long" 2> "$folder/err"; echo $? > "$folder/status"; } | head -c 1000 > "$folder/front"
head -c 1000 "$folder/whole" | cmp "$folder/front" - > "$folder/out" 2>&1
row 'replay: a pipe that is closed after 1000 bytes' "$(cat "$folder/status")" 4 /dev/null
"$program" stop > /dev/full 2> "$folder/err"
row 'words that are not taken: a full disk' $? 4 /dev/null

# ---- nodes
put=5000016b000176
# shellcheck disable=SC2086
{
    "$program" node --id 0 $site --turns 2 > /dev/full 2> "$folder/err"
    row 'node: a full disk' $? 4 /dev/null
    "$program" sequencer --id 0 $site --turns 2 > /dev/full 2> "$folder/err"
    row 'sequencer: a full disk' $? 4 /dev/null
    "$program" controller --id 0 $site --turns 2 > /dev/full 2> "$folder/err"
    row 'controller: a full disk' $? 4 /dev/null
    "$program" client --id 0 $site --turns 2 $put > /dev/full 2> "$folder/err"
    row 'client: a full disk' $? 4 /dev/null
    "$program" client --id 0 $site --turns 2 $put >&- 2> "$folder/err"
    row 'client: the output is closed' $? 4 /dev/null
    echo 'served 2 lost 0' > "$folder/served"
    "$program" node --id 0 $site --turns 2 <&- > "$folder/out" 2> "$folder/err"
    row 'node: the input is closed, and not used' $? 0 "$folder/served"

    python3 - "$base" "$folder/held" << 'PYTHON' &
import signal
import socket
import sys

links = []
for port in (0, 8, 12, 16):
    links.append(socket.socket(socket.AF_INET, socket.SOCK_DGRAM))
    links[-1].bind(("127.0.0.1", int(sys.argv[1]) + port))
open(sys.argv[2], "w").write("held")
signal.pause()
PYTHON
    pids[holder]=$!
    for ((i = 0; i < 50; i++)); do
        [ -s "$folder/held" ] && break
        sleep 0.1
    done
    "$program" node --id 0 $site --turns 2 > "$folder/out" 2> "$folder/err"
    row 'node: a port in use' $? 5 /dev/null
    "$program" sequencer --id 0 $site --turns 2 > "$folder/out" 2> "$folder/err"
    row 'sequencer: a port in use' $? 5 /dev/null
    "$program" controller --id 0 $site --turns 2 > "$folder/out" 2> "$folder/err"
    row 'controller: a port in use' $? 5 /dev/null
    "$program" client --id 0 $site --turns 2 $put > "$folder/out" 2> "$folder/err"
    row 'client: a port in use' $? 5 /dev/null
    kills holder
}

# ---- the flood
python3 bench/devices/flood.py "$program" "$base" "${COUNT:-1000000}" "${NUMBER:-1}" "${RATE:-50000}" || failed=1
exit "$failed"
