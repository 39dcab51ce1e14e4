#!/bin/bash
# One client of a cluster of real processes, over a link with delay: puts a second, and how long a put waits. Beside it the same client
# with one open request, of a program from before clients had several.
#
#   bench/delayed.sh [MILLIS..]   what the link delays each way, a run for each (0 1 5 20)
#                                 NOPAXOS  the program file;  BEFORE  one of the tree before (e0fd0d4e), whose clients have one open
#                                 request and whose nodes serve them; without it there is nothing beside
#                                 CLIENTS  in a run (20; at most 256), one after the other;  PUTS  of each (64, as many as one takes)
#                                 REPLICAS  (3);  BASE  the port of replica 0 (44000)
#
# The link is that between the client and all nodes: what it sends and what is sent to it comes so much later, so a request and its
# replies take twice that. Nodes are not delayed among each other. The kernel here has no netem; a library that is loaded before libc
# (bench/delayed/delay.c, gcc) holds datagrams back where they are sent; with 0 it passes them on at once. Each put is timed
# from outside, from its `submit` line to its `accept` line, as they come through a pipe (bench/delayed/times.rs, rustc): that is
# what whoever runs the client sees, and tells the median, which a rate does not. The rate is of the time from a client's first
# `submit` line to its last `accept` line. Neither counts the start of a process. A client submits one op in a turn, and a turn to which
# nothing comes takes as long as the system's timers say, here up to 9 ms: over a link with delay its first eight puts are opened so. The
# second rate leaves them out: it is of what is accepted after the first eight. The status is 1 where a put was not answered rightly.
. "$(dirname "$0")/program.bash" || exit 2
before=
if [ -n "${BEFORE:-}" ]; then
    before=$(realpath "$BEFORE") || exit 2
    [ -x "$before" ] || { echo "no program file $before"; exit 2; }
fi
replicas=${REPLICAS:-3}
base=${BASE:-44000}
[ $# != 0 ] || set -- 0 1 5 20
folder=$(mktemp -d) || exit 2
. checks/nodes.bash
rustc --edition 2021 -O -o "$folder/times" bench/delayed/times.rs || exit 2
gcc -O2 -shared -fPIC -o "$folder/delay.so" bench/delayed/delay.c -lpthread || exit 2

# delayed NAME PROGRAM FIRST LAST: a program file of this name, as the other one, but what it sends to these ports is delayed.
delayed() {
    cat > "$folder/$1" << END
#!/bin/sh
exec env LD_PRELOAD="$folder/delay.so" DELAY_MICROS=$micros DELAY_FIRST=$3 DELAY_LAST=$4 "$2" "\$@"
END
    chmod +x "$folder/$1"
}

# measures OPEN PROGRAM: a cluster of its own, and its clients.
measures() {
    delayed node "$2" $((base + 16)) $((base + 31))
    delayed client "$2" "$base" $((base + 35))
    nodes_of "$folder/node" --replicas "$replicas" --sequencers 1 --base "$base"
    start s0 sequencer --id 0
    for ((i = 0; i < replicas; i++)); do start "r$i" node --id $i; done
    start ctl controller --id 0
    sleep 0.5
    # shellcheck disable=SC2086
    "$folder/times" "$folder/client" "${CLIENTS:-20}" "${PUTS:-64}" $site > "$folder/told" || failed=1
    stop
    echo "open $1 delay_ms $millis $(cat "$folder/told")"
}

failed=0
for millis in "$@"; do
    micros=$(awk -v millis="$millis" 'BEGIN { printf "%.0f", millis * 1000 }')
    [ -z "$before" ] || measures 1 "$before"
    measures 8 "$program"
done
exit $failed
