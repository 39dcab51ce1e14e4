#!/bin/sh
# Sends replicas messages that have a checkpoint, right ones and damaged ones, and compares what they do with another program for the same
# protocol: as what the bytes are read, each datagram that is sent afterwards, with the replies and the checkpoints in it, and how the
# replica stands. What is damaged: ids, results and clients of the checkpoint, its map, the counts, and bytes anywhere in the message.
# The message comes to a follower, to one that the leader of a new view tells its log, or to a leader that makes a log of it; then what
# it took is synchronised, and it sends its own checkpoint.
#
#   bench/checkpoints.sh PEER   the other program, with its first words, if any, as one argument; it answers the lines that
#                               bench/checkpoints/main.rt.txt describes
#                               COUNT    how many right ones (1,000);  DAMAGED  how many damaged ones (as many)
#                               NUMBER   what they are drawn from (1);  FIRST  the first one (0)
#                               PROGRAM  a program file that was built before of main.rt.txt
#
# Without PROGRAM it is proved and built in a folder of its own, over copies of the crates. It takes some milliseconds a message.
[ $# -eq 1 ] || { echo "usage: bench/checkpoints.sh PEER"; exit 2; }
. "$(dirname "$0")/parts.bash"

program=${PROGRAM:-}
if [ -z "$program" ]; then
    copies nop_types lemmas execution_laws slot_votes client_table kv_host log_merge oum_codec fragments oum_receiver replica_log \
        peer_codec executor view_change replica_state replica_rows replica_core
    mkdir -p "$folder/crates/checkpoints_bench/src"
    cp "$here/checkpoints/main.rt.txt" "$folder/crates/checkpoints_bench/src/main.rt"
    for crate in "$folder"/crates/*; do grep "^${crate##*/}:" "$here/../crates.txt" || true; done > "$folder/crates.txt"
    echo "checkpoints_bench: nop_types kv_host peer_codec replica_core anyhow hex" >> "$folder/crates.txt"
    if ! (cd "$folder/crates/checkpoints_bench" && rt run < /dev/null) > "$folder/log" 2>&1; then
        cat "$folder/log" >&2
        exit 1
    fi
    program=$folder/crates/checkpoints_bench/out/checkpoints_bench
fi
count=${COUNT:-1000}
python3 "$here/checkpoints/damage.py" "$program" "$1" "$count" "${DAMAGED:-$count}" "${NUMBER:-1}" "${FIRST:-0}"
