#!/bin/bash
# Plays scripts of gateways: `kv_gate` has users at TCP connections, and its cluster is nothing but sockets, so that each datagram and each
# reply is a line of a script. Then rows of requests, whole, cut and broken, each with the op that is submitted and the reply. It takes some
# fifteen seconds, leaves nothing behind, and ends with status 1 at any difference.
#
#   checks/gateway.sh            the program is crates/kv_gate/out/kv_gate, or the file that GATE names
. "$(dirname "$0")/common.bash" || exit 2
needs "${GATE:-}" kv_gate
finds_ports

timeout 300 python3 -B checks/gateway/played.py "$program" "$((base + 100))" "$base" checks/gateway/scripts checks/gateway/requests \
    > "$folder/out" || differs "not all were tried"
read -r made _ wrong_ones _ < <(tail -n 1 "$folder/out" | tr -d ,)
sed '$d' "$folder/out"
[ "${made:-0}" -ge 200 ] || differs "only ${made:-0} were tried"
wrong=$((wrong + ${wrong_ones:-1}))
concludes
