#!/bin/bash
# Three hosts on one machine: 127.0.0.1, 127.0.0.2 and 127.0.0.3 stand for them, and 127.0.0.4 for that of the clients. A list says who
# is where; each node is a process that reads it. A client puts, another one gets; then host 1 is lost, with the leader, the sequencer in use
# and a controller, and the next client still reads what was put. A node of it that is started again is refused. It takes some six seconds.
#
#   examples/hosts.sh    NOPAXOS_HOSTS  the program file (crates/nopaxos_hosts/out/nopaxos_hosts);  KV  that of kv
#                        BASE  the first of 32 ports that nobody has at these addresses (41000)
#
# Status 0: all went so; 1: not so; 130 or 143: interrupted or terminated, with all that was started. On machines of your own: put their
# addresses into the list, copy it to each, and start there the nodes that are on its lines (docs/RUNNING.md, examples/nopaxos@.service).
set -u
cd "$(dirname "$0")/.." || exit 2
program=${NOPAXOS_HOSTS:-crates/nopaxos_hosts/out/nopaxos_hosts}
kv=${KV:-crates/kv/out/kv}
base=${BASE:-41000}
for file in "$program" "$kv"; do
    [ -x "$file" ] || { echo "hosts.sh: there is no program file $file; 'rt run' in its crate makes it" >&2; exit 1; }
done
folder=$(mktemp -d) || exit 1
declare -A pids=()
trap 'kill "${pids[@]}" 2> /dev/null; wait; rm -rf "$folder"' EXIT
trap 'exit 130' INT
trap 'exit 143' TERM

# client NAME OP..: one op in words, and its answer in words.
client() {
    local name=$1 op status began=${EPOCHREALTIME/[.,]/}
    shift
    # shellcheck disable=SC2048,SC2086
    op=$("$kv" op $*) || exit 1
    timeout 20 "$program" "$folder/list" "$name" "$op" > "$folder/client" 2>&1 &
    pids[client]=$!
    wait "${pids[client]}"
    status=$?
    unset 'pids[client]'
    [ "$status" = 0 ] || { echo "$name: $*: no answer, status $status" >&2; exit 1; }
    answer=$("$kv" result "$(sed -n 's/^accept .* //p' "$folder/client")")
    echo "$name: $*: $answer, after $(((${EPOCHREALTIME/[.,]/} - began) / 1000)) ms"
}

cat > "$folder/list" << END
cluster 7
r0   127.0.0.1:$base    # host 1: the leader,
s0   127.0.0.1:$((base + 8))    # the sequencer in use,
ctl  127.0.0.1:$((base + 12))    # and a controller
r1   127.0.0.2:$((base + 1))    # host 2
s1   127.0.0.2:$((base + 9))
r2   127.0.0.3:$((base + 2))    # host 3
ctl1 127.0.0.3:$((base + 13))
c0   127.0.0.4:$((base + 16))    # places of clients
c1   127.0.0.4:$((base + 17))
c2   127.0.0.4:$((base + 18))
END
echo "the list of hosts:"
cat "$folder/list"
for name in r0 s0 ctl r1 s1 r2 ctl1; do
    "$program" "$folder/list" "$name" > "$folder/$name" 2>&1 &
    pids[$name]=$!
done
echo
client c0 put k v
client c1 get k
[ "$answer" = '=v' ] || exit 1
echo
echo 'host 1 is lost: its three nodes are killed'
for name in r0 s0 ctl; do
    kill -9 "${pids[$name]}"
    wait "${pids[$name]}" 2> /dev/null
    unset "pids[$name]"
done
client c2 get k
[ "$answer" = '=v' ] || exit 1
timeout 20 "$program" "$folder/list" r0
status=$?
echo "r0 is started again: status $status, since its number was used"
[ "$status" = 5 ] || exit 1
