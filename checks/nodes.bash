# shellcheck shell=bash
# Nodes as real processes, for scripts of checks/ and bench/: each sources it once it has its folder $folder. When the script ends, all its
# nodes are killed, and the folder is removed.
declare -A pids=()

# nodes_of PROGRAM WORDS..: each node is this program, with these words behind its own.
nodes_of() {
    node=$1
    site="${*:2}"
}

# kv_cluster, in scripts of checks/: $program is the tool `kv`, or the file that KV names. The nodes are those of $nopaxos, `nopaxos` or the
# file that NOPAXOS names, from $base on: three replicas, and one sequencer.
kv_cluster() {
    needs "${NOPAXOS:-}" nopaxos -- replay
    nopaxos=$program
    needs "${KV:-}" kv -- --version
    finds_ports
    nodes_of "$nopaxos" --replicas 3 --sequencers 1 --base "$base"
}

# start NAME WORDS..: a node. What it writes goes to the file of its name.
start() {
    local name=$1
    shift
    # shellcheck disable=SC2086
    "$node" "$@" $site > "$folder/$name" 2>&1 &
    pids[$name]=$!
}

# port NAME: that of a node, from $base on.
port() {
    local number=${1##*[a-z]}
    case $1 in
    r*) echo $((base + number)) ;;
    s*) echo $((base + 8 + number)) ;;
    ctl*) echo $((base + 12 + ${number:-0})) ;;
    o*) echo $((base + 32 + number)) ;;
    esac
}

# are_up NAME..: waits until each of these nodes has its port. Whether it is its own: a node without one ends.
are_up() {
    local name
    for name in "$@"; do
        awaits is_taken "$(port "$name")" 1
        kill -0 "${pids[$name]}" 2> /dev/null || differs "$name does not run: '$(head -c 300 "$folder/$name")'"
    done
}

# kills NAME..: these nodes are killed.
kills() {
    local name
    for name in "$@"; do
        { kill -9 "${pids[$name]}" && wait "${pids[$name]}"; } 2> /dev/null
        unset "pids[$name]"
    done
}

# stop: all nodes end, also those that stand still.
stop() {
    local pid
    for pid in "${pids[@]}"; do kill "$pid" 2> /dev/null && kill -CONT "$pid" 2> /dev/null; done
    for pid in "${pids[@]}"; do wait "$pid" 2> /dev/null; done
    pids=()
}

# A node that is killed before it runs its program still has these traps; it stops nothing.
trap 'case $BASHPID in $$) stop; rm -rf "$folder" ;; esac' EXIT
trap 'exit 130' INT TERM

# three_hosts CLIENTS: a list of three replicas, a sequencer, a controller, so many clients and an observer, on addresses 127.0.1.1 to 127.0.1.4.
three_hosts() {
    local i
    echo 'cluster 7'
    echo "r0 127.0.1.1:$base"
    echo "s0 127.0.1.1:$((base + 8))"
    echo "ctl 127.0.1.1:$((base + 12))"
    echo "r1 127.0.1.2:$((base + 1))"
    echo "r2 127.0.1.3:$((base + 2))"
    for ((i = 0; i < $1; i++)); do echo "c$i 127.0.1.4:$((base + 16 + i))"; done
    echo "o0 127.0.1.4:$((base + 32))"
}
