#!/bin/bash
# A gateway as a real process: how fast it is beside redis with one replica, what it costs, and what its users see while processes are killed.
#
#   bench/gate.sh [PART..]       parts, all of them by default:
#     speed      puts and gets a second, with 1, 50 and 500 connections, of 1 and 16 requests at a time (bench/gate/load.rs, rustc), beside a
#                redis-server with one replica, each put confirmed by it (WAIT 1)
#     benchmark  the same by redis-benchmark, where its puts are not confirmed by a replica
#     reads      reads of two observers a second (GETAT, by a gateway with 16 numbers, and by one with 2 that is an observer itself), beside gets
#                of the same redis-server
#     memory     OPS (1000000) puts by 50 connections; memory before and after
#     idle       processor time of a gateway that nobody uses
#     loss       puts a second of 8 connections, without and with 1 % of all datagrams lost (bench/gate/loss.c, gcc)
#     histories  RUNS (20) times 16 users of two gateways, while the leader, the sequencer in use and a gateway are killed; each history is judged
#                by kv_linearize
#     library    docs/GATEWAY.md's lines for redis-cli and Python, where they are installed
#
# The programs are those of crates/*/out/, or the files that NOPAXOS, GATE and LINEARIZE name. SECONDS_EACH (3) is how long a rate is taken, NUMBERS
# (2) how many numbers the gateway has. redis-server, redis-benchmark and redis-cli are Debian's packages redis-server and redis-tools. The status is
# 1 where something was not answered rightly.
. "$(dirname "$0")/program.bash" || exit 2
gate=$(realpath "${GATE:-crates/kv_gate/out/kv_gate}") || exit 2
judge=$(realpath "${LINEARIZE:-crates/kv_linearize/out/kv_linearize}") || exit 2
seconds=${SECONDS_EACH:-3}
numbers=${NUMBERS:-2}
folder=$(mktemp -d) || exit 2
made=0
wrong=0
check=gate
. checks/nodes.bash
eval "$(sed -n '/^# awaits/,/^}/p; /^# is_taken/,/^}/p; /^# finds_ports/,/^}/p; /^# differs/,/^}/p' checks/common.bash)"
[ $# != 0 ] || set -- speed benchmark reads memory idle loss histories library
rustc --edition 2021 -O -o "$folder/load" bench/gate/load.rs || exit 2
gcc -O2 -shared -fPIC -o "$folder/loss.so" bench/gate/loss.c -ldl || exit 2
finds_ports
first=0

# listens PORT: somebody listens at this TCP port.
listens() {
    grep -q " 0100007F:$(printf %04X "$1") 00000000:0000 0A " /proc/net/tcp
}

# cluster [OBSERVERS]: nodes of a cluster.
cluster() {
    local i
    nodes_of "$program" --replicas 3 --sequencers 2 --base "$base"
    for i in 0 1; do start "s$i" sequencer --id $i; done
    for i in 0 1 2; do start "r$i" node --id $i --observers "${1:-0}"; done
    for ((i = 0; i < ${1:-0}; i++)); do start "o$i" observer --id $i; done
    for i in 0 1; do start "ctl$i" controller --id $i; done
    are_up s0 s1 r0 r1 r2 ctl0 ctl1
    first=0
}

# gateway NAME PORT COUNT [OBSERVERS [AT]]: a gateway with the next numbers.
gateway() {
    "$gate" "127.0.0.1:$2" "$base" 3 2 ${4:+--observers "$4"} ${5:+--at "$5"} "$first" "$3" > "$folder/$1" 2>&1 &
    pids[$1]=$!
    first=$((first + $3))
    awaits listens "$2" || differs "no gateway"
}

# peer: a redis-server with one replica.
peer() {
    redis-server --port $((base + 1)) --dir "$folder" --dbfilename redis.rdb --save '' --appendonly no --repl-diskless-sync-delay 0 > "$folder/redis" 2>&1 &
    pids[redis]=$!
    redis-server --port $((base + 2)) --dir "$folder" --dbfilename replica.rdb --save '' --appendonly no --replicaof 127.0.0.1 $((base + 1)) > "$folder/replica" 2>&1 &
    pids[replica]=$!
    awaits has_replica || differs "redis has no replica"
}

has_replica() {
    redis-cli -p $((base + 1)) info replication 2> /dev/null | grep -q 'state=online'
}

# memory NAME: the memory of a process, in kB.
memory() {
    sed -n 's/^VmRSS:[^0-9]*\([0-9]*\) kB/\1/p' "/proc/${pids[$1]}/status"
}

speed() {
    cluster
    gateway gate "$base" "$numbers"
    peer
    "$folder/load" "$base" set 50 16 2 > /dev/null
    local connections pipeline kind
    for connections in 1 50 500; do
        for pipeline in 1 16; do
            for kind in set get; do echo "gateway $("$folder/load" "$base" $kind $connections $pipeline "$seconds")"; done
            for kind in wait get; do echo "redis   $("$folder/load" $((base + 1)) $kind $connections $pipeline "$seconds")"; done
        done
    done
    stop
}

benchmark() {
    cluster
    gateway gate "$base" "$numbers"
    peer
    local connections pipeline
    for connections in 1 50 500; do
        for pipeline in 1 16; do
            for at in 0 1; do
                echo "$([ $at = 0 ] && echo gateway || echo redis) connections $connections pipeline $pipeline:" \
                    "$(redis-benchmark -p $((base + at)) -t set,get -n 20000 -c $connections -P $pipeline -r 1000 --csv 2>&1 |
                        awk -F'"' '/SET|GET/ { print $2, $4 }' | xargs)"
            done
        done
    done
    stop
}

reads() {
    local at connections pipeline
    for at in '' 0; do
        cluster 2
        [ -z "$at" ] || kills "o$at"
        gateway gate "$base" "$([ -z "$at" ] && echo 16 || echo 2)" 2 "$at"
        peer
        "$folder/load" "$base" set 50 16 1 > /dev/null
        "$folder/load" $((base + 1)) set 50 16 1 > /dev/null
        for connections in 1 50 500; do
            for pipeline in 1 16; do
                echo "gateway${at:+ at $at} $("$folder/load" "$base" getat $connections $pipeline "$seconds")"
                echo "redis   $("$folder/load" $((base + 1)) get $connections $pipeline "$seconds")"
            done
        done
        stop
    done
}

memory_part() {
    cluster
    gateway gate "$base" "$numbers"
    "$folder/load" "$base" set 50 16 1 > /dev/null
    local before done=0 each
    before=$(memory gate)
    while [ "$done" -lt "${OPS:-1000000}" ]; do
        each=$("$folder/load" "$base" set 50 16 10 | sed 's/.*: \([0-9]*\) a second.*/\1/')
        done=$((done + each * 10))
        echo "memory after $done puts: $(memory gate) kB, before $before kB"
    done
    stop
}

idle() {
    cluster
    gateway gate "$base" "$numbers"
    sleep 1
    local before after
    before=$(awk '{ print $14 + $15 }' "/proc/${pids[gate]}/stat")
    sleep 10
    after=$(awk '{ print $14 + $15 }' "/proc/${pids[gate]}/stat")
    echo "idle: $((after - before)) ticks of 10 ms in 10 s"
    stop
}

loss() {
    local lost
    for lost in 0 100; do
        export LD_PRELOAD="$folder/loss.so" LOSS=$lost
        cluster
        gateway gate "$base" "$numbers"
        unset LD_PRELOAD LOSS
        "$folder/load" "$base" set 8 1 1 > /dev/null
        echo "lost $lost of 10,000 datagrams: $("$folder/load" "$base" set 8 1 $((seconds * 3)))"
        stop
    done
}

histories() {
    local run status told
    for ((run = 1; run <= ${RUNS:-20}; run++)); do
        cluster
        gateway one "$base" 2
        gateway two $((base + 1)) 2
        python3 bench/gate/users.py 4 "$run" "$base" $((base + 1)) "0.$((RANDOM % 9)):${pids[r0]}" \
            "1.$((RANDOM % 9)):${pids[s0]}" "2.$((RANDOM % 9)):${pids[one]}" > "$folder/history" 2> "$folder/told"
        stop
        timeout 100 "$judge" < "$folder/history" > "$folder/order"
        status=$?
        told=$(cat "$folder/told")
        [ $status = 0 ] || differs "run $run is not linearizable: status $status, '$(tail -n 1 "$folder/order")'"
        made=$((made + 1))
        echo "history $run: $told, status $status"
    done
    echo "histories: $made, $wrong differ"
}

library() {
    cluster
    gateway gate "$base" "$numbers"
    local words got
    for words in 'set colour blue=OK' 'get colour=blue' 'cas colour blue red=1' 'set colour green get=red' 'del colour=1'; do
        # shellcheck disable=SC2086
        got=$(redis-cli -p "$base" ${words%=*})
        [ "$got" = "${words##*=}" ] || differs "redis-cli ${words%=*}: '$got'"
    done
    echo "redis-cli: as in docs/GATEWAY.md"
    if /usr/bin/python3 -c 'import redis' 2> /dev/null; then
        got=$(/usr/bin/python3 -c "
import redis, redis.backoff, redis.retry
store = redis.Redis(port=$base, socket_timeout=10, retry=redis.retry.Retry(redis.backoff.NoBackoff(), 0))
store.set('colour', 'blue')
print(store.get('colour'), store.execute_command('CAS', 'colour', 'blue', 'red'), store.info(),
      store.pipeline(transaction=False).set('a', 1).get('a').execute())" 2>&1)
        [[ $got == "b'blue' 1 {"*"} [True, b'1']" ]] || differs "Python: $got"
        echo "python3-redis: as in docs/GATEWAY.md"
    fi
    stop
}

for part in "$@"; do
    case $part in
    memory) memory_part ;;
    # what bash says of those that were killed goes nowhere
    histories) histories 2> /dev/null ;;
    speed | benchmark | reads | idle | loss | library) "$part" ;;
    *) differs "no part $part" ;;
    esac
done
[ "$wrong" = 0 ]
