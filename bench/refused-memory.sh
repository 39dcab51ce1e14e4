#!/bin/bash
# Runs the program once for each allocation that it makes, with that one refused. Each run has to end NoMemory (status 6) with a
# front of the output that it has with all its memory, and not all of it, or with that output and its status; and to write nothing
# to standard error. It prints the runs by outcome, and ends with status 1 where one ends otherwise, and where nothing was refused: the
# run with the first allocation refused has to end NoMemory, and so has at least one run of each kind.
#
#   bench/refused-memory.sh        NOPAXOS  the program file (crates/nopaxos/out/nopaxos);  BASE  a port (44000)
#
# What it runs: four schedules of examples/, each command of a node, and words that are not taken. A client's answers come from
# peer.py over the loopback address, or never. The allocator that refuses is loaded before the C library (LD_PRELOAD), so the program
# has to be linked dynamically, as it is; with it comes a clock that stands still. Needs a C compiler. It takes about a minute.
. "$(dirname "$0")/program.bash" || exit 2
base=${BASE:-44000}
folder=$(mktemp -d) || exit 2
. checks/nodes.bash
cc -O1 -Wall -shared -fPIC -o "$folder/refuse.so" bench/refused-memory/refuse.c || exit 2
failed=0

# runs NUMBER INPUT WORDS..: the program with allocation NUMBER refused, or none for 0. How many turns a node takes until its
# answer comes depends on the machine.
runs() {
    local number=$1 input=$2
    shift 2
    rm -f "$folder/refused"
    timeout 20 env REFUSE="$number" REFUSED="$folder/refused" LD_PRELOAD="$folder/refuse.so" "$program" "$@" \
        < "$input" > "$folder/raw" 2> "$folder/err"
    status=$?
    sed 's/^served [0-9]* lost 0/served TURNS lost 0/' "$folder/raw" > "$folder/out"
}

# is_front OUTPUT: whether what was written is a front of it, and not all, and nothing came on standard error.
is_front() {
    local size
    size=$(stat -c %s "$folder/out")
    [ "$size" -lt "$(stat -c %s "$1")" ] && head -c "$size" "$1" | cmp -s - "$folder/out" && [ ! -s "$folder/err" ]
}

# differs NAME NUMBER: one run that ends otherwise.
differs() {
    echo "$1, allocation $2: status $status, output '$(head -c 300 "$folder/raw")', on standard error '$(head -c 300 "$folder/err")'"
    failed=1
}

# sweep NAME STATUS OUTPUT INPUT WORDS..: STATUS and OUTPUT are those with all its memory.
sweep() {
    local name=$1 wanted=$2 output=$3 input=$4 number=0 memory=0 whole=0 wrong=0
    shift 4
    runs 0 "$input" "$@"
    if [ "$status" != "$wanted" ] || ! cmp -s "$folder/out" "$output" || [ -s "$folder/err" ]; then
        differs "$name" none
        return
    fi
    while :; do
        number=$((number + 1))
        runs "$number" "$input" "$@"
        [ -e "$folder/refused" ] || break
        if [ "$status" = 6 ] && is_front "$output"; then
            memory=$((memory + 1))
        elif [ "$status" = "$wanted" ] && cmp -s "$folder/out" "$output" && [ ! -s "$folder/err" ]; then
            whole=$((whole + 1))
        else
            wrong=$((wrong + 1))
            differs "$name" "$number"
        fi
    done
    printf '%-34s %6d %10d %15d %6d\n' "$name" $((number - 1)) "$memory" "$whole" "$wrong"
    if [ "$memory" = 0 ]; then
        echo "$name: no run ended for want of memory"
        failed=1
    fi
}

# The allocator is loaded, and refuses.
runs 1 examples/one-put.schedule replay
if [ ! -e "$folder/refused" ] || [ "$status" != 6 ] || ! is_front examples/one-put.transcript; then
    differs 'the allocator refuses nothing' 1
    exit 1
fi

printf '%-34s %6s %10s %15s %6s\n' run number 'no memory' 'whole output' wrong
for name in one-put retry-in-two-sessions sync-commit-first observer-answers-reads; do
    sweep "$name" 0 examples/$name.transcript examples/$name.schedule replay
done
# The line as checks/processes.sh has it.
sed -n "s/^usage='\(.*\)'/\1/p" checks/processes.sh > "$folder/usage"
sweep 'words that are not taken' 2 "$folder/usage" /dev/null node --id 3 --replicas 3 --sequencers 1

# ---- nodes
mkfifo "$folder/held"
python3 bench/refused-memory/peer.py "$base" < "$folder/held" > "$folder/peer" &
pids[peer]=$!
exec 3> "$folder/held"
for ((i = 0; i < 50; i++)); do
    [ -s "$folder/peer" ] && break
    sleep 0.1
done
put=5000016b000176
site="--replicas 3 --sequencers 1 --base $base"
served='served TURNS lost 0'
printf '%s\n' "submit c0 1 $put" 'accept c0 1 6e6f6e65' "$served" > "$folder/answered"
printf '%s\n' "submit c0 1 $put" "$served" > "$folder/unanswered"
printf '%s\n' 'read c0 1 o0 6b' 'answer c0 1 o0 0 6e6f6e65' "$served" > "$folder/told"
printf '%s\n' 'read c0 1 o0 6b' "$served" > "$folder/untold"
echo "$served" > "$folder/served"
# shellcheck disable=SC2086
{
    sweep 'client, answered' 0 "$folder/answered" /dev/null client --id 0 $site --turns 2000 $put
    sweep 'client, without an answer' 7 "$folder/unanswered" /dev/null client --id 0 --replicas 3 --sequencers 1 \
        --base $((base + 100)) --turns 2 $put
    sweep 'read, answered' 0 "$folder/told" /dev/null read --id 0 --observer 0 $site --turns 2000 6b
    sweep 'read, without an answer' 7 "$folder/untold" /dev/null read --id 0 --observer 0 --replicas 3 --sequencers 1 \
        --base $((base + 100)) --turns 2 6b
    sweep 'node' 0 "$folder/served" /dev/null node --id 0 $site --turns 2
    sweep 'node, with observers' 0 "$folder/served" /dev/null node --id 0 $site --observers 2 --turns 2
    sweep 'observer' 0 "$folder/served" /dev/null observer --id 1 $site --turns 2
    sweep 'sequencer' 0 "$folder/served" /dev/null sequencer --id 0 --replicas 3 --sequencers 1 --base $((base + 100)) --turns 2
    sweep 'controller, with an install' 0 "$folder/served" /dev/null controller --id 0 $site --turns 2 --install 0
}

# ---- all actors in one process
cat > "$folder/cluster" << CLUSTER
nopaxos 1 replicas 1 sequencers 1 clients 1
submit c0 $put
deliver 0 s0
deliver 1 r0
deliver 2 c0
transcript 1 replicas 1 sequencers 1 clients 1
submit c0 1 $put
send 0 c0 s* request 25
send 1 s0 r* stamped 41
send 2 r0 c0 reply 40
accept c0 1 6e6f6e65
replica r0 up normal 0 1 1 0
history 1 c0 1 $put
end
$served stray 0
CLUSTER
words="cluster --replicas 1 --sequencers 1 --clients 1 --base $((base + 100)) --turns 200 $put"
# shellcheck disable=SC2086
sweep 'cluster' 0 "$folder/cluster" /dev/null $words
exit "$failed"
