#!/bin/bash
# Runs clusters in one process over real sockets, and replays the schedule that each one printed: all ops must be accepted, each with
# its accept line, and the transcript must be the one that was printed with it, byte for byte. It prints how much was done, and ends with
# status 1 where a run is not so.
#
#   bench/clusters.sh            the program is crates/nopaxos/out/nopaxos, or the file that NOPAXOS names
#
# RUNS (100) clusters, with 3 and 5 replicas in turn, 1 and 2 sequencers, and 1 to 16 clients, each with OPS (3) ops, in at most TURNS
# (10000) turns; BASE (44000) is the first port of them.
set -u
cd "$(dirname "$0")/.." || exit 2
program=${NOPAXOS:-crates/nopaxos/out/nopaxos}
runs=${RUNS:-100}
turns=${TURNS:-10000}
each=${OPS:-3}
base=${BASE:-44000}
[ -x "$program" ] || { echo "clusters: there is no program file $program"; exit 2; }

folder=$(mktemp -d) || exit 2
trap 'rm -rf "$folder"' EXIT
wrong=0
turns_taken=0
events=0
stray=0
lost=0

# differs WORDS..: one more run that is not as it must be.
differs() {
    echo "clusters: $*"
    wrong=$((wrong + 1))
}

# op J: a put of a value at one of five keys, or a get.
op() {
    local key=$(($1 % 5 + 97)) value=$(($1 % 26 + 97))
    if [ $(($1 % 3)) = 2 ]; then printf '470001%02x' "$key"; else printf '500001%02x0001%02x' "$key" "$value"; fi
}

for ((i = 0; i < runs; i++)); do
    replicas=$((i % 2 == 0 ? 3 : 5))
    sequencers=$((i / 2 % 2 + 1))
    clients=$((i % 16 + 1))
    count=$((clients * each))
    ops=()
    for ((j = 0; j < count; j++)); do ops+=("$(op "$j")"); done
    "$program" cluster --replicas $replicas --sequencers $sequencers --clients $clients --base $((base + i * 64 % 8000)) \
        --turns "$turns" "${ops[@]}" \
        > "$folder/out" 2> "$folder/err"
    status=$?
    name="run $i, $replicas replicas, $sequencers sequencers, $clients clients"
    sed '/^transcript /,$d' "$folder/out" > "$folder/schedule"
    sed -n '/^transcript /,/^end$/p' "$folder/out" > "$folder/told"
    "$program" replay < "$folder/schedule" > "$folder/replayed" 2>> "$folder/err"
    accepts=$(grep -c '^accept ' "$folder/told")
    if [ $status != 0 ]; then
        differs "$name: status $status: $(tail -n 1 "$folder/out")"
    elif [ -s "$folder/err" ]; then
        differs "$name: on standard error '$(head -c 300 "$folder/err")'"
    elif ! cmp -s "$folder/told" "$folder/replayed"; then
        differs "$name: $(cmp "$folder/told" "$folder/replayed" 2>&1)"
    elif [ "$accepts" != "$count" ]; then
        differs "$name: $accepts of $count ops were accepted"
    fi
    read -r _ took _ losses _ strays <<< "$(tail -n 1 "$folder/out")"
    turns_taken=$((turns_taken + took))
    events=$((events + $(wc -l < "$folder/schedule") - 1))
    lost=$((lost + losses))
    stray=$((stray + strays))
done
echo "clusters: $runs runs, $turns_taken turns, $events events, $lost sends failed, $stray datagrams dropped, $wrong runs differ"
[ "$wrong" = 0 ]
