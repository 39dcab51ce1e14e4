#!/bin/bash
# Runs the lock service as real processes: the commands that need no network, a cluster, and then separate nodes, which grant a lock, lose
# their leader, and grant the lock again by a greater token. It takes some ten seconds, leaves nothing behind, and ends with status 1 at any
# difference.
#
#   checks/locks.sh              the program is crates/lock_service/out/lock_service, or the file that LOCKS names; LOCK_TOOL names the tool
. "$(dirname "$0")/common.bash" || exit 2
needs "${LOCKS:-}" lock_service -- replay

locks=$program
needs "${LOCK_TOOL:-}" locks -- --version
tool=$program
program=$locks

# Acquires of the lock db by ann and bob, ann's release by token 1, and an inspect.
ann=$("$tool" op acquire db ann)
bob=$("$tool" op acquire db bob)
release=$("$tool" op release db ann 1)
inspect=$("$tool" op inspect db)

# results: each result of the lines of a client, in the order of its ops, in words, with a semicolon after it.
results() {
    local result
    sed -n 's/^accept [^ ]* //p' "$1" | sort -n | cut -d' ' -f2 | while read -r result; do echo "$("$tool" result "$result");"; done | xargs
}

. checks/nodes.bash
finds_ports
nodes_of "$program" --replicas 3 --sequencers 1 --base "$base"

# ends NAME WANTED_STATUS WANTED WORDS..: the program is run with these words, and writes what is wanted.
ends() {
    local name=$1 wanted=$2 text=$3 status
    shift 3
    made=$((made + 1))
    "$program" "$@" > "$folder/out" 2> "$folder/err"
    status=$?
    if [ "$status" != "$wanted" ] || [ "$(cat "$folder/out")" != "$text" ] || [ -s "$folder/err" ]; then
        differs "$name: status $status, '$(head -c 300 "$folder/out")', and on standard error '$(head -c 300 "$folder/err")'"
    fi
}

# answered CLIENT ANSWERS OPS..: a new client is answered so.
answered() {
    local client=$1 answers=$2 status
    shift 2
    made=$((made + 1))
    # shellcheck disable=SC2086
    timeout 60 "$program" client --id "$client" $site "$@" > "$folder/out" 2>&1
    status=$?
    [ "$status" = 0 ] && [ "$(results "$folder/out")" = "$answers" ] ||
        differs "client $client: status $status, '$(head -c 300 "$folder/out")' in place of '$answers'"
}

# ---- commands that need no network
ends 'the words' 2 'usage: lock_service replay | gen | node | sequencer | controller | client | cluster | check | observer | read | audit' stop
ends 'the stored transcript' 0 'legal 6 6 6' check < crates/lock_service/stdout
sed "s/^accept c1 2 .*/accept c1 2 6772616e7465640000000000000001/" crates/lock_service/stdout > "$folder/changed"
ends 'a token that is granted again' 8 'refuted line 31 clause 5' check < "$folder/changed"
# Nothing that is counted depends on the answers, so it is what the key-value store gives.
ends 'the longest drawn schedule' 0 'gen 7 100000
sends 42966 accepts 67
view 201 326 length 300 noops 161
history 76' gen 7 100000

# ---- a cluster: its schedule replays to its transcript, which is legal
made=$((made + 1))
"$program" cluster --replicas 3 --sequencers 1 --clients 1 --base "$base" "$ann" "$bob" "$release" "$bob" > "$folder/cluster" 2> "$folder/err"
[ $? = 0 ] && [ "$(results "$folder/cluster")" = 'granted 1; held 1 ann; released; granted 2;' ] ||
    differs "the cluster writes '$(grep -v ^send "$folder/cluster" | head -c 600)'"
sed '/^transcript /,$d' "$folder/cluster" > "$folder/schedule"
sed '1,/^transcript /{/^transcript /!d}; /^served /d' "$folder/cluster" > "$folder/transcript"
ends 'the schedule of the cluster' 0 "$(cat "$folder/transcript")" replay < "$folder/schedule"
ends 'the transcript of the cluster' 0 'legal 4 4 4' check < "$folder/transcript"

# ---- nodes
start s0 sequencer --id 0
for i in 0 1 2; do start "r$i" node --id $i; done
start ctl controller --id 0
are_up s0 r0 r1 r2 ctl
answered 0 'granted 1;' "$ann"
kills r0
answered 1 'held 1 ann;' "$bob"
answered 2 'released;' "$release"
answered 3 'granted 2;' "$bob"
answered 4 'held 2 bob;' "$inspect"

# ---- an observer of locks: it is asked by the op G, which is none of theirs
start o0 observer --id 0
are_up o0
made=$((made + 1))
# shellcheck disable=SC2086
timeout 60 "$program" read --id 5 --observer 0 $site --turns 20000 6462 > "$folder/out" 2>&1
status=$?
[ "$status" = 0 ] && [ "$(sed '/^served /d' "$folder/out")" = 'read c5 1 o0 6462
answer c5 1 o0 0 626164' ] || differs "the observer: status $status, '$(head -c 300 "$folder/out")'"

concludes
