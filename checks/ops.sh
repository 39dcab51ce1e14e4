#!/bin/bash
# Ops and results in words: what `kv` and `locks` make of them behind `op`, `text` and `result`, against bytes that are written out by hand,
# and what they refuse. It takes a second, leaves nothing behind, and ends with status 1 at any difference.
#
#   checks/ops.sh                the programs are crates/kv/out/kv and crates/locks/out/locks, or those that KV and LOCK_TOOL name
. "$(dirname "$0")/common.bash" || exit 2

# answers WANTED ARGUMENTS..: the program writes this one line, and ends with status 0.
answers() {
    local wanted=$1 status
    shift
    made=$((made + 1))
    "$program" "$@" > "$folder/out" 2>&1
    status=$?
    [ "$status" = 0 ] && [ "$(cat "$folder/out")" = "$wanted" ] || differs "'$*': status $status, '$(head -c 300 "$folder/out")'"
}

# op HEX WORDS..: the words name this op, and are its words.
op() {
    local hex=$1
    shift
    answers "$hex" op "$@"
    answers "$*" text "$hex"
}

# refuses ARGUMENTS..: status 2, and on standard error what is wanted.
refuses() {
    local status
    made=$((made + 1))
    "$program" "$@" > "$folder/out" 2> "$folder/err"
    status=$?
    same "'$*'" "$status" 2 "$tool: want op WORDS, text OP or result RESULT, by an op of this service" err
}

long=$(printf 'k%.0s' {1..64})
hex=$(printf '6b%.0s' {1..64})
value=$(printf 'v%.0s' {1..256})
tool=kv
needs "${KV:-}" kv -- --version
op 4700016b get k
op 5000016b000176 put k v
op 4400016b delete k
op 4300016b000176000177 compare-and-set k v w
op 4300016b000200ff0000 compare-and-set k 0x00ff 0x
op 470005206b206b20 get 0x206b206b20
op "470040$hex" get "$long"
answers 5000016b0000 op put k ''
op 47000430783030 get 0x30783030
answers 4700024b6b op get 0x4B6b
for words in 'op' 'op get' 'op get k v' 'op put k' 'op put k v w' 'op take k' 'op get 0x' 'op get 0x0' 'op get 0xgg' "op get ${long}k" \
    "op put k ${value}v" 'text' 'text 47' 'text 4700016b00' 'text xx' 'result' 'result 0' 'text 4700016b 4700016b'; do
    # shellcheck disable=SC2086
    refuses $words
done
refuses op get ''
answers none result 6e6f6e65
answers '=v' result 3d76
answers '=0x' result 3d
answers '=0x20' result 3d20
answers bad result 626164

tool=locks
needs "${LOCK_TOOL:-}" locks -- --version
op 4102646203616e6e acquire db ann
op 5202646203616e6e0000000000000001 release db ann 1
op 5202646203616e6effffffffffffffff release db ann 18446744073709551615
op 49026462 inspect db
op 490100 inspect 0x00
for words in 'op take db' 'op acquire db' 'op release db ann' 'op release db ann 01' 'op release db ann 18446744073709551616' 'op inspect db ann' \
    "op inspect ${long}k" 'op inspect 0x' 'text 4900' 'text 5202646203616e6e00000000000001'; do
    # shellcheck disable=SC2086
    refuses $words
done
answers 'granted 1' result 6772616e7465640000000000000001
answers 'held 2 bob' result 68656c640000000000000002626f62
answers released result 72656c6561736564
answers 0x6772616e74656400 result 6772616e74656400

concludes
