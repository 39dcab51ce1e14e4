#!/bin/bash
# Schedules, transcripts, traces and refusals in words: what `kv words` and `locks words` make of lines whose bytes are written out by
# hand, and that `--back` makes the same lines of them; what stays as it is; all files of examples/; how they end. It takes a few seconds, leaves
# nothing behind, and ends with status 1 at any difference.
#
#   checks/words.sh              the programs are crates/NAME/out/NAME, or the files that KV and LOCK_TOOL name
. "$(dirname "$0")/common.bash" || exit 2
needs "${LOCK_TOOL:-}" locks -- --version
locks=$program
needs "${KV:-}" kv -- --version

# line DIGITS WORDS: a line in hexadecimal and in words, each of which becomes the other.
line() {
    printf '%s\n' "$1" | "$program" words > "$folder/out" 2> "$folder/err"
    same "'$1' in words" $? 0 "$2"
    printf '%s\n' "$2" | "$program" words --back > "$folder/out" 2> "$folder/err"
    same "'$2' in hexadecimal" $? 0 "$1"
}

# stays LINE..: lines that are the same in words.
stays() {
    local line
    for line in "$@"; do
        printf '%s\n' "$line" | "$program" words > "$folder/out" 2> "$folder/err"
        same "'$line'" $? 0 "$line"
    done
}

# lines of schedules, of transcripts, of traces, and of who found no order
line 'submit c0 5000016b000176' 'submit c0 put k v'
line 'submit c0 47000131' 'submit c0 get 1'
line 'read c1 o0 6b' 'read c1 o0 k'
line 'submit c0 1 5000016b000176' 'submit c0 1 put k v'
line 'submit c15 18446744073709551615 4400016b' 'submit c15 18446744073709551615 delete k'
line 'submit c0 2 4300016b000178000177' 'submit c0 2 compare-and-set k x w'
line 'submit c0 3 5000036b2078000176' 'submit c0 3 put 0x6b2078 v'
line 'submit c0 4 5000016b0000' 'submit c0 4 put k 0x'
line 'accept c0 1 6e6f6e65' 'accept c0 1 none'
line 'accept c0 2 3d76' 'accept c0 2 =v'
line 'accept c0 3 3d00ff' 'accept c0 3 =0x00ff'
line 'accept c0 4 3d' 'accept c0 4 =0x'
line 'accept c0 5 -' 'accept c0 5 0x'
line 'read c0 1 o0 6b' 'read c0 1 o0 k'
line 'answer c0 1 o0 2 3d76' 'answer c0 1 o0 2 =v'
line 'history 1 c0 1 5000016b000176' 'history 1 c0 1 put k v'
line 'entry r0 1 c0 1 5000016b000176' 'entry r0 1 c0 1 put k v'
line 'in c0 submit 4700016b' 'in c0 submit get k'
line 'in c0 read o1 6b' 'in c0 read o1 k'
line 'out c0 submit 1 4700016b' 'out c0 submit 1 get k'
line 'out c0 accept 1 3d76' 'out c0 accept 1 =v'
line 'out c0 read 1 o1 6b' 'out c0 read 1 o1 k'
line 'out c0 answer 1 o1 7 3d76' 'out c0 answer 1 o1 7 =v'
line 'none part 6b line 7' 'none part k line 7'

# what has no hexadecimal of an op, a result or a key, and what would not be the same again: bytes that are no op, capital digits, no digits
stays 'nopaxos 1 replicas 3 sequencers 1 clients 2' 'deliver 0 s0' 'tick r0 sync' 'send 0 c0 s* request 25' 'entry r0 1 noop' \
    'replica r0 up normal 0 1 1 0' 'end' '' 'legal 1 1 1' 'refuted line 7 clause 5' 'none part - line 3' 'submit' 'accept c0 1' \
    'submit c0 1 50' 'submit c0 5000016B000176' 'submit c0 put k v' 'in r0 packet 4e4f0301' 'junk r0 0102' 'submit c0 5' 'history 1 c0 1'

# files: each line, and each file again
for file in examples/*.schedule examples/*.transcript; do
    "$program" words < "$file" > "$folder/words"
    "$program" words --back < "$folder/words" > "$folder/again"
    made=$((made + 1))
    cmp -s "$folder/again" "$file" || differs "$file is not the same again"
done
made=$((made + 1))
grep -qx 'submit c0 1 put k v' <("$program" words < examples/one-put.transcript) || differs 'one put has no words'

# a last line without an end is given one
printf 'submit c0 4700016b' | "$program" words > "$folder/out" 2> "$folder/err"
same 'a line without an end' $? 0 'submit c0 get k'

# how it ends: a line that is too long, behind one that is written; arguments; a full disk
{ echo 'submit c0 4700016b'; head -c 4097 /dev/zero | tr '\0' a; } | "$program" words > "$folder/out" 2> "$folder/err"
status=$?
made=$((made + 1))
if [ "$status" != 8 ] || [ "$(cat "$folder/out")" != 'submit c0 get k' ] || [ "$(cat "$folder/err")" != 'kv: line 2 has more than 4096 bytes' ]; then
    differs "a line that is too long: status $status, '$(head -c 300 "$folder/err")'"
fi
"$program" words --forth > "$folder/out" 2> "$folder/err"
same 'an argument' $? 2 'kv: --forth: want no further word' err
"$program" words --back more > "$folder/out" 2> "$folder/err"
same 'two arguments' $? 2 'kv: more: want no further word' err
"$program" words < examples/one-put.transcript > /dev/full 2> "$folder/err"
status=$?
: > "$folder/out"
same 'a full disk' $status 4 ''

# ---- the lock service
program=$locks
line 'submit c0 1 4102646203616e6e' 'submit c0 1 acquire db ann'
line 'submit c0 5202646203616e6e0000000000000001' 'submit c0 release db ann 1'
line 'submit c0 49026462' 'submit c0 inspect db'
line 'accept c0 1 6772616e7465640000000000000001' 'accept c0 1 granted 1'
line 'accept c0 1 68656c640000000000000102616e6e' 'accept c0 1 held 258 ann'
line 'accept c0 1 72656c6561736564' 'accept c0 1 released'
line 'accept c0 1 66726565' 'accept c0 1 free'
line 'history 2 c1 1 4102646203616e6e' 'history 2 c1 1 acquire db ann'
stays 'accept c0 1 6772616E74656400000000000000' 'submit c0 1 5000016b000176'
concludes
