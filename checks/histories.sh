#!/bin/bash
# Histories of other recorders: examples/history.py makes lines of one in JSON and of the same in EDN, the example of docs/HISTORIES.md. Both
# become the same lines; `kv_linearize` finds the order that the page names, and `check` calls it legal; with the second read changed there is
# none. What is no history is refused. It takes a second, leaves nothing behind, and ends with status 1 at any difference.
#
#   checks/histories.sh          the programs are crates/NAME/out/NAME, or the files that KV_LINEARIZE and NOPAXOS name
. "$(dirname "$0")/common.bash" || exit 2
needs "${NOPAXOS:-}" nopaxos -- replay
nopaxos=$program
needs "${KV_LINEARIZE:-}" kv_linearize
kv_linearize=$program

# converts FORM [--keyed]: the lines of standard input lie in out, and what is said of them in counts.
converts() {
    python3 -B examples/history.py "$@" > "$folder/out" 2> "$folder/err"
    status=$?
    counts=
    if [ $status = 0 ]; then
        counts=$(cat "$folder/err")
        : > "$folder/err"
    fi
}

cat > "$folder/json" <<'END'
{"process": 0, "type": "invoke", "f": "write", "value": 1}
{"process": 1, "type": "invoke", "f": "read", "value": null}
{"process": 1, "type": "ok", "f": "read", "value": 1}
{"process": 0, "type": "info", "f": "write", "value": 1}
{"process": 1, "type": "invoke", "f": "read", "value": null}
{"process": 1, "type": "ok", "f": "read", "value": 1}
END
cat > "$folder/edn" <<'END'
; as Jepsen writes it: what is of no client, what failed, and fields that are passed over
{:process :nemesis, :type :info, :f :start, :value nil}
#jepsen.history.Op{:index 0, :time 1, :type :invoke, :process 0, :f :write, :value 1}
{:type :invoke, :process 1, :f :read, :value nil}
{:type :ok, :process 1, :f :read, :value 1}
{:type :invoke, :process 18, :f :cas, :value [2 3]}
{:type :fail, :process 18, :f :cas, :value [2 3], :error "the value is 1"}
{:type :info, :process 0, :f :write, :value 1, :error :timeout}
{:type :invoke, :process 1, :f :read, :value nil}
{:type :ok, :process 1, :f :read, :value 1}
END
lines='transcript 1 replicas 1 sequencers 1 clients 16
submit c0 1 50000178000131
submit c1 1 47000178
accept c1 1 3d31
submit c1 2 47000178
accept c1 2 3d31'
order='history 1 c0 1 50000178000131
history 2 c1 1 47000178
history 3 c1 2 47000178'
for form in json edn; do
    converts $form < "$folder/$form"
    cp "$folder/out" "$folder/lines"
    wanted='history.py: 6 operations, 0 passed over'
    [ $form = json ] || wanted='history.py: 8 operations, 1 passed over'
    [ "$counts" = "$wanted" ] || differs "$form: '$counts' and not '$wanted'"
    same "$form" "$status" 0 "$lines
end"
    "$kv_linearize" < "$folder/lines" > "$folder/out" 2> "$folder/err"
    status=$?
    cp "$folder/out" "$folder/found"
    same "the order of $form" "$status" 0 "$lines
$order
end"
    "$nopaxos" check < "$folder/found" > "$folder/out" 2> "$folder/err"
    same "the judge of $form" $? 0 'legal 3 2 3'
done

sed '6s/"value": 1/"value": null/' "$folder/json" | python3 -B examples/history.py json 2> "$folder/err" |
    "$kv_linearize" > "$folder/out"
status=$?
: > "$folder/err"
same 'a read that is too old' $status 8 'none part 78 line 6'

# a write whose ok says what was there before, one whose ok does not, a pair with a key, and a delete
converts json --keyed <<'END'
{"process": 3, "type": "invoke", "f": "write", "value": ["a", 5]}
{"process": 3, "type": "ok", "f": "write", "value": ["a", 5], "previous": null}
{"process": 4, "type": "invoke", "f": "cas", "value": ["a", [5, 6]]}
{"process": 4, "type": "ok", "f": "cas", "value": ["a", [5, 6]]}
END
same 'keys' "$status" 0 'transcript 1 replicas 1 sequencers 1 clients 16
submit c3 1 50000161000135
accept c3 1 6e6f6e65
submit c4 1 43000161000135000136
accept c4 1 796573
end'
converts json <<'END'
{"process": 0, "type": "invoke", "f": "delete", "key": "a"}
{"process": 0, "type": "ok", "f": "delete", "key": "a"}
END
same 'a result that was not recorded' "$status" 0 'transcript 1 replicas 1 sequencers 1 clients 16
submit c0 1 44000161
accept c0 1 ?
end'

# a write that was acknowledged, without the value before it: a read behind it sees it, and then that value is found; else there is no order
converts json <<'END'
{"process": 2, "type": "invoke", "f": "write", "value": 1}
{"process": 2, "type": "ok", "f": "write", "value": 1}
{"process": 3, "type": "invoke", "f": "read", "value": null}
{"process": 3, "type": "ok", "f": "read", "value": 1}
END
cp "$folder/out" "$folder/lines"
"$kv_linearize" < "$folder/lines" > "$folder/out" 2> "$folder/err"
status=$?
cp "$folder/out" "$folder/found"
same 'a write whose result was not recorded' "$status" 0 'transcript 1 replicas 1 sequencers 1 clients 16
submit c2 1 50000178000131
accept c2 1 6e6f6e65
submit c3 1 47000178
accept c3 1 3d31
history 1 c2 1 50000178000131
history 2 c3 1 47000178
end'
"$nopaxos" check < "$folder/found" > "$folder/out" 2> "$folder/err"
same 'the judge of it' $? 0 'legal 2 2 2'
sed 's/3d31$/6e6f6e65/' "$folder/lines" | "$kv_linearize" > "$folder/out" 2> "$folder/err"
same 'a write that was lost' $? 8 'none part 78 line 5'

# refuses NAME REASON: standard input is no history.
refuses() {
    converts "${@:3}"
    same "$1" "$status" 1 "$2" err
}
refuses 'an end without a beginning' 'history.py: this is no history: operation 1: process 0 ends an operation that it did not begin' edn \
    <<< '{:process 0 :type :ok :f :read :value 1}'
refuses 'a bracket that is missing' "history.py: this is no history: '}' is missing" edn <<< '{:process 0 :type :ok'
refuses 'an operation that nobody knows' "history.py: this is no history: operation 1: there is no operation 'append'" json \
    <<< '{"process": 0, "type": "invoke", "f": "append", "value": 1}'
refuses 'JSON as EDN' "history.py: this is no history: operation 1: 'str' object has no attribute 'get'" edn <<< '"process"'
refuses 'a number as text' "history.py: this is no history: operation 1: the process '0' is neither a number nor a word" json \
    <<< '{"process": "0", "type": "invoke", "f": "read"}'
refuses 'nothing of a client' 'history.py: this is no history: no operation in it has a process with a number' edn <<< '{:process :nemesis}'
refuses 'a long key' 'history.py: this is no history: operation 1: a key of 65 bytes; it has 1 to 64' json \
    <<< "{\"process\": 0, \"type\": \"invoke\", \"f\": \"read\", \"key\": \"$(printf %65s | tr ' ' k)\"}"
refuses 'a long value' 'history.py: this is no history: operation 1: a value of 257 bytes; it has 0 to 256' json \
    <<< "{\"process\": 0, \"type\": \"invoke\", \"f\": \"write\", \"value\": \"$(printf %257s | tr ' ' v)\"}"
refuses 'a pair that is no value' "history.py: this is no history: operation 1: ['x', 1] is no value of a register (pairs with a key in front want --keyed)" \
    edn <<< '{:process 0 :type :invoke :f :write :value [x 1]}'
refuses 'a comparison that failed' \
    'history.py: this is no history: operation 2: the ok of a cas has another value than its pair; a comparison that failed is a fail' json <<'END'
{"process": 0, "type": "invoke", "f": "cas", "value": [1, 2]}
{"process": 0, "type": "ok", "f": "cas", "value": false}
END
refuses 'a line that is no JSON' 'history.py: this is no history: line 2: Expecting value: line 1 column 1 (char 0)' json <<'END'
{"process": 0, "type": "invoke", "f": "read"}
x
END
refuses 'no word' 'usage: history.py json|edn [--keyed] < HISTORY > LINES' < /dev/null
concludes
