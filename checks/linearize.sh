#!/bin/bash
# Orders that `kv_linearize` and `lock_linearize` find. Small random histories, 2,000 and 300 of them, by checks/linearize/small.py: there is
# an order exactly where brute force over all orders finds one, and what is written is the same history with one that `check` calls legal.
# Then the transcripts of examples/, as they are and with a result changed; the example of docs/HISTORIES.md; and each row of the table of
# answers in docs/FORMATS.md. It takes some ten seconds, leaves nothing behind, and ends with status 1 at any difference.
#
#   checks/linearize.sh          the programs are crates/NAME/out/NAME, or the files that KV_LINEARIZE, LOCK_LINEARIZE, NOPAXOS and LOCKS name
. "$(dirname "$0")/common.bash" || exit 2

needs "${LOCKS:-}" lock_service -- replay
lock_service=$program
needs "${NOPAXOS:-}" nopaxos -- replay
nopaxos=$program
needs "${LOCK_LINEARIZE:-}" lock_linearize
lock_linearize=$program
needs "${KV_LINEARIZE:-}" kv_linearize
kv_linearize=$program

# small SERVICE PROGRAM JUDGE COUNT: random histories against brute force, some with an order and some without.
small() {
    local said
    made=$((made + $4))
    said=$(python3 -B checks/linearize/small.py "$@" 1 2>&1) && grep -qE ' an order [0-9]{2,} without [0-9]{2,} ' <<< "$said" ||
        differs "$1: $said"
}

small kv "$kv_linearize" "$nopaxos" 2000
small lock "$lock_linearize" "$lock_service" 300

# transcript LINE..: a transcript with these lines between the first and the last one.
first='transcript 1 replicas 1 sequencers 1 clients 16'
transcript() {
    printf '%s\n' "$first" "$@" end
}

# linearizes [WORDS..]: what the program writes of standard input lies in out, and on standard error in err; its status is $status.
linearizes() {
    "$program" "$@" > "$folder/out" 2> "$folder/err"
    status=$?
}

claims() { grep -E '^(submit|accept) ' "$1"; }
count() { grep -c "^$1 " "$folder/out"; }

# found NAME FILE: an order was found for the transcript in the file, and it is legal.
found() {
    local judged
    made=$((made + 1))
    judged=$("$judge" check < "$folder/out")
    if [ "$status" != 0 ] || [ -s "$folder/err" ]; then
        differs "$1: status $status, '$(head -c 300 "$folder/out")'"
    elif [ "$(head -n 1 "$folder/out")" != "$first" ] || ! cmp -s <(claims "$2") <(claims "$folder/out"); then
        differs "$1: what is written has other claims"
    elif [ "$judged" != "legal $(count submit) $(count accept) $(count history)" ]; then
        differs "$1: what is written is judged '$judged'"
    fi
}

# answers NAME STATUS ANSWER [WORDS..]: the program's answer to standard input.
answers() {
    local name=$1 wanted=$2 text=$3
    shift 3
    linearizes "$@"
    same "$name" "$status" "$wanted" "$text"
}

# planted NAME FILE: for each line of the file that accepts a result, another one in its place: no order, or a legal one.
planted() {
    local line result
    while read -r line; do
        result=6e6f6e65
        sed -n "${line}p" "$2" | grep -q " $result\$" && result=3d76
        sed "${line}s/ [^ ]*\$/ $result/" "$2" > "$folder/planted"
        linearizes < "$folder/planted"
        if [ "$status" = 8 ] && grep -qxE 'none part (-|([0-9a-f]{2})+) line [0-9]+' "$folder/out"; then
            made=$((made + 1))
            refused=$((refused + 1))
        else
            found "$1 with another result in line $line" "$folder/planted"
        fi
    done < <(grep -n '^accept ' "$2" | cut -d: -f1)
}

# ---- the transcripts that are there
judge=$lock_service
program=$lock_linearize
linearizes < crates/lock_service/stdout
found 'the stored run of locks' crates/lock_service/stdout
answers 'a token that is granted again' 8 'none part - line 31' < <(sed 's/^accept c1 2 .*/accept c1 2 6772616e7465640000000000000001/' \
    crates/lock_service/stdout)

judge=$nopaxos
program=$kv_linearize
refused=0
for file in examples/*.transcript; do
    name=$(basename "$file" .transcript)
    if [ "$(tail -n 1 "$file")" != end ]; then
        answers "$name" 8 "refuted line $(wc -l < "$file") clause 2" < "$file"
    elif [ "$name" = changed-result ]; then
        answers "$name" 8 'none part 6b line 7' < "$file"
    else
        linearizes < "$file"
        found "$name" "$file"
        planted "$name" "$file"
    fi
done
[ "$refused" -ge 10 ] || differs "of the changed examples only $refused have no order"

# ---- the example of docs/HISTORIES.md, which shows what is written
recorded() { sed -n 's/^    [01] [a-z]* *[a-z]* [0-9 ]*\(submit\|accept\)/\1/p' docs/HISTORIES.md; }
history() { sed -n 's/^    \(history .*\)$/\1/p' docs/HISTORIES.md; }
mapfile -t events < <(recorded)
mapfile -t members < <(history)
answers 'the example of docs/HISTORIES.md' 0 "$(transcript "${events[@]}" "${members[@]}")" < <(transcript "${events[@]}")
answers 'the same with another result' 8 'none part 78 line 6' < <(transcript "${events[@]}" | sed 's/^accept c1 2 .*/accept c1 2 6e6f6e65/')

# ---- the answers
put=5000016b000176
get=4700016b
swap=4300016b000176000177
none=6e6f6e65
value=3d76
answers 'no claims' 0 "$(transcript)" < <(transcript)
answers 'what nobody accepted is left out' 0 "$(transcript "submit c0 1 $put")" < <(transcript "submit c0 1 $put")
answers 'another first line, and lines that claim nothing' 0 "$(transcript "submit c0 1 $get" "accept c0 1 $none" "history 1 c0 1 $get")" << END
transcript 2 replicas 7 sequencers 4 clients 2 controllers 3
busy c15
submit c0 1 $get
send 0 c0 s* request 22
dead r0
accept c0 1 $none
replica r0 up normal 0 1 1 0
entry r0 1 noop
history 1 c3 9 $put
history 2 c3 9 $put
end
END
answers 'a stale read' 8 'none part 6b line 7' < <(transcript "submit c0 1 $put" "accept c0 1 $none" \
    'submit c0 2 5000016b000177' "accept c0 2 $value" "submit c1 1 $get" "accept c1 1 $value")
answers 'a read at the time of the second write' 0 "$(transcript "submit c0 1 $put" "accept c0 1 $none" 'submit c0 2 5000016b000177' \
    "submit c1 1 $get" "accept c0 2 $value" "accept c1 1 $value" "history 1 c0 1 $put" "history 2 c1 1 $get" \
    'history 3 c0 2 5000016b000177')" < <(transcript "submit c0 1 $put" "accept c0 1 $none" 'submit c0 2 5000016b000177' \
    "submit c1 1 $get" "accept c0 2 $value" "accept c1 1 $value")
answers 'what nobody accepted, in another order than it was submitted' 0 "$(transcript "submit c0 1 $swap" "submit c1 1 $put" \
    "submit c2 1 $get" 'accept c2 1 3d77' "history 1 c1 1 $put" "history 2 c0 1 $swap" "history 3 c2 1 $get")" < <(transcript \
    "submit c0 1 $swap" "submit c1 1 $put" "submit c2 1 $get" 'accept c2 1 3d77')
answers 'two orders that do not fit' 8 'none part 6c line 7' < <(transcript "submit c0 1 $put" "submit c1 1 ${get/6b/6c}" \
    "accept c0 1 $none" "submit c1 2 $get" "accept c1 2 $value" "accept c1 1 $value")
answers 'a result that nobody noted' 0 "$(transcript "submit c0 1 $put" "accept c0 1 $none" "submit c1 1 $put" "accept c1 1 $value" \
    "history 1 c0 1 $put" "history 2 c1 1 $put")" < <(transcript "submit c0 1 $put" 'accept c0 1 ?' "submit c1 1 $put" 'accept c1 1 ?')
answers 'a lost write whose result nobody noted' 8 'none part 6b line 5' < <(transcript "submit c0 1 $put" 'accept c0 1 ?' "submit c1 1 $get" \
    "accept c1 1 $none")
answers 'a second accept, of no result' 8 'refuted line 4 clause 5' < <(transcript "submit c0 1 $get" 'accept c0 1 ?' 'accept c0 1 ?')
answers 'a ? in place of an op' 8 'refuted line 2 clause 2' < <(transcript 'submit c0 1 ?')
answers 'a ? behind a result' 8 'refuted line 3 clause 2' < <(transcript "submit c0 1 $get" "accept c0 1 $none?")
answers 'bytes that are no op' 8 'none part - line 3' < <(transcript 'submit c0 1 -' "accept c0 1 $none")
answers 'an accept without a submit' 8 'refuted line 2 clause 5' < <(transcript "accept c0 1 $none" "submit c0 1 $get")
answers 'a second accept' 8 'refuted line 5 clause 5' < <(transcript "submit c0 1 $get" "submit c0 2 $get" "accept c0 1 $none" \
    "accept c0 1 $none" "submit c0 1 $get")
answers 'a pair submitted twice' 9 'repeated line 4' < <(transcript "submit c0 1 $get" "accept c0 1 $none" "submit c0 1 $get" \
    "accept c0 1 $none")
answers 'the same pair of another client' 0 "$(transcript "submit c0 1 $get" "submit c1 1 $get")" < <(transcript "submit c0 1 $get" \
    "submit c1 1 $get")
answers 'a line that is none' 8 'refuted line 3 clause 2' < <(transcript "submit c0 1 $get" "accepts c0 1 $none")
answers 'digits in upper case' 8 'refuted line 2 clause 2' < <(transcript 'submit c0 1 4700016B')
answers 'a long line' 8 'refuted line 2 clause 1' < <(transcript "$(printf 'x%.0s' {1..4097})")
answers 'no end' 8 'refuted line 3 clause 2' < <(transcript "submit c0 1 $get" | sed '$d')
answers 'more than the end' 8 'refuted line 3 clause 2' < <(transcript; echo end)
answers 'no bytes' 8 'refuted line 1 clause 2' < /dev/null
answers 'few steps' 9 'unknown steps 3' --most 3 < <(transcript "submit c0 1 $get" "submit c0 2 $get" "accept c0 1 $none" "accept c0 2 $none")
answers 'no steps' 9 'unknown steps 0' --most 0 < <(transcript "submit c0 1 $get")
answers 'the most steps' 0 "$(transcript "submit c0 1 $get")" --most 18446744073709551615 < <(transcript "submit c0 1 $get")

# The rows of checks/linearize/rows.txt: a history, the status, and what is written.
answered() {
    made=$((made + 1))
    linearizes < <(printf %s "$1")
    [ "$status" = "${2:1:1}" ] && [ ! -s "$folder/err" ] && cmp -s "$folder/out" - <<< "$(tail -n +2 <<< "$2")" ||
        differs "the history '$1': status $status, '$(head -c 300 "$folder/out")'"
}
rows checks/linearize/rows.txt answered
one=$(transcript "submit c0 1 $get" "accept c0 1 $none")
for most in 0 2; do answers "$most steps" 9 "unknown steps $most" --most $most <<< "$one"; done

# keys COUNT RESULT: so many keys are put, one after the other; the last put has this result.
keys() {
    transcript "$(awk -v count="$1" -v last="$2" 'BEGIN {
        for (i = 1; i <= count; i++)
            printf "submit c0 %d 500002%04x000131\naccept c0 %d %s\n", i, i, i, i < count ? "6e6f6e65" : last
    }')"
}
keys 4097 66756c6c > "$folder/full"
linearizes < "$folder/full"
found 'a key more than the store has room for' "$folder/full"
answers 'the same with room' 8 'none part - line 8195' < <(keys 4097 $none)
answers 'as many keys as it has room for' 8 'none part 1000 line 8193' < <(keys 4096 66756c6c)

# ---- arguments and faults
for words in '--most' '--most x' '--most -1' '--most 03' '--most 18446744073709551616' '--most 1 --most 2' '--most=3' '-most 3' '--steps 5' 5 '--most 5 5' 'check' '--help'; do
    # shellcheck disable=SC2086
    answers "the words $words" 2 'usage: kv_linearize [--most STEPS] < HISTORY' $words < /dev/null
done
made=$((made + 1))
[ "$({ "$program" --most 05 2> /dev/null > /dev/null; cat; } <<< "$one")" = "$one" ] || differs 'words that are not taken: the history is read'
answers 'a folder as input' 3 '' < "$folder"
transcript | "$program" > /dev/full 2> "$folder/err"
same 'a full disk' $? 4 ''
program=$lock_linearize
locked=('submit c0 1 4102646203616e6e' 'submit c1 1 4102646203626f62' 'accept c1 1 6772616e7465640000000000000001'
    'accept c0 1 68656c640000000000000001626f62')
answers 'who asks last is granted the lock first' 0 "$(transcript "${locked[@]}" 'history 1 c1 1 4102646203626f62' \
    'history 2 c0 1 4102646203616e6e')" < <(transcript "${locked[@]}")
answers 'locks, a word' 2 'usage: lock_linearize [--most STEPS] < HISTORY' --help < /dev/null

concludes
