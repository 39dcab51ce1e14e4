#!/bin/bash
# The stories of examples/: what a story quotes is the whole transcript beside it, in order; a story of a schedule shows its picture; and
# the pictures there are what `spacetime` draws of the schedules beside them. A story whose name begins with `lock-` is of the stored run of
# `lock_service`, and its picture is what `lock_spacetime` draws. A story with a folder of its name is of a run of nodes: their traces there
# are braided, audited, replayed and judged. Then how both programs end where there is nothing to draw. It takes a few seconds,
# leaves nothing behind, and ends with status 1 at any difference. checks/transcripts.sh compares the transcripts with what the
# program writes, and checks/links.sh follows the links of the stories.
#
#   checks/stories.sh            the programs are crates/NAME/out/NAME, or the files that SPACETIME, LOCK_SPACETIME, NOPAXOS and BRAID name
#   checks/stories.sh --draw     writes the pictures that are there anew
. "$(dirname "$0")/common.bash" || exit 2
needs "${LOCK_SPACETIME:-}" lock_spacetime
locks=$program
needs "${BRAID:-}" braid
braid=$program
needs "${NOPAXOS:-}" nopaxos -- replay
nopaxos=$program
needs "${SPACETIME:-}" spacetime

# files NAME: the program, the schedule and the transcript of a story.
files() {
    drawer=$program
    schedule=examples/$1.schedule
    transcript=examples/$1.transcript
    if [ -d "examples/$1" ]; then
        schedule=examples/$1/schedule
        transcript=examples/$1/transcript
    fi
    case $1 in
    lock-*)
        drawer=$locks
        schedule=crates/lock_service/stdin
        transcript=crates/lock_service/stdout
        ;;
    esac
}

# told NAME: the story quotes its transcript, shows its picture where it has a schedule, and is named in the list.
told() {
    local base=examples/$1 schedule transcript drawer
    made=$((made + 1))
    files "$1"
    if [ ! -e "$transcript" ]; then
        differs "$1: there is no transcript beside it"
        return
    fi
    sed -n 's/^    //p' "$base.md" | cmp -s - "$transcript" || differs "$1: it does not quote its transcript"
    if [ -e "$schedule" ]; then
        { [ -e "$base.svg" ] && grep -qF "]($1.svg)" "$base.md"; } || differs "$1: it does not show its picture"
    fi
    grep -qF "]($1.md)" examples/README.md || differs "$1: examples/README.md does not name it"
}

# drawn NAME: the picture of a schedule.
drawn() {
    local base=examples/$1 status schedule transcript drawer
    made=$((made + 1))
    files "$1"
    "$drawer" < "$schedule" > "$folder/out" 2> "$folder/err"
    status=$?
    if [ "$status" != 0 ] || [ -s "$folder/err" ]; then
        differs "$1: status $status, and on standard error '$(head -c 300 "$folder/err")'"
    elif [ "$draw" = 1 ]; then
        cp "$folder/out" "$base.svg"
    elif ! cmp -s "$folder/out" "$base.svg"; then
        differs "$1: its picture is not what is drawn now; checks/stories.sh --draw writes it anew"
    fi
}

# audited NAME: what is made of the traces of a story is what lies beside them, and is answered as the story says, also where a byte
# of the order's line that it names is another one.
audited() {
    local base=examples/$1 line
    { head -n 1 "$base/order"; cat "$base"/traces/*; } | "$braid" > "$folder/out" 2> "$folder/err"
    same "$1, braided" $? 0 "$(cat "$base/order")"
    "$nopaxos" audit < "$base/order" > "$folder/out" 2> "$folder/err"
    same "$1, audited" $? 0 "$(cat "$base/schedule")
$(grep -o 'audited [0-9]*' "$base.md")"
    "$nopaxos" replay < "$base/schedule" > "$folder/out" 2> "$folder/err"
    same "$1, replayed" $? 0 "$(cat "$base/transcript")"
    "$nopaxos" check < "$base/transcript" > "$folder/out" 2> "$folder/err"
    same "$1, judged" $? 0 "$(grep -o 'legal [0-9 ]*' "$base.md")"
    line=$(sed -n 's/^`audit line \([0-9]*\) fault 4`$/\1/p' "$base.md")
    sed "${line}s/3d76$/3d77/" "$base/order" | "$nopaxos" audit > "$folder/out" 2> "$folder/err"
    same "$1, with another byte" $? 8 "audit line $line fault 4"
}

draw=0
if [ "${1:-}" = --draw ]; then draw=1; fi
for story in examples/*.md; do
    name=$(basename "$story" .md)
    [ "$name" = README ] || told "$name"
    [ ! -d "examples/$name" ] || audited "$name"
done
for picture in examples/*.svg; do
    drawn "$(basename "$picture" .svg)"
done
: > "$folder/out"

"$program" < /dev/null > "$folder/out" 2> "$folder/err"
same 'no bytes' $? 1 'error line 1 rule 3' err
"$program" < examples/deliver-before-sent.schedule > "$folder/out" 2> "$folder/err"
same 'a datagram that was not sent' $? 1 "$(tail -n 1 examples/deliver-before-sent.transcript)" err
"$program" < examples/junk-spells-a-datagram.schedule > "$folder/out" 2> "$folder/err"
same 'junk that spells a datagram' $? 1 "$(tail -n 1 examples/junk-spells-a-datagram.transcript)" err
"$program" --help < /dev/null > "$folder/out" 2> "$folder/err"
same 'a word' $? 2 'usage: spacetime < SCHEDULE > PICTURE' err
"$program" < "$folder" > "$folder/out" 2> "$folder/err"
same 'a folder as input' $? 3 'error reading the schedule' err
"$program" < examples/one-put.schedule > /dev/full 2> "$folder/err"
same 'a full disk' $? 4 'error writing the picture' err
"$locks" < examples/deliver-before-sent.schedule > "$folder/out" 2> "$folder/err"
same 'locks, a datagram that was not sent' $? 1 "$(tail -n 1 examples/deliver-before-sent.transcript)" err
"$locks" --help < /dev/null > "$folder/out" 2> "$folder/err"
same 'locks, a word' $? 2 'usage: lock_spacetime < SCHEDULE > PICTURE' err

concludes
