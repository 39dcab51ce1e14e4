#!/bin/bash
# Replays each schedule of examples/ and compares the output and the exit status with the transcript beside it; then the rows of
# checks/transcripts/rows.txt, schedules with a line that is too long to store, and a long one. It takes a few seconds, leaves nothing
# behind, and ends with status 1 at any difference.
#
#   checks/transcripts.sh        the program is crates/nopaxos/out/nopaxos, or the file that NOPAXOS names
. "$(dirname "$0")/common.bash" || exit 2
needs "${NOPAXOS:-}" nopaxos -- replay

# same NAME SCHEDULE TRANSCRIPT: the status is 1 where the transcript ends with an error line, and else 0.
same() {
    local status wanted=0
    made=$((made + 1))
    "$program" replay < "$2" > "$folder/out" 2> "$folder/err"
    status=$?
    case $(tail -n 1 "$3") in
    error*) wanted=1 ;;
    esac
    if [ "$status" != "$wanted" ]; then
        differs "$1: status $status and not $wanted"
    elif ! cmp -s "$folder/out" "$3"; then
        differs "$1: $(cmp "$folder/out" "$3" 2>&1)"
    elif [ -s "$folder/err" ]; then
        differs "$1: on standard error '$(head -c 300 "$folder/err")'"
    fi
}

# ---- what is stored
for schedule in examples/*.schedule; do
    name=$(basename "$schedule" .schedule)
    transcript=examples/$name.transcript
    same "$name" "$schedule" "$transcript"
done

# ---- the rows: no events, crashes, refused events, a checkpoint that is told, observers that follow or don't, actors that are not there
replayed() {
    printf %s "$1" > "$folder/schedule"
    printf %s "${2#$'\n'}" > "$folder/transcript"
    same "the row '$1'" "$folder/schedule" "$folder/transcript"
}
rows checks/transcripts/rows.txt replayed

# ---- a request that is stamped in each of 100,998 lines
{
    printf 'nopaxos 1 replicas 1 sequencers 1 clients 1\nsubmit c0 -\n'
    yes 'deliver 0 s0' | head -n 100998
} > "$folder/schedule"
{
    printf 'transcript 1 replicas 1 sequencers 1 clients 1\nsubmit c0 1 -\nsend 0 c0 s* request 18\n'
    seq -f 'send %.0f s0 r* stamped 34' 100998
    printf 'replica r0 up normal 0 1 0 0\nend\n'
} > "$folder/transcript"
same 'a long schedule' "$folder/schedule" "$folder/transcript"

# ---- a line of 4,097 bytes without an end, and one of 4,096 bytes with its end
header='replicas 3 sequencers 1 clients 1'
{ echo "nopaxos 1 $header"; head -c 4097 /dev/zero | tr '\0' x; } > "$folder/schedule"
printf 'transcript 1 %s\nerror line 2 rule 1\n' "$header" > "$folder/transcript"
same 'a line that is too long' "$folder/schedule" "$folder/transcript"
{ echo "nopaxos 1 $header"; head -c 4096 /dev/zero | tr '\0' x; echo; } > "$folder/schedule"
printf 'transcript 1 %s\nerror line 2 rule 3\n' "$header" > "$folder/transcript"
same 'a line of the greatest length' "$folder/schedule" "$folder/transcript"

concludes
