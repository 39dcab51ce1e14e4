#!/bin/bash
# Judges each transcript of examples/: one that `replay` ended with `end` is legal, with the numbers of its lines; one with an error line
# is refuted at that line, by clause 2; one without a schedule has the answer that the story beside it shows. Then the example of
# docs/HISTORIES.md, and lines of observers. It takes a second, leaves nothing behind, and ends with status 1 at any difference.
#
#   checks/judged.sh             the program is crates/nopaxos/out/nopaxos, or the file that NOPAXOS names
. "$(dirname "$0")/common.bash" || exit 2
needs "${NOPAXOS:-}" nopaxos -- replay

# judged NAME FILE ANSWER: what `check` writes for a transcript, and its status.
judged() {
    local status wanted=8
    made=$((made + 1))
    "$program" check < "$2" > "$folder/out" 2> "$folder/err"
    status=$?
    case $3 in
    legal*) wanted=0 ;;
    esac
    if [ "$status" != "$wanted" ] || [ -s "$folder/err" ] || [ "$(cat "$folder/out")" != "$3" ]; then
        differs "$1: status $status and '$(head -c 300 "$folder/out")' in place of '$3'"
    fi
}

for transcript in examples/*.transcript; do
    name=$(basename "$transcript" .transcript)
    lines() { grep -c "^$1 " "$transcript"; }
    if [ ! -e "examples/$name.schedule" ]; then
        judged "$name" "$transcript" "$(sed -n 's/^`\(refuted line [0-9]* clause [1-6]\)`$/\1/p' "examples/$name.md")"
    elif [ "$(tail -n 1 "$transcript")" = end ]; then
        judged "$name" "$transcript" "legal $(lines submit) $(lines accept) $(lines history)"
    else
        judged "$name" "$transcript" "refuted line $(wc -l < "$transcript") clause 2"
    fi
done

{
    echo 'transcript 1 replicas 1 sequencers 1 clients 16'
    sed -n 's/^    [01] [a-z]* *[a-z]* [0-9 ]*\(submit\|accept\)/\1/p; s/^    \(history .*\|end\)$/\1/p' docs/HISTORIES.md
} > "$folder/recorded"
judged 'the example of docs/HISTORIES.md' "$folder/recorded" 'legal 3 2 3'
sed 's/^accept c1 2 .*/accept c1 2 6e6f6e65/' "$folder/recorded" > "$folder/changed"
judged 'the same with another result' "$folder/changed" 'refuted line 6 clause 5'

# lines of observers are passed over, in their place
watched() { printf '%s\n' 'transcript 3 replicas 1 sequencers 1 clients 1 controllers 1 observers 2' "$@" > "$folder/watched"; }
state='replica r0 up normal 0 1 0 0'
watched 'read c0 1 o1 6b' 'answer c0 1 o1 0 6e6f6e65' "$state" 'observer o0 up 0' 'observer o1 crashed 7' end
judged 'two observers' "$folder/watched" 'legal 0 0 0'
watched 'observer o0 up 0' "$state" end
judged 'a replica behind an observer' "$folder/watched" 'refuted line 3 clause 2'
watched 'observer o4 up 0' end
judged 'an observer that no configuration has' "$folder/watched" 'refuted line 2 clause 2'

# first lines, and lines of observers in and out of their place: whether the first line is the usual one (+), lines, each ended by a semicolon,
# and the answer
while IFS='|' read -r first lines answer; do
    [ "$first" = - ] || lines="transcript 3 replicas 3 sequencers 2 clients 1 controllers 1 observers 4;$lines"
    printf %s "$lines" | tr ';' '\n' > "$folder/lines"
    judged "$lines" "$folder/lines" "$answer"
done << 'END'
+|end;|legal 0 0 0
+|observer o0 up 0;end;|legal 0 0 0
+|busy c0;replica r0 up normal 0 1 1 1;entry r0 1 noop;observer o0 up 1;observer o3 crashed 4294967295;history 1 c0 1 -;end;|refuted line 7 clause 4
+|observer o3 up 7;observer o0 up 7;observer o0 crashed 0;end;|legal 0 0 0
+|answer c0 1 o0 0 -;read c0 7 o3 6b;observer o0 up 0;end;|legal 0 0 0
+|observer o0 up 0;replica r0 up normal 0 1 0 0;end;|refuted line 3 clause 2
+|observer o0 up 0;entry r0 1 noop;end;|refuted line 3 clause 2
+|observer o0 up 0;busy c0;end;|refuted line 3 clause 2
+|observer o0 up 0;read c0 1 o0 6b;end;|refuted line 3 clause 2
+|history 1 c0 1 -;observer o0 up 0;end;|refuted line 3 clause 2
+|end;observer o0 up 0;|refuted line 3 clause 2
+|observer o0 up 0;|refuted line 3 clause 2
+|observer o4 up 0;end;|refuted line 2 clause 2
+|observer r0 up 0;end;|refuted line 2 clause 2
+|observer o0 down 0;end;|refuted line 2 clause 2
+|observer o0 up 4294967296;end;|refuted line 2 clause 2
+|observer o0 up 00;end;|refuted line 2 clause 2
+|observer o0 up;end;|refuted line 2 clause 2
+|observer o0 up 0 ;end;|refuted line 2 clause 2
+|observer o0 up 0 0;end;|refuted line 2 clause 2
+|read c0 1 o0 -;end;|refuted line 2 clause 2
-|transcript 3 replicas 1 sequencers 1 clients 1 controllers 1 observers 0;end;|legal 0 0 0
-|transcript 2 replicas 1 sequencers 1 clients 1 controllers 1;observer o0 up 0;end;|legal 0 0 0
-|transcript 3 replicas 1 sequencers 1 clients 1 controllers 1;end;|refuted line 1 clause 2
-|transcript 3 replicas 1 sequencers 1 clients 1;end;|refuted line 1 clause 2
-|transcript 2 replicas 1 sequencers 1 clients 1 controllers 1 observers 0;end;|refuted line 1 clause 2
-|transcript 4 replicas 1 sequencers 1 clients 1 controllers 1 observers 0;end;|refuted line 1 clause 2
-|transcript 3 replicas 1 sequencers 1 clients 1 controllers 1 observers 5;end;|refuted line 1 clause 2
-|transcript 3 replicas 1 sequencers 1 clients 1 controllers 1 observers 00;end;|refuted line 1 clause 2
-|transcript 3 replicas 1 sequencers 1 clients 1 controllers 1 observer 0;end;|refuted line 1 clause 2
-|transcript 3 replicas 1 sequencers 1 clients 1 controllers 1 observers 0 0;end;|refuted line 1 clause 2
END

concludes
