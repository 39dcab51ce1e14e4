#!/bin/bash
# Runs the program as real processes and looks at their exit statuses and at what they write. It takes some seconds, leaves
# nothing behind, and ends with status 1 at any difference.
#
#   checks/processes.sh          the program is crates/nopaxos/out/nopaxos, or the file that NOPAXOS names
. "$(dirname "$0")/common.bash" || exit 2
needs "${NOPAXOS:-}" nopaxos -- replay

schedule=examples/one-put.schedule
transcript=examples/one-put.transcript
finds_ports
site="--replicas 3 --sequencers 1 --base $base"
usage='usage: nopaxos replay | gen | node | sequencer | controller | client | cluster | check | observer | read | audit'
server=
trap '[ -z "$server" ] || kill "$server" 2> /dev/null; rm -rf "$folder"' EXIT

# wrote WANTED: the process that is running has written this and no more.
wrote() {
    [ "$(cat "$folder/out")" = "$1" ]
}

# answered NAME WANTED: the process that is running writes this and no more, within a minute.
answered() {
    made=$((made + 1))
    awaits wrote "$2" || differs "$1: after a minute it had written '$(head -c 300 "$folder/out")' and not '$2'"
}

# ---- replay
"$program" replay < "$schedule" > "$folder/out" 2> "$folder/err"
same 'a schedule' $? 0 "$(cat "$transcript")"
"$program" replay < /dev/null > "$folder/out" 2> "$folder/err"
same 'no bytes' $? 1 'error line 1 rule 3'
"$program" replay < "$folder" > "$folder/out" 2> "$folder/err"
same 'a folder as input' $? 3 ''
"$program" replay <&- > "$folder/out" 2> "$folder/err"
same 'no input' $? 3 ''
"$program" replay < "$schedule" > /dev/full 2> "$folder/err"
same 'a full disk' $? 4 ''
"$program" replay < "$schedule" >&- 2> "$folder/err"
same 'no output' $? 4 ''
# A pipe of which the last reader has gone.
mkfifo "$folder/pipe"
exec 3<> "$folder/pipe" 4> "$folder/pipe" 3>&-
(trap '' PIPE; exec "$program" replay < "$schedule" >&4 2> "$folder/err")
same 'a closed pipe' $? 4 ''
exec 4>&-

# Each line is answered before the next one is sent, also one whose end comes later than its beginning.
mkfifo "$folder/lines"
"$program" replay < "$folder/lines" > "$folder/out" 2> "$folder/err" &
server=$!
exec 3> "$folder/lines"
echo 'nopaxos 1 replicas 3 sequencers 1 clients 1' >&3
answers='transcript 1 replicas 3 sequencers 1 clients 1'
answered 'line 1' "$answers"
printf 'submit c0 5000016b' >&3
sleep 0.2
answered 'half a line' "$answers"
echo '000176' >&3
answers="$answers
submit c0 1 5000016b000176
send 0 c0 s* request 25"
answered 'the other half' "$answers"
printf 'deliver 0 s0\ndeliver 1 r0\n' >&3
answers="$answers
send 1 s0 r* stamped 41
send 2 r0 c0 reply 40"
answered 'two lines at once' "$answers"
echo 'deliver 9 r0' >&3
wait "$server"
same 'a bad line while the input goes on' $? 1 "$answers
error line 5 rule 8 index 9 sent 3"
server=
exec 3>&-

# 300,000 datagrams do not fit into 10 MB: what was written then begins what is written where there is room.
{ head -n 2 "$schedule"; yes 'deliver 0 s0' | head -n 300000; } > "$folder/long"
"$program" replay < "$folder/long" > "$folder/whole" 2> "$folder/err"
same 'a long schedule' $? 0 ''
(ulimit -v 10000; exec "$program" replay < "$folder/long" > "$folder/front" 2> "$folder/err")
status=$?
head -c "$(stat -c %s "$folder/front")" "$folder/whole" | cmp - "$folder/front" > "$folder/out" 2>&1
same 'a long schedule in 10 MB' $status 6 ''

# ---- gen
"$program" gen 7 1 > "$folder/out" 2> "$folder/err"
same 'a schedule of one event' $? 0 'gen 7 1
sends 1 accepts 0
view 0 1 length 0 noops 0
history 0'
"$program" gen 7 20000 > "$folder/whole" 2> "$folder/err"
"$program" gen 7 20000 > "$folder/out" 2> "$folder/err"
same 'a schedule drawn twice' $? 0 "$(cat "$folder/whole")"
# As two other programs for the same protocol have it.
"$program" gen 7 100000 > "$folder/out" 2> "$folder/err"
same 'the longest schedule' $? 0 'gen 7 100000
sends 42966 accepts 67
view 201 326 length 300 noops 161
history 76'
"$program" gen 7 1 > /dev/full 2> "$folder/err"
same 'a summary on a full disk' $? 4 ''

# ---- words that are not taken; the last ones have a key of 65 bytes, an op of 641, and 65 ops
big=$(printf '78%.0s' {1..640})
mapfile -t refused < checks/processes/words.txt
made=$((made + 1))
[ "${#refused[@]}" -gt 60 ] || differs 'checks/processes/words.txt lacks lines'
for words in '' "${refused[@]}" \
    "read --id 0 --observer 0 --replicas 3 --sequencers 1 ${big:0:130}" \
    "client --id 0 --replicas 3 --sequencers 1 ${big}78" \
    "client --id 0 --replicas 3 --sequencers 1 $(printf '50 %.0s' {1..65})"; do
    # shellcheck disable=SC2086
    "$program" $words < /dev/null > "$folder/out" 2> "$folder/err"
    same "the words '$words'" $? 2 "$usage"
done
# shellcheck disable=SC2086
"$program" read --id 0 --observer 0 $site '' > "$folder/out" 2> "$folder/err"
same 'a key without bytes' $? 2 "$usage"
"$program" read '' --id 0 --observer 0 --replicas 3 --sequencers 1 > "$folder/out" 2> "$folder/err"
same 'a word without bytes' $? 2 "$usage"
"$program" $'\377' > "$folder/out" 2> "$folder/err"
same 'a word that is not UTF-8' $? 2 "$usage"
"$program" replay $'a\200' < "$schedule" > "$folder/out" 2> "$folder/err"
same 'a second word that is not UTF-8' $? 2 "$usage"
"$program" stop > /dev/full 2> "$folder/err"
same 'the usage line on a full disk' $? 4 ''

# ---- check
"$program" check < "$transcript" > "$folder/out" 2> "$folder/err"
same 'a transcript' $? 0 'legal 1 1 1'
"$program" check < examples/changed-result.transcript > "$folder/out" 2> "$folder/err"
same 'a changed transcript' $? 8 'refuted line 7 clause 5'
"$program" check < /dev/null > "$folder/out" 2> "$folder/err"
same 'no transcript' $? 8 'refuted line 1 clause 2'
"$program" check < "$folder" > "$folder/out" 2> "$folder/err"
same 'a folder as a transcript' $? 3 ''
"$program" check < "$transcript" > /dev/full 2> "$folder/err"
same 'a verdict on a full disk' $? 4 ''

# ---- nodes
# shellcheck disable=SC2086
{
    "$program" sequencer --id 0 $site --turns 3 > "$folder/out" 2> "$folder/err"
    same 'a sequencer' $? 0 'served 3 lost 0'
    "$program" controller --id 3 $site --install 0 --turns 2 > "$folder/out" 2> "$folder/err"
    same 'a controller' $? 0 'served 2 lost 0'
    "$program" node --id 2 $site --turns 2 > "$folder/out" 2> "$folder/err"
    same 'a replica' $? 0 'served 2 lost 0'
    "$program" node --id 2 $site --observers 4 --turns 2 > "$folder/out" 2> "$folder/err"
    same 'a replica with observers' $? 0 'served 2 lost 0'
    "$program" observer --id 3 $site --turns 2 > "$folder/out" 2> "$folder/err"
    same 'an observer' $? 0 'served 2 lost 0'
    "$program" read --id 7 --observer 3 $site --turns 2 6B > "$folder/out" 2> "$folder/err"
    same 'a read without an answer' $? 7 "read c7 1 o3 6b
served 2 lost 0"
    "$program" read --id 7 --observer 3 $site --turns 2 "${big:0:128}" > /dev/full 2> "$folder/err"
    same 'a read on a full disk' $? 4 ''
    "$program" client --id 7 $site --turns 2 5000016b000176 > "$folder/out" 2> "$folder/err"
    same 'a client without an answer' $? 7 "submit c7 1 5000016b000176
served 2 lost 0"
    "$program" client --id 4294967295 $site --turns 1 "$big" > "$folder/out" 2> "$folder/err"
    same 'the last client with the longest op' $? 7 "submit c4294967295 1 $big
served 1 lost 0"
    "$program" node --id 0 $site --turns 2 > /dev/full 2> "$folder/err"
    same 'a replica on a full disk' $? 4 ''
    "$program" sequencer --id 0 $site > "$folder/server" 2>&1 &
    server=$!
    awaits is_taken $((base + 8)) 1
    "$program" sequencer --id 0 $site --turns 2 > "$folder/out" 2> "$folder/err"
    same 'an occupied port' $? 5 ''
    kill "$server"
    wait "$server" 2> /dev/null
    server=
}

# ---- a cluster in one process, of the most clients and ops: all are accepted
made=$((made + 1))
# shellcheck disable=SC2086,SC2046
timeout 60 "$program" cluster $site --clients 16 $(printf '5000016b000176 %.0s' {1..64}) > "$folder/out" 2> "$folder/err"
status=$?
sed '1,/^transcript /{/^transcript /!d}; /^served /d' "$folder/out" > "$folder/transcript"
[ $status = 0 ] && [ ! -s "$folder/err" ] && grep -q '^history 64 c[0-9]* 4 5000016b000176$' "$folder/out" &&
    [ "$("$program" check < "$folder/transcript")" = 'legal 64 64 64' ] || differs "the cluster of 16 clients: status $status"
: > "$folder/out"

# ---- an observer beside three replicas, which tell two observers what is synchronised; one of these is not there
. checks/nodes.bash
# shellcheck disable=SC2086
nodes_of "$program" $site

# asks CLIENT OBSERVER TURNS: a new client asks an observer for the key k.
asks() {
    # shellcheck disable=SC2086
    timeout 60 "$program" read --id "$1" --observer "$2" $site --turns "$3" 6b > "$folder/out" 2> "$folder/err"
    status=$?
}

# read_is NAME STATUS CLIENT OBSERVER ANSWER: the client ended so; its lines are that it asked, the answer in this form, and the last one.
read_is() {
    made=$((made + 1))
    printf 'read c%s 1 o%s 6b\n%s' "$3" "$4" "${5:+$5$'\n'}" > "$folder/wanted"
    if [ "$status" != "$2" ] || [ -s "$folder/err" ] || ! tail -n 1 "$folder/out" | grep -qx 'served [0-9]* lost 0' ||
        ! diff <(head -n -1 "$folder/out" | sed -E 's/^(answer c[0-9]+ 1 o0) [1-9][0-9]* /\1 POSITION /') "$folder/wanted" > /dev/null; then
        differs "$1: status $status, '$(head -c 300 "$folder/out" "$folder/err")'"
    fi
}

start s0 sequencer --id 0
for i in 0 1 2; do start "r$i" node --id "$i" --observers 2; done
are_up s0 r0 r1 r2
asks 0 0 20
read_is 'a read while no observer runs' 7 0 0 ''
start o0 observer --id 0
are_up o0
asks 1 0 20000
read_is 'a read before a put' 0 1 0 'answer c1 1 o0 0 6e6f6e65'
made=$((made + 1))
# shellcheck disable=SC2086
timeout 60 "$program" client --id 2 $site 5000016b000176 > "$folder/out" 2>&1
grep -qx 'accept c2 1 6e6f6e65' "$folder/out" || differs "the put before a read: '$(head -c 300 "$folder/out")'"
# What is accepted is synchronised within a tenth of a second or so. An observer that lost it follows when more is: the same is put again.
for client in $(seq 3 252); do
    asks "$client" 0 20000
    ! grep -q ' 6e6f6e65$' "$folder/out" && break
    sleep 0.1
    # shellcheck disable=SC2086
    timeout 60 "$program" client --id $((client + 1000)) $site 5000016b000176 > /dev/null 2>&1
done
read_is 'a read after a put' 0 "$client" 0 "answer c$client 1 o0 POSITION 3d76"
asks 253 1 20
read_is 'a read of the observer that is not there' 7 253 1 ''
# shellcheck disable=SC2086
"$program" observer --id 0 $site --turns 2 > "$folder/out" 2> "$folder/err"
same 'an observer at an occupied port' $? 5 ''
stop

concludes
