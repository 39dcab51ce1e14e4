#!/bin/bash
# Replays schedules that meet the limits of logs, queues, messages, maps and groups, and compares the output with a transcript that is
# written out beside the schedule, event by event, from the rules of the protocol and from its formats. Each transcript is judged too,
# and one of a million lines. It takes some seconds, leaves nothing behind, and ends with status 1 at any difference.
#
#   checks/limits.sh             the program is crates/nopaxos/out/nopaxos, or the file that NOPAXOS names
. "$(dirname "$0")/common.bash" || exit 2
needs "${NOPAXOS:-}" nopaxos -- replay

# begins NAME REPLICAS SEQUENCERS CLIENTS [CONTROLLERS]: a schedule, of which nothing was sent. Its header has the form without controllers
# where there is one.
begins() {
    local group="1 replicas $2 sequencers $3 clients $4"
    [ $# = 4 ] || group="2 replicas $2 sequencers $3 clients $4 controllers $5"
    name=$1
    sent=0
    exec 3> "$folder/schedule" 4> "$folder/transcript"
    event "nopaxos $group"
    line "transcript $group"
}

# event LINE: one more line of the schedule.
event() {
    echo "$1" >&3
}

# line LINE: one more line of the transcript.
line() {
    echo "$1" >&4
}

# sends FROM TO KIND LENGTH: one more datagram.
sends() {
    echo "send $sent $1 $2 $3 $4" >&4
    sent=$((sent + 1))
}

# tells FROM TO LENGTH: a peer message of so many bytes, in fragments.
tells() {
    local left=$3
    while ((left > 1400)); do
        sends "$1" "$2" fragment 1417
        left=$((left - 1400))
    done
    sends "$1" "$2" fragment $((left + 17))
}

# delivers FIRST LAST ACTOR: these datagrams, one after the other.
delivers() {
    local i
    for ((i = $1; i <= $2; i++)); do event "deliver $i $3"; done
}

# bytes BYTE COUNT: a byte in hexadecimal, so many times.
bytes() {
    printf "$1%.0s" $(seq "$2")
}

# same: the schedule ends here, and its transcript is the one that was written out.
same() {
    local status
    line end
    made=$((made + 1))
    "$program" replay < "$folder/schedule" > "$folder/out" 2> "$folder/err"
    status=$?
    cmp "$folder/out" "$folder/transcript" > "$folder/differ" 2>&1
    if [ "$status" != 0 ] || [ -s "$folder/differ" ] || [ -s "$folder/err" ]; then
        differs "$name: status $status, $(cat "$folder/differ" "$folder/err")"
    fi
    legal
}

# legal: the transcript passes, with the numbers of its lines.
legal() {
    local status wanted
    made=$((made + 1))
    wanted="legal $(lines submit) $(lines accept) $(lines history)"
    "$program" check < "$folder/transcript" > "$folder/out" 2> "$folder/err"
    status=$?
    if [ "$status" != 0 ] || [ "$(cat "$folder/out" "$folder/err")" != "$wanted" ]; then
        differs "$name, judged: status $status, '$(cat "$folder/out" "$folder/err" | head -c 300)' and not '$wanted'"
    fi
}

# lines WORD: how many lines of the transcript begin with it.
lines() {
    grep -c "^$1 " "$folder/transcript"
}

put=5000016b000176
get=4700016b

# asks ID: client 0 submits a get, which is stamped and reaches the one replica.
asks() {
    event "submit c0 $get"
    line "submit c0 $1 $get"
    sends c0 's*' request 22
    event "deliver $((sent - 1)) s0"
    sends s0 'r*' stamped 38
    event "deliver $((sent - 1)) r0"
}

# answers ID: the replica replies, and the client accepts.
answers() {
    sends r0 c0 reply 40
    event "deliver $((sent - 1)) c0"
    line "accept c0 $1 6e6f6e65"
}

# filled NAME: one replica alone, whose log gets full: 4,096 requests are answered, and the next packet comes.
filled() {
    begins "$1" 1 1 1
    for ((slot = 1; slot <= 4096; slot++)); do
        asks "$slot"
        answers "$slot"
    done
    asks 4097
}

# told VIEW SLOTS POINT: how the one replica stands at the end, with so many slots of which the first are synchronised, and the history.
told() {
    local slot
    line "replica r0 up normal $1 $2 $3"
    for ((slot = 1; slot <= $3; slot++)); do line "entry r0 $slot c0 $slot $get"; done
    for ((slot = 1; slot <= $2; slot++)); do line "history $slot c0 $slot $get"; done
}

# ---- The packet past a full log has no reply, and the log stays as long as it was.
filled 'a full log'
told '0 1' 4096 0
same

# ---- It waits: once all slots are synchronised and have moved out of the log, it is logged and answered.
filled 'a full log that is synchronised'
event 'tick r0 sync'
sends r0 c0 reply 40
told '0 1' 4097 4096
same

# ---- So it is where a view begins with the full log, of which each request is answered again. The log goes on, past the slots that it
# can keep.
filled 'a full log in the next view'
event 'tick r0 suspect'
for ((slot = 1; slot <= 4096; slot++)); do sends r0 c0 reply 40; done
event 'tick r0 sync'
answers 4097
asks 4098
answers 4098
event 'tick r0 sync'
asks 4099
answers 4099
told '1 1' 4099 4098
same

# ---- Sixteen clients have a put each, and the sequencer stamps them in turn, 4,097 times. The leader misses number 1. While its gap
# waits, numbers 2 to 1,025 fill its queue, and 1,026 is dropped, as it does not come again in time; the vote lets it take all of the
# queue at once. Then its log gets full, and number 4,097 waits. The log is told to both followers, of which one has slot 1 and one
# nothing; with it their logs are full too. Once it is synchronised, number 4,097 is logged, at the leader and at a follower.
begins 'a full queue and a full log' 3 1 16
for ((c = 0; c < 16; c++)); do
    event "submit c$c $put"
    line "submit c$c 1 $put"
    sends "c$c" 's*' request 25
done
# Number n is datagram 15 + n, and has the request of client (n - 1) % 16.
for ((n = 1; n <= 4097; n++)); do
    event "deliver $(((n - 1) % 16)) s0"
    sends s0 'r*' stamped 41
done
event 'deliver 17 r0'
sends r0 'r*' fragment 35
delivers 18 1041 r0
event "deliver $((sent - 1)) r1"
sends r1 r0 fragment 35
event "deliver $((sent - 1)) r0"
# The first put found nothing, and the others v. It is that of client 1, in slot 2.
lengths=(38 40 38 38 38 38 38 38 38 38 38 38 38 38 38 38)
for ((n = 2; n <= 1025; n++)); do
    c=$(((n - 1) % 16))
    sends r0 "c$c" reply "${lengths[c]}"
done
for ((n = 1026; n <= 4096; n++)); do
    c=$(((n - 1) % 16))
    event "deliver $((15 + n)) r0"
    sends r0 "c$c" reply "${lengths[c]}"
done
event 'deliver 4112 r0'
# A log of a NO-OP and 4,095 puts, in 65 fragments.
event 'tick r0 sync'
first=$sent
tells r0 'r*' $((22 + 1 + 4095 * 22))
last=$((sent - 1))
for follower in r2 r1; do
    delivers "$first" "$last" "$follower"
    for ((n = 2; n <= 4096; n++)); do sends "$follower" "c$(((n - 1) % 16))" reply 36; done
    sends "$follower" r0 fragment 35
    vote[${follower#r}]=$((sent - 1))
done
delivers "$first" "$last" r1
sends r1 r0 fragment 35
event 'deliver 4112 r2'
event "deliver ${vote[2]} r0"
commit=$sent
sends r0 'r*' fragment 35
sends r0 c0 reply 38
event "deliver $commit r2"
sends r2 c0 reply 36
event "deliver ${vote[1]} r0"
for replica in 0 1 2; do
    if [ "$replica" = 1 ]; then
        line 'replica r1 up normal 0 1 4096 0'
        continue
    fi
    line "replica r$replica up normal 0 1 4097 4096"
    line "entry r$replica 1 noop"
    for ((n = 2; n <= 4096; n++)); do line "entry r$replica $n c$(((n - 1) % 16)) 1 $put"; done
done
for ((n = 2; n <= 17; n++)); do line "history $((n - 1)) c$(((n - 1) % 16)) 1 $put"; done
same

# ---- The longest peer messages without a checkpoint: a request with 640 bytes is stamped 4,096 times, and two of three replicas log all
# of it. Replica 1 leads the next view, merges two full logs, executes them at once, and answers each slot; so do the others, whom it
# tells the log.
big=$(bytes 78 640)
begins 'the longest logs' 3 1 1
event "submit c0 $big"
line "submit c0 1 $big"
sends c0 's*' request 658
for ((n = 1; n <= 4096; n++)); do
    event 'deliver 0 s0'
    sends s0 'r*' stamped 674
done
for follower in r1 r2; do
    delivers 1 4096 "$follower"
    for ((n = 1; n <= 4096; n++)); do sends "$follower" c0 reply 36; done
done
event 'tick r1 suspect'
sends r1 'r*' fragment 31
event "deliver $((sent - 1)) r2"
sends r2 'r*' fragment 31
first=$sent
tells r2 r1 $((42 + 4096 * 655))
delivers "$first" $((sent - 1)) r1
first=$sent
tells r1 'r*' $((30 + 4096 * 655))
last=$((sent - 1))
for ((n = 1; n <= 4096; n++)); do sends r1 c0 reply 39; done
for follower in r2 r0; do
    delivers "$first" "$last" "$follower"
    for ((n = 1; n <= 4096; n++)); do sends "$follower" c0 reply 36; done
done
for replica in 0 1 2; do line "replica r$replica up normal 1 1 4096 0"; done
line "history 1 c0 1 $big"
same

# ---- The greatest map: 4,096 keys of 64 bytes get values of 256 bytes, at the leader and at a follower, and are synchronised. A put of one
# key more is answered `full`. The other follower has only that packet; it asks for slot 1, and is told the map in a checkpoint. Then it
# leads a view, and answers the same. The checkpoint has the map, and one client with the results of its last eight puts.
begins 'the greatest checkpoint' 3 1 1
value=0100$(bytes 76 256)
key=0040$(bytes 6b 62)
puts=()
for ((id = 1; id <= 4097; id++)); do
    printf -v place %04x "$id"
    puts[id]=50$key$place$value
done
# reaches ID FOLLOWER: the put is stamped, and reaches the leader and this follower.
reaches() {
    event "submit c0 ${puts[$1]}"
    line "submit c0 $1 ${puts[$1]}"
    sends c0 's*' request 343
    event "deliver $((sent - 1)) s0"
    sends s0 'r*' stamped 359
    stamped=$((sent - 1))
    event "deliver $stamped r0"
    sends r0 c0 reply 40
    event "deliver $stamped $2"
}
for ((id = 1; id <= 4096; id++)); do
    reaches "$id" r1
    sends r1 c0 reply 36
    delivers $((sent - 2)) $((sent - 1)) c0
    line "accept c0 $id 6e6f6e65"
done
event 'tick r0 sync'
first=$sent
tells r0 'r*' $((22 + 4096 * 340))
delivers "$first" $((sent - 1)) r1
sends r1 r0 fragment 35
event "deliver $((sent - 1)) r0"
sends r0 'r*' fragment 35
event "deliver $((sent - 1)) r1"
reaches 4097 r2
reply=$((sent - 1))
sends r2 r0 fragment 35
event "deliver $((sent - 1)) r0"
checkpoint=$((4 + (4 + 4096 * (2 + 64 + 2 + 256)) + 4 + (13 + 8 * 14)))
first=$sent
tells r0 r2 $((22 + checkpoint))
delivers "$first" $((sent - 1)) r2
sends r2 r0 fragment 35
sends r2 c0 reply 36
event "deliver $((sent - 1)) c0"
event "deliver $reply c0"
line 'accept c0 4097 66756c6c'
event 'tick r2 suspect'
sends r2 'r*' fragment 31
tells r2 r1 $((42 + checkpoint + 340))
event 'tick r2 suspect'
sends r2 'r*' fragment 31
event "deliver $((sent - 1)) r1"
sends r1 'r*' fragment 31
first=$sent
tells r1 r2 $((42 + checkpoint))
delivers "$first" $((sent - 1)) r2
tells r2 'r*' $((30 + checkpoint + 340))
sends r2 c0 reply 40
event "deliver $((sent - 1)) c0"
for replica in 0 1 2; do
    case $replica in
    0) line 'replica r0 up normal 0 1 4097 4096' ;;
    1) line 'replica r1 up change 2 1 4096 4096' ;;
    2) line 'replica r2 up normal 2 1 4097 4096' ;;
    esac
    for ((id = 1; id <= 4096; id++)); do line "entry r$replica $id c0 $id ${puts[id]}"; done
done
for ((id = 1; id <= 4097; id++)); do line "history $id c0 $id ${puts[id]}"; done
same

# ---- The greatest group: seven replicas, four sequencers, sixteen clients, four controllers. The last client puts the longest value at the
# longest key, twice. Controller 3 gives sequencer 3 the first session of its first epoch, and that one stamps the longest op, which is no op
# of the service. The sequencer's packet brings a view change, for which the leader waits for four logs.
session=$((3 * 2 ** 32 + 1))
put=500040$(bytes 6b 64)0100$(bytes 76 256)
begins 'the greatest group' 7 4 16 4
for id in 1 2; do
    event "submit c15 $put"
    line "submit c15 $id $put"
    sends c15 's*' request 343
    event "deliver $((sent - 1)) s0"
    sends s0 'r*' stamped 359
    stamped=$((sent - 1))
    event "deliver $stamped r0"
    # none, and then the value
    if [ "$id" = 1 ]; then sends r0 c15 reply 40; else sends r0 c15 reply 293; fi
    for replica in r1 r2 r3 r4 r5 r6; do
        event "deliver $stamped $replica"
        sends "$replica" c15 reply 36
    done
    delivers $((stamped + 2)) $((stamped + 4)) c15
    event "deliver $((stamped + 1)) c15"
    if [ "$id" = 1 ]; then line 'accept c15 1 6e6f6e65'; else line "accept c15 2 3d$(bytes 76 256)"; fi
done
event 'install s3 ctl3'
sends ctl3 s3 install 14
event 'deliver 18 s3'
sends s3 ctl3 installed 14
event "submit c0 $big"
line "submit c0 1 $big"
sends c0 's*' request 658
event 'deliver 20 s3'
sends s3 'r*' stamped 674
# Each change has both puts.
event 'deliver 21 r6'
sends r6 'r*' fragment 31
tells r6 r0 $((42 + 2 * 340))
for replica in r1 r2 r3 r4 r5; do
    event "deliver 22 $replica"
    sends "$replica" 'r*' fragment 31
    tells "$replica" r0 $((42 + 2 * 340))
done
event 'deliver 23 r0'
sends r0 'r*' fragment 31
event 'deliver 25 r0'
event 'deliver 27 r0'
tells r0 'r*' $((30 + 2 * 340))
start=$((sent - 1))
sends r0 c15 reply 40
sends r0 c15 reply 293
# Replica 6 has the packet of the new session already.
for replica in r6 r1 r2; do
    event "deliver $start $replica"
    sends "$replica" c15 reply 36
    sends "$replica" c15 reply 36
    [ "$replica" = r6 ] || event "deliver 21 $replica"
    sends "$replica" c0 reply 36
    event "deliver $((sent - 1)) c0"
done
event 'deliver 21 r0'
sends r0 c0 reply 39
event "deliver $((sent - 1)) c0"
line 'accept c0 1 626164'
for replica in 0 1 2; do line "replica r$replica up normal 0 $session 3 0"; done
for replica in 3 4 5; do line "replica r$replica up change 0 $session 2 0"; done
line "replica r6 up normal 0 $session 3 0"
line "history 1 c15 1 $put"
line "history 2 c15 2 $put"
line "history 3 c0 1 $big"
same

# ---- A transcript of a million lines: 333,332 requests with no bytes, each submitted, accepted and in the history.
name='a million lines'
{
    echo 'transcript 1 replicas 1 sequencers 1 clients 1'
    echo 'busy c0'
    echo 'busy c0'
    seq 333332 | sed 's/.*/submit c0 & -\naccept c0 & 626164/'
    seq 333332 | sed 's/.*/history & c0 & -/'
    echo end
} > "$folder/transcript"
[ "$(wc -l < "$folder/transcript")" = 1000000 ] || differs "$name: there are more or fewer"
legal

concludes
