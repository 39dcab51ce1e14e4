#!/bin/bash
# Pictures whose texts are known: of characters that SVG spells in its own way, of strings at and past the length that shows, of messages in
# several fragments, of crosses that stand for more than one datagram, of long schedules, of changed slots and views, of busy clients and
# crashed actors; how `spacetime` ends at a bad line and at an argument; and the words of the lock service. It takes a second or two, leaves
# nothing behind, and ends with status 1 at any difference.
#
#   checks/pictures.sh           the programs are crates/spacetime/out/spacetime and crates/lock_spacetime/out/lock_spacetime, or the files
#                                that SPACETIME and LOCK_SPACETIME name
. "$(dirname "$0")/common.bash" || exit 2
needs "${LOCK_SPACETIME:-}" lock_spacetime
locks=$program
needs "${SPACETIME:-}" spacetime

# drawn NAME LINE..: draws the picture of a schedule with these lines, in which each event has a row, and each delivery an arrow.
drawn() {
    name=$1
    shift
    printf '%s\n' "$@" > "$folder/schedule"
    "$program" < "$folder/schedule" > "$folder/out" 2> "$folder/err"
    local status=$?
    made=$((made + 1))
    if [ "$status" != 0 ] || [ -s "$folder/err" ]; then
        differs "$name: status $status, and on standard error '$(head -c 300 "$folder/err")'"
    fi
    local rows=$(($# - 1)) deliveries
    deliveries=$(grep -c '^deliver ' "$folder/schedule")
    made=$((made + 1))
    [ "$(grep -c '<text class="event"' "$folder/out")" = "$rows" ] || differs "$name: there are more or fewer rows than $rows"
    made=$((made + 1))
    [ "$(arrows)" = "$deliveries" ] || differs "$name: there are $(arrows) arrows and not $deliveries"
}

# arrows: how many arrows there are, those of the legend not among them.
arrows() {
    local all legend
    all=$(grep -cE '<path class="(arrow|again) ' "$folder/out")
    legend=$(grep -cE '>(request|reply|replicas|sessions|again)</text>' "$folder/out")
    echo $((all - legend))
}

# shows COUNT TEXT: so many texts of the picture are this one.
shows() {
    local count
    count=$(grep -o '>[^<>]*</text>' "$folder/out" | grep -cxF -- ">$2</text>")
    made=$((made + 1))
    [ "$count" = "$1" ] || differs "$name: '$2' stands there $count times and not $1"
}

# draws COUNT CLASS: so many paths of the picture are of this class, the legend's among them.
draws() {
    local count
    count=$(grep -cF -- "<path class=\"$2\" " "$folder/out")
    made=$((made + 1))
    [ "$count" = "$1" ] || differs "$name: there are $count paths of the class '$2' and not $1"
}

# ends STATUS LINE: nothing was drawn, and standard error has the line.
ends() {
    made=$((made + 1))
    if [ "$status" != "$1" ] || [ "$(cat "$folder/err")" != "$2" ] || [ -s "$folder/out" ]; then
        differs "$name: status $status, '$(head -c 300 "$folder/err")' and not $1, '$2'"
    fi
}

two='nopaxos 1 replicas 3 sequencers 1 clients 2'

# the key a&" and the value <v>
drawn 'characters of markup' "$two" 'submit c0 50000361262200033c763e' 'deliver 0 s0' 'deliver 1 r0' 'deliver 1 r1' \
    'deliver 2 c0' 'deliver 3 c0' 'submit c0 470003612622' 'deliver 4 s0' 'deliver 5 r0' 'deliver 5 r1' 'deliver 6 c0' 'deliver 7 c0'
shows 1 'put a&amp;" &lt;v&gt;'
shows 1 'get a&amp;"'
shows 1 '#2 =&lt;v&gt;'
shows 1 'reply c0#2 slot 2 =&lt;v&gt;'

# 12 and 13 letters; 6 and 7 bytes that are no letters
drawn 'strings of some length' "$two" 'submit c0 43000c6162636465666768696a6b6c000d6162636465666768696a6b6c6d000178' \
    'submit c1 5000060102030405060007000102030405ff'
shows 1 'compare-and-set abcdefghijkl abcdefghijkl.. x'
shows 1 'put 010203040506 000102030405..'
drawn 'a delete, and no op of the service' "$two" 'submit c0 4400016b' 'submit c1 0102030405060708'
shows 1 'delete k'
shows 1 '010203040506'

# ops with a byte too few, and with one too many
drawn 'ops that are none' "$two" 'submit c0 5000016b0002' 'submit c1 4700016b00'
shows 1 '5000016b0002'
shows 1 '4700016b00'

# no value, a value of 3 bytes that are no letters, one of 12 letters: each is put and read
drawn 'values that are read' "$two" 'submit c0 5000016b0000' 'deliver 0 s0' 'deliver 1 r0' 'deliver 1 r1' 'deliver 2 c0' 'deliver 3 c0' \
    'submit c1 4700016b' 'deliver 4 s0' 'deliver 5 r0' 'deliver 5 r1' 'deliver 6 c1' 'deliver 7 c1' \
    'submit c0 5000016b000300ff20' 'deliver 8 s0' 'deliver 9 r0' 'deliver 9 r1' 'deliver 10 c0' 'deliver 11 c0' \
    'submit c1 4700016b' 'deliver 12 s0' 'deliver 13 r0' 'deliver 13 r1' 'deliver 14 c1' 'deliver 15 c1' \
    'submit c0 5000016b000c6162636465666768696a6b6c' 'deliver 16 s0' 'deliver 17 r0' 'deliver 17 r1' 'deliver 18 c0' 'deliver 19 c0' \
    'submit c1 4700016b' 'deliver 20 s0' 'deliver 21 r0' 'deliver 21 r1' 'deliver 22 c1' 'deliver 23 c1'
shows 1 'put k '
shows 1 '#1 =0x'
shows 1 'put k 00ff20'
shows 1 '#2 =0x00ff20'
shows 1 'put k abcdefghijkl'
shows 1 '#3 =abcdefghijk..'

# a log of three requests with ops of 640 bytes: 1,987 bytes in two fragments to each follower, neither of which is delivered
big=$(printf 'ff%.0s' $(seq 640))
drawn 'fragments of a longer message' 'nopaxos 1 replicas 3 sequencers 1 clients 3' "submit c0 $big" "submit c1 $big" "submit c2 $big" \
    'deliver 0 s0' 'deliver 1 s0' 'deliver 2 s0' 'deliver 3 r0' 'deliver 4 r0' 'deliver 5 r0' 'tick r0 sync'
shows 3 'ffffffffffff'
shows 2 'fragment 1 of 2 +1'
drawn 'the second fragment is delivered' 'nopaxos 1 replicas 3 sequencers 1 clients 3' "submit c0 $big" "submit c1 $big" "submit c2 $big" \
    'deliver 0 s0' 'deliver 1 s0' 'deliver 2 s0' 'deliver 3 r0' 'deliver 4 r0' 'deliver 5 r0' 'tick r0 sync' 'deliver 10 r1'
shows 1 'fragment 2 of 2'
shows 1 'fragment 1 of 2'
shows 1 'fragment 1 of 2 +1'

# r1 misses the request for the view and the change that r2 sends it, r0 the request alone
drawn 'a cross for two datagrams' "$two" 'tick r2 suspect'
shows 1 'ViewChangeReq (1,1)'
shows 1 'ViewChangeReq (1,1) +1'
shows 1 'enters view (1,1)'

# c0 sends its request to both sequencers, and s1 never takes it; then s1 takes it, and s0 its retry
drawn 'a request that one of two sequencers never got' 'nopaxos 1 replicas 1 sequencers 2 clients 1' 'submit c0 4700016b' 'deliver 0 s0'
shows 1 's1 misses'
shows 0 's0 misses'
drawn 'a request that each of two sequencers got' 'nopaxos 1 replicas 1 sequencers 2 clients 1' 'submit c0 4700016b' 'deliver 0 s0' \
    'deliver 0 s1'
shows 0 's1 misses'
made=$((made + 1))
grep -qxF '<title>A run of 3 events</title>' "$folder/out" || differs "$name: it has no title"

mapfile -t retries < <(yes 'tick c0 retry' | head -n 120)
drawn 'more than 100 events' "$two" "${retries[@]}"
shows 120 'tick c0 retry'
shows 1 121

# r0 logs a request of c0 that nobody else gets; r1 and r2 begin the next session with one of c1 that has the same id, and a view later
# r0 takes their log: the request in its first slot has another client
drawn 'a slot that changes its client' 'nopaxos 1 replicas 3 sequencers 2 clients 2' 'submit c0 5000016b000176' 'deliver 0 s0' \
    'deliver 1 r0' 'install s1' 'deliver 3 s1' 'submit c1 4700016b' 'deliver 5 s1' 'tick r1 suspect' 'deliver 6 r1' 'deliver 6 r2' \
    'deliver 8 r2' 'deliver 12 r1' 'deliver 13 r2' 'tick r2 suspect' 'deliver 16 r1' 'deliver 18 r2' 'deliver 19 r0'
shows 1 '1: c0#1'
shows 3 '1: c1#1'
shows 2 'view (2,2) starts'

drawn 'a change of view within a session' "$two" 'tick r1 suspect' 'deliver 0 r2' 'deliver 2 r1' 'deliver 3 r2'
shows 2 'enters view (1,1)'
shows 2 'view (1,1) starts'

# controller 1 gives sequencer 0 the first session of its first epoch, and the one replica follows
drawn 'a session of a second controller' 'nopaxos 2 replicas 1 sequencers 1 clients 1 controllers 2' 'install s0 ctl1' 'deliver 0 s0' \
    'submit c0 4700016b' 'deliver 2 s0' 'deliver 3 r0'
shows 1 ctl1
shows 0 ctl
shows 1 'session 1.1 at s0'
shows 1 'stamped 1.1:1 c0#1'
shows 1 'view (0,1.1) starts'

# c0 has eight open requests; r1 crashes, again, and then a datagram comes
mapfile -t submits < <(yes 'submit c0 4700016b' | head -n 9)
drawn 'who is busy, and who crashed before' "$two" "${submits[@]}" 'crash r1' 'crash r1' 'deliver 0 r1'
shows 1 busy
shows 1 crash
shows 2 crashed
shows 2 'crash r1'
draws 4 refuse
draws 2 crash

# s0 stamps the request, and r0 takes it twice
drawn 'a datagram that is delivered again' "$two" 'submit c0 4700016b' 'deliver 0 s0' 'deliver 1 r0' 'deliver 1 r0'
draws 3 'arrow request'
draws 2 'again request'
shows 1 again

drawn 'malformed bytes, and timers' "$two" 'junk r0 0102' 'tick r0 watch' 'tick r0 resend' 'tick ctl resend'
shows 1 'junk r0'
shows 1 '2 bytes'
shows 1 'tick r0 watch'
shows 1 'tick r0 resend'
shows 1 'tick ctl resend'

drawn 'a ping and its answer' "$two" 'tick ctl probe' 'deliver 0 s0' 'deliver 1 ctl'
shows 1 'tick ctl probe'
shows 1 'ping 1'
shows 1 'pong 1'

# r0 logs six requests, and r1 gets all of them at once
drawn 'more slots than have notes' 'nopaxos 1 replicas 3 sequencers 1 clients 6' 'submit c0 4700016b' 'submit c1 4700016b' \
    'submit c2 4700016b' 'submit c3 4700016b' 'submit c4 4700016b' 'submit c5 4700016b' 'deliver 0 s0' 'deliver 1 s0' 'deliver 2 s0' \
    'deliver 3 s0' 'deliver 4 s0' 'deliver 5 s0' 'deliver 6 r0' 'deliver 7 r0' 'deliver 8 r0' 'deliver 9 r0' 'deliver 10 r0' \
    'deliver 11 r0' 'tick r0 sync' 'deliver 18 r1'
shows 2 '4: c3#1'
shows 1 '5: c4#1'
shows 1 '2 more slots'

# r0 and r1 have a put synchronised, a get comes to both, and r2 is sent all of it; then r0 misses number 3, and r1 agrees
drawn 'slots above a sync point' "$two" 'submit c0 5000016b000176' 'deliver 0 s0' 'deliver 1 r0' 'deliver 1 r1' 'tick r0 sync' \
    'deliver 4 r1' 'deliver 5 r0' 'deliver 6 r1' 'submit c1 4700016b' 'deliver 7 s0' 'deliver 8 r0' 'deliver 8 r1' 'tick r0 sync' \
    'deliver 11 r2' 'deliver 7 s0' 'deliver 7 s0' 'deliver 15 r0' 'deliver 16 r1' 'deliver 17 r0'
shows 2 '1: c0#1'
shows 1 'checkpoint to 1'
draws 2 checkpoint
shows 3 'synced to 1'
shows 3 '2: c1#1'
shows 2 '3: NO-OP'
shows 1 '4: c1#1'

name='a datagram that was not sent'
printf '%s\n' "$two" 'submit c0 4700016b' 'deliver 7 s0' | "$program" > "$folder/out" 2> "$folder/err"
status=$?
ends 1 'error line 3 rule 8 index 7 sent 1'
name='an argument that is no text'
"$program" $'\xff' < examples/one-put.schedule > "$folder/out" 2> "$folder/err"
status=$?
ends 2 'usage: spacetime < SCHEDULE > PICTURE'

# ---- the lock service
program=$locks
# ann acquires a and releases it; both ask who holds the lock of 13 letters, whose owner has 2 bytes that are no letters
drawn 'words of the lock service' "$two" 'submit c0 41016103616e6e' 'deliver 0 s0' 'deliver 1 r0' 'deliver 1 r1' 'deliver 2 c0' 'deliver 3 c0' \
    'submit c0 52016103616e6e0000000000000001' 'deliver 4 s0' 'deliver 5 r0' 'deliver 5 r1' 'deliver 6 c0' 'deliver 7 c0' \
    'submit c1 410d6162636465666768696a6b6c6d02ff00' 'deliver 8 s0' 'deliver 9 r0' 'deliver 9 r1' 'deliver 10 c1' 'deliver 11 c1' \
    'submit c1 490d6162636465666768696a6b6c6d' 'deliver 12 s0' 'deliver 13 r0' 'deliver 13 r1' 'deliver 14 c1' 'deliver 15 c1' \
    'submit c0 4700016b' 'deliver 16 s0' 'deliver 17 r0' 'deliver 17 r1' 'deliver 18 c0' 'deliver 19 c0'
shows 1 'acquire a ann'
shows 1 'reply c0#1 slot 1 granted 1'
shows 1 '#1 granted 1'
shows 1 'release a ann 1'
shows 1 '#2 released'
shows 1 'acquire abcdefghijkl.. ff00'
shows 1 '#1 granted 2'
shows 1 'inspect abcdefghijkl..'
shows 1 '#2 held 2 ff00'
# a get of the key-value store
shows 1 '4700016b'
shows 1 '#3 bad'

concludes
