#!/bin/bash
# Runs `kv`, the key-value store in words, and `locks`, the lock service, on clusters of real processes: each op, the lines of an input as one
# client, the state that is shown, and some fifty wrong calls, each with the reason that docs/FORMATS.md has for it; then over a list of
# hosts, on addresses 127.0.1.1 to 127.0.1.4. It takes some twenty seconds, leaves nothing behind, and ends with status 1 at any difference.
#
#   checks/tool.sh               the nodes are those of crates/nopaxos/out/nopaxos, or of the file that NOPAXOS names; likewise
#                                lock_service and LOCKS, nopaxos_hosts and HOSTS; KV and LOCK_TOOL name the tools
. "$(dirname "$0")/common.bash" || exit 2
needs "${LOCKS:-}" lock_service -- replay
lock_service=$program
needs "${HOSTS:-}" nopaxos_hosts
nopaxos_hosts=$program
needs "${LOCK_TOOL:-}" locks -- --version
locks=$program
digits='\(0\|[1-9][0-9]*\)'

. checks/nodes.bash
kv_cluster
kv=$program

# ends STATUS WANTED TOLD ARGUMENTS..: the program ends with this status, writes what is wanted, and tells this on standard error.
ends() {
    local wanted=$1 text=$2 told=$3 status
    shift 3
    made=$((made + 1))
    timeout 60 "$program" "$@" < "$folder/input" > "$folder/out" 2> "$folder/err"
    status=$?
    if [ "$status" != "$wanted" ] || [ "$(cat "$folder/out")" != "$text" ] || [ "$(cat "$folder/err")" != "$told" ]; then
        differs "'$*': status $status, '$(head -c 300 "$folder/out")', and on standard error '$(head -c 300 "$folder/err")'"
    fi
}

# refuses TOLD ARGUMENTS..: the words ask for nothing, and this is told, behind the program's name.
refuses() {
    local told=$1
    shift
    ends 2 '' "${program##*/}: $told" "$@"
}

# shows LEAST WORDS..: one state of the service is shown, with at least this length.
shows() {
    local least=$1 status
    shift
    made=$((made + 1))
    timeout 60 "$program" "$@" status > "$folder/out" 2> "$folder/err"
    status=$?
    read -r _ view _ _ leader _ _ _ synced _ < <(tail -n 1 "$folder/out")
    if [ "$status" != 0 ] || [ -s "$folder/err" ] || ! tail -n 1 "$folder/out" |
        grep -qx "view $digits $digits leader r[0-2] controller ctl synced $digits rate $digits age $digits"; then
        differs "'$* status': status $status, '$(head -c 300 "$folder/out")', and on standard error '$(head -c 300 "$folder/err")'"
    elif [ "$leader" != "r$((view % 3))" ] || [ "$synced" -lt "$least" ]; then
        differs "'$* status' shows '$(tail -n 1 "$folder/out")'"
    fi
}

# loads ID: a load through four numbers from this one on, all of whose ops are answered.
loads() {
    local status
    made=$((made + 1))
    # shellcheck disable=SC2086
    timeout 60 "$program" $site --id "$1" load 4 2000 > "$folder/out" 2> "$folder/err"
    status=$?
    [ "$status" = 0 ] && grep -qx "answered 2000 of 2000 rate $digits p50 $digits p99 $digits" "$folder/out" &&
        ! grep -qvx "kv: answered $digits of 2000 rate $digits" "$folder/err" ||
        differs "a load: status $status, '$(head -c 300 "$folder/out")', and on standard error '$(head -c 300 "$folder/err")'"
}

# called ID WANTED OP..: a new client is answered so.
called() {
    local id=$1 wanted=$2
    shift 2
    # shellcheck disable=SC2086
    ends 0 "$wanted" '' $site --id "$id" "$@"
}

: > "$folder/input"
site="--replicas 3 --sequencers 1 --base $base"
start s0 sequencer --id 0
for i in 0 1 2; do start "r$i" node --id $i --observers 2; done
start ctl controller --id 0
start o0 observer --id 0
are_up s0 r0 r1 r2 ctl o0

called 0 none put k v
called 1 '=v' get k
called 2 yes swap k v w
called 3 no compare-and-set k v x
called 4 '=w' delete k

# All lines of an input are the ops of one client, also those behind a line that is none.
printf '%s\n' 'put a 1' 'put a 2' '' 'get a' 'take a' 'swap a 2 3' 'get a' > "$folder/input"
# shellcheck disable=SC2086
ends 2 $'none\n=1\n=2\nyes\n=3' 'kv: take: no op of this service, and no command: see --help' $site --id 5 repl
for ((i = 0; i < 500; i++)); do echo "put n $i"; done > "$folder/input"
made=$((made + 1))
# shellcheck disable=SC2086
timeout 60 "$program" $site --id 6 repl < "$folder/input" > "$folder/out" 2>&1
[ "$(tail -n 1 "$folder/out")" = '=498' ] && [ "$(wc -l < "$folder/out")" = 500 ] ||
    differs "500 ops of one client: '$(tail -n 2 "$folder/out")'"
# A line that is too long is the last one.
{ echo 'get n'; printf 'x%.0s' {1..4097}; printf '\nget n\n'; } > "$folder/input"
# shellcheck disable=SC2086
ends 2 '=499' 'kv: want at most 4294967294 lines of at most 4096 bytes' $site --id 7 repl
: > "$folder/input"

# The state, at the place of an observer that does not run, and of one that does.
# shellcheck disable=SC2086
shows 507 $site --observer 1
# shellcheck disable=SC2086
ends 5 '' "kv: the observer's port is in use: take another one by --observer" $site status
# Replicas tell observers 0 and 1 only.
# shellcheck disable=SC2086
ends 7 '' 'kv: no leader told anything. Is the service up, and does it know of this observer?' $site --observer 2 --turns 200 status

# A load: all its ops are answered, and the last value of a key is one of the load's.
loads 16
called 20 '=4' get load-d
# shellcheck disable=SC2086
shows 2508 $site --observer 1
refuses "load: want load CLIENTS OPS" load
refuses "load: want load CLIENTS OPS" --id 20 load 4
refuses "0: want 1 to 16 clients" --id 20 load 0 100
refuses "17: want 1 to 16 clients" --id 20 load 17 100
refuses "0: want 1 to 1000000000 ops" --id 20 load 4 0
refuses "1000000001: want 1 to 1000000000 ops" --id 20 load 4 1000000001
refuses "more: want no further word" --id 20 load 4 100 more
refuses "want --id and a client number that was never used before" load 4 100
ends 2 '' 'kv: want client numbers up to 4294967295' --id 4294967295 load 2 100

# What is asked for on the words themselves.
made=$((made + 5))
[ "$("$program" load --help | grep -c '^  load CLIENTS OPS: ')" = 1 ] || differs "no help on loads"
[ "$("$program" status --help | grep -c '^  status: ')" = 1 ] || differs "no help on status"
"$program" --help | grep -q '^  put KEY VALUE: ' || differs "no help"
"$program" --help | grep -q '^  --hosts FILE: ' || differs "no help on options"
[ "$("$program" put --help | grep -c '^  ')" = 1 ] || differs "no help on one word"
ends 0 'kv: datagrams of version 3' '' --version
ends 0 5000016b000176 '' op put k v
ends 0 'put k v' '' text 5000016b000176
ends 0 '=v' '' result 3d76

command='want a command: an op, repl, status, load, op, text, result or words'
no_op='no op of this service, and no command: see --help'
put='  put KEY VALUE: sets a key; gives its value before, as =VALUE or none'
get='  get KEY: gives the value of a key, as =VALUE or none'
swap='  swap KEY OLD NEW: sets a key to NEW where its value is OLD; gives yes or no'
number='want a client number from 0 to 4294967295'
turns='want a number of turns from 1 to 18446744073709551615'
port='want a port from 1024 to 65000'
replicas='want 1, 3, 5 or 7 replicas'
sequencers='want 1 to 4 sequencers'
id='want --id and a client number that was never used before'
refuses "$command"
refuses "$command" --id 7
refuses "$command" --base "$base"
refuses "pul: $no_op" pul k v
refuses "put: $no_op
$put" put k
refuses "put: $no_op
$put" put k v w
refuses "put: $no_op
$put" --id 7 put
refuses "get: $no_op
$get" get
refuses "get: $no_op
$get" get 0x
refuses "get: $no_op
$get" get 0x0
refuses "get: $no_op
$get" get 0xgg
refuses "get: $no_op
$get" get "$(printf 'k%.0s' {1..65})"
refuses "put: $no_op
$put" put k "$(printf 'v%.0s' {1..257})"
refuses "swap: $no_op
$swap" swap k v
refuses "$id" put k v
refuses "$id" repl
refuses "more: want no further word" --id 7 repl more
refuses "more: want no further word" status more
refuses "4: want the number of an observer from 0 to 3" --observer 4 status
refuses "o0: want the number of an observer from 0 to 3" --observer o0 status
refuses "--observer: want a value behind this option" --observer
refuses "--bas: no such option: see --help" --bas 47000 get k
refuses "--id: want a value behind this option" --id
refuses "--hosts: want a value behind this option" --hosts
refuses "x: $number" --id x get k
refuses "-1: $number" --id -1 get k
refuses "07: $number" --id 07 get k
refuses "4294967296: $number" --id 4294967296 get k
refuses "0: $turns" --id 7 --turns 0 get k
refuses "18446744073709551616: $turns" --id 7 --turns 18446744073709551616 get k
refuses "1023: $port" --base 1023 --id 7 get k
refuses "65001: $port" --base 65001 --id 7 get k
refuses "47k: $port" --base 47k --id 7 get k
refuses "2: $replicas" --replicas 2 --id 7 get k
refuses "9: $replicas" --replicas 9 --id 7 get k
refuses "0: $sequencers" --sequencers 0 --id 7 get k
refuses "5: $sequencers" --sequencers 5 --id 7 get k
ends 2 '' 'kv: a word is no text' get $'\377'
ends 3 '' "kv: the file of the list of hosts can't be read" --hosts "$folder/none" --id 7 get k
echo 'r0 here' > "$folder/hosts"
ends 2 '' 'kv: the list of hosts breaks rule 4 at line 1' --hosts "$folder/hosts" --id 7 get k
printf '%s\n' 'cluster 1' 'r0 127.0.0.1:4001' 's0 127.0.0.1:4002' 'ctl 127.0.0.1:4003' 'c0 127.0.0.1:4004' > "$folder/hosts"
ends 2 '' 'kv: the list of hosts has no place for this client number' --hosts "$folder/hosts" --id 7 get k
ends 2 '' 'kv: want op WORDS, text OP or result RESULT, by an op of this service' text 47

ends 2 '' 'kv: the list of hosts has no place for this observer' --hosts "$folder/hosts" status

# Sequencer 0 holds its port, which is that of client 0 of a service 8 ports below.
ends 5 '' "kv: the client's port is in use, or its number was used before: take one that never was" --base $((base - 8)) --id 0 get k
# Nobody is at these ports.
ends 7 '' 'kv: no answer in its turns; the op may still be executed. Is the service up, and the number one that was never used?' \
    --base $((base + 64)) --id 0 --turns 20 get k
stop

# ---- the lock service
program=$locks
nodes_of "$lock_service" --replicas 3 --sequencers 1 --base "$base"
site="--replicas 3 --sequencers 1 --base $base"
start s0 sequencer --id 0
for i in 0 1 2; do start "r$i" node --id $i --observers 1; done
start ctl controller --id 0
are_up s0 r0 r1 r2 ctl
called 0 'granted 1' acquire db ann
called 1 'held 1 ann' acquire db bob
called 2 'held 1 ann' inspect db
called 3 released release db ann 1
printf '%s\n' 'acquire db bob' 'inspect db' 'release db bob 2' 'inspect db' > "$folder/input"
# shellcheck disable=SC2086
ends 0 $'granted 2\nheld 2 bob\nreleased\nfree' '' $site --id 4 repl
: > "$folder/input"
made=$((made + 1))
# shellcheck disable=SC2086
timeout 60 "$program" $site --id 16 load 2 500 > "$folder/out" 2> "$folder/err"
grep -qx "answered 500 of 500 rate $digits p50 $digits p99 $digits" "$folder/out" ||
    differs "a load on locks: '$(head -c 300 "$folder/out")', and on standard error '$(head -c 300 "$folder/err")'"
# shellcheck disable=SC2086
shows 508 $site
refuses "0: want 1 to 16 clients" --id 20 load 0 100
refuses "put: $no_op" put k v
refuses "acquire: $no_op
  acquire NAME OWNER: takes a lock; gives granted with its token, or held with who holds it" acquire db
refuses "release: $no_op
  release NAME OWNER TOKEN: gives a lock back, by the token of its grant" release db ann x
refuses "more: want no further word" status more
refuses "$id" inspect db
stop

# ---- a list of hosts
program=$kv
hosts=$folder/hosts
three_hosts 8 > "$hosts"
nodes_of "$nopaxos_hosts"
site=
for name in r0 r1 r2 s0; do start "$name" "$hosts" "$name"; done
start ctl "$hosts" ctl --install 0
are_up r0 r1 r2 s0 ctl
site="--hosts $hosts"
called 0 none put k v
called 1 '=v' get k
printf '%s\n' 'put a 1' 'get a' > "$folder/input"
ends 0 $'none\n=1' '' --hosts "$hosts" --id 2 repl
: > "$folder/input"
# A number that was used before is refused.
ends 5 '' "kv: the client's port is in use, or its number was used before: take one that never was" --hosts "$hosts" --id 0 get k
# Any number of times, since no number is claimed.
shows 4 --hosts "$hosts"
shows 4 --hosts "$hosts"
ends 2 '' 'kv: the list of hosts has no place for this observer' --hosts "$hosts" --observer 1 status
ends 2 '' 'kv: the list of hosts has no place for this client number' --hosts "$hosts" --id 8 get k
# A load, each client at its place; not where one has none, nor where a number was used.
loads 3
called 7 '=4' get load-d
ends 2 '' 'kv: the list of hosts has no place for one of these client numbers' --hosts "$hosts" --id 7 load 2 100
ends 2 '' 'kv: want client numbers up to 4294967295' --hosts "$hosts" --id 4294967295 load 2 100
ends 5 '' "kv: a client's port is in use, or its number was used before: take numbers that never were" --hosts "$hosts" --id 3 load 1 100
concludes
