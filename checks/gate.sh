#!/bin/bash
# Runs `kv_gate` on clusters of real processes, with a client of its own that speaks the protocol of Redis: each request of docs/GATEWAY.md;
# requests sent at once, byte by byte, half, and not as the protocol has them; a user who never reads. Then the leader and the sequencer in
# use are killed, and the same connection is answered. With one replica of three a user waits, and connections stay open. Reads of observers
# see what their connection wrote, also where an observer is killed, and where the gateway has an observer's place of its own. INFO says what is seen at the gateway's own place, and nothing where it
# has none. By a list of hosts a gateway is answered, and another one with its numbers is refused; at the place of an observer of the list
# INFO says which nodes answer, also once a replica and then the controller are killed, and another gateway takes the place later. It takes
# some forty seconds, leaves nothing behind, and ends with status 1 at any difference.
#
#   checks/gate.sh               the programs are those of crates/*/out/, or the files that NOPAXOS, HOSTS and GATE name
. "$(dirname "$0")/common.bash" || exit 2
needs "${NOPAXOS:-}" nopaxos -- replay
nopaxos=$program
needs "${HOSTS:-}" nopaxos_hosts
at_hosts=$program
needs "${GATE:-}" kv_gate
. checks/nodes.bash
finds_ports
nodes_of "$nopaxos" --replicas 3 --sequencers 2 --base "$base"

cat > "$folder/user.py" << 'END'
import os, re, select, signal, socket, sys, time
def spelled(*words):
    words = [word.encode('latin1') for word in words]
    return b'*%d\r\n' % len(words) + b''.join(b'$%d\r\n%s\r\n' % (len(word), word) for word in words)
class User:
    def __init__(self):
        self.socket = socket.create_connection(('127.0.0.1', int(os.environ['PORT'])), 30)
        self.socket.setsockopt(socket.IPPROTO_TCP, socket.TCP_NODELAY, 1)
        self.lines = self.socket.makefile('rb')
    def reply(self):
        line = self.lines.readline().decode('latin1')
        kind, rest = line[:1], line[1:-2]
        if kind == '$': return None if rest == '-1' else self.lines.read(int(rest) + 2)[:-2].decode('latin1')
        if kind == ':': return int(rest)
        if kind == '*': return [self.reply() for _ in range(int(rest))]
        return line[:4] if kind == '-' else line[:-2]
    def ask(self, *words):
        self.socket.sendall(spelled(*words))
        return self.reply()
made, wrong = 0, 0
def same(what, got, wanted):
    global made, wrong
    made += 1
    if got != wanted or type(got) != type(wanted):
        wrong += 1
        print('gate:', str(what)[:100], 'gave', repr(got)[:100], 'and not', repr(wanted)[:100])

def table():
    user, odd = User(), 'a b\r\n\0\xff'
    for words, wanted in (
        ('GET k', None), ('EXISTS k', 0), ('SET k v', '+OK'), ('GET k', 'v'), ('EXISTS k', 1), ('SET k w GET', 'v'), ('GETSET k x', 'w'),
        ('set k v get', 'x'), ('GETSET n 1', None), ('SET m 2 GET', None), ('CAS k v w', 1), ('CAS k v x', 0), ('GET k', 'w'), ('CAS none v w', 0),
        ('DEL k', 1), ('DEL k', 0), ('GETDEL n', '1'), ('GETDEL n', None), ('GETDEL m', '2'), (('SET', 'e', ''), '+OK'), ('GET e', ''),
        ('EXISTS e', 1), (('CAS', 'e', '', odd), 1), ('GET e', odd), (('SET', odd, odd), '+OK'), (('GETDEL', odd), odd), ('PING', '+PONG'),
        ('PING a', 'a'), (('ECHO', odd), odd), ('SELECT 0', '+OK'), ('CLIENT SETNAME a', '+OK'), ('SET ' + 'k' * 64 + ' ' + 'v' * 256, '+OK'),
        ('GET ' + 'k' * 64, 'v' * 256)):
        same(words, user.ask(*(words.split() if isinstance(words, str) else words)), wanted)
    for words in ('COMMAND', 'COMMAND DOCS', 'CONFIG GET save'): same(words, type(user.ask(*words.split())), list)
    same('INFO', type(user.ask('INFO')), str)
    user.ask('SET', 'k', 'v')
    for words in ('SELECT 1', 'INCR k', 'HELLO 3', 'GET', 'GET k k', 'SET k', 'SET k w EX 5', 'SET k w NX', 'SET k w GET NX', 'DEL k k', 'CAS k v',
                  'CAS k v w w', 'GET ' + 'k' * 65, 'SET ' + 'k' * 65 + ' v', 'SET k ' + 'w' * 257, 'CAS k v ' + 'w' * 257):
        same(words, user.ask(*words.split()), '-ERR')
    for words in (('SET', '', 'v'), ('GET', ''), ('',)): same(words, user.ask(*words), '-ERR')
    same('after errors', user.ask('GET', 'k'), 'v')
    same('QUIT', [user.ask('QUIT'), user.reply()], ['+OK', ''])

def order():
    user = User()
    user.socket.sendall(b''.join(spelled('SET', 'o', str(i), 'GET') for i in range(300)))
    same('300 at once', [user.reply() for _ in range(300)], [None] + [str(i) for i in range(299)])
    for i in range(0, len(spelled('GET', 'o'))): user.socket.sendall(spelled('GET', 'o')[i:i + 1])
    same('byte by byte', user.reply(), '299')

def odd():
    for bytes in (b'*1\r\n$x\r\n', b'GET k\r\n', b'*1\r\n$-1\r\n', b'*2\r\n$3\r\nGET\r\n$1\r\nkk\r\n', b'*1\r\n$99999999\r\n'):
        user = User()
        user.socket.sendall(spelled('PING') + bytes + spelled('PING'))
        same(bytes, [user.reply() for _ in range(3)], ['+PONG', '-ERR', ''])
    halves, user = [User() for _ in range(50)], User()
    for half in halves: half.socket.sendall(spelled('ECHO', 'abc')[:-4])
    same('beside halves', [user.ask('SET', 'h', str(i)) for i in range(100)], ['+OK'] * 100)
    for _ in range(500): User().socket.close()
    same('after 500 who left', user.ask('GET', 'h'), '99')
    greedy, sent = User(), 0
    try:
        while sent < 1 << 27: sent += greedy.socket.send(spelled('ECHO', 'e' * 400) * 100)
    except OSError: pass
    same('who never reads has its connection ended', sent < 1 << 27, True)
    same('beside who never reads', user.ask('GET', 'h'), '99')
    for half in halves: half.socket.sendall(spelled('ECHO', 'abc')[-4:])
    same('halves at last', [half.reply() for half in halves], ['abc'] * 50)

# what INFO says, and how many of its lines are like this, once one is
def told(user, wanted):
    began = time.time()
    while True:
        lines = user.ask('INFO').splitlines()
        found = [line for line in map(re.compile(wanted).fullmatch, lines) if line]
        if found or time.time() - began > 10: return lines, found
        time.sleep(0.1)
# the length that INFO says is synchronised, once it is at least this one
def synced(user, least):
    began = time.time()
    while True:
        lines, found = told(user, r'view (\d+) \d+ leader (r\d) controller ctl\d* synced (\d+) rate \d+ age \d+')
        same('INFO', [lines[:1], len(found)], [['redis_mode:standalone'], 1])
        view, leader, length = found[0].groups()
        same('the leader', leader, f'r{int(view) % 3}')
        if int(length) >= least or time.time() - began > 10: return int(length)
        time.sleep(0.1)

def info():
    user = User()
    before = synced(user, 1)
    for i in range(50): user.ask('SET', 'i', str(i))
    same('what is synchronised', synced(user, before + 1) > before, True)

def alone():
    user = User()
    same('INFO of one without a place', user.ask('INFO'), 'redis_mode:standalone\r\n')
    for words in ('GETAT k', 'GETAT k k', 'GETAT ' + 'k' * 65, 'GET k'): same(words, user.ask(*words.split()), None if words == 'GET k' else '-ERR')

def reads(observer):
    user, other, reader = User(), User(), User()
    same('a read of no key', user.ask('GETAT', 'none'), None)
    for words in (('GETAT', ''), ('GETAT',), ('GETAT', 'k' * 65), ('GETAT', 'r', 'r')): same(words, user.ask(*words), '-ERR')
    same('a read of no bytes', [user.ask('SET', 'r', ''), user.ask('GETAT', 'r')], ['+OK', ''])
    seen = 0
    for i in range(1, 6):
        user.socket.sendall(spelled('SET', 'r', str(i)) + spelled('GETAT', 'r') + spelled('GETAT', 'none'))
        same('its own put', [user.reply() for _ in range(3)], ['+OK', str(i), None])
        found = int(reader.ask('GETAT', 'r') or 0)
        same('a read of another one', seen <= found <= i, True)
        seen = found
    same('after a get', [other.ask('GET', 'r'), other.ask('GETAT', 'r')], ['5', '5'])
    many = [User() for _ in range(50)]
    for i, one in enumerate(many): one.socket.sendall(spelled('SET', 'r' + str(i), str(i)) + spelled('GETAT', 'r' + str(i)) * 3)
    same('50 at once', [[one.reply() for _ in range(4)] for one in many], [['+OK'] + [str(i)] * 3 for i in range(50)])
    os.kill(int(observer), signal.SIGKILL)
    began = time.time()
    for i in range(6, 9): same('with one observer', [user.ask('SET', 'r', str(i)), user.ask('GETAT', 'r')], ['+OK', str(i)])
    same('reads of one who left', [one.socket.close() for one in many], [None] * 50)
    same('after that', [other.ask('GETAT', 'r') in ('5', '6', '7', '8'), other.ask('GET', 'r')], [True, '8'])
    took = time.time() - began
    same(f'an observer killed: {took} s, at most 10', took <= 10, True)

def near():
    user, other = User(), User()
    for i in range(1, 6): same('its own put', [user.ask('SET', 'at', str(i)), user.ask('GETAT', 'at')], ['+OK', str(i)])
    for words in (('GETAT', ''), ('GETAT',), ('GETAT', 'k' * 65)): same(words, user.ask(*words), '-ERR')
    same('no key, and one of no bytes', [user.ask('GETAT', 'none'), user.ask('SET', 'at', ''), user.ask('GETAT', 'at')], [None, '+OK', ''])
    same('after a get', [other.ask('GET', 'at'), other.ask('GETAT', 'at')], ['', ''])
    many = [User() for _ in range(50)]
    for i, one in enumerate(many): one.socket.sendall(spelled('SET', 'at' + str(i), str(i)) + spelled('GETAT', 'at' + str(i)) * 3)
    same('50 at once', [[one.reply() for _ in range(4)] for one in many], [['+OK'] + [str(i)] * 3 for i in range(50)])

def fails(leader, sequencer, replica, most):
    user, other = User(), User()
    same('before', user.ask('SET', 'f', '0'), '+OK')
    for count, (name, process) in enumerate((('leader', leader), ('sequencer', sequencer))):
        os.kill(int(process), signal.SIGKILL)
        began = time.time()
        same(name + ' killed', user.ask('SET', 'f', str(count + 1), 'GET'), str(count))
        took = time.time() - began
        same(f'{name} killed: {took} s, at most {most}', took <= float(most), True)
        if name == 'leader':
            lines, found = told(user, r'view \d+ \d+ leader r[12] controller ctl\d* changed \d+')
            same('the change of the view', len(found), 1)
    os.kill(int(replica), signal.SIGKILL)
    user.socket.sendall(spelled('GET', 'f'))
    same('with one replica a user waits', select.select([user.socket], [], [], 1.5)[0], [])
    same('and another is answered what needs none', other.ask('PING'), '+PONG')

def hosts(before, after):
    user = User()
    same('by a list', [user.ask('GET', 'k'), user.ask('SET', 'k', after), user.ask('GETAT', 'k')], [before or None, '+OK', after])

def listed(value):
    user = User()
    for node in ('r0', 'r1', 'r2', 's0', 'ctl'): same(node, len(told(user, f'node {node} answers \\d+')[1]), 1)
    same('none is silent', [line for line in user.ask('INFO').splitlines() if 'silent' in line], [])
    same('read there', [user.ask('SET', 'k', value), user.ask('GETAT', 'k'), synced(user, 1) > 0], ['+OK', value, True])

def silent(*pids):
    user, names = User(), ('r0', 'r1', 'r2', 'ctl')
    leader = told(user, r'view .* leader (r\d) .* synced .*')[1][0].group(1)
    other = [i for i in range(3) if names[i] != leader][0]
    for node, line in ((other, f'node {names[other]} silent'), (3, 'warning ctl silent')):
        os.kill(int(pids[node]), signal.SIGKILL)
        same(line, len(told(user, line + r' \d+')[1]), 1)
    same('the others answer', [len(told(user, f'node {node} answers \\d+')[1]) for node in (leader, 's0')], [1, 1])

globals()[sys.argv[1]](*sys.argv[2:])
print(made, wrong, file=open(os.environ['COUNTS'], 'w'))
END

# users NAME WORDS..: users do this, and what they see is counted.
users() {
    local more=1 bad=1
    rm -f "$folder/counts"
    COUNTS=$folder/counts PORT=$tcp timeout 60 python3 "$folder/user.py" "$@" 2>&1
    read -r more bad 2> /dev/null < "$folder/counts" || echo "gate: the users of '$1' ended before their time"
    made=$((made + more))
    wrong=$((wrong + bad))
}

# gate NAME WORDS..: a gateway for users at the TCP port $tcp.
gate() {
    "$program" "127.0.0.1:$tcp" "${@:2}" > "$folder/$1" 2>&1 &
    pids[$1]=$!
    awaits is_heard "$tcp" || differs "no gateway: '$(head -c 300 "$folder/$1")'"
}

# is_heard PORT: somebody listens at this TCP port, at any address.
is_heard() {
    grep -qE "^ *[0-9]+: [0-9A-F]+:$(printf %04X "$1") [0-9A-F]+:0000 0A " /proc/net/tcp /proc/net/tcp6 2> /dev/null
}
tcp=$base
while is_heard "$tcp"; do tcp=$((tcp + 1)); done

# ends WANTED_STATUS WANTED WORDS..: the program is run with these words, and writes what is wanted.
ends() {
    local wanted=$1 text=$2
    shift 2
    timeout 20 "$program" "$@" > "$folder/out" 2> "$folder/err"
    same "'$*'" $? "$wanted" "$text"
}

# ---- what is not taken
usage='usage: kv_gate LISTEN (PORT REPLICAS SEQUENCERS [--observers M [--at K]] | LIST [--marks FOLDER] [--at K]) FIRST COUNT'
listen=127.0.0.1:$tcp
for words in '' "$listen" "$listen $base 3 2 0" "$listen $base 3 2 0 0" "$listen $base 3 2 0 17" "$listen $base 3 2 4294967295 2" \
    "$listen $base 2 2 0 1" "$listen $base 3 0 0 1" "$listen 1023 3 2 0 1" "127.0.0.1 $base 3 2 0 1" "localhost:$base $base 3 2 0 1" \
    "$listen $base 3 2 -1 1" "$listen $folder/none 0" "$listen $folder/none --marks 0 1" "$listen $base 3 2 --observers 5 0 1" \
    "$listen $base 3 2 --observers x 0 1" "$listen $base 3 2 --observer 1 0 1" "$listen $base 3 2 --observers 0 1" \
    "$listen $base 3 2 --observers 2 --at 2 0 1" "$listen $base 3 2 --observers 2 --at x 0 1" "$listen $base 3 2 --at 0 0 1" \
    "$listen $base 3 2 --observers 0 --at 0 0 1" "$listen $base 3 2 --observers 2 --on 1 0 1" "$listen $base 3 2 --observers 2 --at 1" \
    "$listen $folder/none --at 4 0 1" "$listen $folder/none --at x 0 1" "$listen $folder/none --at 0 0" "$listen $folder/none --marks $folder --at 4 0 1" \
    "$listen $folder/none --marks $folder --on 0 0 1" "$listen $folder/none --at 0 --marks $folder 0 1"; do
    # shellcheck disable=SC2086
    ends 2 "$usage" $words
done
ends 3 '' "$listen" "$folder/none" 0 1
echo 'r0 here' > "$folder/bad"
ends 2 'error line 1 rule 4' "$listen" "$folder/bad" 0 1

# ---- a cluster of this machine
for i in 0 1; do start "s$i" sequencer --id $i; done
for i in 0 1 2; do start "r$i" node --id $i --observers 3; done
for i in 0 1 2; do start "o$i" observer --id $i; done
for i in 0 1; do start "ctl$i" controller --id $i; done
are_up s0 s1 r0 r1 r2 o0 o1 o2 ctl0 ctl1
gate alone "$base" 3 2 4 1
users alone
kills alone
gate far "$base" 3 2 --observers 3 6 2
users reads "${pids[o1]}" 2> /dev/null
kills far
kills o0 o2
gate near "$base" 3 2 --observers 1 --at 0 8 1
users near
kills near
gate gate "$base" 3 2 --observers 3 --at 0 0 2
ends 5 '' "$listen" "$base" 3 2 2 1
ends 5 '' "[::1]:$tcp" "$base" 3 2 0 1
users table
users order
users odd
users info
users near
made=$((made + 1))
memory=$(sed -n 's/^VmHWM:[^0-9]*\([0-9]*\) kB/\1/p' "/proc/${pids[gate]}/status")
[ "${memory:-99999}" -lt 32768 ] || differs "the gateway had $memory kB of memory"
# Four seconds, or more where more processes want a processor than there are.
most=4
[ "$(cut -d. -f1 /proc/loadavg)" -lt "$(nproc)" ] || most=20
users fails "${pids[r0]}" "${pids[s0]}" "${pids[r1]}" "$most" 2> /dev/null
stop

# ---- a list of hosts: a number is one gateway's
{
    echo 'cluster 1'
    for i in 0 1 2; do echo "r$i 127.0.1.$((i + 1)):$((base + i))"; done
    echo "s0 127.0.1.1:$((base + 8))"
    echo "ctl 127.0.1.1:$((base + 12))"
    echo "o0 127.0.1.2:$((base + 32))"
    for i in {0..15}; do echo "c$i 127.0.1.4:$((base + 16 + i))"; done
} > "$folder/list"
nodes_of "$at_hosts" "$folder/list"
for name in r0 r1 r2 s0 ctl o0; do
    "$at_hosts" "$folder/list" "$name" > "$folder/$name" 2>&1 &
    pids[$name]=$!
done
are_up r0 r1 r2 s0 ctl o0
gate gate "$folder/list" 0 3
users hosts '' first
kills gate
ends 5 '' "$listen" "$folder/list" 2 1
mkdir "$folder/marks"
gate gate "$folder/list" --marks "$folder/marks" 3 3
users hosts first second
[ "$(ls "$folder/marks" | xargs)" = '1-c3 1-c4 1-c5' ] || differs "the marks are '$(ls "$folder/marks")'"
ends 5 '' "[::1]:$tcp" "$folder/list" --marks "$folder/marks" 5 1
kills gate

# ---- at the place of an observer of the list, which takes no number
ends 2 "$usage" "$listen" "$folder/list" --at 1 6 1
ends 5 '' "$listen" "$folder/list" --at 0 6 1
kills o0
gate gate "$folder/list" --marks "$folder/marks" --at 0 7 1
users listed third
ends 5 '' "[::1]:$tcp" "$folder/list" --at 0 8 1
kills gate
gate gate "$folder/list" --at 0 9 1
users listed fourth
users silent "${pids[r0]}" "${pids[r1]}" "${pids[r2]}" "${pids[ctl]}" 2> /dev/null
concludes
