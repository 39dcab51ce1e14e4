"""Plays gateways: users at TCP connections of `kv_gate`, and a cluster that is nothing but sockets, so that each datagram of the cluster is a
line of a script.

    played.py KV_GATE TCP_PORT BASE_PORT SCRIPTS REQUESTS

SCRIPTS has scripts, each below a line `script CORES OBSERVERS [--at K]`. A line that is not indented happens: `open USER`, `left USER`,
`send USER TEXT`, with `;` for the end of a line, `reply REPLICA CLIENT N RESULT`, `answer OBSERVER POSITION CLIENT N RESULT`, or `tell
OBSERVER HEX` of replica 0, `wait`, or `again`, where `CLIENT again N`
says what is sent once more. Below it, indented, stands all that has to come of it, in any order: `CLIENT submitted N OP` and `CLIENT reads N
at OBSERVER: KEY`, where N counts what the client sent, and `USER TEXT` and `USER closed`. The view is (0, 1), and the request N is at slot N.
REQUESTS has rows, each a Python tuple, as its first lines say. What the gateway submits while it is idle is answered, and not counted."""
import ast, os, select, signal, socket, struct, subprocess, sys, time

program, tcp, base, scripts, requests = sys.argv[1], int(sys.argv[2]), int(sys.argv[3]), sys.argv[4], sys.argv[5]
IDLE = b'G\0\1.'
LEADER, FOLLOWER = 0, 1
made, wrong = 0, 0


def differs(what):
    global wrong
    wrong += 1
    print(what)


def bound(port):
    it = socket.socket(socket.AF_INET, socket.SOCK_DGRAM)
    it.bind(('127.0.0.1', port))
    return it


class Played:
    """A gateway, its users, and the sockets of a cluster."""

    def __init__(self, cores, observers, *at):
        self.sequencer = bound(base + 8)
        self.replicas = [bound(base + i) for i in range(3)]
        places = [] if at else range(int(observers))
        self.observers = {bound(base + 32 + i): i for i in places}
        self.users, self.ids, self.again = {}, {}, None
        words = [f'127.0.0.1:{tcp}', str(base), '3', '1', *(['--observers', observers] if observers != '0' else []), *at, '0', cores]
        self.process = subprocess.Popen([program, *words])
        for _ in range(1200):
            try:
                socket.create_connection(('127.0.0.1', tcp)).close()
                return
            except OSError:
                time.sleep(0.05)

    def ends(self):
        for it in [self.sequencer, *self.replicas, *self.observers, *self.users.values()]:
            it.close()
        self.process.send_signal(signal.SIGKILL)
        self.process.wait()

    def to_client(self, client, bytes, replica=LEADER):
        self.replicas[replica].sendto(bytes, ('127.0.0.1', base + 16 + client % 16))

    def reply(self, replica, client, id, slot, result):
        tag, result = (1, result) if replica == LEADER else (0, b'')
        head = struct.pack('>4sBIQIIQBH', b'NO\3\3', replica, 0, 1, slot, client, id, tag, len(result))
        self.to_client(client, head + result, replica)

    def count_of(self, kind, client, id):
        """The number of a request or a read of the client, and whether it is new."""
        known = self.ids.setdefault((kind, client), [])
        if id in known:
            return known.index(id) + 1, False
        known.append(id)
        return len(known), True

    def datagram(self, it):
        """What is seen of a datagram of the gateway."""
        bytes = it.recv(2000)
        kind, client, id, length = struct.unpack('>4sIQH', bytes[:18])
        if kind == b'NO\3\1' and bytes[18:] == IDLE:
            for replica in (LEADER, FOLLOWER):
                self.reply(replica, client, id, 1, b'none')
            return []
        number, is_new = self.count_of(kind, client, id)
        if not is_new:
            line = f'  {client} again {number}'
            if self.again is not None and line not in self.again:
                self.again.append(line)
            return []
        text = bytes[18:].decode('unicode_escape').encode('unicode_escape').decode()
        if kind == b'NO\3\1':
            return [f'  {client} submitted {number} {text}']
        return [f'  {client} reads {number} at {self.observers[it]}: {text}']

    def seen(self, seconds, wanted):
        """What comes: until it is what is wanted, or for so many seconds, and for a twenty-fifth of one after that."""
        lines, texts, closed = [], {}, []
        end = time.time() + seconds
        while True:
            given = sorted(lines + (self.again or []) + [f'  {user} {text}' for user, text in texts.items()] + closed)
            if given == wanted:
                end = min(end, time.time() + 0.04)
            ready = select.select([self.sequencer, *self.observers, *self.users.values()], [], [], max(end - time.time(), 0))[0]
            if not ready and time.time() >= end:
                return given
            for it in ready:
                if it.type == socket.SOCK_DGRAM:
                    lines += self.datagram(it)
                    continue
                user = next(name for name, one in self.users.items() if one is it)
                try:
                    bytes = it.recv(100000)
                except OSError:
                    bytes = b''
                if bytes:
                    texts[user] = texts.get(user, '') + bytes.decode('latin1').replace('\r\n', ';')
                else:
                    closed.append(f'  {user} closed')
                    self.users.pop(user).close()

    def opens(self, user):
        self.users[user] = socket.create_connection(('127.0.0.1', tcp))
        self.users[user].setsockopt(socket.IPPROTO_TCP, socket.TCP_NODELAY, 1)

    def happens(self, line):
        kind, _, rest = line.partition(' ')
        self.again = [] if kind == 'again' else None
        if kind in ('wait', 'again'):
            pass
        elif kind == 'open':
            self.opens(rest)
        elif kind == 'left':
            self.users.pop(rest).close()
        elif kind == 'send':
            user, text = rest.split(' ', 1)
            if user in self.users:
                self.users[user].sendall(text.replace(';', '\r\n').encode('latin1'))
        elif kind == 'reply':
            replica, client, number, result = rest.split(' ', 3)
            id = self.ids[b'NO\3\1', int(client)][int(number) - 1]
            self.reply(int(replica), int(client), id, int(number), result.encode())
        elif kind == 'answer':
            observer, position, client, number, result = rest.split(' ', 4)
            id = self.ids[b'NO\3\t', int(client)][int(number) - 1]
            head = struct.pack('>4sBIIQH', b'NO\3\n', int(observer), int(position), int(client), id, len(result))
            self.to_client(int(client), head + result.encode())
        else:
            observer, digits = rest.split(' ')
            self.replicas[LEADER].sendto(bytes.fromhex(digits), ('127.0.0.1', base + 32 + int(observer)))


def play(script):
    """Plays one script, up to the first step that goes otherwise."""
    played = Played(*script[0].split()[1:])
    try:
        steps(played, script)
    finally:
        played.ends()


def steps(played, script):
    global made
    at = 1
    while at < len(script):
        line, wanted = script[at], []
        at += 1
        while at < len(script) and script[at].startswith('  '):
            wanted.append(script[at])
            at += 1
        made += 1
        played.happens(line)
        given = played.seen(5 if wanted else 0.04, sorted(wanted))
        if given != sorted(wanted):
            differs(f"'{script[0]}', '{line}': {given} and not {sorted(wanted)}")
            break


def spelled(words):
    words = [word.encode('latin1') for word in (words.split(' ') if isinstance(words, str) else words)]
    return b'*%d\r\n' % len(words) + b''.join(b'$%d\r\n%s\r\n' % (len(word), word) for word in words)


def text_of(bytes):
    return bytes.decode('latin1').replace('\r\n', ';')


def row(played, kind, sent, wanted, user):
    """What a new user is told who sends these bytes, or what the gateway sends; and whether it is what is wanted."""
    played.opens(user)
    whole = sent if isinstance(sent, bytes) else spelled(sent)
    step = 1 if kind == 'pieces' else len(whole)
    for start in range(0, len(whole), max(step, 1)):
        if start and played.seen(0.005, []) != []:
            return 'something before the end'
        played.users[user].sendall(whole[start:start + step])
    if kind in ('op', 'pieces', 'result'):
        op = wanted[0].decode('latin1').encode('unicode_escape').decode()
        number = len(played.ids.get((b'NO\3\1', 0), [])) + 1
        want = [f'  0 submitted {number} {op}']
        given = played.seen(5, want)
        if given != want:
            return given
        id = played.ids[b'NO\3\1', 0][-1]
        for replica in (LEADER, FOLLOWER):
            played.reply(replica, 0, id, number, wanted[1])
        want = [f'  {user} {text_of(wanted[2])}']
    elif kind == 'more':
        want = []
    else:
        want = [f'  {user} {text_of(wanted)}'] + [f'  {user} closed'] * (kind == 'end')
    given = played.seen(5 if want else 0.04, sorted(want))
    return None if given == sorted(want) else given


def rows(lines):
    global made
    played = Played('1', '0')
    try:
        for number, line in enumerate(lines):
            kind, sent, *wanted = ast.literal_eval(line)
            made += 1
            found = row(played, kind, sent, wanted if len(wanted) > 1 else (wanted or [b''])[0], f'u{number}')
            if found is not None:
                differs(f'{line}: {found}')
            if f'u{number}' in played.users:
                played.users.pop(f'u{number}').close()
    finally:
        played.ends()


texts = [[line for line in open(name).read().split('\n') if line and not line.startswith('#')] for name in (scripts, requests)]
starts = [at for at, line in enumerate(texts[0]) if line.startswith('script ')]
for start, end in zip(starts, starts[1:] + [len(texts[0])]):
    play(texts[0][start:end])
rows(texts[1])
print(f'{made} tried, {wrong} differ')
