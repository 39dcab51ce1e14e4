"""Sixteen users of two gateways, and what is killed meanwhile: their history goes to standard output, as kv_linearize reads it.

    users.py SECONDS SEED PORT PORT AT:PID..

At so many seconds from the start each process is killed. A user whose connection breaks goes on at the other gateway, and its op is left open."""
import os, random, signal, socket, sys, threading, time

seconds, seed, ports = float(sys.argv[1]), int(sys.argv[2]), [int(port) for port in sys.argv[3:5]]
kills = sorted((float(at), int(process)) for at, process in (word.split(':') for word in sys.argv[5:]))
lines, ids, lock = [], [0] * 16, threading.Lock()
began = time.time()


def spelled(words):
    return b'*%d\r\n' % len(words) + b''.join(b'$%d\r\n%s\r\n' % (len(word), word) for word in words)


def op(kind, *fields):
    return (kind + b''.join(len(field).to_bytes(2, 'big') + field for field in fields)).hex()


class Broken(Exception):
    pass


class Connection:
    def __init__(self, port):
        try:
            self.socket = socket.create_connection(('127.0.0.1', port), 30)
        except OSError:
            raise Broken
        self.lines = self.socket.makefile('rb')

    def ask(self, words):
        try:
            self.socket.sendall(spelled(words))
            line = self.lines.readline()
            if line[:1] == b'$' and line != b'$-1\r\n':
                return b'=' + self.lines.read(int(line[1:]) + 2)[:-2]
        except OSError:
            raise Broken
        if not line.endswith(b'\r\n'):
            raise Broken
        if line[:1] == b'-':
            sys.exit(f'an error: {line}')
        return line[:-2]


def drawn(draw, number, count):
    """A request, its op, and the result that a reply says; None where a reply says none."""
    key, value = b'abcd'[draw.randrange(4):][:1], b'%d.%d' % (number, count)
    words = {b'$-1': b'none', b':1': b'yes', b':0': b'no'}
    kind = draw.randrange(10)
    if kind < 4:
        return [b'GET', key], op(b'G', key), lambda reply: words.get(reply, reply)
    if kind < 6:
        return [b'SET', key, value, b'GET'], op(b'P', key, value), lambda reply: words.get(reply, reply)
    if kind < 7:
        return [b'GETDEL', key], op(b'D', key), lambda reply: words.get(reply, reply)
    if kind < 8:
        return [b'DEL', key], op(b'D', key), lambda reply: b'none' if reply == b':0' else None
    old = seen.get(key, b'')
    return [b'CAS', key, old, value], op(b'C', key, old, value), lambda reply: words[reply]


seen = {}


def user(number):
    draw, at, connection = random.Random(seed * 100 + number), number % 2, None
    while time.time() < began + seconds:
        try:
            connection = connection or Connection(ports[at])
        except Broken:
            at = 1 - at
            time.sleep(0.01)
            continue
        with lock:
            ids[number] += 1
            count = ids[number]
            words, told, result = drawn(draw, number, count)
            lines.append(f'submit c{number} {count} {told}')
        try:
            reply = connection.ask(words)
        except Broken:
            connection, at = None, 1 - at
            continue
        answer = result(reply)
        with lock:
            if answer is not None:
                lines.append(f'accept c{number} {count} {answer.hex()}')
            if answer and answer[:1] == b'=':
                seen[words[1]] = answer[1:]
        time.sleep(draw.random() * 0.02)


users = [threading.Thread(target=user, args=(number,)) for number in range(16)]
for each in users: each.start()
for at, process in kills:
    time.sleep(max(0, began + at - time.time()))
    os.kill(process, signal.SIGKILL)
for each in users: each.join()
answered = sum(line.startswith('accept') for line in lines)
print('\n'.join(['transcript 1 replicas 1 sequencers 1 clients 16'] + lines + ['end']))
print(f'{len(lines) - answered} ops, {answered} answered', file=sys.stderr)
