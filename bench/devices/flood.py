"""Floods a cluster of real processes with datagrams, while clients are served, and looks at memory, statuses and answers.

    flood.py PROGRAM BASE COUNT NUMBER RATE

Three replicas, two sequencers, two controllers and a client without an answer run on the loopback address, all for as
many turns. There are three rounds, each with a cluster of its own:

  quiet    clients alone
  strays   COUNT datagrams to all ports, drawn from NUMBER, RATE a second, while 62 clients put and get: random bytes, cut
           datagrams and datagrams with flipped bits, of all kinds, each of which spells nothing, or a datagram that its
           receiver has no use for. Each client has to be answered, and to read a value of its last eight puts: those after
           the first of them are open at one time with its get, so any of these may be the last one before it.
  forged   once the clients were served, COUNT / 4 datagrams that may spell anything, and those that take the most memory:
           unfinished messages of the most fragments, and the longest logs, some with the greatest checkpoints, of a state or
           of none. Who can forge datagrams can stop the protocol, so no client is there to be answered.

At the end of the first two rounds each node gets datagrams of no bytes until its turns are taken, and has to end with its
status and its lines. In the last one replicas with the longest logs keep each other busy without an end, so there each
node has to be running at the end, and is terminated (status -15). Nothing may come on standard error, and the greatest memory of
each (VmHWM) has to stay below a bound.

The bounds, above what a node has after its start. For a replica in the first two rounds: 4,096 slots with what undoes them, for
which 256 bytes each are ample where ops have 7 bytes, and fourteen messages with the longest log of such ops, 4,096 times 22
bytes: four unfinished ones of each of two senders, one that is read, one that is written, its fragments, those that wait at the link
for each of two others, and one more. In the last: all datagrams that may wait at a link, 8,192 for each of two others, of 1,500 bytes with what holds them; all fragments that a replica may keep, of two senders four messages each of 2,048 times 1,400 bytes; and eleven times
4,096 slots of the longest ops, 720 bytes each with what memory takes to hold them: its log, the two logs of a view change and
their merge, a message that is joined and the log that is read of it, one that is written and its fragments, the host, what
undoes it, and the replies. For the others 256 KiB: they keep some datagrams.
"""

import os
import pathlib
import random
import re
import signal
import socket
import subprocess
import sys
import tempfile
import threading
import time

PROGRAM, BASE, COUNT, NUMBER, RATE = sys.argv[1], *map(int, sys.argv[2:])
REPLICAS, SEQUENCERS, CONTROLLERS, CLIENTS, LANES = 3, 2, 2, 62, 16
TURNS = {"quiet": 60_000, "strays": COUNT // 4 + 60_000, "forged": 2**64 - 1}
SITE = f"--replicas {REPLICAS} --sequencers {SEQUENCERS} --base {BASE}".split()
NODES = {f"replica {i}": (["node", "--id", str(i)], BASE + i) for i in range(REPLICAS)}
NODES |= {f"sequencer {j}": (["sequencer", "--id", str(j)], BASE + 8 + j) for j in range(SEQUENCERS)}
NODES |= {f"controller {k}": (["controller", "--id", str(k)], BASE + 12 + k) for k in range(CONTROLLERS)}
# A client of another cluster, which is not there: it has no answer, and so it takes all its turns.
NODES |= {"client": (["client", "--id", str(2**32 - 1)], BASE + 100 + 31)}
HEAD = b"NO\3"
# The kinds of datagrams that an actor has a use for.
TAKES = {"replica": {2, 8}, "sequencer": {1, 4, 6}, "controller": {5, 7}, "client": {3}}
OPS = 16
# How many requests a client has open, and for how many ids replicas keep results.
WINDOW = 8
# The op of that client, the status that it ends with, and what it writes first.
ENDS = {"client": (["4700016b"], 7, "submit c4294967295 1 4700016b\n")}
LOG = 4096 * 720
KEPT = {"sequencer": 256 * 1024, "controller": 256 * 1024, "client": 256 * 1024}
BOUNDS = {"strays": KEPT | {"replica": 4096 * 256 + 14 * 4096 * 22}, "forged": KEPT | {"replica": 2 * 8192 * 1500 + 2 * 22_937_600 + 11 * LOG}}
BOUNDS["quiet"] = BOUNDS["strays"]


# ---- datagrams


def number(size, value):
    return value.to_bytes(size, "big")


def request(rng, op=None):
    op = rng.randbytes(rng.choice([0, 1, 4, 7, 640])) if op is None else op
    return number(4, rng.randrange(62)) + number(8, rng.randrange(1, 64)) + number(2, len(op)) + op


def view(rng):
    return number(4, rng.choice([0, 0, 1, 5])) + number(8, rng.choice([1, 1, 2, 2**32 + 1]))


def checkpoint(host, clients):
    """A checkpoint of the host's state, and of so many clients with as many results as are kept, each of the greatest length."""
    kept = b"".join(number(8, i) + number(2, 257) + b"=" * 257 for i in range(1, WINDOW + 1))
    saved = [number(4, c) + number(8, WINDOW) + number(1, WINDOW) + kept for c in range(clients)]
    return number(4, len(host)) + host + number(4, clients) + b"".join(saved)


def log(rng):
    point = rng.choice([0, 0, 1, 100])
    front = checkpoint(rng.choice([number(4, 0), rng.randbytes(20)]), rng.randrange(3)) if point else b""
    entries = [b"\0" if rng.randrange(4) == 0 else b"\1" + request(rng) for _ in range(rng.choice([0, 1, 2]))]
    return number(4, point) + front + number(4, len(entries)) + b"".join(entries)[:700]


def message(rng):
    """A peer message of any kind."""
    kind = rng.randrange(16, 26)
    slot = number(4, rng.choice([1, 2, 100, 4096]))
    position = number(8, rng.choice([1, 2, 100, 2**48]))
    rest = {17: lambda: slot + request(rng), 20: lambda: b"", 21: lambda: view(rng) + position + log(rng)}
    rest |= {22: lambda: position + log(rng), 23: lambda: log(rng)}
    return bytes([kind, rng.randrange(REPLICAS)]) + view(rng) + rest.get(kind, lambda: slot)()


def whole(rng):
    """A datagram of any kind."""
    kind = rng.randrange(1, 9)
    if kind == 1:
        rest = request(rng)
    elif kind == 2:
        rest = number(8, rng.choice([1, 1, 2])) + number(8, rng.choice([1, rng.randrange(1, 4000), 2**48 - 1])) + request(rng)
    elif kind == 3:
        rest = number(1, rng.randrange(REPLICAS)) + view(rng) + number(4, rng.randrange(1, 4097)) + number(4, rng.randrange(62))
        rest += number(8, rng.randrange(1, 64)) + rng.choice([b"\0\0\0", b"\1\0\4none"])
    elif kind < 8:
        rest = number(1, rng.randrange(CONTROLLERS)) + number(1, rng.randrange(SEQUENCERS)) + number(8 if kind < 6 else 4, rng.choice([1, 2, 9]))
    else:
        rest = number(1, rng.randrange(REPLICAS)) + number(8, rng.randrange(1, 5000)) + number(2, 0) + number(2, 1) + message(rng)
    return HEAD + bytes([kind]) + rest


def spelled(data):
    """The kind of the datagram that the bytes spell, or None."""
    if len(data) < 4 or data[:3] != HEAD or not 1 <= data[3] <= 8:
        return None
    kind, at, values = data[3], 4, []
    layout = {1: [4, 8, 2], 2: [8, 8, 4, 8, 2], 3: [1, 4, 8, 4, 4, 8, 1, 2], 8: [1, 8, 2, 2]}
    layout = layout.get(kind, [1, 1, 8 if kind < 6 else 4])
    if len(data) < 4 + sum(layout):
        return None
    for size in layout:
        values.append(int.from_bytes(data[at : at + size], "big"))
        at += size
    rest = len(data) - at
    if kind in (1, 2):
        session, place, _, identity, length = [1, 1, *values] if kind == 1 else values
        fits = session >= 1 and 1 <= place < 2**48 and identity >= 1 and length <= 640 and rest == length
    elif kind == 3:
        replica, _, session, slot, _, identity, tag, length = values
        fits = replica <= 6 and session >= 1 and slot >= 1 and identity >= 1 and tag <= 1
        fits = fits and length <= (257 if tag else 0) and rest == length
    elif kind == 8:
        replica, place, index, count = values
        fits = replica <= 6 and place >= 1 and 1 <= count <= 4096 and index < count
        fits = fits and (rest == 1400 if index + 1 < count else 1 <= rest <= 1400)
    else:
        fits = values[0] <= 3 and values[1] <= 3 and values[2] >= 1 and rest == 0
    return kind if fits else None


def damaged(rng):
    """The sort of damage and the bytes."""
    sort = rng.choice(["random", "cut", "flipped"])
    if sort == "random":
        head = HEAD + bytes([rng.randrange(10)]) if rng.randrange(2) else b""
        return sort, head + rng.randbytes(rng.choice([0, 1, 5, 21, 33, 48, rng.randrange(1497)]))
    data = whole(rng)
    if sort == "cut":
        return sort, data[: rng.randrange(len(data))] if rng.randrange(4) else data + rng.randbytes(rng.randrange(1, 9))
    changed = bytearray(data)
    for _ in range(rng.choice([1, 1, 2, 8])):
        changed[rng.randrange(min(len(changed), 60))] ^= 1 << rng.randrange(8)
    return sort, bytes(changed)


def fragments(sender, place, data, last=True):
    """The fragments of a message; all but the last one where the message is to stay unfinished."""
    pieces = [data[i : i + 1400] for i in range(0, len(data), 1400)]
    head = HEAD + b"\x08" + bytes([sender]) + number(8, place)
    cut = [head + number(2, i) + number(2, len(pieces)) + piece for i, piece in enumerate(pieces)]
    return cut if last else cut[:-1]


def greatest(rng):
    """What takes the most memory, as pairs of a replica and a datagram."""
    # A map of the most keys, and bytes that are no state.
    full = number(4, 4096) + b"".join(b"\0\x40" + number(64, i) + b"\1\0" + bytes(256) for i in range(4096))
    entries = number(4, 4096)
    for i in range(4096):
        put = b"P\0\x40" + number(64, i) + b"\1\0" + rng.randbytes(256)
        entries += b"\1" + number(4, 7) + number(8, i + 1) + request(rng, put if i % 2 else rng.randbytes(640))[12:]
    position = number(8, 4097)
    for replica in range(REPLICAS):
        others = [sender for sender in range(REPLICAS) if sender != replica]
        for sender in others:
            # The log of a started view, of a synchronisation, and of a view change that makes this replica the leader.
            logs = [number(4, 0) + entries, number(4, 4096) + checkpoint(full, 256) + entries]
            logs += [number(4, 4096) + checkpoint(bytes(1_400_000), 256) + entries]
            for place, told in enumerate(logs):
                start = bytes([22, sender]) + number(4, 30 + 3 * place + sender) + number(8, 50) + position + told
                prepare = bytes([23, sender]) + start[2:14] + told
                change = bytes([21, sender]) + number(4, 60 + 3 * place + replica) + number(8, 60) + start[2:14] + position + told
                for more, data in enumerate((start, prepare, change)):
                    for piece in fragments(sender, 10**6 + 3 * place + more, data):
                        yield replica, piece
        for place in range(4):
            for sender in others:
                for piece in fragments(sender, 2 * 10**6 + place, bytes(4096 * 1400), last=False):
                    yield replica, piece


# ---- processes


class Cluster:
    def __init__(self, folder, turns):
        self.nodes = {}
        for name, (words, _) in NODES.items():
            with open(folder / name, "wb") as out, open(folder / (name + " errors"), "wb") as errors:
                site = SITE if name != "client" else [*SITE[:-1], str(BASE + 100)]
                words = [PROGRAM, *words, *site, "--turns", str(turns), *ENDS.get(name, [[]])[0]]
                self.nodes[name] = subprocess.Popen(words, stdin=subprocess.DEVNULL, stdout=out, stderr=errors)
        time.sleep(1)
        self.first = {name: self.memory(name) for name in self.nodes}

    def memory(self, name):
        """The greatest memory so far, in KiB; None of a process that ended."""
        for line in pathlib.Path(f"/proc/{self.nodes[name].pid}/status").read_text().splitlines():
            if line.startswith("VmHWM:"):
                return int(line.split()[1])
        return None

    def running(self):
        return [name for name, node in self.nodes.items() if node.poll() is None]

    def stop(self):
        for node in self.nodes.values():
            if node.poll() is None:
                node.terminate()
            node.wait()


def sockets():
    """By port the bytes that wait in a socket, and the datagrams that the kernel dropped for want of room there."""
    rows = [line.split() for line in pathlib.Path("/proc/net/udp").read_text().splitlines()[1:]]
    return {int(row[1].split(":")[1], 16): (int(row[4].split(":")[1], 16), int(row[-1])) for row in rows}


class Clients:
    """62 clients in 16 lanes; the clients of a lane begin as the flood goes on."""

    def __init__(self):
        self.part, self.over, self.answered, self.read_own = 0.0, False, 0, 0
        self.gate = threading.Lock()
        self.lanes = [threading.Thread(target=self.lane, args=(lane,)) for lane in range(LANES)]
        for lane in self.lanes:
            lane.start()

    def lane(self, lane):
        for client in range(lane, CLIENTS, LANES):
            while self.part < client // LANES / 4 and not self.over:
                time.sleep(0.02)
            if self.over:
                return
            key = b"\0\2" + number(2, client)
            ops = [b"P" + key + b"\0\2" + number(2, i) for i in range(1, OPS)] + [b"G" + key]
            words = [PROGRAM, "client", "--id", str(client), *SITE, *(op.hex() for op in ops)]
            try:
                run = subprocess.run(words, stdin=subprocess.DEVNULL, capture_output=True, timeout=60)
            except subprocess.TimeoutExpired:
                continue
            late = [(b"=" + number(2, i)).hex().encode() for i in range(OPS - WINDOW, OPS)]
            with self.gate:
                self.answered += run.returncode == 0 and not run.stderr
                self.read_own += any(b"accept c%d %d %s\n" % (client, OPS, value) in run.stdout for value in late)

    def join(self):
        self.part = 1.0
        for lane in self.lanes:
            lane.join()


def flood(rng, clients, sink):
    """What is sent, and how many of each sort: (sent, of these spelled)."""
    ports = [(name.split()[0], port) for name, (_, port) in NODES.items()] + [("client", None)]
    sorts = {}
    began = time.monotonic()
    for i in range(COUNT):
        actor, port = rng.choice(ports)
        port = port or BASE + 16 + rng.randrange(16)
        sort, data = damaged(rng)
        kind = spelled(data)
        while kind in TAKES[actor]:
            sort, data = damaged(rng)
            kind = spelled(data)
        sink.sendto(data, ("127.0.0.1", port))
        sent, some = sorts.get(sort, (0, 0))
        sorts[sort] = sent + 1, some + (kind is not None)
        if i % 64 == 0:
            clients.part = i / COUNT
            time.sleep(max(0, began + i / RATE - time.monotonic()))
    return sorts


def forge(rng, sink):
    """The same of the last round. It waits a little for a node that has much to read, so that less is dropped."""
    sorts = {}
    ports = [port for _, port in NODES.values()]

    def send(sort, port, data):
        sink.sendto(data, ("127.0.0.1", port))
        sent, some = sorts.get(sort, (0, 0))
        sorts[sort] = sent + 1, some + (spelled(data) is not None)
        if (sent + 1) % 16 == 0:
            end = time.monotonic() + 0.005
            while sockets().get(port, (0, 0))[0] > 50_000 and time.monotonic() < end:
                time.sleep(0.0002)

    for _ in range(2):
        for replica, data in greatest(rng):
            send("greatest", BASE + replica, data)
        for _ in range(COUNT // 8):
            sort, data = damaged(rng)
            send(sort, rng.choice(ports), data)
    return sorts


def drain(cluster, sink):
    """Datagrams of no bytes until all turns are taken."""
    end = time.monotonic() + 300
    while (left := cluster.running()) and time.monotonic() < end:
        for name in left:
            for _ in range(32):
                sink.sendto(b"", ("127.0.0.1", NODES[name][1]))
        time.sleep(0.0005)


def round_of(name, sink, folder):
    """Runs a round, prints its rows, and tells what is wrong."""
    rng = random.Random(NUMBER)
    wrong = []
    turns = TURNS[name]
    cluster = Cluster(folder, turns)
    clients = Clients()
    try:
        if name == "strays":
            sorts = flood(rng, clients, sink)
        elif name == "forged":
            clients.join()
            sorts = forge(rng, sink)
        else:
            sorts = {}
        clients.join()
        time.sleep(1)
        dropped = {port: drops for port, (_, drops) in sockets().items()}
        ended = [node for node in cluster.nodes if node not in cluster.running()]
        wrong += [f"{name}: {node} ended before the flood did" for node in ended]
        last = {node: cluster.memory(node) for node in cluster.running()}
        if name != "forged":
            drain(cluster, sink)
            wrong += [f"{name}: {node} did not end" for node in cluster.running()]
    finally:
        clients.over = True
        cluster.stop()
    for sort, (sent, some) in sorts.items():
        print(f"{name}: {sort}: sent {sent}, of these spell a datagram {some}")
    print(f"{name}: clients {CLIENTS} answered {clients.answered} own_late_value {clients.read_own}")
    if clients.answered < CLIENTS or clients.read_own < CLIENTS:
        wrong.append(f"{name}: a client was not answered")
    print(f"{'round':7} {'node':12} {'KiB before':>10} {'after':>7} {'bound':>7} {'dropped':>8} {'status':>6}  last line")
    for node, process in cluster.nodes.items():
        before, after = cluster.first[node], last.get(node)
        bound = before + BOUNDS[name][node.split()[0]] // 1024
        _, status, begun = ENDS.get(node, ([], 0, ""))
        text = (folder / node).read_text()
        line = text.removeprefix(begun).removesuffix("\n")
        last_line = rf"served {turns} lost [0-9]+\n"
        if name == "forged":
            status, last_line = -15, ""
        errors = (folder / (node + " errors")).read_bytes()
        drops = dropped.get(NODES[node][1], 0)
        print(f"{name:7} {node:12} {before:10} {after!s:>7} {bound:7} {drops:8} {process.returncode:6}  {line}")
        if after is None or after > bound:
            wrong.append(f"{name}: the memory of {node}")
        if process.returncode != status or errors or not re.fullmatch(begun + last_line, text):
            wrong.append(f"{name}: {node}: status {process.returncode}, {text!r}, {errors!r}")
    return wrong


def main():
    signal.signal(signal.SIGTERM, lambda *_: sys.exit(143))
    sink = socket.socket(socket.AF_INET, socket.SOCK_DGRAM)
    wrong = []
    for name in ("quiet", "strays", "forged"):
        with tempfile.TemporaryDirectory() as folder:
            wrong += round_of(name, sink, pathlib.Path(folder))
    for line in wrong:
        print(line)
    sys.exit(1 if wrong else 0)


main()
