"""A network between nodes of one machine that loses, repeats, delays and damages datagrams.

    relay.py BASE SEED LOST REPEATED DAMAGED MILLIS NAME..

Each node, by its name (r0, s1, ctl, c2, o1), was started with a base port of its own, BASE + 64 for the second one and so on; so what
it sends goes to ports that are the relay's. From there each datagram goes to the node that it is for, from the port that stands for its
sender. LOST of a thousand are lost, REPEATED come twice, and of DAMAGED the first byte is changed, so that they spell nothing. Each comes
up to MILLIS later, by its own time, and so in any order.

`ready` is written once all ports are open, and at SIGTERM a line that says what was done. The status is 5 where a port is in use.
"""

import collections
import heapq
import random
import re
import select
import signal
import socket
import sys
import time

STEP = 64
PLACES = {"r": 0, "s": 8, "ctl": 12, "c": 16, "o": 32}


def place(name):
    """The port of a node, from a base on."""
    letters, number = re.fullmatch("([a-z]+)([0-9]*)", name).groups()
    return PLACES[letters] + int(number or 0)


class Relay:
    def __init__(self, base, names):
        self.ports = {name: base + STEP * at + place(name) for at, name in enumerate(names)}
        for port in self.ports.values():
            with socket.socket(socket.AF_INET, socket.SOCK_DGRAM) as one:
                one.bind(("127.0.0.1", port))
        # for each of the relay's sockets, by its number: who sends there, and to whom
        self.between, self.sockets = {}, {}
        for at, sender in enumerate(names):
            for receiver in names:
                if receiver != sender:
                    one = socket.socket(socket.AF_INET, socket.SOCK_DGRAM)
                    one.bind(("127.0.0.1", base + STEP * at + place(receiver)))
                    one.setblocking(False)
                    self.between[one.fileno()] = sender, receiver
                    self.sockets[sender, receiver] = one

    def pass_on(self, sender, receiver, data):
        try:
            self.sockets[receiver, sender].sendto(data, ("127.0.0.1", self.ports[receiver]))
        except OSError:
            pass


def copies(rng, lost, repeated):
    """How often a datagram comes."""
    if rng.randrange(1000) < lost:
        return 0
    return 2 if rng.randrange(1000) < repeated else 1


def main():
    base, seed, lost, repeated, damaged, millis = map(int, sys.argv[1:7])
    try:
        relay = Relay(base, sys.argv[7:])
    except OSError:
        return 5
    done, waiting, number, rng = collections.Counter(), [], 0, random.Random(seed)
    # at each pair of nodes, the number of the last datagram that was passed on
    last = collections.defaultdict(int)
    ended = []
    signal.signal(signal.SIGTERM, lambda *_: ended.append(1))
    poll = select.epoll()
    for one in relay.between:
        poll.register(one, select.EPOLLIN)
    print("ready", flush=True)
    while not ended:
        for one, _ in poll.poll(max(0.0, min(0.1, waiting[0][0] - time.monotonic())) if waiting else 0.1):
            pair = relay.between[one]
            data, address = relay.sockets[pair].recvfrom(2000)
            if address != ("127.0.0.1", relay.ports[pair[0]]):
                continue
            done["came"] += 1
            count = copies(rng, lost, repeated)
            done["lost"] += count == 0
            done["repeated"] += count == 2
            for _ in range(count):
                number += 1
                bad = bool(data) and rng.randrange(1000) < damaged
                done["damaged"] += bad
                given = bytes([data[0] ^ 0x10]) + data[1:] if bad else data
                heapq.heappush(waiting, (time.monotonic() + rng.random() * millis / 1000, number, pair, given))
        while waiting and waiting[0][0] <= time.monotonic():
            _, at, pair, data = heapq.heappop(waiting)
            done["overtook"] += at < last[pair]
            last[pair] = max(last[pair], at)
            relay.pass_on(*pair, data)
    print(" ".join(f"{what} {done[what]}" for what in ("came", "lost", "repeated", "damaged", "overtook")), flush=True)
    return 0


sys.exit(main())
