"""Sends forged greetings and acknowledgements to all nodes of a list of hosts.

    forged.py LIST COUNT NUMBER FROM

COUNT datagrams, drawn from NUMBER, as docs/FORMATS.md has them, some random, some right but for a field, some cut or with a bit flipped.
FROM says whose address they come from:

  strangers   one that is not in the list; greetings also with the list's digest and the numbers of nodes
  clients     the places c8 to c14 of the list, which nobody else may have: greetings with other digests, or of other places' numbers, answers
              that nobody asked for, and Asks that are right; acknowledgements of all kinds
  nodes       those of the nodes, as whoever may write datagrams of any source can (raw sockets, so root): acknowledgements, and
              greetings that nobody asked for, with the list's digest too
  claims      the place c8, and Claims that are right: so one listed client takes all client numbers that a cluster has
"""

import ipaddress
import random
import socket
import struct
import sys

LIST, COUNT, NUMBER, FROM = sys.argv[1], int(sys.argv[2]), int(sys.argv[3]), sys.argv[4]
RNG = random.Random(NUMBER)
KINDS = {"r": 0, "s": 8, "ctl": 12, "c": 16, "o": 32}


def read_list():
    """The cluster number, and each actor's address, by its port's distance from the base port."""
    cluster, places = 0, {}
    for line in open(LIST):
        words = line.split("#")[0].split()
        if not words:
            continue
        if words[0] == "cluster":
            cluster = int(words[1])
            continue
        kind = words[0].rstrip("0123456789")
        host, port = words[1].rsplit(":", 1)
        places[KINDS[kind] + int(words[0][len(kind):] or 0)] = (host, int(port))
    return cluster, places


CLUSTER, PLACES = read_list()
NODES = [place for place in sorted(PLACES) if place < 16]


def digest():
    told = CLUSTER.to_bytes(8, "big")
    for place in sorted(PLACES):
        host, port = PLACES[place]
        told += bytes([place, 4]) + ipaddress.IPv4Address(host).packed + port.to_bytes(2, "big")
    value = 14695981039346656037
    for byte in told:
        value = (value ^ byte) * 1099511628211 % 2**64
    return value


DIGEST = digest()


def greeting(word, digest_, number):
    return b"NH" + bytes([word]) + struct.pack(">QIQ", digest_, number, RNG.getrandbits(64))


def acknowledgement():
    window = RNG.choice([0, 1, 6, 36, 255, RNG.randrange(256)])
    message = RNG.choice([0, 1, RNG.randrange(1, 5000), RNG.getrandbits(64)])
    index = RNG.choice([0, RNG.randrange(800), RNG.randrange(65536)])
    return b"NA" + struct.pack(">BQ8H", window, message, *[(index - i) % 65536 for i in range(8)])


def damaged(datagram):
    """Cut, longer, or with a bit flipped."""
    how = RNG.randrange(3)
    if how == 0:
        return datagram[: RNG.randrange(len(datagram))]
    if how == 1:
        return datagram + RNG.randbytes(RNG.randrange(1, 20))
    bits = bytearray(datagram)
    bits[RNG.randrange(len(bits))] ^= 1 << RNG.randrange(8)
    return bytes(bits)


def stranger(place):
    which = RNG.randrange(4)
    if which == 0:
        return RNG.randbytes(RNG.choice([0, 1, 22, 23, 24, 27, 1400]))
    if which == 1:
        return acknowledgement()
    return greeting(RNG.randrange(8), RNG.choice([DIGEST, RNG.getrandbits(64)]), RNG.choice([place, 0, 1, RNG.randrange(4096)]))


def client(place):
    which = RNG.randrange(6)
    if which == 0:
        return RNG.choice([acknowledgement, acknowledgement, lambda: b"NA" + RNG.randbytes(25), lambda: b"NH" + RNG.randbytes(21)])()
    if which == 1:
        # A digest that is not the list's is answered, and nothing is noted.
        return greeting(RNG.randrange(1, 3), DIGEST ^ 1 << RNG.randrange(64), place - 16)
    if which == 2:
        return greeting(RNG.choice([1, 2]), DIGEST, (place - 16) + 1 + RNG.randrange(15) + 16 * RNG.randrange(9))
    if which == 3:
        return greeting(RNG.randrange(3, 256), DIGEST, place - 16 + 16 * RNG.randrange(9))
    if which == 4:
        return greeting(1, DIGEST, place - 16 + 16 * RNG.randrange(300))
    # One that is damaged is no Claim: a flipped bit could make an Ask one.
    return damaged(acknowledgement())


def node(_place):
    which = RNG.randrange(4)
    if which == 0:
        return greeting(RNG.randrange(1, 7), RNG.choice([DIGEST, RNG.getrandbits(64)]), RNG.randrange(8))
    return acknowledgement() if which < 3 else damaged(acknowledgement())


def claim(place):
    return greeting(2, DIGEST, place - 16 + 16 * RNG.randrange(2**20))


def from_sockets(addresses, drawn):
    """COUNT datagrams from these addresses in turn, and how many answers came."""
    sockets = {}
    for place, address in addresses.items():
        sockets[place] = socket.socket(socket.AF_INET, socket.SOCK_DGRAM)
        sockets[place].bind(address)
        sockets[place].setblocking(False)
    places, answers, sent = list(sockets), 0, 0
    for number in range(COUNT):
        place = places[number % len(places)]
        try:
            sockets[place].sendto(drawn(place), PLACES[NODES[RNG.randrange(len(NODES))]])
            sent += 1
        except OSError:
            pass
        if number % 8 == 0:
            answers += take_all(sockets[place])
    return sent, answers + sum(take_all(s) for s in sockets.values())


def take_all(taking):
    count = 0
    try:
        while taking.recv(2048):
            count += 1
    except BlockingIOError:
        return count
    return count


def from_nodes():
    """COUNT datagrams whose source is a node's, and that go to another one."""
    raw = socket.socket(socket.AF_INET, socket.SOCK_RAW, socket.IPPROTO_RAW)
    for _ in range(COUNT):
        source, to = RNG.sample(NODES, 2)
        payload = node(source)
        (host, port), (other, other_port) = PLACES[source], PLACES[to]
        datagram = struct.pack(">HHHH", port, other_port, 8 + len(payload), 0) + payload
        header = struct.pack(
            ">BBHHHBBH4s4s", 0x45, 0, 20 + len(datagram), 0, 0, 64, 17, 0, ipaddress.IPv4Address(host).packed, ipaddress.IPv4Address(other).packed
        )
        try:
            raw.sendto(header + datagram, (other, 0))
        except OSError:
            pass
    return COUNT, 0


if FROM == "strangers":
    first = PLACES[NODES[0]][0].rsplit(".", 1)[0]
    SENT, ANSWERS = from_sockets({i: (f"{first}.{200 + i}", 41000 + i) for i in range(8)}, stranger)
elif FROM == "nodes":
    SENT, ANSWERS = from_nodes()
elif FROM == "claims":
    SENT, ANSWERS = from_sockets({24: PLACES[24]}, claim)
else:
    SENT, ANSWERS = from_sockets({place: PLACES[place] for place in range(24, 31)}, client)
print(f"{FROM}: sent {SENT} answers {ANSWERS}", flush=True)
