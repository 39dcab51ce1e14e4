"""Answers a client's request as a leader and a follower of three replicas do, from the port of sequencer 0, and a client's read as
observer 0 does that knows nothing yet, from its port.

    peer.py BASE    BASE is the port of replica 0

It takes any number of them, each once, says `ready` on standard output at its start, and ends when standard input is closed.
"""

import select
import socket
import sys

base = int(sys.argv[1])


def bound(port):
    link = socket.socket(socket.AF_INET, socket.SOCK_DGRAM)
    link.bind(("127.0.0.1", port))
    return link


def answers(link, given):
    """What client and id, eight bytes behind four, are answered: bytes for each datagram."""
    who = given[4:16]
    if link is requests and given[:4] == b"NO\x03\x01":
        for replica, tag, result in ((0, 1, b"none"), (1, 0, b"")):
            yield b"NO\x03\x03" + bytes([replica]) + VIEW_AND_SLOT + who + bytes([tag]) + len(result).to_bytes(2, "big") + result
    if link is reads and given[:4] == b"NO\x03\x09":
        yield b"NO\x03\x0a" + bytes(5) + who + (4).to_bytes(2, "big") + b"none"


VIEW_AND_SLOT = bytes.fromhex("00000000 0000000000000001 00000001")
requests, reads = bound(base + 8), bound(base + 32)
print("ready", flush=True)
while True:
    ready, _, _ = select.select([requests, reads, sys.stdin], [], [])
    if sys.stdin in ready:
        break
    for link in ready:
        given = link.recv(1500)
        if len(given) < 18:
            continue
        for answer in answers(link, given):
            link.sendto(answer, ("127.0.0.1", base + 16 + int.from_bytes(given[4:8], "big") % 16))
