#!/usr/bin/env python3
"""A client of a key-value cluster on this machine, as docs/CLIENT.md describes it.

    examples/client.py BASE REPLICAS SEQUENCERS NUMBER OP..

The ops are `put KEY VALUE`, `get KEY` and `delete KEY`, one behind the other, up to eight of them under way at a time; their answers come a
line each, in the order of the ops. NUMBER is one that no client of this cluster had before. Status 1: some op had no answer within a minute.
Where nothing is answered for four seconds, it says on standard error what may be wrong.
"""

import select
import socket
import struct
import sys
import time

HOST = "127.0.0.1"
REQUEST = struct.Struct(">4sIQH")
REPLY = struct.Struct(">4sBIQIIQBH")
RETRY_SECONDS = 0.2
MOST_SECONDS = 60
DOUBT_SECONDS = 4
WINDOW = 8
MOST_RESULT_BYTES = 257


class Reply:
    """A Reply of a replica, read from a datagram; ValueError where it is none."""

    def __init__(self, datagram):
        if len(datagram) < REPLY.size:
            raise ValueError("short")
        (kind, self.replica, self.leader, self.session, self.slot, self.client, self.id, self.tag, length) = REPLY.unpack_from(datagram)
        self.result = datagram[REPLY.size :]
        if kind != b"NO\x03\x03" or len(self.result) != length or length > MOST_RESULT_BYTES:
            raise ValueError("no reply")
        if self.session == 0 or self.slot == 0 or self.tag > 1 or (self.tag == 0 and length > 0):
            raise ValueError("a field")

    def place(self):
        """What equal replies have in common."""
        return (self.leader, self.session, self.slot)


class Client:
    """A client by its number. Its ops are bytes; `answers` has the result of each accepted id."""

    def __init__(self, base, replicas, sequencers, number):
        self.replicas, self.number = replicas, number
        self.sequencers = [(HOST, base + 8 + j) for j in range(sequencers)]
        self.socket = socket.socket(socket.AF_INET, socket.SOCK_DGRAM)
        self.socket.bind((HOST, base + 16 + number % 16))
        self.last_id = 0
        self.open = {}
        self.answers = {}
        self.due = 0.0

    def has_room(self):
        return not self.open or self.last_id + 1 - min(self.open) < WINDOW

    def submit(self, op):
        """Submits an op, where there is room for it. Its id."""
        self.last_id += 1
        self.open[self.last_id] = (op, {})
        self.send(self.last_id)
        return self.last_id

    def send(self, number):
        op = self.open[number][0]
        datagram = REQUEST.pack(b"NO\x03\x01", self.number, number, len(op)) + op
        for address in self.sequencers:
            self.socket.sendto(datagram, address)

    def take(self, datagram):
        """Takes a datagram that came."""
        try:
            reply = Reply(datagram)
        except ValueError:
            return
        if reply.client != self.number or reply.id not in self.open or reply.replica >= self.replicas:
            return
        replies = self.open[reply.id][1]
        replies[reply.replica] = reply
        equal = [r for r in replies.values() if r.place() == reply.place()]
        leaders = [r for r in equal if r.replica == r.leader % self.replicas and r.tag == 1]
        if len(equal) > self.replicas // 2 and leaders:
            self.answers[reply.id] = leaders[0].result
            del self.open[reply.id]

    def serve(self):
        """Waits for a datagram, and sends again what is open every 200 ms."""
        now = time.monotonic()
        if now >= self.due:
            if self.due:
                for number in sorted(self.open):
                    self.send(number)
            self.due = now + RETRY_SECONDS
        if select.select([self.socket], [], [], max(0, self.due - now))[0]:
            self.take(self.socket.recv(2048))


def field(text):
    data = text.encode()
    return struct.pack(">H", len(data)) + data


def ops_of(words):
    """The ops that words name, as bytes."""
    ops = []
    while words:
        word, count = words[0], 3 if words[0] == "put" else 2
        letter = {"put": b"P", "get": b"G", "delete": b"D"}.get(word)
        if letter is None or len(words) < count:
            sys.exit(__doc__)
        ops.append(letter + b"".join(field(text) for text in words[1:count]))
        words = words[count:]
    return ops


def main(words):
    if len(words) < 5 or not all(word.isdigit() for word in words[:4]):
        sys.exit(__doc__)
    ops = ops_of(words[4:])
    client = Client(*(int(word) for word in words[:4]))
    end = time.monotonic() + MOST_SECONDS
    doubt = time.monotonic() + DOUBT_SECONDS
    waiting = list(ops)
    while (waiting or client.open) and time.monotonic() < end:
        while waiting and client.has_room():
            client.submit(waiting.pop(0))
        client.serve()
        if not client.answers and time.monotonic() >= doubt:
            print("no answer yet: do nodes run with BASE, REPLICAS and SEQUENCERS, and had no client NUMBER before?", file=sys.stderr)
            doubt = end
    for number in range(1, len(ops) + 1):
        print(client.answers.get(number, b"(no answer)").decode(errors="backslashreplace"))
    sys.exit(len(client.answers) != len(ops))


if __name__ == "__main__":
    main(sys.argv[1:])
