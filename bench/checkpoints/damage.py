"""Draws messages between replicas that have a checkpoint, right ones and damaged ones, and compares what two programs make of them.

    damage.py PROGRAM PEER COUNT DAMAGED NUMBER FIRST

Both programs take the lines that main.rt.txt describes; PEER is a program with its words. There are COUNT cases with a right checkpoint and
as many, DAMAGED, with a damaged one. A case depends on NUMBER and on its own number alone, from FIRST on; that of a damaged one is odd.
A case that differs is printed, and the status is 1 then.
"""

import collections
import random
import subprocess
import sys
import time

WINDOW, CLIENTS, KEYS, RESULT, HOST = 8, 256, 4096, 257, 1_400_000
# cases of one process
TOGETHER = 20
TOP = 2**64 - 1


def number(value, width):
    """A number in so many bytes; one that does not fit loses its front."""
    return (value % 256**width).to_bytes(width, "big")


def counted(data, width=2):
    return number(len(data), width) + data


def op(rng, keys):
    key, value = rng.choice(keys), rng.randbytes(rng.choice([0, 1, 3, 256]))
    form = rng.randrange(8)
    if form == 0:
        return rng.randbytes(rng.choice([0, 1, 640]))
    if form < 3:
        return b"G" + counted(key)
    if form < 6:
        return b"P" + counted(key) + counted(value)
    if form == 6:
        return b"D" + counted(key)
    return b"C" + counted(key) + counted(rng.choice([b"1", value])) + counted(b"2")


def drawn_keys(rng):
    if rng.randrange(200) == 0:
        return [b"%064d" % i for i in range(KEYS)]
    return sorted({rng.choice([b"k", b"a", b"b", rng.randbytes(rng.choice([1, 2, 64]))]) for _ in range(rng.choice([1, 3, 20]))})


def drawn_account(rng):
    """A greatest id, and kept ids with their results: the last one is the greatest."""
    greatest = rng.choice([1, 2, 7, 8, 9, 100, TOP - 1, TOP])
    behind = range(1, min(WINDOW, greatest))
    kept = {greatest} | {greatest - by for by in rng.sample(behind, rng.randrange(len(behind) + 1))}
    results = [b"none", b"=1", b"yes", b"bad", b"", bytes(RESULT)]
    return [greatest, [[i, rng.choice(results)] for i in sorted(kept)]]


class Drawn:
    """A log with a checkpoint, as fields that may be changed before they are written."""

    def __init__(self, rng):
        self.keys = drawn_keys(rng)
        self.map = [[key, rng.randbytes(rng.choice([0, 1, 256]) if len(self.keys) < KEYS else 256)] for key in self.keys if rng.randrange(4)]
        self.map_count = len(self.map)
        self.behind_map = b""
        count = CLIENTS if rng.randrange(50) == 0 else rng.choice([0, 1, 2, 5])
        some = range(16) if count <= 5 and rng.randrange(2) else range(2**32)
        self.clients = [[client, *drawn_account(rng)] for client in sorted(rng.sample(some, count))]
        if count == CLIENTS and rng.randrange(2):
            for _, greatest, kept in (client[0:3] for client in self.clients):
                kept[:] = [[i, bytes(RESULT)] for i in range(max(1, greatest - WINDOW + 1), greatest + 1)]
        self.client_count = len(self.clients)
        self.kept_counts = {}
        self.point = rng.choice([1, 2, 1000, 2**32 - 1 - 4096])
        self.requests = [self.request(rng) for _ in range(rng.choice([0, 1, 8, 30]))]
        self.entry_count = len(self.requests)

    def request(self, rng):
        """A NO-OP, or a request near the ids of a client of the checkpoint, or of a new one."""
        if rng.randrange(6) == 0:
            return b"\0"
        if self.clients and rng.randrange(4):
            client, greatest, _ = rng.choice(self.clients)
            near = min(TOP, max(1, greatest + rng.choice([-9, -8, -7, -6, -1, 0, 0, 1, 2, 7, 8, 9])))
        else:
            client, near = rng.choice([0, 15, 16, 2**32 - 1]), rng.choice([1, 2, 9, TOP])
        return b"\1" + number(client, 4) + number(near, 8) + counted(op(rng, self.keys or [b"k"]))

    def host(self):
        return number(self.map_count, 4) + b"".join(counted(key) + counted(value) for key, value in self.map) + self.behind_map

    def log(self):
        parts = [number(self.point, 4)]
        if self.point > 0:
            parts += [counted(self.host(), 4), number(self.client_count, 4)]
            for at, (client, greatest, kept) in enumerate(self.clients):
                parts += [number(client, 4), number(greatest, 8), number(self.kept_counts.get(at, len(kept)), 1)]
                parts += [number(i, 8) + counted(result) for i, result in kept]
        return b"".join([*parts, number(self.entry_count, 4), *self.requests])


def damage_account(rng, drawn):
    """Ids and results of a client that may not be kept so, or its number."""
    if not drawn.clients:
        drawn.clients, drawn.client_count = [[7, 9, [[9, b"none"]]]], 1
    at = rng.randrange(len(drawn.clients))
    client = drawn.clients[at]
    kept = client[2]
    one = rng.choice(kept)
    form = rng.randrange(11)
    if form == 0:
        client[1] = rng.choice([0, client[1] - 1, client[1] + 1, client[1] + 8, TOP])
    elif form == 1:
        one[0] = rng.choice([0, one[0] - 1, one[0] + 1, client[1] - WINDOW, client[1] - WINDOW + 1])
    elif form == 2:
        rng.shuffle(kept)
    elif form == 3:
        kept.append(list(rng.choice([one, [client[1] + 1, b"none"]])))
    elif form == 4:
        kept.pop()
    elif form == 5:
        kept[:] = [[i, b"none"] for i in range(client[1] - WINDOW, client[1] + 1)]
    elif form == 6:
        drawn.kept_counts[at] = rng.choice([0, len(kept) - 1, len(kept) + 1, WINDOW, WINDOW + 1, 255])
    elif form == 7:
        one[1] = bytes(rng.choice([RESULT + 1, 640, 65535]))
    elif form == 8:
        client[0] = rng.choice([client[0] - 1, client[0] + 1, drawn.clients[at - 1][0], 0, 2**32 - 1])
    elif form == 9:
        drawn.clients.insert(rng.randrange(len(drawn.clients) + 1), [client[0], client[1], [list(k) for k in kept]])
        drawn.client_count += 1
    else:
        kept.pop(0)


def damage_map(rng, drawn):
    """A map that no host saves so."""
    if not drawn.map:
        drawn.map, drawn.map_count = [[b"k", b"v"]], 1
    at = rng.randrange(len(drawn.map))
    form = rng.choice([0, 1, 2, 3, 4, 5] * 4 + [6, 7])
    if form == 0:
        drawn.map_count = rng.choice([0, drawn.map_count - 1, drawn.map_count + 1, KEYS, KEYS + 1, 2**32 - 1])
    elif form == 1:
        rng.shuffle(drawn.map)
    elif form == 2:
        drawn.map.insert(at, list(drawn.map[at]))
        drawn.map_count += 1
    elif form == 3:
        drawn.map[at][0] = rng.choice([b"", bytes(65), b"\xff" * 64])
    elif form == 4:
        drawn.map[at][1] = bytes(rng.choice([257, 640]))
    elif form == 5:
        drawn.behind_map = rng.randbytes(rng.choice([1, 2, 5]))
    elif form == 6:
        drawn.behind_map = bytes(HOST - len(drawn.host()) + rng.choice([0, 1]))
    else:
        drawn.map = [[b"%064d" % i, bytes(256)] for i in range(KEYS + 1)]
        drawn.map_count = KEYS + 1


def damage_counts(rng, drawn):
    """How many clients, entries or slots there are."""
    form = rng.randrange(4)
    if form == 0:
        drawn.client_count = rng.choice([0, drawn.client_count - 1, drawn.client_count + 1, CLIENTS, CLIENTS + 1])
    elif form == 1:
        drawn.clients = [[i, 1, [[1, b"none"]]] for i in range(CLIENTS + 1)]
        drawn.client_count = CLIENTS + 1
    elif form == 2:
        drawn.entry_count = rng.choice([0, drawn.entry_count - 1, drawn.entry_count + 1, 4096, 4097])
    else:
        drawn.point = rng.choice([0, 2**32 - 1])


def damage_bytes(rng, data):
    """Some bytes changed, cut off, put in, taken out."""
    data = bytearray(data)
    at = rng.randrange(len(data))
    form = rng.randrange(5)
    if form == 0:
        for _ in range(rng.choice([1, 1, 2, 8])):
            at = rng.randrange(len(data))
            data[at] = rng.choice([data[at] ^ 1 << rng.randrange(8), rng.randrange(256), 0, 255])
    elif form == 1:
        del data[max(at, 1) :]
    elif form == 2:
        data[at:at] = rng.randbytes(rng.choice([1, 1, 2, 8]))
    elif form == 3:
        del data[at : at + rng.choice([1, 1, 2, 8])]
    else:
        data += rng.randbytes(rng.choice([1, 4]))
    return bytes(data)


def view(leader, session=1):
    return number(leader, 4) + number(session, 8)


def lines(rng, damages):
    """The lines of a case. The message that may be damaged comes to a follower, to one that a new leader tells, or to a new leader."""
    drawn = Drawn(rng)
    by_bytes = damages and rng.randrange(3) == 0
    if damages and not by_bytes:
        rng.choice([damage_account, damage_account, damage_account, damage_map, damage_map, damage_counts])(rng, drawn)
    log = drawn.log()
    length = number(drawn.point + drawn.entry_count, 4)
    form = rng.randrange(3)
    next_number = number(rng.choice([1, drawn.point + drawn.entry_count + 1, 2**48]), 8)
    if form == 0:
        given, message = ["replica 1"], b"\x17\0" + view(0) + log
        sender, then = 0, [("message 0", b"\x19\0" + view(0) + length), ("tick suspect", b""), ("tick suspect", b"")]
    elif form == 1:
        given, message = ["replica 2"], b"\x16\1" + view(1) + next_number + log
        sender, then = 1, [("message 1", b"\x19\1" + view(1) + length), ("tick suspect", b""), ("tick suspect", b""), ("tick suspect", b"")]
    else:
        given, message = ["replica 1", "tick suspect"], b"\x15\0" + view(1) + view(0) + next_number + log
        sender, then = 0, [("tick sync", b""), ("message 2", b"\x18\2" + view(1) + length), ("tick suspect", b""), ("tick suspect", b"")]
    if by_bytes:
        message = damage_bytes(rng, message)
    if rng.randrange(4) == 0:
        # the same once more: what stands then is the own checkpoint
        then = [(f"message {sender}", message), *then]
    given.append(f"message {sender} {message.hex()}")
    given += [f"{words} {data.hex()}".rstrip() for words, data in then]
    return "".join(line + "\n" for line in given).encode()


def run(words, given):
    ran = subprocess.run(words, input=given, capture_output=True, timeout=3600)
    return ran.returncode, ran.stdout


def parts(output):
    """What was written of each case: it begins with the replica."""
    return [b"replica " + part for part in output.split(b"replica ")[1:]]


def differs(found, wanted):
    pair = next((pair for pair in zip(found[1].split(b"\n"), wanted[1].split(b"\n")) if pair[0] != pair[1]), (b"", b""))
    return f"status {found[0]} and {wanted[0]}; {pair[0][:300]} in place of {pair[1][:300]}"


def count_kinds(kinds, part):
    """Of one case: what its message spells, how many replies there were, and whether its log was taken."""
    told = part.split(b"\n")
    kinds[next((line for line in told if line.startswith(b"spells ")), b"spells nothing").decode().split()[1]] += 1
    kinds["replies"] += sum(line.startswith(b"send c") for line in told)
    kinds["taken"] += any(line.startswith(b"state ") and not line.endswith(b" 0") for line in told)


def main():
    program, peer, count, damaged, start, first = sys.argv[1:]
    count, damaged, start, first = int(count), int(damaged), int(start), int(first)
    cases = sorted([2 * case for case in range(first, first + count)] + [2 * case + 1 for case in range(first, first + damaged)])
    said, wrong, size, begun = {0: collections.Counter(), 1: collections.Counter()}, 0, 0, time.monotonic()
    for at in range(0, len(cases), TOGETHER):
        some = cases[at : at + TOGETHER]
        given = [lines(random.Random(start << 64 | case), case % 2 == 1) for case in some]
        size += sum(map(len, given))
        found, wanted = run([program], b"".join(given)), run(peer.split(), b"".join(given))
        for case, part in zip(some, parts(found[1])):
            count_kinds(said[case % 2], part)
        if found != wanted:
            wrong += 1
            # each by itself
            told = [(case, run([program], text), run(peer.split(), text)) for case, text in zip(some, given)]
            told = [f"case {case}: {differs(one, other)}" for case, one, other in told if one != other]
            print("\n".join(told or [f"cases {some[0]} to {some[-1]}, together: {differs(found, wanted)}"]), flush=True)
            if wrong == 5:
                break
    for name, kinds in (("right", said[0]), ("damaged", said[1])):
        print(name, " ".join(f"{kind} {kinds[kind]}" for kind in sorted(kinds)))
    print(f"cases {sum(kinds[k] for kinds in said.values() for k in kinds if k not in ('replies', 'taken'))} bytes {size} wrong {wrong} seconds {time.monotonic() - begun:.0f}")
    sys.exit(1 if wrong else 0)


main()
