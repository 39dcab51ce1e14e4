"""Damages transcripts, and compares what two programs answer when they judge them.

    damage.py EXAMPLES PROGRAM PEER COUNT NUMBER

EXAMPLES is a folder of transcripts. Case I depends on NUMBER, I and these alone. The status is 1 where an answer differs.
"""

import collections
import pathlib
import random
import subprocess
import sys


def text(byte_string):
    return byte_string.hex() or "-"


def sized(*parts):
    return b"".join(len(part).to_bytes(2, "big") + part for part in parts)


def passed_over(rng):
    """A line of a read, an answer, a send, or of what came to nothing: no answer needs its read."""
    client, key, observer, place = rng.randrange(4), rng.choice(["61", "6b" * 64]), rng.randrange(4), rng.choice([0, 1, 77, 2**32 - 1])
    return rng.choice(
        [
            f"read c{client} {place + 1} o{observer} {key}",
            f"answer c{client} {place + 1} o{observer} {place} {rng.choice(['6e6f6e65', '3d31', '-', '00' * 257])}",
            f"send {place} c{client} o{observer} read {18 + len(key) // 2}",
            f"send {place} o{observer} c{client} answer 27",
            f"send {place} r{client} r* fragment 1417",
            f"busy c{client}",
            f"dead o{observer}",
        ]
    )


def drawn(rng):
    """A legal transcript of several clients: a store carries out each op at some time while it is open."""
    clients, store, lines, history = rng.randrange(1, 5), {}, [], []
    ids, open_ops = collections.Counter(), {}
    kinds = rng.choice([range(5), range(5), [0], [0, 4]])
    for _ in range(rng.choice([3, 10, 30, 100])):
        client = rng.randrange(clients)
        if client not in open_ops:
            key, value, old = (rng.choice([b"a", b"b"]) if i == 0 else rng.choice([b"", b"1", b"2"]) for i in range(3))
            kind = rng.choice(kinds)
            op = [b"G" + sized(key), b"P" + sized(key, value), b"D" + sized(key), b"C" + sized(key, old, value), b"x"][kind]
            ids[client] += 1
            open_ops[client] = [op, kind, key, value, old, None]
            lines.append(f"submit c{client} {ids[client]} {text(op)}")
            continue
        taken = open_ops[client]
        op, kind, key, value, old, result = taken
        if result is None:
            before = b"none" if key not in store else b"=" + store[key]
            if kind == 4:
                result = b"bad"
            elif kind == 3:
                result = b"yes" if store.get(key) == old else b"no"
                if result == b"yes":
                    store[key] = value
            else:
                result = before
                if kind == 1:
                    store[key] = value
                elif kind == 2:
                    store.pop(key, None)
            taken[5] = result
            history.append(f"history {len(history) + 1} c{client} {ids[client]} {text(op)}")
        elif rng.randrange(4):
            lines.append(f"accept c{client} {ids[client]} {text(result)}")
            del open_ops[client]
    for _ in range(rng.choice([0, 0, 1, 5])):
        lines.insert(rng.randrange(len(lines) + 1), passed_over(rng))
    states = ["replica r0 up normal 0 1 0 0"] * rng.randrange(2) + ["observer o1 up 0", "observer o3 crashed 4294967295"][: rng.randrange(3)]
    group = "replicas 3 sequencers 1 clients 16"
    head = rng.choice([f"1 {group}", f"2 {group} controllers 4", f"3 {group} controllers 1 observers 2"])
    return "\n".join(["transcript " + head, *lines, *states, *history, "end", ""]).encode()


def flip(rng, lines):
    changed = bytearray(b"\n".join(lines))
    at = rng.randrange(len(changed))
    changed[at] = rng.choice([changed[at] ^ 1 << rng.randrange(8), rng.randrange(256), rng.choice(b"0123456789abcdef c\n")])
    return bytes(changed).split(b"\n")


def swap(rng, lines):
    first, second = rng.randrange(len(lines)), rng.randrange(len(lines))
    if rng.randrange(2):
        second = min(first + 1, len(lines) - 1)
    lines[first], lines[second] = lines[second], lines[first]
    return lines


def drop(rng, lines):
    at = rng.randrange(len(lines))
    return lines[:at] + lines[at + rng.choice([1, 1, 2, 4]) :]


def repeat(rng, lines):
    at, to = rng.randrange(len(lines)), rng.randrange(len(lines) + 1)
    return lines[:to] + [lines[at]] + lines[to:]


def members(lines):
    return [at for at, line in enumerate(lines) if line.startswith(b"history ")] or [len(lines) - 1]


def again(rng, lines):
    """A member of the history once more."""
    at, to = rng.choice(members(lines)), rng.choice(members(lines))
    return renumber(rng, lines[:to] + [lines[at]] + lines[to:])


def move(rng, lines):
    """A member of the history to another place."""
    line = lines.pop(rng.choice(members(lines)))
    lines.insert(rng.choice(members(lines)) if lines else 0, line)
    return renumber(rng, lines)


def field(rng, lines):
    """The last field of a line replaced: by that of another line, or by some result."""
    at = rng.randrange(len(lines))
    parts, other = lines[at].split(b" "), rng.choice(lines).split(b" ")
    parts[-1] = rng.choice([other[-1], b"6e6f6e65", b"3d31", b"-", b"3D", b"0" * 1282, b"00" * 257, b"00" * 258])
    lines[at] = b" ".join(parts)
    return lines


def number(rng, lines):
    """A number replaced, as an id, a place or a client's."""
    at = rng.randrange(len(lines))
    parts = lines[at].split(b" ")
    which = rng.randrange(len(parts))
    limits = [0, 1, 2, 3, 15, 16, 1417, 1418, 4096, 4097, 2**32 - 1, 2**32, 2**64 - 1, 2**64]
    letter = parts[which][:1] if parts[which][:1] in b"rsco" else b""
    if letter or parts[which].isdigit():
        parts[which] = letter + b"%d" % rng.choice(limits)
    lines[at] = b" ".join(parts)
    return lines


def renumber(rng, lines):
    """The history numbered again, so that only its order is damaged."""
    place = 0
    for at, line in enumerate(lines):
        parts = line.split(b" ")
        if parts[0] == b"history" and len(parts) > 1:
            place += 1
            lines[at] = b" ".join([parts[0], b"%d" % place, *parts[2:]])
    return lines


def cut(rng, lines):
    whole = b"\n".join(lines)
    return whole[: rng.randrange(len(whole) + 1)].split(b"\n")


def lengthen(rng, lines):
    at = rng.randrange(len(lines))
    lines[at] = (lines[at] + b"0" * 5000)[: rng.choice([4095, 4096, 4097, 4098])]
    return lines


DAMAGES = [flip, flip, swap, swap, drop, drop, repeat, again, move, move, field, field, field, number, number, cut, lengthen]


def damaged(rng, seeds):
    whole = drawn(rng) if rng.randrange(3) else rng.choice(seeds)
    lines = whole.split(b"\n")
    if rng.randrange(20):
        for _ in range(rng.choice([1, 1, 1, 2])):
            lines = rng.choice(DAMAGES)(rng, lines if any(lines) else [b"x"])
        if rng.randrange(2):
            lines = renumber(rng, lines)
    return b"\n".join(lines)


def judge(words, given):
    run = subprocess.run(words, input=given, capture_output=True, timeout=60)
    return run.returncode, run.stdout, run.stderr


def main():
    examples, program, peer, count, start = sys.argv[1:]
    seeds = [file.read_bytes() for file in sorted(pathlib.Path(examples).glob("*.transcript"))]
    answers, wrong = collections.Counter(), 0
    for case in range(int(count)):
        rng = random.Random(int(start) << 64 | case)
        given = damaged(rng, seeds)
        found, wanted = judge([program, "check"], given), judge([*peer.split(), "check"], given)
        parts = found[1].split()
        answers["legal" if parts[:1] == [b"legal"] else "clause " + parts[-1].decode() if parts else "nothing"] += 1
        if found != wanted:
            wrong += 1
            print(f"case {case}: {found} in place of {wanted}: {given.hex()}")
    for answer in sorted(answers):
        print(f"{answer}: {answers[answer]}")
    print(f"cases {count} wrong {wrong}")
    sys.exit(1 if wrong else 0)


main()
