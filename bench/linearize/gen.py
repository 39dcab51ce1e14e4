"""Writes a history of the key-value store that has an order, as a transcript without one.

    gen.py OPS PROCESSES KEYS [stale] [lost]

Each process has one op open at a time: it is submitted, takes effect at some moment, and is accepted; which process goes on is drawn.
The number of a process modulo 16 is its client, and processes of one client take turns with its ids. Of 100 ops 40 are gets, 42 puts, 6
deletes and 12 compare-and-sets; each value is written once. With `stale` a get in the last tenth accepts a value that was overwritten
before it was submitted, so that there is no order. With `lost` one op of 100 is not accepted, half of these take effect, and the process
goes on with the next one.
"""

import pathlib
import random
import sys

sys.path.insert(0, str(pathlib.Path(__file__).resolve().parents[2] / "checks" / "linearize"))
from services import Kv, sized


def op_of(rng, keys, store, value):
    key, kind = b"k%d" % rng.randrange(keys), rng.randrange(100)
    if kind < 40:
        return b"G" + sized(2, key)
    if kind < 82:
        return b"P" + sized(2, key, value)
    if kind < 88:
        return b"D" + sized(2, key)
    old = store.values.get(key, b"none") if rng.randrange(2) else b"v%d" % rng.randrange(1000)
    return b"C" + sized(2, key, old, value)


class Overwritten:
    """For each key a value that is gone: the put that wrote it was accepted before another one was submitted, which is accepted."""

    def __init__(self):
        self.last_puts, self.gone = {}, {}

    def put(self, key, value, submitted, accepted):
        before = self.last_puts.get(key)
        if before and before[1] < submitted:
            self.gone[key] = before[0], accepted
        self.last_puts[key] = value, accepted

    def stale(self, key, submitted):
        value, since = self.gone.get(key, (None, submitted))
        return b"=" + value if since < submitted else None


def main():
    ops, processes, keys = map(int, sys.argv[1:4])
    stale, lost = "stale" in sys.argv[4:], "lost" in sys.argv[4:]
    rng, store, overwritten = random.Random(" ".join(sys.argv[1:])), Kv(), Overwritten()
    last_ids, lines = [0] * 16, ["transcript 1 replicas 3 sequencers 1 clients 16"]
    # of each process its open op: client and id, bytes, place of its line, and the result once it took effect
    open_ops, submitted, ended = [None] * processes, 0, 0
    while ended < ops:
        process = rng.randrange(processes)
        if open_ops[process] is None:
            if submitted < ops:
                submitted += 1
                client = process % 16
                last_ids[client] += 1
                op = op_of(rng, keys, store, b"v%d" % submitted)
                open_ops[process] = [f"c{client} {last_ids[client]}", op, len(lines), None]
                lines.append(f"submit c{client} {last_ids[client]} {op.hex()}")
            continue
        who, op, line, result = open_ops[process]
        is_lost = lost and rng.randrange(200) == 0
        if result is None and not is_lost:
            open_ops[process][3] = store.answer(op)
            continue
        ended += 1
        open_ops[process] = None
        if is_lost:
            continue
        letter, key, given = Kv.fields(op)
        if letter == b"P":
            overwritten.put(key, given[0], line, len(lines))
        if letter == b"G" and stale and ended > ops * 9 // 10 and overwritten.stale(key, line):
            result, stale = overwritten.stale(key, line), False
        lines.append(f"accept {who} {result.hex()}")
    if stale:
        sys.exit("no get of a stale value")
    print("\n".join([*lines, "end"]))


main()
