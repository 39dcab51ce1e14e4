"""Draws racy schedules, and compares what two programs write when they replay them, and when they judge what was written.

    compare.py PROGRAM PEER THIRD EVERY COUNT NUMBER FIRST

PEER and THIRD are programs with their words before `schedule`, `replay` and `check`. Each schedule is drawn by PEER; its seed and its
numbers of actors and steps depend on NUMBER and on the case alone, from FIRST on. Every EVERY-th case is replayed by THIRD too (0: none).
The status is 1 where an answer differs; then the case is told with the words that draw it, and the first byte that differs.
"""

import collections
import random
import subprocess
import sys
import time


def run(words, given=b""):
    ran = subprocess.run(words, input=given, capture_output=True, timeout=600)
    return ran.returncode, ran.stdout, ran.stderr


def drawn(rng, case):
    """The words after `schedule`: a seed, steps, replicas, sequencers, clients, controllers, observers."""
    steps = rng.choice([rng.randrange(100, 200), rng.randrange(200, 500), rng.randrange(500, 801)])
    counts = rng.choice([3, 3, 5]), rng.choice([1, 2, 2, 3, 4]), rng.choice([1, 2, 3, 3, 5, 8]), rng.randrange(1, 5), rng.randrange(1, 5)
    return [str(n) for n in (case, steps, *counts)]


def differs(found, wanted):
    """Where two outcomes differ first, in words; nothing where they do not."""
    if found == wanted:
        return ""
    if found[0] != wanted[0] or found[2] != wanted[2]:
        return f"status {found[0]} in place of {wanted[0]}, {found[2][:200]} in place of {wanted[2][:200]}"
    ours, theirs = found[1].split(b"\n"), wanted[1].split(b"\n")
    at = next((i for i, pair in enumerate(zip(ours, theirs)) if pair[0] != pair[1]), min(len(ours), len(theirs)))
    return f"line {at + 1}: {ours[at:at + 1]} in place of {theirs[at:at + 1]}"


def main():
    program, peer, third, every, count, number, first = sys.argv[1:]
    peer, third, every, count, number, first = peer.split(), third.split(), int(every), int(count), int(number), int(first)
    lines, wrong, size, thirds, executed, at_position = collections.Counter(), 0, 0, 0, 0, 0
    began = time.monotonic()
    for case in range(first, first + count):
        words = drawn(random.Random(number << 64 | case), number << 32 | case)
        schedule = run([*peer, "schedule", *words])[1]
        found = run([program, "replay"], schedule)
        told = [differs(found, run([*peer, "replay"], schedule))]
        verdict = run([program, "check"], found[1])
        told.append(differs(verdict, run([*peer, "check"], found[1])))
        kinds = collections.Counter(line.split(b" ")[0].decode() for line in found[1].splitlines())
        legal = b"legal %d %d %d\n" % (kinds["submit"], kinds["accept"], kinds["history"])
        if found[0] == 0 and verdict != (0, legal, b""):
            told.append(f"check: {verdict} in place of {legal}")
        if every and case % every == 0:
            thirds += 1
            told += [differs(found, run([*third, "replay"], schedule)), differs(verdict, run([*third, "check"], found[1]))]
        told = [text for text in told if text]
        if told:
            wrong += 1
            print(f"schedule {' '.join(words)}: {'; '.join(told)}", flush=True)
        lines += kinds
        size += len(found[1])
        states = [line.split(b" ") for line in found[1].splitlines() if line.startswith((b"observer ", b"answer "))]
        executed += sum(fields[0] == b"observer" and fields[3] != b"0" for fields in states)
        at_position += sum(fields[0] == b"answer" and fields[4] != b"0" for fields in states)
        if wrong == 20:
            break
    print(" ".join(f"{kind} {lines[kind]}" for kind in sorted(lines)))
    print(f"answers above position 0: {at_position}; observers above position 0: {executed}")
    print(f"schedules {count} bytes {size} third {thirds} wrong {wrong} seconds {time.monotonic() - began:.0f}")
    sys.exit(1 if wrong else 0)


main()
