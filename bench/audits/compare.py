"""Audits traces and damaged ones with up to three programs, and looks whether a damaged one that passes is another right run.

    compare.py PROGRAM PEER THIRD BRAID COUNT DAMAGED NUMBER FIRST LANES [ORDER..]

PEER and THIRD are programs with their words before `audit`, `trace`, `schedule` and `replay`; the last three are asked of PEER alone. Case I
depends on NUMBER, I and these alone: a trace, the one of a schedule that PEER draws or, where there are files ORDER, the next of these; and
DAMAGED damaged ones, each in one place, by one kind after the other. The status is 1 where something differs; then the trace is kept.
"""

import collections
import concurrent.futures
import os
import random
import re
import subprocess
import sys
import tempfile
import time


def run(words, given=b""):
    ran = subprocess.run(words, input=given, capture_output=True, timeout=600)
    return ran.returncode, ran.stdout, ran.stderr


def drawn(rng, seed):
    """The words after `schedule`: a seed, steps, replicas, sequencers, clients, controllers, observers."""
    counts = rng.choice([1, 3, 3, 5]), rng.choice([1, 2, 2, 4]), rng.choice([1, 2, 3, 8]), rng.choice([1, 2, 4]), rng.choice([0, 1, 2, 4])
    return [str(n) for n in (seed, rng.choice([rng.randrange(1, 60), rng.randrange(60, 200), rng.randrange(200, 500)]), *counts)]


# Each of these takes the lines without their ends, and gives others.


def a_byte(rng, lines):
    """A byte changed: to any, to one that stands in traces, or by one bit."""
    at = rng.randrange(len(lines))
    line = bytearray(lines[at] or b"x")
    place = rng.randrange(len(line))
    line[place] = rng.choice([rng.randrange(256), rng.choice(b"0123456789abcdefABCDEF rscoint"), line[place] ^ 1 << rng.randrange(8)])
    return lines[:at] + [bytes(line)] + lines[at + 1 :]


WORDS = b"in out tick packet submit read install accept answer send suspect watch resend sync retry probe next r* s* ctl ctl0 ctl3 ctl4".split()
WORDS += b"r0 r6 r7 r00 s3 s4 c0 c15 c16 c99999999999999999999 o0 o3 o4 0 1 01 18446744073709551615 18446744073709551616 4294967295".split()
WORDS += [b"4294967296", b"-", b"", b"6b", b"6B", b"6", b"x", b"00" * 64, b"00" * 65, b"00" * 640, b"00" * 641, b"00" * 1500, b"00" * 1501, b"0" * 5000]


def a_line(rng, lines):
    """A field of a line: that of another line, some word, or gone or twice."""
    at = rng.randrange(len(lines))
    fields = lines[at].split(b" ")
    which = rng.choice([rng.randrange(len(fields)), len(fields) - 1])
    other = rng.choice(lines).split(b" ")
    there = other[-1] if which == len(fields) - 1 else other[min(which, len(other) - 1)]
    fields[which : which + 1] = rng.choice([[there], [there], [there], [rng.choice(WORDS)], [rng.choice(WORDS)], [], fields[which : which + 1] * 2])
    return lines[:at] + [b" ".join(fields)] + lines[at + 1 :]


def two_lines(rng, lines):
    """Two lines in each other's place."""
    lines = list(lines)
    at = rng.randrange(len(lines))
    to = rng.choice([rng.randrange(len(lines)), min(at + 1, len(lines) - 1), min(at + rng.randrange(1, 9), len(lines) - 1)])
    lines[at], lines[to] = lines[to], lines[at]
    return lines


def twice(rng, lines):
    """A line once more, behind itself or elsewhere."""
    at = rng.randrange(len(lines))
    to = rng.choice([at + 1, rng.randrange(len(lines) + 1)])
    return lines[:to] + [lines[at]] + lines[to:]


def missing(rng, lines):
    at = rng.randrange(len(lines))
    return lines[:at] + lines[at + 1 :]


DAMAGES = [a_byte, a_line, two_lines, twice, missing]


def by_node(rng, lines):
    """The same steps, one node's behind the other's."""
    steps, nodes = [], []
    for line in lines[1:]:
        if line.startswith(b"in "):
            steps.append([])
        steps[-1].append(line)
    for step in steps:
        node = step[0].split(b" ")[1]
        if node not in nodes:
            nodes.append(node)
    rng.shuffle(nodes)
    return lines[:1] + [line for node in nodes for step in steps if step[0].split(b" ")[1] == node for line in step]


def text(lines):
    return b"".join(line + b"\n" for line in lines)


def without_numbers(lines):
    """The steps of each node, in their order."""
    nodes = collections.defaultdict(list)
    for line in lines[1:]:
        nodes[line.split(b" ")[1]].append(line)
    return nodes


class Judge:
    def __init__(self, program, peer, third, braid):
        self.program, self.peer, self.third, self.braid = [program], peer.split(), third.split(), braid
        self.counts, self.wrong, self.folder = collections.Counter(), 0, None

    def keep(self, given):
        """A file with what was given."""
        self.folder = self.folder or tempfile.mkdtemp(prefix="audits-")
        self.wrong += 1
        name = f"{self.folder}/{self.wrong}.trace"
        with open(name, "wb") as file:
            file.write(given)
        return name

    def differs(self, what, given):
        print(f"{what}: {self.keep(given)}", flush=True)

    def audit(self, given):
        """What the program answers, where all answer so; nothing else."""
        found = run([*self.program, "audit"], given)
        for other in (self.peer, self.third):
            if other:
                wanted = run([*other, "audit"], given)
                if found[:2] != wanted[:2] or found[2]:
                    self.differs(f"{found[0]} {found[1][-100:]} {found[2][:100]} in place of {wanted[0]} {wanted[1][-100:]}", given)
                    return None
        return found

    def right_run(self, found, given, ordered=True):
        """Whether what was audited is a right run: legal, and each step of it what its actor gives, as PEER has it."""
        schedule = found[1][: found[1].rstrip(b"\n").rfind(b"\n") + 1]
        replayed = run([*self.program, "replay"], schedule)
        if replayed[0] != 0 or replayed[2]:
            return self.differs(f"its schedule ends with status {replayed[0]}", given)
        verdict = run([*self.program, "check"], replayed[1])
        claims = collections.Counter(line.split(b" ")[2] for line in given.splitlines() if line.startswith(b"out "))
        legal = b"legal %d %d " % (claims[b"submit"], claims[b"accept"])
        if verdict[0] != 0 or not verdict[1].startswith(legal):
            return self.differs(f"its transcript is {verdict[1]} and not {legal}", given)
        ours, theirs = given.splitlines(), run([*self.peer, "trace"], schedule)[1].splitlines()
        # an audited trace may have capital digits
        lower = [re.sub(rb"[^ ]*$", lambda field: field[0].lower(), line, count=1) for line in ours]
        if lower != theirs:
            return self.differs("its schedule has another trace", given)
        return None

    def case(self, number, case, damaged, order):
        rng = random.Random(number << 64 | case)
        given = b""
        # PEER writes nothing where a schedule without its crashes has a bad line
        while order is None and not given:
            given = run([*self.peer, "trace"], run([*self.peer, "schedule", *drawn(rng, rng.getrandbits(63))])[1])[1]
        if order is not None:
            with open(order, "rb") as file:
                given = file.read()
        lines = given.splitlines()
        counts = collections.Counter(lines=len(lines), bytes=len(given))
        steps = sum(line.startswith(b"in ") for line in lines)
        found = self.audit(given)
        if found:
            if found[0] != 0 or not found[1].endswith(b"\naudited %d\n" % steps):
                self.differs(f"a right trace of {steps} steps: {found[1][-100:]}", given)
            else:
                self.right_run(found, given)
                counts["whole"] += 1
        if self.braid:
            mixed = text(by_node(rng, lines))
            braided = run([self.braid], mixed)
            answer = run([*self.program, "audit"], braided[1])
            if braided[0] != 0 or braided[2] or not answer[1].endswith(b"audited %d\n" % steps):
                self.differs(f"node by node it is braided so that the answer is {answer[1][-100:]}", mixed)
            elif without_numbers(braided[1].splitlines()) != without_numbers(lines):
                self.differs("braid changed the steps of a node", mixed)
            counts["braided"] += 1
        for place in range(damaged):
            damage = DAMAGES[(case * damaged + place) % len(DAMAGES)]
            changed = text(damage(rng, lines))
            if rng.randrange(8) == 0:
                changed = changed[:-1]
            found = self.audit(changed)
            if not found:
                continue
            if found[0] == 0:
                self.right_run(found, changed)
                answer = "the same" if changed.rstrip(b"\n") == given.rstrip(b"\n") else "another right run"
            else:
                answer = "fault " + found[1].split(b" ")[-1].decode().strip()
            counts[f"{damage.__name__.replace('_', ' ')}, {answer}"] += 1
        return counts


def main():
    program, peer, third, braid, count, damaged, number, first, lanes = sys.argv[1:10]
    orders = sys.argv[10:] or [None]
    judge = Judge(program, peer, third, braid)
    cases = range(int(first), int(first) + int(count))
    began, counts = time.monotonic(), collections.Counter()
    with concurrent.futures.ThreadPoolExecutor(int(lanes)) as pool:
        for part in pool.map(lambda case: judge.case(int(number), case, int(damaged), orders[case % len(orders)]), cases):
            counts += part
    for kind in sorted(counts):
        print(f"{kind}: {counts[kind]}")
    print(f"traces {count} damaged {int(count) * int(damaged)} wrong {judge.wrong}, seconds {time.monotonic() - began:.0f}")
    sys.exit(1 if judge.wrong or not counts["whole"] else 0)


main()
