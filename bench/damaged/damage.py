"""Damages schedules, replays each with the program, and looks at the exit status and at what was written.

    damage.py SEEDS PROGRAM PEER COUNT EVERY NUMBER FIRST

The folder SEEDS has valid schedules. Cases have numbers, from FIRST on; one depends on its number, NUMBER and the schedules
there alone. Every EVERY-th case is also replayed by PEER (0: none; with its words before `replay`), whose status and output have to be
the same, byte for byte. A case that is wrong is written to standard output in hexadecimal, and the status is 1 then.
"""

import collections
import os
import pathlib
import random
import re
import signal
import sys
import time

LIMITS = [0, 1, 2, 3, 4, 5, 6, 7, 8, 9, 15, 16, 17, 255, 256, 640, 4095, 4096, 65535, 65536, 999_999, 1_000_000]
LIMITS += [2**31 - 1, 2**31, 2**32 - 1, 2**32, 2**48 - 1, 2**48, 2**63 - 1, 2**63, 2**64 - 2, 2**64 - 1, 2**64, 2**64 + 1, 10**19]
LIMITS += [10**20, 10**40]
WORDS = b"nopaxos replicas sequencers clients controllers observers submit deliver tick install crash junk read".split()
WORDS += b"suspect watch resend sync retry probe next gen end transcript - ctl ctl0 ctl1 ctl3 ctl4 r0 r1 r2 r6 r7 r00".split()
WORDS += b"s0 s1 s3 s4 c0 c1 c15 c16 c00 o0 o1 o3 o4 o00 R0 x".split()
# A datagram of each kind, and what is refused beside them.
DATAGRAMS = """4e4f030100000000000000000000000100075000016b000176
4e4f03020000000000000001000000000000000100000000000000000000000100075000016b000176
4e4f030300000000000000000000000001000000010000000000000000000000010100046e6f6e65
4e4f03030100000000000000000000000100000001000000000000000000000001000000
4e4f030801000000000000000100000001100100000000000000000000000100000001
4e4f030900000000000000000000000100016b 4e4f030a000000000000000000000000000000000100046e6f6e65
4e4f030400000000000000000002 4e4f030503030000000300000001 4e4f0306010000000001 4e4f0307030300000001
4e4f030400000000000000000000 4e4f030404000000000000000002 4e4f030600040000000001 4e4f0306010000000000
4e4f030900000000000000000000000000016b 4e4f03090000000000000000000000010000 4e4f0309000000000000000000000001000200
4e4f030a040000000000000000000000000000000100046e6f6e65 4e4f030a000000000000000000000000000000000000046e6f6e65
4e4f03 4e4e0301 4e4f0201 4e4f0309 4e4f030a 4e4f030b 4e4f0300 4e4f03040000000000000002 4e4f03040000000000000000000200 -""".split()


def some_number(rng):
    number = rng.choice(LIMITS)
    form = rng.randrange(12)
    if form == 0:
        return b"0%d" % number
    if form == 1:
        return rng.choice([b"+%d", b"-%d", b"%d ", b" %d", b"%dx", b"0x%x", b"%d.0"]) % number
    return b"%d" % number


def some_hex(rng):
    """Hexadecimal about a limit of its length, or the spelling of a datagram."""
    if rng.randrange(3) == 0:
        digits = rng.choice(DATAGRAMS).encode()
    else:
        length = rng.choice([0, 1, 2, 3, 126, 127, 128, 129, 130, 1278, 1279, 1280, 1281, 1282, 2998, 2999, 3000, 3001, 3002, 4079, 4087])
        digits = rng.choice([b"0", b"f", b"5", b"4e", b"4E4f", b"P"]) * length
        digits = digits[:length]
    return digits.upper() if rng.randrange(4) == 0 else digits


# Each of these takes the lines without their ends, and gives others.


def flip(rng, text):
    """Some bytes changed: one bit, or the whole byte."""
    changed = bytearray(text)
    for _ in range(rng.choice([1, 1, 1, 2, 3, 8])):
        if changed:
            at = rng.randrange(len(changed))
            changed[at] = rng.choice([changed[at] ^ 1 << rng.randrange(8), rng.randrange(256), rng.randrange(32, 127), rng.choice(text)])
    return bytes(changed)


def cut(rng, text):
    """The end, the beginning or a piece taken away."""
    first, last = sorted(rng.randrange(len(text) + 1) for _ in range(2))
    return rng.choice([text[:first], text[first:], text[:first] + text[last:]])


def insert(rng, text):
    at = rng.randrange(len(text) + 1)
    piece = rng.choice([b"\n", b" ", b"\r", b"\0", b"\t", b"\x7f", b"\xc3\xa9", b"0", b"-", b"\r\n", bytes([rng.randrange(256)])])
    return text[:at] + piece + text[at:]


def by_bytes(change):
    return lambda rng, lines, other: change(rng, b"\n".join(lines)).split(b"\n")


def join(rng, lines, other):
    """Another schedule behind, with its first line or without, or in between."""
    other = other[rng.randrange(2) :]
    at = rng.choice([len(lines), rng.randrange(len(lines) + 1)])
    return lines[:at] + other + lines[at:]


def glue(rng, lines, other):
    """The end of a line taken away, or written otherwise."""
    at = rng.randrange(len(lines))
    end = rng.choice([b"", b" ", b"\r\n", b"\n\n"])
    return lines[:at] + (end.join(lines[at : at + 2])).split(b"\n") + lines[at + 2 :]


def repeat(rng, lines, other):
    first, last = sorted(rng.randrange(len(lines) + 1) for _ in range(2))
    last = min(last, first + rng.choice([1, 1, 2, 5, 20]))
    return lines[:last] + lines[first:last] * rng.choice([1, 1, 2, 10]) + lines[last:]


def drop(rng, lines, other):
    at = rng.randrange(len(lines))
    return lines[:at] + lines[at + rng.choice([1, 1, 2, 5]) :]


def swap(rng, lines, other):
    lines = list(lines)
    first, second = rng.randrange(len(lines)), rng.randrange(len(lines))
    lines[first], lines[second] = lines[second], lines[first]
    return lines


def lengthen(rng, lines, other):
    """A line of about the greatest length."""
    lines = list(lines)
    at = rng.randrange(len(lines))
    length = rng.choice([4095, 4096, 4096, 4097, 4098, 8192, 8193])
    filling = rng.choice([b"x", b"0", b" ", b" 0", b"a", b"\0", b"\xff"])
    begun = lines[at] if rng.randrange(2) else rng.choice([b"junk r0 ", b"submit c0 ", b"deliver ", b""])
    line = (begun + filling * length)[:length]
    lines[at : at + 1] = [line]
    if rng.randrange(4) == 0:
        del lines[at + 1 :]
    return lines


def renumber(rng, lines, other):
    """A number of a line, by itself or behind a letter, replaced by one at a limit, or by one near it."""
    lines = list(lines)
    at = rng.randrange(len(lines)) if rng.randrange(4) else 0
    places = list(re.finditer(rb"(?<![0-9a-f])[0-9]+(?![0-9a-f])|(?<= [rsco])[0-9]+", lines[at]))
    if places:
        place = rng.choice(places)
        near = max(0, int(place.group()) + rng.choice([-9, -3, -2, -1, 1, 2, 3, 9])) if len(place.group()) < 19 else 0
        number = b"%d" % near if rng.randrange(2) else some_number(rng)
        lines[at] = lines[at][: place.start()] + number + lines[at][place.end() :]
    return lines


def reword(rng, lines, other):
    """A field replaced, doubled, taken away or added."""
    lines = list(lines)
    at = rng.randrange(len(lines))
    fields = lines[at].split(b" ")
    which = rng.randrange(len(fields))
    fields[which : which + 1] = rng.choice([[rng.choice(WORDS)], [rng.choice(WORDS)], [], fields[which : which + 1] * 2, [b"", b""]])
    lines[at] = b" ".join(fields)
    return lines


def compose(rng, lines, other):
    """A line made of words, actors, numbers and hexadecimal at their limits."""
    actor = rng.choice([b"ctl", b"ctl%d", b"r%d", b"s%d", b"c%d", b"o%d"])
    if actor != b"ctl":
        actor %= rng.choice([0, 0, 0, 1, 1, 2, 3, 6, 7, 15, 16, 255, 256, 2**32 - 1, 2**32])
    line = rng.choice(
        [
            b"submit " + actor + b" " + some_hex(rng),
            b"junk " + actor + b" " + some_hex(rng),
            b"junk r0 " + some_hex(rng),
            b"submit c0 " + some_hex(rng),
            b"deliver " + some_number(rng) + b" " + actor,
            b"deliver 0 " + actor,
            b"tick " + actor + b" " + rng.choice(b"suspect watch resend sync retry probe next install".split()),
            b"install " + actor,
            b"install s0 " + actor,
            b"crash " + actor,
            b"read c0 " + actor + b" " + some_hex(rng),
            b"read " + actor + b" o0 " + some_hex(rng),
        ]
    )
    at = rng.randrange(len(lines) + 1)
    return lines[:at] + [line] + lines[at:]


def head(rng, lines, other):
    """Another first line."""
    counts = rng.choice([1, 3, 5, 7, 2, 8]), rng.choice([1, 2, 4, 0, 5]), rng.choice([1, 2, 16, 0, 17])
    group = b"replicas %d sequencers %d clients %d" % counts
    controllers = b" controllers %d" % rng.choice([1, 2, 3, 4, 0, 5])
    observers = b" observers %d" % rng.choice([0, 1, 2, 4, 5])
    form = rng.choice([1, 1, 2, 2, 3, 3, 0, 4])
    last = rng.choice([0, 1, 2] + 3 * [form - 1])
    return [b"nopaxos %d " % form + group + [b"", controllers, controllers + observers][max(0, min(last, 2))]] + lines[1:]


DAMAGES = [by_bytes(flip)] * 4 + [by_bytes(cut)] * 2 + [by_bytes(insert)] + [join, glue, lengthen, head, reword, reword]
DAMAGES += [repeat] * 3 + [drop, swap] + [renumber] * 4 + [compose] * 4


def damaged(rng, seeds):
    lines = rng.choice(seeds).split(b"\n")
    for _ in range(rng.choice([1, 1, 1, 1, 2, 2, 3])):
        lines = rng.choice(DAMAGES)(rng, lines or [b""], rng.choice(seeds).split(b"\n")) or [b""]
    return b"\n".join(lines)


class Runner:
    """Runs a program with the command replay over files in memory."""

    def __init__(self, words):
        self.words = [*words, "replay"]
        self.given, self.out, self.err = (os.memfd_create(name) for name in ("given", "out", "err"))
        pairs = ((self.given, 0), (self.out, 1), (self.err, 2))
        self.actions = [(os.POSIX_SPAWN_DUP2, number, end) for number, end in pairs]
        self.child = None

    def run(self, text):
        """The status (negative: a signal), the output, and what came on standard error."""
        for file in (self.given, self.out, self.err):
            os.ftruncate(file, 0)
            os.lseek(file, 0, os.SEEK_SET)
        os.pwrite(self.given, text, 0)
        signal.alarm(60)
        self.child = os.posix_spawnp(self.words[0], self.words, os.environ, file_actions=self.actions)
        _, status = os.waitpid(self.child, 0)
        signal.alarm(0)
        self.child = None
        output = os.pread(self.out, os.fstat(self.out).st_size, 0)
        return os.waitstatus_to_exitcode(status), output, os.pread(self.err, 1000, 0)

    def stop(self, *_):
        if self.child is not None:
            os.kill(self.child, signal.SIGKILL)


ERROR = re.compile(rb"error line ([1-9][0-9]*) rule ([1-9]|10)( index [0-9]+ sent [0-9]+)?\n")


def outcome(status, output, errors):
    """The status with the rule, or None where it is not one that a replay without failing devices ends with."""
    if errors or status not in (0, 1):
        return None
    last = output[output.rfind(b"\n", 0, -1) + 1 :]
    if status == 0:
        return "done" if re.match(rb"transcript [123] ", output) and last == b"end\n" else None
    error = ERROR.fullmatch(last)
    if not error or (error[2] == b"8") != (error[3] is not None) or (error[1] == b"1") != (output == last):
        return None
    return f"rule {int(error[2]):2}"


def main():
    folder, program, other, count, every, number, first = sys.argv[1:]
    count, every, number, first = int(count), int(every), int(number), int(first)
    seeds = [file.read_bytes().rstrip(b"\n") for file in sorted(pathlib.Path(folder).iterdir())]
    seeds = [seed for seed in seeds if seed]
    runner = Runner([program])
    peer = Runner(other.split()) if every else None
    signal.signal(signal.SIGALRM, lambda *_: (runner.stop(), peer and peer.stop()))
    outcomes, compared, wrong, given = collections.Counter(), 0, 0, 0
    began = time.monotonic()
    for case in range(first, first + count):
        rng = random.Random(number << 64 | case)
        text = damaged(rng, seeds)
        if rng.randrange(3):
            text += b"\n"
        given += len(text)
        found = runner.run(text)
        kind = outcome(*found)
        outcomes[kind] += 1
        same = True
        if every and case % every == 0:
            compared += 1
            same = peer.run(text)[:2] == found[:2]
        if kind is None or not same:
            wrong += 1
            print(f"case {case}: status {found[0]}, {'another answer than the peer' if not same else 'not an answer'}: {text.hex()}")
            if wrong == 20:
                break
    total = sum(outcomes.values())
    print(f"cases {total} bytes {given} compared {compared} wrong {wrong} seconds {time.monotonic() - began:.0f}")
    for kind in sorted(outcomes, key=str):
        print(f"{kind}: {outcomes[kind]}")
    sys.exit(1 if wrong else 0)


main()
