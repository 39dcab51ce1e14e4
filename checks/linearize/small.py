"""Compares the answers of a program that looks for orders with those of brute force over all orders, on small random histories.

    small.py SERVICE PROGRAM JUDGE COUNT NUMBER

SERVICE is `kv` or `lock`; PROGRAM reads a history and writes an order; JUDGE, with the word `check`, judges what was written. Case I
depends on SERVICE, NUMBER and I alone. Each case that differs is printed; the last line counts them. The status is 1 where one differs.

A history is a list of claims in the order of time, (kind, who, content): the client and id `who` submits the op `content`, or accepts
the result `content`, which is None where nobody noted it: it may be any. What an order has to be is `is_legal`, word by word what docs/THEOREMS.md says under "What safe means".
"""

import collections
import itertools
import random
import re
import subprocess
import sys

from services import SERVICES

FIRST = "transcript 1 replicas 1 sequencers 1 clients 16"


def answers(service, ops):
    """What a single machine answers, carrying out the ops in order."""
    machine = service()
    return [machine.answer(op) for op in ops]


def differs(answer, noted):
    """Whether an answer is another one than was noted, if one was."""
    return noted is not None and answer != noted


def is_legal(service, claims, order, known=()):
    """Whether an order, a list of clients and ids, is one in which the claims are linearizable; where it also has what is known to be
    accepted later, that has its result too."""
    ops = {who: content for kind, who, content in claims if kind == "submit"}
    place = {who: at for at, who in enumerate(order)}
    given = answers(service, [ops[who] for who in order])
    for line, (kind, who, content) in enumerate(claims):
        if kind == "accept":
            if who not in place or differs(given[place[who]], content):
                return False
            later = [it for kind, it, _ in claims[line:] if kind == "submit" and it in place]
            if any(place[it] < place[who] for it in later):
                return False
    return not any(who in place and differs(given[place[who]], content) for _, who, content in known)


def has_order(service, claims, known=()):
    """Whether any order at all is legal: each list of what was submitted, nothing twice, is tried."""
    submitted = [who for kind, who, _ in claims if kind == "submit"]
    least = len(claims) - len(submitted)
    sizes = range(least, len(submitted) + 1)
    orders = itertools.chain.from_iterable(itertools.permutations(submitted, size) for size in sizes)
    return any(is_legal(service, claims, order, known) for order in orders)


def drawn(rng, service):
    """A history of 2 to 6 ops of up to 3 clients, which may have several open ones. A machine carries out most of them while they are
    open; some are not accepted; and in every other history another result is accepted, or two lines have changed places. Of every other one
    some results were not noted."""
    machine, count, clients, lost = service(), rng.randrange(2, 7), rng.randrange(1, 4), rng.choice([2, 8])
    claims, ids, waiting, answered = [], collections.Counter(), [], []
    while sum(ids.values()) < count or waiting or answered:
        act = rng.randrange(3)
        if act == 0 and sum(ids.values()) < count:
            client = rng.randrange(clients)
            ids[client] += 1
            waiting.append(((client, ids[client]), service.op(rng)))
            claims.append(("submit", *waiting[-1]))
        elif act == 1 and waiting:
            who, op = waiting.pop(rng.randrange(len(waiting)))
            if rng.randrange(12):
                answered.append(("accept", who, machine.answer(op)))
        elif act == 2 and answered:
            claim = answered.pop(rng.randrange(len(answered)))
            if rng.randrange(lost):
                claims.append(claim)
    if rng.randrange(2):
        damage(rng, service, claims)
    if rng.randrange(2):
        claims = [("accept", who, None) if kind == "accept" and rng.randrange(3) else (kind, who, content) for kind, who, content in claims]
    return claims


def damage(rng, service, claims):
    accepts = [at for at, claim in enumerate(claims) if claim[0] == "accept"]
    if accepts and rng.randrange(3):
        at = rng.choice(accepts)
        claims[at] = "accept", claims[at][1], rng.choice([claims[rng.choice(accepts)][2], service.result(rng)])
    else:
        at = rng.randrange(1, len(claims))
        if claims[at - 1][1] != claims[at][1]:
            claims[at - 1 : at + 1] = claims[at], claims[at - 1]


def text(claim):
    kind, (client, number), content = claim
    return f"{kind} c{client} {number} {'?' if content is None else content.hex() or '-'}"


def transcript(rng, claims):
    """The lines of a history, among lines that claim nothing, some with a history that is not looked at; and each claim's line number."""
    last = "controllers 4 observers 4"
    lines = [rng.choice([FIRST, f"transcript 3 replicas 7 sequencers 4 clients 1 {last}"])]
    numbers = []
    for claim in claims:
        if rng.randrange(8) == 0:
            lines.append(rng.choice(["busy c3", "dead r0", "send 0 c0 s* request 25", "read c0 1 o0 6b"]))
        lines.append(text(claim))
        numbers.append(len(lines))
    submits = [claim for claim in claims if claim[0] == "submit"]
    if rng.randrange(4) == 0:
        lines += ["replica r0 up normal 0 1 1 0", "entry r0 1 noop", "observer o0 up 1"]
        members = rng.sample(submits, rng.randrange(len(submits) + 1))
        lines += [text(it).replace("submit", f"history {at}") for at, it in enumerate(members, 1)]
    return [*lines, "end"], numbers


def run(words, lines):
    given = "".join(line + "\n" for line in lines).encode()
    ended = subprocess.run(words, input=given, capture_output=True, timeout=60, close_fds=False)
    return ended.returncode, ended.stdout.decode(), ended.stderr.decode()


def is_noted(line, written):
    """Whether a line was written as it was read, but with a result in place of a `?`."""
    front, unnoted, _ = line.partition("?")
    return written.startswith(front) and re.fullmatch(r"-|([0-9a-f]{2})+", written[len(front) :]) if unnoted else written == line


def wrong_order(judge, claims, written):
    """What is wrong with a transcript that was written for claims, if anything is."""
    lines = written.split("\n")
    events = [FIRST, *map(text, claims)]
    members = lines[len(events) : -2]
    if lines[-2:] != ["end", ""] or len(lines) < len(events) or not all(map(is_noted, events, lines)):
        return "it does not have the claims"
    if any(not line.startswith(f"history {at} ") for at, line in enumerate(members, 1)):
        return "its history is none"
    accepts = sum(kind == "accept" for kind, _, _ in claims)
    wanted = f"legal {len(claims) - accepts} {accepts} {len(members)}\n"
    judged = run([judge, "check"], lines[:-1])
    return "" if judged == (0, wanted, "") else f"it is judged {judged}"


def wrong_none(service, claims, numbers, written):
    """What is wrong with the answer that a part has no order, if anything is."""
    words = written.split(" ")
    if words[:2] != ["none", "part"] or words[3:4] != ["line"] or written.count("\n") != 1 or len(words) != 5:
        return "it is no answer"
    part = b"" if words[2] == "-" else bytes.fromhex(words[2])
    parts = {who: service.part_of(op) for kind, who, op in claims if kind == "submit"}
    own = [(claim, number) for claim, number in zip(claims, numbers) if parts[claim[1]] == part]
    mine = [claim for claim, _ in own]
    if has_order(service, mine):
        return "the part has an order"
    if int(words[4]) not in [number for _, number in own]:
        return "the line is not of the part"
    at = [number for _, number in own].index(int(words[4]))
    accepted = [claim for claim in mine[at:] if claim[0] == "accept"]
    if mine[at][0] != "accept" or not has_order(service, mine[:at], accepted) or has_order(service, mine[: at + 1], accepted):
        return "it is not the line that no order passes"
    return ""


def main():
    service, program, judge, count, start = SERVICES[sys.argv[1]], *sys.argv[2:]
    seen, wrong = collections.Counter(), 0
    for case in range(int(count)):
        rng = random.Random(f"{sys.argv[1]} {start} {case}")
        claims = drawn(rng, service)
        lines, numbers = transcript(rng, claims)
        status, written, said = run([program], lines)
        wanted = 0 if has_order(service, claims) else 8
        seen[wanted] += 1
        if (status, said) != (wanted, ""):
            fault = f"status {status} in place of {wanted}"
        elif wanted == 0:
            fault = wrong_order(judge, claims, written)
        else:
            fault = wrong_none(service, claims, numbers, written)
        if fault:
            wrong += 1
            print(f"case {case}: {fault}: {written}{said}" + "\n".join(lines))
    print(f"{sys.argv[1]} histories {count} with an order {seen[0]} without {seen[8]} wrong {wrong}")
    sys.exit(1 if wrong else 0)


main()
