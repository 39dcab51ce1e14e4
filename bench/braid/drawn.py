"""Draws traces, and compares what a program writes of them with the plain model.

    drawn.py PROGRAM COUNT NUMBER      COUNT inputs, drawn from NUMBER; status 1 where one differs
    drawn.py --make STEPS NUMBER       writes one input of so many steps, which has an order
"""
import random
import subprocess
import sys

import plain


def run_of(draw, nodes, steps):
    """The steps of a run in the order in which they happened: each takes a packet that was sent before, or none."""
    sent, happened = [], []
    for number in range(steps):
        node = b"r%d" % draw.randrange(nodes)
        packet = draw.choice(sent[-64:]) if sent and draw.random() < 0.7 else None
        if packet is not None and draw.random() < 0.1:
            packet = packet.upper()
        lines = [b"in %s packet %s" % (node, packet) if packet else b"in %s tick resend" % node]
        for _ in range(draw.choice((0, 1, 1, 2))):
            packet = b"4e4f%08x" % (number if draw.random() < 0.95 else draw.randrange(number + 1))
            lines.append(b"out %s send r%d %s" % (node, draw.randrange(nodes), packet))
            sent.append(packet)
        happened.append((node, lines))
    return happened


def crossed(draw, happened):
    """The same steps with two of a node in each other's place, so that there may be no order."""
    node = draw.choice(happened)[0]
    places = [place for place, step in enumerate(happened) if step[0] == node]
    a, b = draw.choice(places), draw.choice(places)
    happened[a], happened[b] = happened[b], happened[a]


def shuffled(draw, happened):
    """The same steps, each node's in their order, as an input has them."""
    nodes = sorted({node for node, _ in happened})
    if draw.random() < 0.5:
        draw.shuffle(nodes)
        return [lines for node in nodes for mine, lines in happened if mine == node]
    left = {node: [lines for mine, lines in happened if mine == node] for node in nodes}
    mixed = []
    while left:
        node = draw.choice(sorted(left))
        mixed.append(left[node].pop(0))
        if not left[node]:
            del left[node]
    return mixed


def damaged(draw, lines):
    """Lines with one that is gone, there twice, elsewhere or changed; or as they were."""
    lines = list(lines)
    how, at = draw.randrange(8), draw.randrange(len(lines))
    if how == 0:
        del lines[at]
    elif how == 1:
        lines.insert(at, lines[at])
    elif how == 2:
        lines.insert(draw.randrange(len(lines)), lines.pop(at))
    elif how == 3:
        lines[at] = draw.choice((b"", b"in", b"in ", b"in  packet ", b"out", b"out  send", b"x " + lines[at], lines[at] + b" "))
    return lines


def drawn(draw):
    happened = run_of(draw, draw.randrange(1, 7), draw.randrange(40))
    if happened and draw.random() < 0.5:
        crossed(draw, happened)
    lines = [b"nopaxos 1 replicas 3 sequencers 1 clients 2"] + [line for step in shuffled(draw, happened) for line in step]
    if draw.random() < 0.5:
        lines = damaged(draw, lines)
    data = plain.text(lines)
    return data[:-1] if draw.random() < 0.1 else data


def ended(program, data):
    ran = subprocess.run([program], input=data, stdout=subprocess.PIPE, stderr=subprocess.PIPE)
    return ran.returncode, ran.stdout, ran.stderr


def main():
    if sys.argv[1] == "--make":
        draw = random.Random(int(sys.argv[3]))
        happened = run_of(draw, 12, int(sys.argv[2]))
        lines = [b"nopaxos 1 replicas 3 sequencers 1 clients 2"]
        for node in sorted({node for node, _ in happened}):
            lines += [line for mine, step in happened if mine == node for line in step]
        sys.stdout.buffer.write(plain.text(lines))
        return 0
    program, count, draw = sys.argv[1], int(sys.argv[2]), random.Random(int(sys.argv[3]))
    ordered = stuck = 0
    for number in range(count):
        data = drawn(draw)
        _, steps, _, went = plain.braid(data)
        ordered, stuck = ordered + (went == len(steps)), stuck + (went < len(steps))
        if ended(program, data) != (0, plain.written(data), b""):
            sys.stdout.buffer.write(data)
            print("input %d differs" % number)
            return 1
    print("%d inputs alike: %d with an order, %d without" % (count, ordered, stuck))
    return 0


if __name__ == "__main__":
    sys.exit(main())
