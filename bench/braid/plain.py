"""A plain model of `braid`, written from docs/FORMATS.md alone: the order of the steps of traces.

    plain.py < TRACES > ORDER
"""
import sys
from collections import deque


def is_start(line):
    return line.split(b" ")[0] == b"in"


def lines_of(data):
    lines = data.split(b"\n")
    if not lines[-1]:
        lines.pop()
    return lines


def steps_of(lines):
    """The head, and the steps: node, packet taken or None, packets sent, lines."""
    head, steps = lines[:1], []
    for line in lines[1:]:
        fields = line.split(b" ")
        if is_start(line):
            node = fields[1] if len(fields) > 1 else b""
            taken = fields[-1].lower() if len(fields) > 2 and fields[2] == b"packet" else None
            steps.append((node, taken, [], [line]))
        elif not steps:
            head.append(line)
        else:
            steps[-1][3].append(line)
            if len(fields) > 2 and fields[0] == b"out" and fields[2] == b"send":
                steps[-1][2].append(fields[-1].lower())
    return head, steps


def braid(data):
    """The head and the ordered steps, and how many of them go before any is stuck."""
    head, steps = steps_of(lines_of(data))
    threads, nodes = {}, []
    for step in steps:
        if step[0] not in threads:
            threads[step[0]] = deque()
            nodes.append(step[0])
        threads[step[0]].append(step)
    awaited = {packet for step in steps for packet in step[2]}
    waiting, ready, order = {}, deque(nodes), []
    while ready:
        node = ready.popleft()
        mine = threads[node]
        while mine:
            step = mine[0]
            if step[1] in awaited:
                waiting.setdefault(step[1], []).append(node)
                break
            order.append(mine.popleft())
            for packet in step[2]:
                awaited.discard(packet)
                ready.extend(waiting.pop(packet, ()))
    went = len(order)
    for node in nodes:
        order.extend(threads[node])
    return head, steps, order, went


def text(lines):
    return b"".join(line + b"\n" for line in lines)


def written(data):
    head, _, order, _ = braid(data)
    return text(head) + b"".join(text(step[3]) for step in order)


if __name__ == "__main__":
    sys.stdout.buffer.write(written(sys.stdin.buffer.read()))
