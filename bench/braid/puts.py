"""Writes a schedule of COUNT events: one client puts values at one key, one after the other, over three replicas that all get each packet, and
after each ten puts the leader has all synchronised. So the logs stay short, and all datagrams differ.

    puts.py COUNT
"""

import itertools
import sys


def events():
    sent = 0
    for number in itertools.count(1):
        replicas = [f"deliver {sent + 1} r{i}" for i in range(3)]
        yield from [f"submit c0 5000016b0004{number % 2**32:08x}", f"deliver {sent} s0", *replicas]
        yield from (f"deliver {sent + 2 + i} c0" for i in range(3))
        sent += 5
        if number % 10 == 0:
            # the log to both, their answers to the leader, the first of which is enough, and how far all are to both
            yield from ["tick r0 sync", f"deliver {sent} r1", f"deliver {sent} r2", f"deliver {sent + 1} r0", f"deliver {sent + 2} r0"]
            yield from [f"deliver {sent + 3} r1", f"deliver {sent + 3} r2"]
            sent += 4


print("nopaxos 1 replicas 3 sequencers 1 clients 1")
for event in itertools.islice(events(), int(sys.argv[1])):
    print(event)
