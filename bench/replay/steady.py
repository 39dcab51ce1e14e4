"""Writes a schedule of COUNT lines: ten puts of one client, one after the other; from then on each line delivers again what was delivered,
with the word `requests` the requests too.

    steady.py COUNT [requests]
"""

import itertools
import sys

count = int(sys.argv[1])
requests = sys.argv[2:] == ["requests"]
lines = ["nopaxos 1 replicas 3 sequencers 1 clients 1"]
again = []
for k in range(10):
    request, stamped, leads, follows = range(4 * k, 4 * k + 4)
    delivered = [f"deliver {stamped} r0", f"deliver {stamped} r1", f"deliver {leads} c0", f"deliver {follows} c0"]
    lines += ["submit c0 5000016b000176", f"deliver {request} s0", *delivered]
    again += [f"deliver {request} s0"] * requests + delivered
lines += itertools.islice(itertools.cycle(again), max(0, count - len(lines)))
print("\n".join(lines[:count]))
