"""What lost datagrams cost a gateway, by the rules alone: users of a few client cores, a sequencer, a leader and two followers, in one
process with a clock of its own. So it does not depend on what else the machine does, and each rule can be changed.

    lossy.py [--loss 0.01] [--users 8] [--cores 2] [--seconds 1] [--runs 2] [--lost request,stamped,reply,gap]
             [--timer core|oldest] [--least MILLIS] [--passed COUNT] [--repeat MILLIS]

It prints how many ops are answered in a second, as a part of those without loss, and the median and the 99 % of their times.

A datagram takes 0.085 ms, a fifth more or less; a user asks again 0.02 ms after its reply; nothing takes time at a node. `--lost` names the
kinds that can be lost, all by default. `--timer`: a core sends its open requests again `--least` milliseconds (5) after its last answer
(core), or after its oldest open request was sent (oldest); and, with `--passed`, once so many later ones of the core were answered.
`--repeat`: after so many milliseconds (50) a replica asks again for what it misses. The gateway's clock has whole milliseconds."""
import argparse, heapq, random

# in milliseconds: a datagram's way, a user's pause, a turn of the gateway, and the longest time after which a core sends again
HOP = 0.085
PAUSE = 0.02
TURN = 0.05
MOST = 200


class Replica:
    def __init__(self):
        self.next, self.ahead, self.log, self.executed, self.asked = 1, {}, {}, {}, 0


class Core:
    def __init__(self):
        self.open, self.smoothed, self.deviation, self.wait, self.due = {}, None, 0, 50, 0


class Request:
    def __init__(self, now):
        self.began, self.sent, self.again, self.passed, self.replies = now, int(now), False, 0, {}


class Run:
    def __init__(self, rules, loss, seed):
        self.rules, self.loss, self.draw = rules, loss, random.Random(seed)
        self.now, self.events, self.count, self.stamped, self.submitted = 0, [], 0, 0, 0
        self.replicas = [Replica() for _ in range(3)]
        self.cores = [Core() for _ in range(rules.cores)]
        self.times, self.sent_again = [], 0

    def at(self, time, call, *words):
        self.count += 1
        heapq.heappush(self.events, (time, self.count, call, words))

    def send(self, kind, call, *words):
        if kind not in self.rules.lost or self.draw.random() >= self.loss:
            self.at(self.now + HOP * self.draw.uniform(0.8, 1.2), call, *words)

    # ---- the sequencer and the replicas; replica 0 leads
    def stamp(self, op):
        self.stamped += 1
        for r in range(3):
            self.send('stamped', self.receive, r, self.stamped, op)

    def receive(self, r, slot, op):
        replica = self.replicas[r]
        if slot >= replica.next:
            replica.ahead[slot] = op
            self.take(r)

    def take(self, r):
        replica = self.replicas[r]
        while replica.next in replica.ahead:
            self.append(r, replica.ahead.pop(replica.next))
        if replica.ahead and replica.asked != replica.next:
            self.ask(r)

    def append(self, r, op):
        replica = self.replicas[r]
        slot = replica.next
        replica.ahead.pop(slot, None)
        replica.log[slot], replica.next = op, slot + 1
        if op is not None:
            self.send('reply', self.answer, r, op, replica.executed.setdefault(op, slot))

    def ask(self, r):
        """A follower asks the leader for what it misses, and the leader has all agree that the slot is empty."""
        slot = self.replicas[r].asked = self.replicas[r].next
        for follower in (1, 2) if r == 0 else ():
            self.send('gap', self.commit, follower, slot)
        if r != 0:
            self.send('gap', self.look_up, r, slot)
        self.at(self.now + self.rules.repeat, self.ask_again, r, slot)

    def ask_again(self, r, slot):
        if self.replicas[r].next == slot:
            self.ask(r)

    def commit(self, r, slot):
        replica = self.replicas[r]
        if slot > replica.next:
            return
        if slot == replica.next:
            self.append(r, None)
        else:
            op, replica.log[slot] = replica.log[slot], None
            if op is not None and replica.executed[op] == slot:
                del replica.executed[op]
                later = [s for s in range(slot + 1, replica.next) if replica.log[s] == op]
                if later:
                    replica.executed[op] = later[0]
                    self.send('reply', self.answer, r, op, later[0])
        self.send('gap', self.agree, slot)
        self.take(r)

    def agree(self, slot):
        if self.replicas[0].next == slot:
            self.append(0, None)
            self.take(0)

    def look_up(self, r, slot):
        leader = self.replicas[0]
        if slot < leader.next:
            self.send('gap', self.find, r, slot, leader.log[slot])
        elif slot == leader.next and leader.asked != slot:
            self.ask(0)

    def find(self, r, slot, op):
        if self.replicas[r].next == slot:
            self.append(r, op)
            self.take(r)

    # ---- the gateway
    def submit(self):
        number = min(range(len(self.cores)), key=lambda i: len(self.cores[i].open))
        core = self.cores[number]
        if not core.open:
            self.restart(core)
        self.submitted += 1
        op = (number, self.submitted)
        core.open[op] = Request(self.now)
        self.send('request', self.stamp, op)

    def restart(self, core):
        least = self.rules.least
        core.wait = 50 if core.smoothed is None else max(least, min(MOST, core.smoothed + 4 * core.deviation))
        core.due = int(self.now) + core.wait

    def answer(self, r, op, slot):
        core = self.cores[op[0]]
        request = core.open.get(op)
        if request is None:
            return
        those = request.replies.setdefault(slot, set())
        those.add(r)
        if 0 not in those or len(those) < 2:
            return
        del core.open[op]
        self.measure(core, request)
        self.times.append(self.now - request.began)
        self.restart(core)
        for earlier in [o for o in core.open if o[1] < op[1]]:
            core.open[earlier].passed += 1
            if core.open[earlier].passed == self.rules.passed:
                self.retry(core, [earlier])
        self.at(self.now + PAUSE, self.submit)

    def measure(self, core, request):
        if request.again:
            return
        trip = min(MOST, int(self.now) - request.sent)
        if core.smoothed is None:
            core.smoothed, core.deviation = trip, trip / 2
        else:
            core.deviation += (abs(core.smoothed - trip) - core.deviation) / 4
            core.smoothed += (trip - core.smoothed) / 8

    def retry(self, core, ops):
        for op in ops:
            core.open[op].again, core.open[op].sent = True, int(self.now)
            self.sent_again += 1
            self.send('request', self.stamp, op)

    def look(self):
        for core in self.cores:
            due = core.due
            if core.open and self.rules.timer == 'oldest':
                due = min(request.sent for request in core.open.values()) + core.wait
            if core.open and int(self.now) >= due:
                self.retry(core, list(core.open))
                core.wait = min(MOST, 2 * core.wait)
                core.due = int(self.now) + core.wait
        self.at(self.now + TURN, self.look)

    def run(self):
        for user in range(self.rules.users):
            self.at(0.01 * user, self.submit)
        self.look()
        while self.events[0][0] < 1000 * self.rules.seconds:
            self.now, _, call, words = heapq.heappop(self.events)
            call(*words)
        self.times.sort()
        return len(self.times) / self.rules.seconds


parser = argparse.ArgumentParser()
for name, kind, default in (('loss', float, 0.01), ('users', int, 8), ('cores', int, 2), ('seconds', float, 1), ('runs', int, 2),
                            ('lost', str, 'request,stamped,reply,gap'), ('timer', str, 'core'), ('least', float, 5), ('passed', int, 0),
                            ('repeat', float, 50)):
    parser.add_argument(f'--{name}', type=kind, default=default)
rules = parser.parse_args()
rules.lost = rules.lost.split(',')
whole = Run(rules, 0, 0).run()
runs = [Run(rules, rules.loss, seed) for seed in range(1, rules.runs + 1)]
rate = sum(run.run() for run in runs) / len(runs)
times = sorted(time for run in runs for time in run.times)
again = sum(run.sent_again for run in runs) / len(times)
print(f'{rate:.0f} a second, {rate / whole:.2f} of {whole:.0f}; median {times[len(times) // 2]:.2f} ms, '
      f'99 % {times[len(times) * 99 // 100]:.2f} ms; sent again {again:.3f} times each')
