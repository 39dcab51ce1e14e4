"""Trials of clusters of several hosts for bench/hosts.sh, which says what each does.

    hosts.py TRIAL..

The environment has what bench/hosts/clusters.py reads, and the numbers that bench/hosts.sh names.
"""

import os
import pathlib
import random
import signal
import subprocess
import sys
import tempfile
import time

from clusters import FAILED, HOSTS, SEED, Cluster, Loopback, Namespaces, Trial, differs

COUNT = int(os.environ.get("COUNT", 20))
FIRST = int(os.environ.get("FIRST", 0))
# Seconds within which the others have to answer.
WITHIN = float(os.environ.get("WITHIN", 4))
PUT = "5000016b000176"
RNG = random.Random(SEED)

# Who is on which host, from 1 on. Clients are on a host of their own, the last one.
LAYOUTS = {
    "together": ["r0 s0 ctl", "r1 s1 ctl1", "r2"],
    "apart": ["r0 s0 ctl", "r1 s1", "r2 ctl1"],
    "five": ["r0 s0 ctl", "r1 s1 ctl1", "r2", "r3", "r4"],
    "three each": ["r0", "s0", "ctl", "r1", "r2", "s1", "ctl1"],
    "five each": ["r0", "s0", "ctl", "r1", "r2", "r3", "r4", "s1", "ctl1"],
}


def median(times):
    return sorted(times)[(len(times) - 1) // 2] if times else float("nan")


def told(times):
    """How many, their median and the greatest."""
    return f"{len(times)} median {median(times):.2f} worst {max(times, default=float('nan')):.2f}"


def new_client(load, number, key):
    """The program's client of this number puts a key of its own. The name of the client."""
    load.say("client", HOSTS, f"c{number}", f"500003{key:06x}000176")
    return f"c{number}"


def number_of(cut):
    """The number of a new client at the places c8 to c15, a new one for each of 120 cuts of a cluster."""
    return 8 + cut % 8 + 16 * (1 + cut // 8)


def cut_host(trial, host, how, seconds, number, answers=True):
    """One cut and its end. How soon the load and a new client were answered, and how soon after the end; what was not is None. Then the
    longest time without an answer in the 1.5 s after the end."""
    load = trial.load
    load.gap()
    trial.net.cut(host, how)
    began = time.monotonic()
    load.say("mark", f"cut{number}")
    name = new_client(load, number_of(number), number)
    during = load.soon(f"cut{number}", seconds)
    client = load.hear(["client", name], max(0.01, seconds - (time.monotonic() - began)))
    time.sleep(max(0, seconds - (time.monotonic() - began)))
    load.gap()
    trial.net.heal(host, how)
    healed = time.monotonic()
    after = load.answered(f"healed{number}", 10)
    time.sleep(max(0, 1.5 - (time.monotonic() - healed)))
    gap = load.gap()
    if during is None:
        load.soon(f"cut{number}", 10)
    late = client or load.hear(["client", name], 60)
    if late is None or late[0] != "0":
        differs(f"{trial.what}: cut {number}: the new client: {late}")
    if answers and (during is None or during > WITHIN):
        differs(f"{trial.what}: cut {number} of host {host}: answered after {during}")
    if after is None or after > WITHIN:
        differs(f"{trial.what}: cut {number} of host {host}, healed: answered after {after}")
    return during, float(client[1]) if client else None, after, gap


def tell(what, outcomes, count):
    during, clients, after, gaps = ([o[i] for o in outcomes if o[i] is not None] for i in range(4))
    print(
        f"{what}: cuts {count}, answered {told(during)}; new clients {told(clients)}; healed, answered {told(after)}, longest gap {told(gaps)}",
        flush=True,
    )


def fresh_cuts(layout, host, how, answers, seconds=4.5, load=None, lost=0):
    """COUNT clusters, in each of which this host is cut off once."""
    what = f"{layout}: host {host} ({LAYOUTS[layout][host - 1]}) cut {how}{f', {lost / 10:g} % lost' if lost else ''}"
    outcomes = []
    for number in range(COUNT):
        with Trial(what, Namespaces(FIRST, len(LAYOUTS[layout]) + 1), LAYOUTS[layout], load=load, lost=lost) as trial:
            time.sleep(0.3 + RNG.random() / 2)
            outcomes.append(cut_host(trial, host, how, seconds, number, answers))
            trial.runs()
            trial.finish()
    tell(what, outcomes, COUNT)


def cuts():
    for host in (1, 2, 3):
        fresh_cuts("together", host, "both", True)


def cables():
    for how in ("cable", "down"):
        for host in (1, 2, 3):
            fresh_cuts("together", host, how, True)


def one_way():
    for how in ("out", "in"):
        for host in (1, 2, 3):
            fresh_cuts("together", host, how, False)


def turns(layout, answers):
    """One cluster, whose hosts are cut off in turn, COUNT times each."""
    what = f"{layout}: hosts in turn"
    outcomes = {1: [], 2: [], 3: []}
    with Trial(what, Namespaces(FIRST, 4), LAYOUTS[layout]) as trial:
        for number in range(3 * COUNT):
            host = 1 + number % 3
            outcomes[host].append(cut_host(trial, host, "both", 4.5, number, answers))
        trial.runs()
        summary = trial.finish()
    for host in (1, 2, 3):
        tell(f"{what}: host {host} ({LAYOUTS[layout][host - 1]})", outcomes[host], COUNT)
    print(f"{what}: {summary}", flush=True)


def each():
    """Each node on a host of its own: that of the leader, of the sequencer in use, and of a controller is cut off."""
    for layout in ("three each", "five each"):
        for host in (1, 2, 3):
            fresh_cuts(layout, host, "both", True)


def returns():
    """The leader's host is cut off for 1.5, 2 and 3 s, and as many followers as may be are killed soon after it is back."""
    for layout, followers in (("three each", ["r2"]), ("five each", ["r2", "r4"])):
        for seconds in (1.5, 2, 3):
            returned(layout, seconds, followers)


def returned(layout, seconds, followers):
    what = f"{layout}: the leader away for {seconds} s, then {' and '.join(followers)} killed"
    times = []
    for number in range(COUNT):
        with Trial(what, Namespaces(FIRST, len(LAYOUTS[layout]) + 1), LAYOUTS[layout]) as trial:
            time.sleep(0.3 + RNG.random() / 2)
            trial.net.cut(1, "both")
            time.sleep(seconds)
            trial.net.heal(1, "both")
            time.sleep(RNG.random())
            for name in followers:
                trial.cluster.kill(name)
            took = trial.load.answered("killed", 20)
            if took is None or took > WITHIN:
                differs(f"{what}: number {number}: answered after {took}")
            times.append(20 if took is None else took)
            trial.runs()
            trial.finish()
    print(f"{what}: answered {told(times)}", flush=True)


def flapping():
    """Hosts with several nodes, and hosts of single replicas, are cut off and healed each 100 ms; a cluster for each."""
    for layout, hosts in (("together", (1, 2, 3)), ("three each", (1, 4, 5))):
        for host in hosts:
            flapped(layout, host)


def flapped(layout, host):
    what = f"{layout}: flapping host {host} ({LAYOUTS[layout][host - 1]})"
    gaps, after = [], []
    for _ in range(max(1, COUNT // 5)):
        with Trial(what, Namespaces(FIRST, len(LAYOUTS[layout]) + 1), LAYOUTS[layout]) as trial:
            trial.load.gap()
            until = time.monotonic() + float(os.environ.get("FLAPPING", 10))
            while time.monotonic() < until:
                trial.net.cut(host, "both")
                time.sleep(0.1)
                trial.net.heal(host, "both")
                time.sleep(0.1)
            gaps.append(trial.load.gap())
            after.append(trial.load.answered("healed", 20))
            if after[-1] is None or after[-1] > WITHIN:
                differs(f"{what}: answered after {after[-1]}")
            time.sleep(1)
            trial.runs()
            trial.finish()
    print(f"{what}: runs {len(gaps)}, longest gap {told(gaps)}; healed {told([a for a in after if a is not None])}", flush=True)


def lossy():
    """Five replicas whose networks lose; in each run the leader's host is cut off."""
    for lost in (10, 30, 100):
        fresh_cuts("five", 1, "both", True, lost=lost)


def checkpoint():
    """The leader's host is cut off while synchronisations send a checkpoint of 0.3 MB: 1,100 keys with values of 256 bytes."""
    load = {"keys": 1100, "value": 256, "rate": 2000, "puts": 90}
    what = "together: host 1 cut both while a checkpoint of 0.3 MB goes"
    outcomes = []
    for number in range(COUNT):
        with Trial(what, Namespaces(FIRST, 4), LAYOUTS["together"], load=load) as trial:
            time.sleep(4 + RNG.random() / 5)
            outcomes.append(cut_host(trial, 1, "both", 4.5, number))
            trial.runs()
            trial.finish()
    tell(what, outcomes, COUNT)


class Faults:
    """What is wrong in a cluster, and when it ends."""

    def __init__(self, trial):
        self.trial = trial
        self.ends = []
        self.lines = []

    def begins(self, text, seconds, end):
        self.lines.append(f"{time.monotonic():.2f} {text} for {seconds:.2f} s")
        self.ends.append((time.monotonic() + seconds, len(self.lines), end))

    def draw(self):
        net, cluster = self.trial.net, self.trial.cluster
        seconds = RNG.choice([0.05, 0.3, 1, 2.5]) * (0.5 + RNG.random())
        host = 1 + RNG.randrange(net.hosts - 1)
        kind = RNG.randrange(4)
        if kind == 0:
            how = RNG.choice(["both", "out", "in"])
            net.cut(host, how)
            self.begins(f"host {host} cut {how}", seconds, lambda: net.heal(host, how))
        elif kind == 1:
            other = RNG.choice(net.others(host))
            net.hides(host, other)
            self.begins(f"from {host} to {other} cut", seconds, lambda: net.finds(host, other))
        else:
            name = RNG.choice(sorted(cluster.processes))
            process = cluster.processes[name]
            process.send_signal(signal.SIGSTOP)
            self.begins(f"{name} stands still", seconds, lambda: process.send_signal(signal.SIGCONT))

    def end(self, at):
        """Ends those that are over at this time."""
        for ended in sorted(e for e in self.ends if e[0] <= at):
            ended[2]()
        self.ends = [e for e in self.ends if e[0] > at]


def chaos():
    """Hosts and ways between them are cut, and nodes stand still, all drawn; then all is well, and as many replicas are killed as may be."""
    for layout, count in (("apart", 1), ("five", 2)):
        for lost in (0, 10):
            chaotic(layout, count, lost)


def chaotic(layout, count, lost):
    load = {name: int(os.environ.get(name.upper(), value)) for name, value in (("keys", 20), ("value", 8), ("rate", 400))}
    what = f"chaos, {layout}, {lost / 10:g} % lost, {load['keys']} keys of {load['value']} bytes"
    gaps, healed, killed, ops = [], [], [], 0
    for number in range(COUNT):
        with Trial(what, Namespaces(FIRST, len(LAYOUTS[layout]) + 1), LAYOUTS[layout], lost=lost, load=load) as trial:
            faults = Faults(trial)
            trial.load.gap()
            until = time.monotonic() + float(os.environ.get("SECONDS_EACH", 15))
            while time.monotonic() < until:
                faults.draw()
                if RNG.random() < 0.1 and len(faults.lines) < 100:
                    new_client(trial.load, number_of(len(faults.lines)), len(faults.lines))
                time.sleep(RNG.random())
                faults.end(time.monotonic())
            faults.end(float("inf"))
            gaps.append(trial.load.gap())
            healed.append(trial.load.answered("healed", 20))
            time.sleep(1)
            names = RNG.sample(sorted(n for n in trial.cluster.processes if n.startswith("r")), count)
            for name in names:
                trial.cluster.kill(name)
            killed.append(trial.load.answered("killed", 20))
            if healed[-1] is None or killed[-1] is None:
                differs(f"{what}: number {number}: healed {healed[-1]}, {names} killed {killed[-1]}; {'; '.join(faults.lines)}")
            trial.runs()
            ops += int(trial.finish().get("accepted", 0))
    healed, killed = ([a for a in times if a is not None] for times in (healed, killed))
    print(f"{what}: runs {COUNT}, {ops} ops, longest gap {told(gaps)}; healed {told(healed)}; after kills {told(killed)}", flush=True)


def restarts():
    """A node is killed under load, and started again 0 to 1.5 s later, three times: it has to be refused, and nothing to be lost."""
    for marks in (False, True):
        for name in ("r0", "r1", "s0", "s1", "ctl", "ctl1"):
            restarted(name, marks)


def restarted(name, marks):
    what = f"restarts of {name}{', with marks' if marks else ''}"
    times, gaps = [], []
    for number in range(COUNT):
        with tempfile.TemporaryDirectory() as folder:
            options = ["--marks", folder] if marks else []
            with Trial(what, Loopback(FIRST + number), LAYOUTS["together"], options) as trial:
                time.sleep(0.3 + RNG.random() / 2)
                trial.load.gap()
                trial.cluster.kill(name)
                for _ in range(3):
                    time.sleep(RNG.random() * 1.5)
                    began = time.monotonic()
                    try:
                        status = trial.cluster.start(name).wait(20)
                    except subprocess.TimeoutExpired:
                        status = None
                    times.append(time.monotonic() - began)
                    if status != 5:
                        differs(f"{what}: number {number}: status {status}")
                    trial.cluster.processes.pop(name).kill()
                if trial.load.answered("after", 20) is None:
                    differs(f"{what}: number {number}: no answer in 20 s")
                gaps.append(trial.load.gap())
                trial.runs()
                trial.finish()
    print(f"{what}: {COUNT} kills, refused after {told(times)}; longest gap {told(gaps)}", flush=True)


def starts():
    """COUNT starts of a cluster of seven nodes in a random order, with random pauses; then as many without one of them."""
    for missing in (False, True):
        times = []
        for number in range(COUNT):
            cluster = Cluster(Loopback(FIRST + number), LAYOUTS["together"], 1 + SEED)
            names = RNG.sample(sorted(cluster.hosts), 6 if missing else 7)
            what = f"start of {' '.join(names)}"
            for name in names:
                time.sleep(RNG.choice([0, RNG.random() / 100, RNG.random()]))
                cluster.start(name, *(["--install", "0"] if name == "ctl" and RNG.random() < 0.5 else []))
            began = time.monotonic()
            words = [HOSTS, str(cluster.list), "c0", PUT]
            try:
                status = subprocess.run(words, stdout=subprocess.DEVNULL, timeout=30, check=False).returncode
            except subprocess.TimeoutExpired:
                status = None
            times.append(time.monotonic() - began)
            if status != 0 or cluster.ended():
                differs(f"{what}: client {status}, ended {cluster.ended()}")
            cluster.stop()
        print(f"starts{' with one of seven missing' if missing else ''}: answered {told(times)}", flush=True)


def puts():
    """PUTS puts of 15 clients at each loss: how many a second, how long they wait, and what memory nodes have."""
    millis = int(os.environ.get("MILLIS", 0))
    for lost in [int(word) for word in os.environ.get("LOST", "0 1 5 10").split()]:
        what = f"puts, {lost / 10:g} % lost, {millis} ms each way"
        ops = int(os.environ.get("PUTS", 100_000))
        words = {"clients": 15, "keys": 100, "value": 16, "rate": int(os.environ.get("RATE", 0)), "ops": ops, "puts": 100}
        with Trial(what, Loopback(FIRST), LAYOUTS["together"], lost=lost, millis=millis, load=words) as trial:
            memory = []
            while trial.load.process.poll() is None:
                memory.append(trial.cluster.memory())
                time.sleep(0.5)
            trial.runs()
            summary = trial.finish()
        quarter = memory[len(memory) // 4]
        grown = {name: (quarter[name], max(m[name] for m in memory)) for name in quarter}
        rate = int(summary.get("accepted", 0)) / float(summary.get("seconds", 1))
        print(f"{what}: {rate:.0f} a second, {summary}; KiB at a quarter and at most {grown}", flush=True)


def forged():
    """Forged greetings and acknowledgements, FORGED of each kind, at a cluster that has clients; and first none, for 15 s."""
    sender = str(pathlib.Path(__file__).with_name("forged.py"))
    count = os.environ.get("FORGED", "250000")
    for whose in ("nobody", "strangers", "clients", "nodes", "claims"):
        what = f"forged by {whose}"
        with Trial(what, Loopback(FIRST), LAYOUTS["together"]) as trial:
            time.sleep(2)
            before = trial.cluster.memory()
            trial.load.gap()
            words = [sys.executable, sender, str(trial.cluster.list), count, str(SEED), whose] if whose != "nobody" else ["sleep", "15"]
            sent = subprocess.run(words, stdout=subprocess.PIPE, text=True, check=False).stdout.strip()
            gap = trial.load.gap()
            after = trial.cluster.memory()
            time.sleep(0.5)
            refused = 0
            for number in range(9, 15):
                name = new_client(trial.load, number + 16, number)
                answer = trial.load.hear(["client", name], 60)
                refused += answer is not None and answer[0] == "5"
                if whose != "claims" and (answer is None or answer[0] != "0"):
                    differs(f"{what}: a new client {name}: {answer}")
            trial.cluster.kill("r2")
            status = trial.cluster.start("r2").wait(20)
            trial.cluster.processes.pop("r2")
            if status != 5:
                differs(f"{what}: replica 2 started again: status {status}")
            trial.runs()
            trial.finish()
        grown = {name: after[name] - before[name] for name in before}
        print(f"{what}: {sent or 'nothing sent'}; longest gap {gap:.2f}; new clients refused {refused} of 6; KiB more {grown}", flush=True)


TRIALS = {
    "cuts": cuts,
    "cables": cables,
    "each": each,
    "returns": returns,
    "one-way": one_way,
    "turns": lambda: turns("together", False),
    "turns-apart": lambda: turns("apart", True),
    "flapping": flapping,
    "chaos": chaos,
    "lossy": lossy,
    "checkpoint": checkpoint,
    "restarts": restarts,
    "starts": starts,
    "puts": puts,
    "forged": forged,
}

if __name__ == "__main__":
    signal.signal(signal.SIGTERM, lambda *_: sys.exit(143))
    for trial in sys.argv[1:]:
        TRIALS[trial]()
    print(f"hosts: {len(FAILED)} differ (seed {SEED})")
    sys.exit(1 if FAILED else 0)
