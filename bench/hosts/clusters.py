"""Clusters of several hosts, and their clients, for bench/hosts/hosts.py.

The environment has the program files HOSTS (`nopaxos_hosts`), LINEARIZE (`kv_linearize`), NOPAXOS and LOAD (bench/hosts/load.rs), the library
DELAY (bench/delayed/delay.c), and SEED.
"""

import os
import pathlib
import queue
import subprocess
import sys
import tempfile
import threading
import time

HOSTS, LINEARIZE, NOPAXOS, LOAD, DELAY = (os.environ[name] for name in ("HOSTS", "LINEARIZE", "NOPAXOS", "LOAD", "DELAY"))
SEED = int(os.environ.get("SEED", time.time_ns() % 1_000_000))
# What is not as it has to be.
FAILED = []


def differs(text):
    FAILED.append(text)
    print(f"hosts: {text}", flush=True)


class Loopback:
    """Hosts that are addresses of the loopback interface: none can be cut off."""

    def __init__(self, number):
        self.number = number

    def address(self, host):
        return f"127.{60 + self.number // 200}.{1 + self.number % 200}.{host}"

    def words(self, host):
        return []

    def remove(self):
        pass


class Namespaces:
    """Hosts that are network namespaces, each with an interface at a bridge, which is in a namespace of its own."""

    def __init__(self, number, hosts):
        if os.geteuid() != 0:
            sys.exit("hosts: network namespaces need root")
        self.prefix = f"nop{os.getpid()}n{number}"
        self.switch = self.prefix + "sw"
        self.hosts = hosts
        self.ip("netns", "add", self.switch)
        self.ip("-n", self.switch, "link", "add", "name", "sw0", "type", "bridge", "forward_delay", "0")
        self.ip("-n", self.switch, "link", "set", "sw0", "up")
        for host in range(1, hosts + 1):
            self.add(host)

    def add(self, host):
        name, port = self.name(host), f"p{host}"
        self.ip("netns", "add", name)
        ends = ["netns", name, "address", self.hardware(host), "type", "veth", "peer", port, "netns", self.switch]
        self.ip("link", "add", "eth0", *ends)
        self.ip("-n", self.switch, "link", "set", port, "master", "sw0", "up")
        self.ip("-n", name, "address", "add", f"{self.address(host)}/24", "dev", "eth0")
        self.ip("-n", name, "link", "set", "lo", "up")
        self.ip("-n", name, "link", "set", "eth0", "up")

    @staticmethod
    def ip(*words, program="ip"):
        subprocess.run([program, *words], check=True, stdout=subprocess.DEVNULL)

    @staticmethod
    def hardware(host):
        return f"02:00:00:00:00:{host:02x}"

    @staticmethod
    def address(host):
        return f"10.77.0.{host}"

    def name(self, host):
        return f"{self.prefix}h{host}"

    def words(self, host):
        return ["ip", "netns", "exec", self.name(host)]

    def others(self, host):
        return [other for other in range(1, self.hosts + 1) if other != host]

    def hides(self, host, other):
        """What this host sends to the other goes to an interface that nobody has."""
        self.neighbour(host, other, "02:00:00:00:00:fe", "permanent")

    def finds(self, host, other):
        self.neighbour(host, other, self.hardware(other), "reachable")

    def neighbour(self, host, other, hardware, state):
        self.ip("-n", self.name(host), "neigh", "replace", self.address(other), "lladdr", hardware, "dev", "eth0", "nud", state)

    def forwards(self, host, how, does):
        if how == "both":
            self.ip("-n", self.switch, "link", "set", "dev", f"p{host}", "state", "3" if does else "0", program="bridge")
        elif how == "cable":
            self.ip("-n", self.switch, "link", "set", f"p{host}", "up" if does else "down")
        elif how == "down":
            self.ip("-n", self.name(host), "link", "set", "eth0", "up" if does else "down")

    def cut(self, host, how):
        """both: the bridge forwards nothing of it and to it. cable: its interface has no other end. down: the host has no interface that
        is up, so that it can't send. out, in: one way alone."""
        self.forwards(host, how, False)
        for other in self.others(host):
            if how == "out":
                self.hides(host, other)
            elif how == "in":
                self.hides(other, host)

    def heal(self, host, how):
        self.forwards(host, how, True)
        for other in self.others(host):
            if how == "out":
                self.finds(host, other)
            elif how == "in":
                self.finds(other, host)

    def remove(self):
        for host in range(1, self.hosts + 1):
            subprocess.run(["ip", "netns", "del", self.name(host)], check=False)
        subprocess.run(["ip", "netns", "del", self.switch], check=False)


class Cluster:
    """The nodes of a list of hosts, each a process of its own."""

    def __init__(self, net, layout, number, options=(), lost=0, millis=0):
        self.net = net
        self.folder = tempfile.TemporaryDirectory()
        self.path = pathlib.Path(self.folder.name)
        self.hosts = {name: host for host, names in enumerate(layout, 1) for name in names.split()}
        self.clients = len(layout) + 1
        self.list = self.path / "list"
        self.list.write_text(self.text(number))
        self.options = list(options)
        self.processes = {}
        self.environment = dict(os.environ)
        if lost or millis:
            numbers = {"LOST": lost, "MICROS": millis * 1000, "FIRST": 1024, "LAST": 65535}
            self.environment |= {"LD_PRELOAD": DELAY} | {f"DELAY_{name}": str(value) for name, value in numbers.items()}

    def text(self, number):
        ports = {"r": 41000, "s": 41008, "ctl": 41012}
        lines = [f"cluster {number}"]
        for name, host in self.hosts.items():
            kind = name.rstrip("0123456789")
            lines.append(f"{name} {self.net.address(host)}:{ports[kind] + int(name[len(kind):] or 0)}")
        lines += [f"c{i} {self.net.address(self.clients)}:{41016 + i}" for i in range(16)]
        return "\n".join(lines) + "\n"

    def start(self, name, *more):
        words = [*self.net.words(self.hosts[name]), HOSTS, str(self.list), *self.options, name, *more]
        with open(self.path / f"out-{name}", "w") as out:
            self.processes[name] = subprocess.Popen(words, stdout=out, stderr=out, env=self.environment)
        return self.processes[name]

    def starts(self, names=None):
        for name in names or self.hosts:
            self.start(name, *(["--install", "0"] if name == "ctl" else []))

    def kill(self, name):
        process = self.processes.pop(name)
        process.kill()
        process.wait()

    def load(self, *words, **names):
        return Load(self, *words, **names)

    def memory(self):
        """KiB of each node."""
        kib = {}
        for name, process in self.processes.items():
            try:
                lines = pathlib.Path(f"/proc/{process.pid}/status").read_text().splitlines()
                kib[name] = next(int(line.split()[1]) for line in lines if line.startswith("VmRSS"))
            except (OSError, StopIteration):
                kib[name] = 0
        return kib

    def ended(self):
        return {name: p.poll() for name, p in self.processes.items() if p.poll() is not None}

    def stop(self):
        for process in self.processes.values():
            process.kill()
        for process in self.processes.values():
            process.wait()
        self.folder.cleanup()


class Load:
    """The clients of bench/hosts/load.rs."""

    def __init__(self, cluster, clients=8, keys=20, value=8, rate=400, ops=0, puts=60):
        self.cluster = cluster
        self.transcript = cluster.path / "transcript"
        words = [*cluster.net.words(cluster.clients), LOAD, cluster.list, self.transcript, clients, keys, value, rate, ops, puts]
        self.process = subprocess.Popen(
            [str(word) for word in words], stdin=subprocess.PIPE, stdout=subprocess.PIPE, text=True, env=cluster.environment
        )
        self.lines = queue.Queue()
        self.kept = []
        threading.Thread(target=self.read, daemon=True).start()

    def read(self):
        for line in self.process.stdout:
            self.lines.put(line.split())
        self.lines.put([])

    def say(self, *words):
        self.process.stdin.write(" ".join(words) + "\n")
        self.process.stdin.flush()

    def hear(self, wanted, seconds):
        """The words behind those that are wanted, of a line that begins with them; None where none comes in time."""
        until = time.monotonic() + seconds
        while True:
            for line in self.kept:
                if line[: len(wanted)] == wanted:
                    self.kept.remove(line)
                    return line[len(wanted):]
            try:
                self.kept.append(self.lines.get(timeout=max(0.001, until - time.monotonic())))
            except queue.Empty:
                return None

    def answered(self, name, seconds):
        """How long until an op is answered that is submitted from now on; None where none is."""
        self.say("mark", name)
        return self.soon(name, seconds)

    def soon(self, name, seconds):
        words = self.hear(["mark", name], seconds)
        return float(words[0]) if words else None

    def gap(self):
        self.say("gap")
        return float(self.hear(["gap"], 5)[0])

    def ends(self, what):
        """All ops have to be answered, and their history to have an order. The last line of the clients, as a dictionary."""
        self.process.stdin.close()
        words = self.hear(["all"], 90)
        status = self.process.wait(30) if words else None
        if status != 0:
            differs(f"{what}: clients: status {status}, {words}")
        return dict(zip(words[::2], words[1::2])) if words else {}

    def judged(self, what):
        """Whether the history has an order, as kv_linearize finds it and check judges it."""
        with open(self.transcript) as history, open(self.cluster.path / "order", "w") as order:
            status = subprocess.run([LINEARIZE], stdin=history, stdout=order, check=False).returncode
        if status != 0:
            kept = f"{tempfile.gettempdir()}/hosts-{os.getpid()}-{len(FAILED)}.transcript"
            pathlib.Path(kept).write_bytes(self.transcript.read_bytes())
            last = (self.cluster.path / "order").read_text()[-200:]
            differs(f"{what}: kv_linearize: status {status}, '{last.strip()}', the history is in {kept}")
            return False
        with open(self.cluster.path / "order") as order:
            judge = subprocess.run([NOPAXOS, "check"], stdin=order, stdout=subprocess.PIPE, text=True, check=False)
        if judge.returncode != 0:
            differs(f"{what}: check: status {judge.returncode}, '{judge.stdout.strip()}'")
        return judge.returncode == 0


class Trial:
    """A cluster with its clients, which has answered once. What is left running in the end is stopped."""

    def __init__(self, what, net, layout, options=(), lost=0, millis=0, load=None):
        self.what = what
        self.net = net
        self.cluster = Cluster(net, layout, 1 + SEED, options, lost, millis)
        self.load_words = load or {}

    def __enter__(self):
        self.cluster.starts()
        self.load = self.cluster.load(**self.load_words)
        if self.load.answered("first", 60) is None:
            differs(f"{self.what}: no first answer in a minute")
        return self

    def finish(self):
        """Ends the clients, and judges. Their last line."""
        summary = self.load.ends(self.what)
        self.load.judged(self.what)
        return summary

    def runs(self):
        """No node has ended."""
        if ended := self.cluster.ended():
            differs(f"{self.what}: nodes ended: {ended}")

    def __exit__(self, *_):
        self.cluster.stop()
        if self.load.process.poll() is None:
            self.load.process.kill()
        self.load.process.wait()
        self.net.remove()
