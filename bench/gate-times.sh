#!/bin/sh
# Measures what the gate takes from nothing: what .ci/run does, with `rt ci --anew`, over a clone of what is committed, in a temporary
# folder, whose processes are watched while it runs. Each check has one job, as there. The table goes to standard output; what was last
# seen, and why, is in docs/GATE-TIMES.md.
#
#   bench/gate-times.sh [CRATE..]
#
# With names it measures `rt ci` alone over these crates and those below them. For figures that mean something nothing else runs on the
# machine. Checks beside each other slow each other down, since they share the memory: under `taskset -c 0,1` two go on at a time, as on a
# machine with two processors.
#
# A crate has the seconds of all its processes together, each with the last figures that were seen of it, five times a second, and the
# memory of its largest process. Proof: the crate itself, and what builds a program. Tests: the crate proved once more with its tests, and
# what builds them. Edits: each must-fail edit. What `rt` does beside them, runs of tests and programs, and checks/*.sh are in the last
# line alone. Lines of code have the contracts and no tests. Crates that take less than 100 seconds in all stand in one row. `rt selftest`,
# which proves and builds one example of the toolchain, runs first, and its seconds stand below the table: how fast the machine is by itself.
set -eu

exec python3 - "$(cd "$(dirname "$0")/.." && pwd)" "$@" <<'PYTHON'
import glob
import os
import re
import shutil
import subprocess
import sys
import tempfile
import time

root, names = sys.argv[1], sys.argv[2:]
folder = tempfile.mkdtemp()
tree = folder + "/tree"
ticks = os.sysconf("SC_CLK_TCK")
page = os.sysconf("SC_PAGE_SIZE")


def lines_of(crate, part, ending):
    files = glob.glob(f"{tree}/crates/{crate}/{part}/**/*.{ending}", recursive=True)
    return sum(open(it, encoding="utf-8").read().count("\n") for it in files if not is_test(it))


def is_test(path):
    return path.endswith("/tests.rt") or "/tests/" in path or "_tests/" in path


def kind_of(words, where):
    """What a process of the prover works on: a crate, and whether it is its proof, its tests or an edit."""
    crate = words[words.index("--crate-name") + 1]
    if "/rt-edit-" in where:
        return crate, "edits"
    return crate, "tests" if "--test" in words else "proof"


def watched(seen, top):
    """Notes the processor seconds and the memory of each process of the prover below this one."""
    parents, used = {}, {}
    for name in filter(str.isdigit, os.listdir("/proc")):
        try:
            fields = open(f"/proc/{name}/stat", encoding="utf-8").read().rpartition(")")[2].split()
        except OSError:
            continue
        parents[name] = fields[1]
        used[name] = (int(fields[11]) + int(fields[12])) / ticks, int(fields[21]) * page, fields[19]
    for name, (seconds, memory, began) in used.items():
        above = name
        while above in parents and above != top:
            above = parents[above]
        try:
            words = open(f"/proc/{name}/cmdline", encoding="utf-8", errors="replace").read().split("\0")
            where = os.readlink(f"/proc/{name}/cwd")
        except OSError:
            continue
        if above == top and "--crate-name" in words and os.path.basename(words[0]) == "rattle":
            before = seen.get((name, began), (None, 0, 0))
            seen[name, began] = kind_of(words, where), seconds, max(memory, before[2])


def table_of(seen, crates):
    rows, small, sums = [], [], [0] * 6
    for crate in crates:
        counts = [lines_of(crate, "src", "rt"), lines_of(crate, "specs", "antt"), lines_of(crate, "proofs", "antt")]
        seconds = [sum(s for key, s, _ in seen.values() if key == (crate, kind)) for kind in ("proof", "edits", "tests")]
        memory = max((m for key, _, m in seen.values() if key[0] == crate), default=0)
        sums = [a + b for a, b in zip(sums, [*counts, *seconds])]
        if sum(seconds) < 100:
            small.append([*counts, *seconds])
        else:
            rows.append(row(f"`{crate}`", *counts, seconds[0], f"{memory / 2**30:.1f} GB", *seconds[1:]))
    if small:
        counts = [sum(it) for it in zip(*small)]
        rows.append(row(f"{len(small)} others", *counts[:4], "", *counts[4:]))
    head = ["| crate | code | specs | proofs | proof, s | peak memory | edits, s | tests, s |", "|---|---|---|---|---|---|---|---|"]
    return "\n".join([*head, *rows, row("all", *sums[:4], "", *sums[4:])])


def row(crate, code, specs, proofs, proof, memory, edits, tests):
    return f"| {crate} | {code} | {specs} | {proofs} | {proof:.0f} | {memory} | {edits:.0f} | {tests:.0f} |"


def spent(used):
    return used.ru_utime + used.ru_stime


def yardstick():
    """The processor seconds of a proof that is the same on each machine."""
    example = subprocess.Popen(["rt", "selftest"], cwd=folder, stdin=subprocess.DEVNULL, stdout=subprocess.DEVNULL)
    done, status, used = os.wait4(example.pid, 0)
    example.returncode = os.waitstatus_to_exitcode(status)
    if example.returncode:
        sys.exit("rt selftest failed")
    return spent(used)


try:
    subprocess.run(["git", "clone", "-q", root, tree], check=True)
    example = yardstick()
    lines = [it.split("#")[0].partition(":") for it in open(tree + "/crates.txt", encoding="utf-8")]
    crates = [name.strip() for name, colon, _ in lines if colon]
    seen, began, processors = {}, time.time(), len(os.sched_getaffinity(0))
    with open(folder + "/log", "w", encoding="utf-8") as log:
        # some kits keep what they proved, unless they are told not to
        said = subprocess.run(["rt", "help"], capture_output=True, text=True, check=False)
        anew = ["--anew"] if "--anew" in said.stdout + said.stderr else []
        words = ["rt", "ci", *anew, *names]
        if not names:
            words = ["sh", "-c", f'rt ci {" ".join(anew)} || exit; for check in checks/*.sh; do "$check" || exit; done']
        given = {"RT_JOBS": str(processors), **os.environ}
        gate = subprocess.Popen(words, cwd=tree, env=given, stdin=subprocess.DEVNULL, stdout=log, stderr=log)
        while gate.returncode is None:
            watched(seen, str(gate.pid))
            done, status, used = os.wait4(gate.pid, os.WNOHANG)
            if done:
                gate.returncode = os.waitstatus_to_exitcode(status)
            else:
                time.sleep(0.2)
    said = open(folder + "/log", encoding="utf-8").read().rstrip().split("\n")
    if gate.returncode:
        print(table_of(seen, crates))
        sys.exit("\n".join(said[-40:]))
    verdict = next(it for it in reversed(said) if re.fullmatch(r"\d+ passed, \d+ failed.*", it))
    clock, minutes = (time.time() - began) / 60, spent(used) / 60
    whole = f"The whole run: {clock:.0f} minutes by the clock, {minutes:.0f} processor minutes on {processors} processors,\n"
    whole += f"with {given['RT_JOBS']} checks beside each other, each with one job; `{verdict}`. By itself\n"
    whole += f"`rt selftest`, an example of the toolchain, takes {example:.0f} processor seconds on this machine."
    print(table_of(seen, [it for it in crates if any(key[0] == it for key, _, _ in seen.values())]))
    print("\n" + whole)
finally:
    shutil.rmtree(folder, ignore_errors=True)
PYTHON
