"""Measures programs that look for an order, on histories that gen.py writes.

    measure.py FOLDER JUDGE NAME=PROGRAM..

A row for each history: its answer, and of each program the seconds by the clock, the processor seconds and the peak memory, the medians of
three runs. The ratio is that of the processor seconds of the first program to those of the last one. JUDGE, with the word `check`, judges
each order that the first one writes. The status is 1 where two programs answer otherwise, or an order is not legal. A peak is at least
that of this program, some 12 MB.
"""

import os
import pathlib
import statistics
import subprocess
import sys
import time

GEN = pathlib.Path(__file__).with_name("gen.py")
HISTORIES = [
    "100000 30 100", "100000 30 100 stale", "100000 30 100 lost",
    "10000 10 1", "10000 20 1", "10000 10 1 lost", "1000 10 1 lost stale",
    "25000 30 100", "50000 30 100", "200000 30 100", "400000 30 100",
]


def run(program, given, written):
    """Seconds by the clock, processor seconds and peak MB of one run."""
    began = time.perf_counter()
    with open(given, "rb") as source, open(written, "wb") as sink:
        process = subprocess.Popen([program], stdin=source, stdout=sink)
        _, status, used = os.wait4(process.pid, 0)
    process.returncode = os.waitstatus_to_exitcode(status)
    return time.perf_counter() - began, used.ru_utime + used.ru_stime, used.ru_maxrss / 1024


def answer_of(written):
    with open(written, "rb") as file:
        line = file.readline().decode().rstrip()
    return "found" if line.startswith("transcript ") else line


def main():
    folder, judge, named = sys.argv[1], sys.argv[2], [it.split("=", 1) for it in sys.argv[3:]]
    wrong = 0
    print("ops processes keys |", " | ".join(f"{name}: seconds, processor, MB" for name, _ in named), "| ratio | answer")
    for history in HISTORIES:
        given, outputs, columns, processor = folder + "/given", [], [], []
        with open(given, "wb") as file:
            subprocess.run([sys.executable, "-B", GEN, *history.split()], stdout=file, check=True)
        for name, program in named:
            outputs.append(f"{folder}/{name}")
            clock, seconds, memory = map(statistics.median, zip(*(run(program, given, outputs[-1]) for _ in range(3))))
            columns.append(f"{clock:.2f} {seconds:.2f} {memory:.0f}")
            processor.append(seconds)
        answer = answer_of(outputs[0])
        if answer == "found":
            with open(outputs[0], "rb") as file:
                judged = subprocess.run([judge, "check"], stdin=file, capture_output=True, text=True, check=False).stdout.rstrip()
            wrong += not judged.startswith("legal ")
            answer = "found, " + judged
        if len(set(map(answer_of, outputs))) > 1:
            wrong += 1
            answer += "; but " + ", ".join(map(answer_of, outputs[1:]))
        print(f"{history} | {' | '.join(columns)} | {processor[0] / processor[-1]:.2f} | {answer}", flush=True)
    sys.exit(1 if wrong else 0)


main()
