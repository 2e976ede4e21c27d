#!/usr/bin/env python3
"""How many private steps a second workers take, beside one thread that plays the same steps.

    bench/calls.py PROGRAM

Eight processes set their buffers for ever. In `work` each turn brings a process's next 64 private instructions with it, which
its worker ran ahead on a lease, so the steps are counted that stand on the trace, and the turns beside them. One thread without
a lock or leases is `play` of the same steps; it prints a line for each, which is part of its time.

The trace grows under the lock: in small pages that is a fault of the system in most turns, for which other workers wait. So the
runs are made twice: with large pages, for which the C library is asked by GLIBC_TUNABLES, and with those that it takes by itself.
Those with 1, 2 and 4 workers are made fifteen times in turns, and the best of each counts. The status is 1 where with large
pages one worker takes fewer than 1,000,000 steps a second, or two take fewer than one.
"""

import os
import re
import subprocess
import sys
import time

TURNS = 64_000
ROUNDS = 15
LEAST = 1_000_000
LARGE = {"GLIBC_TUNABLES": "glibc.malloc.hugetlb=1"}
SCRIPT = "script main\na:\ntext \"t\"\njump a\nend\n"
BOOT = SCRIPT + "".join(f"process {n} main {n}\n" for n in range(1, 9)) + "limit 100000000\n"


def run(words, text, pages):
    """The time of a run, in seconds, and how many events there were in it."""
    start = time.perf_counter()
    ran = subprocess.run(words, input=text.encode(), stdout=subprocess.PIPE, check=True, env=os.environ | pages)
    spent = time.perf_counter() - start
    return spent, int(re.search(rb"^trace (\d+)", ran.stdout, re.M)[1])


def measured(program, pages):
    """The steps a second by workers, and the events of the last run."""
    runs = {workers: [] for workers in (1, 2, 4)}
    for _ in range(ROUNDS):
        for workers, times in runs.items():
            words = [program, "work", "-", "--workers", str(workers), "--turns", str(TURNS // workers)]
            times.append(run(words, BOOT, pages))
    rates = {}
    for workers, times in runs.items():
        spent, events = min(times)
        rates[workers] = events / spent
        print(f"{workers} workers: {rates[workers]:,.0f} steps a second, {TURNS / spent:,.0f} turns a second")
    return rates, events


def main(program):
    print("with the pages that the C library takes by itself:")
    measured(program, {})
    print("with large pages:")
    rates, events = measured(program, LARGE)
    steps = "".join(f"step {n % 8 + 1} none\n" for n in range(events))
    spent, events = min(run([program, "play", "-"], f"{BOOT}steps\n{steps}", LARGE) for _ in range(3))
    print(f"one thread without a lock, played: {events / spent:,.0f} steps a second")
    return 1 if rates[1] < LEAST or rates[2] < rates[1] else 0


if __name__ == "__main__":
    if len(sys.argv) != 2:
        sys.exit("usage: bench/calls.py PROGRAM")
    sys.exit(main(sys.argv[1]))
