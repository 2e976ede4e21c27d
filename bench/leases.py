#!/usr/bin/env python3
"""How long workers take for a step, and how that grows with their number.

    bench/leases.py PROGRAM [WITHOUT]

Four processes of 1,000,000 private instructions each, and four that fetch, set and store a file of
their own 5,000 times each, are run by 1, 2 and 4 workers. WITHOUT is a program whose workers take
no leases: `speculate` built with `AHEAD` in `crates/speculate/src/working.rt` at 0. Each run is
made three times, and the best counts; the load of the machine stands beside it.
"""

import os
import re
import subprocess
import sys
import time

PRIVATE = 333_333
STORES = 5_000
ENDS = "add r1 r2\njump a\nb:\nend\n"


def script(number, rounds, lines):
    """A script that goes round so many times."""
    return f"script s{number}\nset r1 {rounds}\nset r2 -1\na:\nzero r1 b\n{lines}{ENDS}"


def private():
    """Processes that touch themselves alone."""
    processes = "".join(f"process {n} s1 {n}\n" for n in range(1, 5))
    return f"{script(1, PRIVATE, '')}{processes}limit 5000000\n"


def stores():
    """Processes that fetch and store a file of their own each."""
    text = ""
    for n in range(1, 5):
        lines = f'fetch /f{n}\ntext "t"\nstore /f{n}\n'
        text += script(n, STORES, lines)
        text += f'copy /f{n} 1 "t"\nremote /f{n} 1 "t"\nprocess {n} s{n} {n}\n'
    return text


def best(program, workers, text):
    """The shortest time of three runs, in seconds, and how many events there were in it."""
    words = [program, "work", "-", "--workers", str(workers), "--turns", "1000000"]
    runs = []
    for _ in range(3):
        start = time.perf_counter()
        ran = subprocess.run(words, input=text.encode(), stdout=subprocess.PIPE, check=True)
        spent = time.perf_counter() - start
        runs.append((spent, int(re.search(rb"^trace (\d+)", ran.stdout, re.M)[1])))
    return min(runs)


def main(program, without=None):
    kinds = {"private instructions": private(), "fetches and stores": stores()}
    for name, text in kinds.items():
        for how, which in {"with leases": program, "without": without}.items():
            if which is None:
                continue
            alone = None
            for workers in (1, 2, 4):
                spent, events = best(which, workers, text)
                alone = alone or spent
                load = os.getloadavg()[0]
                each = f"{spent:.2f} s, {1e9 * spent / events:,.0f} ns an event"
                grown = f"{spent / alone:.2f} of one worker; load {load:.1f}"
                print(f"{name}, {how}, {workers} workers: {each}, {grown}", flush=True)


if __name__ == "__main__":
    if len(sys.argv) not in (2, 3):
        sys.exit("usage: bench/leases.py PROGRAM [WITHOUT]")
    main(*sys.argv[1:])
