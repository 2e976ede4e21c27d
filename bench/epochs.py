#!/usr/bin/env python3
"""What epochs take: the memory of a desk that runs for long, and the time of an epoch by the size of its state.

    bench/epochs.py PROGRAM

PROGRAM is the test program `growths` of the Rust crate, over the proved library, of which `cargo test --release --no-run --test growths`
in rust/ tells the path; its test `epochs::epochs_of_rounds` runs. An epoch of the first table has 100,000 events, with a guess and its
decision every thousand. The second table has epochs in which nothing is done, over so many files: two runs with a different number of
them, and the difference for each, the best of three.
"""

import os
import subprocess
import sys
import time

ROUNDS = 100
FILES = (0, 1_000, 10_000, 100_000)


def high_water(pid):
    """The most memory that a process had so far, in KB; 0 where it has ended."""
    try:
        with open(f"/proc/{pid}/status", encoding="ascii") as status:
            return next((int(line.split()[1]) for line in status if line.startswith("VmHWM")), 0)
    except OSError:
        return 0


def ran(program, epochs, rounds, files):
    """The processor's seconds that a run takes, so that other work counts little, and its peak memory in KB."""
    asked = {"EPOCHS": str(epochs), "ROUNDS": str(rounds), "FILES": str(files)}
    words = [program, "epochs::epochs_of_rounds"]
    child = subprocess.Popen(words, stdout=subprocess.DEVNULL, env={**os.environ, **asked})
    peak = 0
    while True:
        peak = max(peak, high_water(child.pid))
        pid, status, used = os.wait4(child.pid, os.WNOHANG)
        if pid:
            break
        time.sleep(0.005)
    if status != 0:
        sys.exit(f"{program} {epochs} {rounds} {files} ended with {status}")
    return used.ru_utime + used.ru_stime, peak


def main():
    program = os.path.abspath(sys.argv[1])
    print(f"load {os.getloadavg()[0]:.1f}")
    print("epochs of 100,000 events   peak memory   time")
    for epochs in (1, 2, 10, 100):
        seconds, memory = ran(program, epochs, ROUNDS, 0)
        print(f"{epochs:6}                     {memory:8} KB   {seconds:6.2f} s")
    print("files   peak memory   an epoch in which nothing is done")
    for files in FILES:
        few, many = (20, 520) if files < 100_000 else (4, 24)
        least = min(ran(program, few, 0, files)[0] for _ in range(3))
        most, memory = min(ran(program, many, 0, files) for _ in range(3))
        each = max(most - least, 0) / (many - few)
        print(f"{files:7} {memory:8} KB   {each * 1e6:9.1f} us")


if __name__ == "__main__":
    main()
