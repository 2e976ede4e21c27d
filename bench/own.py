#!/usr/bin/env python3
"""What steps of a kernel over own keys cost, in instructions of proved programs, by valgrind.

    bench/own.py PROGRAM [COSTS [LIBRARY]]

PROGRAM is `crates/many_steps/out/many_steps`, COSTS the test program of `speculators_tests`, for what stands beside open guesses of others
and for byte keys, and LIBRARY is `build/libhidewillow_c.a`, which `bench/own_steps.c` and `bench/own_shrunk.c` are linked with. Keys are of 64 bits and values of 16
bytes, 100 keys are present, and each step looks at one key, whose value it reads, and writes it, in buffers that are used again; what
is said is taken out. What a row says is the difference of two runs; beside it stands its limit, and OVER where it is passed. The last
rows are of larger steps, which write another key too, make it absent now and then, and say an output every fourth time. The
status is 1 where a limit is passed.
"""
import os
import pathlib
import re
import subprocess
import sys
import tempfile

TWICE = 2.2
GUESSES, STEPS = 100, 500
HERE = pathlib.Path(__file__).resolve().parent


def counted(words, inside=None, **env):
    """How many instructions a run takes, or all that it takes inside of a function."""
    within = [f"--toggle-collect={inside}"] if inside else []
    words = ["valgrind", "--tool=callgrind", "--callgrind-out-file=/dev/null", *within, *map(str, words)]
    ran = subprocess.run(words, capture_output=True, text=True, check=True, env={**os.environ, **{k: str(v) for k, v in env.items()}})
    return int(re.search(r"Collected : (\d+)", ran.stderr)[1])


def peak(words):
    """The most memory that a run has, in bytes."""
    with subprocess.Popen([*map(str, words)], stdout=subprocess.DEVNULL) as child:
        _, status, used = os.wait4(child.pid, 0)
        child.returncode = status
    if status:
        raise SystemExit(f"own: {words} ended with {status}")
    return used.ru_maxrss * 1024


class Rows:
    """Prints rows, and keeps how many are over their limits."""

    def __init__(self):
        self.over = 0

    def row(self, value, limit, name):
        """One row; a ratio where the limit is no whole number."""
        shown = f"{value:10,.0f}" if isinstance(limit, int) or limit is None else f"{value:10.3f}"
        self.over += limit is not None and value > limit
        told = "" if limit is None else f", at most {limit:,}{' OVER' if value > limit else ''}"
        print(f"{shown}  {name}{told}", flush=True)


def alone(program, deed):
    """What a step costs where no guess is open."""
    few, many = (counted([program, 0, steps, 100, deed, "mixed", 100]) for steps in (1_000, 3_000))
    return (many - few) / 2_000


def under_own(program, deed, keys=100):
    """What a step costs under one own guess, with its share of the decision."""
    few, many = (counted([program, GUESSES, steps, keys, deed, "mixed", min(keys, 100)]) for steps in (STEPS, 2 * STEPS))
    return (many - few) / (GUESSES * STEPS)


def guess_with(program, ends, deed="write"):
    """What a guess with its own step and its decision costs."""
    few, many = (counted([program, guesses, 0, 100, deed, ends, 100]) for guesses in (1_000, 2_000))
    return (many - few) / 1_000


def decision(program, ends, present):
    """What the decision alone costs, beside so many keys that do not depend on it."""
    words = [0, 100, "write", ends, 100 + present]
    few, many = (counted([program, guesses, *words], inside="*decide*") for guesses in (1_000, 2_000))
    return (many - few) / 1_000


def beside(costs, others, present, guesses=False):
    """What a step, or a guess with its decision, costs beside so many open guesses of others."""
    def run(count):
        asked = {"GUESSES": count, "STEPS": 0} if guesses else {"GUESSES": 0, "STEPS": count}
        return counted([costs, "costs::beside::beside_others"], OTHERS=others, PRESENT=present, **asked)
    return (run(3_000) - run(1_000)) / 2_000


def resting(costs, others):
    """What a step over a new key costs under an own guess beside so many open guesses of others; its commit is the same in both runs."""
    def run(steps):
        return counted([costs, "costs::beside::beside_others"], OTHERS=others, PRESENT=1_100, GUESSES=1, STEPS=steps)
    return (run(91) - run(1)) / 90


def failing(costs, others):
    """What a key costs, with its step, in a failure of keys that depend on another guess too, beside so many open guesses of others."""
    few, many = (counted([costs, "costs::beside::failure_beside_others"], OTHERS=others, STEPS=steps) for steps in (1_000, 3_000))
    return (many - few) / 2_000


def byte_keys(costs):
    """What a step costs over keys of 16 bytes with values of 100."""
    few, many = (counted([costs, "costs::byte_keys::byte_steps"], STEPS=steps) for steps in (1_000, 3_000))
    return (many - few) / 2_000


def linked(library, source, folder):
    """A program over the library for C."""
    program = os.path.join(folder, source.removesuffix(".c"))
    words = [os.environ.get("CC", "cc"), "-std=c11", "-O2", f"-I{HERE.parent / 'c'}", HERE / source, library, "-o", program]
    subprocess.run(words, check=True)
    return program


def through_c(library):
    """What the same step costs through C."""
    with tempfile.TemporaryDirectory() as folder:
        program = linked(library, "own_steps.c", folder)
        few, many = (counted([program, steps]) for steps in (1_000, 3_000))
    return (many - few) / 2_000


def shrunk(library):
    """How many bytes a key keeps, with its value, that rests on 4 guesses and rested on 64."""
    with tempfile.TemporaryDirectory() as folder:
        program = linked(library, "own_shrunk.c", folder)
        few, many = (peak([program, kernels]) for kernels in (1, 8))
    return (many - few) / (7 * 20_000)


def a_key(program):
    """How many bytes a present key has beyond key and value."""
    few, many = (peak([program, 0, 0, 100, "write", "right", present]) for present in (500_000, 1_000_000))
    return (many - few) / 500_000 - 24


def twice(program, left, right):
    """Twice the work against the work."""
    return counted([program, *left]) / counted([program, *right])


def main(program, costs=None, library=None):
    """All rows."""
    rows = Rows()
    rows.row(alone(program, "write"), 400, "a step, no guess open")
    rows.row(under_own(program, "write"), 600, "a step under one own guess, with its share of the decision")
    if costs:
        rows.row(beside(costs, 62, 100), 500, "a step beside 62 guesses of others")
    rows.row(alone(program, "say"), 450, "a step that says an output which goes out")
    rows.row(guess_with(program, "right"), 1_300, "a guess with its step and its commit")
    rows.row(guess_with(program, "wrong"), 1_300, "a guess with its step and its failure")
    for ends, name in (("right", "commit"), ("wrong", "failure")):
        ratio = decision(program, ends, 100_000) / decision(program, ends, 0)
        rows.row(ratio, 1.02, f"a {name} beside 100,000 keys that don't rest on it / beside none")
    if costs:
        for guesses, limit, name in ((False, 1.1, "a step"), (True, 1.1, "a guess with its decision")):
            ratio = beside(costs, 1_000, 1_100, guesses) / beside(costs, 0, 1_100, guesses)
            rows.row(ratio, limit, f"{name} beside 1,000 open guesses of others / beside none")
        rows.row(resting(costs, 1_000) / resting(costs, 62), 1.1, "a step that rests on a guess beside 1,000 open guesses of others / beside 62")
        ratio = failing(costs, 1_000) / failing(costs, 62)
        rows.row(ratio, 1.1, "a failure of keys that depend on another guess too beside 1,000 open guesses of others / beside 62")
    rows.row(a_key(program), 60, "bytes of a present key beyond key and value, nothing open")
    if costs:
        rows.row(byte_keys(costs), 900, "a step over keys of 16 bytes with values of 100")
    if library:
        rows.row(through_c(library), 1_100, "the same through C")
        rows.row(shrunk(library), 900, "bytes of a key that rests on 4 guesses and rested on 64, in C")
    for keys, limit in ((1, 1_500), (100, 1_600), (60_000, 1_100)):
        rows.row(under_own(program, "mixed", keys), limit, f"a larger step under an own guess, keys: {keys:,}")
    rows.row(guess_with(program, "mixed", "mixed"), 2_600, "a guess with a larger step and its decision")
    for name, left, right in (("guesses", (2_000, 9, 100), (1_000, 9, 100)), ("steps of a guess", (100, 1_000, 100), (100, 500, 100))):
        rows.row(twice(program, left, right), TWICE, f"twice as many {name}")
    return 1 if rows.over else 0


if __name__ == "__main__":
    if not 2 <= len(sys.argv) <= 4:
        sys.exit(__doc__)
    sys.exit(main(*map(os.path.realpath, sys.argv[1:])))
