#!/usr/bin/env python3
"""What a command of the store costs, in instructions, by valgrind.

    bench/store.py LIBRARY [functions]

LIBRARY is `build/libhidewillow_c.a`, with which `bench/store_commands.c` is linked: one client and a disk that is always well, with 100,000 keys of
16 bytes that have values of 100. A SET is counted from its bytes to its reply, with its share of the frame, the decision and the output of
a batch of 100; a GET is of a key that is on the disk. What a row says is the difference of two runs; beside it stands its limit, and
OVER where it is passed. The commit of a batch is what `decide_all` takes, and recovery what `recover` takes. The status is 1
where a limit is passed.

With `functions` it tells instead in which functions the instructions of a SET and of a GET are, those that they call left out.
"""
import os
import pathlib
import re
import subprocess
import sys
import tempfile
sys.dont_write_bytecode = True
from own import Rows, counted, peak

TOP = pathlib.Path(__file__).resolve().parent.parent
KEYS, BATCH = 100_000, 100
FEW, MANY = 1_000, 3_000
SHOWN = 25
SELF = re.compile(r"^\s*([\d,]+) \([^)]*\)\s+\S*?:(.+?)(?: \[[^]]*\])?$", re.M)


def linked(library, folder):
    """The program, with the library."""
    program = os.path.join(folder, "store_commands")
    words = ["-std=c11", "-O2", "-I", TOP / "c", TOP / "bench" / "store_commands.c", library, "-o", program]
    subprocess.run([os.environ.get("CC", "cc"), *map(str, words)], check=True)
    return program


def difference(words, inside=None):
    """What one command more takes; the words say the rest by how many there are."""
    few, many = (counted(words(count), inside=inside) for count in (FEW, MANY))
    return (many - few) / (MANY - FEW)


def commit(program, others):
    """What the commit of a batch of 3,000 takes beside so many other keys, the commits of those that were set first left out."""
    none, one = (counted([program, "set", count, MANY, MANY + others, MANY], inside="decide_all") for count in (0, MANY))
    return one - none


def growth(program):
    """The most memory after a million SETs of the same keys, against that before."""
    before, after = (peak([program, "set", count, KEYS, KEYS, BATCH]) for count in (0, 1_000_000))
    return after / before


def by_function(words):
    """The instructions of a run by function, those that it calls left out."""
    with tempfile.TemporaryDirectory() as folder:
        kept = os.path.join(folder, "run")
        run = ["valgrind", "--tool=callgrind", f"--callgrind-out-file={kept}", *map(str, words)]
        subprocess.run(run, capture_output=True, check=True)
        told = subprocess.run(["callgrind_annotate", "--threshold=100", kept], capture_output=True, text=True, check=True).stdout
    found = {}
    for count, name in SELF.findall(told):
        found[name] = found.get(name, 0) + int(count.replace(",", ""))
    return found


def functions(program):
    """In which functions the instructions of a SET and of a GET are."""
    for deed in ("set", "get"):
        few, many = (by_function([program, deed, count, KEYS, KEYS, BATCH]) for count in (FEW, MANY))
        each = {name: (many[name] - few.get(name, 0)) / (MANY - FEW) for name in many}
        print(f"{sum(each.values()):10,.0f}  {deed.upper()}")
        for name in sorted(each, key=each.get, reverse=True)[:SHOWN]:
            print(f"{each[name]:10,.0f}    {name}")
    return 0


def main(program):
    """All rows."""
    rows = Rows()
    rows.row(difference(lambda count: [program, "set", count, KEYS, KEYS, BATCH]), 5_000, "a SET to its reply, in batches of 100")
    rows.row(difference(lambda count: [program, "get", count, KEYS, KEYS, BATCH]), 2_000, "a GET of a key that is on the disk")
    rows.row(growth(program), 1.02, "memory after 1,000,000 SETs of the same keys / before")
    recovered = difference(lambda count: [program, "recover", count, MANY, 0, BATCH], inside="recover")
    rows.row(recovered, 1_500, "recovery, a logged command")
    rows.row(commit(program, KEYS) / commit(program, MANY), 1.1, "a commit of a batch of 3,000 beside 100,000 other keys / beside 3,000")
    return 1 if rows.over else 0


if __name__ == "__main__":
    if not 2 <= len(sys.argv) <= 3 or sys.argv[2:] not in ([], ["functions"]):
        sys.exit(__doc__)
    with tempfile.TemporaryDirectory() as FOLDER:
        PROGRAM = linked(pathlib.Path(sys.argv[1]).resolve(), FOLDER)
        sys.exit(functions(PROGRAM) if sys.argv[2:] else main(PROGRAM))
