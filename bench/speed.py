#!/usr/bin/env python3
"""Measures what the kernel's calls cost, on generated scenarios, and prints the ratios.

    bench/speed.py [--program PATH] [--unproved PATH] [--only WORD] [--seconds]

PATH is the program `speculate`, as `rt run` leaves it: `crates/speculate/out/speculate` where none is given. With
`--unproved` one row more compares another build with it, as `tools/build.py` leaves one in `build/speculate`. Costs are
instructions, counted by valgrind's cachegrind, and so the same at each run; with `--seconds` they are the processor's
seconds, the best of five runs. Reading the scenario and printing the answers is taken off: the first is what `speculate
plain` does of the same file before it refuses the section, the second what an event costs for which the run holds no
token. What stands left and right of a ratio is named in its row. The status is 1 where a ratio is over its limit.
"""
import argparse
import functools
import itertools
import os
import re
import resource
import subprocess
import sys
import tempfile

TOP = os.path.dirname(os.path.dirname(os.path.abspath(__file__)))
OPEN = 63
LOOSE = 1.25
TWICE = 2.2
# A decision looks at each other open guess, of which there are 63 at most.
BESIDE_OPEN = 1.5
# A decision visits what depends on its guess, and nothing else.
BESIDE_OTHERS = 1.05
# A step that depends on all open guesses, with its share of their decisions: where it leaves the tags of
# what it writes as they are, and where an entity comes to depend on them.
SAME_TAGS = 2
NEW_TAGS = 4
# A long computation under a guess, in instructions and in peak memory.
UNDER_A_GUESS = 1.1
# A build without proofs, in which the checks are left that a proof makes needless.
UNPROVED = 3.5
# A name is looked up in a tree.
ASKED = 1.25


def spent():
    """The processor's seconds of all programs run so far, so that other work counts little."""
    used = resource.getrusage(resource.RUSAGE_CHILDREN)
    return used.ru_utime + used.ru_stime


class Meter:
    """What a run of the program costs."""

    def __init__(self, program, seconds):
        self.program = program
        self.seconds = seconds
        self.known = {}

    def run(self, command, text, *flags):
        key = (command, text, flags)
        if key not in self.known:
            with tempfile.NamedTemporaryFile("w", suffix=".scenario") as file:
                file.write(text)
                file.flush()
                words = [self.program, command, file.name, *flags]
                self.known[key] = self.timed(words) if self.seconds else self.counted(words)
        return self.known[key]

    def peak(self, text):
        """The peak memory of a play, in kilobytes."""
        with tempfile.NamedTemporaryFile("w", suffix=".scenario") as file:
            file.write(text)
            file.flush()
            words = [self.program, "play", file.name]
            ran = subprocess.Popen(words, stdout=subprocess.DEVNULL, stderr=subprocess.DEVNULL)
            return os.wait4(ran.pid, 0)[2].ru_maxrss

    def talked(self, text, lines):
        """A talk to what a text declares, by these lines."""
        with tempfile.NamedTemporaryFile("w", suffix=".scenario") as file:
            file.write(text)
            file.flush()
            words = [self.program, "talk", file.name]
            said = "".join(f"{line}\n" for line in lines)
            return self.timed(words, said) if self.seconds else self.counted(words, said)

    def counted(self, words, said=""):
        tool = ["valgrind", "--tool=cachegrind", "--cache-sim=no", "--cachegrind-out-file=/dev/null"]
        ran = subprocess.run(tool + words, input=said, stdout=subprocess.DEVNULL, stderr=subprocess.PIPE, text=True)
        found = re.search(r"I\s+refs:\s+([\d,]+)", ran.stderr)
        if not found:
            sys.exit("no count of instructions:\n" + ran.stderr)
        return int(found.group(1).replace(",", ""))

    def timed(self, words, said=""):
        best = float("inf")
        for _ in range(5):
            begin = spent()
            subprocess.run(words, input=said, stdout=subprocess.DEVNULL, stderr=subprocess.DEVNULL, text=True)
            best = min(best, spent() - begin)
        return best

    def played(self, text):
        """A play, without the reading of its scenario."""
        return self.run("play", text) - self.run("plain", text)

    @functools.cached_property
    def printing(self):
        """The answer to one event for which nothing is done."""
        idle = lambda count: scenario(["set r0 1"], ["commit 9"] * count)
        return (self.played(idle(2000)) - self.played(idle(1000))) / 1000

    def each(self, make, few, many, lines):
        """One round of the `lines` events that `make` repeats, between `few` and `many` rounds."""
        rounds = (self.played(make(many)) - self.played(make(few))) / (many - few)
        return rounds - lines * self.printing


def script(name, instructions):
    return [f"script {name}"] + instructions + ["end"]


def looping(instructions, times):
    """The instructions over and over, with few jumps."""
    return ["again:"] + instructions * times + ["jump again"]


def scenario(first, events, others=(), objects=(), before=()):
    """Process 1 runs the script `first` at terminal 1; `others` are further scripts with the processes and
    terminals that run them."""
    lines = ["limit 10000000", "copy /x 3 \"old\""] + list(objects) + script("first", first) + ["process 1 first 1"]
    for name, instructions, runners in others:
        lines += script(name, instructions) + [f"process {process} {name} {terminal}" for process, terminal in runners]
    return "\n".join(lines + ["steps"] + list(before) + list(events)) + "\n"


GUESSING = ["again:", "fetch /x", "jump again"]
FETCHING = looping(["fetch /x"], 64)
FILES = ['file f "0123456789"', "dir d"]


def kinds():
    """Steps of one kind: the instructions before them, and those that are repeated."""
    return [
        ("private", [], ["set r0 1"]),
        ("say", ['text "a line of output"'], ["say"]),
        ("read", ["look r1 r7 f", "set r2 0"], ["read r1 r2"]),
        ("write", ["look r1 r7 f", "set r2 0", 'text "abcdefgh"'], ["write r1 r2"]),
        ("make a file", [], ["mkfile r1"]),
        ("fork", ["jump start", "child:", "exit r0", "start:"], ["fork r1 child"]),
        ("look in a directory", [], ["look r1 r7 f"]),
        ("link and unlink", ["look r1 r7 f", "look r2 r7 d"], ["link r2 n r1", "unlink r2 n"]),
    ]


def steps(before, body, count, guesses, guesser, drawn=OPEN):
    """`count` steps of process 1, where a process has taken so many guesses, or as many steps."""
    take = "guess" if guesses else "step"
    body = body * (64 // len(body))
    lead = ["step 1 none"] * (len(before) - sum(line.endswith(":") for line in before))
    if guesser == 1:
        first = ["fetch /x"] * drawn + before + looping(body, 1)
        return scenario(first, ["step 1 none"] * count, objects=FILES, before=[f"{take} 1 good"] * drawn + lead)
    first = before + looping(body, 1)
    others = [("guesser", FETCHING, [(2, 2)])]
    return scenario(first, ["step 1 none"] * count, others, FILES, [f"{take} 2 good"] * drawn + lead)


def step_limit(name, guesser):
    """The limit of a row of `step_rows`."""
    if guesser == 2:
        return LOOSE
    return SAME_TAGS if name in ("private", "read", "look in a directory") else NEW_TAGS


def step_rows(meter):
    """Steps of a process that depends on none of the open guesses, and of one that depends on all of them. What
    the latter cost is with the share of the decisions that end the run."""
    for guesser, drawn, whose in ((2, OPEN, "of others"), (1, 1, "its own"), (1, OPEN, "its own")):
        for name, before, body in kinds():
            cost = lambda guesses: meter.each(lambda n: steps(before, body, n, guesses, guesser, drawn), 600, 1200, 1)
            yield f"step, {name}: {drawn} open ({whose}) / none", cost(True), cost(False), step_limit(name, guesser)


def coming_to_rest(count, guesses, reads):
    """Rounds of process 2: a guess, a write of a file and the commit; between these process 1 reads the file, where it does, and
    so comes to depend on that guess, beside 62 of its own or none."""
    own = OPEN - 1
    lead = ["look r1 r7 f", "set r2 0"]
    first = ["fetch /x"] * own + lead + looping(["read r1 r2"], count + 1)
    other = lead + ['text "abcdefgh"'] + looping(["fetch /x", "write r1 r2"], count + 1)
    before = [f"{'guess' if guesses else 'step'} 1 good"] * own + ["step 1 none"] * 2 + ["step 2 none"] * 3
    drawn = own if guesses else 0
    events = []
    for number in range(drawn + 1, drawn + count + 1):
        events += ["guess 2 good", "step 2 none"] + ["step 1 none"] * reads + [f"commit {number}"]
    return scenario(first, events, [("other", other, [(2, 2)])], FILES, before)


def rest_rows(meter):
    """A read that changes what its process depends on, with its share of the commit: the rounds with it less those without."""
    rounds = lambda guesses, reads: meter.each(lambda n: coming_to_rest(n, guesses, reads), 200, 400, 3 + reads)
    read = lambda guesses: rounds(guesses, True) - rounds(guesses, False)
    yield f"step, a read that comes to rest on one guess more: {OPEN - 1} open (its own) / none", read(True), read(False), NEW_TAGS


def decided(body, count, decision, instruction):
    """Rounds of process 1: a guess, `body` steps, and the decision of the guess."""
    first = (["look r1 r7 f", "set r2 0", 'text "abcdefgh"'] if instruction.startswith("write") else [])
    lead = ["step 1 none"] * len(first)
    first = first + looping(["fetch /x"] + [instruction] * body, 1)
    events = []
    for number in range(1, count + 1):
        events += ["guess 1 good"] + ["step 1 none"] * body + [f"{decision} {number}"]
        events += ["step 1 none"] if decision == "commit" else []
    return scenario(first, events, objects=FILES, before=lead)


def decision_rows(meter):
    for instruction, what in (("set r0 1", "private steps"), ("write r1 r2", "writes of one file")):
        for decision in ("commit", "fail"):
            costs = {}
            for body in (10, 100, 1000):
                few = max(1, 1000 // body)
                lines = body + 2 + (decision == "commit")
                costs[body] = meter.each(lambda n: decided(body, n, decision, instruction), few, 2 * few, lines) / body
            for body in (100, 1000):
                yield f"guess, {body} {what}, {decision}, a step / with 10", costs[body], costs[10], LOOSE


def held_rounds(count, decision, held, amount):
    """Small guesses of process 1, where a kernel holds much that does not depend on them."""
    first = looping(["fetch /x"], 1) if decision == "commit" else ["fetch /x"]
    turn = lambda number: ["guess 1 good", f"{decision} {number}"] + (["step 1 none"] if decision == "commit" else [])
    others, before, drawn = [], [], 0
    if held == "notes":
        others, before, drawn = [("other", ["fetch /x"] + looping(["set r0 1"], 64), [(2, 2)])], ["guess 2 good"] + ["step 2 none"] * amount, 1
    if held == "noted files":
        others, before, drawn = [("other", ["fetch /x"] + looping(["mkfile r1"], 64), [(2, 2)])], ["guess 2 good"] + ["step 2 none"] * amount, 1
    if held == "files, one guess open":
        makers = ("maker", looping(["mkfile r1"], 64), [(3, 3)])
        others, before, drawn = [("other", ["fetch /x"], [(2, 2)]), makers], ["step 3 none"] * amount + ["guess 2 good"], 1
    if held == "files":
        others, before = [("other", looping(["mkfile r1"], 64), [(2, 2)])], ["step 2 none"] * amount
    if held == "waiting texts":
        others, before, drawn = [("other", ["fetch /x", 'text "a line of output"'] + looping(["say"], 64), [(2, 2)])], ["guess 2 good"] + ["step 2 none"] * (amount + 1), 1
    if held == "waiting texts there":
        others, before, drawn = [("other", ["fetch /x", 'text "a line of output"'] + looping(["say"], 64), [(2, 1)])], ["guess 2 good"] + ["step 2 none"] * (amount + 1), 1
    if held == "terminals":
        runners = [(2 + number, 2 + number) for number in range(amount)]
        others = [("other", ['text "a line of output"', "say"], runners)]
        before = [f"step {process} none" for process, _ in runners for _ in range(2)]
    if held == "open guesses":
        others, before, drawn = [("other", FETCHING, [(2, 2)])], ["guess 2 good"] * min(amount, 62), min(amount, 62)
    events = [line for number in range(drawn + 1, drawn + count + 1) for line in turn(number)]
    return scenario(first, events, others, before=before)


def held_rows(meter):
    """What is held, beside nothing; and what depends on another guess, beside as much that depends on nothing."""
    limits = {"open guesses": BESIDE_OPEN}
    for decision in ("commit", "fail"):
        lines = 3 if decision == "commit" else 2
        cost = lambda held, amount: meter.each(lambda n: held_rounds(n, decision, held, amount), 100, 200, lines)
        none, costs = cost("files", 0), {}
        for held in ("notes", "noted files", "files", "files, one guess open", "waiting texts", "waiting texts there", "terminals", "open guesses"):
            amount = 62 if held == "open guesses" else 1000
            costs[held] = cost(held, amount)
            if held != "files, one guess open":
                yield f"guess and {decision}: {amount} {held} held / none", costs[held], none, limits.get(held, LOOSE)
        # one guess of another process is open on both sides: 1,000 files depend on it on the left, none on the right
        yield f"guess and {decision}: 1000 noted files / 1000 files, one guess open", costs["noted files"], costs["files, one guess open"], BESIDE_OTHERS
        yield f"guess and {decision}: 1000 noted files / 1000 files, no guess open", costs["noted files"], costs["files"], BESIDE_OTHERS


def nested(count, decision, kind):
    """Under guess 1, which stays open: guesses of the same process, each with a step, decided one by one."""
    lead = {"private steps": [], "writes": ["look r1 r7 f", "set r2 0", 'text "abcdefgh"'], "texts": ['text "a line of output"']}[kind]
    step = {"private steps": "set r0 1", "writes": "write r1 r2", "texts": "say"}[kind]
    first = lead + ["fetch /x"] + looping(["fetch /x", step], 32)
    events = []
    turns = 0
    for number in range(2, count + 2):
        events += ["guess 1 good", "step 1 none", f"{decision} {number}"]
        turns += 1
        if decision == "commit" and turns == 32:
            turns = 0
            events += ["step 1 none"]
    return scenario(first, events, objects=FILES, before=["step 1 none"] * len(lead) + ["guess 1 good"])


def doubled(meter, make, sizes):
    """How the cost grows from the first to the second doubling: 1 where it is linear."""
    small, middle, large = (meter.played(make(size)) for size in sizes)
    return (large - middle) / 2, middle - small


def nested_rows(meter):
    for decision in ("commit", "fail"):
        for kind in ("private steps", "writes", "texts"):
            late, early = doubled(meter, lambda n: nested(n, decision, kind), (500, 1000, 2000))
            yield f"nested guesses with {kind}, {decision}: 1,000 to 2,000 / twice 500 to 1,000", late, early, LOOSE


def holding(count, decision, where):
    """A terminal with `count` waiting texts, while as many guesses of another process are decided."""
    first = ["fetch /x", 'text "a line of output"'] + looping(["say"], 64)
    body = ["fetch /x"] if where == "elsewhere" else ["fetch /x", "say"]
    other = (['text "another line"'] if where != "elsewhere" else []) + looping(body, 1)
    terminal = 1 if where == "there" else 2
    events = ["guess 1 good", "step 1 none"] + ["step 1 none"] * (count + count // 64)
    if where != "elsewhere":
        events += ["step 2 none"]
    for number in range(2, count + 2):
        events += ["guess 2 good"] + ["step 2 none"] * (len(body) - 1) + [f"{decision} {number}"]
        events += ["step 2 none"] if decision == "commit" else []
    return scenario(first, events, [("other", other, [(2, terminal)])])


def text_rows(meter):
    for decision in ("commit", "fail"):
        for where, told in (("elsewhere", "say nothing"), ("another", "say elsewhere"), ("there", "say there")):
            late, early = doubled(meter, lambda n: holding(n, decision, where), (1000, 2000, 4000))
            yield f"held texts, as many guesses that {told}, {decision}: 2,000 to 4,000 / twice 1,000 to 2,000", late, early, LOOSE


def relisted(count):
    """Under guess 1: guesses of the same process, each with a text, that fail. Then another process says as many texts at the
    same terminal on a guess of its own, and guess 1 is committed."""
    first = ['text "a line of output"', "fetch /x"] + looping(["fetch /x", "say"], 32)
    other = ["fetch /x", 'text "another line"'] + looping(["say"], 64)
    events = []
    for number in range(2, count + 2):
        events += ["guess 1 good", "step 1 none", f"fail {number}"]
    events += ["guess 2 good"] + ["step 2 none"] * (1 + count + count // 64) + ["commit 1"]
    return scenario(first, events, [("other", other, [(2, 1)])], before=["step 1 none", "guess 1 good"])


def relisted_rows(meter):
    """A terminal that comes under a guess again and again is visited once by its commit."""
    yield "failures with a text under one guess, then its commit: 2,000 / 1,000", meter.played(relisted(2000)), meter.played(relisted(1000)), TWICE


def long_rows(meter):
    """A million private steps under one guess, whose decision ends the run."""
    million = 1_000_000
    run = lambda take: scenario(["fetch /x"] + looping(["set r0 1"], 1000), ["step 1 none"] * million, before=[f"{take} 1 good"])
    guessed, plain = run("guess"), run("step")
    yield "1,000,000 private steps under one guess / under none", meter.played(guessed), meter.played(plain), UNDER_A_GUESS
    yield "the same, peak memory in kilobytes", meter.peak(guessed), meter.peak(plain), UNDER_A_GUESS


TABLE_EVENTS = 20_000


def counts_rows(meter):
    """The counts of a run: twice as many guesses and steps, and as many steps with more guesses among them."""
    for decision in ("commit", "fail"):
        def counting(guesses, body):
            text = decided(body, guesses, decision, "set r0 1")
            return meter.run("play", text, "--counts") - meter.run("play", text)
        yield f"counts of 200 guesses with 100 steps each, {decision} / of 100", counting(200, 100), counting(100, 100), TWICE
        yield f"counts of 200 guesses with 100 steps each, {decision} / of 50 with 400", counting(200, 100), counting(50, 400), LOOSE


def traced(text):
    """A scenario's events as a trace has them, where each guess is told its number."""
    head, _, events = text.partition("\nsteps\n")
    numbers = itertools.count(1)
    return head + "\ntrace\n" + re.sub("^guess", lambda _: f"guess {next(numbers)}", events, flags=re.M)


def failing(failures, steps):
    """So many failures, and so many steps under their guesses."""
    events = [line for number in range(1, failures + 1) for line in ("guess 1 good", *["step 1 none"] * (steps // failures), f"fail {number}")]
    return scenario(["fetch /x"] + looping(["set r0 1"], 64), events)


def plain_rows(meter):
    """A trace on the plain kernel: twice as many guesses and steps, and as many steps with more guesses among them. The reading is
    taken off, which is what `play` does of the same file before it refuses the section."""
    def ran(text):
        return meter.run("plain", traced(text)) - meter.run("play", traced(text))
    for decision in ("commit", "fail"):
        trace = lambda guesses, body: ran(decided(body, guesses, decision, "set r0 1"))
        yield f"trace of 200 guesses with 100 steps each, {decision} / of 100", trace(200, 100), trace(100, 100), TWICE
        yield f"trace of 200 guesses with 100 steps each, {decision} / of 50 with 400", trace(200, 100), trace(50, 400), LOOSE
    yield "trace of 200,000 steps with 200 failures / with 20", ran(failing(200, 200_000)), ran(failing(20, 200_000)), LOOSE


def private_steps(count):
    return scenario(looping(["set r0 1"], 64), ["step 1 none"] * count)


def guessed_rounds(count):
    """So many events of process 1: a guess, two steps under it and its commit, over and over, and after 32 rounds the step back to
    the first instruction."""
    rounds = ((["guess 1 good", "step 1 none", "step 1 none", f"commit {number}"], number) for number in itertools.count(1))
    events = []
    while len(events) < count:
        lines, number = next(rounds)
        events += lines + ["step 1 none"] * (number % 32 == 0)
    return scenario(looping(["fetch /x", "set r0 1", "set r0 2"], 32), events[:count])


def refused_rounds(count):
    """The same lines without that step: from the first jump on guesses are asked where none can be taken, and most are refused."""
    lines = ("guess 1 good", "step 1 none", "step 1 none", "commit")
    events = [f"{line} {number}" if line == "commit" else line for number in range(1, count // 4 + 1) for line in lines]
    return scenario(looping(["fetch /x", "set r0 1", "set r0 2"], 32), events)


def table():
    """The kinds of runs of which the whole program is measured: a scenario of so many events, and the most instructions that
    an event may take."""
    lead = ["look r1 r7 f", "set r2 0", 'text "abcdefgh"']
    file = lambda count: scenario(lead + looping(["write r1 r2", "read r1 r2"], 32), ["step 1 none"] * count, objects=FILES)
    turns = ["turn 1"] * 4 + ["serve"] * 2 + ["reply"] * 2
    world = lambda count: "\n".join(script("first", looping(["fetch /x", "set r0 1"], 32)) + ['copy /x 3 "old"', 'remote /x 3 "old"', "process 1 first 1", "world"] + turns * (count // 8)) + "\n"
    return [
        ("private steps", private_steps, 700),
        ("writes and reads of 8 bytes of a file", file, 1_050),
        ("guess, two steps, commit", guessed_rounds, 1_270),
        ("the same lines out of step, most of them refused", refused_rounds, 830),
        ("a world: four turns, two serves, two replies", world, 1_600),
    ]


def table_rows(meter):
    """An event of the whole program, with its part of reading, printing and the start; and the memory that it keeps."""
    for name, make, limit in table():
        yield f"{name}: an event / its limit", meter.run("play", make(TABLE_EVENTS)) / TABLE_EVENTS, limit, 1
    # So many that the peak is the program's own, above that of this script, from which it is started.
    many = 400_000
    under = scenario(["fetch /x"] + looping(["set r0 1"], 64), ["step 1 none"] * many, before=["guess 1 good"])
    yield "private steps: peak bytes an event / their limit", meter.peak(private_steps(many)) * 1024 / many, 130, 1
    yield "the same under one guess", meter.peak(under) * 1024 / many, 130, 1


# What costs more than it should, and never half as much again.
MISSED = ("a write of 8 bytes", "a file that is made", "a look", "a link and its unlink")


def aims(meter):
    """What a step and a guess with its decision cost, and the most instructions that each should take."""
    kind = {name: (before, body) for name, before, body in kinds()}
    step = lambda name, own=0: lambda: meter.each(lambda n: steps(*kind[name], n, own > 0, 1, own or OPEN), 600, 1200, 1)
    # Of 120 and 240 rounds, since at 200 the text of a play has just outgrown a room that a plain run's still fits in.
    guess = lambda decision, held, amount=0: lambda: meter.each(lambda n: held_rounds(n, decision, held, amount), 120, 240, 2 + (decision == "commit"))
    return [
        ("a private step", step("private"), 260),
        ("a `say`", step("say"), 1_250),
        ("a read of 8 bytes", step("read"), 470),
        ("a write of 8 bytes", step("write"), 510),
        ("a write under one own guess", step("write", 1), 1_000),
        ("a file that is made", step("make a file"), 1_800),
        ("a file that is made under 63 own guesses", step("make a file", OPEN), 29_000),
        ("a fork", step("fork"), 7_000),
        ("a fork under 63 own guesses", step("fork", OPEN), 80_000),
        ("a look", step("look in a directory"), 420),
        ("a link and its unlink", step("link and unlink"), 900),
        ("a guess and its commit", guess("commit", "files"), 2_400),
        ("a guess and its failure", guess("fail", "files"), 2_300),
        ("a guess and its commit beside 62", guess("commit", "open guesses", 62), 4_800),
        ("a guess and its failure beside 62", guess("fail", "open guesses", 62), 5_600),
    ]


def aim_rows(meter):
    """Each cost by its aim, in instructions; by half as much again where it is missed."""
    for name, cost, most in aims(meter):
        missed = name in MISSED
        yield f"{name} / the most that it should take" + ", missed" * missed, cost(), most, 1.5 if missed else 1
    yield "a write of 512 bytes into a file of 32,768: noted / not noted", block_write(meter, True), block_write(meter, False), 1.4


def unproved_rows(meter, unproved):
    """The whole run of a build without proofs, by that of the proved program."""
    text = private_steps(TABLE_EVENTS)
    yield f"{TABLE_EVENTS:,} private steps played, without proofs / proved", unproved.run("play", text), meter.run("play", text), UNPROVED


BLOCK = "b" * 512


def writing(size, body, count, guesses, decision=None):
    """A file of so many bytes, and then `count` writes of `body` at its front, which depend on a guess or on none."""
    filling = [line for at in range(0, size, 512) for line in (f"set r2 {at}", "write r1 r2")]
    lead = ["look r1 r7 f", f'text "{BLOCK}"'] + filling + [f'text "{body}"', "set r2 0", "fetch /x", f'text "{body}"']
    before = ["step 1 none"] * (len(lead) - 2) + [f"{'guess' if guesses else 'step'} 1 good", "step 1 none"]
    ends = [f"{decision} 1"] if guesses and decision else []
    return scenario(lead + looping(["write r1 r2"], 64), ["step 1 none"] * count + ends, objects=['file f ""', "dir d"], before=before)


def looking(names, count):
    """Looks at the last name of a directory of so many."""
    lead = ["look r1 r7 f", "look r2 r7 d"] + [f"link r2 m{name:02} r1" for name in range(names)]
    first = lead + looping([f"look r3 r2 m{names - 1:02}"], 64)
    return scenario(first, ["step 1 none"] * count, objects=FILES, before=["step 1 none"] * len(lead))


def relinking(names, count):
    """Links and takes out one name in a directory of so many others."""
    lead = ["look r1 r7 f", "look r2 r7 d"] + [f"link r2 m{name:02} r1" for name in range(names)]
    return scenario(lead + looping(["link r2 z r1", "unlink r2 z"], 32), ["step 1 none"] * count, objects=FILES, before=["step 1 none"] * len(lead))


def piping(is_full, count):
    """Rounds of 512 bytes that are taken out of a pipe and put into it, or the other way round."""
    filling = ["put r1"] * (8 if is_full else 0)
    lead = ["mkpipe r1", "set r2 512", f'text "{BLOCK}"'] + filling
    body = ["take r1 r2", "put r1"] if is_full else ["put r1", "take r1 r2"]
    return scenario(lead + looping(body, 32), ["step 1 none"] * count, before=["step 1 none"] * len(lead))


LARGE, SMALL, WRITES = 32_768, 512, 2048


def block_write(meter, guesses, size=LARGE, body=BLOCK):
    """One of many writes of a file, which depend on a guess or on none."""
    return meter.each(lambda n: writing(size, body, n, guesses), WRITES, 2 * WRITES, 1)


def block_rows(meter):
    """Blocks, rings and slots: how a change's cost depends on what stands there already, and what its undo costs."""
    undone = lambda n: meter.played(writing(LARGE, BLOCK, n, True, "fail")) - meter.played(writing(LARGE, BLOCK, n, True))
    yield "the undo of a noted write, beside what letting go of the notes costs / the write", (undone(2 * WRITES) - undone(WRITES)) / WRITES, block_write(meter, True), 1
    one = lambda size: block_write(meter, False, size, "c")
    yield "write of one byte: into a file of 32,768 / of 512", one(LARGE), one(SMALL), 1.1
    # So many that the peak is the program's own, above that of this script, from which it is started.
    many = 400_000
    kept = lambda guesses: meter.peak(writing(LARGE, BLOCK, many, guesses)) * 1024 / many
    yield "bytes that a noted write keeps / 600", kept(True) - kept(False), 600, 1
    look = lambda names: meter.each(lambda n: looking(names, n), 600, 1200, 1)
    yield "look in a directory: of 64 names / of 4", look(64), look(4), 2
    link = lambda names: meter.each(lambda n: relinking(names, n), 640, 1280, 1)
    yield "link and unlink in a directory: of 60 names / of 2", link(60), link(2), 1.1
    pipe = lambda is_full: meter.each(lambda n: piping(is_full, n), 640, 1280, 1)
    yield "take and put of 512 bytes: on a full pipe / on an empty one", pipe(True), pipe(False), 1.1


def asked_rows(meter):
    """A question of a talk, beside so many copies: a name is read and looked up, whatever else there is."""
    copies = lambda count: "\n".join([f'copy /c{number} 0 "c"' for number in range(count)] + ["script a", "say", "end", "process 1 a 1"]) + "\n"
    asked = lambda question, count: (meter.talked(copies(count), [question] * 2000) - meter.talked(copies(count), [question] * 1000)) / 1000
    for question in ("value copy /c7", "value proc 1", "tags proc 1"):
        yield f"`{question}` in a talk: beside 2,000 copies / beside 500", asked(question, 2000), asked(question, 500), ASKED


def boot_rows(meter):
    """A boot of twice as many entities of a kind, with its reading and its report."""
    kinds = {"copies": lambda number: f'copy /c{number} 0 "c"', "processes": lambda number: f"process {number} a {number}"}
    for kind, declared in kinds.items():
        boot = lambda count: meter.run("play", "\n".join(script("a", ["say"]) + [declared(number + 1) for number in range(count)] + ["steps"]) + "\n")
        yield f"a boot of 4,000 {kind} / of 2,000", boot(4000), boot(2000), TWICE


def drained_rows(meter):
    """Texts that are handed out every hundred steps, and an epoch behind them: twice as many."""
    boot = "\n".join(script("a", ['text "a line of output"'] + looping(["say"], 64)) + ["process 1 a 1"]) + "\n"
    round_of = ["step 1 none"] * 100 + ["released 1", "epoch"]
    yield "2,000 texts handed out in a talk, 100 at a time / 1,000", meter.talked(boot, round_of * 20), meter.talked(boot, round_of * 10), TWICE
    told = lambda count: meter.run("play", scenario(['text "a line of output"'] + looping(["say"], 64), ["step 1 none"] * count))
    yield "a run of 4,000 texts with its report / of 2,000", told(4000), told(2000), TWICE


def shown(cost, seconds):
    return f"{cost * 1e6:14,.2f}" if seconds else f"{cost:14,.0f}"


def main():
    words = argparse.ArgumentParser(description=__doc__, formatter_class=argparse.RawDescriptionHelpFormatter)
    words.add_argument("--program", default=os.path.join(TOP, "crates/speculate/out/speculate"))
    words.add_argument("--unproved", help="a build without proofs, for a row more")
    words.add_argument("--only", default="", help="the rows whose name has this word")
    words.add_argument("--seconds", action="store_true", help="seconds in place of instructions")
    words = words.parse_args()
    if not os.access(words.program, os.X_OK):
        sys.exit(f"{words.program}: no program; `(cd crates/speculate && rt run)` makes it")
    meter = Meter(words.program, words.seconds)
    unit = "microseconds" if words.seconds else "instructions"
    print(f"{'ratio':>7} {'limit':>6} {unit + ' left':>20} {'right':>14}  what")
    kinds = (table_rows, aim_rows, step_rows, rest_rows, long_rows, decision_rows, held_rows, nested_rows, text_rows, relisted_rows, block_rows, asked_rows, boot_rows, drained_rows, counts_rows, plain_rows)
    tables = [(it.__name__, it(meter)) for it in kinds]
    if words.unproved:
        tables.append(("unproved_rows", unproved_rows(meter, Meter(words.unproved, words.seconds))))
    over = 0
    for name, left, right, limit in (row for kind, rows in tables if words.only in kind for row in rows):
        ratio = left / right
        over += ratio > limit
        mark = " OVER" if ratio > limit else ""
        print(f"{ratio:7.3f} {limit:>6} {shown(left, words.seconds):>20} {shown(right, words.seconds)}  {name}{mark}", flush=True)
    print(f"{over} over their limit")
    return 1 if over else 0


if __name__ == "__main__":
    sys.exit(main())
