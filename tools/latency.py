#!/usr/bin/env python3
"""How much waiting a guessing desk hides: virtual time over the real desk and server.

    tools/latency.py [--program PATH] [--round-trips 0,10,100] [--load NAME | FILE] [--write | --check]

PATH is the program `speculate`: `build/speculate` where none is given, which `tools/build.py` builds where it does
not stand. A load is one of those below, or a scenario of a world, whose scripts run from top to bottom, and in which
no other client writes: what else a file has is refused by its name. A scheduler with a clock decides when each process gets a turn, when the server answers a request and when its reply is
given; what each of these does is what `speculate play` answers, so which request is made, which guess fails and what
is done again comes from the desk and the server themselves. Time is counted in turns: a turn takes 1, and the reply to a
request is given one round trip after it was made.

`wait` gives a process no turn while a request of it has no reply, as a client that waits for its server does.
`guess` gives it turns at once. Both must end with the same files of the server and the same released texts; the status
is 1 where they do not. Two clients that do not guess stand beside them, by the scripts alone: `lease` fetches what it has a
good copy of without a round trip, `ahead` asks for each file before its fetch comes. --write puts the table of ratios
into docs/SPEED.md and the plot into docs/pictures/latency.svg; --check compares both with those measured now, and ends with
'N passed, M failed'.
"""
import argparse
import math
import os
import re
import sys

sys.dont_write_bytecode = True
import told  # noqa: E402

TOP = os.path.dirname(os.path.dirname(os.path.abspath(__file__)))
PAGE = os.path.join(TOP, "docs/SPEED.md")
PLOT = os.path.join(TOP, "docs/pictures/latency.svg")
TRIPS = [0, 1, 3, 10, 30, 100, 300, 1000]
LONGEST_TRIP = 1_000_000
MOST_OPEN = 64
REQUESTS = ("fetch", "store")
# With these a script does not run from top to bottom.
TURNS_ASIDE = ("jump", "zero", "neg", "handler", "return", "fork", "wait", "kill", "exit", "put", "take")


class Load:
    """A scenario's declarations, the scripts of its processes, and the names of which there is a copy."""

    def __init__(self, about, scripts, copies, remotes):
        self.about, self.scripts = about, scripts
        self.copies = {name for name, _, _ in copies}
        self.good = {copy[0] for copy in copies if copy in remotes}
        self.head = []
        for process, lines in scripts.items():
            self.head += [f"script s{process}", *lines, "end", f"process {process} s{process} {process}"]
        self.head += [f'copy {name} {version} "{words}"' for name, version, words in copies]
        self.head += [f'remote {name} {version} "{words}"' for name, version, words in remotes]


def load_of(path):
    """A load from a scenario's declarations; the events of its section are not played."""
    with open(path, encoding="utf-8") as file:
        scenario = told.Scenario(file.read())
    if not scenario.is_world:
        raise told.Fault(f"{path}: a load is a scenario with a section world")
    lines = {process: scenario.scripts.get(script, []) for process, script in scenario.runs.items()}
    aside = next((line for it in lines.values() for line in it if line.split(" ")[0] in TURNS_ASIDE), None)
    if aside:
        raise told.Fault(f"{path}: a script with {aside!r} does not run from top to bottom")
    words = [told.words_of(line) for line in scenario.head]
    files = {kind: [(it[1], int(it[2]), it[3]) for it in words if it[:1] == [kind]] for kind in ("copy", "remote")}
    edit = next((line for line in scenario.lines if told.words_of(line)[0] == "edit"), None)
    if edit:
        raise told.Fault(f"{path}: {edit!r} is another client's, whose writes have no place on this clock")
    load = Load(scenario.about or os.path.basename(path), lines, files["copy"], files["remote"])
    load.head = scenario.head[:-1]
    return load


def mailbox(about, count, files, stale=0, is_cold=False):
    """One client reads, changes and writes back one of some small files, again and again."""
    lines = []
    for at in range(count):
        name = f"/m{at * 7 % files}"
        lines += [f"fetch {name}", "len r1", f'text "mail {at}"', f"store {name}", "say"]
    copies = [] if is_cold else [(f"/m{at}", 3, "old") for at in range(files)]
    return Load(about, {"1": lines}, copies, [(f"/m{at}", 3 + (at < stale), "old") for at in range(files)])


def build(about, files, makers):
    """Some processes look at all sources, then compile each with its headers."""
    scripts = {}
    for maker in range(makers):
        lines = []
        for at in range(maker, files, makers):
            lines += [f"fetch /src{at}", "set r2 0"]
        for at in range(maker, files, makers):
            lines += ["fetch /config", f"fetch /src{at}", *["add r2 r0"] * 20, f'text "object {at}"', f"store /obj{at}"]
        scripts[str(maker + 1)] = lines + ['text "made"', "say"]
    held = [("/config", 2, "flags")]
    for at in range(files):
        held += [(f"/src{at}", 1, f"source {at}"), (f"/obj{at}", 1, "")]
    return Load(about, scripts, held, held)


LOADS = {
    "mailbox": mailbox("60 messages in 20 files, all copies good", 60, 20),
    "cold": mailbox("the same, nothing cached", 60, 20, is_cold=True),
    "stale": mailbox("the same, a quarter of the copies stale", 60, 20, stale=5),
    "build": build("24 sources, 2 makers", 24, 2),
}


class Expected:
    """What the desk will answer, as far as that can be told beforehand.

    It only saves runs of the program: each answer is held against the program's, and the run is done anew from
    the first that is another (`Clock.told`).
    """

    def __init__(self, load):
        self.load, self.copies = load, set(load.copies)
        self.place = dict.fromkeys(load.scripts, 0)
        self.sent = []  # of each request without a reply: its process and place, and the kind of its answer
        self.keeps = set()  # processes whose next turn takes an answer that was kept

    def doing(self, process):
        lines, place = self.load.scripts[process], self.place[process]
        return lines[place].split(" ") if place < len(lines) else ["exit"]

    def answer(self, event):
        words = event.split(" ")
        if words[0] == "reply":
            return {"guessed": "committed", "asked": "taken", "struck": "gone"}[self.sent[0][2]]
        process = words[1]
        does = self.doing(process)
        if self.place[process] > len(self.load.scripts[process]):
            return "refused Ended"
        if does[0] not in REQUESTS or process in self.keeps:
            return "stepped"
        if any(it[0] == process and it[2] == "asked" for it in self.sent):
            return "refused Blocked"
        if does[1] not in self.copies:
            return "asked"
        is_full = sum(it[2] == "guessed" for it in self.sent) >= MOST_OPEN
        return "refused TooMany" if is_full else "guessed"

    def saw(self, event, answer):
        words = event.split(" ")
        if words[0] == "turn":
            if answer in ("guessed", "asked"):
                self.sent.append((words[1], self.place[words[1]], answer))
            if answer in ("guessed", "stepped"):
                self.place[words[1]] += 1
                self.keeps.discard(words[1])
        elif answer in ("taken", "failed"):
            process, place, _ = self.sent.pop(0)
            self.place[process] = place
            if answer == "failed":
                self.keeps.add(process)
                self.sent = [(it[0], it[1], "struck" if it[0] == process else it[2]) for it in self.sent]
                return
            self.copies.add(self.doing(process)[1])
            self.place[process] += 1
        else:
            self.sent.pop(0)


def kind_of(answer):
    """An answer without its numbers."""
    return re.sub(r" \d+", "", answer)


class Clock:
    """One run of a load, with the answers that are known already."""

    def __init__(self, load, round_trip, guesses, known):
        self.load, self.round_trip, self.guesses, self.known = load, round_trip, guesses, known
        self.expected = Expected(load)
        self.events, self.answers = [], []
        self.now = 0.0
        self.sent = []  # of each request: when it reaches the server, whose it is
        self.served = self.given = 0

    def do(self, event):
        """The kind of an event's answer: the one that is known, or else the one that is expected."""
        at = len(self.events)
        answer = "" if event == "serve" else self.known[at] if at < len(self.known) else self.expected.answer(event)
        if answer:
            self.expected.saw(event, answer)
        self.events.append(event)
        self.answers.append(answer)
        return answer

    def take_replies(self):
        """Serves what has reached the server, and gives the replies that are back; whether there was one."""
        before = self.given
        while self.given < len(self.sent) and self.sent[self.given][0] + self.round_trip / 2 <= self.now:
            while self.served < len(self.sent) and self.sent[self.served][0] <= self.sent[self.given][0]:
                self.do("serve")
                self.served += 1
            self.do("reply")
            self.given += 1
        return self.given != before

    def is_ready(self, process):
        return self.guesses or not any(it == process for _, it in self.sent[self.given:])

    def turn(self, process):
        """Gives a process a turn; whether it took one."""
        answer = self.do(f"turn {process}")
        if answer.startswith("refused"):
            return False
        self.now += 1
        if answer in ("guessed", "asked"):
            self.sent.append((self.now + self.round_trip / 2, process))
        return True

    def run(self):
        idle = set()
        while True:
            # A reply may bring back a process that had ended.
            idle = set() if self.take_replies() else idle
            ready = [it for it in self.load.scripts if it not in idle and self.is_ready(it)]
            if not ready and self.given == len(self.sent):
                return self
            if not ready:
                self.now = max(self.now, self.sent[self.given][0] + self.round_trip / 2)
                continue
            for process in ready:
                if not self.turn(process):
                    idle.add(process)
                if self.take_replies():
                    idle = set()

    @staticmethod
    def told(program, load, round_trip, guesses):
        """A run of which each answer is the program's own, and its report."""
        known = []
        while True:
            clock = Clock(load, round_trip, guesses, known).run()
            lines = told.played(program, "\n".join([*load.head, "world", *clock.events]) + "\n")
            said = [kind_of(line.split(" ", 1)[1]) for line in lines[: len(clock.events)]]
            wrong = next((at for at, answer in enumerate(clock.answers) if answer not in ("", said[at])), None)
            if wrong is None:
                return clock, told.State(lines[len(clock.events):])
            known = said[: wrong + 1]


class Rival:
    """A client that does not guess, by its scripts alone: it has a turn for each line, and waits for the replies that it needs.

    With leases, a fetch of a file whose copy is good needs none, and each reply brings a lease. Asking ahead, the request of a
    fetch is made at the start, or as soon as the reply to the store before it is there. Both wait for the reply to a store.
    """

    def __init__(self, load, round_trip, leases=False, ahead=False):
        self.load, self.round_trip, self.leases, self.ahead = load, round_trip, leases, ahead
        self.now, self.place, self.back = 0.0, dict.fromkeys(load.scripts, 0), dict.fromkeys(load.scripts, 0.0)
        self.held = set(load.good)
        self.there = {}  # of a file that is asked for ahead: when its reply is there

    def needs(self, kind, name):
        """When the reply that a request needs is there, if the request comes up now."""
        reply = self.now + self.round_trip
        if kind == "store":
            self.there[name] = reply + self.round_trip
            self.held.add(name)
            return reply
        if self.leases and name in self.held:
            return self.now
        self.held.add(name)
        return self.there.get(name, self.round_trip) if self.ahead else reply

    def run(self):
        while True:
            live = [it for it, lines in self.load.scripts.items() if self.place[it] <= len(lines)]
            if not live:
                return self.now
            self.now = max(self.now, min(self.back[it] for it in live))
            for process in [it for it in live if self.back[it] <= self.now]:
                self.now += 1
                words = [*self.load.scripts[process], "exit"][self.place[process]].split(" ")
                self.place[process] += 1
                if words[0] in REQUESTS:
                    self.back[process] = self.needs(*words[:2])


class Row:
    """What waiting and guessing took of one load, at one round trip, and what clients take that wait less without guessing."""

    def __init__(self, program, name, load, trip):
        self.name, self.about, self.trip = name, load.about, trip
        (wait, one), (guess, two) = (Clock.told(program, load, trip, it) for it in (False, True))
        self.is_same = outcome(one) == outcome(two)
        self.wait, self.guess = wait.now, guess.now
        self.lease, self.ahead = Rival(load, trip, leases=True).run(), Rival(load, trip, ahead=True).run()
        count = lambda clock, *kinds: sum(it in kinds for it in clock.answers)
        # Where nothing had to be done again, the model of a client that waits is the program.
        self.is_same = self.is_same and (count(wait, "failed") > 0 or Rival(load, trip).run() == wait.now)
        self.turns = [count(it, "guessed", "asked", "stepped") for it in (wait, guess)]
        self.requests = [len(it.sent) for it in (wait, guess)]
        self.asked, self.failed, self.struck = (count(guess, it) for it in ("asked", "failed", "gone"))

    @property
    def ratio(self):
        return self.wait / self.guess

    @property
    def ratios(self):
        """How many times as long waiting takes as guessing, as leases, as asking ahead."""
        return [self.wait / it for it in (self.guess, self.lease, self.ahead)]

    def cells(self):
        return [f"{self.trip:,}", f"{self.wait:,.0f}", f"{self.lease:,.0f}", f"{self.ahead:,.0f}", f"{self.guess:,.0f}", f"{self.ratio:.1f}",
                *(f"{it:,}" for it in (*self.requests, self.asked, self.failed, self.struck, *self.turns))]


def outcome(state):
    """What others see in the end: the files of the server, and what the terminals have released."""
    files = {key: value for key, (value, _) in state.entities.items() if key.startswith("remote ")}
    return files, state.terminals


COLUMNS = ["round trip", "wait", "lease", "ahead", "guess", "ratio", "requests: wait", "guess", "of these waited for", "failed", "struck",
           "turns: wait", "guess"]


def ratios(rows, trips):
    """The table that the page has: how many times as long waiting takes, by load and round trip."""
    abouts = {row.name: row.about for row in rows}
    ratio = {(row.name, row.trip): [f"{it:.1f}" for it in row.ratios] for row in rows}
    lines = ["| load, at a round trip of | " + " | ".join(f"{trip:,}" for trip in trips) + " |", "|---|" + "---|" * len(trips)]
    for name, about in abouts.items():
        for at, how in enumerate((f"{name}: {about}; guess", "lease", "ahead")):
            lines.append(f"| {how} | " + " | ".join(ratio[name, trip][at] for trip in trips) + " |")
    return lines


def tables(rows, trips):
    """What is printed: the ratios, and below them a table for each load."""
    lines = ratios(rows, trips)
    for name, about in {row.name: row.about for row in rows}.items():
        lines += ["", f"### {name}: {about}", "", "| " + " | ".join(COLUMNS) + " |", "|---" * len(COLUMNS) + "|"]
        lines += ["| " + " | ".join(row.cells()) + " |" for row in rows if row.name == name]
    return "\n".join(lines)


HUES = ["#2f6fde", "#0b8a94", "#c76a00", "#8250df"]
WIDTH, HEIGHT, LEFT, RIGHT, HIGH, LOW = 760, 400, 64, 590, 44, 340


def plot(rows, trips):
    """The ratios over the round trips, both by powers of ten."""
    x = lambda trip: LEFT + (RIGHT - LEFT) * math.log10(trip) / math.log10(trips[-1])
    y = lambda ratio: LOW - (LOW - HIGH) * math.log10(ratio) / 2
    words = lambda x, y, told, more="": f'<text x="{x:.1f}" y="{y:.1f}" font-size="12" fill="#1f2328" {more}>{told}</text>'
    rule = lambda x1, y1, x2, y2: f'<path d="M{x1:.1f} {y1:.1f}L{x2:.1f} {y2:.1f}" stroke="#d8dee4"/>'
    drawn = [words(LEFT, 22, "how many times as long waiting takes as guessing (line), leases (dashes), asking ahead (dots)",
                   'font-weight="600"'),
             words((LEFT + RIGHT) / 2, LOW + 44, "round trip, in turns of a process", 'text-anchor="middle"')]
    for ratio in (1, 2, 5, 10, 20, 50, 100):
        drawn += [rule(LEFT, y(ratio), RIGHT, y(ratio)), words(LEFT - 10, y(ratio) + 4, f"{ratio}", 'text-anchor="end"')]
    for trip in trips:
        drawn += [rule(x(trip), HIGH, x(trip), LOW), words(x(trip), LOW + 20, f"{trip:,}", 'text-anchor="middle"')]
    for hue, name in zip(HUES, dict.fromkeys(row.name for row in rows)):
        points = [(x(row.trip), y(row.ratio)) for row in rows if row.name == name and row.trip in trips]
        shape = "L".join(f"{at:.1f} {up:.1f}" for at, up in points)
        drawn.append(f'<path d="M{shape}" fill="none" stroke="{hue}" stroke-width="2.2"/>')
        drawn += [f'<circle cx="{at:.1f}" cy="{up:.1f}" r="4" fill="{hue}"/>' for at, up in points]
        for at, dash in ((1, "6 4"), (2, "1.5 4")):
            shape = "L".join(f"{x(row.trip):.1f} {y(row.ratios[at]):.1f}" for row in rows if row.name == name and row.trip in trips)
            drawn.append(f'<path d="M{shape}" fill="none" stroke="{hue}" stroke-width="1.6" stroke-dasharray="{dash}"/>')
        last = [row.ratio for row in rows if row.name == name][-1]
        drawn.append(words(RIGHT + 12, points[-1][1] + 4, f"{name}: {last:.1f}", f'style="fill:{hue}" font-weight="600"'))
    face = 'font-family="Inter, Helvetica, Arial, DejaVu Sans, sans-serif"'
    size = f'viewBox="0 0 {WIDTH} {HEIGHT}" width="{WIDTH}" height="{HEIGHT}"'
    inside = "\n".join(drawn)
    return f'<svg xmlns="http://www.w3.org/2000/svg" {size} {face}><rect width="100%" height="100%" fill="#fff"/>{inside}</svg>\n'


BEGIN, END = "<!-- measured by tools/latency.py -->\n\n", "\n\n<!-- measured so far -->"


def page_with(measured):
    """The page with its measured part replaced."""
    with open(PAGE, encoding="utf-8") as file:
        before, _, rest = file.read().partition(BEGIN)
    return before + BEGIN + measured + END + rest.partition(END)[2]


def check(rows, drawn):
    """Compares the page and the plot with what was measured now."""
    failed = 0
    for name, wanted in ((PAGE, page_with("\n".join(ratios(rows, TRIPS)))), (PLOT, drawn)):
        with open(name, encoding="utf-8") as file:
            if file.read() != wanted:
                print(f"latency: {os.path.relpath(name, TOP)} has other numbers")
                failed += 1
    wrong = sum(not row.is_same for row in rows)
    print(f"latency: {len(rows) - wrong + 2 - failed} passed, {wrong + failed} failed")
    return failed + wrong


class Words(argparse.ArgumentParser):
    """The words of the command line; what is wrong with them is told in one line."""

    def error(self, message):
        self.exit(2, f"{self.prog}: {message}\n")


def asked():
    """What was asked for, its round trips and its loads."""
    words = Words(description=__doc__, formatter_class=argparse.RawDescriptionHelpFormatter)
    words.add_argument("--program", metavar="PATH")
    words.add_argument("--round-trips", metavar="TURNS,..", default=",".join(map(str, TRIPS)))
    words.add_argument("--load", metavar="NAME | FILE", help=f"one of {', '.join(LOADS)}, or a scenario of a world")
    words.add_argument("--write", action="store_true")
    words.add_argument("--check", action="store_true")
    given = words.parse_args()
    trips = []
    for word in given.round_trips.split(","):
        if not word.isascii() or not word.isdecimal() or int(word) > LONGEST_TRIP:
            words.error(f"a round trip is a number from 0 to {LONGEST_TRIP:,}, not {word!r}")
        trips.append(int(word))
    if (given.write or given.check) and (trips != TRIPS or given.load):
        words.error("the page has all loads and round trips")
    if not given.load:
        return given, trips, LOADS
    if given.load in LOADS:
        return given, trips, {given.load: LOADS[given.load]}
    try:
        return given, trips, {os.path.basename(given.load): load_of(given.load)}
    except (told.Fault, OSError, UnicodeDecodeError, ValueError, IndexError) as fault:
        words.error(f"no load, and no scenario that can be one: {fault}")


def main():
    given, trips, loads = asked()
    try:
        path = given.program or told.program()
        rows = [Row(path, name, load, trip) for name, load in loads.items() for trip in trips]
    except told.Fault as fault:
        sys.exit(str(fault))
    for row in rows:
        if not row.is_same:
            print(f"{row.name} at {row.trip}: others see different things", file=sys.stderr)
    if given.check:
        sys.exit(bool(check(rows, plot(rows, [trip for trip in TRIPS if trip]))))
    if given.write:
        with open(PLOT, "w", encoding="utf-8") as file:
            file.write(plot(rows, [trip for trip in TRIPS if trip]))
        whole = page_with("\n".join(ratios(rows, trips)))
        with open(PAGE, "w", encoding="utf-8") as file:
            file.write(whole)
    else:
        print(tables(rows, trips))
    sys.exit(any(not row.is_same for row in rows))


if __name__ == "__main__":
    main()
