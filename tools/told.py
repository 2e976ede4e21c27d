"""A run as the program tells it: its events, what each reads and writes, and all values and tags after each event.

The program is run once with `--steps` on the whole scenario, and once on each beginning of its section; all values,
tags, reads, writes and outputs are its own. What is looked up here in the scenario is what no report repeats: the
instruction at a place, the script of a process and its terminal.
"""
import itertools
import os
import re
import subprocess
import sys

HERE = os.path.dirname(os.path.abspath(__file__))
PROGRAM = os.path.join(os.path.dirname(HERE), "build/speculate")
SECTIONS = ("steps", "world")
WORD = re.compile(r'"(?:\\.|[^"\\])*"[^ \t]*|[^ \t]+')
PROCESS = re.compile(r'at (\d+) regs \S+(?: \S+){7} buf (".*") kids .* ended (yes|no)')
DECIDED = re.compile(r"(commit|fail)(?:ted|ed) (\d+)")


class Fault(Exception):
    """What the program says of a scenario that it refuses."""


def words_of(line):
    """The words of a line, up to its comment."""
    return list(itertools.takewhile(lambda word: not word.startswith("#"), WORD.findall(line.rstrip("\r"))))


def plain(name):
    """A process, a guess or a terminal without leading zeros."""
    return ".".join(str(int(part)) for part in name.split("."))


def program():
    """The program in build/, which is built where it does not stand."""
    if not os.path.exists(PROGRAM):
        print("no program is built: tools/build.py builds it, in two to five minutes", file=sys.stderr)
        if subprocess.run([f"{HERE}/build.py", "program"], check=False).returncode:
            sys.exit(1)
    return PROGRAM


def played(program, text, *flags):
    """The lines that the program prints for a scenario."""
    given = text.encode("utf-8", "surrogateescape")
    try:
        ran = subprocess.run([program, "play", *flags, "-"], input=given, capture_output=True)
    except OSError as error:
        raise Fault(f"{program} cannot be run: {error.strerror}") from error
    if ran.returncode:
        raise Fault(ran.stderr.decode(errors="replace").strip() or f"the program ended with {ran.returncode}")
    return ran.stdout.decode("ascii").split("\n")[:-1]


class Scenario:
    """The declarations of a scenario and the events of its section."""

    def __init__(self, text):
        lines = text.split("\n")
        heading = next((at for at, line in enumerate(lines) if words_of(line) in ([it] for it in SECTIONS)), len(lines))
        self.is_world = heading < len(lines) and words_of(lines[heading]) == ["world"]
        self.head = lines[: heading + 1]
        self.lines = [line for line in lines[heading + 1:] if words_of(line)]
        self.events = [words_of(line) for line in self.lines]
        self.about = next((line.strip()[1:].strip() for line in lines if line.strip().startswith("#")), "")
        self.scripts, self.runs, self.terminal = {}, {}, {}
        self.declare()

    def declare(self):
        inside = None
        for words in filter(None, map(words_of, self.head)):
            if inside is not None:
                if words[0] == "end":
                    inside = None
                elif not words[0].endswith(":"):
                    inside.append(" ".join(words))
            elif words[0] == "script":
                inside = self.scripts.setdefault(words[1], [])
            elif words[0] == "process":
                self.runs[plain(words[1])] = words[2]
                self.terminal[plain(words[1])] = plain(words[3])

    def beginning(self, count):
        return "\n".join(self.head + self.lines[:count]) + "\n"

    def script(self, process):
        """The script of a process, which is that of the boot process above it."""
        return self.runs.get(process.split(".")[0], "")

    def instruction(self, process, place):
        lines = self.scripts.get(self.script(process), [])
        return lines[place] if place < len(lines) else "exit"


class State:
    """What a report shows: of each entity its value and tags, of each terminal what is released and how much waits."""

    def __init__(self, report):
        self.entities, self.terminals = {}, {}
        lines = iter(report)
        for line in lines:
            words = line.split(" ")
            if words[0] == "trace":
                break
            if words[0] == "terminal":
                self.terminals[words[1]] = ([next(lines) for _ in range(int(words[3]))], int(words[5]))
            elif words[0] == "remote":
                self.entities[f"remote {words[1]}"] = (" ".join(words[2:]), ())
            else:
                value, tags = line.rsplit(" tags ", 1)
                key, value = split_entity(value.split(" "))
                self.entities[key] = (value, () if tags == "-" else tuple(map(int, tags.split(","))))

    def value(self, key):
        return self.entities.get(key, ("", ()))[0]

    def tags(self, key):
        return set(self.entities.get(key, ("", ()))[1])

    def process(self, name):
        """The place of a process, its buffer, and whether it has ended."""
        found = PROCESS.match(self.value(f"proc {name}"))
        return found and (int(found[1]), found[2], found[3] == "yes")

    def texts(self):
        """How many texts each terminal has, released or waiting."""
        return {name: len(out) + waiting for name, (out, waiting) in self.terminals.items()}


class Event:
    """One event of a section: its words, its answer, and what the program lists of its step."""

    def __init__(self, number, words, answer):
        self.number, self.words, self.answer = number, words, answer
        self.process = self.guess = self.decided = self.struck = None
        self.does, self.reads, self.writes, self.tags = "", [], [], set()
        self.is_refused = answer.startswith("refused")
        if words[0] in ("step", "guess", "turn"):
            self.process = plain(words[1])
        drawn = re.fullmatch(r"guess(?:ed)? (\d+)", answer)
        if drawn:
            self.guess = int(drawn[1])
        found = DECIDED.fullmatch(answer)
        if answer == "done":
            self.decided = (words[0], int(words[1]))
        elif found:
            self.decided = (found[1], int(found[2]))

    def list_as(self, reads, writes, tags):
        """Takes the three lines that the program lists for a step that was taken."""
        self.reads, self.writes = entities_in(reads), entities_in(writes)
        self.process = self.reads[0].split(" ")[1]
        listed = tags.split(" ")[1]
        self.tags = set() if listed == "-" else set(map(int, listed.split(",")))

    @property
    def is_step(self):
        """Whether a process took a step here, one from a reply too."""
        return bool(self.process and (self.reads or self.writes))

    @property
    def told(self):
        return " ".join(self.words)


def split_entity(words):
    """The entity in front, of two words, or of three where it is a name of a directory, and what is behind it."""
    own = 3 if words[0] == "link" else 2
    return " ".join(words[:own]), " ".join(words[own:])


def entities_in(line):
    rest, entities = line.split(" ", 1)[1], []
    while rest and rest != "-":
        entity, rest = split_entity(rest.split(" "))
        entities.append(entity)
    return entities


class Text:
    """A text that a step said, and when it was released or thrown away."""

    def __init__(self, terminal, words, event):
        self.terminal, self.words, self.event, self.tags = terminal, words, event, set(event.tags)
        self.released = self.gone = None


class Guess:
    """The event that made a guess, and when and how it was decided: `commit`, `fail`, `struck`, or `open`."""

    def __init__(self, event):
        self.event, self.end, self.how = event, None, "open"


class Run:
    """The events of a scenario, and the states before, between and after them."""

    def __init__(self, program, text):
        self.scenario = Scenario(text)
        events = self.scenario.events
        beginnings = [self.scenario.beginning(count) for count in range(len(events) + 1)]
        reports = [played(program, it) for it in beginnings]
        listed = iter(played(program, beginnings[-1], "--steps"))
        self.states = [State(report[count:]) for count, report in enumerate(reports)]
        self.events, self.texts, self.guesses = [], [], {}
        line = next(listed)
        for number, words in enumerate(events, 1):
            event = Event(number, words, line.split(" ", 1)[1])
            line = next(listed)
            if line.startswith("reads "):
                event.list_as(line, next(listed), next(listed))
                line = next(listed)
            self.take(event)

    def take(self, event):
        before, after = self.states[event.number - 1:event.number + 1]
        self.events.append(event)
        if event.process and before.process(event.process):
            event.does = self.instruction(event, before, after)
        if event.guess:
            self.guesses[event.guess] = Guess(event)
        if event.is_step:
            said = next((name for name, count in after.texts().items() if count > before.texts().get(name, 0)), None)
            if said:
                self.texts.append(Text(said, before.process(event.process)[1], event))
        if event.decided:
            self.decide(event)
        self.release(event, after)

    def instruction(self, event, before, after):
        """What a process does at an event: a signal that is due, or the instruction at its place."""
        queue = before.value(f"sig {event.process}").split(",")
        if event.is_step and "9" in queue and f"exit {event.process}" in event.writes:
            return "signal 9"
        if event.is_step and queue != ["-"] and after.value(f"sig {event.process}") == (",".join(queue[1:]) or "-"):
            return f"signal {queue[0]}"
        return self.scenario.instruction(event.process, before.process(event.process)[0])

    def decide(self, event):
        how, guess = event.decided
        self.guesses[guess].end, self.guesses[guess].how = event.number, how
        if how == "commit":
            for it in [*self.events, *self.texts]:
                it.tags.discard(guess)
            return
        for it in self.events:
            if guess in it.tags and not it.struck:
                it.struck = event.number
                own = self.guesses.get(it.guess)
                if own and own.end is None:
                    own.end, own.how = event.number, "struck"
        for text in self.texts:
            if guess in text.tags and text.gone is None:
                text.gone = event.number

    def release(self, event, after):
        """Marks the texts that are released by now, and holds those that are left against the report."""
        for terminal, (out, waiting) in after.terminals.items():
            kept = [it for it in self.texts if it.terminal == terminal and it.gone is None]
            for text in kept[: len(out)]:
                text.released = text.released or event.number
            if [it.words for it in kept[: len(out)]] != out or len(kept) != len(out) + waiting:
                raise Fault(f"event {event.number}: terminal {terminal} has other texts than were said")
