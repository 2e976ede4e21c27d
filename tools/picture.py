#!/usr/bin/env python3
"""Draws the run of a scenario: lanes, guesses as bands, what went from lane to lane, and what a failure took back.

    tools/picture.py SCENARIO [--program PATH] [--html PAGE] [--svg FILE]

PATH is the program `speculate`: `build/speculate` where none is given, which `tools/build.py` builds in minutes where
it does not stand. The page stands alone and replays the run by a slider; `PAGE#at=8` opens it after event 8, the keys g and f
go to the next guess and the next failure (G and F back), + and - draw it larger and smaller. The SVG is its last state, for documents. Where neither is asked for, the page is written to NAME.html in the current folder. The
status is 1 where the program refuses the scenario, which is one of `steps` or of a `world`. Where SCENARIO is what
`hidewillow-run --trace` wrote, that is drawn (tools/traced.py), as an SVG.
"""
import argparse
import html
import json
import os
import re
import sys

sys.dont_write_bytecode = True
import told  # noqa: E402
import traced  # noqa: E402

HERE = os.path.dirname(os.path.abspath(__file__))
INK, SOFT, RULE, GREY, RED, GREEN = "#1f2328", "#6e7781", "#d8dee4", "#8c959f", "#cf222e", "#1a7f37"
HUES = ["#2f6fde", "#8250df", "#0b8a94", "#c76a00", "#bf3989", "#57713a", "#4b5fa8", "#9a5b34"]
FACE = "Inter, Helvetica, Arial, DejaVu Sans, sans-serif"
HEIGHT = {"proc": 74, "obj": 52, "link": 46, "copy": 52, "sig": 46, "exit": 46, "term": 46, "server": 64}
LEFT, WIDEST, TIGHT = 158, 2000, 46
# What of a lane is drawn, besides its bands, stands this far from its middle line at most.
CLEAR = 34


def hue(guess):
    return HUES[(guess - 1) % len(HUES)]


def short(words, most):
    return words if len(words) <= most else words[: max(most - 1, 0)] + "…"


def shown(value):
    """A value without the words that tell its kind and size."""
    value = re.sub(r"^(file \d+|pipe open|dir) ", "", value)
    value = re.sub(r"^(at \d+) regs .*", r"\1", value)
    return re.sub(r"^(\d+) (\".*\")$", r"v\1 \2", value)


def value_in(state, key):
    """What an entity has in a state, as a lane shows it."""
    return shown(state.value(key)) if key in state.entities else "absent"


def text(x, y, words, size=11, fill=INK, anchor="middle", more=""):
    at = f'x="{x:.1f}" y="{y:.1f}" font-size="{size}" fill="{fill}" text-anchor="{anchor}"'
    return f"<text {at} {more}>{html.escape(words)}</text>"


def whole(drawn, words, most):
    """What is drawn, with the whole words to be shown where the pointer rests, if they are cut."""
    return drawn if len(words) <= most else f"<g><title>{html.escape(words)}</title>{drawn}</g>"


MONO = 'class="m"'
BOLD = 'font-weight="600"'
HALO = 'stroke="#fff" stroke-width="3" stroke-linejoin="round" paint-order="stroke"'


def line(x1, y1, x2, y2, stroke, width=1.2, more=""):
    at = f'x1="{x1:.1f}" y1="{y1:.1f}" x2="{x2:.1f}" y2="{y2:.1f}"'
    return f'<line {at} stroke="{stroke}" stroke-width="{width}" {more}/>'


def box(x, y, width, height, round_by, more):
    at = f'x="{x:.1f}" y="{y:.1f}" width="{width:.1f}" height="{height:.1f}"'
    return f'<rect {at} rx="{round_by:.1f}" {more}/>'


def path(points, more):
    return f'<path d="{points}" {more}/>'


def dot(x, y, radius, more):
    return f'<circle cx="{x:.1f}" cy="{y:.1f}" r="{radius}" {more}/>'


class Layout:
    """Where the columns of the events and the lanes of what they touch stand."""

    def __init__(self, run):
        self.run, self.count = run, len(run.events)
        self.labels = [self.label(event) for event in run.events]
        self.columns()
        self.processes = sorted({key[5:] for state in run.states for key in state.entities if key.startswith("proc ")},
                                key=lambda name: [int(part) for part in name.split(".")])
        self.spans, self.rows = {}, {}
        self.lanes()

    def label(self, event):
        """The two words above a column: which event it is, and what its step does or what came of it."""
        asked = re.fullmatch(r"asked (\d+)", event.answer)
        if event.guess:
            return f"guess {event.guess}", event.does
        if asked:
            return f"asks {asked[1]}", event.does
        if event.words[0] in ("serve", "reply"):
            return event.words[0], event.answer
        if event.words[0] == "edit":
            return f"edit {event.words[1]}", event.answer
        if event.process:
            return event.words[0], event.does
        return " ".join(event.words[:2]), "" if event.answer == "done" else event.answer

    def columns(self):
        """A column is as wide as its words, or, where that is too wide for all of them, narrow with slanted words."""
        self.widths = [max(58, 6.6 * max(len(verb), min(len(does), 20)) + 18) for verb, does in self.labels]
        self.is_tight = sum(self.widths) > WIDEST
        longest = 0
        if self.is_tight:
            self.widths = [TIGHT] * self.count
            longest = 6.2 * max(len(self.slanted(number)) for number in range(1, self.count + 1))
        self.top = 92 if not self.is_tight else 40 + 0.8 * longest
        self.xs, x = [], LEFT
        for width in self.widths:
            self.xs.append(x + width / 2)
            x += width
        self.width = max(x + max(70, 0.6 * longest), 860)

    def slanted(self, number):
        verb, does = self.labels[number - 1]
        return short(f"{number}  {verb}  {does}".strip(), 30)

    def x(self, number):
        """The middle of an event's column; 0 is before the first, and no event is behind the last."""
        if number is None:
            return self.width - 30
        return self.xs[number - 1] if number else LEFT - 8

    def touched(self, event):
        """What a step reads or writes but its own process: its own signals and status where it changes them or depends on them."""
        own = (f"sig {event.process}", f"exit {event.process}")
        state = self.run.states[event.number - 1]
        for key in sorted({*event.reads, *event.writes}):
            is_seen = key not in own or state.tags(key) or key == own[0] and key in event.writes
            if key != f"proc {event.process}" and is_seen:
                yield key

    def lanes(self):
        """The lanes from top to bottom: each thing near the processes that touch it."""
        touches, places = {}, {f"proc {name}": (float(at), 0) for at, name in enumerate(self.processes)}
        for event in self.run.events:
            for key in self.touched(event) if event.is_step else []:
                mark = (self.processes.index(event.process), key in event.writes)
                touches.setdefault(key, set()).add(mark)
        for key, marks in touches.items():
            wrote, who = any(wrote for _, wrote in marks), {at for at, _ in marks}
            is_tagged = any(state.tags(key) for state in self.run.states)
            if not key.startswith("proc ") and (wrote or is_tagged or key.startswith("copy ")):
                beside = 0 if len(who) > 1 else 0.3 if wrote else -0.3
                places[key] = (sum(who) / len(who) + beside, 1)
        for said in self.run.texts:
            users = [at for at, name in enumerate(self.processes)
                     if self.run.scenario.terminal.get(name.split(".")[0]) == said.terminal]
            places[f"term {said.terminal}"] = (max(users) + 0.45, 2)
        order = sorted(places, key=lambda key: (places[key], key)) + ["server"] * self.run.scenario.is_world
        self.ys, self.heights, y = {}, {}, self.top
        for key in order:
            self.span(key)
            self.heights[key] = max(HEIGHT[key.split(" ")[0]], self.thick(key) * self.rows[key] + CLEAR)
            self.ys[key] = y + self.heights[key] / 2
            y += self.heights[key]
        self.bottom = y

    def span(self, key):
        """For each guess, from the event on which a lane depends on it to the one on which it no longer does, and its row."""
        begun, spans = {}, []
        for number, state in enumerate(self.run.states):
            tags = state.tags(key)
            for guess in sorted(tags - set(begun)):
                begun[guess] = number
            for guess in sorted(set(begun) - tags):
                spans.append((begun.pop(guess), guess, number))
        spans += [(begin, guess, None) for guess, begin in begun.items()]
        free, self.spans[key] = [], []
        for begin, guess, end in sorted(spans, key=lambda it: it[:2]):
            row = next((at for at, until in enumerate(free) if until <= begin), len(free))
            free[row:row + 1] = [end or self.count + 1]
            self.spans[key].append((guess, begin, end, row))
        self.rows[key] = len(free)

    def thick(self, key):
        """The height of one band of a lane: less where many guesses are open at once."""
        rows = self.rows[key]
        return 0 if not rows else 15 if rows == 1 else max(1.6, min(9, 44 / rows))

    def name_of(self, key):
        kind, _, name = key.partition(" ")
        first = next((state.value(key) for state in self.run.states if key in state.entities), "")
        if kind == "proc":
            return f"process {name}", f"script {self.run.scenario.script(name)}"
        if key == "obj 0:1":
            return "root directory", ""
        if kind == "obj":
            return f"{first.split(' ')[0]} {self.link_of(name) or name}", shown(first)
        if kind == "server":
            files = self.run.states[0].entities.items()
            return "server", ", ".join(f"{key[7:]} {value[0]}" for key, value in files if key.startswith("remote "))
        if kind == "link":
            at, _, link = name.partition(" ")
            return f"name {link}", "" if at == "0:1" else f"in {self.link_of(at) or at}"
        more = shown(first) if kind == "copy" else ""
        return {"sig": "signals of", "exit": "status of", "copy": "copy of", "term": "terminal"}[kind] + f" {name}", more

    def link_of(self, name):
        """The first name under which an object was linked."""
        for state in self.run.states:
            for value, _ in state.entities.values():
                found = value.startswith("dir") and re.search(rf"(\S+)={re.escape(name)}(?: |$)", value)
                if found:
                    return found[1]
        return None

    def room(self, number, key):
        """How many letters are written between an event's mark on a lane and the next thing that passes there."""
        after = next((event.number for event in self.run.events[number:] if self.crosses(event, key)), None)
        return min(22, int(((self.x(after) - 8 if after else self.width) - self.x(number) - 12) / 6.3))

    def crosses(self, event, key):
        """Whether an event has a value of its own on a lane, or a line that passes above it."""
        if event.decided and event.decided[0] == "fail" or event.is_step and key in event.writes:
            return True
        ends = [self.ys[it] for it in self.touched(event) if it in self.ys] if event.is_step else []
        y, own = self.ys[key], self.ys.get(f"proc {event.process}")
        return any(min(own, end) < y <= max(own, end) for end in ends)


class Picture(Layout):
    """The drawing of a run, as the parts of an SVG."""

    def draw(self):
        self.parts = []
        self.signs = self.legend(self.bottom + 30)
        self.frame()
        self.bands()
        if self.run.scenario.is_world:
            self.messages()
        self.touches()
        self.marks()
        self.outputs()
        self.decisions()
        self.names()
        self.headings()
        self.height = self.bottom + 50
        size = f'width="{self.width:.0f}" height="{self.height:.0f}"'
        shape = f'viewBox="0 0 {self.width:.0f} {self.height:.0f}" {size} font-family="{FACE}"'
        inside = "\n".join(self.parts)
        return f'<svg xmlns="http://www.w3.org/2000/svg" {shape}>{DEFS}<rect width="100%" height="100%" fill="#fff"/>{inside}</svg>\n'

    def add(self, drawn, when=None):
        """Adds an element; `when` is the event from which it is there, where that is later than its place."""
        self.parts.append(f'<g data-from="{when}">{drawn}</g>' if when else drawn)

    def own(self, event):
        return self.ys[f"proc {event.process}"]

    def frame(self):
        for key, y in self.ys.items():
            if key.startswith("proc "):
                self.add(box(0, y - self.heights[key] / 2, self.width, self.heights[key], 0, 'fill="#f6f8fa"'))
        self.add('<g id="under"/>')
        for event in self.run.events:
            x = self.x(event.number)
            self.add(line(x, self.top - 14, x, self.bottom, RULE, 1, 'stroke-dasharray="1 4"'))
        for key, y in self.ys.items():
            for begin, end, tone in self.lives(key):
                left = LEFT - 12 if begin == 0 else self.x(begin)
                right = self.x(end) if end else self.width - 24
                self.add(line(left, y, right, y, tone, 1.6 if key.startswith("proc ") else 1.2))

    def headings(self):
        """The words above the columns, in front of all else, so that a page can keep them in sight; the corner hides those that
        pass behind the names."""
        high = self.top - 16
        parts = [box(0, 0, self.width, high, 0, 'fill="#fff" fill-opacity=".93"')]
        for event, (verb, does) in zip(self.run.events, self.labels):
            parts += self.head(event, verb, short(does, 20))
        self.add(f'<g id="heads">{"".join(parts)}</g>')
        self.add(box(0, 0, LEFT - 14, high, 0, 'id="corner" fill="#fff"'))

    def head(self, event, verb, does):
        """The words above a column."""
        x, decided = self.x(event.number), event.decided and event.decided[0]
        tone = RED if decided == "fail" else GREEN if decided else hue(event.guess) if event.guess else INK
        tone = SOFT if event.is_refused else tone
        if self.is_tight:
            turn = f'transform="rotate(-55 {x:.1f} {self.top - 20:.1f})"'
            return [text(x, self.top - 20, self.slanted(event.number), 10.5, tone, "start", turn)]
        return [text(x, self.top - 60, str(event.number), 10, SOFT),
                text(x, self.top - 43, verb, 12, tone, more=BOLD if event.guess or decided else ""),
                text(x, self.top - 26, does, 10.5, SOFT, more=MONO)]

    def lives(self, key):
        """The stretches in which a lane is there, each with its tone: a process that has ended is fainter."""
        if key.startswith(("term ", "server")):
            return [(0, None, RULE)]
        tones, found = [], []
        for state in self.run.states:
            ended = key.startswith("proc ") and key in state.entities and state.process(key[5:])[2]
            tones.append(None if key not in state.entities else RULE if ended or not key.startswith("proc ") else "#afb8c1")
        begin = 0
        for number in range(1, len(tones) + 1):
            if number == len(tones) or tones[number] != tones[begin]:
                if tones[begin]:
                    found.append((begin, number if number < len(tones) else None, tones[begin]))
                begin = number
        return found

    def names(self):
        """The names of the lanes and the legend, in front, so that a page can keep them in sight."""
        parts = [box(0, self.top - 12, LEFT - 14, self.bottom - self.top + 12, 0, 'fill="#fff" fill-opacity=".93"')]
        for key, y in self.ys.items():
            name, more = self.name_of(key)
            is_process = key.startswith("proc ")
            if is_process:
                parts.append(box(0, y - self.heights[key] / 2, LEFT - 14, self.heights[key], 0, 'fill="#f6f8fa"'))
            parts.append(text(LEFT - 22, y + (-2 if more else 4), short(name, 20), 12.5, INK, "end", BOLD if is_process else ""))
            if more:
                parts.append(text(LEFT - 22, y + 13, short(more, 20), 10, SOFT, "end", "" if is_process else MONO))
        self.add(f'<g id="names">{"".join(parts)}{self.signs}</g>')

    def bands(self):
        for key, spans in self.spans.items():
            for guess, begin, end, row in spans:
                self.band(key, guess, begin, end, row)

    def band(self, key, guess, begin, end, row):
        thick = self.thick(key)
        y = self.ys[key] + (row - self.rows[key] / 2) * thick
        left, right, high = self.x(begin), self.x(end), max(thick - 0.8, 1.2)
        title = f"<title>{html.escape(self.name_of(key)[0])} rests on guess {guess}</title>"
        shape = lambda more: box(left, y + 0.4, right - left, high, min(high / 2, 7), more)
        edge = f'stroke="{hue(guess)}" stroke-opacity=".6"' if thick > 3 else ""
        solid = ".22" if thick > 10 else ".32" if thick > 3 else ".6"
        self.add(f'<g>{title}{shape(f"""fill="{hue(guess)}" fill-opacity="{solid}" {edge}""")}</g>')
        if end and self.run.events[end - 1].decided:
            how = self.run.events[end - 1].decided[0]
            over = f'fill="url(#struck)" stroke="{RED}" stroke-opacity=".6"' if how == "fail" else 'fill="#fff" fill-opacity=".5"'
            self.add(shape(over), end)

    def kind(self, words, event):
        """The attributes of what a step drew: what was taken back shows it, from that event on."""
        return f'class="{words} struck" data-struck="{event.struck}"' if event.struck else f'class="{words}"'

    def touches(self):
        """What a step reads comes up or down to it, what it writes goes from it; a colour where a guess went along."""
        for event in self.run.events:
            for key in self.touched(event) if event.is_step else []:
                if key in self.ys:
                    self.touch(event, key)

    def touch(self, event, key):
        x, y, there = self.x(event.number), self.own(event), self.ys[key]
        before, after = self.run.states[event.number - 1:event.number + 1]
        own, wrote, sign = f"proc {event.process}", key in event.writes, 1 if there > y else -1
        into = (after.tags(own) - before.tags(own)) & before.tags(key)
        out = (after.tags(key) - before.tags(key)) & after.tags(own) if wrote else set()
        passed = into | out
        tone, head = (hue(min(passed)), f"head{(min(passed) - 1) % len(HUES)}") if passed else (GREY, "head")
        ends = f'marker-end="url(#{head})"' if wrote else ""
        starts = f'marker-start="url(#{head})"' if into or not wrote else ""
        more = f'{self.kind("touch", event)} {starts} {ends}'
        self.add(line(x, y + sign * 10, x, there - sign * 9, tone, 2.4 if passed else 1.2, more))
        if not wrote:
            self.add(dot(x, there, 3.6, f'{self.kind("mark", event)} fill="#fff" stroke="{INK}" stroke-width="1.4"'))
            return
        self.add(box(x - 5, there - 5, 10, 10, 2, f'{self.kind("mark", event)} fill="{INK}"'))
        room = self.room(event.number, key)
        if room > 3:
            value = value_in(after, key)
            drawn = text(x + 9, there - 10, short(value, room), 10, INK, "start", f'{self.kind("m value", event)} {HALO}')
            self.add(whole(drawn, value, room))

    def marks(self):
        for event in self.run.events:
            if event.process and f"proc {event.process}" in self.ys:
                self.mark(event)

    def mark(self, event):
        x, y = self.x(event.number), self.own(event)
        about = f"{event.told}: {event.answer}" + (f", {event.does}" if event.does else "")
        self.parts.append(f"<g><title>{html.escape(about)}</title>")
        if event.is_refused:
            self.add(path(f"M{x - 4:.1f} {y - 4:.1f}l8 8m0 -8l-8 8", f'stroke="{SOFT}" stroke-width="1.6"'))
            turn = f'transform="rotate(-55 {x:.1f} {y - 12:.1f})"' if self.is_tight else ""
            side = "start" if self.is_tight else "middle"
            self.add(text(x, y - 12, event.answer.split(" ")[-1], 9.5, SOFT, side, f"{turn} {HALO}"))
        elif event.guess:
            shape = f"M{x:.1f} {y - 12:.1f}l12 12l-12 12l-12 -12z"
            self.add(path(shape, f'{self.kind("guess", event)} fill="{hue(event.guess)}" stroke="#fff" stroke-width="1.5"'))
            self.add(text(x, y + 4, str(event.guess), 11, "#fff", more='font-weight="700"'))
        elif event.answer.startswith("asked"):
            self.add(dot(x, y, 7, f'fill="#fff" stroke="{INK}" stroke-width="1.8"'))
            self.add(text(x, y + 4, "?", 10, INK, more='font-weight="700"'))
        elif event.is_step:
            self.add(dot(x, y, 6, f'{self.kind("step", event)} fill="{INK}" stroke="#fff" stroke-width="1.5"'))
        self.parts.append("</g>")

    def outputs(self):
        """Each text from the step that said it: it waits in a dashed box, and is green once it is out."""
        chips = []
        for said in self.run.texts:
            event, x = said.event, self.x(said.event.number)
            y, above = self.ys[f"term {said.terminal}"], self.own(event)
            sign = 1 if y > above else -1
            head = f'{self.kind("touch", event)} marker-end="url(#head)"'
            self.add(line(x, above + sign * 10, x, y - sign * 13, GREY, 1.2, head))
            end = said.released or said.gone
            last = self.x(end) if end else self.width - 40
            room = self.chip_room(said)
            chip = lambda x, tone, more: whole(self.chip(x, y, short(said.words, room), tone, more), said.words, room)
            if said.released == event.number:
                chips.append((chip(x, INK, f'fill="#dafbe1" stroke="{GREEN}"'), None))
                continue
            self.add(line(x, y, last, y, SOFT, 1.4, 'stroke-dasharray="3 3"'))
            chips.append((chip(x, SOFT, f'fill="#fff" stroke="{SOFT}" stroke-dasharray="3 2"'), None))
            if said.released:
                count = sum(it.terminal == said.terminal and it.released == end > it.event.number for it in self.run.texts)
                words = short(said.words, room) if count == 1 else f"{count} texts"
                drawn = self.chip(last, y, words, INK, f'fill="#dafbe1" stroke="{GREEN}"')
                chips.append((whole(drawn, said.words, room), None))
            elif said.gone:
                wide = self.chip_width(short(said.words, room)) / 2 + 3
                slash = f"M{x - wide:.1f} {y + 7:.1f}L{x + wide:.1f} {y - 7:.1f}"
                chips.append((path(slash, f'stroke="{RED}" stroke-width="1.2"'), said.gone))
                cross = f"M{last - 5:.1f} {y - 5:.1f}l10 10m0 -10l-10 10"
                chips.append((path(cross, f'stroke="{RED}" stroke-width="2"'), None))
        for drawn, when in chips:
            self.add(drawn, when)

    def chip_room(self, said):
        """How many letters of a text are written: in narrow columns, as many as stand clear of the next text on its terminal."""
        if not self.is_tight:
            return 14
        places = {self.x(number) for it in self.run.texts if it.terminal == said.terminal
                  for number in (it.event.number, it.released) if number}
        x = self.x(said.event.number)
        gap = min((abs(x - it) for it in places if it != x), default=self.width)
        return max(4, min(14, int(gap / 7) - 2))

    def chip_width(self, words):
        return 7 * len(words) + 10

    def chip(self, x, y, words, tone, more):
        wide = self.chip_width(words)
        return box(x - wide / 2, y - 10, wide, 20, 4, f'{more} stroke-width="1.3"') + text(x, y + 4, words, 11, tone, more=MONO)

    def messages(self):
        """Requests go down to the server and come back as replies: what is slanted is on its way."""
        events, floor = self.run.events, self.ys["server"]
        made = [it for it in events if re.match(r"guessed|asked", it.answer)]
        served = [it for it in events if it.words[0] == "serve" and it.answer != "idle"]
        given = [it for it in events if it.words[0] == "reply" and it.answer != "idle"]
        dash, more = 'stroke-dasharray="5 3"', 'stroke-dasharray="5 3" marker-end="url(#head)"'
        for place, event in enumerate(made):
            x, y, tone = self.x(event.number), self.own(event) + 12, hue(event.guess) if event.guess else INK
            if place >= len(served):
                self.add(line(x, y, x + 26, floor - 8, tone, 1.3, dash))
                continue
            answer, there = served[place].answer, self.x(served[place].number)
            tone_back = GREEN if re.match("yes|copy", answer) else RED
            self.add(line(x, y, there, floor - 9, tone, 1.3, more))
            self.add(box(there - 7, floor - 7, 14, 14, 3, f'fill="{tone_back}"'))
            self.add(text(there, floor + 22, answer, 10, tone_back))
            if place < len(given):
                self.add(line(there, floor - 8, self.x(given[place].number), y, tone_back, 1.3, more))
        for event in events:
            if event.words[0] == "edit" and not event.is_refused:
                x = self.x(event.number)
                self.add(box(x - 5, floor - 5, 10, 10, 2, f'fill="{INK}"'))
                self.add(text(x, floor + 22, short(event.words[-1], 9 if not self.is_tight else 5), 10, INK, more=MONO))

    def decisions(self):
        for guess, made in sorted(self.run.guesses.items()):
            if made.how not in ("commit", "fail"):
                continue
            x, y, fails = self.x(made.end), self.own(made.event), made.how == "fail"
            if fails:
                band = f'fill="{RED}" fill-opacity=".07"'
                self.add(box(x - 9, self.top - 12, 18, self.bottom - self.top + 12, 9, band))
                self.put_back(made.end)
            shape = f"M{x - 4:.1f} {y - 4:.1f}l8 8m0 -8l-8 8" if fails else f"M{x - 4.5:.1f} {y + .5:.1f}l3.2 3.4l5.6 -7"
            self.add(dot(x, y, 9.5, f'fill="{RED if fails else GREEN}" stroke="#fff" stroke-width="1.5"'))
            self.add(path(shape, 'stroke="#fff" stroke-width="2" fill="none" stroke-linecap="round"'))

    def put_back(self, number):
        """Where processes are again after a failure, and the values that things have again."""
        x, (before, after) = self.x(number), self.run.states[number - 1:number + 1]
        for key, y in self.ys.items():
            if key.startswith("proc "):
                struck = [event for event in self.run.events if event.struck == number and event.process == key[5:]]
                if struck:
                    self.taken_back(x, y, number, struck)
            elif key in before.entities and before.entities[key] != after.entities.get(key):
                self.add(box(x - 5.5, y - 5.5, 11, 11, 2, f'fill="#fff" stroke="{RED}" stroke-width="1.8"'))
                value = value_in(after, key)
                room = max(3, min(16, self.room(number, key)))
                self.add(whole(text(x + 11, y - 9, short(value, room), 10, RED, "start", f"{MONO} {HALO}"), value, room))

    def taken_back(self, x, y, number, struck):
        back, deep = self.x(struck[0].number), y + 27
        curve = (f"M{x:.1f} {y + 10:.1f}C{x - 2:.1f} {deep + 2:.1f} {x - 8:.1f} {deep:.1f} {x - 20:.1f} {deep:.1f}"
                 f"L{back + 18:.1f} {deep:.1f}C{back + 6:.1f} {deep:.1f} {back:.1f} {deep - 2:.1f} {back:.1f} {y + 15:.1f}")
        self.add(path(curve, f'fill="none" stroke="{RED}" stroke-width="1.6" marker-end="url(#back)"'), number)
        words = f"{len(struck)} step{'s' * (len(struck) > 1)} taken back"
        if x - back < 7 * len(words):
            words = f"{len(struck)} back"
        wide, middle = 5.4 * len(words) + 8, (x + back) / 2
        clear = box(middle - wide / 2, deep - 6, wide, 12, 0, 'fill="#f6f8fa"')
        self.add(clear + text(middle, deep + 3, words, 9.5, RED), number)

    def legend(self, y):
        """What the signs mean; only those that the picture has, which is at least as wide as they are."""
        run, x = self.run, LEFT - 8
        has_guess, has_fail = bool(run.guesses), any(it.struck for it in run.events)
        waits = any(it.released != it.event.number for it in run.texts)
        pill = lambda x, more: box(x - 14, y - 9, 28, 11, 5.5, more)
        chip = lambda x, more: box(x - 11, y - 12, 22, 15, 4, more)
        items = [
            (True, lambda x: dot(x, y - 4, 5, f'fill="{INK}"'), "step"),
            (has_guess, lambda x: path(f"M{x} {y - 12}l8 8l-8 8l-8 -8z", f'fill="{HUES[0]}"'), "guess"),
            (has_guess, lambda x: pill(x, f'fill="#d5e2f8" stroke="{HUES[0]}" stroke-opacity=".6"'), "rests on it"),
            (has_fail, lambda x: pill(x, f'fill="url(#struck)" stroke="{RED}" stroke-opacity=".6"'), "taken back"),
            (True, lambda x: box(x - 5, y - 9, 10, 10, 2, f'fill="{INK}"'), "writes"),
            (True, lambda x: dot(x, y - 4, 3.8, f'fill="#fff" stroke="{INK}" stroke-width="1.4"'), "reads"),
            (waits, lambda x: chip(x, f'fill="#fff" stroke="{SOFT}" stroke-dasharray="3 2"'), "output waits"),
            (run.texts, lambda x: chip(x, f'fill="#dafbe1" stroke="{GREEN}"'), "released"),
            (run.scenario.is_world, lambda x: line(x - 12, y - 8, x + 12, y, INK, 1.2, 'stroke-dasharray="5 3"'), "on its way"),
            (any(it.is_refused for it in run.events),
             lambda x: path(f"M{x - 4} {y - 8}l8 8m0 -8l-8 8", f'stroke="{SOFT}" stroke-width="1.6"'), "refused"),
        ]
        drawn = ""
        for is_there, draw, words in items:
            if is_there:
                drawn += draw(x) + text(x + 20, y, words, 10.5, SOFT, "start")
                x += 46 + 6.2 * len(words)
        self.width = max(self.width, x)
        return drawn


def marker(name, fill, size):
    shape = f'viewBox="0 0 8 8" refX="6" refY="4" markerWidth="{size}" markerHeight="{size}"'
    how = 'markerUnits="userSpaceOnUse" orient="auto-start-reverse"'
    return f'<marker id="{name}" {shape} {how}><path d="M0 0L8 4L0 8z" fill="{fill}"/></marker>'


HEADS = "".join(marker(f"head{at}", tone, 9) for at, tone in enumerate(HUES))
DEFS = f"""<defs><pattern id="struck" width="6" height="6" patternUnits="userSpaceOnUse" patternTransform="rotate(45)">
<rect width="6" height="6" fill="#fff" fill-opacity=".55"/><rect width="2.2" height="6" fill="{RED}" fill-opacity=".55"/></pattern>
{marker("head", SOFT, 8)}{marker("back", RED, 9)}{HEADS}</defs>
<style>.m{{font-family:"JetBrains Mono","DejaVu Sans Mono",Menlo,Consolas,monospace}}
.struck.step,.struck.guess{{fill:#fff;stroke:{RED};stroke-width:2}}.struck.guess+text{{fill:{RED}}}
.struck.touch{{stroke-dasharray:3 3;opacity:.55}}.struck.mark{{fill:#fff;stroke:{RED};stroke-width:1.6}}
text.struck.value{{fill:{RED};stroke:none;text-decoration:line-through}}</style>
"""


def page(picture, drawn, title):
    """The page that replays a run: the drawing, and the states between which its slider moves."""
    run = picture.run
    keys = [key for key in picture.ys if not key.startswith(("term ", "server"))]
    keys += sorted({key for state in run.states for key in state.entities} - set(keys))
    name = lambda key: f"server's {key[7:]}" if key.startswith("remote ") else picture.name_of(key)[0]
    model = {
        "states": [{"entities": state.entities, "terminals": state.terminals} for state in run.states],
        "events": [event.told for event in run.events], "answers": [event.answer for event in run.events],
        "fails": [bool(event.decided and event.decided[0] == "fail") for event in run.events],
        "guesses": [bool(event.guess) for event in run.events],
        "columns": [[0, 0]] + [[x, width] for x, width in zip(picture.xs, picture.widths)],
        "hues": HUES, "left": LEFT, "width": picture.width, "height": picture.height,
        "bottom": picture.bottom, "top": picture.top,
        "slant": 0.7 * (picture.top - 16) if picture.is_tight else 0,
        "names": [[key, name(key)] for key in keys],
    }
    with open(os.path.join(HERE, "picture.html"), encoding="utf-8") as file:
        whole = file.read()
    parts = {"TITLE": html.escape(title), "ABOUT": html.escape(run.scenario.about), "SVG": drawn,
             "MODEL": json.dumps(model).replace("<", "\\u003c")}
    return re.sub("@([A-Z]+)@", lambda found: parts[found[1]], whole)


def write(program, scenario, to_page, to_svg):
    """Draws a scenario to the files that are named."""
    with open(scenario, encoding="utf-8", errors="surrogateescape") as file:
        picture = Picture(told.Run(program, file.read()))
    drawn = picture.draw()
    title = re.sub(r"\.scenario$", "", os.path.basename(scenario)).replace("_", " ")
    for name, words in ((to_svg, drawn), (to_page, page(picture, drawn, title))):
        if name:
            with open(name, "w", encoding="utf-8", errors="replace") as file:
                file.write(words)


def main():
    words = argparse.ArgumentParser(description=__doc__, formatter_class=argparse.RawDescriptionHelpFormatter)
    words.add_argument("scenario")
    words.add_argument("--program")
    words.add_argument("--html")
    words.add_argument("--svg")
    given = words.parse_args()
    if traced.is_trace(given.scenario):
        return traced.write(given.scenario, given.svg or os.path.basename(given.scenario) + ".svg")
    if not given.html and not given.svg:
        given.html = re.sub(r"\.scenario$", "", os.path.basename(given.scenario)) + ".html"
    try:
        write(given.program or told.program(), given.scenario, given.html, given.svg)
    except (told.Fault, OSError) as fault:
        # the program was given the text, and tells its place by no file's name
        told_by_name = re.sub(r"^-(?=:\d)", lambda _: given.scenario, str(fault), flags=re.M)
        sys.exit(f"{given.scenario}: {told_by_name}")


if __name__ == "__main__":
    main()
