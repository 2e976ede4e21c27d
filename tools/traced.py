"""Draws what `hidewillow-run --trace FILE` wrote: processes as lanes, epochs with what was guessed and waited for, what of the output
was held, and what a refusal took back. `tools/picture.py FILE` does it, where FILE is such a trace."""
import json

import picture

WIDTH, LEFT, ROW, TOP, MOST = 1080, 128, 19, 34, 44


def read(name):
    with open(name, encoding="utf-8") as lines:
        return [json.loads(it) for it in lines if it.strip()]


def is_trace(name):
    with open(name, encoding="utf-8", errors="replace") as lines:
        return lines.readline().startswith('{"at":')


class Run:
    """The lives of processes, the epochs, and the output, each with its moments."""

    def __init__(self, events):
        self.events, self.end = events, max((it["at"] for it in events), default=1) or 1
        self.lives, self.names, self.order, self.open = [], {}, [], {}
        self.epochs, self.back, self.held, self.waits = {}, [], [], []
        first = next((it["of"] for it in events if it["what"] == "birth"), None)
        if first is not None:
            self.begins(first, 0)
        for it in events:
            getattr(self, "on_" + it["what"].replace(" ", "_"), lambda _: None)(it)
        for process in list(self.open):
            self.ends(process, self.end)

    def begins(self, process, at):
        if process not in self.order:
            self.order.append(process)
        self.open[process] = at

    def ends(self, process, at):
        if process in self.open:
            self.lives.append((process, self.open.pop(process), at))

    def on_birth(self, it):
        if not it["thread"]:
            self.begins(it["process"], it["at"])

    def on_program(self, it):
        self.names[it["process"]] = it["name"]

    def on_end(self, it):
        self.ends(it["process"], it["at"])

    def on_restored(self, it):
        self.begins(it["process"], it["at"])

    def on_epoch(self, it):
        self.epochs[it["number"]] = {"born": it["at"], "steps": 0}

    def on_asked(self, it):
        self.epochs.setdefault(it["number"], {"born": it["at"]}).update(asked=it["at"], steps=it["steps"])

    def on_accepted(self, it):
        self.epochs.setdefault(it["number"], {"born": it["at"], "steps": 0})["done"] = it["at"]

    def on_refused(self, it):
        of = self.epochs.setdefault(it["number"], {"born": it["at"], "steps": 0})
        self.back.append((of["born"], it["at"]))
        for other in self.epochs.values():
            if "done" not in other:
                other.update(done=it["at"], undone=True)
        for process in list(self.open):
            self.ends(process, it["at"])

    def on_said(self, it):
        self.held.append((it["at"], "said"))

    def on_shown(self, it):
        self.held.append((it["at"], "shown"))

    def on_waits(self, it):
        self.waits.append(it["at"])


class Drawing:
    def __init__(self, run):
        self.run, self.parts = run, []
        self.lanes = {process: TOP + ROW * (at + 6) for at, process in enumerate(run.order[:MOST])}
        self.height = TOP + ROW * (len(self.lanes) + 7)

    def x(self, at):
        return LEFT + (WIDTH - LEFT - 20) * at / self.run.end

    def add(self, *parts):
        self.parts += parts

    def bar(self, begin, end, y, height, fill, more=""):
        width = max(self.x(end) - self.x(begin), 1.2)
        self.add(picture.box(self.x(begin), y, width, height, 2, f'fill="{fill}" {more}'))

    def label(self, words, y):
        self.add(picture.text(LEFT - 10, y, picture.short(words, 17), anchor="end"))

    def scale(self):
        for at in range(6):
            ms = self.run.end * at / 5
            self.add(picture.line(self.x(ms), TOP - 8, self.x(ms), self.height - 12, picture.RULE, 0.8),
                     picture.text(self.x(ms), TOP - 14, f"{ms:.0f} ms", 10, picture.SOFT))

    def undone(self):
        for born, at in self.run.back:
            self.bar(born, at, TOP - 4, self.height - TOP - 8, picture.RED, 'fill-opacity="0.07"')
            y = self.height - 14
            self.add(picture.line(self.x(at), TOP - 4, self.x(at), y, picture.RED, 1.2),
                     picture.line(self.x(born), y, self.x(at), y, picture.RED, 1.2),
                     picture.path(f"M{self.x(born):.1f},{y} l6,-4 v8 z", f'fill="{picture.RED}"'),
                     picture.text(self.x(at) + 6, y + 3, "refused: all goes back", 10, picture.RED, "start"))

    def epochs(self):
        self.label("epochs", TOP + 2.2 * ROW)
        for at, (number, it) in enumerate(sorted(self.run.epochs.items())):
            y, colour = TOP + ROW * (0.3 + at % 4 * 0.8), picture.RED if it.get("undone") else picture.hue(at + 1)
            asked, done = it.get("asked", self.run.end), it.get("done", self.run.end)
            self.bar(it["born"], asked, y, 11, colour)
            self.bar(asked, done, y, 11, colour, 'fill-opacity="0.28"')
            if self.x(done) - self.x(it["born"]) > 24:
                self.add(picture.text(self.x(done) - 3, y + 9, f"{it['steps']}", 8.5, picture.INK, "end"))

    def output(self):
        y = TOP + ROW * 4.3
        self.label("output held", y + 9)
        since = None
        for at, what in self.run.held:
            if what == "said" and since is None:
                since = at
            elif what == "shown" and since is not None:
                self.bar(since, at, y, 10, picture.GREY)
                self.add(picture.dot(self.x(at), y + 5, 3, f'fill="{picture.GREEN}"'))
                since = None
        for at in self.run.waits:
            self.add(picture.line(self.x(at), y - 2, self.x(at), y + 12, picture.RED, 1))

    def processes(self):
        for process, y in self.lanes.items():
            self.label(f"{self.run.names.get(process, '')} {process}".strip(), y + 10)
        for process, begin, end in self.run.lives:
            if process in self.lanes:
                self.bar(begin, end, self.lanes[process], 12, picture.INK, 'fill-opacity="0.62"')

    def svg(self):
        for part in (self.scale, self.undone, self.epochs, self.output, self.processes):
            part()
        words = "solid: guessed; light: asked, with its looks and changes; grey: output held until it is shown (green)"
        self.add(picture.text(LEFT, self.height + 4, words, 10, picture.SOFT, "start"))
        head = (f'<svg xmlns="http://www.w3.org/2000/svg" viewBox="0 0 {WIDTH} {self.height + 12:.0f}" '
                f'font-family="{picture.FACE}">')
        back = f'<rect width="{WIDTH}" height="{self.height + 12:.0f}" fill="#fff"/>'
        return "\n".join([head, back, *self.parts, "</svg>", ""])


def write(name, svg):
    """Draws a trace; `svg` is where."""
    with open(svg, "w", encoding="utf-8") as out:
        out.write(Drawing(Run(read(name))).svg())
