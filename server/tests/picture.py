#!/usr/bin/env python3
"""Draws the ratios that docs/STORE.md has of measure.py: commands a second beside the other server's, over connections, a panel for each
number of milliseconds that were added to a sync.

    tests/picture.py [--check]

Writes docs/pictures/store.svg. With --check it compares that with what it would write, and ends with a line of numbers.
"""
import math
import pathlib
import re
import sys

TOP = pathlib.Path(__file__).resolve().parent.parent.parent
PAGE, DRAWN = TOP / "docs/STORE.md", TOP / "docs/pictures/store.svg"
HUES = {"0": "#c76a00", "50": "#8250df", "90": "#2f6fde"}
PANEL, GAP, LEFT, HIGH, LOW = 210, 34, 56, 64, 330
LEAST, MOST = 0.25, 64


def tables(page):
    """For each number of milliseconds the connections, and for each part of reads the ratios at a pipeline of 1."""
    found = {}
    for added, table in re.findall(r"^(\d+) ms added to a sync\n\n((?:\|.*\n)+)", page, re.M):
        head, _, *rows = ([it.strip() for it in line.strip("|").split("|")] for line in table.strip().splitlines())
        lines = {row[0].split(" %")[0]: [float(it) for it in row[1:]] for row in rows if row[0].endswith(", 1")}
        found[int(added)] = [it.split()[0] for it in head[1:]], lines
    return found


def words(x, y, told, more=""):
    return f'<text x="{x:.1f}" y="{y:.1f}" font-size="12" fill="#1f2328" {more}>{told}</text>'


def height(ratio):
    """Where a ratio stands, by powers of two."""
    return LOW - (LOW - HIGH) * math.log(max(ratio, LEAST) / LEAST) / math.log(MOST / LEAST)


def panel(left, added, connections, lines):
    """One panel."""
    places = [left + 16 + (PANEL - 32) * at / (len(connections) - 1) for at in range(len(connections))]
    drawn = [words(left + PANEL / 2, HIGH - 12, f"{added} ms added to each sync" if added else "syncs of the disk as it is", 'text-anchor="middle"')]
    ratio = LEAST
    while ratio <= MOST:
        drawn.append(f'<path d="M{left} {height(ratio):.1f}H{left + PANEL}" stroke="{"#57606a" if ratio == 1 else "#d8dee4"}"/>')
        ratio *= 2
    drawn += [words(x, LOW + 18, it, 'text-anchor="middle"') for x, it in zip(places, connections)]
    for reads, ratios in lines.items():
        points = [(x, height(it)) for x, it in zip(places, ratios)]
        shape = "L".join(f"{x:.1f} {y:.1f}" for x, y in points)
        drawn.append(f'<path d="M{shape}" fill="none" stroke="{HUES[reads]}" stroke-width="2.2"/>')
        drawn += [f'<circle cx="{x:.1f}" cy="{y:.1f}" r="3.5" fill="{HUES[reads]}"/>' for x, y in points]
    return drawn


def picture(found):
    """The whole picture."""
    width = LEFT + len(found) * (PANEL + GAP)
    drawn = [words(LEFT, 22, "commands a second, by those of redis-server with appendfsync always",
                   'font-weight="600"')]
    ratio = LEAST
    while ratio <= MOST:
        drawn.append(words(LEFT - 8, height(ratio) + 4, f"{ratio:g}", 'text-anchor="end"'))
        ratio *= 2
    for at, (added, (connections, lines)) in enumerate(found.items()):
        drawn += panel(LEFT + at * (PANEL + GAP), added, connections, lines)
    drawn.append(words(LEFT, LOW + 42, "connections, each with one command under way;"))
    for at, (reads, hue) in enumerate(HUES.items()):
        drawn.append(words(LEFT + 310 + at * 100, LOW + 42, f"{reads} % reads", f'style="fill:{hue}" font-weight="600"'))
    face = 'font-family="Inter, Helvetica, Arial, DejaVu Sans, sans-serif"'
    size = f'viewBox="0 0 {width} {LOW + 60}" width="{width}" height="{LOW + 60}"'
    inside = "\n".join(drawn)
    return f'<svg xmlns="http://www.w3.org/2000/svg" {size} {face}><rect width="100%" height="100%" fill="#fff"/>{inside}</svg>\n'


def main():
    wanted = picture(tables(PAGE.read_text(encoding="utf-8")))
    if sys.argv[1:] != ["--check"]:
        DRAWN.write_text(wanted, encoding="utf-8")
        return 0
    is_well = DRAWN.exists() and DRAWN.read_text(encoding="utf-8") == wanted
    print(f"picture of the store: {int(is_well)} passed, {int(not is_well)} failed")
    return 0 if is_well else 1


if __name__ == "__main__":
    sys.exit(main())
