#!/usr/bin/env python3
"""Draws the crates by layer, with their sizes and what stands on what: docs/pictures/layers.svg, of crates.txt and of the table in
docs/ARCHITECTURE.md that names the layers.

    tools/layers.py            the picture
    tools/layers.py --write    puts it there
    tools/layers.py --check    whether it stands there, and whether each crate has its row; the last line is 'N passed, M failed'

A box is about as wide as the root of the lines of its crate (code, definitions and proofs, in half thousands). A line goes from a layer to
each one that its crates name, as thick as the root of how many edges these are.
"""
import math
import re
import sys
sys.dont_write_bytecode = True
from sources import ROOT

PAGE, PICTURE = ROOT / "docs/ARCHITECTURE.md", ROOT / "docs/pictures/layers.svg"
WIDTH, LEFT, BAND, BOX = 1000, 150, 58, 30
HUES = ("#dbe7ff", "#d7f0ea", "#fde8d0", "#eadcf8", "#f9dbe3", "#e3efcf", "#f2ecc9")


def edges():
    """The crates of crates.txt, each with those of its own that it names."""
    rows = {}
    for line in (ROOT / "crates.txt").read_text().split("\n"):
        head, _, rest = line.partition(":")
        if head.strip():
            rows[head.split()[0]] = rest.split()
    return {name: [it for it in names if it in rows] for name, names in rows.items()}


def layers():
    """The layers with their crates, from the table of the page, the lowest first."""
    found, layer = {}, ""
    for row in re.findall(r"^\|([^|]*)\| ((?:`\w+`(?:, )?)+) \| ", PAGE.read_text(), re.M):
        layer = row[0].strip() or layer
        found.setdefault(layer, []).extend(re.findall(r"`(\w+)`", row[1]))
    return found


def halves(crate):
    """The size of a crate, in half thousands of lines that are not blank."""
    files = (it for folder in ("src", "specs", "proofs") for it in (ROOT / "crates" / crate / folder).rglob("*"))
    lines = sum(bool(line.strip()) for it in files if it.suffix in (".rt", ".antt") for line in it.read_text().split("\n"))
    return max(1, round(lines / 500))


def scale(found):
    """How wide a box of one half thousand is, so that the fullest layer has room."""
    return min((WIDTH - LEFT - 4 * len(crates)) / sum(math.sqrt(halves(it)) + 1 for it in crates) for crates in found.values())


def boxes(crates, y, hue, room):
    """The boxes of a layer, in one row."""
    x, out = LEFT, []
    for name in crates:
        size = halves(name)
        wide = room * (math.sqrt(size) + 1)
        label = name.removeprefix("sk_")
        font = min(11, 1.5 * wide / len(label))
        out.append(f'<rect x="{x:.0f}" y="{y}" width="{wide:.0f}" height="{BOX}" rx="4" fill="{hue}" stroke="#8a8f98"><title>{name}: '
                   f'{size / 2:g} thousand lines</title></rect><text x="{x + wide / 2:.0f}" y="{y + 19}" font-size="{font:.1f}" '
                   f'text-anchor="middle">{label}</text>')
        x += wide + 4
    return out


def picture():
    found, named = layers(), edges()
    order = list(found)
    place = {name: at for at, layer in enumerate(order) for name in found[layer]}
    y = {at: 30 + (len(order) - 1 - at) * BAND for at in range(len(order))}
    counts = {}
    for name, below in named.items():
        for it in below:
            if name in place and it in place and place[it] != place[name]:
                counts[place[name], place[it]] = counts.get((place[name], place[it]), 0) + 1
    out = []
    for (upper, lower), count in sorted(counts.items()):
        x = LEFT - 12 - 9 * (abs(upper - lower) - 1)
        up, down = y[upper] + BOX / 2, y[lower] + BOX / 2
        out.append(f'<path d="M{LEFT - 4} {up:.0f}C{x} {up:.0f} {x} {down:.0f} {LEFT - 4} {down:.0f}" fill="none" stroke="#9aa3ad" '
                   f'stroke-width="{math.sqrt(count) / 2:.1f}" opacity="0.6"><title>{order[upper]} on {order[lower]}: {count}</title></path>')
    for at, layer in enumerate(order):
        out.append(f'<text x="4" y="{y[at] + 19}" font-size="12" font-weight="600">{layer}</text>')
        out += boxes(found[layer], y[at], HUES[at % len(HUES)], scale(found))
    high = 30 + len(order) * BAND
    return (f'<svg xmlns="http://www.w3.org/2000/svg" viewBox="0 0 {WIDTH} {high}" width="{WIDTH}" height="{high}" '
            f'font-family="Inter, Helvetica, Arial, DejaVu Sans, sans-serif" fill="#1f2328"><rect width="100%" height="100%" fill="#fff"/>\n'
            + "\n".join(out) + "\n</svg>\n")


def faults():
    rows = {it for crates in layers().values() for it in crates}
    yield from (f"{it} has no row in docs/ARCHITECTURE.md" for it in edges() if it not in rows)
    if not PICTURE.exists() or PICTURE.read_text() != picture():
        yield "docs/pictures/layers.svg is not what `tools/layers.py --write` draws"


def main():
    if sys.argv[1:] == ["--write"]:
        PICTURE.write_text(picture())
    elif sys.argv[1:] == ["--check"]:
        found = list(faults())
        print("\n".join(found))
        print(f"{int(not found)} passed, {len(found)} failed")
        return int(bool(found))
    else:
        print(picture(), end="")
    return 0


if __name__ == "__main__":
    sys.exit(main())
