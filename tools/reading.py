#!/usr/bin/env python3
"""Prints what a reader of the headline has to believe: the definitions that the public clauses of `Kernel` reach.

    tools/reading.py            the list with the names of all definitions
    tools/reading.py --write    puts it into docs/HEADLINE.md, of the table of instructions lines alone

The heart comes first, then the kernel, then all that the plain kernel does at a step. In each part a file comes behind
those that it cites. Lengths are lines, with the comments above a definition; types of the code are listed with their file.
"""
import re
import sys
from itertools import groupby
sys.dont_write_bytecode = True
from sources import Index, ROOT, crates, depth, imports_of, words_of

PAGE = ROOT / "docs/HEADLINE.md"
BEGIN, END = "<!-- tools/reading.py writes from here -->", "<!-- to here -->"
CALLS = [ROOT / "crates/sk_kernel/src" / name for name in ("kernel.rt", "hand_in.rt")]
BELIEVE_HEAD = """# What there is to believe

The definitions that the clauses of the public calls of `Kernel` come to, each behind those that it
cites, and last those clauses. Who has read this page has read what [HEADLINE](HEADLINE.md) says of the kernel, but for the table of
instructions, whose files HEADLINE lists. The rest is proof, which the prover has read.
"""
PARTS = (("The heart: dependence, striking, traces, statuses, what is released", ["sk_record"]),
         ("The kernel and its calls", ["sk_kernel", "sk_terminal", "sk_machine", "sk_guesses"]),
         ("The table: what a step does, and what entities have", None))


def clauses(text):
    """The lines of the clauses of the public functions of `Kernel` in one of its files."""
    body = text[text.index("\nimpl Kernel {"):]
    found, is_public, is_clause = [], False, False
    for line in body[:body.index("\n}\n")].split("\n"):
        if re.match(r"    (pub )?fn ", line):
            is_public = "pub fn" in line
        is_clause = line.strip() != "{" and (is_clause or re.match(r"\s+(ensures|requires)", line) is not None)
        if is_public and is_clause:
            found.append(line)
    return found


def signatures(text):
    """The public functions of `Kernel` in one of its files, with their documentation and clauses, without bodies."""
    found, comment, is_head = [], [], False
    body = text[text.index("\nimpl Kernel {"):]
    for line in body[:body.index("\n}\n")].split("\n"):
        if line.startswith("    pub fn ") or line.startswith("    pub const fn "):
            found, is_head = found + comment, True
        if is_head and line.strip() == "{":
            found, is_head = found + [""], False
        elif is_head:
            found.append(line[4:])
        comment = comment + [line[4:]] if line.startswith("    ///") else []
    return found


def reached(index):
    """The definitions that the clauses reach, in the order in which they are met."""
    words = []
    for text in (file.read_text() for file in CALLS):
        words += words_of(clauses(text), imports_of(text.split("\n")))
    words.append(("sk_kernel.specs.Kernel", "KernelView"))
    found, waiting = [], [index.find(module or "sk_kernel.specs.Kernel", name) for module, name in words if module or name[0].isupper()]
    while waiting:
        it = waiting.pop(0)
        if it and it not in found:
            found.append(it)
            waiting += index.cited(it)
    return found


def place_of(file):
    """Where a file stands: its crate's place in crates.txt, then its own in the crate's list of modules, code behind."""
    crate = file.relative_to(ROOT / "crates").parts[0]
    lib = ROOT / "crates" / crate / "specs/Lib.antt"
    modules = re.findall(r"^pub mod (\w+)", lib.read_text(), re.M) if lib.exists() else []
    place = modules.index(file.stem) if file.suffix == ".antt" and file.stem in modules else len(modules)
    return crates().index(crate), place, str(file)


def files_in_order(found, index):
    """The files, each behind those that it cites, with their definitions."""
    files = {}
    for it in sorted(found, key=lambda it: (place_of(it.file), it.first)):
        files.setdefault(it.file, []).append(it)
    out = {}

    def visit(file, above):
        for it in files[file]:
            for other in index.cited(it):
                if other.file in files and other.file not in out and other.file not in above:
                    visit(other.file, above | {file})
        out.setdefault(file, files[file])

    for file in files:
        visit(file, {file})
    return out


def row(file, its):
    names = ", ".join(f"`{it.name}`" for it in its)
    return f"| `{file.relative_to(ROOT / 'crates')}` | {sum(it.length for it in its)} | {names} |"


def text_of(it):
    """A definition or a type as its file has it, with the comment above it, moved to the left."""
    lines = it.file.read_text().split("\n")
    first, last = it.first, it.first + it.length
    while first > 0 and re.match(r"\s*(--|///|#\[)", lines[first - 1]):
        first, last = first - 1, last - 1
    margin = min(depth(line) for line in lines[first:last] if line.strip())
    return [line[margin:] for line in lines[first:last]]


def believe(found, index):
    """The page that has the text of the heart and of the kernel, in the order in which it is read."""
    lines = BELIEVE_HEAD.split("\n")
    for title, names in PARTS[:2]:
        lines += [f"## {title}", ""]
        for file, its in files_in_order([it for it in found if it.crate in names], index).items():
            place = file.relative_to(ROOT)
            lines += [f"[`{place.relative_to('crates')}`](../{place})", "", "```"]
            for it in its:
                lines += text_of(it) + [""]
            lines[-1:] = ["```", ""]
    lines += ["## The calls", "", "What each call of `Kernel` ensures, in these words:", "", "```"]
    for file in CALLS:
        lines += signatures(file.read_text())
    lines[-1:] = ["```", ""]
    return "\n".join(lines)


def by_crate(files):
    """How many lines of each crate are among these, in the order in which they are read."""
    told = ((crate, [sum(it.length for it in held) for _, held in its]) for crate, its in groupby(files.items(), key=lambda it: it[1][0].crate))
    return ", ".join(f"{sum(lengths)} of `{crate}` in {len(lengths)} files" for crate, lengths in told) + "."


def page(found, index, is_whole):
    """The list: all names of definitions, or, as on the page, lines alone of the table of instructions, which is skimmed."""
    named = [it for _, names in PARTS for it in names or []]
    lines = [BEGIN, ""]
    total = sum(it.length for it in found)
    lines += [f"In all {len(found)} definitions and types, {total} lines, in {len({it.file for it in found})} files.", ""]
    for title, names in PARTS:
        its = [it for it in found if (it.crate in names if names else it.crate not in named)]
        lines += [f"**{title}** ({len(its)}, {sum(it.length for it in its)} lines).", ""]
        files = files_in_order(its, index)
        if names or is_whole:
            lines += ["| file | lines | definitions |", "|---|---|---|"] + [row(*it) for it in files.items()] + [""]
        else:
            lines += [by_crate(files), ""]
    return "\n".join(lines + [END])


def with_list(found, index):
    """The text of docs/HEADLINE.md with the list in its place."""
    head, rest = PAGE.read_text().split(BEGIN)
    return head + page(found, index, False) + rest.split(END)[1]


def faults(found, index):
    """Whether the list stands there."""
    if PAGE.read_text() != with_list(found, index):
        yield "docs/HEADLINE.md is not what `tools/reading.py --write` makes of it"


def main():
    index = Index()
    found = reached(index)
    if sys.argv[1:] == ["--write"]:
        PAGE.write_text(with_list(found, index))
    else:
        print(page(found, index, True))


if __name__ == "__main__":
    main()
