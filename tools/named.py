#!/usr/bin/env python3
"""Tells what pages name and the sources don't have.

    tools/named.py

Of a crate's README:
- the definitions in its table;
- how many laws there are ('Six laws'): as many as the crate's src/laws.rt has public functions. Where the paragraph that says so
  names some of them in brackets, it names all of them, and no others.
Of each page, a README held against its own crate and a page of docs/ against all:
- a law (`laws::struck`), and the clauses behind it (`laws::later`, `flags` and `chains`);
- a clause (its clauses `unfit` and `err`; a clause of each (`exact`)): the name of an `ensures` or a `requires`.

The last line is 'N passed, M failed', a page each.
"""
import functools
import re
import sys
sys.dont_write_bytecode = True
from sources import ROOT, crates

ROW = re.compile(r"^\| (`.*?) \| `[^|]*\.(?:antt|rt)`[^|]* \|", re.M)
NUMBERS = ["no", "one", "two", "three", "four", "five", "six", "seven", "eight", "nine", "ten", "eleven", "twelve"]
COUNT = re.compile(rf"\b(\d+|{'|'.join(NUMBERS[1:])}) laws?\b", re.I)
IN_BRACKETS = re.compile(r"\(`([a-z]\w*)`\)")
ROW_OF_NAMES = r"(?:(?:, | and | or | )`[a-z]\w*`)+"
LAW = re.compile(rf"`(?:(sk_\w+)::)?laws::(\w+)`({ROW_OF_NAMES})?")
CLAUSE = re.compile(rf"\bclauses?({ROW_OF_NAMES}| of \w+ \(`[a-z]\w*`\))")
FUNCTION = re.compile(r"^pub fn (\w+)(.*?)^\{", re.M | re.S)
CLAUSE_NAME = re.compile(r"\b(?:ensures|requires)\*? (\w+) \{")
NAME = re.compile(r"`(\w+)`")


@functools.cache
def text_of(crate, pattern):
    """The files of a crate that match, one behind the other."""
    return "\n".join(it.read_text() for it in sorted((ROOT / "crates" / crate).glob(pattern)))


@functools.cache
def laws_of(crate):
    """The public functions of a crate's laws, each with the names of its clauses."""
    return {name: CLAUSE_NAME.findall(head) for name, head in FUNCTION.findall(text_of(crate, "src/laws.rt"))}


def clauses_of(crate):
    return set(CLAUSE_NAME.findall(text_of(crate, "src/**/*.rt")))


def unknown_words(crate, page):
    """The words of a crate's table of definitions that stand nowhere in its definitions or its code."""
    words = set(re.findall(r"\w+", text_of(crate, "specs/**/*.antt") + text_of(crate, "src/**/*.rt")))
    for row in ROW.findall(page):
        yield from (f"the definition {name}" for name in NAME.findall(row) if name not in words)


def wrong_counts(crate, page):
    """The counts of laws that are not the crate's, and names beside a count that are not just its laws."""
    laws = laws_of(crate)
    for paragraph in page.split("\n\n"):
        for count in COUNT.findall(paragraph):
            number = int(count) if count.isdigit() else NUMBERS.index(count.lower())
            if number != len(laws):
                yield f"{count} laws, of which there are {len(laws)}"
            named = set(IN_BRACKETS.findall(paragraph))
            if named and named != set(laws):
                yield f"other laws than there are: {', '.join(sorted(named ^ set(laws)))}"


def unknown_laws(own, page):
    """The laws that no crate has that may be meant, and the clauses behind a law that it does not have."""
    for crate, law, behind in LAW.findall(page):
        meant = [crate] if crate else [it for it in own if laws_of(it)] or crates()
        found = [laws_of(it)[law] for it in meant if law in laws_of(it)]
        if not found:
            yield f"the law {law}"
        yield from (f"the clause {name} of {law}" for name in NAME.findall(behind) if found and not any(name in it for it in found))


def unknown_clauses(own, page):
    """The clauses that no function of these crates has."""
    known = set().union(*map(clauses_of, own))
    for row in CLAUSE.findall(page):
        yield from (f"the clause {name}" for name in NAME.findall(row) if name not in known)


def faults(path):
    """What a page names and the sources don't have."""
    page = path.read_text()
    is_readme = path.name == "README.md"
    own = [path.parent.name] if is_readme else crates()
    if is_readme:
        yield from unknown_words(own[0], page)
        yield from wrong_counts(own[0], page)
    yield from unknown_laws(own, page)
    yield from unknown_clauses(own, page)


def main():
    failed = 0
    pages = [*sorted(ROOT.glob("crates/*/README.md")), *sorted(ROOT.glob("docs/*.md"))]
    for path in pages:
        found = list(faults(path))
        if found:
            failed += 1
            print(f"{path.relative_to(ROOT)} names what is not there: {'; '.join(found)}")
    print(f"{len(pages) - failed} passed, {failed} failed")
    return int(failed > 0)


sys.exit(main())
