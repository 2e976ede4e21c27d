#!/usr/bin/env python3
"""Holds the table of what grows, `checks/growths.table`, against the sources.

    tools/growths.py            tells what is missing from the table, and what stands there that is not in the sources
    tools/growths.py --calls    prints the public calls that can answer want of memory, by crate

The contracts allow want of memory wherever something grows, so a body that gives up at a number is proved; that none does where no
memory was refused can only be tried. With ample memory whatever can grow is grown past 70,000, and no answer is want of memory.
What has a limit below that goes to it, many times over; what takes the square of its number is grown to 9,001, and guesses over
own keys that rest on each other to 1,500.

A call is a public function of a library whose result can be want of memory: an `AllocError`, or an error or an answer that has it
among its cases, at any depth. Each has a row, which names what grows past 70,000 through it: rows of `checks/growths`, tests of the
crates of tests and of the Rust crate, scenarios of `checks/long-runs` and runs of `checks/own-runs` and `checks/store-runs`, each by its name in backquotes, or the word `none` and the
reason. The last line is 'N passed, M failed', a row each.
"""
import re
import sys
sys.dont_write_bytecode = True
from kit import listed
from sources import ROOT, crates

PAGE = "checks/growths.table"
TYPE = re.compile(r"^(?:pub(?:\(crate\))? )?(?:enum|struct) (\w+)[^;{]*?\{(.*?)^\}", re.M | re.S)
FUNCTION = re.compile(r"^( *)pub (?:const )?fn (\w+)(.*?)(?:\{$|^ *(?:requires|ensures|decreases)\b)", re.M | re.S)
IMPL = re.compile(r"^impl(?:<[^\n]*?>)? (\w+)(?:<[^\n]*?>)?(?: |$)", re.M)
# What keeps answers, and is none.
KEPT = {"History", "HistoryEntry", "Receipt", "Answered", "DeskCall"}
ROW = re.compile(r"^\| `(sk_\w+)` \| `([\w:]+)` \| (.*) \|$", re.M)
NAME = re.compile(r"`(\w+)`")
NOT_KNOWN = object()


def files_of(crate):
    return sorted((ROOT / "crates" / crate).glob("src/**/*.rt"))


def without_comments(path):
    return re.sub(r"//[^\n]*", "", path.read_text())


def wanted_in(crate, found, own, named):
    """The names of the types that can be want of memory, as a crate sees them: those of the crates that it names, and its own."""
    return {name for where, name in found if where == crate or where in named[crate] and name not in own[crate]}


def wants_memory(texts):
    """The types that can be want of memory, each with its crate."""
    bodies = [(crate, *it.groups()) for crate in texts for text in texts[crate] for it in TYPE.finditer(text)]
    own = {crate: {name for where, name, _ in bodies if where == crate} for crate in texts}
    named = {crate: {"", *listed(crate)} for crate in texts}
    found = {("", "AllocError"), ("", "AllocFailed")}
    while True:
        words = {crate: words_of(wanted_in(crate, found, own, named)) for crate in texts}
        more = {(crate, name) for crate, name, body in bodies if name not in KEPT and (re.search(r"^\s*Memory\b", body, re.M) or words[crate].search(body))}
        if more <= found:
            return words
        found |= more


def words_of(names):
    return re.compile(rf"\b(?:{'|'.join(sorted(names))})\b")


def functions_in(text):
    """The public functions of a file, each with what it gives."""
    for found in FUNCTION.finditer(text):
        inner, name, head = found.groups()
        given = head.rpartition("->")[2] if "->" in head else ""
        before = IMPL.findall(text[: found.start()])
        yield f"{before[-1]}::{name}" if inner and before else name, given


def calls():
    """The public calls that can answer want of memory, by crate."""
    libraries = [crate for crate in crates() if crate.startswith("sk_")]
    texts = {crate: [without_comments(path) for path in files_of(crate)] for crate in libraries}
    words = wants_memory(texts)
    for crate in libraries:
        for text in texts[crate]:
            yield from ((crate, name) for name, given in functions_in(text) if words[crate].search(given))


def known_rows():
    """The names that a row may name: tests, and runs of scripts."""
    proved = (without_comments(path) for crate in crates() if crate.endswith("_tests") for path in files_of(crate))
    tests = [*proved, *(without_comments(path) for path in sorted((ROOT / "rust/tests").glob("**/*.rs")))]
    names = {name for text in tests for name in re.findall(r"#\[test\]\nfn (\w+)", text)}
    for script in ("checks/growths", "checks/long-runs", "checks/own-runs", "checks/store-runs"):
        names |= set(re.findall(r"^def (\w+)", (ROOT / script).read_text(), re.M))
    return names


def what_is_wrong(call, rows, known):
    """What a call's row lacks, if anything."""
    told = rows.get(call, NOT_KNOWN)
    if told is NOT_KNOWN:
        return "it has no row"
    names = NAME.findall(told)
    unknown = [name for name in names if name not in known]
    if unknown:
        return f"there is no {', '.join(unknown)}"
    return None if names or re.match(r"none: \w+", told) else "its row names nothing"


def main():
    found = list(dict.fromkeys(calls()))
    if sys.argv[1:] == ["--calls"]:
        print("\n".join(f"{crate} {name}" for crate, name in found))
        return 0
    rows = {(crate, name): told for crate, name, told in ROW.findall((ROOT / PAGE).read_text())}
    known = known_rows()
    wrong = {call: what_is_wrong(call, rows, known) for call in found}
    wrong |= {call: "it is no public call that can want memory" for call in rows if call not in wrong}
    failed = {call: why for call, why in wrong.items() if why}
    for (crate, name), why in failed.items():
        print(f"growths: {crate} {name}: {why}")
    print(f"calls that can want memory: {len(wrong) - len(failed)} passed, {len(failed)} failed")
    return 1 if failed else 0


if __name__ == "__main__":
    if sys.argv[1:] not in ([], ["--calls"]):
        sys.exit(__doc__)
    sys.exit(main())
