#!/usr/bin/env python3
"""The must-fail edits: wrong bodies that a person could believe, which the contract of their function must refuse.

    tools/edits.py --check            each edit's text: it stands once, in its function, whose contract is the one that it was
                                      written for; seconds, and nothing is proved
    tools/edits.py --gate             tries the edits that the whole test tries, those marked `gate`
    tools/edits.py [CRATE[/NAME]..]   tries all of these crates, or of all
    tools/edits.py --changed REV      tries all of the crates whose text changed since a commit: before a change is landed
    tools/edits.py --write            writes each edit's `function` and `contract`; those that change have to be tried again

They stand in `crates/NAME/edits`, whose head tells the form. An edit is tried on a copy of its crate, where the prover checks
the function and those that it calls, over the libraries that `rt ci` or `rt lib` has built. Edits of the bodies of different
functions of a crate stand in one copy, since a function is proved by the contracts of those that it calls, and never by their
bodies: each is refused where the line of its own function says so, and one of which no line does is tried again alone. The last
line is 'N passed, M failed'.
"""
import argparse
import collections
import concurrent.futures
import hashlib
import os
import pathlib
import re
import shutil
import subprocess
import sys
import tempfile
sys.dont_write_bytecode = True
import kit
from kit import ROOT

FN = re.compile(r"^( *)(?:pub(?:\([a-z]+\))? )?(?:const )?(?:unsafe )?(?:extern \"C\" )?fn (\w+)")
OWNER = re.compile(r"^( *)(?:pub(?:\([a-z]+\))? )?(?:unsafe )?(impl|trait)\b(.*)$")
# What the prover says of a text that it cannot read: then no contract was tried.
UNREAD = re.compile(r"is not in scope|has no field|is no name|operand is missing|expected the end|cannot continue")
# What it says of a proof that names what an edit took away, which says little of the contract.
BY_NAME = re.compile(r"(?:note: )?(?:\./)?proofs/.*(?:has no field|is not in scope|has no `|was not admitted)")

# A line that says where something stands.
PLACE = re.compile(r"(?:note: )?(?:\./)?\S+:\d+:\d+: ")
# What is of a function's head, and not of its body.
HEAD = re.compile(r"\b(?:fn|requires|ensures|ghost|where)\b")

Edit = collections.namedtuple("Edit", "crate name gate function contract pairs")
Function = collections.namedtuple("Function", "path first body last contract")


def table(crate):
    return ROOT / "crates" / crate / "edits"


def read_edit(crate, lines):
    """An edit from its lines."""
    told, pairs, file, old = {"gate": False, "function": "", "contract": ""}, [], "", ""
    for line in lines:
        word, _, rest = line.partition(": ")
        if word in ("name", "function", "contract"):
            told[word] = rest
        elif line == "gate":
            told["gate"] = True
        elif word == "file":
            file = rest
        elif word == "old":
            old = rest
        elif word.rstrip(":") == "new":
            pairs.append((file, old, rest))
    return Edit(crate=crate, pairs=pairs, **told)


def edits_of(crate):
    """The edits of a crate, in the order of its table."""
    blocks = table(crate).read_text().split("\n\n")
    lines = [[it for it in block.split("\n") if it and not it.startswith("#")] for block in blocks]
    return [read_edit(crate, it) for it in lines if it]


def owner_name(line):
    """How the prover names the type, the trait's impl or the trait that a line begins."""
    text = re.sub(r"<[^<>]*>", "", re.sub(r"<[^<>]*>", "", line[2].replace("->", ""))).split("{")[0].split(" where")[0]
    names = [it.strip().lstrip("&").split("::")[-1].split("(")[0].strip() for it in text.split(" for ")]
    if len(names) == 2:
        return names[1] if names[0] == "Drop" else f"{names[1]}{names[0]}"
    return names[0]


def functions(path):
    """The functions of a file that is laid out as `rt fmt` does, with the lines of their contracts and bodies."""
    lines, found, owner = path.read_text().split("\n"), [], (-1, "")
    module = "" if path.stem in ("lib", "main") else f"{path.stem}::"
    for at, line in enumerate(lines):
        begins, head = OWNER.match(line), FN.match(line)
        if line.strip() and len(line) - len(line.lstrip()) <= owner[0] and not line.strip().startswith(("}", "where")):
            owner = (-1, "")
        if begins:
            owner = (len(begins[1]), owner_name((begins[1], begins[2], begins[3])))
        if head:
            found.append(function_at(lines, at, head, owner[1] if len(head[1]) > 0 else "", module))
    return [it for it in found if it]


def function_at(lines, at, head, owner, module):
    """The function that begins at a line, or none where it has no body."""
    opens = next((it for it in range(at, len(lines)) if lines[it] == head[1] + "{" or lines[it].endswith(" {")
                  and not re.match(r" +(requires|ensures|ghost|where)\b", lines[it]) and depth_of(lines[at:it + 1]) == 1
                  or lines[it].endswith(";") and depth_of(lines[at:it + 1]) == 0 or lines[it].endswith("{}")), None)
    if opens is None or lines[opens].endswith(";"):
        return None
    last = opens if lines[opens].endswith("{}") else next(it for it in range(opens, len(lines)) if lines[it] == head[1] + "}")
    told = " ".join(" ".join(lines[at:opens + 1]).split()).removesuffix("{").strip()
    name = f"{owner}::{head[2]}" if owner else f"{module}{head[2]}"
    return Function(name, at, opens, last, told)


def depth_of(lines):
    text = re.sub(r"b?'(?:\\.|[^\\'])'|\"(?:\\.|[^\\\"])*\"|//.*", "", "\n".join(lines))
    return text.count("{") - text.count("}")


def digest(told):
    return hashlib.sha256(told.encode()).hexdigest()[:8]


def contract_of(function, crate):
    """The contract of a function: its own lines, and for a method of a trait of this crate the trait's."""
    method = function.path.split("::")[-1]
    own = function.contract
    if "ensures" not in own:
        for path in sorted((ROOT / "crates" / crate / "src").rglob("*.rt")):
            for found in re.finditer(rf"^    fn {method}\b(?:.|\n)*?;$", path.read_text(), re.M):
                if "ensures" in found[0]:
                    own += " " + " ".join(found[0].split())
    return own


def place_of(edit):
    """The function of the first text of an edit that stands in a body, or none."""
    for file, old, _ in edit.pairs:
        path = ROOT / "crates" / edit.crate / file
        text = path.read_text() if path.exists() else ""
        if path.suffix != ".rt" or text.count(old) != 1:
            continue
        line = text[: text.index(old)].count("\n")
        inside = [it for it in functions(path) if it.body <= line <= it.last]
        if inside:
            return inside[-1]
    return None


def texts_of(edit, folder):
    """The files that an edit changes, by their path in the crate; or why it can't be applied."""
    texts = {}
    for file, old, new in edit.pairs:
        path = folder / file
        if not path.is_file():
            return None, f"there is no {file}"
        text = texts.get(file, path.read_text())
        if not old or text.count(old) != 1:
            return None, f"an old text stands {text.count(old)} times in {file}"
        texts[file] = text.replace(old, new)
    return texts, None if texts else "it has no text"


def fault(edit):
    """What is wrong with the text of an edit, or none."""
    _, why = texts_of(edit, ROOT / "crates" / edit.crate)
    if why:
        return why
    if all(file.startswith("specs/") for file, _, _ in edit.pairs):
        return None
    place = place_of(edit)
    if place and edit.function != place.path and not edit.function.startswith("all"):
        return f"its text stands in {place.path}, and not in {edit.function or 'no function'}"
    if place and edit.contract != digest(contract_of(place, edit.crate)):
        return f"the contract of {place.path} is not the one that it was written for: try it, then tools/edits.py --write"
    return None if place or edit.function else "its text stands in no function, and it names none"


def check(edits):
    faults = [(it, fault(it)) for it in edits]
    for edit, why in faults:
        if why:
            print(f"{edit.crate}/{edit.name}: {why}")
    failed = sum(1 for _, why in faults if why)
    print(f"{len(edits) - failed} passed, {failed} failed")
    return int(failed > 0)


def run(crate, functions, texts, kept):
    """Has the prover check functions on a copy of a crate in which these texts stand."""
    with tempfile.TemporaryDirectory(prefix="edit-") as room:
        folder = ROOT / "crates" / crate
        for part in ("src", "specs", "proofs"):
            if (folder / part).is_dir():
                shutil.copytree(folder / part, f"{room}/{part}")
        for file, text in texts.items():
            pathlib.Path(room, file).write_text(text)
        only = [it for name in functions if name and name != "all" for it in ("--only", name)]
        words = [kit.rattle(), "check", *kit.words(crate), "--jobs", "1", "--incremental", kept, *only]
        return subprocess.run(words, cwd=room, stdin=subprocess.DEVNULL, capture_output=True, text=True, errors="replace", check=False)


def unread(lines, texts):
    """What the prover says of a text that it can't read, or none."""
    return next((it for it in lines if it.lstrip("./").startswith((*texts, "src/", "specs/")) and "error" in it and UNREAD.search(it)), None)


def judged(edit, ran, texts):
    """Whether the prover refused an edit, and what to say of it."""
    lines = (ran.stdout + ran.stderr).rstrip("\n").split("\n")
    places = [it for it in lines if PLACE.match(it)]
    bad = unread(places, texts)
    if bad:
        return False, f"BAD EDIT: the prover can't read it: {bad[:200]}"
    if ran.returncode == 1 and lines[-1].startswith(("only=", "logic=not-proved")):
        refused = next((it for it in lines if re.match(r"fn .*: (?:not proved|no proof|depends)", it)), lines[-1])
        errors = [it for it in places if "error" in it]
        why = " (only as a proof names what the edit took away)" if errors and all(BY_NAME.match(it) for it in errors) else ""
        return True, f"refused: {refused[:120]}{why}"
    if ran.returncode == 0:
        return False, "NOT REFUSED: it is proved"
    return False, f"BAD EDIT: it did not reach the prover: {' / '.join(lines[:4])[:400]}"


def is_of_a_body(edit):
    """Whether an edit changes the body of its function, and nothing else: then no other function's proof depends on it."""
    def inside(file, old):
        place = place_of(edit._replace(pairs=[(file, old, "")]))
        return place is not None and place.path == edit.function and not HEAD.search(old)
    return bool(edit.pairs) and all(inside(file, old) for file, old, _ in edit.pairs)


def in_turns(edits):
    """The edits of a crate, in lots: those of the bodies of different functions are tried together, and each other alone."""
    lots, alone = [], []
    for edit in edits:
        if not is_of_a_body(edit):
            alone.append([edit])
            continue
        lot = next((it for it in lots if edit.function not in [other.function for other in it]), None)
        if lot is None:
            lots.append([edit])
        else:
            lot.append(edit)
    return lots + alone


def texts_of_all(edits, folder):
    """The files that edits change, each made over those before it; none where one can't be."""
    texts = {}
    for edit in edits:
        for file, old, new in edit.pairs:
            text = texts.get(file, (folder / file).read_text())
            if text.count(old) != 1:
                return None
            texts[file] = text.replace(old, new)
    return texts


def refused_together(crate, edits, kept):
    """Those of some edits of which one check says by its own line that their function is not proved, and that line."""
    texts = texts_of_all(edits, ROOT / "crates" / crate)
    if texts is None:
        return {}
    ran = run(crate, [it.function for it in edits], texts, kept)
    lines = (ran.stdout + ran.stderr).rstrip("\n").split("\n")
    places = [it for it in lines if PLACE.match(it) and "error" in it]
    if ran.returncode != 1 or not lines[-1].startswith("only=") or unread(places, texts) or any(BY_NAME.match(it) for it in places):
        return {}
    own = {it.name: [line for line in lines if is_own_refusal(line, it.function)] for it in edits}
    return {name: found[0] for name, found in own.items() if len(found) == 1}


def is_own_refusal(line, function):
    """Whether a line says that a function is not proved, and not just for one that it calls."""
    return bool(re.match(rf"fn (?:\w+::)*{re.escape(function)}: (?:not proved$|no proof: expected answers)", line))


def try_crate(crate, edits):
    """Tries edits of one crate, each over what the checks of those before it proved: a lot in one check, and again those of it of which
    that check did not say that their own function is refused, which call another of the lot; and alone where that leads no further."""
    stale = kit.stale(crate)
    if stale:
        return [(it, False, f"not tried: {', '.join(stale)} below is not built as it stands (rt lib in crates/{crate} builds it)") for it in edits]
    told = []
    with tempfile.TemporaryDirectory(prefix="edits-") as kept:
        lots = in_turns(edits)
        while lots:
            lot = lots.pop(0)
            refused = refused_together(crate, lot, kept) if len(lot) > 1 else {}
            found = [(it, True, f"refused: {refused[it.name][:120]}") for it in lot if it.name in refused]
            if not found:
                found = [(it, *try_alone(it, kept)) for it in lot]
            for edit, _, said in found:
                print(f"{crate}/{edit.name}: {said}", flush=True)
            told += found
            left = [it for it in lot if it not in [edit for edit, _, _ in found]]
            lots = [left, *lots] if left else lots
    return told


def try_alone(edit, kept):
    texts, why = texts_of(edit, ROOT / "crates" / edit.crate)
    return (False, f"BAD EDIT: {why}") if why else judged(edit, run(edit.crate, [edit.function], texts, kept), texts)


def attempt(edits):
    """Tries edits, those of a crate in turn and crates side by side, and counts."""
    by_crate = collections.defaultdict(list)
    for edit in edits:
        by_crate[edit.crate].append(edit)
    jobs = int(os.environ.get("RT_JOBS") or max(1, len(os.sched_getaffinity(0)) - 1))
    with concurrent.futures.ThreadPoolExecutor(jobs) as pool:
        told = [it for part in pool.map(lambda it: try_crate(*it), sorted(by_crate.items(), key=lambda it: -len(it[1]))) for it in part]
    failed = [it for it in told if not it[1]]
    for edit, _, said in failed:
        print(f"FAILED {edit.crate}/{edit.name}: {said}")
    print(f"{len(told) - len(failed)} passed, {len(failed)} failed")
    return int(bool(failed))


def spelled(edit):
    """The lines of an edit."""
    lines = [f"name: {edit.name}", *["gate"] * edit.gate]
    lines += [f"function: {edit.function}"] * bool(edit.function) + [f"contract: {edit.contract}"] * bool(edit.contract)
    before = None
    for file, old, new in edit.pairs:
        lines += [f"file: {file}"] * (file != before) + [f"old: {old}", f"new: {new}"]
        before = file
    return "\n".join(lines) + "\n"


def placed(edit):
    place = place_of(edit)
    if not place:
        return edit
    return edit._replace(function=edit.function if edit.function.startswith("all") else place.path, contract=digest(contract_of(place, edit.crate)))


def write(crates):
    for crate in crates:
        text = table(crate).read_text()
        head = "\n".join(it for it in text.split("\n\n")[0].split("\n") if it.startswith("#"))
        table(crate).write_text(head + "\n\n" + "\n".join(spelled(placed(it)) for it in edits_of(crate)))
    return 0


def changed(rev, crates):
    """The crates whose text or edits changed since a commit."""
    told = subprocess.run(["git", "-C", str(ROOT), "diff", "--name-only", rev, "--", "crates"], capture_output=True, text=True, check=True).stdout
    names = {it.split("/")[1] for it in told.split("\n") if re.match(r"crates/\w+/(src|specs|proofs|edits)", it)}
    return [it for it in crates if it in names]


def main():
    parser = argparse.ArgumentParser(description=__doc__, formatter_class=argparse.RawDescriptionHelpFormatter)
    for flag in ("--check", "--gate", "--write"):
        parser.add_argument(flag, action="store_true")
    parser.add_argument("--changed", metavar="REV")
    parser.add_argument("names", nargs="*", metavar="CRATE[/NAME]")
    asked = parser.parse_args()
    crates = sorted(it.parent.name for it in ROOT.glob("crates/*/edits"))
    if asked.write:
        return write(crates)
    crates = changed(asked.changed, crates) if asked.changed else crates
    edits = [it for crate in crates for it in edits_of(crate)]
    if asked.names:
        edits = [it for it in edits if it.crate in asked.names or f"{it.crate}/{it.name}" in asked.names]
    if asked.check:
        return check(edits)
    return attempt([it for it in edits if it.gate] if asked.gate else edits)


if __name__ == "__main__":
    sys.exit(main())
