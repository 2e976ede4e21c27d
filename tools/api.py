#!/usr/bin/env python3
"""The public items of the crates behind `hidewillow`, for threads and for own state, with their contracts.

    tools/api.py            the page, as `tools/pages.py` has it
    tools/api.py --bare     the definitions that contracts cite and that have no comment
"""
import re
import sys
sys.dont_write_bytecode = True
from definitions import SAID
from sources import Index, ROOT, crates, imports_of, module_of, words_of

DOOR = ROOT / "crates/hidewillow"
HEAD = """# The calls and their contracts

Each item has its first words and its contract. In a
contract `S` is what `self` is at the call, `S'` what it is at the return, and `x'` what `x` is there. `result` is the
answer. A clause that begins with `IfOk`, `IfErr` or `IfSome` speaks of that answer alone. The words that contracts
cite stand in a table at the end, each with what it says and its file in `crates/`.
"""
ITEM = re.compile(r"(?:pub )?(?:const |unsafe )*(fn|struct|enum|trait|type|const) (\w+)")
SHORT = ((r"\bself\.(now|old)\b", "S"), (r"\bself\.new\b", "S'"), (r"\bself\b", "S"),
         (r"\b(\w+)\.(?:now|old)\b", r"\1"), (r"\b(\w+)\.new\b", r"\1'"))


def pages_of(crate):
    """The files of a crate whose public items its callers can name."""
    folder = ROOT / "crates" / crate / "src"
    text = (folder / "lib.rt").read_text()
    names = re.findall(r"^pub mod (\w+);", text, re.M) + re.findall(r"^pub use (\w+)::", text, re.M)
    return [folder / f"{name}.rt" for name in dict.fromkeys(names) if (folder / f"{name}.rt").exists()]


def first_words(crate):
    """The comment at the head of a crate's `lib.rt`."""
    lines = (ROOT / "crates" / crate / "src/lib.rt").read_text().split("\n")
    return " ".join(it[3:].strip() for it in lines if it.startswith("//!"))


def whole_item(lines, at, kind):
    """The lines of an item, of a function those before its body."""
    last, depth = at, 0
    if kind == "fn":
        # A clause may go over several lines, with records in it whose fields end with `;`.
        while True:
            clause = depth > 0 or re.match(r" *(ensures|requires)\b", lines[last])
            depth += lines[last].count("{") - lines[last].count("}")
            if re.search(r";$" if clause else r"(^|[^{}] )\{\}?$|;$", lines[last]) and (depth == 0 or not clause):
                break
            last += 1
    elif lines[at].endswith("{") and kind != "trait":
        while lines[last].strip() != "}":
            last += 1
    return [it.strip() for it in lines[at:last + 1] if not it.strip().startswith("// ")]


def items(lines):
    """The doc, the lines and the owner of each item that callers name."""
    owner, of_trait, doc = "", False, []
    for at, line in enumerate(lines):
        bare = line.strip()
        heads = re.match(r"(?:unsafe )?impl(?:<[^{]*?>)? (?:(.*) for )?(\w+)", line)
        match = ITEM.match(bare)
        if heads:
            owner, of_trait = heads[2], heads[1] is not None
        elif line == "}":
            owner, of_trait = "", False
        if bare.startswith("///"):
            doc.append(bare[3:].strip())
        elif match and not of_trait and (bare.startswith("pub ") or owner.startswith("trait ")):
            yield " ".join(doc), whole_item(lines, at, match[1]), owner.removeprefix("trait ")
            doc = []
            if match[1] == "trait":
                owner = "trait " + match[2]
        elif bare and not bare.startswith("#["):
            doc = []


def shortened(clause):
    for old, new in SHORT:
        clause = re.sub(old, new, clause)
    return clause.replace("; }", " }")


def shown(lines, owner):
    """An item as the page has it: its head, and a line for each clause."""
    kind = ITEM.match(lines[0])[1]
    head = re.sub(r"^pub | \{$", "", lines[0])
    if kind in ("struct", "enum"):
        inner = [it.removeprefix("pub ") for it in lines[1:-1] if it and not it.startswith(("///", "#[", "ghost"))
                 and (kind == "enum" or it.startswith("pub "))]
        return [head + (" { " + " ".join(inner).rstrip(",") + " }" if inner else "")]
    if kind != "fn":
        return [head]
    whole = re.sub(r" \{\}?$|;$", "", " ".join(lines).strip())
    parts = re.split(r" (?=(?:requires|ensures)\*? (?:\w+ )?\{)", whole)
    name = parts[0].removeprefix("pub ").replace("( ", "(").replace(", )", ")")
    out = [re.sub(r"^((?:const |unsafe )*fn )", rf"\1{owner}::", name) if owner else name]
    for clause in parts[1:]:
        found = re.match(r"(\w+\*?) (?:(\w+) )?\{ ?(.*?) ?\}$", clause)
        out.append(f"  {found[1]}{' ' + found[2] if found[2] else ''}: {shortened(found[3])}" if found else "  " + clause)
    return out


def passed_on():
    """The names that `hidewillow` passes on of each crate, or None where it passes on the crate whole."""
    text = (DOOR / "src/lib.rt").read_text()
    some = re.findall(r"^pub use (sk_\w+)::(\{.*?\}|\w+);", text, re.M | re.S)
    return {crate: re.findall(r"\w+", names) for crate, names in some} | dict.fromkeys(re.findall(r"^pub use (sk_\w+) as", text, re.M))


def listed():
    """The crates of the page: those that `hidewillow` passes on, highest first, and then those for threads and for own state."""
    passed = passed_on()
    beside = ["sk_crew", "sk_workers", "sk_wire", "sk_bytes", "sk_index", "sk_speculator", "sk_outputs", "sk_slots", "sk_deeds"]
    return list(dict.fromkeys([it for it in reversed(crates()) if it in passed] + beside))


def cited_by(index, crate, names):
    """The definitions that the contracts of these names of a crate cite, or of all its names."""
    for path in pages_of(crate):
        lines = path.read_text().split("\n")
        for _, whole, owner in items(lines):
            if names is None or (owner or ITEM.match(whole[0])[2]) in names:
                yield from (index.find(*it) for it in words_of(shown(whole, owner)[1:], imports_of(lines)) if it[0])


def not_passed_on(index):
    """The modules of definitions that contracts behind `hidewillow` cite and that it does not pass on."""
    passed = set(re.findall(r"^pub use Rattle\.([\w.]+)", (DOOR / "specs/Lib.antt").read_text(), re.M))
    cited = (it for crate, names in passed_on().items() for it in cited_by(index, crate, names))
    return sorted({module_of(it.file) for it in cited if it and it.file.suffix == ".antt"} - passed)


def page(index):
    """The page, and the definitions that its contracts cite."""
    out, cited = [HEAD], {}
    for crate in listed():
        out.append(f"## `{crate}`\n\n{first_words(crate)}\n")
        for path in pages_of(crate):
            lines = path.read_text().split("\n")
            imports = imports_of(lines)
            for doc, whole, owner in items(lines):
                told = shown(whole, owner)
                out.append("```text\n" + "\n".join(told) + "\n```\n" + (doc + "\n" if doc else ""))
                for module, name in words_of(told[1:], imports):
                    it = index.find(module, name) if module else None
                    if it and it.file.suffix == ".antt":
                        cited[it.name, str(it.file)] = it
    out.append("## The words\n\n| word | what it says | where |\n|---|---|---|")
    for it in sorted(cited.values(), key=lambda it: (it.name.lower(), str(it.file))):
        told = it.comment.replace("|", "&#124;") or "its definition"
        out.append(f"| `{it.name}` | {told} | `{it.file.relative_to(ROOT / 'crates')}` |")
    return "\n".join(out) + "\n", list(cited.values())


def bare(cited):
    """The definitions that contracts cite and that have no comment."""
    return [f"{it.file.relative_to(ROOT)}: {it.name}" for it in cited if not it.comment and it.name not in SAID.get(it.crate, {})]


def faults(index, cited):
    """What the page names and nobody says, and what `hidewillow` lacks."""
    yield from (f"{it} has no comment" for it in bare(cited))
    yield from (f"hidewillow does not pass on {it}" for it in not_passed_on(index))


def main():
    text, cited = page(Index())
    print("\n".join(bare(cited)) if sys.argv[1:] == ["--bare"] else text)


if __name__ == "__main__":
    main()
