"""Manual pages of c/hidewillow.h: one of the whole, with what it begins with and the answers; one of each part; and one of each call,
with what stands above it in the header."""
import re
from dataclasses import dataclass, field

VERSION = "0.1.0"
PARTS = {"": "hidewillow", "kernel over": "hidewillow_own", "A desk": "hidewillow_desk", "Of the bytes": "hidewillow_messages",
         "A store": "hidewillow_store", "consensus engine": "hidewillow_engine"}
CALL = re.compile(r"(?:static inline )?[\w ]+?[ *](hidewillow_\w+)\(([^)]*)\)(;| \{)", re.S)


@dataclass
class Part:
    """A part of the header: its name, what it begins with, its types as they stand, and its calls: name, declaration, words."""

    name: str
    words: str
    types: list = field(default_factory=list)
    calls: list = field(default_factory=list)


def words_of(comment):
    """A comment without its marks: paragraphs."""
    lines = [re.sub(r"^ ?\* ?", "", line) for line in comment.removeprefix("/*").removesuffix("*/").strip("\n").splitlines()]
    return re.sub(r"^-+ ?", "", "\n".join(lines).strip())


def pieces(text):
    """Comments that begin a line, and what stands between two of them."""
    body = text[:text.index("#ifdef __cplusplus\n}")]
    return [it for it in re.split(r"^(/\*.*?\*/)", body, flags=re.S | re.M) if it.strip()]


def name_of(words):
    return next((name for begin, name in PARTS.items() if begin and begin in words.splitlines()[0]), None)


def parts_of(text):
    """The parts of the header."""
    parts, words = [], ""
    for piece in pieces(text):
        if piece.startswith("/*"):
            words = words_of(piece)
            if not parts or piece.startswith("/* ----"):
                parts.append(Part("hidewillow" if not parts else name_of(words), words))
                words = ""
            continue
        part = parts[-1]
        part.types += re.findall(r"^(?:typedef struct|enum) .*?^\}[^;]*;|^(?:typedef struct|enum) [^\n]*;", piece, re.S | re.M)
        for found in CALL.finditer(piece):
            said = " ".join(found[0].removesuffix(" {").removesuffix(";").split())
            part.calls.append((found[1], said + ";", words or part.words))
    return parts


def roff(text):
    return "\n".join(re.sub(r"^([.'])", r"\\&\1", line) for line in text.replace("\\", "\\e").replace("-", "\\-").splitlines())


def paragraphs(words):
    return "\n.PP\n".join(roff(it) for it in words.split("\n\n"))


def page(name, brief, synopsis, words, types, others):
    """A page in the language of man(7)."""
    lines = [f'.TH {name.upper()} 3 "" "hidewillow {VERSION}"', ".SH NAME", f"{name} \\- {roff(brief)}", ".SH SYNOPSIS", ".nf",
             "#include <hidewillow.h>"]
    lines += [".PP", *(roff(it) for it in synopsis)] if synopsis else []
    lines += [".fi", ".SH DESCRIPTION", paragraphs(words)]
    if types:
        lines += [".SH TYPES", ".nf", *(roff(it) + "\n" for it in types), ".fi"]
    return "\n".join([*lines, ".SH SEE ALSO", ",\n".join(f".BR {other} (3)" for other in others).replace(",\n", " ,\n"), ""])


def brief_of(words):
    """The first sentence, as what a page is about."""
    first = re.split(r"(?<=[.:])\s", " ".join(words.split()))[0].rstrip(".:")
    return first if len(first) < 160 else first[:first.rindex(" ", 0, 156)] + " .."


def pages(text):
    """The pages, by the names of their files."""
    parts, made = parts_of(text), {}
    for part in parts:
        others = [it.name for it in parts if it is not part] + [name for name, *_ in part.calls]
        made[f"{part.name}.3"] = page(part.name, brief_of(part.words), [it for _, it, _ in part.calls], part.words, part.types, others)
        for name, declared, words in part.calls:
            beside = [part.name] + [other for other, *_ in part.calls if other != name and other.rsplit("_", 1)[0] == name.rsplit("_", 1)[0]]
            made[f"{name}.3"] = page(name, brief_of(words), [declared], words, [], beside)
    return made
