"""The sources as other scripts read them: definitions for contracts, public items of the code, and what each cites."""
import collections
import pathlib
import re

ROOT = pathlib.Path(__file__).resolve().parent.parent
NAME = r"[A-Za-z_][\w']*(?:-\w+)*"
HEAD = re.compile(rf"(?:(?:abbrev|unfoldable|opaque) )?(?:pub )?(?:(?:record|data) )?(?:pub )?({NAME})(?= :| \(| [{{]|$)")
IMPORT = re.compile(r"use Rattle\.([\w.]+)(?:\.\{([^}]*)\}| as (\w+))?;?$")
# What a clause is called is no word of it.
LABEL = re.compile(r"^\s*(?:requires|ensures)\*? \w+(?= ?[:{])")
WORD = re.compile(rf"(?<![\w.'◌])({NAME})(?:\.({NAME}))?")
ITEM = re.compile(r"pub (?:const |unsafe )*(fn|struct|enum|trait|type|const) (\w+)")

Definition = collections.namedtuple("Definition", "crate file name first length comment words")


def crates():
    """The crates in the order of crates.txt."""
    lines = (ROOT / "crates.txt").read_text().split("\n")
    return [re.split(r"[ :]", line)[0] for line in lines if line.strip()]


def imports_of(lines):
    """What each imported word stands for, as (module, name); of a module with a name of its own, name is None."""
    found = {}
    for line in lines:
        match = IMPORT.search(line.strip())
        if match and line.strip().startswith(("use", "pub use", "ghost use")):
            for word in (match[2] or "").split(","):
                names = word.strip().split(" as ")
                found[names[-1]] = (match[1], names[0])
            if match[3]:
                found[match[3]] = (match[1], None)
    return found


def words_of(lines, imports):
    """What the words of these lines may stand for, in order: (module or None for this one, name)."""
    found = {}
    for line in lines:
        for first, second in WORD.findall(LABEL.sub("", line.split("--")[0])):
            module, name = imports.get(first, (None, first))
            if name is None:
                name = second
            if name:
                found[module, name] = None
    return list(found)


def depth(line):
    return len(line) - len(line.lstrip(" "))


def definitions_in(path):
    """The definitions of a file of `specs`, in order."""
    crate = path.relative_to(ROOT / "crates").parts[0]
    lines = path.read_text().split("\n")
    imports = imports_of(lines)
    found, comment, headers, at = [], [], [], 0
    while at < len(lines):
        line, bare = lines[at], lines[at].strip()
        headers = [it for it in headers if depth(it) < depth(line) or not bare]
        match = HEAD.match(bare)
        if bare.startswith("module "):
            headers.append(line)
        elif bare.startswith("--"):
            comment = [] if bare.startswith("-- --") else comment + [bare[2:].strip()]
            at += 1
            continue
        elif match and not bare.startswith(("use ", "pub use ", "pub mod ", "abbrev pub use ")):
            first = at
            while at + 1 < len(lines) and lines[at + 1].strip():
                after = lines[at + 1]
                inside = depth(after) > depth(line) or re.match(rf"{re.escape(match[1])}(?=[ =])", after.strip()) and depth(after) == depth(line)
                if not inside:
                    break
                at += 1
            whole = lines[first:at + 1]
            words = [it for it in words_of(headers + whole, imports) if it != (None, match[1])]
            found.append(Definition(crate, path, match[1], first, len(whole) + len(comment), " ".join(comment), words))
        comment = []
        at += 1
    return found


def module_of(path):
    """The module that a file of `specs` is."""
    parts = path.relative_to(ROOT / "crates").with_suffix("").parts
    return ".".join(parts)


def declared(crate, name):
    """A struct, an enum or a constant of a crate's code, or None."""
    for path in sorted((ROOT / "crates" / crate / "src").glob("**/*.rt")):
        lines = path.read_text().split("\n")
        for first, line in enumerate(lines):
            if re.match(rf"(?:pub(?:\(crate\))? )?(?:struct|enum|const) {name}\b", line):
                last = first
                while not line.rstrip().endswith((";", "}")) and lines[last] != "}":
                    last += 1
                comment = []
                while lines[first - len(comment) - 1].startswith(("///", "#[")):
                    comment.insert(0, lines[first - len(comment) - 1])
                told = " ".join(it[3:].strip() for it in comment if it.startswith("///"))
                return Definition(crate, path, name, first, last + 1 - first + len(comment), told, [])
    return None


def all_definitions():
    """Each definition of each crate, by module and name."""
    found = {}
    for crate in crates():
        for path in sorted((ROOT / "crates" / crate / "specs").glob("**/*.antt")):
            for it in definitions_in(path):
                found.setdefault((module_of(path), it.name), it)
    return found


def public_through(path):
    """The modules whose words a file of `specs` passes on."""
    return [match[1] for match in map(IMPORT.search, path.read_text().split("\n")) if match and match.string.startswith("pub use")]


class Index:
    """Finds what a word stands for: a definition, a type or constant of the code, or None for what the kit defines."""

    def __init__(self):
        self.known = all_definitions()
        self.types = {}

    def find(self, module, name):
        parts = module.split(".")
        if parts[0] not in crates():
            return None
        if "declared" in parts:
            owner = name if parts[-1] == "TheConstants" else parts[-2] if parts[-1] == "TheVariants" else parts[-1]
            key = (parts[0], owner)
            if key not in self.types:
                self.types[key] = declared(*key)
            return self.types[key]
        if (module, name) in self.known:
            return self.known[module, name]
        path = ROOT / "crates" / ("/".join(parts) + ".antt")
        if path.exists():
            passed = imports_of(it for it in path.read_text().split("\n") if it.startswith("pub use")).get(name)
            if passed and passed[1]:
                return self.find(*passed)
        return None

    def cited(self, it):
        """What a definition cites, in the order of its words."""
        found = []
        for module, name in it.words:
            other = self.find(module or module_of(it.file), name)
            if other and other not in found and other != it:
                found.append(other)
        return found
