"""What `crates.txt` says, and what it takes to call the kit's prover on one crate, over the libraries that `rt ci` has built."""
import functools
import os
import pathlib
import subprocess

ROOT = pathlib.Path(__file__).resolve().parent.parent


@functools.cache
def kit():
    """The kit's folder."""
    told = subprocess.run(["rt", "doc"], capture_output=True, text=True, check=True).stdout
    return pathlib.Path(told.strip()).parent


@functools.cache
def lines_of_crates():
    """The words before and behind the colon of each line of `crates.txt`, by crate."""
    lines = [it.partition("#")[0].partition(":") for it in (ROOT / "crates.txt").read_text().splitlines()]
    return {head.split()[0]: (head.split()[1:], tail.split()) for head, _, tail in lines if head.strip()}


def listed(crate):
    """The libraries that a crate names."""
    return lines_of_crates()[crate][1]


def is_own(crate):
    return crate in lines_of_crates()


@functools.cache
def below(crate):
    """All crates of this repository that a crate depends on, each once."""
    named = [it for it in listed(crate) if is_own(it)]
    return list(dict.fromkeys([*named, *(it for name in named for it in below(name))]))


def library(crate):
    """Where a built library stands: one of this repository's, or the kit's."""
    folder = ROOT / "crates" / crate / "out/rlib" if is_own(crate) else kit() / "rlibs"
    return folder / f"{crate}.rlib"


def root_file(crate):
    is_program = (ROOT / "crates" / crate / "src/main.rt").exists()
    return "src/main.rt" if is_program else "src/lib.rt"


def words(crate):
    """The words of `rattle` that tell it of a crate, of what that depends on, and of the logic."""
    told = ["--crate-name", crate, root_file(crate)]
    if "staticlib" in lines_of_crates()[crate][0]:
        told += ["--crate-type", "staticlib"]
    for name in dict.fromkeys(["std", *listed(crate)]):
        told += ["--extern", f"{name}={library(name)}"]
    for folder in dict.fromkeys([kit() / "rlibs", *(library(it).parent for it in below(crate))]):
        told += ["-L", f"dependency={folder}"]
    told += ["--antt-project", str(kit() / "rattle/logic/antt-project.json"), "--logic-built", str(kit() / "logic_built")]
    return [*told, "--links", f"{crate}="]


def rattle():
    return str(kit() / "bin/rattle")


def words_of_build(crate):
    """What proves and compiles a crate over those libraries, where `rt lib` would build them anew; `-o` and a file follow."""
    return [rattle(), "build", *words(crate), "--toolchain", str(kit() / "toolchain"), "--backend", "llvm"]


def newest(crate):
    """When a text of a crate was last changed."""
    folder = ROOT / "crates" / crate
    files = (it for part in ("src", "specs", "proofs") for it in (folder / part).rglob("*") if it.is_file())
    return max(os.path.getmtime(it) for it in files)


def stale(crate):
    """The crates below whose library is not built, or older than their text."""
    def is_stale(name):
        return not library(name).exists() or os.path.getmtime(library(name)) < newest(name)
    return [it for it in below(crate) if is_stale(it)]
