"""Puts what C, C++ and others link with under a prefix: library, header, the file of pkg-config, and manual pages."""
import pathlib
import shutil

import pages_of_header
from kit import ROOT

BUILD = ROOT / "build"
PKG_CONFIG = """prefix={prefix}
libdir=${{prefix}}/lib
includedir=${{prefix}}/include

Name: hidewillow
Description: {description}
Version: {version}
Cflags: -I${{includedir}}
Libs: -L${{libdir}} -lhidewillow{kind}
"""
DESCRIPTION = "Programs that go on from guesses: kernels over your own state, and a store whose replies wait for what they rest on"


class Missing(Exception):
    """What is not built, in words for the user."""


def files_of(prefix):
    """What is installed: a file under the prefix, and what it has, or the file in build/ that it is."""
    made = {"include/hidewillow.h": BUILD / "hidewillow.h", "lib/libhidewillow_c.a": BUILD / "libhidewillow_c.a"}
    if (BUILD / "libhidewillow.so").is_file():
        made["lib/libhidewillow.so"] = BUILD / "libhidewillow.so"
    # Without a shared library the archive is linked.
    for name, kind in (("hidewillow", "" if "lib/libhidewillow.so" in made else "_c"), ("hidewillow-static", "_c")):
        made[f"lib/pkgconfig/{name}.pc"] = PKG_CONFIG.format(
            prefix=prefix, description=DESCRIPTION, version=pages_of_header.VERSION, kind=kind)
    pages = pages_of_header.pages((ROOT / "c/hidewillow.h").read_text())
    return made | {f"share/man/man3/{name}": text for name, text in pages.items()}


def install(prefix):
    """Installs under a prefix; how many files."""
    prefix = pathlib.Path(prefix).resolve()
    for needed in ("hidewillow.h", "libhidewillow_c.a"):
        if not (BUILD / needed).is_file():
            raise Missing(f"build/{needed} is not there: run `tools/build.py library` first, or `tools/build.py --proved library`")
    files = files_of(prefix)
    for name, made in files.items():
        path = prefix / name
        path.parent.mkdir(parents=True, exist_ok=True)
        if isinstance(made, pathlib.Path):
            shutil.copy(made, path)
        else:
            path.write_text(made)
    return len(files)
