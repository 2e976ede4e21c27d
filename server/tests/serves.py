#!/usr/bin/env python3
"""Whether a server serves a folder, and a key of it has a value.

    tests/serves.py --server PROGRAM FOLDER KEY VALUE
"""
import argparse
import pathlib
import sys

sys.dont_write_bytecode = True
sys.path.append(str(pathlib.Path(__file__).resolve().parent))
from starts import Server


def main():
    words = argparse.ArgumentParser(description=__doc__, formatter_class=argparse.RawDescriptionHelpFormatter)
    for word in ("--server", "folder", "key", "value"):
        words.add_argument(word)
    options = words.parse_args()
    server = Server(options.server, pathlib.Path(options.folder))
    try:
        wanted = f"${len(options.value)}\r\n{options.value}\r\n".encode()
        is_so = server.says("listening") and server.ask(f"GET {options.key}\r\n".encode(), wanted)
    finally:
        server.process.terminate()
        server.process.wait(60)
    sys.exit(not is_so)


if __name__ == "__main__":
    main()
