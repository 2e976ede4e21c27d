#!/usr/bin/env python3
"""Measures what a command over a remote folder costs: wall times, one way after the other in each round, the least of the rounds.

    run/bench.py [--build FOLDER] [--delays 0,2,30] [--rounds 3] [--bandwidth BYTES] [--sources FOLDER] [--room FOLDER] [--cpu N] [--processor] [WORK..]

The ways: `local` (the same command on a folder here), `waits` (`--strict`: each call waits for its reply), `believed` (the same, but
attributes are believed for 3 s, as by other clients; opens and changes are asked), `stops` (the same, but calls on paths of this machine are
stopped, too), `here` (hidewillow-run as it is), `sshfs` (where it and ssh's file server are installed; it speaks with that directly,
each byte half the delay later).
Works: gcc, small, git, files; and lua, zlib where --sources has their sources unpacked (folders whose names begin so). Folders are in
memory unless --room names one on a disk, whose syncs then count. Delays are milliseconds there and back. With --processor the times
are those of processors, of all processes of a side: what a way costs, whatever else the machine does.
"""
import argparse
import os
import pathlib
import shutil
import queue
import resource
import socket
import subprocess
import sys
import threading
import time

sys.dont_write_bytecode = True
sys.path.insert(0, str(pathlib.Path(__file__).resolve().parent / "tests"))
import runs  # noqa: E402

SMALL = """
import os, random
dice = random.Random(3)
names = [f'd{n % 5}/f{n}' for n in range(200)]
for n in range(5): os.mkdir(f'd{n}')
def write(name):
    with open(name, 'wb') as f: f.write(b'x' * dice.randrange(500, 10000))
for name in names: write(name)
for at in range(600):
    name = dice.choice(names)
    if dice.random() < 0.5:
        with open(name, 'rb') as f: f.read()
    else:
        with open(name, 'ab') as f: f.write(b'y' * 300)
    if dice.random() < 0.5:
        os.unlink(name); write(name)
for name in names: os.unlink(name)
"""
GIT = "git init -q -b m . && git add . && git commit -qm one && echo '/* x */' >> main.c && git diff --stat && git commit -qam two && " \
      "git status --short && git checkout -q HEAD~1 && git log --oneline"
FILES = "mkdir src && cp *.c *.h src && tar cf x.tar src && mkdir y && tar xf x.tar -C y && cp -r src z && diff -r z y/src && rm -r z y x.tar"
WORKS = {
    "gcc": (runs.c_project(34), ["make", "-s"]),
    "small": ({}, [sys.executable, "-c", SMALL]),
    "git": (runs.c_project(34), ["sh", "-c", GIT]),
    "files": (runs.c_project(34), ["sh", "-c", FILES]),
    "lua": ("lua", ["make", "-s", "linux", "MYCFLAGS=-O0"]),
    "zlib": ("zlib", ["sh", "-c", "CFLAGS=-O0 ./configure --static && make -s"]),
}
WAYS = ["local", "waits", "believed", "stops", "here", "sshfs"]
OPTIONS = {"waits": ["--strict"], "believed": ["--strict", "--believe-seconds", "3"], "stops": [], "here": []}
COUNTS = ["guesses", "epochs", "rollbacks", "checkpoints"]
SFTP = pathlib.Path("/usr/lib/openssh/sftp-server")


class Sftp:
    """A file server of ssh at a port, each byte some time later, as long as the block lasts."""

    def __init__(self, delay_ms):
        self.delay = delay_ms / 2000

    def __enter__(self):
        self.listener = socket.create_server(("127.0.0.1", 0))
        self.port = self.listener.getsockname()[1]
        threading.Thread(target=self.serve, daemon=True).start()
        return self

    def __exit__(self, *_):
        self.listener.close()

    def serve(self):
        try:
            client, _ = self.listener.accept()
        except OSError:
            return
        client.setsockopt(socket.IPPROTO_TCP, socket.TCP_NODELAY, 1)
        server = subprocess.Popen([SFTP], stdin=subprocess.PIPE, stdout=subprocess.PIPE)
        self.pumped(lambda: client.recv(1 << 16), lambda it: (server.stdin.write(it), server.stdin.flush()))
        self.pumped(lambda: server.stdout.read1(1 << 16), client.sendall)

    def pumped(self, read, write):
        waiting = queue.Queue()

        def later():
            while (it := waiting.get())[1]:
                time.sleep(max(0, it[0] - time.monotonic()))
                write(it[1])

        def pump():
            got = True
            while got:
                got = read()
                waiting.put((time.monotonic() + self.delay, got))

        for it in (later, pump):
            threading.Thread(target=it, daemon=True).start()


def place_of(given, tree):
    if isinstance(tree, dict):
        return runs.Place(tree)
    place = runs.Place()
    sources = next(it for it in sorted(given.sources.iterdir()) if it.name.startswith(tree) and it.is_dir())
    for it in (place.here, place.there):
        subprocess.run(["cp", "-aT", sources, it], check=True)
    return place


def spent():
    of = resource.getrusage(resource.RUSAGE_CHILDREN)
    return of.ru_utime + of.ru_stime


def timed(command, pinned, by_processor=False, **how):
    """Wall time, or that of processors in all that the command began; and its status."""
    clock = spent if by_processor else time.monotonic
    begin = clock()
    did = runs.ran([*pinned, *command], timeout=900, **how)
    return clock() - begin, did.returncode


def once(given, work, way, delay, pinned):
    """Wall time, status, and what hidewillow-run counted."""
    tree, words = WORKS[work]
    place = place_of(given, tree)
    try:
        if way == "local":
            inside = f'mount --bind {place.here} {place.mount} && cd {place.mount} && exec "$@"'
            rights = [] if os.geteuid() == 0 else ["-Ur"]
            return *timed(["unshare", *rights, "-m", "sh", "-c", inside, "sh", *words], pinned, given.processor), {}
        if way == "sshfs":
            return *over_sshfs(place, words, delay, pinned), {}
        slow = ["--delay-ms", str(delay)] + (["--bandwidth", str(given.bandwidth)] if given.bandwidth else [])
        with runs.Served(given.build, place.there, *slow) as served:
            env = {**os.environ, **runs.FIXED, **({"HIDEWILLOW_RUN_STOPS": "1"} if way == "stops" else {})}
            took = timed(place.command(given.build, served.at, words, *OPTIONS[way]), pinned, given.processor, env=env)
        return *took, {**{it: place.counted(it) for it in COUNTS}, "µs each": place.counted("checkpoints", 3)}
    finally:
        place.away()


def over_sshfs(place, words, delay, pinned):
    with Sftp(delay) as served:
        subprocess.run(["sshfs", "-o", f"directport={served.port}", f"localhost:{place.there}", place.mount], check=True)
        try:
            return timed(["sh", "-c", f'cd {place.mount} && exec "$@"', "sh", *words], pinned)
        finally:
            subprocess.run(["fusermount3", "-u", place.mount], check=False)


def has_sshfs():
    return shutil.which("sshfs") and SFTP.exists() and os.path.exists("/dev/fuse")


def measured(given, work, delay, ways, pinned):
    """The least time of each way, in alternation."""
    times, counts = {}, {}
    for _ in range(given.rounds):
        for way in ways:
            took, status, counted = once(given, work, way, delay, pinned)
            if status:
                print(f"bench: {work}, {way}, {delay} ms: status {status}", file=sys.stderr)
                times[way] = float("nan")
                continue
            if took < times.get(way, float("inf")):
                times[way], counts[way] = took, counted
    return times, counts


def main():
    words = argparse.ArgumentParser(description=__doc__, formatter_class=argparse.RawDescriptionHelpFormatter)
    words.add_argument("--build", type=pathlib.Path, default=runs.TOP / "build")
    words.add_argument("--delays", default="0,2,30")
    words.add_argument("--rounds", type=int, default=3)
    words.add_argument("--bandwidth", type=int)
    words.add_argument("--sources", type=pathlib.Path)
    words.add_argument("--room", type=pathlib.Path)
    words.add_argument("--cpu")
    words.add_argument("--processor", action="store_true")
    words.add_argument("--ways", default=",".join(WAYS))
    words.add_argument("works", nargs="*")
    given = words.parse_args()
    runs.ROOM = given.room or runs.ROOM
    works = given.works or [it for it, (tree, _) in WORKS.items() if isinstance(tree, dict) or given.sources]
    ways = [it for it in given.ways.split(",") if it != "sshfs" or has_sshfs()]
    pinned = ["taskset", "-c", given.cpu] if given.cpu else []
    print(f"{os.uname().release}, {os.cpu_count()} processors, load {os.getloadavg()[0]:.1f}, {time.strftime('%Y-%m-%d %H:%M')}, "
          f"folders in {runs.ROOM}, {given.bandwidth or 'any number of'} bytes/s, least of {given.rounds}"
          f"{', processor time' if given.processor else ''}\n")
    columns = ["work", "delay, ms", *ways, *COUNTS, "µs each"]
    print("| " + " | ".join(columns) + " |")
    print("|" + "---|" * len(columns))
    for work in works:
        for delay in (int(it) for it in given.delays.split(",")):
            times, counts = measured(given, work, delay, ways, pinned)
            row = [f"{times.get(it, float('nan')):.2f}" for it in ways]
            here = counts.get("here", {})
            row += [str(here.get(it, "")) for it in [*COUNTS, "µs each"]]
            print(f"| {work} | {delay} | " + " | ".join(row) + " |", flush=True)
    return 0


if __name__ == "__main__":
    sys.exit(main())
