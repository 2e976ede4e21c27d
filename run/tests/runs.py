#!/usr/bin/env python3
"""Tries what runs commands over a remote folder: whether they do as they do here.

    run/tests/runs.py [--build FOLDER] [--wrong FOLDER] [--rounds N] [--seed N] [PART..]

FOLDER of --build has hidewillow-run and hidewillow-files (build/ where it isn't named); that of --wrong has a hidewillow-run that was
built with the feature `wrong`, for the part of that name. Parts: ways, same, foreign, listing, copy, held, deaths, resume, wrong, appends, waits; all but
`wrong` where none is named. The last line is 'N passed, M failed'.

ways     over ssh, and over a server that is started here; by another user than root
same     commands and a build, with epochs refused at random: status, output and each file are as of a local run
foreign  the same while another program gives the files new versions
listing  what the server says of a name that a call which waits has moved meanwhile is of before: the name isn't listed once more
copy     clients that count under a lock folder, and clients that append to one file: nothing is lost or made twice
held     with a long way nothing is shown, and no outside file appears, before the server has answered
resume   a server that is killed and comes back: status, output and files are as of a local run
deaths   either side is killed at random moments: what was shown is on the server, and the rest is as if it never began
appends  two processes of each client append to one file, which each opens for each line, or which both keep open: nothing is lost
waits    who waits for children goes on, while what is open is read anew since others append to it
wrong    supervisors and servers that are wrong on purpose: each is found by one of the others
"""
import argparse
import os
import pathlib
import random
import shutil
import signal
import stat
import subprocess
import sys
import tempfile
import threading
import time

TOP = pathlib.Path(__file__).resolve().parents[2]
ROOM = pathlib.Path("/dev/shm" if os.path.isdir("/dev/shm") else tempfile.gettempdir())
FIXED = {
    "LC_ALL": "C", "HOME": "/nowhere", "GIT_AUTHOR_NAME": "a", "GIT_AUTHOR_EMAIL": "a@b", "GIT_COMMITTER_NAME": "a",
    "GIT_COMMITTER_EMAIL": "a@b", "GIT_AUTHOR_DATE": "2020-01-01T00:00:00Z", "GIT_COMMITTER_DATE": "2020-01-01T00:00:00Z",
    "GIT_CONFIG_NOSYSTEM": "1", "GIT_CONFIG_COUNT": "2", "GIT_CONFIG_KEY_0": "core.trustctime", "GIT_CONFIG_VALUE_0": "false",
    "GIT_CONFIG_KEY_1": "core.checkStat", "GIT_CONFIG_VALUE_1": "minimal",
}
LONG = 120


class Served:
    """A folder that is served at a port, as long as the block lasts."""

    port = 0

    def __init__(self, build, folder, *options):
        self.folder, self.secret = folder, folder.parent / f"{folder.name}.secret"
        self.secret.write_text(f"secret {random.random()}")
        self.build, self.options = build, options

    def __enter__(self):
        self.command = [self.build / "hidewillow-files", "--listen", f"127.0.0.1:{self.port}", "--secret-file", self.secret, *self.options,
                        self.folder]
        self.process = subprocess.Popen([str(it) for it in self.command], stderr=subprocess.PIPE, text=True)
        line = self.process.stderr.readline()
        self.port = int(line.strip().rsplit(":", 1)[1])
        self.at = f"tcp:{self.port}:{self.secret}"
        threading.Thread(target=self.process.stderr.read, daemon=True).start()
        return self

    def __exit__(self, *_):
        self.process.kill()
        self.process.wait()


class Place:
    """A room of its own for a run: a tree for each side, and where it is mounted."""

    def __init__(self, tree=None):
        self.room = pathlib.Path(tempfile.mkdtemp(prefix="hidewillow-", dir=ROOM))
        self.here, self.there, self.mount = self.room / "here", self.room / "there", self.room / "mount"
        self.stats = self.room / "stats"
        for it in (self.here, self.there, self.mount):
            it.mkdir()
        for it in (self.here, self.there):
            fill(it, tree or {})

    def command(self, build, at, words, *options):
        inside = f'cd {self.mount} && exec "$@"'
        return [str(it) for it in (build / "hidewillow-run", "--at", at, "--mount", self.mount, f"--stats={self.stats}",
                                   *options, "--", "sh", "-c", inside, "sh", *words)]

    def counted(self, what, word=1):
        lines = self.stats.read_text().splitlines() if self.stats.exists() else []
        values = [it.split()[word] for it in lines if it.startswith(f"{what} ")]
        return int(values[0]) if values else 0

    def away(self):
        shutil.rmtree(self.room, ignore_errors=True)


def fill(folder, tree):
    """Makes files from their contents; a name that ends with / is a folder."""
    for name, contents in tree.items():
        path = folder / name
        path.parent.mkdir(parents=True, exist_ok=True)
        if name.endswith("/"):
            path.mkdir(exist_ok=True)
        else:
            path.write_text(contents)
            path.chmod(0o755 if contents.startswith("#!") else 0o644)


def ran(command, **how):
    how = {"stdin": subprocess.DEVNULL, "capture_output": True, "timeout": LONG, "env": {**os.environ, **FIXED}, **how}
    return subprocess.run(command, check=False, **how)


def locally(place, words):
    """The same command on this side's tree, at the same path."""
    inside = (f'mount --bind {place.here} {place.mount} && cd {place.mount} && exec "$@"')
    rights = [] if os.geteuid() == 0 else ["-Ur"]
    return ran(["unshare", *rights, "-m", "sh", "-c", inside, "sh", *words])


def picture(folder, but=()):
    found = {}
    for at, folders, files in os.walk(folder):
        folders[:] = [it for it in folders if it != ".hidewillow-files"]
        for it in folders + files:
            path = pathlib.Path(at, it)
            name = str(path.relative_to(folder))
            if name in but:
                continue
            mode = path.lstat().st_mode
            contents = os.readlink(path) if stat.S_ISLNK(mode) else path.read_bytes() if stat.S_ISREG(mode) else None
            found[name] = (stat.S_IFMT(mode), 0 if stat.S_ISLNK(mode) else stat.S_IMODE(mode), contents)
    return found


def c_project(files):
    tree = {"Makefile": "CFLAGS=-O0\nOBJ=" + " ".join(f"f{at}.o" for at in range(files)) + " main.o\n"
            "all: app\n\t./app > said\n\tcat said\napp: $(OBJ)\n\t$(CC) -o $@ $^\n%.o: %.c all.h\n\t$(CC) $(CFLAGS) -c -o $@ $<\n"
            "clean:\n\trm -f *.o app said\n"}
    tree["all.h"] = "".join(f"int f{at}(int);\n" for at in range(files))
    for at in range(files):
        tree[f"f{at}.c"] = f'#include "all.h"\nint f{at}(int x) {{ return x * {at + 3} + {at}; }}\n'
    calls = " + ".join(f"f{at}({at})" for at in range(files))
    tree["main.c"] = f'#include "all.h"\n#include <stdio.h>\nint main(void) {{ printf("%d\\n", {calls}); return 0; }}\n'
    return tree


SHELL = """
set -u
for i in 1 2 3 4 5 6 7 8; do echo "line $i" >> log; mkdir d$i; echo $i > d$i/n; done
cat d*/n | sort -r | while read n; do echo "read $n"; echo $n >> back; done
{ read a; read b; cat > rest; } < log; echo "$a,$b"; wc -l < rest
exec 3< log 4>> both; read x <&3; echo "$x" >&4; ( read y <&3; echo "sub $y" >&4 ); read z <&3; echo "$z" >&4; cat both
ln log hard; ln -s log soft; echo more >> hard; tail -n 1 soft; ls; mv d1 e1; rmdir d2 2>/dev/null || echo "not empty"
rm -r d3; test -e d3 || echo gone; chmod 600 log; stat -c %a hard; mkfifo p; (echo through > p &) ; cat p; rm p
i=0; while [ $i -lt 20 ]; do echo $i > w; read v < w; [ "$v" = $i ] || echo "bad $v"; i=$((i+1)); done; kill -0 $$ && exit 7
"""
PYTHON = """
import os, threading, subprocess, json
def work(n):
    for k in range(8):
        with open(f'f{n}', 'a') as f: f.write(f'{n} {k}\\n')
        os.replace(f'f{n}', f'g{n}'); os.rename(f'g{n}', f'f{n}')
ts = [threading.Thread(target=work, args=(n,)) for n in range(4)]
[t.start() for t in ts]; [t.join() for t in ts]
with open('data.json', 'w') as f: json.dump(list(range(1000)), f)
f = open('data.json', 'r+'); f.seek(5); at = f.tell(); f.write('9'); f.close()
print(at, len(open('data.json').read()), sorted(os.listdir('.')))
print(subprocess.run(['wc', '-l', 'f0', 'f1', 'f2', 'f3'], capture_output=True, text=True).stdout)
for n in range(4): assert open(f'f{n}').read().split('\\n')[:-1] == [f'{n} {k}' for k in range(8)]
"""
ODD = """
import ctypes, os, signal
libc = ctypes.CDLL(None, use_errno=True)
def exchange(a, b): return libc.renameat2(-100, a.encode(), -100, b.encode(), 2)
os.mkdir('d')
for name, text in (('a', '1'), ('d/b', '2'), ('x', '')):
    with open(name, 'w') as f: f.write(text)
for n in range(9): print(exchange('a', 'd/b'), open('a').read(), open('d/b').read())
print(exchange('d', 'a'), os.path.isdir('a'), open('d').read(), os.listdir('a'), exchange('a', 'none'), ctypes.get_errno())
for n in range(30):
    t = os.stat('a').st_mtime_ns
    with open('x', 'a') as f: f.write('x')
    assert os.stat('a').st_mtime_ns == t
    open(f'a/n{n}', 'w').close(); os.unlink(f'a/n{n}')
read, write = os.pipe()
child = os.fork()
if not child:
    os.close(write)
    os.kill(os.getpid(), signal.SIGSTOP)
    os.read(read, 1)
    open('on', 'w').close()
    os._exit(3)
print(os.WSTOPSIG(os.waitpid(child, os.WUNTRACED)[1]) == signal.SIGSTOP, os.waitpid(child, os.WNOHANG))
os.kill(child, signal.SIGCONT)
print(os.WIFCONTINUED(os.waitpid(child, os.WCONTINUED)[1]))
try: os.setpgid(child, 1)
except PermissionError: print('no such group')
os.setpgid(child, child)
os.write(write, b'x')
print(os.waitpid(-child, 0)[1], os.path.exists('on'))
os.chown('on', os.getuid(), -1)
gone, over = open('gone', 'w+'), open('over', 'w+')
open('new', 'w').close()
os.unlink('gone'); os.rename('new', 'over')
print(os.fstat(gone.fileno()).st_nlink, os.fstat(over.fileno()).st_nlink)
"""
READING = """
import os
os.mkdir('many')
names = [f'name-{n:04}-' + 'x' * 190 for n in range(400)]
for name in names: os.symlink('x', 'many/' + name)
seen = []
with os.scandir('many') as it:
    for entry in it:
        seen.append(entry.name)
        os.unlink('many/' + entry.name)
print(len(seen), sorted(seen) == names)
os.rmdir('many')
"""
# Files that are open at a checkpoint, and removed behind it.
REMOVED = """
import os, time
for n in range(20):
    fd = os.open('a', os.O_RDWR | os.O_CREAT, 0o600)
    time.sleep(0.012)
    os.mkdir('x'); os.rmdir('x')
    print(os.readlink(f'/proc/self/fd/{fd}')); os.write(fd, b'more'); os.fchmod(fd, 0o644); os.close(fd)
    print(oct(os.stat('a').st_mode), open('a').read())
    os.rename('a', 'b'); os.unlink('b'); os.mkdir('x'); os.rmdir('x')
"""
WRITING = """
import os
for n in range(20):
    with open(f'w{n % 4}', 'w' if n < 4 else 'a') as f:
        f.write(f'first {n}, '); f.flush(); os.stat(f.name); os.fchmod(f.fileno(), 0o640); os.stat(f.name)
        f.write('more\\n')
print([open(f'w{n}').read() for n in range(4)])
"""
GIT = """
git init -q -b main . && git add . && git commit -qm one && echo '/* more */' >> f0.c && git diff --stat && git commit -qam two &&
git checkout -q -b side HEAD~1 && echo side > side && git add side && git commit -qm three && git checkout -q main && git merge -q side -m m &&
git log --format=%H && git status --short && git fsck 2>&1 | head -3
"""
# One file, open in many ways at once: duplicates, forks, by two names, under another name, cut, without a name, mapped.
SHARED = """
import ctypes, fcntl, mmap, os
def child(work):
    pid = os.fork()
    if not pid:
        work()
        os._exit(0)
    os.waitpid(pid, 0)
def both(n):
    os.write(b, b'child %d\\n' % n); os.mkdir('x'); os.rmdir('x'); os.write(a, b'behind %d\\n' % n)
a = os.open('log', os.O_RDWR | os.O_CREAT | os.O_APPEND)
b = os.dup(a)
for n in range(8):
    os.write(a, b'first %d\\n' % n)
    child(lambda: both(n))
    with open('log', 'a') as other: other.write(f'other {n}\\n')
    os.stat('log')
    if n % 4 == 0: os.rename('log', 'moved'); os.write(b, b'moved\\n'); os.rename('moved', 'log')
    if n % 4 == 1: os.link('log', 'hard'); os.write(a, b'hard\\n'); os.unlink('log'); os.stat('hard'); os.rename('hard', 'log')
    if n % 4 == 2: os.truncate('log', 60); os.write(a, b'cut\\n'); os.stat('log'); os.ftruncate(b, 50)
    if n % 4 == 3: open('over', 'w').close(); os.rename('over', 'kept'); os.write(a, b'kept\\n')
print(os.pread(a, 9999, 0).decode(), os.fstat(b).st_nlink)
os.close(b)
old = os.open('log', os.O_WRONLY | os.O_APPEND)
with open('new', 'w') as new: new.write('taken\\n')
os.rename('new', 'log'); os.write(old, b'nowhere\\n'); os.write(a, b'nowhere\\n'); os.close(old); os.close(a); os.stat('log')
nameless = os.open('.', os.O_TMPFILE | os.O_RDWR, 0o600)
os.write(nameless, b'one\\n'); ctypes.CDLL(None).linkat(-100, b'/proc/self/fd/%d' % nameless, -100, b'named', 0x400)
os.stat('named'); os.write(nameless, b'two\\n'); os.stat('named'); os.close(nameless)
late = os.open('late', os.O_WRONLY | os.O_CREAT); fcntl.fcntl(late, fcntl.F_SETFL, os.O_APPEND)
for n in range(6): os.write(late, b'late\\n'); os.stat('late'); open('late', 'r+').close()
with open('late', 'r+') as f: f.write('LATE')
os.write(late, b'end\\n'); os.close(late)
for n in range(4):
    fd = os.open('record', os.O_RDWR | os.O_CREAT)
    child(lambda: (os.pwrite(fd, b'%d' % n, n * 5), os.mkdir('y'), os.rmdir('y'), os.pwrite(fd, b'end', 30)))
    os.pwrite(fd, b'x', n); os.close(fd); os.stat('record')
umask = os.umask(0o477)
blind = os.open('blind', os.O_WRONLY | os.O_CREAT); os.umask(umask)
for n in range(6): os.write(blind, b'blind\\n'); os.stat('blind')
os.close(blind)
for name in sorted(os.listdir('.')): print(name, oct(os.stat(name).st_mode), name != 'blind' and open(name).read())
# from here on each call waits
fd = os.open('map', os.O_RDWR | os.O_CREAT); os.ftruncate(fd, 4096); m = mmap.mmap(fd, 4096); os.close(fd)
for n in range(8): m[n] = 65 + n; os.stat('log')
m.close()
"""
FILES = "mkdir -m 700 own && tar cf x.tar *.c *.h && mkdir y && tar xf x.tar -C y && cp -r y z && diff -r y z && echo same && rm -r y && tar tvf x.tar | wc -l && rm x.tar && ls -R"
PIPE = "seq 1 150 | while read n; do echo $n >> back; mv back over; mv over back; done; wc -l < back; cat back"
OFFSETS = "seq 1 80 > lines; exec 3< lines; while read n <&3; do echo $n >> back; mkdir x; rmdir x; done; cat back"
COMMANDS = {
    "pipe": ({}, ["sh", "-c", PIPE], ()),
    "offsets": ({}, ["sh", "-c", OFFSETS], ()),
    "shell": ({}, ["sh", "-c", SHELL], ()),
    "make": (c_project(6), ["make", "-s"], ()),
    "make -j3": (c_project(8), ["make", "-s", "-j3"], ()),
    "git": (c_project(4), ["sh", "-c", GIT], {".git/index"}),
    "files": (c_project(9), ["sh", "-c", FILES], ()),
    "python": ({}, [sys.executable, "-c", PYTHON], ()),
    "odd": ({}, [sys.executable, "-c", ODD], ()),
    "removed": ({}, [sys.executable, "-c", REMOVED], ()),
    "writing": ({}, [sys.executable, "-c", WRITING], ()),
    "reading": ({}, [sys.executable, "-c", READING], ()),
    "shared": ({}, [sys.executable, "-c", SHARED], ()),
}


def compare(place, here, there, but):
    """What differs between a local run and one over the server; nothing where they are the same."""
    bad = []
    if here.returncode != there.returncode:
        bad.append(f"status {here.returncode} there {there.returncode}")
    for name, one, other in (("output", here.stdout, there.stdout), ("errors", here.stderr, there.stderr)):
        if one != other:
            bad.append(f"{name}: {one[-300:]!r} there {other[-300:]!r}")
    one, other = picture(place.here, but), picture(place.there, but)
    bad += [f"{it}: {one.get(it)!r:.120} there {other.get(it)!r:.120}" for it in sorted({*one, *other}) if one.get(it) != other.get(it)]
    return bad


# A file that gets a new version between two looks of git counts for git as changed, on a local disk too: it is to look at contents.
CONTENTS = {"GIT_CONFIG_COUNT": "1", "GIT_CONFIG_KEY_0": "core.checkStat", "GIT_CONFIG_VALUE_0": "minimal"}


def change_versions(folder, stop, seed, longest=0.05):
    """Gives files new versions that change nothing, as where somebody writes the same once more."""
    dice = random.Random(seed)
    while not stop.wait(dice.uniform(0.001, longest)):
        files = [pathlib.Path(at, it) for at, folders, names in os.walk(folder)
                 for it in names if ".hidewillow" not in at and ".git" not in at]
        for it in files and [dice.choice(files)]:
            try:
                # no owner is named: nothing that was seen before can be put back
                os.chown(it, -1, -1, follow_symlinks=False)
            except OSError:
                pass


def same(given, name, percent, seed, foreign=False, env=None, options=()):
    """Runs a command on both sides; what differs, and how often it went back."""
    tree, words, but = COMMANDS[name]
    place, stop = Place(tree), threading.Event()
    try:
        here = locally(place, words)
        with Served(given.build, place.there, "--delay-ms", "5", "--refuse-percent", str(percent), "--seed", str(seed), *options) as served:
            longest = 0.01 if name == "writing" else 0.05
            changing = threading.Thread(target=change_versions, args=(place.there, stop, seed, longest))
            if foreign:
                changing.start()
            try:
                build = given.wrong if env else given.build
                there = ran(place.command(build, served.at, words), env={**os.environ, **FIXED, **(CONTENTS if foreign else {}), **(env or {})})
            finally:
                stop.set()
                if foreign:
                    changing.join()
        return compare(place, here, there, but), place.counted("rollbacks")
    except subprocess.TimeoutExpired:
        return ["it did not end"], 0
    finally:
        place.away()


class Counted:
    passed = failed = 0

    def said(self, what, bad):
        if bad:
            self.failed += 1
            print(f"runs: {what}: " + "\n  ".join(str(it) for it in bad[:6]), flush=True)
        else:
            self.passed += 1


def seeds(given):
    return range(given.seed, given.seed + given.rounds)


def part_same(given, counted):
    back = 0
    for seed in seeds(given):
        for percent in (0, 1, 10, 30):
            for name in COMMANDS:
                bad, count = same(given, name, percent, seed * 31 + percent)
                back += count
                counted.said(f"same: {name}, {percent} % refused, seed {seed}", bad)
        print(f"runs: same: went back {back} times", flush=True)


def part_foreign(given, counted):
    back = 0
    for seed in seeds(given):
        for name in COMMANDS:
            bad, count = same(given, name, 0, seed, foreign=True)
            back += count
            counted.said(f"foreign: {name}, seed {seed}", bad)
        print(f"runs: foreign: went back {back} times", flush=True)


# The file that is read has a new name, so what the server has under its version is asked for once more; just before that is answered it is
# moved away, by a call that waits.
LISTING = """
import os, threading, time
def read():
    try: open('b').read()
    except FileNotFoundError: pass
os.rename('a', 'b')
reader = threading.Thread(target=read)
reader.start()
time.sleep({0} * 1.5)
os.rename('b', 'c')
reader.join()
print(os.listdir('.'), len(open('c').read()))
"""


def lists(given, delay):
    # it is longer than what comes along at the start
    place = Place({"a": "x" * 300_000})
    words = [sys.executable, "-c", LISTING.format(delay)]
    try:
        here = locally(place, words)
        with Served(given.build, place.there, "--delay-ms", str(int(delay * 1000))) as served:
            there = ran(place.command(given.build, served.at, words, "--strict"))
        return compare(place, here, there, ())
    except subprocess.TimeoutExpired:
        return ["it did not end"]
    finally:
        place.away()


def part_listing(given, counted):
    for at in range(given.rounds):
        counted.said(f"listing, {at}", lists(given, 0.2))


COUNT = """
i=0
while [ $i -lt $2 ]; do
  until mkdir lock 2>/dev/null; do :; done
  read n < count; n=$((n+1)); echo $n > new.$1; mv new.$1 count; echo "$1 $n" >> order; rmdir lock; echo "$n"; i=$((i+1))
done
"""


def count_together(given, clients, rounds, env=None):
    place = Place({"count": "0\n", "order": "", "count.sh": COUNT})
    try:
        with Served(given.build, place.there, "--delay-ms", "3") as served:
            running = []
            for at in range(clients):
                mount = place.room / f"mount{at}"
                mount.mkdir()
                place.mount, place.stats = mount, place.room / f"stats{at}"
                command = place.command(given.wrong if env else given.build, served.at, ["sh", "count.sh", f"c{at}", str(rounds)])
                running.append(subprocess.Popen(command, stdout=subprocess.PIPE, stderr=subprocess.PIPE, text=True,
                                                stdin=subprocess.DEVNULL, env={**os.environ, **(env or {})}))
            said = [it.communicate(timeout=LONG) for it in running]
        bad = [f"status {it.returncode}: {err[-200:]}" for it, (_, err) in zip(running, said) if it.returncode]
        numbers = sorted(int(it) for out, _ in said for it in out.split())
        order = [int(it.split()[1]) for it in (place.there / "order").read_text().splitlines()]
        all_of = list(range(1, clients * rounds + 1))
        if numbers != all_of or order != all_of or (place.there / "count").read_text() != f"{clients * rounds}\n":
            bad.append(f"count {(place.there / 'count').read_text()!r}, shown {numbers}, order {order}")
        return bad
    except subprocess.TimeoutExpired:
        for it in running:
            it.kill()
        return ["it did not end"]
    finally:
        place.away()


APPEND_PY = """
import os, sys
for k in range(int(sys.argv[2])):
    f = open('log', 'ab', buffering=0)
    os.stat('other'); open(f'own.{sys.argv[1]}', 'w').close()
    f.write(f'{sys.argv[1]} {k}\\n'.encode())
    os.stat('other'); f.close()
"""
APPEND_SH = """
loop() { i=0; while [ $i -lt $2 ]; do echo "$1 $i" >> log; i=$((i+1)); mkdir d.$1; rmdir d.$1; done; }
loop $1 $2 & loop $1+ $2 & wait
"""
# Two processes with one description that stays open, and its duplicate; it is set to append where it wasn't opened so.
APPEND_KEPT = """
import fcntl, os, sys
f = os.open('log', os.O_WRONLY | int(sys.argv[3]))
fcntl.fcntl(f, fcntl.F_SETFL, os.O_APPEND)
g, pid = os.dup(f), os.fork()
who = sys.argv[1] + ('' if pid else '+')
for k in range(int(sys.argv[2])):
    os.write(f if k % 2 else g, f'{who} {k}\\n'.encode())
    os.stat('other'); open(f'own.{who}', 'w').close()
os.close(f); os.close(g)
if pid: os.waitpid(pid, 0)
"""
# All are stopped each time that another client's lines come: just then a child may be born or end, or its end be told within a fork.
WAIT_SH = """
exec 3>> log; i=0
while [ $i -lt $2 ]; do
  echo "$1 $i" >> log; i=$((i+1))
  for k in 1 2 3 4 5 6; do (exit 0) & done; wait
done
"""
APPENDS = {
    "waits": (["sh", "wait.sh"], [""]),
    "python": ([sys.executable, "append.py"], [""]),
    "shell": (["sh", "append.sh"], ["", "+"]),
    "kept": ([sys.executable, "kept.py"], ["", "+"]),
    "set": ([sys.executable, "kept.py"], ["", "+"]),
}


def append_together(given, kind, clients, rounds, env=None):
    """Clients that append to one file without a lock, which stays open over other calls: each line is there once, in its writer's order."""
    words, writers = APPENDS[kind]
    scripts = {"append.py": APPEND_PY, "append.sh": APPEND_SH, "kept.py": APPEND_KEPT, "wait.sh": WAIT_SH}
    place = Place({"log": "", "other": "x", **scripts})
    running = []
    try:
        with Served(given.build, place.there, "--delay-ms", "3") as served:
            for at in range(clients):
                place.mount, place.stats = place.room / f"mount{at}", place.room / f"stats{at}"
                place.mount.mkdir()
                flag = 0 if kind == "set" else os.O_APPEND
                build = given.wrong if env else given.build
                command = place.command(build, served.at, [*words, f"c{at}", str(rounds), str(flag)])
                running.append(subprocess.Popen(command, stdout=subprocess.DEVNULL, stderr=subprocess.PIPE, text=True,
                                                stdin=subprocess.DEVNULL, env={**os.environ, **(env or {})}))
            said = [it.communicate(timeout=LONG)[1] for it in running]
        bad = [f"status {it.returncode}: {err[-200:]}" for it, err in zip(running, said) if it.returncode or err]
        lines = [it.split() for it in (place.there / "log").read_text().splitlines()]
        for writer in [f"c{at}{it}" for at in range(clients) for it in writers]:
            own = [int(it[1]) for it in lines if it[0] == writer]
            bad += [] if own == list(range(rounds)) else [f"{writer}: {own}"]
        return bad + ([] if len(lines) == clients * len(writers) * rounds else [f"{len(lines)} lines"])
    except subprocess.TimeoutExpired:
        for it in running:
            it.kill()
        return ["it did not end"]
    finally:
        place.away()


def part_copy(given, counted):
    for at in range(given.rounds * 2):
        counted.said(f"copy, {at}", count_together(given, 2 + at % 3, 6))
        counted.said(f"copy: appends, python, {at}", append_together(given, "python", 4, 6))


def part_appends(given, counted):
    for at in range(given.rounds * 2):
        for kind in ("shell", "kept", "set"):
            counted.said(f"appends: {kind}, {at}", append_together(given, kind, 4, 6))


def part_waits(given, counted):
    for at in range(given.rounds * 4):
        counted.said(f"waits, {at}", append_together(given, "waits", 4, 40))


# The folder is asked for behind that moment, however slow the machine is.
HELD = "cat a >/dev/null; t=$(date +%s.%N); mkdir d; echo $t; echo $t > {outside}"


def is_held(given, env=None):
    place = Place({"a": "1\n"})
    outside = place.room / "outside"
    try:
        with Served(given.build, place.there, "--delay-ms", "2000") as served:
            command = place.command(given.wrong if env else given.build, served.at, ["sh", "-c", HELD.format(outside=outside)])
            process = subprocess.Popen(command, stdout=subprocess.PIPE, stdin=subprocess.DEVNULL, text=True, env={**os.environ, **(env or {})})
            line = process.stdout.readline()
            shown, bad = time.time(), []
            process.wait(LONG)
        if not line.strip():
            return ["nothing was shown"]
        began = float(line)
        if shown - began < 1.8:
            bad.append(f"shown {shown - began:.2f} s after what it depends on")
        if not outside.exists() or outside.stat().st_mtime - began < 1.8:
            bad.append("the outside file came too soon")
        return bad
    finally:
        place.away()


def part_held(given, counted):
    counted.said("held", is_held(given))


LOOP = "i=0; while [ $i -lt 400 ]; do i=$((i+1)); echo $i >> log; mkdir d$i; mv d$i e$i; echo $i; done"


def dies(given, dice, whom):
    """Kills one side; what then is there must be some moment of the loop, and all that was shown behind it."""
    place = Place()
    try:
        with Served(given.build, place.there, "--delay-ms", "5") as served:
            command = place.command(given.build, served.at, ["sh", "-c", LOOP])
            process = subprocess.Popen(command, stdout=subprocess.PIPE, stderr=subprocess.PIPE, stdin=subprocess.DEVNULL, text=True)
            dying = threading.Timer(dice.uniform(0.1, 1.5), (served.process if whom == "server" else process).kill)
            dying.start()
            out, err = process.communicate(timeout=LONG)
            dying.cancel()
            ended = served.process.poll() is not None
        # A start makes good what was decided.
        ran([str(given.build / "hidewillow-files"), str(place.there)])
        shown = [int(it) for it in out.split("\n")[:-1]]
        log = [int(it) for it in (place.there / "log").read_text().split()] if (place.there / "log").exists() else []
        folders = sorted(int(it.name[1:]) for it in place.there.iterdir() if it.name[0] in "de" and it.name[1:].isdigit())
        bad = []
        if whom == "server" and ended and (process.returncode not in (0, 75) or (process.returncode == 75 and not err.strip())):
            bad.append(f"status {process.returncode}, {err[-200:]!r}")
        if shown != list(range(1, len(shown) + 1)) or log != list(range(1, len(log) + 1)) or len(log) < len(shown):
            bad.append(f"shown {shown[-3:]}, log {log[-3:]}")
        if folders != list(range(1, len(folders) + 1)) or not len(log) - 1 <= len(folders) <= len(log):
            bad.append(f"folders to {len(folders)}, log to {len(log)}")
        if left := left_behind(place.mount):
            bad.append(f"processes left: {left}")
        return bad
    except subprocess.TimeoutExpired:
        process.kill()
        return ["it did not end"]
    finally:
        place.away()


def left_behind(mount):
    """The processes that still have a command of this mount, after a moment."""
    for _ in range(20):
        left = [it.name for it in pathlib.Path("/proc").iterdir() if it.name.isdigit() and has_word(it, str(mount))]
        if not left:
            return []
        time.sleep(0.1)
    return left


def has_word(process, word):
    try:
        return word in (process / "cmdline").read_text()
    except OSError:
        return False


def children_of(process):
    return [int(it) for it in pathlib.Path(f"/proc/{process}/task/{process}/children").read_text().split()]


def puts_back(given):
    """Where it is killed, a scratch folder has again what it had before all that was not decided."""
    place = Place({"n": "1\n"})
    scratch = place.room / "scratch"
    fill(scratch, {"changed": "before", "gone": "it", "folder/": ""})
    here = picture(scratch)
    try:
        with Served(given.build, place.there, "--delay-ms", "2000") as served:
            inside = f"cat n; cd {scratch}; echo new > changed; rm gone; rmdir folder; mv changed moved; echo > made; sleep 9"
            process = subprocess.Popen(place.command(given.build, served.at, ["sh", "-c", inside], "--scratch", scratch),
                                       stdin=subprocess.DEVNULL, stdout=subprocess.DEVNULL, stderr=subprocess.DEVNULL)
            begin = time.time()
            while not (scratch / "made").exists() and time.time() - begin < LONG:
                time.sleep(0.02)
            did = picture(scratch)
            process.kill()
            process.wait()
            left = left_behind(place.mount)
        return [] if did != here == picture(scratch) and not left else [f"was {did}", f"is {picture(scratch)}", f"left {left}"]
    finally:
        place.away()


def leaves_nothing(given):
    """What a run kept in a scratch folder whose supervisor was killed, too, goes with the next one."""
    place = Place({"n": "1\n"})
    scratch = place.room / "scratch"
    scratch.mkdir()
    try:
        with Served(given.build, place.there, "--delay-ms", "50") as served:
            loop = f"while :; do cat n; echo x > {scratch}/a; rm {scratch}/a; done"
            process = subprocess.Popen(place.command(given.build, served.at, ["sh", "-c", loop], "--scratch", scratch),
                                       stdin=subprocess.DEVNULL, stdout=subprocess.DEVNULL, stderr=subprocess.DEVNULL)
            begin = time.time()
            while not list(scratch.glob(".hidewillow*")) and time.time() - begin < LONG:
                time.sleep(0.02)
            process.send_signal(signal.SIGSTOP)
            for it in children_of(process.pid):
                os.kill(it, signal.SIGKILL)
            process.kill()
            process.wait()
            left_behind(place.mount)
            there = bool(list(scratch.glob(".hidewillow*")))
            ran(place.command(given.build, served.at, ["true"], "--scratch", scratch))
        left = list(scratch.glob(".hidewillow*"))
        return [] if there and not left else [f"there before: {there}; left: {left}"]
    finally:
        place.away()


def part_deaths(given, counted):
    counted.said("deaths: scratch", leaves_nothing(given))
    counted.said("deaths: scratch is put back", puts_back(given))
    dice = random.Random(17)
    for at in range(given.rounds * 4):
        whom = ("server", "client")[at % 2]
        counted.said(f"deaths: {whom}, {at}", dies(given, dice, whom))


RESUMED = "i=0; while [ $i -lt 250 ]; do i=$((i+1)); echo $i >> log; mkdir d$i; mv d$i e$i; echo $i > f; cat f; done"


def goes_on(given, dice):
    """The server is killed again and again, and comes back: nothing is lost, and nothing done twice."""
    place, stop = Place(), threading.Event()
    here = locally(place, ["sh", "-c", RESUMED])
    try:
        with Served(given.build, place.there, "--delay-ms", "5") as served:
            def kills():
                # Where the server is lost before it has said what there is, nothing began that could go on.
                while not (place.there / "log").exists() and not stop.wait(0.005):
                    pass
                longest = 0.2
                while not stop.wait(dice.uniform(longest / 10, longest)):
                    served.process.kill()
                    served.process.wait()
                    stop.wait(dice.uniform(0, 0.3))
                    served.__enter__()
                    longest = 1.5
            killing = threading.Thread(target=kills)
            command = place.command(given.build, served.at, ["sh", "-c", RESUMED], "--resume")
            killing.start()
            try:
                there = ran(command)
            finally:
                stop.set()
                killing.join()
        lost = there.stderr.count(b"is lost")
        there.stderr = b""
        return compare(place, here, there, ()) or ([] if lost else ["the server was never lost"])
    except subprocess.TimeoutExpired:
        return ["it did not end"]
    finally:
        place.away()


def part_resume(given, counted):
    dice = random.Random(given.seed)
    for at in range(given.rounds * 3):
        counted.said(f"resume, {at}", goes_on(given, dice))


def part_ways(given, counted):
    """Over what ssh would start (a script stands for it), and over a server started here; as another user than root, too."""
    for way in ("ssh", "local", "local, as nobody"):
        place = Place()
        folder = place.room / "it's there"
        fill(folder, {"a": "1\n"})
        script = place.room / "ssh"
        fill(place.room, {"ssh": '#!/bin/sh\n[ "$1" = host ] && shift && exec sh -c "$*"\n'})
        at = f"ssh:host:{folder}" if way == "ssh" else f"local:{folder}"
        command = place.command(given.build, at, ["sh", "-c", "cat a; echo 2 > b; cat b; exit 3"])
        if way.endswith("nobody"):
            if os.geteuid() != 0:
                continue
            subprocess.run(["chown", "-R", "65534:65534", place.room], check=True)
            command = ["setpriv", "--reuid", "65534", "--regid", "65534", "--clear-groups", *command]
        files, before = given.build / "hidewillow-files", (folder / "a").stat().st_ino
        did = ran(command, env={**os.environ, "HIDEWILLOW_SSH": str(script), "HIDEWILLOW_FILES": str(files)})
        there = (folder / "b").read_text() if (folder / "b").exists() else None
        bad = [] if (did.returncode, did.stdout, there) == (3, b"1\n2\n", "2\n") else [did, there]
        bad += [] if (folder / "a").stat().st_ino == before else ["what was read only was written"]
        counted.said(f"ways: {way}", bad)
        place.away()


WRONG = ["output-at-once", "late-checkpoint", "undo-missed", "pipe-empty", "offsets", "predicted", "write-early", "births-forgotten",
         "signal-in-fork"]


def part_wrong(given, counted):
    global LONG
    LONG = 40
    for wrong in WRONG:
        begin = time.time()
        found = is_found(given, {"HIDEWILLOW_RUN_WRONG": wrong})
        counted.said(f"wrong: {wrong}", [] if found else ["it was not found"])
        print(f"runs: wrong: {wrong}: {found or 'not found'}, {time.time() - begin:.0f} s", flush=True)
    found = any(same(given, name, 0, seed, foreign=True, options=("--wrong", "half"))[0]
                for seed in range(8) for name in ("shell", "files", "make"))
    counted.said("wrong: a server that does half an epoch", [] if found else ["it was not found"])


def is_found(given, env):
    """By which test a wrong supervisor is found, if it is."""
    if env["HIDEWILLOW_RUN_WRONG"] in ("output-at-once", "write-early"):
        return "held" if is_held(given, env) else None
    if env["HIDEWILLOW_RUN_WRONG"] in ("births-forgotten", "signal-in-fork"):
        return "waits" if any(append_together(given, "waits", 4, 40, env) for _ in range(12)) else None
    for seed in range(4):
        for percent in (30, 10):
            for name in ("pipe", "offsets", "shell", "python", "make", "files"):
                # What takes too long on a slow machine isn't wrong.
                if [it for it in same(given, name, percent, seed, env=env)[0] if it != "it did not end"]:
                    return f"{name}, {percent} %, seed {seed}"
    return None


def main():
    words = argparse.ArgumentParser(description=__doc__, formatter_class=argparse.RawDescriptionHelpFormatter)
    words.add_argument("--build", type=pathlib.Path, default=TOP / "build")
    words.add_argument("--wrong", type=pathlib.Path)
    words.add_argument("--rounds", type=int, default=1)
    words.add_argument("--seed", type=int, default=0)
    words.add_argument("parts", nargs="*")
    given = words.parse_args()
    parts = {"ways": part_ways, "same": part_same, "foreign": part_foreign, "listing": part_listing, "copy": part_copy, "held": part_held,
             "deaths": part_deaths, "resume": part_resume, "wrong": part_wrong, "appends": part_appends, "waits": part_waits}
    counted = Counted()
    for it in given.parts or [name for name in parts if name != "wrong" or given.wrong]:
        begin = time.time()
        parts[it](given, counted)
        print(f"runs: {it}: {time.time() - begin:.0f} s", flush=True)
    print(f"{counted.passed} passed, {counted.failed} failed")
    return 1 if counted.failed else 0


if __name__ == "__main__":
    signal.signal(signal.SIGPIPE, signal.SIG_DFL)
    sys.exit(main())
