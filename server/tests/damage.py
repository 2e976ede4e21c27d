#!/usr/bin/env python3
"""Damage of every kind to what a server has on its disk, and what a start then says.

    tests/damage.py [--server PROGRAM] [--tries 1000] [--seed 1] [--only STORE] [--shows]
    tests/damage.py --wrong [NAME ..]   builds hosts that are wrong on purpose, and says whether they are found

Stores are made, with the options as they come and with small ones, of one segment and of many, with snapshots, as backups; stopped cleanly,
or by kill -9 with writes under way. Of each it is known what was acknowledged, and each state that it had. Copies of their folders are
damaged: bits, bytes, sectors, cuts, zeros, swaps, insertions, deletions, old over new, files that are gone or have another's name, in
segments, snapshots and the file `store`. `--check` reads each, and what it would start on is served and read whole. Then it must be

    refused    it ends with 1, names what is damaged, and changes nothing
    right      all that was acknowledged is there, and nothing else
    earlier    after kill -9 alone: a state of before, and no more is missing than may have been in flight, none of it acknowledged

and `--check` says 0 only of what is right, or of what a crash leaves. The last line is 'N passed, M failed'.
"""
import argparse
import collections
import concurrent.futures
import contextlib
import os
import pathlib
import random
import re
import shutil
import signal
import socket
import subprocess
import sys
import tempfile
import threading
import time

import crashes
from crashes import ROOMS, TOP, Wrong

SMALL = ["--segment", "64k", "--undecided", "16k", "--snapshot", "1g"]
NAMED = re.compile(r"damaged|isn't what its name says|another store|is gone|neither of its marks|whose the folder is|not what its name says|no segment of the log|no snapshot|a segment of the log")


def run(program, folder, words):
    """A server on a folder, once it listens, and a connection to it; nothing where it refuses."""
    for _ in range(10):
        port = crashes.free_port()
        said = pathlib.Path(f"{folder}.log")
        with said.open("wb") as log:
            all_words = [program, "--folder", folder, "--address", f"{crashes.home()}:{port}", *words]
            process = subprocess.Popen([str(word) for word in all_words], stderr=log)
        for _ in range(4000):
            if process.poll() is not None:
                break
            with contextlib.suppress(OSError):
                return process, socket.create_connection((crashes.home(), port), timeout=300)
            time.sleep(0.005)
        else:
            process.kill()
            process.wait()
            raise Wrong("a server neither listens nor ends")
        # Another may have had the port meanwhile.
        if "Address already in use" not in said.read_text(errors="replace"):
            return None, None
    raise Wrong("no port is free")


def ask(link, commands):
    """Sends commands, and reads as many lines, or bulks."""
    link.sendall(b"".join(b"*%d\r\n" % len(words) + b"".join(b"$%d\r\n%s\r\n" % (len(it), it) for it in words) for words in commands))
    file, told = link.makefile("rb"), []
    for _ in commands:
        told.append(reply(file))
    return told


def reply(file):
    line = file.readline()
    if line[:1] == b"$":
        return None if line == b"$-1\r\n" else file.read(int(line[1:]) + 2)[:-2]
    if line[:1] == b"*":
        return [reply(file) for _ in range(int(line[1:]))]
    return line[1:-2] if line else None


def contents(link):
    """All that a server has."""
    keys = ask(link, [[b"KEYS", b"*"]])[0]
    values = ask(link, [[b"GET", key] for key in keys]) if keys else []
    return dict(zip(keys, values))


class Store:
    """A folder, its states in their order, and which of them were acknowledged."""

    def __init__(self, name, folder, words, stopped):
        self.name, self.folder, self.words, self.stopped = name, folder, words, stopped
        self.states, self.sure, self.whole, self.olds = [], 0, None, []

    def is_state(self, has):
        """The number of a state, the newest first."""
        return next((n for n in range(len(self.states) - 1, -1, -1) if self.states[n] == has), None)


def value(dice, number):
    size = dice.choice([3, 20, 100, 900])
    return b"%d:" % number + bytes(dice.randrange(256) for _ in range(size))


def write(store, link, dice, count, keys=60, at_once=1):
    """Writes, one or some at a time, each acknowledged before the next."""
    has = dict(store.states[-1]) if store.states else {}
    if not store.states:
        store.states.append({})
    for start in range(0, count, at_once):
        commands = []
        for number in range(start, min(count, start + at_once)):
            key, text = b"key:%d" % dice.randrange(keys), value(dice, len(store.states))
            commands.append([b"SET", key, text])
            has = {**has, key: text}
            store.states.append(has)
        if ask(link, commands) != [b"OK"] * len(commands):
            raise Wrong("a write was not acknowledged")
        store.sure = len(store.states) - 1


def write_on(store, port_of, dice, process):
    """Writes on without waiting, until the server is killed; what was acknowledged is told."""
    link, has, count = port_of, dict(store.states[-1]), 0
    file = link.makefile("rb")

    def hears():
        nonlocal count
        with contextlib.suppress(OSError):
            while file.readline() == b"+OK\r\n":
                count += 1
    hearer = threading.Thread(target=hears)
    hearer.start()
    sure = store.sure
    threading.Timer(0.15 + 0.1 * dice.random(), process.kill).start()
    with contextlib.suppress(OSError):
        while process.poll() is None and len(store.states) < 20_000:
            key, text = b"key:%d" % dice.randrange(60), value(dice, len(store.states))
            has = {**has, key: text}
            store.states.append(has)
            link.sendall(b"*3\r\n$3\r\nSET\r\n$%d\r\n%s\r\n$%d\r\n%s\r\n" % (len(key), key, len(text), text))
            time.sleep(0.0002)
    process.wait()
    hearer.join(60)
    store.sure = sure + count


def keep_old(store, room):
    """Copies of all files, as they are now."""
    old = room / f"{store.folder.name}.old{len(store.olds)}"
    shutil.copytree(store.folder, old, ignore=shutil.ignore_patterns("new-*", "lock", "backups"))
    store.olds.append(old)


def make(program, room, name, words, how, seed, snapshot=False, count=300, lives=1):
    """A store that is written, with copies of before, and stopped or killed."""
    dice = random.Random(f"{seed} {name}")
    store = Store(name, room / name, words, how == "stopped")
    for life in range(lives):
        process, link = run(program, store.folder, words)
        if process is None:
            raise Wrong(f"{name}: no server starts")
        write(store, link, dice, count // 3)
        keep_old(store, room)
        if snapshot:
            if ask(link, [[b"SAVE"]]) != [b"OK"]:
                raise Wrong(f"{name}: no snapshot")
        write(store, link, dice, count - count // 3, at_once=dice.choice([1, 8]))
        if how == "killed" and life == lives - 1:
            write_on(store, link, dice, process)
        else:
            link.close()
            process.send_signal(signal.SIGTERM)
            if process.wait(60):
                raise Wrong(f"{name}: a clean stop exits {process.returncode}")
    return store


def backup_of(program, room, store, name):
    """A backup of a store, as a store of its own."""
    process, link = run(program, store.folder, store.words)
    if ask(link, [[b"BACKUP", b"one"]]) != [b"OK"]:
        raise Wrong("no backup")
    link.close()
    process.send_signal(signal.SIGTERM)
    process.wait(60)
    made = Store(name, room / name, store.words, True)
    shutil.move(store.folder / "backups" / "one", made.folder)
    shutil.rmtree(store.folder / "backups")
    made.states, made.sure = store.states[-1:], 0
    return made


# ---- kinds of damage: each is given the dice, the store, and the folder that it changes; it answers what it did, or nothing

def used_end(path):
    """Behind the last byte that isn't 0."""
    return len(path.read_bytes().rstrip(b"\0"))


def pick(dice, folder, kinds=("log", "snapshot", "store")):
    """A file, and how much of it is used."""
    files = [path for path in folder.iterdir() if path.name.startswith(kinds) and used_end(path)]
    if not files:
        return None, 0
    path = dice.choice(sorted(files))
    return path, used_end(path)


def change(path, at, new, length=None):
    """Puts bytes in the place of as many, or of so many."""
    text = path.read_bytes()
    path.write_bytes(text[:at] + new + text[at + (len(new) if length is None else length):])


def of_bits(count):
    def damage(dice, store, folder):
        path, end = pick(dice, folder)
        text = bytearray(path.read_bytes()[:end])
        for _ in range(count):
            bit = dice.randrange(end * 8)
            text[bit // 8] ^= 1 << bit % 8
        change(path, 0, bytes(text))
        return f"{count} bits of {path.name}"
    return damage


def of_span(what, fill, *kinds):
    """A span of a few bytes, a sector, or some of these."""
    def damage(dice, store, folder):
        path, end = pick(dice, folder, kinds or ("log", "snapshot", "store"))
        if path is None:
            return None
        size = min(end, dice.choice([1, 2, 8, 64, 512, 4096]))
        at = dice.randrange(max(1, end - size + 1))
        if size >= 512:
            at -= at % 512
        change(path, at, fill(dice, path.read_bytes()[at:at + size]))
        return f"{what} {size} bytes at {at} of {path.name}"
    return damage


def swap(dice, store, folder):
    path, end = pick(dice, folder)
    size = dice.choice([1, 8, 64, 512, 4096])
    if end < 2 * size:
        return None
    places = sorted(dice.sample(range(end // size), 2))
    text = path.read_bytes()
    one, two = (text[place * size:(place + 1) * size] for place in places)
    if one == two:
        return None
    change(path, places[0] * size, two)
    change(path, places[1] * size, one)
    return f"swapped {size} bytes at {[place * size for place in places]} of {path.name}"


def insert(dice, store, folder):
    path, end = pick(dice, folder)
    at, size = dice.randrange(end), dice.choice([1, 7, 512, 4096])
    change(path, at, dice.choice([bytes(size), dice.randbytes(size)]), 0)
    return f"inserted {size} bytes at {at} of {path.name}"


def delete(dice, store, folder):
    path, end = pick(dice, folder)
    at, size = dice.randrange(end), dice.choice([1, 7, 48, 512, 4096])
    change(path, at, b"", size)
    return f"deleted {size} bytes at {at} of {path.name}"


def cut(dice, store, folder):
    path, end = pick(dice, folder)
    at = dice.choice([0, dice.randrange(end), end - 1])
    os.truncate(path, at)
    return f"cut {path.name} at {at} of {end}"


def zero_tail(dice, store, folder):
    path, end = pick(dice, folder)
    at = dice.choice([0, dice.randrange(end)])
    change(path, at, bytes(end - at))
    return f"zeros from {at} of {end} on in {path.name}"


def append(dice, store, folder):
    path, end = pick(dice, folder, ("log", "snapshot"))
    if path is None:
        return None
    text = path.read_bytes()
    size = dice.choice([1, 40, 512, 4096])
    what = dice.choice([dice.randbytes(size), text[:size], text[max(0, end - size):end]])
    change(path, end + dice.choice([0, 0, 24, 512]), what)
    return f"{len(what)} bytes behind {path.name}"


def old_over_new(dice, store, folder):
    if not store.olds:
        return None
    old = dice.choice(store.olds)
    both = [path for path in sorted(folder.iterdir()) if (old / path.name).is_file() and (old / path.name).read_bytes() != path.read_bytes()]
    if not both:
        return None
    path = dice.choice(both)
    new = (old / path.name).read_bytes()
    if dice.random() < 0.5:
        path.write_bytes(new)
        return f"the old {path.name}"
    size = dice.choice([512, 4096])
    at = dice.randrange(max(1, used_end(path))) // size * size
    if new[at:at + size] == path.read_bytes()[at:at + size]:
        return None
    change(path, at, new[at:at + size])
    return f"{size} old bytes at {at} of {path.name}"


def frames_of(path):
    """Where the frames of a file begin and end, with the envelope before each, as far as these stand there."""
    text, at, frames = path.read_bytes(), 64, []
    while at + 48 <= len(text) and any(text[at:at + 48]):
        end = at + 48 + int.from_bytes(text[at + 36:at + 40], "little")
        is_end = path.name.startswith("snapshot") and at + 48 == len(text)
        if end > len(text) and not is_end:
            break
        frames.append((at, at + 48 if is_end else end))
        at = frames[-1][1]
    return text, frames


def of_frames(dice, store, folder):
    """Whole frames are gone, changed places, are there twice, or all behind one are gone; or what stands around them is."""
    path, _ = pick(dice, folder, ("log", "snapshot"))
    if path is None:
        return None
    text, frames = frames_of(path)
    if len(frames) < 2:
        return None
    place = dice.randrange(len(frames))
    (at, end), (next_at, next_end) = frames[place], frames[min(place + 1, len(frames) - 1)]
    how = dice.choice(["deleted", "zeros", "swapped", "twice", "the last", "cut", "cut", "envelope"])
    front, one, two, behind = text[:at], text[at:end], text[next_at:next_end] if next_at > at else b"", text[max(end, next_end):]
    new = {"deleted": front + two + behind, "zeros": front + bytes(len(one)) + two + behind, "swapped": front + two + one + behind,
           "twice": front + one + one + two + behind, "the last": front + bytes(len(text) - at), "cut": front,
           "envelope": front + bytes(48) + one[48:] + two + behind}[how]
    if new == text or how == "twice" and len(two + behind.strip(b"\0")) == 0:
        return None
    path.write_bytes(new)
    return f"frame at {at} to {end} of {path.name}: {how}"


def gone(dice, store, folder):
    path, _ = pick(dice, folder)
    path.unlink()
    return f"{path.name} is gone"


def last_gone(dice, store, folder):
    logs = sorted(path for path in folder.glob("log-*") if used_end(path))
    count = min(len(logs), dice.randint(1, 3))
    for path in logs[len(logs) - count:]:
        path.unlink()
    return f"the last {count} segments are gone" if count else None


def renamed(dice, store, folder):
    """A segment has the name of the next, or a snapshot stands for more or for less by its name."""
    path, _ = pick(dice, folder, ("log", "snapshot"))
    if path is None:
        return None
    numbers = [int(number) for number in path.name.split("-")[1:]]
    place = dice.randrange(len(numbers))
    numbers[place] = max(1, numbers[place] + dice.choice([-1, 1, 2]))
    kind = path.name.split("-")[0]
    new = folder / (f"log-{numbers[0]:010}" if kind == "log" else f"snapshot-{numbers[0]:010}-{numbers[1]}")
    if new == path:
        return None
    path.rename(new)
    return f"{path.name} has the name {new.name}"


def of_another(dice, store, folder):
    """A file of another store, under the name of one that is there."""
    other = dice.choice([it for it in STORES if it.folder != store.folder])
    files = [path for path in sorted(other.folder.iterdir()) if path.is_file() and path.name != "lock" and used_end(path)]
    path, _ = pick(dice, folder)
    kind = path.name.split("-")[0]
    files = [it for it in files if it.name.split("-")[0] == kind]
    if not files:
        return None
    it = dice.choice(files)
    path.write_bytes(it.read_bytes())
    return f"{path.name} is {it.name} of the store {other.name}"


def swapped_files(dice, store, folder):
    logs = sorted(path for path in folder.glob("log-*") if used_end(path))
    if len(logs) < 2:
        return None
    one, two = dice.sample(logs, 2)
    text = one.read_bytes()
    one.write_bytes(two.read_bytes())
    two.write_bytes(text)
    return f"{one.name} and {two.name} are swapped"


KINDS = [
    *[of_bits(count) for count in (1, 1, 2, 4)],
    of_span("garbled", lambda dice, old: dice.randbytes(len(old))),
    of_span("zeros in the place of", lambda dice, old: bytes(len(old))),
    of_span("ones in the place of", lambda dice, old: b"\xff" * len(old)),
    of_span("garbled", lambda dice, old: dice.randbytes(len(old)), "log"),
    of_span("turned round", lambda dice, old: old[::-1]),
    swap, swap, insert, delete, cut, zero_tail, append, of_frames, of_frames, old_over_new, gone, last_gone, renamed, of_another, swapped_files,
]
STORES = []
# Hosts that are wrong on purpose, each of which is to be found: the file, what stands there, and what is put in its place.
WRONG = {
    "no mark": [("recovery.rs", ".chain(marked.map(|mark| mark.known))", ".chain(marked.map(|_| 0))")],
    "no identity": [("envelope.rs", "        File::open(\"/dev/urandom\")?.read_exact(&mut bits)?;\n", "        File::open(\"/dev/zero\")?.read_exact(&mut bits)?;\n")],
    "no end of a snapshot": [("reading.rs", "        let found = words(front);\n",
                              "        let found = words(front);\n        if front.is_empty() {\n            return Ok(so_far);\n        }\n")],
    "gap allowed": [("recovery.rs", "how.next.map_or(known, |next| next - 1)", "0"),
                    ("recovery.rs", "how.next.unwrap_or(counts.next.max(known + 1))", "counts.next")],
    "no checksum": [("envelope.rs", "frame.len() == self.len && checksum(0, frame) == self.sum", "frame.len() == self.len")],
    "another place is told": [("damage.rs", "(folder.segment(it.segment), it.place, &it.found)", "(folder.segment(it.segment), it.place / 2, &it.found)")],
    "frames say nothing of others": [("log.rs", "Envelope::around(segment, frame, known, ", "Envelope::around(segment, frame, 0, ")],
    "heads say nothing of frames": [("log.rs", "identity: *identity, segment, frame, known }", "identity: *identity, segment, frame, known: 0 }")],
    "a stop says nothing": [("log.rs", "(mark.is_stopped, mark.known) = (true, known)", "(mark.is_stopped, mark.known) = (false, known)")],
    "whatever stands behind is torn": [("recovery.rs", "if counts.dropped > most && ", "if counts.dropped > u64::MAX - 1 && ")],
    "a backup of its store's identity": [("recovery.rs", "match said.filter(|_| !is_backup) {", "match said {")],
}


def state_of(folder):
    """What is in a folder, to see that it is not changed."""
    return {path.name: path.read_bytes() for path in sorted(folder.iterdir()) if path.is_file() and path.name != "lock"}


def judge(program, store, folder, done):
    """What came of a damaged copy."""
    before = state_of(folder)
    told = subprocess.run([program, "--check", folder], capture_output=True, text=True)
    if told.returncode not in (0, 1, 3):
        raise Wrong(f"--check ends with {told.returncode}: {told.stderr}")
    if state_of(folder) != before:
        raise Wrong("--check changed the folder")
    process, link = run(program, folder, store.words)
    if process is None:
        said = pathlib.Path(f"{folder}.log").read_text(errors="replace")
        if told.returncode != 1:
            raise Wrong(f"--check ends with {told.returncode}, and a start refuses: {said}")
        if not NAMED.search(said):
            raise Wrong(f"it is refused, and not by name: {said}")
        after = state_of(folder)
        if {name: text for name, text in after.items() if text.strip(b"\0")} != {name: text for name, text in before.items() if text.strip(b"\0")}:
            raise Wrong("a start that refuses changed the folder")
        return "refused"
    has = contents(link)
    link.close()
    process.kill()
    process.wait()
    if told.returncode == 1:
        raise Wrong("--check refuses, and a start doesn't")
    found = store.is_state(has)
    if found is None:
        raise Wrong(f"OTHER DATA: {len(has)} keys, as the store never had them")
    if found < store.sure:
        raise Wrong(f"GONE: state {found} of {len(store.states) - 1}, and {store.sure} was acknowledged; --check ends with {told.returncode}")
    if store.stopped and found != store.whole:
        raise Wrong(f"GONE: state {found} of {store.whole} behind a clean stop")
    kind = "right" if found == store.whole else "earlier"
    return kind if told.returncode == 0 else f"{kind}, told"


def one(task):
    """A try: damages a copy, and judges it."""
    program, store, seed, kind, room = task
    dice = random.Random(seed)
    folder = pathlib.Path(room) / f"try{seed}"
    try:
        shutil.copytree(store.folder, folder, ignore=shutil.ignore_patterns("backups", "lock"))
        done = None
        for _ in range(20):
            done = KINDS[kind](dice, store, folder)
            if done:
                break
        if not done:
            return store.name, "nothing", None
        try:
            return store.name, judge(program, store, folder, done), None
        except Wrong as wrong:
            return store.name, "WRONG", f"{store.name}, {done}: {wrong} (seed {seed})"
    finally:
        shutil.rmtree(folder, ignore_errors=True)
        pathlib.Path(f"{folder}.log").unlink(missing_ok=True)


def behind_pieces(program, room):
    """A snapshot of several pieces is cut behind each of them, and behind its head; how many were tried, and in words what was wrong."""
    store = Store("large", room / "large", ["--segment", "64m"], True)
    process, link = run(program, store.folder, store.words)
    if process is None:
        return 0, ["large: no server starts"]
    has = {b"large:%d" % number: bytes([65 + number]) * 7_000_000 for number in range(6)}
    told = [ask(link, [[b"SET", key, text]]) for key, text in has.items()] + [ask(link, [[b"SAVE"]])]
    store.states, store.sure, store.whole = [{}, has], 1, 1
    link.close()
    process.send_signal(signal.SIGTERM)
    if process.wait(60) or told != [[b"OK"]] * len(told):
        return 0, ["large: it is not written"]
    text, frames = frames_of(next(store.folder.glob("snapshot-*")))
    if len(frames) < 3:
        return 0, [f"large: {len(frames) - 1} pieces are too few"]
    wrongs = []
    for place, _ in frames:
        folder = room / f"cut{place}"
        shutil.copytree(store.folder, folder, ignore=shutil.ignore_patterns("backups", "lock"))
        next(folder.glob("snapshot-*")).write_bytes(text[:place])
        try:
            judge(program, store, folder, "cut")
        except Wrong as wrong:
            wrongs.append(f"large, its snapshot cut at {place}: {wrong}")
        shutil.rmtree(folder)
    return len(frames), wrongs


def with_logs_of_another(program, room):
    """A store and one that was written alike have each other's segments; how many were tried, and in words what was wrong."""
    made = []
    for name in ("one", "two"):
        process, link = run(program, room / name, SMALL)
        if process is None:
            return 0, [f"{name}: no server starts"]
        has = {b"key:%d" % number: name.encode() * 20 for number in range(40)}
        told = [ask(link, [[b"SET", key, text]]) for key, text in has.items()]
        link.close()
        process.send_signal(signal.SIGTERM)
        if process.wait(60) or told != [[b"OK"]] * len(told):
            return 0, [f"{name}: it is not written"]
        store = Store(name, room / name, SMALL, True)
        store.states, store.sure, store.whole = [{}, has], 1, 1
        made.append(store)
    wrongs = []
    for store, other in (made, made[::-1]):
        folder = room / f"{store.name}-mixed"
        shutil.copytree(store.folder, folder, ignore=shutil.ignore_patterns("backups", "lock"))
        for path in other.folder.glob("log-*"):
            shutil.copy(path, folder)
        try:
            if judge(program, store, folder, "mixed") != "refused":
                raise Wrong("it is not refused")
        except Wrong as wrong:
            wrongs.append(f"a store with the segments of another: {wrong}")
    return len(made), wrongs


def ends(process, link, how=signal.SIGTERM):
    """A server ends so."""
    link.close()
    process.send_signal(how)
    if process.wait(60) != (0 if how == signal.SIGTERM else -how):
        raise Wrong(f"it ends with {process.returncode}")


def written(program, room, name, how=signal.SIGTERM):
    """A small store with some writes, a copy of that, and four more, each acknowledged before the next; its server ends so."""
    store = Store(name, room / name, SMALL, how == signal.SIGTERM)
    process, link = run(program, store.folder, SMALL)
    if process is None:
        raise Wrong(f"{name}: no server starts")
    write(store, link, random.Random(name), 40)
    keep_old(store, room)
    write(store, link, random.Random(f"{name} behind"), 4)
    ends(process, link, how)
    store.whole = len(store.states) - 1
    return store


def last_log(folder):
    """The last segment in which something is, with its bytes and its frames."""
    log = max(path for path in folder.glob("log-*") if used_end(path))
    return log, *frames_of(log)


def comes(program, room, store, what, wanted, changes, *said):
    """What is wrong, in words: where of a changed copy comes something else than is wanted, or where it is refused by other words than these."""
    folder = room / "copy"
    shutil.copytree(store.folder, folder, ignore=shutil.ignore_patterns("backups", "lock"))
    changes(folder)
    try:
        came, told = judge(program, store, folder, what), pathlib.Path(f"{folder}.log").read_text(errors="replace")
        if came != wanted:
            raise Wrong(f"it is {came}, and is to be {wanted}")
        for text in said:
            if text not in told:
                raise Wrong(f"it doesn't say '{text}', but: {told}")
    except Wrong as wrong:
        return [f"{what}: {wrong}"]
    finally:
        shutil.rmtree(folder)
    return []


def at_places(program, room):
    """The last frame of a store is gone, one before it, or two bytes within one changed places, or all is as it was before; how many were
    tried, and in words what was wrong."""
    store, wrongs = written(program, room, "places"), []
    log, text, frames = last_log(store.folder)
    largest = max(frames, key=lambda frame: frame[1] - frame[0])
    place = next(place for place in range(sum(largest) // 2, largest[1]) if text[place] != text[place + 1])
    tries = {"the last frame": (frames[-1], frames[-1][0], bytes(frames[-1][1] - frames[-1][0])),
             "the third last frame": (frames[-3], frames[-3][0], bytes(frames[-3][1] - frames[-3][0])),
             "two bytes": (largest, place, text[place + 1:place + 2] + text[place:place + 1])}
    for what, ((begin, _), at, new) in tries.items():
        number = int.from_bytes(text[begin + 16:begin + 24], "little")
        said = [f"{log.name}, at byte {begin}, segment {int(log.name[4:])}: expected frame {number}, found", "Nothing was changed",
                "start on a backup", f"--accept-loss-from {number}"]
        wrongs += comes(program, room, store, what, "refused", lambda folder: change(folder / log.name, at, new), *said)
    process, link = run(program, store.olds[0], SMALL)
    if process is None or contents(link) != store.states[40]:
        wrongs.append("all as it was before: it isn't served")
    if process:
        ends(process, link, signal.SIGKILL)
    return len(tries) + 1, wrongs


def by_frames(program, room):
    """The marks are of before, so that frames alone say, or the head of a segment, up to where all was synced; and a segment is gone."""
    store = written(program, room, "frames")
    log, _, frames = last_log(store.folder)

    def zeros(folder, path, begin, end):
        shutil.copy(store.olds[0] / "store", folder)
        change(folder / path.name, begin, bytes(end - begin))
    wrongs = comes(program, room, store, "the third last frame, by frames alone", "refused", lambda folder: zeros(folder, log, *frames[-3]))
    process, link = run(program, store.folder, SMALL)
    if process is None:
        raise Wrong("frames: no server starts")
    write(store, link, random.Random("a segment more"), 1)
    ends(process, link)
    store.whole = len(store.states) - 1
    behind, text, _ = last_log(store.folder)

    def but_heads(folder):
        zeros(folder, log, *frames[-1])
        zeros(folder, behind, 64, len(text))
    wrongs += comes(program, room, store, "the last frame, by the next segment's head alone", "refused", but_heads)
    wrongs += comes(program, room, store, "a segment", "refused", lambda folder: (folder / log.name).unlink(),
                    f"{log.name}: expected frame 1 in segment 1, and it isn't there")
    return 3, wrongs


def behind_the_end(program, room):
    """Bytes that are no frame stand behind the end: after a clean stop nothing explains them, after a crash as many as may have been under way."""
    wrongs = []
    for how, wanted in ((signal.SIGTERM, {40: "right, told", 40_000: "right, told"}), (signal.SIGKILL, {40: "right", 40_000: "refused"})):
        store = written(program, room, how.name, how)
        log, _, frames = last_log(store.folder)
        for count, kind in wanted.items():
            wrongs += comes(program, room, store, f"{count} bytes behind the end after {how.name}", kind,
                            lambda folder: change(folder / log.name, frames[-1][1], b"x" * count))
    return 4, wrongs


def of_a_backup(program, room):
    """The snapshot of a backup in the folder of its store."""
    store = written(program, room, "store")
    process, link = run(program, store.folder, SMALL)
    if process is None or ask(link, [[b"BACKUP", b"one"]]) != [b"OK"]:
        raise Wrong("no backup is made")
    write(store, link, random.Random("behind the backup"), 4)
    ends(process, link)
    store.whole = len(store.states) - 1
    made = next((store.folder / "backups" / "one").glob("snapshot-*"))
    return 1, comes(program, room, store, "a backup's snapshot", "refused", lambda folder: shutil.copy(made, folder), made.name, "another store")


# What is found by tries of its own alone.
DIRECTED = {
    "no end of a snapshot": behind_pieces, "no identity": with_logs_of_another, "a backup of its store's identity": of_a_backup,
    **dict.fromkeys(["no mark", "gap allowed", "no checksum", "another place is told"], at_places),
    **dict.fromkeys(["frames say nothing of others", "heads say nothing of frames"], by_frames),
    **dict.fromkeys(["a stop says nothing", "whatever stands behind is torn"], behind_the_end),
}


def stores(program, room, seed):
    """Those that are damaged. With the options as they come a segment is made smaller here once it is written: what is cut off is zeros."""
    whole = ["--segment", "64m"]
    made = [
        make(program, room, "small-stopped", SMALL, "stopped", seed),
        make(program, room, "small-killed", SMALL, "killed", seed),
        make(program, room, "lives-stopped", SMALL, "stopped", seed, lives=3, count=120),
        make(program, room, "snapshot-stopped", SMALL, "stopped", seed, snapshot=True),
        make(program, room, "snapshot-killed", SMALL, "killed", seed, snapshot=True),
        make(program, room, "whole-stopped", whole, "stopped", seed, count=600),
        make(program, room, "whole-killed", whole, "killed", seed),
        make(program, room, "whole-snapshot", whole, "stopped", seed, snapshot=True),
    ]
    made.append(backup_of(program, room, make(program, room, "for-backup", SMALL, "stopped", seed), "backup"))
    for store in made:
        for folder in [store.folder, *store.olds]:
            for path in folder.glob("log-*"):
                end = used_end(path)
                os.truncate(path, min(path.stat().st_size, max(1 << 16, (end + (1 << 16)) >> 12 << 12)))
        copy = room / "undamaged"
        shutil.copytree(store.folder, copy, ignore=shutil.ignore_patterns("backups", "lock"))
        process, link = run(program, copy, store.words)
        store.whole = store.is_state(contents(link)) if link else None
        if store.whole is None or store.whole < store.sure or store.stopped and store.whole < len(store.states) - 1:
            raise Wrong(f"{store.name}: state {store.whole} of {len(store.states) - 1} is there, and {store.sure} was acknowledged")
        process.kill()
        process.wait()
        shutil.rmtree(copy)
    return made


def tried(options, program, tries):
    """What came of so many tries, of each store; and in words what was wrong."""
    counts, wrongs = collections.Counter(), []
    with tempfile.TemporaryDirectory(prefix="damage-", dir=ROOMS) as room:
        STORES[:] = stores(program, pathlib.Path(room), options.seed)
        names = [store for store in STORES if not options.only or options.only in store.name]
        tasks = [(program, names[number % len(names)], options.seed * 1_000_000 + number, number // len(names) % len(KINDS), room)
                 for number in range(tries)]
        with concurrent.futures.ThreadPoolExecutor(max_workers=2 * (os.cpu_count() or 2)) as pool:
            for start in range(0, tries, 100):
                for name, came, wrong in pool.map(one, tasks[start:start + 100]):
                    counts[name, came] += 1
                    wrongs += [wrong] if wrong else []
    return counts, wrongs


def find(options, name):
    """Whether a wrong host is found, in words too."""
    with tempfile.TemporaryDirectory() as room:
        program = crashes.built(pathlib.Path(room), WRONG[name])
        try:
            wrongs = DIRECTED[name](program, pathlib.Path(room))[1]
        except (Wrong, OSError) as wrong:
            wrongs = [str(wrong)]
    found = next((wrong for wrong in wrongs if "not by name" not in wrong), None)
    return f"{name}: {found or 'NOT FOUND'}", found is not None


def main():
    words = argparse.ArgumentParser(description=__doc__, formatter_class=argparse.RawDescriptionHelpFormatter)
    words.add_argument("--server", default=str(TOP / "target/release/hidewillow-server"))
    words.add_argument("--tries", type=int, default=1000)
    words.add_argument("--seed", type=int, default=1)
    words.add_argument("--only", help="the stores that have this in their names")
    words.add_argument("--shows", action="store_true", help="what came of each store")
    words.add_argument("--wrong", nargs="*", metavar="NAME", help="builds hosts that are wrong on purpose, those that have one of these names, or all")
    options = words.parse_args()
    if options.wrong is not None:
        names = [name for name in WRONG if not options.wrong or any(part in name for part in options.wrong)]
        found = 0
        with concurrent.futures.ThreadPoolExecutor(os.cpu_count()) as pool:
            for line, well in pool.map(lambda name: find(options, name), names):
                found += well
                print(line, flush=True)
        print(f"{found} passed, {len(names) - found} failed")
        sys.exit(found < len(names))
    begun = time.monotonic()
    counts, wrongs = tried(options, options.server, options.tries)
    if not options.only:
        for directed in dict.fromkeys(DIRECTED.values()):
            with tempfile.TemporaryDirectory(prefix="damage-", dir=ROOMS) as room:
                try:
                    count, more = directed(options.server, pathlib.Path(room))
                except (Wrong, OSError) as wrong:
                    count, more = 0, [str(wrong)]
            counts["directed", "refused"] += count
            wrongs += more
    for wrong in wrongs:
        print(f"damage: {wrong}")
    if options.shows:
        for (name, came), count in sorted(counts.items()):
            print(f"damage: {name}: {came}: {count}")
    came = collections.Counter()
    for (_, what), count in counts.items():
        came[what] += count
    shown = ", ".join(f"{count} {what}" for what, count in came.most_common())
    print(f"damage: {shown}, in {time.monotonic() - begun:.0f} s")
    print(f"{sum(came.values()) - came['nothing'] - len(wrongs)} passed, {len(wrongs)} failed")
    sys.exit(len(wrongs) > 0)


if __name__ == "__main__":
    main()
