#!/usr/bin/env python3
"""Crashes of the server, and what must hold after each.

    tests/crashes.py [--server PROGRAM] [--modes kill,power,fault,cut,full,mixed] [--crashes 50] [--seconds 0.4] [--seed N] [--batches 4]
    tests/crashes.py --directed [NAME ..]  crashes at chosen moments alone, by their names, or all
    tests/crashes.py --wrong [NAME ..]     builds hosts that are wrong on purpose, and says whether each is found by the crash that is to find it

Modes, directed crashes, or wrong hosts go side by side, each in a folder of its own: in memory (/dev/shm) where there is some, since what a disk keeps
is the shim's to say. The last line is 'N passed, M failed'.

Eight connections write and read with 1 to 8 commands under way; one reads what it wrote once that is acknowledged, two are answered ahead and
believe it once they have waited for all, and one asks for snapshots and for backups, of which each is tried. After each crash the server starts
again, and then:

    acknowledged writes are there              refused ones are not, and no reader ever saw one
    what a reader saw is there                 INCR answers no number twice, over all restarts
    MSET is whole                              appends are there once, and in order
    with --slow: reads of what is acknowledged were not held behind syncs, beside what any other process takes to answer meanwhile, and what the
    server waits for a processor

Modes: cut (the power is lost at a head that cuts off what failed, while what failed is on the disk after all); kill (-9); power (then bytes that no sync covered are taken back, all, none, or torn at any byte; names too); fault (also writes
that fail or are short, and syncs that fail, told once to each open file); full (the disk is full from time to time); mixed (faults, and
each crash is kill or power, so that a start also reads what is not on the disk).
"""
import argparse
import concurrent.futures
import contextlib
import fcntl
import os
import pathlib
import random
import re
import select
import shutil
import signal
import socket
import statistics
import struct
import subprocess
import sys
import tempfile
import threading
import time

HERE = pathlib.Path(__file__).resolve().parent
TOP = HERE.parent
ROOMS = "/dev/shm" if os.access("/dev/shm", os.W_OK) else None
RECORD = struct.Struct("<5Q")
CONNECTIONS, LISTS, COUNTERS, PAIRS = 8, 3, 3, 4
REFUSALS = ("IOERR",)
# How often as long as another process takes to answer anything a server that works for others may take, beside what it holds back.
SERVER_BY_ECHO = 3
# How long it is waited for an answer that is not to come, and for what is to happen.
EARLY, LONG, PATIENCE = 0.2, 5, 60
FAULTS = dict(fault="30,30,20", mixed="30,30,20", cut="0,0,30")
# Hosts that are wrong on purpose: the directed crash that is to find each, and the file, what stands there, and what is put in its place.
WRONG = {
    "reply at once": ("a write under way", [("log.rs", "self.under_way.push(at);",
                       "self.under_way.push(at);\n                    if self.cutting.is_none() {\n"
                       "                        store.synced(at.frame)?;\n                    }"),
                      ("log.rs", "Ok(()) => Ok(store.synced(at.frame)?), // [2]", "Ok(()) => Ok(()),\n            Err(_) if !job.is_head => Ok(()),")]),
    "no sync": ("a write", [("disk.rs", "    file.sync_data()?; // [2]\n", "")]),
    "no cut": ("a write that fails", [("disk.rs", "let did = write(&folder, &mut own, job.at.segment, job.from, bytes);",
                "let did = if job.is_head { Ok(()) } else { write(&folder, &mut own, job.at.segment, job.from, bytes) };")]),
    "shared file handle": ("two writes of which one fails", [("disk.rs", """    let file = match own.take_if(|(of, _)| *of == segment) {
        Some((_, file)) => file,
        None => opened(|| OpenOptions::new().write(true).open(folder.segment(segment)))?,
    };
""", """    static SHARED: std::sync::Mutex<Option<(u64, &'static File)>> = std::sync::Mutex::new(None);
    let mut shared = SHARED.lock().unwrap();
    if shared.is_none_or(|(of, _)| of != segment) {
        let file = OpenOptions::new().write(true).open(folder.segment(segment))?;
        *shared = Some((segment, Box::leak(Box::new(file))));
    }
    let (_, file) = shared.unwrap();
    drop(shared);
"""), ("disk.rs", "    *own = Some((segment, file)); // [4]\n", "    *own = None;\n")]),
    "short write taken for whole": ("a short write", [("disk.rs", "file.write_all_at(bytes, place)?; // [1]",
                                     "let _ = file.write_at(bytes, place)?;")]),
    "start that writes nothing again": ("a start on what isn't on the disk", [("recovery.rs", "(Reader::ahead(path, again)?, ", "(Reader::ahead(path, again && segment == 0)?, ")]),
    "refusal before the cut": ("a cut under way", [("log.rs", "self.under_way.push(at);",
                                "self.under_way.push(at);\n                    if self.cutting.is_some() {\n"
                                "                        store.cut(true)?;\n                    }"),
                               ("log.rs", "                Ok(store.cut(true)?) // [5]", "                Ok(())"),
                               ("log.rs", "return Ok(store.turn()?);", "return Ok(());")]),
    "snapshot that isn't on the disk": ("a snapshot", [("folder.rs", "            file.sync_all()?;\n", "")]),
    "snapshot that isn't read back": ("a snapshot that the disk spoils", [("folder.rs", "            finds(&new)?; // [8]\n", "            let _ = finds;\n")]),
    "segments removed before the snapshot has its name": ("a snapshot", [("folder.rs", "            disk::opened(|| File::open(&self.0))?.sync_all()?;\n            Ok(did)", "            Ok(did)"),
                                                          ("folder.rs", "        File::open(&self.0)?.sync_all()?;\n        for", "        for")]),
    "snapshot of what is written": ("a snapshot beside a write", [("log.rs", "self.under_way.iter().map(|at| at.segment).min().unwrap_or(self.at.written) - 1", "self.at.written")]),
    "all stands before it is decided": ("answers ahead", [("asked.rs", "|ahead| ahead.waiting.is_empty());", "|_| true);")]),
    "replies wait for all": ("a read beside a write", [("server.rs", "            self.take_output();\n            self.attend()?;",
                                                      "            if self.channels.counts().undecided == 0 {\n                self.take_output();\n"
                                                      "            }\n            self.attend()?;")]),
    "full disk that ends it": ("a cut on a full disk", [("log.rs", "*failed += u32::from(!is_full(&error));", "*failed += 1;")]),
    "mark too early": ("a mark", [("log.rs", "self.under_way.push(at);",
                        "self.under_way.push(at);\n                    let _ = self.synced.marker.is(|mark| mark.known = at.frame);")]),
    "start that serves before its head": ("a write", [("disk.rs", "                write(folder, &mut None, at.segment, 0, &bytes)?;\n", "")]),
}


class Wrong(Exception):
    """What must hold doesn't."""


def need(holds, *words):
    if not holds:
        raise Wrong(" ".join(str(word) for word in words))


def home():
    """An address of this process alone, so that no other takes a port of it between two starts."""
    return f"127.0.{1 + os.getpid() % 250}.1"


class Link:
    """A connection: commands out, replies in, in order."""

    def __init__(self, port, at=None):
        self.socket = socket.create_connection((at or home(), port), timeout=20)
        self.socket.setsockopt(socket.IPPROTO_TCP, socket.TCP_NODELAY, 1)
        self.file = self.socket.makefile("rb")

    def send(self, *commands):
        text = b""
        for words in commands:
            words = [str(word).encode() for word in words]
            text += b"*%d\r\n" % len(words) + b"".join(b"$%d\r\n%s\r\n" % (len(word), word) for word in words)
        self.socket.sendall(text)

    def reply(self):
        line = self.file.readline()
        if not line.endswith(b"\r\n"):
            raise ConnectionError("closed")
        kind, rest = line[:1], line[1:-2]
        if kind == b"+":
            return rest.decode()
        if kind == b"-":
            return RuntimeError(rest.decode())
        if kind == b":":
            return int(rest)
        if kind == b"*":
            return [self.reply() for _ in range(int(rest))]
        if rest == b"-1":
            return None
        bulk = self.file.read(int(rest) + 2)
        if len(bulk) < int(rest) + 2:
            raise ConnectionError("closed")
        return bulk[:-2].decode()

    def ask(self, *words):
        self.send(words)
        return self.reply()

    def close(self):
        self.file.close()
        self.socket.close()


def is_refused(reply):
    if not isinstance(reply, RuntimeError):
        return False
    need(str(reply).startswith(REFUSALS), "an error that no client should see:", reply)
    return True


class Beside:
    """Another process that answers at once, which tells how long that takes here and now."""

    def __init__(self):
        self.process = subprocess.Popen(["cat"], stdin=subprocess.PIPE, stdout=subprocess.PIPE, bufsize=0)

    def echo(self):
        self.process.stdin.write(b"\n")
        self.process.stdout.read(1)

    def end(self):
        self.process.kill()
        self.process.wait()


class Book:
    """What clients were told, over all restarts."""

    def __init__(self, beside=None):
        self.beside = beside
        self.lock = threading.Lock()
        self.next = 0
        self.acknowledged, self.refused, self.seen, self.newest = {}, set(), set(), {}
        self.appended = [dict(acked=set(), longest="") for _ in range(LISTS)]
        self.counts = [dict(told=set(), most=0) for _ in range(COUNTERS)]
        self.held, self.waits, self.totals = [], [], dict(acknowledged=0, refused=0, undone=0, snapshots=0, backups=0)

    def frozen(self):
        """What must be in a backup that is asked for now."""
        book = Book()
        with self.lock:
            book.acknowledged, book.newest, book.refused = dict(self.acknowledged), dict(self.newest), self.refused
            book.appended = [dict(acked=set(it["acked"]), longest=it["longest"]) for it in self.appended]
            book.counts = [dict(told=set(), most=it["most"]) for it in self.counts]
        return book

    def token(self, who):
        with self.lock:
            self.next += 1
            return f"{who}.{self.next}"

    def acks(self, key, token):
        with self.lock:
            self.acknowledged[key] = token
            self.totals["acknowledged"] += 1

    def refuses(self, token):
        with self.lock:
            self.refused.add(token)
            self.totals["refused"] += 1

    def sees(self, text):
        with self.lock:
            self.seen.update(token for token in (text or "").split(";") if token)

    def own(self, key, token):
        """Its one writer writes rising numbers."""
        self.sees(token)
        with self.lock:
            self.newest[key] = max(self.newest.get(key, 0), int(token.split(".")[1]) if token else 0)

    def lists(self, place, text):
        with self.lock:
            book = self.appended[place]
            text = text or ""
            need(text.startswith(book["longest"]) or book["longest"].startswith(text), "a list that a reader saw is gone:", place)
            if len(text) > len(book["longest"]):
                book["longest"] = text

    def counted(self, place, number):
        with self.lock:
            book = self.counts[place]
            need(number not in book["told"], "INCR answered twice:", place, number)
            book["told"].add(number)
            book["most"] = max(book["most"], number)
            self.totals["acknowledged"] += 1


class Client(threading.Thread):
    """A connection at work, until the server is gone."""

    def __init__(self, book, host, who, seed):
        super().__init__(daemon=True)
        self.book, self.host, self.who, self.random, self.wrong = book, host, who, random.Random(seed), None

    def run(self):
        try:
            work = {1: self.quiet, 2: self.go_on, 3: self.go_on, 4: self.keep}.get(self.who, self.work)
            work(Link(self.host.port))
        except OSError:
            pass
        except Wrong as wrong:
            self.wrong = wrong
        except Exception as error:
            self.wrong = Wrong(f"a reply that no client should see: {error!r}")

    def command(self):
        """A command, and what to do with its reply."""
        book, pick, token = self.book, self.random.randrange(10), self.book.token(self.who)
        if pick < 3:
            key = f"own:{self.who}"
            return ("SET", key, token), lambda reply: book.refuses(token) if is_refused(reply) else book.acks(key, token)
        if pick == 3:
            place = self.random.randrange(LISTS)

            def appended(reply):
                if is_refused(reply):
                    return book.refuses(token)
                book.acks(f"list:{place}:{token}", token)
                return book.appended[place]["acked"].add(token)
            return ("APPEND", f"list:{place}", token + ";"), appended
        if pick == 4:
            place = self.random.randrange(COUNTERS)
            return ("INCR", f"count:{place}"), lambda reply: is_refused(reply) or book.counted(place, reply)
        if pick == 5:
            place = self.random.randrange(PAIRS)
            return (("MSET", f"left:{place}", token, f"right:{place}", token),
                    lambda reply: book.refuses(token) if is_refused(reply) else None)
        if pick == 6:
            place = self.random.randrange(PAIRS)

            def pair(reply):
                if not is_refused(reply):
                    need(reply[0] == reply[1], "MSET is not whole:", reply)
                    book.sees(reply[0])
            return ("MGET", f"left:{place}", f"right:{place}"), pair
        if pick == 7:
            place = self.random.randrange(LISTS)

            def listed(reply):
                if not is_refused(reply):
                    book.lists(place, reply)
                    book.sees(reply)
            return ("GET", f"list:{place}"), listed
        key = f"own:{self.random.randrange(CONNECTIONS)}"
        return ("GET", key), lambda reply: is_refused(reply) or book.own(key, reply)

    def work(self, link):
        while True:
            commands = [self.command() for _ in range(self.random.randint(1, 8))]
            link.send(*(words for words, _ in commands))
            for _, tell in commands:
                tell(link.reply())

    def go_on(self, link):
        """Is answered ahead, and believes it once all stands."""
        need(link.ask("SPEC") == "OK", "SPEC")
        while True:
            commands = [self.command() for _ in range(self.random.randint(1, 20))]
            link.send(*(words for words, _ in commands), ("WAITALL",))
            answers = [link.reply() for _ in commands]
            need([number for number, _ in answers] == list(range(1, len(commands) + 1)), "answers ahead have other numbers")
            told, undone = link.reply(), []
            if isinstance(told, RuntimeError):
                need(str(told).startswith("UNDONE "), "WAITALL was answered", told)
                undone = [int(it) for it in str(told).split()[1:]]
                self.book.totals["undone"] += len(undone)
            for number, ((_, tell), (_, answer)) in enumerate(zip(commands, answers), 1):
                tell(RuntimeError("IOERR undone") if number in undone else answer)

    def keep(self, link):
        """Asks for snapshots and for backups, and tries what is in these."""
        while True:
            frozen, name = self.book.frozen(), self.book.token("backup").replace(".", "-")
            if self.random.random() < 0.5:
                self.book.totals["snapshots"] += not is_refused(link.ask("SAVE"))
            elif not is_refused(link.ask("BACKUP", name)):
                with self.host.started_on(self.host.folder / "backups" / name) as copy:
                    check(frozen, copy, "backup", 0)
                self.book.totals["backups"] += 1
            for words, tell in [self.command() for _ in range(20)]:
                tell(link.ask(*words))

    def quiet(self, link):
        """Reads what it wrote before, once that is acknowledged: such a read depends on nothing, and isn't to wait for what others write."""
        key = f"own:{self.who}"
        while True:
            token = self.book.token(self.who)
            if is_refused(link.ask("SET", key, token)):
                self.book.refuses(token)
            else:
                self.book.acks(key, token)
            for _ in range(8):
                begun = time.monotonic()
                self.book.beside.echo()
                asked = time.monotonic()
                value = link.ask("GET", key)
                self.book.held.append((time.monotonic() - asked, asked - begun))
                need(value not in self.book.refused, "a reader saw what was refused:", value)


def check(book, link, mode, slow):
    """What must hold after a restart."""
    for key, token in list(book.acknowledged.items()):
        if key.startswith("own:"):
            value = link.ask("GET", key)
            need(value is not None, "an acknowledged write is gone:", key, token)
            need(int(value.split(".")[1]) >= int(token.split(".")[1]), "an acknowledged write is gone:", key, token, value)
            need(value not in book.refused, "a refused write is there:", key, value)
            book.own(key, value)
    for key, number in book.newest.items():
        value = link.ask("GET", key)
        need(not number or value and int(value.split(".")[1]) >= number, "what a reader saw is gone:", key, number, value)
    for place, lists in enumerate(book.appended):
        text = link.ask("GET", f"list:{place}") or ""
        tokens = text.split(";")[:-1]
        need(text.startswith(lists["longest"]), "what a reader saw is gone:", f"list:{place}")
        need(len(tokens) == len(set(tokens)), "an append is there twice:", f"list:{place}")
        missing, there = lists["acked"] - set(tokens), set(tokens) & book.refused
        need(not missing, "acknowledged appends are gone:", sorted(missing)[:3])
        need(not there, "refused appends are there:", sorted(there)[:3])
        last = {}
        for who, number in (token.split(".") for token in tokens):
            need(int(number) > last.get(who, 0), "appends out of order:", who, number)
            last[who] = int(number)
        lists["longest"] = text
    for place, counts in enumerate(book.counts):
        value = int(link.ask("GET", f"count:{place}") or 0)
        need(value >= counts["most"], "a number that INCR told is gone:", place, value, counts["most"])
    for place in range(PAIRS):
        left, right = link.ask("MGET", f"left:{place}", f"right:{place}")
        need(left == right, "MSET is not whole:", left, right)
        need(left not in book.refused, "a refused write is there:", left)
    both = book.seen & book.refused
    need(not both, "a reader saw what was refused:", sorted(both)[:3])
    if slow and len(book.held) > 200:
        (late, beside), waits = (statistics.median(it) for it in zip(*book.held)), statistics.mean(book.waits)
        need(late < slow / 2 + SERVER_BY_ECHO * beside + waits, "half of the reads that rest on nothing were held:", late, beside, waits)
        book.held.clear()
        book.waits.clear()


def trim(journal):
    """Takes off what is no whole record: one that the end of a run left torn, before the write that it tells of."""
    text, at = journal.read_bytes(), 0
    while at + RECORD.size <= len(text) and at + RECORD.size + RECORD.unpack_from(text, at)[4] <= len(text):
        at += RECORD.size + RECORD.unpack_from(text, at)[4]
    if at < len(text):
        os.truncate(journal, at)


class Worst:
    """In the place of dice: all that may be taken back is."""

    def random(self):
        return 0.4

    def randrange(self, _):
        return 0

    def randint(self, *_):
        return 0


def take_back(journal, dice, keeps_failed, kept=()):
    """What a loss of power may do: takes back bytes that no sync covered, but in files of these names, and names. Answers how many writes it
    took back of."""
    text, at, step, run = journal.read_bytes(), 0, 0, 0
    writes, begun, names, home = {}, {}, [], journal.with_name("folder").stat().st_ino
    while at + RECORD.size <= len(text):
        kind, inode, number, offset, size = RECORD.unpack_from(text, at)
        bulk, at, step = text[at + RECORD.size:at + RECORD.size + size], at + RECORD.size + size, step + 1
        kind = chr(kind)
        if kind == "R":
            run += 1
        elif kind == "W":
            writes[run, number] = dict(inode=inode, offset=offset, old=bulk, done=None, lost=False, covered=False)
        elif kind == "C":
            writes.get((run, number), {})["done"] = step
        elif kind == "B":
            begun[run, number] = step
        elif kind == "F":
            for write in writes.values():
                if write["inode"] == inode and write["done"] and not write["covered"]:
                    write["lost"] = True
        elif kind == "E":
            since = begun[run, number]
            news = [it for it in writes.values() if it["inode"] == inode and it["done"] and it["done"] < since and not it["lost"]]
            for write in news:
                write["covered"] = True
            for old in (it for it in writes.values() if it["inode"] == inode and it["lost"] and not it["covered"]):
                old["covered"] = any(new["offset"] <= old["offset"] and new["done"] > old["done"]
                                     and old["offset"] + len(old["old"]) <= new["offset"] + len(new["old"]) for new in news)
        elif kind == "U":
            writes = {key: write for key, write in writes.items() if write["inode"] != inode}
        elif kind == "N":
            names.append(bulk.decode().split("\n"))
        elif kind == "D" and inode == home:
            names.clear()
    paths = {path.stat().st_ino: path for path in journal.with_name("folder").iterdir()}
    count = 0
    for write in reversed(list(writes.values())):
        path, old = paths.get(write["inode"]), write["old"]
        if write["covered"] or path is None or path.name in kept or dice.random() < 0.3 or write["lost"] and keeps_failed:
            continue
        count += 1
        with path.open("r+b") as file:
            file.seek(write["offset"])
            now = file.read(len(old))
            old = old[:len(now)]
            how = dice.randrange(4)
            place = dice.randint(0, len(old))
            torn = [old, now[:place] + old[place:], old[:place] + now[place:],
                    bytes(b if dice.random() < 0.9 else a for a, b in zip(old, now))][how]
            file.seek(write["offset"])
            file.write(torn)
    for source, target in reversed(names):
        if dice.random() < 0.5 and pathlib.Path(target).exists():
            pathlib.Path(target).rename(source)
    journal.unlink()
    return count


def free_port():
    with socket.socket() as probe:
        probe.bind((home(), 0))
        return probe.getsockname()[1]


def connected(port, process):
    """A connection once a server listens; nothing where it ends before."""
    for _ in range(2000):
        try:
            return Link(port)
        except OSError:
            if process.poll() is not None:
                return None
            time.sleep(0.01)
    raise Wrong("the server doesn't listen")


class Host:
    """A server on a folder, under the shim."""

    def __init__(self, options, room, mode, shim):
        self.options, self.room, self.mode, self.shim, self.process = options, room, mode, shim, None
        self.acts, self.over = None, 500
        self.folder, self.journal, self.full = room / "folder", room / "journal", room / "full"
        self.folder.mkdir()
        self.port = free_port()

    def words(self, folder, port):
        """How a server is called."""
        words = [self.options.server, "--folder", folder, "--address", f"{home()}:{port}", "--segment", "256k", "--undecided", "64k"]
        return [str(word) for word in words + ["--batches", self.options.batches, "--snapshot", self.options.snapshot]]

    @contextlib.contextmanager
    def started_on(self, folder):
        """A connection to a server on another folder, whose disk is as it should be; the folder is removed then."""
        port = free_port()
        process = subprocess.Popen(self.words(folder, port), stderr=subprocess.DEVNULL)
        try:
            link = connected(port, process)
            need(link is not None, "no server starts on", folder)
            yield link
            link.close()
        finally:
            process.kill()
            process.wait()
        shutil.rmtree(folder)

    def start(self, faults):
        shim = dict(LD_PRELOAD=str(self.shim), SHIM_FOLDER=str(self.folder), SHIM_SLOW=str(int(self.options.slow * 1e6)),
                    SHIM_FULL=str(self.full), SHIM_OVER=str(self.over))
        if self.mode != "kill":
            shim["SHIM_JOURNAL"] = str(self.journal)
        if self.options.lies:
            shim["SHIM_LIES"] = "1"
        if self.acts:
            shim["SHIM_ACTS"] = str(self.acts)
        if faults and self.mode in FAULTS:
            shim.update(SHIM_FAULTS=FAULTS[self.mode], SHIM_CUT="500" if self.mode == "cut" else "0")
        if self.journal.exists():
            trim(self.journal)
        with (self.room / "log").open("ab") as log:
            self.process = subprocess.Popen(self.words(self.folder, self.port), env=shim, stdout=log, stderr=log)
        return connected(self.port, self.process)

    def waits(self):
        """How long it waits for a processor each time that it wants one, in the mean; nothing where the system doesn't tell."""
        try:
            _, waited, times = pathlib.Path(f"/proc/{self.process.pid}/schedstat").read_text().split()
            return int(waited) / 1e9 / max(1, int(times))
        except (OSError, ValueError):
            return 0.0

    def end(self, how):
        self.process.send_signal(how)
        return self.process.wait(300)


def one_crash(options, host, book, dice):
    """Starts, lets clients work, and crashes; answers how often writes were taken back of."""
    link = host.start(True)
    if link is None:
        if host.mode != "kill":
            take_back(host.journal, dice, host.mode == "cut")
        link = host.start(False)
        need(link is not None, "the server doesn't start")
    check(book, link, host.mode, options.slow)
    clients = [Client(book, host, who, dice.random()) for who in range(CONNECTIONS)]
    for client in clients:
        client.start()
    until = time.monotonic() + options.seconds * (0.5 + dice.random())
    while time.monotonic() < until and host.process.poll() is None:
        if host.mode == "full":
            host.full.touch() if dice.random() < 0.5 else host.full.unlink(missing_ok=True)
        time.sleep(0.05)
    host.full.unlink(missing_ok=True)
    book.waits.append(host.waits())
    if host.process.poll() is None:
        host.end(signal.SIGKILL)
    for client in clients:
        client.join(30)
        if client.wrong:
            raise client.wrong
    link.close()
    if host.mode == "kill" or host.mode == "mixed" and dice.random() < 0.5:
        return 0
    return take_back(host.journal, dice, host.mode == "cut")


def try_mode(options, mode, shim, most=None):
    """So many crashes of a mode, and a clean stop; answers a line."""
    dice = random.Random(f"{options.seed} {mode}")
    room = pathlib.Path(tempfile.mkdtemp(prefix="crashes-", dir=ROOMS))
    host, book, taken = Host(options, room, mode, shim), Book(Beside()), 0
    crashes = 0
    try:
        for crashes in range(1, (most or options.crashes) + 1):
            taken += one_crash(options, host, book, dice)
        link = host.start(False)
        check(book, link, mode, options.slow)
        need(link.ask("SET", "last", "1") == "OK", "SET")
        link.close()
        need(host.end(signal.SIGTERM) == 0, "a clean stop exits 0")
        link = host.start(False)
        need(link.ask("GET", "last") == "1", "a clean stop keeps the last write")
        need(host.end(signal.SIGINT) == 0, "a clean stop exits 0")
    except Wrong as wrong:
        line = f"{mode}: WRONG at crash {crashes}: {wrong} (seed {options.seed}"
        if not options.lies:
            return f"{line}, {room})", False
        shutil.rmtree(room, ignore_errors=True)
        return f"{line})", False
    finally:
        book.beside.end()
        if host.process.poll() is None:
            host.process.kill()
            host.process.wait()
    shutil.rmtree(room)
    return f"{mode}: {crashes} crashes, {book.totals}, unsynced writes taken back {taken}: nothing wrong", True


class Moment:
    """A server whose writes and syncs are held up, or fail, at a chosen moment, at which its power is lost."""

    def __init__(self, options, room, shim):
        self.host = Host(options, room, "power", shim)
        self.acts = self.host.acts = room / "acts"
        self.acts.mkdir()
        self.starts()

    def starts(self):
        self.link = self.host.start(False)
        need(self.link is not None, "the server doesn't start")

    def ask(self, *words):
        return self.link.ask(*words)

    def act(self, name):
        (self.acts / name).touch()

    def lets(self, name):
        (self.acts / name).unlink(missing_ok=True)

    def held(self, count):
        """So many were held up, or what failed once did."""
        path, until = self.acts / "held", time.monotonic() + PATIENCE
        while (path.stat().st_size if path.exists() else 0) < count or (self.acts / "fail").exists():
            need(time.monotonic() < until and self.host.process.poll() is None, "nothing is written")
            time.sleep(0.002)

    def early(self, link, seconds=EARLY):
        """What is answered in a while, in which others are answered too, if anything."""
        with contextlib.closing(Link(self.host.port)) as other:
            for _ in range(5):
                other.ask("PING")
        return self.within(link, seconds)

    def within(self, link, seconds):
        """What is answered in so many seconds, if anything."""
        came, _, _ = select.select([link.socket], [], [], seconds)
        return link.reply() if came else None

    def loses_power(self, keeps_failed=False, kept=()):
        """It is killed, and of what may be taken back all is but what is kept; then it starts again."""
        self.kills()
        take_back(self.host.journal, Worst(), keeps_failed, kept)
        self.starts()

    def kills(self):
        self.link.close()
        self.host.end(signal.SIGKILL)
        for name in ("hold-writes", "hold-syncs", "fail", "short", "spoil"):
            self.lets(name)

    def has(self, told, key, value):
        """What was acknowledged is there, and what was refused isn't."""
        found = self.ask("GET", key)
        need(told != "OK" or found == value, "an acknowledged write is gone:", key, found)
        need(not isinstance(told, RuntimeError) or found != value, "a refused write is there:", key)


def of_a_write(it):
    told = it.ask("SET", "a", "1")
    it.loses_power()
    it.has(told, "a", "1")


def of_a_write_under_way(it):
    it.act("hold-syncs")
    it.link.send(("SET", "a", "1"))
    told = it.early(it.link)
    it.loses_power()
    it.has(told, "a", "1")


def of_a_short_write(it):
    it.act("short")
    told = it.ask("SET", "a", "x" * 5000)
    it.kills()
    it.starts()
    it.has(told, "a", "x" * 5000)


def of_a_write_that_fails(it):
    """What failed is on the disk after all."""
    it.act("fail")
    told = it.ask("SET", "a", "1")
    it.loses_power(keeps_failed=True)
    it.has(told, "a", "1")


def of_a_cut_under_way(it):
    """A write fails, and is on the disk after all, but the head that cuts it off isn't."""
    it.act("fail")
    it.act("hold-syncs")
    it.link.send(("SET", "a", "1"))
    it.held(1)
    told = it.early(it.link)
    it.loses_power(keeps_failed=True)
    it.has(told, "a", "1")


def of_two_writes(it):
    """The sync of one that came later is told that what both wrote is lost."""
    it.act("hold-syncs")
    other = Link(it.host.port)
    it.link.send(("SET", "a", "1"))
    it.held(1)
    it.act("fail")
    other.send(("SET", "b", "1"))
    it.held(1)
    it.lets("hold-syncs")
    told, beside = it.link.reply(), other.reply()
    it.loses_power()
    it.has(told, "a", "1")
    it.has(beside, "b", "1")


def of_a_start(it):
    """A start reads what is not on the disk, and a client sees it."""
    it.act("hold-syncs")
    it.link.send(("SET", "a", "1"))
    it.held(1)
    it.kills()
    it.starts()
    need(it.ask("GET", "a") == "1", "what was written is gone behind kill -9")
    it.loses_power()
    need(it.ask("GET", "a") == "1", "what a reader saw is gone")


def of_a_snapshot(it):
    told = it.ask("SET", "a", "1")
    need(it.ask("SAVE") == "OK", "no snapshot is made")
    it.loses_power()
    it.has(told, "a", "1")


def of_a_spoilt_snapshot(it):
    """The disk has a snapshot otherwise than it was written: then all that it was to stand for stays."""
    told = it.ask("SET", "a", "1")
    it.act("spoil")
    need(is_refused(it.ask("SAVE")), "a snapshot is told as made that isn't what was written")
    it.loses_power()
    it.has(told, "a", "1")
    need(it.ask("SAVE") == "OK", "no snapshot is made")
    it.loses_power()
    it.has(told, "a", "1")


def of_a_snapshot_beside_a_write(it):
    it.act("hold-writes")
    writer = Link(it.host.port)
    writer.send(("SET", "a", "1"))
    it.held(1)
    it.link.send(("SAVE",))
    it.early(it.link, LONG)
    it.lets("hold-writes")
    told = writer.reply()
    it.loses_power()
    it.has(told, "a", "1")


def of_a_cut_on_a_full_disk(it):
    """There is no room for a write, nor for the heads that are to cut it off, each time in another segment: that is tried again until there is."""
    it.host.over = 1000
    it.loses_power()
    it.act("hold-writes")
    it.link.send(("SET", "a", "1"))
    for count in range(1, 5):
        it.held(count)
        it.host.full.touch()
        it.lets("hold-writes")
        need(it.within(it.link, 0.1) is None, "what isn't cut off is answered")
        it.act("hold-writes")
        it.host.full.unlink()
    it.lets("hold-writes")
    told = it.link.reply()
    need(is_refused(told) and it.ask("SET", "b", "1") == "OK", "no write goes on once there is room")
    it.loses_power()
    it.has(told, "a", "1")
    it.has("OK", "b", "1")


def of_answers_ahead(it):
    """What was answered ahead is lost by a sync that another is told of."""
    need(it.ask("SPEC") == "OK", "SPEC")
    it.act("hold-syncs")
    other = Link(it.host.port)
    it.link.send(("SET", "a", "1"), ("WAITALL",))
    need(it.link.reply() == [1, "OK"], "nothing is answered ahead")
    it.held(1)
    early = it.early(it.link)
    it.act("fail")
    other.send(("SET", "b", "1"))
    it.held(1)
    it.lets("hold-syncs")
    told = it.link.reply() if early is None else early
    need(told == "OK" or str(told).startswith("UNDONE "), "WAITALL was answered", told)
    it.loses_power()
    it.has(told, "a", "1")


def of_a_read_beside_a_write(it):
    need(it.ask("SET", "a", "1") == "OK", "SET")
    it.act("hold-syncs")
    writer = Link(it.host.port)
    writer.send(("SET", "b", "1"))
    it.held(1)
    it.link.send(("EXISTS", "a"))
    need(it.within(it.link, LONG) == 1, "a read that rests on nothing waits")
    it.lets("hold-syncs")
    need(writer.reply() == "OK", "SET")


def of_a_mark(it):
    """Of what is under way the disk has what is said of it, and not what was written."""
    it.act("hold-syncs")
    it.link.send(("SET", "a", "1"))
    it.held(1)
    it.loses_power(kept=("store",))


def of_a_full_disk(it):
    """Of a start on a full disk what takes away is carried out in the room that was kept for it."""
    it.host.over = 0
    it.has(it.ask("SET", "a", "1"), "a", "1")
    it.host.full.touch()
    it.loses_power()
    need(it.ask("DEL", "a") == 1, "DEL isn't carried out on a full disk")
    it.loses_power()
    need(it.ask("GET", "a") is None, "a key is there that was deleted")
    it.host.full.unlink()
    while isinstance(it.ask("SET", "a", "2"), RuntimeError):
        time.sleep(0.05)


# Crashes at chosen moments.
DIRECTED = {
    "a write": of_a_write,
    "a write under way": of_a_write_under_way,
    "a short write": of_a_short_write,
    "a write that fails": of_a_write_that_fails,
    "a cut under way": of_a_cut_under_way,
    "two writes of which one fails": of_two_writes,
    "a start on what isn't on the disk": of_a_start,
    "a snapshot": of_a_snapshot,
    "a snapshot that the disk spoils": of_a_spoilt_snapshot,
    "a snapshot beside a write": of_a_snapshot_beside_a_write,
    "answers ahead": of_answers_ahead,
    "a read beside a write": of_a_read_beside_a_write,
    "a cut on a full disk": of_a_cut_on_a_full_disk,
    "a mark": of_a_mark,
    "a start on a full disk": of_a_full_disk,
}


def direct(options, name, shim):
    """A directed crash, and a start and a write behind it; answers a line."""
    room = pathlib.Path(tempfile.mkdtemp(prefix="crashes-", dir=ROOMS))
    it = None
    try:
        it = Moment(options, room, shim)
        DIRECTED[name](it)
        need(it.ask("SET", "last", "1") == "OK" and it.ask("GET", "last") == "1", "no write goes on")
        need(it.host.end(signal.SIGTERM) == 0, "a clean stop exits 0")
        return f"{name}: nothing wrong", True
    except (Wrong, OSError) as wrong:
        return f"{name}: WRONG: {wrong}", False
    finally:
        if it and it.host.process.poll() is None:
            it.host.end(signal.SIGKILL)
        shutil.rmtree(room, ignore_errors=True)


def edited(edits):
    """The files of the server and of the library's crate for Rust that is under it, with edits, by their paths."""
    tops = [path for name in ("server", "rust") for path in (TOP.parent / name).iterdir() if path.name != "target"]
    paths = [path for top in tops for path in (top.rglob("*") if top.is_dir() else [top]) if path.is_file()]
    files = {path.relative_to(TOP.parent): path.read_bytes() for path in paths if "__pycache__" not in path.parts and "target" not in path.parts}
    for name, old, new in edits:
        path = next(path for top in ("server/src", "rust/src/store") for path in files if path.match(name) and path.is_relative_to(top))
        text = files[path].decode()
        if text.count(old) != 1:
            sys.exit(f"{name} has this {text.count(old)} times: {old}")
        files[path] = text.replace(old, new).encode()
    return files


def built(folder, edits):
    """A server with edits of its source. All are built in one place, one after the other, since most is the same and compiled once."""
    place = pathlib.Path(os.environ.get("CARGO_TARGET_DIR", TOP / "target")) / "wrong"
    place.mkdir(parents=True, exist_ok=True)
    words = ["cargo", "build", "--offline", "--quiet", "--target-dir", str(place / "target")]
    where = {"HIDEWILLOW_LIB": str(TOP.parent / "build"), "CARGO_PROFILE_DEV_PANIC": "abort", **os.environ}
    with (place / "lock").open("w") as lock:
        fcntl.flock(lock, fcntl.LOCK_EX)
        for path, text in edited(edits).items():
            copy = place / path
            if not copy.exists() or copy.read_bytes() != text:
                copy.parent.mkdir(parents=True, exist_ok=True)
                copy.write_bytes(text)
        did = subprocess.run(words, cwd=place / "server", env=where, capture_output=True, text=True)
        if did.returncode:
            sys.exit(f"a wrong host doesn't compile: {did.stderr}")
        return pathlib.Path(shutil.copy(place / "target/debug/hidewillow-server", folder))


def find(options, name, shim):
    """Whether a wrong host is found, in words too."""
    with tempfile.TemporaryDirectory() as room:
        moment, edits = WRONG[name]
        options.server = built(pathlib.Path(room), edits)
        line, well = direct(options, moment, shim)
    return f"{name}: {'NOT FOUND' if well else line}", not well


def marks():
    """Each of the sentences has its line, and no line has another number."""
    sources = [*(TOP / "src").rglob("*.rs"), *(TOP.parent / "rust/src/store").rglob("*.rs")]
    found = {int(number) for path in sources for number in re.findall(r"// \[(\d+)\]", path.read_text())}
    return found == set(range(1, 14))


def main():
    words = argparse.ArgumentParser(description=__doc__, formatter_class=argparse.RawDescriptionHelpFormatter)
    words.add_argument("--server", default=str(TOP / "target/release/hidewillow-server"))
    words.add_argument("--modes", default="kill,power,fault,cut,full,mixed")
    words.add_argument("--crashes", type=int, default=50)
    words.add_argument("--seconds", type=float, default=0.4)
    words.add_argument("--slow", type=float, default=0.0, help="seconds that each sync takes longer")
    words.add_argument("--seed", type=int, default=1)
    words.add_argument("--batches", type=int, default=4)
    words.add_argument("--snapshot", default="1m", help="bytes of the log after which a snapshot is made")
    words.add_argument("--lies", action="store_true", help="a disk whose syncs do nothing, which is to be found in power and fault")
    words.add_argument("--directed", nargs="*", metavar="NAME", help="those that have one of these names, or all")
    words.add_argument("--wrong", nargs="*", metavar="NAME", help="those that have one of these names, or all")
    options = words.parse_args()
    if not marks():
        sys.exit("the sentences and the marks of their lines don't agree")
    work, names = try_mode, options.modes.split(",")
    for does, wished, all_names in ((direct, options.directed, DIRECTED), (find, options.wrong, WRONG)):
        if wished is not None:
            work, names = does, [name for name in all_names if not wished or any(part in name for part in wished)]
    with tempfile.TemporaryDirectory() as folder, concurrent.futures.ProcessPoolExecutor() as pool:
        shim = pathlib.Path(folder) / "shim.so"
        subprocess.run(["cc", "-O2", "-Wall", "-Wextra", "-shared", "-fPIC", "-o", shim, HERE / "shim.c", "-ldl", "-lpthread"], check=True)
        passed = 0
        for line, well in pool.map(work, *zip(*((options, name, shim) for name in names))):
            passed += well
            print(line, flush=True)
    print(f"{passed} passed, {len(names) - passed} failed")
    sys.exit(passed < len(names))


if __name__ == "__main__":
    main()
