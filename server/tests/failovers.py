#!/usr/bin/env python3
"""Faults of hosts over an engine of three members, and what must hold at any time.

    tests/failovers.py [--server PROGRAM] [--faults 20] [--kinds NAME,..] [--seed N] [--batches 4] [--hosts 2] [--clock trusted]
    tests/failovers.py --gates             cuts off by gates alone, though there may be namespaces
    tests/failovers.py --back              kills the host that leads, and looks how soon another does
    tests/failovers.py --wrong [NAME ..]   builds hosts that are wrong on purpose, and says whether they are found

Where `etcd` is not installed the last line is 'not there', else 'N passed, M failed'. All that it writes is in a folder of its own, in
memory where there is some, which is removed.

Eight connections write and read with 1 to 8 commands under way, two of them answered ahead, at whichever host leads. What they are not answered
in a second they wait for beside, and go on elsewhere: an answer that comes late must be true too. What must hold:

    no answer to a read or an INCR is older than what anyone had been told before it was asked
    acknowledged writes are there              refused ones are not, and no reader ever saw one
    INCR answers no number twice               MSET is whole
    appends are there once, and in order       somebody leads again within a while
    while the engine is full a read is answered, and a write once there is room
"""
import argparse
import base64
import concurrent.futures
import contextlib
import itertools
import os
import pathlib
import random
import re
import select
import shutil
import signal
import statistics
import sys
import tempfile
import threading
import time

import cluster
import crashes
from crashes import ROOMS, Link, Wrong, need

CLIENTS, LISTS, COUNTERS, PAIRS = 8, 3, 3, 4
BACK, BACK_OF_WRONG = 120, 60
# How soon somebody is to lead again where a host was killed, in the median, by how much longer for each second that a thread sleeps longer than it wished.
SOON, SOON_BY_LATE = 3.0, 100
# What hosts say.
CUT, COPIED, LEADS, OVER = "is cut off up to", "is copied from", "listening on", "leads no more"
REFUSES = "the log is damaged|something else writes the keys"
# That a wrong host is slow doesn't count.
NOBODY = "nobody leads in time"
# Where values lie that fill the engine, beside what hosts put.
FILLER, FILLER_END = "filler/", "filler0"
PUT_GUARDS = "[is_made(&leader, self.revision), has_value(&leader, &self.token), is_made(&key, 0)]"
SLEEPS = ["host sleeps", "host sleeps beside an idle one", "member stopped, host sleeps"]
# Hosts that are wrong on purpose: the faults that are tried, and the file, what stands there, and what is put in its place.
WRONG = {
    "no round": (SLEEPS, [("etcd/leader.rs", "self.rounds.may_tell(mark)\n", "mark < u64::MAX\n")]),
    "what was sent before a read proves it": (SLEEPS, [("etcd/leader.rs", "self.rounds.carried_out()\n",
                                                        "self.rounds.carried_out().saturating_sub(1000)\n")]),
    "no guard of the leader": (["host sleeps beside an idle one", "host cut off", "member stopped, host sleeps"],
                               [("etcd/engine.rs", PUT_GUARDS, "[is_made(&key, 0)]")]),
    "a time out is a failure": (["member stopped", "host cut off", "host stopped a while", "two killed"],
                                [("etcd/engine.rs", "leadership.settled(&asked)",
                                  "Heard { word: asked.batch.as_ref().map_or(Word::Over, |it| Word::Lost(it.number)), round: 0, micros: 0 }")]),
    "absent is never, behind a cut": (["answers lost, host sleeps long"],
                                      [("etcd/engine.rs", "let snap = did.found(2).map_or(0, |entry| up_to(&entry.value));", "let snap = 0;")]),
    "nothing is deleted behind the gap": (["batches lost, host killed", "member stopped, host sleeps"],
                                          [("etcd/engine.rs", ", delete(&self.keys.log(gap), &self.keys.log_end())],", "],")]),
}


class Book:
    """What clients were told, over all leaderships."""

    def __init__(self):
        self.lock = threading.Lock()
        self.next = 0
        self.owned, self.acknowledged, self.refused, self.seen = {}, {}, set(), set()
        self.lists = [dict(acked=set(), longest="") for _ in range(LISTS)]
        self.counts = [dict(told=set(), most=0) for _ in range(COUNTERS)]
        self.totals = dict(acknowledged=0, refused=0, undone=0, unknown=0, late=0)
        self.wrong = None

    def number(self):
        with self.lock:
            self.next += 1
            return self.next

    def refuses(self, token):
        with self.lock:
            self.refused.add(token)
            self.totals["refused"] += 1

    def acks(self):
        with self.lock:
            self.totals["acknowledged"] += 1

    def sees(self, text):
        with self.lock:
            self.seen.update(token for token in (text or "").split(";") if token)


class Work:
    """What one client asks, and what may be answered. Another one takes its place where its connection is lost, since what it asked last
    may yet be done, or not."""

    def __init__(self, book, dice):
        self.book, self.random, self.who = book, dice, book.number()

    def command(self):
        """A command, and what to do with its reply: what is known when it is asked counts."""
        book, pick, token = self.book, self.random.randrange(10), f"{self.who}.{self.book.number()}"
        if pick < 3:
            return self.sets(token)
        if pick == 3:
            return self.appends(token)
        if pick == 4:
            place = self.random.randrange(COUNTERS)
            floor = book.counts[place]["most"]

            def counted(reply):
                with book.lock:
                    need(reply > floor, "INCR answered less than what was told before:", reply, floor)
                    need(reply not in book.counts[place]["told"], "INCR answered twice:", place, reply)
                    book.counts[place]["told"].add(reply)
                    book.counts[place]["most"] = max(book.counts[place]["most"], reply)
                book.acks()
            return ("INCR", f"count:{place}"), lambda reply: crashes.is_refused(reply) or counted(reply)
        if pick == 5:
            place = self.random.randrange(PAIRS)
            return (("MSET", f"left:{place}", token, f"right:{place}", token),
                    lambda reply: book.refuses(token) if crashes.is_refused(reply) else book.acks())
        if pick == 6:
            place = self.random.randrange(PAIRS)

            def pair(reply):
                need(reply[0] == reply[1], "MSET is not whole:", reply)
                book.sees(reply[0])
            return ("MGET", f"left:{place}", f"right:{place}"), lambda reply: crashes.is_refused(reply) or pair(reply)
        if pick == 7:
            return self.lists()
        return self.gets()

    def sets(self, token):
        book, key = self.book, f"own:{self.who}"

        def told(reply):
            if crashes.is_refused(reply):
                return book.refuses(token)
            with book.lock:
                book.acknowledged[key] = token
                book.owned[key] = max(book.owned.get(key, 0), int(token.split(".")[1]))
            return book.acks()
        return ("SET", key, token), told

    def gets(self):
        book = self.book
        with book.lock:
            key = self.random.choice(list(book.owned)[-20:] or ["own:0"])
            floor = book.owned.get(key, 0)

        def told(reply):
            number = int(reply.split(".")[1]) if reply else 0
            need(number >= floor, "a read is older than what was told before:", key, reply, floor)
            book.sees(reply)
            with book.lock:
                book.owned[key] = max(book.owned.get(key, 0), number)
        return ("GET", key), lambda reply: crashes.is_refused(reply) or told(reply)

    def appends(self, token):
        book, place = self.book, self.random.randrange(LISTS)

        def told(reply):
            if crashes.is_refused(reply):
                return book.refuses(token)
            with book.lock:
                book.lists[place]["acked"].add(token)
            return book.acks()
        return ("APPEND", f"list:{place}", token + ";"), told

    def lists(self):
        book, place = self.book, self.random.randrange(LISTS)
        floor = book.lists[place]["longest"]

        def told(reply):
            text = reply or ""
            need(text.startswith(floor), "a list is older than what was told before:", place, len(text), len(floor))
            with book.lock:
                known = book.lists[place]
                need(text.startswith(known["longest"]) or known["longest"].startswith(text), "lists that differ were seen:", place)
                known["longest"] = max(known["longest"], text, key=len)
            book.sees(text[len(floor):])
        return ("GET", f"list:{place}"), lambda reply: crashes.is_refused(reply) or told(reply)


class Client(threading.Thread):
    """A connection at work at whichever host leads."""

    def __init__(self, trial, who):
        super().__init__(daemon=True)
        self.trial, self.who, self.random = trial, who, random.Random(f"{trial.options.seed} {who}")
        self.link = None

    def connected(self):
        """A connection to a host that answers."""
        while not self.trial.over.is_set():
            for host in self.random.sample(self.trial.hosts, len(self.trial.hosts)):
                try:
                    return host.link()
                except OSError:
                    time.sleep(0.02)
        return None

    def run(self):
        while not self.trial.over.is_set():
            self.trial.calm.wait()
            link = self.connected()
            if link is None:
                return
            link.socket.settimeout(1.0)
            work = Work(self.trial.book, self.random)
            asked = []
            try:
                steps = self.ahead if self.who < 2 else self.plain
                steps(link, work, asked)
            except TimeoutError:
                # What is answered late, as by a host that slept, is to be true too.
                threading.Thread(target=self.waits, args=(link, asked, self.who < 2), daemon=True).start()
                continue
            except (OSError, ValueError):
                self.trial.book.totals["unknown"] += len(asked)
            except Wrong as wrong:
                self.trial.fails(wrong)
            except Exception as error:
                self.trial.fails(Wrong(f"a reply that no client should see: {error!r}"))
            link.close()

    def plain(self, link, work, asked):
        while self.trial.calm.is_set() and not self.trial.over.is_set():
            asked[:] = [work.command() for _ in range(self.random.randint(1, 8))]
            link.send(*(words for words, _ in asked))
            while asked:
                reply = link.reply()
                asked.pop(0)[1](reply)
            time.sleep(self.random.random() * self.trial.options.rest)

    def ahead(self, link, work, asked):
        """Is answered ahead, and believes it once all stands."""
        need(link.ask("SPEC") == "OK", "SPEC")
        while self.trial.calm.is_set() and not self.trial.over.is_set():
            asked[:] = [work.command() for _ in range(self.random.randint(1, 20))]
            link.send(*(words for words, _ in asked), ("WAITALL",))
            answers, told, undone = [link.reply() for _ in asked], link.reply(), []
            if isinstance(told, RuntimeError):
                need(str(told).startswith("UNDONE "), "WAITALL was answered", told)
                undone = [int(it) for it in str(told).split()[1:]]
                work.book.totals["undone"] += len(undone)
            for number, ((_, tell), (_, answer)) in enumerate(zip(asked, answers), 1):
                tell(RuntimeError("IOERR undone") if number in undone else answer)
            asked.clear()

    def waits(self, link, asked, is_ahead):
        """Answers that come late."""
        link.socket.settimeout(30)
        book = self.trial.book
        try:
            # The part of a reply that came before the time was over is lost with its file, so those of a client ahead aren't looked at.
            link.file = link.socket.makefile("rb")
            while asked and not is_ahead:
                reply = link.reply()
                asked.pop(0)[1](reply)
                book.totals["late"] += 1
        except (OSError, ValueError):
            pass
        except Wrong as wrong:
            self.trial.fails(Wrong(f"late: {wrong}"))
        except Exception as error:
            self.trial.fails(Wrong(f"a late reply that no client should see: {error!r}"))
        book.totals["unknown"] += len(asked)
        link.close()


class Trial:
    """Three members, two hosts, and clients."""

    def __init__(self, options, room):
        self.options, self.room, self.book, self.over, self.calm = options, room, Book(), threading.Event(), threading.Event()
        self.dice, self.wrong, self.back, self.late, self.probes, self.moved = random.Random(f"{options.seed}"), None, [], [], {}, 0
        # The network, and numbers of what fills the engine.
        (self.ways, self.network), self.fillers = cluster.network(options.gates), itertools.count()
        self.members = cluster.engine(room, self.ways, cluster.SMALL if any("full" in kind for kind in options.kinds) else cluster.LARGE)
        around = [self.members[place:] + self.members[:place] for place in range(options.hosts)]
        self.hosts = [cluster.Host(options, name, members, room, self.ways) for name, members in zip("abc", around)]

    def lags(self):
        """How much longer a thread sleeps than it wished, which tells what the machine has for others."""
        while not self.over.is_set():
            begun = time.monotonic()
            time.sleep(0.05)
            self.late.append(time.monotonic() - begun - 0.05)

    def fails(self, wrong):
        with self.book.lock:
            self.wrong = self.wrong or wrong

    def looked(self):
        if self.wrong:
            raise self.wrong

    def leader(self, not_this=None):
        """The host that leads, once one does."""
        until = time.monotonic() + (BACK if self.options.wrong is None else BACK_OF_WRONG)
        while time.monotonic() < until:
            self.looked()
            for host in self.hosts:
                if host.process.poll() is not None:
                    host.start()
                if not host.sleeps and host is not not_this and self.reads(host):
                    return host
            time.sleep(0.05)
        raise Wrong("nobody leads on this log" if self.said(REFUSES) else NOBODY)

    def reads(self, host, patience=1.0):
        """Whether a host answers a read that depends on nothing."""
        try:
            with contextlib.closing(host.link()) as link:
                link.socket.settimeout(patience)
                return link.ask("GET", "nothing") is None
        except OSError:
            return False

    def check(self, host, most=40):
        """What must hold at the host that leads: what is known when it is asked counts."""
        book, link = self.book, host.link()
        link.socket.settimeout(20)

        def reply():
            """What a read depends on may be refused, where the host leads no more: then another is looked at."""
            told = link.reply()
            if crashes.is_refused(told):
                raise ConnectionError("refused")
            return told
        with book.lock:
            owned = [(key, book.owned[key]) for key in list(book.acknowledged)[-most:]]
            lists = [(set(known["acked"]), known["longest"]) for known in book.lists]
            counts = [known["most"] for known in book.counts]
        for at in range(0, len(owned), 500):
            link.send(*(("GET", key) for key, _ in owned[at:at + 500]))
            for key, floor in owned[at:at + 500]:
                value = reply()
                need(value and int(value.split(".")[1]) >= floor, "an acknowledged write is gone:", key, value, floor)
                need(value not in book.refused, "a refused write is there:", key, value)
        names = [f"{name}:{place}" for name, many in (("list", LISTS), ("count", COUNTERS)) for place in range(many)]
        pairs = [("MGET", f"left:{place}", f"right:{place}") for place in range(PAIRS)]
        link.send(*(("GET", name) for name in names), *pairs)
        for place, (acked, floor) in enumerate(lists):
            text, last = reply() or "", {}
            tokens = text.split(";")[:-1]
            need(text.startswith(floor), "what a reader saw is gone:", f"list:{place}")
            need(len(tokens) == len(set(tokens)), "an append is there twice:", f"list:{place}")
            missing, there = acked - set(tokens), set(tokens) & book.refused
            need(not missing, "acknowledged appends are gone:", sorted(missing)[:3])
            need(not there, "refused appends are there:", sorted(there)[:3])
            for who, number in (token.split(".") for token in tokens):
                need(int(number) > last.get(who, 0), "appends out of order:", who, number)
                last[who] = int(number)
        for place, floor in enumerate(counts):
            value = int(reply() or 0)
            need(value >= floor, "a number that INCR told is gone:", place, value, floor)
        for _ in pairs:
            left, right = reply()
            need(left == right, "MSET is not whole:", left, right)
            need(left not in book.refused, "a refused write is there:", left)
        with book.lock:
            both = book.seen & book.refused
        need(not both, "a reader saw what was refused:", sorted(both)[:3])
        link.close()

    def checked(self, most=40):
        for _ in range(5):
            try:
                return self.check(self.leader(), most)
            except OSError:
                time.sleep(0.2)
        raise Wrong("no host answers for long enough")

    def questions(self, host):
        """Asks a host that sleeps, on connections that it has; what it answers is seen by the clients that ask."""
        waiting = []
        for link in self.probes.get(host, []):
            work = Work(self.book, self.dice)
            asked = [self.dice.choice([work.gets, work.lists])() for _ in range(4)]
            try:
                link.send(*(words for words, _ in asked))
            except OSError:
                continue
            waiting.append(threading.Thread(target=Client(self, 9).waits, args=(link, asked, False), daemon=True))
            waiting[-1].start()
        return waiting

    def probe(self, host):
        """Connections that a host has taken."""
        self.probes = {host: []}
        for _ in range(5):
            try:
                link = host.link()
                link.socket.settimeout(2)
                if link.ask("PING") == "PONG":
                    self.probes[host].append(link)
            except OSError:
                pass

    def asked(self, host):
        """The member that a host asks now: most goes there."""
        before = [gate.moved for gate in host.gates]
        time.sleep(0.1)
        gate, _ = max(zip(host.gates, before), key=lambda it: it[0].moved - it[1])
        return next(member for member in self.members if (member.at, member.port) == gate.target)

    def sleeps(self, host, is_idle, member=None):
        """Stops the leading host until another leads, asks it in its sleep, and wakes it; a member that has batches of it is woken before."""
        self.probe(host)
        if member:
            member.stop()
            time.sleep(self.dice.choice([0.05, 0.5, 1.02]))
        host.stop()
        if is_idle:
            self.calm.clear()
        self.leader(host)
        if not is_idle:
            self.goes_on()
        if member:
            member.wake()
            time.sleep(0.3)
        waiting = self.questions(host)
        time.sleep(0.2)
        host.wake()
        for thread in waiting:
            thread.join(31)
        time.sleep(0.3)
        self.calm.set()

    def goes_on(self):
        """Waits until more is acknowledged, which whoever sleeps doesn't have."""
        wanted, until = self.book.totals["acknowledged"] + 50, time.monotonic() + BACK
        while self.book.totals["acknowledged"] < wanted and time.monotonic() < until:
            self.looked()
            time.sleep(0.05)

    def stops(self, process, least, most):
        """Stops a host or a member for a while."""
        process.stop()
        time.sleep(self.dice.uniform(least, most))
        process.wake()

    def kills(self, count, most):
        """Kills members, which start again after a while."""
        members = self.dice.sample(self.members, count)
        for member in members:
            member.kill()
        time.sleep(self.dice.uniform(0, most))
        for member in members:
            member.start()

    def kills_behind(self, host):
        """Stops the member that has batches of the host, kills this, and wakes the member once another leads."""
        member = self.asked(host)
        member.stop()
        time.sleep(self.dice.choice([0.05, 1.0, 1.01, 1.02, 1.03, 1.05]))
        host.kill()
        self.leader()
        member.wake()

    def cuts_off(self, process):
        """Nothing goes between a host and the engine, or between a member and the others, for a while, in which a host is asked. What was sent
        arrives late."""
        if process in self.hosts:
            self.probe(process)
        self.ways.cut(process)
        time.sleep(self.dice.uniform(0.2, 5))
        waiting = self.questions(process)
        self.ways.heal(process)
        for thread in waiting:
            thread.join(31)

    def mutes(self, host):
        """The answers to a host are lost, and it sleeps while others lead and cut the log off."""
        for gate in host.gates:
            gate.muted = time.monotonic()
        time.sleep(0.1)
        host.stop()
        self.leader(host)
        time.sleep(3)
        host.wake()
        time.sleep(2)

    def tears(self, host):
        """Connections break, of the batches that are asked for again some get in, whichever, and the host is killed: so some may be behind a gap."""
        self.ways.cut(host)
        time.sleep(self.dice.uniform(0.1, 0.5))
        for gate in host.gates:
            gate.broken, gate.loses = time.monotonic(), 0.6
        self.ways.heal(host)
        time.sleep(self.dice.uniform(0.4, 0.8))
        host.kill()
        for gate in host.gates:
            gate.loses = 0.0

    def said(self, text):
        """How often hosts said something."""
        return sum(len(re.findall(text, path.read_text(errors="replace"))) for path in self.room.glob("host-*.log"))

    def loses(self, host):
        """Its folder is gone, so it needs the snapshot of another where the log has been cut off. It is another host then: who has lost it
        deletes what it said that it has."""
        host.kill()
        with contextlib.suppress(FileNotFoundError):
            key = f"hidewillow/have/{(host.folder / 'store').read_bytes()[24:40].hex()}"
            while "error" in self.dice.choice(self.members).asks("kv/deleterange", key=bytes64(key.encode())):
                time.sleep(0.2)
        shutil.rmtree(host.folder)
        cuts, copies, until = self.said(CUT), self.said(COPIED), time.monotonic() + BACK
        host.start()
        while cuts and self.said(COPIED) == copies:
            need(time.monotonic() < until, "no snapshot is copied")
            time.sleep(0.05)

    def fills(self):
        """Puts values beside what hosts put, by all members at once, until there is no room for more."""
        value = bytes64(os.urandom(1 << 20))

        def refuses(member):
            key = bytes64(f"{FILLER}{next(self.fillers):06}".encode())
            return "space exceeded" in member.asks("kv/put", key=key, value=value).get("error", "")
        with concurrent.futures.ThreadPoolExecutor(len(self.members)) as pool:
            while not any(list(pool.map(refuses, self.members))):
                self.looked()

    def makes_room(self):
        """What who runs the engine does once it is full, until each member takes something."""
        asks, (first, end), until = self.members[0].asks, (bytes64(text.encode()) for text in (FILLER, FILLER_END)), time.monotonic() + BACK
        while any("error" in member.asks("kv/put", key=first) for member in self.members):
            need(time.monotonic() < until, "no room can be made")
            gone = asks("kv/deleterange", key=first, range_end=end)
            asks("kv/compaction", revision=gone.get("header", {}).get("revision", 0), physical=True)
            for member in self.members:
                member.asks("maintenance/defragment")
            for alarm in asks("maintenance/alarm", action="GET").get("alarms", []):
                asks("maintenance/alarm", **{**alarm, "action": "DEACTIVATE"})

    def is_full(self, is_killed):
        """The engine has no room for a while: as long as the host leads what is written waits, and is answered once there is some, while reads
        go on."""
        led, host, told = (self.said(LEADS), self.said(OVER)), self.leader(), None
        leads = lambda: (self.said(LEADS), self.said(OVER)) == led
        self.fills()
        with contextlib.suppress(OSError), contextlib.closing(host.link()) as link:
            link.send(("SET", "room", "1"))
            early, _, _ = select.select([link.socket], [], [], self.dice.uniform(0.5, 3))
            need(not early or not leads(), "a write was answered while the engine was full")
            need(self.reads(host, 10) or not leads(), "no read was answered while the engine was full")
            if is_killed:
                host.kill()
            self.makes_room()
            told = link.reply()
        self.makes_room()
        if told != "OK" and not is_killed:
            self.leader()
            need(not leads(), "a batch was given up as the engine was full:", told)

    def run(self):
        for member in self.members:
            member.start()
        for host in self.hosts:
            host.start()
        self.leader()
        self.calm.set()
        clients = [Client(self, who) for who in range(CLIENTS)]
        for client in clients:
            client.start()
        threading.Thread(target=self.lags, daemon=True).start()
        kinds = self.options.kinds
        for place in range(self.options.faults):
            kind = kinds[place % len(kinds)]
            time.sleep(self.dice.uniform(0.2, self.options.seconds))
            begun = time.monotonic()
            try:
                before = self.leader()
                FAULTS[kind](self, before)
                after = self.leader()
                self.back.append(time.monotonic() - begun)
                self.moved += after is not before
                back = time.monotonic()
                self.checked()
                self.looked()
                if self.options.tell:
                    print(f"{place + 1}, {kind}: {self.back[-1]:.1f} s, checks {time.monotonic() - back:.1f} s", file=sys.stderr, flush=True)
            except Wrong as wrong:
                raise Wrong(f"fault {place + 1}, {kind}: {wrong}") from None
        self.over.set()
        for client in clients:
            client.join(5)
        self.checked(1 << 30)
        self.looked()
        self.stops_cleanly()
        back, late = statistics.median(self.back), statistics.median(self.late)
        if self.options.back:
            need(back < SOON + SOON_BY_LATE * late, f"another led again after {back:.1f} s (p50), where threads sleep {late:.4f} s too long")
        return f"{self.options.faults} faults over {self.network}, {self.counts()}, back after {back:.1f} s (p50): nothing wrong"

    def counts(self):
        counts = [("snapshots", "a snapshot up to .* bytes"), ("cuts", CUT), ("copies", COPIED), ("starts behind a gap", "and [1-9][0-9]* behind a gap")]
        return {"changes of leader": self.moved, **self.book.totals, **{name: self.said(text) for name, text in counts}}

    def stops_cleanly(self):
        """A clean stop gives the leadership up at once, and what was acknowledged stays."""
        host = self.leader()
        link = host.link()
        need(link.ask("SET", "last", "1") == "OK", "SET")
        link.close()
        host.process.send_signal(signal.SIGTERM)
        need(host.process.wait(20) == 0, "a clean stop exits 0")
        host.start()
        link = self.leader().link()
        need(link.ask("GET", "last") == "1", "a clean stop keeps the last write")
        link.close()

    def end(self):
        self.over.set()
        self.calm.set()
        for process in self.hosts + self.members:
            process.kill()
        self.ways.end()


# What happens, of each kind, at a moment at which this host leads.
FAULTS = {
    "host killed": lambda trial, host: host.kill(),
    "host sleeps": lambda trial, host: trial.sleeps(host, False),
    "member stopped, host killed": Trial.kills_behind,
    "host cut off": Trial.cuts_off,
    "host sleeps beside an idle one": lambda trial, host: trial.sleeps(host, True),
    "host stopped a while": lambda trial, host: trial.stops(host, 0.2, 2.8),
    "member stopped, host sleeps": lambda trial, host: trial.sleeps(host, True, trial.asked(host)),
    "member killed": lambda trial, host: trial.kills(1, 1),
    "engine full": lambda trial, host: trial.is_full(False),
    "two killed": lambda trial, host: trial.kills(2, 2),
    "member stopped": lambda trial, host: trial.stops(trial.dice.choice(trial.members), 0.5, 3),
    "member cut off": lambda trial, host: trial.cuts_off(trial.dice.choice([trial.asked(host), *trial.members])),
    "batches lost, host killed": Trial.tears,
    "answers lost, host sleeps long": Trial.mutes,
    "engine full, host killed": lambda trial, host: trial.is_full(True),
    "host loses its folder": lambda trial, host: trial.loses(trial.dice.choice(trial.hosts)),
}


def bytes64(data):
    """Bytes as the engine's gateway takes them."""
    return base64.b64encode(data).decode()


def tried(options):
    """So many faults; answers a line."""
    room = pathlib.Path(tempfile.mkdtemp(prefix="failovers-", dir=ROOMS))
    trial = Trial(options, room)
    try:
        return trial.run(), True
    except Wrong as wrong:
        logs = "" if options.wrong is not None and not options.tell else "".join(
            f"\n{path.name}: {path.read_text(errors='replace')[-600:]}" for path in sorted(room.glob("host-*.log")))
        return f"WRONG: {wrong} (seed {options.seed}, {trial.counts()}){logs}", False
    finally:
        trial.end()
        shutil.rmtree(room, ignore_errors=True)


def find(options, name):
    """Whether a wrong host is found, in words too."""
    options.kinds, edits = WRONG[name]
    # A majority of three hosts has snapshots of what one of them that sleeps was not answered.
    options.batches, options.rest, options.hosts, options.snapshot = 16, 0.003, 3 if "cut" in name else 2, "16k"
    with tempfile.TemporaryDirectory() as room:
        options.server = crashes.built(pathlib.Path(room), edits)
        line, well = tried(options)
    found = not well and NOBODY not in line
    return f"{name}: {'' if found else 'NOT FOUND: '}{line}", found


def main():
    words = argparse.ArgumentParser(description=__doc__, formatter_class=argparse.RawDescriptionHelpFormatter)
    words.add_argument("--server", default=str(crashes.TOP / "target/release/hidewillow-server"))
    words.add_argument("--faults", type=int, default=20)
    words.add_argument("--kinds", default=",".join(kind.replace(", ", "; ") for kind in FAULTS), help="with ; in the place of a comma within a name")
    words.add_argument("--seconds", type=float, default=1.0, help="how long clients work before a fault, at most")
    words.add_argument("--rest", type=float, default=0.01, help="how long a client rests between its commands, at most")
    words.add_argument("--seed", type=int, default=1)
    words.add_argument("--batches", type=int, default=4)
    words.add_argument("--hosts", type=int, default=2)
    words.add_argument("--clock", default="untrusted")
    words.add_argument("--snapshot", default="128k", help="bytes of the log after which a snapshot is made")
    words.add_argument("--gates", action="store_true", help="gates alone cut off, though there may be namespaces")
    words.add_argument("--back", action="store_true", help="the host that leads is killed each time, and another is to lead soon")
    words.add_argument("--tell", action="store_true", help="a line for each fault on stderr")
    words.add_argument("--wrong", nargs="*", metavar="NAME", help="those that have one of these names, or all")
    options = words.parse_args()
    options.kinds = ["host killed"] if options.back else [kind.replace("; ", ", ") for kind in options.kinds.split(",")]
    if shutil.which("etcd") is None:
        print("not there")
        return
    if options.wrong is None:
        line, well = tried(options)
        print(line)
        print(f"{int(well)} passed, {int(not well)} failed")
        sys.exit(not well)
    names = [name for name in WRONG if not options.wrong or any(part in name for part in options.wrong)]
    passed = 0
    with concurrent.futures.ProcessPoolExecutor(2) as pool:
        for line, well in pool.map(find, [options] * len(names), names):
            passed += well
            print(line, flush=True)
    print(f"{passed} passed, {len(names) - passed} failed")
    sys.exit(passed < len(names))


if __name__ == "__main__":
    main()
