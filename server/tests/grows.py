#!/usr/bin/env python3
"""How the work of one request grows with its keys: twice the keys are to take at most 2.2 times the server's instructions, and no more
of DBSIZE.

    server/tests/grows.py --server SERVER [--keys N]     with N keys (4,000), and with twice as many

Instructions are counted by valgrind's callgrind, and so nearly the same at each run: seconds also grow as less of the keys fits into
the processor's caches. Each request goes over keys that rise, that fall, and that stand in no order, since what is quick for one
order may be slow for another; the worst of them counts. A line for each request, and 'N passed, M failed' last; 'not there' where
there is no valgrind.
"""
import argparse
import concurrent.futures
import os
import pathlib
import random
import re
import shutil
import socket
import subprocess
import sys
import tempfile
import threading
import time

MOST = 2.2
# by itself it goes over no keys: so many times, and so many instructions each of so many, since the server's clocks take some beside one
ALIKE, MANY = {"DBSIZE": (1.1, 50_000)}, 200
ORDERS = ("rising", "falling", "mixed")
SUMMED = re.compile(r"^(?:summary|totals): (\d+)$", re.M)


def request(*words):
    return b"*%d\r\n" % len(words) + b"".join(b"$%d\r\n%s\r\n" % (len(it), it) for it in words)


class Server:
    """A server of its own, whose instructions are counted, and a connection to it that sends beside what it reads."""

    def __init__(self, program, room):
        self.room, self.seen = pathlib.Path(room), set()
        with socket.socket() as free:
            free.bind(("127.0.0.1", 0))
            self.port = free.getsockname()[1]
        words = ["valgrind", "--tool=callgrind", f"--callgrind-out-file={self.room / 'counts'}", program]
        words += ["--folder", self.room / "store", "--address", f"127.0.0.1:{self.port}"]
        self.process = subprocess.Popen(words, stdout=subprocess.DEVNULL, stderr=subprocess.DEVNULL)
        self.link = self.connected()
        self.file = self.link.makefile("rb")

    def connected(self):
        for _ in range(300):
            try:
                return socket.create_connection(("127.0.0.1", self.port))
            except OSError:
                time.sleep(0.1)
        raise SystemExit("grows: the server does not listen")

    def counted(self):
        """How many instructions it has carried out since the last time."""
        for _ in range(20):
            subprocess.run(["callgrind_control", "-d", str(self.process.pid)], capture_output=True, check=False)
            new = set(self.room.glob("counts.*")) - self.seen
            sums = [SUMMED.search(it.read_text(errors="replace")) for it in new]
            if sums and all(sums):
                self.seen |= new
                return sum(int(it.group(1)) for it in sums)
            time.sleep(0.1)
        raise SystemExit("grows: valgrind does not tell what it counted")

    def send(self, data):
        threading.Thread(target=self.link.sendall, args=(data,)).start()

    def reply(self):
        line = self.file.readline()
        if line[:1] == b"$" and int(line[1:]) >= 0:
            return self.file.read(int(line[1:]) + 2)[:-2]
        if line[:1] == b"*":
            return [self.reply() for _ in range(int(line[1:]))]
        assert line and not line.startswith(b"-"), line
        return line[:-2]

    def ask(self, *words):
        self.send(request(*words))
        return self.reply()

    def took(self, *words):
        self.counted()
        self.ask(*words)
        return self.counted()

    def took_each(self, *words):
        """The instructions of one of many alike."""
        self.counted()
        self.send(request(*words) * MANY)
        for _ in range(MANY):
            self.reply()
        return self.counted() / MANY

    def queue(self, requests):
        self.send(request(b"MULTI") + b"".join(request(*it) for it in requests))
        for _ in range(len(requests) + 1):
            self.reply()

    def end(self):
        self.process.terminate()
        self.process.wait()


def counts(server, keys):
    """The instructions of each request over these keys."""
    pairs = [word for key in keys for word in (key, b"1")]
    yield "MSET", server.took(b"MSET", *pairs)
    # The first may come beside old values that are let go of.
    yield "DBSIZE", min(server.took_each(b"DBSIZE") for _ in range(3))
    yield "MGET", server.took(b"MGET", *keys)
    yield "EXISTS", server.took(b"EXISTS", *keys)
    yield "DEL", server.took(b"DEL", *keys)
    server.queue([(b"INCR", key) for key in keys])
    yield "EXEC", server.took(b"EXEC")
    yield "FLUSHALL", server.took(b"FLUSHALL")
    server.ask(b"MSET", *pairs)
    server.queue([(b"SET", b"%s.more" % key, b"1") for key in keys] + [(b"DBSIZE",)])
    yield "EXEC with DBSIZE", server.took(b"EXEC")


def ordered(order, count):
    keys = [b"key:%08d" % it for it in range(count)]
    if order == "falling":
        keys.reverse()
    if order == "mixed":
        random.Random(1).shuffle(keys)
    return keys


def measured(program, order, count):
    """The instructions of each request over so many keys in an order."""
    with tempfile.TemporaryDirectory() as room:
        server = Server(program, room)
        try:
            return dict(counts(server, ordered(order, count)))
        finally:
            server.end()


def main():
    words = argparse.ArgumentParser()
    words.add_argument("--server", required=True)
    words.add_argument("--keys", type=int, default=4_000)
    told = words.parse_args()
    if not (shutil.which("valgrind") and shutil.which("callgrind_control")):
        print("not there")
        return 0
    sizes = (told.keys, 2 * told.keys)
    runs = [(order, count) for count in reversed(sizes) for order in ORDERS]
    with concurrent.futures.ThreadPoolExecutor(min(len(runs), os.cpu_count() or 1)) as beside:
        made = dict(zip(runs, beside.map(lambda run: measured(told.server, *run), runs)))
    once, twice = ({order: made[order, count] for order in ORDERS} for count in sizes)
    failed = 0
    for name in once[ORDERS[0]]:
        ratio, order = max((twice[order][name] / once[order][name], order) for order in ORDERS)
        millions = f"{once[order][name] / 1e6:,.2f} million instructions, {sizes[1]:,} {twice[order][name] / 1e6:,.2f}"
        print(f"{name}: {sizes[0]:,} {order} keys {millions}, {ratio:.2f} times")
        most, room = ALIKE.get(name, (MOST, None))
        failed += ratio > most or bool(room) and max(twice[it][name] for it in ORDERS) > room
    print(f"{len(once[ORDERS[0]]) - failed} passed, {failed} failed")
    return int(failed > 0)


if __name__ == "__main__":
    sys.exit(main())
