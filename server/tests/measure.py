#!/usr/bin/env python3
"""Measures the server beside `redis-server` with `appendonly yes` and `appendfsync always`, one run of one after one of the other, on
the disk at hand, and with milliseconds added to each sync of both. With `--folder /dev/shm`, where syncs take nothing, they take just
these milliseconds.

    tests/measure.py [--server PROGRAM] [--folder DIR] [--seconds 1.5] [--rounds 3] [--few] [--waiting]

A table of ratios for each number of milliseconds: commands a second, the median over the rounds, ours by theirs. Then what the rows
with an aim come to: of these too, beside the aim and OVER where it is missed, how long reads wait, what a chain of 100 dependent
commands takes where answers come ahead, what the processor takes for a SET, and for a command beside clients that wait. The last line
says the machine and its load. With `--few` the rows with an aim alone, and with `--waiting` those of clients that wait. Where `redis-server` is not installed it says 'not there'.
"""
import argparse
import os
import pathlib
import resource
import shutil
import socket
import statistics
import subprocess
import tempfile
import time

HERE = pathlib.Path(__file__).resolve().parent
SERVERS = ("redis", "ours")
READS, CONNECTIONS, PIPELINES, ADDED = (0, 50, 90), (1, 16, 50, 200), (1, 16), (0, 1, 10)
CHAIN = 100
# What is wanted: reads of a hundred, connections, pipeline, milliseconds added, and the least ratio.
AIMS = [(90, 50, 1, 1, 3.0), (90, 50, 1, 10, 8.0), (50, 50, 1, 1, 2.5), (50, 50, 1, 10, 2.0), (0, 50, 1, 1, 1.2), (0, 50, 1, 10, 1.2), (0, 1, 1, 1, 0.9), (0, 1, 1, 10, 0.9)]
WAIT_OF_READS, CHAIN_AHEAD, PROCESSOR_OF_A_SET = 0.2, 20, 1.3
# Connections that wait beside fifty, and what a command takes beside them, by what it takes without.
WAITING, BESIDE_WAITING = (1_000, 9_900), 1.3


class Bench:
    """The programs, a folder on the disk that is measured, and how long a run is."""

    def __init__(self, options, room):
        self.options, self.room, self.known = options, pathlib.Path(room), {}
        subprocess.run(["cc", "-O2", "-o", self.room / "load", HERE / "load.c"], check=True)
        subprocess.run(["cc", "-O2", "-shared", "-fPIC", "-o", self.room / "shim.so", HERE / "shim.c", "-ldl", "-lpthread"], check=True)

    def load(self, name, added, *words, waiting=0):
        """What a load on a server of its own prints, beside clients that wait, and the seconds of a processor that the server took."""
        folder = pathlib.Path(tempfile.mkdtemp(dir=self.options.folder))
        with socket.socket() as probe:
            probe.bind(("127.0.0.1", 0))
            port = probe.getsockname()[1]
        server = {"redis": ["redis-server", "--port", port, "--dir", folder, "--appendonly", "yes", "--appendfsync", "always", "--save", ""],
                  "ours": [self.options.server, "--folder", folder, "--address", f"127.0.0.1:{port}"]}[name]
        env = {"LD_PRELOAD": str(self.room / "shim.so"), "SHIM_FOLDER": str(folder), "SHIM_SLOW": str(added * 1000)} if added else {}
        process = started(server, port, env)
        try:
            # What the server begins with is made first, also the segment that comes next.
            for _ in range(1000 if name == "ours" else 0):
                if len(list(folder.glob("log-*"))) > 1:
                    break
                time.sleep(0.02)
            waits = [socket.create_connection(("127.0.0.1", port)) for _ in range(waiting)]
            time.sleep(0.5 if waits else 0)
            begun = processor_of(process.pid)
            ran = subprocess.run([self.room / "load", str(port), *map(str, words)], capture_output=True, text=True, check=False)
            if ran.returncode:
                raise SystemExit(f"measure: {name}: {ran.stderr.strip()}")
            return [float(it) for it in ran.stdout.split()], processor_of(process.pid) - begun
        finally:
            process.kill()
            process.wait()
            shutil.rmtree(folder)

    def mix(self, reads, connections, pipeline, added):
        """Of both: commands a second, how long reads and writes wait, and the processor's microseconds for a command; medians."""
        row = (reads, connections, pipeline, added)
        if row not in self.known:
            runs = {name: [] for name in SERVERS}
            for _ in range(self.options.rounds):
                for name in SERVERS:
                    (commands, seconds, *waits), took = self.load(name, added, "mix", connections, reads, pipeline, self.options.seconds)
                    runs[name].append((commands / seconds, *waits, took * 1e6 / commands))
            self.known[row] = {name: [statistics.median(it) for it in zip(*runs[name])] for name in SERVERS}
        return self.known[row]

    def beside(self, waiting):
        """What the processor takes for a command beside so many clients that wait, by what it takes beside none; the median."""
        ratios = []
        for _ in range(self.options.rounds):
            costs = []
            for count in (0, waiting):
                (commands, *_), took = self.load("ours", 1, "mix", 50, 50, 1, self.options.seconds, waiting=count)
                costs.append(took / commands)
            ratios.append(costs[1] / costs[0])
        return statistics.median(ratios)

    def ratio(self, *row):
        told = self.mix(*row)
        return told["ours"][0] / told["redis"][0]

    def chain(self, added):
        """How many times as long a chain takes where each command waits for the disk, by theirs and by ours that goes ahead."""
        told = {}
        for name, more in (("redis", []), ("ours", ["spec"])):
            told[name] = statistics.median(self.load(name, added, "chain", CHAIN, *more)[0][0] for _ in range(self.options.rounds))
        return told["redis"] / told["ours"]


def started(words, port, env):
    """A server that listens."""
    process = subprocess.Popen([str(it) for it in words], env={**os.environ, **env}, stdout=subprocess.DEVNULL, stderr=subprocess.DEVNULL)
    for _ in range(1000):
        try:
            socket.create_connection(("127.0.0.1", port)).close()
            return process
        except OSError:
            time.sleep(0.02)
    raise SystemExit(f"measure: {words[0]} doesn't listen")


def processor_of(pid):
    """The seconds of a processor that a process has taken."""
    fields = pathlib.Path(f"/proc/{pid}/stat").read_text(encoding="ascii").rsplit(")", 1)[1].split()
    return (int(fields[11]) + int(fields[12])) / os.sysconf("SC_CLK_TCK")


def tables(bench):
    """A table of ratios for each number of milliseconds."""
    for added in ADDED:
        print(f"\n{added} ms added to a sync\n")
        print("| reads, pipeline | " + " | ".join("1 connection" if it == 1 else f"{it} connections" for it in CONNECTIONS) + " |\n|---|" + "---|" * len(CONNECTIONS))
        for reads in READS:
            for pipeline in PIPELINES:
                ratios = [f"{bench.ratio(reads, it, pipeline, added):.2f}" for it in CONNECTIONS]
                print(f"| {reads} %, {pipeline} | " + " | ".join(ratios) + " |", flush=True)


def row(what, value, aim, is_least=True):
    """A row with an aim."""
    is_over = value < aim if is_least else value > aim
    print(f"| {what} | {value:.2f} | {aim} {'at least' if is_least else 'at most'} | {'OVER' if is_over else ''} |", flush=True)


def beside_waiting(bench):
    """What clients cost that wait."""
    for count in WAITING:
        row(f"{count:,} clients that wait, beside 50: processor a command, by without them", bench.beside(count), BESIDE_WAITING, False)


def aims(bench):
    """The rows with an aim."""
    print("\n| ours by theirs | | aim | |\n|---|---|---|---|")
    for reads, connections, pipeline, added, aim in AIMS:
        row(f"{reads} % reads, {connections} connections, {added} ms: commands a second", bench.ratio(reads, connections, pipeline, added), aim)
    for added in (1, 10):
        told = bench.mix(90, 50, 1, added)
        what = f"90 % reads, 50 connections, {added} ms: a read waits {told['ours'][1]:.0f} us, theirs {told['redis'][1]:.0f}"
        row(what, told["ours"][1] / told["redis"][1], WAIT_OF_READS, False)
        row(f"a chain of {CHAIN} commands, {added} ms: theirs by ours that goes ahead", bench.chain(added), CHAIN_AHEAD)
    told = bench.mix(0, 50, 16, 0)
    what = f"writes alone, 50 connections, pipeline 16: processor {told['ours'][3]:.1f} us a SET, theirs {told['redis'][3]:.1f}"
    row(what, told["ours"][3] / told["redis"][3], PROCESSOR_OF_A_SET, False)
    beside_waiting(bench)


def main():
    words = argparse.ArgumentParser(description=__doc__, formatter_class=argparse.RawDescriptionHelpFormatter)
    words.add_argument("--server", default=str(HERE.parent / "target/release/hidewillow-server"))
    words.add_argument("--folder", default=tempfile.gettempdir())
    words.add_argument("--seconds", type=float, default=1.5)
    words.add_argument("--rounds", type=int, default=3)
    words.add_argument("--few", action="store_true")
    words.add_argument("--waiting", action="store_true")
    options = words.parse_args()
    resource.setrlimit(resource.RLIMIT_NOFILE, (resource.getrlimit(resource.RLIMIT_NOFILE)[1],) * 2)
    if not options.waiting and not shutil.which("redis-server"):
        print("measure: no redis-server: not there")
        return
    before = os.getloadavg()[0]
    with tempfile.TemporaryDirectory() as room:
        bench = Bench(options, room)
        if not options.few and not options.waiting:
            tables(bench)
        (beside_waiting if options.waiting else aims)(bench)
    model = next(it.split(":")[1].strip() for it in open("/proc/cpuinfo", encoding="ascii") if it.startswith("model name"))
    print(f"\n{os.cpu_count()} processors, {model}; load {before:.1f} before and {os.getloadavg()[0]:.1f} behind")


if __name__ == "__main__":
    main()
