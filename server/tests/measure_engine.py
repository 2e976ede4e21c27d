#!/usr/bin/env python3
"""The store with its log in etcd beside etcd itself, one run of one after one of the other, as tables.

    tests/measure_engine.py [--server PROGRAM] [--rounds 1] [--seconds 2] [--ways 0,1,10] [--connections 1,50,200] [--reads 0,50,90] [--awake]

Three members and two hosts, one of which trusts clocks, on this machine; members' data in memory where there is some. Members reach each other,
and hosts and clients of the engine reach members, by a program that hands on each byte later, so that the way there and back takes so many
milliseconds longer. Values have 100 bytes, there are 10,000 keys, and each connection has one command under way. The engine's own clients
put and read by gRPC, on streams of a connection to each member. The clients of the store are beside its host. Where `etcd` is not
installed the last line is 'not there'.

With `--awake` a program of the lowest priority keeps each processor busy while nothing else wants it. On virtual machines one that sleeps
can take as long to wake as the ways take, and not twice the same; all that is measured goes by a dozen such wakes.
"""
import argparse
import contextlib
import os
import pathlib
import shutil
import socket
import statistics
import subprocess
import sys
import tempfile
import time

HERE = pathlib.Path(__file__).resolve().parent
TOP = HERE.parent
ROOMS = "/dev/shm" if os.access("/dev/shm", os.W_OK) else None
NAMES = ("engine", "store", "trusts clocks")
# What is to be had at least: the way, connections, reads, whose, by what of the engine.
AIMS = [("1", 50, 0, "store", 1.5), ("1", 200, 0, "store", 2.5), ("1", 50, 90, "store", 2.0), ("10", 50, 90, "trusts clocks", 8.0), ("1", 1, 0, "store", 0.9)]


IDLE = "import os; os.sched_setscheduler(0, os.SCHED_IDLE, os.sched_param(0)); os.sched_setaffinity(0, {{{}}})\nwhile True: pass"


@contextlib.contextmanager
def awake(wanted):
    """Keeps processors awake."""
    busy = [subprocess.Popen([sys.executable, "-c", IDLE.format(place)]) for place in sorted(os.sched_getaffinity(0)) if wanted]
    try:
        yield
    finally:
        for process in busy:
            process.kill()
            process.wait()


def free_port():
    with socket.socket() as probe:
        probe.bind(("127.0.0.1", 0))
        return probe.getsockname()[1]


class Engine:
    """Three members, and the ways to them."""

    def __init__(self, options, room, way):
        self.options, self.room, self.processes = options, room, []
        self.data = pathlib.Path(tempfile.mkdtemp(prefix="measure-", dir=ROOMS if way else None))
        at = lambda port: f"127.0.0.1:{port}"
        clients, peers = [[(free_port(), free_port()) for _ in range(3)] for _ in "ab"]
        pairs = [(at(far), at(near)) for near, far in clients + peers]
        micros = int(way * 1000 / 2)
        self.start([room / "beside", "delay", micros, *(word for pair in pairs for word in pair)], "delay")
        cluster = ",".join(f"m{place}=http://{at(far)}" for place, (_, far) in enumerate(peers))
        for place, ((client, far), (peer, far_peer)) in enumerate(zip(clients, peers)):
            self.start(["etcd", "--name", f"m{place}", "--data-dir", self.data / f"m{place}", "--listen-client-urls", f"http://{at(client)}",
                        "--advertise-client-urls", f"http://{at(far)}", "--listen-peer-urls", f"http://{at(peer)}",
                        "--initial-advertise-peer-urls", f"http://{at(far_peer)}", "--initial-cluster", cluster, "--log-level", "error",
                        "--initial-cluster-token", self.data.name, "--quota-backend-bytes", 8 << 30], f"m{place}")
        self.addresses = [at(far) for _, far in clients]
        self.ports = {}
        for name, clock in (("store", "untrusted"), ("trusts clocks", "trusted")):
            self.ports[name] = free_port()
            self.start([options.server, "--log", "etcd:" + ",".join(self.addresses), "--address", at(self.ports[name]), "--clock", clock,
                        "--prefix", f"{name}/", "--batches", options.batches, "--folder", self.data / name.replace(" ", "-")],
                       name.replace(" ", "-"))
        until = time.monotonic() + 60
        for port in self.ports.values():
            while time.monotonic() < until:
                try:
                    socket.create_connection(("127.0.0.1", port), 1).close()
                    break
                except OSError:
                    time.sleep(0.1)
        subprocess.run([room / "beside", "fill", *self.addresses], check=True)

    def start(self, words, name):
        with (self.room / f"{name}.log").open("ab") as log:
            self.processes.append(subprocess.Popen([str(word) for word in words], stdout=log, stderr=log))

    def mix(self, name, connections, reads):
        """Commands a second, and the medians of reads and writes in milliseconds."""
        if name == "engine":
            words = ["beside", "direct", connections, reads, self.options.seconds, *self.addresses]
        else:
            words = ["load", self.ports[name], "mix", connections, reads, 1, self.options.seconds]
        ran = subprocess.run([self.room / words[0], *map(str, words[1:])], capture_output=True, text=True, check=False)
        if ran.returncode:
            return 0.0, 0.0, 0.0
        commands, seconds, read, write = map(float, ran.stdout.split())
        return commands / seconds, read / 1000, write / 1000

    def end(self):
        for process in self.processes:
            process.kill()
            process.wait()
        shutil.rmtree(self.data, ignore_errors=True)


def main():
    words = argparse.ArgumentParser(description=__doc__, formatter_class=argparse.RawDescriptionHelpFormatter)
    words.add_argument("--server", default=str(TOP / "target/release/hidewillow-server"))
    words.add_argument("--rounds", type=int, default=1)
    words.add_argument("--seconds", type=float, default=2)
    words.add_argument("--ways", default="0,1,10")
    words.add_argument("--connections", default="1,50,200")
    words.add_argument("--reads", default="0,50,90")
    words.add_argument("--batches", default="4")
    words.add_argument("--awake", action="store_true")
    options = words.parse_args()
    if shutil.which("etcd") is None:
        print("not there")
        return
    before, ratios = os.getloadavg()[0], {}
    with tempfile.TemporaryDirectory() as folder, awake(options.awake):
        room = pathlib.Path(folder)
        subprocess.run(["cc", "-O2", "-o", room / "load", HERE / "load.c"], check=True)
        target = pathlib.Path(os.environ.get("CARGO_TARGET_DIR", TOP / "target"))
        subprocess.run(["cargo", "build", "--release", "--offline", "--quiet", "--example", "beside"], cwd=TOP, check=True)
        shutil.copy(target / "release/examples/beside", room)
        for way in options.ways.split(","):
            print(f"\n{way} ms longer there and back: commands a second, by those of the engine; read, write wait p50 in ms\n")
            print("| connections, reads | engine | store | | store that trusts clocks | |\n|---|---|---|---|---|---|")
            engine = Engine(options, room, float(way))
            try:
                for connections in map(int, options.connections.split(",")):
                    for reads in map(int, options.reads.split(",")):
                        told = {name: [] for name in NAMES}
                        for _ in range(options.rounds):
                            for name in NAMES:
                                told[name].append(engine.mix(name, connections, reads))
                        middle = {name: [statistics.median(it) for it in zip(*told[name])] for name in NAMES}
                        cells = []
                        for name in NAMES:
                            rate, read, write = middle[name]
                            ratios[way, connections, reads, name] = rate / max(middle["engine"][0], 1)
                            cells.append(f"{rate:,.0f}; {read:.2g}, {write:.2g}")
                            if name != "engine":
                                cells.append(f"**{ratios[way, connections, reads, name]:.2f}**")
                        print(f"| {connections}, {reads} % | {' | '.join(cells)} |", flush=True)
            finally:
                engine.end()
    print("\n| by the engine | | aim | |\n|---|---|---|---|")
    for way, connections, reads, name, aim in AIMS:
        ratio = ratios.get((way, connections, reads, name))
        if ratio is not None:
            print(f"| {connections} connections, {reads} % reads, {way} ms, {name} | {ratio:.2f} | {aim} at least | {'' if ratio >= aim else 'OVER'} |")
    print(f"\n{os.cpu_count()} processors; load {before:.1f} before and {os.getloadavg()[0]:.1f} behind")


if __name__ == "__main__":
    main()
