#!/usr/bin/env python3
"""What a host with its log in an engine looks at before it leads, is heard, or tells anything: each at a chosen moment, over an engine that
stands in (tests/standin.py), so etcd needn't be installed.

    tests/guards.py [--server PROGRAM] [--only NAME ..]   each part by its name, side by side
    tests/guards.py --wrong [NAME ..]                     builds hosts that are wrong on purpose, and says whether they are found

The last line is 'N passed, M failed'.
"""
import argparse
import concurrent.futures
import contextlib
import pathlib
import select
import signal
import socket
import sys
import tempfile
import threading
import time

HERE = pathlib.Path(__file__).resolve().parent
sys.dont_write_bytecode = True
sys.path.append(str(HERE))
import crashes
import failovers
import ill
from crashes import Link
from ill import Server, ended, until
from standin import Door, Engine

PREFIX = b"hidewillow/"
# How long it is waited for what is not to come, and for what is.
EARLY, LATE = 0.7, 30
# Seconds of a lease that a host's clock measures.
LEASE = 8
# Hosts that are wrong on purpose: the part that is to find each, and the file, what stands there, and what is put in its place.
WRONG = {
    **{name: (part, failovers.WRONG[name][1]) for name, part in {
        "no round": "reads", "what was sent before a read proves it": "rides", "no guard of the leader": "late_batches",
        "a time out is a failure": "lost_answers", "absent is never, behind a cut": "behind_a_cut",
        "nothing is deleted behind the gap": "gaps"}.items()},
    "a folder of any store": ("folders", [("leader.rs", "Some(said) if Some(said.owner.identity) != identity =>", "Some(_) if options.lease == 0 =>")]),
    "hosts by their addresses": ("folders", [("etcd/engine.rs", "text(host)))", "old))")]),
    "any cluster is heard": ("clusters", [("requests.rs", "Err(first) if first != of =>", "Err(first) if first != of && first == 1 << 60 =>")]),
    "announces what nobody reaches": ("announced", [("follower.rs", "if is_none || is_near(&text)", "if options.lease == 0 && (is_none || is_near(&text))"),
                                                    ("follower.rs", "all(|member| is_near(member)) {", "all(|member| is_near(member)) && is_none {")]),
    "refusals are passed over": ("refusals", [("trailers.rs", "of(\"grpc-status\").filter(|status| *status != \"0\")?", "of(\"grpc-status\").filter(|_| false)?")]),
    "leads on a log without its front": ("fronts", [("leader.rs", "1 if log.cut == 0 && log.gap == 1 && log.behind > 0 =>", "1 if log.gap == 0 =>")]),
    "leads on a log behind its snapshot": ("snapshots", [("leader.rs", "2.. if log.cut < first - 1 && !leadership.has(first - 1)? =>", "2.. if log.gap == 0 =>")]),
    "one host's snapshot is enough": ("majorities", [("follower.rs", "have.get(have.len() / 2)", "have.first()")]),
    "a lease that is too long": ("clocks", [("etcd/engine.rs", "Duration::from_secs(seconds) * 4 / 5", "Duration::from_secs(seconds) * 3 / 2")]),
    "what is answered is told once all is sent": ("last_answers", [("http2.rs", "            let did = state.send(out);\n            drop(state);\n            //",
                                                                    "            let did = Ok::<_, io::Error>(());\n            state.send(out)?;\n            drop(state);\n            //")]),
    "copies as they come": ("copies", [("follower.rs", "place(&path, copy, |new| read_back(new, &self.said.owner.identity, (segment, next)))", "place(&path, copy, |_| Ok(()))")]),
    "compacts in any case": ("snapshots", [("etcd/engine.rs", "match did.done && compacts {", "match did.done || compacts {")]),
}


def host(program, folder, doors, *words, **env):
    """A host of an engine, whose lease ends by the engine alone."""
    at = ",".join(door.address for door in doors)
    usual = ["--lease", "600", "--no-password", "--segment", "64k", "--undecided", "60k"]
    return Server(program, folder, "--log", f"etcd:{at}", *usual, *words, **env)


def linked(server):
    return Link(server.port, "127.0.0.1")


def within(link, seconds=EARLY):
    """What is answered in so many seconds, if anything is; that the connection ended is told so."""
    came, _, _ = select.select([link.socket], [], [], seconds)
    if not came:
        return None
    try:
        return link.reply()
    except OSError:
        return "ended"


def is_refusal(told):
    return isinstance(told, RuntimeError) and str(told).startswith("IOERR")


def is_put(call):
    """Whether a batch is to be put."""
    return any(key.startswith(PREFIX + b"log/") for key in call.puts)


def puts(door):
    """How many batches were to be put."""
    return sum(is_put(call) for call, _ in door.asked)


def waits(door, rule, count=1):
    """So many calls came by which a rule was carried out."""
    return until(lambda: sum(it == rule for _, it in door.asked) >= count, LATE)


def ends(server):
    """What a server that refuses to go on ends with."""
    return until(lambda: server.process.poll() is not None, LATE) and server.process.poll()


def log_of(engine):
    return engine.names(PREFIX + b"log/")


# ---- whose it is

def folders(program, room):
    """A folder is of one store."""
    engine, other = Engine(), Engine()
    door, beside = Door(engine), Door(other)
    with ended(host(program, room / "one", [door])) as server:
        yield "a start", server.listens() and linked(server).ask("SET", "a", "1") == "OK" and server.end() == 0
    before = engine.names()
    with ended(host(program, room / "one", [door], "--prefix", "another/")) as server:
        yield "no other prefix", ends(server) == 1 and "the store in the engine is another" in server.said()
    with ended(host(program, room / "one", [beside])) as server:
        yield "no other engine", ends(server) == 1 and "the store in the engine is another" in server.said()
    yield "nothing is put anywhere", engine.names() == before and other.names() == []
    with ended(Server(program, room / "one")) as server:
        yield "no log on a disk beside it", ends(server) == 1 and "in an engine" in server.said()
    with ended(Server(program, room / "disk")) as server:
        yield "a start on a disk", server.listens() and server.line(b"SET a 2\r\n") == b"+OK\r\n" and server.end() == 0
    with ended(host(program, room / "disk", [door])) as server:
        yield "which is of no engine", ends(server) == 1 and "whose log is on a disk" in server.said()
    with ended(host(program, room / "one", [door])) as server:
        yield "its own goes on", server.listens() and linked(server).ask("GET", "a") == "1" and engine.names()[:1] == before[:1]
        address = server.address
        yield "and stops", server.end() == 0
    with ended(host(program, room / "twin", [door], address=address)) as server:
        yield "another host has the same address", server.listens() and linked(server).ask("GET", "a") == "1"
        yield "and is told from the first by its folder", until(lambda: len(engine.names(PREFIX + b"have/")) == 2)


def clusters(program, room):
    """The cluster that answered first is the only one that is heard."""
    engine, other = Engine(1), Engine(2)
    door, beside = Door(engine), Door(other)
    with ended(host(program, room / "host", [door, beside])) as server:
        yield "a start", server.listens()
        link = linked(server)
        yield "a write", link.ask("SET", "a", "1") == "OK"
        door.shuts()
        link.send(("SET", "a", "2"))
        yield "nobody is told what another cluster says", within(link, 2.5) is None
        yield "that is told", server.says("of another cluster than the first", LATE)
        yield "and nothing is put there", other.names() == []
        door.reopens()
        yield "it goes on with its own", within(link, LATE) == "OK" and link.ask("GET", "a") == "2"


def announced(program, room):
    """What nobody reaches is not announced where the engine is on another machine."""
    engine = Engine()
    near, far = Door(engine), Door(engine, "0.0.0.0")

    def refused(name, *words, door=far):
        with ended(host(program, room / name, [door], *words)) as server:
            return ends(server) == 1 and "--announce" in server.said()
    yield "a loopback", refused("usual")
    yield "one that is announced", refused("named", "--copies", "0.0.0.0:0", "--announce", "127.0.0.1")
    yield "a wildcard", refused("wildcard", "--copies", "0.0.0.0:0")
    yield "a wildcard, beside an engine that is near", refused("wildcard-near", "--copies", "0.0.0.0:0", door=near)
    yield "nothing of them is in the engine", engine.names(PREFIX + b"have/") == []
    with ended(host(program, room / "far", [far], "--copies", "0.0.0.0:0", "--announce", "10.11.12.13")) as server:
        yield "what others reach is announced", server.listens() and until(lambda: engine.names(PREFIX + b"have/"))
        said = engine.keys[engine.names(PREFIX + b"have/")[0]].value
        yield "by that name", b" 10.11.12.13:" in said
        yield "its stop", server.end() == 0
    with ended(host(program, room / "near", [near])) as server:
        yield "a loopback, beside an engine that is near", server.listens()


def refusals(program, room):
    """What the engine says in the place of an answer is told once, and no reason to give anything up."""
    engine = Engine()
    door = Door(engine)
    with ended(host(program, room / "host", [door])) as server:
        yield "a start", server.listens()
        link, reader = linked(server), linked(server)
        yield "a write", link.ask("SET", "a", "1") == "OK"
        door.rules(lambda call: (8, "mvcc: space exceeded") if is_put(call) else "answer")
        link.send(("SET", "a", "2"))
        yield "a write waits", waits(door, (8, "mvcc: space exceeded"), 5) and within(link, 0.1) is None
        reader.send(("GET", "none"))
        yield "a read doesn't", within(reader, LATE) is None and reader.ask("PING") == "PONG"
        yield "it is told once", server.said().count("mvcc: space exceeded (status 8)") == 1
        door.rules("answer")
        yield "it goes on once there is room", within(link, LATE) == "OK" and link.ask("GET", "a") == "2"


# ---- a log that isn't whole

def fronts(program, room):
    """A host without a snapshot leads on nothing but a log that begins at 1."""
    engine = Engine()
    door = Door(engine)
    with ended(host(program, room / "one", [door])) as server:
        yield "a start", server.listens()
        yield "writes", [linked(server).ask("SET", f"k{number}", "1") for number in range(3)] == ["OK"] * 3 and server.end() == 0
    kept, first = log_of(engine), engine.keys[log_of(engine)[0]]
    engine.remove(kept[0])
    with ended(host(program, room / "two", [door])) as server:
        yield "none of which the front is missing", ends(server) == 1 and "doesn't begin at batch 1" in server.said()
    yield "of which nothing is deleted", log_of(engine) == kept[1:]
    engine.put(PREFIX + b"snap", b"%016d %010d" % (2, 1))
    engine.remove(kept[1])
    with ended(host(program, room / "three", [door])) as server:
        yield "nor one of which it was cut off", server.says("no snapshot up to batch 2 is in the folder", LATE)
        time.sleep(EARLY)
        yield "it leads nothing", "listening" not in server.said() and engine.names(PREFIX + b"leader") == []
    yield "and deletes nothing", log_of(engine) == kept[2:]
    engine.remove(PREFIX + b"snap", *log_of(engine))
    engine.put(kept[0], first.value)
    with ended(host(program, room / "four", [door])) as server:
        yield "one that begins at 1 is led", server.listens() and linked(server).ask("DBSIZE") == 0


def majorities(program, room):
    """The log is cut off where a majority of hosts has a snapshot."""
    engine = Engine()
    door, others = Door(engine), [PREFIX + b"have/" + digit * 32 for digit in (b"a", b"b")]
    for other in others:
        engine.put(other, b"%016d %010d 10.0.0.1:1" % (0, 0))
    with ended(host(program, room / "host", [door], "--snapshot", "1k")) as server:
        yield "a start", server.listens()
        link = linked(server)
        yield "writes", [link.ask("SET", f"k{number}", "x" * 3000) for number in range(60)] == ["OK"] * 60
        yield "a snapshot is made", server.says("a snapshot up to batch", LATE)
        time.sleep(2 * EARLY)
        yield "it isn't enough", "is cut off up to" not in server.said() and log_of(engine)[0].endswith(b"/%016d" % 1)
        engine.remove(others[0])
        time.sleep(2 * EARLY)
        yield "nor where one of two has it", "is cut off up to" not in server.said()
        engine.remove(others[1])
        yield "it is where nobody else is there", server.says("is cut off up to", LATE)


def snapshots(program, room):
    """A host leads only where the log goes on behind its snapshot; the engine is compacted where that is wished."""
    for words, compactions in ((["--compact", "off"], False), (["--compact", "engine"], True)):
        engine = Engine()
        door, name = Door(engine), words[1]
        with ended(host(program, room / name, [door], "--snapshot", "1k", *words)) as server:
            yield f"a start, {name}", server.listens()
            link = linked(server)
            yield "writes", [link.ask("SET", f"k{number}", "x" * 3000) for number in range(60)] == ["OK"] * 60
            yield "a snapshot is made, and the log is cut", server.says("is cut off up to", LATE)
            time.sleep(EARLY)
            yield "compaction is as it is wished", (engine.compactions > 0) == compactions and server.end() == 0
    engine.remove(PREFIX + b"snap", *log_of(engine))
    with ended(host(program, room / "engine", [door])) as server:
        yield "no log that ends before its snapshot", ends(server) == 1 and "which the log in the engine doesn't have" in server.said()
    yield "is written to", log_of(engine) == []


class Copies:
    """Hands out a snapshot as a host does, as long as it is there."""

    def __init__(self, text, name):
        self.text, self.line = text, b"%d %d %d\n" % (*map(int, name.split("-")[1:]), len(text))
        self.listener = socket.create_server(("127.0.0.1", 0))
        self.address = b"127.0.0.1:%d" % self.listener.getsockname()[1]
        self.handed = 0
        threading.Thread(target=self.hands_out, daemon=True).start()

    def hands_out(self):
        while True:
            link, _ = self.listener.accept()
            with link, contextlib.suppress(OSError):
                link.makefile("rb").readline()
                link.sendall(self.line + self.text)
            self.handed += 1


def copies(program, room):
    """What another host hands out is taken where it is whole, and of this store."""
    engine = Engine()
    door, folder = Door(engine), room / "two"
    with ended(host(program, room / "one", [door], "--snapshot", "1k")) as server:
        yield "a start", server.listens()
        yield "writes", [linked(server).ask("SET", f"k{number}", "x" * 3000) for number in range(60)] == ["OK"] * 60
        yield "a snapshot is made, and the log is cut", server.says("is cut off up to", LATE) and server.end() == 0
    snapshot = max((room / "one").glob("snapshot-*"))
    text, middle = snapshot.read_bytes(), snapshot.stat().st_size // 2
    other = Copies(text[:middle] + bytes([text[middle] ^ 1]) + text[middle + 1:], snapshot.name)
    engine.remove(*engine.names(PREFIX + b"have/"))
    segment, batch = map(int, snapshot.name.split("-")[1:])
    engine.put(PREFIX + b"have/" + b"c" * 32, b"%016d %010d %s" % (batch - 1, segment, other.address))
    with ended(host(program, folder, [door])) as server:
        yield "a spoilt one is handed out, again and again", until(lambda: other.handed > 2)
        yield "and not taken", list(folder.glob("snapshot-*")) == [] and "listening" not in server.said() and server.process.poll() is None
        other.text = text
        yield "one that is whole is", server.listens() and linked(server).ask("GET", "k0") == "x" * 3000


# ---- moments

@contextlib.contextmanager
def begun(program, room, *words):
    """Two hosts with a door each, of which the first leads and has the key `a`."""
    engine = Engine()
    near, far = Door(engine), Door(engine)
    with ended(host(program, room / "first", [near], *words)) as first:
        if not first.listens() or linked(first).ask("SET", "a", "1") != "OK":
            raise crashes.Wrong("no host leads")
        with ended(host(program, room / "second", [far], *words)) as second:
            yield engine, near, first, second


def reads(program, room):
    """A read is told by none who leads no more."""
    with begun(program, room) as (engine, door, first, second):
        link = linked(first)
        yield "a read", link.ask("GET", "a") == "1"
        door.rules("hold")
        engine.expire()
        yield "another leads", second.listens() and linked(second).ask("SET", "a", "2") == "OK"
        link.send(("GET", "a"))
        yield "what is old isn't told", within(link) is None
        door.rules("answer")
        yield "nor later", within(link, LATE) == "ended"


def clocks(program, room):
    """Where clocks are trusted reads wait for nothing while the lease surely runs, and are told no longer."""
    with begun(program, room, "--clock", "trusted", "--lease", str(LEASE)) as (engine, door, first, second):
        link = linked(first)
        yield "a read", link.ask("GET", "a") == "1"
        door.rules("hold")
        since = time.monotonic()
        yield "one that waits for nothing", [link.ask("GET", "a") for _ in range(3)] == ["1"] * 3
        time.sleep(max(0, since + LEASE - time.monotonic()))
        engine.expire()
        link.send(("GET", "a"))
        yield "nothing is told behind it", within(link) is None
        yield "another leads", second.listens() and linked(second).ask("SET", "a", "2") == "OK"
        yield "and what is old isn't told", within(link) is None


def rides(program, room):
    """What was sent before a read doesn't prove it, though it is answered later."""
    with begun(program, room) as (engine, door, first, second):
        writer, link = linked(first), linked(first)
        door.rules(lambda call: "late" if is_put(call) else "hold")
        writer.send(("SET", "b", "1"))
        yield "a batch is in the log", waits(door, "late")
        engine.expire()
        yield "another leads", second.listens() and linked(second).ask("MGET", "a", "b") == ["1", "1"]
        yield "and writes", linked(second).ask("SET", "a", "2") == "OK"
        link.send(("GET", "a"))
        yield "a read waits", within(link) is None
        opened, door.opened = door.opened, type(door.opened)()
        door.rule = lambda call: "hold"
        opened.set()
        yield "the batch is acknowledged", within(writer, LATE) == "OK"
        yield "and what is old isn't told", within(link) is None


def late_batches(program, room):
    """Batches of who leads no more are in no later log, though they come late."""
    with begun(program, room) as (engine, door, first, second):
        links, before = [linked(first) for _ in range(2)], puts(door)
        door.rules("hold")
        for count, link in enumerate(links, 1):
            link.send(("SET", f"late{count}", "1"))
            yield f"batch {count} is under way", until(lambda: puts(door) >= before + count, LATE)
        engine.expire()
        yield "another leads", second.listens()
        door.rules("answer")
        told = [within(link, LATE) for link in links]
        yield "they are refused", all(map(is_refusal, told))
        link = linked(second)
        yield "and are nowhere", link.ask("MGET", "late1", "late2") == [None, None]
        yield "the other goes on", [link.ask("SET", f"k{number}", "1") for number in range(3)] == ["OK"] * 3


def lost_answers(program, room):
    """A batch whose answer is lost is asked for again."""
    engine = Engine()
    door = Door(engine)
    with ended(host(program, room / "host", [door])) as server:
        yield "a start", server.listens()
        link, lost = linked(server), []

        def once(call):
            if is_put(call) and not lost:
                lost.append(call)
                return "break"
            return "answer"
        door.rules(once)
        told = link.ask("SET", "a", "1")
        yield "it is acknowledged, since it is in the log", told == "OK" and lost
        yield "and is there", server.end(signal.SIGKILL) == -9
    engine.expire()
    with ended(host(program, room / "host", [door])) as server:
        yield "for who leads then", server.listens() and linked(server).ask("GET", "a") == "1"


def is_stopped(server):
    """Whether each of its threads is."""
    return all((task / "stat").read_text().rsplit(")", 1)[1].split()[0] == "T" for task in pathlib.Path(f"/proc/{server.process.pid}/task").iterdir())


def last_answers(program, room):
    """An answer reaches its batch, though what the host is to send next can't be sent: here the room that it asks for behind so much."""
    engine = Engine()
    door = Door(engine)
    with ended(host(program, room / "host", [door])) as server:
        yield "a start", server.listens()
        link = linked(server)
        yield "a write", link.ask("SET", "a", "1") == "OK"
        door.rules(lambda call: "last" if is_put(call) else "answer")
        link.send(("SET", "a", "2"))
        yield "of an answer all but the end is there", door.has_begun.wait(LATE)
        server.process.send_signal(signal.SIGSTOP)
        links = len(door.links)
        yield "the host is asleep", until(lambda: is_stopped(server)) and within(link, 0.1) is None
        door.opened.set()
        yield "then that is, and the connection breaks", until(lambda: len(door.links) < links)
        server.process.send_signal(signal.SIGCONT)
        yield "its batch is acknowledged", within(link, LATE) == "OK"
        asked = [tuple(call.puts) for call, _ in door.asked if is_put(call)]
        yield "and wasn't asked for again", len(asked) == len(set(asked))
        door.rules("answer")
        yield "it goes on with another connection", link.ask("SET", "a", "3") == "OK" and link.ask("GET", "a") == "3"


def behind_a_cut(program, room):
    """Of a batch that may have been cut off nobody says that it was lost."""
    engine = Engine()
    door = Door(engine)
    with ended(host(program, room / "host", [door])) as server:
        yield "a start", server.listens()
        link = linked(server)
        door.rules(lambda call: "break" if is_put(call) else "hold")
        link.send(("SET", "a", "1"))
        yield "a batch is in the log", waits(door, "break")
        number = int(log_of(engine)[-1].rsplit(b"/", 1)[1])
        # Another leads, has a snapshot of it, and cuts the log off.
        engine.remove(*log_of(engine))
        engine.put(PREFIX + b"leader", b"another")
        engine.put(PREFIX + b"snap", b"%016d %010d" % (number + 1, 2))
        door.rules("answer")
        yield "who asked is told nothing", within(link, LATE) == "ended"
        yield "and the host ends", ends(server) == 1 and f"nobody can know what came of batch {number}" in server.said()


def gaps(program, room):
    """What stands behind a gap of the log is deleted before anything is written."""
    engine = Engine()
    near, far = Door(engine), Door(engine)
    with ended(host(program, room / "first", [near])) as first:
        yield "a start", first.listens()
        missing, before = [], puts(near)

        def loses(call):
            if is_put(call) and not missing:
                missing.extend(call.puts)
            return "lose" if call.puts == missing else "late" if is_put(call) else "hold"
        near.rules(loses)
        for count in range(1, 3):
            linked(first).send(("SET", f"k{count}", "1"))
            yield f"batch {count} is asked for", until(lambda: puts(near) >= before + count, LATE)
        yield "one of two is in the log", until(lambda: log_of(engine)[-1:] > missing) and missing[0] not in log_of(engine)
        first.end(signal.SIGKILL)
    engine.expire()
    with ended(host(program, room / "second", [far])) as second:
        yield "another leads", second.listens() and "and 1 behind a gap are deleted" in second.said()
        link = linked(second)
        yield "nothing of them is there", link.ask("MGET", "k1", "k2") == [None, None]
        yield "and it goes on", [link.ask("SET", f"n{number}", "1") for number in range(4)] == ["OK"] * 4


PARTS = {it.__name__: it for it in (folders, clusters, announced, refusals, fronts, majorities, snapshots, copies, reads, clocks, rides, late_batches, lost_answers,
                                    last_answers, behind_a_cut, gaps)}


def tried(program, name, room):
    """What a part says of a host: how much is so, and what isn't."""
    passed, failed = 0, []
    home = room / name
    home.mkdir()
    try:
        for what, holds in PARTS[name](program, home):
            passed += bool(holds)
            failed += [] if holds else [f"{name}: {what}: is not so"]
    except (crashes.Wrong, OSError) as error:
        failed.append(f"{name}: {error!r}")
    return passed, failed


def finds(name, room):
    """What the part that is to find a wrong host says of it."""
    part, edits = WRONG[name]
    home = room / name.replace(" ", "-")
    home.mkdir()
    return tried(crashes.built(home, edits), part, home)[1]


def main():
    words = argparse.ArgumentParser(description=__doc__, formatter_class=argparse.RawDescriptionHelpFormatter)
    words.add_argument("--server", default=str(crashes.TOP / "target/release/hidewillow-server"))
    words.add_argument("--only", nargs="*", default=list(PARTS))
    words.add_argument("--wrong", nargs="*", metavar="NAME", help="those that have one of these names, or all")
    options = words.parse_args()
    passed, failed = 0, []
    with tempfile.TemporaryDirectory(dir=crashes.ROOMS) as room, concurrent.futures.ThreadPoolExecutor(4) as pool:
        room = pathlib.Path(room)
        if options.wrong is not None:
            names = [name for name in WRONG if not options.wrong or any(part in name for part in options.wrong)]
            for name, found in zip(names, pool.map(lambda name: finds(name, room), names)):
                print(f"{name}: {found[0] if found else 'NOT FOUND'}", flush=True)
                passed, failed = passed + bool(found), failed + ([] if found else [name])
        else:
            for well, ill_of in pool.map(lambda name: tried(options.server, name, room), options.only):
                passed, failed = passed + well, failed + ill_of
                for line in ill_of:
                    print(f"guards: {line}", flush=True)
    print(f"{passed} passed, {len(failed)} failed")
    sys.exit(bool(failed))


if __name__ == "__main__":
    main()
