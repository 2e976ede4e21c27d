#!/usr/bin/env python3
"""Each command of the table by a client library that exists, `redis` for Python, against a server; `redis-cli` and
`redis-benchmark` against it; and what the server answers itself, in both versions of the protocol, beside `redis-server`.

    tests/commands.py [--server PROGRAM]
    tests/commands.py --wrong [NAME ..]      builds hosts that are wrong on purpose, and says whether they are found

The last line is 'N passed, M failed'; a line says what is not installed, and nothing is counted for it.
"""
import argparse
import contextlib
import os
import pathlib
import re
import shutil
import socket
import subprocess
import sys
import tempfile
import time

HERE = pathlib.Path(__file__).resolve().parent
sys.dont_write_bytecode = True
sys.path.append(str(HERE))
import crashes

TOP = pathlib.Path(__file__).resolve().parent.parent
BIG = b"x" * 1_000_000
# Words, and what they are answered: a type stands for an error of it.
ROWS = [
    ("PING", True), ("ECHO hello", b"hello"),
    ("SET a 1", True), ("GET a", b"1"), ("GET none", None),
    ("SET a 2 NX", None), ("SET new 2 NX", True), ("SET none 2 XX", None), ("SET a 3 XX", True), ("SET a 4 GET", b"3"),
    ("GETSET a 5", b"4"), ("GETSET fresh 1", None),
    ("INCR a", 6), ("DECR a", 5), ("INCRBY a 10", 15), ("DECRBY a 20", -5), ("INCR count", 1),
    ("SET text abc", True), ("INCR text", Exception), ("INCRBY a 9223372036854775807", 9223372036854775802), ("INCRBY a 100", Exception),
    ("APPEND text def", 6), ("APPEND made xyz", 3), ("STRLEN text", 6), ("STRLEN none", 0),
    ("MSET k1 v1 k2 v2", True), ("MGET k1 none k2", [b"v1", None, b"v2"]), ("MSET k1", Exception),
    ("EXISTS k1 k2 k1 none", 3), ("DEL k1 k1 none", 1), ("EXISTS k1", 0),
    ("KEYS k*", [b"k2"]), ("KEYS a?c", Exception), ("DBSIZE", 7),
    ("GET", Exception), ("NOSUCH", Exception), ("SET a 1 SOON", Exception),
    ("get text", b"abcdef"), ("FLUSHALL", True), ("DBSIZE", 0), ("KEYS *", []),
]
# What is answered as the usual server answers it, byte for byte.
SAME = """NOSUCH a b|NOSUCH|CLIENT|CLIENT NOSUCH|CLIENT SETNAME|CLIENT SETNAME a b|CLIENT GETNAME|CLIENT SETNAME one|CLIENT GETNAME
CLIENT KILL|CLIENT KILL 1.2.3.4:5|CLIENT KILL ID 99999|CLIENT KILL FOO 1|CLIENT KILL ID x|CLIENT NO-EVICT x|CLIENT NO-EVICT on|CLIENT LIST X
CONFIG GET|CONFIG SET|CONFIG SET a|CONFIG SET nosuch 1|CONFIG SET databases 3|CONFIG SET timeout 0 timeout 1|CONFIG SET timeout 7
CONFIG GET TIMEOU[a-t]|CONFIG SET timeout 0 maxmemory 100mb|CONFIG GET maxmemory|CONFIG SET maxmemory 0|CONFIG GET nosuch*|CONFIG NOSUCH
CONFIG GET appendfsync|CONFIG GET save|CONFIG SET maxmemory 1gb databases 5|CONFIG GET maxmemory|SELECT|SELECT x|SELECT 99|SELECT 0
MEMORY|MEMORY USAGE|MEMORY NOSUCH x|MEMORY USAGE none|SLOWLOG GET|SLOWLOG LEN|SLOWLOG RESET|SLOWLOG X|LATENCY LATEST|LATENCY RESET
LATENCY HISTORY x|HELLO 4|HELLO x|HELLO 2 FOO|HELLO 2 SETNAME|AUTH a|AUTH a b|AUTH a b c|COMMAND NOSUCH|COMMAND COUNT x|COMMAND DOCS nosuch
COMMAND INFO nosuch|INFO nosuch|DEL a b|GET a|MGET a a|SET a 1 XX|SET a $-1|MGET b a|GETSET b 1|MULTI|GET c|GET a|EXEC|RESET|CLIENT GETNAME|GET c|ECHO
PING a b|QUIT"""
# Hosts that are wrong on purpose, and the part that is to find each.
WRONG = {
    "nulls of version 2": ("versions", [("resp.rs", 'b"$-1\\r\\n" | b"*-1\\r\\n" =>', 'b"*-1\\r\\n" =>')]),
    "texts that look like nulls": ("versions", [("resp.rs", "length(line).map_or(0, |len| len + 2)", "length(line).map_or(0, |_| 0)")]),
    "a version out of its turn": ("versions", [("asked.rs", "map_or(decided >= batch, ", "map_or(decided > 0 || batch > 0, ")]),
    "who is reset stays in": ("resets", [("channels.rs", "(client.guest.is_in, client.had) = (false, Had::Nothing)", "client.had = Had::Whole")]),
    "bytes that may be lost are told": ("resets", [("channels.rs", "self.store.rests_on(key, 0).is_some()", "self.store.rests_on(key, 0) == Some(0)")]),
    "settings of which nothing comes": ("settings", [("asked.rs", "self.house.options = changed;", "drop(changed);")]),
    "settings by halves": ("settings", [("asked.rs", "let changed = settings::set(options, &words[1..])?;",
                                         "let changed = settings::set(options, &words[1..]).or_else(|_| settings::set(options, &words[1..3]))?;")]),
    "nobody is killed": ("clients", [("guests.rs", "self.lose(*it);", "self.touched.push(*it);")]),
}


class Link:
    """A connection, of which replies are read one by one as they stand."""

    def __init__(self, port):
        self.socket = socket.create_connection(("127.0.0.1", port), timeout=20)
        self.file = self.socket.makefile("rb")

    def reply(self):
        line = self.file.readline()
        if line[:1] in b"$=" and line[1:2] != b"-":
            return line + self.file.read(int(line[1:]) + 2)
        count = int(line[1:]) * (2 if line[:1] == b"%" else 1) if line[:1] in b"*~%" and line else 0
        return line + b"".join(self.reply() for _ in range(count))

    def ask(self, *requests):
        """What these are answered, that are sent together."""
        self.socket.sendall(b"".join(it.encode() + b"\r\n" for it in requests))
        return [self.reply() for _ in requests]


@contextlib.contextmanager
def serving(words, env=()):
    """The port of a server that is started so."""
    with socket.socket() as probe:
        probe.bind(("127.0.0.1", 0))
        port = probe.getsockname()[1]
    words = [str(it).replace("PORT", str(port)) for it in words]
    process = subprocess.Popen(words, env={**os.environ, **dict(env)}, stdout=subprocess.DEVNULL, stderr=subprocess.DEVNULL)
    try:
        for _ in range(500):
            with contextlib.suppress(OSError):
                socket.create_connection(("127.0.0.1", port)).close()
                break
            time.sleep(0.02)
        yield port
    finally:
        process.kill()
        process.wait()


def row_of(told):
    """Of a row of COMMAND INFO its name, words, flags and keys."""
    name, flags, keys = re.match(rb"\*1\r\n\*10\r\n(\$\d+\r\n\w+\r\n:-?\d+\r\n)\*\d+\r\n((?:\+\w+\r\n)*)((?::-?\d+\r\n){3})", told).groups()
    return name, sorted(flags.split()), keys


def beside(port, room):
    """The small words, beside the usual server's answers."""
    if not shutil.which("redis-server"):
        print("commands: no redis-server")
        return
    with serving(["redis-server", "--port", "PORT", "--dir", room, "--appendonly", "yes", "--appendfsync", "always", "--save", ""]) as theirs:
        for version in (2, 3):
            ours, usual = Link(port), Link(theirs)
            hello = [re.sub(rb":(?!3\r)\d+", b":", link.ask(f"HELLO {version}")[0]).count(b"\r\n") for link in (ours, usual)]
            yield f"HELLO {version}", hello[0] == hello[1]
            for words in SAME.replace("\n", "|").split("|"):
                told, wanted = ours.ask(words)[0], usual.ask(words)[0]
                yield f"{words} in version {version}: {told} and not {wanted}", told == wanted
        ours, usual = Link(port), Link(theirs)
        for name in re.findall(rb"\$\d+\r\n(\w+)", ours.ask("COMMAND LIST")[0]):
            told, wanted = (link.ask(f"COMMAND INFO {name.decode()}")[0] for link in (ours, usual))
            yield f"COMMAND INFO {name}: {told}", b"*-1" in wanted or b"$-1" in wanted or name == b"flushall" or row_of(told) == row_of(wanted)


def versions(port):
    """Version 3 of the protocol is spoken from its HELLO on, and by nobody else."""
    one, other = Link(port), Link(port)
    told = one.ask("SET v 1", "GET none", "HELLO 3 SETNAME me", "GET none", "CLIENT GETNAME", "SET v $-1", "MGET none v", "HELLO 2", "GET none")
    null, new = b"$-1\r\n", b"_\r\n"
    yield "a version in its turn", told[:2] == [b"+OK\r\n", null] and told[2][:4] == b"%7\r\n" and told[3:5] == [new, b"$2\r\nme\r\n"]
    yield "nulls, and texts like them", told[6] == b"*2\r\n_\r\n$3\r\n$-1\r\n" and told[7][:5] == b"*14\r\n" and told[8] == null
    yield "nobody else speaks it", one.ask("HELLO 3")[0][:2] == b"%7" and other.ask("GET none") == [null]
    ahead = one.ask("SPEC", "GET none", "SET v 2", "WAITALL")
    yield "answers ahead in it", ahead[1:] == [b"*2\r\n:1\r\n_\r\n", b"*2\r\n:2\r\n+OK\r\n", b"+OK\r\n"]
    yield "RESET", one.ask("RESET", "GET none", "CLIENT GETNAME") == [b"+RESET\r\n", null, null]


def clients(port):
    """CLIENT LIST, INFO and KILL."""
    one, other = Link(port), Link(port)
    number = int(other.ask("CLIENT ID", "CLIENT SETNAME it")[0][1:])
    told = one.ask("CLIENT SETINFO LIB-NAME lib", "CLIENT SETINFO LIB-VER 1.2", "CLIENT INFO", "CLIENT LIST", f"CLIENT LIST ID {number}")
    yield "CLIENT INFO", all(it in told[2] for it in (b" lib-name=lib lib-ver=1.2\n", b" user=default ", b" resp=2 "))
    yield "CLIENT LIST", told[3].count(b"id=") >= 2 and told[4].count(b"id=") == 1 and b" name=it " in told[4]
    yield "CLIENT KILL ID", one.ask(f"CLIENT KILL ID {number}") == [b":1\r\n"] and other.file.read(1) == b""
    own = one.socket.getsockname()
    yield "CLIENT KILL of oneself", one.ask(f"CLIENT KILL {own[0]}:{own[1]}") == [b"+OK\r\n"] and one.file.read(1) == b""


def settings(port):
    """What is set comes to something, all of it or nothing."""
    one = Link(port)
    told = one.ask("CONFIG SET maxmemory 1k", "SET m 1", "CONFIG SET maxmemory 0", "SET m 1")
    yield "CONFIG SET maxmemory", told[1][:4] == b"-OOM" and told[3] == b"+OK\r\n"
    told = one.ask("CONFIG SET timeout 9 port 1", "CONFIG GET timeout", "CONFIG SET maxclients 20000", "CONFIG SET appendonly yes")
    yield "CONFIG SET of all or nothing", told[0][:4] == told[2][:4] == b"-ERR" and told[1].endswith(b"$1\r\n0\r\n") and told[3] == b"+OK\r\n"
    told = one.ask("CONFIG SET maxclients 1", "CONFIG GET maxc*", "CONFIG SET maxclients 500")
    yield "CONFIG SET maxclients", b"$1\r\n1\r\n" in told[1]
    yield "patterns", one.ask("CONFIG GET time* [^a-z]x")[0].startswith(b"*2\r\n$7\r\ntimeout") and one.ask("CONFIG GET " + "*?" * 2000) == [b"*0\r\n"]
    told = one.ask("INFO server clients", "INFO keyspace", "INFO")
    sections = [set(re.findall(rb"^# (\w+)\r$", it, re.M)) for it in told]
    yield "INFO of sections", sections[:2] == [{b"Server", b"Clients"}, {b"Keyspace"}] and len(sections[2]) == 10 and b"\r\ndb0:keys=" in told[1]


def resets(server, room):
    """Who said the password is to say it again behind RESET; what may be lost is told by no MEMORY USAGE."""
    subprocess.run(["cc", "-O2", "-shared", "-fPIC", "-o", room / "shim.so", HERE / "shim.c", "-ldl", "-lpthread"], check=True)
    folder = room / "slow"
    env = dict(SHIM_SLOW="300000", SHIM_FOLDER=str(folder), LD_PRELOAD=str(room / "shim.so"))
    with serving([server, "--folder", folder, "--address", "127.0.0.1:PORT", "--password", "right"], env) as port:
        one, other = Link(port), Link(port)
        no = b"-NOAUTH Authentication required.\r\n"
        told = one.ask("AUTH right", "SET a 1", "RESET", "GET a", "HELLO 3 AUTH default right SETNAME x", "GET none", "RESET", "HELLO 2 AUTH default wrong", "GET a")
        yield "RESET asks for the password", told[:4] == [b"+OK\r\n", b"+OK\r\n", b"+RESET\r\n", no] and told[8] == no and told[7][:10] == b"-WRONGPASS"
        yield "which may be said anew", told[4][:2] == b"%7" and told[5] == b"_\r\n"
        other.ask("AUTH right")
        one.ask("AUTH right", "DEL weighed")
        one.socket.sendall(b"SET weighed 1\r\n")
        time.sleep(0.1)
        other.socket.sendall(b"MEMORY USAGE weighed\r\n")
        time.sleep(0.1)
        one.socket.sendall(b"SET weighed 12345\r\n")
        told, stands = other.reply(), one.socket.recv(100, socket.MSG_DONTWAIT)
        # Where this machine was late the first is all that was asked for.
        yield "MEMORY USAGE tells nothing that may be lost", (told, stands) in [(b":12\r\n", b"+OK\r\n" * 2), (b":8\r\n", b"+OK\r\n")]


def is_answered(client, words, wanted):
    try:
        told = client.execute_command(*words.split(), **({"get": True} if words.endswith(" GET") else {}))
    except client.redis.ResponseError:
        return wanted is Exception
    return told == wanted


def queues(client):
    """MULTI, EXEC and DISCARD: all or nothing, and an error in the queue drops it."""
    queue = client.pipeline(transaction=True)
    queue.set("q", 1).incr("q").get("q")
    yield "MULTI EXEC", queue.execute() == [True, 2, b"2"]
    one = client.connection_pool.get_connection("MULTI")
    try:
        def ask(*words):
            one.send_command(*words)
            try:
                return one.read_response()
            except client.redis.ResponseError as error:
                return error
        yield "DISCARD", [ask("MULTI"), ask("INCR", "q"), ask("DISCARD"), ask("GET", "q")] == [b"OK", b"QUEUED", b"OK", b"2"]
        yield "EXEC alone", isinstance(ask("EXEC"), Exception)
        refused = [ask("MULTI"), ask("NOSUCH"), ask("EXEC")]
        yield "EXEC behind a fault", all(isinstance(it, Exception) for it in refused[1:]) and ask("GET", "q") == b"2"
    finally:
        client.connection_pool.release(one)


def hosts(client):
    """What the server answers itself."""
    yield "INFO", client.info()["connected_clients"] >= 1 and client.info()["lacks_room"] == 0
    yield "CLIENT", client.client_id() > 0 and client.client_setname("x") and client.client_getname() in ("x", b"x")
    yield "CONFIG GET", client.config_get("appendfsync") == {"appendfsync": "always"} and client.config_get("x") == {}
    yield "SELECT", client.execute_command("SELECT", 0) and isinstance(of_error(client, "SELECT", 1), Exception)
    yield "SAVE and BGSAVE", client.save() and client.bgsave()
    yield "COMMAND", client.command_count() == len(client.execute_command("COMMAND")) > 30
    yield "among others", client.pipeline(transaction=False).incr("h").client_id().incr("h").execute()[::2] == [1, 2]
    yield "not in a queue", isinstance(of_error(client.pipeline(transaction=True).incr("h").client_id(), "execute"), Exception)


def of_error(client, name, *words):
    """What a call answers, or the error that it raises."""
    try:
        return getattr(client, name)() if name == "execute" else client.execute_command(name, *words)
    except Exception as error:
        return error


def large(client):
    yield "a large value", client.set("big", BIG) and client.get("big") == BIG
    pipe = client.pipeline(transaction=False)
    for _ in range(2000):
        pipe.incr("many")
    yield "a long pipeline", pipe.execute() == list(range(1, 2001))
    with socket.create_connection(("127.0.0.1", client.port), timeout=10) as link:
        link.sendall(b"SET last 1\r\n*x\r\nSET last 2\r\n")
        told = b"".join(iter(lambda: link.recv(1000), b""))
    yield "a fault ends a connection, behind what came before", told.startswith(b"+OK\r\n-ERR") and client.get("last") == b"1"


def programs(port):
    """What people type, and what they measure with."""
    def ran(*words, given=None):
        return subprocess.run([words[0], "-p", str(port), *words[1:]], input=given, capture_output=True, text=True, timeout=120).stdout
    if shutil.which("redis-cli"):
        yield "redis-cli", ran("redis-cli", "SET", "typed", "a b") == "OK\n" and ran("redis-cli", "GET", "typed") == "a b\n"
        yield "redis-cli INFO", re.search(r"^replies_held:\d+$", ran("redis-cli", "INFO"), re.M)
        yield "redis-cli --pipe", "errors: 0, replies: 2000" in ran("redis-cli", "--pipe", given="INCR piped\r\n" * 2000)
    else:
        print("commands: no redis-cli")
    if shutil.which("redis-benchmark"):
        told = ran("redis-benchmark", "-t", "set,get", "-n", "20000", "-q")
        rates = dict(re.findall(r"(SET|GET): ([\d.]+) requests per second", told))
        print(f"commands: redis-benchmark, requests a second: {rates}")
        yield "redis-benchmark", set(rates) == {"SET", "GET"}
    else:
        print("commands: no redis-benchmark")


def by_library(port):
    """Each command by the client library."""
    try:
        import redis
    except ImportError:
        return print("commands: no `redis` for Python")
    client = redis.Redis(port=port, socket_timeout=20)
    client.redis, client.port = redis, port
    for row, wanted in ROWS:
        yield row, is_answered(client, row, wanted)
    yield from queues(client)
    yield from hosts(client)
    yield from large(client)


def tried(program, names):
    """How much of these parts holds of a server, and what doesn't."""
    passed, failed = 0, []
    with tempfile.TemporaryDirectory() as room:
        room = pathlib.Path(room)
        words = [program, "--folder", room / "store", "--address", "127.0.0.1:PORT", "--segment", "8m", "--undecided", "4m"]
        with serving(words) as port:
            for name in names:
                try:
                    for what, holds in PARTS[name](*([program, room] if name == "resets" else [port, room] if name == "beside" else [port])):
                        passed += bool(holds)
                        failed += [] if holds else [what]
                except Exception as error:
                    failed.append(f"{name}: {error!r}")
    return passed, failed


PARTS = dict(by_library=by_library, programs=programs, beside=beside, versions=versions, clients=clients, settings=settings, resets=resets)


def finds(name):
    """What the part that is to find a wrong host says of it."""
    part, edits = WRONG[name]
    with tempfile.TemporaryDirectory() as room:
        return tried(crashes.built(pathlib.Path(room), edits), [part])[1]


def main():
    words = argparse.ArgumentParser(description=__doc__, formatter_class=argparse.RawDescriptionHelpFormatter)
    words.add_argument("--server", default=str(TOP / "target/release/hidewillow-server"))
    words.add_argument("--wrong", nargs="*", metavar="NAME", help="those that have one of these names, or all")
    options = words.parse_args()
    if options.wrong is None:
        passed, failed = tried(options.server, PARTS)
        for name in failed:
            print(f"commands: {name}: answered otherwise")
    else:
        passed, failed = 0, []
        for name in [it for it in WRONG if not options.wrong or any(part in it for part in options.wrong)]:
            found = finds(name)
            print(f"{name}: {found[0] if found else 'NOT FOUND'}", flush=True)
            passed, failed = passed + bool(found), failed + ([] if found else [name])
    print(f"{passed} passed, {len(failed)} failed")
    sys.exit(bool(failed))


if __name__ == "__main__":
    main()
