#!/usr/bin/env python3
"""Starts, stops, snapshots, backups, a full disk, answers ahead, and what a server says of a folder.

    tests/starts.py [--server PROGRAM]

The last line is 'N passed, M failed'.
"""
import argparse
import os
import pathlib
import re
import signal
import socket
import subprocess
import sys
import tempfile
import time

HERE = pathlib.Path(__file__).resolve().parent
TOP = HERE.parent
sys.dont_write_bytecode = True
sys.path.append(str(TOP / "clients/python"))
import damage as damages
import hidewillow
FOUND = re.compile(r"(\d+) keys, (\d+) commands in (\d+) frames of the log; it ends at byte (\d+) of segment (\d+)")


class Server:
    """A server on a folder."""

    def __init__(self, program, folder, *words, **env):
        with socket.socket() as probe:
            probe.bind(("127.0.0.1", 0))
            self.port = probe.getsockname()[1]
        self.log = folder.with_suffix(".log").open("w+")
        words = [program, "--folder", folder, "--address", f"127.0.0.1:{self.port}", *words]
        self.process = subprocess.Popen([str(word) for word in words], stderr=self.log, env={**os.environ, **env})

    def said(self):
        self.log.seek(0)
        return self.log.read()

    def says(self, text):
        """Waits until it says this."""
        until = time.monotonic() + 60
        while text not in self.said() and time.monotonic() < until and self.process.poll() is None:
            time.sleep(0.02)
        return text in self.said()

    def line(self, request):
        """Sends a request, and reads a line of its reply."""
        with socket.create_connection(("127.0.0.1", self.port), timeout=60) as link:
            link.sendall(request)
            return link.makefile("rb").readline()

    def ask(self, requests, replies):
        """Sends requests, and reads as many bytes of replies, or more; whether these are at the front."""
        with socket.create_connection(("127.0.0.1", self.port), timeout=60) as link:
            link.sendall(requests)
            told = b""
            while len(told) < len(replies):
                told += link.recv(1 << 20) or b"?" * len(replies)
            return told.startswith(replies)

    def end(self, how=signal.SIGTERM):
        self.process.send_signal(how)
        return self.process.wait(60)


def until(holds):
    """Whether something becomes so in a while."""
    end = time.monotonic() + 60
    while not holds() and time.monotonic() < end:
        time.sleep(0.05)
    return holds()


def tries(program, room):
    """What is tried, and whether it is so."""
    folder = room / "store"
    first = Server(program, folder, "--segment", "64k", "--undecided", "16k", "--snapshot", "256k")
    yield "a start on no folder", first.says("listening on") and "0 keys" in first.said()
    yield "writes and reads", first.ask(b"SET a 1\r\nINCR a\r\nGET a\r\n", b"+OK\r\n:2\r\n$1\r\n2\r\n")
    second = Server(program, folder)
    yield "one server has a folder", second.process.wait(60) == 1 and "another server has this folder" in second.said()
    first.process.send_signal(signal.SIGUSR1)
    yield "what it tells on SIGUSR1", first.says("frames_in_flight:")
    sets = b"".join(b"SET key%d %s\r\n" % (number % 50, b"x" * 1000) for number in range(1000))
    yield "segments that are full", first.ask(sets, b"+OK\r\n" * 1000)
    yield "a snapshot by size", first.says("snapshot up to segment")
    yield "what it stands for is removed", until(lambda: len(list(folder.glob("log-*"))) < 14)
    yield "a snapshot on command", first.ask(b"SAVE\r\n", b"+OK\r\n") and len(list(folder.glob("snapshot-*"))) == 1
    yield from backup(program, first, folder)
    yield from hosts(first)
    yield "a clean stop by SIGTERM", first.end() == 0 and "stopping" in first.said()
    told = subprocess.run([program, "--check", folder], capture_output=True, text=True)
    found = FOUND.search(told.stdout)
    yield "what --check says", told.returncode == 0 and found is not None and found[1] == "51"
    before = len(list(folder.glob("log-*")))
    again = Server(program, folder)
    yield "a start says what it found", again.says("listening on") and "51 keys" in again.said()
    yield "and has it", again.ask(b"GET a\r\nDBSIZE\r\n", b"$1\r\n2\r\n:51\r\n")
    yield "a clean stop by SIGINT", again.end(signal.SIGINT) == 0
    yield "a start takes a segment, and one is made ahead", len(list(folder.glob("log-*"))) <= before + 1
    yield from password(program, room / "door")
    yield from ahead(program, room / "ahead")
    yield from full(program, room)
    yield from memory(program, room / "memory")
    yield "an option that is none", subprocess.run([program, "--nothing", "1"], capture_output=True).returncode == 2
    yield from damage(program, room / "damaged")
    yield from older(program, room / "older")


def password(program, folder):
    """A password from a file: until it is said nothing is answered but at the door."""
    file = folder.with_suffix(".conf")
    file.write_text("# what a server is told\npassword  secret\nundecided 16k\nsegment 64k\n")
    server = Server(program, folder, "--config", str(file))
    yield "a start from a file", server.says("listening on")
    no, wrong = b"-NOAUTH Authentication required.\r\n", b"-WRONGPASS invalid username-password pair or user is disabled.\r\n"
    yield "nothing without the password", server.ask(b"GET a\r\nSET a 1\r\nPING\r\nHELLO 2\r\n", no * 2 + b"+PONG\r\n-NOAUTH HELLO must be called")
    yield "wrong ones", server.ask(b"AUTH secre\r\nAUTH secretsecret\r\nAUTH other secret\r\nGET a\r\n", wrong * 3 + no)
    yield "all with it", server.ask(b"*2\r\n$4\r\nAUTH\r\n$6\r\nsecret\r\nSET a 1\r\nGET a\r\n", b"+OK\r\n+OK\r\n$1\r\n1\r\n")
    yield "a request that never ends, at the door", server.ask(b"x" * 100_000, b"") and server.ask(b"PING\r\n", b"+PONG\r\n")
    yield "its clean stop", server.end() == 0
    file.write_text("password\n")
    yield "a file that says nothing", subprocess.run([program, "--config", file], capture_output=True).returncode == 2


def backup(program, server, folder):
    """A backup has what was acknowledged, and is a folder to start on."""
    yield "a backup while it runs", server.ask(b"SET b 7\r\nBACKUP one\r\nDEL b\r\n", b"+OK\r\n+OK\r\n:1\r\n")
    made = folder / "backups" / "one"
    yield "no second one of its name", server.line(b"BACKUP one\r\n").startswith(b"-IOERR no snapshot")
    yield "nor in another folder", server.line(b"BACKUP ..\r\n").startswith(b"-ERR a backup has one name")
    told = subprocess.run([program, "--check", made], capture_output=True, text=True)
    yield "what --check says of it", told.returncode == 0 and "52 keys" in told.stdout
    copy = Server(program, made)
    yield "a start on it", copy.says("listening on") and copy.ask(b"GET b\r\nDBSIZE\r\n", b"$1\r\n7\r\n:52\r\n") and copy.end() == 0


def hosts(server):
    """What the server is asked itself, in its turn among commands."""
    yield "clients' first words", server.ask(b"SET h 1\r\nCLIENT SETNAME x\r\nGET h\r\nSELECT 0\r\nSLOWLOG GET\r\nDEL h\r\n",
                                             b"+OK\r\n+OK\r\n$1\r\n1\r\n+OK\r\n*0\r\n:1\r\n")
    yield "what isn't known", server.ask(b"NOSUCH 1\r\nSELECT 1\r\nHELLO 4\r\n",
                                       b"-ERR unknown command 'NOSUCH', with args beginning with: '1' \r\n-ERR DB index is out of range\r\n-NOPROTO")
    yield "a password where none is set", server.line(b"AUTH x\r\n").startswith(b"-ERR AUTH <password> called without any password")
    yield "settings", server.ask(b"CONFIG GET appendonly\r\nCONFIG GET x\r\n", b"*2\r\n$10\r\nappendonly\r\n$3\r\nyes\r\n*0\r\n")
    with socket.create_connection(("127.0.0.1", server.port), timeout=60) as link:
        link.sendall(b"SET i 1\r\nDEL i\r\nINFO\r\nINFO keys\r\nQUIT\r\n")
        told = b"".join(iter(lambda: link.recv(1 << 16), b"")).decode()
    names = ["syncs", "commands_a_sync", "commands_a_batch", "replies_held", "undecided_bytes", "batches_kept", "keys", "batches_refused", "used_memory", "log_bytes", "snapshot_bytes"]
    yield "INFO, and QUIT", all(len(re.findall(rf"^{name}:\d+\r$", told, re.M)) == 2 for name in names) and told.endswith("+OK\r\n")
    yield "the keys that INFO counts", re.findall(r"^keys:(\d+)\r$", told, re.M)[1:] == ["51"]


def ahead(program, folder):
    """A chain of commands, each sent once the one before is answered, waits for few syncs."""
    server = Server(program, folder, SHIM_SLOW="20000", SHIM_FOLDER=str(folder), LD_PRELOAD=str(folder.parent / "shim.so"))
    server.says("listening on")
    begun = time.monotonic()
    store = hidewillow.Client(port=server.port, timeout=60)
    for _ in range(200):
        store.ask("PING")
    alone, numbers = time.monotonic() - begun, []
    for _ in range(100):
        numbers.append(store.ask("INCR", "n"))
        store.ask("SET", f"n:{numbers[-1]}", "x")
    ahead_in = time.monotonic() - begun - alone
    store.wait_all()
    took = time.monotonic() - begun - alone
    yield "answers ahead", numbers == list(range(1, 101)) and took < 2.0 + 3 * alone
    yield "another sees them once they stand", server.ask(b"GET n\r\nDBSIZE\r\n", b"$3\r\n100\r\n:101\r\n")
    store.send("SET", "text", "x")
    store.send("INCR", "text")
    store.send("CLIENT", "ID")
    store.send("PING")
    answers = [store.answer()]
    try:
        store.answer()
    except hidewillow.Refused as error:
        answers.append(str(error)[:3])
    yield "errors and host's answers ahead", answers == ["OK", "ERR"] and store.answer() > 0 and store.answer() == "PONG"
    store.wait_all()
    store.close()
    yield "its clean stop", server.end() == 0
    print(f"starts: 200 commands ahead in {ahead_in:.3f} s, decided in {took:.3f} s, at 20 ms a sync")


def full(program, room):
    """On a full disk writes are refused by name, reads go on, and writes too once there is room."""
    folder, mark = room / "full", room / "is-full"
    env = dict(SHIM_FOLDER=str(folder), SHIM_FULL=str(mark), LD_PRELOAD=str(room / "shim.so"))
    server = Server(program, folder, "--segment", "64k", "--undecided", "16k", "--snapshot", "1g", **env)
    yield "writes", server.says("listening on") and server.ask(b"SET a 1\r\n", b"+OK\r\n")
    mark.touch()
    one = b"SET b %s\r\n" % (b"x" * 1000)
    is_refused, until = False, time.monotonic() + 60
    while not is_refused and time.monotonic() < until:
        is_refused = server.line(one) == b"-IOERR there is no room on the disk, nothing of it was done\r\n"
    yield "refused by name", is_refused
    yield "reads go on", server.ask(b"GET a\r\nEXISTS a\r\nPING\r\n", b"$1\r\n1\r\n:1\r\n+PONG\r\n")
    mark.unlink()
    is_done, until = False, time.monotonic() + 60
    while not is_done and time.monotonic() < until:
        is_done = server.line(one) == b"+OK\r\n"
    yield "writes go on", is_done and server.end() == 0
    yield "one line of it", server.said().count("can't be made") == 1 and server.said().count("so writing goes on") == 1


def memory(program, folder):
    """From so much memory on what adds is refused by name."""
    server = Server(program, folder, "--memory", "1")
    yield "a limit of memory", server.says("listening on")
    time.sleep(0.2)
    yield "what adds is refused", server.line(b"SET a 1\r\n") == b"-OOM as much memory is used as may be, nothing of it was done\r\n"
    yield "all else goes on", server.ask(b"GET a\r\nDEL a\r\nFLUSHALL\r\n", b"$-1\r\n:0\r\n+OK\r\n") and server.end() == 0


def damage(program, folder):
    """A log that no crash leaves: more than may be under way stands behind the place where it ends."""
    words = ["--segment", "256k", "--undecided", "4k", "--batches", "1"]
    server = Server(program, folder, *words)
    server.says("listening on")
    sets = b"".join(b"SET key%d %s\r\n" % (number, b"x" * 1000) for number in range(100))
    yield "writes", server.ask(sets, b"+OK\r\n" * 100) and server.end(signal.SIGKILL) == -9
    log = folder / "log-0000000001"
    with log.open("r+b") as file:
        file.seek(30_000)
        file.write(b"damage")
    server = Server(program, folder, *words)
    ended = server.process.wait(60)
    found = FOUND.search(server.said())
    yield "damage is refused with its place", ended == 1 and "damaged" in server.said() and found and 0 < int(found[4]) <= 30_000
    told = subprocess.run([program, "--undecided", "4k", "--check", folder], capture_output=True, text=True)
    yield "--check says so too", told.returncode == 1 and "damaged" in told.stderr
    frame = re.search(r"--accept-loss-from (\d+)", server.said())[1]
    other = Server(program, folder, *words, "--accept-loss-from", str(int(frame) + 1))
    yield "no other frame is given up", other.process.wait(60) == 1
    server = Server(program, folder, *words, "--accept-loss-from", frame)
    yield "from that frame on all is given up", server.says("listening on") and server.ask(b"GET key0\r\nGET key99\r\nSET new 1\r\n", b"$1000\r\n")
    has = server.line(b"DBSIZE\r\n")
    yield "it ends", server.end(signal.SIGKILL) == -9
    server = Server(program, folder, *words)
    yield "once", server.says("listening on") and server.line(b"DBSIZE\r\n") == has and server.end() == 0
    (folder / "store").rename(folder / "gone")
    server = Server(program, folder, *words)
    yield "nothing is read where nobody says whose it is", server.process.wait(60) == 1 and "is gone" in server.said()


def older(program, folder):
    """A folder of a server from before, whose files are frames alone."""
    server = Server(program, folder, "--segment", "64k", "--undecided", "16k")
    server.says("listening on")
    sets = b"".join(b"SET key%d %s\r\n" % (number, b"x" * 1000) for number in range(40))
    yield "writes, and a snapshot", server.ask(sets + b"SAVE\r\nSET key0 y\r\nSET a 1\r\n", b"+OK\r\n" * 43) and server.end() == 0
    for path in [*folder.glob("log-*"), *folder.glob("snapshot-*")]:
        text, frames = damages.frames_of(path)
        path.write_bytes(b"".join(text[at + 48:end] for at, end in frames).ljust(65536 if path.name.startswith("log") else 0, b"\0"))
    (folder / "store").unlink()
    told = subprocess.run([program, "--check", folder], capture_output=True, text=True)
    yield "--check reads it", told.returncode == 0 and "41 keys" in told.stdout
    snapshot = next(folder.glob("snapshot-*"))
    text = snapshot.read_bytes()
    snapshot.write_bytes(b"")
    told = subprocess.run([program, "--check", folder], capture_output=True, text=True)
    yield "but no snapshot without a piece", told.returncode == 1 and snapshot.name in told.stderr and "no piece at all" in told.stderr
    snapshot.write_bytes(text)
    for turn in range(2):
        server = Server(program, folder, "--segment", "64k", "--undecided", "16k")
        yield f"start {turn} on it", server.says("listening on") and server.ask(b"GET a\r\nDBSIZE\r\nSET a 1\r\n", b"$1\r\n1\r\n:41\r\n+OK\r\n")
        yield f"stop {turn} of it", server.end() == 0
    server = Server(program, folder, "--segment", "64k", "--undecided", "16k")
    yield "a snapshot stands for it", server.says("listening on") and server.line(b"SAVE\r\n") == b"+OK\r\n" and server.end() == 0
    told = subprocess.run([program, "--check", folder], capture_output=True, text=True)
    yield "and is of the new form", told.returncode == 0 and "and its end" in told.stdout and "41 keys" in told.stdout


def main():
    words = argparse.ArgumentParser(description=__doc__, formatter_class=argparse.RawDescriptionHelpFormatter)
    words.add_argument("--server", default=str(TOP / "target/release/hidewillow-server"))
    options = words.parse_args()
    passed, failed = 0, 0
    with tempfile.TemporaryDirectory() as room:
        shim = ["cc", "-O2", "-shared", "-fPIC", "-o", pathlib.Path(room) / "shim.so", HERE / "shim.c", "-ldl", "-lpthread"]
        subprocess.run(shim, check=True)
        for name, holds in tries(options.server, pathlib.Path(room)):
            passed, failed = passed + bool(holds), failed + (not holds)
            if not holds:
                print(f"starts: {name}: is not so")
    print(f"{passed} passed, {failed} failed")
    sys.exit(failed > 0)


if __name__ == "__main__":
    main()
