#!/usr/bin/env python3
"""Clients that mean it ill, or are broken; too few handles, a folder that two want, a disk without room, and passwords.

    tests/ill.py [--server PROGRAM] [--only NAME ..]     each part by its name, side by side
    tests/ill.py --wrong [NAME ..]                       builds hosts that are wrong on purpose, and says whether they are found

The last line is 'N passed, M failed'.
"""
import argparse
import concurrent.futures
import contextlib
import os
import pathlib
import re
import resource
import signal
import socket
import stat
import subprocess
import sys
import tempfile
import threading
import time

HERE = pathlib.Path(__file__).resolve().parent
TOP = HERE.parent
sys.dont_write_bytecode = True
sys.path.append(str(HERE))
import crashes

MB = 1 << 20
# Hosts that are wrong on purpose, and the part that is to find each.
WRONG = {
    "room of replies kept": ("output", [("channels.rs", "client.keeps_room() && client.is_done(decided)", "client.keeps_room() && decided == 0")]),
    "segments are holes": ("disk", [("folder.rs", "                file.write_all(&room[..PIECE.min((bytes - place) as usize)])?;\n",
                                     "                file.set_len(place + room[..PIECE.min((bytes - place) as usize)].len() as u64)?;\n")]),
    "MSET is passed over": ("disk", [("request.rs", "!is(\"EXEC\") && may_write", "!is(\"EXEC\") && !is(\"MSET\") && may_write")]),
    "all that may be undecided": ("held", [("house.rs", "self.options.limits.undecided as usize / 2", "self.options.limits.undecided as usize")]),
    "nothing is kept for a full disk": ("disk", [("disk.rs", "folder.use_spare(segment).map_err(|_| error)", "Err(error)")]),
    "output unbounded": ("output", [("server.rs", "match client.owes() <= most && ", "match client.owes() <= usize::MAX && ")]),
    "frames where no zeros are": ("disk", [("room.rs", "self.end + bytes <= self.here", "self.end + bytes <= self.segment")]),
    "want of memory is waited for": ("scarce", [("server.rs", "if last.replace(channel) == Some(channel) {",
                                                "if last.replace(channel) == Some(channel) && last.is_none() {")]),
    "lock of a file alone": ("lock", [("folder.rs", "system::lock(&folder).and_then(|()| system::lock(&file))", "system::lock(&file)")]),
    "a lack of handles is a failure": ("gone", [("disk.rs", "            Err(error) if is_of_handles(&error) => thread::sleep(NO_HANDLES),\n",
                                                 "            Err(error) if is_of_handles(&error) && NO_HANDLES.is_zero() => (),\n")]),
}


class Server:
    """A server on a folder, with so many handles at the most where that is said."""

    def __init__(self, program, folder, *words, handles=None, mask=0o022, address=None, **env):
        self.folder, self.address = folder, address
        if address is None:
            with socket.socket() as probe:
                probe.bind(("127.0.0.1", 0))
                self.address = f"127.0.0.1:{probe.getsockname()[1]}"
        self.port = int(self.address.rsplit(":", 1)[1])
        self.log = tempfile.TemporaryFile("w+")
        words = [program, "--folder", folder, "--address", self.address, *words]

        def before():
            os.umask(mask)
            if handles:
                resource.setrlimit(resource.RLIMIT_NOFILE, handles)
        self.process = subprocess.Popen([str(word) for word in words], stderr=self.log, env={**os.environ, **env}, preexec_fn=before)

    def said(self):
        self.log.seek(0)
        return self.log.read()

    def says(self, text, seconds=30):
        until = time.monotonic() + seconds
        while text not in self.said() and time.monotonic() < until and self.process.poll() is None:
            time.sleep(0.02)
        return text in self.said()

    def listens(self):
        return self.says("listening on")

    def link(self, room=None):
        """A connection, with so much room for what comes."""
        link = socket.socket()
        if room:
            link.setsockopt(socket.SOL_SOCKET, socket.SO_RCVBUF, room)
        link.settimeout(30)
        link.connect(("127.0.0.1", self.port))
        link.setsockopt(socket.IPPROTO_TCP, socket.TCP_NODELAY, 1)
        return link

    def line(self, request, seconds=30):
        """Sends a request, and reads a line of its reply; nothing where none comes in time."""
        try:
            with self.link() as link:
                link.settimeout(seconds)
                link.sendall(request)
                return link.makefile("rb").readline()
        except OSError:
            return b""

    def all(self, requests, half=False):
        """Sends requests, ends its half where it is to, and reads to the end, or until nothing more comes for a second."""
        told = b""
        with self.link() as link, contextlib.suppress(OSError):
            link.sendall(requests)
            if half:
                link.shutdown(socket.SHUT_WR)
            link.settimeout(30 if half else 1)
            while piece := link.recv(MB):
                told += piece
            return told, True
        return told, False

    def info(self, name):
        with self.link() as link:
            link.sendall(b"INFO\r\nQUIT\r\n")
            told = b"".join(iter(lambda: link.recv(1 << 16), b"")).decode()
        found = re.search(rf"^{name}:(\d+)\r$", told, re.M)
        return int(found[1]) if found else None

    def status(self, name):
        """What the system has of the process, in KB."""
        return int(re.search(rf"^{name}:\s+(\d+)", pathlib.Path(f"/proc/{self.process.pid}/status").read_text(), re.M)[1])

    def processor(self):
        """Seconds of a processor that it had."""
        words = pathlib.Path(f"/proc/{self.process.pid}/stat").read_text().rsplit(")", 1)[1].split()
        return (int(words[11]) + int(words[12])) / os.sysconf("SC_CLK_TCK")

    def end(self, how=signal.SIGTERM):
        if self.process.poll() is None:
            self.process.send_signal(how)
        return self.process.wait(60)


def ended(server):
    """A server that ends with the part that tries it."""
    @contextlib.contextmanager
    def of():
        try:
            yield server
        finally:
            server.end(signal.SIGKILL)
    return of()


def bulk(*words):
    words = [word if isinstance(word, bytes) else str(word).encode() for word in words]
    return b"*%d\r\n" % len(words) + b"".join(b"$%d\r\n%s\r\n" % (len(word), word) for word in words)


def until(holds, seconds=20):
    """Whether something becomes so in time."""
    end = time.monotonic() + seconds
    while time.monotonic() < end:
        if holds():
            return True
        time.sleep(0.02)
    return bool(holds())


def took(work):
    begun = time.monotonic()
    work()
    return time.monotonic() - begun


def is_over(link):
    """Whether the other side ended a connection, in a while."""
    link.settimeout(5)
    try:
        while link.recv(MB):
            pass
    except TimeoutError:
        return False
    except OSError:
        pass
    return True


# ---- a web page

def web(program, room):
    """What a browser sends for a page carries out nothing, with a password or without."""
    post = b"POST / HTTP/1.1\r\nHost: localhost\r\nContent-Type: text/plain\r\n\r\nSET page 1\r\n" + bulk("SET", "page", "1")
    with ended(Server(program, room / "web")) as server:
        yield "a start", server.listens()
        for name, text in {"a POST": post, "a PUT": post.replace(b"POST", b"put"), "a host's line": b"PING\r\nHost: x\r\nSET page 1\r\n",
                           "a GET": b"GET / HTTP/1.1\r\nhost: x\r\n\r\nSET page 1\r\n"}.items():
            told, is_ended = server.all(text)
            yield f"{name} ends its connection", is_ended and b"OK" not in told
        with server.link() as link:
            for byte in post[:60]:
                with contextlib.suppress(OSError):
                    link.sendall(bytes([byte]))
            yield "one that comes byte by byte", is_over(link)
        yield "nothing of them is carried out", server.line(b"EXISTS page\r\n") == b":0\r\n"
        yield "words that stand elsewhere are words", server.line(b"SET POST Host:\r\n") == b"+OK\r\n" and server.line(bulk("GET", "POST")) == b"$5\r\n"
        yield "a typed line still is one", server.line(b"GET POST\r\n") == b"$5\r\n" and server.line(b"\r\nPING\r\n") == b"+PONG\r\n"
        yield "one line tells of it", len(re.findall("web page", server.said())) == 1
    with ended(Server(program, room / "door", "--password", "word")) as server:
        yield "a start with a password", server.listens()
        told, is_ended = server.all(b"POST / HTTP/1.1\r\nHost: x\r\n\r\nAUTH word\r\nSET page 1\r\n")
        yield "nor at the door", is_ended and b"OK" not in told


# ---- handles

def few(program, room):
    """So many connections that handles run out."""
    with ended(Server(program, room / "few", "--segment", "64k", "--undecided", "16k", handles=(256, 256))) as server:
        yield "a start with few handles", server.listens()
        links, told = [], []
        for _ in range(300):
            link = server.link()
            link.settimeout(5)
            links.append(link)
            with contextlib.suppress(OSError):
                link.sendall(b"PING\r\n")
                told.append(link.recv(100))
        yield "those past what handles allow are told so", told.count(b"-ERR max number of clients reached\r\n") + told.count(b"+PONG\r\n") >= 298
        is_in = [link for link, it in zip(links, told) if it == b"+PONG\r\n"]
        yield "most are in", 100 < len(is_in) < 256
        sets = b"".join(bulk("SET", f"key{number}", b"x" * 1000) for number in range(500))
        replies = b""
        with contextlib.suppress(OSError):
            is_in[0].sendall(sets)
            while len(replies) < 5 * 500:
                replies += is_in[0].recv(MB) or b"?" * 5000
        yield "writes go on, from segment to segment", replies == b"+OK\r\n" * 500
        begun = server.processor()
        time.sleep(1)
        yield "it doesn't spin", server.processor() - begun < 0.3 and len(server.said().splitlines()) < 20
        with contextlib.suppress(OSError):
            is_in[0].sendall(b"SAVE\r\n")
            yield "a snapshot is made", is_in[0].recv(100) == b"+OK\r\n"
        for link in links:
            link.close()
        yield "others are let in once these are gone", until(lambda: server.line(b"PING\r\n", 2) == b"+PONG\r\n")


def raised(program, room):
    """The soft limit is raised, and `--clients` is heeded."""
    with ended(Server(program, room / "raised", handles=(128, 4096))) as server:
        yield "a start with a low soft limit", server.listens()
        links = [server.link() for _ in range(600)]
        for link in links:
            link.sendall(b"PING\r\n")
        yield "600 clients are answered", all(link.recv(100) == b"+PONG\r\n" for link in links)
        for link in links:
            link.close()
    with ended(Server(program, room / "clients", "--clients", "3")) as server:
        yield "a start for three", server.listens()
        links = [server.link() for _ in range(3)]
        for link in links:
            link.sendall(b"PING\r\n")
        yield "three are in", all(link.recv(100) == b"+PONG\r\n" for link in links)
        told, is_ended = server.all(b"")
        yield "the fourth is told and ended", is_ended and told == b"-ERR max number of clients reached\r\n"
        links[0].close()
        yield "one goes, and another is in", until(lambda: server.line(b"PING\r\n", 2) == b"+PONG\r\n")


def gone(program, room):
    """The limit of handles falls under what is open, while it runs."""
    with ended(Server(program, room / "gone", "--segment", "64k", "--undecided", "16k", handles=(1024, 1024))) as server:
        yield "a start", server.listens()
        link = server.link()
        link.sendall(b"SET a 1\r\n")
        yield "a write", link.recv(100) == b"+OK\r\n"
        opened = len(os.listdir(f"/proc/{server.process.pid}/fd"))
        resource.prlimit(server.process.pid, resource.RLIMIT_NOFILE, (opened, 1024))
        others = [server.link() for _ in range(5)]
        begun, lines = server.processor(), len(server.said().splitlines())
        time.sleep(1.5)
        yield "it doesn't spin while it can accept nothing", server.processor() - begun < 0.3 and len(server.said().splitlines()) - lines < 6
        waits = [took(lambda: link.sendall(b"PING\r\n") or link.recv(100)) for _ in range(50)]
        yield "and nobody who is in waits for that", sorted(waits)[25] < 0.005
        sets = b"".join(bulk("SET", f"key{number}", b"x" * 1000) for number in range(200))
        link.sendall(sets)
        replies = b""
        link.settimeout(1.5)
        with contextlib.suppress(OSError):
            while len(replies) < 5 * 200:
                replies += link.recv(MB) or b"?" * 5000
        yield "what wants a handle waits", len(replies) < 5 * 200
        resource.prlimit(server.process.pid, resource.RLIMIT_NOFILE, (1024, 1024))
        link.settimeout(30)
        with contextlib.suppress(OSError):
            while len(replies) < 5 * 200:
                replies += link.recv(MB) or b"?" * 5000
        yield "a lack of handles is no full disk and no failed cut", replies == b"+OK\r\n" * 200 and server.process.poll() is None
        told = b""
        for other in others:
            with contextlib.suppress(OSError):
                other.sendall(b"PING\r\n")
                told += other.recv(100)
        yield "who waited is let in", told == b"+PONG\r\n" * 5 and "no room" not in server.said()


def silent(program, room):
    """Clients that say nothing."""
    with ended(Server(program, room / "silent", "--timeout", "1")) as server:
        yield "a start with a time out", server.listens()
        silent, busy = server.link(), server.link()
        silent.sendall(b"PING\r\n")
        port, timer = f":{server.port:04X}", re.compile("02:0000[67]...")

        def is_kept():
            lines = (line.split() for line in pathlib.Path("/proc/net/tcp").read_text().splitlines()[1:])
            return any(it[1].endswith(port) and it[3] == "01" and timer.fullmatch(it[5]) for it in lines)

        yield "its connections are kept alive", until(is_kept, 1)
        begun, is_well = time.monotonic(), True
        while time.monotonic() < begun + 2.5:
            busy.sendall(b"PING\r\n")
            is_well = is_well and busy.recv(100) == b"+PONG\r\n"
            time.sleep(0.2)
        yield "who says something stays", is_well
        yield "who says nothing is ended", is_over(silent) and time.monotonic() < begun + 4


# ---- output

def output(program, room):
    """Clients that ask for much and read little."""
    with ended(Server(program, room / "output")) as server:
        yield "a start", server.listens()
        yield "a large value", server.line(bulk("SET", "k", b"x" * (8 * MB - 1000))) == b"+OK\r\n"
        time.sleep(0.3)
        base, deaf = server.status("VmRSS"), [server.link(1 << 12) for _ in range(12)]
        for link in deaf:
            link.sendall(b"GET k\r\n" * 24)
        waits = []
        for _ in range(40):
            waits.append(took(lambda: server.line(b"PING\r\n")))
            time.sleep(0.05)
        most = server.status("VmHWM")
        yield "12 deaf clients cost little memory", most - base < 12 * 22 * 1024
        yield "and nobody much time", sorted(waits)[30] < 0.5
        for link in deaf[1:]:
            link.close()
        yield "a deaf one gets all when it reads", reads(deaf[0], 24, 8 * MB - 1000)
        deaf[0].close()
        slow, begun = server.link(1 << 12), server.processor()
        slow.sendall(b"GET k\r\n" * 8)
        yield "a slow one gets what it asked for", reads(slow, 8, 8 * MB - 1000, 4096)
        yield "and costs what it reads", server.processor() - begun < 2.0
        slow.close()
        for name, text in {"an MGET": bulk("MGET", *["k"] * 20), "an EXEC": b"MULTI\r\n" + b"GET k\r\n" * 20 + b"EXEC\r\n"}.items():
            link, other = server.link(1 << 12), server.link()
            link.sendall(text)
            other.sendall(b"GET none\r\n")
            yield f"who is owed too much by {name} is ended", is_over_unread(link) and other.recv(100) == b"$-1\r\n"
        yield "a line tells of it", "more than may wait" in server.said()
        yield "others are as they were", server.line(b"STRLEN k\r\n") == b":%d\r\n" % (8 * MB - 1000)
        yield "all of it is let go of", until(lambda: server.status("VmRSS") < base + 80 * 1024)
    with ended(Server(program, room / "idle")) as server:
        yield "another start", server.listens() and server.line(bulk("SET", "k", b"x" * (8 * MB - 1000))) == b"+OK\r\n"
        used, links = server.info("used_memory"), [server.link() for _ in range(12)]
        for link in links:
            link.sendall(bulk("MGET", *["k"] * 4))
            yield "it gets much", is_read(link, 4 * (8 * MB - 1000))
        yield "who got much and stays keeps no room for it", until(lambda: server.info("used_memory") < used + 4 * MB)
        links[0].sendall(b"MULTI\r\nINCR n\r\nEXEC\r\nGET n\r\n")
        yield "and goes on as before", is_read(links[0], len(b"+OK\r\n+QUEUED\r\n*1\r\n:1\r\n$1\r\n1\r\n"))


def is_read(link, count):
    """Whether so many bytes come, or more that end with them."""
    while count > 0:
        came = link.recv(MB)
        if not came:
            return False
        count -= len(came)
    return True


def is_over_unread(link):
    """Whether the other side ended a connection of which little was read."""
    link.settimeout(10)
    got = 0
    try:
        while piece := link.recv(1 << 16):
            got += len(piece)
            if got > 100 * MB:
                return False
    except TimeoutError:
        return False
    except OSError:
        pass
    return True


def reads(link, count, size, piece=MB):
    """Whether so many replies of so many bytes come, read by such pieces."""
    link.settimeout(30)
    left, one = count * (size + len(b"$%d\r\n\r\n" % size)), b"$%d\r\n" % size
    seen = b""
    with contextlib.suppress(OSError):
        while left > 0:
            came = link.recv(min(piece, left))
            if not came:
                return False
            seen = (seen + came)[:len(one)]
            left -= len(came)
    return left == 0 and seen == one


def held(program, room):
    """Replies that wait for the disk are bounded too, and reads don't wait for writes that do."""
    folder = room / "held"
    env = dict(SHIM_SLOW="700000", SHIM_FOLDER=str(folder), LD_PRELOAD=str(room / "shim.so"))
    with ended(Server(program, folder, **env)) as server:
        yield "a start on a slow disk", server.listens()
        yield "a write", server.line(b"SET there 1\r\n") == b"+OK\r\n"
        base, link = server.status("VmRSS"), server.link()
        link.sendall(bulk("SET", "k", b"x" * (8 * MB - 1000)) + b"GET k\r\n" * 24)
        link.settimeout(60)
        yield "what waited for the disk comes", link.recv(5) == b"+OK\r\n" and reads(link, 24, 8 * MB - 1000)
        yield "and was bounded", server.status("VmHWM") - base < 160 * 1024
    folder = room / "pressed"
    env = dict(env, SHIM_FOLDER=str(folder))
    with ended(Server(program, folder, "--undecided", "64k", "--segment", "1m", **env)) as server:
        yield "another", server.listens() and server.line(b"SET there 1\r\n") == b"+OK\r\n"
        writer = server.link()
        writer.sendall(b"".join(bulk("SET", f"k{number}", b"x" * 15_000) for number in range(8)))
        time.sleep(0.2)
        yield "reads don't wait where no more may be undecided", took(lambda: server.line(b"GET there\r\n")) < 0.4
        reader, begun = server.link(), time.monotonic()
        reader.sendall(b"GET there\r\n" * 1000)
        told = b""
        while len(told) < 7000:
            told += reader.recv(MB) or b"?" * 7000
        yield "nor many of them", told == b"$1\r\n1\r\n" * 1000 and time.monotonic() - begun < 1.0
        replies = b""
        while len(replies) < 40:
            replies += writer.recv(100) or b"?" * 40
        yield "and writes come to their end", replies == b"+OK\r\n" * 8


def heavy(program, room):
    """Output counts as memory that is used."""
    with ended(Server(program, room / "heavy", "--memory", "100m")) as server:
        yield "a start with a limit", server.listens()
        yield "a write", server.line(bulk("SET", "k", b"x" * (8 * MB - 1000))) == b"+OK\r\n"
        deaf = [server.link(1 << 12) for _ in range(20)]
        for link in deaf:
            link.sendall(b"GET k\r\n" * 24)
        yield "what adds is refused", until(lambda: server.line(b"SET a 1\r\n").startswith(b"-OOM"), 5)
        with server.link() as link:
            link.sendall(b"MULTI\r\nECHO x\r\nEXEC\r\n")
            told = b""
            while told.count(b"\r\n") < 3:
                told += link.recv(1000) or b"\r\n" * 3
            yield "and so is what is queued", told.startswith(b"+OK\r\n-ERR") and b"EXECABORT" in told
        yield "it is bounded then", server.status("VmHWM") < 500 * 1024
        for link in deaf:
            link.close()
        yield "and taken once they are gone", until(lambda: server.line(b"SET a 1\r\n") == b"+OK\r\n", 5)


def scarce(program, room):
    """A reply that finds no memory."""
    folder, mark = room / "scarce", room / "memory-is-scarce"
    env = dict(SHIM_SCARCE=str(mark), SHIM_SLOW="700000", SHIM_FOLDER=str(folder), LD_PRELOAD=str(room / "shim.so"))
    with ended(Server(program, folder, **env)) as server:
        yield "a start on a slow disk", server.listens() and server.line(bulk("SET", "k", b"x" * 3 * MB)) == b"+OK\r\n"
        link, other = server.link(), server.link()
        other.sendall(b"PING\r\n")
        yield "another is in", other.recv(100) == b"+PONG\r\n"
        link.sendall(b"SET a 1\r\nGET k\r\n")
        time.sleep(0.2)
        mark.touch()
        yield "whoever waits for one is ended", is_over(link)
        with contextlib.suppress(OSError):
            other.settimeout(5)
            other.sendall(b"PING\r\n")
            yield "and nobody waits for that", other.recv(100) == b"+PONG\r\n"
        yield "what was written stands", server.line(b"GET a\r\n", 5) == b"$1\r\n"
        yield "a request that finds none isn't done", server.line(b"GET k\r\n", 5).startswith(b"-IOERR")
        mark.unlink()
        yield "all goes on once there is some", server.line(b"GET k\r\n", 5) == b"$%d\r\n" % (3 * MB)


def queues(program, room):
    """What waits for an EXEC is bounded."""
    with ended(Server(program, room / "queues", "--undecided", "64k", "--segment", "1m")) as server:
        yield "a start", server.listens()
        one = bulk("ECHO", b"x" * 8000)
        told, _ = server.all(b"MULTI\r\n" + one * 20 + b"EXEC\r\nSET a 1\r\n")
        lines = told.split(b"\r\n")
        yield "as much as four of the largest requests is queued", lines[:9] == [b"+OK"] + [b"+QUEUED"] * 8
        yield "what is more is told", all(line.startswith(b"-ERR the commands that wait for EXEC") for line in lines[9:21])
        yield "and none of it is carried out", lines[21].startswith(b"-EXECABORT") and lines[22] == b"+OK"
        base = server.status("VmHWM")
        told, _ = server.all(b"MULTI\r\n" + one * 5000 + b"EXEC\r\n")
        yield "however much comes", b"-EXECABORT" in told and server.status("VmHWM") - base < 32 * 1024


def half(program, room):
    """A client that ends its half gets all its replies."""
    with ended(Server(program, room / "half")) as server:
        yield "a start", server.listens()
        told, is_ended = server.all(b"SET a 1\r\nGET a\r\n", half=True)
        yield "its replies, and the end", is_ended and told == b"+OK\r\n$1\r\n1\r\n"
        told, is_ended = server.all(b"MULTI\r\n" + b"".join(bulk("ECHO", b"x" * 100_000) for _ in range(200)) + b"SET q 1\r\nEXEC\r\n", half=True)
        yield "of a queue", is_ended and told.count(b"+QUEUED") == 201 and told.count(b"\r\n") > 202
        told, is_ended = server.all(b"INCR n\r\n" * 20_000, half=True)
        yield "of many commands", is_ended and told.endswith(b":20000\r\n") and told.count(b"\r\n") == 20_000
        told, is_ended = server.all(b"INCR a\r\nSAVE\r\nGET a\r\nGET", half=True)
        yield "of what the server is asked, and a torn one", is_ended and told == b":2\r\n+OK\r\n$1\r\n2\r\n"
        told, is_ended = server.all(b"", half=True)
        yield "of nothing", is_ended and told == b""
        links = [server.link() for _ in range(20)]
        for link in links:
            link.sendall(b"INCR n\r\n" * 100)
            link.close()
        yield "who is gone is let go of", until(lambda: server.info("connected_clients") == 1)
        begun = server.processor()
        time.sleep(0.5)
        yield "and costs nothing", server.processor() - begun < 0.2


# ---- the folder

def lock(program, room):
    """Two servers that want a folder."""
    folder = room / "lock"
    with ended(Server(program, folder)) as first:
        yield "a start", first.listens() and first.line(b"SET a 1\r\n") == b"+OK\r\n"
        (folder / "lock").unlink(missing_ok=True)
        with ended(Server(program, folder)) as second:
            yield "a second is refused though the file is gone", until(lambda: second.process.poll() is not None, 5) and second.process.poll() == 1
            yield "it says that another has it", "another server has this folder" in second.said()
    with ended(Server(program, folder)) as first:
        yield "a start anew", first.listens()
        with ended(Server(program, folder)) as second:
            second.process.wait(60)
            yield "who has it", str(first.process.pid) in second.said() and first.address in second.said()
        with ended(Server(program, folder, "--wait-for-folder", "20")) as second:
            time.sleep(0.5)
            yield "one that waits", second.process.poll() is None and first.end() == 0
            yield "has it then", second.listens() and second.line(b"GET a\r\n") == b"$1\r\n"
        with ended(Server(program, folder)) as first, ended(Server(program, folder, "--wait-for-folder", "1")) as second:
            first.listens()
            yield "or not", second.process.wait(20) == 1 or first.process.wait(20) == 1


def bytes_of(folder):
    return sum(path.stat().st_blocks * 512 for path in folder.rglob("*") if path.is_file()) if folder.exists() else 0


def files_of(folder):
    return sorted((path.name, path.stat().st_size) for path in folder.iterdir() if path.name.startswith(("log-", "snapshot-", "new-"))) if folder.exists() else []


def starts(program, room):
    """Starts that fail, and those of which nothing comes."""
    folder = room / "starts"
    with socket.socket() as taken:
        taken.bind(("127.0.0.1", 0))
        taken.listen()
        address = f"127.0.0.1:{taken.getsockname()[1]}"
        for _ in range(3):
            with ended(Server(program, folder, address=address)) as server:
                ended_with = server.process.wait(60)
        yield "an address in use is told", ended_with == 1 and address in server.said()
        yield "and nothing is left", files_of(folder) == []
    with ended(Server(program, folder)) as server:
        yield "a start", server.listens()
        time.sleep(0.3)
        yield "an empty store is small", bytes_of(folder) <= 2 * MB
        yield "writes", server.line(b"SET a 1\r\n") == b"+OK\r\n" and server.end() == 0
    before = files_of(folder)
    for _ in range(3):
        with ended(Server(program, folder)) as server:
            server.listens()
            ended_with = server.line(b"GET a\r\n"), server.end()
    yield "starts of which nothing came leave nothing", files_of(folder) == before and ended_with == (b"$1\r\n", 0)
    for _ in range(10):
        with ended(Server(program, folder)) as server:
            server.listens()
            server.line(b"INCR n\r\n")
            server.end(signal.SIGKILL)
    yield "ten that were killed leave little", bytes_of(folder) < 12 * MB
    with ended(Server(program, folder)) as server:
        yield "and all is there", server.listens() and server.line(b"INCR n\r\n") == b":11\r\n"
        sets = b"".join(bulk("SET", f"k{number}", b"x" * 100_000) for number in range(100))
        told = b""
        with server.link() as link:
            link.sendall(sets)
            while len(told) < 500:
                told += link.recv(MB) or b"?" * 500
        yield "it grows with what comes", told == b"+OK\r\n" * 100 and server.end(signal.SIGKILL) == -9
    with ended(Server(program, folder)) as server:
        yield "which is there", server.listens() and server.line(b"STRLEN k99\r\n") == b":100000\r\n" and server.end() == 0


# ---- the disk

def disk(program, room):
    """A disk without room."""
    folder, mark = room / "disk", room / "disk-is-full"
    env = dict(SHIM_FOLDER=str(folder), SHIM_FULL=str(mark), LD_PRELOAD=str(room / "shim.so"))
    no_room = b"-IOERR there is no room on the disk, nothing of it was done\r\n"
    words = ["--segment", "1m", "--undecided", "256k", "--snapshot", "1g"]
    with ended(Server(program, folder, *words, **env)) as server:
        yield "a start", server.listens() and server.line(b"SET a 1\r\n") == b"+OK\r\n"
        time.sleep(0.3)
        mark.touch()
        one = bulk("SET", "b", b"x" * 20_000)
        told = []
        yield "refused by name", until(lambda: told.append(server.line(one, 5)) or told[-1] == no_room)
        yield "and before that done", set(told[:-1]) <= {b"+OK\r\n"}
        yield "reads go on", server.line(b"GET a\r\n") == b"$1\r\n"
        adds = ["SET", "GETSET", "MSET", "APPEND", "INCRBY", "DECRBY"]
        yield "each that adds is", [server.line(bulk(word, "b", "1" * 20_000), 5) for word in adds] == [no_room] * len(adds)
        begun = time.monotonic()
        said = server.line(b"SAVE\r\n", 5), server.line(b"BACKUP one\r\n", 5)
        yield "SAVE and BACKUP fail by name at once", all(it.startswith(b"-IOERR no snapshot") for it in said) and time.monotonic() - begun < 4
        yield "DEL goes on", server.line(b"DEL b\r\n", 5) == b":1\r\n"
        yield "and FLUSHALL", server.line(b"FLUSHALL\r\n", 5) == b"+OK\r\n" and server.line(b"GET a\r\n") == b"$-1\r\n"
        mark.unlink()
        yield "writes go on once there is room", until(lambda: server.line(b"SET c 1\r\n", 5) == b"+OK\r\n")
        mark.touch()
        yield "it is killed", server.end(signal.SIGKILL) == -9
    with ended(Server(program, folder, *words, **env)) as server:
        yield "a start on a full disk", server.listens()
        yield "serves reads", server.line(b"GET c\r\n", 5) == b"$1\r\n" and server.line(b"DBSIZE\r\n", 5) == b":1\r\n"
        yield "refuses writes by name", server.line(b"SET d 1\r\n", 5) == no_room
        begun = time.monotonic()
        said = server.line(b"SAVE\r\n", 5), server.line(b"BACKUP two\r\n", 5)
        yield "and snapshots and backups, at once", all(it.startswith(b"-IOERR no snapshot") for it in said) and time.monotonic() - begun < 4
        yield "and carries DEL out", server.line(b"DEL c\r\n", 5) == b":1\r\n" and server.line(b"GET c\r\n", 5) == b"$-1\r\n"
        yield "which stays", server.end(signal.SIGKILL) == -9
    with ended(Server(program, folder, *words, **env)) as server:
        yield "another start there", server.listens() and server.line(b"DBSIZE\r\n", 5) == b":0\r\n"
        mark.unlink()
        yield "takes writes once there is room", until(lambda: server.line(b"SET d 1\r\n", 5) == b"+OK\r\n")
        yield "and makes snapshots", server.line(b"SAVE\r\n", 20) == b"+OK\r\n" and server.end() == 0
        mark.touch()
    for turn in range(3):
        with ended(Server(program, folder, *words, **env)) as server:
            yield f"start {turn} on a full disk of which nothing comes", server.listens() and server.line(b"GET d\r\n") == b"$1\r\n" and server.end() == 0
    with ended(Server(program, folder, *words, **env)) as server:
        yield "carries FLUSHALL out behind them", server.listens() and server.line(b"FLUSHALL\r\n", 5) == b"+OK\r\n"
        mark.unlink()
        yield "and goes on", until(lambda: server.line(b"SET e 1\r\n", 5) == b"+OK\r\n") and server.end() == 0
    with ended(Server(program, folder, *words, **env)) as server:
        yield "all is there", server.listens() and server.line(b"MGET d e\r\n") == b"*2\r\n" and server.line(b"DBSIZE\r\n") == b":1\r\n" and server.end() == 0
    mark.touch()
    (folder / "spare").write_bytes(b"damage".ljust((folder / "spare").stat().st_size, b"\0"))
    with ended(Server(program, folder, *words, **env)) as server:
        yield "what was kept and is damaged isn't used", server.listens() and server.line(b"DEL e\r\n", 5) == no_room and server.line(b"GET e\r\n") == b"$1\r\n"


# ---- passwords

def passwords(program, room):
    """Passwords that are none, wrong ones, and who may read the files."""
    def refused(*words):
        with ended(Server(program, room / "refused", *words, address="0.0.0.0:0")) as server:
            with contextlib.suppress(subprocess.TimeoutExpired):
                return server.process.wait(2)
    yield "an empty one is refused", refused("--password", "") == 2
    yield "an address that others reach wants one", refused() == 2
    with ended(Server(program, room / "open", "--no-password", address="0.0.0.0:0")) as server:
        yield "or the word that there is none", server.listens()
    folder = room / "passwords"
    with ended(Server(program, folder, "--password", "right", mask=0)) as server:
        yield "a start", server.listens()
        with server.link() as wrong, server.link() as right:
            right.sendall(b"AUTH right\r\n")
            yield "the right one", right.recv(100) == b"+OK\r\n"
            begun = time.monotonic()
            wrong.sendall(b"AUTH wrong\r\nAUTH wrong\r\nAUTH right\r\n")
            waits = []
            while time.monotonic() < begun + 0.15:
                waits.append(took(lambda: right.sendall(b"PING\r\n") or right.recv(100)))
            told = b""
            while told.count(b"\r\n") < 3:
                told += wrong.recv(1000) or b"\r\n" * 3
            yield "wrong ones are answered late", time.monotonic() - begun >= 0.2 and told.count(b"-WRONGPASS") == 2 and told.endswith(b"+OK\r\n")
            yield "others wait for nothing", sorted(waits)[len(waits) // 2] < 0.05
            right.sendall(b"INFO\r\n")
            told = b""
            while b"wrong_passwords" not in told and len(told) < 1 << 15:
                told += right.recv(1 << 16) or b"x" * (1 << 15)
            yield "they are counted", b"wrong_passwords:2\r\n" in told
            right.sendall(b"SET a 1\r\nBACKUP one\r\nSAVE\r\n")
            yield "files are made", until(lambda: (folder / "backups" / "one").exists() and list(folder.glob("snapshot-*")))
    paths = [folder, *folder.rglob("*")]
    yield "files are their owner's alone", len(paths) > 4 and all(stat.S_IMODE(it.stat().st_mode) & 0o077 == 0 for it in paths)


PARTS = dict(web=web, few=few, raised=raised, gone=gone, silent=silent, output=output, held=held, heavy=heavy, queues=queues, scarce=scarce, half=half, lock=lock,
             starts=starts, disk=disk, passwords=passwords)


def tried(program, name, room):
    """What a part says of a server: how much is so, and what isn't."""
    passed, failed = 0, []
    begun = time.monotonic()
    try:
        for what, holds in PARTS[name](program, room):
            passed += bool(holds)
            failed += [] if holds else [f"{name}: {what}: is not so"]
    except Exception as error:
        failed.append(f"{name}: {error!r} at line {error.__traceback__.tb_next.tb_lineno if error.__traceback__.tb_next else 0}")
    return passed, failed, time.monotonic() - begun


def finds(name, room):
    """What the part that is to find a wrong host says of it."""
    part, edits = WRONG[name]
    home = room / name.replace(" ", "-")
    home.mkdir()
    (home / "shim.so").symlink_to(room / "shim.so")
    return tried(crashes.built(home, edits), part, home)[1]


def main():
    words = argparse.ArgumentParser(description=__doc__, formatter_class=argparse.RawDescriptionHelpFormatter)
    words.add_argument("--server", default=str(TOP / "target/release/hidewillow-server"))
    words.add_argument("--only", nargs="*", default=list(PARTS))
    words.add_argument("--wrong", nargs="*", metavar="NAME", help="those that have one of these names, or all")
    words.add_argument("--times", action="store_true")
    options = words.parse_args()
    passed, failed = 0, []
    with tempfile.TemporaryDirectory(dir=crashes.ROOMS) as room, concurrent.futures.ThreadPoolExecutor(4) as pool:
        room = pathlib.Path(room)
        subprocess.run(["cc", "-O2", "-shared", "-fPIC", "-o", room / "shim.so", HERE / "shim.c", "-ldl", "-lpthread"], check=True)
        if options.wrong is not None:
            names = [name for name in WRONG if not options.wrong or any(part in name for part in options.wrong)]
            for name, found in zip(names, pool.map(lambda name: finds(name, room), names)):
                print(f"{name}: {found[0] if found else 'NOT FOUND'}", flush=True)
                passed, failed = passed + bool(found), failed + ([] if found else [name])
        else:
            for name, (well, ill, seconds) in zip(options.only, pool.map(lambda name: tried(options.server, name, room), options.only)):
                passed, failed = passed + well, failed + ill
                for line in ill:
                    print(f"ill: {line}", flush=True)
                if options.times:
                    print(f"ill: {name}: {well} are so, in {seconds:.1f} s", flush=True)
    print(f"{passed} passed, {len(failed)} failed")
    sys.exit(bool(failed))


if __name__ == "__main__":
    main()
