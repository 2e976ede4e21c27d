"""An engine of three members, hosts that have their log in it, and the network between all of them, each a process on this machine.

Where the system gives network namespaces each has one of its own, with a link to the bridge that is cut off by pulling it out. Else all have the
machine's network, and what goes to or from who is cut off is held up by gates. Gates stand between hosts and members in both.
"""
import ctypes
import hashlib
import http.client
import json
import os
import random
import re
import signal
import socket
import subprocess
import threading
import time

from crashes import Link, free_port, home

LEASE = 2
# So many bytes a member has room for, where that is to be used up, and else.
SMALL, LARGE = 6 << 20, 2 << 30
CALLER = re.compile(rb"X-Server-From: (\w+)")
# What a connection of HTTP/2 begins with, and each frame of it.
GREETING, HEAD = 24, 9
# As the system has it.
CLONE_NEWNET = 0x40000000


class Losing:
    """A connection of HTTP/2, of whose requests a part is lost, whichever."""

    def __init__(self, part):
        self.part, self.rest, self.lost = part, b"", {0: False}

    def size(self):
        """Of the greeting or the frame that comes first, as far as it is there."""
        return GREETING if self.rest.startswith(b"PRI") else HEAD + int.from_bytes(self.rest[:3], "big")

    def passes(self, piece):
        """What goes on: whole frames of requests that aren't lost."""
        passed, self.rest = b"", self.rest + piece
        while len(self.rest) >= (size := self.size()):
            frame, self.rest = self.rest[:size], self.rest[size:]
            stream = 0 if frame.startswith(b"PRI") else int.from_bytes(frame[5:HEAD], "big")
            passed += b"" if self.lost.setdefault(stream, random.random() < self.part) else frame
        return passed


class Gate:
    """What goes to a member, which is held up while one of its ends is cut off, and goes on late; what comes back can be lost, connections can be
    broken that began before a time, and of those that begin a part of the requests can be lost. Which member another one is it says by its
    first request."""

    def __init__(self, at, target, end, held):
        self.target, self.end, self.held, self.socket = target, end, held, socket.create_server((at, 0))
        self.moved, self.muted, self.broken, self.loses = 0, 0.0, 0.0, 0.0
        self.port = self.socket.getsockname()[1]
        threading.Thread(target=self.takes, daemon=True).start()

    def takes(self):
        while True:
            try:
                near, _ = self.socket.accept()
            except OSError:
                return
            threading.Thread(target=self.joins, args=(near,), daemon=True).start()

    def joins(self, near):
        try:
            caller = CALLER.search(near.recv(1 << 16, socket.MSG_PEEK))
            passes = {self.end, caller and caller[1].decode()}
            self.waits(passes)
            far = socket.create_connection(self.target, timeout=5)
            far.settimeout(None)
        except OSError:
            near.close()
            return
        for end in (near, far):
            end.setsockopt(socket.IPPROTO_TCP, socket.TCP_NODELAY, 1)
        for ends in ((near, far), (far, near)):
            threading.Thread(target=self.moves, args=(*ends, passes, time.monotonic(), ends[0] is far), daemon=True).start()

    def waits(self, ends):
        while not self.held.isdisjoint(ends):
            time.sleep(0.005)

    def moves(self, source, target, ends, begun, is_back):
        loses = Losing(self.loses) if self.loses and not is_back else None
        try:
            while piece := source.recv(1 << 16):
                self.waits(ends)
                if begun < self.broken:
                    raise ConnectionAbortedError
                self.moved += 0 if is_back else len(piece)
                if not is_back or begun > self.muted:
                    target.sendall(loses.passes(piece) if loses else piece)
            target.shutdown(socket.SHUT_WR)
        except OSError:
            for end in (source, target):
                end.close()


class Machine:
    """A network that all share, in which gates hold up what goes to or from an end that is cut off."""

    def __init__(self):
        self.held = set()

    def place(self, *_):
        return Place()

    def here(self, _):
        """Where gates listen."""
        return home()

    def gate_of_peers(self, at):
        """What stands before a member where others reach it."""
        return Gate(home(), at, None, self.held)

    def cut(self, process):
        self.held.add(process.end)

    def heal(self, process):
        self.held.discard(process.end)

    def end(self):
        """Nothing of it is wanted any more."""


class Place:
    """Where a process is, in a network that all share."""

    def at(self, _):
        return home()

    def within(self, words):
        """A command that runs there."""
        return words


def system(*words):
    subprocess.run([str(word) for word in words], check=True, capture_output=True, text=True)


class Namespaces(Machine):
    """A namespace for each process, and this one anew for who tries them, with bridges that they have links to."""

    BRIDGES = {"clients": "10.1.0", "engine": "10.2.0", "peers": "10.3.0"}

    def __init__(self):
        super().__init__()
        # What is wanted, tried by another process; who has a namespace anew has it for good.
        system("unshare", "--net", "sh", "-ec", "ip link add bridge0 type bridge; ip link add near0 type veth peer name far0; ip link set near0 master bridge0; nsenter --version")
        library = ctypes.CDLL(None, use_errno=True)
        if library.unshare(CLONE_NEWNET):
            raise OSError(ctypes.get_errno(), "unshare")
        system("ip", "link", "set", "lo", "up")
        for name, net in self.BRIDGES.items():
            system("ip", "link", "add", name, "type", "bridge")
            system("ip", "address", "add", f"{net}.254/24", "dev", name)
            system("ip", "link", "set", name, "up")
        self.places = []

    def place(self, *bridges):
        self.places.append(Space(len(self.places) + 1, bridges))
        return self.places[-1]

    def here(self, bridge):
        return f"{self.BRIDGES[bridge]}.254"

    def gate_of_peers(self, _):
        return None

    def cut(self, process):
        process.place.pull_out()

    def heal(self, process):
        process.place.put_in()

    def end(self):
        for place in self.places:
            place.holder.kill()
            place.holder.wait()


class Space(Place):
    """A namespace with a link to some bridges, the last of which can be pulled out: what is sent is lost then, until it is sent again."""

    def __init__(self, number, bridges):
        self.number, self.bridge = number, bridges[-1]
        # It is there as long as this process, and that at most as long as this program.
        self.holder = subprocess.Popen(["unshare", "--net", "cat"], stdin=subprocess.PIPE)
        own, net = os.readlink("/proc/self/ns/net"), f"/proc/{self.holder.pid}/ns/net"
        while os.readlink(net) == own and self.holder.poll() is None:
            time.sleep(0.005)
        system(*self.within(["ip", "link", "set", "lo", "up"]))
        for bridge in bridges:
            far = f"{bridge}{number}"
            system("ip", "link", "add", far, "type", "veth", "peer", "name", bridge, "netns", self.holder.pid)
            system("ip", "link", "set", far, "master", bridge, "up")
            system(*self.within(["ip", "address", "add", f"{self.at(bridge)}/24", "dev", bridge]))
            system(*self.within(["ip", "link", "set", bridge, "up"]))

    def at(self, bridge):
        return f"{Namespaces.BRIDGES[bridge]}.{self.number}"

    def within(self, words):
        return ["nsenter", f"--net=/proc/{self.holder.pid}/ns/net", "--", *words]

    def pull_out(self):
        system("ip", "link", "set", f"{self.bridge}{self.number}", "nomaster")

    def put_in(self):
        system("ip", "link", "set", f"{self.bridge}{self.number}", "master", self.bridge)


def network(with_gates):
    """Of namespaces where they can be had and nothing else is wished for, and in words which."""
    if with_gates:
        return Machine(), "gates"
    try:
        return Namespaces(), "namespaces"
    except (OSError, subprocess.CalledProcessError) as error:
        return Machine(), f"gates, since namespaces are refused: {getattr(error, 'stderr', None) or error}".strip()


class Process:
    """A host or a member."""

    def __init__(self, place, words, log):
        self.place, self.words, self.log, self.process, self.sleeps = place, [str(word) for word in words], log, None, False

    def start(self):
        with self.log.open("ab") as log:
            self.process = subprocess.Popen(self.place.within(self.words), stdout=log, stderr=log)

    def stop(self):
        self.process.send_signal(signal.SIGSTOP)
        self.sleeps = True

    def wake(self):
        self.process.send_signal(signal.SIGCONT)
        self.sleeps = False

    def kill(self):
        if self.process is not None:
            self.process.kill()
            self.process.wait()
        self.sleeps = False


class Member(Process):
    """A member of the engine. The others know it by its gate where there is one, and a gate knows it by the number among them that is made of that address
    and the name of all."""

    def __init__(self, name, room, ways, quota):
        place, self.name, self.port, listens = ways.place("clients", "peers"), name, free_port(), free_port()
        self.at, peer = place.at("clients"), (place.at("peers"), listens)
        self.gate = ways.gate_of_peers(peer)
        known = (home(), self.gate.port) if self.gate else peer
        client, peer, self.url = (f"http://{at}:{port}" for at, port in ((self.at, self.port), peer, known))
        self.end = hashlib.sha1(f"{self.url}{room.name}".encode()).hexdigest()[:16].lstrip("0")
        if self.gate:
            self.gate.end = self.end
        super().__init__(place, ["etcd", "--name", name, "--data-dir", room / name, "--listen-client-urls", client, "--advertise-client-urls", client,
                                 "--listen-peer-urls", peer, "--initial-advertise-peer-urls", self.url, "--initial-cluster-token", room.name,
                                 "--log-level", "error", "--quota-backend-bytes", quota, "--snapshot-count", 10000, "--max-wals", 2], room / f"{name}.log")

    def asks(self, path, **body):
        """What it answers by its gateway, which may be an error."""
        link = http.client.HTTPConnection(self.at, self.port, timeout=20)
        try:
            link.request("POST", f"/v3/{path}", json.dumps(body))
            return json.load(link.getresponse())
        except (OSError, ValueError, http.client.HTTPException) as error:
            return {"error": str(error)}
        finally:
            link.close()


def engine(room, ways, quota):
    """The members of an engine."""
    members = [Member(f"m{place}", room, ways, quota) for place in range(3)]
    for member in members:
        member.words += ["--initial-cluster", ",".join(f"{it.name}={it.url}" for it in members)]
    return members


class Host(Process):
    """A host, and a gate to each member."""

    def __init__(self, options, name, members, room, ways):
        place, self.end, self.port, self.folder = ways.place("clients", "engine"), name, free_port(), room / f"folder-{name}"
        self.at, here = place.at("clients"), ways.here("engine")
        self.gates = [Gate(here, (member.at, member.port), self.end, ways.held) for member in members]
        where = ",".join(f"{here}:{gate.port}" for gate in self.gates)
        super().__init__(place, [options.server, "--log", f"etcd:{where}", "--address", f"{self.at}:{self.port}", "--lease", LEASE,
                                 "--batches", options.batches, "--clock", options.clock, "--folder", self.folder, "--copies", f"{self.at}:0",
                                 "--snapshot", options.snapshot, "--segment", "64k", "--undecided", "60k", "--compact", "engine", "--no-password"],
                         room / f"host-{name}.log")

    def link(self):
        """A connection of a client."""
        return Link(self.port, self.at)
