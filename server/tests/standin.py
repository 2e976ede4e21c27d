"""An engine of one member in this process, which answers late, loses, or refuses what it is asked as a test wishes.

It has what hosts ask of etcd, over HTTP/2 by hand: reads, transactions, leases, the state of the member, and compaction, which it counts and
doesn't do. Whatever it carries out it does at one instant; reads are as of now, whichever revision they name. Hosts come in by a door each.
"""
import fcntl
import itertools
import socket
import struct
import termios
import threading
import time
import types

EQUAL, LESS = 0, 2
CREATED, CHANGED, VALUE = 1, 2, 3
DATA, HEADERS, SETTINGS, PING, WINDOW = 0, 1, 4, 6, 8
END_STREAM, ACK, END_HEADERS = 1, 1, 4
GREETING, LONGEST = 24, 1 << 14
# How many bytes of answers come to a host until it asks for room for more; a field that hosts pass over; and what a message begins with, and a field
# that is as long as this.
MORE, FILLER, HEAD = 1 << 24, 15, 5
STATUS_OK = b"\x88"


def varint(number):
    text = b""
    while number > 127:
        text, number = text + bytes([number & 127 | 128]), number >> 7
    return text + bytes([number])


def field(number, value):
    if isinstance(value, int):
        return varint(number << 3) + varint(value)
    return varint(number << 3 | 2) + varint(len(value)) + value


def fields(text):
    """The fields of a message, numbers and texts alone."""
    at, found = 0, []

    def number():
        nonlocal at
        all_of, shift = 0, 0
        while True:
            all_of |= (text[at] & 127) << shift
            at, shift = at + 1, shift + 7
            if text[at - 1] < 128:
                return all_of
    while at < len(text):
        tag = number()
        value = number()
        if tag & 7 == 2:
            at, value = at + value, text[at:at + value]
        found.append((tag >> 3, value))
    return found


def of(message, wanted, default):
    return next((value for number, value in message if number == wanted), default)


class Engine:
    """Keys, with their values, the revisions at which they were made and changed, and their leases."""

    def __init__(self, cluster=1):
        self.cluster, self.revision, self.keys, self.lock, self.leases = cluster, 1, {}, threading.RLock(), itertools.count(7000)
        self.living, self.compactions = {}, 0

    def names(self, begin=b""):
        with self.lock:
            return sorted(key for key in self.keys if key.startswith(begin))

    def put(self, key, value, lease=0):
        """As somebody else who uses the engine does."""
        with self.lock:
            self.revision += 1
            self.puts(key, value, lease)

    def remove(self, *keys):
        with self.lock:
            self.revision += 1
            for key in keys:
                self.keys.pop(key, None)

    def expire(self):
        """All leases are over."""
        with self.lock:
            self.living.clear()
            self.remove(*[key for key, entry in self.keys.items() if entry.lease])

    def puts(self, key, value, lease):
        old = self.keys.get(key)
        self.keys[key] = types.SimpleNamespace(value=value, created=old.created if old else self.revision, changed=self.revision, lease=lease)

    def head(self):
        return field(1, field(1, self.cluster) + field(2, 5) + field(3, self.revision))

    def span(self, message):
        """The keys that a message names."""
        begin, end = of(message, 1, b""), of(message, 2, b"")
        return sorted(key for key in self.keys if (begin <= key < end if end else key == begin))

    def reads(self, message):
        keys, most = self.span(message), of(message, 3, 0) or 1 << 30
        told = self.head()
        for key in keys[:most]:
            entry = self.keys[key]
            told += field(2, field(1, key) + field(2, entry.created) + field(3, entry.changed) + field(5, entry.value) + field(6, entry.lease))
        return told + field(3, int(len(keys) > most)) + field(4, len(keys))

    def holds(self, guard):
        entry, target = self.keys.get(of(guard, 3, b"")), of(guard, 2, 0)
        if target == VALUE:
            return entry is not None and entry.value == of(guard, 7, b"")
        has = 0 if entry is None else entry.created if target == CREATED else entry.changed
        wanted = of(guard, 5 if target == CREATED else 6, 0)
        return has == wanted if of(guard, 1, EQUAL) == EQUAL else has < wanted

    def does(self, request):
        kind, message = request[0][0], fields(request[0][1])
        if kind == 1:
            return field(1, self.reads(message))
        if kind == 2:
            self.puts(of(message, 1, b""), of(message, 2, b""), of(message, 3, 0))
            return field(2, self.head())
        for key in self.span(message):
            del self.keys[key]
        return field(3, self.head())

    def transacts(self, message):
        is_so = all(self.holds(fields(value)) for number, value in message if number == 1)
        requests = [fields(value) for number, value in message if number == (2 if is_so else 3)]
        self.revision += any(request[0][0] != 1 for request in requests)
        answers = b"".join(field(3, self.does(request)) for request in requests)
        return self.head() + field(2, int(is_so)) + answers

    def carries_out(self, name, message):
        """What a call is answered."""
        with self.lock:
            message = fields(message)
            if name == "Range":
                return self.reads(message)
            if name == "Txn":
                return self.transacts(message)
            if name == "LeaseGrant":
                lease = next(self.leases)
                self.living[lease] = of(message, 1, 1)
                return self.head() + field(2, lease) + field(3, self.living[lease])
            if name == "LeaseKeepAlive":
                lease = of(message, 1, 0)
                return self.head() + field(2, lease) + field(3, self.living.get(lease, 0))
            if name == "LeaseRevoke":
                lease = of(message, 1, 0)
                self.living.pop(lease, None)
                self.remove(*[key for key, entry in self.keys.items() if entry.lease == lease])
            if name == "Compact":
                self.compactions += 1
            return self.head() + (field(2, b"0") + field(4, 5) if name == "Status" else b"")


class Call:
    """What is asked: its name, its message, and the keys that it may put."""

    def __init__(self, name, message):
        self.name, self.message = name, message
        requests = [fields(value)[0] for number, value in fields(message) if number == 2] if name == "Txn" else []
        self.puts = [of(fields(value), 1, b"") for kind, value in requests if kind == 2]


def literal(name, value):
    return b"\x00" + bytes([len(name)]) + name + bytes([len(value)]) + value


def pieces(stream, told):
    """The frames that an answer's message goes in."""
    text = b"\x00" + struct.pack(">I", len(told)) + told
    return [(DATA, 0, stream, text[at:at + LONGEST]) for at in range(0, len(text), LONGEST)]


class Way:
    """A connection of a host, on which frames go whole; how many bytes of answers went since the host asked for room is known."""

    def __init__(self, link):
        self.link, self.lock, self.went = link, threading.Lock(), 0
        link.setsockopt(socket.IPPROTO_TCP, socket.TCP_NODELAY, 1)

    def sends(self, *frames):
        text = b"".join(struct.pack(">I", len(load))[1:] + bytes([kind, flags]) + struct.pack(">I", stream) + load
                        for kind, flags, stream, load in frames)
        with self.lock:
            for load in (load for kind, _, _, load in frames if kind == DATA):
                self.went = (self.went + len(load)) * (self.went + len(load) < MORE)
            self.link.sendall(text)

    def arrives(self):
        """Waits until the other side's system has all that was sent."""
        while any(fcntl.ioctl(self.link, termios.TIOCOUTQ, bytes(4))):
            time.sleep(0.001)

    def resets(self):
        """Whatever the other side sends from now on, it is told that it can't be sent. What it was sent it still has."""
        self.link.setsockopt(socket.SOL_SOCKET, socket.SO_LINGER, struct.pack("ii", 1, 0))
        self.link.shutdown(socket.SHUT_RD)


class Door:
    """Where a host asks the engine. What comes of a call its rule says: 'answer'; 'late', it is carried out and answered once this is opened;
    'hold', both once it is opened; 'break', it is carried out, and its connection breaks; 'last', it is carried out, and answered at such length that
    the host asks for room behind the end, which is sent once this is opened, when nothing can be sent any more; 'lose', nothing; or a number and a
    text, by which it is refused."""

    def __init__(self, engine, at="127.0.0.1"):
        self.engine, self.at, self.rule, self.opened, self.asked, self.links = engine, at, lambda call: "answer", threading.Event(), [], set()
        self.has_begun = threading.Event()
        self.listener = socket.create_server((at, 0))
        self.port = self.listener.getsockname()[1]
        self.address = f"{at}:{self.port}"
        threading.Thread(target=self.takes, args=(self.listener,), daemon=True).start()

    def rules(self, rule):
        """Another rule; what waited for the one before is let through."""
        self.opened.set()
        self.opened, self.rule = threading.Event(), rule if callable(rule) else lambda call: rule

    def shuts(self):
        """Nobody comes in, and who is in is put out."""
        self.listener.shutdown(socket.SHUT_RDWR)
        self.listener.close()
        self.breaks()

    def reopens(self):
        self.listener = socket.create_server((self.at, self.port))
        threading.Thread(target=self.takes, args=(self.listener,), daemon=True).start()

    def breaks(self):
        for link in list(self.links):
            try:
                link.shutdown(socket.SHUT_RDWR)
            except OSError:
                pass

    def takes(self, listener):
        while True:
            try:
                link, _ = listener.accept()
            except OSError:
                return
            self.links.add(link)
            threading.Thread(target=self.hears, args=(link,), daemon=True).start()

    def hears(self, link):
        """Frames of a connection, until it ends."""
        way, file, streams = Way(link), link.makefile("rb"), {}
        try:
            file.read(GREETING)
            way.sends((SETTINGS, 0, 0, b""))
            while len(head := file.read(9)) == 9:
                kind, flags, stream = head[3], head[4], int.from_bytes(head[5:], "big")
                load = file.read(int.from_bytes(head[:3], "big"))
                if kind == HEADERS:
                    streams[stream] = [load[4:4 + load[3]].rsplit(b"/", 1)[1].decode(), b""]
                elif kind == DATA:
                    streams[stream][1] += load
                    if load:
                        more = struct.pack(">I", len(load))
                        way.sends((WINDOW, 0, 0, more), (WINDOW, 0, stream, more))
                    if flags & END_STREAM:
                        name, text = streams.pop(stream)
                        threading.Thread(target=self.asks, args=(way, stream, Call(name, text[5:])), daemon=True).start()
                elif kind == SETTINGS and not flags & ACK:
                    way.sends((SETTINGS, ACK, 0, b""))
                elif kind == PING and not flags & ACK:
                    way.sends((PING, ACK, 0, load))
        except OSError:
            pass
        file.close()
        link.close()
        self.links.discard(link)

    def asks(self, way, stream, call):
        """A call, as the rule has it."""
        opened, rule = self.opened, self.rule(call)
        self.asked.append((call, rule))
        if rule == "lose":
            return
        if rule == "hold":
            opened.wait()
        try:
            if isinstance(rule, tuple):
                status, text = rule
                refusal = literal(b"grpc-status", b"%d" % status) + literal(b"grpc-message", text.encode())
                way.sends((HEADERS, END_HEADERS | END_STREAM, stream, STATUS_OK + refusal))
                return
            told = self.engine.carries_out(call.name, call.message)
            if rule == "late":
                opened.wait()
            if rule == "break":
                way.link.shutdown(socket.SHUT_RDWR)
                return
            if rule == "last":
                self.answers_last(way, stream, told, opened)
                return
            way.sends((HEADERS, END_HEADERS, stream, STATUS_OK), *pieces(stream, told),
                      (HEADERS, END_HEADERS | END_STREAM, stream, literal(b"grpc-status", b"0")))
        except OSError:
            pass

    def answers_last(self, way, stream, told, opened):
        """An answer, as 'last' has it: its last piece comes once this is opened, and with it, that nothing can be sent any more."""
        told += field(FILLER, bytes(MORE - way.went - len(told) - 2 * HEAD))
        *front, end = pieces(stream, told)
        way.sends((HEADERS, END_HEADERS, stream, STATUS_OK), *front)
        way.arrives()
        self.has_begun.set()
        opened.wait()
        way.sends(end)
        way.arrives()
        way.resets()
