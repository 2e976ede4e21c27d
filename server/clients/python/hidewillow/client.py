"""A client that goes on before the disk has what it was told.

THE ONE RULE: what a command is answered here may still be undone. Hold all output of your own - a line on a screen, a message, a
file, a command to another server - until `wait_all` has come back. If it raises `Undone`, your output never happened: drop it, take
back what you did because of these answers, and begin again from what the store has now.

    with Client() as store:
        for _ in range(100):
            number = store.ask("INCR", "tickets")       # answered at once, no command waits for the disk
            store.ask("SET", f"ticket:{number}", "sold")
        store.wait_all()                                # one wait for all of them
        print("sold", number)                           # output, behind it

Commands that depend on one that was undone, by the keys that they look at, are undone too; others stand, also if you sent them because
of an answer that was undone. `Undone` has the numbers and the words of all that were undone, from 1 on behind the last `wait_all`.
"""
from __future__ import annotations

import socket
from typing import Any, Union

Word = Union[str, bytes, int, float]
Answer = Union[None, int, str, bytes, list]

LOST = "the server closed the connection: what it answered since the last wait_all may be undone"
# What belongs to the connection itself, and would bring its numbers out of step.
OWN = {b"SPEC", b"WAITALL", b"QUIT", b"RESET", b"HELLO", b"AUTH"}


class Refused(Exception):
    """An error that a command was answered."""


class Undone(Exception):
    """Nothing was done of these commands: `commands` has the words of each by its number, and `first` is the first of these."""

    def __init__(self, commands: dict[int, tuple[Word, ...]]) -> None:
        self.commands = commands
        self.first = min(commands)
        super().__init__(f"nothing was done of {len(commands)} commands, the first {self.commands[self.first]}")


def word_bytes(word: Word) -> bytes:
    """A word of a command. Raises `TypeError` for what is no text, bytes or number."""
    if isinstance(word, bytes):
        return word
    if isinstance(word, bool) or not isinstance(word, (str, int, float)):
        raise TypeError(f"a word of a command is a text, bytes or a number, and not {word!r}")
    return str(word).encode()


def request(words: tuple[Word, ...]) -> bytes:
    """The bytes of a command. Raises `TypeError`, and `ValueError` for a command without words."""
    if not words:
        raise ValueError("a command has a word at least")
    parts = [word_bytes(word) for word in words]
    return b"".join([b"*%d\r\n" % len(parts), *(b"$%d\r\n%b\r\n" % (len(part), part) for part in parts)])


def carried(words: tuple[Word, ...]) -> bytes:
    """The same of a command that can be sent ahead. Raises `ValueError` for one that is the connection's own."""
    sent = request(words)
    if word_bytes(words[0]).upper() in OWN:
        raise ValueError(f"{words[0]!r} is the connection's own: see wait_all and close")
    return sent


def undone(told: Any, sent: list[tuple[Word, ...]]) -> Undone | None:
    """What WAITALL tells to be undone, of these commands."""
    if isinstance(told, Refused) and str(told).startswith("UNDONE "):
        return Undone({int(number): sent[int(number) - 1] for number in str(told).split()[1:]})
    return None


def raised(answer: Any) -> Any:
    """An answer; an error is raised."""
    if isinstance(answer, Refused):
        raise answer
    return answer


def simple(line: bytes) -> tuple[Any, int | None]:
    """What a line of a reply says, and how many bytes or parts follow where it has some; a fault of the reply is `ConnectionError`."""
    if not line.endswith(b"\r\n"):
        raise ConnectionError(LOST)
    kind, rest = line[:1], line[1:-2]
    if kind == b"+":
        return rest.decode(), None
    if kind == b"-":
        return Refused(rest.decode()), None
    if kind == b":":
        return int(rest), None
    if kind in (b"$", b"*"):
        return None, int(rest) if int(rest) >= 0 else None
    raise ConnectionError(f"no reply begins with {line[:20]!r}")


class Client:
    """A connection whose commands are answered ahead. `with` closes it, and waits for nothing."""

    def __init__(self, host: str = "127.0.0.1", port: int = 7379, password: str | None = None, timeout: float | None = None) -> None:
        self._socket = socket.create_connection((host, port), timeout=timeout)
        self._socket.setsockopt(socket.IPPROTO_TCP, socket.TCP_NODELAY, 1)
        self._file = self._socket.makefile("rb")
        self._sent: list[tuple[Word, ...]] = []
        self._answered = 0
        if password is not None:
            raised(self._exchange(("AUTH", password)))
        raised(self._exchange(("SPEC",)))

    def __enter__(self) -> Client:
        return self

    def __exit__(self, *_: object) -> None:
        self.close()

    def ask(self, *words: Word) -> Answer:
        """A command and its answer, which may still be undone. Raises `Refused` for an error of the store."""
        self.send(*words)
        while self._answered < len(self._sent) - 1:
            raised(self._next())
        return raised(self._next())

    def send(self, *words: Word) -> None:
        """A command whose answer is asked for later, by `answer`, in order. Raises `TypeError` and `ValueError` for what can't be sent."""
        self._socket.sendall(carried(words))
        self._sent.append(words)

    def answer(self) -> Answer:
        """The answer of the next command that was sent. Raises `LookupError` where all were answered."""
        if self._answered == len(self._sent):
            raise LookupError("each command that was sent is answered")
        return raised(self._next())

    def wait_all(self) -> None:
        """Waits until all that was answered is on the disk. Raises `Undone` where something was undone."""
        while self._answered < len(self._sent):
            self._next()
        told, sent = self._exchange(("WAITALL",)), self._sent
        self._sent, self._answered = [], 0
        fault = undone(told, sent)
        if fault:
            raise fault
        raised(told)

    def close(self) -> None:
        """Ends the connection. What was answered since the last `wait_all` may still be undone, and nobody will say so."""
        self._file.close()
        self._socket.close()

    def _exchange(self, words: tuple[Word, ...]) -> Any:
        self._socket.sendall(request(words))
        return self._read()

    def _next(self) -> Any:
        told = self._read()
        self._answered += 1
        if not isinstance(told, list) or len(told) != 2 or told[0] != self._answered:
            raise ConnectionError(f"the answer of command {self._answered} was to come, and not {told!r}")
        return told[1]

    def _read(self) -> Any:
        line = self._file.readline()
        said, count = simple(line)
        if count is None:
            return said
        if line[:1] == b"*":
            return [self._read() for _ in range(count)]
        text = self._file.read(count + 2)
        if len(text) < count + 2:
            raise ConnectionError(LOST)
        return text[:-2]
