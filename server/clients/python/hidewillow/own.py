"""A speculative kernel over your own keys and values, which are bytes; texts are taken as UTF-8.

What a step gets, puts and says depends on the guesses that are undecided in what it got and put. A guess that fails takes back just what
depends on it; output waits until what it depends on is decided.

    shop = Speculator(guesses=64)
    with shop.guess() as price:             # a step that goes on as if a price were right
        price.put("apple", "12")
    with shop.step() as s:
        s.put("bill", s.get("apple"))       # depends on the guess, since it gets what that wrote
        s.say(1, "a bill is out")           # held
    shop.fail(price.guess)                  # the bill is gone, and nothing was said

It stands on the library for C as a shared library: what HIDEWILLOW_SO names, or `libhidewillow.so` of the repository's build/, or one
that is installed where libraries are found. One thread uses a kernel at a time.
"""
from __future__ import annotations

import ctypes
import os
import pathlib
from contextlib import contextmanager
from collections import deque
from dataclasses import dataclass, field
from typing import Iterator, Union

Data = Union[bytes, str]


class _Told(ctypes.Structure):
    _fields_ = [("answer", ctypes.c_uint32), ("number", ctypes.c_uint64), ("bytes", ctypes.c_size_t)]


class _Own(ctypes.Structure):
    _fields_ = [("at", ctypes.c_void_p)]


STEPPED, GUESSED, DONE, REFUSED, MEMORY, OPENED, SHOWN, WRITTEN = 0, 1, 2, 5, 7, 9, 10, 26
_OWN, _BYTES, _SIZE, _U16, _U64 = ctypes.POINTER(_Own), ctypes.c_char_p, ctypes.c_size_t, ctypes.c_uint16, ctypes.c_uint64
_CALLS = {
    "open": (_U64, _U16, _U64), "clear": (), "look": (_BYTES, _SIZE), "put": (_BYTES, _SIZE, _BYTES, _SIZE), "remove": (_BYTES, _SIZE),
    "say": (_U16, _BYTES, _SIZE), "take": (), "guess": (), "commit": (_U64,), "fail": (_U64,), "undone": (_SIZE, _BYTES, _SIZE),
    "value": (_BYTES, _SIZE, _BYTES, _SIZE), "tag": (_BYTES, _SIZE, _SIZE), "released": (_U16, _BYTES, _SIZE), "places": (),
    "key": (_SIZE, _BYTES, _SIZE), "dependent": (_U64, _SIZE, _BYTES, _SIZE), "status": (_U64,), "waiting": (_U16,), "channel": (),
}
_REFUSED = {1: "a key is longer than 65,536 bytes", 2: "a value is longer than 16,777,216 bytes",
            3: "as many guesses are undecided as may be", 4: "the last number of a guess is drawn", 5: "no guess may ever be undecided"}


class Refusal(Exception):
    """Why a step was not taken. Nothing has changed."""


def _library() -> ctypes.CDLL:
    named = os.environ.get("HIDEWILLOW_SO")
    beside = [it / "build/libhidewillow.so" for it in pathlib.Path(__file__).resolve().parents]
    found = [named] if named else [str(it) for it in beside if it.exists()] + ["libhidewillow.so"]
    try:
        library = ctypes.CDLL(found[0])
    except OSError as fault:
        ways = "run `tools/build.py library` at the top of the repository, install it where libraries are found, or set HIDEWILLOW_SO"
        raise ImportError(f"{fault}: {ways}") from fault
    for name, types in _CALLS.items():
        call = getattr(library, f"hidewillow_own_{name}")
        call.argtypes, call.restype = (_OWN, *types), _Told
    library.hidewillow_own_close.argtypes, library.hidewillow_own_close.restype = (_OWN,), None
    return library


def _bytes(data: Data) -> bytes:
    if isinstance(data, str):
        return data.encode()
    if not isinstance(data, bytes):
        raise TypeError(f"a key, a value or an output is bytes or a text, and not {data!r}")
    return data


@dataclass(frozen=True)
class Guess:
    """A guess of a kernel, by its number."""

    number: int


@dataclass(frozen=True)
class Decided:
    """What a decision came to: 'committed', and `firm` where it stands for good, else the failure of another guess may take it back;
    'failed' with the keys that have what they had before, how many guesses went with it, and of channels with outputs that will never be
    said how many these are; or 'gone' where another guess's failure had taken it back."""

    what: str
    keys: tuple[bytes, ...] = ()
    struck: int = 0
    firm: bool = False
    dropped: dict[int, int] = field(default_factory=dict)


class Step:
    """A step that is being taken. It reads its own writes. `guess` is its guess, once it was taken as one."""

    def __init__(self, kernel: Speculator) -> None:
        self._kernel = kernel
        self._looked: list[bytes] = []
        self._written: list[tuple[bytes, bytes | None]] = []
        self._said: tuple[int, bytes] | None = None
        self.guess: Guess | None = None

    def get(self, key: Data) -> bytes | None:
        """What a key has, on which the step depends from now on; None where it is absent."""
        key = _bytes(key)
        for other, value in reversed(self._written):
            if other == key:
                return value
        self._looked.append(key)
        return self._kernel.value(key)

    def put(self, key: Data, value: Data) -> None:
        """Sets what a key has."""
        self._written.append((_bytes(key), _bytes(value)))

    def remove(self, key: Data) -> None:
        """Makes a key absent."""
        self._written.append((_bytes(key), None))

    def say(self, channel: int, output: Data) -> None:
        """Says this to a channel, from 0 to 65,535. Raises `Refusal` for a second output of a step."""
        if self._said is not None:
            raise Refusal("a step says one output")
        if not 0 <= channel < 1 << 16:
            raise ValueError(f"a channel is a number from 0 to 65,535, and not {channel}")
        self._said = (channel, _bytes(output))

    def _hand_over(self) -> None:
        call = self._kernel._call
        call("clear", WRITTEN)
        for key in self._looked:
            call("look", WRITTEN, key, len(key))
        for key, value in self._written:
            if value is None:
                call("remove", WRITTEN, key, len(key))
            else:
                call("put", WRITTEN, key, len(key), value, len(value))
        if self._said:
            channel, output = self._said
            call("say", WRITTEN, channel, output, len(output))


class Speculator:
    """A kernel in which no key is there, of whose guesses so many may be undecided at once. Who doesn't know the seed can't choose keys
    that are found slowly. `close` fails the guesses that are undecided, and so does letting it go."""

    def __init__(self, guesses: int = 64, seed: int | None = None) -> None:
        if not 0 <= guesses < 1 << 16:
            raise ValueError(f"as many guesses may be undecided as 1 to 65,535, and not {guesses}")
        self._library = _library()
        self._own = _Own()
        # Channels of which outputs may wait, and outputs that may go out and were taken from the kernel when a guess failed.
        self._said: set[int] = set()
        self._ready: dict[int, deque[bytes]] = {}
        drawn = int.from_bytes(os.urandom(8), "little") if seed is None else seed
        self._call("open", OPENED, 1, guesses, drawn)

    def __del__(self) -> None:
        if hasattr(self, "_own"):
            self.close()

    def __enter__(self) -> Speculator:
        return self

    def __exit__(self, *_: object) -> None:
        self.close()

    def close(self) -> None:
        """Lets go of all that it has."""
        self._library.hidewillow_own_close(ctypes.byref(self._own))

    @contextmanager
    def step(self) -> Iterator[Step]:
        """A step: what the block gets, puts and says. Where the block raises, nothing has changed."""
        step = Step(self)
        yield step
        step._hand_over()
        self._call("take", STEPPED)
        self._has_said(step)

    @contextmanager
    def guess(self) -> Iterator[Step]:
        """The same under a guess of its own: `guess` of the step, behind the block."""
        step = Step(self)
        yield step
        step._hand_over()
        step.guess = Guess(self._call("guess", GUESSED).number)
        self._has_said(step)

    def _has_said(self, step: Step) -> None:
        if step._said:
            self._said.add(step._said[0])

    def commit(self, guess: Guess) -> Decided:
        """Commits a guess. Raises `LookupError` where it is decided, or was never drawn here."""
        firm = self._told("status", guess.number).bytes == 1
        told = self._decide("commit", guess)
        return Decided("committed", firm=firm) if told.answer == DONE else Decided("gone")

    def fail(self, guess: Guess) -> Decided:
        """Fails a guess: what depends on it is taken back. Raises `LookupError` where it is decided, or was never drawn here."""
        waited = {channel: self._held(channel)[1] for channel in self._said}
        told = self._decide("fail", guess)
        if told.answer != DONE:
            return Decided("gone")
        keys = tuple(self._shown("undone", place) or b"" for place in range(told.number))
        left = {channel: sum(self._held(channel)) for channel in waited}
        dropped = {channel: count - left[channel] for channel, count in sorted(waited.items()) if count > left[channel]}
        self._said = {channel for channel in self._said if self.waiting(channel)}
        return Decided("failed", keys, told.bytes, dropped=dropped)

    def _held(self, channel: int) -> tuple[int, int]:
        """Takes what may go out on a channel: how many that were, and how many wait."""
        ready = [*iter(lambda: self._shown("released", channel), None)]
        self._ready.setdefault(channel, deque()).extend(ready)
        return len(ready), self.waiting(channel)

    def value(self, key: Data) -> bytes | None:
        """What a key has; None where it is absent. A step that is to depend on it gets it itself."""
        key = _bytes(key)
        return self._shown("value", key, len(key))

    def tags(self, key: Data) -> list[int]:
        """The numbers of the undecided guesses that a key depends on, rising."""
        key, tags = _bytes(key), []
        while True:
            told = self._told("tag", key, len(key), len(tags))
            if told.answer != SHOWN:
                return tags
            tags.append(told.number)

    def items(self) -> Iterator[tuple[bytes, bytes]]:
        """The keys that are there, with what they have, each once, in no order of their own."""
        for place in range(self._told("places").number):
            key = self._shown("key", place)
            value = None if key is None else self.value(key)
            if key is not None and value is not None:
                yield key, value

    def __iter__(self) -> Iterator[bytes]:
        """The keys that are there, each once, in no order of their own."""
        return (key for key, _ in self.items())

    def dependents(self, guess: Guess) -> list[bytes]:
        """The keys that depend on a guess, each once: its failure would take just these back."""
        keys: list[bytes] = []
        while (key := self._shown("dependent", guess.number, len(keys))) is not None:
            keys.append(key)
        return keys

    def status(self, guess: Guess) -> str | None:
        """'undecided', or 'struck' where another guess's failure took its step away; None where it is decided."""
        told = self._told("status", guess.number)
        return {1: "undecided", 2: "struck"}.get(told.number) if told.answer == SHOWN else None

    def waiting(self, channel: int) -> int:
        """How many outputs of a channel wait: the first that depends on a guess, and all behind it."""
        return self._told("waiting", channel).number

    def outputs(self) -> Iterator[tuple[int, bytes]]:
        """All outputs that may go out now, with their channels, in order for each; each is gone from the kernel as it is handed out."""
        for channel in sorted(self._ready):
            for output in self.released(channel):
                yield channel, output
        while (told := self._told("channel")).answer == SHOWN:
            for output in self.released(told.number):
                yield told.number, output

    def released(self, channel: int) -> Iterator[bytes]:
        """The outputs of a channel that may go out now, one after another; each is gone from the kernel as it is handed out."""
        ready = self._ready.get(channel, ())
        while ready:
            yield ready.popleft()
        self._ready.pop(channel, None)
        while (output := self._shown("released", channel)) is not None:
            yield output

    def _told(self, name: str, *words: object) -> _Told:
        return getattr(self._library, f"hidewillow_own_{name}")(ctypes.byref(self._own), *words)

    def _call(self, name: str, wanted: int, *words: object) -> _Told:
        told = self._told(name, *words)
        if told.answer == REFUSED:
            raise Refusal(_REFUSED.get(told.number, f"refused by number {told.number}"))
        if told.answer != wanted:
            raise MemoryError if told.answer == MEMORY else ValueError("the kernel is closed")
        return told

    def _decide(self, name: str, guess: Guess) -> _Told:
        told = self._told(name, guess.number)
        if told.answer not in (DONE, 3):
            raise LookupError(f"guess {guess.number} is decided, or none of this kernel")
        return told

    def _shown(self, name: str, *words: object) -> bytes | None:
        count = 256
        while True:
            room = ctypes.create_string_buffer(count)
            told = self._told(name, *words, room, count)
            if told.answer == MEMORY:
                raise MemoryError
            if told.answer != SHOWN:
                return None
            if told.bytes <= count:
                return room.raw[:told.bytes]
            count = told.bytes
