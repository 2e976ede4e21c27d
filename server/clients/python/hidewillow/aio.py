"""The client that goes on before the disk has what it was told, for asyncio. Its one rule is told in `hidewillow.client`.

    async with Client() as store:
        number = await store.ask("INCR", "tickets")
        await store.wait_all()
        print("sold", number)

One task uses a connection at a time.
"""
from __future__ import annotations

import asyncio
from typing import Any

from .client import LOST, Answer, Word, carried, raised, request, simple, undone


class Client:
    """A connection whose commands are answered ahead. `async with` opens and closes it, as `connect` and `close` do."""

    def __init__(self, host: str = "127.0.0.1", port: int = 7379, password: str | None = None) -> None:
        self._at, self._password = (host, port), password
        self._streams: tuple[asyncio.StreamReader, asyncio.StreamWriter] | None = None
        self._sent: list[tuple[Word, ...]] = []
        self._answered = 0

    @classmethod
    async def connect(cls, host: str = "127.0.0.1", port: int = 7379, password: str | None = None) -> Client:
        """A connection to a server, which has said the password where there is one."""
        return await cls(host, port, password).__aenter__()

    async def __aenter__(self) -> Client:
        if self._streams is None:
            self._streams = await asyncio.open_connection(*self._at, limit=1 << 20)
            if self._password is not None:
                raised(await self._exchange(("AUTH", self._password)))
            raised(await self._exchange(("SPEC",)))
        return self

    @property
    def _reader(self) -> asyncio.StreamReader:
        return self._opened()[0]

    @property
    def _writer(self) -> asyncio.StreamWriter:
        return self._opened()[1]

    def _opened(self) -> tuple[asyncio.StreamReader, asyncio.StreamWriter]:
        if self._streams is None:
            raise ConnectionError("it is not connected: `async with` does that, or `await Client.connect()`")
        return self._streams

    async def __aexit__(self, *_: object) -> None:
        await self.close()

    async def ask(self, *words: Word) -> Answer:
        """A command and its answer, which may still be undone. Raises `Refused` for an error of the store."""
        self.send(*words)
        while self._answered < len(self._sent) - 1:
            raised(await self._next())
        return raised(await self._next())

    def send(self, *words: Word) -> None:
        """A command whose answer is asked for later, by `answer`, in order."""
        self._writer.write(carried(words))
        self._sent.append(words)

    async def answer(self) -> Answer:
        """The answer of the next command that was sent. Raises `LookupError` where all were answered."""
        if self._answered == len(self._sent):
            raise LookupError("each command that was sent is answered")
        return raised(await self._next())

    async def wait_all(self) -> None:
        """Waits until all that was answered is on the disk. Raises `Undone` where something was undone."""
        while self._answered < len(self._sent):
            await self._next()
        told, sent = await self._exchange(("WAITALL",)), self._sent
        self._sent, self._answered = [], 0
        fault = undone(told, sent)
        if fault:
            raise fault
        raised(told)

    async def close(self) -> None:
        """Ends the connection. What was answered since the last `wait_all` may still be undone, and nobody will say so."""
        self._writer.close()
        await self._writer.wait_closed()

    async def _exchange(self, words: tuple[Word, ...]) -> Any:
        self._writer.write(request(words))
        return await self._read()

    async def _next(self) -> Any:
        await self._writer.drain()
        told = await self._read()
        self._answered += 1
        if not isinstance(told, list) or len(told) != 2 or told[0] != self._answered:
            raise ConnectionError(f"the answer of command {self._answered} was to come, and not {told!r}")
        return told[1]

    async def _read(self) -> Any:
        line = await self._reader.readline()
        said, count = simple(line)
        if count is None:
            return said
        if line[:1] == b"*":
            return [await self._read() for _ in range(count)]
        try:
            return (await self._reader.readexactly(count + 2))[:-2]
        except asyncio.IncompleteReadError as fault:
            raise ConnectionError(LOST) from fault
