"""Programs that don't wait: they go on from a guess, and what depended on a wrong guess is taken back.

- `Client`: a connection to a hidewillow-server whose commands are answered before the disk has them; `aio.Client` is the same for asyncio.
- `Speculator`: a kernel over your own keys and values, by the library for C.
"""
from .client import Answer, Client, Refused, Undone, Word
from .own import Decided, Guess, Refusal, Speculator, Step

__all__ = ["Answer", "Client", "Decided", "Guess", "Refusal", "Refused", "Speculator", "Step", "Undone", "Word"]
