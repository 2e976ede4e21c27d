"""Tests of the package, by unittest: `python3 -m unittest discover server/clients/python/tests`. Those of the client want a server at
HIDEWILLOW_AT, as 127.0.0.1:7379; those of the kernel want libhidewillow.so. What is not there is skipped, and said so.
"""
import asyncio
import collections
import contextlib
import dataclasses
import inspect
import io
import os
import pathlib
import random
import re
import sys
import textwrap
import unittest

sys.path.insert(0, str(pathlib.Path(__file__).resolve().parent.parent))
import hidewillow  # noqa: E402
from hidewillow import Client, Refusal, Refused, Speculator, Undone, aio  # noqa: E402
from hidewillow.client import carried, undone  # noqa: E402

AT = os.environ.get("HIDEWILLOW_AT")


class Plain:
    """The steps that stand, each with what it wrote, said and depends on."""

    def __init__(self):
        self.steps = []

    def last(self, key):
        return next((it for it in reversed(self.steps) if key in it["written"]), None)

    def value(self, key):
        step = self.last(key)
        return step["written"][key] if step else None

    def rests(self, key):
        step = self.last(key)
        return set(step["rests"]) if step else set()

    def take(self, looked, written, own, said):
        rests = set().union(*(self.rests(key) for key in [*looked, *written])) | ({own} if own else set())
        self.steps.append({"written": written, "rests": rests, "own": own, "said": said})

    def commit(self, guess):
        """Whether its own step depends on nothing more."""
        for step in self.steps:
            step["rests"].discard(guess)
        return not any(step["own"] == guess and step["rests"] for step in self.steps)

    def released(self):
        """The outputs that may go out, which are out then."""
        out, held = [], set()
        for step in self.steps:
            if step["said"] and step["said"][0] not in held:
                if step["rests"]:
                    held.add(step["said"][0])
                else:
                    out.append(step["said"])
                    step["said"] = None
        return out

    def fail(self, guess):
        gone = [it for it in self.steps if guess in it["rests"]]
        self.steps = [it for it in self.steps if guess not in it["rests"]]
        struck = {it["own"] for it in gone if it["own"] in it["rests"]} - {guess}
        dropped = collections.Counter(it["said"][0] for it in gone if it["said"])
        return {key for it in gone for key in it["written"]}, struck, dict(dropped)


@unittest.skipUnless("HIDEWILLOW_SO" in os.environ or any(
    (it / "build/libhidewillow.so").exists() for it in pathlib.Path(__file__).resolve().parents), "no libhidewillow.so is there")
class OwnState(unittest.TestCase):
    def test_runs_stand_as_the_plain_list_does(self):
        for seed in range(60):
            self.run_of(random.Random(seed))

    def run_of(self, dice):
        kernel, plain, open_guesses, struck = Speculator(guesses=5, seed=1), Plain(), [], set()
        keys = [b"", b"a", b"b", b"c" * 300]
        for _ in range(60):
            if dice.random() < 0.7:
                self.step_of(dice, kernel, plain, open_guesses, struck, keys)
            elif open_guesses:
                self.decision_of(dice, kernel, plain, open_guesses, struck)
            if dice.random() < 0.4:
                self.assertEqual(sorted(kernel.outputs()), sorted(plain.released()))
            for key in keys:
                self.assertEqual(kernel.value(key), plain.value(key))
                self.assertEqual(set(kernel.tags(key)), plain.rests(key))
            there = sorted((key, plain.value(key)) for key in keys if plain.value(key) is not None)
            self.assertEqual((sorted(kernel.items()), sorted(kernel)), (there, [key for key, _ in there]))
            for guess in open_guesses:
                is_struck = guess.number in struck
                self.assertEqual(kernel.status(guess), "struck" if is_struck else "undecided")
                self.assertEqual(sorted(kernel.dependents(guess)), sorted(key for key in keys if guess.number in plain.rests(key)))

    def step_of(self, dice, kernel, plain, open_guesses, struck, keys):
        looked, written = [], {}
        is_guess = dice.random() < 0.5
        try:
            with (kernel.guess() if is_guess else kernel.step()) as step:
                for key in dice.sample(keys, dice.randrange(3)):
                    self.assertEqual(step.get(key), plain.value(key))
                    looked.append(key)
                for key in dice.sample(keys, dice.randrange(3)):
                    value = dice.choice([None, bytes([dice.randrange(256)]) * dice.choice([0, 1, 257, 5000])])
                    step.remove(key) if value is None else step.put(key, value)
                    written[key] = value
                    self.assertEqual(step.get(key), value)
                said = dice.choice([None, (dice.randrange(2), b"%d" % len(plain.steps))])
                if said:
                    step.say(*said)
        except Refusal:
            self.assertTrue(is_guess and len([it for it in open_guesses if it.number not in struck]) == 5)
            return
        plain.take(looked, written, step.guess.number if is_guess else None, said)
        if is_guess:
            open_guesses.append(step.guess)

    def decision_of(self, dice, kernel, plain, open_guesses, struck):
        guess = open_guesses.pop(dice.randrange(len(open_guesses)))
        commits = dice.random() < 0.5
        decided = kernel.commit(guess) if commits else kernel.fail(guess)
        if guess.number in struck:
            self.assertEqual(decided.what, "gone")
        elif commits:
            self.assertEqual((decided.what, decided.firm), ("committed", plain.commit(guess.number)))
        else:
            keys, others, dropped = plain.fail(guess.number)
            self.assertEqual((decided.what, set(decided.keys), len(decided.keys), decided.struck), ("failed", keys, len(keys), len(others)))
            self.assertEqual(decided.dropped, dropped)
            struck |= others
        with self.assertRaises(LookupError):
            kernel.commit(guess)

    def test_output_waits(self):
        with Speculator() as kernel:
            with kernel.guess() as price:
                price.say(3, "held")
                with self.assertRaises(Refusal):
                    price.say(3, "again")
            with kernel.step() as step:
                step.say(5, "not held")
            self.assertEqual((list(kernel.released(3)), kernel.waiting(3), kernel.waiting(5)), ([], 1, 0))
            self.assertEqual(list(kernel.outputs()), [(5, b"not held")])
            kernel.commit(price.guess)
            self.assertIsNone(kernel.status(price.guess))
            self.assertEqual(list(kernel.outputs()), [(3, b"held")])

    def test_the_page_runs_as_it_stands(self):
        page = pathlib.Path(__file__).resolve().parents[4] / "docs/FOREIGN.md"
        if not page.exists():
            self.skipTest("the page is not beside it")
        part = page.read_text().split("## Python")[1].split("\n## ")[0]
        blocks = re.findall(r"(?:^    .*\n|^\n(?=    ))+", part, re.M)
        program, printed = (textwrap.dedent(it).strip("\n") for it in blocks[1:3])
        said = io.StringIO()
        with contextlib.redirect_stdout(said):
            exec(program, {})  # noqa: S102
        self.assertEqual(said.getvalue().strip(), printed)

    def test_a_block_that_raises_leaves_nothing(self):
        with Speculator() as kernel:
            with self.assertRaises(ZeroDivisionError), kernel.step() as step:
                step.put("a", "1")
                step.put("b", str(1 // 0))
            self.assertIsNone(kernel.value("a"))
            with self.assertRaises(Refusal), kernel.step() as step:
                step.put("k" * 65537, "")
            with self.assertRaises(TypeError), kernel.step() as step:
                step.put("a", 7)


class Pages(unittest.TestCase):
    """What `help(hidewillow)` shows is whole: each public name has its words, and each parameter and result its type."""

    def test_each_name_has_its_words_and_types(self):
        for module in (hidewillow, hidewillow.aio, hidewillow.client, hidewillow.own):
            self.assertTrue(module.__doc__)
            for name, it in vars(module).items():
                if inspect.isclass(it) and not name.startswith("_") and it.__module__.startswith("hidewillow"):
                    self.assertTrue(it.__doc__, name)
                    for method, does in inspect.getmembers(it, inspect.isfunction):
                        if dataclasses.is_dataclass(it):
                            continue
                        self.is_told(f"{name}.{method}", does, own=not method.startswith("_"))
                elif inspect.isfunction(it) and it.__module__.startswith("hidewillow"):
                    self.is_told(name, it, own=not name.startswith("_"))

    def is_told(self, name, does, own):
        if does.__module__.startswith("hidewillow"):
            self.assertTrue(does.__doc__ or not own, name)
            sign = inspect.signature(does)
            self.assertIsNot(sign.return_annotation, inspect.Signature.empty, name)
            for parameter in list(sign.parameters.values()):
                self.assertTrue(parameter.name == "self" or parameter.annotation is not inspect.Parameter.empty, f"{name} {parameter.name}")


class Words(unittest.TestCase):
    def test_what_can_be_sent(self):
        self.assertEqual(carried(("SET", b"k", 1)), b"*3\r\n$3\r\nSET\r\n$1\r\nk\r\n$1\r\n1\r\n")
        for words in [("SET", "k", None), ("SET", "k", True), ("SET", "k", ["a"])]:
            self.assertRaises(TypeError, carried, words)
        for words in [("spec",), ("WAITALL",), ("QUIT",), ()]:
            self.assertRaises(ValueError, carried, words)

    def test_what_was_undone(self):
        self.assertIsNone(undone("OK", []))
        fault = undone(Refused("UNDONE 1 3"), [("A",), ("B",), ("C",)])
        self.assertEqual((fault.first, fault.commands), (1, {1: ("A",), 3: ("C",)}))


@unittest.skipUnless(AT, "no server is named by HIDEWILLOW_AT")
class Store(unittest.TestCase):
    def setUp(self):
        self.host, port = AT.rsplit(":", 1)
        self.port = int(port)

    def test_ahead_and_waited_for(self):
        with Client(self.host, self.port) as store:
            first = store.ask("INCRBY", "python", 5)
            self.assertEqual(store.ask("GET", "python"), str(first).encode())
            store.send("PING")
            store.wait_all()
            with self.assertRaises(LookupError):
                store.answer()
            with self.assertRaises(Refused):
                store.ask("NO SUCH COMMAND")
            store.wait_all()

    def test_asyncio(self):
        async def job():
            with self.assertRaisesRegex(ConnectionError, "not connected"):
                await aio.Client(self.host, self.port).ask("GET", "aio")
            async with await aio.Client.connect(self.host, self.port) as store:
                self.assertIsNone(await store.ask("GET", "absent"))
            async with aio.Client(self.host, self.port) as store:
                await store.ask("SET", "aio", "x" * 100_000)
                self.assertEqual(await store.ask("GET", "aio"), b"x" * 100_000)
                await store.wait_all()

        asyncio.run(job())


if __name__ == "__main__":
    unittest.main()
