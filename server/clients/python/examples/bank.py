"""Accounts in a kernel over your own state: transfers under guesses, a failure, and what is shown.

    python3 server/clients/python/examples/bank.py
"""
import pathlib
import sys

sys.path.insert(0, str(pathlib.Path(__file__).resolve().parent.parent))
from hidewillow import Speculator, Step  # noqa: E402

CHANNEL = 1


class TooLittle(Exception):
    pass


def has(value):
    return int(value or 0)


def transfer(step: Step, sender: str, receiver: str, amount: int) -> None:
    """One transfer, as a step."""
    left = has(step.get(sender)) - amount
    if left < 0:
        raise TooLittle(f"there is only {left + amount}")
    more = has(step.get(receiver)) + amount
    step.put(sender, str(left))
    step.put(receiver, str(more))
    step.say(CHANNEL, f"{sender} pays {receiver} {amount}")


def show(bank: Speculator, when: str) -> None:
    def told(name):
        tags = ",".join(map(str, bank.tags(name)))
        return f"{name} {has(bank.value(name))}" + (f" if {tags}" if tags else "")

    print(f"{when}: {', '.join(map(told, ('ann', 'bob', 'cy')))}")
    for line in bank.released(CHANNEL):
        print(f"  out: {line.decode()}")


def main() -> None:
    with Speculator(guesses=64) as bank:
        with bank.step() as step:
            step.put("ann", "100")
            step.put("cy", "10")
        show(bank, "paid in")
        with bank.guess() as wages:
            transfer(wages, "ann", "bob", 30)
        with bank.guess() as rent:
            transfer(rent, "bob", "cy", 5)
        show(bank, "two guesses")
        with bank.step() as step:
            transfer(step, "cy", "ann", 1)
        show(bank, "a step behind them")
        try:
            with bank.step() as step:
                transfer(step, "bob", "ann", 1000)
        except TooLittle as fault:
            print(f"bob can't pay 1000: {fault}")
        decided = bank.fail(wages.guess)
        names = b", ".join(sorted(decided.keys)).decode()
        print(f"the first fails: back to what they had are {names}; {decided.struck} guess struck")
        print(f"the other is {bank.commit(rent.guess).what}")
        show(bank, "after it")
        with bank.guess() as again:
            transfer(again, "ann", "bob", 20)
        print(bank.commit(again.guess).what)
        show(bank, "a guess that holds")


if __name__ == "__main__":
    main()
