#!/usr/bin/env python3
"""`evm gen` writes the summary that counting cells gives: a generator of scripts and a model of their replies, both written apart from the program."""
import pathlib
import subprocess
import sys

import cells
from tally import Tally

TOP = pathlib.Path(__file__).resolve().parent.parent
FIRST = ["input a 3", "input b 3", "input c 3", "def u or a b", "def v sub u c", "def p proj v 3", "def s shift v 1 2 3", "def w xor u s"]
LAST = [f"{question} {name}" for name in "upw" for question in ("content", "boundary")]
RUNS = [(0, 1), (1, 40), (18446744073709551615, 25)]


class Numbers:
    """The generator's numbers, each drawn below a bound."""

    def __init__(self, seed: int):
        self.state = 1 + seed % 2147483646

    def draw(self, below: int) -> int:
        self.state = 16807 * self.state % 2147483647
        return self.state % below


def script(seed: int, edits: int) -> list[str]:
    numbers, lines = Numbers(seed), list(FIRST)
    for _ in range(edits):
        name, command, low, high = "abc"[numbers.draw(3)], ("toggle", "add", "cut")[numbers.draw(3)], [], []
        for _ in range(3):
            low.append(numbers.draw(60))
            high.append(low[-1] + 1 + numbers.draw(4))
        lines.append(" ".join([command, name, *map(str, low + high)]))
    return lines + LAST


def summary(lines: list[str]) -> str:
    session = cells.Session()
    replies = [session.answer(line) for line in lines]
    refused = sum(reply[0].startswith("no") for reply in replies)
    said = [f"lines {len(lines)}", f"ok {len(lines) - refused}", f"no {refused}", *(line for reply in replies[-6:] for line in reply)]
    return "\n".join(said) + "\n"


def main() -> int:
    tally = Tally("generated")
    for seed, edits in RUNS:
        done = subprocess.run([str(TOP / "evm"), "gen", "--seed", str(seed), f"--edits={edits}"], capture_output=True, text=True)
        tally.compare(f"seed {seed}, {edits} edits", done.stdout, summary(script(seed, edits)))
    return tally.status()


if __name__ == "__main__":
    sys.exit(main())
