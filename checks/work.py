#!/usr/bin/env python3
"""The work of worked edits, which bounds their steps, computed from its definition by counting unit cells: figures worked out by hand.

Heights are those of the first axis, and a cut is one at which the section of a solid changes (docs/DEFINITIONS.md, `Work`)."""
import collections
import sys

import cells
from tally import Tally

SQUARES = ["input a 2", "add a 0 0 2 2", "input b 2", "add b 1 1 3 3", "def c and a b"]
ROW = ["input a 2", *(f"add a {10 * k} 0 {10 * k + 1} 1" for k in range(1000)), "input b 2", "def c or a b"]
# Lines, an edit after them, and its work.
EDITS = [
    # Both names that it reaches have two cuts in the range of their change, and look at two heights each.
    (SQUARES, "cut b 1 1 2 2", 80),
    # The two thousand cuts of the first operand are not looked at.
    (ROW, "toggle a 5 0 6 1", 80),
    # Only the ends of the box are looked at where nothing changes.
    (SQUARES, "cut b 8 8 9 9", 24),
    # A projection along the first axis looks at all four cuts of its operand, and does not change.
    (["input a 3", "add a 0 0 0 3 2 2", "def p proj a 1"], "cut a 1 0 0 2 2 2", 40 + 40),
    # A new name: the cuts of its operands and its own.
    (SQUARES, "def d or a b", 8 * (1 + 4 + 4)),
    # A formula without a changed operand is not reached, and an edit that makes or takes out a name, or is refused, has none.
    ([*SQUARES, "input e 2", "def f or e a"], "cut b 1 1 2 2", 80),
    (SQUARES, "input d 2", 0),
    (SQUARES, "drop c", 0),
    (SQUARES, "cut b 1 1 1 2", 0),
]


def cuts(solid: set) -> set:
    """The heights at which the section of a solid changes."""
    sections = collections.defaultdict(set)
    for cell in solid:
        sections[cell[0]].add(cell[1:])
    return {height for low in list(sections) for height in (low, low + 1) if sections.get(height - 1, set()) != sections.get(height, set())}


def within(heights: set, changes: list) -> set:
    """Those of the heights that stand in the least range with the cuts of all changes."""
    ends = [height for change in changes for height in cuts(change)]
    return {height for height in heights if ends and min(ends) <= height <= max(ends)}


class Edit:
    """An edit that was made, with the cells of each name before and after it."""

    def __init__(self, session: cells.Session, line: str):
        self.words, self.old = line.split(), dict(session.cells)
        self.refused = session.answer(line)[0].startswith("no")
        self.session, self.new = session, dict(session.cells)

    def before_and_after(self, names) -> set:
        return set().union(*(cuts(each.get(name, set())) for name in names for each in (self.old, self.new)))

    def change(self, name: str) -> set:
        return self.old.get(name, set()) ^ self.new[name]

    def heights(self, name: str) -> set:
        """The heights that are looked at for a name."""
        operands = self.session.operands(name)
        if name != self.words[1]:
            joined = self.session.formula[name][0] == "proj" and self.session.formula[name][2] == "1"
            every = self.before_and_after(operands)
            return every if joined else within(every, [self.change(each) for each in operands])
        if self.words[0] == "def":
            return self.before_and_after([name, *operands])
        low, high = int(self.words[2]), int(self.words[2 + self.session.dim[name]])
        return {low, high} | {height for height in self.before_and_after([name]) if low <= height <= high}

    def work(self) -> int:
        if self.refused or self.words[0] in ("input", "drop"):
            return 0
        reached = [name for name in self.session.dim if name == self.words[1] or any(self.change(each) for each in self.session.operands(name))]
        return sum(8 * (1 + len(self.heights(name)) + len(within(self.before_and_after([name]), [self.change(name)]))) for name in reached)


def main() -> int:
    tally = Tally("work")
    for lines, line, wanted in EDITS:
        session = cells.Session()
        for each in lines:
            session.answer(each)
        got = Edit(session, line).work()
        tally.count(got == wanted, f"{line}: its work is {got} and not {wanted}")
    return tally.status()


if __name__ == "__main__":
    sys.exit(main())
