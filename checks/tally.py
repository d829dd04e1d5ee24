"""Counts what passed and what failed, and tells it in one line."""


class Tally:
    def __init__(self, title: str):
        self.title, self.passed, self.failed = title, 0, 0

    def count(self, good: bool, fault: str):
        """One trial; the fault is printed where it failed."""
        self.passed, self.failed = self.passed + bool(good), self.failed + (not good)
        if not good:
            print(fault)

    def compare(self, name: str, got: str, wanted: str):
        self.count(got == wanted, f"{name}: wanted\n{wanted}but got\n{got}")

    def at_most(self, name: str, count: float, ceiling: float):
        """A number that may only fall: checks/ceilings.txt has what it may be."""
        self.count(count <= ceiling, f"{name}: {count:g}, where at most {ceiling:g} may be (checks/ceilings.txt)")
        if count < ceiling:
            print(f"{name}: {count:g}, so lower the ceiling of {ceiling:g} in checks/ceilings.txt")

    def status(self, rest: str = "", may_be_none: bool = False) -> int:
        """The exit status: 1 where a trial failed, or where there was none though there has to be one."""
        print(f"{self.title}: {self.passed} passed, {self.failed} failed{rest}")
        return 1 if self.failed or not (self.passed or may_be_none) else 0
