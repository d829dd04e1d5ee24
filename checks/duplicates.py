#!/usr/bin/env python3
"""Counts what stands twice: pairs of files that share a run of six telling lines, and files that state a limit of coordinates again.

How many there may be stands in checks/ceilings.txt, and only falls. A telling line has eight characters or more, and is neither a comment nor an
import. Files are those of Rattle (`.rt`, `.antt`) and Python. The limits of coordinates stand in one definition and one function; elsewhere a number
such as 524288, or twice that, is counted, but for tests.

    python3 checks/duplicates.py --list     prints the pairs, each with the first run that it shares, and the files
"""
import collections
import itertools
import re
import sys

from cells import LIMITS
from sources import ceilings, files
from tally import Tally

RUN, SHORTEST = 6, 8
HOMES = "crates/evm_cells/specs/Limits.antt", "crates/evm_rows/src/solid.rt"
FILE_MAX = 268435456    # also the most bytes of a file
SILENT = re.compile(r"//|--|#|(pub )?(ghost )?use |(pub )?mod |import |from .* import ")


def telling(lines: list[str]) -> list[tuple[int, str]]:
    """The telling lines, without the blanks round them, each with its number."""
    bare = ((number, line.strip()) for number, line in enumerate(lines, 1))
    return [(number, line) for number, line in bare if len(line) >= SHORTEST and not SILENT.match(line)]


def shared_runs() -> dict[tuple[str, str], list[tuple[int, int]]]:
    """For each pair of files that share runs: the lines in which each run begins in the one and in the other."""
    places = collections.defaultdict(dict)
    for path, lines in files(".rt", ".antt", ".py").items():
        told = telling(lines)
        for start in range(len(told) - RUN + 1):
            run = told[start:start + RUN]
            places[tuple(line for _, line in run)].setdefault(path, run[0][0])
    pairs = collections.defaultdict(list)
    for by_path in places.values():
        for one, other in itertools.combinations(sorted(by_path), 2):
            pairs[one, other].append((by_path[one], by_path[other]))
    return {pair: sorted(runs) for pair, runs in sorted(pairs.items())}


def files_with_limits() -> list[str]:
    """The files of crates that state a limit of coordinates, or twice one, outside its two homes."""
    numbers = {str(factor * limit) for limit in LIMITS.values() for factor in (1, 2)} - {str(FILE_MAX)}
    found = []
    for path, lines in files(".rt", ".antt").items():
        words = {word.replace("_", "") for line in lines for word in re.findall(r"[0-9][0-9_]*", line)}
        if path not in HOMES and "tests" not in path and words & numbers:
            found.append(path)
    return found


def main() -> int:
    pairs, limits = shared_runs(), files_with_limits()
    if "--list" in sys.argv[1:]:
        for (one, other), runs in pairs.items():
            first, second = runs[0]
            print(f"{one}:{first} and {other}:{second}, {len(runs)} runs")
        print("\n".join(f"{path} states a limit of coordinates" for path in limits))
    tally = Tally("duplicates")
    for name, count in (("duplicates", len(pairs)), ("limits_again", len(limits))):
        tally.at_most(name, count, ceilings()[name])
    return tally.status(f", {len(pairs)} pairs of files share {RUN} lines")


if __name__ == "__main__":
    sys.exit(main())
