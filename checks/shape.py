#!/usr/bin/env python3
"""Counts what is too long to read: clause lines, functions and files. What may be stands in checks/ceilings.txt, and only falls.

A clause line is a line of an `ensures` or `requires`, or of the type of a name in `specs/`; what a definition says in its other lines is counted apart.
A function's length is that of its body. The line at the end also tells how many lines there are of code with its contracts, of definitions, of proofs.

    python3 checks/shape.py --list     prints each place that is too long
"""
import re
import sys

from sources import ceilings, files
from tally import Tally

CLAUSE, FEW_ABOVE, FUNCTION, FILE = 140, 100, 40, 800
SIGNATURE = re.compile(r"^ *((pub|abbrev|unfoldable|opaque|data|record) )*[^ :=]+ : ")
FN = re.compile(r"^( *)((pub(\(\w+\))?|const|unsafe|ghost) )*fn ")


def clauses_of_code(lines: list[str]):
    """The numbers of the lines of all `ensures` and `requires`, each to the bracket that closes it."""
    depth = 0
    for number, line in enumerate(lines, 1):
        if depth or re.match(r" *(ensures|requires)\b", line):
            yield number
            depth += line.count("{") - line.count("}")


def signatures(lines: list[str]):
    """The numbers of the lines that give a name its type."""
    return (number for number, line in enumerate(lines, 1) if SIGNATURE.match(line))


def body_start(lines: list[str], head: int, clauses: set[int]) -> int | None:
    """Behind which line the body begins of the function whose head is this line; none where it has none of several lines."""
    for number in range(head, len(lines) + 1):
        line = lines[number - 1]
        if line.endswith((";", "{}")) or number not in clauses and line.endswith("}"):
            return None
        if number not in clauses and line.endswith("{"):
            return number
    return None


def functions(lines: list[str]):
    """The line of each function's head, and the number of lines of its body."""
    clauses = set(clauses_of_code(lines))
    for head, line in enumerate(lines, 1):
        found = FN.match(line)
        start = found and body_start(lines, head, clauses)
        if start:
            end = lines.index(found[1] + "}", start) + 1
            yield head, end - start - 1


def definitions(lines: list[str]):
    """The numbers of the lines of a file of `specs/` that are neither types nor comments nor imports."""
    typed = set(signatures(lines))
    return (number for number, line in enumerate(lines, 1) if number not in typed and not re.match(r" *--|use ", line))


def sizes() -> str:
    """How many lines there are of each kind."""
    kinds = {"of code": "/src/", "of definitions": "/specs/", "of proofs": "/proofs/"}
    found = files(".rt", ".antt")
    return ", ".join(f"{sum(len(lines) for path, lines in found.items() if part in path)} {kind}" for kind, part in kinds.items())


def clause_lines(path: str, lines: list[str]) -> list[int]:
    """The numbers of the clause lines of a file."""
    return list(clauses_of_code(lines) if path.endswith(".rt") else signatures(lines) if "/specs/" in path else ())


def too_long() -> dict[str, list[str]]:
    """The places of each kind that are too long, by the name of their ceiling."""
    places = {"long_clauses": [], "long_definitions": [], "long_functions": [], "long_files": []}
    for path, lines in files(".rt", ".antt", ".py").items():
        def wide(numbers):
            lengths = ((number, len(lines[number - 1])) for number in numbers)
            return [f"{path}:{number}: {length} characters" for number, length in lengths if length > CLAUSE]
        places["long_clauses"] += wide(clause_lines(path, lines))
        places["long_definitions"] += wide(definitions(lines) if "/specs/" in path else ())
        bodies = functions(lines) if path.endswith(".rt") else ()
        places["long_functions"] += [f"{path}:{number}: a function of {count} lines" for number, count in bodies if count >= FUNCTION]
        places["long_files"] += [f"{path}: {len(lines)} lines"] if len(lines) > FILE else []
    return places


def percent_above() -> float:
    """How many percent of the clause lines are longer than the most should be."""
    lengths = [len(lines[number - 1]) for path, lines in files(".rt", ".antt").items() for number in clause_lines(path, lines)]
    return round(100 * sum(length > FEW_ABOVE for length in lengths) / max(len(lengths), 1), 1)


def main() -> int:
    places, tally = too_long(), Tally("shape")
    if "--list" in sys.argv[1:]:
        print("\n".join(place for each in places.values() for place in each))
    counts = {name: len(each) for name, each in places.items()} | {"percent_of_clauses_above_100": percent_above()}
    for name, count in counts.items():
        tally.at_most(name, count, ceilings()[name])
    return tally.status(f"; lines: {sizes()}")


if __name__ == "__main__":
    sys.exit(main())
