"""The words of a line: names and whole numbers, tested before anything is sent."""
from __future__ import annotations

import operator
import re
from typing import Iterable, Tuple

from .errors import InvalidArgument

NAME = re.compile(r"[a-z][a-z0-9_]{0,31}")
OWN_NAME = re.compile(r"py_[0-9]+")
MOST = 10 ** 10 - 1     # of ten digits
MOST_NUMBERS = 12

Point = Iterable[int]


def name_word(text: str) -> str:
    """A name that a user gives: 1 to 32 letters ``a`` to ``z``, digits and ``_``, the first a letter; ``py_1`` and the like are the package's own."""
    if not isinstance(text, str) or not NAME.fullmatch(text):
        raise InvalidArgument(f"{text!r} is no name: 1 to 32 letters a to z, digits and _, of which the first is a letter")
    if OWN_NAME.fullmatch(text):
        raise InvalidArgument(f"{text!r} is a name that the package keeps for itself")
    return text


def number(value: int) -> int:
    """A whole number of at most ten digits."""
    return point((value,))[0]


def point(values: Point) -> Tuple[int, ...]:
    """One to twelve whole numbers of at most ten digits."""
    try:
        found = tuple(map(operator.index, values))
    except TypeError:
        raise InvalidArgument(f"{values!r} is no list of whole numbers") from None
    if not 1 <= len(found) <= MOST_NUMBERS:
        raise InvalidArgument(f"{len(found)} numbers, where 1 to {MOST_NUMBERS} may stand")
    if max(found) > MOST or min(found) < -MOST:
        raise InvalidArgument(f"a number of {found} is out of the range of any coordinate")
    return found


def box(lo: Point, hi: Point) -> Tuple[int, ...]:
    """The numbers of a box: its lower corner, then its upper corner."""
    try:
        low, high = tuple(lo), tuple(hi)
    except TypeError:
        raise InvalidArgument(f"there is no box from {lo!r} to {hi!r}") from None
    if len(low) != len(high):
        raise InvalidArgument(f"a box from {low} to {high}: its corners have different dimensions")
    return point(low + high)
