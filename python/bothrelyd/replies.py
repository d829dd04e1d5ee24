"""What replies say, as values: vertices, parts, cuts and reports."""
from __future__ import annotations

import json
from collections.abc import Sequence as SequenceType
from typing import TYPE_CHECKING, Any, Iterator, List, NamedTuple, Optional, Sequence, Tuple, Union, overload

from . import words
from .errors import InvalidArgument, NumpyMissing

if TYPE_CHECKING:
    import numpy as np

Row = Tuple[int, ...]
ArrayAndOrigin = Tuple["np.ndarray", Row]


def numpy_arrays() -> Any:
    """The part of the package that needs numpy."""
    try:
        from . import arrays
    except ImportError as fault:
        raise NumpyMissing(f"arrays need numpy, which can not be imported: {fault}") from fault
    return arrays


def array_of(columns: Tuple["np.ndarray", ...], lo: Optional[words.Point], hi: Optional[words.Point]) -> Union["np.ndarray", ArrayAndOrigin]:
    """The boolean array of a box, from the columns of vertices; without a box, that of the bounding box, and its origin."""
    arrays = numpy_arrays()
    if (lo is None) != (hi is None):
        raise InvalidArgument("a box has two corners: give both, or none for the bounding box")
    if lo is None or hi is None:
        low, high = arrays.bounds(columns)
        return arrays.mask_of(columns, low, high), low
    low, high = words.point(lo), words.point(hi)
    if not len(low) == len(high) == len(columns) or any(b < a for a, b in zip(low, high)):
        raise InvalidArgument(f"there is no box from {low} to {high} in dimension {len(columns)}")
    return arrays.mask_of(columns, low, high)


class Vertices(SequenceType):
    """Extreme vertices, ascending: a sequence of tuples of whole numbers, of which ``numpy.asarray`` makes an array of shape (count, dim).

    Attributes
    ----------
    dim : int
        How many coordinates each has. A section or projection of a plane solid has 1.
    """

    def __init__(self, dim: int, lines: Sequence[str]):
        self.dim = dim
        self._lines: Sequence[str] = lines
        self._rows: Optional[List[Row]] = None

    def _all(self) -> List[Row]:
        """The rows, read from their lines once they are wanted."""
        if self._rows is None:
            self._rows = [tuple(map(int, line.split())) for line in self._lines]
            self._lines = ()
        return self._rows

    def __len__(self) -> int:
        return len(self._lines) if self._rows is None else len(self._rows)

    def __getitem__(self, place: Any) -> Any:
        return self._all()[place]

    def __iter__(self) -> Iterator[Row]:
        return iter(self._all())

    def __eq__(self, other: object) -> bool:
        if not isinstance(other, Vertices):
            return NotImplemented
        return self.dim == other.dim and self._all() == other._all()

    def __repr__(self) -> str:
        return f"<{len(self)} vertices of dimension {self.dim}>"

    def __array__(self, dtype: Any = None, copy: Optional[bool] = None) -> "np.ndarray":
        import numpy as np
        return np.array(self._all(), dtype=np.int64 if dtype is None else dtype).reshape(len(self), self.dim)

    @overload
    def array(self) -> ArrayAndOrigin: ...

    @overload
    def array(self, lo: words.Point, hi: words.Point) -> "np.ndarray": ...

    def array(self, lo=None, hi=None):
        """The cells as booleans; see `Solid.array`."""
        numpy_arrays()
        return array_of(tuple(self.__array__().T), lo, hi)


class Part(NamedTuple):
    """A part of a solid: its content in cells, and its vertices."""

    content: int
    vertices: Vertices


class Cut(NamedTuple):
    """A height of an axis at which the section changes: how many cells rise there, and how many fall."""

    at: int
    rising: int
    falling: int


class Report(NamedTuple):
    """All that can be said of a solid.

    `low` and `high` are the corners of its bounding box, empty for an empty solid; `kind` is ``input`` or the word of its formula, `operands` the
    names that this reads; `parts` and `vertices` are numbers.
    """

    name: str
    kind: str
    dim: int
    content: int
    boundary: int
    vertices: int
    parts: int
    low: Row
    high: Row
    operands: Tuple[str, ...]


def count(reply: Sequence[str]) -> int:
    """The number of a reply ``ok NUMBER``."""
    return int(reply[0][3:])


def vertices(reply: Sequence[str]) -> Vertices:
    """The vertices of a reply ``ok DIM COUNT`` and its rows."""
    return Vertices(int(reply[0].split()[1]), reply[1:])


def parts(reply: Sequence[str], dim: int) -> List[Part]:
    """The parts of a reply ``ok COUNT``, each with a line ``part VERTICES CONTENT`` and its rows."""
    found, at = [], 1
    while at < len(reply):
        _, rows, content = reply[at].split()
        end = at + 1 + int(rows)
        found.append(Part(int(content), Vertices(dim, reply[at + 1:end])))
        at = end
    return found


def cuts(reply: Sequence[str]) -> List[Cut]:
    """The cuts of a reply to `faces`."""
    return [Cut(*map(int, line.split())) for line in reply[1:]]


def report(reply: Sequence[str]) -> Report:
    """The report of a reply ``ok JSON``."""
    said = json.loads(reply[0][3:])
    for key in ("content", "boundary"):
        said[key] = int(said[key])
    for key in ("low", "high", "operands"):
        said[key] = tuple(said[key])
    return Report(**said)
