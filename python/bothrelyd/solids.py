"""Handles on named solids: what can be asked of one, and the formulas that can be made of it."""
from __future__ import annotations

import os
from pathlib import Path
from typing import TYPE_CHECKING, List, Optional, Tuple, Union, overload

from . import files, replies, words
from .errors import DiskFull, InvalidArgument, ShelfFault
from .replies import ArrayAndOrigin, Cut, Part, Report, Vertices

if TYPE_CHECKING:
    import numpy as np

    from .formulas import Formula
    from .meters import Meter
    from .scene import Scene


class Solid:
    """A solid of a scene: an `Input`, or a `Formula` over others, which follows them. Axes are counted from 1, as in the program.

    Each question is answered by the program anew, so two of them may differ where an edit came between. All raise `Refused` where the program
    refuses, and `ProgramLost` where it has ended.

    Attributes
    ----------
    scene : Scene
        The scene that it belongs to.
    dim : int
        Its dimension, 2 to 6.
    """

    # An array to the left of an operator is no solid: numpy would else make an array of formulas.
    __array_ufunc__ = None

    def __init__(self, scene: "Scene", dim: int):
        self.scene, self.dim = scene, dim

    @property
    def name(self) -> str:
        """Its name in the program."""
        raise NotImplementedError

    @property
    def _given_name(self) -> Optional[str]:
        """The name that it was given, if it was given one."""
        raise NotImplementedError

    def _ask(self, word: str, *numbers: int) -> List[str]:
        return self.scene.ask(" ".join([word, self.name, *map(str, numbers)]))

    # Questions

    @property
    def content(self) -> int:
        """The number of its cells: area, volume, and so on."""
        return replies.count(self._ask("content"))

    @property
    def boundary(self) -> int:
        """The number of unit faces between its cells and empty ones: perimeter, surface, and so on."""
        return replies.count(self._ask("boundary"))

    def at(self, cell: words.Point) -> bool:
        """Whether a cell is in it.

        Parameters
        ----------
        cell : sequence of int
            One number an axis. The cell ``(3, 5)`` is the square from (3, 5) to (4, 6).

        Returns
        -------
        bool

        Raises
        ------
        WrongDimension, OutOfRange
            Where it has not one number an axis; where it is no cell within the limits.
        """
        return self._ask("at", *words.point(cell)) == ["ok filled"]

    def place(self, point: words.Point) -> str:
        """Where a lattice point lies.

        Parameters
        ----------
        point : sequence of int
            One number an axis.

        Returns
        -------
        str
            ``"inside"`` where all cells round it are filled, ``"outside"`` where none is, else ``"boundary"``.

        Raises
        ------
        WrongDimension, OutOfRange
            Where it has not one number an axis; where a number is beyond the limits.
        """
        return self._ask("point", *words.point(point))[0][3:]

    def section(self, axis: int, k: int) -> Vertices:
        """The section at the cells with coordinate `k` on an axis.

        Parameters
        ----------
        axis : int
            Counted from 1.
        k : int
            The coordinate of the cells that are cut, which reach from `k` to `k` + 1.

        Returns
        -------
        Vertices
            Of one dimension less, which may be 1. `slice` gives the same as a formula.

        Raises
        ------
        WrongDimension, OutOfRange
            Where there is no such axis; where no cell may have this coordinate.
        """
        return replies.vertices(self._ask("section", words.number(axis), words.number(k)))

    def project(self, axis: int) -> Vertices:
        """The projection along an axis: what the cells stand over.

        Parameters
        ----------
        axis : int
            Counted from 1.

        Returns
        -------
        Vertices
            Of one dimension less, which may be 1. `proj` gives the same as a formula.

        Raises
        ------
        WrongDimension
            Where there is no such axis.
        """
        return replies.vertices(self._ask("project", words.number(axis)))

    def parts(self) -> List[Part]:
        """Its components: cells that meet at an edge or a corner alone are in two.

        Returns
        -------
        list of Part
            In the order of their least cells, each with its `content` in cells and its `vertices`. All vertices come as text, and are read
            where they are asked for.
        """
        return replies.parts(self._ask("parts"), self.dim)

    def faces(self, axis: int) -> List[Cut]:
        """The heights of an axis at which the section changes.

        Parameters
        ----------
        axis : int
            Counted from 1.

        Returns
        -------
        list of Cut
            Ascending, each with the height `at`, the number of cells `rising` (above it, and not below it) and `falling` (below it, and not
            above it). Over all axes these add up to the boundary content.

        Raises
        ------
        WrongDimension
            Where there is no such axis.
        """
        return replies.cuts(self._ask("faces", words.number(axis)))

    def report(self) -> Report:
        """All its measures in one answer.

        Returns
        -------
        Report
            Its name, kind, dimension, content, boundary content, numbers of vertices and parts, bounding box, and operands.
        """
        return replies.report(self._ask("report"))

    def watch(self, kind: str) -> "Meter":
        """A measure that the program keeps up to date under edits, so that reading it takes no time.

        Parameters
        ----------
        kind : {"content", "boundary", "vertices"}
            What is measured. A scene has two meters of each kind, and one that was stopped does not come back.

        Raises
        ------
        NoMeter
            Where both of the kind are taken or were stopped.
        """
        return self.scene._watch(kind, self)

    # Arrays and files

    def vertices(self) -> "np.ndarray":
        """Its extreme vertices, ascending.

        Returns
        -------
        numpy.ndarray
            ``int64`` of shape (count, dim): the lattice points round which an odd number of its cells stand.

        Raises
        ------
        NumpyMissing
            Where numpy is not installed.
        """
        return replies.numpy_arrays().rows_of(self._columns())

    def _columns(self) -> "Tuple[np.ndarray, ...]":
        """Its vertices, an array of coordinates for each axis."""
        arrays = replies.numpy_arrays()
        name = self.scene._files.fresh()
        self._save("evm", name)
        return arrays.vertices_in(self.scene._files.take(name))

    @overload
    def array(self) -> ArrayAndOrigin: ...

    @overload
    def array(self, lo: words.Point, hi: words.Point) -> "np.ndarray": ...

    def array(self, lo=None, hi=None):
        """Its cells as booleans, a byte a cell.

        Parameters
        ----------
        lo, hi : sequence of int, optional
            The box that is wanted: the cells from `lo` up to but not including `hi`.

        Returns
        -------
        numpy.ndarray, or a pair
            With a box, the array of shape ``hi - lo``. Without one, the array of the bounding box, and the cell of its first element.

        Raises
        ------
        NumpyMissing
            Where numpy is not installed.
        InvalidArgument
            Where one corner is missing, or `hi` is below `lo`.
        """
        return replies.array_of(self._columns(), lo, hi)

    def save(self, path: Union[str, "os.PathLike[str]"], form: Optional[str] = None) -> int:
        """Saves it as a file, in place of one that is there.

        Parameters
        ----------
        path : path
            Where to.
        form : {"evm", "boxes", "faces", "obj"}, optional
            Without it, the end of the name tells: ``.nevm`` or ``.evm``, ``.boxes``, ``.faces``, ``.obj`` (of dimension 3 alone).

        Returns
        -------
        int
            The number of bytes. Equal solids have equal files.

        Raises
        ------
        DiskFull
            Where there is no room. What was there before stays.
        """
        target = Path(path)
        form = form or files.form_for(target)
        if form not in files.SUFFIXES.values():
            raise InvalidArgument(f"{form!r} is no form to save: evm, boxes, faces, obj")
        name = self.scene._files.fresh()
        count = self._save(form, name)
        self.scene._files.move(name, target)
        return count

    def _save(self, form: str, name: str) -> int:
        """Has the program write a file into the folder of the scene."""
        try:
            return replies.count(self.scene.ask(f"save {self.name} {form} {name}"))
        except ShelfFault as fault:
            if self.scene._files.free() < 8 * self.dim * self.report().vertices + 12:   # the most that an EVM file has
                raise DiskFull(f"there is no room for a file of {self.name}: {fault}") from fault
            raise

    # Formulas

    def _formula(self, operator: str, dim: int, *numbers: int, other: Optional["Solid"] = None) -> "Formula":
        return self.scene._formula(operator, (self,) if other is None else (self, other), numbers, dim)

    def _with(self, operator: str, other: object) -> "Formula":
        if not isinstance(other, Solid):
            return NotImplemented
        return self._formula(operator, self.dim, other=other)

    def __or__(self, other: object) -> "Formula":
        """The union."""
        return self._with("or", other)

    def __and__(self, other: object) -> "Formula":
        """The intersection."""
        return self._with("and", other)

    def __sub__(self, other: object) -> "Formula":
        """The difference: what the other has not."""
        return self._with("sub", other)

    def __xor__(self, other: object) -> "Formula":
        """The exclusive or: what just one of them has."""
        return self._with("xor", other)

    def shift(self, by: words.Point) -> "Formula":
        """It moved by one number an axis, each at most twice the limit. An edit after which it would leave the limits is refused."""
        return self._formula("shift", self.dim, *words.point(by))

    def mirror(self, axis: int) -> "Formula":
        """Its mirror image across 0 of an axis (counted from 1): x becomes -1 - x for cells, and -x for vertices."""
        return self._formula("mirror", self.dim, words.number(axis))

    def swap(self, first: int, second: int) -> "Formula":
        """It with two axes exchanged (counted from 1)."""
        return self._formula("swap", self.dim, words.number(first), words.number(second))

    def clip(self, lo: words.Point, hi: words.Point) -> "Formula":
        """Its part in the box from `lo` up to but not including `hi`."""
        return self._formula("clip", self.dim, *words.box(lo, hi))

    def slice(self, axis: int, k: int) -> "Formula":
        """Its section at the cells with coordinate `k` on an axis, as a solid of one dimension less."""
        return self._formula("slice", self.dim - 1, words.number(axis), words.number(k))

    def proj(self, axis: int) -> "Formula":
        """Its projection along an axis, as a solid of one dimension less."""
        return self._formula("proj", self.dim - 1, words.number(axis))

    def lift(self, axis: int, lo: int, hi: int) -> "Formula":
        """The prism over it from `lo` to `hi` on a new axis at that place (1 to `dim` + 1), of one dimension more.

        An edit after which it would leave the limits of that dimension is refused.
        """
        return self._formula("lift", self.dim + 1, words.number(axis), words.number(lo), words.number(hi))
