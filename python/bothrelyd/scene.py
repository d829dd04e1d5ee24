"""Scenes: a running program, its folder, and the names in it."""
from __future__ import annotations

import itertools
import weakref
from collections import deque
from typing import Any, Deque, Dict, List, NamedTuple, Optional, Tuple, Union

from . import words
from .errors import InvalidArgument, NoMeter, Refused
from .files import Folder
from .formulas import Formula
from .inputs import Input
from .meters import KINDS, Meter
from .program import PathLike, Program, find_program
from .solids import Solid


class Name(NamedTuple):
    """A name of a scene, its dimension, and ``input`` or its formula."""

    name: str
    dim: int
    formula: str


class Scene:
    """Named solids in a program of its own, which is started here and ended by `close`, or at the end of a ``with`` block.

    Parameters
    ----------
    program : path, optional
        The program `evm`. Without it, it is looked for: by the environment variable ``EVM``, in the checkout that the package lies in or was
        installed from, and on the path.

    Raises
    ------
    ProgramMissing
        Where there is none; the text says how to build it.
    """

    def __init__(self, program: Optional[PathLike] = None):
        path = find_program(program)
        self._unused: Deque[str] = deque()      # names of formulas that nothing refers to any more
        self._named: Dict[str, Solid] = {}
        self._numbers = itertools.count(1)
        self._files = Folder()
        try:
            self._program = Program(path, str(self._files.path))
        except BaseException:
            self._files.remove()
            raise
        # Also where the scene is forgotten, and at the end of Python.
        self._end = weakref.finalize(self, _end, self._program, self._files)

    def __enter__(self) -> "Scene":
        return self

    def __exit__(self, *_: Any) -> None:
        self.close()

    def close(self) -> None:
        """Ends the program and takes its folder away. The handles can not be asked any more."""
        self._end()

    # Names

    def input(self, name: str, dim: int) -> Input:
        """Makes an empty solid that can be edited.

        Parameters
        ----------
        name : str
            1 to 32 letters ``a`` to ``z``, digits and ``_``, of which the first is a letter; not ``py_`` and a number.
        dim : int
            2 to 6.

        Raises
        ------
        InvalidArgument
            Where the name is none; nothing was sent.
        NameTaken, WrongDimension
            Where the name stands; where the dimension is another.
        """
        self.ask(f"input {words.name_word(name)} {words.number(dim)}")
        self._named[name] = made = Input(self, name, int(dim))
        return made

    def box(self, lo: words.Point, hi: words.Point) -> Formula:
        """The formula of a box: the cells from `lo` up to but not including `hi`."""
        numbers = words.box(lo, hi)
        dim = len(numbers) // 2
        return self._formula("box", (), (dim, *numbers), dim)

    def define(self, name: str, formula: Solid) -> Formula:
        """Gives a name to a formula, or another formula to a name that has one; what reads it follows.

        Parameters
        ----------
        name : str
            As in `input`.
        formula : Solid
            A formula, which is sent under this name; or an input, of which the name stands for a copy that follows it.

        Returns
        -------
        Formula
            The handle of the name; where the name stood before, the one that it had.

        Raises
        ------
        MakesCycle, WrongDimension, WrongKind, OutOfRange
            Where the formula would read itself; where dimensions differ; where the name is an input; where it does not fit the limits.
        """
        words.name_word(name)
        if not isinstance(formula, Solid) or formula.scene is not self:
            raise InvalidArgument(f"{formula!r} is no solid of this scene")
        made = formula if isinstance(formula, Formula) else formula | formula
        text = made.text()
        self.ask(f"def {name} {text}")
        stands = self._named.get(name)
        if isinstance(stands, Formula):
            stands.operator, stands.operands, stands.numbers = made.operator, made.operands, made.numbers
            return stands
        self._named[name] = handle = Formula(self, made.operator, made.operands, made.numbers, made.dim, name)
        return handle

    def drop(self, solid: Union[Solid, str]) -> None:
        """Takes out a name that was given here, by itself or by its handle. Refused with `InUse` while a formula or a meter reads it."""
        name = words.name_word(solid if isinstance(solid, str) else solid._given_name)
        self.ask(f"drop {name}")
        self._named.pop(name, None)

    def names(self) -> List[Name]:
        """All names in the order of their making, those of the package's own among them."""
        return [Name(name, int(dim), formula) for name, dim, formula in (line.split(None, 2) for line in self.ask("list")[1:])]

    def __getitem__(self, name: str) -> Solid:
        """The handle of a name that was given here."""
        return self._named[name]

    def __contains__(self, name: object) -> bool:
        return name in self._named

    # Lines

    def ask(self, line: str) -> List[str]:
        """Sends a line of the script language (`docs/LANGUAGE.md`), and answers the lines of its reply.

        Raises
        ------
        Refused
            Where it is refused; nothing changed.
        ProgramLost, ScriptFull
            Where the program has ended; where it reads no more.
        InvalidArgument
            Where the line has no reply, or is more than one; nothing was sent.
        """
        _one_line(line)
        if self._unused:
            self._drop_unused()
        return self._program.ask(line)

    def _ask_all(self, lines: List[str]) -> List[Union[str, Refused]]:
        self._drop_unused()
        return self._program.ask_all(lines)

    def _drop_unused(self) -> None:
        """Gives up the names that nothing in Python refers to; those that a line sent by hand reads stay."""
        while self._unused:
            try:
                self._program.ask(f"drop {self._unused.popleft()}")
            except Refused:
                pass

    def _own_name(self) -> str:
        return f"py_{next(self._numbers)}"

    def _formula(self, operator: str, operands: Tuple[Solid, ...], numbers: Tuple[int, ...], dim: int) -> Formula:
        if any(each.scene is not self for each in operands):
            raise InvalidArgument("the solids are of different scenes")
        return Formula(self, operator, operands, numbers, dim)

    def _watch(self, kind: str, solid: Solid) -> Meter:
        if kind not in KINDS:
            raise InvalidArgument(f"{kind!r} is no kind of meter: {', '.join(KINDS)}")
        *others, last = KINDS[kind]
        for number in others:
            try:
                return Meter(solid, kind, number)
            except NoMeter:
                continue    # taken, or gone
        return Meter(solid, kind, last)


def _end(program: Program, files: Folder) -> None:
    program.close()
    files.remove()


def _one_line(line: str) -> None:
    """Tests that a line has a reply, and is one line: else what is read would be the reply to another."""
    if not line.isascii() or "\n" in line or not line.strip(" \t\r") or line.lstrip(" \t").startswith("#"):
        raise InvalidArgument(f"{line!r} is no line of a script that has a reply")
