"""Exact solids in two to six dimensions, over the program `evm`.

A solid is a set of unit cells: the cell ``(3, 5)`` is the square from (3, 5) to (4, 6), and element ``[3, 5]`` of a boolean array.

    >>> from bothrelyd import Scene
    >>> with Scene() as scene:
    ...     walls = scene.input("walls", 2)
    ...     walls.add((0, 0), (8, 1))
    ...     lot = scene.box((0, 0), (8, 6))
    ...     floor = scene.define("floor", lot - walls)
    ...     floor.content
    1
    40

`docs/PYTHON.md` of the repository is a tour. numpy is needed for arrays alone.
"""
from .errors import (
    BadForm, BadLine, BadSyntax, BothrelydError, DiskFull, FileMissing, InUse, InvalidArgument, MakesCycle, NameTaken, NoMeter, NoName, NumpyMissing,
    OutOfMemory, OutOfRange, ProgramLost, ProgramMissing, Refused, ScriptFull, ShelfFault, WrongDimension, WrongKind,
)
from .formulas import Formula
from .inputs import Input
from .meters import Meter
from .replies import Cut, Part, Report, Vertices
from .scene import Scene
from .solids import Solid

__all__ = [
    "BadForm", "BadLine", "BadSyntax", "BothrelydError", "Cut", "DiskFull", "FileMissing", "Formula", "InUse", "Input", "InvalidArgument", "MakesCycle",
    "Meter", "NameTaken", "NoMeter", "NoName", "NumpyMissing", "OutOfMemory", "OutOfRange", "Part", "ProgramLost", "ProgramMissing", "Refused", "Report",
    "Scene", "ScriptFull", "ShelfFault", "Solid", "Vertices", "WrongDimension", "WrongKind",
]
