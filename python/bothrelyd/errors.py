"""What the package raises: refusals of the program by their codes, and what it refuses or loses itself."""
from __future__ import annotations


class BothrelydError(Exception):
    """Anything that this package raises of its own."""


class InvalidArgument(BothrelydError, ValueError):
    """An argument that can be no part of a line, or an array that does not fit; nothing was sent."""


class NumpyMissing(BothrelydError, ImportError):
    """An array was asked for or given, and numpy is not installed."""


class ProgramMissing(BothrelydError, FileNotFoundError):
    """There is no program `evm` to start; the text says where it was looked for and how to build it."""


class ProgramLost(BothrelydError):
    """The program ended before its reply was whole, or the scene is closed. The scene can not be used any more."""


class ScriptFull(BothrelydError):
    """The scene has sent as many bytes as one run of the program reads (64 MiB); the line was not sent."""


class DiskFull(BothrelydError, OSError):
    """There was no room to write a file."""


class Refused(BothrelydError):
    """The program refused a line, and nothing changed.

    Attributes
    ----------
    code : str
        The word of the reply after ``no``; `docs/LANGUAGE.md` says when each comes.
    line : str
        The line that was sent.
    replies : list
        After `Input.edit_all`, what each of its edits came to: a number or its own `Refused`. Else empty.
    """

    code = ""
    meaning = "the program refused it"

    def __init__(self, code: str, line: str):
        super().__init__(f"no {code}: {self.meaning} (the line was: {line})")
        self.code, self.line, self.replies = code, line, []


class BadLine(Refused):
    """``line``"""

    code = "line"
    meaning = "the line is too long"


class BadSyntax(Refused):
    """``syntax``"""

    code = "syntax"
    meaning = "the program knows no such command"


class NoName(Refused):
    """``name``"""

    code = "name"
    meaning = "a name does not stand"


class NameTaken(Refused):
    """``taken``"""

    code = "taken"
    meaning = "the name stands already"


class WrongKind(Refused):
    """``kind``"""

    code = "kind"
    meaning = "a formula can not be edited, and an input can not be defined"


class InUse(Refused):
    """``used``"""

    code = "used"
    meaning = "a formula or a meter reads the name"


class MakesCycle(Refused):
    """``cycle``"""

    code = "cycle"
    meaning = "the formula would read itself"


class WrongDimension(Refused):
    """``dim``"""

    code = "dim"
    meaning = "a wrong dimension or axis, or a wrong count of numbers"


class OutOfRange(Refused):
    """``range``"""

    code = "range"
    meaning = "a number is out of its range, a box has no room, or a shift or lift would leave the limits"


class FileMissing(Refused):
    """``missing``"""

    code = "missing"
    meaning = "there is no such file"


class ShelfFault(Refused):
    """``shelf``"""

    code = "shelf"
    meaning = "the file could not be read or written, or has more than 256 MiB"


class BadForm(Refused):
    """``form``"""

    code = "form"
    meaning = "the file is not of this form"


class NoMeter(Refused):
    """``meter``"""

    code = "meter"
    meaning = "there is no such meter, or none of this kind is left"


class OutOfMemory(Refused):
    """``memory``"""

    code = "memory"
    meaning = "the program had no memory for this line"


BY_CODE = {kind.code: kind for kind in Refused.__subclasses__()}


def refusal(code: str, line: str) -> Refused:
    """The exception for a reply ``no CODE``."""
    return BY_CODE.get(code, Refused)(code, line)
