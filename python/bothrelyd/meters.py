"""Meters: measures of a solid that the program keeps up to date under edits."""
from __future__ import annotations

from typing import TYPE_CHECKING, Any

from . import replies

if TYPE_CHECKING:
    from .solids import Solid

# The meters of each kind, by their numbers in the program.
KINDS = {"content": (0, 3), "boundary": (1, 4), "vertices": (2, 5)}


class Meter:
    """A measure that is watched. Made by `Solid.watch`; as a context manager it is stopped at the end.

    Attributes
    ----------
    solid : Solid
        What is watched. Its name can not be dropped meanwhile.
    kind : str
        What is measured: ``content``, ``boundary`` or ``vertices`` (their number).
    number : int
        Which meter of the program it is.
    first : int
        What was read when the watch began.
    """

    def __init__(self, solid: "Solid", kind: str, number: int):
        self.solid, self.kind, self.number = solid, kind, number
        self.first = replies.count(solid.scene.ask(f"meter {number} {solid.name}"))

    def __repr__(self) -> str:
        return f"<meter {self.number}, {self.kind} of {self.solid.name}>"

    def __enter__(self) -> "Meter":
        return self

    def __exit__(self, *_: Any) -> None:
        self.stop()

    def read(self) -> int:
        """The measure as it is now.

        Raises
        ------
        NoMeter
            Where the watch was stopped.
        """
        return replies.count(self.solid.scene.ask(f"read {self.number}"))

    def stop(self) -> None:
        """Ends the watch. The meter is gone for good."""
        self.solid.scene.ask(f"unmeter {self.number}")
