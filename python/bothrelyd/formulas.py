"""Formulas over solids: sent once they are named or asked, under names of their own where they were given none."""
from __future__ import annotations

from typing import TYPE_CHECKING, Optional, Tuple

from .solids import Solid

if TYPE_CHECKING:
    from .scene import Scene


class Formula(Solid):
    """A solid that follows its operands. Made by operators and methods of solids, and by `Scene.box`.

    Until it is named (`Scene.define`) or asked, nothing is sent, and so nothing is refused. A name of its own (``py_1`` and so on) is given up
    once nothing in Python refers to the formula any more; a name given by `Scene.define` stays until `Scene.drop`.
    """

    def __init__(self, scene: "Scene", operator: str, operands: Tuple[Solid, ...], numbers: Tuple[int, ...], dim: int, name: Optional[str] = None):
        super().__init__(scene, dim)
        self.operator, self.operands, self.numbers = operator, operands, numbers
        self._name, self._is_own = name, False

    def __repr__(self) -> str:
        return f"<formula {self._name or 'without a name'}: {self.operator}, of dimension {self.dim}>"

    def __del__(self) -> None:
        if self._is_own and self._name:
            self.scene._unused.append(self._name)

    @property
    def name(self) -> str:
        """Its name in the program; where it has none, it is sent under one of its own."""
        if self._name is None:
            self._name_all()
        return self._name

    @property
    def _given_name(self) -> Optional[str]:
        """The name that it was given by `Scene.define`, if it was."""
        return None if self._is_own else self._name

    def text(self) -> str:
        """The formula as it stands behind its name in `def`."""
        return " ".join([self.operator, *(each.name for each in self.operands), *map(str, self.numbers)])

    def _name_all(self) -> None:
        """Names the formulas that it is made of, innermost first, and then itself."""
        waiting = [self]
        while waiting:
            formula = waiting[-1]
            below = [each for each in formula.operands if isinstance(each, Formula) and each._name is None]
            if below:
                waiting += below
                continue
            waiting.pop()
            if formula._name is None:
                name = self.scene._own_name()
                self.scene.ask(f"def {name} {formula.text()}")
                formula._name, formula._is_own = name, True
