"""Inputs: solids that are edited by boxes, and loaded from arrays and files."""
from __future__ import annotations

import os
from pathlib import Path
from typing import TYPE_CHECKING, Any, Iterable, List, Optional, Tuple

from . import files, replies, words
from .errors import InvalidArgument, Refused
from .solids import Solid

if TYPE_CHECKING:
    from .scene import Scene

WITH_THRESHOLD = ("pgm", "y4m")
EDITS = ("add", "cut", "toggle")
Edit = Tuple[str, words.Point, words.Point]


class Input(Solid):
    """A solid that is edited. Made by `Scene.input`.

    Each edit returns how many names changed: 0 where the solid is as before, and else the input and the formulas whose cells changed with it.
    """

    def __init__(self, scene: "Scene", name: str, dim: int):
        super().__init__(scene, dim)
        self._name = name

    def __repr__(self) -> str:
        return f"<input {self._name}, of dimension {self.dim}>"

    @property
    def name(self) -> str:
        """Its name in the program."""
        return self._name

    _given_name = name

    def _edit_line(self, word: str, lo: words.Point, hi: words.Point) -> str:
        return f"{word} {self._name} {' '.join(map(str, words.box(lo, hi)))}"

    def add(self, lo: words.Point, hi: words.Point) -> int:
        """Adds a box.

        Parameters
        ----------
        lo, hi : sequence of int
            Its lower and its upper corner, one number an axis: the cells from `lo` up to but not including `hi`.

        Returns
        -------
        int
            How many names changed.

        Raises
        ------
        InvalidArgument
            Where the corners are no whole numbers, or of different dimensions; nothing was sent.
        WrongDimension, OutOfRange
            Where they are not of its dimension; where `lo` is not below `hi` or a limit is passed.
        """
        return replies.count(self.scene.ask(self._edit_line("add", lo, hi)))

    def cut(self, lo: words.Point, hi: words.Point) -> int:
        """Takes a box away; see `add`."""
        return replies.count(self.scene.ask(self._edit_line("cut", lo, hi)))

    def toggle(self, lo: words.Point, hi: words.Point) -> int:
        """Makes the exclusive or with a box; see `add`."""
        return replies.count(self.scene.ask(self._edit_line("toggle", lo, hi)))

    def edit_all(self, edits: Iterable[Edit]) -> List[int]:
        """Makes many edits, sent some ahead of their replies: faster than one by one.

        Parameters
        ----------
        edits : iterable of (word, lo, hi)
            The word is ``"add"``, ``"cut"`` or ``"toggle"``.

        Returns
        -------
        list of int
            How many names each changed.

        Raises
        ------
        InvalidArgument
            Where one of them can not be sent; none was.
        Refused
            The first refusal, after all the others were carried out; its `replies` has what each of them came to.
        """
        lines = []
        for word, lo, hi in edits:
            if word not in EDITS:
                raise InvalidArgument(f"{word!r} is no edit: {', '.join(EDITS)}")
            lines.append(self._edit_line(word, lo, hi))
        found = [each if isinstance(each, Refused) else replies.count([each]) for each in self.scene._ask_all(lines)]
        refused = next((each for each in found if isinstance(each, Refused)), None)
        if refused is not None:
            refused.replies = found
            raise refused
        return found

    def load(self, source: Any, threshold: Optional[float] = None, origin: Optional[words.Point] = None, form: Optional[str] = None) -> int:
        """Gives it the solid of an array or a file, in place of the one that it had.

        Parameters
        ----------
        source : path, or array of its dimension
            A path: an EVM file, a box file, a PGM stack or a Y4M video. An array: booleans, or numbers with a `threshold`; axis k of the array
            is axis k + 1 of the solid.
        threshold : number, optional
            Filled is what is at least this: the elements of an array of numbers, the samples of an image (0 to 65535) or a video.
        origin : sequence of int, optional
            The cell of the first element of an array; without it, 0 on all axes.
        form : {"evm", "boxes", "pgm", "y4m"}, optional
            Of a file; without it, its first bytes tell.

        Returns
        -------
        int
            How many names changed.

        Raises
        ------
        InvalidArgument
            Where an array has another dimension, no boolean elements and no threshold, a cell beyond the limits, or too many vertices (a file of
            more than 256 MiB, in space some 22 million); where a threshold or an origin has no use; nothing was sent.
        FileNotFoundError, BadForm
            Where there is no such file; where it is not of its form.
        DiskFull
            Where there is no room for the file by which an array goes to the program.
        """
        if isinstance(source, (str, os.PathLike)):
            return self._load_file(Path(source), threshold, origin, form)
        if form is not None:
            raise InvalidArgument("an array has no form")
        arrays = replies.numpy_arrays()
        mask = arrays.as_mask(source, self.dim, threshold)
        columns = arrays.vertices_of(mask, (0,) * self.dim if origin is None else words.point(origin))
        return self._load_from(self.scene._files.put(arrays.file_of(columns)), "evm")

    def _load_file(self, path: Path, threshold: Optional[float], origin: Optional[words.Point], form: Optional[str]) -> int:
        form = form or files.form_of(path)
        if form not in files.MAGIC.values():
            raise InvalidArgument(f"{form!r} is no form to load: evm, boxes, pgm, y4m")
        if (threshold is None) == (form in WITH_THRESHOLD):
            raise InvalidArgument(f"{path} is of the form {form}, with threshold={threshold}: images and videos need one, others have none")
        if origin is not None:
            raise InvalidArgument("a file says itself where its cells are: shift it by a formula")
        return self._load_from(self.scene._files.link(path), form if threshold is None else f"{form} {words.number(threshold)}")

    def _load_from(self, name: str, form: str) -> int:
        """Has the program load a file of the folder of the scene, which is then taken out."""
        try:
            return replies.count(self.scene.ask(f"load {self._name} {form} {name}"))
        finally:
            self.scene._files.drop(name)
