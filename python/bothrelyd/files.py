"""The folder of a scene, the form of a file, and the bytes of EVM files, without numpy (`docs/FORMATS.md`)."""
from __future__ import annotations

import array
import errno
import itertools
import os
import shutil
import struct
import sys
import tempfile
from contextlib import contextmanager
from pathlib import Path
from typing import Iterator, List, Tuple

from .errors import BothrelydError, DiskFull, InvalidArgument

MOST_FILE_BYTES = 268435456     # of a file that is loaded
LIMITS = {1: 1073741824, 2: 1073741824, 3: 1073741824, 4: 268435456, 5: 4194304, 6: 524288}
MAGIC = {b"NEVM": "evm", b"evm-boxes": "boxes", b"P5": "pgm", b"YUV4MPEG2": "y4m"}
SUFFIXES = {".nevm": "evm", ".evm": "evm", ".boxes": "boxes", ".faces": "faces", ".obj": "obj"}
NO_ROOM = (errno.ENOSPC, errno.EDQUOT, errno.EFBIG)


@contextmanager
def room() -> Iterator[None]:
    """Tells where there was no room to write."""
    try:
        yield
    except OSError as fault:
        if fault.errno in NO_ROOM:
            raise DiskFull(f"there is no room: {fault}") from fault
        raise


class Folder:
    """A folder of its own, through which files go to the program and come from it. Names in it are never used twice."""

    def __init__(self) -> None:
        with room():
            self.path = Path(tempfile.mkdtemp(prefix="bothrelyd-"))
        self._numbers = itertools.count()

    def fresh(self) -> str:
        return f"file_{next(self._numbers)}"

    def put(self, data: bytes) -> str:
        """Writes a file, and gives its name."""
        name = self.fresh()
        with room():
            (self.path / name).write_bytes(data)
        return name

    def link(self, path: Path) -> str:
        """A name by which the program reads a file that lies elsewhere."""
        name = self.fresh()
        try:
            os.symlink(path.resolve(), self.path / name)
        except (OSError, NotImplementedError):
            with room():
                shutil.copyfile(path, self.path / name)
        return name

    def take(self, name: str) -> bytes:
        """The bytes of a file, which is taken out."""
        data = (self.path / name).read_bytes()
        self.drop(name)
        return data

    def drop(self, name: str) -> None:
        try:
            (self.path / name).unlink()
        except FileNotFoundError:
            pass    # a save that was refused made none

    def move(self, name: str, target: Path) -> None:
        """Puts a file in another place at once: what was there stays until all bytes have come."""
        with room():
            beside, path = tempfile.mkstemp(prefix=target.name + ".", dir=target.parent)
            os.close(beside)
            try:
                shutil.copyfile(self.path / name, path)
                os.chmod(path, 0o666 & ~_mask())
                os.replace(path, target)
            except BaseException:
                os.unlink(path)
                raise
        self.drop(name)

    def free(self) -> int:
        """How many bytes may still be written here."""
        return shutil.disk_usage(self.path).free

    def remove(self) -> None:
        shutil.rmtree(self.path, ignore_errors=True)


def _mask() -> int:
    """The file mode creation mask, which can only be read by setting it."""
    mask = os.umask(0)
    os.umask(mask)
    return mask


def form_of(path: Path) -> str:
    """The form of a file that is there, by its first bytes."""
    with open(path, "rb") as file:
        head = file.read(16)
    for magic, form in MAGIC.items():
        if head.startswith(magic):
            return form
    raise InvalidArgument(f"{path} is no EVM file, box file, PGM stack or Y4M video")


def form_for(path: Path) -> str:
    """The form in which a file of this name is saved."""
    form = SUFFIXES.get(path.suffix.lower())
    if form is None:
        raise InvalidArgument(f"{path}: say the form, or end the name by one of {', '.join(SUFFIXES)}")
    return form


def first_head(dim: int, rows: int) -> bytes:
    """What stands before the rows in an EVM file of version 1."""
    return struct.pack(">4sBBHQ", b"NEVM", 1, dim, 0, rows)


def body_of(data: bytes) -> Tuple[int, "array.array[int]"]:
    """The dimension of an EVM file of version 2, and the counts, heights and coordinates of its body."""
    if data[:5] != b"NEVM\x02":
        raise BothrelydError("the program saved an EVM file of another version than 2")
    numbers = array.array("i")
    numbers.frombytes(data[8:])
    if sys.byteorder == "little":
        numbers.byteswap()
    return data[5], numbers


def couplets(numbers: "array.array[int]", dim: int) -> List[List[int]]:
    """For each axis but the last: where in a body the heights of its couplets stand. Behind each height stands a count.

    A couplet is as long as its counts say, so they are walked over one by one; the coordinates of the last axis are not looked at.
    """
    found: List[List[int]] = [[] for _ in range(dim - 1)]

    def walk(axis: int, at: int) -> int:
        """Walks over the body at a place; the place behind it."""
        count, at, mine, inner = numbers[at], at + 1, found[axis], axis == dim - 2
        for _ in range(count):
            mine.append(at)
            at = at + 2 + numbers[at + 1] if inner else walk(axis + 1, at + 1)
        return at

    walk(0, 0)
    return found
