"""Finds the program `evm`, starts `evm run`, and talks to it line by line."""
from __future__ import annotations

import json
import os
import shutil
import subprocess
from importlib import metadata
from pathlib import Path
from typing import Iterator, List, Optional, Sequence, Union
from urllib.parse import urlsplit
from urllib.request import url2pathname

from .errors import ProgramLost, ProgramMissing, Refused, ScriptFull, refusal

VARIABLE = "EVM"
BUILT = Path("crates", "evm_tool", "out", "evm_tool")     # in a checkout
MOST_BYTES = 67108864       # that one run reads
AHEAD = 256                 # lines sent before their replies are read: these, of a line each, fit into the smallest pipe
WAIT = 10                   # seconds, for the program to end by itself
LISTS = frozenset(("show", "section", "project", "list", "faces"))

PathLike = Union[str, "os.PathLike[str]"]


def checkouts() -> Iterator[Path]:
    """The checkout that the package lies in, and the one from which it was installed, as pip notes it beside an installed package."""
    yield Path(__file__).resolve().parents[2]
    try:
        noted = metadata.distribution(__package__).read_text("direct_url.json")
    except metadata.PackageNotFoundError:
        return
    url = urlsplit(json.loads(noted)["url"] if noted else "")
    if url.scheme == "file":
        yield Path(url2pathname(url.path)).parent


def find_program(program: Optional[PathLike] = None) -> str:
    """The path of the program: the one that is given, that of the variable ``EVM``, the built one of the checkout, or ``evm`` on the path.

    Raises
    ------
    ProgramMissing
        Where none of these is there, or what is given or in ``EVM`` is no program.
    """
    named = program or os.environ.get(VARIABLE)
    if named:
        found = shutil.which(os.fspath(named))
    else:
        built = (str(top / BUILT) for top in checkouts() if os.access(top / BUILT, os.X_OK))
        found = next(built, None) or shutil.which("evm")
    if found:
        return os.path.abspath(found)
    where = f"{named} is no program" if named else f"no checkout has a {BUILT}, {VARIABLE} is not set, and there is no evm on the path"
    raise ProgramMissing(
        f"{where}. To build it, run `./evm run < examples/first-run.evm` at the top of the repository, once (it proves the program first, "
        f"which takes about forty minutes, and needs `rt`); or set {VARIABLE} to a program that was built"
    )


class Program:
    """A running program, whose current folder is `folder`. Each reply is read whole before `ask` returns."""

    def __init__(self, path: str, folder: str):
        self._sent, self._usable = 0, True
        try:
            # A group of its own, so that an interrupt from the terminal reaches Python alone.
            self._process = subprocess.Popen([path, "run"], cwd=folder, stdin=subprocess.PIPE, stdout=subprocess.PIPE, start_new_session=True)
        except OSError as fault:
            raise ProgramMissing(f"{path} can not be started: {fault}") from fault

    def ask(self, line: str) -> List[str]:
        """Sends a line and waits for the lines of its reply.

        Raises
        ------
        Refused
            Where the reply is ``no CODE``.
        ProgramLost, ScriptFull
            Where the program ended, or reads no more.
        """
        data = self._ready((line,))
        try:
            self._write(data)
            return self._reply(line)
        except Refused:
            raise
        except BaseException:
            self._give_up()
            raise

    def ask_all(self, lines: Sequence[str]) -> List[Union[str, Refused]]:
        """Sends lines whose replies are of one line, some ahead of their replies: for each line its reply, or its refusal."""
        found: List[Union[str, Refused]] = []
        for start in range(0, len(lines), AHEAD):
            some = lines[start:start + AHEAD]
            data = self._ready(some)
            try:
                self._write(data)
                replies = [self._line() for _ in some]
            except BaseException:
                self._give_up()
                raise
            found += [refusal(reply[3:], line) if reply.startswith("no ") else reply for line, reply in zip(some, replies)]
        return found

    def close(self) -> None:
        """Ends the input, and waits for the program to end."""
        if self._usable:
            self._usable = False
            self._end()

    def _ready(self, lines: Sequence[str]) -> bytes:
        """The bytes of these lines, where they may be sent."""
        if not self._usable:
            raise ProgramLost("the scene is closed, or its program was lost")
        data = ("\n".join(lines) + "\n").encode("ascii")
        if self._sent + len(data) > MOST_BYTES:
            raise ScriptFull(f"one run of the program reads {MOST_BYTES} bytes, and this scene has sent {self._sent}: save what is needed and begin another")
        self._sent += len(data)
        return data

    def _write(self, data: bytes) -> None:
        try:
            self._process.stdin.write(data)
            self._process.stdin.flush()
        except OSError as fault:
            raise ProgramLost(f"the program has ended: {fault}") from fault

    def _line(self) -> str:
        """The next line that the program writes."""
        line = self._process.stdout.readline()
        if not line.endswith(b"\n"):
            raise ProgramLost(f"the reply is cut off; the program ended with status {self._process.wait()}")
        return line[:-1].decode("ascii")

    def _reply(self, line: str) -> List[str]:
        """All lines of the reply to a line, whose first one says how many there are."""
        first = self._line()
        if first.startswith("no "):
            raise refusal(first[3:], line)
        word, reply = line.split(None, 1)[0], [first]
        if word in LISTS:
            reply += [self._line() for _ in range(int(first.split()[-1]))]
        elif word == "parts":
            for _ in range(int(first.split()[-1])):
                reply.append(self._line())
                reply += [self._line() for _ in range(int(reply[-1].split()[1]))]
        return reply

    def _give_up(self) -> None:
        """After a reply that was not read to its end: what comes next could be taken for another's."""
        self._usable = False
        self._process.kill()
        self._end()

    def _end(self) -> None:
        for pipe in (self._process.stdin, self._process.stdout):
            try:
                pipe.close()
            except OSError:
                pass    # what was not yet written has nobody to read it
        try:
            self._process.wait(WAIT)
        except subprocess.TimeoutExpired:
            self._process.kill()
            self._process.wait()
