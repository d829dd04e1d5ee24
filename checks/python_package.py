#!/usr/bin/env python3
"""The package of python/ against sets of cells: what it sends, and what it makes of the replies, in 2 to 6 dimensions.

Its refusals and faults, its docstrings, docs/PYTHON.md, the gallery's scan drawn by it, and its installation by pip. What needs numpy, scipy or pip
is counted as skipped where they are missing.

    python3 checks/python_package.py                   the program of this repository, built first where it is not
    EVM=path/to/evm python3 checks/python_package.py   another program of the same language
"""
import doctest
import importlib.util
import itertools
import os
import pathlib
import random
import re
import shutil
import subprocess
import sys
import tempfile

import cells

from tally import Tally

TOP = pathlib.Path(__file__).resolve().parent.parent
PACKAGE = TOP / "python"
BUILT = TOP / "crates" / "evm_tool" / "out" / "evm_tool"
PROGRAM = pathlib.Path(os.environ.get("EVM") or BUILT).absolute()
BLOCK = re.compile(r"^```python\n(.*?)^```", re.M | re.S)
PRINTED = re.compile(r"^ *print\(.*\) +# (.*)$", re.M)
sys.path[:0] = [str(PACKAGE), str(TOP / "docs" / "gallery")]
import bothrelyd  # noqa: E402
from bothrelyd import Scene  # noqa: E402

HAS_NUMPY, HAS_SCIPY = (importlib.util.find_spec(name) is not None for name in ("numpy", "scipy"))
# What PYTHONPATH has already may be where numpy lies.
ENVIRONMENT = os.environ | {"EVM": str(PROGRAM), "PYTHONPATH": os.pathsep.join([str(PACKAGE), *filter(None, [os.environ.get("PYTHONPATH")])])}


class Skipped(Exception):
    """What a trial needs is not here."""


def shown(solid) -> set:
    """The cells of a solid, from its vertices as text."""
    rows = [tuple(map(int, line.split())) for line in solid.scene.ask(f"show {solid.name}")[1:]]
    return cells.cells_of_vertices(rows, solid.dim)


def some_box(draw: random.Random, dim: int, side: int = 4) -> tuple:
    low = tuple(draw.randrange(-side, side) for _ in range(dim))
    return low, tuple(number + draw.randint(1, 3) for number in low)


def some_input(scene: Scene, draw: random.Random, name: str, dim: int) -> tuple:
    """An input after some edits, and its cells."""
    solid, filled = scene.input(name, dim), set()
    for _ in range(6):
        low, high = some_box(draw, dim)
        word, box = draw.choice(("add", "add", "cut", "toggle")), cells.box_cells(low, high)
        before = set(filled)
        filled = {"add": set.union, "cut": set.difference, "toggle": set.symmetric_difference}[word](filled, box)
        assert getattr(solid, word)(low, high) == (before != filled), f"{word} {low} {high}"
    return solid, filled


# Trials: each raises AssertionError where it fails

def questions(dim: int):
    draw = random.Random(dim)
    with Scene() as scene:
        solid, filled = some_input(scene, draw, "a", dim)
        points = cells.vertices(filled, dim)
        assert shown(solid) == filled and solid.content == len(filled) and solid.boundary == cells.boundary(filled, dim)
        for _ in range(12):
            cell = tuple(draw.randint(-5, 7) for _ in range(dim))
            assert solid.at(cell) == (cell in filled), f"at {cell}"
            round_it = {tuple(map(int.__sub__, cell, step)) in filled for step in itertools.product((0, 1), repeat=dim)}
            assert solid.place(cell) == {(True,): "inside", (False,): "outside"}.get(tuple(round_it), "boundary"), f"place {cell}"
        for axis in range(dim):
            cut = draw.randint(-4, 6)
            sections = (solid.section(axis + 1, cut), cells.slice_cells(filled, axis, cut)), (solid.project(axis + 1), cells.project_cells(filled, axis))
            assert all(list(got) == cells.vertices(wanted, dim - 1) and got.dim == dim - 1 for got, wanted in sections), f"axis {axis + 1}"
            assert solid.faces(axis + 1) == [(at, len(rise), len(fall)) for at, fall, rise in cells.faces(filled, axis)]
        parts = cells.parts(filled)
        assert [(part.content, list(part.vertices)) for part in solid.parts()] == [(len(part), cells.vertices(part, dim)) for part in parts]
        low, high = (tuple(map(bound, zip(*points))) for bound in (min, max))
        wanted = ("a", "input", dim, len(filled), cells.boundary(filled, dim), len(points), len(parts), low, high, ())
        assert solid.report() == wanted, f"{solid.report()}, where cells give {wanted}"


def formulas(dim: int):
    draw = random.Random(10 + dim)
    with Scene() as scene:
        (a, filled), (b, other) = (some_input(scene, draw, name, dim) for name in "ab")
        low, high = some_box(draw, dim)
        by, axis, cut = [draw.randint(-9, 9) for _ in range(dim)], draw.randrange(dim), draw.randint(-3, 5)
        swapped = list(range(dim))
        swapped[0], swapped[axis] = swapped[axis], swapped[0]
        wanted = [
            (a | b, filled | other), (a & b, filled & other), (a - b, filled - other), (a ^ b, filled ^ other),
            ((a | b) - (a & b), filled ^ other),
            (scene.box(low, high), cells.box_cells(low, high)),
            (a.shift(by), {tuple(map(int.__add__, cell, by)) for cell in filled}),
            (a.mirror(axis + 1), {cell[:axis] + (-1 - cell[axis],) + cell[axis + 1:] for cell in filled}),
            (a.swap(1, axis + 1), {tuple(cell[k] for k in swapped) for cell in filled}),
            (a.clip(low, high), filled & cells.box_cells(low, high)),
        ]
        if dim > 2:
            wanted += [(a.slice(axis + 1, cut), cells.slice_cells(filled, axis, cut)), (a.proj(axis + 1), cells.project_cells(filled, axis))]
        if dim < 6:
            wanted += [(a.lift(axis + 1, 2, 4), {cells.with_at(cell, axis, number) for cell in filled for number in (2, 3)})]
        for formula, expected in wanted:
            assert shown(formula) == expected and formula.dim == len(low) + {"slice": -1, "proj": -1, "lift": 1}.get(formula.operator, 0), formula


def names():
    """Names of its own come and go; names that were given stay, follow their operands and may be given anew."""
    with Scene() as scene:
        walls, lot = scene.input("walls", 2), scene.box((0, 0), (8, 6))
        floor = scene.define("floor", lot - walls)
        lot = None
        assert [name.name for name in scene.names()] == ["walls", "py_1", "floor"] and scene["floor"] is floor and "floor" in scene
        assert walls.add((0, 0), (8, 1)) == 2 and floor.content == 40 and walls.add((0, 0), (1, 1)) == 0
        assert scene.define("floor", scene.box((0, 0), (4, 4)) - walls) is floor and floor.content == 12
        assert [name.formula for name in scene.names()] == ["input", f"sub {floor.operands[0].name} walls", "box 2 0 0 4 4"]
        assert (walls | floor).content == 20 and len(scene.names()) == 3
        copy = scene.define("copy", walls)
        assert walls.cut((0, 0), (1, 1)) == 3 and copy.content == 7
        tower = floor
        for _ in range(400):
            tower = tower | walls
        assert tower.content == 20 and len(scene.names()) == 404
        tower = None
        scene.drop("copy")
        scene.drop(floor)
        floor = None
        assert [name.name for name in scene.names()] == ["walls"] and "floor" not in scene


def many_edits():
    draw = random.Random(3)
    edits = [(draw.choice(("add", "cut", "toggle")), *some_box(draw, 3, 9)) for _ in range(1000)]
    with Scene() as one, Scene() as other:
        singly, together = one.input("a", 3), other.input("a", 3)
        one.define("m", singly.mirror(2))
        other.define("m", together.mirror(2))
        assert together.edit_all(edits) == [getattr(singly, word)(low, high) for word, low, high in edits]
        assert one.ask("show m") == other.ask("show m")
        try:
            together.edit_all([("toggle", (0, 0, 0), (1, 1, 1)), ("add", (0, 0, 0), (0, 1, 1)), ("toggle", (0, 0, 0), (1, 1, 1))])
        except bothrelyd.OutOfRange as refused:
            assert refused.line == "add a 0 0 0 0 1 1" and refused.replies[::2] == [2, 2] and refused.replies[1] is refused
        else:
            raise AssertionError("a box without room is added")


def refused(action, kind: type, line: str = None):
    """That an action is refused in this way, with this line."""
    try:
        action()
    except kind as fault:
        if line is not None:
            assert fault.line == line and f"no {fault.code}" in str(fault) and type(fault).code == fault.code, f"{fault!r}"
        return
    raise AssertionError(f"{line or action} is no {kind.__name__}")


def refusals():
    with Scene() as scene, tempfile.TemporaryDirectory() as folder:
        text = pathlib.Path(folder, "walls.boxes")
        text.write_text("evm-boxes 1 2\n0 0 1\n")
        a, solid = scene.input("a", 2), scene.input("solid", 3)
        moved = scene.define("moved", a.shift((1, 0)))
        refused(lambda: scene.ask("content " + "x" * 4096), bothrelyd.BadLine)
        refused(lambda: scene.ask("fly a"), bothrelyd.BadSyntax, "fly a")
        refused(lambda: scene.ask("show b"), bothrelyd.NoName, "show b")
        refused(lambda: scene.input("a", 2), bothrelyd.NameTaken, "input a 2")
        refused(lambda: scene.define("a", moved | a), bothrelyd.WrongKind, "def a or moved a")
        refused(lambda: scene.drop(a), bothrelyd.InUse, "drop a")
        refused(lambda: scene.define("moved", moved | a), bothrelyd.MakesCycle, "def moved or moved a")
        refused(lambda: (a | solid).content, bothrelyd.WrongDimension)
        refused(lambda: scene.input("b", 7), bothrelyd.WrongDimension, "input b 7")
        refused(lambda: a.add((0, 0), (0, 1)), bothrelyd.OutOfRange, "add a 0 0 0 1")
        refused(lambda: a.add((2 ** 30 - 1, 0), (2 ** 30, 1)), bothrelyd.OutOfRange, f"add a {2 ** 30 - 1} 0 {2 ** 30} 1")
        refused(lambda: scene.ask("load a evm none.nevm"), bothrelyd.FileMissing, "load a evm none.nevm")
        refused(lambda: a.load(text), bothrelyd.BadForm)
        refused(lambda: a.save(text, form="obj"), bothrelyd.WrongDimension)
        (scene._files.path / "folder").mkdir()
        refused(lambda: scene.ask("load a evm folder"), bothrelyd.ShelfFault, "load a evm folder")
        assert a.content == 0 and len(scene.names()) == 3 and all(kind.__base__ is bothrelyd.Refused for kind in bothrelyd.errors.BY_CODE.values())


def not_sent():
    """What can be no line, or does not belong together, is refused before anything is sent."""
    with Scene() as scene, Scene() as other, tempfile.TemporaryDirectory() as folder:
        a, b = scene.input("a", 2), other.input("b", 2)
        video, text = TOP / "examples" / "mask.y4m", pathlib.Path(folder, "text")
        text.write_text("no form of these")
        sent = scene._program._sent
        for action in (
            *(lambda name=name: scene.input(name, 2) for name in ("", "A", "1a", "a b", "a\nb", "a" * 33, "ä", "py_1", None)),
            lambda: scene.input("c", 2.5), lambda: a.add((0, 0), (1, 1.5)), lambda: a.add((0, 0, 0), (1,)), lambda: a.add((), ()), lambda: a.add(0, 1),
            lambda: a.add((0, 0), (1, 10 ** 10)), lambda: a.add(range(7), range(1, 8)), lambda: a.at("ab"), lambda: a.edit_all([("load", (0, 0), (1, 1))]),
            lambda: a | b, lambda: scene.define("c", b.mirror(1)), lambda: scene.define("c", "a"), lambda: scene.drop(a.mirror(1)), lambda: scene.drop("py_1"),
            lambda: scene.ask("# note"), lambda: scene.ask(" "), lambda: scene.ask("list\nlist"), lambda: scene.box((0, 0), (1, 1, 1)),
            lambda: a.watch("size"), lambda: a.load(video), lambda: a.load(video, threshold=1, origin=(0, 0)), lambda: a.load(text),
            lambda: a.load(TOP / "examples" / "ring.boxes", threshold=1), lambda: a.load(video, form="mp4"), lambda: a.save(text), lambda: a.save(text, "stl"),
        ):
            refused(action, bothrelyd.InvalidArgument)
        refused(lambda: a | 5, TypeError)
        refused(lambda: a.load(pathlib.Path(folder, "none.boxes")), FileNotFoundError)
        assert scene._program._sent == sent, "a line was sent"


def files():
    with Scene() as scene, tempfile.TemporaryDirectory() as folder:
        solid, filled = some_input(scene, random.Random(7), "a", 3)
        other = scene.input("b", 3)
        for suffix, form in (("nevm", "evm"), ("boxes", "boxes"), ("faces", "faces"), ("obj", "obj")):
            path = pathlib.Path(folder, f"a file.{suffix}")
            path.write_text("what was there")
            assert solid.save(path) == path.stat().st_size and path.read_bytes() == cells.WRITERS[form](filled, 3), suffix
        for suffix in ("nevm", "boxes"):
            other.cut((-9, -9, -9), (9, 9, 9))
            assert other.load(f"{folder}/a file.{suffix}") == 1 and shown(other) == filled
        assert other.load(TOP / "examples" / "scan.pgm", threshold=150) == 1 and other.content == 1442
        assert other.load(TOP / "examples" / "mask.y4m", threshold=128) == 1 and other.content == 1569
        refused(lambda: solid.save(f"{folder}/none/a.boxes"), FileNotFoundError)
        assert sorted(os.listdir(folder)) == [f"a file.{suffix}" for suffix in ("boxes", "faces", "nevm", "obj")]


def meters():
    with Scene() as scene:
        a = scene.input("a", 2)
        both = a | a.shift((1, 0))
        area = both.watch("content")
        with a.watch("vertices") as corners, a.watch("boundary") as edge:
            a.add((0, 0), (3, 2))
            assert (area.first, area.read(), corners.read(), edge.read()) == (0, 8, 4, 10)
            refused(lambda: scene.drop(a), bothrelyd.InUse, "drop a")
        refused(corners.read, bothrelyd.NoMeter, "read 2")
        assert a.watch("vertices").first == 4
        refused(lambda: a.watch("vertices"), bothrelyd.NoMeter, "meter 5 a")


def lost():
    """What is left where the program ends, or the scene is closed."""
    scene = Scene()
    a, folder = scene.input("a", 2), scene._files.path
    scene._program._process.kill()
    refused(lambda: a.content, bothrelyd.ProgramLost)
    refused(lambda: a.content, bothrelyd.ProgramLost)
    scene.close()
    assert not folder.exists()
    with Scene() as scene:
        a = scene.input("a", 2)
    scene.close()
    refused(lambda: a.content, bothrelyd.ProgramLost)
    refused(lambda: Scene("true").input("a", 2), bothrelyd.ProgramLost)
    with Scene() as scene:
        a, read = scene.input("a", 2), scene._program._line
        scene._program._line = interrupt
        refused(lambda: a.content, KeyboardInterrupt)
        scene._program._line = read
        refused(lambda: a.content, bothrelyd.ProgramLost)
    left = python("import bothrelyd\nscene = bothrelyd.Scene()\nprint(scene._files.path)").strip()
    assert left and not pathlib.Path(left).exists(), "a scene that was not closed leaves its folder"
    most = bothrelyd.program.MOST_BYTES
    try:
        bothrelyd.program.MOST_BYTES = 35
        with Scene() as scene:
            a = scene.input("a", 2)
            a.add((0, 0), (5, 5))
            refused(lambda: a.add((0, 0), (5, 5)), bothrelyd.ScriptFull)
            assert a.content == 25
    finally:
        bothrelyd.program.MOST_BYTES = most


def interrupt():
    raise KeyboardInterrupt


FULL = """
import resource, bothrelyd, sys
with bothrelyd.Scene() as scene, open("kept.boxes", "w") as file:
    file.write("kept")
    file.close()
    a = scene.input("a", 2)
    a.add((0, 0), (9, 9))
    resource.setrlimit(resource.RLIMIT_FSIZE, (10, 10))
    for action in (lambda: scene._files.put(bytes(100)), lambda: a.save("kept.boxes")):
        try:
            action()
        except bothrelyd.DiskFull:
            print("full")
    print(open("kept.boxes").read(), a.content)
"""


def full_disk():
    assert python(FULL) == "full\nfull\nkept 81\n", python(FULL)


def python(code: str, environment=None, folder=None) -> str:
    with tempfile.TemporaryDirectory() as own:
        done = subprocess.run([sys.executable, "-c", code], capture_output=True, text=True, cwd=folder or own, env=environment or ENVIRONMENT)
    return done.stdout + done.stderr


LOOK = "import bothrelyd\ntry:\n    with bothrelyd.Scene() as s: print(s.box((0, 0), (2, 3)).content)\nexcept bothrelyd.ProgramMissing as e: print(e)"


def found():
    """The program is found by the variable, beside the checkout and on the path; and where it is not, the text says what to do."""
    bare = {name: value for name, value in ENVIRONMENT.items() if name not in ("EVM", "PYTHONPATH")} | {"PATH": ""}
    if PROGRAM == BUILT:
        assert python(LOOK, bare | {"PYTHONPATH": str(PACKAGE)}) == "6\n", "beside the checkout"
    with tempfile.TemporaryDirectory() as folder:
        shutil.copytree(PACKAGE / "bothrelyd", f"{folder}/bothrelyd")
        os.symlink(PROGRAM, f"{folder}/evm")
        elsewhere = bare | {"PYTHONPATH": folder}
        assert python(LOOK, elsewhere | {"EVM": str(PROGRAM)}) == "6\n", "by EVM"
        assert python(LOOK, elsewhere | {"PATH": folder}) == "6\n", "on the path"
        for words in ({}, {"EVM": f"{folder}/none"}):
            assert "./evm run < examples/first-run.evm" in python(LOOK, elsewhere | words), "a missing program"


def installed():
    """By pip without build isolation and without dependencies, into a folder of its own, from a copy, since a build may leave files there."""
    if importlib.util.find_spec("pip") is None:
        raise Skipped
    with tempfile.TemporaryDirectory() as folder:
        shutil.copytree(PACKAGE, f"{folder}/source")
        words = ["install", "--quiet", "--no-build-isolation", "--no-deps", "--no-index", "--disable-pip-version-check", "--target", f"{folder}/target"]
        done = subprocess.run([sys.executable, "-m", "pip", *words, f"{folder}/source"], capture_output=True, text=True)
        assert done.returncode == 0, done.stderr
        assert (pathlib.Path(folder) / "target" / "bothrelyd" / "py.typed").exists()
        there = {name: value for name, value in ENVIRONMENT.items() if name != "EVM"} | {"PYTHONPATH": f"{folder}/target", "PATH": ""}
        assert python(LOOK, there | {"EVM": str(PROGRAM)}) == "6\n", "by EVM"
        assert "./evm run" in python(LOOK, there), "a checkout without a program"
        checkout = pathlib.Path(folder, bothrelyd.program.BUILT)
        checkout.parent.mkdir(parents=True)
        checkout.symlink_to(PROGRAM)
        assert python(LOOK, there) == "6\n", "the checkout that it was installed from"


def docstrings():
    done = doctest.testmod(bothrelyd)
    assert done.attempted and not done.failed


def documented():
    """docs/PYTHON.md names all that can be called and caught."""
    text = (TOP / "docs" / "PYTHON.md").read_text()
    calls = {name for kind in (Scene, bothrelyd.Input, bothrelyd.Solid, bothrelyd.Meter) for name, what in vars(kind).items()
             if not name.startswith("_") and (callable(what) or isinstance(what, property))}
    faults = {name for name in bothrelyd.__all__ if issubclass(getattr(bothrelyd, name), Exception)}
    silent = [name for name in sorted(calls | faults) if not re.search(rf"\b{name}\b", text)]
    assert not silent, f"nothing is said of {silent}"


def tour(code: str):
    """A block of docs/PYTHON.md, in a copy of the examples: it prints what its comments say."""
    if "numpy" in code and not HAS_NUMPY:
        raise Skipped
    with tempfile.TemporaryDirectory() as folder:
        shutil.copytree(TOP / "examples", folder, dirs_exist_ok=True)
        got, wanted = python(code, folder=folder), "".join(f"{line}\n" for line in PRINTED.findall(code))
    assert got == wanted, f"prints\n{got}where the comments say\n{wanted}"


def gallery():
    import scan
    assert scan.picture() == (TOP / "docs" / "gallery" / "scan.svg").read_text()


def trials():
    """The name of each trial, and what to call."""
    for dim in range(2, 7):
        yield f"questions in {dim} dimensions", lambda dim=dim: questions(dim)
        yield f"formulas in {dim} dimensions", lambda dim=dim: formulas(dim)
    for trial in (names, many_edits, refusals, not_sent, files, meters, lost, full_disk, found, installed, docstrings, documented, gallery):
        yield trial.__name__, trial
    for number, code in enumerate(BLOCK.findall((TOP / "docs" / "PYTHON.md").read_text()), 1):
        yield f"docs/PYTHON.md, block {number}", lambda code=code: tour(code)
    if not HAS_NUMPY:
        yield "arrays", skip
        return
    import python_arrays
    yield from python_arrays.trials(Skipped, HAS_SCIPY)


def skip():
    raise Skipped


def main() -> int:
    tally, skipped = Tally("python package"), 0
    if PROGRAM == BUILT:
        subprocess.run([str(TOP / "evm"), "run"], stdin=subprocess.DEVNULL, check=True)
    os.environ["EVM"] = str(PROGRAM)
    for name, trial in trials():
        try:
            trial()
            tally.count(True, name)
        except Skipped:
            skipped += 1
        except Exception as fault:
            tally.count(False, f"python/, {name}: {type(fault).__name__}: {fault}")
    return tally.status(f", {skipped} skipped")


if __name__ == "__main__":
    sys.exit(main())
