#!/usr/bin/env python3
"""Measures the package of python/ beside the program alone, and beside numpy alone. No part of the gate; takes less than a minute.

    python3 bench/python.py                   the program of this repository, where it is built
    EVM=path/to/evm python3 bench/python.py   another program of the same language

Edits: 10,000 small edits, one by one and all at once, beside the same script by `evm run`; whole runs, with the start of the program. Arrays, where numpy
is installed: a smooth mask of 512 by 512 by 100 cells into a scene and out again, beside the differences and the parity sums along each axis that numpy
takes for it. Best of three, or of five.
"""
import importlib.util
import pathlib
import random
import subprocess
import sys
import time

sys.path.insert(0, str(pathlib.Path(__file__).resolve().parent.parent / "python"))
from bothrelyd import Scene  # noqa: E402
from bothrelyd.program import find_program  # noqa: E402

COUNT, SHAPE = 10000, (512, 512, 100)
FORMULAS = {"no formula": 0, "a shift and a difference": 1}


def best(action, times: int = 3) -> float:
    """Seconds of the quickest of some calls."""
    found = []
    for _ in range(times):
        start = time.perf_counter()
        action()
        found.append(time.perf_counter() - start)
    return min(found)


def edits() -> list:
    draw = random.Random(1)
    for _ in range(COUNT):
        low = [draw.randrange(1000) for _ in range(3)]
        yield draw.choice(("add", "cut", "toggle")), low, [number + 1 + draw.randrange(4) for number in low]


def prepared(scene: Scene, formulas: int):
    solid = scene.input("a", 3)
    if formulas:
        scene.define("b", solid - solid.shift((1, 0, 0)))
    return solid


def singly(formulas: int, script: list):
    with Scene() as scene:
        solid = prepared(scene, formulas)
        for word, low, high in script:
            getattr(solid, word)(low, high)


def together(formulas: int, script: list):
    with Scene() as scene:
        prepared(scene, formulas).edit_all(script)


def alone(formulas: int, script: list):
    head = ["input a 3"] + ["def py_1 shift a 1 0 0", "def b sub a py_1"] * (formulas > 0)
    lines = head + [" ".join([word, "a", *map(str, low + high)]) for word, low, high in script]
    subprocess.run([find_program(), "run"], input="\n".join(lines).encode(), stdout=subprocess.PIPE, check=True)


def measure_edits():
    script = list(edits())
    for name, formulas in FORMULAS.items():
        run, one, many = (best(lambda: action(formulas, script)) for action in (alone, singly, together))
        print(f"{COUNT} edits under {name}: evm run {run:.3f} s, one by one {one:.3f} s ({one / run:.2f}), edit_all {many:.3f} s ({many / run:.2f})")


def measure_arrays():
    import numpy as np
    x, y, z = (np.arange(n, dtype=np.float32) for n in SHAPE)
    waves = np.sin(x / 23)[:, None, None] + np.sin(y / 19)[None, :, None] + np.sin(z / 13)[None, None, :]
    mask = waves + np.sin((x[:, None] + y[None, :]) / 31)[:, :, None] > 0.5

    def differences():
        found = mask
        for axis in range(mask.ndim):
            found = np.diff(found, axis=axis, prepend=False, append=False)
        return found

    def sums():
        found = changes[:-1, :-1, :-1]
        for axis in range(mask.ndim):
            found = np.logical_xor.accumulate(found, axis=axis)
        return found

    changes = differences()
    assert np.array_equal(sums(), mask)
    with Scene() as scene:
        solid = scene.input("a", 3)
        there = lambda: (solid.cut((0, 0, 0), SHAPE), solid.load(mask))
        empty = best(lambda: solid.cut((0, 0, 0), SHAPE), 5)
        times = best(differences, 5), best(sums, 5), best(there, 5) - empty, best(lambda: solid.array((0, 0, 0), SHAPE), 5)
        assert np.array_equal(solid.array((0, 0, 0), SHAPE), mask)
        count = len(solid.vertices())
    apart, back, into, out = times
    print(f"a mask of {SHAPE}, {np.count_nonzero(mask)} cells and {count} vertices: differences {apart:.3f} s, parity sums {back:.3f} s in numpy alone; "
          f"in {into:.3f} s, out {out:.3f} s; both {(into + out) / (apart + back):.2f} times")


if __name__ == "__main__":
    measure_edits()
    if importlib.util.find_spec("numpy"):
        measure_arrays()
    else:
        print("arrays: skipped, numpy is not installed")
