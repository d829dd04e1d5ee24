#!/usr/bin/env python3
"""Runs what docs/FORMATS.md says about bringing data in and taking results out, and loads what it makes.

The commands are taken from the document. Those of programs that are not installed or that do not work here, and the block for numpy without
numpy, are skipped.
"""
import importlib.util
import pathlib
import re
import shutil
import struct
import subprocess
import sys
import tempfile
import zlib

from tally import Tally

TOP = pathlib.Path(__file__).resolve().parent.parent
TEXT = (TOP / "docs" / "FORMATS.md").read_text()
WIDTH, HEIGHT, IMAGES, THRESHOLD = 10, 7, 3, 100
SAMPLES = [[[(x * 37 + y * 53 + z * 71) % 256 for x in range(WIDTH)] for y in range(HEIGHT)] for z in range(IMAGES)]
COUNT = sum(sample >= THRESHOLD for image in SAMPLES for row in image for sample in row)
STACK = f"input a 3\nload a pgm {THRESHOLD} scan.pgm\ncontent a\n", f"ok 0\nok 1\nok {COUNT}\n"


def command(program: str) -> str:
    """The command of the document that begins with, or calls, this program."""
    cells = re.findall(r"^\|.*?\| `(.+?)`(?: \(.*?\))? \|", TEXT, re.M)
    return next(cell for cell in cells if program in cell).replace("\\|", "|")


def block(word: str) -> str:
    return next(code for code in re.findall(r"^```python\n(.*?)^```", TEXT, re.M | re.S) if word in code)


def run(script: str, folder: str) -> str:
    done = subprocess.run([str(TOP / "evm"), "run"], input=script, capture_output=True, text=True, cwd=folder)
    return done.stdout + done.stderr


class NotHere(Exception):
    """A program that is not this project's does not do what it is asked."""


def outside(line: str, folder: str):
    if subprocess.run(line, shell=True, cwd=folder, capture_output=True).returncode:
        raise NotHere


def python(code: str, folder: str) -> str:
    done = subprocess.run([sys.executable, "-c", code], capture_output=True, text=True, cwd=folder)
    return done.stdout + done.stderr


def png(rows: list[list[int]]) -> bytes:
    """A grey image of 8 bits."""
    def chunk(kind: bytes, data: bytes) -> bytes:
        return struct.pack(">I", len(data)) + kind + data + struct.pack(">I", zlib.crc32(kind + data))
    lines = b"".join(b"\0" + bytes(row) for row in rows)
    head = struct.pack(">IIBBBBB", WIDTH, HEIGHT, 8, 0, 0, 0, 0)
    return b"\x89PNG\r\n\x1a\n" + chunk(b"IHDR", head) + chunk(b"IDAT", zlib.compress(lines)) + chunk(b"IEND", b"")


def slices(program: str):
    """The stack that a program makes of images."""
    def tried(folder: str) -> tuple[str, str]:
        for number, rows in enumerate(SAMPLES):
            (pathlib.Path(folder) / f"slice-{number}.png").write_bytes(png(rows))
        outside(command(program), folder)
        return run(STACK[0], folder), STACK[1]
    return tried


def table(folder: str) -> tuple[str, str]:
    (pathlib.Path(folder) / "rooms.csv").write_text("0,0,2,2\n1,1,3,3\n")
    outside(command("awk"), folder)
    return run("input a 2\nload a boxes rooms.boxes\ncontent a\nboundary a\n", folder), "ok 0\nok 1\nok 7\nok 12\n"


def volume(folder: str) -> tuple[str, str]:
    made = python(f"import numpy\nnumpy.save('scan.npy', numpy.array({SAMPLES}))\n" + block("numpy"), folder)
    return made + run(STACK[0], folder), STACK[1]


def rows_of_file(folder: str) -> tuple[str, str]:
    run("input ring 2\nadd ring 0 0 3 3\ncut ring 1 1 2 2\nsave ring evm ring.nevm\n", folder)
    corners = [(0, 0), (0, 3), (1, 1), (1, 2), (2, 1), (2, 2), (3, 0), (3, 3)]
    return python(block("struct"), folder), f"2 8 {corners}\n"


def main() -> int:
    trials = {
        "a table by awk": (table, shutil.which("awk")),
        "images by ImageMagick": (slices("convert"), shutil.which("convert")),
        "images by netpbm": (slices("pngtopnm"), shutil.which("pngtopnm")),
        "a volume of numpy": (volume, importlib.util.find_spec("numpy")),
        "the rows of an EVM file": (rows_of_file, True),
    }
    tally = Tally("formats")
    for name, (tried, installed) in trials.items():
        if not installed:
            continue
        try:
            with tempfile.TemporaryDirectory() as folder:
                got, wanted = tried(folder)
        except NotHere:
            continue
        tally.compare(f"docs/FORMATS.md, {name}", got, wanted)
    return tally.status(f", {len(trials) - tally.passed - tally.failed} not installed")


if __name__ == "__main__":
    sys.exit(main())
