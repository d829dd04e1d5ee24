#!/usr/bin/env python3
"""Draws scan.svg of this folder by the Python package, from sections of formulas over the scan of the examples: no numpy is needed.

    python3 docs/gallery/scan.py > scan.svg
"""
import pathlib
import sys

import draw

sys.path.insert(0, str(pathlib.Path(__file__).resolve().parents[2] / "python"))
from bothrelyd import Scene  # noqa: E402

STACK = draw.EXAMPLES / "scan.pgm"


def picture() -> str:
    """The picture of the two sections, as SVG."""
    with Scene() as scene:
        body, core = scene.input("body", 3), scene.input("core", 3)
        body.load(STACK, threshold=90)
        core.load(STACK, threshold=150)
        sections = [[solid.section(axis, k) for solid in (body - core, core)] for axis, k in ((3, 12), (1, 20))]
        return draw.scan_of(sections, body.content, core.content, core.boundary).svg()


if __name__ == "__main__":
    sys.stdout.write(picture())
