#!/usr/bin/env python3
"""The gallery shows what the program answers.

For each script of docs/gallery: the program's replies, taken through the driver, and the files that it saves are those that counting cells gives;
and the picture that docs/gallery/draw.py makes from them is the one that stands there.
"""
import pathlib
import sys

import cells

from tally import Tally

TOP = pathlib.Path(__file__).resolve().parent.parent
GALLERY = TOP / "docs" / "gallery"
sys.path.insert(0, str(GALLERY))
import draw  # noqa: E402


def by_cells(name):
    """The replies and the files that the model gives."""
    session = cells.Session(draw.EXAMPLES)
    answers = ((command, session.answer(command)) for command in (GALLERY / f"{name}.evm").read_text().splitlines())
    return [(command, reply) for command, reply in answers if reply], session.saved


def main() -> int:
    tally = Tally("gallery")
    scripts = sorted(path.stem for path in GALLERY.glob("*.evm"))
    tally.count(scripts == sorted(draw.PICTURES), f"docs/gallery has the scripts {scripts}, draw.py draws {sorted(draw.PICTURES)}")
    for name in draw.PICTURES:
        try:
            got, files = draw.run(name)
        except RuntimeError as fault:
            tally.count(False, f"docs/gallery/{name}.evm: {fault}")
            continue
        wanted, saved = by_cells(name)
        first = next((f"{a[0]}: {a[1][0]}, where cells give {b[1][0]}" for a, b in zip(got, wanted) if a != b), "other replies")
        tally.count(got == wanted, f"docs/gallery/{name}.evm: {first}")
        tally.count(files == saved, f"docs/gallery/{name}.evm: other files than those that cells give")
        if all(reply[0].startswith("ok") for _, reply in got):
            svg, stands = draw.PICTURES[name](dict(got), files).svg(), GALLERY / f"{name}.svg"
            tally.count(stands.is_file() and stands.read_text() == svg, f"docs/gallery/{name}.svg is not what draw.py makes")
        else:
            tally.count(False, f"docs/gallery/{name}.svg: a line was refused, so there is nothing to draw")
    return tally.status()


if __name__ == "__main__":
    sys.exit(main())
