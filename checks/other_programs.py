#!/usr/bin/env python3
"""Loads files that other programs wrote: a video of ffmpeg, an image of netpbm. One that is not installed, or does not work here, is skipped.

The samples are made here, so that the cells which a threshold leaves are known without any of the programs.
"""
import pathlib
import shutil
import subprocess
import sys
import tempfile

from tally import Tally

TOP = pathlib.Path(__file__).resolve().parent.parent
WIDTH, HEIGHT, FRAMES, THRESHOLD = 10, 7, 3, 100


def sample(x: int, y: int, z: int) -> int:
    return (x * 37 + y * 53 + z * 71) % 256


def samples(frames: int) -> bytes:
    return bytes(sample(x, y, z) for z in range(frames) for y in range(HEIGHT) for x in range(WIDTH))


def filled(frames: int) -> set[tuple[int, int, int]]:
    places = ((x, y, z) for z in range(frames) for y in range(HEIGHT) for x in range(WIDTH))
    return {place for place in places if sample(*place) >= THRESHOLD}


def script_and_replies(form: str, file: str, dim: int, cells: set[tuple[int, int, int]]) -> tuple[str, str]:
    """Loads the file, counts its cells, and asks for one cell that is filled and one that is not."""
    inside = min(cells)
    outside = min({(x, y, 0) for x in range(WIDTH) for y in range(HEIGHT)} - cells)
    script = ["input a %d" % dim, f"load a {form} {THRESHOLD} {file}", "content a"]
    script += ["at a " + " ".join(map(str, place[:dim])) for place in (inside, outside)]
    return "\n".join(script) + "\n", f"ok 0\nok 1\nok {len(cells)}\nok filled\nok empty\n"


def ffmpeg(folder: pathlib.Path) -> tuple[str, str]:
    command = f"ffmpeg -v error -f rawvideo -pix_fmt gray -s {WIDTH}x{HEIGHT} -i samples -pix_fmt gray -f yuv4mpegpipe -strict -1 film.y4m"
    (folder / "samples").write_bytes(samples(FRAMES))
    subprocess.run(command.split(), cwd=folder, check=True)
    return script_and_replies("y4m", "film.y4m", 3, filled(FRAMES))


def netpbm(folder: pathlib.Path) -> tuple[str, str]:
    (folder / "samples").write_bytes(samples(1))
    with open(folder / "scan.pgm", "wb") as image:
        subprocess.run(["rawtopgm", str(WIDTH), str(HEIGHT), "samples"], cwd=folder, stdout=image, check=True)
    return script_and_replies("pgm", "scan.pgm", 2, filled(1))


def answered(make) -> tuple[str, str]:
    """What the program answers to a script over a file that another program makes, and what it has to."""
    with tempfile.TemporaryDirectory() as name:
        script, wanted = make(pathlib.Path(name))
        done = subprocess.run([str(TOP / "evm"), "run"], input=script, capture_output=True, text=True, cwd=name)
    return done.stdout + done.stderr, wanted


def main() -> int:
    makers = [make for tool, make in (("ffmpeg", ffmpeg), ("rawtopgm", netpbm)) if shutil.which(tool)]
    tally = Tally("other programs")
    for make in makers:
        try:
            got, wanted = answered(make)
        except subprocess.CalledProcessError as fault:
            print(f"{make.__name__} does not work here: {fault}")
            continue
        tally.compare(make.__name__, got, wanted)
    return tally.status(f", {2 - tally.passed - tally.failed} not installed", may_be_none=True)


if __name__ == "__main__":
    sys.exit(main())
