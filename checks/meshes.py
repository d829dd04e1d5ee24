#!/usr/bin/env python3
"""The OBJ files that the program saves enclose the solid.

Of each mesh the faces are summed with their orientation, along each axis: they enclose the content that the program answers, and their areas are
its boundary content. A reader of a dozen lines stands for other programs; where one of them is installed, it loads a mesh as well, and answers the same
volume or number of faces.
"""
import importlib.util
import pathlib
import re
import shutil
import subprocess
import sys
import tempfile

from tally import Tally

TOP = pathlib.Path(__file__).resolve().parent.parent
SOLIDS = {
    "a cube": "input a 3\nadd a 0 0 0 1 1 1\n",
    "two cubes that meet at a corner": "input a 3\nadd a 0 0 0 1 1 1\nadd a 1 1 1 2 2 2\n",
    "a room in a block": "input a 3\nadd a -4 -5 -6 4 5 6\ncut a -1 -1 -1 2 2 2\n",
    "openings that cross": "input a 3\nadd a 0 0 0 9 8 7\ncut a 3 -1 2 6 9 5\ncut a -1 3 3 10 5 4\nadd a 2 2 7 4 4 9\n",
    "a scan": "input a 3\nload a pgm 120 scan.pgm\n",
}


def polygons(text: str) -> list[list[tuple[int, ...]]]:
    lines = [line.split() for line in text.splitlines()]
    points = [tuple(map(int, words[1:])) for words in lines if words[0] == "v"]
    return [[points[int(word) - 1] for word in words[1:]] for words in lines if words[0] == "f"]


def normal(polygon: list[tuple[int, ...]]) -> list[int]:
    """The area of a rectangle along the axis across it, negative where it is seen from lesser coordinates."""
    a, b, c = polygon[:3]
    u, v = ([q - p for p, q in zip(*pair)] for pair in ((a, b), (b, c)))
    return [u[k - 2] * v[k - 1] - u[k - 1] * v[k - 2] for k in range(3)]


def measured(mesh: str) -> tuple[list[int], int]:
    """The volume that the faces enclose, along each axis, and their area."""
    faces = [(polygon, normal(polygon)) for polygon in polygons(mesh)]
    return [sum(polygon[0][k] * area[k] for polygon, area in faces) for k in range(3)], sum(abs(sum(area)) for _, area in faces)


def assimp(path: str, faces: int) -> bool:
    said = subprocess.run(["assimp", "info", path], capture_output=True, text=True).stdout
    return re.search(r"Faces:\s+(\d+)", said) is not None and int(re.search(r"Faces:\s+(\d+)", said)[1]) in (faces, 2 * faces)


def trimesh(path: str, volume: int) -> bool:
    code = f"import trimesh; print(round(trimesh.load({path!r}, force='mesh').volume))"
    return subprocess.run([sys.executable, "-c", code], capture_output=True, text=True).stdout.strip() == str(volume)


def main() -> int:
    tally, others = Tally("meshes"), 0
    for name, script in SOLIDS.items():
        with tempfile.TemporaryDirectory() as folder:
            shutil.copy(TOP / "examples" / "scan.pgm", folder)
            script += "content a\nboundary a\nsave a obj a.obj\n"
            done = subprocess.run([str(TOP / "evm"), "run"], input=script, capture_output=True, text=True, cwd=folder)
            path = pathlib.Path(folder) / "a.obj"
            content, boundary, size = (int(line.split()[1]) for line in done.stdout.splitlines()[-3:])
            text = path.read_text()
            volumes, area = measured(text)
            tally.count(volumes == [content] * 3, f"{name}: the faces enclose {volumes}, where the content is {content}")
            tally.count(area == boundary, f"{name}: the faces have the area {area}, where the boundary content is {boundary}")
            tally.count(size == path.stat().st_size, f"{name}: {size} is not the length of the file")
            if shutil.which("assimp"):
                others += 1
                tally.count(assimp(str(path), len(polygons(text))), f"{name}: assimp finds other faces")
            if importlib.util.find_spec("trimesh"):
                others += 1
                tally.count(trimesh(str(path), content), f"{name}: trimesh finds another volume")
    return tally.status(f", {others} of them by another program")


if __name__ == "__main__":
    sys.exit(main())
