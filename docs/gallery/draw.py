#!/usr/bin/env python3
"""Draws the pictures of this folder from what the program answers to the scripts beside them; standard library only.

    python3 docs/gallery/draw.py [FOLDER]      writes NAME.svg for each NAME of PICTURES; without words, beside this script

Each script is run in a copy of the folder examples/, where the files lie that it loads. What is drawn comes from vertices: in the
plane each of them ends one vertical and one horizontal edge, so they pair up along both axes, and the edges close to loops. The mesh
comes from the OBJ file that its script saves.
"""
import collections
import fractions
import itertools
import pathlib
import shutil
import sys
import tempfile

HERE = pathlib.Path(__file__).resolve().parent
EXAMPLES = HERE.parent.parent / "examples"
sys.path.insert(0, str(EXAMPLES))
from driver import replies  # noqa: E402

PAPER, INK, FAINT = "#fcfbf8", "#2b2b2b", "#d9d5cc"
BLUE, ORANGE, RED, SAND = "#7ba7cf", "#eab464", "#c8372d", "#f0d9b5"


# Replies

def rows(reply):
    """The vertices of the reply to `show`, `section` or `project`."""
    if not reply[0].startswith("ok"):
        raise SystemExit(f"draw.py: the program answered {reply[0]}")
    return [tuple(int(word) for word in line.split()) for line in reply[1:]]


def number(reply):
    return reply[0].removeprefix("ok ")


# Vertices to edges, loops and cells

def edges(vertices, axis):
    """The edges along an axis: on each line the vertices in pairs."""
    lines = collections.defaultdict(list)
    for vertex in sorted(vertices):
        lines[vertex[:axis] + vertex[axis + 1:]].append(vertex)
    return [pair for line in lines.values() for pair in zip(line[::2], line[1::2])]


def loops(vertices):
    """The outline of a solid of the plane as closed polygons; filled by the even-odd rule they are the solid."""
    partner = [dict(edges(vertices, axis) + [(b, a) for a, b in edges(vertices, axis)]) for axis in (0, 1)]
    left, found = set(vertices), []
    for start in sorted(vertices):
        loop, at, axis = [], start, 0
        while at in left:
            left.remove(at)
            loop.append(at)
            at, axis = partner[axis][at], 1 - axis
        if loop:
            found.append(loop)
    return found


def cells(vertices):
    """The cells of a solid: those with an odd number of vertices at or below them on every axis."""
    ranges = [range(min(numbers), max(numbers)) for numbers in zip(*vertices)]
    below = lambda cell: sum(all(a <= b for a, b in zip(vertex, cell)) for vertex in vertices)
    return {cell for cell in itertools.product(*ranges) if below(cell) % 2}


# SVG

class Picture:
    """An SVG in the making. Coordinates are pixels; `place` maps a point of the drawing to them."""

    def __init__(self, width, height, title):
        self.width, self.height, self.title, self.parts = width, height, title, []
        self.add("rect", width=width, height=height, fill=PAPER)
        self.text(24, 34, title, size=19, weight="bold")

    def add(self, tag, body=None, **attributes):
        words = "".join(f' {key.replace("_", "-")}="{value if isinstance(value, str) else round(value, 2)}"' for key, value in attributes.items())
        self.parts.append(f"<{tag}{words}/>" if body is None else f"<{tag}{words}>{body}</{tag}>")

    def text(self, x, y, words, size=13, weight="normal", fill=INK, anchor="start"):
        self.add("text", words, x=x, y=y, font_size=size, font_weight=weight, fill=fill, text_anchor=anchor)

    def polygons(self, polygons, place, **style):
        """Closed polygons as one path."""
        path = "".join("M" + "L".join("%.5g,%.5g" % place(*point) for point in polygon) + "Z" for polygon in polygons)
        if path:
            self.add("path", d=path, fill_rule="evenodd", **style)

    def segments(self, pairs, place, **style):
        path = "".join("M%.5g,%.5gL%.5g,%.5g" % (place(*a) + place(*b)) for a, b in pairs)
        if path:
            self.add("path", d=path, fill="none", **style)

    def dots(self, points, place, radius, **style):
        for point in points:
            x, y = place(*point)
            self.add("circle", cx=x, cy=y, r=radius, **style)

    def legend(self, x, y, entries):
        """Lines of a mark and words: ("dot" or "box", style of the mark, words)."""
        for k, (mark, style, words) in enumerate(entries):
            middle = y + 24 * k
            if mark == "dot":
                self.add("circle", cx=x + 9, cy=middle, r=4, **style)
            else:
                self.add("rect", x=x, y=middle - 7, width=18, height=14, **style)
            self.text(x + 28, middle + 5, words)

    def scale(self, x, y, length, words):
        self.add("path", d=f"M{x},{y - 5}v10m0,-5h{length}m0,-5v10", stroke=INK, stroke_width=1.5, fill="none")
        self.text(x + length + 8, y + 5, words, size=12)

    def svg(self):
        head = (f'<svg xmlns="http://www.w3.org/2000/svg" viewBox="0 0 {self.width} {self.height}" width="{self.width}" '
                f'height="{self.height}" role="img" font-family="DejaVu Sans, Verdana, sans-serif">\n<title>{self.title}</title>\n')
        return head + "\n".join(self.parts) + "\n</svg>\n"


# The pictures: each from a dictionary that gives the reply to each command of its script, and one of the files that the script saved

def union(said, _files):
    house, annex, both = (rows(said[f"show {name}"]) for name in ("house", "annex", "union"))
    picture = Picture(800, 640, "The union of two plans")
    place = lambda x, y: (40 + 10 * x, 430 - 10 * y)
    picture.polygons(loops(house), place, fill=BLUE)
    picture.polygons(loops(annex), place, fill=ORANGE, fill_opacity=0.85)
    picture.polygons(loops(both), place, fill="none", stroke=INK, stroke_width=1.4)
    picture.dots(both, place, 3.2, fill=RED)
    picture.legend(40, 476, [
        ("box", {"fill": BLUE}, f'house: {number(said["content house"])} unit squares of wall'),
        ("box", {"fill": ORANGE}, f'annex: {number(said["content annex"])}'),
        ("box", {"fill": "none", "stroke": INK}, f'union: {number(said["content union"])}, with {number(said["boundary union"])} units of outline'),
        ("dot", {"fill": RED}, f"its {len(both)} extreme vertices"),
    ])
    picture.scale(40, 604, 100, "10 units")
    return picture


def panel(picture, place, width, height, across, down):
    """The frame of a section, with a grid of eight cells and the names of its axes."""
    left, top = place(0, 0)
    right, bottom = place(width, height)
    picture.add("rect", x=left, y=top, width=right - left, height=bottom - top, fill="#ffffff", stroke=FAINT)
    grid = [((x, 0), (x, height)) for x in range(8, width, 8)] + [((0, y), (width, y)) for y in range(8, height, 8)]
    picture.segments(grid, place, stroke=FAINT)
    for x in range(0, width + 1, 8):
        picture.text(place(x, 0)[0], top - 7, str(x), size=11, anchor="middle")
    for y in range(0, height + 1, 8):
        picture.text(left - 7, place(0, y)[1] + 4, str(y), size=11, anchor="end")
    picture.text((left + right) / 2, top - 24, across, size=12, anchor="middle")
    picture.text(left - 36, (top + bottom) / 2 + 4, down, size=12, anchor="middle")


def scan(said, _files):
    sections = [[rows(said[f"section {name} {cut}"]) for name in ("soft", "core")] for cut in ("3 12", "1 20")]
    return scan_of(sections, *(int(number(said[question])) for question in ("content body", "content core", "boundary core")))


def scan_of(sections, body, core, surface):
    """The picture of a scan: of each of two sections the vertices of the soft part and of the core; then the contents, and the surface of the core."""
    picture = Picture(820, 560, "A section through a scan, and one across it")
    soft, dense = {"fill": SAND, "stroke": INK, "stroke_width": 0.8}, {"fill": RED, "stroke": INK, "stroke_width": 0.8}
    first, second = (lambda x, y: (70 + 10 * x, 100 + 10 * y)), (lambda y, z: (470 + 10 * y, 100 + 10 * z))
    for place, height, names, (around, within) in zip((first, second), (32, 24), ("xy", "yz"), sections):
        panel(picture, place, 32, height, *names)
        picture.polygons(loops(around), place, **soft)
        picture.polygons(loops(within), place, **dense)
    picture.segments([((20.5, -0.4), (20.5, 32.4))], first, stroke=BLUE, stroke_width=2, stroke_dasharray="6 4")
    picture.segments([((-0.4, 12.5), (32.4, 12.5))], second, stroke=BLUE, stroke_width=2, stroke_dasharray="6 4")
    picture.text(70, 448, "slice z = 12 of the stack")
    picture.text(470, 368, "across all slices, at x = 20")
    picture.legend(70, 482, [
        ("box", dense, f"samples of at least 150: {core} cells in all, surface {surface}"),
        ("box", soft, f"samples of 90 to 149: {body - core} cells in all"),
    ])
    picture.segments([((0, 0), (18, 0))], lambda x, y: (70 + x, 530), stroke=BLUE, stroke_width=2, stroke_dasharray="6 4")
    picture.text(98, 535, "where the other section cuts")
    picture.scale(470, 404, 100, "10 cells")
    return picture


def mask(said, _files):
    picture = Picture(900, 620, "A mask over time: every second frame of a video")
    frame = [[(0, 0), (32, 0), (32, 24), (0, 24)]]
    area = loops(rows(said["show area"]))
    disc, inside = {"fill": BLUE, "stroke": INK, "stroke_width": 0.7}, {"fill": ORANGE, "stroke": INK, "stroke_width": 0.7}
    gate = {"fill": "none", "stroke": ORANGE, "stroke_width": 1.2, "stroke_dasharray": "4 3"}
    for t in range(0, 20, 2):
        place = lambda x, y: (36 + 39.5 * t + 3.1 * x, 118 - 1.1 * x + 6.6 * y)
        picture.polygons(frame, place, fill="#ffffff", fill_opacity=0.2, stroke=FAINT, stroke_width=1.2)
        picture.polygons(area, place, **gate)
        picture.polygons(loops(rows(said[f"section disc 3 {t}"])), place, **disc)
        picture.polygons(loops(rows(said[f"section inside 3 {t}"])), place, **inside)
        picture.text(36 + 39.5 * t, 298, str(t), size=12, anchor="middle")
    picture.text(36 + 39.5 * 9, 322, "frame", size=12, anchor="middle")
    flat = lambda x, y: (560 + 9 * x, 360 + 9 * y)
    picture.polygons(frame, flat, fill="#ffffff", stroke=FAINT, stroke_width=1.2)
    picture.polygons(loops(rows(said["project disc 3"])), flat, fill="#d5e3f0", stroke=INK, stroke_width=0.8)
    picture.polygons(area, flat, **gate)
    picture.text(560, 596, "all frames together: the projection along time", size=12)
    picture.legend(40, 384, [
        ("box", disc, f'the disc: {number(said["content disc"])} cells in 20 frames'),
        ("box", inside, f'what of it is in the gate: {number(said["content inside"])} cells'),
        ("box", gate, "the gate, the same in every frame"),
    ])
    picture.scale(380, 572, 90, "10 samples")
    return picture


VIEW = (4, -7, 5)       # from the solid to the eye: the faces of greater x, of lesser y and of greater z are seen
SHADES = {(0, 1): "#a9bfd2", (1, -1): "#c9d8e5", (2, 1): "#e9f0f6"}


def is_seen(point, solid):
    """Whether no cell of the solid stands between the point and the eye. Between two crossings of a plane the way is in one cell."""
    crossings = sorted({fractions.Fraction(plane - coordinate) / step for coordinate, step in zip(point, VIEW)
                        for plane in range(-1, 13) if (plane - coordinate) * step > 0} | {fractions.Fraction(0)})
    middles = [(a + b) / 2 for a, b in zip(crossings, crossings[1:])]
    return not any(tuple((coordinate + step * t).__floor__() for coordinate, step in zip(point, VIEW)) in solid for t in middles)


def parts_seen(edge, solid):
    """The parts of an edge that are in view and those that are not, to an eighth of a unit: two lists of pairs."""
    a, b = edge
    axis = next(k for k in range(3) if a[k] != b[k])
    at = lambda eighths: a[:axis] + (a[axis] + fractions.Fraction(eighths, 8),) + a[axis + 1:]
    found = {True: [], False: []}
    views = [is_seen(at(k + fractions.Fraction(1, 2)), solid) for k in range(8 * (b[axis] - a[axis]))]
    start = 0
    for view, run in itertools.groupby(views):
        end = start + len(list(run))
        found[view].append((at(start), at(end)))
        start = end
    return found[True], found[False]


def on_paper(x, y, z):
    """The view along VIEW, upright, 46 pixels a unit."""
    across = (7 * x + 4 * y) / 65 ** 0.5
    up = (-4 * 5 * x + 7 * 5 * y + 65 * z) / (65 * 90) ** 0.5
    return 70 + 48 * across, 520 - 48 * up


def face(cell, axis, side):
    """The corners of a face of a cell, in order round it."""
    a, b = (k for k in range(3) if k != axis)
    corner = list(cell)
    corner[axis] += side > 0
    found = []
    for i, j in ((0, 0), (1, 0), (1, 1), (0, 1)):
        at = list(corner)
        at[a] += i
        at[b] += j
        found.append(tuple(at))
    return found


def vertices(said, _files):
    points = rows(said["show solid"])
    solid = cells(points)
    picture = Picture(820, 680, "The extreme vertices of a solid")
    for cell in sorted(solid, key=lambda cell: sum(map(int.__mul__, cell, VIEW))):
        for (axis, side), shade in SHADES.items():
            if cell[:axis] + (cell[axis] + side,) + cell[axis + 1:] not in solid:
                picture.polygons([face(cell, axis, side)], on_paper, fill=shade, stroke=shade, stroke_width=0.6)
    parts = [parts_seen(edge, solid) for axis in range(3) for edge in edges(points, axis)]
    seen, behind = (list(itertools.chain(*lists)) for lists in zip(*parts))
    picture.segments(behind, on_paper, stroke="#8fa3b5", stroke_width=0.9, stroke_dasharray="3 4")
    picture.segments(seen, on_paper, stroke=INK, stroke_width=1.5, stroke_linecap="round")
    hidden = [point for point in points if not is_seen(point, solid)]
    picture.dots(hidden, on_paper, 3, fill=PAPER, stroke=RED, stroke_width=1.1)
    picture.dots([point for point in points if point not in hidden], on_paper, 4.2, fill=RED)
    for point in ((0, 0, 0), (0, 0, 9), (9, 5, 5), (11, 4, 1)):
        if point in points:
            x, y = on_paper(*point)
            picture.text(x + (-10 if point[0] == 0 else 10), y - 8, " ".join(map(str, point)), size=11, anchor="end" if point[0] == 0 else "start")
    for axis, name in enumerate("xyz"):
        place = lambda *point: tuple(map(sum, zip(on_paper(*point), (500, -290))))
        tip = tuple(2 if k == axis else 0 for k in range(3))
        picture.segments([((0, 0, 0), tip)], place, stroke=INK, stroke_width=1.5)
        picture.text(place(*tip)[0] + 6, place(*tip)[1] + 4, name)
    picture.text(560, 278, "the axes, two units long", size=12)
    picture.legend(470, 72, [
        ("dot", {"fill": RED}, f"extreme vertices in view: {len(points) - len(hidden)} of {len(points)}"),
        ("dot", {"fill": PAPER, "stroke": RED, "stroke_width": 1.1}, "extreme vertices behind the solid"),
    ])
    picture.text(470, 125, f'{number(said["content solid"])} unit cubes, surface {number(said["boundary solid"])}')
    return picture


def polygons_of(text):
    """The faces of an OBJ file, each as its corners in order."""
    lines = [line.split() for line in text.decode().splitlines()]
    points = [tuple(map(int, words[1:])) for words in lines if words[0] == "v"]
    return [[points[int(word) - 1] for word in words[1:]] for words in lines if words[0] == "f"]


def outside(polygon):
    """The axis across a face, and the side on which it is seen: 1 towards greater coordinates, -1 towards lesser ones."""
    a, b, c = polygon[:3]
    u, v = ([q - p for p, q in zip(*pair)] for pair in ((a, b), (b, c)))
    normal = [u[k - 2] * v[k - 1] - u[k - 1] * v[k - 2] for k in range(3)]
    axis = next(k for k in range(3) if normal[k])
    return axis, 1 if normal[axis] > 0 else -1


def squares(polygon):
    """The unit squares of a face that is seen, each with how near to the eye it is and with those of its sides that the face ends at."""
    axis, side = outside(polygon)
    low, high = (tuple(map(bound, zip(*polygon))) for bound in (min, max))
    behind = tuple(-1 if k == axis and side > 0 else 0 for k in range(3))
    for cell in itertools.product(*(range(a, max(b, a + 1)) for a, b in zip(low, high))):
        solid = tuple(map(sum, zip(cell, behind)))
        corners = face(solid, axis, side)
        ends = [(p, q) for p, q in zip(corners, corners[1:] + corners[:1])
                if any(k != axis and p[k] == q[k] and p[k] in (low[k], high[k]) for k in range(3))]
        yield sum(map(int.__mul__, solid, VIEW)), corners, ends, SHADES[axis, side]


def mesh(said, files):
    polygons = polygons_of(files["half.obj"])
    picture = Picture(820, 620, "A mesh: the dense core of a scan, cut open")
    place = lambda *point: tuple(0.5 * k + shift for k, shift in zip(on_paper(*point), (-190, 415)))
    seen = [square for polygon in polygons if outside(polygon) in SHADES for square in squares(polygon)]
    for _, corners, ends, shade in sorted(seen):
        picture.polygons([corners], place, fill=shade, stroke=shade, stroke_width=0.6)
        picture.segments(ends, place, stroke=INK, stroke_width=0.7, stroke_linecap="round")
    picture.legend(40, 540, [
        ("box", {"fill": SHADES[1, -1], "stroke": INK}, f'{len(polygons)} rectangles, {len(set(itertools.chain(*polygons)))} vertices'),
        ("box", {"fill": "none", "stroke": PAPER}, f'they enclose {number(said["content half"])} cells; surface {number(said["boundary half"])}'),
    ])
    return picture


PART_SHADES = ["#7ba7cf", "#eab464", "#c8372d", "#8ab17d"]


def shaded(colour, light):
    return "#" + "".join(f"{round(int(colour[k:k + 2], 16) * light):02x}" for k in (1, 3, 5))


def parts_of(reply):
    """The parts of the reply to `parts`, each by its vertices, and their contents."""
    found, left = [], reply[1:]
    while left:
        _, count, content = left[0].split()
        found.append((rows([reply[0], *left[1:int(count) + 1]]), int(content)))
        left = left[int(count) + 1:]
    return found


def parts(said, _files):
    found = parts_of(said["parts scan"])
    picture = Picture(820, 640, "The parts of a scan")
    place = lambda *point: tuple(0.42 * k + shift for k, shift in zip(on_paper(*point), (-10, 355)))
    solids = [cells(points) for points, _ in found]
    whole = set().union(*solids)
    cubes = sorted((sum(map(int.__mul__, cell, VIEW)), cell, part) for part, solid in enumerate(solids) for cell in solid)
    for _, cell, part in cubes:
        for (axis, side), light in zip(SHADES, (0.78, 0.9, 1)):
            if cell[:axis] + (cell[axis] + side,) + cell[axis + 1:] not in whole:
                fill = shaded(PART_SHADES[part], light)
                picture.polygons([face(cell, axis, side)], place, fill=fill, stroke=shaded(fill, 0.85), stroke_width=0.5)
    picture.legend(40, 520, [("box", {"fill": PART_SHADES[part], "stroke": INK}, f"{content} cells, {len(points)} extreme vertices")
                             for part, (points, content) in enumerate(found)])
    return picture


PICTURES = {"union": union, "scan": scan, "mask": mask, "vertices": vertices, "mesh": mesh, "parts": parts}


def run(name, answers=replies):
    """The commands of a picture's script with their replies, and the files that it saved. `answers` is called as the driver's `replies` is."""
    with tempfile.TemporaryDirectory() as folder:
        shutil.copytree(EXAMPLES, folder, dirs_exist_ok=True)
        said = list(answers((HERE / f"{name}.evm").read_text().splitlines(), folder))
        saved = [path for path in pathlib.Path(folder).iterdir() if path.is_file() and not (EXAMPLES / path.name).exists()]
        return said, {path.name: path.read_bytes() for path in saved}


def pictures():
    """Yields the name and the SVG of each picture."""
    for name, draw in PICTURES.items():
        said, files = run(name)
        yield name, draw(dict(said), files).svg()


if __name__ == "__main__":
    folder = pathlib.Path(sys.argv[1]) if len(sys.argv) > 1 else HERE
    for name, svg in pictures():
        (folder / f"{name}.svg").write_text(svg)
        print(f"{name}.svg: {len(svg)} bytes")
