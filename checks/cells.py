#!/usr/bin/env python3
"""A model of the script language by unit cells, written apart from the program: the outside expectation of the examples.

A solid is a Python set of cells, each a tuple of whole numbers; every formula is evaluated anew after every edit, and everything
is counted cell by cell. So it is for small solids only. It knows nothing of the program's lists of vertices, and the program
nothing of it.

    python3 checks/cells.py FOLDER < SCRIPT     prints the replies; the files that the script loads lie in FOLDER
    python3 checks/cells.py                     computes the replies of all examples and compares them with the stored ones
"""
import collections
import itertools
import json
import pathlib
import re
import struct
import sys

TOP = pathlib.Path(__file__).resolve().parent.parent
LIMITS = {1: 1073741824, 2: 1073741824, 3: 1073741824, 4: 268435456, 5: 4194304, 6: 524288}
MOST_CELLS = 2_000_000
FORMS = [form.split() for form in """
input NAME NUMBER; drop NAME; list; show NAME; content NAME; boundary NAME
toggle NAME NUMBERS; add NAME NUMBERS; cut NAME NUMBERS; at NAME NUMBERS; point NAME NUMBERS
section NAME NUMBER NUMBER; project NAME NUMBER; parts NAME; report NAME; faces NAME NUMBER
load NAME evm FILE; load NAME boxes FILE; load NAME pgm NUMBER FILE; load NAME y4m NUMBER FILE
save NAME evm FILE; save NAME boxes FILE; save NAME faces FILE; save NAME obj FILE
def NAME or NAME NAME; def NAME and NAME NAME; def NAME sub NAME NAME; def NAME xor NAME NAME
def NAME box NUMBER NUMBERS; def NAME shift NAME NUMBERS; def NAME clip NAME NUMBERS; def NAME mirror NAME NUMBER
def NAME swap NAME NUMBER NUMBER; def NAME slice NAME NUMBER NUMBER; def NAME proj NAME NUMBER
def NAME lift NAME NUMBER NUMBER NUMBER; meter NUMBER NAME; read NUMBER; unmeter NUMBER
""".replace("\n", ";").split(";") if form.strip()]
WORDS = {"NAME": re.compile(r"[a-z][a-z0-9_]{0,31}"), "NUMBER": re.compile(r"-?[0-9]{1,10}"),
         "FILE": re.compile(r"[A-Za-z0-9_][A-Za-z0-9_.-]{0,63}")}
BOOLEANS = {"or": set.union, "and": set.intersection, "sub": set.difference, "xor": set.symmetric_difference}


class Refused(Exception):
    """A line that is answered `no CODE`."""


class TooLarge(Exception):
    """A solid with too many cells for this model."""


def refuse_if(cause, code):
    if cause:
        raise Refused(code)


# Cells

def is_point(numbers):
    """Whether these are the coordinates of a vertex, in the dimension that their number is."""
    return all(-LIMITS[len(numbers)] <= number <= LIMITS[len(numbers)] for number in numbers)


def is_cell(numbers):
    return all(-LIMITS[len(numbers)] <= number < LIMITS[len(numbers)] for number in numbers)


def is_box(numbers):
    """Whether these are the lower corner of a box and then its upper corner."""
    low, high = numbers[:len(numbers) // 2], numbers[len(numbers) // 2:]
    return is_point(low) and is_point(high) and all(map(int.__lt__, low, high))


def box_cells(low, high):
    count = 1
    for a, b in zip(low, high):
        count *= b - a
    if count > MOST_CELLS:
        raise TooLarge
    return set(itertools.product(*(range(a, b) for a, b in zip(low, high))))


def without(cell, axis):
    return cell[:axis] + cell[axis + 1:]


def with_at(cell, axis, number):
    return cell[:axis] + (number,) + cell[axis:]


def moved(cell, axis, by):
    return cell[:axis] + (cell[axis] + by,) + cell[axis + 1:]


def slice_cells(cells, axis, height):
    return {without(cell, axis) for cell in cells if cell[axis] == height}


def project_cells(cells, axis):
    return {without(cell, axis) for cell in cells}


def boundary(cells, dim):
    return sum(moved(cell, axis, by) not in cells for cell in cells for axis in range(dim) for by in (-1, 1))


def vertices(cells, dim):
    """The points round which an odd number of cells stand: axis by axis, each place counts for itself and for the next."""
    points = set(cells)
    for axis in range(dim):
        points = points ^ {moved(point, axis, 1) for point in points}
    return sorted(points)


def cells_of_vertices(rows, dim):
    """The cells of a list of vertices, or None where some line parallel to an axis holds an odd number of them."""
    places = set(rows)
    for axis in range(dim):
        lines = collections.defaultdict(list)
        for place in places:
            lines[without(place, axis)].append(place[axis])
        if any(len(heights) % 2 for heights in lines.values()):
            return None
        places = {with_at(rest, axis, number) for rest, heights in lines.items()
                  for low, high in zip(sorted(heights)[::2], sorted(heights)[1::2]) for number in range(low, high)}
    return places


def parts(cells):
    """The sets that hang together by faces of cells, in the order of their least cells."""
    left, found = set(cells), []
    for first in sorted(cells):
        if first not in left:
            continue
        part, border = set(), [first]
        left.discard(first)
        while border:
            cell = border.pop()
            part.add(cell)
            near = {moved(cell, axis, by) for axis in range(len(cell)) for by in (-1, 1)} & left
            left -= near
            border.extend(near)
        found.append(part)
    return found


def partition(cells, dim):
    """The boxes of the stated partition, each by its two corners: runs of equal sections, and these cut in the same way."""
    if dim == 0:
        return [((), ())] if cells else []
    boxes, heights = [], sorted({cell[0] for cell in cells})
    sections = {height: slice_cells(cells, 0, height) for height in heights}
    for low in heights:
        if sections.get(low - 1) == sections[low]:
            continue
        high = low
        while sections.get(high) == sections[low]:
            high += 1
        boxes += [((low, *a), (high, *b)) for a, b in partition(sections[low], dim - 1)]
    return sorted(boxes)


def faces(cells, axis):
    """For each height of an axis at which the section changes: the height, what falls there, and what rises."""
    heights = sorted({cell[axis] + by for cell in cells for by in (0, 1)})
    sides = [(height, slice_cells(cells, axis, height - 1), slice_cells(cells, axis, height)) for height in heights]
    return [(height, below - above, above - below) for height, below, above in sides if below != above]


def face_boxes(cells, dim):
    """The boxes of all faces: the axis, the height, `f` or `r`, and the two corners on the other axes."""
    return [(axis, height, side, low, high) for axis in range(dim) for height, falling, rising in faces(cells, axis)
            for side, face in (("f", falling), ("r", rising)) for low, high in partition(face, dim - 1)]


def text(lines):
    return "".join(" ".join(map(str, line)) + "\n" for line in lines).encode()


# Files: what `save` writes

def box_file(cells, dim):
    return text([("evm-boxes", 1, dim), *(low + high for low, high in partition(cells, dim))])


def face_file(cells, dim):
    return text([("evm-faces", 1, dim), *((axis + 1, at, side, *low, *high) for axis, at, side, low, high in face_boxes(cells, dim))])


def obj_file(cells, dim):
    polygons = []
    for axis, at, side, (a, b), (c, d) in face_boxes(cells, dim):
        corners = [(a, b), (c, b), (c, d), (a, d)]
        if (side == "f") == (axis == 1):
            corners = [corners[k] for k in (0, 3, 2, 1)]
        polygons.append([with_at(corner, axis, at) for corner in corners])
    points = sorted({corner for polygon in polygons for corner in polygon})
    number = {point: k + 1 for k, point in enumerate(points)}
    return text([("v", *point) for point in points] + [("f", *map(number.get, polygon)) for polygon in polygons])


# Files: each reader answers the cells, or None where the bytes are not of the form

def read_boxes(data, dim, _threshold):
    lines = data.decode("latin-1").split("\n")
    words = [re.split(r"[ \t]+", line.removesuffix("\r").strip(" \t")) for line in lines]
    number = WORDS["NUMBER"]
    if len(words[0]) != 3 or words[0][:2] != ["evm-boxes", "1"] or not number.fullmatch(words[0][2]) or int(words[0][2]) != dim:
        return None
    cells = set()
    for line in words[1:]:
        if line[0] == "" or line[0].startswith("#"):
            continue
        if len(line) != 2 * dim or not all(number.fullmatch(word) for word in line):
            return None
        numbers = [int(word) for word in line]
        if not is_box(numbers):
            return None
        cells |= box_cells(numbers[:dim], numbers[dim:])
    return cells


def samples_filled(samples, width, threshold):
    return [(k % width, k // width) for k, sample in enumerate(samples) if sample >= threshold]


def placed(images, dim):
    """The cells of a list of images, each a list of places; in the plane there is exactly one."""
    if dim == 2:
        return set(images[0]) if len(images) == 1 else None
    return {(x, y, z) for z, image in enumerate(images) for x, y in image}


PGM = re.compile(rb"P5(?:S)+([0-9]+)(?:S)+([0-9]+)(?:S)+([0-9]+)[ \t\n\v\f\r]".replace(b"S", rb"[ \t\n\v\f\r]|#[^\n\r]*[\n\r]"))


def read_pgm(data, dim, threshold):
    images, sizes, at = [], set(), 0
    while at < len(data) or not images:
        head = PGM.match(data, at)
        if not head:
            return None
        width, height, most = (int(number) for number in head.groups())
        if not (0 < width <= LIMITS[dim] and 0 < height <= LIMITS[dim] and 0 < most < 65536):
            return None
        sizes.add((width, height))
        count, wide = width * height, most > 255
        body = data[head.end():head.end() + count * (2 if wide else 1)]
        if len(sizes) > 1 or len(body) < count * (2 if wide else 1):
            return None
        images.append(samples_filled(struct.unpack(f">{count}H", body) if wide else body, width, threshold))
        at = head.end() + len(body)
        while data[at:at + 1] and data[at:at + 1] in b" \t\n\v\f\r":
            at += 1
    return placed(images, dim)


def read_y4m(data, dim, threshold):
    head, end, rest = data.partition(b"\n")
    magic, *parameters = head.split(b" ")
    values = [(word[:1], word[1:]) for word in parameters if word]
    widths, heights, kinds = ([value for letter, value in values if letter == wanted] for wanted in (b"W", b"H", b"C"))
    if magic != b"YUV4MPEG2" or not end or len(widths) != 1 or len(heights) != 1 or len(kinds) > 1:
        return None
    if not (re.fullmatch(rb"[0-9]+", widths[0]) and re.fullmatch(rb"[0-9]+", heights[0])):
        return None
    width, height = int(widths[0]), int(heights[0])
    quarter = 2 * ((width + 1) // 2) * ((height + 1) // 2)
    extra = {b"420": quarter, b"420jpeg": quarter, b"420paldv": quarter, b"420mpeg2": quarter, b"mono": 0,
             b"422": 2 * ((width + 1) // 2) * height, b"444": 2 * width * height}
    kind = kinds[0] if kinds else b"420"
    if kind not in extra or not (0 < width <= LIMITS[dim] and 0 < height <= LIMITS[dim]):
        return None
    images = []
    while rest:
        line, end, rest = rest.partition(b"\n")
        count = width * height
        if not end or not (line == b"FRAME" or line.startswith(b"FRAME ")) or len(rest) < count + extra[kind]:
            return None
        images.append(samples_filled(rest[:count], width, threshold))
        rest = rest[count + extra[kind]:]
    return placed(images, dim)


def couplets(rows):
    """The rows of each first coordinate, without it."""
    found = {}
    for height, *rest in rows:
        found.setdefault(height, []).append(tuple(rest))
    return found


def body_of(rows, dim):
    if dim == 0:
        return b""
    parts = couplets(rows)
    return struct.pack(">I", len(parts)) + b"".join(struct.pack(">i", height) + body_of(parts[height], dim - 1) for height in sorted(parts))


def evm_file(cells, dim):
    return struct.pack(">4sBBH", b"NEVM", 2, dim, 0) + body_of(vertices(cells, dim), dim)


class NoBody(Exception):
    """The bytes are not one body, or a count or a height in it is wrong."""


def body_rows(data, dim, inner=False):
    """The rows of a body, and the bytes behind it."""
    if dim == 0:
        return [()], data
    if len(data) < 4:
        raise NoBody
    count, data, rows, last = struct.unpack(">I", data[:4])[0], data[4:], [], None
    if inner and not count:
        raise NoBody
    for _ in range(count):
        if len(data) < 4:
            raise NoBody
        height, = struct.unpack(">i", data[:4])
        below, data = body_rows(data[4:], dim - 1, True)
        if last is not None and height <= last:
            raise NoBody
        rows += [(height, *row) for row in below]
        last = height
    return rows, data


def first_rows(data, dim):
    """The rows of a file of version 1."""
    if len(data) < 16:
        return None
    count, = struct.unpack(">Q", data[8:16])
    if len(data) != 16 + 4 * dim * count:
        return None
    return list(struct.iter_unpack(f">{dim}i", data[16:]))


def read_evm(data, dim, _threshold):
    if len(data) < 8 or data[:4] != b"NEVM" or data[4] not in (1, 2) or data[5] != dim or data[6:8] != b"\0\0":
        return None
    if data[4] == 1:
        rows = first_rows(data, dim)
    else:
        try:
            rows, rest = body_rows(data[8:], dim)
        except NoBody:
            return None
        if rest:
            return None
    if rows is None or not all(map(is_point, rows)) or any(a >= b for a, b in zip(rows, rows[1:])):
        return None
    return cells_of_vertices(rows, dim)


READERS = {"boxes": read_boxes, "pgm": read_pgm, "y4m": read_y4m, "evm": read_evm}
WRITERS = {"evm": evm_file, "boxes": box_file, "faces": face_file, "obj": obj_file}


# Lines

def has_form(words, form):
    if "NUMBERS" in form:
        head = len(form) - 1
        numbers = words[head:]
        return has_form(words[:head], form[:head]) and 1 <= len(numbers) <= 12 and all(map(WORDS["NUMBER"].fullmatch, numbers))
    return len(words) == len(form) and all(WORDS[want].fullmatch(word) if want in WORDS else word == want
                                           for word, want in zip(words, form))


def in_range(places):
    """The places that a shift or a lift gives, where each is a cell."""
    refuse_if(not all(map(is_cell, places)), "range")
    return places


class Session:
    """The names of a script and their cells. `answer` gives the lines of the reply to one line."""

    def __init__(self, folder="."):
        self.folder = pathlib.Path(folder)
        self.saved = {}      # file name -> bytes: what the script saved; the folder itself is left alone
        self.dim = {}        # name -> dimension, in the order of making
        self.formula = {}    # name -> words of its formula, or None for an input
        self.cells = {}      # name -> its cells
        self.slots = [[measure, None] for measure in ("content", "boundary", "points") * 2]   # what each measures, and the name it watches

    def answer(self, line):
        words = re.split(r"[ \t]+", line.removesuffix("\r").strip(" \t"))
        if words[0] == "" or words[0].startswith("#"):
            return []
        try:
            refuse_if(len(line.removesuffix("\r")) > 4096, "line")
            refuse_if(not any(has_form(words, form) for form in FORMS), "syntax")
            named = words[2] if words[0] == "meter" else words[1] if len(words) > 1 else None
            refuse_if(words[0] not in ("input", "def", "list", "read", "unmeter") and named not in self.dim, "name")
            return getattr(self, words[0])(*words[1:])
        except Refused as refusal:
            return [f"no {refusal}"]

    def put(self, name, dim, formula, cells):
        """Puts a name in place and evaluates all formulas anew; the number of names that stood before and changed."""
        before = dict(self.cells), dict(self.dim), dict(self.formula)
        old = before[0]
        self.dim[name], self.formula[name] = dim, formula
        self.cells = {each: old[each] for each in self.dim if each in old and not self.formula[each]}
        if not formula:
            self.cells[name] = cells
        try:
            self.cells = {each: self.value(each) for each in self.dim}
        except Refused:
            self.cells, self.dim, self.formula = before
            raise
        return [f"ok {sum(self.cells[each] != old[each] for each in old)}"]

    def value(self, name):
        if name not in self.cells:
            self.cells[name] = self.evaluate(self.formula[name])
        return self.cells[name]

    def evaluate(self, formula):
        operator, first, *rest = formula
        if operator in BOOLEANS:
            return BOOLEANS[operator](self.value(first), self.value(rest[0]))
        numbers = [int(word) for word in rest]
        half = len(numbers) // 2
        if operator == "box":
            return box_cells(numbers[:half], numbers[half:])
        cells = self.value(first)
        if operator == "shift":
            return in_range({tuple(map(int.__add__, cell, numbers)) for cell in cells})
        if operator == "clip":
            return {cell for cell in cells if all(low <= number < high for low, number, high in zip(numbers, cell, numbers[half:]))}
        axis = numbers[0] - 1
        if operator == "mirror":
            return {cell[:axis] + (-1 - cell[axis],) + cell[axis + 1:] for cell in cells}
        if operator == "swap":
            order = list(range(self.dim[first]))
            order[axis], order[numbers[1] - 1] = order[numbers[1] - 1], order[axis]
            return {tuple(cell[k] for k in order) for cell in cells}
        if operator == "slice":
            return slice_cells(cells, axis, numbers[1])
        if operator == "proj":
            return project_cells(cells, axis)
        if len(cells) * (numbers[2] - numbers[1]) > MOST_CELLS:
            raise TooLarge
        return in_range({with_at(cell, axis, number) for cell in cells for number in range(numbers[1], numbers[2])})

    def reaches(self, name, goal):
        return name == goal or any(self.reaches(each, goal) for each in self.operands(name))

    def operands(self, name):
        formula = self.formula.get(name) or ["box"]
        return formula[1:3] if formula[0] in BOOLEANS else [] if formula[0] == "box" else formula[1:2]

    # Commands

    def input(self, name, dim):
        refuse_if(name in self.dim, "taken")
        refuse_if(not 2 <= int(dim) <= 6, "dim")
        return self.put(name, int(dim), None, set())

    def edit(self, combine, name, words):
        numbers, dim = [int(word) for word in words], self.dim[name]
        refuse_if(self.formula[name], "kind")
        refuse_if(len(numbers) != 2 * dim, "dim")
        refuse_if(not is_box(numbers), "range")
        return self.put(name, dim, None, combine(self.cells[name], box_cells(numbers[:dim], numbers[dim:])))

    def toggle(self, name, *words):
        return self.edit(set.symmetric_difference, name, words)

    def add(self, name, *words):
        return self.edit(set.union, name, words)

    def cut(self, name, *words):
        return self.edit(set.difference, name, words)

    def load(self, name, form, *words):
        dim, file = self.dim[name], words[-1]
        threshold = int(words[0]) if len(words) == 2 else None
        refuse_if(self.formula[name], "kind")
        refuse_if(form in ("pgm", "y4m") and dim > 3, "dim")
        refuse_if(threshold is not None and not 0 <= threshold <= 65535, "range")
        data = self.saved.get(file)
        if data is None:
            refuse_if(not (self.folder / file).is_file(), "missing")
            data = (self.folder / file).read_bytes()
        cells = READERS[form](data, dim, threshold)
        refuse_if(cells is None, "form")
        return self.put(name, dim, None, cells)

    def save(self, name, form, file):
        refuse_if(form == "obj" and self.dim[name] != 3, "dim")
        self.saved[file] = WRITERS[form](self.cells[name], self.dim[name])
        return [f"ok {len(self.saved[file])}"]

    # `def` is a word of Python's own, so the method is reached by its name alone.
    def define(self, name, operator, *words):
        names = words[:2] if operator in BOOLEANS else () if operator == "box" else words[:1]
        numbers = [int(word) for word in words[len(names):]]
        refuse_if(any(each != name and each not in self.dim for each in names), "name")
        refuse_if(name in self.dim and not self.formula[name], "kind")
        refuse_if(any(self.reaches(each, name) for each in names), "cycle")
        dims = [self.dim[each] for each in names]
        dim, in_range = shape(operator, dims, numbers)
        refuse_if(dim is None or self.dim.get(name, dim) != dim, "dim")
        refuse_if(not in_range, "range")
        return self.put(name, dim, [operator, *names, *map(str, numbers)], None)

    def drop(self, name):
        refuse_if(any(name in self.operands(each) for each in self.dim) or any(name == watched for _, watched in self.slots), "used")
        for table in (self.dim, self.formula, self.cells):
            del table[name]
        return ["ok 0"]

    def list(self):
        return [f"ok {len(self.dim)}"] + [" ".join([name, str(dim), *(self.formula[name] or ["input"])])
                                          for name, dim in self.dim.items()]

    def show(self, name):
        return shown(self.cells[name], self.dim[name])

    def content(self, name):
        return [f"ok {len(self.cells[name])}"]

    def boundary(self, name):
        return [f"ok {boundary(self.cells[name], self.dim[name])}"]

    def section(self, name, axis, height):
        refuse_if(not 1 <= int(axis) <= self.dim[name], "dim")
        refuse_if(not is_height(int(height), self.dim[name]), "range")
        return shown(slice_cells(self.cells[name], int(axis) - 1, int(height)), self.dim[name] - 1)

    def project(self, name, axis):
        refuse_if(not 1 <= int(axis) <= self.dim[name], "dim")
        return shown(project_cells(self.cells[name], int(axis) - 1), self.dim[name] - 1)

    def parts(self, name):
        found = parts(self.cells[name])
        lines = [f"ok {len(found)}"]
        for part in found:
            rows = vertices(part, self.dim[name])
            lines += [f"part {len(rows)} {len(part)}"] + [" ".join(map(str, row)) for row in rows]
        return lines

    def faces(self, name, axis):
        refuse_if(not 1 <= int(axis) <= self.dim[name], "dim")
        cuts = faces(self.cells[name], int(axis) - 1)
        return [f"ok {len(cuts)}"] + [f"{height} {len(rising)} {len(falling)}" for height, falling, rising in cuts]

    def report(self, name):
        cells, dim, points = self.cells[name], self.dim[name], vertices(self.cells[name], self.dim[name])
        said = {"boundary": str(boundary(cells, dim)), "content": str(len(cells)), "dim": dim, "high": [max(axis) for axis in zip(*points)],
                "kind": (self.formula[name] or ["input"])[0], "low": [min(axis) for axis in zip(*points)], "name": name,
                "operands": self.operands(name), "parts": len(parts(cells)), "vertices": len(points)}
        return ["ok " + json.dumps(said, separators=(",", ":"))]

    def points(self, name):
        return [f"ok {len(vertices(self.cells[name], self.dim[name]))}"]

    def slot(self, number, free):
        """The slot of a number, where its meter is free or watches a name as is asked."""
        refuse_if(not 0 <= int(number) < len(self.slots), "meter")
        measure, watched = self.slots[int(number)]
        refuse_if(measure is None or (watched is None) != free, "meter")
        return self.slots[int(number)]

    def meter(self, number, name):
        self.slot(number, free=True)[1] = name
        return self.read(number)

    def read(self, number):
        measure, watched = self.slot(number, free=False)
        return getattr(self, measure)(watched)

    def unmeter(self, number):
        self.slot(number, free=False)[:] = [None, None]
        return ["ok"]

    def at(self, name, *words):
        cell = tuple(int(word) for word in words)
        refuse_if(len(cell) != self.dim[name], "dim")
        refuse_if(not is_cell(cell), "range")
        return ["ok filled" if cell in self.cells[name] else "ok empty"]

    def point(self, name, *words):
        point = tuple(int(word) for word in words)
        refuse_if(len(point) != self.dim[name], "dim")
        refuse_if(not is_point(point), "range")
        filled = [cell in self.cells[name] for cell in itertools.product(*((number - 1, number) for number in point))]
        return ["ok inside" if all(filled) else "ok boundary" if any(filled) else "ok outside"]


setattr(Session, "def", Session.define)


def is_height(number, dim):
    """Whether this is the coordinate of a cell of a solid of this dimension."""
    return -LIMITS[dim] <= number < LIMITS[dim]


def shape(operator, dims, numbers):
    """The dimension of a formula, or None where the dimensions and counts do not fit; and whether its numbers are in range."""
    dim = dims[0] if dims else numbers[0]
    axes = range(1, dim + 1)
    if operator in BOOLEANS:
        return (dim if dims[1] == dim else None), True
    if operator == "box":
        fits = 2 <= dim <= 6 and len(numbers) == 2 * dim + 1
        return (dim if fits else None), fits and is_box(numbers[1:])
    if operator == "shift":
        return (dim if len(numbers) == dim else None), all(abs(number) <= 2 * LIMITS[dim] for number in numbers)
    if operator == "clip":
        fits = len(numbers) == 2 * dim
        return (dim if fits else None), fits and is_box(numbers)
    if operator in ("mirror", "swap"):
        return (dim if all(axis in axes for axis in numbers) else None), True
    if operator == "lift":
        fits = dim < 6 and 1 <= numbers[0] <= dim + 1
        return (dim + 1 if fits else None), fits and -LIMITS[dim + 1] <= numbers[1] < numbers[2] <= LIMITS[dim + 1]
    return (dim - 1 if dim > 2 and numbers[0] in axes else None), operator == "proj" or is_height(numbers[1], dim)


def shown(cells, dim):
    rows = vertices(cells, dim)
    return [f"ok {dim} {len(rows)}"] + [" ".join(map(str, row)) for row in rows]


def replies(script, folder):
    """All replies to a script as one text, as `evm run` writes them."""
    session = Session(folder)
    lines = script.split("\n")
    if lines[-1] == "":
        lines.pop()
    return "".join(f"{reply}\n" for line in lines for reply in session.answer(line))


def main():
    if len(sys.argv) > 1:
        sys.stdout.write(replies(sys.stdin.read(), sys.argv[1]))
        return 0
    import replies as stored
    from tally import Tally
    tally, large = Tally("cells"), 0
    for name, script, wanted in stored.cases():
        try:
            got = replies(script, TOP / "examples")
        except TooLarge:
            large += 1
            continue
        tally.count(got == wanted, f"{name}: the stored replies are\n{wanted}but cells give\n{got}")
    return tally.status(f", {large} too large to count")


if __name__ == "__main__":
    sys.exit(main())
