"""The trials of checks/python_package.py that need numpy, and for parts scipy: each call against what they say of small random arrays."""
import itertools
import math
import random
import tempfile

import cells
import numpy as np

from bothrelyd import InvalidArgument, Scene, Vertices


def some_array(draw: random.Random, dim: int):
    """A small boolean array, and the cell of its first element."""
    shape = tuple(draw.randint(1, 5 if dim < 5 else 3) for _ in range(dim))
    share = draw.choice((0, 0.2, 0.5, 0.8, 1))
    filled = [draw.random() < share for _ in range(math.prod(shape))]
    return np.array(filled, dtype=bool).reshape(shape), tuple(draw.randint(-4, 4) for _ in range(dim))


def end(origin, array):
    return tuple(map(sum, zip(origin, array.shape)))


def same(got, wanted, what: str):
    assert got.dtype == bool and np.array_equal(got, wanted), f"{what}: {got.tolist()}, where numpy gives {wanted.tolist()}"


def filled_cells(array, origin) -> set:
    return {tuple(map(sum, zip(place, origin))) for place in np.argwhere(array).tolist()}


def loaded(scene: Scene, name: str, array, origin):
    solid = scene.input(name, array.ndim)
    solid.load(array, origin=origin)
    return solid


def there_and_back(dim: int):
    draw = random.Random(dim)
    for _ in range(8):
        array, origin = some_array(draw, dim)
        with Scene() as scene:
            solid = loaded(scene, "a", array, origin)
            same(solid.array(origin, end(origin, array)), array, "the box that went in")
            found, corner = solid.array()
            assert filled_cells(found, corner) == filled_cells(array, origin), "the bounding box"
            for axis in range(dim if found.size else 0):
                layers = found.any(axis=tuple(k for k in range(dim) if k != axis))
                assert layers[0] and layers[-1], "the bounding box is not the least"
            rows = solid.vertices()
            assert rows.dtype == np.int64 and list(map(tuple, rows.tolist())) == cells.vertices(filled_cells(array, origin), dim), "vertices"
            low = tuple(draw.randint(-6, 6) for _ in range(dim))
            high = tuple(number + draw.randint(0, 5) for number in low)
            window = solid.array(low, high)
            inside = {cell for cell in filled_cells(array, origin) if all(a <= x < b for a, x, b in zip(low, cell, high))}
            assert window.shape == tuple(b - a for a, b in zip(low, high)) and filled_cells(window, low) == inside, "a window"


def booleans(dim: int):
    draw = random.Random(20 + dim)
    with Scene() as scene:
        (one, origin), other = some_array(draw, dim), None
        other = np.array([draw.random() < 0.5 for _ in range(one.size)], dtype=bool).reshape(one.shape)
        a, b, box = loaded(scene, "a", one, origin), loaded(scene, "b", other, origin), (origin, end(origin, one))
        for name, solid, wanted in (("or", a | b, one | other), ("and", a & b, one & other), ("sub", a - b, one & ~other), ("xor", a ^ b, one ^ other)):
            same(solid.array(*box), wanted, name)
            assert solid.content == wanted.sum(), f"content of {name}"


def shapes(dim: int):
    draw = random.Random(30 + dim)
    array, origin = some_array(draw, dim)
    low, high = origin, end(origin, array)
    with Scene() as scene:
        solid, by = loaded(scene, "a", array, origin), [draw.randint(-5, 5) for _ in range(dim)]
        moved = tuple(tuple(map(sum, zip(corner, by))) for corner in (low, high))
        same(solid.shift(by).array(*moved), array, "shift")
        inner = tuple(draw.randint(0, n - 1) for n in array.shape)
        kept = np.zeros(array.shape, dtype=bool)
        kept[tuple(slice(k, None) for k in inner)] = array[tuple(slice(k, None) for k in inner)]
        same(solid.clip(tuple(map(sum, zip(low, inner))), high).array(low, high), kept, "clip")
        for axis in range(dim):
            turned = [(*corner[:axis], -number, *corner[axis + 1:]) for corner, number in ((low, high[axis]), (high, low[axis]))]
            same(solid.mirror(axis + 1).array(*turned), np.flip(array, axis), "mirror")
            swapped = [list(corner) for corner in (low, high)]
            for corner in swapped:
                corner[0], corner[axis] = corner[axis], corner[0]
            same(solid.swap(1, axis + 1).array(*swapped), np.swapaxes(array, 0, axis), "swap")
            rest = tuple(corner[:axis] + corner[axis + 1:] for corner in (low, high))
            place = draw.randrange(array.shape[axis])
            section, shadow = array.take(place, axis), array.any(axis=axis)
            same(solid.section(axis + 1, low[axis] + place).array(*rest), section, "section")
            same(solid.project(axis + 1).array(*rest), shadow, "project")
            if dim > 2:
                same(solid.slice(axis + 1, low[axis] + place).array(*rest), section, "slice")
                same(solid.proj(axis + 1).array(*rest), shadow, "proj")
            if dim < 6:
                longer = [(*corner[:axis], number, *corner[axis:]) for corner, number in ((low, 3), (high, 5))]
                same(solid.lift(axis + 1, 3, 5).array(*longer), np.stack([array, array], axis=axis), "lift")


def measures(dim: int):
    draw = random.Random(40 + dim)
    array, origin = some_array(draw, dim)
    with Scene() as scene:
        solid, count = loaded(scene, "a", array, origin), 0
        for axis in range(dim):
            steps = np.diff(np.moveaxis(array.astype(int), axis, 0), axis=0, prepend=0, append=0)
            cuts = [(origin[axis] + k, np.count_nonzero(step > 0), np.count_nonzero(step < 0)) for k, step in enumerate(steps)]
            assert solid.faces(axis + 1) == [cut for cut in cuts if cut[1] or cut[2]], f"faces {axis + 1}"
            count += np.count_nonzero(steps)
        assert solid.content == array.sum() and solid.boundary == count, "measures"
        wide = np.pad(array, 1)
        for place in itertools.product(*(range(n + 1) for n in array.shape)):
            around = wide[tuple(slice(k, k + 2) for k in place)]
            wanted = "inside" if around.all() else "boundary" if around.any() else "outside"
            point = tuple(map(sum, zip(place, origin)))
            assert solid.place(point) == wanted, f"place {point}"
            assert solid.at(point) == bool(wide[tuple(k + 1 for k in place)]), f"at {point}"
        said = solid.report()
        assert (said.content, said.boundary, said.vertices) == (array.sum(), count, len(solid.vertices())), "report"


def components(dim: int):
    from scipy import ndimage
    draw = random.Random(50 + dim)
    for _ in range(4):
        array, origin = some_array(draw, dim)
        labels, count = ndimage.label(array)
        with Scene() as scene:
            parts = loaded(scene, "a", array, origin).parts()
        assert len(parts) == count, f"{len(parts)} parts, where scipy finds {count}"
        wanted = [(np.argwhere(labels == k).tolist()[0], labels == k) for k in range(1, count + 1)]
        for part, (_, alone) in zip(parts, sorted(wanted, key=lambda each: each[0])):
            same(part.vertices.array(origin, end(origin, array)), alone, "a part")
            assert part.content == alone.sum()


def thresholds():
    values = np.array([[0.5, 2.0, float("nan")], [3.0, -1.0, 2.5]])
    with Scene() as scene, tempfile.TemporaryDirectory() as folder:
        solid = scene.input("a", 2)
        assert solid.load(values, threshold=2) == 1 and solid.load(values >= 2) == 0 and solid.content == 3
        assert solid.load(values.T, threshold=2) == 1 and solid.load([[False, True], [True, True], [False, True]]) == 1 and solid.content == 4
        solid.save(f"{folder}/a.nevm")
        assert solid.load(np.zeros((0, 4), dtype=bool)) == 1 and solid.array()[0].size == 0 and solid.array((0, 0), (2, 2)).sum() == 0
        assert solid.load(f"{folder}/a.nevm") == 1 and solid.content == 4
        low = np.array([5, 5])
        assert solid.add(low, low + 2) == 1 and solid.at(low) and solid.content == 8, "corners that are arrays"
        rows = solid.section(1, 1)
        assert isinstance(rows, Vertices) and np.asarray(rows).shape == (len(rows), 1)


def wide():
    """Arrays whose parities are summed up in whole layers, and arrays that do not lie in the order of their axes."""
    draw = random.Random(60)
    for shape in ((30, 1100), (40, 6, 45), (5, 36, 37), (3, 4, 16, 24)):
        array = np.array([draw.random() < 0.1 for _ in range(math.prod(shape))], dtype=bool).reshape(shape)
        with Scene() as scene:
            solid, turned = scene.input("a", array.ndim), scene.input("b", array.ndim)
            solid.load(array)
            same(solid.array((0,) * array.ndim, shape), array, "wide")
            turned.load(array.T[::-1])
            same(turned.array((0,) * array.ndim, shape[::-1]), array.T[::-1], "turned")
            assert solid.content == turned.content == array.sum(), "content"


def unfit():
    """Arrays that do not fit are refused before anything is sent."""
    flat, limit = np.ones((2, 2), dtype=bool), 2 ** 30
    with Scene() as scene:
        solid, small = scene.input("a", 2), scene.input("b", 6)
        solid.load(flat, origin=(limit - 2, -limit))
        sent, files = scene._program._sent, len(list(scene._files.path.iterdir()))
        for action in (
            lambda: solid.load(flat, origin=(limit - 1, 0)), lambda: solid.load(flat, origin=(-limit - 1, 0)), lambda: solid.load(flat, origin=(0,)),
            lambda: solid.load(np.ones((2, 2, 2), dtype=bool)), lambda: solid.load(flat.astype(int)), lambda: solid.load(flat, threshold=1),
            lambda: small.load(np.ones((1,) * 6, dtype=bool), origin=(2 ** 19,) * 6), lambda: solid.load(flat, form="evm"),
        ):
            try:
                action()
            except InvalidArgument:
                continue
            raise AssertionError("an array that does not fit is loaded")
        assert (scene._program._sent, len(list(scene._files.path.iterdir()))) == (sent, files), "something was sent"
        for low, high in (((0, 0), None), (None, (1, 1)), ((0, 0), (1, -1)), ((0,), (1,))):
            try:
                solid.array(low, high)
            except InvalidArgument:
                continue
            raise AssertionError(f"there is an array from {low} to {high}")


def trials(skipped: type, has_scipy: bool):
    """The name of each trial, and what to call; it raises `skipped` where scipy is missing."""
    def skip():
        raise skipped

    for dim in range(2, 7):
        for trial in (there_and_back, booleans, shapes, measures):
            yield f"{trial.__name__} in {dim} dimensions", lambda trial=trial, dim=dim: trial(dim)
        yield f"components in {dim} dimensions", (lambda dim=dim: components(dim)) if has_scipy else skip
    yield "thresholds", thresholds
    yield "wide arrays", wide
    yield "arrays that do not fit", unfit
