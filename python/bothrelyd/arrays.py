"""Boolean arrays to vertices and back, by numpy. Axis k of an array is axis k of the solid (counted from 1 there).

The extreme vertices of a set of cells are the places where the exclusive or of neighbours, taken along each axis in turn, is true; and a cell
is filled where the number of vertices at or below it on all axes is odd. No call here loops over cells in Python. Vertices are given by columns:
for each axis the array of their coordinates, as `numpy.nonzero` gives places; the vertices ascend.
"""
from __future__ import annotations

from typing import Optional, Tuple

import numpy as np

from .errors import InvalidArgument
from .files import LIMITS, MOST_FILE_BYTES, body_of, couplets, first_head

Columns = Tuple[np.ndarray, ...]
WIDE = 1024     # places in a layer from which on whole layers are added, one by one


def as_mask(values: object, dim: int, threshold: Optional[float]) -> np.ndarray:
    """A boolean array: the one that is given, or where the values are at least the threshold (a NaN never is).

    Raises
    ------
    InvalidArgument
        Where the array has not `dim` dimensions, is not boolean and there is no threshold, or is boolean and there is one.
    """
    found = np.asarray(values)
    if found.ndim != dim:
        raise InvalidArgument(f"an array of {found.ndim} dimensions for a solid of {dim}")
    if (found.dtype == np.bool_) == (threshold is not None):
        raise InvalidArgument(f"an array of {found.dtype} with threshold={threshold}: a boolean array has none, any other needs one")
    return found if threshold is None else np.asarray(found >= threshold)


def vertices_of(mask: np.ndarray, origin: Tuple[int, ...]) -> Columns:
    """The extreme vertices of the cells that a boolean array fills; `origin` is the cell of its first element.

    Raises
    ------
    InvalidArgument
        Where the origin has not a number for each axis.
    """
    if len(origin) != mask.ndim:
        raise InvalidArgument(f"an origin of {len(origin)} numbers for an array of {mask.ndim} dimensions")
    changes = mask
    for axis in range(mask.ndim):
        # Of booleans `diff` is the exclusive or of neighbours; beyond both ends no cell is filled.
        changes = np.diff(changes, axis=axis, prepend=False, append=False)
    places = np.unravel_index(np.flatnonzero(changes), changes.shape)
    return tuple(column + start for column, start in zip(places, origin))


def file_of(columns: Columns) -> bytes:
    """The EVM file of version 1 of vertices.

    Raises
    ------
    InvalidArgument
        Where a coordinate is beyond the limit of the dimension, or the file would have more than 256 MiB.
    """
    dim, count = len(columns), len(columns[0])
    low, high = bounds(columns)
    if min(low) < -LIMITS[dim] or max(high) > LIMITS[dim]:
        raise InvalidArgument(f"the array reaches from {low} to {high}, beyond {LIMITS[dim]}, the limit of dimension {dim}")
    head = first_head(dim, count)
    if len(head) + 4 * dim * count > MOST_FILE_BYTES:
        raise InvalidArgument(f"{count} vertices of dimension {dim} take a file of more than {MOST_FILE_BYTES} bytes")
    return head + rows_of(columns).astype(">i4").tobytes()


def vertices_in(data: bytes) -> Columns:
    """The vertices in an EVM file of version 2."""
    dim, numbers = body_of(data)
    stream = np.array(numbers, dtype=np.int64)
    heights = [np.array(places, dtype=np.int64) for places in couplets(numbers, dim)]
    is_coordinate = np.ones(len(stream), dtype=bool)
    is_coordinate[0] = False
    for places in heights:
        is_coordinate[places] = False
        is_coordinate[places + 1] = False
    columns = [stream[is_coordinate]]
    if columns[0].size == 0:
        return tuple(columns * dim)
    # From the last couplets outwards: how many rows each couplet has, and its height once for each of them.
    rows = None
    for places in reversed(heights):
        counts = stream[places + 1]
        rows = counts if rows is None else np.add.reduceat(rows, np.cumsum(counts) - counts)
        columns.insert(0, np.repeat(stream[places], rows))
    return tuple(columns)


def rows_of(columns: Columns) -> np.ndarray:
    """The same vertices as an array of ``int64`` of shape (count, dimension)."""
    return np.stack(columns, axis=1).astype(np.int64, copy=False)


def bounds(columns: Columns) -> Tuple[Tuple[int, ...], Tuple[int, ...]]:
    """The lower and the upper corner of the least box round the vertices; both 0 on all axes where there is none."""
    if len(columns[0]) == 0:
        return (0,) * len(columns), (0,) * len(columns)
    return tuple(int(column.min()) for column in columns), tuple(int(column.max()) for column in columns)


def mask_of(columns: Columns, lo: Tuple[int, ...], hi: Tuple[int, ...]) -> np.ndarray:
    """The cells from `lo` up to but not including `hi` that a solid fills, by its vertices.

    Returns
    -------
    numpy.ndarray
        Booleans of the shape ``hi - lo``; a byte a cell is needed.
    """
    sums = np.zeros(tuple(end - start for start, end in zip(lo, hi)), dtype=np.uint8)
    # A vertex counts for all cells from it on: behind the box for none, and before it as if it were on its border.
    near = np.ones(len(columns[0]), dtype=bool)
    for column, end in zip(columns, hi):
        near &= column < end
    if sums.size == 0 or not near.any():
        return sums.view(np.bool_)
    columns = tuple(column[near] for column in columns)
    moved = tuple(np.maximum(column, start) - start for column, start in zip(columns, lo))
    places = np.ravel_multi_index(moved, sums.shape)
    if any(column.min() < start for column, start in zip(columns, lo)):
        places, times = np.unique(places, return_counts=True)
        places = places[times % 2 == 1]
    sums.reshape(-1)[places] = 1
    for axis in range(sums.ndim):
        _sum_parities(sums, axis)
    return sums.view(np.bool_)


def _sum_parities(sums: np.ndarray, axis: int) -> None:
    """Makes each place the parity of all places up to it along an axis."""
    layers = np.moveaxis(sums, axis, 0)
    if axis == sums.ndim - 1 or layers[0].size < WIDE:
        np.bitwise_xor.accumulate(sums, axis=axis, out=sums)
        return
    for below, layer in zip(layers, layers[1:]):    # whole layers, which are read in the order of memory
        np.bitwise_xor(layer, below, out=layer)
