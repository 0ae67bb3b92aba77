"""How an array that is put into a scale is cut into slabs, each a stream, and a slab into pieces, each a box of a stream."""
from __future__ import annotations

import dataclasses
import math
from typing import Any, Sequence

import numpy

from .axes import axes_of_array, to_stored
from .boxes import Box, Three, cut_box, sides_of
from .errors import TooLarge
from .infos import MOST_BYTES, MOST_CHANNELS, ScaleInfo, Sharding
from .streams import MOST_WRITES
from .values import check_type

# How many bytes of an array are read at once, where its own chunks aren't larger.
PIECE = 1 << 24

# What this process and the program take beside a slab's values and what segmentations want, as it was measured; and the least memory.
BASE_MEMORY = 112 << 20
LEAST_MEMORY = 128 << 20

# The window of encoded chunks that several workers fill: how many, and of how many bytes together.
WINDOW_CHUNKS, WINDOW_BYTES = 256, 1 << 28


@dataclasses.dataclass
class Values:
    """An array that goes in: `source` is anything with a shape, a dtype and numpy's indexing by slices, and `name` what errors call it."""

    source: Any
    name: str
    axes: str

    @classmethod
    def of(cls, source: Any, name: str, axes: str) -> Values:
        """Raises UnsupportedType, UsageError and TooLarge for an array that isn't stored."""
        shape = tuple(int(length) for length in source.shape)
        check_type(source.dtype, name)
        values = cls(source, name, axes_of_array(axes, shape, name))
        if values.channels > MOST_CHANNELS:
            raise TooLarge(f"{name} has {values.channels} channels, and at most {MOST_CHANNELS} are stored")
        return values

    @property
    def lengths(self) -> dict[str, int]:
        return {axis: int(length) for axis, length in zip(self.axes, self.source.shape)}

    @property
    def size(self) -> Three:
        """How many voxels there are on x, y and z."""
        lengths = self.lengths
        return lengths["x"], lengths["y"], lengths["z"]

    @property
    def channels(self) -> int:
        return self.lengths.get("c", 1)

    @property
    def data_type(self) -> str:
        return check_type(self.source.dtype, self.name)

    @property
    def voxel_bytes(self) -> int:
        """How many bytes the values of a voxel have, of all channels."""
        return self.channels * numpy.dtype(self.source.dtype).itemsize

    @property
    def bytes(self) -> int:
        return math.prod(self.size) * self.voxel_bytes

    def order(self) -> str:
        """The axes x, y and z, those first along which values are near to each other."""
        axes = [axis for axis in self.axes if axis != "c"]
        strides = getattr(self.source, "strides", None)
        if getattr(self.source, "chunks", None) is None and strides is not None:
            by_axis = dict(zip(self.axes, strides))
            return "".join(sorted(reversed(axes), key=lambda axis: abs(by_axis[axis])))
        return "".join(reversed(axes))

    def steps(self) -> Three:
        """How many voxels the array's own chunks have on x, y and z; 1 where it has none."""
        chunks = getattr(self.source, "chunks", None)
        if chunks is None:
            return 1, 1, 1
        by_axis = {axis: first_length(length) for axis, length in zip(self.axes, chunks)}
        return by_axis["x"], by_axis["y"], by_axis["z"]

    def take(self, box: Box) -> numpy.ndarray:
        """The values of a box that is counted from the array's first voxel on, without gaps, with the axes channel, z, y, x."""
        spans = dict(zip("xyz", box))
        index = tuple(slice(*spans[axis]) if axis in spans else slice(None) for axis in self.axes)
        found = to_stored(numpy.asarray(self.source[index]), self.axes)
        return numpy.ascontiguousarray(found, f"<u{found.dtype.itemsize}")


def first_length(length: Any) -> int:
    """The length of a chunk on an axis, where a list of them may be told, as dask does."""
    return int(length[0]) if isinstance(length, (tuple, list)) else int(length)


def cut_in_order(box: Box, origin: Sequence[int], step: Sequence[int], most: int, order: str) -> list[Box]:
    """cut_box, with parts that are as long as may be on the first axis of an order, then on the second."""
    places = ["xyz".index(axis) for axis in order]
    back = [order.index(axis) for axis in "xyz"]
    parts = cut_box([box[place] for place in places], [origin[place] for place in places], [step[place] for place in places], most)
    return [(part[back[0]], part[back[1]], part[back[2]]) for part in parts]


def shard_steps(scale: ScaleInfo) -> Three:
    """
    How many cells, on x, y and z, a shard's chunks span, where they are a box of the grid; 1 where they are scattered, or in files.

    A chunk id has bits of x, y and z in turn, as far as the grid has cells, and those above the shard's own tell the shard.
    """
    steps = [1, 1, 1]
    if isinstance(scale.sharding, Sharding) and scale.sharding.hash == "identity":
        left, bit, grid = scale.sharding.preshift_bits + scale.sharding.minishard_bits, 0, scale.grid()
        while left and any(2**bit < side for side in grid):
            for axis in range(3):
                if left and 2**bit < grid[axis]:
                    steps[axis] *= 2
                    left -= 1
            bit += 1
    return steps[0], steps[1], steps[2]


def _shrink(steps: Three, voxels: int, most: int) -> Three:
    """Steps that are halved, the longest first, until so many voxels a cell are at most so many."""
    found = list(steps)
    while math.prod(found) * voxels > most and max(found) > 1:
        found[found.index(max(found))] //= 2
    return found[0], found[1], found[2]


def most_of_slab(memory: int, scale: ScaleInfo, voxel_bytes: int, workers: int) -> int:
    """
    How many bytes of values a slab has at most, where so much memory may be used, by this process and the program together.

    The program has the whole slab. Of a segmentation several workers have, besides, each two chunks' values and an encoded chunk, and
    together a window of encoded chunks, as far as the slab has chunks.
    """
    voxels = math.prod(min(chunk, side) for chunk, side in zip(scale.chunk, scale.size))
    room, values, encoded = memory - BASE_MEMORY, voxels * voxel_bytes, 0
    if scale.block is not None and workers > 1:
        encoded = 16 * voxels
        room -= workers * (2 * values + encoded)
    window = min(WINDOW_CHUNKS * encoded, WINDOW_BYTES)
    shared = room * values // (values + encoded)
    return min(MOST_BYTES, max(values, room - window, shared))


def slabs_of(values: Values, scale: ScaleInfo, begin: Three, most: int) -> list[Box]:
    """
    The slabs of an array whose first voxel is at `begin`: boxes of the scale, of at most so many bytes, that end at borders of chunks,
    and of shards where these are smaller.
    """
    x, y, z = ((at, at + side) for at, side in zip(begin, values.size))
    room = max(1, most // values.voxel_bytes)
    cell = math.prod(min(chunk, side) for chunk, side in zip(scale.chunk, scale.size))
    shards = _shrink(shard_steps(scale), cell, room)
    step = [chunk * count for chunk, count in zip(scale.chunk, shards)]
    return cut_in_order((x, y, z), scale.offset, step, room, values.order())


def pieces_of(values: Values, slab: Box, begin: Three) -> list[Box]:
    """The pieces of a slab, counted from the array's first voxel on: along the array's own chunks where it has some."""
    x, y, z = ((first - at, last - at) for (first, last), at in zip(slab, begin))
    step = [min(length, side) for length, side in zip(values.steps(), sides_of((x, y, z)))]
    most = PIECE // values.voxel_bytes
    while len(found := cut_in_order((x, y, z), (0, 0, 0), step, max(1, most), values.order())) > MOST_WRITES:
        most *= 2
    return found
