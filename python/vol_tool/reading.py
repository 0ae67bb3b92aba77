"""Boxes of scales as numpy arrays: the programs' output is read into the array's own memory."""
from __future__ import annotations

import contextlib
import dataclasses
import math
import mmap
import os
import resource
import subprocess
from typing import Any, NamedTuple, Sequence

import numpy

from .boxes import Box, Three, count_voxels, cut_box, sides_of
from .errors import StoreFault
from .infos import MOST_BYTES, ScaleInfo
from .programs import Run
from .stores import AnyStore

# How many bytes are read at once where the values can't be read to where they belong.
MOST_SCRATCH = 1 << 28

# How many bytes of channels that aren't wanted are read at once.
PIECE = 1 << 20

# From how many bytes on the program writes into a file in memory, which then is the array's memory, rather than into a pipe.
LEAST_MAPPED = 1 << 20

# Maps all pages for reading (Linux 5.14), which takes less than one after the other when they are first read.
_POPULATE_READ = 22

Positions = Sequence[range]


class Part(NamedTuple):
    """A part of what is read: the positions on z, y and x, ascending, and where their values go in the array."""

    positions: tuple[range, ...]
    target: tuple[slice, ...]

    def bounds(self) -> Box:
        """The box that has all positions, from the scale's first voxel on."""
        z, y, x = ((axis[0], axis[-1] + 1) for axis in self.positions)
        return x, y, z


def _within(positions: range, begin: int, end: int) -> slice:
    """Which of some ascending positions are in a span."""
    first = max(0, -(-(begin - positions.start) // positions.step))
    last = min(len(positions), -(-(end - positions.start) // positions.step))
    return slice(first, max(first, last))


def _part_of(positions: Positions, box: Box) -> Part | None:
    """The positions that are in a box, or None where there are none."""
    target = tuple(_within(axis, *span) for axis, span in zip(positions, reversed(box)))
    found = tuple(axis[where] for axis, where in zip(positions, target))
    return Part(found, target) if all(len(axis) for axis in found) else None


def whole_part(places: Positions) -> Part:
    """All positions on z, y and x, as one part."""
    return Part(tuple(places), tuple(slice(None) for _ in places))


def parts_of(places: Positions, chunk: Three, most: int) -> list[Part]:
    """The positions on z, y and x in parts whose boxes end at borders of chunks, and have at most so many voxels, or a chunk."""
    boxes = cut_box(whole_part(places).bounds(), (0, 0, 0), chunk, most)
    return [part for part in (_part_of(places, box) for box in boxes) if part is not None]


def _fill(pipe: Any, values: Any) -> None:
    """Reads from a pipe until an array, or another buffer without gaps, is full; raises EOFError where it ends before."""
    rest = memoryview(values).cast("B")
    while rest:
        count = pipe.readinto(rest)
        if not count:
            raise EOFError
        rest = rest[count:]


def _skip(pipe: Any, count: int) -> None:
    """Reads so many bytes that aren't wanted."""
    room = memoryview(bytearray(min(count, PIECE)))
    while count:
        _fill(pipe, room[:count])
        count -= min(count, len(room))


def _may_be_mapped(count: int) -> bool:
    """Whether so many bytes are worth a file in memory, and the limit of a file's size allows it."""
    limit, _ = resource.getrlimit(resource.RLIMIT_FSIZE)
    return count >= LEAST_MAPPED and limit in (resource.RLIM_INFINITY, -1)


def _map(file: int, count: int) -> mmap.mmap:
    """The bytes of an open file, as memory of this process alone: what is changed in it is changed nowhere else."""
    found = mmap.mmap(file, count, flags=mmap.MAP_PRIVATE, prot=mmap.PROT_READ | mmap.PROT_WRITE)
    with contextlib.suppress(OSError):
        found.madvise(_POPULATE_READ)
    return found


@dataclasses.dataclass
class Reader:
    """Reads a scale of a store. Arrays have the axes channel, z, y, x here, and positions are counted from the scale's first voxel."""

    store: AnyStore
    scale: ScaleInfo
    channels: int
    dtype: numpy.dtype

    def read(self, positions: Positions) -> numpy.ndarray:
        """The values at some positions, ascending on each of the axes channel, z, y and x, none of them empty."""
        box, count = whole_part(positions[1:]).bounds(), math.prod(len(axis) for axis in positions) * self.dtype.itemsize
        is_whole = count_voxels(box) * self.channels * self.dtype.itemsize == count
        if is_whole and count <= MOST_BYTES and _may_be_mapped(count):
            return self._read_mapped(box, count)
        values = numpy.empty([len(axis) for axis in positions], self.dtype)
        self.read_into(values, positions)
        return values

    def _begin(self, box: Box, out: int = subprocess.PIPE) -> Run:
        """A run of a program that cuts out a box, which is counted from the scale's first voxel on."""
        x, y, z = ((begin + first, end + first) for (begin, end), first in zip(box, self.scale.offset))
        return self.store.cut(self.scale.key, (x, y, z), out)

    def _read_mapped(self, box: Box, count: int) -> numpy.ndarray:
        """The values of a box, in the memory that a program writes them into."""
        file = os.memfd_create(self.scale.key)
        try:
            with self._begin(box, file) as run:
                run.end()
            if os.fstat(file).st_size != count:
                raise StoreFault(f"the program gave {os.fstat(file).st_size} bytes of {self.scale.key}, and {count} are due")
            values = numpy.frombuffer(_map(file, count), self.dtype)
        finally:
            os.close(file)
        return values.reshape([self.channels, *reversed(sides_of(box))])

    def read_into(self, values: numpy.ndarray, positions: Positions) -> None:
        """Puts the values at some positions into an array: by one run of a program, or by several where that is more than it cuts out."""
        wanted, *places = positions
        for part in self._parts(values, places):
            self._read_part(values[(slice(None), *part.target)], wanted, part)

    def _parts(self, values: numpy.ndarray, places: Positions) -> list[Part]:
        whole, each = whole_part(places), self.channels * self.dtype.itemsize
        if count_voxels(whole.bounds()) * each <= MOST_BYTES:
            return [whole]
        is_direct = values[0].flags.c_contiguous and all(axis.step == 1 for axis in places)
        return parts_of(places, self.scale.chunk, (MOST_BYTES if is_direct else MOST_SCRATCH) // each)

    def _read_part(self, target: numpy.ndarray, wanted: range, part: Part) -> None:
        box = part.bounds()
        with self._begin(box) as run:
            try:
                self._take(run.tool.stdout, target, wanted, part, box)
            except EOFError:
                run.end()
                raise StoreFault(f"the program gave fewer values of {self.scale.key} than its box has") from None
            run.end()

    def _take(self, pipe: Any, target: numpy.ndarray, wanted: range, part: Part, box: Box) -> None:
        """Reads the channels one after the other, those that are wanted into the array."""
        sides = [end - begin for begin, end in reversed(box)]
        is_direct = target[0].flags.c_contiguous and all(axis.step == 1 or len(axis) == 1 for axis in part.positions)
        scratch = None if is_direct else numpy.empty(sides, self.dtype)
        steps = tuple(slice(None, None, axis.step) for axis in part.positions)
        for channel in range(self.channels):
            if channel not in wanted:
                _skip(pipe, math.prod(sides) * self.dtype.itemsize)
            elif scratch is None:
                _fill(pipe, target[wanted.index(channel)])
            else:
                _fill(pipe, scratch)
                target[wanted.index(channel)] = scratch[steps]
