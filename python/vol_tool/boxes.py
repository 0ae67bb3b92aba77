"""Boxes of voxels: on each of the axes x, y and z the first position, and one past the last, as the programs count them."""
from __future__ import annotations

import itertools
import math
import operator
import re
from typing import Any, Iterator, Sequence, Tuple

from .errors import UsageError

Span = Tuple[int, int]
Box = Tuple[Span, Span, Span]
Three = Tuple[int, int, int]

_TEXT = re.compile(r"\[(-?\d+):(-?\d+),(-?\d+):(-?\d+),(-?\d+):(-?\d+)\]")


def box_text(box: Sequence[Span]) -> str:
    """The text of a box, as the programs take it: `[x0:x1,y0:y1,z0:z1]`."""
    return "[" + ",".join(f"{begin}:{end}" for begin, end in box) + "]"


def read_box(text: str) -> Box:
    """The box of a text; raises UsageError where it is none."""
    found = _TEXT.fullmatch(text)
    if not found:
        raise UsageError(f"{text} is no box: [x0:x1,y0:y1,z0:z1] or `all` is wanted")
    numbers = [int(number) for number in found.groups()]
    return (numbers[0], numbers[1]), (numbers[2], numbers[3]), (numbers[4], numbers[5])


def box_of(given: Any) -> Box:
    """The box of a text, or of three pairs of whole numbers, of x, y and z; raises UsageError where it is none."""
    if isinstance(given, str):
        return read_box(given)
    try:
        x, y, z = ((operator.index(begin), operator.index(end)) for begin, end in given)
    except (TypeError, ValueError):
        raise UsageError(f"{given!r} is no box: three pairs are wanted, of x, y and z, or the text [x0:x1,y0:y1,z0:z1]") from None
    return x, y, z


def sides_of(box: Sequence[Span]) -> Three:
    """How many voxels a box has on each axis."""
    x, y, z = (end - begin for begin, end in box)
    return x, y, z


def count_voxels(box: Sequence[Span]) -> int:
    return math.prod(end - begin for begin, end in box)


def is_inside(box: Sequence[Span], whole: Sequence[Span]) -> bool:
    """Whether a box has voxels, and all of them are in another box."""
    return all(first <= begin < end <= last for (begin, end), (first, last) in zip(box, whole))


def cut_span(begin: int, end: int, origin: int, step: int) -> list[Span]:
    """The parts of a span that lie between the borders at each step from an origin on."""
    borders = [begin, *range(begin + step - (begin - origin) % step, end, step), end]
    return list(zip(borders, borders[1:]))


def cut_box(box: Sequence[Span], origin: Sequence[int], step: Sequence[int], most: int) -> list[Box]:
    """
    The parts of a box, x fastest, that are cut at borders of cells of the size `step` from the origin on.

    A part has at most `most` voxels; but none is less than a cell, clipped to the box. Parts are as long on x as may be, then on y.
    """
    sides = [min(length, end - begin) for length, (begin, end) in zip(step, box)]
    axes = []
    for axis, (begin, end) in enumerate(box):
        count = max(1, most // math.prod(sides))
        axes.append(cut_span(begin, end, origin[axis], count * step[axis]))
        sides[axis] = min(count * step[axis], end - begin)
    return [(x, y, z) for z, y, x in itertools.product(*reversed(axes))]


def cells_in(box: Sequence[Span], whole: Sequence[Span], step: Sequence[int]) -> Iterator[Box]:
    """The boxes of the cells of a grid that a box meets, clipped to the whole scale, x fastest."""
    axes = []
    for (begin, end), (first, last), length in zip(box, whole, step):
        firsts = range(begin - (begin - first) % length, end, length)
        axes.append([(at, min(at + length, last)) for at in firsts])
    return ((x, y, z) for z, y, x in itertools.product(*reversed(axes)))


def chunk_name(cell: Sequence[Span]) -> str:
    """The name of the file of a cell's chunk, in an unsharded scale."""
    return "_".join(f"{begin}-{end}" for begin, end in cell)
