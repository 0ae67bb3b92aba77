"""Boxes, each a list of three pairs, the begin and the end on each axis; and streams of writes, each a box and its bytes."""
import math
import re
import struct


def box_in(text):
    """The box that a word spells."""
    return [(int(begin), int(end)) for begin, end in re.findall(r"(-?\d+):(-?\d+)", text)]


def spell(box):
    return "[" + ",".join(f"{begin}:{end}" for begin, end in box) + "]"


def name_of(box):
    """The name of the object of a box."""
    return "_".join(f"{begin}-{end}" for begin, end in box)


def along(begin, end):
    """A box of a scale that is a line along x."""
    return [(begin, end), (0, 1), (0, 1)]


def voxels_in(box):
    return math.prod(end - begin for begin, end in box)


def meets(box, other):
    return all(begin < last and first < end for (begin, end), (first, last) in zip(box, other))


def corners(box):
    """The first voxel of a box and its last."""
    return [[(begin, begin + 1) for begin, _ in box], [(end - 1, end) for _, end in box]]


def head_of(count):
    """The first eight bytes of a stream of writes."""
    return b"PVW1" + struct.pack("<I", count)


def bytes_of(begin, size):
    """The 48 bytes of the box of a write."""
    return struct.pack("<3q3Q", *begin, *size)


def stream_of(writes):
    boxes = (bytes_of([begin for begin, _ in box], [end - begin for begin, end in box]) + values for box, values in writes)
    return head_of(len(writes)) + b"".join(boxes)
