"""
A plain model of the next scale of a pyramid: the files that a scale of half the size has, by one of two methods.

The target's size is the source's halved and rounded up, and its offset the source's halved. Under a voxel lie the voxels at twice its
place, or one further, on each axis, as far as the source has them: eight, and at an odd edge fewer. Its value is, of those under it in
its channel, their mean, rounded down, or the one that occurs most often, the least of these. A cell of the target is made where a voxel
under its box lies in a cell of the source that is there, and no other one is. All else is as in a copy: the order of the cells, the
first fault, and what may stand before it. (All of this is this project's own rule; what chunks and shards say is the format's.)
"""
import dataclasses
import itertools

from .copies import made_of, read_cells, values_of
from .volumes import Values


def mean(values):
    return sum(values) // len(values)


def mode(values):
    return min(values, key=lambda value: (-values.count(value), value))


METHODS = {"mode": mode, "mean": mean}


def is_next(source, target):
    """Whether a scale has the size and the offset of the next one."""
    sizes, offsets = zip(source.size, target.size), zip(source.offset, target.offset)
    return all((size + 1) // 2 == half for size, half in sizes) and all(at == 2 * half for at, half in offsets)


def next_of(source, **fields):
    """The next scale, in the source's layout but for what is given."""
    size, offset = [(side + 1) // 2 for side in source.size], tuple(at // 2 for at in source.offset)
    return dataclasses.replace(source, **{"size": size, "offset": offset, **fields})


def upper_of(target):
    """The scale u whose next one it is: raw chunks in files, twice as long on each axis."""
    size, chunk = ([2 * side for side in sides] for sides in (target.size, target.chunk))
    offset = tuple(2 * at for at in target.offset)
    return dataclasses.replace(target, size=size, chunk=chunk, offset=offset, block=None, sharding=None, key="u")


def under(source, voxel):
    """The voxels of the source that lie under one of the target."""
    axes = [[at for at in (2 * place, 2 * place + 1) if begin <= at < end] for place, (begin, end) in zip(voxel, source.whole)]
    return list(itertools.product(*axes))


def voxels_of(box):
    """The voxels of a box, x fastest."""
    return [voxel[::-1] for voxel in itertools.product(*(range(*span) for span in reversed(box)))]


def reduce_all(source, target, values, method):
    """The bytes of all of the target's values, channel by channel."""
    below = [under(source, voxel) for voxel in voxels_of(target.whole)]
    found = (METHODS[method]([values.at(at, channel) for at in voxels]) for channel in range(source.channels) for voxels in below)
    return b"".join(value.to_bytes(target.width, "little") for value in found)


def half_of(box):
    """The box of all voxels under which a voxel of a box lies."""
    return [(begin // 2, (end + 1) // 2) for begin, end in box]


def reduction_of(source, target, method, files):
    """The next scale of what files have of the source."""
    assert is_next(source, target)
    there = read_cells(source, files)
    values = Values(target, [(target.whole, reduce_all(source, target, values_of(source, there), method))])
    return made_of(source, target, there, values, half_of)
