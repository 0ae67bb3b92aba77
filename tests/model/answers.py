"""
A plain model of what a cutout and a judgement answer of stored files.

The cells that meet a box are taken x fastest, then y, then z. A cutout prints, before the first fault, the first channel of what
lies below the damaged cell's layer. Of a cell in a shard a judgement goes the way to the index of its minishard, then judges every
row of this index in order, and then the cell's own chunk. Of a row its id is judged, then its start, and then whether it stands in
the shard and the minishard of its id. What is absent is sound, and so is all that no cell of the box asks for. Of a scale with several
chunk sizes all this is said of the first one. Then the cells of each further size are judged, in the same order: first a chunk's fault,
then the first of its values in the box that isn't the first size's there, x fastest, then y, then z, then the channel. (That whole indexes
are judged and in which order is this project's profile, and so is all that is judged of further sizes.)
"""
import functools
import itertools

from .faults import Damaged, damaged, printed, refused
from .shards import rows_of, walk_rows
from .volumes import Values


def cutout(volume, files, box=None):
    """What a cutout of a box, or of the whole scale, ends with."""
    values, box = Values(volume), box or volume.whole
    for cell in volume.cells_in(box):
        try:
            raw = volume.read(files, cell)
        except Damaged as fault:
            (begin, end), layer = box[2], volume.box_of(cell)[2][0]
            below = [*box[:2], (begin, max(begin, min(end, layer)))]
            return refused(damaged(cell, fault), values.of(below, channels=1))
        if raw is not None:
            values.put(volume.box_of(cell), raw)
    return printed(values.of(box))


class Unsound(Exception):
    """What a judgement finds wrong, as it is told."""


@functools.lru_cache(maxsize=64)
def judge_index(sharding, place, shard):
    """All rows of the index of a minishard, in the bytes of a shard."""
    number, minishard = place
    for own, _, _ in walk_rows(shard, *rows_of(sharding.minishard_bits, minishard, shard)):
        if sharding.place(own) != place:
            raise Unsound(f"misplaced {number} {minishard} {own}")


def want_alike(number, view, cell, raw, box, values):
    """What a cell of a further chunk size has in a box are these values."""
    own = Values(view, [] if raw is None else [(view.box_of(cell), raw)])
    x, y, z = (range(max(a, c), min(b, d)) for (a, b), (c, d) in zip(view.box_of(cell), box))
    for channel, k, j, i in itertools.product(range(view.channels), z, y, x):
        found, wanted = own.at((i, j, k), channel), values.at((i, j, k), channel)
        if found != wanted:
            raise Unsound(f"conflict {number} {i},{j},{k} {channel} {found} {wanted}")


def judge_cells(volume, files, box):
    """Of the cells of each chunk size that meet a box whether they are stored; raises what is wrong first."""
    for number, view in enumerate(volume.views):
        if number == 1:
            values = Values(volume, [(box, cutout(volume, files, box)[1])])
        for cell in view.cells_in(box):
            try:
                shard = files.get(view.path_of(cell))
                if view.sharding is not None and shard is not None:
                    judge_index(view.sharding, view.place(cell), shard)
                raw = view.read(files, cell)
            except Damaged as fault:
                raise Unsound(damaged(cell, fault, number)) from fault
            if number > 0:
                want_alike(number, view, cell, raw, box, values)
            yield raw is not None


def sound(cells, stored):
    return printed(f"cells {cells} stored {stored} absent {cells - stored}")


def verdict(volume, files, box=None):
    """What judging a box, or the whole scale, ends with."""
    try:
        stored = list(judge_cells(volume, files, box or volume.whole))
    except Unsound as line:
        return refused(str(line))
    return sound(len(stored), sum(stored))
