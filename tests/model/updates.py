"""
A plain model of updates: the files that a scale has after boxes were written over what it held.

A cell is written where some box meets it. In a sharded scale each shard of such a cell is written anew, so it is judged first: of each
minishard, from the first on, the way to its index, and then all rows of this; the first fault of the first such shard ends the update.
Kept are the cells of the scale whose rows stand in the shard and the minishard of their ids; other rows are dropped. After each shard all
cells that are met, and those kept so far, may be 2^22 at most; so may, before any, the pairs of a box and a cell. The cells are then made in the order of their keys, of what their chunk holds, or of zeros, and of the writes over it. The first of them whose chunk has a
fault ends the update; the files whose cells all come before may stand. (All of this is this project's own rule; what chunks and shards
say is the format's.)
"""
from .copies import Made, make, read_cells, values_of
from .faults import Damaged, refused
from .shards import rows_of, walk_rows


def kept_in(volume, shard, content):
    """The cells that a shard keeps, by its number and its bytes."""
    cells, bits = {volume.number(cell): cell for cell in volume.cells}, volume.sharding.minishard_bits
    for minishard in range(2**bits):
        try:
            numbers = [number for number, _, _ in walk_rows(content, *rows_of(bits, minishard, content))]
        except Damaged as fault:
            raise Damaged(f"shard {shard} {minishard}: {fault}") from fault
        yield from (cells[own] for own in numbers if own in cells and volume.sharding.place(own) == (shard, minishard))


# So many pairs of a box and a cell there may be, and so many cells to store.
MOST = 2**22


class TooMany(Damaged):
    """More pairs or cells than there may be."""


def want_few(count):
    if count > MOST:
        raise TooMany(f"too many cells {count}")


def cells_after(volume, files, met):
    """The cells that are stored after those that some write meets were written; raises the fault of a shard, or that they are too many."""
    cells = set(met)
    if volume.sharding is not None:
        for shard in sorted({volume.place(cell)[0] for cell in met}):
            content = files.get(volume.path(volume.sharding.file(shard)))
            if content is not None:
                cells.update(kept_in(volume, shard, content))
            want_few(len(cells))
    return cells


def update_of(volume, files, writes):
    """What putting writes over a scale's files does."""
    try:
        pairs = [cell for box, _ in writes for cell in volume.cells_in(box)]
        want_few(len(pairs))
        cells = cells_after(volume, files, set(pairs))
    except Damaged as fault:
        return Made(refused(str(fault)), 0, values_of(volume, {}), [], {}, {})
    there = read_cells(volume, files, cells)
    return make(volume, {cell: [cell] for cell in cells}, there, values_of(volume, there, writes))
