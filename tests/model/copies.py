"""
A plain model of copies: the files that a copy of what is stored of a scale into another layout has.

A cell of the source is there where its file is, or where the index of its shard has its id, or where a fault is on the way to
that. A cell of the target is copied where its box and that of such a cell have a voxel in common, and no other one is. Its values
are the source's; where the source has no chunk they are 0. The cells that are copied are made in the order of their keys: x
fastest, then y, then z, or in shards by shard, minishard and id. The first of them that meets a cell with a fault ends the copy,
with the first such cell of the source, x fastest in its box; the files whose cells all come before may stand. (All of this is this
project's own rule; what chunks and shards say is the format's.)
"""
import dataclasses
import itertools

from .faults import Damaged, damaged, refused, stored
from .volumes import Values


@dataclasses.dataclass(frozen=True)
class Made:
    """
    What a run ends with that makes cells; how many, with which values; the paths of all files, in their order; those that may stand,
    with their bytes; and what is read of the cells that are there.
    """

    answer: tuple
    cells: int
    values: Values
    paths: list
    files: dict
    there: dict


def read_cells(volume, files, cells=None):
    """Of each cell that is there, of all or of these, the bytes of its values, or its fault."""
    found = {}
    for cell in volume.cells if cells is None else cells:
        try:
            found[cell] = volume.read(files, cell)
        except Damaged as fault:
            found[cell] = fault
    return {cell: read for cell, read in found.items() if read is not None}


def values_of(volume, there, writes=()):
    """The values of what is read of a scale's cells, and of writes over it; a cell with a fault counts as zeros."""
    return Values(volume, [*((volume.box_of(cell), raw) for cell, raw in there.items() if isinstance(raw, bytes)), *writes])


def make(volume, met, there, values):
    """Cells are made in their order, each with cells that it is made of, by what is read of these: up to the first that has a fault."""
    paths = {cell: volume.path_of(cell) for cell in volume.in_order(met)}
    faults = ((own, damaged(cell, there[cell])) for own in paths for cell in met[own] if isinstance(there.get(cell), Damaged))
    stopped, fault = next(faults, (None, None))
    front = itertools.takewhile(lambda own: paths[own] != paths.get(stopped), paths)
    files = volume.files({own: volume.spell(own, values.of(volume.box_of(own))) for own in front})
    answer = stored(len(files), len(met)) if fault is None else refused(fault)
    return Made(answer, len(met), values, list(dict.fromkeys(paths.values())), files, there)


def made_of(source, target, there, values, box_over=lambda box: box):
    """What is made with these values of what is read of the source's cells, each under the box that `box_over` gives."""
    met = {}
    for cell in there:
        for own in target.cells_in(box_over(source.box_of(cell))):
            met.setdefault(own, []).append(cell)
    return make(target, met, there, values)


def copy_of(source, target, files):
    """The copy of what files have of the source."""
    there = read_cells(source, files)
    return made_of(source, target, there, values_of(source, there))
