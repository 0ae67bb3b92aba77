"""Values that are assigned to boxes of a scale."""
from __future__ import annotations

import os
from typing import Any

import numpy

from .arrays import Scale
from .axes import to_stored
from .boxes import Three
from .errors import UsageError
from .folders import is_empty
from .indexing import Picked
from .programs import Place
from .reading import MOST_SCRATCH, Part, parts_of
from .slabs import Values, most_of_slab
from .values import fit
from .writing import MEMORY, Job, Target


def _place_of(scale: Scale) -> Place:
    """The folder of a scale that is written; raises UsageError where it has none."""
    if scale.store.place is None:
        raise UsageError(f"{os.fspath(scale.store.name)} is only read: values are stored in folders of this machine")
    return scale.store.place


def _spread(picked: Picked, values: numpy.ndarray) -> numpy.ndarray:
    """A view of values that are assigned to what an index picks, spread as numpy spreads them, with an axis for each of the scale's."""
    shape = numpy.broadcast_to(numpy.False_, picked.shape)[picked.rest].shape
    given = values.shape
    while values.ndim > len(shape) and values.shape[0] == 1:
        values = values[0]
    try:
        values = numpy.broadcast_to(values, shape)
    except ValueError:
        found, wanted = (str(one).replace(" ", "") for one in (given, shape))  # as numpy tells them
        raise UsageError(f"could not broadcast input array from shape {found} into shape {wanted}") from None
    # What the rest of the index does is undone: an axis that it drops comes back, one that it adds goes, one that it turns is turned.
    back = {type(None): 0, int: None}
    return values[tuple(back.get(type(part), part) for part in picked.rest if part is not Ellipsis)]


def _put_box(scale: Scale, place: Place, values: numpy.ndarray, begin: Three) -> None:
    """Stores values with the axes channel, z, y, x at a place that is counted from the scale's first voxel on."""
    x, y, z = (at + first for at, first in zip(begin, scale.offset))
    target = Target(place, f"{scale.store.name}/info", scale.store.info(), scale.info, True)
    given = Values(values, "what is assigned", "czyx")
    job = Job(given, target, (x, y, z), 1, most_of_slab(MEMORY, scale.info, given.voxel_bytes, 1), None)
    job.stands = not is_empty(target.folder)
    job.run(progress=False)


def _put_between(scale: Scale, place: Place, positions: list[range], values: numpy.ndarray, part: Part) -> None:
    """Stores values where positions leave voxels or channels out: what is between is read first."""
    reader, wanted = scale.reader(), positions[0]
    found = reader.read([range(reader.channels), *(range(axis[0], axis[-1] + 1) for axis in part.positions)])
    steps = (slice(None, None, axis.step) for axis in part.positions)
    found[(slice(wanted[0], wanted[-1] + 1, wanted.step), *steps)] = values[(slice(None), *part.target)]
    z, y, x = (axis[0] for axis in part.positions)
    _put_box(scale, place, found, (x, y, z))


def assign(scale: Scale, picked: Picked, values: Any) -> None:
    """
    Stores values at what an index picks of a scale: by `update`, or by `write` where nothing is stored yet.

    Where a step leaves voxels out, or some of the channels are picked, the box around is read first, and stored with them.
    """
    place = _place_of(scale)
    values = _spread(picked, fit(values, scale.dtype))
    if picked.is_empty:
        return
    stored, positions = to_stored(values, scale.axes), scale.stored_positions(picked)
    channels, *places = positions
    if len(channels) == scale.reader().channels and all(axis.step == 1 or len(axis) == 1 for axis in places):
        z, y, x = (axis[0] for axis in places)
        _put_box(scale, place, stored, (x, y, z))
        return
    for part in parts_of(places, scale.info.chunk, MOST_SCRATCH // (scale.reader().channels * scale.itemsize)):
        _put_between(scale, place, positions, stored, part)
