"""Arrays, indices and scales at random."""
import dataclasses
import itertools
import pathlib
import random

import numpy

from model import Values, infos_of
from model.chance import pick_stored, pick_volume

# Forms of scales: whether chunks are raw, and whether they are in shards.
FORMS = list(itertools.product((True, False), (False, True)))


def array_of(volume, values):
    """The values of a model's scale, as an array with the axes channel, z, y, x."""
    x, y, z = volume.size
    return numpy.frombuffer(values.of(volume.whole), f"<u{volume.width}").reshape(volume.channels, z, y, x)


def put_files(files):
    for path, content in files.items():
        path = pathlib.Path(path)
        path.parent.mkdir(parents=True, exist_ok=True)
        path.write_bytes(content)


def stored_scale(seed, is_raw, in_shards, **fields):
    """A scale s of the data set d at random, of which some chunks are put into the current folder; and its values as an array."""
    chance = random.Random(repr((seed, is_raw, in_shards)))
    volume = dataclasses.replace(pick_volume(chance, is_raw, in_shards), **fields)
    chunks = pick_stored(chance, volume, is_sound=True)
    files = volume.files(chunks)
    put_files({**infos_of(volume), **files})
    writes = [(volume.box_of(cell), volume.decode(cell, chunk)) for cell, chunk in chunks.items()]
    return volume, array_of(volume, Values(volume, writes))


def random_array(shape, dtype, seed=0):
    chance = numpy.random.default_rng(seed)
    dtype = numpy.dtype(dtype)
    return chance.integers(0, numpy.iinfo(dtype).max, shape, dtype.newbyteorder("="), endpoint=True).astype(dtype)


def random_part(chance, length):
    """A part of an index for an axis of a length."""
    ends = [None, *range(-length - 2, length + 3)]
    step = chance.choice([None, None, 1, 2, 3, -1, -2, length + 1, -length - 1])
    some = slice(chance.choice(ends), chance.choice(ends), step)
    number = chance.randrange(-length, length)
    return chance.choice([slice(None), some, some, number, numpy.int64(number)])


def random_index(chance, shape):
    """An index of numpy's basic kinds, which may pick nothing."""
    count = chance.randint(0, len(shape))
    front = chance.randint(0, count) if chance.random() < 0.3 else count
    parts = [random_part(chance, length) for length in (*shape[:front], *shape[len(shape) - count + front :])]
    if front < count or chance.random() < 0.1:
        parts.insert(front, Ellipsis)
    for _ in range(chance.choice([0, 0, 0, 1, 2])):
        parts.insert(chance.randint(0, len(parts)), None)
    return parts[0] if len(parts) == 1 and chance.random() < 0.5 else tuple(parts)


def same(found, wanted):
    """Whether two are the same for numpy: kind, shape, type and values."""
    return type(found) is type(wanted) and found.shape == wanted.shape and found.dtype == wanted.dtype and bool((found == wanted).all())
