"""Volumes, writes and damages at random."""
import dataclasses
import itertools
import math
import random

from .boxes import corners, voxels_in
from .segments import BITS, bytes_of, spell_loosely, words_of
from .shards import Sharding, rows_of
from .volumes import Volume

# Forms of scales: whether chunks are raw, and whether they are in shards.
FORMS = list(itertools.product((True, False), (False, True)))


def form_of(seed, step=1):
    return FORMS[seed // step % len(FORMS)]


def pick_sharding(chance):
    preshift = chance.choice([0, 0, 1, 2, 3, 64, chance.randint(0, 64)])
    return Sharding(preshift, chance.random() < 0.5, chance.randint(0, 3), chance.randint(0, 5))


def pick_layout(chance, volume, is_large, is_raw, in_shards):
    """A layout of a volume; a large one has blocks that are large enough for 16 bits an index."""
    chunk = [chance.randint(*((7, 9) if is_large else (1, 6))) for _ in range(3)]
    block = tuple(chance.randint(7, 9) if is_large else chance.choice([1, 2, chance.randint(1, 8)]) for _ in range(3))
    sharding = pick_sharding(chance) if in_shards else None
    return dataclasses.replace(volume, chunk=chunk, block=None if is_raw else block, sharding=sharding)


def pick_layouts(chance, forms):
    """Layouts of a small volume, each raw or not, and in shards or not. No grid has over 400 cells."""
    widths = [1, 2, 4, 8] if all(is_raw for is_raw, _ in forms) else [4, 8]
    while True:
        is_large = chance.random() < 0.25
        size = [chance.randint(7, 12) if is_large else chance.choice([1, *chance.sample(range(1, 11), 3)]) for _ in range(3)]
        offset = tuple(chance.choice([0, chance.randint(-9, 9), chance.randint(-9, 9)]) for _ in range(3))
        plain = Volume(size, [1, 1, 1], offset, chance.randint(1, 3), chance.choice(widths))
        volumes = [pick_layout(chance, plain, is_large, *form) for form in forms]
        if all(math.prod(volume.grid) <= 400 for volume in volumes):
            return volumes


def pick_scales(chance, forms):
    """A scale, and the next one of its pyramid."""
    source, target = pick_layouts(chance, forms)
    size = [(side + 1) // 2 for side in source.size]
    return dataclasses.replace(source, offset=tuple(2 * at for at in target.offset)), dataclasses.replace(target, size=size)


def pick_sizes(chance, volume):
    """The same volume, of an unsharded one at times with further chunk sizes."""
    if volume.sharding is not None or chance.random() < 0.7:
        return volume
    more = tuple([chance.randint(1, 9) for _ in range(3)] for _ in range(chance.randint(1, 7)))
    return dataclasses.replace(volume, more=more)


def pick_volume(chance, is_raw, in_shards):
    return pick_layouts(chance, [(is_raw, in_shards)])[0]


# Boxes and values


def pick_box(chance, volume):
    return [tuple(sorted(chance.sample(range(begin, end + 1), 2))) for begin, end in volume.whole]


def pick_boxes(chance, volume):
    """The whole scale, its first and last voxels, and other boxes."""
    return [volume.whole, *corners(volume.whole), *(pick_box(chance, volume) for _ in range(3))]


def pick_labels(chance, volume, count):
    """The bytes of so many values of at most 300 labels: at random, in turn or in runs."""
    few = chance.choice([1, 2, 3, 4, 5, 16, 17, chance.randint(1, 300)])
    most = 300 if math.prod(volume.block) > 256 and chance.random() < 0.5 else few
    bits = chance.choice([min(10, 8 * volume.width), 8 * volume.width])
    labels = [chance.getrandbits(bits).to_bytes(volume.width, "little") for _ in range(most)]
    form = chance.choice(["at random", "in turn", "in runs"])
    if form == "at random":
        return b"".join(chance.choices(labels, k=count))
    if form == "in turn":
        return b"".join(itertools.islice(itertools.cycle(labels), count))
    longest = chance.randint(2, 40)
    runs = (chance.choice(labels) * chance.randint(1, longest) for _ in range(count))
    return b"".join(runs)[: count * volume.width]


def pick_values(chance, volume, box):
    """The bytes of the values of a box: labels, where the volume has blocks, and in one of eight cases zeros or any bytes."""
    count, form = voxels_in(box) * volume.channels, chance.random()
    if form < 0.05:
        return bytes(count * volume.width)
    return pick_labels(chance, volume, count) if volume.block and form > 0.125 else chance.randbytes(count * volume.width)


def pick_writes(chance, volume, count, like=None):
    """
    So many writes of boxes that overlap, in one of four cases into the whole scale at first, or into a voxel at last; with values as
    another layout of the volume may have them.
    """
    boxes, form = [pick_box(chance, volume) for _ in range(count)], chance.random()
    if form < 0.25:
        boxes.insert(0, volume.whole)
    elif form > 0.75:
        boxes.append(corners(pick_box(chance, volume))[0])
    return [(box, pick_values(chance, like or volume, box)) for box in boxes]


def choose(chance, usual, odd, seldom):
    """The usual one, or an odd one once in so many times."""
    return chance.choice(odd) if chance.randrange(seldom) == 0 else usual


# Damages


def damage_bytes(chance, content):
    """Bytes of which some are others, gone, doubled or more."""
    content = bytearray(content)
    for _ in range(chance.choice([1, 1, 1, 2, 3])):
        at, length = chance.randrange(len(content) + 1), chance.choice([0, 1, 1, 2, chance.randint(0, 40)])
        put = chance.choice([b"", chance.randbytes(chance.randint(1, 3)), bytes(content[at : at + length]) * 2, b'"', b"\0", b"\xff"])
        content[at : at + length] = put
    return bytes(content) if chance.random() < 0.8 else bytes(content[: chance.randrange(len(content) + 1)])


def with_numbers(content, numbers):
    """Bytes with numbers of eight bytes, each by its place."""
    content = bytearray(content)
    for place, number in numbers.items():
        content[place : place + 8] = number.to_bytes(8, "little")
    return bytes(content)


def damage_chunk(chance, shape, chunk):
    """A segmentation chunk of which some words are others, mostly of the headers, or which has another length."""
    words = words_of(chunk)
    headers = min(len(words), shape.channels + 2 * len(shape.blocks()))
    for _ in range(chance.randint(0, 3)):
        place = chance.choice([chance.randrange(headers), chance.randrange(len(words))])
        near = len(words) - chance.randint(0, 2 * len(shape.blocks()) + 3)
        number = chance.choice([0, 1, near, near % 2**24 | chance.choice(BITS) << 24, 2**32 - 1, chance.getrandbits(32)])
        words[place] = chance.choice([number, words[place] ^ 1 << chance.randrange(32)]) % 2**32
    length = chance.choice([4 * len(words)] * 6 + [chance.randrange(4 * len(words)), 4 * chance.randrange(len(words))])
    return bytes_of(words)[:length] + bytes(chance.choice([0] * 9 + [chance.randint(1, 40)]))


def damage_shard(chance, volume, shard):
    """Some numbers of entries and rows are others, or some bytes at any place."""
    bits = volume.sharding.minishard_bits
    places = list(range(0, 16 << bits, 8))
    for begin, count in (rows_of(bits, minishard, shard) for minishard in range(2**bits)):
        places += range(begin, begin + 24 * count, 8)
    if volume.block is not None and chance.random() < 0.5:
        places = range(len(shard) - 8)
    numbers = {}
    for place in chance.sample(places, min(len(places), chance.randint(1, 3))):
        old = int.from_bytes(shard[place : place + 8], "little")
        near = [old + 1, old - 1, old + 24, old ^ 1 << chance.randrange(64)]
        numbers[place] = chance.choice([*near, 0, 1, len(shard), 2**63, 2**64 - 1, chance.getrandbits(64)]) % 2**64
    return with_numbers(shard, numbers)


def damage_inside(chance, volume, path, content):
    if volume.sharding is not None:
        return damage_shard(chance, volume, content)
    if volume.block is not None:
        (cell,) = (cell for cell in volume.cells if volume.path_of(cell) == path)
        return damage_chunk(chance, volume.shape(cell), content)
    return chance.randbytes(len(content))


def damage_some(chance, volume, files):
    """The files of a volume, of which one to three are others, or gone, which is None."""
    after = dict(files)
    for path in chance.sample(sorted(files), min(len(files), chance.randint(1, 3))):
        content = files[path]
        kind = chance.choice(["inside"] * 6 + ["longer", "shorter", "another's", "gone"])
        after[path] = {
            "inside": lambda: damage_inside(chance, volume, path, content),
            "longer": lambda: content + chance.randbytes(chance.choice([1, 4, 100])),
            "shorter": lambda: content[: chance.randrange(len(content))],
            "another's": lambda: files[chance.choice(sorted(files))],
            "gone": lambda: None,
        }[kind]()
    return after


def pick_stored(chance, volume, like=None, is_sound=False):
    """Chunks of some of the cells, those of segmentations also as another program spells them, and too long ones, if not all are sound."""

    def spell_some(cell, raw):
        if volume.block is None or chance.random() < 0.3:
            return volume.spell(cell, raw)
        loose = spell_loosely(chance, volume.shape(cell), raw)
        return volume.spell(cell, raw) if is_sound and len(loose) > volume.limit(cell) else loose

    cells = [cell for cell in volume.cells if chance.random() < 0.7]
    return {cell: spell_some(cell, pick_values(chance, like or volume, volume.box_of(cell))) for cell in cells}


def some_chunks(volume):
    """Chunks at random of all cells but the last."""
    chance = random.Random(0)
    raws = {cell: chance.randbytes(volume.shape(cell).count() * volume.width) for cell in volume.cells[:-1]}
    return {cell: volume.spell(cell, raw) for cell, raw in raws.items()}
