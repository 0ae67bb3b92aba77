#!/usr/bin/env python3
"""Writes into random segmentation scales, cuts boxes out of them and judges them, of chunks spelled otherwise and of damaged ones.

    tests/segmentations.py [PROGRAM [COUNT]]

COUNT is the number of scales of each kind, two in three of them in shards; some chunks are absent.
"""
import array
import itertools
import random
import struct

from harness import leaves, main, want, want_ending
from model import (
    Values, Volume, answers, breaks, corners, damaged, infos_of, line, printed, refused, sound, spell, stored, stream_of, voxels_in,
)
from model.breaks import DAMAGED_CELL, ascending
from model.chance import damage_chunk, pick_boxes, pick_stored, pick_volume, pick_writes
from model.segments import bytes_of


def pick_scale(chance):
    return pick_volume(chance, is_raw=False, in_shards=chance.random() < 2 / 3)


def is_written(trial, seed):
    """Overlapping boxes leave the chunks or the shards that are due, and the scale and boxes of it read back."""
    chance = random.Random(f"writes {seed}")
    volume = pick_scale(chance)
    writes = pick_writes(chance, volume, chance.randint(0, 5))
    trial.write(volume, writes)
    trial.want_values(volume, Values(volume, writes), pick_boxes(chance, volume))


def is_read(trial, seed):
    """Chunks with labels, some of them absent, in this project's spelling or in another."""
    chance = random.Random(f"read {seed}")
    volume = pick_scale(chance)
    files = trial.store(volume, pick_stored(chance, volume))
    trial.want_cuts(volume, files, pick_boxes(chance, volume))


def is_damaged(trial, seed):
    """Some damaged chunks among others: the whole scale, and each cell's box."""
    chance = random.Random(f"damaged {seed}")
    volume = pick_scale(chance)
    chunks = pick_stored(chance, volume)
    for cell in chance.sample(sorted(chunks), min(len(chunks), 3)):
        chunks[cell] = damage_chunk(chance, volume.shape(cell), chunks[cell])
    files = trial.store(volume, chunks)
    cells = chance.sample(sorted(chunks), min(len(chunks), 8))
    trial.want_cuts(volume, files, [volume.whole, *map(volume.box_of, cells)])


# Three cells, of which the second is damaged


def refuses_cell(trial, volume, chunk, told):
    """Cutouts and judgements that meet the damaged cell tell its line, and those of the last cell are served."""
    files = trial.store(volume, {**ascending(volume), DAMAGED_CELL: chunk})
    x, y, z = own = volume.box_of(DAMAGED_CELL)
    for box in (volume.whole, own, [(x[0], x[0] + 1), (y[1] - 1, y[1]), (z[1] - 1, z[1])]):
        for command, model in (("cutout", answers.cutout), ("verify", answers.verdict)):
            want_ending(model(volume, files, box), refused(damaged(DAMAGED_CELL, told)), f"the model of {command}")
            trial.want_unchanged(volume.words(command, spell(box)), refused(damaged(DAMAGED_CELL, told)))
    last = volume.box_of((2, 0, 0))
    trial.want_cuts(volume, files, [last])
    trial.want_unchanged(volume.words("verify", spell(last)), sound(1, 1))


CLIPPED_CELL = (2, 0, 0)


def takes_long(trial, volume, cell, more):
    """A chunk with words behind it that nothing refers to may be as long as its own size allows, and no longer."""
    chunks, limit = ascending(volume), volume.limit(cell)
    trial.store(volume, {**chunks, cell: chunks[cell].ljust(limit + more, b"\xff")})
    told = refused(damaged(cell, breaks.too_long(volume, limit, limit + more)))
    for box in (volume.whole, volume.box_of(cell)):
        trial.want(volume.words("cutout", spell(box)), told if more else answers.cutout(volume, volume.files(chunks), box))
    trial.want_unchanged(volume.words("verify"), told if more else sound(3, 3))


# title, what breaks the chunk, each in a channel, in its last block or its first; the last one's line is told
TWO_BREAKS = [
    ("a lower channel first", [("3 bits", 1, False), ("a table behind the end", 0, True)]),
    ("a lower block first", [("3 bits", 0, True), ("a table behind the end", 0, False)]),
    ("bits before a table", [("a table behind the end", 0, False), ("3 bits", 0, False)]),
    ("indices before a table", [("a table behind the end", 1, True), ("indices behind the end", 1, True)]),
    ("headers before bits", [("3 bits", 0, False), ("headers behind the end", 0, False)]),
    ("a channel's blocks before the next one's headers", [("headers behind the end", 1, False), ("3 bits", 0, True)]),
]


# title, channels, bytes of a value, words of a chunk of one block without bits, and the value of all voxels. The table is among the
# words of the header, so the headers end with the chunk, and the place of the indices lies behind it.
SHORT = [
    ("three words", 1, 4, [1, 1, 12345], 12345), ("three words of a wide value", 1, 8, [1, 0, 12345], 12345 << 32),
    ("two channels that share their words", 2, 4, [2, 2, 1, 12345], 12345),
    ("two channels that share wide words", 2, 8, [2, 2, 0, 12345], 12345 << 32),
]


def takes_short(trial, sharding, channels, width, words, value):
    volume = Volume([3, 2, 2], [3, 2, 2], (0, 0, 0), channels, width, (3, 3, 3), sharding)
    files = trial.store(volume, {(0, 0, 0): bytes_of(words)})
    for box in (volume.whole, *corners(volume.whole)):
        values = value.to_bytes(width, "little") * voxels_in(box) * channels
        trial.want(volume.words("cutout", spell(box)), printed(values))
    trial.want_cuts(volume, files, [volume.whole])


def refuses_one_word(trial):
    volume = line(1, width=4, block=(1, 1, 1))
    trial.store(volume, {(0, 0, 0): b"\xff" * 4})
    for command in (volume.words("cutout", spell(volume.whole)), volume.words("verify")):
        trial.want_unchanged(command, refused("damaged 0,0,0: seg channel 0"))


# The largest chunks that are written: 2^22 blocks of one voxel.
LONG = Volume([2**22, 1, 1], [2**22, 1, 1], width=4, block=(1, 1, 1))
LONG_OF_TWO = Volume([2**21 - 3, 1, 1], [2**40, 7, 7], channels=2, width=8, block=(4, 1, 1))


def writes_largest(trial):
    """2^22 values that all differ: the tables of one value follow each other behind the headers."""
    count = LONG.size[0]
    values = array.array("I", range(count - 1, -1, -1))
    words = array.array("I", bytes(4 * 2 * count))
    words[0::2] = array.array("I", range(2 * count, 3 * count))
    words[1::2] = words[0::2]
    trial.lay_out(infos_of(LONG))
    trial.want("write d s", stored(1, 1), stream_of([(LONG.whole, values.tobytes())]))
    chunk = struct.pack("<I", 1) + words.tobytes() + values.tobytes()
    want((trial.folder / LONG.path_of((0, 0, 0))).read_bytes() == chunk, True, "the chunk that is due")
    for begin, end in [(0, count), (count - 1, count)]:
        trial.want(LONG.words("cutout", spell([(begin, end), (0, 1), (0, 1)])), printed(values[begin:end].tobytes()))


def rows(count):
    for seed in range(count):
        yield f"writes {seed}", is_written, seed
        yield f"other spellings {seed}", is_read, seed
        yield f"damaged chunks {seed}", is_damaged, seed
    for form, volume in breaks.VOLUMES.items():
        for title, chunk, told in breaks.every_break(volume):
            yield f"{form}, {title}", refuses_cell, volume, chunk, told
        for title, two in TWO_BREAKS:
            chunk, lines = breaks.broken(volume, *two)
            yield f"{form}, {title}", refuses_cell, volume, chunk, lines[-1]
        yield f"{form}, the longest chunk", takes_long, volume, DAMAGED_CELL, 0
        for more in (0, 4):
            yield f"{form}, a clipped chunk, {more} bytes too long", takes_long, volume, CLIPPED_CELL, more
    for (form, sharding), (title, *case) in itertools.product(breaks.SHARDINGS.items(), SHORT):
        yield f"{title}, {form}", takes_short, sharding, *case
    for more, volume in (("", LONG), (" of two channels", LONG_OF_TWO)):
        yield f"no writes into 2^22 padded voxels{more}", leaves, infos_of(volume), "write d s", stored(0, 0), {}, stream_of([])
    yield "the largest chunk", writes_largest
    yield "one word", refuses_one_word


if __name__ == "__main__":
    main(rows, count=60)
