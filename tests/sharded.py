#!/usr/bin/env python3
"""Writes into random sharded scales, and cuts boxes out of them and of damaged shards with the built vol_tool.

    tests/sharded.py [PROGRAM [COUNT]]

COUNT is the number of scales of each kind; some chunks are absent.
"""
import random
import struct

from harness import main, want
from model import Sharding, Values, along, infos_of, line, printed, refused, spell
from model.chance import damage_shard, pick_box, pick_stored, pick_volume, pick_writes, with_numbers


def reads_scale(trial, seed, is_written):
    """Shards of the model, or of overlapping boxes that are written, as they are due, read back: the whole scale and three boxes of it."""
    chance = random.Random(f"{'writes' if is_written else 'scale'} {seed}")
    volume = pick_volume(chance, is_raw=True, in_shards=True)
    if is_written:
        held = pick_writes(chance, volume, chance.randint(0, 5))
        trial.write(volume, held)
    else:
        chunks = pick_stored(chance, volume)
        trial.store(volume, chunks)
        held = [(volume.box_of(cell), raw) for cell, raw in chunks.items()]
    trial.want_values(volume, Values(volume, held), [volume.whole, *(pick_box(chance, volume) for _ in range(3))])


# Eleven voxels in cells of two, by their ids in two minishards of one shard.
SIX = line(11, 2, sharding=Sharding(minishard_bits=1))
SIX_CHUNKS = {cell: bytes(range(2 * cell[0] + 1, min(2 * cell[0] + 3, 12))) for cell in SIX.cells}


def reads_damaged(trial, seed):
    chance = random.Random(f"damaged {seed}")
    ((path, shard),) = trial.store(SIX, SIX_CHUNKS).items()
    length = chance.choice([None] * 5 + [chance.randrange(len(shard))])
    files = {path: damage_shard(chance, SIX, shard)[:length]}
    trial.lay_out(files)
    trial.want_cuts(SIX, files, [SIX.whole, *map(SIX.box_of, SIX.cells)])


TOP = 2**64 - 1

# Two voxels, each a cell.
ONE_MINISHARD = Sharding()
TWO_MINISHARDS = Sharding(minishard_bits=1)
HASHED = Sharding(0, True, 3, 4)

# title, sharding, numbers of eight bytes by their places in the first shard, how many bytes of it are left, the begin and the end
# of a box, and what is printed or told
ROWS = [
    ("two minishards", TWO_MINISHARDS, {}, None, (0, 2), b"\n\v"),
    ("an empty minishard", TWO_MINISHARDS, {0: 0, 8: 0}, None, (0, 2), b"\0\v"),
    ("an index of 23 bytes", TWO_MINISHARDS, {0: 2, 8: 25}, None, (0, 1), "damaged 0,0,0: shard bad length 23"),
    ("eight bytes", TWO_MINISHARDS, {}, 8, (0, 1), "damaged 0,0,0: shard short index"),
    ("33 bytes", TWO_MINISHARDS, {}, 33, (0, 1), "damaged 0,0,0: shard short minishard"),
    ("a row of another minishard", TWO_MINISHARDS, {33: 1}, None, (0, 1), b"\0"),
    ("one minishard", ONE_MINISHARD, {}, None, (0, 2), b"\n\v"), ("no bits of the ids", Sharding(preshift=64), {}, None, (0, 2), b"\n\v"),
    ("before a second id twice", ONE_MINISHARD, {26: 0}, None, (0, 1), b"\n"),
    ("a second id twice", ONE_MINISHARD, {26: 0}, None, (1, 2), "damaged 1,0,0: index id 1"),
    ("a start behind the end", ONE_MINISHARD, {34: 1000}, None, (0, 1), "damaged 0,0,0: shard short chunk"),
    ("a chunk that is too long", ONE_MINISHARD, {50: 2}, None, (0, 1), "damaged 0,0,0: chunk too long 2 limit 1"),
    ("below the first of two equal ids", ONE_MINISHARD, {18: 1, 26: 0}, None, (0, 1), b"\0"),
    ("the first of two equal ids", ONE_MINISHARD, {18: 1, 26: 0}, None, (1, 2), b"\n"),
    ("two shards by the hash", HASHED, {}, None, (0, 2), b"\n\v"),
    ("a start of an index behind its end", TWO_MINISHARDS, {0: 25, 8: 1}, None, (0, 1), "damaged 0,0,0: shard bad range"),
    ("2^22 + 1 rows", ONE_MINISHARD, {0: 2, 8: 2 + 24 * (2**22 + 1)}, None, (0, 1), "damaged 0,0,0: shard too many rows 4194305"),
    ("an index at the end of 64 bits", TWO_MINISHARDS, {0: TOP - 24, 8: TOP}, None, (0, 1), "damaged 0,0,0: shard short minishard"),
    ("a first id that is the greatest", ONE_MINISHARD, {18: TOP}, None, (0, 1), b"\0"),
    ("behind a first id that is the greatest", ONE_MINISHARD, {18: TOP}, None, (1, 2), b"\0"),
    ("a first size that is the greatest", ONE_MINISHARD, {50: TOP}, None, (0, 1), f"damaged 0,0,0: chunk too long {TOP} limit 1"),
    ("behind a first size that is the greatest", ONE_MINISHARD, {50: TOP}, None, (1, 2), "damaged 1,0,0: index start 1"),
]


def reads_row(trial, sharding, numbers, length, box, wanted):
    volume = line(2, sharding=sharding)
    files = trial.store(volume, {(0, 0, 0): b"\n", (1, 0, 0): b"\v"})
    first = min(files)
    trial.lay_out({first: with_numbers(files[first], numbers)[:length]})
    trial.want(volume.words("cutout", spell(along(*box))), refused(wanted) if isinstance(wanted, str) else printed(wanted))


def reads_far(trial):
    """A chunk and its index that lie far behind the begin of a file with a hole: only their ranges are read."""
    far, one = 2**36, line(1, sharding=ONE_MINISHARD)
    shard = {0: struct.pack("<2Q", far + 1, far + 25), 16 + far: b"\7" + struct.pack("<3Q", 0, far, 1)}
    trial.lay_out({**infos_of(one), "d/s/0.shard": shard})
    trial.want("cutout d s [0:1,0:1,0:1]", printed(b"\7"))


def reads_many_rows(trial):
    """A minishard of more rows than a window of an index, whole and around the windows' ends."""
    volume = line(2500, sharding=Sharding(preshift=64))
    chunks = {(number, 0, 0): bytes([number % 251]) for number in range(2500) if number % 7 != 3}
    trial.store(volume, chunks)
    values = Values(volume, [(volume.box_of(cell), chunk) for cell, chunk in chunks.items()])
    trial.want_values(volume, values, [along(0, 2500), along(1190, 1200), along(2499, 2500)])


def finds_first_and_last(trial):
    volume = line(5000, sharding=ONE_MINISHARD)
    values = random.Random("rows").randbytes(5000)
    (shard,) = trial.write(volume, [(volume.whole, values)]).values()
    want(len(shard), 16 + 5000 + 24 * 5000, "the length of the shard")
    for begin, end in [(4999, 5000), (0, 1)]:
        trial.want(volume.words("cutout", spell(along(begin, end))), printed(values[begin:end]))


def rows(count):
    for seed in range(count):
        yield f"scale {seed}", reads_scale, seed, False
        yield f"writes {seed}", reads_scale, seed, True
        yield f"damaged shard {seed}", reads_damaged, seed
    for title, *case in ROWS:
        yield title, reads_row, *case
    yield "a chunk behind a hole", reads_far
    yield "a minishard of many rows", reads_many_rows
    yield "the first and the last of 5,000 rows", finds_first_and_last


if __name__ == "__main__":
    main(rows, count=24)
