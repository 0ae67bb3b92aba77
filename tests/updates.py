#!/usr/bin/env python3
"""Writes boxes over what scales hold with the command update of the built vol_tool.

    tests/updates.py [PROGRAM [COUNT]]

What is due is stated here, and worked out by a plain model (model/updates.py). COUNT is the number of random scales of each of four
forms: raw chunks or segmentations, in files or in shards. Each is written, and updated three times by random boxes; after each all
values are those of a plain array, and all files are the model's, byte by byte, those that no box meets with the time that they had.
"""
import dataclasses
import itertools
import random

from harness import DEVICE, FOLDER, PIPE, answers, leaves, main, open_folder, want, want_ending, want_files
from model import (
    SEGMENTED, Sharding, Values, Volume, along, box_in, damaged, infos_of, line, refused, stored, stream_of, verdict,
    voxels_in,
)
from model.chance import FORMS, damage_some, pick_stored, pick_volume, pick_writes, with_numbers
from model.segments import bytes_of as chunk_of
from model.shards import shard_of
from model.small import FIRST, NO_FOLDER, changed, padded, shards, with_info
from runs import is_killed_often, rows_of_stops, update_run

WORKERS = [1, 2, 16]

# Scales at random


def with_strays(chance, volume, files):
    """Shards with rows of other shards' or minishards' ids, or of no cell's; some of them empty."""
    found, stored_cells = {}, [cell for cell in volume.cells if volume.stored(files, cell) is not None]
    for shard in range(2**volume.sharding.shard_bits):
        path = volume.path(volume.sharding.file(shard))
        own = [cell for cell in stored_cells if volume.path_of(cell) == path]
        rows_of_shard = {(volume.place(cell)[1], volume.number(cell)): volume.stored(files, cell) for cell in own}
        for _ in range(chance.randint(0, 3)):
            stray = chance.randrange(2**volume.sharding.minishard_bits), chance.choice([chance.randrange(600), chance.getrandbits(64)])
            if (shard, stray[0]) != volume.sharding.place(stray[1]):
                rows_of_shard[stray] = chance.randbytes(chance.choice([0, 1, 20]))
        if path in files or rows_of_shard:
            found[path] = shard_of(volume.sharding.minishard_bits, [(*row, chunk) for row, chunk in rows_of_shard.items()])
    return found


def lay_foreign(trial, chance, volume):
    """Chunks as another program may have stored them, and perhaps rows that no cell reads. Gives the values."""
    chunks = pick_stored(chance, volume, is_sound=True)
    files = trial.store(volume, chunks)
    if volume.sharding is not None and volume.sharding.shard_bits < 5 and chance.random() < 0.5:
        trial.lay_out(with_strays(chance, volume, files))
    return Values(volume, [(volume.box_of(cell), volume.decode(cell, chunk)) for cell, chunk in chunks.items()])


def lay_written(trial, chance, volume):
    writes = pick_writes(chance, volume, chance.choice([0, 1, 1, 2]))
    trial.write(volume, writes)
    return Values(volume, writes)


def updates_random(trial, seed, form):
    """A scale that was written, or one in six of another program, is updated three times."""
    chance = random.Random(f"{seed} {form}")
    volume = pick_volume(chance, *form)
    values = (lay_foreign if chance.random() < 1 / 6 else lay_written)(trial, chance, volume)
    for workers in chance.sample(WORKERS, 3):
        writes = pick_writes(chance, volume, chance.choice([0, 1, 1, 2, 3]))
        trial.want_update(volume, writes, f"--workers={workers}")
        for box, raw in writes:
            values.put(box, raw)
        trial.want_values(volume, values, [volume.whole])
    trial.want(volume.words("verify"), verdict(volume, trial.files()))


def updates_damaged(trial, seed, form):
    """Some files are others: the first fault is told, and what stands is what came before it, or there is none on the way."""
    chance = random.Random(f"damaged {seed} {form}")
    volume = pick_volume(chance, *form)
    files = trial.write(volume, pick_writes(chance, volume, chance.choice([1, 2, 3])))
    trial.lay_out(damage_some(chance, volume, files))
    writes = pick_writes(chance, volume, chance.choice([1, 1, 2]))
    trial.want_update(volume, writes, f"--workers={chance.choice(WORKERS)}")


# Updates that are stated here


def at(place, *values):
    """A write of bytes into a line."""
    return along(place, place + len(values)), bytes(values)


SMALL = Volume([2, 2, 1], [2, 2, 1])
SHIFTED = line(4, 4, offset=(-3, 0, 0))
ROW = line(3)
WIDE = line(2, 2, channels=2, width=2)
EDGE = line(5, 4)

# Two voxels, each a cell: in two minishards, and in one.
PAIR = line(2, sharding=Sharding(minishard_bits=1))
JOINED = line(2, sharding=Sharding())
TEN_ELEVEN = {(0, 0, 0): b"\n", (1, 0, 0): b"\v"}
PAIR_SHARD = shard_of(1, [(0, 0, b"\n"), (1, 1, b"\v")])

# Eight voxels, each a cell, in two shards of two minishards: 0 and 4, 1 and 5; 2 and 6, 3 and 7. The values count up from 1.
EIGHT = line(8, sharding=Sharding(0, False, 1, 1))
COUNTED = {(number, 0, 0): bytes([number + 1]) for number in range(8)}

# title, scale, the files before, the writes, the files that are put, and how many cells they have
STORED = [
    ("a voxel of a chunk", SMALL, {"0-2_0-2_0-1": "01020304"}, [(box_in("1:2,1:2,0:1"), b"\t")], {"0-2_0-2_0-1": "01020309"}, 1),
    ("a voxel of a chunk that is absent", SMALL, {}, [(box_in("1:2,1:2,0:1"), b"\t")], {"0-2_0-2_0-1": "00000009"}, 1),
    ("a whole chunk into an empty folder", SMALL, {}, [(SMALL.whole, b"\1\2\3\4")], {"0-2_0-2_0-1": "01020304"}, 1),
    ("zeros over a chunk", SMALL, {"0-2_0-2_0-1": "01020304"}, [(SMALL.whole, bytes(4))], {"0-2_0-2_0-1": "00000000"}, 1),
    ("two channels of kept chunks, one at the edge", line(5, 2, channels=2, width=2, sharding=Sharding()),
     {"0.shard": shard_of(0, [(0, 0, bytes(range(8))), (0, 1, bytes(range(8, 16))), (0, 2, b"wxyz")]).hex()},
     [(along(2, 3), b"\0\0\0\0")],
     {"0.shard": shard_of(0, [(0, 0, bytes(range(8))), (0, 1, b"\0\0\n\v\0\0\x0e\x0f"), (0, 2, b"wxyz")]).hex()}, 3),
    ("the last of two boxes", SMALL, {"0-2_0-2_0-1": "01020304"}, [(SMALL.whole, b"\5\6\7\x08"), (box_in("0:1,0:1,0:1"), b"\t")],
     {"0-2_0-2_0-1": "09060708"}, 1),
    ("no boxes", SMALL, {"0-2_0-2_0-1": "01020304"}, [], {}, 0),
    ("no boxes over a damaged chunk", SMALL, {"0-2_0-2_0-1": "01"}, [], {}, 0),
    ("an offset below 0", SHIFTED, {"-3-1_0-1_0-1": "01020304"}, [at(-1, 9)], {"-3-1_0-1_0-1": "01020904"}, 1),
    ("two channels", WIDE, {"0-2_0-1_0-1": "0100020003000400"}, [(along(1, 2), b"\t\0\b\0")], {"0-2_0-1_0-1": "0100090003000800"}, 1),
    ("an edge chunk", EDGE, {"0-4_0-1_0-1": "01020304", "4-5_0-1_0-1": "05"}, [at(4, 9)], {"4-5_0-1_0-1": "09"}, 1),
    ("a box across two chunks", EDGE, {"0-4_0-1_0-1": "01020304"}, [at(3, 8, 9)], {"0-4_0-1_0-1": "01020308", "4-5_0-1_0-1": "09"}, 2),
    ("a damaged chunk that no box meets", ROW, {"0-1_0-1_0-1": "", "1-2_0-1_0-1": "02"}, [at(1, 9)], {"1-2_0-1_0-1": "09"}, 1),
    ("the second of two minishards", PAIR, {"0.shard": PAIR_SHARD.hex()}, [at(1, 12)],
     {"0.shard": shard_of(1, [(0, 0, b"\n"), (1, 1, b"\f")]).hex()}, 2),
    ("a row of another minishard", PAIR, {"0.shard": with_numbers(PAIR_SHARD, {33: 1}).hex()}, [at(0, 13)],
     {"0.shard": shard_of(1, [(0, 0, b"\r"), (1, 1, b"\v")]).hex()}, 2),
    ("a row of a minishard's absent neighbour", PAIR, {"0.shard": shard_of(1, [(0, 0, b"\n"), (0, 1, b"\v")]).hex()}, [at(0, 13)],
     {"0.shard": shard_of(1, [(0, 0, b"\r")]).hex()}, 1),
    ("a row of no cell", JOINED, {"0.shard": shard_of(0, [(0, 0, b"\n"), (0, 2, b"\v")]).hex()}, [at(0, 13)],
     {"0.shard": shard_of(0, [(0, 0, b"\r")]).hex()}, 1),
    ("a gap in a shard", JOINED, {"0.shard": with_numbers(shard_of(0, [(0, 0, b"\nxx")]), {32 + 3: 1}).hex()}, [at(1, 13)],
     {"0.shard": shard_of(0, [(0, 0, b"\n"), (0, 1, b"\r")]).hex()}, 2),
    ("a shard that is absent", PAIR, {}, [at(1, 12)], {"0.shard": shard_of(1, [(1, 1, b"\f")]).hex()}, 1),
    ("one of two shards", EIGHT, {"0.shard": shard_of(1, [(0, 0, b"\1"), (1, 5, b"\6")]).hex(), "1.shard": b"damaged".hex()},
     [at(4, 9)], {"0.shard": shard_of(1, [(0, 0, b"\1"), (0, 4, b"\t"), (1, 5, b"\6")]).hex()}, 3),
]


def leaves_objects(trial, volume, before, writes, due, cells, *options):
    """An update over files leaves these, and the others as they were."""
    due = {volume.path(name): bytes.fromhex(content) for name, content in due.items()}
    trial.lay_out({**infos_of(volume), **{volume.path(name): bytes.fromhex(content) for name, content in before.items()}})
    update = trial.want_update(volume, writes, *options)
    want_files(update.files, due, "the model's file")
    want(update.answer, stored(len(due), cells), "the model's answer")


def takes_other_spellings(trial):
    """A kept chunk that is spelled otherwise gets this program's spelling, and one in a file that no box meets stays."""
    for sharding in (None, Sharding()):
        volume = line(4, 2, width=4, block=(2, 1, 1), sharding=sharding, key="t" if sharding else "s")
        loose = chunk_of([1, 2, 0, 7, 99])
        trial.store(volume, {(0, 0, 0): loose, (1, 0, 0): loose})
        update = trial.want_update(volume, [(along(3, 4), b"\7\0\0\0")])
        due = {cell: chunk_of([1, 2, 2, 7]) for cell in ([(1, 0, 0)] if sharding is None else [(0, 0, 0), (1, 0, 0)])}
        want_files(update.files, volume.files(due), "the model's file")


# The values 2, 7, 2, 7 in two blocks of two voxels, as this program spells them, and in other ways.
BITS_1, BITS_2 = 1 << 24, 2 << 24
SPELLED = [1, 5 | BITS_1, 4, 5 | BITS_1, 7, 0b10, 2, 7, 0b10]
OTHERWISE = {
    "a table that descends": [1, 5 | BITS_1, 4, 5 | BITS_1, 7, 0b01, 7, 2, 0b01],
    "a table that is there twice": [1, 5 | BITS_1, 4, 8 | BITS_1, 7, 0b10, 2, 7, 0b10, 2, 7],
    "indices of more bits": [1, 5 | BITS_2, 4, 5 | BITS_2, 7, 0b0100, 2, 7, 0b0100],
    "a value that no index has": [1, 5 | BITS_2, 4, 5 | BITS_2, 8, 0b0100, 2, 7, 9, 0b0100],
    "a value that is there twice": [1, 5 | BITS_2, 4, 5 | BITS_2, 8, 0b1000, 2, 2, 7, 0b1000],
    "bits behind the indices": [1, 5 | BITS_1, 4, 5 | BITS_1, 7, 0b10 | 1 << 31, 2, 7, 0b10],
    "a table before its indices": [1, 4 | BITS_1, 6, 4 | BITS_1, 7, 2, 7, 0b10, 0b10],
    "a gap before indices": [1, 5 | BITS_1, 4, 5 | BITS_1, 8, 0b10, 2, 7, 0, 0b10],
    "a word behind": [*SPELLED, 0],
    "a word before the channel": [2, 0, *SPELLED[1:]],
    "nothing": SPELLED,
}

# The values 2, 7, 2 of an edge chunk, and an index of the voxel behind.
EDGE_SPELLED = [1, 5 | BITS_1, 4, 7, 7, 0b10, 2, 7, 2]
EDGE_OTHERWISE = [1, 5 | BITS_1, 4, 5 | BITS_1, 7, 0b10, 2, 7, 0b10]


def spells_kept_chunk(trial, words):
    """A kept chunk comes out as this program spells it, beside one that is spelled so and one that is written."""
    volume, own = line(12, 4, width=4, block=(2, 1, 1), sharding=Sharding()), chunk_of(SPELLED)
    trial.store(volume, {(0, 0, 0): chunk_of(words), (1, 0, 0): own})
    update = trial.want_update(volume, [(along(8, 12), chunk_of([2, 7, 2, 7]))])
    want_files(update.files, volume.files({(number, 0, 0): own for number in range(3)}), "the model's file")


def spells_edge_chunk(trial):
    """The same of an edge chunk, in which an index of no voxel says nothing."""
    volume = line(7, 4, width=4, block=(2, 1, 1), sharding=Sharding())
    trial.store(volume, {(1, 0, 0): chunk_of(EDGE_OTHERWISE)})
    update = trial.want_update(volume, [(along(0, 4), chunk_of([2, 7, 2, 7]))])
    want_files(update.files, volume.files({(0, 0, 0): chunk_of(SPELLED), (1, 0, 0): chunk_of(EDGE_SPELLED)}), "the model's file")


def keeps_many_rows(trial):
    """A minishard of more rows than a window of an index, some of which are missing; boxes at its ends and in the middle."""
    volume, held = line(2500, sharding=Sharding(preshift=64)), {number for number in range(2500) if number % 7 != 3}
    trial.store(volume, {(number, 0, 0): bytes([number % 251]) for number in sorted(held)})
    update = trial.want_update(volume, [at(0, 9), at(1020, 9, 9, 9, 9, 9, 9, 9), at(2495, 9)], "--workers=2")
    want(update.answer, stored(1, len(held | {0, 2495} | set(range(1020, 1027)))), "the model's answer")


def leaves_scales_apart(trial):
    """Another scale of the data set, whose folder is in this one's, stays."""
    other = dataclasses.replace(SMALL, key="s/t")
    trial.lay_out({**infos_of(SMALL, other), SMALL.path_of((0, 0, 0)): b"\1\2\3\4", other.path_of((0, 0, 0)): b"\1\2\3\4"})
    trial.want_update(SMALL, [(box_in("0:1,0:1,0:1"), b"\t")])
    trial.want_update(other, [(box_in("1:2,0:1,0:1"), b"\t")])


# Damaged stores. Of a shard a few numbers of eight bytes are others, by their places, or its end is missing.
#
# The shard of two minishards: entries from 0 on, a chunk at 32, its row from 33 on, a chunk at 57, its row from 58 on. Of one minishard:
# an entry, chunks from 16 on, ids from 18 on, starts from 34 on, sizes from 50 on. Of four chunks: entries, chunks at 32, ids from 34 on,
# starts from 50 on, sizes from 66 on, chunks at 82, ids from 84 on, starts from 100 on, sizes from 116 on.

TOO_MANY_ROWS = 24 * (2**22 + 1)
LAST = 2**64 - 1

# title, scale, changes by the file's name: numbers by their places, and how many bytes are left; the cell that is written, the line, and
# the files that stand anew
DAMAGED_SHARDS = [
    ("an index of 23 bytes", PAIR, {"0": ({0: 2}, None)}, 1, "shard 0 0: shard bad length 23", []),
    ("an index of 25 bytes", PAIR, {"0": ({0: 0}, None)}, 0, "shard 0 0: shard bad length 25", []),
    ("an index that ends before it begins", PAIR, {"0": ({8: 0}, None)}, 0, "shard 0 0: shard bad range", []),
    ("an index of the other minishard", PAIR, {"0": ({16: 27}, None)}, 0, "shard 0 1: shard bad length 23", []),
    ("both indexes", PAIR, {"0": ({0: 2, 16: 27}, None)}, 1, "shard 0 0: shard bad length 23", []),
    ("an empty file", PAIR, {"0": ({}, 0)}, 1, "shard 0 0: shard short index", []),
    ("15 bytes", PAIR, {"0": ({}, 15)}, 1, "shard 0 0: shard short index", []),
    ("31 bytes, of which 16 are an empty minishard's", PAIR, {"0": ({0: 0, 8: 0}, 31)}, 0, "shard 0 1: shard short index", []),
    ("31 bytes", PAIR, {"0": ({}, 31)}, 0, "shard 0 0: shard short minishard", []),
    ("33 bytes", PAIR, {"0": ({}, 33)}, 0, "shard 0 0: shard short minishard", []),
    ("a byte less", PAIR, {"0": ({}, 81)}, 0, "shard 0 1: shard short minishard", []),
    ("an index far behind the end", PAIR, {"0": ({0: 2**63, 8: 2**63 + 24}, None)}, 0, "shard 0 0: shard short minishard", []),
    ("an index at the end of all numbers", PAIR, {"0": ({0: LAST - 24, 8: LAST}, None)}, 0, "shard 0 0: shard short minishard", []),
    ("2^22 + 1 rows", PAIR, {"0": ({16: 0, 24: TOO_MANY_ROWS}, None)}, 0, "shard 0 1: shard too many rows 4194305", []),
    ("an id twice", JOINED, {"0": ({26: 0}, None)}, 0, "shard 0 0: index id 1", []),
    ("an id past 64 bits", JOINED, {"0": ({18: 1, 26: LAST}, None)}, 0, "shard 0 0: index id 1", []),
    ("a start past 64 bits", JOINED, {"0": ({34: LAST}, None)}, 1, "shard 0 0: index start 0", []),
    ("a second start past 64 bits", JOINED, {"0": ({42: LAST}, None)}, 0, "shard 0 0: index start 1", []),
    ("an id and a start", JOINED, {"0": ({26: 0, 42: LAST}, None)}, 0, "shard 0 0: index id 1", []),
    ("a row behind that of the written cell", EIGHT, {"0": ({42: 0}, None)}, 0, "shard 0 0: index id 1", []),
    ("a row of a minishard that no box meets", EIGHT, {"0": ({108: LAST}, None)}, 0, "shard 0 1: index start 1", []),
    ("a row of the second shard", EIGHT, {"1": ({42: 0}, None)}, 2, "shard 1 0: index id 1", []),
    ("rows of both shards", EIGHT, {"0": ({92: 0}, None), "1": ({42: 0}, None)}, None, "shard 0 1: index id 1", []),
    ("the second shard", EIGHT, {"1": ({92: 0}, None)}, None, "shard 1 1: index id 1", []),
    ("the second shard, and a chunk of the first", EIGHT, {"0": ({66: 2}, None), "1": ({92: 0}, None)}, None, "shard 1 1: index id 1", []),
    ("a chunk behind the end", PAIR, {"0": ({41: 1000}, None)}, 0, "damaged 0,0,0: shard short chunk", []),
    ("a kept chunk behind the end", PAIR, {"0": ({41: 1000}, None)}, 1, "damaged 0,0,0: shard short chunk", []),
    ("a chunk that is too long", JOINED, {"0": ({50: 2}, None)}, 1, "damaged 0,0,0: chunk too long 2 limit 1", []),
    ("a kept chunk of no bytes", EIGHT, {"0": ({74: 0}, None)}, 0, "damaged 4,0,0: chunk length 0 wanted 1", []),
    ("a kept chunk of the second shard", EIGHT, {"1": ({124: 0}, None)}, None, "damaged 7,0,0: chunk length 0 wanted 1", ["0.shard"]),
    ("the first by minishards", EIGHT, {"0": ({74: 0, 116: 0}, None)}, 0, "damaged 4,0,0: chunk length 0 wanted 1", []),
]


def tells_damaged_shard(trial, volume, changes, cell, told, may_stand, workers):
    files = trial.store(volume, TEN_ELEVEN if volume.size[0] == 2 else COUNTED)
    for name, (numbers, length) in changes.items():
        path = volume.path(f"{name}.shard")
        trial.lay_out({path: with_numbers(files[path], numbers)[:length]})
    write = at(0, *range(21, 29)) if cell is None else at(cell, 99)
    update = trial.want_update(volume, [write], f"--workers={workers}")
    want_ending(update.answer, refused(told), "the model")
    want(list(update.files), list(map(volume.path, may_stand)), "the model's files")


LONG = line(600)
LONG_LABELS = line(600, width=4, block=(1, 1, 1))
LONG_SHARD = line(600, width=4, block=(1, 1, 1), sharding=Sharding(shard_bits=1))
SEVEN = line(7, 3)

# title, scale, the cells whose chunks are of no bytes, the box that is written, the cell that is told, and how many files may stand
DAMAGED_CHUNKS = [
    ("a chunk that a box covers", SEVEN, [(0, 0, 0)], (0, 7), (0, 0, 0), 0),
    ("a chunk that a box meets", SEVEN, [(0, 0, 0)], (2, 4), (0, 0, 0), 0),
    ("the second of three", SEVEN, [(1, 0, 0)], (0, 7), (1, 0, 0), 1),
    ("the first of two damaged ones", SEVEN, [(2, 0, 0), (1, 0, 0)], (0, 7), (1, 0, 0), 1),
    ("behind one that no box meets", SEVEN, [(0, 0, 0), (2, 0, 0)], (3, 7), (2, 0, 0), 1),
    ("a chunk deep in a long line", LONG, [(598, 0, 0)], (0, 600), (598, 0, 0), 598),
    ("a segmentation in a third window", LONG_LABELS, [(598, 0, 0)], (0, 600), (598, 0, 0), 598),
    ("a kept segmentation deep in the second shard", LONG_SHARD, [(599, 0, 0)], (0, 2), (599, 0, 0), 1),
    ("a kept segmentation of the first shard", LONG_SHARD, [(599, 0, 0), (4, 0, 0)], (0, 2), (4, 0, 0), 0),
]


def tells_damaged_chunk(trial, volume, empty, box, told, may_stand, workers):
    values = bytes(number % 251 + 1 for number in range(volume.width * voxels_in(volume.whole)))
    chunks = volume.chunks_after([(volume.whole, values)])
    trial.store(volume, {**chunks, **{cell: b"" for cell in empty}})
    write = along(*box), bytes(volume.width * (box[1] - box[0]))
    update = trial.want_update(volume, [write], f"--workers={workers}")
    fault = f"chunk length 0 wanted {volume.limit(told)}" if volume.block is None else "seg length 0"
    want_ending(update.answer, refused(damaged(told, fault)), "the model")
    want(len(update.files), may_stand, "the model's files")


# Three raw chunks in a shard, of 16, 16 and 8 bytes, of which one has another length.
EDGE_SHARD = line(10, 4, channels=2, width=2, sharding=Sharding())
EDGE_CHUNKS = {(number, 0, 0): bytes(range(number, number + length)) for number, length in enumerate((16, 16, 8))}

# title, the cell, how many bytes its chunk has, the box that is written, and the fault
OTHER_LENGTHS = [
    ("a byte less", (0, 0, 0), 15, (4, 8), "chunk length 15 wanted 16"), ("a byte more", (1, 0, 0), 17, (0, 4), "chunk too long 17 limit 16"),
    ("half of its bytes", (1, 0, 0), 8, (0, 4), "chunk length 8 wanted 16"), ("no bytes", (2, 0, 0), 0, (0, 4), "chunk length 0 wanted 8"),
    ("as many bytes as one that isn't at the edge", (2, 0, 0), 16, (0, 4), "chunk too long 16 limit 8"),
]


def tells_length(trial, cell, length, box, fault):
    """A raw chunk that no box meets has another length than its cell's values."""
    trial.store(EDGE_SHARD, {**EDGE_CHUNKS, cell: bytes(length)})
    update = trial.want_update(EDGE_SHARD, [(along(*box), bytes(4 * (box[1] - box[0])))])
    want_ending(update.answer, refused(damaged(cell, fault)), "the model")
    want(list(update.files), [], "the model's files")


# Updates that stop. What is no object stays, and a pipe beside objects isn't noticed.

FOURS = {"d/s/0-1_0-1_0-1": b"\4", "d/s/1-2_0-1_0-1": b"\5", "d/s/2-3_0-1_0-1": b"\6"}
THREE_RUN = update_run(ROW, FOURS, [at(0, 1, 2, 3)])
THREE = {path: bytes([number]) for number, path in enumerate(FOURS, 1)}
BESIDE = {"d/s/other": b"x", "d/s/pipe": PIPE, "d/s/0.shard": b"x"}

# title, what stands instead of some files, the line, and how many files are put
STOPPED = [
    ("a folder in the third file's place", {"d/s/2-3_0-1_0-1": FOLDER}, "store fault", 2),
    ("a pipe in the second file's place", {"d/s/1-2_0-1_0-1": PIPE}, "store fault", 0),
    ("a device in the first file's place", {"d/s/0-1_0-1_0-1": DEVICE}, "store fault", 0),
]

# Updates of the small data set that are refused; nothing is changed.

UPDATE = ["update", "d", "s"]
GOOD = stream_of([(box_in("1:2,1:2,0:1"), b"\t")])
PADDED = "padded voxels 4194305 over 4194304"
IN_SHARDS = {**with_info(**shards()), "d/s/0.shard": b"short"}

# title, what is changed, the stream, the line
REFUSED = [
    ("two chunk sizes", with_info(chunk_sizes=[[2, 2, 1], [4, 2, 1]]), GOOD, "several chunk sizes"),
    ("2^22 + 1 padded voxels, and no stream", padded(2**22 + 1), b"", PADDED),
    ("a box outside over a damaged chunk", {FIRST: b""}, stream_of([(box_in("0:5,0:1,0:1"), bytes(5))]), "write 0: outside scale"),
    ("a box outside over a damaged shard", IN_SHARDS, stream_of([(box_in("0:5,0:1,0:1"), bytes(5))]), "write 0: outside scale"),
    ("a damaged shard", IN_SHARDS, GOOD, "shard 0 0: shard short index"),
    ("a chunks' folder that is a file", NO_FOLDER, GOOD, "store fault"),
    ("a raw chunk as a segmentation's", with_info({"data_type": "uint64"}, **SEGMENTED),
     stream_of([(box_in("1:2,1:2,0:1"), bytes(8))]), "damaged 0,0,0: seg channel 0"),
]


# Updates that are killed

KILLS = 8
CUBES = {
    "in files": Volume([64] * 3, [8, 8, 4]),
    "in shards": Volume([64] * 3, [8] * 3, sharding=Sharding(3, False, 2, 4)),
    "a segmentation in shards": Volume([64] * 3, [8] * 3, width=4, block=(8, 8, 8), sharding=Sharding(3, False, 2, 4)),
}


def pick_cubes(chance, volume):
    """A box over most of a cube, and smaller ones of one value each over it."""
    inner = b"\1\2\3\4" * 62**3 if volume.block else chance.randbytes(62**3)
    begins = [[chance.randrange(44) for _ in range(3)] for _ in range(20)]
    cubes = [([(begin, begin + 20) for begin in place], chance.randbytes(1) * (20**3 * volume.width)) for place in begins]
    return [([(1, 63)] * 3, inner), *cubes]


def rows_of_kills(trial, volume):
    """Kills as each eighth of the files is replaced, every second one at once; on a busy machine they often come too late."""
    chance = random.Random(4)
    held, _, _ = volume.files_after(pick_cubes(chance, volume))
    run = update_run(volume, held, pick_cubes(chance, volume))
    paths = list(run.put)

    def pick(number):
        return paths[number % KILLS * len(paths) // KILLS], number % 2 * chance.uniform(0, 0.003)

    return is_killed_often(trial, run, pick, KILLS, 12 * KILLS)


def rows(count):
    for title, volume in CUBES.items():
        yield f"kills, {title}", rows_of_kills, volume
    for title, change, feed, told in REFUSED:
        yield title, answers, changed(change), UPDATE, refused(told), feed
    yield "a folder as the stream", answers, changed({FIRST: b""}), UPDATE, refused("feed fault"), open_folder
    for (title, *case), workers in itertools.product(STORED, WORKERS):
        yield f"{title}, {workers} workers", leaves_objects, *case, f"--workers={workers}"
    yield "other spellings", takes_other_spellings
    for title, words in OTHERWISE.items():
        yield f"a kept chunk with {title}", spells_kept_chunk, words
    yield "an edge chunk that is kept, with an index of no voxel", spells_edge_chunk
    yield "a minishard of many rows", keeps_many_rows
    yield "two scales", leaves_scales_apart
    yield "files beside objects", leaves, {**THREE_RUN.before, **BESIDE}, UPDATE, stored(3, 3), THREE, THREE_RUN.stream
    for title, instead, fault, count_put in STOPPED:
        put = dict(list(THREE.items())[:count_put])
        before = {path: content for path, content in THREE_RUN.before.items() if path not in instead}
        yield title, leaves, {**before, **instead}, UPDATE, refused(fault), put, THREE_RUN.stream
    yield from rows_of_stops(THREE_RUN)
    for (title, *case), workers in itertools.product(DAMAGED_SHARDS, (1, 16)):
        yield f"damaged, {title}, {workers} workers", tells_damaged_shard, *case, workers
    for (title, *case), workers in itertools.product(DAMAGED_CHUNKS, WORKERS):
        yield f"damaged, {title}, {workers} workers", tells_damaged_chunk, *case, workers
    for title, *case in OTHER_LENGTHS:
        yield f"a kept raw chunk of {title}", tells_length, *case
    for (is_raw, in_shards), seed in itertools.product(FORMS, range(count)):
        form = f"{'raw chunks' if is_raw else 'segmentations'} in {'shards' if in_shards else 'files'}, seed {seed}"
        yield form, updates_random, seed, (is_raw, in_shards)
        if seed < count // 3:
            yield f"{form}, damaged", updates_damaged, seed, (is_raw, in_shards)


if __name__ == "__main__":
    main(rows, count=75)
