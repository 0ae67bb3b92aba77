#!/usr/bin/env python3
"""Judges stored scales with the command verify of the built vol_tool: sound ones of every form, and damaged ones.

    tests/verify.py [PROGRAM [COUNT]]

What is due is stated here, and worked out by a plain model (model/answers.py). COUNT is the number of random scales of each form.
"""
import itertools
import random
import struct

from harness import FOLDER, NO_OUTPUTS, PIPE, answers, main, want_ending
from model import (
    SEGMENTED, Sharding, Volume, along, box_in, infos_of, line, meets, printed, refused, rows_of, sound, spell, verdict, voxels_in,
)
from model.chance import FORMS, damage_some, pick_box, pick_volume, pick_writes, with_numbers
from model.small import FIRST, NO_CHUNKS, NO_FOLDER, SECOND, WHOLE, changed, padded, shards, with_info

SHARD = "0.shard"
TOP = 2**64 - 1


def call(box=None):
    """The words of a judgement, of a box or of the whole scale."""
    return ["verify", "d", "s", *([] if box is None else [spell(box)])]


def told(line):
    """What a run ends with that tells this line: the numbers of a sound part, or what is wrong."""
    return printed(line) if line.startswith("cells ") else refused(line)


# What is done to the files of a scale: the files that are others by the last parts of their names, or None where they are gone; or what
# gives these for the volume and the files.


def cut_to(name, length):
    return lambda _volume, files: {name: files[name][:length]}


def longer(name, more):
    return lambda _volume, files: {name: files[name] + more}


def copied(*names):
    """Of each two names the first file has the bytes of the second."""
    return lambda _volume, files: {name: files[other] for name, other in zip(names[::2], names[1::2])}


def entry(minishard, start, end):
    """Where the index of a minishard starts and ends."""
    return lambda _volume, files: {SHARD: with_numbers(files[SHARD], {16 * minishard: start, 16 * minishard + 8: end})}


def row(minishard, number, name=SHARD, **stored):
    """What is stored in a row of an index: its id, start or size."""

    def change(volume, files):
        begin, count = rows_of(volume.sharding.minishard_bits, minishard, files[name])
        places = {what: begin + 8 * (column * count + number) for column, what in enumerate(("id", "start", "size"))}
        return {name: with_numbers(files[name], {places[what]: value for what, value in stored.items()})}

    return change


def is_told(trial, volume, changes, box, line, is_modelled=True):
    """A scale of the values 1, 2, 3 and so on is written, and then its files are changed."""
    count = voxels_in(volume.whole) * volume.channels
    values = (bytes([number % 256]).ljust(volume.width, b"\0") for number in range(1, count + 1))
    files = trial.write(volume, [(volume.whole, b"".join(values))])
    named = {path.removeprefix("d/s/"): content for path, content in files.items()}
    for change in changes:
        named.update(change if isinstance(change, dict) else change(volume, named))
    trial.lay_out({volume.path(name): content for name, content in named.items()})
    if is_modelled:
        want_ending(verdict(volume, trial.files(), box), told(line), "the model")
    trial.want_unchanged(call(box), told(line))


# Chunks in files: 3 x 2 x 2 cells of up to 2 x 2 x 1 voxels, two channels of two bytes.
PLAIN = Volume([5, 3, 2], [2, 2, 1], (-2, 0, 7), 2, 2)
P000, P100, P200 = "-2-0_0-2_7-8", "0-2_0-2_7-8", "2-3_0-2_7-8"
P010, P110, P001 = "-2-0_2-3_7-8", "0-2_2-3_7-8", "-2-0_0-2_8-9"
ALL = "cells 12 stored 12 absent 0"

# title, changes, box, line
IN_FILES = [
    ("as it is", [], None, ALL), ("a box of a voxel", [], box_in("2:3,2:3,8:9"), "cells 1 stored 1 absent 0"),
    ("a box across cells", [], box_in("-1:1,1:3,7:8"), "cells 4 stored 4 absent 0"),
    ("no chunk", [{P000: None, P110: None}], None, "cells 12 stored 10 absent 2"),
    ("no chunk in a box", [{P000: None}], box_in("-2:-1,0:1,7:8"), "cells 1 stored 0 absent 1"),
    ("a byte less", [cut_to(P100, 15)], None, "damaged 1,0,0: chunk length 15 wanted 16"),
    ("a byte more", [longer(P100, b"x")], None, "damaged 1,0,0: chunk length 17 wanted 16"),
    ("many bytes more", [longer(P100, bytes(1000))], None, "damaged 1,0,0: chunk length 17 wanted 16"),
    ("an empty file", [{P100: b""}], None, "damaged 1,0,0: chunk length 0 wanted 16"),
    ("an edge cell that isn't clipped", [copied(P200, P000)], None, "damaged 2,0,0: chunk length 9 wanted 8"),
    ("a clipped cell's bytes in a whole one", [copied(P000, P110)], None, "damaged 0,0,0: chunk length 8 wanted 16"),
    ("other values", [copied(P000, P100)], None, ALL),
    ("files that no cell has", [{"-2-0": b"", f"{P000}.part": b"x", SHARD: b""}], None, ALL),
    ("x before y", [{P010: b"", P200: b"1"}], None, "damaged 2,0,0: chunk length 1 wanted 8"),
    ("y before z", [{P001: b"", P110: b"1"}], None, "damaged 1,1,0: chunk length 1 wanted 8"),
    ("the first in the box", [{P000: b"", P110: b"1"}], box_in("0:3,0:3,7:9"), "damaged 1,1,0: chunk length 1 wanted 8"),
    ("a fault outside the box", [{P100: b""}], box_in("-2:0,0:3,7:9"), "cells 4 stored 4 absent 0"),
    ("a fault at the box's edge", [{P100: b""}], box_in("-2:1,1:3,7:9"), "damaged 1,0,0: chunk length 0 wanted 16"),
]

# A row of six cells of two bytes, the last of one, in two minishards of one shard: six bytes of chunks stand before the first index,
# and five before the second. Behind its entries the shard has 155 bytes.
SIX = line(11, 2, sharding=Sharding(minishard_bits=1))
SOUND = "cells 6 stored 6 absent 0"

IN_A_SHARD = [
    ("as it is", [], None, SOUND), ("a box in one cell", [], along(10, 11), "cells 1 stored 1 absent 0"),
    ("a box over two cells", [], along(3, 5), "cells 2 stored 2 absent 0"),
    ("no shard", [{SHARD: None}], None, "cells 6 stored 0 absent 6"), ("bytes behind the shard", [longer(SHARD, b"more")], None, SOUND),
    # the way to an index
    ("an empty shard", [cut_to(SHARD, 0)], None, "damaged 0,0,0: shard short index"),
    ("a byte less than an entry", [cut_to(SHARD, 15)], None, "damaged 0,0,0: shard short index"),
    ("one entry", [{SHARD: bytes(16)}], None, "damaged 1,0,0: shard short index"),
    ("a byte less than two entries", [{SHARD: bytes(31)}], None, "damaged 1,0,0: shard short index"),
    ("two entries of nothing", [{SHARD: bytes(32)}], None, "cells 6 stored 0 absent 6"),
    ("no index", [entry(0, 0, 0)], None, "cells 6 stored 3 absent 3"),
    ("no index behind the end", [entry(0, 1000, 1000)], None, "cells 6 stored 3 absent 3"),
    ("no index at the greatest number", [entry(0, TOP, TOP)], None, "cells 6 stored 3 absent 3"),
    ("a start behind its end", [entry(0, 78, 6)], None, "damaged 0,0,0: shard bad range"),
    ("an index of a byte less", [entry(0, 6, 77)], None, "damaged 0,0,0: shard bad length 71"),
    ("an index of a byte more", [entry(0, 6, 79)], None, "damaged 0,0,0: shard bad length 73"),
    ("an index of all numbers", [entry(0, 0, TOP)], None, f"damaged 0,0,0: shard bad length {TOP}"),
    ("2^22 + 1 rows", [entry(0, 6, 6 + 24 * (2**22 + 1))], None, "damaged 0,0,0: shard too many rows 4194305"),
    ("2^22 rows", [entry(0, 6, 6 + 24 * 2**22)], None, "damaged 0,0,0: shard short minishard"),
    ("an index that ends at the greatest number", [entry(0, TOP - 24, TOP)], None, "damaged 0,0,0: shard short minishard"),
    ("an index that ends behind the shard", [cut_to(SHARD, 186)], None, "damaged 1,0,0: shard short minishard"),
    ("an index a byte behind the shard", [entry(1, 84, 156)], None, "damaged 1,0,0: shard short minishard"),
    # ids
    ("an id twice", [row(0, 2, id=0)], None, "damaged 0,0,0: index id 2"),
    ("a first id of 0 in the other index", [row(1, 0, id=0)], None, "misplaced 0 1 0"),
    ("an id that passes 64 bits", [row(0, 1, id=TOP - 1)], None, "damaged 0,0,0: index id 2"),
    ("an id that goes back", [row(0, 2, id=TOP)], None, "damaged 0,0,0: index id 2"),
    ("an id that no cell has", [row(0, 2, id=4)], None, "cells 6 stored 5 absent 1"),
    ("an odd id that no cell has", [row(0, 2, id=5)], None, "misplaced 0 0 7"),
    ("the greatest id", [row(0, 1, id=TOP)], None, f"misplaced 0 0 {TOP}"),
    ("the id of another minishard", [row(0, 0, id=1)], None, "misplaced 0 0 1"),
    ("such an id in the middle", [row(0, 1, id=1)], None, "misplaced 0 0 1"),
    ("such an id at the end", [row(0, 2, id=1)], None, "misplaced 0 0 3"),
    ("an even id among odd ones", [row(1, 2, id=1)], None, "misplaced 0 1 4"),
    ("ids that are exchanged", [entry(0, 83, 155), entry(1, 6, 78)], None, "misplaced 0 0 1"),
    # starts
    ("a start that goes back", [row(0, 1, start=TOP - 1)], None, "damaged 0,0,0: index start 1"),
    ("a first start and size that pass 64 bits", [row(0, 0, start=TOP - 1)], None, "damaged 0,0,0: index start 0"),
    ("an end that passes 64 bits", [row(0, 1, start=TOP - 3)], None, "damaged 0,0,0: index start 1"),
    ("an end at the greatest number", [row(0, 1, start=TOP - 4)], None, "damaged 0,0,0: index start 2"),
    ("a last end at the greatest number", [row(0, 2, start=TOP - 6)], None, "damaged 4,0,0: shard short chunk"),
    ("the greatest size", [row(0, 0, size=TOP)], None, "damaged 0,0,0: index start 1"),
    ("the greatest size at the end", [row(0, 2, size=TOP - 4)], None, f"damaged 4,0,0: chunk too long {TOP - 4} limit 2"),
    # chunks
    ("a chunk of a byte less", [row(0, 1, size=1)], None, "damaged 2,0,0: chunk length 1 wanted 2"),
    ("a chunk without bytes", [row(0, 1, size=0)], None, "damaged 2,0,0: chunk length 0 wanted 2"),
    ("a chunk of a byte more", [row(0, 1, size=3)], None, "damaged 2,0,0: chunk too long 3 limit 2"),
    ("a clipped cell's chunk of a byte more", [row(1, 2, size=2)], None, "damaged 5,0,0: chunk too long 2 limit 1"),
    ("chunks behind the shard", [row(0, 0, start=1000)], None, "damaged 0,0,0: shard short chunk"),
    ("a chunk that ends with the shard", [row(1, 2, start=72)], None, SOUND),
    ("a chunk that ends a byte later", [row(1, 2, start=73)], None, "damaged 5,0,0: shard short chunk"),
    ("chunks where others stand", [row(1, 0, start=0)], None, SOUND), ("a chunk inside its own index", [row(0, 2, start=60)], None, SOUND),
    # parts
    ("a fault of an index outside the box", [entry(1, 155, 83)], along(4, 6), "cells 1 stored 1 absent 0"),
    ("a fault of an index at a later cell", [entry(1, 155, 83)], along(5, 8), "damaged 3,0,0: shard bad range"),
    ("a row of a cell outside the box", [row(0, 2, id=0)], along(0, 2), "damaged 0,0,0: index id 2"),
    ("a row before the box's", [row(0, 0, id=1)], along(8, 10), "misplaced 0 0 1"),
    ("a row of the other index", [row(0, 2, id=0)], along(2, 4), "cells 1 stored 1 absent 0"),
    ("a chunk outside the box", [row(0, 1, size=1)], along(0, 4), "cells 2 stored 2 absent 0"),
    ("a chunk in the box", [row(0, 1, size=1)], along(1, 5), "damaged 2,0,0: chunk length 1 wanted 2"),
    # two damages
    ("a row's id before its start", [row(0, 1, id=0, start=TOP)], None, "damaged 0,0,0: index id 1"),
    ("a row's start before its place", [row(0, 1, id=1, start=TOP)], None, "damaged 0,0,0: index start 1"),
    ("a row's place before the next row's id", [row(0, 0, id=1), row(0, 1, id=0)], None, "misplaced 0 0 1"),
    ("a row's place before the next row's start", [row(0, 0, id=1), row(0, 1, start=TOP)], None, "misplaced 0 0 1"),
    ("a row's start before the next's place", [row(0, 0, start=TOP), row(0, 1, id=1)], None, "damaged 0,0,0: index start 0"),
    ("a last row before a first chunk", [row(0, 2, id=0), row(0, 0, size=1)], None, "damaged 0,0,0: index id 2"),
    ("a last row's place before a first chunk", [row(0, 2, id=1), row(0, 0, size=9)], None, "misplaced 0 0 3"),
    ("a first chunk before the second index", [row(0, 0, size=1), entry(1, 155, 83)], None, "damaged 0,0,0: chunk length 1 wanted 2"),
    ("the second index before a later chunk", [row(0, 1, size=1), entry(1, 155, 83)], None, "damaged 1,0,0: shard bad range"),
    ("a chunk before one of a lower minishard", [row(0, 2, size=1), row(1, 1, size=1)], None, "damaged 3,0,0: chunk length 1 wanted 2"),
    ("a size before the end of the shard", [row(1, 2, start=73, size=2)], None, "damaged 5,0,0: chunk too long 2 limit 1"),
    ("the first index before the second", [entry(0, 6, 77), entry(1, 155, 83)], None, "damaged 0,0,0: shard bad length 71"),
]

# Other ways from ids to shards and minishards, all with one voxel a cell.
FOUR_SHARDS = line(8, sharding=Sharding(shard_bits=2))
IN_PAIRS = line(8, sharding=Sharding(1, False, 1, 1))
HASHED = line(2, sharding=Sharding(0, True, 3, 4))
MANY_SHARDS = line(12, sharding=Sharding(shard_bits=5))
ALL_IN_ONE = line(2, sharding=Sharding(64, True))
TWO_IN_ONE = line(2, sharding=Sharding())
# The grid has 4 x 2 x 2 cells. Of the cells (3,0,0), (0,1,0), (1,1,0) and (0,0,1) the ids are 9, 2, 3 and 4.
BLOCK = Volume([4, 2, 2], [1, 1, 1], sharding=Sharding())
EIGHT = "cells 8 stored 8 absent 0"

# title, volume, changes, box, line
IN_SHARDS = [
    ("four shards", FOUR_SHARDS, [], None, EIGHT),
    ("a shard that is gone", FOUR_SHARDS, [{"1.shard": None}], None, "cells 8 stored 6 absent 2"),
    ("shards that are exchanged", FOUR_SHARDS, [copied("1.shard", "2.shard", "2.shard", "1.shard")], None, "misplaced 1 0 2"),
    ("a shard in another's place", FOUR_SHARDS, [copied("3.shard", SHARD)], None, "misplaced 3 0 0"),
    ("an id of another shard", FOUR_SHARDS, [row(0, 0, id=3)], None, "misplaced 0 0 3"),
    ("shards that no cell has", FOUR_SHARDS, [{"4.shard": b"x", "00.shard": b"x"}], None, EIGHT),
    ("a short shard", FOUR_SHARDS, [cut_to("2.shard", 3)], None, "damaged 2,0,0: shard short index"),
    ("a short shard outside the box", FOUR_SHARDS, [cut_to("2.shard", 3)], along(3, 6), "cells 3 stored 3 absent 0"),
    ("a short shard and a misplaced row", FOUR_SHARDS, [cut_to("3.shard", 3), row(0, 1, "1.shard", id=5)], None, "misplaced 1 0 6"),
    ("two ids a minishard", IN_PAIRS, [], None, EIGHT),
    ("the shard and the minishard of a row", IN_PAIRS, [row(1, 0, "1.shard", id=4)], None, "misplaced 1 1 4"),
    ("an id of the other minishard", IN_PAIRS, [row(1, 0, id=1)], None, "misplaced 0 1 1"),
    ("an id of the other shard", IN_PAIRS, [row(0, 1, id=4)], None, "misplaced 0 0 4"),
    ("an id of the same place that no cell has", IN_PAIRS, [row(0, 1, id=8)], None, "cells 8 stored 7 absent 1"),
    ("places by the hash", HASHED, [], None, "cells 2 stored 2 absent 0"),
    ("the other id by the hash", HASHED, [row(1, 0, "8.shard", id=1)], None, "misplaced 8 1 1"),
    ("a shard for another by the hash", HASHED, [copied("3.shard", "8.shard")], None, "cells 2 stored 1 absent 1"),
    ("a shard's number in decimal", MANY_SHARDS, [row(0, 0, "0a.shard", id=11)], None, "misplaced 10 0 11"),
    ("one place for all ids", ALL_IN_ONE, [row(0, 1, id=TOP)], None, "cells 2 stored 1 absent 1"),
    ("a first id that is the greatest", ALL_IN_ONE, [row(0, 0, id=TOP)], None, "damaged 0,0,0: index id 1"),
    ("such a first id, by the ids as they are", TWO_IN_ONE, [row(0, 0, id=TOP)], None, "damaged 0,0,0: index id 1"),
    ("a first size that is the greatest", ALL_IN_ONE, [row(0, 0, size=TOP)], None, "damaged 0,0,0: index start 1"),
    ("x before a lower id", BLOCK, [row(0, 9, size=0), row(0, 2, size=0)], None, "damaged 3,0,0: chunk length 0 wanted 1"),
    ("y before z", BLOCK, [row(0, 3, size=0), row(0, 4, size=0)], None, "damaged 1,1,0: chunk length 0 wanted 1"),
    ("a row of a later cell", BLOCK, [row(0, 15, id=0)], box_in("2:3,1:2,1:2"), "damaged 2,1,1: index id 15"),
]


# Indexes of more rows than are read at once, and more indexes than are remembered; too many cells for the model.
MANY_ROWS = line(2500, sharding=Sharding(12, False, 1, 0))
MANY_INDEXES = line(3000, sharding=Sharding(minishard_bits=11))

# title, volume, changes, box, line
LARGE = [
    ("2,500 rows", MANY_ROWS, [], None, "cells 2500 stored 2500 absent 0"),
    *((title, MANY_ROWS, [change], None, line) for number in (1023, 1024, 2499) for title, change, line in [
            (f"row {number} with an id twice", row(0, number, id=0), f"damaged 0,0,0: index id {number}"),
            (f"row {number} in another index", row(0, number, id=4096), f"misplaced 0 0 {number + 4095}"),
            (f"row {number} behind 64 bits", row(0, number, start=TOP - number), f"damaged 0,0,0: index start {number}"),
            (f"a chunk of row {number}", row(0, number, size=0), f"damaged {number},0,0: chunk length 0 wanted 1")]),
    ("the last row at the first cell", MANY_ROWS, [row(0, 2499, id=0)], along(0, 1), "damaged 0,0,0: index id 2499"),
    ("the first row at the last cell", MANY_ROWS, [row(0, 0, id=4096)], along(2499, 2500), "misplaced 0 0 4096"),
    ("2,048 indexes", MANY_INDEXES, [], None, "cells 3000 stored 3000 absent 0"),
    ("the second row of an index", MANY_INDEXES, [row(951, 1, id=1)], None, "misplaced 0 951 952"),
    ("such a row in a later part", MANY_INDEXES, [row(951, 1, id=1)], along(2990, 3000), "misplaced 0 951 952"),
    ("a later chunk of an index", MANY_INDEXES, [row(5, 1, size=0)], None, "damaged 2053,0,0: chunk length 0 wanted 1"),
    ("the last index", MANY_INDEXES, [entry(2047, 9, 8)], None, "damaged 2047,0,0: shard bad range"),
]

# Files that are too large for the model: numbers of eight bytes, or bytes, by their places, with holes between.
ONE = line(1)
ONE_IN_A_SHARD = line(1, sharding=Sharding(preshift=64))
LONGEST = line(1, sharding=Sharding(63, False, 1, 0))
FAR_BEHIND = 2**36
LAST_ROW = 2**22 - 1


def far_index(start):
    """What an index far behind the begin of a shard says of the chunk in front of it, or elsewhere."""
    return {0: [FAR_BEHIND + 1, FAR_BEHIND + 25], 16 + FAR_BEHIND + 1: [0, start, 1]}


# The step from each id of an index of 2^22 rows to the next.
STEPS = bytes(8) + (2**22 - 1) * struct.pack("<Q", 1)


def longest_index(column=2, number=0, value=1):
    """An index of 2^22 rows, of which one has another number. Its ids are 0, 1, 2 and so on; all chunks but the first are empty."""
    rows = {33: STEPS, 33 + 2**26: [1], 25 + 24 * 2**22: [0], 33 + 8 * (column * 2**22 + number): [value]}
    return dict(sorted({0: [1, 1 + 24 * 2**22, 0, 0], 32: b"x", **rows}.items()))


# title, volume, what its one file holds, line
ONE_FILE = [
    ("an index behind a hole", ONE_IN_A_SHARD, far_index(FAR_BEHIND), "cells 1 stored 1 absent 0"),
    ("a chunk behind its index", ONE_IN_A_SHARD, far_index(2 * FAR_BEHIND), "damaged 0,0,0: shard short chunk"),
    ("2^22 rows of a hole", ONE_IN_A_SHARD, {0: [0, 24 * 2**22], 24 * 2**22: [0, 0]}, "damaged 0,0,0: index id 1"),
    ("2^22 + 1 rows of a hole", ONE_IN_A_SHARD, {0: [0, 24 * (2**22 + 1)], 24 * (2**22 + 1): [0, 0]},
     "damaged 0,0,0: shard too many rows 4194305"),
    ("a chunk of 64 GiB", ONE, {FAR_BEHIND: [0]}, "damaged 0,0,0: chunk length 2 wanted 1"),
    ("an index of 2^22 rows", LONGEST, longest_index(), "cells 1 stored 1 absent 0"),
    ("a size that passes 64 bits at its end", LONGEST, longest_index(2, LAST_ROW, TOP), f"damaged 0,0,0: index start {LAST_ROW}"),
    ("a misplaced id at its end", LONGEST, longest_index(0, LAST_ROW, 2**63), f"misplaced 0 0 {2**63 + LAST_ROW - 1}"),
]


def is_told_of_one_file(trial, volume, pieces, text):
    content = {at: piece if isinstance(piece, bytes) else struct.pack(f"<{len(piece)}Q", *piece) for at, piece in pieces.items()}
    trial.lay_out({**infos_of(volume), volume.path_of((0, 0, 0)): content})
    trial.want(call(), told(text))


# Scales of every form.
BLOCKS = {"raw": None, "segmentation": (2, 3, 1)}
SHARDINGS = [
    None, Sharding(), Sharding(minishard_bits=1), Sharding(shard_bits=3), Sharding(1, True, 2, 3), Sharding(2, False, 2, 2),
    Sharding(3, True, 0, 6), Sharding(0, True, 6, 5), Sharding(63, True, 1, 1), Sharding(64, True, 3, 5), Sharding(64, False, 3, 61),
]


def is_sound(trial, volume, writes, boxes):
    """Boxes are written, and the whole scale and other boxes are sound. Gives the files."""
    files = trial.write(volume, writes)
    written = [box for box, _ in writes]
    for box in (None, *boxes):
        met = [volume.box_of(cell) for cell in volume.cells_in(box or volume.whole)]
        stored = sum(any(meets(own, one) for one in written) for own in met)
        trial.want_unchanged(call(box), sound(len(met), stored))
    return files


def judges_form(trial, block, sharding):
    """Two boxes in a scale, and boxes that meet all, some and none of what is stored."""
    volume = Volume([11, 5, 4], [3, 2, 2], (-4, 0, 9), 2, 4, block, sharding)
    chance = random.Random(0)
    written = map(box_in, ["-4:2,0:2,9:13", "1:3,1:5,12:13"])
    writes = [(box, chance.randbytes(8 * voxels_in(box))) for box in written]
    is_sound(trial, volume, writes, map(box_in, ["-1:2,0:2,9:11", "0:7,1:3,10:12", "6:7,4:5,9:10"]))


def judges_random(trial, seed, is_raw, in_shards):
    """What boxes at random leave is sound; then some files are damaged."""
    chance = random.Random(f"{seed} {is_raw} {in_shards}")
    volume = pick_volume(chance, is_raw, in_shards)
    boxes = [pick_box(chance, volume) for _ in range(3)]
    files = is_sound(trial, volume, pick_writes(chance, volume, chance.randint(0, 4)), boxes[:1])
    trial.lay_out(damage_some(chance, volume, files))
    files = trial.files()
    for box in (None, *boxes):
        trial.want_unchanged(call(box), verdict(volume, files, box))
    trial.want_cuts(volume, files, [volume.whole])


# Runs over the small data set.

TOO_LONG = with_info(size=[2**22 + 1, 1, 1], chunk=[1, 1, 1])
LARGEST = with_info(size=[2**40] * 3, chunk=[1, 1, 1])
OUTSIDE = f"[0:{2**40},0:{2**40},-1:1]"
IN_ONE = {**with_info(**shards()), FIRST: None}
CELLS = "too many cells 4194305"

# title, what is changed, words, line. First come the words, then the info, the box, the number of cells, and then the cells.
SMALL = [
    ("a box outside, of too many cells", LARGEST, [OUTSIDE], f"box {OUTSIDE} outside [0:{2**40},0:{2**40},0:{2**40}]"),
    ("2^22 + 1 cells", TOO_LONG, [], CELLS), ("a box of 2^22 + 1 cells", LARGEST, [f"[7:{2**22 + 8},3:4,9:10]"], CELLS),
    ("2^120 cells", LARGEST, [], f"too many cells {2**120}"),
    ("2^64 cells in shards", with_info(size=[2**22, 2**21, 2**21], chunk=[1, 1, 1], **shards()), [], f"too many cells {2**64}"),
    ("a voxel of each of 2^23 cells", with_info(size=[2**24, 2, 1], chunk=[4, 1, 1]), [f"[3:{2**24 - 3},0:2,0:1]"],
     f"too many cells {2**23}"),
    ("too many cells, the first a pipe", {**TOO_LONG, "d/s/0-1_0-1_0-1": PIPE}, [], CELLS),
    ("too many cells, the first damaged", {**TOO_LONG, "d/s/0-1_0-1_0-1": b""}, [], CELLS),
    ("a damaged chunk", {SECOND: b"123"}, [], "damaged 1,0,0: chunk length 3 wanted 4"),
    ("a raw chunk as a segmentation's", with_info({"data_type": "uint64"}, **SEGMENTED), [], "damaged 0,0,0: seg channel 0"),
    ("a short shard", {**IN_ONE, "d/s/0.shard": b"short"}, [], "damaged 0,0,0: shard short index"),
    ("a pipe before a damaged chunk", {FIRST: PIPE, SECOND: b""}, [], "store fault"),
    ("a damaged chunk before a pipe", {FIRST: b"", SECOND: PIPE}, [], "damaged 0,0,0: chunk length 0 wanted 4"),
    ("a sound dataset", {}, [], "cells 2 stored 2 absent 0"), ("the whole scale as a box", {}, [WHOLE], "cells 2 stored 2 absent 0"),
    ("a voxel", {}, ["[2:3,1:2,0:1]"], "cells 1 stored 1 absent 0"),
    ("a pipe outside the box", {SECOND: PIPE}, ["[0:2,0:2,0:1]"], "cells 1 stored 1 absent 0"),
    ("a missing chunk", {FIRST: None}, [], "cells 2 stored 1 absent 1"), ("no chunks", NO_CHUNKS, [], "cells 2 stored 0 absent 2"),
    ("a folder in a chunk's place", {FIRST: FOLDER}, [], "cells 2 stored 1 absent 1"),
    ("a file in the place of the chunks' folder", NO_FOLDER, [], "cells 2 stored 0 absent 2"),
    ("a shard that is missing", IN_ONE, [], "cells 2 stored 0 absent 2"),
    ("a shard that is a folder", {**IN_ONE, "d/s/0.shard": FOLDER}, [], "cells 2 stored 0 absent 2"),
    ("a box in the largest scale", LARGEST, [f"[{2**40 - 9}:{2**40},{2**39}:{2**39 + 1},7:8]"], "cells 9 stored 0 absent 9"),
    ("more than 2^30 bytes", {**NO_CHUNKS, **with_info(size=[2048, 2048, 512], chunk=[128, 128, 128])}, [],
     "cells 1024 stored 0 absent 1024"),
    ("2^22 + 1 padded voxels", padded(2**22 + 1), [], "cells 1 stored 0 absent 1"),
]


def rows(count):
    for title, change, more, line in SMALL:
        yield title, answers, changed(change), [*call(), *more], told(line)
    for title, output in NO_OUTPUTS:
        yield f"the line to {title}", answers, changed(), call(), refused("output fault"), b"", output
        empty = refused("damaged 0,0,0: chunk length 0 wanted 4")
        yield f"no line to {title}", answers, changed({FIRST: b""}), call(), empty, b"", output
    for title, *case in IN_FILES:
        yield f"in files, {title}", is_told, PLAIN, *case
    for title, *case in IN_A_SHARD:
        yield f"in a shard, {title}", is_told, SIX, *case
    for title, *case in IN_SHARDS:
        yield f"in shards, {title}", is_told, *case
    for title, *case in LARGE:
        yield title, is_told, *case, False
    for title, *case in ONE_FILE:
        yield title, is_told_of_one_file, *case
    for (encoding, block), sharding in itertools.product(BLOCKS.items(), SHARDINGS):
        yield f"{encoding}, {sharding}", judges_form, block, sharding
    for seed, (is_raw, in_shards) in itertools.product(range(count), FORMS):
        form = f"{'raw' if is_raw else 'segmentation'}, {'in shards' if in_shards else 'in files'}"
        yield f"at random, {form}, seed {seed}", judges_random, seed, is_raw, in_shards


if __name__ == "__main__":
    main(rows, count=12)
