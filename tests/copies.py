#!/usr/bin/env python3
"""Copies scales into others of the same volume with the command reshard of the built vol_tool.

    tests/copies.py [PROGRAM [COUNT]]

What is due is stated here, and worked out by a plain model (model/copies.py). COUNT is the number of random pairs of scales of each
form.
"""
import dataclasses
import itertools
import random

from harness import PIPE, answers, leaves, main
from model import SEGMENTED, Sharding, Volume, box_in, info_of, infos_of, line, refused, stored
from model.chance import pick_layouts
from model.segments import bytes_of
from model.small import INFO_PATH, NO_CHUNKS, changed, padded, padded_info, shards, with_info
from making import (
    CELLS, EIGHT, EMPTY, FIXED, HASHED, IN_BLOCKS, IN_ONE_SHARD, NO_FIRST, PADDED, PAIRS, PLANE, SEVEN, SEVEN_VALUES, TWO_SHARDS,
    makes_around, makes_between, makes_fixed, outcomes, rows_at_random, tells_damage,
)
from runs import WORKERS, is_killed_often, made_run, rows_of_stops

FROM, INTO = ("d", "s"), ("e", "t")


def at(volume, dataset, key):
    return dataclasses.replace(volume, dataset=dataset, key=key)


# title, data set and key of the source, and of the target
NAMES = [
    ("two data sets", FROM, INTO), ("one data set", ("d", "s"), ("d", "t")),
    ("a target in the source's folder", ("d", "s"), ("d", "s/t")), ("a target deep in it", ("d", "s"), ("d", "s/t/u/v")),
    ("a data set in the source's folder", ("d", "s"), ("d/s", "t")), ("a data set in the source's data set", ("d", "s"), ("d/e", "s")),
    ("a data set around the source's", ("d/e", "s"), ("d", "s")), ("a key that begins with the other", ("d", "s"), ("d", "s1")),
    ("a key that the other begins with", ("d", "s1"), ("d", "s")), ("a key that is the other's data set", ("d", "e"), ("e", "d")),
]

# title, data set and key of the source, and of the target: where the source has a file, the target's folder has it too
AROUND = [
    ("a source in the target's folder", ("d", "s/t"), ("d", "s")), ("a source deep in it", ("d", "s/t/u/v"), ("d", "s")),
    ("one folder by two names", ("d", "a/b"), ("d/a", "b")),
]

SEVEN_IN_SHARDS = line(7, 3, sharding=HASHED)


def pick_copy(chance, forms):
    """A copy of a scale, at times in the same chunks, and of the two the layout with blocks, whose values are labels, where there is one."""
    volumes = pick_layouts(chance, forms)
    if len({is_raw for is_raw, _ in forms}) == 1 and chance.random() < 0.4:
        volumes[1] = dataclasses.replace(volumes[1], chunk=volumes[0].chunk, block=volumes[0].block)
    _, *names = chance.choice(NAMES)
    source, target = (at(volume, *name) for volume, name in zip(volumes, names))
    return None, source, target, next((volume for volume in volumes if volume.block is not None), source)


# What is stated of a copy of seven voxels, of one whose values are 0, and of labels in blocks that are too large to be written.
THREES = at(line(7, 3), *INTO)
SEVEN_RUN = made_run(None, SEVEN, THREES, SEVEN.files_after(SEVEN_VALUES)[0])
IN_THREES = {"e/t/0-3_0-1_0-1": b"\1\2\3", "e/t/3-6_0-1_0-1": b"\4\5\6", "e/t/6-7_0-1_0-1": b"\7"}
ZERO = {**infos_of(SEVEN, THREES), **SEVEN.files_after([(box_in("4:5,0:1,0:1"), b"\0")])[0]}
WIDE_BLOCKS, NARROW, LABEL = line(5, 5, width=4, block=(2**23, 1, 1)), at(line(5, 3, width=4), *INTO), bytes_of([12345])
LABELS = {**infos_of(WIDE_BLOCKS, NARROW), "d/s/0-5_0-1_0-1": bytes_of([1, 2, 0, 12345])}
COPIED_LABELS = {"e/t/0-3_0-1_0-1": 3 * LABEL, "e/t/3-5_0-1_0-1": 2 * LABEL}

# Damages that are stated here.

LONG, LABELLED, PAIRED = line(600), line(600, width=4), {"chunk": [2, 1, 1]}
ALL_BUT_TWO = [LONG.name((number, 0, 0)) for number in range(598)]

# title, the source, the target's layout, the cells of the source whose files are empty, the cell that is told, and the files that may
# stand
DAMAGES = [
    ("the first cell", EIGHT, PAIRED, [(0, 0, 0)], (0, 0, 0), []),
    ("the last cell", EIGHT, {"chunk": [4, 1, 1]}, [(7, 0, 0)], (7, 0, 0), ["0-4_0-1_0-1"]),
    ("two cells", EIGHT, PAIRED, [(6, 0, 0), (3, 0, 0)], (3, 0, 0), ["0-2_0-1_0-1"]),
    ("x before y in one box", PLANE, {"chunk": [4, 4, 1]}, [(1, 0, 0), (0, 1, 0)], (1, 0, 0), []),
    ("y before x where the boxes are columns", PLANE, {"chunk": [1, 4, 1]}, [(1, 0, 0), (0, 1, 0)], (0, 1, 0), []),
    ("a later cell of the source whose minishard is the first", EIGHT, {**PAIRED, "sharding": Sharding(minishard_bits=1)},
     [(2, 0, 0), (4, 0, 0)], (4, 0, 0), []),
    ("a later cell of the source whose shard is the first", EIGHT, {**PAIRED, **TWO_SHARDS}, [(2, 0, 0), (4, 0, 0)], (4, 0, 0), []),
    ("the second shard", EIGHT, {**PAIRED, **TWO_SHARDS}, [(2, 0, 0)], (2, 0, 0), ["0.shard"]),
    ("the lower id of a minishard", PLANE, {"sharding": IN_ONE_SHARD}, [(2, 0, 0), (0, 1, 0)], (0, 1, 0), []),
    ("a lower shard before a lower minishard", EIGHT, {**PAIRED, "sharding": Sharding(0, False, 1, 1)}, [(2, 0, 0), (4, 0, 0)],
     (2, 0, 0), []),
    # many cells, of which up to 256 are made at once
    ("behind many files", LONG, {}, [(598, 0, 0)], (598, 0, 0), ALL_BUT_TWO),
    ("deep in the second shard", LONG, TWO_SHARDS, [(599, 0, 0)], (599, 0, 0), ["0.shard"]),
    ("deep in the first shard", LONG, TWO_SHARDS, [(598, 0, 0), (1, 0, 0)], (598, 0, 0), []),
    ("in a third window", LABELLED, IN_BLOCKS, [(598, 0, 0)], (598, 0, 0), ALL_BUT_TWO),
    ("of segmentations, deep in the second shard", LABELLED, {**IN_BLOCKS, **TWO_SHARDS}, [(599, 0, 0)], (599, 0, 0), ["0.shard"]),
]

# Copies that are killed.

KILLS = 6
CUBE = Volume([64] * 3, [16] * 3)
CUBES = {"in files": {"chunk": [4, 4, 8]}, "in shards": {"chunk": [4] * 3, "sharding": Sharding(3, False, 2, 7)}}


def rows_of_kills(trial, layout):
    """Kills as each sixth of the files is there; of shards all are put within too short a time."""
    held, _, _ = CUBE.files_after([(CUBE.whole, random.Random(3).randbytes(64**3))])
    run = made_run(None, CUBE, dataclasses.replace(CUBE, key="t", **layout), held)
    paths = list(run.put)
    most = None if "sharding" in layout else 12 * KILLS
    return is_killed_often(trial, run, lambda number: (paths[number % KILLS * len(paths) // KILLS], 0), KILLS, most)


# Runs over the small data set; the target is the scale t of the data set e, in rows.


def with_target(volume=None, **scale):
    return {"e/info": info_of(**{"size": [4, 2, 1], "chunk": [4, 1, 1], "volume": volume, "key": "t", **scale})}


def target_padded(length):
    return {"e/info": padded_info(length, key="t")}


def lines(source, target, length):
    """Both scales are a line of so many voxels, in chunks of these lengths."""
    size = [length, 1, 1]
    return {**with_info(size=size, chunk=[source, 1, 1]), **with_target(size=size, chunk=[target, 1, 1])}


def cubes(source, target):
    """Both scales are as large as a scale can be, in chunks of these sizes."""
    return {**with_info(size=[2**40] * 3, chunk=source), **with_target(size=[2**40] * 3, chunk=target)}


TARGET = with_target()
OBJECT = {"e/t/x": b""}
PIPE_INSIDE = {"e/t/x.part": b"", "e/t/y": PIPE}
SHORT_LONG = {"d/s/0-4194305_0-1_0-1": b""}
SIXTEEN, TWO = {"data_type": "uint16"}, {"num_channels": 2}

# title, what is changed, the line; and source and target, where they are others. First come the words, then the info of the source, that of
# the target, its voxels, what both scales have alike, and their cells.
REFUSED = [
    ("no info of the source", {INFO_PATH: None, **TARGET}, "info of d: absent"), ("no info of the target", {}, "info of e: absent"),
    ("no key of the source", TARGET, "info of d: scale absent", ("d", "t"), INTO),
    ("no key of the target", TARGET, "info of e: scale absent", FROM, ("e", "s")),
    ("no key of the target in one data set", TARGET, "info of d: scale absent", FROM, ("d", "t")),
    ("a broken info of the target", {"e/info": b"{"}, "info of e: not json"),
    ("a broken info of both", {INFO_PATH: b"{", "e/info": b"[]"}, "info of d: not json"),
    ("pictures in the source", {**with_info(encoding="jpeg"), **TARGET}, "info of d: unsupported encoding"),
    ("pictures in the target", with_target(encoding="jpeg"), "info of e: unsupported encoding"),
    ("an info of the target before a damaged source", NO_FIRST, "info of e: absent"),
    ("2^24 + 1 padded voxels of the target", target_padded(2**24 + 1), "info of e: limit padded"),
    ("2^22 + 1 padded voxels, and another size", target_padded(2**22 + 1), PADDED),
    ("2^22 + 1 padded voxels over an object", {**target_padded(2**22 + 1), **OBJECT}, PADDED),
    ("2^22 + 1 padded voxels of a damaged source", {**padded(2**22 + 1), **SHORT_LONG, **target_padded(2**22 + 1)}, PADDED),
    *((f"another size along {axis}", with_target(size=size), "differs size")
      for axis, size in (("x", [5, 2, 1]), ("y", [4, 1, 1]), ("z", [4, 2, 2]))),
    ("sizes of another order", with_target(size=[2, 4, 1]), "differs size"),
    *((f"another offset along {axis}", with_target(voxel_offset=offset), "differs voxel_offset")
      for axis, offset in (("x", [1, 0, 0]), ("y", [0, -1, 0]), ("z", [0, 0, 2**40]))),
    ("another data type", with_target(SIXTEEN), "differs data_type"), ("two channels", with_target(TWO), "differs num_channels"),
    ("all of these are others", with_target({**SIXTEEN, **TWO}, size=[4, 2, 2], voxel_offset=[0, 0, 1]), "differs size"),
    ("all but the size", with_target({**SIXTEEN, **TWO}, voxel_offset=[0, 0, 1]), "differs voxel_offset"),
    ("data type and channels", with_target({**SIXTEEN, **TWO}), "differs data_type"),
    ("as many bytes a voxel", {**with_info(SIXTEEN), **with_target(TWO)}, "differs data_type"),
    ("another size before too many cells", {**lines(1, 1, 2**23), **with_target(size=[2**23, 2, 1], chunk=[1, 1, 1])}, "differs size"),
    ("channels before an object and a damaged source", {**with_target(TWO), **OBJECT, **NO_FIRST}, "differs num_channels"),
    ("another size before a pipe in the target's folder", {**with_target(size=[4, 2, 2]), **PIPE_INSIDE}, "differs size"),
    ("2^22 + 1 cells of the source", lines(1, 4, 2**22 + 1), CELLS), ("2^22 + 1 cells of the target", lines(4, 1, 2**22 + 1), CELLS),
    ("2^23 cells of the source and 2^24 of the target", lines(2, 1, 2**24), f"too many cells {2**23}"),
    ("2^24 cells of the source and 2^23 of the target", lines(1, 2, 2**24), f"too many cells {2**24}"),
    ("2^120 cells of the source", cubes([1, 1, 1], [2**9] * 3), f"too many cells {2**120}"),
    ("2^93 cells of the source and 2^117 of the target", cubes([2**9] * 3, [1, 2, 4]), f"too many cells {2**93}"),
    ("too many cells over an object", {**lines(1, 4, 2**22 + 1), **OBJECT}, CELLS),
    ("too many cells of a damaged source", {**lines(2**22 + 1, 1, 2**22 + 1), **SHORT_LONG}, CELLS),
    ("one of the target's own objects", {**TARGET, "e/t/0-4_0-1_0-1": bytes(4)}, EMPTY),
    ("the source as the target", {}, EMPTY, FROM, FROM), ("a damaged source as the target", NO_FIRST, EMPTY, FROM, FROM),
    ("an info in the target's folder", {"d/s/info": info_of([4, 2, 1], [4, 1, 1])}, EMPTY, ("d/s", "s"), FROM),
    ("an info of the target that is a pipe", {"e/info": PIPE}, "store fault"),
    ("such an info, and none of the source", {"e/info": PIPE, INFO_PATH: None}, "info of d: absent"),
    ("a raw chunk as a segmentation's", {**with_info({"data_type": "uint64"}, **SEGMENTED), **with_target({"data_type": "uint64"})},
     "damaged 0,0,0: seg channel 0"),
]

# title, what is changed, and source and target, where they are others: the source has no chunk, so the copy has none, and no folder is made
EMPTY_SOURCES = [
    ("an empty source as the target", NO_CHUNKS, FROM, FROM), ("2^22 cells of the target", {**NO_CHUNKS, **lines(4, 1, 2**22)}),
    ("2^22 + 1 padded voxels of the source", {**padded(2**22 + 1), **with_target({"data_type": "uint32"}, size=[2**22 + 1, 1, 1])}),
    ("2^40 voxels in 2^13 chunks, and in 2^22", {**NO_CHUNKS, **lines(2**27, 2**18, 2**40)}),
]


def words_of(names):
    return ["reshard", *itertools.chain(*(names or (FROM, INTO)))]


def rows(count):
    for title, layout in CUBES.items():
        yield f"kills, {title}", rows_of_kills, layout
    for title, change, fault, *names in REFUSED:
        yield title, answers, changed(change), words_of(names), refused(fault)
    for title, change, *names in EMPTY_SOURCES:
        yield title, answers, changed(change), words_of(names), stored(0, 0)
    for title, change, wanted in outcomes(TARGET, with_info(**shards()), "e/t"):
        yield title, answers, changed(change), words_of(()), wanted
    yield "many workers, and no chunks", answers, changed(TARGET, NO_CHUNKS), [*words_of(()), "--workers=16"], stored(0, 0)
    yield "blocks that are too large to be written", leaves, LABELS, words_of(()), stored(2, 2), COPIED_LABELS
    yield "a copy into such blocks", answers, LABELS, words_of((INTO, FROM)), refused("padded voxels 8388608 over 4194304")
    yield "a chunk of zeros", leaves, ZERO, words_of(()), stored(1, 1), {"e/t/3-6_0-1_0-1": bytes(3)}
    yield "seven voxels in threes", leaves, SEVEN_RUN.before, words_of(()), stored(3, 3), IN_THREES
    yield from rows_of_stops(SEVEN_RUN)
    for title, *case in FIXED:
        yield title, makes_fixed, *case, None
    for (title, *case), workers in itertools.product(DAMAGES, WORKERS):
        yield f"damaged, {title}, by {workers} workers", tells_damage, *case, None, workers
    for title, source, target in NAMES:
        yield title, makes_between, None, at(SEVEN, *source), at(SEVEN_IN_SHARDS, *target)
    for (title, source, target), is_written in itertools.product(AROUND, (True, False)):
        pair = at(SEVEN, *source), at(SEVEN_IN_SHARDS, *target)
        yield f"{title}, {'with a file' if is_written else 'without files'}", makes_around, None, *pair, is_written
    yield from rows_at_random(pick_copy, itertools.product(range(count), PAIRS))


if __name__ == "__main__":
    main(rows, count=8)
