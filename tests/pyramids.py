#!/usr/bin/env python3
"""Makes the next scales of pyramids with the command downsample of the built vol_tool.

    tests/pyramids.py [PROGRAM [COUNT]]

What is due is stated here, and worked out by a plain model (model/pyramids.py). COUNT is the number of random pairs of scales, of
sixteen forms in turn: raw chunks or segmentations, in files or in shards, into each of these. What is made has the files of the model,
byte by byte, is sound and reads as the model's values; the source's files stay.
"""
import dataclasses
import itertools

from harness import PIPE, answers, leaves, main, want, want_files
from model import SEGMENTED, Sharding, Volume, infos_of, line, refused, stored
from model.chance import pick_scales
from model.pyramids import METHODS, next_of
from model.segments import bytes_of
from model.small import NO_CHUNKS, changed, shards, with_next
from making import (
    CELLS, EIGHT, EMPTY, FIXED, IN_BLOCKS, NO_FIRST, PADDED, PAIRS, PLANE, SEVEN, SEVEN_VALUES, TWO_SHARDS, is_made, makes_around,
    makes_between, makes_fixed, outcomes, rows_at_random, tells_damage,
)
from runs import WORKERS, made_run, rows_of_stops

# What is stated of next scales

SQUARE = Volume([2, 2, 1], [2, 2, 1])
CUBE = Volume([2, 2, 2], [2, 2, 2])
WIDE = dataclasses.replace(CUBE, width=8)
MOST = "ff" * 8
LESS = "fe" + "ff" * 7

# title, source, what is stored of it in hexadecimal; the target's layout; and for each method what is stored of that
STATED = [
    ("two of four", SQUARE, {"0-2_0-2_0-1": "01020207"}, {}, {"0-1_0-1_0-1": ("02", "03")}),
    ("a tie at an odd edge", line(3, 3), {"0-3_0-1_0-1": "010202"}, {}, {"0-2_0-1_0-1": ("0102", "0102")}),
    ("a tie of the greater one first", line(3, 3), {"0-3_0-1_0-1": "020107"}, {}, {"0-2_0-1_0-1": ("0107", "0107")}),
    ("two of the greatest number", line(2, 2, width=8), {"0-2_0-1_0-1": 2 * MOST}, {}, {"0-1_0-1_0-1": (MOST, MOST)}),
    ("eight of the greatest number", WIDE, {"0-2_0-2_0-2": 8 * MOST}, {}, {"0-1_0-1_0-1": (MOST, MOST)}),
    ("seven of it and one less", WIDE, {"0-2_0-2_0-2": 7 * MOST + LESS}, {}, {"0-1_0-1_0-1": (MOST, LESS)}),
    ("four of it and four zeros", WIDE, {"0-2_0-2_0-2": 4 * MOST + 32 * "00"}, {}, {"0-1_0-1_0-1": (8 * "00", 7 * "ff" + "7f")}),
    ("seven halves", CUBE, {"0-2_0-2_0-2": "0101010101010100"}, {}, {"0-1_0-1_0-1": ("01", "00")}),
    ("fifteen eighths", CUBE, {"0-2_0-2_0-2": "0202020202020201"}, {}, {"0-1_0-1_0-1": ("02", "01")}),
    ("three of eight", CUBE, {"0-2_0-2_0-2": "09ff08ff07ff0806"}, {}, {"0-1_0-1_0-1": ("ff", "64")}),
    ("three of eight twice", CUBE, {"0-2_0-2_0-2": "0900080900090800"}, {}, {"0-1_0-1_0-1": ("00", "05")}),
    ("eight others", CUBE, {"0-2_0-2_0-2": "0807060504030201"}, {}, {"0-1_0-1_0-1": ("01", "04")}),
    ("an odd edge along y", Volume([1, 3, 1], [1, 3, 1]), {"0-1_0-3_0-1": "010509"}, {}, {"0-1_0-2_0-1": ("0109", "0309")}),
    ("an odd edge along z", Volume([1, 1, 3], [1, 1, 3]), {"0-1_0-1_0-3": "010509"}, {}, {"0-1_0-1_0-2": ("0109", "0309")}),
    ("two channels", line(2, 2, channels=2, width=2), {"0-2_0-1_0-1": "0100030005000900"}, {}, {"0-1_0-1_0-1": ("01000500", "02000700")}),
    ("offsets below 0", line(5, 5, offset=(-6, -2, 4)), {"-6--1_-2--1_4-5": "0103050707"}, {}, {"-3-0_-1-0_2-3": ("010507", "020607")}),
    ("a cell that is half there", line(4), {"1-2_0-1_0-1": "05"}, {"chunk": [2, 1, 1]}, {"0-2_0-1_0-1": ("0000", "0200")}),
    ("cells that aren't there", line(8), {"2-3_0-1_0-1": "05", "7-8_0-1_0-1": "09"}, {},
     {"1-2_0-1_0-1": ("00", "02"), "3-4_0-1_0-1": ("00", "04")}),
    ("a chunk of zeros", line(4, 2), {"2-4_0-1_0-1": "0000"}, {"chunk": [1, 1, 1]}, {"1-2_0-1_0-1": ("00", "00")}),
    ("nothing", SQUARE, {}, {}, {}),
]


def reduces_stated(trial, source, held, layout, due, method, workers):
    target = next_of(source, key="t", **layout)
    trial.lay_out({**infos_of(source, target), **{source.path(name): bytes.fromhex(content) for name, content in held.items()}})
    made = is_made(trial, method, source, target, f"--workers={workers}")
    stated = {target.path(name): bytes.fromhex(contents[method == "mean"]) for name, contents in due.items()}
    want_files(made.files, stated, "the model's file")
    want(made.answer, stored(len(stated), len(stated)), "the model's answer")


THREES = next_of(SEVEN, key="t", chunk=[3, 1, 1])
SEVEN_RUN = made_run("mode", SEVEN, THREES, SEVEN.files_after(SEVEN_VALUES)[0])
THREE_FILES = {"d/t/0-3_0-1_0-1": b"\1\3\5", "d/t/3-4_0-1_0-1": b"\7"}

# title, key of the source, and of the target
NAMES = [
    ("a target in the source's folder", "s", "s/t"),
    ("a target deep in it", "s", "s/t/u/v"),
    ("a key that begins with the other", "s", "s1"),
    ("a key that the other begins with", "s1", "s"),
]


# Five voxels of one label, in blocks that are too large to be written, and their next scale in raw chunks, and in such blocks.
WIDE_BLOCKS = line(5, 5, width=4, block=(2**23, 1, 1))
RAW, TOO_WIDE = (next_of(WIDE_BLOCKS, key=key, block=block) for key, block in (("t", None), ("u", WIDE_BLOCKS.block)))
WIDE_FILES = {**infos_of(WIDE_BLOCKS, RAW, TOO_WIDE), "d/s/0-5_0-1_0-1": bytes_of([1, 2, 0, 12345])}
REDUCED_LABELS = {"d/t/0-3_0-1_0-1": 3 * bytes_of([12345])}


def pick_next(chance, forms):
    """A method, a scale and its next one, and the scale in blocks, whose values are then labels, in two of three cases."""
    source, target = pick_scales(chance, forms)
    like = source if chance.random() < 1 / 3 else dataclasses.replace(source, block=(8, 8, 8))
    return chance.choice(list(METHODS)), source, dataclasses.replace(target, key="t"), like


# Damages that are stated here.

LONG, LABELS = line(1200), line(1200, width=4)
ALL_BUT_ONE = [f"{number}-{number + 1}_0-1_0-1" for number in range(599)]

# title, the source, the target's layout, the cells of the source whose files are empty, the cell that is told, and the files that may
# stand
DAMAGES = [
    ("the first cell", EIGHT, {}, [(0, 0, 0)], (0, 0, 0), []), ("the second of a pair", EIGHT, {}, [(1, 0, 0)], (1, 0, 0), []),
    ("the last cell", EIGHT, {"chunk": [2, 1, 1]}, [(7, 0, 0)], (7, 0, 0), ["0-2_0-1_0-1"]),
    ("two cells", EIGHT, {}, [(6, 0, 0), (3, 0, 0)], (3, 0, 0), ["0-1_0-1_0-1"]),
    ("both of a pair", EIGHT, {}, [(5, 0, 0), (4, 0, 0)], (4, 0, 0), ["0-1_0-1_0-1", "1-2_0-1_0-1"]),
    ("x before y in one box", PLANE, {"chunk": [2, 2, 1]}, [(2, 0, 0), (0, 1, 0)], (2, 0, 0), []),
    ("y before x where the boxes are columns", PLANE, {"chunk": [1, 2, 1]}, [(2, 0, 0), (0, 3, 0)], (0, 3, 0), []),
    ("a later cell of the source whose minishard is the first", EIGHT, {"sharding": Sharding(minishard_bits=1)},
     [(2, 0, 0), (4, 0, 0)], (4, 0, 0), []),
    ("a later cell of the source whose shard is the first", EIGHT, TWO_SHARDS, [(2, 0, 0), (4, 0, 0)], (4, 0, 0), []),
    ("the second shard", EIGHT, TWO_SHARDS, [(2, 0, 0)], (2, 0, 0), ["0.shard"]),
    # many cells, of which up to 256 are made at once
    ("behind many files", LONG, {}, [(1199, 0, 0)], (1199, 0, 0), ALL_BUT_ONE),
    ("deep in the second shard", LONG, TWO_SHARDS, [(1198, 0, 0)], (1198, 0, 0), ["0.shard"]),
    ("in a third window", LABELS, IN_BLOCKS, [(1198, 0, 0)], (1198, 0, 0), ALL_BUT_ONE),
    ("of segmentations, deep in the second shard", LABELS, {**IN_BLOCKS, **TWO_SHARDS}, [(1198, 0, 0)], (1198, 0, 0), ["0.shard"]),
]


# Runs over the small data set, with the scale t, in one chunk.


def words(*options, source="s", target="t", method="mean"):
    return ["downsample", "d", source, target, f"--method={method}", *options]


BLOCKS = {"encoding": "compressed_segmentation", "compressed_segmentation_block_size": [1, 1, 1]}
WIDE_VALUES = {"data_type": "uint32"}


def along_x(length):
    return {"size": [length, 1, 1], "chunk": [length, 1, 1]}


def blocks(length):
    """A source of labels, and a target of so many voxels in one chunk, in blocks of one voxel."""
    return with_next({"size": [2 * length, 1, 1], "chunk": [2**20, 1, 1]}, WIDE_VALUES, **along_x(length), **BLOCKS)


def lines(source, target, length):
    """A target that is a line of so many voxels, and a source of twice as many, in chunks of these lengths."""
    return with_next({"size": [2 * length, 1, 1], "chunk": [source, 1, 1]}, size=[length, 1, 1], chunk=[target, 1, 1])


NEXT = with_next()
OBJECT = {"d/t/x": b""}
PIPE_INSIDE = {"d/t/x.part": b"", "d/t/y": PIPE}
IN_SHARDS = {**with_next(shards()), **NO_CHUNKS}
SIZE, OFFSET = "differs size", "differs voxel_offset"
ONE_VOXEL = with_next(along_x(1))


def moved(source, target):
    """Both scales have these offsets."""
    return with_next({"voxel_offset": source}, voxel_offset=target)


# title, what is changed, the line; and the words, where they aren't those of a plain mean. First come the words, then the two scales, the
# target's voxels, the sizes, the offsets, the cells, the target's folder, and then the source's cells.
REFUSED = [
    ("no key of the source", NEXT, "info of d: scale absent", words(source="u")),
    ("no key of the target", NEXT, "info of d: scale absent", words(target="u")),
    ("pictures in the source", with_next({"encoding": "jpeg"}), "info of d: unsupported encoding"),
    ("pictures in the target", with_next(encoding="jpeg"), "info of d: unsupported encoding"),
    ("no key of the source, and pictures in the target", with_next(encoding="jpeg"), "info of d: scale absent", words(source="u")),
    ("an info before a damaged source", {**with_next(encoding="jpeg"), **NO_FIRST}, "info of d: unsupported encoding"),
    ("2^24 + 1 padded voxels of the target", blocks(2**24 + 1), "info of d: limit padded"),
    ("2^22 + 1 padded voxels of the target", blocks(2**22 + 1), PADDED),
    ("2^22 + 1 padded voxels, and another size", with_next(None, WIDE_VALUES, **along_x(2**22 + 1), **BLOCKS), PADDED),
    ("2^22 + 1 padded voxels over an object", {**blocks(2**22 + 1), **OBJECT}, PADDED),
    ("one voxel less along x", with_next(size=[1, 1, 1]), SIZE), ("one voxel more along x", with_next(size=[3, 1, 1]), SIZE),
    ("one voxel more along y", with_next(size=[2, 2, 1]), SIZE), ("one voxel more along z", with_next(size=[2, 1, 2]), SIZE),
    ("a size that isn't halved", with_next(size=[4, 2, 1]), SIZE),
    ("half of an odd size, rounded down", with_next({"size": [5, 2, 1]}), SIZE),
    ("x and y halved, and not z", with_next({"size": [4, 2, 2]}, size=[2, 1, 2]), SIZE),
    ("a quarter", with_next({"size": [8, 4, 1]}), SIZE), ("the source as the target", NEXT, SIZE, words(target="s")),
    ("the target as the source", NEXT, SIZE, words(source="t", target="s")),
    ("an offset of the target alone", moved([0, 0, 0], [1, 0, 0]), OFFSET),
    ("an offset of the source alone", moved([0, 2, 0], [0, 0, 0]), OFFSET), ("the same offset", moved([0, 0, 2], [0, 0, 2]), OFFSET),
    ("an odd offset of the source, rounded down", moved([5, 0, 0], [2, 0, 0]), OFFSET),
    ("an odd offset of the source, rounded up", moved([5, 0, 0], [3, 0, 0]), OFFSET),
    ("an odd offset below 0, rounded down", moved([0, 0, -1], [0, 0, -1]), OFFSET),
    ("an odd offset below 0, rounded up", moved([0, 0, -1], [0, 0, 0]), OFFSET), ("the other sign", moved([0, 4, 0], [0, -2, 0]), OFFSET),
    ("another offset at the limit", moved([2**40, 0, 0], [2**40, 0, 0]), OFFSET),
    ("another size before another offset", with_next({"voxel_offset": [1, 0, 0]}, size=[3, 1, 1]), SIZE),
    ("another size before too many cells", with_next({"size": [2**23, 2, 1], "chunk": [1, 1, 1]}), SIZE),
    ("another offset before too many cells",
     with_next({"size": [2**23, 2, 1], "chunk": [1, 1, 1]}, size=[2**22, 1, 1], voxel_offset=[1, 0, 0]), OFFSET),
    ("another size before an object and a damaged source", {**with_next(size=[3, 1, 1]), **OBJECT, **NO_FIRST}, SIZE),
    ("another offset before a pipe in the target's folder", {**moved([0, 0, 0], [0, 0, 1]), **PIPE_INSIDE}, OFFSET),
    ("2^22 + 1 cells of the source", with_next({"size": [2**22 + 1, 1, 1], "chunk": [1, 1, 1]}, **along_x(2**21 + 1)), CELLS),
    ("2^22 + 1 cells of the target", lines(4, 1, 2**22 + 1), CELLS),
    ("2^24 cells of the source and 2^23 of the target", lines(1, 1, 2**23), f"too many cells {2**24}"),
    ("2^23 cells of the source and 2^24 of the target", lines(4, 1, 2**24), f"too many cells {2**23}"),
    ("2^120 cells of the source", with_next({"size": [2**40] * 3, "chunk": [1, 1, 1]}, size=[2**39] * 3, chunk=[2**9] * 3),
     f"too many cells {2**120}"),
    ("too many cells over an object", {**lines(4, 1, 2**22 + 1), **OBJECT}, CELLS),
    ("the target's own object", {**NEXT, "d/t/0-2_0-1_0-1": b"\2\6"}, EMPTY),
    ("one voxel as its own next scale", {**ONE_VOXEL, "d/s/0-1_0-1_0-1": b"\1"}, EMPTY, words(target="s")),
    ("a raw chunk as a segmentation's", with_next(SEGMENTED, {"data_type": "uint64"}), "damaged 0,0,0: seg channel 0"),
]

# title, what is changed, words: the source has no chunk, so the target has none, and no folder is made
EMPTY_SOURCES = [
    ("no chunks in shards, 16 workers", IN_SHARDS, words("--workers=16", method="mode")),
    ("options in front", {**NO_CHUNKS, **NEXT}, ["downsample", "--workers=2", "d", "--method=mode", "s", "t"]),
    ("one voxel as its own next scale, and no chunks", {**NO_CHUNKS, **ONE_VOXEL}, words(target="s")),
    ("the greatest offset", {**NO_CHUNKS, **moved([2**40, -(2**40), 0], [2**39, -(2**39), 0])}, words()),
    ("2^22 cells of the target", {**NO_CHUNKS, **lines(4, 1, 2**22)}, words()),
    ("2^22 + 1 padded voxels of the source",
     with_next({**along_x(2**22 + 1), **BLOCKS}, WIDE_VALUES, **along_x(2**21 + 1)), words(method="mode")),
    ("2^40 voxels in 2^13 chunks, and half of them in 2^21", {**NO_CHUNKS, **lines(2**27, 2**18, 2**39)}, words()),
]


def rows(count):
    for title, change, fault, *command in REFUSED:
        yield title, answers, changed(change), command[0] if command else words(), refused(fault)
    for title, change, command in EMPTY_SOURCES:
        yield title, answers, changed(change), command, stored(0, 0)
    for title, change, wanted in outcomes(NEXT, with_next(shards()), "d/t"):
        yield title, answers, changed(change), words(), wanted
    for (title, *case), method, workers in itertools.product(STATED, METHODS, WORKERS):
        yield f"{title}, {method}, {workers} workers", reduces_stated, *case, method, workers
    for (title, *case), method in itertools.product(FIXED, METHODS):
        yield f"{title}, {method}", makes_fixed, *case, method
    yield "blocks that are too large to be written", leaves, WIDE_FILES, words(method="mode"), stored(1, 1), REDUCED_LABELS
    too_wide = refused("padded voxels 8388608 over 4194304")
    yield "a next scale in such blocks", answers, WIDE_FILES, words(target="u", method="mode"), too_wide
    for (title, *case), method, workers in itertools.product(DAMAGES, METHODS, WORKERS):
        yield f"damaged, {title}, {method}, {workers} workers", tells_damage, *case, method, workers
    for title, source, target in NAMES:
        yield title, makes_between, "mode", dataclasses.replace(SEVEN, key=source), dataclasses.replace(THREES, key=target)
    for is_written, title in ((True, "with a file"), (False, "without files")):
        yield f"a source in the target's folder, {title}", makes_around, "mean", dataclasses.replace(SEVEN, key="t/s"), THREES, is_written
    yield "seven voxels in threes", leaves, SEVEN_RUN.before, words(method="mode"), stored(2, 2), THREE_FILES
    yield from rows_of_stops(SEVEN_RUN)
    yield from rows_at_random(pick_next, zip(range(count), itertools.cycle(PAIRS)))


if __name__ == "__main__":
    main(rows, count=64)
