#!/usr/bin/env python3
"""Runs the built vol_tool's command generate, and compares what it prints and stores with a list of writes by docs/statuses.md.

    tests/generate.py [PROGRAM]
"""
import functools
import itertools
import random

from harness import answers, leaves, main, memory_limit, open_full, want
from model import Volume, generated, infos_of, line, printed, refused
from model.chance import pick_volume
from runs import list_run

WORKERS = ([], ["--workers=1"], ["--workers=3"], ["--workers=16"])


def is_generated(trial, volume, number, count, options, stated=None):
    """The list leaves the objects that are due and prints its line, which is stated or worked out."""
    run = list_run(volume, number, count, *options)
    if stated is not None:
        want(run.ending, printed(stated), "the model")
    leaves(trial, run.before, run.words, run.ending, run.put)


def is_written(trial, volume, number, count, options):
    """A stream of the list leaves the same objects."""
    trial.write(volume, generated(volume, number, count), *options)


ROW = line(4, 4)
WIDE = Volume([9, 8, 3], [4, 3, 2], (5, -6, 7), 3, 8)

# title, scale, number, writes, line
KNOWN = [
    ("one voxel", line(1), 5, 2, "writes 2 objects 1 bytes 1 sum 36"), ("four voxels", ROW, 1, 1, "writes 1 objects 1 bytes 4 sum 1"),
    ("no writes", ROW, 1, 0, "writes 0 objects 0 bytes 0 sum 0"),
    ("two channels", Volume([3, 2, 1], [2, 2, 1], (-5, 7, 0), 2, 2), 9, 2, None), ("the largest number", WIDE, 2**31 - 1, 7, None),
    ("as many writes as there may be", Volume([7, 5, 3], [3, 3, 3]), 11, 4096, None),
]

LARGE = Volume([256, 256, 256], [64, 64, 64])


def pick_list(seed):
    """A segmentation, each second one in shards, and a list: its number and how many writes it has."""
    chance = random.Random(seed)
    return pick_volume(chance, is_raw=False, in_shards=seed % 2), chance.randrange(2**31), chance.randint(1, 12)


# Refusals

HUGE = Volume([1025, 1024, 1024], [64, 64, 64])
PADDED = line(4194305, 4194305, width=4, block=(1, 1, 1))
TALL = Volume([64, 64, 32], [8, 8, 8], channels=1024, width=8)
FINE = Volume([200, 200, 200], [1, 1, 1])
OTHERS = {"d/s/x": b"x"}

# The number of a list whose third write is too large, and the two before it have half of the bytes that there may be.
LARGE_LIST = 632806

# title, scale, number, writes, what stands in its folder, line
REFUSED = [
    ("too large", HUGE, 1, 1, {}, "box too large 1074790400"), ("not empty before too large", HUGE, 1, 1, OTHERS, "folder not empty"),
    ("past the writing limit", PADDED, 1, 1, OTHERS, "padded voxels 4194305 over 4194304"),
    ("too large a list", TALL, LARGE_LIST, 3, {}, "write 2: too large"), ("too many cells", FINE, 7, 220, {}, "too many cells 4351131"),
]


def leaves_input(trial):
    trial.lay_out({**infos_of(ROW), "input": b"left"})
    with (trial.folder / "input").open("rb") as feed:
        trial.want("generate d s 1 1", printed("writes 1 objects 1 bytes 4 sum 1"), feed)
        want(feed.read(), b"left", "the input")


def rows():
    for (title, *case, stated), options in itertools.product(KNOWN, WORKERS):
        yield f"{title}, {options}", is_generated, *case, options, stated
    for options in WORKERS[1:]:
        yield f"200 writes, {options}", is_generated, LARGE, 7, 200, options
        for seed in range(10):
            yield f"segmentation {seed}, {options}", is_generated, *pick_list(seed), options
            yield f"segmentation {seed}, {options}, by write", is_written, *pick_list(seed), options
    for title, volume, number, count, others, told in REFUSED:
        words = volume.words("generate", str(number), str(count))
        yield title, answers, {**infos_of(volume), **others}, words, refused(told)
    # the output takes no line: all objects stand
    run = list_run(WIDE, 3, 5)
    yield "a line to a full device", leaves, run.before, run.words, refused("output fault"), run.put, b"", open_full
    yield "the input", leaves_input
    # one layer of its chunks and 16 MiB
    in_memory, large = functools.partial(answers, prepare=memory_limit(512 * 512 * 64 + (16 << 20))), infos_of(Volume([512] * 3, [64] * 3))
    none = printed("writes 0 objects 0 bytes 0 sum 0")
    yield "a large scale in the memory of a layer", in_memory, large, "generate d s 0 0", none


if __name__ == "__main__":
    main(rows)
