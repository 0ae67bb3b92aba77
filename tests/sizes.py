#!/usr/bin/env python3
"""Runs the built vol_tool on scales with several chunk sizes: each size is written, the first one is read, and the copies are compared.

    tests/sizes.py [PROGRAM]

What is due is stated here, and worked out by the plain models. Such a scale is written, generated, read, judged and copied from; it isn't
updated, copied into, or made of a larger one.
"""
import dataclasses
import itertools
import json
import random

from harness import answers, leaves, main, want
from model import (SEGMENTED, SHARDING, Values, Volume, info_of, infos_of, line, printed, refused, sound, spell, stored, stream_of, verdict)
from model.chance import damage_some, pick_box, pick_boxes, pick_writes
from model.pyramids import METHODS, next_of
from model.segments import spell_loosely
from model.small import padded_info
from runs import list_run, want_made


def turned(volume):
    """A scale with its chunk sizes in the opposite order."""
    last, *others = (volume.chunk, *volume.more)[::-1]
    return dataclasses.replace(volume, chunk=last, more=tuple(others))


EIGHT = [[6, 4, 3], [1, 1, 1], [2, 1, 1], [3, 2, 1], [4, 2, 2], [5, 3, 3], [64, 1, 3], [1, 4, 2]]

# two to eight sizes, that divide each other and don't, one twice, clipped at the edges; of voxels, rows, slabs and cubes
SCALES = [
    ("halves", Volume([8, 4, 2], [8, 4, 2], more=([4, 4, 2],))),
    ("halves and quarters of cubes", Volume([8, 8, 8], [8, 8, 8], more=([4, 4, 4], [2, 2, 2]))),
    ("sizes that don't divide", Volume([11, 5, 3], [4, 5, 3], more=([3, 2, 3], [5, 5, 1]))),
    ("one size twice", Volume([5, 4, 3], [2, 2, 2], more=([2, 2, 2],))),
    ("the first size again at the end", Volume([5, 4, 3], [2, 2, 2], more=([5, 1, 3], [2, 2, 2]))),
    ("sizes that are clipped to one box", Volume([5, 4, 3], [64, 64, 64], more=([5, 4, 3], [8, 8, 8]))),
    ("sizes of which some boxes are the same", Volume([5, 4, 3], [4, 4, 3], more=([2, 4, 3], [4, 2, 3]))),
    ("cubes and slabs", Volume([12, 12, 6], [4, 4, 4], more=([12, 12, 1],))),
    ("voxels and one box", Volume([4, 3, 2], [4, 3, 2], more=([1, 1, 1],))),
    ("eight sizes", Volume([6, 4, 3], EIGHT[0], more=tuple(EIGHT[1:]))),
    ("an offset below 0", Volume([9, 7, 4], [4, 4, 4], (-5, -7, 3), more=([3, 3, 2],))),
    ("16 bits, 3 channels, another offset", Volume([6, 5, 4], [3, 3, 3], (1, 0, -2), 3, 2, more=([2, 5, 1],))),
    ("64 bits, 2 channels", Volume([6, 5, 4], [6, 5, 4], (0, 0, 0), 2, 8, more=([4, 4, 4], [1, 5, 4]))),
    ("labels of 32 bits", Volume([9, 6, 5], [4, 4, 4], (0, 0, 0), 1, 4, (2, 2, 2), more=([9, 6, 1],))),
    ("labels of 64 bits", Volume([7, 7, 3], [7, 7, 3], (-3, 0, 0), 1, 8, (3, 3, 3), more=([3, 3, 3], [7, 1, 1]))),
    ("labels in blocks that are larger, 2 channels", Volume([5, 4, 3], [2, 2, 2], (0, 0, 0), 2, 4, (8, 8, 8), more=([5, 4, 1],))),
    ("labels of eight sizes", Volume([6, 4, 3], EIGHT[0], (-9, 8, -7), 1, 8, (2, 3, 1), more=tuple(EIGHT[1:]))),
    ("rows and boxes", Volume([7, 3, 2], [7, 1, 1], (0, -2, 9), more=([2, 3, 2], [3, 3, 2]))),
]


# What is written, read and judged


def is_written(trial, volume, seed, workers):
    """Writes leave the objects of each size; cutouts are the first one's; all is sound, and counted together."""
    chance = random.Random(seed)
    writes = pick_writes(chance, volume, 1 + seed % 4)
    files = trial.write(volume, writes, f"--workers={workers}")
    boxes = pick_boxes(chance, volume)
    trial.want_values(volume, Values(volume, writes), boxes)
    for box in boxes:
        wanted = verdict(volume, files, box)
        want(wanted[0], 0, "the model's status")
        trial.want_unchanged(volume.words("verify", spell(box)), wanted)
    trial.want_unchanged(volume.words("write"), refused("folder not empty"), stream_of([]))


def is_judged(trial, volume, seed):
    """Of one size some files are damaged, another's, or gone: what is wrong first is told, and cutouts are the first one's."""
    chance = random.Random(seed)
    files = trial.write(volume, pick_writes(chance, volume, 3))
    for view in volume.views:
        own = {path: files[path] for path in map(view.path_of, view.cells) if path in files}
        trial.lay_out(damage_some(chance, view, own))
        after = trial.files()
        for box in (volume.whole, pick_box(chance, volume)):
            trial.want_unchanged(volume.words("verify", spell(box)), verdict(volume, after, box))
            trial.want_cuts(volume, after, [box])
        trial.lay_out(files)


def is_generated(trial, volume, number, count, workers):
    """The list of a number is stored in each size; the counts are those of all sizes, and the sum is the scale's."""
    run = list_run(volume, number, count, f"--workers={workers}")
    leaves(trial, run.before, run.words, run.ending, run.put)
    trial.want_unchanged(volume.words("verify"), verdict(volume, run.put))


# A small scale, as it is stated

FOUR = line(4, 4, 2)
FULL = stream_of([(FOUR.whole, bytes([1, 2, 3, 4]))])
WHOLE, LEFT, RIGHT = "d/s/0-4_0-1_0-1", "d/s/0-2_0-1_0-1", "d/s/2-4_0-1_0-1"
STORED = {WHOLE: b"\1\2\3\4", LEFT: b"\1\2", RIGHT: b"\3\4"}

# title, the scale, what a write of its first four voxels tells, the files, and what verify tells then
WRITTEN = [
    ("a chunk and its halves", FOUR, (3, 3), STORED, (3, 3)), ("halves, and a chunk", turned(FOUR), (3, 3), STORED, (3, 3)),
    ("one size twice", line(4, 4, 4), (2, 2), {WHOLE: b"\1\2\3\4"}, (2, 2)),
    ("two sizes that are clipped to one box", line(4, 9, 4), (2, 2), {WHOLE: b"\1\2\3\4"}, (2, 2)),
    ("sizes that don't divide", line(5, 4, 3), (3, 3), {WHOLE: b"\1\2\3\4", "d/s/0-3_0-1_0-1": b"\1\2\3", "d/s/3-5_0-1_0-1": b"\4\0"},
     (4, 3)),
    ("cells that no write meets", line(8, 4, 2), (3, 3), STORED, (6, 3)),
]


# title, the files that are others, what is told, and of which box
TOLD = [
    ("another value", {RIGHT: b"\3\5"}, "conflict 1 3,0,0 0 5 4"),
    ("a short copy", {RIGHT: b"\3"}, "damaged in 1 1,0,0: chunk length 1 wanted 2"),
    ("a long copy", {RIGHT: b"\3\4\5"}, "damaged in 1 1,0,0: chunk length 3 wanted 2"),
    ("an empty copy", {LEFT: b""}, "damaged in 1 0,0,0: chunk length 0 wanted 2"),
    ("a copy that is gone", {LEFT: None}, "conflict 1 0,0,0 0 0 1"), ("the last copy is gone", {RIGHT: None}, "conflict 1 2,0,0 0 0 3"),
    ("copies exchanged", {LEFT: b"\3\4", RIGHT: b"\1\2"}, "conflict 1 0,0,0 0 3 1"),
    ("two other values", {LEFT: b"\1\7", RIGHT: b"\3\7"}, "conflict 1 1,0,0 0 7 2"),
    ("a value, and a fault behind it", {LEFT: b"\1\7", RIGHT: b"\3"}, "conflict 1 1,0,0 0 7 2"),
    ("a fault, and a value behind it", {LEFT: b"\1", RIGHT: b"\3\7"}, "damaged in 1 0,0,0: chunk length 1 wanted 2"),
    ("the first size is gone", {WHOLE: None}, "conflict 1 0,0,0 0 1 0"),
    ("the first size has another value", {WHOLE: b"\1\2\3\5"}, "conflict 1 3,0,0 0 4 5"),
    ("a fault of the first size, and one of a copy", {WHOLE: b"\1", LEFT: b"\1"}, "damaged 0,0,0: chunk length 1 wanted 4"),
    ("all are gone", {WHOLE: None, LEFT: None, RIGHT: None}, sound(3, 0)),
    ("a copy of zeros that is gone", {WHOLE: b"\0\0\3\4", LEFT: None}, sound(3, 2)),
    ("a value outside of the box", {RIGHT: b"\3\5"}, sound(2, 2), "[0:2,0:1,0:1]"),
    ("a value beside the box, in a cell that it meets", {RIGHT: b"\3\5"}, sound(2, 2), "[2:3,0:1,0:1]"),
    ("a value in the box", {RIGHT: b"\3\5"}, "conflict 1 3,0,0 0 5 4", "[3:4,0:1,0:1]"),
    ("a fault in a cell that the box meets", {RIGHT: b"\3"}, "damaged in 1 1,0,0: chunk length 1 wanted 2", "[2:3,0:1,0:1]"),
    ("a fault in a cell that the box doesn't meet", {RIGHT: b"\3"}, sound(2, 2), "[1:2,0:1,0:1]"),
]

# Two channels of 16 bits, whose values are 256, 770, 1284 and 1798 in the first and 2312, 2826, 3340 and 3854 in the second.
SQUARE = Volume([2, 2, 1], [2, 2, 1], channels=2, width=2, more=([2, 1, 1], [1, 2, 1]))
ROW, NEXT_ROW, COLUMN = "d/s/0-2_0-1_0-1", "d/s/0-2_1-2_0-1", "d/s/1-2_0-2_0-1"

IN_ORDER = [
    ("channels apart", {ROW: bytes([0, 1, 2, 9, 9, 9, 10, 11])}, "conflict 1 1,0,0 0 2306 770"),
    ("the second channel", {ROW: bytes([0, 1, 2, 3, 8, 8, 10, 11])}, "conflict 1 0,0,0 1 2056 2312"),
    ("all copies are gone", {COLUMN: None, ROW: None, NEXT_ROW: None}, "conflict 1 0,0,0 0 0 256"),
    ("the second copy", {COLUMN: bytes([2, 3, 6, 7, 10, 11, 14, 0])}, "conflict 2 1,1,0 1 14 3854"),
    ("the fault of the second copy", {COLUMN: bytes(1)}, "damaged in 2 1,0,0: chunk length 1 wanted 8"),
    ("both copies", {COLUMN: bytes(1), NEXT_ROW: bytes([4, 5, 6, 7, 12, 13, 14, 16])}, "conflict 1 1,1,0 1 4110 3854"),
]

# Voxels, and copies of two voxels and of eight, with the values 1 to 8.
CUBE = Volume([2, 2, 2], [1, 1, 1], (-1, 4, -7), more=([1, 1, 2], [2, 2, 2]))
EIGHT_VOXELS = "d/s/-1-1_4-6_-7--5"
LINE_OF = "d/s/{}_{}_-7--5"

OF_AXES = [
    ("x first", {EIGHT_VOXELS: bytes([1, 9, 9, 4, 9, 6, 7, 8])}, "conflict 2 0,4,-7 0 9 2"),
    ("y before z", {EIGHT_VOXELS: bytes([1, 2, 9, 4, 9, 6, 7, 8])}, "conflict 2 -1,5,-7 0 9 3"),
    ("z at last", {EIGHT_VOXELS: bytes([1, 2, 3, 4, 9, 6, 7, 9])}, "conflict 2 -1,4,-6 0 9 5"),
    ("cells with x first", {LINE_OF.format("0-1", "4-5"): b"", LINE_OF.format("-1-0", "5-6"): b""},
     "damaged in 1 1,0,0: chunk length 0 wanted 2"),
    ("a further size, and one behind it", {LINE_OF.format("0-1", "5-6"): b"\4\7", EIGHT_VOXELS: b""}, "conflict 1 0,5,-6 0 7 8"),
    ("a box in the middle", {EIGHT_VOXELS: bytes([9, 9, 9, 9, 9, 9, 9, 7])}, "conflict 2 0,5,-6 0 7 8", "[0:1,5:6,-6:-5]"),
]

# Labels, of 64 bits in blocks of two voxels.
LABELS = line(4, 4, 2, width=8, block=(2, 1, 1))
LARGEST = 2**64 - 1


def labels_of(*values):
    return b"".join(value.to_bytes(8, "little") for value in values)


def copy_with(*values):
    """The bytes of the second copy with these values, as this writer has them."""
    return LABELS.views[1].spell((1, 0, 0), labels_of(*values))


def other_spelling():
    """The same values as another program may have them, in a chunk that isn't too long."""
    chance, view = random.Random(0), LABELS.views[1]
    tries = (spell_loosely(chance, view.shape((1, 0, 0)), labels_of(7, LARGEST)) for _ in range(1000))
    return next(chunk for chunk in tries if chunk != copy_with(7, LARGEST) and len(chunk) <= view.limit((1, 0, 0)))


OF_LABELS = [
    ("another label", {RIGHT: copy_with(7, 8)}, f"conflict 1 3,0,0 0 8 {LARGEST}"),
    ("the largest label", {RIGHT: copy_with(LARGEST, LARGEST)}, f"conflict 1 2,0,0 0 {LARGEST} 7"),
    ("half a word", {RIGHT: b"123456"}, "damaged in 1 1,0,0: seg length 6"),
    ("no bits that there are", {RIGHT: bytes([1, 0, 0, 0, 2, 0, 0, 3, 2, 0, 0, 0])}, "damaged in 1 1,0,0: seg bits 0 0 3"),
    ("the same labels in another spelling", {RIGHT: other_spelling()}, sound(3, 3)),
]


# a scale, its values, and what is told of it
STATED = [
    (FOUR, bytes([1, 2, 3, 4]), TOLD),
    (SQUARE, bytes(range(16)), IN_ORDER),
    (CUBE, bytes(range(1, 9)), OF_AXES),
    (LABELS, labels_of(1, 2, 7, LARGEST), OF_LABELS),
]


def tells(trial, volume, values, changes, told, box=None):
    """Of a scale with these values and other files the judgement ends so; where the first size's stand, cutouts are these values."""
    trial.write(volume, [(volume.whole, values)])
    trial.lay_out(changes)
    trial.want_unchanged(volume.words("verify", *([box] if box else [])), refused(told) if isinstance(told, str) else told)
    if volume.path_of((0, 0, 0)) not in changes:
        trial.want_unchanged(volume.words("cutout", spell(volume.whole)), printed(values))


# Infos


def info_with(sizes, length=4, members=None, **volume):
    return info_of([length, 1, 1], None, volume, chunk_sizes=sizes, **(members or {}))


def labels_info(length, *chunks):
    """A segmentation of 32 bits, in blocks of one voxel."""
    return padded_info(length, chunk_sizes=[[chunk, 1, 1] for chunk in chunks])


ONE_TWO = [[4, 1, 1], [2, 1, 1]]

# title, the info, its fault
INFOS = [
    ("nine sizes", info_with([[4, 1, 1]] * 9), "limit chunk_sizes"),
    ("nine sizes in shards", info_with([[4, 1, 1]] * 9, members={"sharding": SHARDING}), "limit chunk_sizes"),
    ("a 0 in the ninth size", info_with([[4, 1, 1]] * 8 + [[0, 1, 1]]), "chunk_sizes bad value"),
    ("two numbers in the ninth size", info_with([[0, 1, 1]] * 8 + [[4, 1]]), "chunk_sizes wrong kind"),
    ("two sizes in shards", info_with(ONE_TWO, members={"sharding": SHARDING}), "unsupported chunk_sizes"),
    ("two sizes and no lengths", info_with(ONE_TWO, members={"sharding": SHARDING, "resolution": 8}), "unsupported chunk_sizes"),
    ("two sizes and a sharding that is none", info_with(ONE_TWO, members={"sharding": 5}), "unsupported chunk_sizes"),
    ("a second size of two numbers", info_with([[4, 1, 1], [2, 1]]), "chunk_sizes wrong kind"),
    ("a second size of 0", info_with([[4, 1, 1], [2, 0, 1]]), "chunk_sizes bad value"),
    ("a second size past the limit", info_with([[4, 1, 1], [2**40 + 1, 1, 1]]), "limit chunk_sizes"),
    ("a second size of 2^27 + 1 bytes", info_with([[4, 1, 1], [2**27 + 1, 1, 1]], 2**27 + 1), "limit chunk_bytes"),
    ("a third size of 2^27 + 2 bytes", info_with([*ONE_TWO, [2**26 + 1, 1, 1]], 2**40, data_type="uint16"), "limit chunk_bytes"),
    ("a second size of 2^24 + 1 padded voxels", labels_info(2**24 + 1, 1, 2**24 + 1), "limit padded"),
    ("a size of many voxels, and one of many bytes", labels_info(2**26, 2**24 + 1, 2**25 + 1), "limit chunk_bytes"),
]

# title, the info
TAKEN = [
    ("a sharding that is null", info_with(ONE_TWO, members={"sharding": None})),
    ("eight sizes", info_with([[4, 1, 1], [2**40] * 3] * 4)),
    ("a second size of 2^27 bytes", info_with([[4, 1, 1], [2**27, 1, 1]], 2**40)),
    ("a second size of 2^24 padded voxels", labels_info(2**40, 1, 2**24)),
]


# What isn't done


def members_of(volume, **members):
    """A scale's member of an info, with others."""
    return {**json.loads(volume.info())["scales"][0], **members}


def info_and(volume, *scales):
    """The info of a scale, with further ones."""
    info = json.loads(volume.info())
    return {"d/info": json.dumps({**info, "scales": [*info["scales"], *scales]}).encode()}


PLAIN = line(4, 1)
TWICE = line(4, 4, 2, key="t")
HALF = next_of(FOUR, key="t", chunk=[2, 1, 1], more=([1, 1, 1],))
SEVERAL = "several chunk sizes"
LONG = 2**22 + 1
WIDE = "padded voxels 4194305 over 4194304"
WIDER = "padded voxels 4194306 over 4194304"
FOLDER = {"d/s/x": b"x"}
TARGET_FOLDER = {"d/t/x": b"x"}
BAD = b"PVW2"
COPY, REDUCE = "reshard d s d t", "downsample d s t --method=mean"


def labelled(*chunks, key="t"):
    """A member of an info: a line of labels in blocks of one voxel, which is longer than may be written at once."""
    more = {**SEGMENTED, "compressed_segmentation_block_size": [1, 1, 1]}
    return members_of(line(4, *chunks), size=[LONG + 1, 1, 1], key=key, **more)


LABELS_INFO = labels_info(LONG + 1, 1, LONG)
TWO_WIDE = labels_info(LONG + 1, 1, LONG + 1, LONG)
AS_LABELS = line(4, 4, width=4)

# title, words, what is stored, the stream, the line
REFUSED = [
    ("an update", "update d s", {**infos_of(FOUR), **STORED}, FULL, SEVERAL),
    ("an update of nothing", "update d s", infos_of(FOUR), stream_of([]), SEVERAL),
    ("an update by a bad stream", "update d s", infos_of(FOUR), BAD, SEVERAL),
    ("an update over damaged chunks", "update d s", {**infos_of(FOUR), WHOLE: b"", LEFT: b""}, FULL, SEVERAL),
    ("an update past the writing limit in a further size", "update d s", {"d/info": LABELS_INFO}, BAD, WIDE),
    ("a write past the writing limit in a further size", "write d s", {"d/info": LABELS_INFO, **FOLDER}, BAD, WIDE),
    ("a write past it in two sizes", "write d s", {"d/info": TWO_WIDE}, BAD, WIDER),
    ("a list past the writing limit in a further size", "generate d s 1 1", {"d/info": LABELS_INFO, **FOLDER}, b"", WIDE),
    ("a write into a folder that isn't empty", "write d s", {**infos_of(FOUR), **FOLDER}, BAD, "folder not empty"),
    ("a write by a bad stream", "write d s", infos_of(FOUR), BAD, "stream: bad magic"),
    ("a copy into several sizes", COPY, {**infos_of(PLAIN, TWICE), **TARGET_FOLDER}, b"", SEVERAL),
    ("a copy of several sizes into several", COPY, {**infos_of(FOUR, TWICE), WHOLE: b""}, b"", SEVERAL),
    ("a copy into several sizes of another length", COPY, infos_of(PLAIN, line(5, 4, 2, key="t")), b"", SEVERAL),
    ("a copy into itself", "reshard d s d s", {**infos_of(FOUR), **STORED}, b"", SEVERAL),
    ("a copy past the writing limit in a further size", COPY, info_and(AS_LABELS, labelled(1, LONG)), b"", WIDE),
    ("a copy past it in two sizes", COPY, info_and(AS_LABELS, labelled(1, LONG + 1, LONG)), b"", WIDER),
    ("a copy into shards of several sizes", COPY, info_and(PLAIN, members_of(TWICE, sharding=SHARDING)), b"",
     "info of d: unsupported chunk_sizes"),
    ("the next scale in several sizes", REDUCE, {**infos_of(PLAIN, HALF), **TARGET_FOLDER}, b"", SEVERAL),
    ("a scale of several sizes that isn't the next one", REDUCE, infos_of(PLAIN, TWICE), b"", SEVERAL),
    ("the next scale past the writing limit in a further size", REDUCE, info_and(AS_LABELS, labelled(1, LONG)), b"", WIDE),
]


def leaves_stream(trial):
    """An update that is refused reads nothing."""
    trial.lay_out({**infos_of(FOUR), "input": FULL})
    with (trial.folder / "input").open("rb") as feed:
        trial.want_unchanged("update d s", refused(SEVERAL), feed)
        want(feed.read(), FULL, "the input")


def is_copied(trial, volume, seed):
    """A copy, and a next scale by each method, are made of the first size alone, whatever the others say."""
    chance = random.Random(seed)
    volume = dataclasses.replace(volume, offset=tuple(2 * at for at in volume.offset))
    files = trial.write(volume, pick_writes(chance, volume, 3))
    first = set(map(volume.path_of, volume.cells))
    others = {path: chance.choice([None, b"", content + b"\0"]) for path, content in files.items() if path not in first}
    targets = {method: next_of(volume, key=method, more=()) for method in METHODS}
    targets[None] = dataclasses.replace(volume, key="t", chunk=[3, 2, 2], more=())
    trial.lay_out({**infos_of(volume, *targets.values()), **others})
    for method, target in targets.items():
        want_made(trial, method, volume, target)


def rows():
    for title, volume, told, files, judged in WRITTEN:
        yield title, leaves, infos_of(volume), "write d s", stored(*told), files, FULL
        yield f"{title}, judged", answers, {**infos_of(volume), **files}, "verify d s", sound(*judged)
    for (title, volume), seed in itertools.product(SCALES, range(3)):
        yield f"{title}, seed {seed}", is_written, volume, seed, 1 + seed
        yield f"{title}, turned, seed {seed}", is_written, turned(volume), seed, 16
        yield f"{title}, damaged, seed {seed}", is_judged, volume, seed
    for volume, values, cases in STATED:
        for title, *case in cases:
            yield title, tells, volume, values, *case
    for title, info, told in INFOS:
        for words in ("cutout d s [0:1,0:1,0:1]", "verify d s", "write d s", "update d s"):
            yield f"{title}, {words}", answers, {"d/info": info}, words, refused(f"info of d: {told}"), stream_of([])
    for title, info in TAKEN:
        yield title, answers, {"d/info": info}, "cutout d s [0:1,0:1,0:1]", printed(bytes(4 if b"uint32" in info else 1))
    for title, words, files, feed, told in REFUSED:
        yield title, answers, files, words, refused(told), feed
    yield "the input of an update that is refused", leaves_stream
    for (title, volume), count in itertools.product(SCALES, (0, 20)):
        yield f"{title}, a list of {count}", is_generated, volume, 7 + count, count, 1 + count % 3
    for seed, (title, volume) in enumerate(SCALES):
        yield f"{title}, copied from", is_copied, volume, seed


if __name__ == "__main__":
    main(rows)
