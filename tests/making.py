"""What copies.py and pyramids.py share: scales that are made of others, by copies, which have no method, or as next ones of pyramids."""
import dataclasses
import itertools
import random

from harness import DEVICE, FOLDER, LOOP, PIPE, answers, contents, standing, want, want_ending, want_files
from model import OK, Sharding, Values, Volume, box_in, damaged, infos_of, line, refused, sound, stored, voxels_in
from model.chance import FORMS, damage_some, pick_box, pick_stored, pick_writes
from model.pyramids import next_of
from model.small import FIRST, NO_CHUNKS, NO_FOLDER, SECOND
from runs import WORKERS, apart, made_by, pick_workers, want_made


def target_of(method, source, **fields):
    """A scale that is made of another one: of the same volume in the data set e, or the next one; in the source's layout otherwise."""
    if method is None:
        return dataclasses.replace(source, **{"dataset": "e", "key": "t", **fields})
    return next_of(source, **{"key": "t", **fields})


def is_made(trial, method, source, target, *options, boxes=()):
    """
    A scale is made of a sound one, judged and read. A copied one reads alike, and a write of the same voxels leaves the same files. Gives
    the model's.
    """
    made = want_made(trial, method, source, target, *options)
    want(made.answer[0], OK, "the model's status")
    judged = [(target, made.cells)]
    if method is None:
        judged.append((source, len(made.there)))
        writes = [(source.box_of(cell), raw) for cell, raw in made.there.items()]
        want_files(apart(trial, "apart").write(target, writes), made.files, "a write of the same")
    for volume, count in judged:
        trial.want(volume.words("verify"), sound(len(volume.cells), count))
        trial.want_values(volume, made.values, [volume.whole, *boxes])
    return made


# Scales that are stated here


def solid(size, chunk, block=None, sharding=None, width=4, channels=2):
    return Volume(size, chunk, (-4, 0, 10), channels, width, block, sharding)


IN_ONE_SHARD = Sharding()
HASHED = Sharding(1, True, 2, 3)
PART = ["-4:9,0:11,10:16", "15:17,8:10,11:17"]

# title, the source, the target's layout, and the boxes that are written into the source; all of it where there are none
FIXED = [
    ("one chunk into voxels", line(5, 5), {"chunk": [1, 1, 1]}, []), ("voxels into one chunk", line(5), {"chunk": [5, 5, 5]}, []),
    ("voxels into a chunk that is larger than the scale", line(6), {"chunk": [2**40, 1, 1]}, []), ("one voxel", line(1), {}, []),
    ("chunks of three into chunks of two", line(11, 3), {"chunk": [2, 1, 1]}, []),
    ("chunks of two into chunks of three", line(11, 2), {"chunk": [3, 1, 1]}, []),
    ("a voxel in the middle", line(11, 3), {"chunk": [2, 1, 1]}, ["5:6,0:1,0:1"]),
    ("two voxels far from each other", line(40, 3), {"chunk": [4, 1, 1]}, ["0:1,0:1,0:1", "39:40,0:1,0:1"]),
    ("the edge alone", line(11, 3), {"chunk": [4, 1, 1]}, ["10:11,0:1,0:1"]),
    ("16 bits, an offset below 0", line(9, 4, width=2, offset=(-8, -2, 2)), {"chunk": [3, 1, 1]}, []),
    ("64 bits", line(9, 4, width=8), {"chunk": [5, 1, 1]}, []), ("1,024 channels", line(3, 2, channels=1024), {"chunk": [1, 1, 1]}, []),
    ("the same layout", solid([5, 4, 3], [2, 3, 2]), {}, []),
    ("odd on each axis", solid([7, 5, 3], [4, 4, 2], width=8), {"chunk": [3, 2, 1]}, []),
    ("even on each axis", solid([8, 6, 4], [3, 3, 3], width=1, channels=3), {"chunk": [2, 2, 2]}, []),
    ("columns into rows", solid([4, 5, 6], [1, 5, 6], width=2), {"chunk": [4, 1, 1]}, []),
    ("planes of four cells into blocks", solid([7, 7, 7], [4, 4, 1]), {"chunk": [3, 3, 5]}, []),
    ("raw chunks into a segmentation", solid([7, 6, 5], [3, 3, 3]), {"chunk": [4, 2, 5], "block": (3, 2, 2)}, []),
    ("a segmentation into raw chunks", solid([7, 6, 5], [4, 2, 5], (3, 2, 2)), {"chunk": [3, 3, 3], "block": None}, []),
    ("a segmentation into other blocks", solid([7, 6, 5], [4, 4, 4], (2, 2, 2)), {"block": (8, 1, 3)}, []),
    ("a segmentation of 64 bits into other blocks", solid([9, 7, 5], [4, 4, 4], (2, 2, 2), width=8), {"block": (8, 1, 3)}, []),
    ("files into one shard", line(21, 2), {"chunk": [3, 1, 1], "sharding": IN_ONE_SHARD}, []),
    ("a shard into files", line(21, 2, sharding=IN_ONE_SHARD), {"chunk": [3, 1, 1], "sharding": None}, []),
    ("files into one shard, in the same chunks", solid([7, 5, 3], [4, 4, 2]), {"sharding": IN_ONE_SHARD}, []),
    ("a shard into files, in the same chunks", solid([7, 5, 3], [4, 4, 2], sharding=IN_ONE_SHARD), {"sharding": None}, ["-4:2,0:5,10:13"]),
    ("shards into others, in the same chunks", solid([9, 8, 7], [2, 2, 2], width=1, channels=3, sharding=HASHED),
     {"sharding": Sharding(0, False, 3, 1)}, []),
    ("shards of a segmentation into others, in the same blocks", solid([9, 8, 7], [4, 4, 4], (3, 2, 4), HASHED),
     {"sharding": Sharding(0, False, 3, 1)}, []),
    ("a shard into shards by the hash", solid([9, 8, 7], [2, 2, 2], sharding=IN_ONE_SHARD), {"chunk": [3, 1, 2], "sharding": HASHED},
     ["-4:2,0:2,10:13"]),
    ("shards of a segmentation into others", solid([9, 8, 7], [2, 2, 2], (2, 2, 2), HASHED),
     {"chunk": [4, 4, 4], "block": (3, 3, 3), "sharding": Sharding(0, False, 3, 1)}, []),
    ("shards of a segmentation into others, a part", solid([23, 11, 7], [4, 4, 4], (4, 4, 4), HASHED),
     {"chunk": [2, 3, 2], "block": (2, 3, 2), "sharding": Sharding(1, False, 1, 3)}, PART),
    ("shards into those of a segmentation, a part", solid([23, 11, 7], [4, 4, 4], sharding=HASHED),
     {"chunk": [5, 3, 2], "block": (2, 3, 2), "sharding": Sharding(1, False, 1, 3)}, PART),
    ("minishards of unequal sizes", line(13), {"sharding": Sharding(2, False, 1, 1)}, []),
    ("a minishard of over a thousand rows", line(1301, sharding=Sharding(64, True, 3, 5)), {"sharding": None}, []),
    ("into a minishard of some thousand rows", line(2500, 2), {"chunk": [1, 1, 1], "sharding": Sharding(64, True, 3, 5)}, []),
    ("into some thousand minishards", line(2500), {"sharding": Sharding(minishard_bits=12)}, []),
    ("some thousand minishards", line(2500, sharding=Sharding(minishard_bits=12)), {"chunk": [7, 1, 1], "sharding": None}, []),
    ("a shard for each cell", line(40, 2), {"chunk": [1, 1, 1], "sharding": Sharding(0, False, 3, 61)}, []),
]


def pick_numbers(chance, volume, count):
    """The bytes of so many values of a few, the least and the greatest among them, so that there are ties."""
    most = 2 ** (8 * volume.width) - 1
    few = [0, 1, most - 1, most, chance.randint(0, most), chance.randint(0, most)]
    return b"".join(number.to_bytes(volume.width, "little") for number in chance.choices(few, k=count))


def makes_fixed(trial, source, layout, written, method):
    """With each number of workers the same files are made."""
    chance = random.Random(0)
    boxes = [box_in(text) for text in written] or [source.whole]
    writes = [(box, pick_numbers(chance, source, voxels_in(box) * source.channels)) for box in boxes]
    trial.write(source, writes)
    targets = {count: target_of(method, source, key=f"t{count}", **layout) for count in WORKERS}
    trial.lay_out(infos_of(source, *targets.values()))
    for count, target in targets.items():
        if count > 1:
            want_made(trial, method, source, target, f"--workers={count}")
            continue
        made = is_made(trial, method, source, target, "--workers=1", boxes=[pick_box(chance, target)])
        if method is None:
            want(made.values.raw, Values(source, writes).raw, "the values that were written")


# Seven voxels with the values 1 to 7, in pairs.
SEVEN = line(7, 2)
SEVEN_VALUES = [(SEVEN.whole, bytes(range(1, 8)))]


def makes_between(trial, method, source, target):
    trial.write(source, SEVEN_VALUES)
    trial.lay_out(infos_of(source, target))
    is_made(trial, method, source, target)


def makes_around(trial, method, source, target, is_written):
    """A source in the target's folder is refused and stays where it has a file; of one without there is nothing to make."""
    trial.write(source, SEVEN_VALUES if is_written else [])
    words, _ = made_by(method, source, target, {})
    answers(trial, infos_of(source, target), words, refused(EMPTY) if is_written else stored(0, 0))


# Scales at random


def pick_boxes(chance, source, like):
    """Boxes to be written into a scale, perhaps with the greatest number all over the last."""
    writes = pick_writes(chance, source, chance.choice([0, 1, 1, 2, 3, 5]), like)
    if chance.random() < 0.3:
        box = pick_box(chance, source)
        writes.append((box, b"\xff" * (voxels_in(box) * source.channels * source.width)))
    return writes


def makes_random(trial, seed, forms, pick):
    """A scale is made of boxes at random, or in one of five cases of what another program stored."""
    chance = random.Random(f"{seed} {forms}")
    method, source, target, like = pick(chance, forms)
    if chance.random() < 0.2:
        trial.store(source, pick_stored(chance, source, like, is_sound=True))
    else:
        trial.write(source, pick_boxes(chance, source, like))
    trial.lay_out(infos_of(source, target))
    is_made(trial, method, source, target, *pick_workers(chance), boxes=[pick_box(chance, target) for _ in range(2)])


def makes_damaged(trial, seed, forms, pick):
    """Some files of the source are others: the first fault on the way is told, or there is none on it."""
    chance = random.Random(f"damaged {seed} {forms}")
    method, source, target, like = pick(chance, forms)
    files = trial.write(source, pick_boxes(chance, source, like))
    trial.lay_out({**damage_some(chance, source, files), **infos_of(source, target)})
    made = want_made(trial, method, source, target, *pick_workers(chance))
    if made.answer[0] == OK:
        trial.want(target.words("verify"), sound(len(target.cells), made.cells))


# The forms of a scale and of the one that is made of it.
PAIRS = list(itertools.product(FORMS, repeat=2))


def rows_at_random(pick, seeds):
    """Rows of seeds and forms; `pick` gives the method, the two scales, and one with values that are alike."""
    for seed, forms in seeds:
        spelled = (f"{'raw' if is_raw else 'segmented'} {'shards' if in_shards else 'files'}" for is_raw, in_shards in forms)
        title = f"{' into '.join(spelled)}, seed {seed}"
        yield title, makes_random, seed, forms, pick
        yield f"{title}, damaged", makes_damaged, seed, forms, pick


# Damages that are stated

EIGHT = line(8)
PLANE = Volume([4, 4, 1], [1, 1, 1])
TWO_SHARDS, IN_BLOCKS = {"sharding": Sharding(shard_bits=1)}, {"block": (1, 1, 1)}


def tells_damage(trial, source, layout, empty, told, may_stand, method, workers):
    """Of a source that is written whole some cells' files are empty: this one is told, and these files may stand."""
    target = target_of(method, source, **layout)
    values = bytes(number % 251 + 1 for number in range(source.width * voxels_in(source.whole)))
    trial.store(source, {**source.chunks_after([(source.whole, values)]), **{cell: b"" for cell in empty}})
    trial.lay_out(infos_of(source, target))
    _, made = made_by(method, source, target, contents(standing(trial.folder)))
    want_ending(made.answer, refused(damaged(told, f"chunk length 0 wanted {source.width}")), "the model")
    want(list(made.files), list(map(target.path, may_stand)), "the model's files")
    want_made(trial, method, source, target, f"--workers={workers}")


# Runs that are refused, over the small data set.

NO_FIRST = {FIRST: b""}
PADDED = "padded voxels 4194305 over 4194304"
CELLS = "too many cells 4194305"
EMPTY = "folder not empty"


def outcomes(info, in_shards, folder):
    """
    What is told of the small data set with the info of a scale that is made of it, in this folder; and where both infos are so, and the
    source is in shards: title, what is changed, and what the run ends with. First comes the target's folder, and then the source's cells.
    """
    pipe = {f"{folder}/x.part": b"", f"{folder}/y": PIPE}
    told = [
        ("an object in the target's folder", {f"{folder}/x": b""}, EMPTY), ("an object deep in it", {f"{folder}/x/y/z": b""}, EMPTY),
        ("an object in a folder that ends in .part", {f"{folder}/x.part/y": b""}, EMPTY),
        ("an object before a damaged source", {f"{folder}/x": b"", **NO_FIRST}, EMPTY),
        ("an object before a pipe in the source", {f"{folder}/x": b"", SECOND: PIPE}, EMPTY),
        ("a pipe in the target's folder", pipe, "store fault"),
        ("a pipe in it, and a damaged source", {**pipe, **NO_FIRST}, "store fault"),
        ("a target's folder that is a file", {folder: b""}, "store fault"),
        ("a chunk that is a pipe", {SECOND: PIPE}, "store fault"),
        ("a chunk that is a device", {FIRST: DEVICE}, "store fault"),
        ("a chunk that is a link to itself", {SECOND: LOOP}, "store fault"),
        ("a damaged chunk before a pipe", {**NO_FIRST, SECOND: PIPE}, "store fault"),
        ("a shard that is a pipe", {**in_shards, **NO_CHUNKS, "d/s/0.shard": PIPE}, "store fault"),
        ("a damaged chunk", NO_FIRST, "damaged 0,0,0: chunk length 0 wanted 4"),
        ("the second chunk damaged", {SECOND: b"12345"}, "damaged 1,0,0: chunk length 5 wanted 4"),
        ("both chunks damaged", {**NO_FIRST, SECOND: b"12345"}, "damaged 0,0,0: chunk length 0 wanted 4"),
        ("a short shard", {**in_shards, **NO_CHUNKS, "d/s/0.shard": b"short"}, "damaged 0,0,0: shard short index"),
        # the source has no chunk, so nothing is made, and no folder
        ("no chunks", NO_CHUNKS, None),
        ("no chunks in shards", {**in_shards, **NO_CHUNKS}, None),
        ("a file in the place of the chunks' folder", NO_FOLDER, None),
        ("folders in the chunks' places", {FIRST: FOLDER, SECOND: FOLDER}, None),
        ("files that no cell has", {**NO_CHUNKS, "d/s/0-2": b"x", "d/s/0.shard": b"x"}, None),
    ]
    return [(title, {**info, **change}, stored(0, 0) if fault is None else refused(fault)) for title, change, fault in told]
