#!/usr/bin/env python3
"""Runs the built vol_tool on streams of writes: each leaves the objects that are due, and reads back as it was written.

    tests/writes.py [PROGRAM]
"""
import functools
import itertools
import os
import random
import subprocess
import tempfile

from harness import (
    DEVICE, FOLDER, LIMIT, LOOP, PIPE, answers, file_limit, leaves, main, memory_limit, want, want_ending, want_files, want_true,
)
from model import MEMORY, OK, Values, Volume, along, box_in, bytes_of, head_of, infos_of, line, refused, stored, stream_of, voxels_in
from model.chance import pick_box
from runs import rows_of_stops, update_run, write_run

SMALL = Volume([2, 2, 1], [2, 2, 1])
EDGE = line(5, 4)
SHIFTED = line(4, 4, offset=(-3, 0, 0))
WIDE = line(2, 2, channels=2, width=2)
ROW = line(3)

ALL_FOUR = (SMALL.whole, bytes([1, 2, 3, 4]))
LAST = (box_in("1:2,1:2,0:1"), bytes([9]))
ACROSS = (box_in("3:5,0:1,0:1"), bytes([7, 8]))
ALL_FIVE = (EDGE.whole, bytes([1, 2, 3, 4, 5]))
ALL_THREE = (ROW.whole, bytes([1, 2, 3]))

# title, scale, writes, the objects afterwards
STORED = [
    ("one box", SMALL, [ALL_FOUR], {"0-2_0-2_0-1": "01020304"}),
    ("a voxel over a box", SMALL, [ALL_FOUR, LAST], {"0-2_0-2_0-1": "01020309"}),
    ("a box over a voxel", SMALL, [LAST, ALL_FOUR], {"0-2_0-2_0-1": "01020304"}),
    ("a voxel alone", SMALL, [LAST], {"0-2_0-2_0-1": "00000009"}),
    ("a box of zeros", SMALL, [(SMALL.whole, bytes(4))], {"0-2_0-2_0-1": "00000000"}),
    ("an edge chunk", EDGE, [ALL_FIVE], {"0-4_0-1_0-1": "01020304", "4-5_0-1_0-1": "05"}),
    ("a box across two chunks", EDGE, [ACROSS], {"0-4_0-1_0-1": "00000007", "4-5_0-1_0-1": "08"}),
    ("the edge chunk alone", EDGE, [(box_in("4:5,0:1,0:1"), b"\6")], {"4-5_0-1_0-1": "06"}),
    ("an offset below 0", SHIFTED, [(SHIFTED.whole, bytes([1, 2, 3, 4]))], {"-3-1_0-1_0-1": "01020304"}),
    ("two channels", WIDE, [(WIDE.whole, bytes([1, 0, 2, 0, 3, 0, 4, 0]))], {"0-2_0-1_0-1": "0100020003000400"}),
    ("no writes", SMALL, [], {}),
    ("three chunks", ROW, [ALL_THREE], {"0-1_0-1_0-1": "01", "1-2_0-1_0-1": "02", "2-3_0-1_0-1": "03"}),
]


def leaves_objects(trial, volume, writes, objects, *options):
    due = {volume.path(name): bytes.fromhex(content) for name, content in objects.items()}
    want_files(trial.write(volume, writes, *options), due, "the model's object")
    trial.want_values(volume, Values(volume, writes), [volume.whole])


# A small data set, and one whose second scale has a slash in its key.
FOUR = {**infos_of(SMALL), "d/s/0-2_0-2_0-1": bytes([1, 2, 3, 4])}
TWO_SCALES = {**FOUR, **infos_of(SMALL, Volume([2, 2, 1], [2, 2, 1], key="t/u"))}
WRITE = "write d s"


def may_not_write(trial):
    """A folder that lets nobody write. Where the user may write all the same, nothing is asked."""
    trial.lay_out({**infos_of(SMALL), "d/s": FOLDER})
    (trial.folder / "d/s").chmod(0o555)
    if not os.access(trial.folder / "d/s", os.W_OK):
        leaves(trial, {}, WRITE, refused("store fault"), {}, stream_of([ALL_FOUR]))


def takes_pieces(trial, length):
    run, pipe = write_run(EDGE, [ALL_FIVE, ACROSS]), subprocess.PIPE
    trial.lay_out(run.before)
    process = trial.start(run.words, stdin=pipe, stdout=pipe, stderr=pipe, bufsize=0)
    for at in range(0, len(run.stream), length):
        process.stdin.write(run.stream[at : at + length])
    output, errors = process.communicate(timeout=LIMIT)
    want_ending((process.returncode, output, errors), stored(2, 2))
    want_files(trial.files(), run.put)


# title, a faulty stream behind which more stands, how many of its bytes are read, the line
FAULTY = [
    ("a wrong magic", b"PVW2", 4, "stream: bad magic"), ("too many writes", head_of(65537), 8, "stream: too many writes 65537"),
    ("an empty box", head_of(1) + bytes_of([0, 0, 0], [0, 1, 1]), 56, "write 0: empty box"),
    ("a box outside", head_of(1) + bytes_of([0, 0, 0], [3, 1, 1]), 56, "write 0: outside scale"),
    ("a byte behind", stream_of([ALL_FOUR]), 61, "stream: trailing bytes"),
]


AHEAD = 65536  # bytes of small boxes that are read ahead, at most


def reads_no_further(trial, files, words, stream, count, line):
    """A stream is read up to its fault, and little further, and one that isn't judged not at all."""
    with tempfile.TemporaryFile() as feed:
        feed.write(stream + bytes(2 * AHEAD))
        feed.seek(0)
        answers(trial, files, words, refused(line), feed)
        found = os.lseek(feed.fileno(), 0, os.SEEK_CUR)
        want_true(count <= found <= (count and count + AHEAD), f"{found} bytes are read, where {count} are judged")


# A scale of 512 x 512 x 512 bytes in eight layers of chunks, each a file that is a hole; and what its cutout may take besides one
# layer.
LARGE = Volume([512] * 3, [64] * 3)
LAYER_BYTES = 512 * 512 * 64
MORE_BYTES = 16 << 20


def cuts_in_memory(trial, room, status, length, errors):
    """A cutout of a large scale in so many bytes of memory: its status, and how many bytes it prints."""
    trial.lay_out({**infos_of(LARGE), **LARGE.files({cell: {64**3: b""} for cell in LARGE.cells})})
    with tempfile.TemporaryFile() as output:
        words = "cutout d s [0:512,0:512,0:512]"
        found, _, told = trial.run(words, output=output, prepare=memory_limit(room))
        want((found, os.fstat(output.fileno()).st_size, told), (status, length, errors))


# What an earlier run may have left in the place of a file that is to be written: how a link to another file is made.
LINKS = [("symbolic", os.symlink), ("hard", os.link)]

# Files that are no objects of the scale.
OTHERS = {"foreign": b"no object", "d/t/0-1_0-1_0-1": b"another scale's"}

FIRST, SECOND = (ROW.path(f"{x}-{x + 1}_0-1_0-1") for x in (0, 1))
DRAFT = f"{SECOND}.part"
WRITE_ROW = write_run(ROW, [ALL_THREE])
UPDATE_ROW = update_run(ROW, ROW.files_after([ALL_THREE])[0], [(along(1, 3), bytes([7, 8]))])

# title, what else stands there, whether an update makes it anew
LEFTOVERS = [("a link to a device", DEVICE, True), ("a link to itself", LOOP, True), ("a pipe", PIPE, False), ("a folder", FOLDER, False)]


def unlinks_leftovers(trial, run, make_link, led_to):
    """What a link leads to stays as it is, but where the run puts it too, and no link is left."""
    trial.lay_out({**run.before, **OTHERS})
    draft = trial.folder / DRAFT
    draft.parent.mkdir(exist_ok=True)
    make_link(trial.folder / led_to, draft)
    leaves(trial, {}, run.words, run.ending, {**run.put, DRAFT: None}, run.stream)
    want((trial.folder / SECOND).lstat().st_nlink, 1, "how many names the object has")


def rows_of_leftovers():
    for (kind, make_link), led_to in itertools.product(LINKS, [*OTHERS, FIRST]):
        # a write begins without objects: one can't be another name of what isn't there yet
        if (kind, led_to) != ("hard", FIRST):
            yield f"a write over a {kind} link to {led_to}", unlinks_leftovers, WRITE_ROW, make_link, led_to
    for (kind, make_link), led_to in itertools.product(LINKS, [*OTHERS, FIRST, SECOND]):
        yield f"an update over a {kind} link to {led_to}", unlinks_leftovers, UPDATE_ROW, make_link, led_to
    for title, left, is_made in LEFTOVERS:
        ending, put = (UPDATE_ROW.ending, {**UPDATE_ROW.put, DRAFT: None}) if is_made else (refused("store fault"), {})
        files = {**UPDATE_ROW.before, DRAFT: left}
        yield f"an update over {title}", leaves, files, UPDATE_ROW.words, ending, put, UPDATE_ROW.stream


SEEDS = range(4)

# title, scale, how many writes, options
RANDOM = [
    ("uint64, 4 channels", Volume([11, 9, 7], [4, 3, 5], channels=4, width=8), 12, []),
    ("uint64, 4 channels, below 0", Volume([10, 8, 6], [3, 8, 2], (-7, -4, 5), 4, 8), 8, ["--workers=3"]),
    ("uint32, 3 channels", Volume([13, 5, 4], [6, 2, 3], (100, 0, -2), 3, 4), 9, []),
    ("uint16", Volume([17, 6, 3], [5, 6, 1], (0, -6, 0), 1, 2), 20, []),
    ("uint8, a chunk a voxel", Volume([6, 5, 4], [1, 1, 1]), 5, ["--workers=16"]),
    ("uint8, one chunk", Volume([9, 8, 7], [64, 64, 64], channels=2), 30, []),
]


def writes_at_random(trial, seed, volume, count, options):
    chance = random.Random(seed)
    boxes = [pick_box(chance, volume) for _ in range(count)]
    writes = [(box, chance.randbytes(voxels_in(box) * volume.channels * volume.width)) for box in boxes]
    trial.write(volume, writes, *options)
    trial.want_values(volume, Values(volume, writes), [volume.whole, *(pick_box(chance, volume) for _ in range(6))])


def rows():
    for title, *case in STORED:
        yield title, leaves_objects, *case
    _, *three = STORED[-1]
    for count in (1, 2, 3, 16):
        yield f"{count} workers", leaves_objects, *three, f"--workers={count}"
    last, four = stream_of([LAST]), stream_of([ALL_FOUR])
    yield "a second write", leaves, FOUR, WRITE, refused("folder not empty"), {}, last
    yield "a second scale", leaves, TWO_SCALES, "write d t/u", stored(1, 1), {"d/t/u/0-2_0-2_0-1": bytes([0, 0, 0, 9])}, last
    # the system takes a part of an object alone: nothing is left of it
    in_a_byte = functools.partial(leaves, prepare=file_limit(1))
    yield "a file that can't grow", in_a_byte, infos_of(SMALL), WRITE, refused("store fault"), {}, four
    yield "a folder that can't be written", may_not_write
    yield from rows_of_stops(WRITE_ROW)
    yield from rows_of_leftovers()
    for length in (1, 7, 48):
        yield f"pieces of {length}", takes_pieces, length
    yield "a second write reads nothing", reads_no_further, FOUR, WRITE, last, 0, "folder not empty"
    for words, (title, *case) in itertools.product((WRITE, "update d s"), FAULTY):
        yield f"{words} reads no further than {title}", reads_no_further, infos_of(SMALL), words, *case
    yield "a large cutout in the memory of a layer", cuts_in_memory, LAYER_BYTES + MORE_BYTES, OK, 512**3, b""
    yield "a large cutout in less", cuts_in_memory, LAYER_BYTES - 1, MEMORY, 0, b"out of memory\n"
    for seed, (title, *case) in itertools.product(SEEDS, RANDOM):
        yield f"boxes at random, {title}, seed {seed}", writes_at_random, seed, *case


if __name__ == "__main__":
    main(rows)
