#!/usr/bin/env python3
"""Runs the built vol_tool at the very edge of its limits: the largest that is taken, and one more.

    tests/limits.py [PROGRAM]

The largest row writes 1 GiB into its folder. The status, the output or its length, and the line on standard error are compared.
"""
import subprocess
import tempfile

from harness import answers, leaves, main
from model import (OK, SEGMENTED, SHARDING, Sharding, along, box_in, bytes_of, head_of, info_of, line, printed, refused, stored, stream_of)

# The most cells that a box or a grid of a copy may have, the most pairs of a write and a cell, and the most bytes of a cutout or of
# the values of a stream.
CELLS = 2**22
PAIRS = 2**22
BYTES = 2**30

CUBE = info_of([1024, 1024, 1024], [1024, 1024, 128])


# So many bytes of an info document are read at first, and at most.
FRONT = 2**16
DOCUMENT = 2**20


def padded(length):
    """An info document of so many bytes, whose last is the brace that closes it."""
    info = info_of([1, 1, 1], [1, 1, 1])
    return info[:-1] + b" " * (length - len(info)) + info[-1:]


def in_shards(cells, **sharding):
    """A line of so many cells, in shards."""
    return line(cells, sharding=Sharding(**sharding)).info()


def sizes_of(length, *chunks):
    """A line of so many voxels, with chunks of these lengths."""
    return line(length, *chunks).info()


def wide(chunk):
    """As large as a scale in shards can be."""
    return info_of([2**40] * 3, [chunk, 1, 1], None, sharding=SHARDING)


def pairs(first, others):
    """A stream of writes of so many voxels of a line: the first one's, and those of the 65,535 others."""
    writes = [bytes_of([0, 0, 0], [length, 1, 1]) + bytes(range(1, length + 1)) for length in (first, others)]
    return head_of(65536) + writes[0] + 65535 * writes[1]


VERIFY = "verify d s"
WRITE = "write d s"
UPDATE = "update d s"
COPY = "reshard d s e s"
TOO_MANY = refused(f"too many cells {CELLS + 1}")
TWO_SHARDS = in_shards(CELLS, shard_bits=1)
MORE_IN_FOURS = info_of([CELLS + 1, 1, 1], [4, 1, 1])
LINE = info_of([65, 1, 1], [1, 1, 1])
ONE = "cutout d s [0:1,0:1,0:1]"
EMPTY_OUTSIDE = head_of(1) + bytes_of([9, 9, 9], [0, 1, 1])
CLIPPED = info_of([10] * 3, [512] * 3, {"type": "segmentation", "data_type": "uint32"}, **SEGMENTED)

# Lengths of info documents.
LENGTHS = [FRONT - 1, FRONT, FRONT + 1, 2 * FRONT, DOCUMENT - 1, DOCUMENT]

# title, the infos of the data sets d and e, words, what the run ends with, the stream
RUNS = [
    ("verify of 2^22 cells", [in_shards(CELLS)], VERIFY, printed(f"cells {CELLS} stored 0 absent {CELLS}"), b""),
    ("verify of a cell more", [in_shards(CELLS + 1)], VERIFY, TOO_MANY, b""),
    ("a copy of 2^22 cells", [in_shards(CELLS), TWO_SHARDS], COPY, stored(0, 0), b""),
    ("a copy of a cell more", [in_shards(CELLS + 1), MORE_IN_FOURS], COPY, TOO_MANY, b""),
    ("a copy into a cell more", [MORE_IN_FOURS, in_shards(CELLS + 1)], COPY, TOO_MANY, b""),
    ("2^22 pairs", [LINE], WRITE, stored(64, 64), pairs(64, 64)),
    ("a pair more", [LINE], WRITE, refused(f"too many cells {PAIRS + 1}"), pairs(65, 64)),
    ("2^22 pairs of an update", [LINE], UPDATE, stored(64, 64), pairs(64, 64)),
    ("a pair more of an update", [LINE], UPDATE, refused(f"too many cells {PAIRS + 1}"), pairs(65, 64)),
    # of several chunk sizes cells are counted together, and pairs size by size, each before anything is put
    ("verify of 2^22 cells of two sizes", [sizes_of(CELLS, 2, 2)], VERIFY, printed(f"cells {CELLS} stored 0 absent {CELLS}"), b""),
    ("verify of a cell more of two sizes", [sizes_of(CELLS, CELLS, 1)], VERIFY, TOO_MANY, b""),
    ("2^22 pairs of a further size", [sizes_of(65, 65, 1)], WRITE, stored(65, 65), pairs(64, 64)),
    ("a pair more of a further size", [sizes_of(65, 65, 1)], WRITE, refused(f"too many cells {PAIRS + 1}"), pairs(65, 64)),
    ("too many pairs of both sizes", [sizes_of(130, 2, 1)], WRITE, refused(f"too many cells {PAIRS + 1}"), pairs(130, 128)),
    # 1,321 x 793 x 1,025 is one more
    ("a cutout of a byte more", [info_of([1321, 793, 1025], [64, 64, 64])], "cutout d s [0:1321,0:793,0:1025]",
     refused(f"box too large {BYTES + 1}"), b""),
    *((f"an info of {length} bytes", [padded(length)], ONE, printed(b"\0"), b"") for length in LENGTHS),
    ("an info of a byte more", [padded(DOCUMENT + 1)], ONE, refused("info of d: too long"), b""),
    # what is judged first, where two things are wrong
    ("chunk bytes before the bits of a code", [wide(2**27 + 1)], ONE, refused("info of d: limit chunk_bytes"), b""),
    ("the bits of a code", [wide(2**27)], ONE, refused("info of d: limit morton_bits"), b""),
    ("an empty box outside", [info_of([4, 2, 1], [2, 2, 1])], WRITE, refused("write 0: empty box"), EMPTY_OUTSIDE),
    ("chunks that are clipped to the scale", [CLIPPED], "cutout d s [0:10,0:10,0:10]", printed(bytes(4000)), b""),
]


def ends_so(trial, infos, words, wanted, feed):
    """A run over data sets that have nothing but an info document each; one that is refused puts nothing."""
    trial.lay_out({f"{dataset}/info": info for dataset, info in zip("de", infos)})
    judge = trial.want if wanted[0] == OK else trial.want_unchanged
    judge(words, wanted, feed)


def takes_stream(trial, behind, wanted):
    """A write of 2^30 zero bytes, and what comes behind it."""
    trial.lay_out({"d/info": CUBE})
    with tempfile.TemporaryFile() as feed:
        feed.write(head_of(1 + bool(behind)) + bytes_of([0, 0, 0], [1024, 1024, 1024]))
        feed.seek(BYTES, 1)
        feed.truncate()
        feed.write(behind)
        feed.seek(0)
        trial.want(WRITE, wanted, feed)


def le(*numbers):
    return b"".join(number.to_bytes(8, "little") for number in numbers)


def kept(*counts, first=0):
    """A shard whose minishards have so many chunks of no bytes each, by pieces; their ids count on from one minishard to the next."""
    shard, place = {}, 16 * len(counts)
    for minishard, count in enumerate(counts):
        shard[16 * minishard] = le(place - 16 * len(counts), place + 24 * count - 16 * len(counts))
        shard[place] = le(first) + (count - 1) * le(1)
        place, first = place + 24 * count, first + count
    return {**shard, place - 1: b"\0"}


# Halves of 2^22 cells, in a shard each, and in a minishard each.
BY_SHARDS = Sharding(preshift=22, shard_bits=1)
BY_MINISHARDS = Sharding(preshift=22, minishard_bits=1)
SHORT = {0: b"\0"}


def keeps_cells(trial, sharding, shards, cells, wanted):
    """An update of some cells of a line of over 2^22 in these shards."""
    info = line(CELLS + 5, sharding=sharding).info()
    trial.lay_out({"d/info": info, **{f"d/s/{number}.shard": shard for number, shard in enumerate(shards)}})
    trial.want(UPDATE, wanted, stream_of([(along(cell, cell + 1), b"\1") for cell in cells]))


# title, how cells are in shards, the shards, the cells that writes meet, and what the update ends with
KEEPING = [
    ("an update that keeps 2^22 cells", Sharding(), [kept(CELLS)], [0], refused("damaged 0,0,0: chunk length 0 wanted 1")),
    ("an update of a cell beside 2^22 that are kept", Sharding(), [kept(CELLS)], [CELLS], TOO_MANY),
    # all cells that are met count with the first shard, and before the next one is judged
    ("an update of a cell of a damaged shard beside 2^22 that are kept", BY_SHARDS, [kept(CELLS), SHORT], [0, CELLS], TOO_MANY),
    ("an update of a cell of a damaged shard beside one fewer", BY_SHARDS, [kept(CELLS - 1), SHORT], [0, CELLS],
     refused("shard 1 0: shard short index")),
    # how many they are is told of the shards so far
    ("an update of a cell beside 2^22, whose shard keeps three more", BY_SHARDS, [kept(CELLS), kept(3, first=CELLS + 1)], [0, CELLS],
     TOO_MANY),
    # a shard is judged whole before its cells count
    ("an update beside 2^22 kept cells of a shard whose next minishard is damaged", BY_MINISHARDS,
     [{**kept(CELLS, 1), 16: le(8, 0)}], [0, CELLS], refused("shard 0 1: shard bad range")),
]


def cuts_all(trial):
    trial.lay_out({"d/info": CUBE})
    trial.want("cutout d s [0:1024,0:1024,0:1024]", printed(b""), output=subprocess.DEVNULL)


# A scale whose folder's name begins another's, which holds a chunk.
APART = {"d/info": line(2, 2).info(), "d/sx/0-2_0-1_0-1": b"\1\2"}
THREE_FOUR = stream_of([(box_in("0:2,0:1,0:1"), b"\3\4")])


def rows():
    for title, *case in RUNS:
        yield title, ends_so, *case
    yield "a stream of 2^30 bytes", takes_stream, b"", stored(8, 8)
    one_more = bytes_of([0, 0, 0], [1, 1, 1]) + b"\1"
    yield "a byte more", takes_stream, one_more, refused("write 1: too large")
    yield "a cutout of 2^30 bytes", cuts_all
    for title, *case in KEEPING:
        yield title, keeps_cells, *case
    beside = {**APART, "d/s/0-2_0-1_0-1": b"\3\4"}
    yield "a cutout beside a folder whose name goes on", answers, beside, "cutout d s [0:2,0:1,0:1]", printed(b"\3\4")
    yield "a folder beside whose name goes on", leaves, APART, WRITE, stored(1, 1), {"d/s/0-2_0-1_0-1": b"\3\4"}, THREE_FOUR


if __name__ == "__main__":
    main(rows, jobs=2)
