"""A small data set: d with the scale s of 4 x 2 x 1 voxels in two chunks. What is refused is tried with it, and with changes of it."""
import json

from .volumes import SEGMENTED, SHARDING, info_of

INFO_PATH = "d/info"
FIRST = "d/s/0-2_0-2_0-1"
SECOND = "d/s/2-4_0-2_0-1"
WHOLE = "[0:4,0:2,0:1]"
VALUES = bytes([1, 2, 5, 6, 3, 4, 7, 8])

# Boxes with the largest numbers that a box may have.
FAR = "[0:2199023255552,0:2,0:1]"
LOW = "[-2199023255552:4,0:2,0:1]"

FILES = {INFO_PATH: info_of([4, 2, 1], [2, 2, 1]), FIRST: bytes([1, 2, 3, 4]), SECOND: bytes([5, 6, 7, 8])}
NO_CHUNKS = {FIRST: None, SECOND: None}
NO_FOLDER = {**NO_CHUNKS, "d/s": b""}


def changed(*changes):
    """The files of the data set, each change over those before; None is no file."""
    return {path: content for change in (FILES, *changes) for path, content in change.items()}


def with_info(volume=None, **scale):
    return {INFO_PATH: info_of(**{"size": [4, 2, 1], "chunk": [2, 2, 1], "volume": volume, **scale})}


def with_next(source=None, volume=None, **target):
    """The info with the next scale t, in one chunk; each scale may have other members."""
    info = json.loads(with_info(volume, **(source or {}))[INFO_PATH])
    info["scales"] += json.loads(info_of(**{"size": [2, 1, 1], "chunk": [2, 1, 1], "key": "t", **target}))["scales"]
    return {INFO_PATH: json.dumps(info).encode()}


def shards(**sharding):
    """The members of a scale in shards."""
    return {"sharding": {**SHARDING, **sharding}}


# Infos at the limits.


def deep_info(length):
    """1,024 channels in one chunk."""
    return info_of([length, 1, 1], [length, 1, 1], {"num_channels": 1024})


def padded_info(length, channels=1, **scale):
    """A segmentation of one chunk, in blocks of one voxel."""
    segmented = {**SEGMENTED, "compressed_segmentation_block_size": [1, 1, 1], **scale}
    return info_of([length, 1, 1], [length, 1, 1], {"data_type": "uint32", "num_channels": channels}, **segmented)


def padded(length, channels=1):
    return {INFO_PATH: padded_info(length, channels)}


def wide_info():
    """A sharded segmentation as large as a scale can be, whose chunks have one voxel more than 2^24."""
    segmented = {**SEGMENTED, "compressed_segmentation_block_size": [1, 1, 1], "sharding": SHARDING}
    return info_of([2**40] * 3, [2**24 + 1, 1, 1], {"type": "segmentation", "data_type": "uint32"}, **segmented)
