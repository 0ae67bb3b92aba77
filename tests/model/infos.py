"""
A plain model of info documents: the scale that a document gives for a key, or the first fault, row by row of the table in docs/format.md.

A JSON text is read as `serde_json` reads it: of a member that is repeated the last value counts; a number is whole where it is spelled
without a fraction and an exponent, isn't `-0` and has 64 bits; and there is no reading of a text that is nested too deep, that has a number
too large for floating point, or half of a surrogate pair.
"""
import json
import math
import re

from .shards import Sharding
from .volumes import Volume

MOST_BYTES = 2**20
MOST_DEEP = 127
MOST_CHANNELS = 1024
MOST_SIZE = MOST_OFFSET = 2**40
MOST_BLOCK = 2**24
MOST_CHUNK = 2**27
MOST_PADDED = 2**24
MOST_VIEWS = 8

WIDTHS = {"uint8": 1, "uint16": 2, "uint32": 4, "uint64": 8}
NOT_READ = ["float32", "int8", "int16", "int32", "int64"]


class Refused(Exception):
    """A fault of a document, as it is told."""


# JSON


def finite(text):
    """The number of a text that is none of the words for what isn't finite, nor too large."""
    number = float(text)
    if not math.isfinite(number):
        raise ValueError(text)
    return number


def number_of(text):
    """The number of a text without fraction and exponent: a float where it isn't a whole number of 64 bits."""
    if text == "-0" or len(text) > 20 or not -(2**63) <= int(text) < 2**64:
        return finite(text)
    return int(text)


def keep_last(pairs):
    """A JSON object; also what is repeated may have no half of a surrogate pair."""
    json.dumps(pairs, ensure_ascii=False).encode()
    return dict(pairs)


def depth_of(text):
    """How deep arrays and objects are nested, outside of texts."""
    most = depth = 0
    for mark in re.sub(r'"(?:[^"\\]|\\.)*"?', "", text, flags=re.DOTALL):
        depth += (mark in "[{") - (mark in "]}")
        most = max(most, depth)
    return most


def read_json(content):
    """The value of a JSON text, or a fault where it is none."""
    try:
        text = content.decode()
        if depth_of(text) > MOST_DEEP:
            raise ValueError("too deep")
        value = json.loads(text, parse_int=number_of, parse_float=finite, parse_constant=finite, object_pairs_hook=keep_last)
        keep_last([("", value)])
    except ValueError as fault:
        raise Refused("not json") from fault
    return value


# Kinds of values

KINDS = {
    "text": lambda value: isinstance(value, str),
    "object": lambda value: isinstance(value, dict),
    "array": lambda value: isinstance(value, list),
    "whole": lambda value: type(value) is int and value >= 0,
    "signed": lambda value: type(value) is int and value < 2**63,
    "number": lambda value: type(value) in (int, float),
}


def is_kind(value, kind):
    """Whether a value is of a kind, where this has `threes of ` in front an array of arrays of three, and after `three ` one of these."""
    of, _, one = kind.rpartition(" ")
    if of == "threes of":
        return isinstance(value, list) and all(is_kind(three, f"three {one}") for three in value)
    if of == "three":
        return isinstance(value, list) and len(value) == 3 and all(map(KINDS[one], value))
    return KINDS[one](value)


ABSENT = object()


def member(holder, name, kind, told=None, default=ABSENT):
    """A member of a kind, or the default where it is absent."""
    told = told or name
    if name not in holder:
        if default is ABSENT:
            raise Refused(f"{told} missing")
        return default
    if not is_kind(holder[name], kind):
        raise Refused(f"{told} wrong kind")
    return holder[name]


def want(is_right, fault):
    if not is_right:
        raise Refused(fault)


def lowered(holder, name):
    """A member that is a text, with its ASCII letters in lower case."""
    return "".join(letter.lower() if letter.isascii() else letter for letter in member(holder, name, "text"))


# The rows of the table


def volume_of(info):
    """The bytes of a value, how many channels there are, and the scales."""
    at_type = member(info, "@type", "text", default=None)
    want(at_type in (None, "neuroglancer_multiscale_volume"), "@type bad value")
    kind = member(info, "type", "text")
    want(kind in ("image", "segmentation"), "type bad value")
    data_type = lowered(info, "data_type")
    want(data_type not in NOT_READ, "unsupported data_type")
    want(data_type in WIDTHS, "data_type bad value")
    channels = member(info, "num_channels", "whole")
    want(channels == 1 if kind == "segmentation" else channels > 0, "num_channels bad value")
    want(channels <= MOST_CHANNELS, "limit num_channels")
    return WIDTHS[data_type], channels, member(info, "scales", "array")


def pick_scale(scales, key):
    found = [scale for scale in scales if isinstance(scale, dict) and scale.get("key") == key]
    want(found, "scale absent")
    return found[0]


def sizes_of(scale):
    """The size, the offset and the chunk sizes."""
    size = member(scale, "size", "three whole")
    want(0 not in size, "size bad value")
    want(max(size) <= MOST_SIZE, "limit size")
    offset = member(scale, "voxel_offset", "three signed", default=[0, 0, 0])
    want(max(map(abs, offset)) <= MOST_OFFSET, "limit voxel_offset")
    chunks = member(scale, "chunk_sizes", "threes of whole")
    want(chunks and all(0 not in chunk for chunk in chunks), "chunk_sizes bad value")
    want(all(max(chunk) <= MOST_SIZE for chunk in chunks) and len(chunks) <= MOST_VIEWS, "limit chunk_sizes")
    want(len(chunks) == 1 or scale.get("sharding") is None, "unsupported chunk_sizes")
    return size, tuple(offset), chunks


def block_of(scale, width):
    """The size of the blocks of a segmentation, or None of raw chunks."""
    member(scale, "resolution", "three number")
    encoding, name = lowered(scale, "encoding"), "compressed_segmentation_block_size"
    want(encoding in ("raw", "compressed_segmentation"), "unsupported encoding")
    if encoding == "raw":
        return None
    want(width >= 4, "encoding bad value")
    block = member(scale, name, "three whole")
    want(0 not in block, f"{name} bad value")
    want(max(block) <= MOST_BLOCK, f"limit {name}")
    return tuple(block)


def sharding_of(scale):
    """The sharding, or None where there is none."""
    if scale.get("sharding") is None:
        return None
    found = member(scale, "sharding", "object")
    at_type = member(found, "@type", "text", "sharding @type")
    want(at_type == "neuroglancer_uint64_sharded_v1", "sharding @type bad value")
    preshift = member(found, "preshift_bits", "whole")
    want(preshift <= 64, "preshift_bits bad value")
    name = member(found, "hash", "text")
    want(name in ("identity", "murmurhash3_x86_128"), "hash bad value")
    minishard_bits = member(found, "minishard_bits", "whole")
    want(minishard_bits <= 24, "limit minishard_bits")
    shard_bits = member(found, "shard_bits", "whole")
    want(minishard_bits + shard_bits <= 64, "shard_bits bad value")
    for encoding in ("minishard_index_encoding", "data_encoding"):
        told = member(found, encoding, "text", default="raw")
        want(told != "gzip", f"unsupported {encoding}")
        want(told == "raw", f"{encoding} bad value")
    return Sharding(preshift, name != "identity", minishard_bits, shard_bits)


def padded_voxels(volume):
    """How many voxels the first cell of a segmentation has in whole blocks, times channels; and 0 of raw chunks."""
    if volume.block is None:
        return 0
    first = map(min, volume.chunk, volume.size)
    return math.prod(-(-size // block) * block for size, block in zip(first, volume.block)) * volume.channels


def judge_limits(volume):
    """What the first cell of each view and the grid have at most."""
    lengths = (math.prod(map(min, view.chunk, view.size)) * view.channels * view.width for view in volume.views)
    want(max(lengths) <= MOST_CHUNK, "limit chunk_bytes")
    if volume.sharding is not None:
        want(sum((count - 1).bit_length() for count in volume.grid) <= 64, "limit morton_bits")
    want(all(padded_voxels(view) <= MOST_PADDED for view in volume.views), "limit padded")


def scale_in(content, key="s", dataset="d"):
    """The scale of a document and a key; raises the first fault."""
    want(len(content) <= MOST_BYTES, "too long")
    info = read_json(content)
    want(isinstance(info, dict), "root wrong kind")
    width, channels, scales = volume_of(info)
    scale = pick_scale(scales, key)
    size, offset, (chunk, *more) = sizes_of(scale)
    block = block_of(scale, width)
    volume = Volume(size, chunk, offset, channels, width, block, sharding_of(scale), dataset, key, tuple(more))
    judge_limits(volume)
    return volume
