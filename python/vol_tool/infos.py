"""The `info` of a data set: what is read of it, and how scales are added to it. All that has three numbers is in the order x, y, z."""
from __future__ import annotations

import dataclasses
import functools
import json
import math
import operator
import pathlib
from typing import Any, Iterator, Sequence, Tuple, Union

from .boxes import Box, Span, Three, cells_in
from .errors import BadInfo, NoScale, TooLarge, UnsupportedType, UsageError

# The types of values that are stored, and how many bytes one has.
WIDTHS = {"uint8": 1, "uint16": 2, "uint32": 4, "uint64": 8}
ENCODINGS = ("raw", "compressed_segmentation")
HASHES = {"identity": "identity", "murmur": "murmurhash3_x86_128"}
NULL_OFFSET = [0, 0, 0]

# Limits of the program.
MOST_BYTES = 1 << 30
MOST_CHANNELS = 1024
MOST_CHUNK_BYTES = 1 << 27
MOST_PADDED = 1 << 22
MOST_CHUNK = 1 << 40
MOST_BLOCK = 1 << 24
MOST_OFFSET = 1 << 40

Number = Union[int, float]
Numbers = Tuple[Number, Number, Number]


# Numbers that are given


def three_between(name: str, given: Any, least: int, most: int) -> Three:
    """Three whole numbers, each from a least to a most; raises UsageError."""
    try:
        x, y, z = (operator.index(number) for number in given)
    except (TypeError, ValueError):
        x = y = z = least - 1
    if not all(least <= number <= most for number in (x, y, z)):
        raise UsageError(f"{name} is three whole numbers x, y, z, each from {least} to {most}, and not {given}")
    return x, y, z


def three_lengths(given: Any) -> Numbers:
    """Three lengths in nanometres, whole ones or with a point; raises UsageError."""
    try:
        x, y, z = (float(length) for length in given)
    except (TypeError, ValueError):
        x = y = z = 0.0
    if not all(0 < length < math.inf for length in (x, y, z)):
        raise UsageError(f"resolution is three lengths x, y, z, each over 0, and not {given}")
    return _shorten(x), _shorten(y), _shorten(z)


def _shorten(length: float) -> Number:
    return int(length) if length.is_integer() else length


@dataclasses.dataclass(frozen=True)
class Sharding:
    """How the chunks of a scale are in shards: the four numbers of an `info`, of which `hash` is "identity" or "murmur" in short."""

    preshift_bits: int
    hash: str
    minishard_bits: int
    shard_bits: int

    @classmethod
    def of(cls, given: Any) -> Sharding:
        """A sharding of four words, or a text of them between commas; raises UsageError where they are none."""
        if isinstance(given, cls):
            return given
        words = given.split(",") if isinstance(given, str) else given
        try:
            preshift, name, minishard, shard = words
            found = cls(int(preshift), str(name), int(minishard), int(shard))
        except (TypeError, ValueError):
            raise UsageError(f"{given!r} is no sharding: (preshift_bits, hash, minishard_bits, shard_bits) are wanted") from None
        if found.hash not in HASHES:
            raise UsageError(f"the hash of a sharding is {' or '.join(HASHES)}, and not {found.hash}")
        if not (0 <= found.preshift_bits <= 64 and 0 <= found.minishard_bits <= 24 and 0 <= found.shard_bits <= 64 - found.minishard_bits):
            raise UsageError(f"the bits of a sharding are at most 64, 24, and 64 with those before, and not {given}")
        return found

    @classmethod
    def read(cls, member: Any) -> Sharding | None:
        """That of an `info`'s member, or None where there is none, or one that isn't read."""
        if not isinstance(member, dict):
            return None
        short = {name: word for word, name in HASHES.items()}
        try:
            return cls(member["preshift_bits"], short[member["hash"]], member["minishard_bits"], member["shard_bits"])
        except (KeyError, TypeError):
            return None

    def member(self) -> dict[str, Any]:
        """The member `sharding` of a scale."""
        return {
            "@type": "neuroglancer_uint64_sharded_v1",
            "preshift_bits": self.preshift_bits,
            "hash": HASHES[self.hash],
            "minishard_bits": self.minishard_bits,
            "shard_bits": self.shard_bits,
            "minishard_index_encoding": "raw",
            "data_encoding": "raw",
        }


@dataclasses.dataclass(frozen=True)
class ScaleInfo:
    """
    What is read of a scale: its size and offset in voxels, the nanometres of a voxel, its chunk sizes, of which the first is read, the
    encoding and, of a segmentation, the size of its blocks. `member` is the scale as the JSON text has it.
    """

    key: str
    size: Three
    offset: Three
    resolution: Numbers
    chunk_sizes: tuple[Three, ...]
    encoding: str
    block: Three | None
    sharding: Sharding | None
    member: dict[str, Any] = dataclasses.field(repr=False, compare=False)

    @property
    def chunk(self) -> Three:
        """The first chunk size, in which the scale is read."""
        return self.chunk_sizes[0]

    @property
    def is_sharded(self) -> bool:
        return self.member.get("sharding") is not None

    @property
    def box(self) -> Box:
        """The box of the whole scale."""
        x, y, z = ((begin, begin + side) for begin, side in zip(self.offset, self.size))
        return x, y, z

    def grid(self) -> Three:
        """How many cells there are on each axis."""
        x, y, z = (-(-side // chunk) for side, chunk in zip(self.size, self.chunk))
        return x, y, z

    def cells(self, box: Sequence[Span]) -> Iterator[Box]:
        """The boxes of the cells that a box meets, x fastest."""
        return cells_in(box, self.box, self.chunk)

    def cells_by_size(self, box: Sequence[Span]) -> Iterator[Iterator[Box]]:
        """The same for each chunk size."""
        return (cells_in(box, self.box, chunk) for chunk in self.chunk_sizes)


def _is_three(found: Any, *kinds: type) -> bool:
    """Whether a member is an array of three numbers of these kinds."""
    return isinstance(found, list) and len(found) == 3 and all(type(number) in kinds for number in found)


def _three(name: str, scale: dict[str, Any], member: str, least: int | None = None) -> Three:
    """Three whole numbers of a scale's member; raises BadInfo."""
    found = scale.get(member, NULL_OFFSET if member == "voxel_offset" else None)
    if not _is_three(found, int) or (least is not None and min(found) < least):
        raise BadInfo(f"the {member} of the scale {scale['key']} of {name} isn't three whole numbers{'' if least is None else ' over 0'}")
    return found[0], found[1], found[2]


def _chunk_sizes(name: str, scale: dict[str, Any]) -> tuple[Three, ...]:
    found = scale.get("chunk_sizes")
    if not isinstance(found, list) or not found or not all(_is_three(chunk, int) and min(chunk) > 0 for chunk in found):
        raise BadInfo(f"the chunk_sizes of the scale {scale['key']} of {name} aren't arrays of three whole numbers over 0")
    return tuple((x, y, z) for x, y, z in found)


def read_scale(name: str, scale: dict[str, Any]) -> ScaleInfo:
    """What is read of a scale of the `info` that is called `name`; raises BadInfo at a member that isn't as it should be."""
    encoding, resolution = scale.get("encoding"), scale.get("resolution")
    if not isinstance(encoding, str):
        raise BadInfo(f"the encoding of the scale {scale['key']} of {name} isn't a text")
    if resolution is None or not _is_three(resolution, int, float):
        raise BadInfo(f"the resolution of the scale {scale['key']} of {name} isn't three numbers")
    has_blocks = encoding.lower() == "compressed_segmentation"
    return ScaleInfo(
        key=scale["key"],
        size=_three(name, scale, "size", 1),
        offset=_three(name, scale, "voxel_offset"),
        resolution=(resolution[0], resolution[1], resolution[2]),
        chunk_sizes=_chunk_sizes(name, scale),
        encoding=encoding.lower(),
        block=_three(name, scale, "compressed_segmentation_block_size", 1) if has_blocks else None,
        sharding=Sharding.read(scale.get("sharding")),
        member=scale,
    )


@dataclasses.dataclass(frozen=True)
class Info:
    """
    An `info`: the JSON text's whole `document`, of which the type of values, the channels and the scales are read, and the `name` by which
    it is told. A scale is read when it is asked for, so a broken one is in the way of no other.
    """

    name: str
    document: dict[str, Any] = dataclasses.field(repr=False)

    @classmethod
    def parse(cls, content: bytes | str | dict[str, Any], name: str) -> Info:
        """The `info` of a JSON text, or of what was read of one. Raises BadInfo."""
        try:
            document = content if isinstance(content, dict) else json.loads(content)
        except ValueError as why:
            raise BadInfo(f"{name} is no JSON: {why}") from None
        wanted = {"data_type": str, "num_channels": int, "scales": list}
        if not isinstance(document, dict) or not all(isinstance(document.get(member), kind) for member, kind in wanted.items()):
            raise BadInfo(f"{name} isn't the info of a volume")
        if document["num_channels"] < 1:
            raise BadInfo(f"{name} has {document['num_channels']} channels")
        return cls(name, document)

    @classmethod
    def read(cls, path: pathlib.Path, name: str | None = None) -> Info:
        """That of a file. Raises BadInfo where there is none, and OSError where it can't be read."""
        name = name or str(path)
        try:
            return cls.parse(path.read_bytes(), name)
        except (FileNotFoundError, NotADirectoryError):
            raise BadInfo(f"there is no {name}") from None

    @property
    def data_type(self) -> str:
        """The type of the values, in lower case."""
        return self.document["data_type"].lower()

    @property
    def channels(self) -> int:
        return self.document["num_channels"]

    @property
    def kind(self) -> str | None:
        """Whether the volume is an `image` or a `segmentation`."""
        return self.document.get("type")

    def has_labels(self, scale: ScaleInfo) -> bool:
        """Whether the values of a scale are labels: the volume is a segmentation, or the scale's chunks are."""
        return self.kind == "segmentation" or scale.encoding == "compressed_segmentation"

    @property
    def width(self) -> int:
        """How many bytes a value has; raises UnsupportedType for values that aren't stored."""
        if self.data_type not in WIDTHS:
            raise UnsupportedType(f"{self.name} has values of the type {self.data_type}, and only {', '.join(WIDTHS)} are read")
        return WIDTHS[self.data_type]

    @functools.cached_property
    def keys(self) -> list[str]:
        """The keys of the scales, each once, in their order."""
        members = (scale.get("key") for scale in self.document["scales"] if isinstance(scale, dict))
        return list(dict.fromkeys(key for key in members if isinstance(key, str)))

    def member_of(self, key: str) -> dict[str, Any]:
        """The scale of a key as the JSON text has it, of several the first; raises NoScale."""
        for scale in self.document["scales"]:
            if isinstance(scale, dict) and scale.get("key") == key:
                return scale
        raise NoScale(f"{self.name} has no scale {key}")

    def scale(self, key: str) -> ScaleInfo:
        """What is read of the scale of a key; raises NoScale and BadInfo."""
        return read_scale(self.name, self.member_of(key))

    @property
    def scales(self) -> dict[str, ScaleInfo]:
        """All scales by their keys; raises BadInfo where one is broken."""
        return {key: self.scale(key) for key in self.keys}

    def with_scale(self, member: dict[str, Any], place: int | None = None) -> Info:
        """The same with one more scale: the last one, or the one at a place."""
        scales = list(self.document["scales"])
        scales.insert(len(scales) if place is None else place, member)
        return Info(self.name, {**self.document, "scales": scales})

    def content(self) -> bytes:
        """The JSON text."""
        return (json.dumps(self.document, indent=1) + "\n").encode()


def new_info(name: str, data_type: str, channels: int, is_segmentation: bool) -> Info:
    """The `info` of a volume that has no scales yet."""
    document = {
        "@type": "neuroglancer_multiscale_volume",
        "type": "segmentation" if is_segmentation and channels == 1 else "image",
        "data_type": data_type,
        "num_channels": channels,
        "scales": [],
    }
    return Info(name, document)


@dataclasses.dataclass(frozen=True)
class Layout:
    """How a scale is stored: chunk size, encoding, the blocks of a segmentation and the sharding."""

    chunk: Three = (64, 64, 64)
    encoding: str = "raw"
    block: Three = (8, 8, 8)
    sharding: Sharding | None = None

    @classmethod
    def of(cls, chunk: Any, encoding: str, block: Any, sharding: Any) -> Layout:
        """A layout of what a caller named; raises UsageError."""
        if encoding not in ENCODINGS:
            raise UsageError(f"encoding is one of {', '.join(ENCODINGS)}, and not {encoding}")
        chunk, block = three_between("chunk", chunk, 1, MOST_CHUNK), three_between("block", block, 1, MOST_BLOCK)
        return cls(chunk, encoding, block, None if sharding is None else Sharding.of(sharding))

    def members(self) -> dict[str, Any]:
        """The members of a scale that say so."""
        found: dict[str, Any] = {"chunk_sizes": [list(self.chunk)], "encoding": self.encoding}
        if self.encoding == "compressed_segmentation":
            found["compressed_segmentation_block_size"] = list(self.block)
        if self.sharding is not None:
            found["sharding"] = self.sharding.member()
        return found

    def check(self, size: Sequence[int], channels: int, data_type: str) -> None:
        """Raises what the program would say of the chunks of a scale of this size, before anything is written."""
        first = [min(chunk, side) for chunk, side in zip(self.chunk, size)]
        if math.prod(first) * channels * WIDTHS[data_type] > MOST_CHUNK_BYTES:
            raise TooLarge(f"a chunk has more than {MOST_CHUNK_BYTES} bytes: name a smaller chunk than {_commas(self.chunk)}")
        if self.encoding != "compressed_segmentation":
            return
        if WIDTHS[data_type] < 4:
            raise UnsupportedType(f"a segmentation has values of uint32 or uint64, and not {data_type}: astype(\"uint32\") makes such")
        if math.prod(-(-side // step) * step for side, step in zip(first, self.block)) * channels > MOST_PADDED:
            raise TooLarge(f"a chunk of a segmentation has more than {MOST_PADDED} voxels: name a smaller chunk than {_commas(self.chunk)}")


def _commas(three: Sequence[int]) -> str:
    return ",".join(map(str, three))


def scale_member(key: str, size: Three, offset: Three, resolution: Numbers, layout: Layout) -> dict[str, Any]:
    """A scale as the JSON text has it."""
    members = {"key": key, "size": list(size), "voxel_offset": list(offset), "resolution": list(resolution)}
    return {**members, **layout.members()}
