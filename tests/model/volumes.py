"""Volumes: their info documents, cells, chunks, raw or of segmentations, and files, each an object or a shard; and their values."""
import dataclasses
import functools
import itertools
import json
import math

from . import segments
from .boxes import name_of, voxels_in
from .faults import Damaged
from .shards import Sharding, files_of, stored_in

SHARDING = Sharding().member()
SEGMENTED = {"encoding": "compressed_segmentation", "compressed_segmentation_block_size": [8, 8, 8]}


def info_of(size, chunk, volume=None, **scale):
    """The info document of a data set with one plain scale s, and other members of the volume and of the scale."""
    one = {"key": "s", "size": size, "chunk_sizes": [chunk], "resolution": [8, 8, 40], "encoding": "raw", **scale}
    info = {"type": "image", "data_type": "uint8", "num_channels": 1, "scales": [one], **(volume or {})}
    return json.dumps(info).encode()


@dataclasses.dataclass(frozen=True)
class Volume:
    """
    A scale of a data set: its size, chunk size and offset in voxels, its channels, the bytes of a value, the size of the blocks of
    a segmentation, and the sharding where the chunks are in shards. An unsharded one may have further chunk sizes.
    """

    size: list
    chunk: list
    offset: tuple = (0, 0, 0)
    channels: int = 1
    width: int = 1
    block: tuple = None
    sharding: Sharding = None
    dataset: str = "d"
    key: str = "s"
    more: tuple = ()

    def info(self):
        volume = {"data_type": f"uint{8 * self.width}", "num_channels": self.channels}
        blocks = {**SEGMENTED, "compressed_segmentation_block_size": list(self.block)} if self.block else {}
        shards = {"sharding": self.sharding.member()} if self.sharding else {}
        sizes = {"chunk_sizes": [self.chunk, *self.more]}
        return info_of(self.size, self.chunk, volume, key=self.key, voxel_offset=list(self.offset), **sizes, **blocks, **shards)

    @functools.cached_property
    def views(self):
        """The scale with each of its chunk sizes alone: the first one is read, and all are written."""
        return [dataclasses.replace(self, chunk=chunk, more=()) for chunk in (self.chunk, *self.more)]

    def words(self, command, *more):
        return [command, self.dataset, self.key, *more]

    def path(self, name):
        """The path of a file of the scale, by the last part of its name."""
        return f"{self.dataset}/{self.key}/{name}"

    @functools.cached_property
    def whole(self):
        return [(offset, offset + size) for offset, size in zip(self.offset, self.size)]

    # Cells

    @functools.cached_property
    def grid(self):
        """How many cells there are on each axis."""
        return [-(-size // chunk) for size, chunk in zip(self.size, self.chunk)]

    @functools.cached_property
    def cells(self):
        """All cells, x fastest."""
        return [cell[::-1] for cell in itertools.product(*map(range, reversed(self.grid)))]

    def cells_in(self, box):
        """The cells that a box meets, x fastest."""
        axes = zip(self.offset, self.chunk, box)
        x, y, z = (range((begin - at) // step, (end - 1 - at) // step + 1) for at, step, (begin, end) in axes)
        return [(i, j, k) for k, j, i in itertools.product(z, y, x)]

    def box_of(self, cell):
        """The box of a cell; the last one on an axis ends with the scale."""
        axes = zip(self.offset, self.size, self.chunk, cell)
        return [(offset + at * chunk, offset + min((at + 1) * chunk, size)) for offset, size, chunk, at in axes]

    def name(self, cell):
        return name_of(self.box_of(cell))

    def number(self, cell):
        """A cell's chunk id, the compressed Morton code: bits of x, y and z in turn, each as long as the grid has numbers that use it."""
        used = [at >> bit & 1 for bit in range(64) for count, at in zip(self.grid, cell) if 2**bit < count]
        return sum(bit << place for place, bit in enumerate(used))

    def place(self, cell):
        """The shard and the minishard of a cell."""
        return self.sharding.place(self.number(cell))

    def path_of(self, cell):
        return self.path(self.name(cell) if self.sharding is None else self.sharding.file(self.place(cell)[0]))

    def in_order(self, cells):
        """Cells in the order in which they are put: x fastest, or in shards by shard, minishard and id."""
        if self.sharding is None:
            return sorted(cells, key=lambda cell: cell[::-1])
        return sorted(cells, key=lambda cell: (*self.place(cell), self.number(cell)))

    # Chunks

    def shape(self, cell):
        size = tuple(end - begin for begin, end in self.box_of(cell))
        return segments.Shape(size, self.block, self.channels, self.width)

    def limit(self, cell):
        """
        The most bytes of a cell's chunk: of a raw one its length, and else a word for each channel, and 16 bytes for each padded
        voxel and channel.
        """
        if self.block is None:
            return voxels_in(self.box_of(cell)) * self.channels * self.width
        shape = self.shape(cell)
        return 4 * self.channels + 16 * shape.block_voxels() * len(shape.blocks()) * self.channels

    def spell(self, cell, raw):
        """A cell's chunk, by the bytes of its values."""
        return raw if self.block is None else segments.encode(self.shape(cell), raw)

    def decode(self, cell, chunk):
        """The bytes of the values of a cell's chunk, or its first fault."""
        if self.block is not None:
            return segments.decode(self.shape(cell), chunk)
        if len(chunk) != self.limit(cell):
            raise Damaged(f"chunk length {len(chunk)} wanted {self.limit(cell)}")
        return chunk

    # Files

    def files(self, chunks):
        """The files of chunks, each by its cell, in the order in which they are put."""
        if self.sharding is None:
            return {self.path(self.name(cell)): chunks[cell] for cell in self.in_order(chunks)}
        shards = files_of(self.sharding, {self.number(cell): chunk for cell, chunk in chunks.items()})
        return {self.path(name): shard for name, shard in shards.items()}

    def stored(self, files, cell):
        """
        The bytes of a cell's chunk, or None where it isn't there; raises a fault on the way. Of a file one byte more than the chunk
        may have is read.
        """
        content, limit = files.get(self.path_of(cell)), self.limit(cell)
        if content is None or self.sharding is None:
            return content and content[: limit + 1]
        return stored_in(self.sharding.minishard_bits, self.place(cell)[1], self.number(cell), limit, content)

    def read(self, files, cell):
        """The bytes of the values of a cell's chunk, or None where it isn't there; raises its fault, or one on the way."""
        chunk = self.stored(files, cell)
        return None if chunk is None else self.decode(cell, chunk)

    def chunks_after(self, writes):
        """The chunks of the cells that some write meets."""
        values, met = Values(self, writes), {cell for box, _ in writes for cell in self.cells_in(box)}
        return {cell: self.spell(cell, values.of(self.box_of(cell))) for cell in self.in_order(met)}

    def files_after(self, writes):
        """
        What writes leave of an empty scale: its files; the bytes of all objects in the order in which they are put, size by size, also
        those of one name; and how many cells of all sizes have a chunk.
        """
        files, put, cells = {}, [], 0
        for view in self.views:
            chunks = view.chunks_after(writes)
            new = view.files(chunks)
            files |= new
            put += new.values()
            cells += len(chunks)
        return files, put, cells


def line(length, *chunks, **fields):
    """A scale that is a line along x, in chunks of these lengths, or of one voxel."""
    first, *more = ([chunk, 1, 1] for chunk in chunks or (1,))
    return Volume([length, 1, 1], first, more=tuple(more), **fields)


def infos_of(*volumes):
    """The info documents of scales, by their paths; those of a data set are in one."""
    infos = {}
    for volume in volumes:
        info = json.loads(volume.info())
        known = infos.setdefault(f"{volume.dataset}/info", {**info, "scales": []})
        known["scales"] += info["scales"]
    return {path: json.dumps(info).encode() for path, info in infos.items()}


class Values:
    """The values of all voxels of a volume after writes, each a box and its bytes: the last one's, and 0 where none was written."""

    def __init__(self, volume, writes=()):
        self.volume = volume
        self.count = math.prod(volume.size)
        self.raw = bytearray(self.count * volume.channels * volume.width)
        for box, raw in writes:
            self.put(box, raw)

    def places(self, box, channels):
        """Where the values of each row of a box begin, channel by channel; and how many bytes a row has."""
        (x, y, z), (wide, high, _), width = self.volume.offset, self.volume.size, self.volume.width
        (begin, end), *others = box
        rows, planes = (range(first, last) for first, last in others)
        firsts = [begin - x + wide * (row - y + high * (plane - z)) for plane in planes for row in rows]
        return [width * (first + self.count * channel) for channel in range(channels) for first in firsts], width * (end - begin)

    def put(self, box, raw):
        begins, length = self.places(box, self.volume.channels)
        for number, begin in enumerate(begins):
            self.raw[begin : begin + length] = raw[number * length : (number + 1) * length]

    def of(self, box, channels=None):
        """The bytes of a box, of all channels or the first ones."""
        begins, length = self.places(box, self.volume.channels if channels is None else channels)
        return b"".join(self.raw[begin : begin + length] for begin in begins)

    def at(self, voxel, channel):
        (begin,), width = self.places([(at, at + 1) for at in voxel], 1)
        begin += width * self.count * channel
        return int.from_bytes(self.raw[begin : begin + width], "little")
