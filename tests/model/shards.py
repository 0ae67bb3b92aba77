"""A plain model of sharded scales: chunk ids, places and shards (precomputed volume format, sharded format)."""
import dataclasses
import math
import struct

from .faults import Damaged
from .murmur import hash8

ROW = struct.Struct("<Q")


@dataclasses.dataclass(frozen=True)
class Sharding:
    preshift: int = 0
    murmur: bool = False
    minishard_bits: int = 0
    shard_bits: int = 0

    def member(self):
        return {
            "@type": "neuroglancer_uint64_sharded_v1", "hash": "murmurhash3_x86_128" if self.murmur else "identity",
            "preshift_bits": self.preshift, "minishard_bits": self.minishard_bits, "shard_bits": self.shard_bits,
        }

    def place(self, number):
        """The shard and the minishard of a chunk id."""
        shifted = number >> self.preshift
        hashed = hash8(shifted) if self.murmur else shifted
        return (hashed >> self.minishard_bits) % 2**self.shard_bits, hashed % 2**self.minishard_bits

    def file(self, shard):
        return f"{shard:0{max(1, math.ceil(self.shard_bits / 4))}x}.shard"


def shard_of(minishard_bits, chunks):
    """
    The bytes of a shard of chunks, each a minishard, an id and its bytes: the entries, and for each minishard its chunks by id
    and then their index.
    """
    placed, entries, behind = {}, [], b""
    for minishard, *row in sorted(chunks):
        placed.setdefault(minishard, []).append(row)
    for minishard in range(2**minishard_bits):
        rows = placed.get(minishard)
        if rows is None:
            entries += [0, 0]
            continue
        start, ids = len(behind), [number for number, _ in rows]
        behind += b"".join(chunk for _, chunk in rows)
        deltas = [number - before for before, number in zip([0, *ids], ids)]
        starts = [start] + [0] * (len(rows) - 1)
        entries += [len(behind), len(behind) + 24 * len(rows)]
        behind += b"".join(map(ROW.pack, deltas + starts + [len(chunk) for _, chunk in rows]))
    return b"".join(map(ROW.pack, entries)) + behind


def files_of(sharding, chunks):
    """The files of chunks, by their ids: the bytes of each shard by the last part of its name, in the order of the shards."""
    shards = {}
    for number, chunk in chunks.items():
        shard, minishard = sharding.place(number)
        shards.setdefault(shard, []).append((minishard, number, chunk))
    return {sharding.file(shard): shard_of(sharding.minishard_bits, shards[shard]) for shard in sorted(shards)}


def number_at(shard, place):
    return ROW.unpack_from(shard, place)[0]


def rows_of(minishard_bits, minishard, shard):
    """Where the rows of a minishard's index begin in its shard, and how many there are."""
    base = 16 << minishard_bits
    if len(shard) < 16 * minishard + 16:
        raise Damaged("shard short index")
    start, end = number_at(shard, 16 * minishard), number_at(shard, 16 * minishard + 8)
    if start == end:
        return base, 0
    if end < start:
        raise Damaged("shard bad range")
    if (end - start) % 24:
        raise Damaged(f"shard bad length {end - start}")
    rows = (end - start) // 24
    if rows > 2**22:
        raise Damaged(f"shard too many rows {rows}")
    if len(shard) < base + end:
        raise Damaged("shard short minishard")
    return base + start, rows


def walk_rows(shard, begin, rows):
    """The id, the start and the size of each row of an index, up to the first that is wrong."""
    number = end = 0
    for row in range(rows):
        delta, gap, size = (number_at(shard, begin + 8 * (column * rows + row)) for column in range(3))
        number += delta
        if (row > 0 and delta == 0) or number >= 2**64:
            raise Damaged(f"index id {row}")
        start, end = end + gap, end + gap + size
        if end >= 2**64:
            raise Damaged(f"index start {row}")
        yield number, start, size


def stored_in(minishard_bits, minishard, wanted, limit, shard):
    """The bytes of a chunk of at most so many bytes, or None where it is absent."""
    rows = walk_rows(shard, *rows_of(minishard_bits, minishard, shard))
    # rows up to the first whose id isn't below
    number, start, size = next((row for row in rows if row[0] >= wanted), (None, None, None))
    if number != wanted:
        return None
    begin = (16 << minishard_bits) + start
    if size > limit:
        raise Damaged(f"chunk too long {size} limit {limit}")
    if begin + size > len(shard):
        raise Damaged("shard short chunk")
    return shard[begin : begin + size]
