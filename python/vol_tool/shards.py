"""In which shard of a scale the chunk of a cell is (sharded format: chunk ids, sharding specification)."""
from __future__ import annotations

from typing import Sequence

from .boxes import Box
from .errors import BadInfo
from .infos import ScaleInfo

_WORD = 0xFFFFFFFF


def chunk_id(grid: Sequence[int], cell: Sequence[int]) -> int:
    """The compressed Morton code of a cell's numbers: their bits of x, y and z in turn, as long as the grid has numbers that use them."""
    found = place = 0
    for bit in range(max(grid).bit_length()):
        for count, number in zip(grid, cell):
            if 1 << bit < count:
                found |= (number >> bit & 1) << place
                place += 1
    return found


def _turn(word: int, bits: int) -> int:
    return (word << bits | word >> (32 - bits)) & _WORD


def _finish(word: int) -> int:
    """The last step of MurmurHash3 for 32 bits."""
    word = (word ^ word >> 16) * 0x85EBCA6B & _WORD
    word = (word ^ word >> 13) * 0xC2B2AE35 & _WORD
    return word ^ word >> 16


def _mix(lanes: Sequence[int]) -> list[int]:
    """Four lanes, of which the first gains the others, and then each other one the first."""
    first = sum(lanes) & _WORD
    return [first, *((lane + first) & _WORD for lane in lanes[1:])]


def murmur(number: int) -> int:
    """The first eight bytes of MurmurHash3_x86_128, with the seed 0, of the eight bytes of a number, the lowest first."""
    low, high = number & _WORD, number >> 32
    one = _turn(low * 0x239B961B & _WORD, 15) * 0xAB0E9789 & _WORD
    two = _turn(high * 0xAB0E9789 & _WORD, 16) * 0x38B34AE5 & _WORD
    lowest, second, *_ = _mix([_finish(lane) for lane in _mix([lane ^ 8 for lane in (one, two, 0, 0)])])
    return second << 32 | lowest


def shard_name(scale: ScaleInfo, cell: Box) -> str:
    """The name of the shard that has, or would have, the chunk of a cell, which is given as a box. Raises BadInfo without a sharding."""
    sharding = scale.sharding
    if sharding is None:
        raise BadInfo(f"the sharding of the scale {scale.key} isn't read")
    numbers = [(begin - first) // step for (begin, _), first, step in zip(cell, scale.offset, scale.chunk)]
    shifted = chunk_id(scale.grid(), numbers) >> sharding.preshift_bits
    hashed = shifted if sharding.hash == "identity" else murmur(shifted)
    shard = hashed >> sharding.minishard_bits & (1 << sharding.shard_bits) - 1
    return f"{shard:0{max(1, -(-sharding.shard_bits // 4))}x}.shard"
