"""A plain model of streams of writes: the writes that a stream has, or its first fault, after docs/statuses.md."""
import struct

from .boxes import voxels_in

MAGIC = b"PVW1"
MOST_WRITES = 65536
MOST_BYTES = 2**30


class Refused(Exception):
    """A fault of a stream, as it is told."""


class Stream:
    """A stream, and how much of it was taken."""

    def __init__(self, content):
        self.content, self.taken = content, 0

    def take(self, count, fault):
        """The next bytes; raises the fault where there are fewer."""
        piece = self.content[self.taken : self.taken + count]
        if len(piece) < count:
            raise Refused(fault)
        self.taken += count
        return piece


def box_in(volume, numbers, write):
    """The box of a write, by its begins and sizes."""
    begins, sizes = numbers[:3], numbers[3:]
    if 0 in sizes:
        raise Refused(f"write {write}: empty box")
    box = [(begin, begin + size) for begin, size in zip(begins, sizes)]
    if any(begin < first or last < end for (begin, end), (first, last) in zip(box, volume.whole)):
        raise Refused(f"write {write}: outside scale")
    return box


def writes_in(volume, content):
    """The writes of a stream, each a box and its bytes."""
    stream, writes, total = Stream(content), [], 0
    if stream.take(4, "stream: bad magic") != MAGIC:
        raise Refused("stream: bad magic")
    (count,) = struct.unpack("<I", stream.take(4, "write 0: truncated"))
    if count > MOST_WRITES:
        raise Refused(f"stream: too many writes {count}")
    for write in range(count):
        truncated = f"write {write}: truncated"
        box = box_in(volume, struct.unpack("<3q3Q", stream.take(48, truncated)), write)
        length = voxels_in(box) * volume.channels * volume.width
        total += length
        if total > MOST_BYTES:
            raise Refused(f"write {write}: too large")
        writes.append((box, stream.take(length, truncated)))
    if stream.taken < len(content):
        raise Refused("stream: trailing bytes")
    return writes
