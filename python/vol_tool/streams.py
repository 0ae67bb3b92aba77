"""Streams of boxes with their values, as `write` and `update` of the program read them."""
from __future__ import annotations

import re
import struct
import subprocess
from typing import TYPE_CHECKING, Any, Iterable, NamedTuple

from .boxes import Box, sides_of
from .errors import StreamFault
from .programs import Place, Run

if TYPE_CHECKING:
    import numpy

MAGIC = b"PVW1"

# What the program reads in a stream at most.
MOST_WRITES = 1 << 16


class Stored(NamedTuple):
    """How many objects were put, and of how many cells the chunks."""

    objects: int
    cells: int

    def and_more(self, more: Stored) -> Stored:
        return Stored(self.objects + more.objects, self.cells + more.cells)


def read_stored(line: str) -> Stored:
    """What the program's line `objects N cells M` tells."""
    found = re.fullmatch(r"objects (\d+) cells (\d+)", line)
    if not found:
        raise StreamFault(f"the program printed {line!r}")
    return Stored(int(found[1]), int(found[2]))


def _put(pipe: Any, content: Any) -> None:
    """Writes all of some bytes into a pipe that isn't buffered."""
    rest = memoryview(content).cast("B")
    while rest:
        rest = rest[pipe.write(rest) :]


def _feed(pipe: Any, count: int, writes: Iterable[tuple[Box, numpy.ndarray]]) -> None:
    _put(pipe, MAGIC + struct.pack("<I", count))
    for box, values in writes:
        _put(pipe, struct.pack("<3q3Q", *(begin for begin, _ in box), *sides_of(box)))
        _put(pipe, values)


def send(
    command: str, place: Place, key: str, count: int, writes: Iterable[tuple[Box, numpy.ndarray]], workers: int
) -> Stored:  # fmt: skip
    """
    Stores boxes by the program's `write` or `update`.

    `writes` gives so many boxes, in voxels of the scale, each with its values: an array without gaps with the axes channel, z, y, x, of
    the scale's type. Raises the program's error.
    """
    words = [command, place.name, key, f"--workers={workers}"]
    with Run("vol_tool", words, place.folder, stdin=subprocess.PIPE, stdout=subprocess.PIPE) as run:
        try:
            _feed(run.tool.stdin, count, writes)
        except BrokenPipeError:
            pass  # the program says why it didn't read on
        run.tool.stdin.close()
        line = run.tool.stdout.read()
        run.end()
    return read_stored(line.decode(errors="replace").strip())
