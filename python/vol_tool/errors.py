"""The errors of this package: each has a name, the line that says what is wrong, and the program's exit status where a program said it."""
from __future__ import annotations

import re


class VolToolError(Exception):
    """
    What went wrong.

    `line` is the program's line, or this package's own text; `status` is the program's exit status, or None where no program was run.
    """

    def __init__(self, line: str = "", status: int | None = None) -> None:
        super().__init__(line)
        self.line = line
        self.status = status

    def __str__(self) -> str:
        return self.line


class UsageError(VolToolError, ValueError):
    """What was asked for can't be said to the program: a word, a name, a number or an option is none."""


class BadInfo(VolToolError, ValueError):
    """The `info` of a data set is absent, no JSON, or has a member that isn't read."""


class NoScale(BadInfo, KeyError):
    """The `info` has no scale of this key."""


class OutsideScale(VolToolError, IndexError):
    """A box, or an index, that isn't inside the scale."""


class BadIndex(VolToolError, IndexError):
    """An index of another kind than numbers, slices, `...` and None, or one with too many parts."""


class TooLarge(VolToolError, ValueError):
    """More bytes, cells or padded voxels than one run of the program takes."""


class NotEmpty(VolToolError, FileExistsError):
    """A scale that was to be written for the first time holds objects already."""


class BadStream(VolToolError, ValueError):
    """The program refuses the stream of boxes that it was given."""


class UnlikeScales(VolToolError, ValueError):
    """An array and a scale, or two scales, that differ in size, offset, type or channels."""


class SeveralChunkSizes(VolToolError, ValueError):
    """The scale has several chunk sizes, which is written at once and isn't corrected."""


class BrokenOff(VolToolError, RuntimeError):
    """An earlier writing of this scale was broken off, and what to do is told."""


class Damaged(VolToolError):
    """A stored chunk, shard or index is damaged; the line says which, and how."""


class Conflict(Damaged):
    """The chunks of two chunk sizes of one scale hold different values."""


class StoreFault(VolToolError, OSError):
    """The system failed to read or to write a file of the data set, or the server of one didn't give what it was asked for."""


class StreamFault(VolToolError, OSError):
    """The system failed to hand values from or to the program."""


class PortFault(VolToolError, OSError):
    """A port is taken or may not be bound."""


class FetchFault(VolToolError, OSError):
    """A web server isn't there, says nothing, or answers with another thing than was asked for."""


class OutOfMemory(VolToolError, MemoryError):
    """There wasn't enough memory."""


class UnsupportedType(VolToolError, TypeError):
    """Values of a type that isn't stored; the text has the cast that would do."""


class UnreadableSource(VolToolError, OSError, ValueError):
    """A source that isn't there, or isn't of its kind."""


class MissingPackage(VolToolError, ImportError):
    """A package that isn't installed is needed; the text has its name, and that of the Debian package that brings it."""


class MissingProgram(VolToolError, FileNotFoundError):
    """One of the programs vol_tool, vol_fetch and vol_serve isn't found, or can't be built or run."""


# The error of a line, by its status and the text at its beginning; the first row that fits counts.
_BY_LINE: tuple[tuple[int, str, type[VolToolError]], ...] = (
    (2, r"info of .*: scale absent$", NoScale),
    (3, r"box .* outside ", OutsideScale),
    (3, r"folder not empty$", NotEmpty),
    (3, r"several chunk sizes$", SeveralChunkSizes),
    (3, r"differs ", UnlikeScales),
    (3, r"write \d+: outside scale$", OutsideScale),
    (3, r"(stream|write \d+): ", BadStream),
    (4, r"conflict ", Conflict),
)

_BY_STATUS: dict[int, type[VolToolError]] = {
    1: UsageError,
    2: BadInfo,
    3: TooLarge,
    4: Damaged,
    5: StoreFault,
    6: StreamFault,
    7: StreamFault,
    8: OutOfMemory,
    9: PortFault,
    125: MissingProgram,
}


def class_of(status: int, line: str) -> type[VolToolError]:
    """The class of the error that a status and a line of the program mean."""
    for wanted, begin, found in _BY_LINE:
        if status == wanted and re.match(begin, line):
            return found
    return _BY_STATUS.get(status, VolToolError)


def error_of(status: int, line: str) -> VolToolError:
    """The error that a status other than 0 and a line of the program mean."""
    text = line or (f"the program was ended by the signal {-status}" if status < 0 else f"the program ended with status {status}")
    return class_of(status, line)(text, status)
