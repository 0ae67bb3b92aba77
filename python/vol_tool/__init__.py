"""
Voxel volumes in the Neuroglancer precomputed format, as arrays that stay where they are.

    import vol_tool

    vol_tool.write("cells", "8_8_40", labels, resolution=(8, 8, 40), encoding="compressed_segmentation")
    cells = vol_tool.open("cells")["8_8_40"]
    box = cells[18:22, 50:80, 40:70]

`open` gives a Volume, a mapping of keys to Scales, of a folder, a server or a link. A Scale has numpy's indexing; dask and napari take it
as it is. `write` stores an array, `create` adds a scale that is empty, `add` one in another layout, `pyramid` the coarser ones, `verify`
judges what is stored, and `fetch` copies what a link has. Arrays have the axes z, y, x unless others are named; what has three numbers,
as a resolution, an offset or a chunk size, is in the order x, y, z.

What goes wrong is a VolToolError, with the program's `line` and `status`.

numpy is imported when it is first needed, and so is all else.
"""
from __future__ import annotations

import importlib
from typing import TYPE_CHECKING, Any

from .errors import (
    BadIndex, BadInfo, BadStream, BrokenOff, Conflict, Damaged, FetchFault, MissingPackage, MissingProgram, NoScale, NotEmpty, OutOfMemory,
    OutsideScale, PortFault, SeveralChunkSizes, StoreFault, StreamFault, TooLarge, UnlikeScales, UnreadableSource, UnsupportedType,
    UsageError, VolToolError,
)  # fmt: skip

if TYPE_CHECKING:
    from .arrays import Scale, Volume, read
    from .arrays import open_volume as open
    from .checking import Cells, verify
    from .fetching import fetch
    from .pyramids import add, pyramid
    from .writing import create, write

__version__ = "1.0.0"

# The kit that proves the programs: what `rt version` says.
__kit__ = "rattle-kit-13b logic dac8208d650f15bf"

# Where each name is, which is imported when it is first asked for.
_PLACES = {
    "Cells": ("checking", "Cells"),
    "Scale": ("arrays", "Scale"),
    "Volume": ("arrays", "Volume"),
    "add": ("pyramids", "add"),
    "create": ("writing", "create"),
    "fetch": ("fetching", "fetch"),
    "open": ("arrays", "open_volume"),
    "pyramid": ("pyramids", "pyramid"),
    "read": ("arrays", "read"),
    "verify": ("checking", "verify"),
    "write": ("writing", "write"),
}

__all__ = [
    "BadIndex", "BadInfo", "BadStream", "BrokenOff", "Cells", "Conflict", "Damaged", "FetchFault", "MissingPackage", "MissingProgram",
    "NoScale", "NotEmpty", "OutOfMemory", "OutsideScale", "PortFault", "Scale", "SeveralChunkSizes", "StoreFault", "StreamFault",
    "TooLarge", "UnlikeScales", "UnreadableSource", "UnsupportedType", "UsageError", "VolToolError", "Volume", "add", "create", "fetch",
    "open", "pyramid", "read", "verify", "write",
]  # fmt: skip


def __getattr__(name: str) -> Any:
    if name not in _PLACES:
        raise AttributeError(f"module {__name__!r} has no attribute {name!r}")
    module, there = _PLACES[name]
    found = getattr(importlib.import_module(f"{__name__}.{module}"), there)
    globals()[name] = found
    return found


def __dir__() -> list[str]:
    return sorted({*globals(), *__all__})
