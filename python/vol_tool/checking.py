"""What is stored of a scale, and how large it is."""
from __future__ import annotations

import os
import re
from typing import Any, Iterator, NamedTuple

from . import programs
from .boxes import box_of, box_text
from .errors import BadInfo, Damaged, StreamFault, TooLarge
from .folders import files_in
from .infos import ENCODINGS, WIDTHS, Info, ScaleInfo
from .programs import PathText, Place, check_key
from .stores import store_of


class Cells(NamedTuple):
    """How many cells of the grid there are, and of how many of them a chunk is stored, or none."""

    cells: int
    stored: int
    absent: int


def verify(dataset: PathText, key: str, box: Any = None) -> Cells:
    """
    Judges the chunks of a scale of a folder that a box meets, or all, and their indexes, and counts them.

    `box` is a text `[x0:x1,y0:y1,z0:z1]` or three pairs, of x, y and z. A chunk under another name is absent, and no fault. Raises
    Damaged or Conflict at the first chunk or index with which something is wrong, and the other errors of the program.
    """
    text = None if box is None or (isinstance(box, str) and box == "all") else box_text(box_of(box))
    line = programs.verify(dataset, key, text)
    found = re.fullmatch(r"cells (\d+) stored (\d+) absent (\d+)", line)
    if not found:
        raise StreamFault(f"the program printed {line!r}")
    return Cells(int(found[1]), int(found[2]), int(found[3]))


class Files(NamedTuple):
    """How many files there are, and how many bytes they have together."""

    number: int
    bytes: int


def files_of(folder: PathText) -> Files:
    """The files below a folder that are objects."""
    sizes = [os.stat(path).st_size for path in files_in(folder)]
    return Files(len(sizes), sum(sizes))


def size_in_words(count: int) -> str:
    """A number of bytes in the unit that suits it."""
    size = float(count)
    for unit in ("B", "KiB", "MiB", "GiB"):
        if size < 1024:
            return f"{size:.0f} {unit}" if unit == "B" else f"{size:.1f} {unit}"
        size /= 1024
    return f"{size:.1f} TiB"


# What is told of a volume

INNER = ("data_encoding", "minishard_index_encoding")
MOST_CHUNK_SIZES = 8


def unread_members(info: Info, scale: ScaleInfo) -> Iterator[tuple[str, Any]]:
    """The members for which a scale is refused, with their values."""
    sharding = scale.member.get("sharding")
    if info.data_type not in WIDTHS:
        yield "data_type", info.data_type
    if len(scale.chunk_sizes) > (1 if sharding else MOST_CHUNK_SIZES):
        yield "chunk_sizes", scale.member["chunk_sizes"]
    if scale.encoding not in ENCODINGS:
        yield "encoding", scale.encoding
    for member in INNER:
        inner = sharding.get(member, "raw") if isinstance(sharding, dict) else "raw"
        if inner != "raw":
            yield member, inner


def describe(info: Info) -> Iterator[str]:
    """A line on each scale: what it is, and whether it can be read, as far as its info tells."""
    for key in info.keys:
        try:
            scale = info.scale(key)
        except BadInfo as why:
            yield f"{key}: not read: {why}"
            continue
        unread = ", ".join(f"{member} {value}" for member, value in unread_members(info, scale))
        words = [key, "x".join(map(str, scale.size)), info.data_type, scale.encoding, *(["in shards"] if scale.is_sharded else [])]
        yield f"{' '.join(words)}: {f'not read: {unread}' if unread else 'can be read'}"


def _layout_text(scale: ScaleInfo) -> str:
    chunks = ", ".join("x".join(map(str, chunk)) for chunk in scale.chunk_sizes)
    return f"{scale.encoding}, chunks {chunks}{' in shards' if scale.is_sharded else ''}"


def _tell_stored(place: Place, key: str) -> tuple[str, int]:
    """What is stored of a scale of a folder, by verify; and the status of what is wrong with it."""
    files = files_of(place.path / key)
    what = f"{files.number} files of {size_in_words(files.bytes)}"
    try:
        found = verify(place.path, key)
    except (Damaged, TooLarge) as why:
        return f"{what}; {why.line}", (why.status or 0) if isinstance(why, Damaged) else 0
    return f"{found.stored} of {found.cells} cells stored, {what}", 0


def tell_all(dataset: PathText, key: str | None, is_quick: bool) -> Iterator[tuple[str, int]]:
    """
    Lines on a volume and its scales, or one of them, each with the status of what is wrong with it, or 0.

    Of a folder they say what is stored, and how much, unless they are to be quick; of a link whether a scale can be read.
    """
    store = store_of(dataset)
    info = store.info()
    if store.place is None:
        yield from ((line, 0) for line in describe(info) if key in (None, line.split(" ")[0]))
        return
    scales = [info.scale(one) for one in (info.keys if key is None else [check_key(key)])]
    yield f"{store.name}: {info.kind} of {info.data_type}, {info.channels} channel{'s' if info.channels > 1 else ''}", 0
    for scale in scales:
        sides = "x".join(map(str, scale.size))
        lengths = f"{sides} from {','.join(map(str, scale.offset))}, {','.join(map(str, scale.resolution))} nm"
        stored, status = ("", 0) if is_quick else _tell_stored(store.place, scale.key)
        yield f"{scale.key}: {lengths}, {_layout_text(scale)}{'; ' if stored else ''}{stored}", status
