"""Scales that are made of others: the coarser ones of a pyramid, and one of the same voxels in another layout."""
from __future__ import annotations

import contextlib
import dataclasses
import math
import os
import pathlib
import subprocess
from typing import Any, Callable

from .boxes import Three
from .errors import BrokenOff, NotEmpty, SeveralChunkSizes, UsageError
from .folders import files_in, is_empty, put_whole
from .infos import Info, Layout, ScaleInfo, read_scale, three_lengths
from .programs import PathText, Place, Run, check_key, check_workers, place_of
from .progress import Bar, bar
from .streams import Stored, read_stored

METHODS = ("mode", "mean")
MOST_LEVELS = 40

# How long it takes until progress is told anew, in seconds.
PAUSE = 0.5


def _read_info(dataset: PathText) -> tuple[Place, Info]:
    place = place_of(dataset)
    return place, Info.read(place.path / "info", f"{os.fspath(dataset)}/info")


def add(
    dataset: PathText, key: str, key2: str, *, encoding: str = "raw", chunk: Any = (64, 64, 64), block: Any = (8, 8, 8),
    sharding: Any = None,
) -> None:  # fmt: skip
    """
    Adds to the info a scale `key2` of the same voxels as `key`, in another layout, and stores nothing: `vol_tool reshard` fills it.

    `chunk` and `block` are voxels on x, y and z, and `sharding` is (preshift_bits, "identity" or "murmur", minishard_bits, shard_bits).
    Raises NoScale, UsageError where there is a scale `key2` already, TooLarge and UnsupportedType.
    """
    layout = Layout.of(chunk, encoding, block, sharding)
    place, info = _read_info(dataset)
    source = info.scale(check_key(key))
    if check_key(key2) in info.keys:
        raise UsageError(f"{info.name} has a scale {key2} already")
    info.width  # values that aren't stored are refused
    layout.check(source.size, info.channels, info.data_type)
    kept = {name: value for name, value in source.member.items() if name not in ("sharding", "compressed_segmentation_block_size")}
    put_whole(place.path / "info", info.with_scale({**kept, "key": key2, **layout.members()}).content())


# A pyramid


def _half_of(name: str, last: ScaleInfo, first: ScaleInfo, count: int) -> ScaleInfo:
    """The scale that is half of the last one, as the one after so many from the first on; the first one's key may be its resolution."""
    resolution = three_lengths([2 * length for length in last.resolution])
    is_named_so = first.key == "_".join(map(str, three_lengths(first.resolution)))
    member = {
        **last.member,
        "key": "_".join(map(str, resolution)) if is_named_so else f"{first.key}_{2 ** (count + 1)}",
        "size": [(side + 1) // 2 for side in last.size],
        "voxel_offset": [at // 2 for at in last.offset],
        "chunk_sizes": [list(last.chunk)],
        "resolution": list(resolution),
    }
    return read_scale(name, member)


def _known_as(info: Info, scale: ScaleInfo) -> ScaleInfo:
    """A scale that is half of another, or that of its key in the info."""
    if scale.key not in info.keys:
        return scale
    other = info.scale(scale.key)
    if (other.size, other.offset) != (scale.size, scale.offset):
        begin = f"{list(scale.size)} voxels from {list(scale.offset)} on"
        raise UsageError(f"there is a scale {scale.key} already, and not with {begin}")
    return other


def _check_even(scale: ScaleInfo, count: int) -> None:
    if any(at % 2 for at in scale.offset):
        most = f": at most {count} levels can be made" if count else ""
        raise UsageError(f"the scale {scale.key} has the voxel_offset {list(scale.offset)}, and only even ones are halved{most}")


def _halves_of(info: Info, scale: ScaleInfo, count: int | None) -> list[ScaleInfo]:
    """So many coarser scales, each half of the one before, or as many as it takes until one has one chunk; at most until one is a voxel."""
    found: list[ScaleInfo] = []
    last = scale
    while max(last.size) > 1 and len(found) != count:
        if count is None and all(side <= chunk for side, chunk in zip(last.size, last.chunk)):
            break
        _check_even(last, len(found))
        last = _known_as(info, _half_of(info.name, last, scale, len(found)))
        found.append(last)
    return found


@dataclasses.dataclass
class Level:
    """
    A coarser scale, which is made of the one before. A file in its folder that is no object says meanwhile that it isn't whole.
    `is_there` is whether the scale is in the info, and `is_made` whether its folder has objects too.
    """

    place: Place
    before: str
    scale: ScaleInfo
    is_there: bool
    is_made: bool

    @classmethod
    def of(cls, place: Place, info: Info, before: str, scale: ScaleInfo) -> Level:
        """Raises BrokenOff, SeveralChunkSizes and NotEmpty for a scale that isn't made as it stands."""
        folder = place.path / check_key(scale.key)
        level = cls(place, before, scale, scale.key in info.keys, not is_empty(folder))
        if level.note.exists():
            raise BrokenOff(f"a pyramid was broken off, and {folder} isn't whole: remove this folder first")
        if len(scale.chunk_sizes) > 1 and not level.is_made:
            text = "has several chunk sizes, and isn't made so: leave one of them"
            raise SeveralChunkSizes(f"the scale {scale.key} of {info.name} {text}")
        if level.is_made and not level.is_there:
            raise NotEmpty(f"{folder} has files, and {info.name} has no such scale: remove this folder first")
        return level

    @property
    def folder(self) -> pathlib.Path:
        return self.place.path / self.scale.key

    @property
    def note(self) -> pathlib.Path:
        return self.folder / "pyramid.part"

    @property
    def info(self) -> pathlib.Path:
        return self.place.path / "info"

    def most_files(self) -> int:
        cells = math.prod(self.scale.grid())
        return min(cells, 1 << self.scale.sharding.shard_bits) if self.scale.sharding else cells

    def _add(self) -> None:
        """Adds the scale to the info, behind those whose voxels aren't larger."""
        info = Info.read(self.info)
        volumes = [math.prod(scale["resolution"]) for scale in info.document["scales"]]
        places = [place for place, volume in enumerate(volumes) if volume <= math.prod(self.scale.resolution)]
        put_whole(self.info, info.with_scale(self.scale.member, max(places, default=-1) + 1).content())

    def _wait(self, run: Run, shown: Bar) -> None:
        """Waits for the program, and tells meanwhile how many files there are."""
        told = 0
        while run.tool.poll() is None:
            with contextlib.suppress(subprocess.TimeoutExpired):
                run.tool.wait(PAUSE)
            count = sum(1 for _ in files_in(self.folder))
            shown.update(count - told)
            told = count

    def _run(self, method: str, workers: int, progress: bool | None) -> Stored:
        words = ["downsample", self.place.name, self.before, self.scale.key, f"--method={method}", f"--workers={workers}"]
        with contextlib.closing(bar(self.scale.key, self.most_files(), unit=" files", progress=progress)) as shown:
            with Run("vol_tool", words, self.place.folder, stdout=subprocess.PIPE) as run:
                self._wait(run, shown)
                line = run.tool.stdout.read().decode().strip()
                run.end()
        return read_stored(line)

    def make(self, method: str, workers: int, progress: bool | None) -> Stored:
        """Makes the scale. Where that fails, or is broken off, the info is put back."""
        before = self.info.read_bytes()
        self.folder.mkdir(parents=True, exist_ok=True)
        self.note.touch()
        is_whole = False
        try:
            if not self.is_there:
                self._add()
            found = self._run(method, workers, progress)
            is_whole = True
            return found
        finally:
            if not is_whole and not self.is_there:
                put_whole(self.info, before)
            if is_whole or is_empty(self.folder):
                self.note.unlink(missing_ok=True)
                with contextlib.suppress(OSError):
                    self.folder.rmdir()


def _method_for(info: Info, scale: ScaleInfo, method: str | None) -> str:
    """Labels want mode, and images mean; raises UsageError for a method that is none."""
    if method is not None and method not in METHODS:
        raise UsageError(f"method is one of {', '.join(METHODS)}, and not {method}")
    return method or ("mode" if info.has_labels(scale) else "mean")


def _check_levels(levels: Any) -> int | None:
    if levels is None or (isinstance(levels, int) and 1 <= levels <= MOST_LEVELS):
        return levels
    raise UsageError(f"levels is a number from 1 to {MOST_LEVELS}, and not {levels}")


def pyramid(
    dataset: PathText,
    key: str,
    *,
    levels: int | None = None,
    method: str | None = None,
    workers: int = 1,
    progress: bool | None = None,
    tell: Callable[[Level, str, Stored], object] | None = None,
) -> list[str]:
    """
    Adds the coarser scales of one to the info and makes them, each half as large on each axis as the one before, in its layout.

    There are as many as `levels` says, or until one has one chunk; those that are there already stay. A voxel gets of the eight below it
    by `method` the value that occurs most often (`mode`, for labels) or the mean (`mean`, for images), rounded down; where none is named
    it is `mode` for a segmentation. Gives the keys of those that were made. `tell` is called with each, and what was stored; `progress`
    is as for vol_tool.progress.bar.

    Raises NoScale; BrokenOff where an earlier call was broken off; NotEmpty; SeveralChunkSizes; UsageError where an offset is odd, or an
    argument is none; Damaged, and the other errors of the program.
    """
    place, info = _read_info(dataset)
    scale = info.scale(check_key(key))
    chosen, count = _method_for(info, scale, method), _check_levels(levels)
    check_workers(workers)
    scales = _halves_of(info, scale, count)
    found = [Level.of(place, info, before.key, one) for before, one in zip([scale, *scales], scales)]
    made = [level for level in found if not level.is_made]
    for level in made:
        stored = level.make(chosen, workers, progress)
        if tell is not None:
            tell(level, chosen, stored)
    return [level.scale.key for level in made]


def size_text(size: Three) -> str:
    """A size in words, as 64x64x32."""
    return "x".join(map(str, size))
