"""Arrays that are put into scales, slab by slab, and values that are assigned to boxes of them."""
from __future__ import annotations

import contextlib
import dataclasses
import json
import os
import pathlib
from typing import Any, Iterator

import numpy

from .arrays import Scale, open_scale
from .boxes import Box, Three, count_voxels, is_inside
from .errors import BrokenOff, MissingProgram, NoScale, OutsideScale, SeveralChunkSizes, TooLarge, UnlikeScales, UsageError, VolToolError
from .folders import put_whole
from .infos import MOST_BYTES, MOST_OFFSET, Info, Layout, ScaleInfo, new_info, read_scale, scale_member, three_between, three_lengths
from .programs import PathText, Place, check_key, check_workers, place_of
from .progress import Bar, bar
from .slabs import LEAST_MEMORY, Values, most_of_slab, pieces_of, slabs_of
from .streams import Stored, send
from .values import check_type

MEMORY = 400 << 20

# Statuses after which nothing is stored: the program's refusals, and that of a checkout where the program can't be built.
REFUSALS = (1, 2, 3, 125)


# The info of a data set that is written


@dataclasses.dataclass
class Target:
    """A scale that is written: where it is, the info with it, and whether it was there already."""

    place: Place
    name: str
    info: Info
    scale: ScaleInfo
    is_there: bool
    before: bytes | None = None

    @property
    def path(self) -> pathlib.Path:
        return self.place.path / "info"

    @property
    def folder(self) -> pathlib.Path:
        return self.place.path / self.scale.key

    def write_info(self) -> None:
        """Adds the scale to the info, where it isn't there."""
        if not self.is_there:
            self.before = self.path.read_bytes() if self.path.exists() else None
            put_whole(self.path, self.info.content())

    def put_back(self) -> None:
        """The info of before, or none where there was none: a scale of which nothing is stored would read as zeros."""
        if self.is_there:
            return
        if self.before is None:
            self.path.unlink()
        else:
            put_whole(self.path, self.before)


def _check_alike(info: Info, data_type: str, channels: int) -> None:
    """Raises UnlikeScales where an array has another type, or other channels, than a volume."""
    for member, found, wanted in ("data_type", info.data_type, data_type), ("num_channels", info.channels, channels):
        if found != wanted:
            raise UnlikeScales(f"{info.name} has the {member} {found}, and the array has {wanted}")


def _info_for(place: Place, name: str, data_type: str, channels: int, encoding: str) -> Info:
    """The info of a data set for values of this type, or a new one; raises UnlikeScales where it has another type or other channels."""
    path = place.path / "info"
    if not path.exists():
        return new_info(name, data_type, channels, encoding == "compressed_segmentation")
    info = Info.read(path, name)
    _check_alike(info, data_type, channels)
    return info


def _known_target(dataset: PathText, key: str, values: Values) -> Target:
    """The scale of the info that an array is put over; raises NoScale and BadInfo where there is none."""
    place, name = place_of(dataset), f"{os.fspath(dataset)}/info"
    info = Info.read(place.path / "info", name)
    _check_alike(info, values.data_type, values.channels)
    return Target(place, name, info, info.scale(check_key(key)), True)


def _target_of(dataset: PathText, key: str, values: Values, resolution: Any, offset: Any, layout: Layout) -> Target:
    """The scale that a whole array is put into: that of the info, or a new one, which needs a resolution."""
    place, name = place_of(dataset), f"{os.fspath(dataset)}/info"
    info = _info_for(place, name, values.data_type, values.channels, layout.encoding)
    with contextlib.suppress(NoScale):
        return Target(place, name, info, info.scale(check_key(key)), True)
    if resolution is None:
        text = f"there is no scale {key} yet: how long a voxel is has to be named, as resolution (8, 8, 40) in nanometres"
        raise UsageError(text)
    layout.check(values.size, values.channels, values.data_type)
    first = three_between("offset", offset, -MOST_OFFSET, MOST_OFFSET)
    member = scale_member(key, values.size, first, three_lengths(resolution), layout)
    return Target(place, name, info.with_scale(member), read_scale(name, member), False)


def _check_size(target: Target, values: Values) -> None:
    """Raises what an array doesn't fit into."""
    scale = target.scale
    if scale.size != values.size:
        raise UnlikeScales(f"the scale {scale.key} of {target.name} has the size {scale.size}, and the array has {values.size} on x, y, z")
    if len(scale.chunk_sizes) > 1 and values.bytes > MOST_BYTES:
        text = f"at most {MOST_BYTES} bytes, and this one has {values.bytes}: leave one size in the info"
        raise TooLarge(f"the scale {scale.key} of {target.name} has several chunk sizes, so its array has {text}")


def _check_place(target: Target, values: Values, at: Three) -> None:
    """Raises what can't be put over a scale's values."""
    scale = target.scale
    if not is_inside([(begin, begin + side) for begin, side in zip(at, values.size)], scale.box):
        raise OutsideScale(f"the array doesn't lie in the scale {scale.key} of {target.name}, with its first voxel at {at}")
    if len(scale.chunk_sizes) > 1:
        text = "and nothing is put over it: remove its folder, and put the whole array"
        raise SeveralChunkSizes(f"the scale {scale.key} of {target.name} has several chunk sizes, {text}")


# An array that is put


@dataclasses.dataclass
class Note:
    """
    How many slabs of an array are stored, in a file of the scale's folder that is no object, so that another try can go on. Where an
    array goes in at once it can't.
    """

    path: pathlib.Path
    kind: dict[str, Any]

    def read(self, resume: bool, is_once: bool) -> dict[str, Any] | None:
        """What an earlier try that was broken off noted, or None where there was none; raises BrokenOff."""
        if not self.path.exists():
            return None
        if is_once or not resume:
            how = "" if is_once else "resume goes on, or "
            raise BrokenOff(f"a put into {self.path.parent} was broken off: {how}remove this folder first")
        try:
            noted = json.loads(self.path.read_text())
            if {member: noted[member] for member in self.kind} == self.kind and noted["done"] >= 0 and noted["most"] > 0:
                return noted
        except (ValueError, TypeError, KeyError):
            pass
        raise BrokenOff(f"another array than this one was put into {self.path.parent}, and broken off: remove this folder first")

    def write(self, most: int, done: int) -> None:
        put_whole(self.path, json.dumps({**self.kind, "most": most, "done": done}).encode())

    def forget(self) -> None:
        """Removes what is noted, and the scale's folder where that has nothing else."""
        self.path.unlink(missing_ok=True)
        with contextlib.suppress(OSError):
            self.path.parent.rmdir()


@dataclasses.dataclass
class Job:
    """An array that is put into a scale. `stands` is whether some of it may be stored."""

    values: Values
    target: Target
    begin: Three
    workers: int
    most: int
    note: Note | None
    stands: bool = False
    done: int = 0
    stored: Stored = Stored(0, 0)

    @property
    def is_once(self) -> bool:
        return len(self.target.scale.chunk_sizes) > 1

    def begin_at(self, resume: bool) -> None:
        """Where an earlier try was, that is gone on with."""
        noted = self.note.read(resume, self.is_once) if self.note else None
        if noted is not None:
            self.stands, self.most, self.done = True, noted["most"], noted["done"]

    def slabs(self) -> list[Box]:
        return slabs_of(self.values, self.target.scale, self.begin, MOST_BYTES if self.is_once else self.most)

    def _writes(self, pieces: list[Box], shown: Bar) -> Iterator[tuple[Box, numpy.ndarray]]:
        for piece in pieces:
            x, y, z = ((first + at, last + at) for (first, last), at in zip(piece, self.begin))
            yield (x, y, z), self.values.take(piece)
            shown.update(count_voxels(piece) * self.values.voxel_bytes)

    def _put(self, slab: Box, shown: Bar) -> None:
        pieces = pieces_of(self.values, slab, self.begin)
        is_new = not self.stands
        command = "write" if is_new else "update"
        self.stands = True
        try:
            writes = self._writes(pieces, shown)
            found = send(command, self.target.place, self.target.scale.key, len(pieces), writes, self.workers)
        except VolToolError as why:
            self.stands = not (is_new and (why.status in REFUSALS or isinstance(why, MissingProgram)))
            raise
        self.stored = self.stored.and_more(found)

    def run(self, progress: bool | None) -> None:
        """Puts the slabs that are left."""
        slabs = self.slabs()
        left = slabs[self.done :]
        done = sum(count_voxels(slab) for slab in slabs[: self.done]) * self.values.voxel_bytes
        with contextlib.closing(bar(self.target.scale.key, self.values.bytes, done, progress=progress)) as shown:
            for number, slab in enumerate(left, self.done):
                if self.note:
                    self.note.write(self.most, number)
                self._put(slab, shown)
        if self.note:
            self.note.forget()

    def how_on(self) -> str:
        """What to do where it is broken off."""
        if self.is_once:
            return f"remove {self.target.folder}, and the same call begins again"
        return f"the same call{'' if self.note is None else ' with resume'} goes on"


def _job_of(values: Values, target: Target, at: Any, workers: int, memory: int, resume: bool) -> Job:
    """What is left to do of an array."""
    most = most_of_slab(memory, target.scale, values.voxel_bytes, workers)
    if at is None:
        _check_size(target, values)
        kind = {"size": list(values.size), "channels": values.channels, "type": values.data_type, "order": values.order()}
        job = Job(values, target, target.scale.offset, workers, most, Note(target.folder / "put.part", kind))
    else:
        begin = three_between("at", at, -MOST_OFFSET, 2 * MOST_OFFSET)
        _check_place(target, values, begin)
        job = Job(values, target, begin, workers, most, None, stands=True)
    job.begin_at(resume)
    return job


def _check_memory(memory: int) -> int:
    if memory < LEAST_MEMORY:
        raise UsageError(f"memory is a number of bytes, at least {LEAST_MEMORY}, and not {memory}")
    return memory


def open_values(array: Any, axes: str) -> Values:
    """What is put: an array, or the text of a source; raises UnsupportedType, UsageError and what sources raise."""
    from .sources import open_source

    if isinstance(array, (str, os.PathLike)):
        return Values.of(open_source(array), os.fspath(array), axes)
    if not (hasattr(array, "shape") and hasattr(array, "dtype")):
        array = numpy.asarray(array)
    return Values.of(array if isinstance(array, numpy.ndarray) else open_source(array), "the array", axes)


def put(
    dataset: PathText,
    key: str,
    array: Any,
    *,
    resolution: Any = None,
    offset: Any = (0, 0, 0),
    axes: str = "zyx",
    layout: Layout = Layout(),
    workers: int = 1,
    resume: bool = False,
    at: Any = None,
    memory: int = MEMORY,
    progress: bool | None = None,
) -> Stored:
    """Does what `write` says, with the layout in one; gives how many objects were put, and of how many cells."""
    if resume and at is not None:
        raise UsageError("an array that is put over a scale with `at` is put again as it is, without resume")
    values = open_values(array, axes)
    target = _known_target(dataset, key, values) if at is not None else _target_of(dataset, key, values, resolution, offset, layout)
    job = _job_of(values, target, at, check_workers(workers), _check_memory(memory), resume)
    target.write_info()
    try:
        job.run(progress)
    except KeyboardInterrupt:
        raise KeyboardInterrupt(job.how_on()) from None
    finally:
        if not job.stands:
            if job.note:
                job.note.forget()
            target.put_back()
    return job.stored


def write(
    dataset: PathText,
    key: str,
    array: Any,
    *,
    resolution: Any = None,
    offset: Any = (0, 0, 0),
    axes: str = "zyx",
    encoding: str = "raw",
    chunk: Any = (64, 64, 64),
    block: Any = (8, 8, 8),
    sharding: Any = None,
    workers: int = 1,
    resume: bool = False,
    at: Any = None,
    memory: int = MEMORY,
    progress: bool | None = None,
) -> Scale:
    """
    Stores a whole array as a scale, whose folder has to be empty, or with `at` over what the scale holds; gives the scale.

    `array` is one of numpy, h5py, zarr or dask, anything else with a shape, a dtype and slices, or the text of a source: `x.npy`,
    `file.h5:/path`, a zarr folder, `stack.tif` or a folder of TIFF files. It is read slab by slab along borders of chunks, so that no
    more than some `memory` bytes are taken, the program's included; only a scale of several chunk sizes goes in at once. Its type is
    uint8, uint16, uint32 or uint64, in either order of bytes; its axes are `zyx` or `xyz`, with channels in front or behind, `czyx`,
    `xyzc` or `zyxc`.

    The info is made, or the scale added to it, where need be: that needs the `resolution`, in nanometres. The layout of a scale that is
    there stays. Three numbers are in the order x, y, z: `resolution`, the `offset` of the first voxel, the `chunk` and `block` in voxels,
    and `at`. `sharding` is (preshift_bits, "identity" or "murmur", minishard_bits, shard_bits). Up to 16 `workers` encode segmentations.

    With `resume` one that was broken off goes on where it was. `progress` is as for vol_tool.progress.bar.

    Raises UnsupportedType, with the cast that would do; NotEmpty where something is stored already; BrokenOff where an earlier call was
    broken off; UnlikeScales where the array isn't the scale's; TooLarge; UsageError for arguments that are none; UnreadableSource and
    MissingPackage for sources; and the errors of the program.
    """
    layout = Layout.of(chunk, encoding, block, sharding)
    put(
        dataset, key, array, resolution=resolution, offset=offset, axes=axes, layout=layout, workers=workers, resume=resume, at=at,
        memory=memory, progress=progress,
    )  # fmt: skip
    return open_scale(dataset, key, axes)


def create(
    dataset: PathText,
    key: str,
    *,
    size: Any,
    dtype: Any,
    resolution: Any,
    channels: int = 1,
    offset: Any = (0, 0, 0),
    axes: str = "zyx",
    encoding: str = "raw",
    chunk: Any = (64, 64, 64),
    block: Any = (8, 8, 8),
    sharding: Any = None,
) -> Scale:
    """
    Adds a scale to the info of a data set, which is made where there is none, and stores nothing: all values are 0 until some are assigned.

    `size` is how many voxels there are on x, y and z; the other arguments are those of `write`. Raises UsageError where there is a scale
    of this key, UnsupportedType, UnlikeScales, TooLarge.
    """
    layout, place, name = Layout.of(chunk, encoding, block, sharding), place_of(dataset), f"{os.fspath(dataset)}/info"
    data_type, sides = check_type(dtype, "the scale"), three_between("size", size, 1, MOST_OFFSET)
    info = _info_for(place, name, data_type, channels, encoding)
    if check_key(key) in info.keys:
        raise UsageError(f"{name} has a scale {key} already")
    layout.check(sides, channels, data_type)
    first = three_between("offset", offset, -MOST_OFFSET, MOST_OFFSET)
    member = scale_member(key, sides, first, three_lengths(resolution), layout)
    put_whole(place.path / "info", info.with_scale(member).content())
    return open_scale(dataset, key, axes)
