"""Volumes as mappings of keys to scales, and scales as arrays that stay where they are: what is indexed is read, and assigned stored."""
from __future__ import annotations

import functools
import math
from collections.abc import Mapping
from typing import Any, Iterator, Sequence

import numpy

from .axes import axes_of_scale, check_axes, from_stored
from .boxes import Three
from .indexing import Picked, pick
from .infos import Info, Numbers, ScaleInfo
from .programs import PathText, check_key
from .reading import Reader
from .stores import AnyStore, store_of


class Scale:
    """
    A scale as an array, with numpy's basic indexing: whole numbers, slices with steps, `...`, negative numbers and None.

    Position 0 on each axis is the scale's first voxel, wherever its offset is. An index reads the box of what it picks, by one run of a
    program, or by several where that has over 1 GiB; an assignment stores its box at once. Values have one of the types uint8, uint16,
    uint32 and uint64. What isn't stored is 0.

    A read raises OutsideScale (an IndexError) for a number past an axis, BadIndex (an IndexError) for an index of another kind, Damaged
    where a chunk or the way to it is damaged, StoreFault where a file can't be read, and FetchFault for a link.
    """

    def __init__(self, store: AnyStore, info: Info, scale: ScaleInfo, axes: str) -> None:
        self._store = store
        self._info = info
        self._scale = scale
        self.axes = axes_of_scale(axes, info.channels)
        self.dtype = numpy.dtype(f"<u{info.width}")

    # What numpy, dask and napari ask of an array

    @functools.cached_property
    def shape(self) -> tuple[int, ...]:
        """How many voxels, and channels, there are on each of the axes."""
        x, y, z = self._scale.size
        lengths = {"x": x, "y": y, "z": z, "c": self._info.channels}
        return tuple(lengths[axis] for axis in self.axes)

    @property
    def ndim(self) -> int:
        """How many axes there are: 3, or 4 with channels."""
        return len(self.axes)

    @property
    def size(self) -> int:
        """How many values there are. (The size in voxels on x, y and z is `info.size`.)"""
        return math.prod(self.shape)

    @property
    def itemsize(self) -> int:
        """How many bytes a value has."""
        return self.dtype.itemsize

    @property
    def nbytes(self) -> int:
        """How many bytes all values have."""
        return self.size * self.itemsize

    @property
    def chunks(self) -> tuple[int, ...]:
        """How many voxels a chunk has on each of the axes, as dask.array.from_array takes it, and all channels."""
        x, y, z = (min(chunk, side) for chunk, side in zip(self._scale.chunk, self._scale.size))
        lengths = {"x": x, "y": y, "z": z, "c": self._info.channels}
        return tuple(lengths[axis] for axis in self.axes)

    def __len__(self) -> int:
        return self.shape[0]

    def __getitem__(self, index: Any) -> Any:
        """The values that an index picks, as an array of numpy's that is the caller's own, or one value."""
        picked = pick(index, self.shape)
        if picked.is_empty:
            return numpy.empty(picked.shape, self.dtype)[picked.rest]
        return from_stored(self.reader().read(self.stored_positions(picked)), self.axes)[picked.rest]

    def __setitem__(self, index: Any, values: Any) -> None:
        """
        Stores values at what an index picks, as numpy assigns them: an array of its shape, or one that is spread to it.

        The voxels around keep what they have. Raises UnsupportedType where the values' type can hold what the scale's can't.
        """
        from .assigning import assign

        assign(self, pick(index, self.shape), values)

    def __array__(self, dtype: Any = None, copy: bool | None = None) -> numpy.ndarray:
        """All values, for numpy.asarray."""
        if copy is False:
            raise ValueError("a stored scale can't be an array without being read")
        values = self[...]
        return values if dtype is None else values.astype(dtype, copy=False)

    # What the info says

    @property
    def key(self) -> str:
        """The scale's key in the volume."""
        return self._scale.key

    @property
    def info(self) -> ScaleInfo:
        """What the info says of the scale: size, offset, chunk sizes, resolution, encoding, block and sharding."""
        return self._scale

    @property
    def resolution(self) -> Numbers:
        """How long a voxel is on x, y and z, in nanometres."""
        return self._scale.resolution

    @property
    def offset(self) -> Three:
        """Where the first voxel is on x, y and z, in voxels of this scale."""
        return self._scale.offset

    @property
    def is_labels(self) -> bool:
        """Whether the values are labels: the volume is a segmentation, or the scale's chunks are."""
        return self._info.has_labels(self._scale)

    @property
    def store(self) -> AnyStore:
        """Where the scale is: a folder, a server or a link."""
        return self._store

    def with_axes(self, axes: str) -> Scale:
        """The same scale with its axes in another order: zyx, czyx, xyz, xyzc or zyxc."""
        return Scale(self._store, self._info, self._scale, check_axes(axes))

    def read(self, box: Any = "all", out: PathText | None = None) -> Any:
        """
        The values of a box of voxels, which is counted as the programs count, from the scale's offset on.

        `box` is the text `[x0:x1,y0:y1,z0:z1]`, or `all`, or three pairs, of x, y and z: the first voxel, and one past the last. Where
        `out` names a file, an array is written into it as by numpy.save, without being in memory, and None is given. Raises OutsideScale
        for a box that isn't inside the scale, and what indexing raises.
        """
        from .files import box_positions, save

        positions = box_positions(self, box)
        if out is not None:
            return save(self, positions, out)
        return from_stored(self.reader().read(positions), self.axes)

    def reader(self) -> Reader:
        """What reads the scale, with the axes channel, z, y, x."""
        return Reader(self._store, self._scale, self._info.channels, self.dtype)

    def stored_positions(self, picked: Picked) -> list[range]:
        """What is picked, on the axes channel, z, y, x."""
        by_axis = dict(zip(self.axes, picked.positions))
        return [by_axis.get(axis, range(1)) for axis in "czyx"]

    def __repr__(self) -> str:
        words = [f"chunks {self.chunks}", self._scale.encoding, *(["in shards"] if self._scale.is_sharded else [])]
        return f"<Scale {self.key} of {self._store.name}: {self.axes} {self.shape} {self.dtype.name}, {', '.join(words)}>"

    def _repr_html_(self) -> str:
        from .views import slice_png_html

        return slice_png_html(self)


class Volume(Mapping):
    """The scales of a volume by their keys, in the order of its info. `info` is what the info says."""

    def __init__(self, store: AnyStore, axes: str) -> None:
        self.store = store
        self.axes = check_axes(axes)
        store.info()

    @property
    def info(self) -> Info:
        """What the info says; that of a folder is read again where it was changed."""
        return self.store.info()

    @property
    def name(self) -> str:
        """The folder or the link, as it was opened."""
        return self.store.name

    def __getitem__(self, key: str) -> Scale:
        """The scale of a key; raises NoScale (a KeyError), and BadInfo or UnsupportedType for one that isn't read."""
        info = self.info
        return Scale(self.store, info, info.scale(check_key(key)), self.axes)

    def __iter__(self) -> Iterator[str]:
        return iter(self.info.keys)

    def __len__(self) -> int:
        return len(self.info.keys)

    def __contains__(self, key: object) -> bool:
        return key in self.info.keys

    def __repr__(self) -> str:
        return f"<Volume {self.name}: {', '.join(self.info.keys) or 'no scales'}>"


def open_volume(
    dataset: PathText,
    *,
    axes: str = "zyx",
    cache: PathText | None = None,
    cache_limit: int | None = None,
    timeout: float | None = None,
    absent: Sequence[int] | None = None,
) -> Volume:
    """
    The volume of a folder, or behind a link.

    `dataset` is the folder that has a volume's `info`; or `http://HOST:PORT`, a server of byte ranges with the info at its root, where
    boxes are read in place; or another link that begins with https://, http://, gs:// or precomputed://, of which the chunks that a box
    meets are fetched into the folder `cache` (the user's cache folder, where it is left out) of at most `cache_limit` bytes (10 GiB). A
    silent server is waited for `timeout` seconds. `absent` are the statuses that say that there is no such chunk: 404; a store that lets
    nobody list it says 403.

    `axes` are those of the scales' arrays: `zyx` or `xyz`, with the channels in front or behind where there are several, or `czyx`,
    `xyzc` or `zyxc`.

    Raises BadInfo where there is no info, or it is none; UsageError for names that can't be; FetchFault where a server isn't there.
    """
    return Volume(store_of(dataset, cache=cache, cache_limit=cache_limit, timeout=timeout, absent=absent), axes)


def open_scale(dataset: PathText, key: str, axes: str = "zyx") -> Scale:
    """A scale of a volume; see open_volume."""
    return open_volume(dataset, axes=axes)[key]


def read(dataset: PathText, key: str, box: Any = "all", out: PathText | None = None, *, axes: str = "zyx") -> Any:
    """
    The values of a box of a scale, as an array of numpy's with these axes; see Scale.read.

    Raises what open_volume, Volume and Scale.read raise.
    """
    return open_scale(dataset, key, axes).read(box, out)
