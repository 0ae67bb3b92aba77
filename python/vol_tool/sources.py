"""
Sources of values: files, folders and other packages' arrays, each as an array that is read part by part.

A part is read when it is asked for, and what isn't asked for isn't kept: the memory that is taken is that of the part, and of the blocks
(pages, chunks) in which the source keeps it.
"""
from __future__ import annotations

import contextlib
import operator
import os
import pathlib
import re
import weakref
from typing import Any, Callable, Iterator, Sequence, Tuple

import numpy

from .errors import UnreadableSource, VolToolError
from .indexing import pick
from .packages import have, need

Part = Tuple[slice, ...]
Shape = Tuple[int, ...]

# What files begin with.
_NUMPY = b"\x93NUMPY"
_HDF5 = b"\x89HDF\r\n\x1a\n"
_TIFFS = (b"II*\0", b"MM\0*", b"II+\0", b"MM\0+")
_ZIP = b"PK\x03\x04"

_WANTED = "an array.npy, a file.h5:/path, a zarr folder, a stack.tif or a folder of TIFFs"
_TIFF_NAME = re.compile(r".*\.tiff?", re.IGNORECASE)

# How many names a message tells.
_FEW = 8

# How many bytes a page of a TIFF has at most that is decoded whole where a part of it is wanted.
_LARGE_PAGE = 1 << 20


class Source:
    """
    An array that is read part by part.

    `shape` is the lengths of its axes, in the source's own order, and `ndim` their number; `dtype` is the type of its values, of numpy;
    `chunks` is the shape of the blocks in which the source keeps them, or None where it has no such; `strides` is how many bytes
    neighbours on each axis lie apart, where they lie in memory or in a mapped file, else None; `name` is what messages call it.

    `source[part]` gives a numpy array of a part alone, which is indexed as numpy does by whole numbers, slices and `...`; with steps all
    between is read too. An index out of range, or of another kind, is an IndexError, and what can't be read raises UnreadableSource. As a
    context it is closed at its end, and else where it is forgotten, or by `close`.
    """

    def __init__(
        self, name: str, shape: Sequence[int], dtype: Any, read: Callable[[Part], Any], *, chunks: Shape | None = None,
        strides: Shape | None = None, close: Callable[[], object] = lambda: None,
    ) -> None:  # fmt: skip
        self.name = name
        self.shape = tuple(operator.index(length) for length in shape)
        self.ndim = len(self.shape)
        self.dtype = numpy.dtype(dtype)
        self.chunks = chunks
        self.strides = strides
        self._read = read
        self.close = weakref.finalize(self, close)

    def __enter__(self) -> Source:
        return self

    def __exit__(self, *_: object) -> None:
        self.close()

    def __repr__(self) -> str:
        return f"<source {self.name}: {self.dtype.name} {self.shape}>"

    def __len__(self) -> int:
        return self.shape[0]

    def __getitem__(self, index: Any) -> Any:
        """A part, as an array of numpy's, or one value."""
        picked = pick(index, self.shape)
        if picked.is_empty:
            return numpy.empty(picked.shape, self.dtype)[picked.rest]
        values = self._part(tuple(slice(axis[0], axis[-1] + 1) for axis in picked.positions))
        return values[tuple(slice(None, None, axis.step) for axis in picked.positions)][picked.rest]

    def _part(self, part: Part) -> numpy.ndarray:
        with _told(self.name):
            values = numpy.asarray(self._read(part))
        wanted = tuple(span.stop - span.start for span in part)
        if (values.shape, values.dtype) != (wanted, self.dtype):
            found = f"{values.dtype.name} {values.shape}"
            raise UnreadableSource(f"{self.name} gives {found} where {self.dtype.name} {wanted} is wanted: is it being changed?")
        return values


def open_source(source: Any) -> Source:
    """
    The array that a source has, which is read part by part.

    A source is a path: of an `array.npy`, of `file.h5:/path` (or `file.h5` where that has one data set alone), of a zarr array's folder, of
    a TIFF file, whose pages are the first axis (z), or of a folder with a TIFF file for each z, in the order of their names, in which
    numbers count as numbers. Or it is an object with `shape` and `dtype`: an array of numpy, zarr or dask, a data set of h5py.

    Raises MissingPackage where a package is needed that isn't installed, and UnreadableSource, with a sentence, where there is no such
    array or it isn't read.
    """
    if isinstance(source, Source):
        return source
    if isinstance(source, (str, os.PathLike)):
        name = os.fspath(source)
        with _told(name):
            return _open_path(name)
    if hasattr(source, "shape") and hasattr(source, "dtype"):
        name = f"the {type(source).__module__.partition('.')[0]} array"
        with _told(name):
            return _open_array(name, source)
    raise UnreadableSource(f"a {type(source).__name__} isn't read: {_WANTED} is wanted, or an array, as numpy.asarray makes one of a list")


@contextlib.contextmanager
def _told(name: str) -> Iterator[None]:
    """Tells what goes wrong with a source by its name."""
    try:
        yield
    except (VolToolError, MemoryError):
        raise
    except FileNotFoundError as why:
        raise UnreadableSource(f"there is no {why.filename or name}") from why
    except Exception as why:  # each package has errors of its own
        text = str(getattr(why, "strerror", None) or why).strip().partition("\n")[0] or type(why).__name__
        raise UnreadableSource(f"{name} can't be read: {text}") from why


def _few(names: Sequence[str]) -> str:
    """The first of several names."""
    return ", ".join(names[:_FEW]) + (f" and {len(names) - _FEW} more" if len(names) > _FEW else "")


# Paths


def _open_path(name: str) -> Source:
    path = pathlib.Path(name).expanduser()
    if path.is_dir():
        return _open_folder(name, path)
    if not path.exists() and (parts := _file_and_inner(name)):
        return _open_hdf5(name, *parts)
    with path.open("rb") as file:
        front = file.read(8)
    if front == _HDF5:
        return _open_hdf5(name, path, "")
    if front.startswith(_NUMPY):
        return _mapped(name, lambda: numpy.load(path, mmap_mode="r", allow_pickle=False))
    if front.startswith(_TIFFS):
        return _open_tiff(name, path)
    if front.startswith(_ZIP):
        raise UnreadableSource(f"{name} is packed and may hold several arrays: take one out of it, as by numpy.load, and save that")
    raise UnreadableSource(f"{name} is no array that is read: {_WANTED} is wanted")


def _file_and_inner(name: str) -> tuple[pathlib.Path, str] | None:
    """The file and the path in it where a name is made of both, as `file.h5:/path`."""
    places = [place for place, letter in enumerate(name) if letter == ":"]
    files = ((pathlib.Path(name[:place]).expanduser(), name[place + 1 :]) for place in places)
    return next(((file, inner) for file, inner in files if file.is_file()), None)


def _open_folder(name: str, path: pathlib.Path) -> Source:
    entries = set(os.listdir(path))
    if entries & {".zarray", ".zgroup", "zarr.json"}:
        return _open_zarr(name, path, "zarr.json" in entries)
    files = sorted(filter(_TIFF_NAME.fullmatch, entries), key=_by_numbers)
    if files:
        return _open_tiffs(name, [path / file for file in files])
    if "info" in entries:
        raise UnreadableSource(f"{name} is a volume itself: vol_tool.open({name!r})[KEY] is the array of one of its scales")
    raise UnreadableSource(f"{name} is a folder without a zarr array or TIFFs in it")


def _by_numbers(name: str) -> tuple[list[str | int], str]:
    """What names are ordered by: numbers in them count as numbers, so that z2 comes before z10."""
    parts = re.split(r"([0-9]+)", name)
    return [int(part) if number % 2 else part.lower() for number, part in enumerate(parts)], name


def _mapped(name: str, load: Callable[[], numpy.ndarray]) -> Source:
    """A file that is mapped, and mapped anew for each part: so none of what was read earlier counts as memory."""
    first = load()
    return Source(name, first.shape, first.dtype, lambda part: load()[part], strides=first.strides)


def _open_hdf5(name: str, path: pathlib.Path, inner: str) -> Source:
    h5py = need("h5py", name)
    file = h5py.File(path, "r")
    try:
        dataset = file[inner or _only_dataset(name, h5py, file)] if not inner or inner in file else None
        if not isinstance(dataset, h5py.Dataset):
            raise UnreadableSource(f"{path} has no data set {inner}: it has {_few(_datasets_in(h5py, file)) or 'none'}")
    except BaseException:
        file.close()
        raise
    return Source(name, dataset.shape, dataset.dtype, dataset.__getitem__, chunks=dataset.chunks, close=file.close)


def _datasets_in(h5py: Any, file: Any) -> list[str]:
    """The names of the data sets in a file of HDF5."""
    found: list[str] = []
    file.visititems(lambda inner, what: found.append(f"/{inner}") if isinstance(what, h5py.Dataset) else None)
    return found


def _only_dataset(name: str, h5py: Any, file: Any) -> str:
    found = _datasets_in(h5py, file)
    if len(found) == 1:
        return found[0]
    told = f"name one, as {name}:{found[0]}: it has {_few(found)}" if found else "there is none"
    raise UnreadableSource(f"{name} has {len(found)} data sets; {told}")


def _open_zarr(name: str, path: pathlib.Path, is_newer: bool) -> Source:
    zarr = need("zarr", name)
    version = zarr.__version__
    if is_newer and int(version.partition(".")[0]) < 3:
        raise UnreadableSource(f"{name} is in zarr's format 3, which the package zarr reads from its version 3 on; here it is {version}")
    found = zarr.open(os.fspath(path), mode="r")
    if not hasattr(found, "dtype"):
        arrays = [inner for inner, _ in found.arrays()]
        raise UnreadableSource(f"{name} is a group of zarr: name one of its arrays, as {name}/{arrays[0] if arrays else 'ARRAY'}"
                               + (f" (it has {_few(arrays)})" if len(arrays) > 1 else ""))
    return _open_array(name, found)


# Arrays of other packages


def _open_array(name: str, array: Any) -> Source:
    """An object that has a shape, a type and parts."""
    try:
        shape = tuple(operator.index(length) for length in array.shape)
    except TypeError:
        raise UnreadableSource(f"{name} has the shape {array.shape}, which isn't known: compute it first") from None
    try:
        dtype = numpy.dtype(array.dtype)
    except TypeError:
        raise UnreadableSource(f"{name} has the type {array.dtype}, which numpy doesn't know: make an array of numpy's of it") from None
    strides = array.strides if isinstance(array, numpy.ndarray) else None
    return Source(name, shape, dtype, array.__getitem__, chunks=_chunks_of(array, len(shape)), strides=strides)


def _chunks_of(array: Any, ndim: int) -> Shape | None:
    """The shape of an array's blocks; where they differ along an axis, as dask's may, that of the largest."""
    chunks = getattr(array, "chunks", None)
    if not isinstance(chunks, (tuple, list)) or len(chunks) != ndim:
        return None
    return tuple(max(side) if isinstance(side, (tuple, list)) else operator.index(side) for side in chunks)


# TIFF


def _open_tiff(name: str, path: pathlib.Path) -> Source:
    """The pages of a TIFF file, by tifffile or else by Pillow; a page alone is one of z."""
    if not have("tifffile") and have("PIL"):
        return _open_by_pillow(name, path)
    file = need("tifffile", name).TiffFile(path)
    try:
        series = _only_series(name, file)
        if series.dataoffset is not None:
            file.close()
            dtype = series.dtype.newbyteorder(file.byteorder)
            return _with_pages(_mapped(name, lambda: numpy.memmap(path, dtype, "r", series.dataoffset, series.shape)))
        return _with_pages(_open_by_pages(name, file, series))
    except BaseException:
        file.close()
        raise


def _only_series(name: str, file: Any) -> Any:
    """The pages of a file, where they are of one kind."""
    if len(file.series) == 1:
        return file.series[0]
    told = f"with the shapes {_few([str(series.shape) for series in file.series])}" if file.series else "none"
    raise UnreadableSource(f"{name} has pages {told}, and pages of one kind are wanted")


def _with_pages(source: Source) -> Source:
    """A source with an axis for its pages, also where there is one page."""
    if source.ndim != 2:
        return source
    chunks = None if source.chunks is None else (1, *source.chunks)

    def read(part: Part) -> numpy.ndarray:
        return source[part[1:]][numpy.newaxis][part[0]]

    return Source(source.name, (1, *source.shape), source.dtype, read, chunks=chunks, close=source.close)


def _open_by_pages(name: str, file: Any, series: Any) -> Source:
    """Pages that are compressed, or don't stand in one piece."""
    page = series.pages[0].shape
    leading = series.shape[: len(series.shape) - len(page)]
    if leading + page != series.shape:
        raise UnreadableSource(f"{name} has the shape {series.shape}, of pages of {page}, which isn't read: save a page for each slice")

    def read_page(number: int, within: Part) -> numpy.ndarray:
        return _read_part(series.pages[number], within)

    read = _reader_of_pages(read_page, leading, series.dtype)
    return Source(name, series.shape, series.dtype, read, chunks=(1,) * len(leading) + page, close=file.close)


def _read_part(page: Any, within: Part) -> numpy.ndarray:
    """A part of a page: of a large one by the strips or tiles that are met, where zarr is there, by which tifffile gives those."""
    is_whole = all(span.stop - span.start == length for span, length in zip(within, page.shape))
    if not is_whole and page.nbytes > _LARGE_PAGE and have("zarr"):
        with contextlib.suppress(Exception):  # versions of both that don't go together; what is damaged is told below
            return need("zarr", "TIFF").open(page.aszarr(), mode="r")[within]
    return page.asarray()[within]


def _reader_of_pages(read_page: Callable[[int, Part], numpy.ndarray], leading: Shape, dtype: Any) -> Callable[[Part], numpy.ndarray]:
    """What reads parts of a stack of pages, which the leading axes count: in turn a part of each page that is met."""

    def read(part: Part) -> numpy.ndarray:
        begins, within = part[: len(leading)], part[len(leading) :]
        values = numpy.empty([span.stop - span.start for span in part], dtype)
        for place in numpy.ndindex(*values.shape[: len(leading)]):
            page = [span.start + at for span, at in zip(begins, place)]
            values[place] = read_page(int(numpy.ravel_multi_index(page, leading)) if leading else 0, within)
        return values

    return read


def _open_by_pillow(name: str, path: pathlib.Path) -> Source:
    """The pages of a file by Pillow, each of which is decoded whole."""
    image = need("PIL.Image", name)
    with _large_images(image):
        file = image.open(path)
        first, count = _values_of(file), getattr(file, "n_frames", 1)
    shape, dtype = first.shape, first.dtype

    def read_page(number: int, within: Part) -> numpy.ndarray:
        with _large_images(image):
            file.seek(number)
        values = _values_of(file)
        if (values.shape, values.dtype) != (shape, dtype):
            kinds = f"{values.dtype.name} {values.shape}, and the first {dtype.name} {shape}"
            raise UnreadableSource(f"page {number} of {name} has {kinds}: pages of one kind are wanted")
        return values[within]

    read = _reader_of_pages(read_page, (count,), dtype)
    return Source(name, (count, *shape), dtype, read, chunks=(1, *shape), close=file.close)


@contextlib.contextmanager
def _large_images(image: Any) -> Iterator[None]:
    """Pillow takes a large image for an attack on a web site, and here it is none."""
    most, image.MAX_IMAGE_PIXELS = image.MAX_IMAGE_PIXELS, None
    try:
        yield
    finally:
        image.MAX_IMAGE_PIXELS = most


def _values_of(file: Any) -> numpy.ndarray:
    """The values of Pillow's present page. It has no unsigned numbers of 32 bits, and gives their bits as signed ones."""
    sample_format, bits = file.tag_v2.get(339, (1,)), file.tag_v2.get(258, (1,))
    values = numpy.asarray(file)
    return values.view("uint32") if values.dtype == "int32" and (sample_format, bits) == ((1,), (32,)) else values


def _open_tiffs(name: str, files: list[pathlib.Path]) -> Source:
    """The files of a folder, one for each z, of which each is opened for each part; all are looked at here."""
    with _open_tiff(str(files[0]), files[0]) as first:
        shape, dtype, chunks = first.shape, first.dtype, first.chunks
    for file in files:
        with _open_tiff(str(file), file) as page:
            if (page.shape, page.dtype) != ((1, *shape[1:]), dtype):
                kinds = f"{page.dtype.name} {page.shape}, and {dtype.name} {(1, *shape[1:])} is wanted, as in {files[0].name}"
                raise UnreadableSource(f"{file} has {kinds}: of a folder each file is one slice")

    def read_page(number: int, within: Part) -> numpy.ndarray:
        with _open_tiff(str(files[number]), files[number]) as page:
            return page[(0, *within)]

    return Source(name, (len(files), *shape[1:]), dtype, _reader_of_pages(read_page, (len(files),), dtype), chunks=chunks)
