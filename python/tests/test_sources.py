"""Sources: each kind of file, folder and array, read part by part and compared with the same values in memory."""
from __future__ import annotations

import itertools
import os
import pathlib
import subprocess
import sys

import numpy
import pytest

from vol_tool import packages, sources
from vol_tool.errors import MissingPackage, UnreadableSource, VolToolError
from vol_tool.sources import open_source

VALUES = numpy.random.default_rng(0).integers(0, 2**16, (7, 30, 40)).astype("uint16")
PARTS = [
    (slice(None), slice(None), slice(None)), (slice(2, 5), slice(3, 9), slice(-7, None)), (3,), 3, (-1, slice(0, 30), 2), (slice(4, 4),),
    (..., 2), (slice(1, 3), ..., slice(0, 1)), (slice(5, 100),), (numpy.int64(2), 1, 1), (slice(None, None, -2), slice(3, None, 4)),
]


def same(source, values):
    """A source has these values: whole, and in each part."""
    assert (source.shape, source.dtype, source.ndim) == (values.shape, values.dtype, values.ndim)
    assert source.chunks is None or len(source.chunks) == source.ndim
    for part in PARTS:
        found = source[part]
        assert isinstance(found, (numpy.ndarray, numpy.generic))
        numpy.testing.assert_array_equal(found, values[part])
    for wrong in (len(values), -len(values) - 1, (0,) * 5, [0], values > 3):
        with pytest.raises(IndexError):
            source[wrong]


def without(monkeypatch, *names):
    """These packages aren't installed."""
    for name in names:
        monkeypatch.setitem(sys.modules, name, None)
        monkeypatch.setitem(sys.modules, f"{name}.Image", None)


def told(source, *texts):
    """A source is refused, and all of these texts are in what is said."""
    with pytest.raises(UnreadableSource) as found:
        open_source(source)[...]
    assert isinstance(found.value, VolToolError) and found.value.status is None
    for text in texts:
        assert text in str(found.value)
    return str(found.value)


# numpy


@pytest.mark.parametrize("order", ["C", "F"])
@pytest.mark.parametrize("dtype", ["<u2", ">u2"])
def test_npy_files(tmp_path, order, dtype):
    values = numpy.asarray(VALUES.astype(dtype), order=order)
    numpy.save(tmp_path / "a.npy", values)
    same(open_source(tmp_path / "a.npy"), values)
    same(open_source(str(tmp_path / "a.npy")), values)
    assert open_source(tmp_path / "a.npy").strides == values.strides


def test_a_path_from_the_home_folder(tmp_path, monkeypatch):
    monkeypatch.setenv("HOME", str(tmp_path))
    numpy.save(tmp_path / "a.npy", VALUES)
    same(open_source("~/a.npy"), VALUES)


def test_what_numpy_has_not_whole(tmp_path):
    path = tmp_path / "a.npy"
    numpy.save(path, VALUES)
    whole = path.read_bytes()
    for broken in (whole[:-1], whole[:20], whole[:8]):
        path.write_bytes(broken)
        told(path, "a.npy")
    numpy.save(path, numpy.array([{}, 1], dtype=object), allow_pickle=True)
    told(path, "a.npy")
    numpy.savez(tmp_path / "b.npz", a=VALUES)
    told(tmp_path / "b.npz", "b.npz", "packed")


def test_arrays_of_numpy():
    same(open_source(VALUES), VALUES)
    assert open_source(VALUES)[...].base is not None, "an array is copied"
    source = open_source(VALUES)
    assert open_source(source) is source
    assert "uint16 (7, 30, 40)" in repr(source) and len(source) == 7


def test_what_is_no_source(tmp_path):
    told([[1, 2], [3, 4]], "list", "numpy.asarray")
    told(3, "int")
    told(None, "NoneType")
    told(tmp_path / "none.npy", "there is no", "none.npy")
    told(tmp_path / "none.h5:/raw", "there is no", "none.h5")
    (tmp_path / "text").write_text("x y z")
    told(tmp_path / "text", "is no array", "zarr folder")
    (tmp_path / "empty").touch()
    told(tmp_path / "empty", "is no array")
    (tmp_path / "folder").mkdir()
    told(tmp_path / "folder", "folder", "TIFF")
    (tmp_path / "folder" / "info").touch()
    told(tmp_path / "folder", "is a volume", "vol_tool.open")
    os.mkdir(tmp_path / "a.npy")
    told(tmp_path / "a.npy", "folder")


class Foreign:
    """An array of another package."""

    shape, chunks, dtype = (2, 3, 4), None, numpy.dtype("uint8")

    def __init__(self, values=None, **members):
        vars(self).update(members, values=values)

    def __getitem__(self, part):
        if isinstance(self.values, Exception):
            raise self.values
        return self.values


def test_arrays_that_fail():
    told(Foreign(ZeroDivisionError("division by zero")), "array", "division by zero")
    told(Foreign(IndexError("no")), "array", "no")
    told(Foreign(numpy.zeros((2, 3, 4), "float32")), "float32", "uint8")
    told(Foreign(numpy.zeros((2, 3), "uint8")), "(2, 3)", "(2, 3, 4)")
    told(Foreign(dtype="torch.uint8"), "torch.uint8")
    told(Foreign(shape=(2, float("nan"), 4)), "shape", "compute")
    with pytest.raises(MemoryError):
        open_source(Foreign(MemoryError()))[0]
    assert open_source(Foreign(numpy.zeros((2, 3, 4), "uint8"), chunks=((1, 1), (2, 1), (4,)))).chunks == (1, 2, 4)
    assert open_source(Foreign(chunks=(1, 2))).chunks is None


# h5py


@pytest.fixture
def h5py():
    return pytest.importorskip("h5py", reason="h5py isn't installed")


def test_hdf5(tmp_path, h5py):
    path = tmp_path / "file.h5"
    with h5py.File(path, "w") as file:
        file.create_dataset("volumes/raw", data=VALUES, chunks=(2, 10, 10), compression="gzip")
    with open_source(f"{path}:/volumes/raw") as source:
        same(source, VALUES)
        assert source.chunks == (2, 10, 10)
    with open_source(path) as source:
        same(source, VALUES)
    with h5py.File(path, "r+") as file:  # closed, so it can be written
        file.create_dataset("plain", data=VALUES)
    with open_source(f"{path}:plain") as source:
        same(source, VALUES)
        assert source.chunks is None
    told(path, "2 data sets", f"{path}:/plain", "/volumes/raw")
    told(f"{path}:/none", "no data set /none", "/plain", "/volumes/raw")
    told(f"{path}:/volumes", "no data set /volumes", "/volumes/raw")
    with h5py.File(path, "r") as file:
        same(open_source(file["plain"]), VALUES)


def test_hdf5_with_nothing_in_it(tmp_path, h5py):
    path = tmp_path / "file.h5"
    h5py.File(path, "w").close()
    told(path, "0 data sets")
    told(f"{path}:/raw", "none")
    path.write_bytes(path.read_bytes()[:64])
    told(path, "file.h5")


def test_no_h5py(tmp_path, monkeypatch):
    (tmp_path / "file.h5").write_bytes(b"\x89HDF\r\n\x1a\n")
    without(monkeypatch, "h5py")
    for source in (tmp_path / "file.h5", f"{tmp_path}/file.h5:/raw"):
        with pytest.raises(MissingPackage, match="python3-h5py") as found:
            open_source(source)
        assert isinstance(found.value, ImportError) and "h5py" in str(found.value)


# zarr


@pytest.fixture
def zarr():
    return pytest.importorskip("zarr", reason="zarr isn't installed")


def test_zarr(tmp_path, zarr):
    path = tmp_path / "a.zarr"
    group = zarr.open_group(str(path), mode="w")
    group.create_dataset("raw", data=VALUES, chunks=(3, 16, 16))
    group.create_dataset("inner/labels", data=VALUES.astype("uint64"), chunks=(7, 8, 8))
    same(open_source(path / "raw"), VALUES)
    assert open_source(path / "raw").chunks == (3, 16, 16)
    same(open_source(path / "inner/labels"), VALUES.astype("uint64"))
    same(open_source(zarr.open(str(path / "raw"), mode="r")), VALUES)
    told(path, "group", f"{path}/raw")
    chunk = next(file for file in (path / "raw").iterdir() if file.name[0] != ".")
    chunk.write_bytes(b"damaged")
    told(path / "raw", "can't be read")


def test_zarr_of_format_3(tmp_path, zarr):
    (tmp_path / "zarr.json").write_text('{"zarr_format": 3, "node_type": "array"}')
    if int(zarr.__version__.partition(".")[0]) < 3:
        told(tmp_path, "format 3", zarr.__version__)
        return
    path = tmp_path / "a.zarr"
    zarr.create_array(str(path), data=VALUES, chunks=(3, 16, 16), zarr_format=3)
    same(open_source(path), VALUES)


def test_no_zarr(tmp_path, monkeypatch):
    (tmp_path / ".zarray").touch()
    without(monkeypatch, "zarr")
    with pytest.raises(MissingPackage, match="python3-zarr"):
        open_source(tmp_path)


# dask


def test_dask():
    array = pytest.importorskip("dask.array", reason="dask isn't installed")
    lazy = array.from_array(VALUES, chunks=(3, 16, 25))
    same(open_source(lazy), VALUES)
    assert open_source(lazy).chunks == (3, 16, 25)
    same(open_source(lazy + 1), VALUES + 1)
    same(open_source(lazy.rechunk(((1, 4, 2), (30,), (40,)))), VALUES)
    told(lazy[lazy > 5], "compute")
    told(array.map_blocks(lambda block: 1 // 0, lazy, dtype="uint16", meta=VALUES[:0]), "division")


# TIFF


@pytest.fixture
def tifffile():
    return pytest.importorskip("tifffile", reason="tifffile isn't installed")


# How a file is begun, and how its pages are written.
FORMS = {
    "in one piece": ({}, {}), "compressed": ({}, {"compression": "zlib", "rowsperstrip": 4}),
    "tiles": ({}, {"compression": "zlib", "tile": (16, 16)}), "ImageJ": ({"imagej": True}, {}), "OME": ({"ome": True}, {}),
    "large, highest byte first": ({"bigtiff": True, "byteorder": ">"}, {}), "page by page": ({}, {"contiguous": False, "metadata": None}),
}


@pytest.mark.parametrize("is_zarr_there", [True, False])
@pytest.mark.parametrize("form", FORMS)
def test_tiff(tmp_path, tifffile, monkeypatch, form, is_zarr_there):
    if not is_zarr_there:
        without(monkeypatch, "zarr")
    monkeypatch.setattr(sources, "_LARGE_PAGE", 100)
    path = tmp_path / "stack.tif"
    begin, how = FORMS[form]
    with tifffile.TiffWriter(path, **begin) as file:
        for pages in VALUES if "contiguous" in how else [VALUES]:
            file.write(pages, **how)
    values = VALUES.astype(">u2") if "byteorder" in begin else VALUES
    with open_source(path) as source:
        same(source, values)


@pytest.mark.parametrize("compression", [None, "zlib"])
def test_tiff_of_more_axes(tmp_path, tifffile, compression):
    path = tmp_path / "stack.tif"
    colours = numpy.stack([VALUES.astype("uint8")] * 3, axis=-1) + numpy.arange(3, dtype="uint8")
    tifffile.imwrite(path, colours, photometric="rgb", compression=compression)
    same(open_source(path), colours)
    channels = numpy.stack([VALUES, VALUES + 1], axis=1)
    tifffile.imwrite(path, channels, imagej=compression is None, compression=compression)
    same(open_source(path), channels)
    tifffile.imwrite(path, VALUES[0], compression=compression)
    with open_source(path) as source:
        assert source.shape == (1, 30, 40)
        numpy.testing.assert_array_equal(source[:, 2:4], VALUES[:1, 2:4])
        numpy.testing.assert_array_equal(source[0], VALUES[0])
        assert source[0:0].shape == (0, 30, 40)


def test_tiff_with_pages_of_several_kinds(tmp_path, tifffile):
    path = tmp_path / "stack.tif"
    with tifffile.TiffWriter(path) as file:
        for page in (VALUES[0], VALUES[1, :7]):
            file.write(page, metadata=None)
    told(path, "(30, 40)", "(7, 40)")


@pytest.mark.parametrize("compression", [None, "zlib"])
def test_tiff_that_is_not_whole(tmp_path, tifffile, compression):
    path = tmp_path / "stack.tif"
    tifffile.imwrite(path, VALUES, compression=compression)
    whole = path.read_bytes()
    for broken in (whole[:-1000], whole[:4], whole[:20]):
        path.write_bytes(broken)
        told(path, "stack.tif")


@pytest.mark.parametrize("compression", [None, "zlib"])
def test_folder_of_tiffs(tmp_path, tifffile, compression):
    """In the order of the numbers in their names; other files don't count."""
    for number, page in enumerate(VALUES):
        tifffile.imwrite(tmp_path / f"slice {5 * number}.{'TIFF' if number else 'tif'}", page, compression=compression)
    (tmp_path / "notes.txt").touch()
    same(open_source(tmp_path), VALUES)
    tifffile.imwrite(tmp_path / "slice 99.tif", VALUES[0, :8], compression=compression)
    told(tmp_path, "slice 99.tif", "(1, 8, 40)", "(1, 30, 40)", "slice 0.tif")
    tifffile.imwrite(tmp_path / "slice 99.tif", VALUES[:2], compression=compression)
    told(tmp_path, "slice 99.tif", "(2, 30, 40)")
    for path in sorted(tmp_path.glob("slice*"))[1:]:
        path.unlink()
    tifffile.imwrite(tmp_path / "slice 0.tif", VALUES[:2], compression=compression)
    told(tmp_path, "slice 0.tif", "(2, 30, 40)", "one slice")


def test_order_of_names():
    names = ["z10.tif", "z9.tif", "a.tif", "z09.tif", "10.tif", "9.tif", "z9b2.tif", "Z11.tif", "z1000000000000.tif"]
    wanted = ["9.tif", "10.tif", "a.tif", "z09.tif", "z9.tif", "z9b2.tif", "z10.tif", "Z11.tif", "z1000000000000.tif"]
    assert sorted(names, key=sources._by_numbers) == wanted


@pytest.fixture
def by_pillow(monkeypatch):
    """Pillow alone, without tifffile; gives Image."""
    image = pytest.importorskip("PIL.Image", reason="Pillow isn't installed")
    without(monkeypatch, "tifffile")
    monkeypatch.setitem(sys.modules, "PIL.Image", image)
    return image


def put_by_pillow(image, path, pages):
    first, *others = (image.fromarray(page) for page in pages)
    first.save(path, save_all=True, append_images=others)


@pytest.mark.parametrize("dtype", ["uint8", "uint16"])
def test_tiff_by_pillow(tmp_path, by_pillow, dtype):
    values = VALUES.astype(dtype)
    put_by_pillow(by_pillow, tmp_path / "stack.tif", values)
    same(open_source(tmp_path / "stack.tif"), values)
    (tmp_path / "folder").mkdir()
    for number, page in enumerate(values):
        put_by_pillow(by_pillow, tmp_path / f"folder/{number + 8}.tif", [page])
    same(open_source(tmp_path / "folder"), values)


def test_tiff_of_tifffile_by_pillow(tmp_path, monkeypatch, tifffile):
    """Unsigned values of 32 bits, colours, and pages above the size at which Pillow takes an image for an attack."""
    image = pytest.importorskip("PIL.Image", reason="Pillow isn't installed")
    labels = VALUES.astype("uint32") * 65537 + 2**31
    colours = numpy.stack([VALUES.astype("uint8")] * 3, axis=-1)
    tifffile.imwrite(tmp_path / "labels.tif", labels)
    tifffile.imwrite(tmp_path / "signed.tif", labels.view("int32"))
    tifffile.imwrite(tmp_path / "colours.tif", colours, photometric="rgb")
    tifffile.imwrite(tmp_path / "wide.tif", VALUES.astype("uint64"))
    monkeypatch.setitem(sys.modules, "tifffile", None)
    monkeypatch.setattr(image, "MAX_IMAGE_PIXELS", 100)
    for name, values in ("labels", labels), ("signed", labels.view("int32")), ("colours", colours):
        same(open_source(tmp_path / f"{name}.tif"), values)
    assert image.MAX_IMAGE_PIXELS == 100
    told(tmp_path / "wide.tif", "wide.tif")


def test_pages_of_several_kinds_by_pillow(tmp_path, by_pillow):
    put_by_pillow(by_pillow, tmp_path / "stack.tif", [VALUES[0], VALUES[1, :7]])
    told(tmp_path / "stack.tif", "page 1", "(7, 40)", "(30, 40)")


def test_no_tifffile_and_no_pillow(tmp_path, monkeypatch):
    (tmp_path / "stack.tif").write_bytes(b"II*\0")
    without(monkeypatch, "tifffile", "PIL")
    for source in (tmp_path / "stack.tif", tmp_path):
        with pytest.raises(MissingPackage, match="python3-tifffile"):
            open_source(source)


# Memory

MEMORY = """
import resource, sys
sys.path.insert(0, sys.argv[1])
from vol_tool.sources import open_source
source = open_source(sys.argv[2])
source[0:1]
before = resource.getrusage(resource.RUSAGE_SELF).ru_maxrss
total = 0
for at in range(0, source.shape[0], 4):
    total += int(source[at : at + 4, :, :10].sum()) + int(source[at : at + 4].max())
print(total, (resource.getrusage(resource.RUSAGE_SELF).ru_maxrss - before) // 1024)
"""


def stack_files(folder, values):
    """One file or folder of each kind that is there, with these values."""
    numpy.save(folder / "a.npy", values)
    yield folder / "a.npy"
    if packages.have("h5py"):
        with packages.need("h5py", "tests").File(folder / "a.h5", "w") as file:
            file.create_dataset("raw", data=values, chunks=(8, 64, 64))
        yield f"{folder}/a.h5:/raw"
    if packages.have("zarr"):
        packages.need("zarr", "tests").save_array(str(folder / "a.zarr"), values, chunks=(8, 64, 64))
        yield folder / "a.zarr"
    if packages.have("tifffile"):
        write = packages.need("tifffile", "tests").imwrite
        write(folder / "a.tif", values)
        write(folder / "b.tif", values, compression="zlib")
        yield from (folder / "a.tif", folder / "b.tif")
        (folder / "many").mkdir()
        for number, page in enumerate(values):
            write(folder / "many" / f"{number}.tif", page)
        yield folder / "many"


def test_memory_of_a_slab(tmp_path):
    """64 MiB are read in slabs of 4 MiB, and never take more than a few of them."""
    plane = numpy.arange(1 << 20, dtype="uint32").astype("uint8").reshape(1 << 10, 1 << 10)
    values = numpy.broadcast_to(plane, (64, 1 << 10, 1 << 10))
    wanted = int(values[:, :, :10].sum()) + 16 * 255
    for source in stack_files(tmp_path, values):
        root = str(pathlib.Path(sources.__file__).parents[1])
        words = [sys.executable, "-c", MEMORY, root, str(source)]
        total, spent = map(int, subprocess.run(words, stdout=subprocess.PIPE, check=True, timeout=120).stdout.split())
        assert (total, spent < 32) == (wanted, True), f"{source}: {spent} MiB"


def test_parts_are_cut_as_numpy_does():
    """All kinds of keys, against numpy."""
    values = numpy.arange(24).reshape(2, 3, 4)
    source = open_source(values)
    members = [slice(None), slice(1, None), slice(-1, 9), 0, -1, slice(3, 1), slice(None, None, -2)]
    for key in itertools.product(members, repeat=3):
        numpy.testing.assert_array_equal(source[key], values[key])
    for wrong in ("x", 1.0, (0, "x"), (..., 0, ...)):
        with pytest.raises((IndexError, TypeError)):
            source[wrong]
