"""Files of other kinds that go into scales: HDF5, zarr, TIFF stacks and .npy, in memory of their parts alone."""
import importlib
import os
import subprocess
import sys

import numpy
import pytest

from conftest import ROOT
from memory import watch
from trials import random_array, same

DEBIAN = {"h5py": "python3-h5py", "zarr": "python3-zarr", "tifffile": "python3-tifffile", "PIL": "python3-pil"}


def need(name):
    return pytest.importorskip(name, reason=f"{DEBIAN[name]} isn't installed")


def save_npy(values):
    numpy.save("x.npy", values)
    return "x.npy"


def save_npy_by_columns(values):
    numpy.save("x.npy", numpy.asfortranarray(values))
    return "x.npy"


def save_h5(values):
    with need("h5py").File("x.h5", "w") as file:
        file.create_dataset("a/volume", data=values, chunks=(3, 4, 5), compression="gzip")
    return "x.h5:/a/volume"


def save_zarr(values):
    array = need("zarr").open("x.zarr", mode="w", shape=values.shape, chunks=(3, 4, 5), dtype=values.dtype)
    array[...] = values
    return "x.zarr"


def save_tiff(values):
    need("tifffile").imwrite("x.tif", values)
    return "x.tif"


def save_tiffs(values):
    """A file for each plane, by Pillow."""
    image = need("PIL") and importlib.import_module("PIL.Image")
    os.mkdir("planes")
    for number, plane in enumerate(values):
        image.fromarray(plane).save(f"planes/z{number}.tif")
    return "planes"


KINDS = [save_npy, save_npy_by_columns, save_h5, save_zarr, save_tiff, save_tiffs]


@pytest.mark.parametrize("save", KINDS, ids=lambda save: save.__name__)
@pytest.mark.parametrize("dtype", ["uint8", "uint16"])
def test_sources(vol_tool, save, dtype):
    values = random_array((11, 10, 9), dtype)
    source = save(values)
    scale = vol_tool.write("d", "s", source, resolution=(8, 8, 40), chunk=(4, 4, 4))
    assert same(scale[...], values)
    words = [sys.executable, ROOT / "bin/volume", "put", source, "d", "t", "--resolution", "8,8,40"]
    assert subprocess.run(words, capture_output=True, text=True).stdout == "objects 1 cells 1\n"
    assert same(vol_tool.open("d")["t"][...], values)


def test_open_arrays(vol_tool):
    """Those that a program has open already."""
    values = random_array((11, 10, 9), "uint16")
    save_zarr(values)
    save_h5(values)
    arrays = {"zarr": need("zarr").open("x.zarr", mode="r"), "h5": need("h5py").File("x.h5", "r")["a/volume"]}
    for key, array in arrays.items():
        assert same(vol_tool.write("d", key, array, resolution=(8, 8, 40), chunk=(4, 4, 4))[...], values)


PUT = "import vol_tool; vol_tool.write('d', 's', 'x.zarr', resolution=(8, 8, 40), memory=160 << 20); print('done')"


def test_memory(vol_tool):
    """An array of 512 MiB is put in with 160 MiB, of this process and the program together."""
    zarr = need("zarr")
    array = zarr.open("x.zarr", mode="w", shape=(512, 1024, 1024), chunks=(64, 64, 64), dtype="u1")
    layer = (numpy.arange(1024, dtype="u2") // 4 + numpy.arange(1024, dtype="u2")[:, None] // 8).astype("u1")
    for at in range(0, 512, 64):
        array[at : at + 64] = numpy.broadcast_to(layer + numpy.uint8(at // 4), (64, 1024, 1024))
    environment = {**os.environ, "PYTHONPATH": str(ROOT / "python")}
    said, together, _ = watch([sys.executable, "-c", PUT], env=environment)
    assert (said, together <= 160 << 20) == ("done", True), f"{together >> 20} MiB"
    scale = vol_tool.open("d")["s"]
    for at in (0, 64, 511):
        assert same(scale[at], layer + numpy.uint8(at // 64 * 16))
