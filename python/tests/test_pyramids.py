"""Coarser scales, and scales in another layout."""
import json

import numpy
import pytest

from trials import random_array, same
from vol_tool import errors, pyramids
from vol_tool.programs import run

CHUNK = {"chunk": (4, 4, 4)}
ONE = {"resolution": (1, 1, 1)}


def mean(values):
    """A cube of an even side, halved by means."""
    half = [length // 2 for length in values.shape]
    blocks = values.reshape(half[0], 2, half[1], 2, half[2], 2).astype("uint64")
    return (blocks.sum(axis=(1, 3, 5)) // 8).astype(values.dtype)


def info(dataset="d"):
    with open(f"{dataset}/info", "rb") as file:
        return json.load(file)


def test_means(vol_tool):
    """Until a scale has one chunk; the scales stand behind those of smaller voxels, in the layout of the one before."""
    values = random_array((12, 12, 12), "uint8")
    how = {"sharding": (1, "murmur", 1, 1), "offset": (-8, 0, 4), **CHUNK}
    vol_tool.write("d", "8_8_40", values, resolution=(8, 8, 40), **how)
    vol_tool.create("d", "wide", size=(12, 12, 12), dtype="uint8", resolution=(100, 100, 100))
    told = []
    assert vol_tool.pyramid("d", "8_8_40", tell=lambda level, *more: told.append((level.scale.key, *more))) == ["16_16_80", "32_32_160"]
    assert told == [("16_16_80", "mean", (2, 8)), ("32_32_160", "mean", (1, 1))]
    volume = vol_tool.open("d")
    assert list(volume) == ["8_8_40", "16_16_80", "32_32_160", "wide"]
    first, second, third, _ = info()["scales"]
    assert second == {**first, "key": "16_16_80", "size": [6] * 3, "voxel_offset": [-4, 0, 2], "resolution": [16, 16, 80]}
    assert third == {**first, "key": "32_32_160", "size": [3] * 3, "voxel_offset": [-2, 0, 1], "resolution": [32, 32, 160]}
    assert same(volume["16_16_80"][...], mean(values)) and same(volume["32_32_160"][...], mean(mean(values)))
    assert vol_tool.pyramid("d", "8_8_40") == [] == vol_tool.pyramid("d", "wide")
    assert not list(pyramids.pathlib.Path("d").rglob("*.part"))


@pytest.mark.parametrize("dataset, how, method, wanted", [
    ("labels", {"encoding": "compressed_segmentation"}, None, [2, 5, 3]), ("images", {}, None, [4, 7, 3]), ("raw", {}, "mode", [2, 5, 3]),
])  # fmt: skip
def test_methods_and_levels(vol_tool, dataset, how, method, wanted):
    """Labels by mode, images by mean, or as it is asked; and as many levels as are wanted, until a scale is a voxel."""
    scale = vol_tool.write(dataset, "s", numpy.uint32([[[7, 2, 5, 9, 3]]]), resolution=(2.5, 1, 1), **how)
    assert vol_tool.pyramid(dataset, scale.key) == []
    assert vol_tool.pyramid(dataset, "s", levels=1, method=method) == ["s_2"]
    assert vol_tool.open(dataset)["s_2"][0, 0].tolist() == wanted
    assert vol_tool.pyramid(dataset, "s", levels=9, method=method, workers=2) == ["s_4", "s_8"]
    assert [one["resolution"][0] for one in info(dataset)["scales"]] == [2.5, 5, 10, 20]


def test_what_can_not_be_made(vol_tool, folder):
    """It is refused before anything is made."""
    vol_tool.write("d", "s", random_array((12, 12, 12), "uint8"), offset=(2, 0, -4), **CHUNK, **ONE)
    vol_tool.create("d", "odd", size=(12, 12, 12), dtype="uint8", offset=(0, -3, 0), **CHUNK, **ONE)
    (folder / "d/s_2").mkdir()
    (folder / "d/s_2/x").touch()
    before = info()
    for key, how, kind, told in [
        ("odd", {}, errors.UsageError, r"odd has the voxel_offset \[0, -3, 0\]"), ("s", {}, errors.UsageError, "at most 1 levels"),
        ("t", {}, errors.NoScale, "no scale t"), ("s", {"levels": 2}, errors.UsageError, "at most 1 levels"),
        ("s", {"levels": 1}, errors.NotEmpty, "remove this folder"), ("s", {"levels": 0}, errors.UsageError, "levels"),
        ("s", {"method": "median"}, errors.UsageError, "median"), ("s", {"workers": 0}, errors.UsageError, "workers"),
    ]:  # fmt: skip
        with pytest.raises(kind, match=told):
            vol_tool.pyramid("d", key, **how)
    assert info() == before


def test_one_that_is_broken_off(vol_tool, folder):
    """The info is put back; files that a run left are told."""
    vol_tool.write("d", "s", random_array((12, 12, 12), "uint8"), **CHUNK, **ONE)
    before = info()
    path = folder / "d/s/4-8_4-8_4-8"
    content = path.read_bytes()
    path.write_bytes(b"")
    with pytest.raises(errors.Damaged) as found:
        vol_tool.pyramid("d", "s", levels=1)
    assert found.value.status == 4 and info() == before
    path.write_bytes(content)
    for left in (folder / "d/s_2").glob("*"):
        left.unlink()
    (folder / "d/s_2").mkdir(exist_ok=True)
    (folder / "d/s_2/pyramid.part").touch()
    with pytest.raises(errors.BrokenOff, match="remove this folder"):
        vol_tool.pyramid("d", "s")
    (folder / "d/s_2/pyramid.part").unlink()
    assert vol_tool.pyramid("d", "s") == ["s_2", "s_4"]


def test_other_layouts(vol_tool):
    values = random_array((5, 5, 5), "uint32")
    vol_tool.write("d", "s", values, offset=(-3, 0, 7), resolution=(8, 8, 40), **CHUNK)
    for key, how in ("t", {"chunk": (2, 3, 4), "sharding": (0, "identity", 1, 1)}), ("u", {"encoding": "compressed_segmentation", **CHUNK}):
        vol_tool.add("d", "s", key, **how)
        run("vol_tool", ["reshard", "d", "s", "d", key])
        assert same(vol_tool.open("d")[key][...], values)
    for words, how, kind in [
        (("s", "t"), {}, errors.UsageError), (("v", "w"), {}, errors.NoScale), (("s", "w"), {"chunk": (0, 1, 1)}, errors.UsageError),
    ]:  # fmt: skip
        with pytest.raises(kind):
            vol_tool.add("d", *words, **how)
