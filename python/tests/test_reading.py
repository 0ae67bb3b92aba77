"""Scales as arrays: what is read, against the Python models and numpy."""
import mmap
import os
import pickle
import random
import subprocess
import sys

import numpy
import pytest

from model.chance import pick_box
from trials import FORMS, random_index, same, stored_scale
from vol_tool import errors, reading
from vol_tool.boxes import box_text

AXES = {"zyx": "czyx", "czyx": "czyx", "xyz": "xyzc", "xyzc": "xyzc", "zyxc": "zyxc"}


def turned(values, axes, drops_channel):
    """An array with the axes channel, z, y, x in another order."""
    found = values.transpose(["czyx".index(axis) for axis in AXES[axes]])
    return found.squeeze(AXES[axes].index("c")) if drops_channel else found


@pytest.mark.parametrize("is_raw, in_shards", FORMS)
@pytest.mark.parametrize("seed", range(4))
def test_scales_of_each_form(vol_tool, seed, is_raw, in_shards):
    """All of a scale, in each order of axes, and what indices pick of it."""
    volume, values = stored_scale(seed, is_raw, in_shards)
    chance = random.Random(seed)
    for axes in AXES:
        scale = vol_tool.open("d", axes=axes)["s"]
        wanted = turned(values, axes, axes in ("zyx", "xyz") and volume.channels == 1)
        assert (scale.shape, scale.dtype, scale.ndim, len(scale)) == (wanted.shape, wanted.dtype, wanted.ndim, len(wanted))
        assert (scale.size, scale.nbytes, scale.itemsize) == (wanted.size, wanted.nbytes, wanted.itemsize)
        assert same(scale[...], wanted) and same(numpy.asarray(scale), wanted)
        for _ in range(6):
            index = random_index(chance, wanted.shape)
            assert same(scale[index], wanted[index]), (axes, index)


@pytest.mark.parametrize("is_raw, in_shards", FORMS)
def test_boxes_of_the_programs(vol_tool, is_raw, in_shards):
    """A box is counted from the scale's offset on, as a text or as pairs; into a file it is what numpy.save writes."""
    volume, values = stored_scale(7, is_raw, in_shards)
    chance = random.Random(7)
    for axes in AXES:
        box = pick_box(chance, volume)
        x, y, z = (slice(begin - first, end - first) for (begin, end), first in zip(box, volume.offset))
        wanted = turned(values[:, z, y, x], axes, axes in ("zyx", "xyz") and volume.channels == 1)
        for given in (box, box_text(box)):
            assert same(vol_tool.read("d", "s", given, axes=axes), wanted)
        assert vol_tool.read("d", "s", box, "out.npy", axes=axes) is None
        assert same(numpy.load("out.npy"), wanted)
    assert same(vol_tool.read("d", "s", axes="czyx"), values)


@pytest.mark.parametrize("is_raw, in_shards", FORMS)
def test_reads_into_mapped_memory(vol_tool, monkeypatch, is_raw, in_shards):
    """Large boxes are in memory that is this process's alone; with a limit of a file's size they aren't."""
    monkeypatch.setattr(reading, "LEAST_MAPPED", 1)
    _, values = stored_scale(4, is_raw, in_shards)
    scale = vol_tool.open("d", axes="czyx")["s"]
    found = scale[...]
    assert same(found, values) and isinstance(found.base.base.obj, mmap.mmap)
    found[...] = 1
    assert same(scale[...], values)
    assert same(scale[:, 1:, ::2], values[:, 1:, ::2])
    code = (
        "import resource, vol_tool; resource.setrlimit(resource.RLIMIT_FSIZE, (0, 0)); from vol_tool import reading; "
        "reading.LEAST_MAPPED = 1; print(int(vol_tool.open('d')['s'][...].sum(dtype='u8')))"
    )
    environment = {**os.environ, "PYTHONPATH": ":".join(sys.path)}
    done = subprocess.run([sys.executable, "-c", code], capture_output=True, text=True, env=environment)
    assert (done.stdout, done.stderr) == (f"{int(values.sum(dtype='u8'))}\n", "")


@pytest.mark.parametrize("most", [1, 60, 300])
@pytest.mark.parametrize("is_raw, in_shards", FORMS)
def test_reads_in_parts(vol_tool, monkeypatch, most, is_raw, in_shards):
    """What is more than a program cuts out at once is put together."""
    monkeypatch.setattr(reading, "MOST_BYTES", most)
    monkeypatch.setattr(reading, "MOST_SCRATCH", most)
    volume, values = stored_scale(1, is_raw, in_shards)
    scale, chance = vol_tool.open("d", axes="czyx")["s"], random.Random(most)
    assert same(scale[...], values)
    for _ in range(4):
        index = random_index(chance, values.shape)
        assert same(scale[index], values[index]), index
    vol_tool.read("d", "s", "all", "out.npy", axes="zyxc")
    assert same(numpy.load("out.npy"), values.transpose(1, 2, 3, 0))


def test_each_read_is_one_run(vol_tool, monkeypatch):
    stored_scale(0, True, False)
    words = []
    begin = reading.Reader._begin
    monkeypatch.setattr(reading.Reader, "_begin", lambda reader, box: (words.append(box), begin(reader, box))[1])
    scale = vol_tool.open("d")["s"]
    scale[...]
    scale[0]
    scale[5:5]
    assert len(words) == 2


def test_scales_are_told(vol_tool):
    volume, _ = stored_scale(3, True, True)
    volumes = vol_tool.open("d")
    scale = volumes["s"]
    assert (list(volumes), len(volumes), "s" in volumes, "t" in volumes) == (["s"], 1, True, False)
    assert (scale.key, scale.resolution, scale.offset) == ("s", (8, 8, 40), volume.offset)
    assert scale.chunks[-3:] == tuple(min(*sides) for sides in zip(volume.chunk[::-1], volume.size[::-1]))
    assert scale.with_axes("xyzc").chunks == (*scale.chunks[:-4:-1], volume.channels)
    assert not scale.is_labels and stored_scale(3, False, False) and vol_tool.open("d")["s"].is_labels
    assert "s of d" in repr(scale) and "Volume d: s" in repr(volumes)


def test_pickled(vol_tool):
    _, values = stored_scale(3, True, False)
    scale = pickle.loads(pickle.dumps(vol_tool.open("d", axes="czyx")["s"]))
    assert same(scale[...], values)


def test_an_info_that_is_changed(vol_tool):
    """It is read again."""
    stored_scale(3, True, False)
    volumes = vol_tool.open("d")
    vol_tool.add("d", "s", "t")
    assert list(volumes) == ["s", "t"] and not volumes["t"][...].any()


def test_from_another_folder(vol_tool, folder, monkeypatch):
    """A scale stays where it is when the current folder is another one."""
    _, values = stored_scale(3, True, False)
    scale = vol_tool.open("d", axes="czyx")["s"]
    (folder / "other").mkdir()
    monkeypatch.chdir("other")
    assert same(scale[...], values)
    for path in ("../d", folder / "d", f"{folder}/other/../d/", f"file://{folder}/d"):
        assert same(vol_tool.read(path, "s", axes="czyx"), values)


def test_what_is_not_there(vol_tool):
    volume, values = stored_scale(3, True, False)
    with pytest.raises(errors.BadInfo, match="there is no e/info"):
        vol_tool.open("e")
    with pytest.raises(errors.NoScale):
        vol_tool.open("d")["t"]
    with pytest.raises(errors.UsageError):
        vol_tool.open("d")["../d/s"]
    with pytest.raises(errors.UsageError, match="axes"):
        vol_tool.open("d", axes="yxz")
    with pytest.raises(errors.UsageError, match="link"):
        vol_tool.open("ftp://host/d")
    scale = vol_tool.open("d", axes="czyx")["s"]
    with pytest.raises(IndexError) as wanted:
        values[:, 99]
    with pytest.raises(errors.OutsideScale) as found:
        scale[:, 99]
    assert str(found.value) == str(wanted.value)
    (begin, end), y, z = volume.whole
    with pytest.raises(errors.OutsideScale) as found:
        vol_tool.read("d", "s", [(begin, end + 1), y, z])
    assert found.value.status == 3
    assert found.value.line == f"box {box_text([(begin, end + 1), y, z])} outside {box_text(volume.whole)}"


def test_damaged_chunks(vol_tool, folder):
    stored_scale(3, True, False)
    path = sorted((folder / "d/s").iterdir())[0]
    path.write_bytes(path.read_bytes() + b"x")
    scale = vol_tool.open("d")["s"]
    with pytest.raises(errors.Damaged) as found:
        scale[...]
    assert found.value.status == 4 and found.value.line.startswith("damaged ")
    with pytest.raises(errors.Damaged):
        vol_tool.verify("d", "s")
    with pytest.raises(errors.Damaged):
        vol_tool.read("d", "s", "all", "out.npy")
    assert not list(folder.glob("out*"))


@pytest.mark.parametrize("least", [1, 1 << 20])
def test_a_program_that_says_less(vol_tool, folder, monkeypatch, least):
    """One that ends well with too few values, one that fails, one that is killed, and none; mapped or through a pipe."""
    monkeypatch.setattr(reading, "LEAST_MAPPED", least)
    stored_scale(3, True, False)
    scale = vol_tool.open("d")["s"]
    for text, kind, status in [
        ("exit 0", errors.StoreFault, None), ("echo store fault >&2; exit 5", errors.StoreFault, 5),
        ("kill -9 $$", errors.VolToolError, -9),
    ]:  # fmt: skip
        program = folder / "program"
        program.write_text(f"#!/bin/sh\n{text}\n")
        program.chmod(0o755)
        monkeypatch.setenv("VOL_TOOL", str(program))
        with pytest.raises(kind) as found:
            scale[...]
        assert found.value.status == status
    monkeypatch.setenv("VOL_TOOL", "./none")
    with pytest.raises(errors.MissingProgram, match="none"):
        scale[...]


def test_a_file_that_can_not_be_made(vol_tool, folder):
    stored_scale(3, True, False)
    with pytest.raises(OSError) as found:
        vol_tool.read("d", "s", "all", "none/out.npy")
    assert found.value.filename == "none/out.npy"


def test_many_readers(vol_tool):
    """Threads may read a scale at once."""
    from concurrent.futures import ThreadPoolExecutor

    _, values = stored_scale(2, True, True)
    scale = vol_tool.open("d", axes="czyx")["s"]
    with ThreadPoolExecutor(4) as pool:
        assert all(same(found, values) for found in pool.map(lambda _: scale[...], range(12)))


def test_import_is_light():
    """numpy and all else come when they are first needed."""
    code = "import sys, vol_tool; print({'numpy', 'requests', 'tqdm', 'argparse', 'subprocess'} & {*sys.modules})"
    found = subprocess.run([sys.executable, "-c", code], capture_output=True, text=True, check=True, env={"PYTHONPATH": ":".join(sys.path)})
    assert found.stdout == "set()\n"
