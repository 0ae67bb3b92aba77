"""Arrays that are put into scales, whole and slab by slab, and values that are assigned."""
import itertools
import json
import pathlib
import random
import shutil

import numpy
import pytest

from model.chance import FORMS
from model.infos import scale_in
from trials import random_array, random_index, same, stored_scale
from vol_tool import assigning, errors, slabs, streams, writing
from vol_tool.folders import put_whole

ONE = {"resolution": (1, 1, 1)}
CHUNK = {"chunk": (4, 4, 4)}
LABELS = {"encoding": "compressed_segmentation", "block": (2, 2, 2)}
LAYOUTS = {
    "raw": {"chunk": (2, 3, 2)},
    "raw in shards": {"chunk": (3, 2, 2), "sharding": (1, "murmur", 1, 1), "offset": (-3, 0, 7)},
    "labels": {"chunk": (4, 4, 4), "workers": 3, **LABELS},
    "labels in shards": {"chunk": (4, 4, 4), "sharding": (0, "identity", 1, 1), **LABELS},
}
SHAPES = {"zyx": (5, 6, 7), "czyx": (2, 5, 6, 7), "xyz": (7, 6, 5), "xyzc": (7, 6, 5, 2), "zyxc": (5, 6, 7, 2)}


def objects(folder):
    """The files of a folder, with their bytes."""
    return {str(path.relative_to(folder)): path.read_bytes() for path in sorted(folder.rglob("*")) if path.is_file()}


@pytest.fixture
def small_slabs(monkeypatch):
    """A slab has at most 400 bytes, and a piece 100."""
    monkeypatch.setattr(writing, "most_of_slab", lambda *_: 400)
    monkeypatch.setattr(assigning, "most_of_slab", lambda *_: 400)
    monkeypatch.setattr(slabs, "PIECE", 100)


@pytest.fixture
def runs(monkeypatch):
    """The commands by which something is stored, and how many boxes each has."""
    found, send = [], streams.send

    def note(command, place, key, count, writes, workers):
        found.append((command, count))
        return send(command, place, key, count, writes, workers)

    monkeypatch.setattr(writing, "send", note)
    return found


@pytest.mark.parametrize("layout", LAYOUTS)
@pytest.mark.parametrize("axes", SHAPES)
def test_arrays_come_back(vol_tool, layout, axes):
    """In each order of axes, of rows or columns, and of bytes; and what the info says is what the model reads."""
    widths = "48" if "labels" in layout else "1248"
    for width, order, rows in itertools.product(widths, "<>", "CF"):
        key = f"{width}{'lb'[order == '>']}{rows}"
        values = numpy.asarray(random_array(SHAPES[axes], f"{order}u{width}"), order=rows)
        scale = vol_tool.write(f"d{width}", key, values, axes=axes, **ONE, **LAYOUTS[layout])
        assert same(scale[...], values.astype(f"<u{width}"))
        volume = scale_in(open(f"d{width}/info", "rb").read(), key)
        assert (volume.channels, tuple(volume.size)) == (2 if "c" in axes else 1, (7, 6, 5))
        assert volume.offset == LAYOUTS[layout].get("offset", (0, 0, 0))


@pytest.mark.parametrize("layout", LAYOUTS)
def test_slabs_store_what_is_stored_at_once(vol_tool, folder, monkeypatch, request, layout):
    values = random_array((8, 8, 12), "uint32")
    how = {**LAYOUTS[layout], **ONE, "chunk": (4, 4, 4)}
    vol_tool.write("d", "at_once", values, **how)
    request.getfixturevalue("small_slabs")
    found = request.getfixturevalue("runs")
    for number, (given, axes) in enumerate([(values, "zyx"), (values.T, "xyz"), (numpy.asfortranarray(values), "zyx")]):
        found.clear()
        vol_tool.write("d", f"s{number}", given, axes=axes, **how)
        assert [command for command, _ in found] == ["write", *["update"] * 11]
        assert all(count >= 3 for _, count in found)
        assert objects(folder / f"d/s{number}") == objects(folder / "d/at_once")


def test_slabs_are_whole_shards(vol_tool, small_slabs, runs):
    """Where a shard's chunks are a box, no shard is written twice."""
    values = random_array((16, 16, 16), "uint8")
    vol_tool.write("d", "s", values, chunk=(4, 4, 2), sharding=(0, "identity", 3, 9), **ONE)
    assert len(runs) == 16 and runs[0][0] == "write"
    assert len(list((pathlib.Path("d/s")).iterdir())) == 16


def test_pieces_follow_the_arrays_own_chunks(vol_tool, small_slabs):
    """Each chunk of a source is read once, where it isn't larger than a slab."""
    values, asked = random_array((12, 12, 12), "uint8"), []

    class Source:
        shape, dtype, ndim, chunks = values.shape, values.dtype, 3, (2, 6, 6)

        def __getitem__(self, index):
            asked.append(index)
            return values[index]

    scale = vol_tool.write("d", "s", Source(), chunk=(6, 6, 4), **ONE)
    assert same(scale[...], values)
    found = sorted(tuple((part.start, part.stop) for part in index) for index in asked if len({*map(str, index)}) > 0)
    assert found == sorted(set(found)) and sum((b - a) * (d - c) * (f - e) for (a, b), (c, d), (e, f) in found) == values.size
    assert all(part[axis] % length == 0 for index in found for part, length in zip(index, (2, 6, 6)) for axis in (0, 1))


def fails(folder, monkeypatch, number, status):
    """From now on the program's run of this number ends with a status once it has read its stream."""
    from vol_tool.programs import program

    count, stand_in = folder / "count", folder / "fails"
    count.write_text("0")
    tool = program("vol_tool")
    counted = f"n=$(cat {count}) && echo $((n + 1)) >{count}"
    broken = f"[ $n -eq {number} ] && cat >/dev/null && echo store fault >&2 && exit {status}"
    stand_in.write_text("\n".join(["#!/bin/sh", counted, broken, f'exec {tool} "$@"', ""]))
    stand_in.chmod(0o755)
    monkeypatch.setenv("VOL_TOOL", str(stand_in))
    return tool


@pytest.mark.parametrize("number", [0, 1, 4])
def test_a_write_that_is_broken_off(vol_tool, folder, monkeypatch, small_slabs, runs, number):
    """It goes on where it was, with the same array alone; and nothing else does there meanwhile."""
    values = random_array((12, 12, 12), "uint8")
    vol_tool.write("d", "at_once", values, **ONE, **CHUNK)
    tool = fails(folder, monkeypatch, number, 5)
    with pytest.raises(errors.StoreFault):
        vol_tool.write("d", "s", values, **ONE, **CHUNK)
    monkeypatch.setenv("VOL_TOOL", tool)
    with pytest.raises(errors.BrokenOff, match="resume"):
        vol_tool.write("d", "s", values, **CHUNK)
    with pytest.raises(errors.BrokenOff, match="another array"):
        vol_tool.write("d", "s", numpy.asfortranarray(values), resume=True, **CHUNK)
    runs.clear()
    monkeypatch.setattr(writing, "most_of_slab", lambda *_: 1000)
    scale = vol_tool.write("d", "s", values, resume=True, **CHUNK)
    assert len(runs) == 6 - number
    assert same(scale[...], values) and objects(folder / "d/s") == objects(folder / "d/at_once")
    for resume in (False, True):
        with pytest.raises(errors.NotEmpty):
            vol_tool.write("d", "s", values, resume=resume, **CHUNK)


def test_one_that_is_refused_leaves_nothing(vol_tool, folder, monkeypatch):
    values = random_array((4, 4, 4), "uint8")
    fails(folder, monkeypatch, 0, 3)
    with pytest.raises(errors.VolToolError):
        vol_tool.write("d", "s", values, **ONE)
    assert not (folder / "d/s").exists() and not (folder / "d/info").exists()


def test_an_info_after_a_refusal(vol_tool, folder, monkeypatch):
    """None stands where there was none, and the one before where there was one."""
    values = random_array((4, 4, 4), "uint8")
    (folder / "d/s").mkdir(parents=True)
    (folder / "d/s/old").touch()
    with pytest.raises(errors.NotEmpty) as found:
        vol_tool.write("d", "s", values, **ONE)
    assert (found.value.status, found.value.line) == (3, "folder not empty") and not (folder / "d/info").exists()
    vol_tool.write("d", "t", values, **ONE)
    before = (folder / "d/info").read_bytes()
    with pytest.raises(errors.NotEmpty):
        vol_tool.write("d", "s", values, **ONE)
    monkeypatch.setenv("VOL_TOOL", str(folder / "none"))
    with pytest.raises(errors.MissingProgram):
        vol_tool.write("d", "u", values, **ONE)
    assert (folder / "d/info").read_bytes() == before
    assert not (folder / "d/u").exists()


def test_interrupts(vol_tool, monkeypatch):
    """They say how it goes on, and it does."""
    values = random_array((4, 4, 4), "uint8")

    def interrupt(*_):
        raise KeyboardInterrupt

    with monkeypatch.context() as patched:
        patched.setattr(writing, "send", interrupt)
        with pytest.raises(KeyboardInterrupt, match="with resume goes on"):
            vol_tool.write("d", "s", values, **ONE)
    with pytest.raises(errors.BrokenOff):
        vol_tool.write("d", "s", values, **ONE)


def test_a_source_that_fails(vol_tool, folder):
    """Its error comes through, and the same array goes on."""
    values = random_array((4, 4, 4), "uint8")

    class Source:
        shape, dtype, ndim, chunks = values.shape, values.dtype, 3, None
        broken = True

        def __getitem__(self, index):
            if self.broken:
                raise errors.UnreadableSource("it is broken")
            return values[index]

    source = Source()
    with pytest.raises(errors.UnreadableSource, match="it is broken"):
        vol_tool.write("d", "s", source, **ONE)
    source.broken = False
    assert same(vol_tool.write("d", "s", source, resume=True)[...], values)


def test_corrections(vol_tool, folder, request):
    """Boxes over what a scale holds, of an offset below 0, in one stream and in slabs."""
    values = random_array((12, 12, 12), "uint8")
    scale = vol_tool.write("d", "s", values, offset=(-3, 0, 7), sharding=(0, "murmur", 1, 1), **ONE, **CHUNK)
    for side, (x, y, z) in ((5, (2, 0, 3)), (11, (1, 1, 0))):
        part = random_array((side, side, side), "uint8", side)
        vol_tool.write("d", "s", part, at=(x - 3, y, z + 7))
        values[z : z + side, y : y + side, x : x + side] = part
        assert same(scale[...], values)
        request.getfixturevalue("small_slabs")
    outside = errors.OutsideScale
    for key, at, kind in [("s", (0, 0, 7), outside), ("s", (-4, 0, 7), outside), ("t", (0, 0, 7), errors.NoScale)]:
        with pytest.raises(kind):
            vol_tool.write("d", key, part, at=at)
    with pytest.raises(errors.UsageError):
        vol_tool.write("d", "s", part, at=(0, 0, 7), resume=True)


def put_sizes(side, *chunks):
    """Puts an info of a cube of bytes with several chunk sizes."""
    scale = {"key": "s", "size": [side] * 3, "chunk_sizes": list(chunks), "resolution": [1, 1, 1], "encoding": "raw"}
    info = {"type": "image", "data_type": "uint8", "num_channels": 1, "scales": [scale]}
    put_whole(pathlib.Path("d/info"), json.dumps(info).encode())


def test_several_chunk_sizes(vol_tool, folder, small_slabs, monkeypatch):
    """All are stored at once, also where that is more than a slab; the first is read, and nothing is put over them."""
    values = random_array((8, 8, 8), "uint8")
    put_sizes(8, [2, 4, 4], [4, 4, 4], [8, 8, 1])
    scale = vol_tool.write("d", "s", values)
    assert same(scale[...], values) and len(objects(folder / "d/s")) == 16 + 8 + 8
    assert tuple(vol_tool.verify("d", "s")) == (32, 32, 0)
    for put in (lambda: vol_tool.write("d", "s", values, at=(0, 0, 0)), lambda: scale.__setitem__(0, 1)):
        with pytest.raises(errors.SeveralChunkSizes):
            put()
    shutil.rmtree("d/s")
    scale[...] = values
    assert tuple(vol_tool.verify("d", "s")) == (32, 32, 0)
    shutil.rmtree("d/s")
    monkeypatch.setattr(writing, "MOST_BYTES", 400)
    with pytest.raises(errors.TooLarge, match="at most 400 bytes, and this one has 512"):
        vol_tool.write("d", "s", values)


TYPES = {
    "int8": 'astype("uint8")', "int64": 'astype("uint64")', "float32": 'astype("uint16")', "bool": 'astype("uint8")', "complex64": "abs",
}  # fmt: skip


@pytest.mark.parametrize("name", TYPES)
def test_types_that_are_not_stored(vol_tool, folder, name):
    """They are told, with a cast that does."""
    values = numpy.ones((4, 4, 4), name)
    with pytest.raises(errors.UnsupportedType, match=name) as found:
        vol_tool.write("d", "s", values, **ONE)
    assert TYPES[name] in found.value.line and not (folder / "d").exists()
    cast = {"abs": "uint8"}.get(TYPES[name]) or TYPES[name][8:-2]
    assert vol_tool.write("d", "s", abs(values).astype(cast), **ONE)[0, 0, 0] == 1


def test_arrays_that_do_not_fit(vol_tool, folder):
    values = random_array((4, 5, 6), "uint16")
    vol_tool.write("d", "s", values, **ONE)
    wrong = [
        (values[0], {}, errors.UsageError), (values[:0], {}, errors.UsageError), (values[:3], {}, errors.UnlikeScales),
        (values.astype("uint8"), {}, errors.UnlikeScales), (values[None].repeat(2, 0), {}, errors.UnlikeScales),
        (numpy.zeros((9, 5, 6, 3), "uint16"), {}, errors.UsageError), (values, {"axes": "yxz"}, errors.UsageError),
        (values, {"workers": 17}, errors.UsageError), (values, {"memory": 1}, errors.UsageError),
        (values, {"chunk": (0, 1, 1)}, errors.UsageError), (values, {"sharding": (1, "sha", 2, 3)}, errors.UsageError),
        (values, {"encoding": "jpeg"}, errors.UsageError),
        (numpy.zeros((1025, 1, 1, 1), "uint16"), {"axes": "czyx"}, errors.TooLarge),
    ]  # fmt: skip
    before = objects(folder)
    for given, how, kind in wrong:
        with pytest.raises(kind):
            vol_tool.write("d", "s", given, **how)
    lengths = {}, {"resolution": (0, 1, 1)}, {"resolution": (1, 1)}
    for how in (*lengths, {"offset": (0, 0, 1.5), **ONE}, {"encoding": LABELS["encoding"], **ONE}):
        with pytest.raises((errors.UsageError, errors.UnsupportedType)):
            vol_tool.write("d", "t", values, **how)
    for dataset, key in (("d", "../s"), ("d", "8 8 40"), ("d", "s" * 201), ("a b", "s"), ("-d", "s")):
        with pytest.raises(errors.UsageError):
            vol_tool.write(dataset, key, values, **ONE)
    assert objects(folder) == before


def test_lists_and_lengths(vol_tool):
    scale = vol_tool.write("d", "s", numpy.uint8([[[1, 2]]]), resolution=(4.5, 4.5, 40))
    assert scale.resolution == (4.5, 4.5, 40) and scale[0, 0].tolist() == [1, 2]
    with pytest.raises(errors.UnsupportedType, match="int64"):
        vol_tool.write("d", "t", [[[1, 2]]], **ONE)


def test_created_scales(vol_tool, folder, runs):
    """One that is created is empty, and its first box is written, each further one put over it."""
    scale = vol_tool.create("d", "s", size=(6, 5, 4), dtype="uint16", offset=(-1, 2, 3), **ONE, **CHUNK)
    assert scale.shape == (4, 5, 6) and not scale[...].any()
    scale[1:3, :, 2] = 7
    scale[0] = 9
    assert [command for command, _ in runs] == ["write", "update"]
    wanted = numpy.zeros((4, 5, 6), "uint16")
    wanted[1:3, :, 2], wanted[0] = 7, 9
    assert same(scale[...], wanted)
    for how, kind in [
        ({"dtype": "int8"}, errors.UnsupportedType), ({"dtype": "uint8"}, errors.UnlikeScales), ({"size": (0, 1, 1)}, errors.UsageError),
    ]:  # fmt: skip
        with pytest.raises(kind):
            vol_tool.create("d", "t", **{"size": (1, 1, 1), "dtype": "uint16", **ONE, **how})
    with pytest.raises(errors.UsageError, match="already"):
        vol_tool.create("d", "s", size=(6, 5, 4), dtype="uint16", **ONE)


@pytest.mark.parametrize("is_raw, in_shards", FORMS)
@pytest.mark.parametrize("axes", ["czyx", "xyzc"])
def test_assigned_values(vol_tool, is_raw, in_shards, axes):
    """As numpy assigns them, at whatever an index picks, in each form of scale."""
    _, values = stored_scale(11, is_raw, in_shards)
    scale, chance = vol_tool.open("d", axes=axes)["s"], random.Random(axes)
    values = numpy.array(values if axes == "czyx" else values.T)
    for number in range(8):
        index = random_index(chance, values.shape)
        shape = values[index].shape
        given = random_array(shape[chance.randint(0, len(shape)) :] if chance.random() < 0.3 else shape, values.dtype, number)
        scale[index] = given
        values[index] = given
        assert same(scale[...], values), index


def test_assignments_in_slabs(vol_tool, small_slabs, monkeypatch):
    monkeypatch.setattr(assigning, "MOST_SCRATCH", 300)
    values = random_array((10, 11, 12), "uint16")
    scale = vol_tool.create("d", "s", size=(12, 11, 10), dtype="uint16", **ONE, **CHUNK)
    scale[...] = values
    assert same(scale[...], values)
    for index in (numpy.s_[::2, 1:, ::-3], numpy.s_[1:9, 1:9, 1:9]):
        given = random_array(values[index].shape, "uint16", 5)
        scale[index] = given
        values[index] = given
        assert same(scale[...], values)


def test_values_of_other_types_that_are_assigned(vol_tool):
    scale = vol_tool.create("d", "s", size=(2, 2, 2), dtype="uint16", **ONE)
    scale[0] = numpy.ones((2, 2), bool)
    scale[1] = numpy.full((2, 2), 7, "int64")
    scale[1, 0, 0] = 65535
    scale[1, 0, 1] = numpy.uint64(9)
    assert scale[...].tolist() == [[[1, 1], [1, 1]], [[65535, 9], [7, 7]]]
    for given, told in [(1.0, "float64"), (65536, "65536"), (-1, "-1"), ("a", "str"), (None, "object"), (numpy.float32(1), "float32")]:
        with pytest.raises(errors.UnsupportedType, match=told):
            scale[0, 0, 0] = given
    with pytest.raises(ValueError) as wanted:
        numpy.zeros((2, 2, 2))[0] = numpy.zeros(3)
    with pytest.raises(errors.UsageError) as found:
        scale[0] = numpy.zeros(3, "uint8")
    assert str(found.value) == str(wanted.value)
    with pytest.raises(errors.OutsideScale):
        scale[2] = 0


def test_scales_that_are_only_read(vol_tool):
    from vol_tool.arrays import Scale
    from vol_tool.stores import Served

    scale = vol_tool.create("d", "s", size=(2, 2, 2), dtype="uint16", **ONE)
    served = Scale(Served("http://localhost:1", "localhost", 1), scale.store.info(), scale.info, "zyx")
    with pytest.raises(errors.UsageError, match="only read"):
        served[0] = 1
