"""Scales as others take them: dask, and what napari asks of an array."""
import numpy
import pytest

from trials import FORMS, random_array, same, stored_scale

CHUNK = (4, 4, 4)


@pytest.mark.parametrize("is_raw, in_shards", FORMS)
def test_dask_arrays(vol_tool, is_raw, in_shards):
    dask_array = pytest.importorskip("dask.array", reason="python3-dask isn't installed")
    _, values = stored_scale(5, is_raw, in_shards)
    scale = vol_tool.open("d", axes="czyx")["s"]
    found = dask_array.from_array(scale, chunks=scale.chunks)
    assert (found.shape, found.dtype) == (values.shape, values.dtype)
    assert same(found.compute(), values)
    assert int(found.sum().compute()) == int(values.sum(dtype="uint64"))
    assert same(found[:, ::-1, -1].compute(), values[:, ::-1, -1])


def test_dask_arrays_go_in(vol_tool):
    dask_array = pytest.importorskip("dask.array", reason="python3-dask isn't installed")
    values = random_array((9, 10, 11), "uint16")
    scale = vol_tool.write("d", "s", dask_array.from_array(values, chunks=(4, 5, 11)), resolution=(1, 1, 1), chunk=CHUNK)
    assert same(scale[...], values)
    doubled = dask_array.from_array(scale, chunks=scale.chunks) // 2
    assert same(vol_tool.write("d", "t", doubled, resolution=(1, 1, 1), chunk=CHUNK)[...], values // 2)


def test_what_napari_asks(vol_tool):
    """A layer takes what has a shape, a type and numpy's indexing; it reads planes by numbers and slices, and asks numpy for an array."""
    values = random_array((9, 10, 11), "uint8")
    scale = vol_tool.write("d", "s", values, resolution=(8, 8, 40), chunk=CHUNK)
    assert scale.ndim == len(scale.shape) == 3 and scale.dtype.kind == "u"
    for index in ((3, slice(None), slice(None)), (slice(None), 2, slice(None, None, 2)), (numpy.int64(-1), Ellipsis)):
        assert same(numpy.asarray(scale[index]), values[index])
    assert same(numpy.asarray(scale, "float32"), values.astype("float32"))
    assert [same(plane, wanted) for plane, wanted in zip(scale, values)] == [True] * 9
