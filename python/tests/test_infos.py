"""What is read of an info, and what is written."""
import json
import random

import pytest

from model.chance import FORMS, pick_sizes, pick_volume
from model.infos import scale_in
from vol_tool.errors import BadInfo, NoScale, TooLarge, UnsupportedType, UsageError
from vol_tool.infos import Info, Layout, Sharding, new_info, scale_member

SCALE = {"key": "s", "size": [2, 3, 4], "chunk_sizes": [[1, 2, 3]], "resolution": [8, 8.5, 40], "encoding": "raw"}
INFO = {"type": "image", "data_type": "UINT16", "num_channels": 2, "scales": [SCALE]}


@pytest.mark.parametrize("seed", range(40))
def test_infos_of_the_models(seed):
    chance = random.Random(seed)
    volume = pick_sizes(chance, pick_volume(chance, *FORMS[seed % 4]))
    info = Info.parse(volume.info(), "d/info")
    scale = info.scale("s")
    assert (info.channels, info.width, info.keys) == (volume.channels, volume.width, ["s"])
    assert (list(scale.size), scale.offset) == (volume.size, volume.offset)
    assert [list(chunk) for chunk in scale.chunk_sizes] == [volume.chunk, *volume.more]
    assert (scale.block, scale.is_sharded) == (volume.block, volume.sharding is not None)
    assert list(scale.grid()) == volume.grid
    assert [tuple(cell) for cell in scale.cells(scale.box)] == [tuple(volume.box_of(cell)) for cell in volume.cells]


@pytest.mark.parametrize("seed", range(20))
def test_infos_that_are_written_are_the_models(seed):
    """The model reads in a new info what it has in its own."""
    chance = random.Random(seed)
    volume = pick_volume(chance, *FORMS[seed % 4])
    hashes = {False: "identity", True: "murmur"}
    one = volume.sharding
    sharding = one and Sharding(one.preshift, hashes[one.murmur], one.minishard_bits, one.shard_bits)
    encoding = "compressed_segmentation" if volume.block else "raw"
    layout = Layout.of(volume.chunk, encoding, volume.block or (8, 8, 8), sharding)
    member = scale_member("s", tuple(volume.size), volume.offset, (8, 8, 40), layout)
    info = new_info("d/info", f"uint{8 * volume.width}", volume.channels, False).with_scale(member)
    assert scale_in(info.content()) == volume


def test_members():
    info = Info.parse(json.dumps(INFO), "d/info")
    assert (info.data_type, info.width, info.kind) == ("uint16", 2, "image")
    assert (info.scale("s").offset, info.scale("s").resolution) == ((0, 0, 0), (8, 8.5, 40))
    with pytest.raises(NoScale):
        info.scale("t")
    with pytest.raises(KeyError):
        info.scale("t")


BROKEN = [b"{", b"[]", b"{}", json.dumps({**INFO, "num_channels": 0}), json.dumps({**INFO, "scales": 1}), b"\xff"]


@pytest.mark.parametrize("content", BROKEN)
def test_no_infos(content):
    with pytest.raises(BadInfo):
        Info.parse(content, "d/info")


@pytest.mark.parametrize("member, value", [
    ("size", [1, 2]), ("size", [0, 1, 1]), ("size", [1.0, 1, 1]), ("size", None), ("voxel_offset", None), ("voxel_offset", [0, 0, True]),
    ("chunk_sizes", []), ("chunk_sizes", [[1, 1]]), ("chunk_sizes", [1, 1, 1]), ("encoding", 3), ("resolution", [1, 2]),
])  # fmt: skip
def test_broken_scales(member, value):
    """They are told, and are in the way of no other scale."""
    info = Info.parse({**INFO, "scales": [{**SCALE, "key": "t", member: value}, SCALE, 3, {}]}, "d/info")
    assert info.keys == ["t", "s"] and info.scale("s").key == "s"
    with pytest.raises(BadInfo, match=member):
        info.scale("t")


def test_other_types():
    info = Info.parse({**INFO, "data_type": "float32"}, "d/info")
    with pytest.raises(UnsupportedType, match="float32"):
        info.width


NO_SHARDINGS = ["1,identity,2", "1,sha,2,3", (1, "murmur", 2), (65, "murmur", 0, 0), (0, "murmur", 25, 0), "a,murmur,1,1", 5]


@pytest.mark.parametrize("given", NO_SHARDINGS)
def test_no_shardings(given):
    with pytest.raises(UsageError):
        Sharding.of(given)


def test_shardings():
    assert Sharding.of("1,murmur,2,3") == Sharding.of((1, "murmur", 2, 3)) == Sharding.of([1, "murmur", 2, 3])
    assert Sharding.of("1,murmur,2,3").member()["hash"] == "murmurhash3_x86_128"


@pytest.mark.parametrize("words, kind", [
    (((64, 64), "raw", (8, 8, 8), None), UsageError), (((64, 64, 0), "raw", (8, 8, 8), None), UsageError),
    (((64, 64, 64), "jpeg", (8, 8, 8), None), UsageError), (((64, 64, 64), "raw", (8, 8, 1.5), None), UsageError),
])  # fmt: skip
def test_no_layouts(words, kind):
    with pytest.raises(kind):
        Layout.of(*words)


def test_chunks_past_the_limits():
    with pytest.raises(TooLarge):
        Layout.of((1024, 1024, 1024), "raw", (8, 8, 8), None).check((2000, 2000, 2000), 1, "uint8")
    with pytest.raises(TooLarge):
        Layout.of((256, 256, 256), "compressed_segmentation", (8, 8, 8), None).check((256, 256, 256), 1, "uint32")
    with pytest.raises(UnsupportedType, match="astype"):
        Layout.of((64, 64, 64), "compressed_segmentation", (8, 8, 8), None).check((64, 64, 64), 1, "uint16")
    Layout.of((1024, 1024, 1024), "raw", (8, 8, 8), None).check((20, 20, 20), 1, "uint8")
