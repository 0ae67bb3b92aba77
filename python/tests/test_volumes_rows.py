"""What the command `volume` does on a terminal, where files can't grow or aren't whole, by links, and over scales of several kinds."""
import json
import os
import pathlib
import shutil
import sys

import numpy
import pytest

from conftest import ROOT
from harness import call, call_on_terminal, put_program
from servers import Plain, free_port, running
from trials import random_array, same
from vol_tool import errors, writing

VOLUME = [sys.executable, str(ROOT / "bin/volume")]
ONE = {"resolution": (1, 1, 1)}
CHUNK = {"chunk": (4, 4, 4)}
CUBE = {"size": [4, 4, 1], "chunk_sizes": [[2, 2, 1]], "resolution": [1, 1, 1], "encoding": "raw"}


def volume(words, **environment):
    """The status, the output and the error output of a call."""
    return call([*VOLUME, *words.split()], ".", **environment)


def on_terminal(words):
    """The same where the error output is a terminal."""
    return call_on_terminal([*VOLUME, *words.split()], ".")


def files(folder="."):
    """All files below a folder, with their bytes."""
    return {str(path.relative_to(folder)): path.read_bytes() for path in sorted(pathlib.Path(folder).rglob("*")) if path.is_file()}


def mean(values):
    """A cube of an even side, halved by means."""
    half = values.shape[0] // 2
    return (values.reshape([half, 2] * 3).astype("uint64").sum(axis=(1, 3, 5)) // 8).astype(values.dtype)


def fails(number, status):
    """The path of a program whose run of this number ends with a status once it has read its stream; the others are those of vol_tool."""
    from vol_tool.programs import program

    pathlib.Path("fails.count").write_text("0")
    counted = "n=$(cat $0.count) && echo $((n + 1)) >$0.count"
    text = f'#!/bin/sh\n{counted}\n[ $n -eq {number} ] && cat >/dev/null && exit {status}\nexec {program("vol_tool")} "$@"\n'
    return str(put_program(pathlib.Path("fails").resolve(), text))


@pytest.fixture
def info(vol_tool):
    """Puts an info of a cube of bytes with several chunk sizes, and of further scales by their keys; gives it."""

    def put(side, *chunks, **scales):
        whole = {"size": [side] * 3, "chunk_sizes": list(chunks), "resolution": [1, 1, 1], "encoding": "raw"}
        members = [{"key": key, **whole, **scale} for key, scale in {"s": {}, **scales}.items()]
        content = {"type": "image", "data_type": "uint8", "num_channels": 1, "scales": members}
        os.makedirs("d", exist_ok=True)
        pathlib.Path("d/info").write_text(json.dumps(content))
        return content

    return put


def read_info(dataset="d"):
    return json.loads(pathlib.Path(dataset, "info").read_text())


# On a terminal


@pytest.mark.parametrize("more", ["", " --resume"])
def test_a_second_put_on_a_terminal(vol_tool, more):
    """It is told what can be done; one to go on, too, where nothing was broken off."""
    numpy.save("in.npy", random_array((2, 2, 2), "uint8"))
    assert volume("put in.npy d s --resolution 1,1,1")[0] == 0
    status, out, text = on_terminal(f"put in.npy d s{more}")
    assert (status, out) == (3, "") and "volume: folder not empty\r\n" in text and "d/s holds an array: remove this folder" in text


@pytest.mark.parametrize("is_damaged", [False, True])
def test_a_pyramid_on_a_terminal(vol_tool, is_damaged):
    """How far a level is; the program's line follows where it is refused."""
    pytest.importorskip("tqdm", reason="python3-tqdm isn't installed")
    vol_tool.write("d", "s", random_array((12, 12, 12), "uint8"), **ONE, **CHUNK)
    if is_damaged:
        pathlib.Path("d/s/0-4_0-4_0-4").write_bytes(b"")
    status, out, text = on_terminal("pyramid d s --levels 1")
    assert (status, out) == ((4, "") if is_damaged else (0, "s_2 6x6x6 mean: objects 8 cells 8\n"))
    assert "s_2: " in text and "/8" in text
    assert text.endswith("volume: damaged 0,0,0: chunk length 0 wanted 64\r\n") == is_damaged


def test_a_put_on_a_terminal(vol_tool):
    """How far it is, which is gone at the end; and nothing of it where the output alone is no terminal."""
    pytest.importorskip("tqdm", reason="python3-tqdm isn't installed")
    numpy.save("in.npy", random_array((12, 12, 12), "uint8"))
    status, out, text = on_terminal("put in.npy d s --resolution 1,1,1")
    assert (status, out) == (0, "objects 1 cells 1\n") and "s: " in text and "\n" not in text.strip("\r\n")


# Files that aren't whole, and that can't grow

BROKEN = {"text.npy": lambda whole: b"1 2 3\n", "front.npy": lambda whole: whole[:9], "head.npy": lambda whole: whole[:60],
          "cut.npy": lambda whole: whole[:-1], "none.npy": None, "folder.npy": None}  # fmt: skip


@pytest.mark.parametrize("name", BROKEN)
def test_arrays_that_are_not_whole(vol_tool, name):
    """A line names the file, and nothing is made."""
    numpy.save("in.npy", random_array((2, 2, 2), "uint8"))
    if BROKEN[name]:
        pathlib.Path(name).write_bytes(BROKEN[name](pathlib.Path("in.npy").read_bytes()))
    elif name == "folder.npy":
        os.mkdir(name)
    status, out, told = volume(f"put {name} d s --resolution 1,1,1")
    assert (status, out, told.count("\n")) == (1, "", 1) and told.startswith("volume: ") and name in told
    assert not os.path.exists("d")


def test_a_file_that_can_not_grow(vol_tool):
    """It is told, and nothing is left of it."""
    vol_tool.write("d", "s", random_array((2, 2, 2), "uint8"), **ONE)
    words = ["bash", "-c", "ulimit -f 0; trap '' XFSZ; exec \"$@\"", "-", *VOLUME, *"get d s all out.npy".split()]
    assert call(words, ".", PYTHONDONTWRITEBYTECODE="1") == (1, "", "volume: out.npy: File too large\n")
    assert not list(pathlib.Path(".").glob("out.npy*"))


INFOS = [[], {}, {"data_type": "float32", "num_channels": 1, "scales": []}, {"data_type": "uint8", "num_channels": 1, "scales": [{}]}]


@pytest.mark.parametrize("content", ["{", *map(json.dumps, INFOS)])
def test_infos_that_are_none(vol_tool, content):
    """Nothing is put, read or added, and all stays as it was."""
    numpy.save("in.npy", random_array((2, 2, 2), "uint8"))
    os.mkdir("d")
    pathlib.Path("d/info").write_text(content)
    before = files()
    for words in ("put in.npy d s", "get d s all out.npy", "add d s t", "pyramid d s"):
        status, out, told = volume(words)
        assert (status, out, told.count("\n")) == (1, "", 1) and told.startswith("volume: "), words
    assert files() == before


def test_an_info_that_others_made(vol_tool):
    """A type in capitals, as many channels as there may be, and a layout that the call's own wouldn't fit."""
    scale = {"key": "s", "size": [2, 2, 2], "chunk_sizes": [[1, 1, 1]], "resolution": [1, 1, 1], "encoding": "raw"}
    os.mkdir("d")
    pathlib.Path("d/info").write_text(json.dumps({"type": "image", "data_type": "UINT64", "num_channels": 1024, "scales": [scale]}))
    values = random_array((1024, 2, 2, 2), "uint64")
    found = vol_tool.write("d", "s", values, axes="czyx", encoding="compressed_segmentation", block=(128, 128, 128))
    assert same(found[...], values)


# Names and programs


@pytest.mark.parametrize("key", ["../s", "8 8 40", "s" * 201, "-s", ""])
def test_names_of_new_layouts(vol_tool, key):
    vol_tool.write("d", "s", random_array((2, 2, 2), "uint8"), **ONE)
    before = read_info()
    with pytest.raises(errors.UsageError):
        vol_tool.add("d", "s", key)
    assert read_info() == before


def test_a_program_that_can_not_be_built(vol_tool):
    """Nothing is left of a put."""
    numpy.save("in.npy", random_array((2, 2, 2), "uint8"))
    script = put_program(pathlib.Path("none").resolve(), "#!/bin/sh\nexit 125\n")
    assert volume("put in.npy d s --resolution 1,1,1", VOL_TOOL=str(script))[0] == 125
    assert not os.path.exists("d/info") and not os.path.exists("d/s")


def test_a_put_that_the_program_breaks_off(vol_tool):
    """The command says so again until it goes on; one that is to go on may begin, too."""
    values = random_array((4, 4, 4), "uint8")
    numpy.save("in.npy", values)
    words = "put in.npy d s --resolution 1,1,1"
    assert volume(words, VOL_TOOL=fails(0, 5))[0] == 5
    before = files()
    status, _, told = volume(words)
    assert status == 1 and "was broken off: resume goes on, or remove this folder first" in told and files() == before
    assert volume(f"{words} --resume") == (0, "objects 1 cells 1\n", "")
    assert volume(f"{words.replace(' s ', ' t ')} --resume") == (0, "objects 1 cells 1\n", "")
    assert files("d/s") == files("d/t") and same(vol_tool.open("d")["s"][...], values)


LAYOUTS = [{}, {"sharding": (1, "murmur", 1, 1)}, {"encoding": "compressed_segmentation", "block": (2, 2, 2)}]


@pytest.mark.parametrize("how", LAYOUTS)
def test_slabs_of_the_other_order_of_bytes(vol_tool, monkeypatch, how):
    """An array in a file, of which each value has its highest byte first, has in slabs the files of one that is put at once."""
    values = random_array((12, 12, 12), ">u4")
    numpy.save("in.npy", values)
    vol_tool.write("d", "at_once", values.astype("<u4"), **ONE, **CHUNK, **how)
    monkeypatch.setattr(writing, "most_of_slab", lambda *_: 400)
    assert same(vol_tool.write("d", "s", "in.npy", **ONE, **CHUNK, **how)[...], values.astype("<u4"))
    assert files("d/s") == files("d/at_once")


# Several chunk sizes


def test_several_chunk_sizes(vol_tool, info):
    """All are stored, the first one is read, and what is broken off begins again where its folder is removed."""
    values = random_array((4, 4, 4), "uint8")
    numpy.save("in.npy", values)
    before = info(4, [2, 4, 4], [4, 4, 4], [4, 4, 1])
    assert volume("put in.npy d s --chunk 3,3,3") == (0, "objects 7 cells 7\n", "")
    wanted = ["0-2_0-4_0-4", "0-4_0-4_0-1", "0-4_0-4_0-4", "0-4_0-4_1-2", "0-4_0-4_2-3", "0-4_0-4_3-4", "2-4_0-4_0-4"]
    assert (sorted(files("d/s")), read_info()) == (wanted, before)
    pathlib.Path("d/s/0-4_0-4_0-4").write_bytes(b"")
    assert same(vol_tool.open("d")["s"][...], values)
    assert "has several chunk sizes, and nothing is put over it" in volume("put in.npy d s --at 0,0,0")[2]
    shutil.rmtree("d/s")
    assert volume("put in.npy d s", VOL_TOOL=fails(0, 5))[0] == 5
    for more in ("", " --resume"):
        status, _, told = volume(f"put in.npy d s{more}")
        assert status == 1 and "d/s was broken off: remove this folder first" in told
    shutil.rmtree("d/s")
    assert volume("put in.npy d s --resume")[0] == 0


def test_coarser_scales_of_several_chunk_sizes(vol_tool, info):
    """One is made of the first chunk size, and in it; one that is in the info with several isn't made, or stays."""
    values = random_array((8, 8, 8), "uint8")
    info(8, [4, 4, 4], [8, 8, 8])
    vol_tool.write("d", "s", values)
    pathlib.Path("d/s/0-8_0-8_0-8").write_bytes(b"")
    assert vol_tool.pyramid("d", "s") == ["s_2"]
    assert read_info()["scales"][1]["chunk_sizes"] == [[4, 4, 4]]
    assert files("d/s_2") == {"0-4_0-4_0-4": mean(values).tobytes()}
    info(8, [4, 4, 4], [8, 8, 8], s_2={"size": [4] * 3, "chunk_sizes": [[4, 4, 4], [2, 2, 2]]})
    assert vol_tool.pyramid("d", "s") == []
    shutil.rmtree("d/s_2")
    with pytest.raises(errors.SeveralChunkSizes, match="has several chunk sizes, and isn't made so"):
        vol_tool.pyramid("d", "s")


# Pyramids over what is there


def test_another_scale_of_a_coarser_ones_key(vol_tool, info):
    info(12, [4, 4, 4], s_2={})
    before = files()
    with pytest.raises(errors.UsageError, match="a scale s_2 already"):
        vol_tool.pyramid("d", "s", levels=1)
    assert files() == before


def test_coarser_scales_that_are_there(vol_tool):
    """They stay, in their layout, also one that is to be filled anew."""
    values = random_array((12, 12, 12), "uint8")
    vol_tool.write("d", "s", values, **ONE, **CHUNK)
    assert vol_tool.pyramid("d", "s") == ["s_2", "s_4"]
    halved = mean(values)
    pathlib.Path("d/s_2/0-4_0-4_0-4").write_bytes(bytes(64))
    shutil.rmtree("d/s_4")
    content = read_info()
    content["scales"][2]["chunk_sizes"] = [[3, 3, 2]]
    pathlib.Path("d/info").write_text(json.dumps(content))
    assert vol_tool.pyramid("d", "s", levels=2) == ["s_4"]
    halved[:4, :4, :4] = 0
    wanted = mean(halved)
    assert files("d/s_4") == {"0-3_0-3_0-2": wanted[:2].tobytes(), "0-3_0-3_2-3": wanted[2:].tobytes()}
    assert read_info() == content


def test_a_level_that_is_broken_off(vol_tool):
    """The info is put back to what is whole; files that a run left are told, and those of a run that was killed."""
    vol_tool.write("d", "s", random_array((12, 12, 12), "uint8"), **ONE, **CHUNK)
    before, half, quarter = files("d"), "s_2 6x6x6 mean: objects 8 cells 8\n", "s_4 3x3x3 mean: objects 1 cells 1\n"
    assert volume("pyramid d s", VOL_TOOL=fails(0, 5))[:2] == (5, "") and files("d") == before
    assert volume("pyramid d s", VOL_TOOL=fails(1, 5))[:2] == (5, half)
    assert [scale["key"] for scale in read_info()["scales"]] == ["s", "s_2"] and not os.path.exists("d/s_4")
    pathlib.Path("d/s_2/4-6_4-6_4-6").write_bytes(b"")
    assert volume("pyramid d s") == (4, "", "volume: damaged 1,1,1: chunk length 0 wanted 8\n")
    os.makedirs("d/s_4", exist_ok=True)
    pathlib.Path("d/s_4/pyramid.part").touch()
    pathlib.Path("d/s_4/0-3_0-3_0-3").write_bytes(bytes(27))
    status, out, told = volume("pyramid d s")
    assert (status, out) == (1, "") and "d/s_4 isn't whole" in told
    for key in ("s_2", "s_4"):
        shutil.rmtree(f"d/{key}")
    assert volume("pyramid d s") == (0, half + quarter, "")


# Copies of what a server has


@pytest.fixture
def link(vol_tool):
    """A server of a scale of which a chunk is absent, by its link; it stands in the folder `far`."""
    pytest.importorskip("urllib3", reason="urllib3 isn't installed")
    scales = [{"key": "s", **CUBE}, {"key": "t", **CUBE, "chunk_sizes": [[2, 2, 1]] * 9}, {"key": "u", **CUBE, "encoding": "jpeg"}]
    info = {"type": "image", "data_type": "uint8", "num_channels": 1, "scales": scales}
    os.makedirs("far/v/s")
    pathlib.Path("far/v/info").write_text(json.dumps(info))
    for number, name in enumerate(("0-2_0-2_0-1", "2-4_0-2_0-1", "0-2_2-4_0-1")):
        pathlib.Path("far/v/s", name).write_bytes(bytes(range(4 * number, 4 * number + 4)))
    with running(Plain, folder=pathlib.Path("far"), knows_ranges=True) as server:
        yield f"http://127.0.0.1:{server.server_port}/v"


def test_fetch(link):
    """It tells which scales can be read, copies, and goes on where a copy broke off."""
    nine = f"chunk_sizes {[[2, 2, 1]] * 9}"
    lines = f"s 4x4x1 uint8 raw: can be read\nt 4x4x1 uint8 raw: not read: {nine}\nu 4x4x1 uint8 jpeg: not read: encoding jpeg\n"
    assert volume(f"fetch {link} d") == (0, lines, "")
    assert volume(f"fetch {link} d s [0:4,0:4,0:1]") == (0, "copied 3 absent 1\n", "")
    assert files("d") == files("far/v")
    os.remove("d/s/0-2_0-2_0-1")
    assert volume(f"fetch {link} d s all") == (0, "copied 1 absent 1 kept 2\n", "")
    assert files("d") == files("far/v")
    assert volume(f"fetch {link}/info e s all")[:2] == (0, "copied 3 absent 1\n")


def test_mistakes_in_a_fetch(link):
    """One line says what is wrong, and nothing is copied."""
    gone = f"http://127.0.0.1:{free_port()}/v"
    assert volume(f"fetch {link} d")[0] == 0
    before = files("d")
    for words, wanted, told in [
        (f"{link} d s [0:5,0:4,0:1]", 3, "outside [0:4,0:4,0:1]"), (f"{link} d s [0:4,0:4]", 1, "no box"),
        (f"{link} d w all", 1, "no scale w"), (f"{link} d u all", 1, "encoding jpeg"), (f"{gone} d s all", 1, gone),
        (f"{link}/w e", 1, f"{link}/w/info"),
    ]:  # fmt: skip
        status, out, line = volume(f"fetch {words}")
        assert (status, out, line.count("\n")) == (wanted, "", 1) and line.startswith("volume: ") and told in line, line
    assert files("d") == before and not os.path.exists("e/info")
