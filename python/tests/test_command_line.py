"""The command `volume`: what it does, prints and ends with."""
import os
import re
import signal
import subprocess
import sys
import time

import numpy
import pytest

from conftest import ROOT, need_program
from trials import random_array, same
from vol_tool.command_line import COMMANDS

VOLUME = [sys.executable, str(ROOT / "bin/volume")]


def volume(*words, **environment):
    """The status, the output and the error output of a call; its words, or a text of them."""
    words = words[0].split() if len(words) == 1 else words
    found = subprocess.run([*VOLUME, *words], capture_output=True, text=True, stdin=subprocess.DEVNULL, env={**os.environ, **environment})
    return found.returncode, found.stdout, found.stderr


@pytest.fixture
def image(vol_tool):
    """An array in a file."""
    values = random_array((12, 12, 12), "uint8")
    numpy.save("in.npy", values)
    return values


@pytest.mark.parametrize("name", COMMANDS)
def test_help(name):
    """It has an example, of which the words are read."""
    status, out, errors = volume(name, "--help")
    assert (status, errors) == (0, "")
    assert f"for example:\n    volume {name} " in out
    from vol_tool.command_line import _join_numbers, parser_of_all

    for line in re.findall(r"^    volume (.*)$", out, re.MULTILINE):
        words = [word.strip("'") for word in line.split()]
        assert parser_of_all().parse_args(_join_numbers(words)).command == name


def test_all_commands_are_told():
    status, out, _ = volume("--help")
    assert status == 0 and all(f"\n    {name} " in out for name in COMMANDS)


def test_version():
    """The version and the kit of the package, and between them the commit where it is in a checkout of git."""
    import vol_tool

    status, out, errors = volume("--version")
    first, *commit, last = out.splitlines()
    assert (status, errors) == (0, "")
    assert (first, last) == (f"vol_tool {vol_tool.__version__}", f"kit {vol_tool.__kit__}")
    assert all(re.fullmatch("commit [0-9a-f]{12}", line) for line in commit) and len(commit) == (ROOT / ".git").exists()


def test_commit(tmp_path):
    """The commit of what was installed, and none where nothing says it."""
    from vol_tool.versions import find_commit

    assert find_commit(tmp_path) == ""
    (tmp_path / "commit").write_text("0123456789ab\n")
    assert find_commit(tmp_path) == "0123456789ab"


def test_in_and_out(image, vol_tool):
    assert volume("put in.npy d s --resolution 8,8,40 --chunk 4,4,4 --offset -3,0,7") == (0, "objects 27 cells 27\n", "")
    assert volume("get d s all out.npy") == (0, "", "")
    assert same(numpy.load("out.npy"), image)
    assert volume("get", "d", "s", "[-3:-1,0:1,7:9]", "box.npy", "--axes", "xyz") == (0, "", "")
    assert same(numpy.load("box.npy"), image.T[:2, :1, :2])
    assert volume("verify d s") == (0, "cells 27 stored 27 absent 0\n", "")
    assert volume("put box.npy d s --axes xyz --at -1,0,7") == (0, "objects 1 cells 1\n", "")
    assert same(vol_tool.open("d", axes="xyz")["s"][2:4, :1, :2], image.T[:2, :1, :2])


def test_pyramids_and_layouts(image):
    volume("put in.npy d s --resolution 1,1,1 --chunk 4,4,4")
    assert volume("pyramid d s") == (0, "s_2 6x6x6 mean: objects 8 cells 8\ns_4 3x3x3 mean: objects 1 cells 1\n", "")
    assert volume("pyramid d s") == (0, "s: no scale is left to make\n", "")
    assert volume("add d s t --chunk 6,6,6 --sharding 0,identity,1,1") == (0, "", "")
    assert volume("verify d t") == (0, "cells 8 stored 0 absent 8\n", "")


def test_info(image):
    volume("put in.npy d s --resolution 8,8,40 --chunk 4,4,4")
    volume("add d s t --chunk 6,6,6 --sharding 0,identity,1,1")
    first, second = "s: 12x12x12 from 0,0,0, 8,8,40 nm, raw, chunks 4x4x4", "t: 12x12x12 from 0,0,0, 8,8,40 nm, raw, chunks 6x6x6 in shards"
    stored = "27 of 27 cells stored, 27 files of 1.7 KiB", "0 of 8 cells stored, 0 files of 0 B"
    head = "d: image of uint8, 1 channel"
    assert volume("info d") == (0, f"{head}\n{first}; {stored[0]}\n{second}; {stored[1]}\n", "")
    assert volume("info d t") == (0, f"{head}\n{second}; {stored[1]}\n", "")
    assert volume("info d --quick") == (0, f"{head}\n{first}\n{second}\n", "")
    with open("d/s/0-4_0-4_0-4", "wb"):
        pass
    status, out, errors = volume("info d")
    assert (status, errors) == (4, "") and "27 files of 1.6 KiB; damaged 0,0,0: chunk length 0 wanted 64\n" in out and second in out


# Mistakes: the words, the status, and what is told.
MISTAKES = [
    ("put none.npy d s --resolution 1,1,1", 1, "none.npy"),
    ("put float.npy d s --resolution 1,1,1", 1, "float32"),
    ("put in.npy d t", 1, "resolution"),
    ("put in.npy d s", 3, "folder not empty"),
    ("put in.npy e s --at 0,0,0", 1, "there is no e/info"),
    ("put in.npy d t --at 0,0,0", 1, "no scale t"),
    ("put in.npy d s --at 1,0,0", 1, "doesn't lie"),
    ("put in.npy 'd s", 1, "'d"),
    ("put in.npy d t --resolution 1,1,1 --encoding compressed_segmentation", 1, "uint8"),
    ("get d s [0:99,0:1,0:1] out.npy", 3, "outside"),
    ("get d s [0:1,0:1] out.npy", 1, "no box"),
    ("get d t all out.npy", 1, "no scale t"),
    ("get e s all out.npy", 1, "there is no e/info"),
    ("get d s all none/out.npy", 1, "none/out.npy: No such file or directory"),
    ("get ftp://host s all out.npy", 1, "no link"),
    ("verify d t", 2, "scale absent"),
    ("verify e s", 2, "absent"),
    ("add d s s", 1, "already"),
    ("pyramid d t", 1, "no scale t"),
    ("view e", 1, "e/info"),
    ("view d t", 1, "no scale t"),
    ("info e", 1, "e/info"),
    ("info d t", 1, "no scale t"),
    ("fetch x d", 1, "x is no link"),
    ("put in.npy gs://bucket/v s --resolution 1,1,1", 1, "gs://bucket/v is a link, and a folder"),
    ("fetch https://host/v gs://bucket/v", 1, "gs://bucket/v is a link, and a folder"),
    ("fetch https://host/v d s", 1, "KEY BOX"),
]

# Words that are none.
NO_WORDS = [
    "", "cut", "put in.npy", "put in.npy d s --resolution 1,1", "put in.npy d s --resolution 0,1,1", "put in.npy d s --chunk 0,1,1",
    "put in.npy d s --workers 17", "put in.npy d s --sharding 1,sha,1,1", "put in.npy d s --encoding jpeg", "put in.npy d s --axes yxz",
    "put in.npy d s --resume --at 0,0,0", "put in.npy d s --memory 127", "pyramid d s --levels 0", "pyramid d s --method median",
    "view d --port 65536", "serve d --workers 0", "get d s all", "info", "put in.npy d s --resolutoin 1,1,1", "verify d s all more",
]  # fmt: skip


@pytest.mark.parametrize("words, status, told", MISTAKES)
def test_mistakes(image, words, status, told):
    """One line says what is wrong; nothing is changed."""
    numpy.save("float.npy", image.astype("float32"))
    volume("put in.npy d s --resolution 1,1,1")
    before = {path: path.read_bytes() for path in sorted(ROOT.__class__(".").rglob("*")) if path.is_file()}
    found, out, errors = volume(words)
    assert (found, out) == (status, ""), errors
    assert errors.startswith("volume: ") and errors.count("\n") == 1 and told in errors and "Traceback" not in errors
    assert before == {path: path.read_bytes() for path in sorted(ROOT.__class__(".").rglob("*")) if path.is_file()}


@pytest.mark.parametrize("words", NO_WORDS)
def test_words_that_are_none(folder, words):
    """The usage is that of the command, where there is one."""
    status, out, errors = volume(words)
    command = words.split(" ")[0]
    usage = f"usage: volume {command}" if command in COMMANDS else "usage: volume"
    assert (status, out) == (2, "") and usage in errors and "Traceback" not in errors


def test_no_program(image):
    status, out, errors = volume("put", "in.npy", "d", "s", "--resolution", "1,1,1", VOL_TOOL="/none/vol_tool")
    assert (status, out) == (1, "") and errors == "volume: /none/vol_tool: No such file or directory\n"
    assert not os.path.exists("d/info")


def test_ctrl_c_in_a_put(image):
    """It tells how it goes on, and it does. The stand-in interrupts all of its session, as a terminal does."""
    with open("stand_in", "w") as file:
        file.write("#!/bin/sh\ntrap 'exit 130' INT\nkill -INT 0\nwhile :; do sleep 0.1; done\n")
    os.chmod("stand_in", 0o755)
    words = [*VOLUME, *"put in.npy d s --resolution 1,1,1".split()]
    found = subprocess.run(
        ["setsid", "-w", *words], capture_output=True, text=True, env={**os.environ, "VOL_TOOL": "./stand_in"},
        preexec_fn=lambda: signal.signal(signal.SIGINT, signal.default_int_handler),
    )  # fmt: skip
    assert (found.returncode, found.stdout) == (1, "") and "--resume go on" in found.stderr.replace("with resume goes on", "--resume go on")
    assert volume("put in.npy d s --resume")[0] == 0


def test_serve(image):
    """It is the program's server, and ends with it."""
    need_program("vol_serve")
    volume("put in.npy d s --resolution 1,1,1")
    server = subprocess.Popen([*VOLUME, "serve", "d", "--port=0"], stdout=subprocess.PIPE, text=True)
    try:
        port = re.fullmatch(r"listening (\d+)\n", server.stdout.readline())[1]
        status, out, errors = volume(f"info http://localhost:{port}")
        assert (status, out, errors) == (0, "s 12x12x12 uint8 raw: can be read\n", "")
        need_program("vol_fetch")
        assert volume("get", f"http://localhost:{port}", "s", "[1:3,0:2,0:1]", "out.npy") == (0, "", "")
        assert same(numpy.load("out.npy"), image[:1, :2, 1:3])
    finally:
        server.terminate()
        server.wait()
        server.stdout.close()


def test_quiet_without_a_terminal(image):
    """No progress is told where the error output is no terminal."""
    begin = time.monotonic()
    assert volume("put in.npy d s --resolution 1,1,1")[2] == ""
    assert time.monotonic() - begin < 60
