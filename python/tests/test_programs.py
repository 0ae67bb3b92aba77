"""Where programs are found, how data sets are named to them, and what runs of them end with."""
import os

import pytest

from vol_tool import errors, programs
from vol_tool.programs import is_name, place_of, program, run


def put_script(path, text="exit 0"):
    path.parent.mkdir(parents=True, exist_ok=True)
    path.write_text(f"#!/bin/sh\n{text}\n")
    path.chmod(0o755)
    return path


@pytest.mark.parametrize("text", ["d", "a/b", "8_8_40", "d.x", "x-y", "a" * 200])
def test_names(text):
    assert is_name(text)


@pytest.mark.parametrize("text", ["", "/d", "d/", "./d", "../d", "a/../b", "a//b", "a b", "-d", "a" * 201, "é", "a/."])
def test_no_names(text):
    assert not is_name(text)


def test_places(folder):
    assert place_of("d") == (str(folder), "d")
    assert place_of("a/d") == (str(folder), "a/d")
    for text in ("./d", "d/", f"{folder}/d", "x/../d", folder / "d"):
        assert place_of(text) == (str(folder), "d") and place_of(text).path == folder / "d"
    os.environ["HOME"] = str(folder)
    assert place_of("~/a/d") == (f"{folder}/a", "d")
    for text in ("a b", "/", "-d", f"{folder}/ä", "http://host/v", "gs://bucket/v", "precomputed://http://host:80"):
        with pytest.raises(errors.UsageError):
            place_of(text)


def test_a_program_that_is_named(folder, monkeypatch):
    """By its path, from the current folder on, or by its name in PATH."""
    path = put_script(folder / "bin/mine")
    for name in (str(path), "bin/mine", "./bin/mine"):
        monkeypatch.setenv("VOL_FETCH", name)
        assert program("vol_fetch") == str(path)
    monkeypatch.setenv("PATH", f"{folder}/bin:{os.environ['PATH']}")
    monkeypatch.setenv("VOL_FETCH", "mine")
    assert program("vol_fetch") == str(path)


@pytest.fixture
def tree(folder, monkeypatch):
    """The package alone in a folder of another tree, and no other program in reach."""
    for name in ("VOL_TOOL", "VOL_FETCH", "VOL_SERVE"):
        monkeypatch.delenv(name, raising=False)
    monkeypatch.setattr(programs, "__file__", str(folder / "share/vol_tool/python/vol_tool/programs.py"))
    monkeypatch.setenv("PATH", "/usr/bin:/bin")
    programs._search.cache_clear()
    yield folder
    programs._search.cache_clear()


def test_installed_programs(tree):
    with pytest.raises(errors.MissingProgram, match="VOL_TOOL"):
        program("vol_tool")
    path = put_script(tree / "libexec/vol_tool")
    assert program("vol_tool") == str(path)


def test_programs_of_a_checkout(tree, monkeypatch):
    """One that isn't built isn't built here: what does it is told."""
    monkeypatch.setattr(programs, "__file__", str(tree / "python/vol_tool/programs.py"))
    put_script(tree / "bin/programs.sh")
    (tree / "crates/vol_tool").mkdir(parents=True)
    with pytest.raises(errors.MissingProgram, match="bin/vol_tool --build"):
        program("vol_tool")
    path = put_script(tree / "crates/vol_tool/out/vol_tool")
    assert program("vol_tool") == str(path)


def test_programs_in_path(tree, monkeypatch):
    """A script that stands before an installed program isn't run for each box."""
    script = put_script(tree / "other/bin/vol_tool")
    monkeypatch.setenv("PATH", f"{script.parent}:/usr/bin:/bin")
    assert program("vol_tool") == str(script)
    programs._search.cache_clear()
    path = put_script(tree / "other/libexec/vol_tool")
    assert program("vol_tool") == str(path)


def test_runs(folder, monkeypatch):
    path = put_script(folder / "tool", 'echo "$PWD $*"; exit 0')
    monkeypatch.setenv("VOL_TOOL", str(path))
    (folder / "a").mkdir()
    assert run("vol_tool", ["verify", "d"], str(folder / "a")) == f"{folder}/a verify d"
    put_script(path, "echo first >&2; echo 'damaged 0,0,0: chunk length 0 wanted 1' >&2; exit 4")
    with pytest.raises(errors.Damaged) as found:
        run("vol_tool", [])
    assert (found.value.status, found.value.line) == (4, "damaged 0,0,0: chunk length 0 wanted 1")


def test_many_lines_of_errors(folder, monkeypatch):
    """What the error output has doesn't stop a program, however much it is."""
    path = put_script(folder / "tool", "head -c 1000000 /dev/zero | tr '\\0' x >&2; echo >&2; echo out; exit 0")
    monkeypatch.setenv("VOL_TOOL", str(path))
    assert run("vol_tool", []) == "out"


def test_a_run_that_is_left(folder, monkeypatch):
    """It is ended, and nothing of it stays open."""
    path = put_script(folder / "tool", "exec sleep 100")
    monkeypatch.setenv("VOL_TOOL", str(path))
    before = os.listdir("/proc/self/fd")
    with pytest.raises(KeyboardInterrupt):
        with programs.Run("vol_tool", [], stdout=-1, stdin=-1) as left:
            raise KeyboardInterrupt
    assert left.tool.returncode == -9
    assert len(os.listdir("/proc/self/fd")) == len(before)
    monkeypatch.setenv("VOL_TOOL", str(folder / "none"))
    with pytest.raises(errors.MissingProgram):
        run("vol_tool", [])
    assert len(os.listdir("/proc/self/fd")) == len(before)
