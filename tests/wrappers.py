#!/usr/bin/env python3
"""Tries the scripts of bin/, install and demo around the built vol_tool, with a stand-in for `rt` that builds at once, or not.

    tests/wrappers.py [PROGRAM]
"""
import os
import pathlib
import re
import shutil
import struct

from harness import ROOT, call, call_on_terminal, files_in, find_python, find_tool, main, put_program, want, want_files, want_true

# A program that tells its arguments and its folder, and ends with status 3; and one that ends with the status in the file beside it.
TELLS = '#!/bin/sh\necho "{}:$*"\npwd\nexit 3\n'
OLD = TELLS.format("old")
ENDS = '#!/bin/sh\nexit "$(cat "$(dirname "$0")/status")"\n'

# Stand-ins for `rt`: each notes that it was called to link a program, whose crates are proved before it.
BUILDS = """#!/bin/sh
[ "$1" = all ] && { printf '== %s\\n' low "$(basename "$PWD")"; exit; }
echo called >>"$CALLS"
program=out/$(basename "$PWD")
printf '%s\\n' '#!/bin/sh' 'echo "new:$*"' pwd 'exit 3' >$program
chmod +x $program
"""
FAILS = '#!/bin/sh\necho called >>"$CALLS"\necho refused\nexit 1\n'

# One that has the program's bytes, where they are asked for by the first example's words, and what it writes.
TRIES = """#!/bin/sh
[ "$1" = try ] || exit 2
for word in "$@"; do case $word in d/*=*) [ -s "${{word#*=}}" ] || exit 2 ;; esac; done
printf '{bytes}'
echo 'proved=no' >&2
exit {status}
"""

DEMO = """vol_tool cutout d s '[0:4,0:4,0:4]'
{first}
examples/overlap/stream.py | vol_tool write d s
objects 4 cells 4
0-4_0-4_0-1
0-4_4-5_0-1
4-8_0-4_0-1
4-8_4-5_0-1
vol_tool cutout d s '[0:8,0:5,0:1]'
{second}
"""

# The rows of channel 0: three boxes, of which the later ones stand above.
ROWS = ["11111111", "11222211", "11222331", "00222330", "00222200"]

TAKEN = "the port is taken or may not be bound, or VOL_TOOL_ADDRESS is no IP address"
NAMED = "a data set is named from the current folder, without ./ or / in front and / behind: ./d"

# Words, the status that the program ends with, and the line of help that follows it on a terminal; by the name of the program.
HELP = {
    "vol_fetch": [
        ("h 80 d s", 1, "vol_fetch needs HOST, PORT, DATASET, KEY and a box [x0:x1,y0:y1,z0:z1] in quotes; vol_fetch --help tells more"),
        ("http://h 80 d s [0:1,0:1,0:1]", 1, "a host is a name, or an IP address of four numbers, without http:// in front: http://h"),
        ("h 80 d s [0:1,0:1,0:1]", 5, "the server h:80 isn't there, says nothing, or replies with another thing than was asked for"),
        ("h 80 d s [0:1,0:1,0:1]", 0, ""),
    ],
    "vol_serve": [
        ("d --port=1", 1, "vol_serve needs DATASET, --port=P, --connections=N and --workers=W; vol_serve --help tells more"),
        ("./d --port=1 --connections=1 --workers=1", 1, NAMED),
        ("d --port=1 --connections=1 --workers=1", 9, TAKEN),
        ("d --port=1 --connections=1 --workers=1", 0, ""),
    ],
    "vol_tool": [
        ("cut d s", 1, "there is no command cut; vol_tool --help tells them"),
        ("verify ./d s", 1, NAMED),
        ("serve d --port=1", 1, "serve needs --port=P and --connections=N; vol_tool --help tells the commands"),
        ("downsample d s t", 1, "downsample needs --method=mode or --method=mean; vol_tool --help tells the commands"),
        ("cutout d s 0:1", 1, "a box is [x0:x1,y0:y1,z0:z1], without spaces and in quotes; vol_tool --help tells the commands"),
        ("verify d s", 5, "a file below d can't be read or written, or is a pipe or a device, or the disk is full"),
        ("serve d --port=1 --connections=1", 9, TAKEN),
        ("verify d s", 4, ""),
        ("verify d s", 0, ""),
    ],
}

# What the help of each program has.
TOLD = {
    "vol_fetch": ["vol_fetch HOST PORT DATASET KEY BOX"],
    "vol_serve": ["vol_serve DATASET --port=P --connections=N --workers=W"],
    "vol_tool": [f"vol_tool {command} " for command in "write update cutout verify reshard downsample generate serve".split()],
}

# The package in a checkout, and below the folder that it is installed in; and a script that stores by it.
PACKAGE, INSTALLED_PACKAGE = "python/vol_tool", "share/vol_tool/python/vol_tool"
STORES = """
import numpy
import vol_tool

vol_tool.write("d", "s", numpy.arange(24, dtype="u2").reshape(2, 3, 4), resolution=(1, 1, 1))
print(vol_tool.__file__)
"""


class Tree:
    """A checkout, with a stand-in for `rt`, the program that stands there at first, which may be old, and one that was put aside."""

    def __init__(self, folder, name="vol_tool", builder=FAILS, program=None, aside=None, is_old=False):
        self.folder, self.name = folder, name
        for part in ("bin", "docs", "examples", PACKAGE):
            shutil.copytree(ROOT / part, folder / part, ignore=shutil.ignore_patterns("__pycache__"))
        for script in ("demo", "install"):
            shutil.copy2(ROOT / script, folder)
        self.program = folder / f"crates/{name}/out/{name}"
        self.program.parent.mkdir(parents=True)
        (folder / f"crates/{name}/src").mkdir()
        (folder / f"crates/{name}/src/main.rt").touch()
        (folder / "crates.txt").write_text(f"# from the ground up\nlow:\n{name}: low other\nabove: low {name}\n")
        for path, text in ("tools/rt", builder), (self.program, program), (f"{self.program}.old", aside):
            if text is not None:
                put_program(folder / path, text)
        if is_old:
            os.utime(self.program, (1, 1))
        self.path = f"{self.folder / 'tools'}:{os.environ['PATH']}"

    def call(self, *words):
        """What the script says with some words, and how often a build was called for."""
        status, out, _, count = self.call_whole(*words)
        return status, out, count

    def call_whole(self, *words):
        """The same, and what it says on the error output."""
        calls = self.folder / "calls"
        status, out, errors = call([self.folder / "bin" / self.name, *words], self.folder / "tools", PATH=self.path, CALLS=str(calls))
        return status, out, errors, len(calls.read_text().splitlines()) if calls.exists() else 0

    def wants_call(self, name, count):
        """The program of this name is run, after so many builds, or none."""
        wanted = (125, "", count) if name is None else (3, f"{name}:a b  c\n{self.folder / 'tools'}\n", count)
        want(self.call("a", "b  c"), wanted)


# What stands there at first, which program is run, and after how many builds.
CALLS = {
    "a program that is newer than each source": ({"program": OLD}, "old", 0),
    "no program": ({"builder": BUILDS}, "new", 1),
    "a program that is older than a source": ({"builder": BUILDS, "program": OLD, "is_old": True}, "new", 1),
    "an old program, and a build that fails": ({"program": OLD, "is_old": True}, None, 1),
    "no program, and a build that fails": ({}, None, 1),
    "a build that was killed": ({"aside": OLD}, "old", 0),
}


def calls_program(trial, name, stands, run, count):
    tree = Tree(trial.folder, name, **stands)
    tree.wants_call(run, count)
    if run == "new":
        want_true(not pathlib.Path(f"{tree.program}.old").exists(), "the old program is left")
    elif "program" in stands:
        want_true(tree.program.exists(), "the old program is gone")
        os.utime(tree.program, (os.stat(trial.folder / "crates.txt").st_mtime + 1,) * 2)
        tree.wants_call("old", count)


def tells_the_commands(trial, name):
    tree = Tree(trial.folder, name)
    for words in ([], ["--help"], ["-h"], ["help"]):
        status, text, count = tree.call(*words)
        want((status, count, [part for part in TOLD[name] if part not in text]), (0, 0, []), f"{words}: {text!r}")
        want_true(pathlib.Path(text.splitlines()[-1].split(": ")[1]).is_file(), f"{words}: there is no such guide")


def version_lines(*names):
    """What is said of a version, by what the package and the README say."""
    package = (ROOT / PACKAGE / "__init__.py").read_text()
    version, kit = (re.search(rf'^__{name}__ = "(.*)"$', package, re.MULTILINE)[1] for name in ("version", "kit"))
    want_true(f"\n    {kit} " in (ROOT / "README.md").read_text(), f"the README has another kit than {kit}")
    newest = re.search(r"^## ([\d.]+)", (ROOT / "CHANGELOG.md").read_text(), re.MULTILINE)[1]
    want(version, newest, "the version, and the newest one of CHANGELOG.md")
    return {name: f"{name} {version}\n{{}}kit {kit}\n" for name in names}


def tells_the_version(trial, name):
    """The version of a checkout, with its commit where it is one of git, and of what is installed from it, without a build."""
    tree, told = Tree(trial.folder / "tree", name), version_lines(name)[name]
    want(tree.call("--version"), (0, told.format(""), 0), "no checkout of git")
    git = [find_tool("git"), "-C", tree.folder, "-c", "user.name=a", "-c", "user.email=a@b", "-c", "commit.gpgsign=false"]
    for words in (["init", "-q"], ["commit", "-q", "--allow-empty", "-m", "first"]):
        want(call([*git, *words], trial.folder)[0], 0, words[0])
    commit = call([*git, "rev-parse", "--short=12", "HEAD"], trial.folder)[1]
    want(tree.call("--version"), (0, told.format(f"commit {commit}"), 0), "a checkout")
    for one in HELP:
        put_program(tree.folder / f"crates/{one}/out/{one}", OLD)
    want(call([tree.folder / "install", trial.folder / "prefix"], trial.folder)[0], 0, "install")
    shutil.rmtree(tree.folder)
    want(call([trial.folder / "prefix/bin" / name, "--version"], trial.folder)[:2], (0, told.format(f"commit {commit}")), "installed")


def helps_on_a_terminal(trial, name):
    tree = Tree(trial.folder, name, program=ENDS)
    for words, status, line in HELP[name]:
        (tree.program.parent / "status").write_text(str(status))
        found, _, text = call_on_terminal([trial.folder / "bin" / name, *words.split()], trial.folder / "tools")
        want((found, text.strip()), (status, line), words)
        want(tree.call(*words.split())[:2], (status, ""), f"{words}, without a terminal")


def installed(trial, own=None):
    """
    The folder that ./install puts all into, out of a checkout that is gone then, and what stood in the package. The programs are stand-ins,
    but for vol_tool where one is given. What an older install and a run of Python left is no part of it.
    """
    tree, prefix = Tree(trial.folder / "tree"), trial.folder / "prefix"
    for name in HELP:
        put_program(tree.folder / f"crates/{name}/out/{name}", TELLS.format(f"own {name}"))
    if own is not None:
        shutil.copyfile(own, tree.program)
    package = files_in(tree.folder / PACKAGE)
    trial.lay_out({f"tree/{PACKAGE}/__pycache__/views.pyc": b"", f"prefix/{INSTALLED_PACKAGE}/older.py": b""})
    status, out, errors = call([tree.folder / "install", prefix], trial.folder)
    told = f"{prefix}/bin isn't in PATH", f'export PYTHONPATH="{(prefix / INSTALLED_PACKAGE).parent}",'
    want_true(status == 0 and all(line in out for line in told), f"install: {status} {out!r} {errors!r}")
    shutil.rmtree(tree.folder)
    return prefix, package


def installs(trial):
    prefix, package = installed(trial)
    for name in HELP:
        found = call([prefix / "bin" / name, "a", "b  c"], trial.folder)
        want(found[:2], (3, f"own {name}:a b  c\n{trial.folder}\n"), f"{name}, installed")
    names = {"bin/programs.sh", "bin/volume", *(f"{part}/{name}" for part in ("bin", "libexec") for name in HELP)}
    pages = [path for kind in ("*.md", "pictures/*.svg") for path in (ROOT / "docs").glob(kind)]
    names |= {f"share/doc/vol_tool/{path.relative_to(ROOT / 'docs')}" for path in pages}
    found = files_in(prefix)
    others = {name: found.get(name, "a file") for name in names}
    want_files(found, others | {f"{INSTALLED_PACKAGE}/{name}": content for name, content in package.items()})
    leading_out = [name for name, content in found.items() if name.endswith(".md") and b"](../" in content]
    want(leading_out, [], "pages with links to what isn't installed")


def uses_the_package(trial):
    """The package, where PYTHONPATH names its folder, and the command store and read by the installed program."""
    python = pathlib.Path(find_python("numpy"))
    prefix, _ = installed(trial, trial.program)
    bare = {"VOL_TOOL": "", "PYTHONPATH": "", "PATH": f"{python.parent}:{os.environ['PATH']}"}
    package = prefix / INSTALLED_PACKAGE
    stores = call([python, "-c", STORES], trial.folder, **bare | {"PYTHONPATH": str(package.parent)})
    want(stores, (0, f"{package}/__init__.py\n", ""), "the package")
    for words, out in ("verify d s", "cells 1 stored 1 absent 0\n"), ("get d s all out.npy", ""):
        want(call([prefix / "bin" / "volume", *words.split()], trial.folder, **bare), (0, out, ""), words)
    want((trial.folder / "out.npy").read_bytes()[-48:], struct.pack("<24H", *range(24)), "the values")


def tells_how_far_it_is(trial):
    tree = Tree(trial.folder, builder=BUILDS)
    status, out, errors, count = tree.call_whole("--build")
    want((status, out, count), (0, "", 1))
    want_true("proved 2 of 2 crates, 0 minutes\n" in errors, f"no line says how far it is: {errors!r}")
    want(tree.call("--built"), (0, "", 1))


def tells_what_is_built(trial):
    for name, stands, status in ("none", {}, 1), ("old", {"program": OLD, "is_old": True}, 1), ("new", {"program": OLD}, 0):
        want(Tree(trial.folder / name, **stands).call("--built"), (status, "", 0), name)


def lines_of(*rows):
    return "\n".join("".join(f" {number:3d}" for number in row) for row in rows)


FIRST = [[x + 10 * y + 60 * z for x in range(4)] for z in range(4) for y in range(4)]


def runs_the_demo(trial):
    tree = Tree(trial.folder)
    shutil.copy2(trial.program, tree.program)
    tree.program.touch()
    second = [[int(value) * scale for value in row] for scale in (1, 10) for row in ROWS]
    want(call([trial.folder / "demo"], trial.folder), (0, DEMO.format(first=lines_of(*FIRST), second=lines_of(*second)), ""))


def demo_without_a_program(trial, values, status, wanted):
    """What the demo ends with where nothing is built, and the program, compiled without proof, says these values with a status."""
    builder = TRIES.format(bytes="".join(f"\\{value:03o}" for row in values for value in row), status=status)
    tree = Tree(trial.folder, builder=builder)
    found, out, errors = call([trial.folder / "demo"], trial.folder, PATH=f"{trial.folder / 'tools'}:/usr/bin:/bin")
    want(found, wanted, errors)
    want_true((lines_of(*FIRST) in out) == (wanted == 0), f"it shows {out!r}")
    want_true(("WITHOUT ITS PROOF" in out) == (wanted == 0), f"it says {out!r}")


def rows():
    for name in HELP:
        for title, case in CALLS.items():
            yield f"{name}: {title}", calls_program, name, *case
        yield f"{name}: no words, and words that ask for help", tells_the_commands, name
        yield f"{name}: a line of help on a terminal", helps_on_a_terminal, name
        yield f"{name}: the version", tells_the_version, name
    yield "what is installed, the checkout gone", installs
    yield "the installed package, the checkout gone", uses_the_package
    yield "a line says how far a build is", tells_how_far_it_is
    yield "whether a program is built", tells_what_is_built
    yield "the demo", runs_the_demo
    yield "the demo without a program", demo_without_a_program, FIRST, 0, 0
    yield "the demo without a program, whose bytes are wrong", demo_without_a_program, [[1, *FIRST[0][1:]], *FIRST[1:]], 0, 1
    yield "the demo without a program, that can't be compiled", demo_without_a_program, [], 2, 1


if __name__ == "__main__":
    main(rows)
