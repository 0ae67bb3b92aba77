"""The programs vol_tool, vol_fetch and vol_serve: where they are, how a data set is named to them, and runs of them."""
from __future__ import annotations

import contextlib
import fcntl
import functools
import os
import pathlib
import re
import shutil
import subprocess
from typing import Any, Callable, NamedTuple, Sequence, Union

from .errors import MissingProgram, UsageError, error_of

PathText = Union[str, "os.PathLike[str]"]

MOST_NAME = 200
MOST_WORKERS = 16
_SEGMENT = r"(?!\.\.?(?:/|$))[A-Za-z0-9_.-]+"
_NAME = re.compile(rf"(?!-){_SEGMENT}(?:/{_SEGMENT})*")

# How many bytes a pipe to or from a program holds, where the system lets it, and the call's number where Python doesn't know it.
PIPE_BYTES = 1 << 20
_SET_PIPE_SIZE = getattr(fcntl, "F_SETPIPE_SZ", 1031)


class Place(NamedTuple):
    """A data set as a program is told it: the folder that the program is started in, and the data set's name below it."""

    folder: str
    name: str

    @property
    def path(self) -> pathlib.Path:
        """The data set's folder."""
        return pathlib.Path(self.folder, self.name)


def is_name(text: str) -> bool:
    """Whether a text is a data set or a key as the programs take one."""
    return len(text) <= MOST_NAME and _NAME.fullmatch(text) is not None


def check_key(key: str) -> str:
    """A key; raises UsageError where the programs don't take it for one."""
    if not isinstance(key, str) or not is_name(key):
        raise UsageError(f"{key!r} is no key: ASCII letters, digits, `_`, `-` and `.`, with single `/` between, and no `-` in front")
    return key


def check_workers(workers: Any) -> int:
    """A number of workers; raises UsageError where it is none."""
    if isinstance(workers, int) and 1 <= workers <= MOST_WORKERS:
        return workers
    raise UsageError(f"workers is a number from 1 to {MOST_WORKERS}, and not {workers}")


def place_of(dataset: PathText) -> Place:
    """Where a data set is; raises UsageError for a link, and where its last folder isn't named as the programs take a name."""
    text = os.fspath(dataset)
    if is_name(text):
        return Place(os.getcwd(), text)
    if "://" in text:
        raise UsageError(f"{text} is a link, and a folder of this machine is wanted: boxes of links are read, and `fetch` copies them")
    folder, name = os.path.split(os.path.abspath(os.path.expanduser(text)))
    if not is_name(name):
        raise UsageError(f"{text!r} is no data set: its last folder is of ASCII letters, digits, `_`, `-` and `.`, with no `-` in front")
    return Place(folder, name)


def _in_root(root: pathlib.Path, name: str) -> str | None:
    """
    A program below the folder of a checkout, or of what ./install puts down.

    Raises MissingProgram in a checkout where it isn't built: that takes so long that nobody is surprised with it.
    """
    installed, built = root / "libexec" / name, root / "crates" / name / "out" / name
    for path in (installed, built):
        if os.access(path, os.X_OK):
            return str(path)
    if (root / "bin" / "programs.sh").is_file() and (root / "crates" / name).is_dir():
        text = f"{root / 'bin' / name} --build does, which takes half an hour or more the first time"
        raise MissingProgram(f"the program {name} isn't built yet: {text}")
    return None


@functools.lru_cache(maxsize=None)
def _search(name: str, path: str | None) -> str:
    """A program beside this package, or in PATH, which is the second argument."""
    for root in pathlib.Path(__file__).resolve().parents[1:5]:
        if found := _in_root(root, name):
            return found
    command = shutil.which(name, path=path)
    if command is None:
        raise MissingProgram(f"the program {name} isn't found: name its path in the variable {name.upper()}, or its folder in PATH")
    return _in_root(pathlib.Path(command).resolve().parents[1], name) or os.path.abspath(command)


def program(name: str) -> str:
    """
    The path of the program vol_tool, vol_fetch or vol_serve.

    It is the one that the variable VOL_TOOL, VOL_FETCH or VOL_SERVE names; else that of the checkout, or the installed folder, that this
    package is in; else the one in PATH. Raises MissingProgram.
    """
    named = os.environ.get(name.upper())
    if not named:
        return _search(name, os.environ.get("PATH"))
    return os.path.abspath(named) if "/" in named else shutil.which(named) or named


def widen(pipe: Any) -> None:
    """Lets a pipe hold more, where the system lets it."""
    with contextlib.suppress(OSError):
        fcntl.fcntl(pipe.fileno(), _SET_PIPE_SIZE, PIPE_BYTES)


class Run:
    """
    A run of a program, of which the last line on its error output is kept. As a context it is ended where what is done in it raises.

    `stdin` and `stdout` are as for subprocess.Popen; pipes aren't buffered. Where it has ended well `at_end` is called.
    """

    at_end: Callable[[], object] | None = None

    def __init__(self, name: str, words: Sequence[str], folder: str | None = None, **streams: Any) -> None:
        quiet: dict[str, Any] = {"stdin": subprocess.DEVNULL, "stdout": subprocess.DEVNULL}
        self._errors = os.memfd_create("errors")
        try:
            command = [program(name), *words]
            self.tool: Any = subprocess.Popen(command, cwd=folder, bufsize=0, stderr=self._errors, **{**quiet, **streams})
        except OSError as why:
            os.close(self._errors)
            if isinstance(why, MissingProgram):
                raise
            raise MissingProgram(f"{why.filename}: {why.strerror}") from None
        for pipe in (self.tool.stdin, self.tool.stdout):
            if pipe is not None:
                widen(pipe)

    def __enter__(self) -> Run:
        return self

    def __exit__(self, *_: object) -> None:
        if self.tool.poll() is None:
            self.tool.kill()
        for pipe in (self.tool.stdin, self.tool.stdout):
            if pipe is not None:
                with contextlib.suppress(BrokenPipeError):
                    pipe.close()
        self.tool.wait()
        os.close(self._errors)

    def _line(self) -> str:
        lines = os.pread(self._errors, 1 << 16, 0).decode(errors="replace").splitlines()
        return lines[-1] if lines else ""

    def end(self) -> None:
        """Waits until the program has ended; raises the error that its status and its line mean."""
        status = self.tool.wait()
        if status != 0:
            raise error_of(status, self._line())
        if self.at_end is not None:
            self.at_end()


def run(name: str, words: Sequence[str], folder: str | None = None, **streams: Any) -> str:
    """Runs a program to its end; gives what it printed, as a text without blanks around it. Raises the error of its status and line."""
    with Run(name, words, folder, stdout=subprocess.PIPE, **streams) as found:
        printed = found.tool.stdout.read()
        found.end()
    return printed.decode(errors="replace").strip()


def verify(dataset: PathText, key: str, box: str | None = None) -> str:
    """
    What `verify` prints of a scale, or of a box of it as the text `[x0:x1,y0:y1,z0:z1]`: `cells N stored S absent A`.

    Raises Damaged or Conflict at the first chunk or index with which something is wrong, and the other errors of the program.
    """
    place = place_of(dataset)
    return run("vol_tool", ["verify", place.name, check_key(key), *([box] if box else [])], place.folder)
