"""
The folder in which what links have is kept, of a limited size, and which of its files are in use.

Each link has a folder there, and beside it a file with the link's address, whose name ends in `.link`: nothing else is ever removed. What
was used longest ago goes first, which is when the file was accessed last.
"""
from __future__ import annotations

import contextlib
import hashlib
import logging
import os
import pathlib
import re
import threading
import time
import weakref
from typing import Iterable, Iterator, NamedTuple, Tuple

from .errors import FetchFault
from .web import new_file

_logger = logging.getLogger(__name__)

# The share of the limit that is made free at once, and after which share of it a cache is looked through again.
FREED = 10
LOOKS = 64

# After how many seconds a file that wasn't finished is one that nobody writes.
LEFT_BEHIND = 86400

_MOST_NAME = 100


class _Shared:
    """What the links of this process share."""

    def __init__(self) -> None:
        self.begin()

    def begin(self) -> None:
        self.lock = threading.Lock()
        self.held: weakref.WeakSet[Held] = weakref.WeakSet()
        self.fresh: dict[pathlib.Path, int] = {}


# What tells a file from another one that has its name: its number in the file system, and when it was written, in nanoseconds.
Mark = Tuple[int, int]


class Held:
    """
    Files of a cache that are in use: while this object is there, no link of this process removes them.

    Another process may, or the user. What has gone reads as zeros, so `check` is called after each use. `marks` has the names of those
    that are there, and which files they are.
    """

    def __init__(self, folder: pathlib.Path, names: Iterable[str]) -> None:
        self._folder = str(folder)
        self._names = set(names)
        self.marks: dict[str, Mark] = {}
        with _shared.lock:
            _shared.held.add(self)

    def holds(self, folder: str, name: str) -> bool:
        """Whether a file, below a link's folder, is one of these."""
        return folder == self._folder and name in self._names

    def take(self) -> set[str]:
        """The names of those that aren't there. The others count as used from now on; one that has gone since stays as it was noted."""
        now = time.time_ns()
        missing = set()
        for name in self._names:
            path = os.path.join(self._folder, name)
            try:
                found = os.stat(path)
            except OSError:
                missing.add(name)
                continue
            self.marks[name] = _mark_of(found)
            with contextlib.suppress(OSError):
                os.utime(path, ns=(now, found.st_mtime_ns))
        return missing

    def check(self) -> None:
        """Raises FetchFault where one of those that were there has gone meanwhile, or was put anew."""
        for name, mark in self.marks.items():
            path = os.path.join(self._folder, name)
            try:
                is_same = mark == _mark_of(os.stat(path))
            except OSError:
                is_same = False
            if not is_same:
                raise FetchFault(f"{path} was removed while it was in use: read again, and with a larger cache_limit where it is small")


def _mark_of(found: os.stat_result) -> Mark:
    return found.st_ino, found.st_mtime_ns


_shared = _Shared()
os.register_at_fork(after_in_child=_shared.begin)


def default_root() -> pathlib.Path:
    """The user's cache folder of this package: vol_tool in XDG_CACHE_HOME, or in ~/.cache."""
    named = os.environ.get("XDG_CACHE_HOME", "")
    return (pathlib.Path(named) if os.path.isabs(named) else pathlib.Path.home() / ".cache") / "vol_tool"


def name_of(address: str) -> str:
    """The name of a link's folder: what can be read of its address, and a hash of all of it."""
    readable = re.sub(r"[^A-Za-z0-9.]+", "_", address.partition("://")[2]).strip("._")
    return f"{readable[:_MOST_NAME]}-{hashlib.sha256(address.encode()).hexdigest()[:10]}"


def folder_of(root: pathlib.Path, address: str) -> pathlib.Path:
    """The folder of a link in a cache, which is made. Its path has no links of the file system, so that each file has one name."""
    root, name = root.resolve(), name_of(address)
    with new_file(root / f"{name}.link") as file:
        file.write(f"{address}\n".encode())
    (root / name).mkdir(exist_ok=True)
    return root / name


class _Object(NamedTuple):
    """A file that may be removed: when it was used last, in nanoseconds, how many bytes it has, its link's folder, and its name there."""

    used: int
    size: int
    folder: str
    name: str


def _objects_in(root: pathlib.Path) -> Iterator[_Object]:
    """The files of all links but for their infos. What was left behind unfinished is removed."""
    for note in root.glob("*.link"):
        folder = str(note.with_suffix(""))
        for parent, _, names in os.walk(folder):
            for name in names:
                path = os.path.join(parent, name)
                with contextlib.suppress(FileNotFoundError):
                    found = os.stat(path)
                    if name.endswith(".part"):
                        if time.time() - found.st_mtime > LEFT_BEHIND:
                            os.unlink(path)
                    elif path != os.path.join(folder, "info"):
                        yield _Object(found.st_atime_ns, found.st_size, folder, os.path.relpath(path, folder))


def _remove(found: _Object) -> bool:
    """Whether a file isn't in use, and is removed."""
    with _shared.lock:
        if any(held.holds(found.folder, found.name) for held in _shared.held):
            return False
        with contextlib.suppress(FileNotFoundError):
            os.unlink(os.path.join(found.folder, found.name))
    return True


def trim(root: pathlib.Path, limit: int) -> None:
    """Removes what was used longest ago and isn't in use where a cache has over `limit` bytes."""
    objects = sorted(_objects_in(root))
    total = before = sum(found.size for found in objects)
    count = 0
    for found in objects if before > limit else []:
        if total <= limit - limit // FREED:
            break
        if _remove(found):
            total -= found.size
            count += 1
    if count:
        told = "the cache %s had %d bytes, over its limit of %d: %d files that were used longest ago are removed, %d bytes are left"
        _logger.info(told, root, before, limit, count, total)


def grew(root: pathlib.Path, limit: int, count: int) -> None:
    """
    Takes note of so many bytes that came into a cache, and trims it where that may be too many.

    It is looked through for the first ones, and then each time when some have come: other processes may fill it too.
    """
    with _shared.lock:
        fresh = _shared.fresh.get(root, limit) + count
        is_due = fresh > limit // LOOKS
        _shared.fresh[root] = 0 if is_due else fresh
    if is_due:
        trim(root, limit)
