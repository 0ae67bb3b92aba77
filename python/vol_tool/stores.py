"""Where the scales of a volume are: a folder, a server of byte ranges, or behind a link. Each gives its info and cuts boxes out."""
from __future__ import annotations

import dataclasses
import functools
import os
import pathlib
import subprocess
import urllib.parse
from typing import TYPE_CHECKING, Any, Protocol, Union

from .boxes import Box, box_text
from .errors import BadInfo, FetchFault, UsageError
from .infos import Info
from .programs import PathText, Place, Run, place_of

if TYPE_CHECKING:
    from .links import Link

# How long a server that is silent is waited for, in seconds, and how long an info may be.
PATIENCE = 30
MOST_INFO = 1 << 20


class Store(Protocol):
    """Where scales are read: `name` is what errors call it, and `place` its folder, or None where it has none that can be written."""

    name: str

    @property
    def place(self) -> Place | None: ...

    def info(self) -> Info: ...

    def cut(self, key: str, box: Box, out: int = subprocess.PIPE) -> Run:
        """A run of a program that writes the values of a box, in voxels of the scale, to its standard output, or to an open file."""


def _cutout(place: Place, key: str, box: Box, out: int) -> Run:
    return Run("vol_tool", ["cutout", place.name, key, box_text(box)], place.folder, stdout=out)


@dataclasses.dataclass
class Local:
    """A folder of this machine. Its info is read again where its file is another one."""

    name: str
    place: Place
    _read: Any = dataclasses.field(default=None, repr=False, compare=False)

    @classmethod
    def of(cls, dataset: PathText) -> Local:
        return cls(os.fspath(dataset), place_of(dataset))

    @property
    def path(self) -> pathlib.Path:
        return self.place.path / "info"

    def info(self) -> Info:
        try:
            found = self.path.stat()
        except OSError:
            return Info.read(self.path, f"{self.name}/info")
        mark = (found.st_ino, found.st_mtime_ns, found.st_size)
        if self._read is None or self._read[0] != mark:
            self._read = (mark, Info.read(self.path, f"{self.name}/info"))
        return self._read[1]

    def cut(self, key: str, box: Box, out: int = subprocess.PIPE) -> Run:
        return _cutout(self.place, key, box, out)


@dataclasses.dataclass
class Served:
    """A server of byte ranges over plain HTTP, with the volume's info at its root; boxes are cut out by vol_fetch."""

    name: str
    host: str
    port: int
    place: None = None

    @functools.cached_property
    def _info(self) -> Info:
        return Info.parse(_get(self.host, self.port, "/info"), f"{self.name}/info")

    def info(self) -> Info:
        return self._info

    def cut(self, key: str, box: Box, out: int = subprocess.PIPE) -> Run:
        return Run("vol_fetch", [self.host, str(self.port), self.host, key, box_text(box)], stdout=out)


def _get(host: str, port: int, target: str) -> bytes:
    """The bytes that a server has at a target; raises FetchFault, and BadInfo where it has none."""
    import http.client

    link = http.client.HTTPConnection(host, port, timeout=PATIENCE)
    try:
        link.request("GET", target)
        reply = link.getresponse()
        content = reply.read(MOST_INFO + 1)
    except (OSError, http.client.HTTPException) as why:
        raise FetchFault(f"http://{host}:{port}{target}: {getattr(why, 'strerror', None) or why}") from None
    finally:
        link.close()
    if reply.status == 404:
        raise BadInfo(f"there is no http://{host}:{port}{target}")
    if reply.status != 200:
        raise FetchFault(f"http://{host}:{port}{target}: {reply.status} {reply.reason}")
    return content


@dataclasses.dataclass
class Linked:
    """A volume behind a link, whose chunks are fetched into a folder of a cache before they are cut out."""

    name: str
    options: dict[str, Any] = dataclasses.field(default_factory=dict, repr=False)
    place: None = None
    _link: Any = dataclasses.field(default=None, repr=False, compare=False)

    def __getstate__(self) -> dict[str, Any]:
        return {**self.__dict__, "_link": None}

    @property
    def link(self) -> Link:
        if self._link is None:
            from .links import open_link

            self._link = open_link(self.name, **self.options)
        return self._link

    def info(self) -> Info:
        return Info.parse(self.link.info, f"{self.name}/info")

    def cut(self, key: str, box: Box, out: int = subprocess.PIPE) -> Run:
        held = self.link.ensure(key, box)
        run = _cutout(place_of(self.link.local), key, box, out)
        run.at_end = held.check
        return run


AnyStore = Union[Local, Served, Linked]


def _served(text: str) -> Served | None:
    """The server of byte ranges that an address names, or None where it names something else."""
    parts = urllib.parse.urlsplit(text)
    is_root = parts.path in ("", "/", "/info") and not parts.query and "@" not in parts.netloc
    if parts.scheme != "http" or not is_root or not parts.hostname:
        return None
    try:
        return Served(text.rstrip("/").removesuffix("/info"), parts.hostname, parts.port or 80)
    except ValueError:
        raise UsageError(f"{text} has no port from 0 to 65535") from None


def store_of(dataset: PathText, **options: Any) -> AnyStore:
    """
    The store of a folder, of the address `http://HOST:PORT` of a server of byte ranges, or of another link.

    The options are those of links: `cache`, `cache_limit`, `timeout` and `absent`. Raises UsageError for what is none of these.
    """
    text = os.fspath(dataset)
    if "://" not in text:
        return Local.of(text)
    if text.startswith("file://"):
        return Local.of(urllib.parse.unquote(text.removeprefix("file://")))
    if served := _served(text.removeprefix("precomputed://")):
        return served
    from .links import is_link

    if is_link(text):
        return Linked(text, {name: value for name, value in options.items() if value is not None})
    raise UsageError(f"{text} is no link: http://, https://, gs:// and precomputed:// in front of these are")
