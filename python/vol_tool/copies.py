"""Objects of a volume behind an address: which ones a box meets, and copies of them in a folder."""
from __future__ import annotations

import concurrent.futures
import itertools
import math
import os
import pathlib
import threading
import weakref
from typing import Any, Callable, Iterable, Iterator, Sequence

from .addresses import address_of
from .boxes import Box, Three, box_of, box_text, chunk_name, is_inside
from .checking import unread_members
from .errors import BadInfo, FetchFault, OutsideScale, TooLarge, UnsupportedType
from .infos import Info, ScaleInfo
from .programs import PathText, check_key
from .shards import shard_name
from .web import Absent, Web, new_file

# How many connections there are at once, and how long a silent server is waited for, in seconds.
CONNECTIONS = 8
PATIENCE = 30.0

# What servers say of what they haven't.
NOT_THERE = (404,)

# How many cells a box meets at most, and how many objects are under way.
MOST_CELLS = 1 << 22
BATCH = 1 << 10

Tell = Callable[[int, int], None]


def objects_in(scale: ScaleInfo, box: Box) -> dict[str, list[Three]]:
    """The names, below the data set, of the objects that have the chunks of a box; of each the begins of the cells that meet the box."""
    spans = zip(box, scale.offset, scale.chunk)
    count = math.prod(-(-(end - first) // step) - (begin - first) // step for (begin, end), first, step in spans)
    if count > MOST_CELLS:
        raise TooLarge(f"too many cells {count}: a box of {scale.key} that is fetched meets at most {MOST_CELLS}")
    found: dict[str, list[Three]] = {}
    for cell in scale.cells(box):
        name = shard_name(scale, cell) if scale.is_sharded else chunk_name(cell)
        x, y, z = (begin for begin, _ in cell)
        found.setdefault(f"{scale.key}/{name}", []).append((x, y, z))
    return found


def scale_of(info: Info, key: str) -> ScaleInfo:
    """A scale of an info that the programs read; raises NoScale, UnsupportedType and BadInfo."""
    scale = info.scale(check_key(key))
    unread = list(unread_members(info, scale))
    if unread:
        kind = UnsupportedType if unread[0][0] == "data_type" else BadInfo
        members = ", ".join(f"{member} {value}" for member, value in unread)
        raise kind(f"the scale {key} of {info.name} isn't read: {members}")
    return scale


def box_in(scale: ScaleInfo, given: Any) -> Box:
    """A box, which is inside a scale; raises OutsideScale and UsageError."""
    box = box_of(given)
    if not is_inside(box, scale.box):
        raise OutsideScale(f"box {box_text(box)} outside {box_text(scale.box)}", 3)
    return box


class Copier:
    """Copies objects of a volume into a folder, over several connections; one that another thread copies already is waited for."""

    def __init__(self, address: str, folder: pathlib.Path, web: Web, workers: int) -> None:
        self._address, self._folder, self._web, self._workers = address, folder, web, workers
        self._begin()
        _copiers.add(self)
        weakref.finalize(self, web.end)

    def _begin(self) -> None:
        self._pool = concurrent.futures.ThreadPoolExecutor(self._workers, "vol_tool")
        self._lock = threading.Lock()
        self._running: dict[str, concurrent.futures.Future[int | None]] = {}

    def begin_anew(self) -> None:
        """Forgets threads and connections: a process that was forked has none of its own."""
        self._begin()
        self._web.begin()

    def end(self) -> None:
        """Gives up what wasn't begun, waits for the rest, and closes the connections."""
        self._pool.shutdown(cancel_futures=True)
        self._web.end()

    def copy(self, names: Iterable[str], in_pieces: bool) -> Iterator[tuple[str, int | None]]:
        """Copies objects; gives of each, in any order, the name and how many bytes it has, or None where the server hasn't any."""
        left = iter(names)
        while batch := list(itertools.islice(left, BATCH)):
            jobs = {self._begin_one(name, in_pieces): name for name in batch}
            try:
                for job in concurrent.futures.as_completed(jobs):
                    yield jobs[job], job.result()
            except concurrent.futures.CancelledError:
                raise FetchFault(f"{self._address}: broken off, as another object couldn't be fetched") from None
            finally:
                self._cancel(jobs)

    def _cancel(self, jobs: dict[concurrent.futures.Future[int | None], str]) -> None:
        """Gives up those that weren't begun."""
        for job, name in jobs.items():
            with self._lock:
                if job.cancel() and self._running.get(name) is job:
                    del self._running[name]

    def _begin_one(self, name: str, in_pieces: bool) -> concurrent.futures.Future[int | None]:
        with self._lock:
            job = self._running.get(name)
            if job is None or job.cancelled():
                job = self._running[name] = self._pool.submit(self._copy_one, name, in_pieces)
        return job

    def _copy_one(self, name: str, in_pieces: bool) -> int | None:
        try:
            return self._web.save(f"{self._address}/{name}", self._folder / name, in_pieces)
        except Absent:
            return None
        finally:
            with self._lock:
                self._running.pop(name, None)


# All that there are, which begin anew in a process that was forked, as those of a data loader are.
_copiers: weakref.WeakSet[Copier] = weakref.WeakSet()


def _begin_anew() -> None:
    for copier in list(_copiers):
        copier.begin_anew()


os.register_at_fork(after_in_child=_begin_anew)


# In folders of one's own


def read_info(web: Web, address: str) -> bytes:
    """The info of a volume, as it is. Raises BadInfo where there is none, and FetchFault; the connections are closed then."""
    try:
        return web.read(f"{address}/info")
    except Absent:
        web.end()
        raise BadInfo(f"there is no {address}/info, or not for everyone") from None
    except BaseException:
        web.end()
        raise


def copy_info(url: str, dataset: PathText, *, timeout: float = PATIENCE, absent: Sequence[int] = NOT_THERE) -> dict[str, Any]:
    """Copies the info of a volume into the folder of a data set, as it is, and gives what it says. Raises as open_link, and StoreFault."""
    address = address_of(url)
    web = Web(address, timeout, 1, absent)
    content = read_info(web, address)
    web.end()
    document = Info.parse(content, f"{address}/info").document
    with new_file(pathlib.Path(dataset).expanduser() / "info") as file:
        file.write(content)
    return document


def copy(
    url: str,
    dataset: PathText,
    key: str,
    box: Any,
    *,
    timeout: float = PATIENCE,
    workers: int = CONNECTIONS,
    absent: Sequence[int] = NOT_THERE,
    tell: Tell | None = None,
) -> tuple[int, int, int]:
    """
    Copies the objects that a box of a scale meets into the folder of a data set, where the info is already: of an unsharded scale the
    chunks in its first chunk size, and of one in shards the whole shards. It judges none of them.

    Gives how many were copied, how many the server hasn't, and how many files were there, which stay. `tell` is called with how many
    objects are done, and of how many. Raises as Link.ensure, but for Damaged.
    """
    address, folder = address_of(url), pathlib.Path(dataset).expanduser()
    scale = scale_of(Info.read(folder / "info"), key)
    names = list(objects_in(scale, box_in(scale, box)))
    left = [name for name in names if not (folder / name).exists()]
    copier = Copier(address, folder, Web(address, timeout, workers, absent), workers)
    missing, kept = 0, len(names) - len(left)
    try:
        for done, (_, length) in enumerate(copier.copy(left, scale.is_sharded), kept + 1):
            missing += length is None
            if tell is not None:
                tell(done, len(names))
    finally:
        copier.end()
    return len(left) - missing, missing, kept
