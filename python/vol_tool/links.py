"""
Volumes behind links: what is read of them is fetched into a folder, where the programs find it.

A link begins with https://, http:// or gs:// (a bucket that everyone may read), and may have precomputed:// in front. What is there is
believed to stay as it is: an object that was fetched isn't asked for again.
"""
from __future__ import annotations

import pathlib
import re
import shutil
from typing import Any, Callable, Collection, Sequence

from . import programs
from .addresses import address_of, is_link
from .boxes import Box, Three, box_text
from .caches import Held, Mark, default_root, folder_of, grew
from .copies import CONNECTIONS, NOT_THERE, PATIENCE, Copier, box_in, copy, copy_info, objects_in, read_info, scale_of
from .errors import BadInfo, Damaged, FetchFault
from .infos import Info, ScaleInfo
from .programs import PathText
from .web import Web, new_file

__all__ = ["Link", "address_of", "copy", "copy_info", "is_link", "judge", "open_link"]

# How many bytes a cache has.
CACHE_LIMIT = 10 << 30

# How often it is seen whether what was fetched is still there.
MOST_TRIES = 5

Verify = Callable[[pathlib.Path, str, Box], object]


def judge(dataset: pathlib.Path, key: str, box: Box) -> object:
    """Judges the chunks of a scale that a box meets, by the program; raises Damaged."""
    return programs.verify(dataset, key, box_text(box))


class Link:
    """
    A volume behind a link.

    `info` is what its info says; `local` is the folder of a data set that has this info, with the first chunk size of each scale, and the
    objects that were fetched. What was fetched isn't asked for again, nor, by this object, what the server hadn't.
    """

    def __init__(self, info: Info, local: pathlib.Path, copier: Copier, limit: int, verify: Verify) -> None:
        self.info, self.local = info.document, local
        self._info, self._copier, self._limit, self._verify = info, copier, limit, verify
        self._absent: set[str] = set()
        self._judged: dict[str, tuple[Mark, set[Three]]] = {}

    def __repr__(self) -> str:
        return f"<link {self._info.name}: {self.local}>"

    def ensure(self, key: str, box: Any) -> Held:
        """
        Fetches what a box ((x0, x1), (y0, y1), (z0, z1)) of a scale meets into `local`, in voxels of the scale, and has it judged.

        What is fetched are the chunks' files, or of a scale in shards the whole shards; one that the server hasn't (404) reads as zeros.
        The result is kept while the box is read, and its `check` is called then: it raises FetchFault where something has gone meanwhile.

        Raises NoScale, BadInfo and UnsupportedType for a scale that isn't read, OutsideScale for a box that isn't inside it; FetchFault,
        with the address, where the server doesn't give an object; Damaged for one with which something is wrong, and which is removed
        here; StoreFault where a file can't be written.
        """
        scale = scale_of(self._info, key)
        box = box_in(scale, box)
        objects = objects_in(scale, box)
        held = Held(self.local, objects)
        for _ in range(MOST_TRIES):
            missing = held.take() - self._absent
            if not missing:
                self._judge_new(scale, box, objects, held)
                return held
            self._fetch(missing, scale.is_sharded)
        raise FetchFault(f"{self.local} doesn't keep what is fetched into it: another process removes it")

    def clear(self) -> None:
        """Removes all objects that were fetched."""
        for key in filter(programs.is_name, self._info.keys):
            shutil.rmtree(self.local / key, ignore_errors=True)
        self._absent.clear()
        self._judged.clear()

    def close(self) -> None:
        """Closes the connections. What was fetched stays."""
        self._copier.end()

    def _fetch(self, names: Collection[str], in_pieces: bool) -> None:
        count = 0
        try:
            for name, length in self._copier.copy(names, in_pieces):
                if length is None:
                    self._absent.add(name)
                count += length or 0
        finally:
            if count:
                grew(self.local.parent, self._limit, count)

    def _judge_new(self, scale: ScaleInfo, box: Box, objects: dict[str, list[Three]], held: Held) -> None:
        """Has the chunks of a box judged where some of them weren't yet, by this object."""
        left = [name for name, mark in held.marks.items() if not self._judged_cells(name, mark).issuperset(objects[name])]
        if left:
            self._judge(scale, box, objects)
        for name in left:
            self._judged_cells(name, held.marks[name]).update(objects[name])

    def _judged_cells(self, name: str, mark: Mark) -> set[Three]:
        """The begins of the cells whose chunks were judged, of an object that is this file."""
        if self._judged.get(name, (None,))[0] != mark:
            self._judged[name] = mark, set()
        return self._judged[name][1]

    def _judge(self, scale: ScaleInfo, box: Box, objects: dict[str, list[Three]]) -> None:
        """Has the chunks of a box judged; of a damaged one the object is removed."""
        try:
            self._verify(self.local, scale.key, box)
        except Damaged as why:
            names = _damaged_in(why.line, scale, objects)
            for name in names:
                (self.local / name).unlink(missing_ok=True)
            what = f"{self._info.name.removesuffix('info')}{names[0]}" if len(names) == 1 else f"what was fetched of {scale.key}"
            raise type(why)(f"{why.line} ({what}, which is removed here)", why.status) from why


def _damaged_in(line: str, scale: ScaleInfo, objects: dict[str, list[Three]]) -> list[str]:
    """The objects of which a line of the program says that they are damaged; all of them where that can't be seen."""
    cell, shard = re.match(r"damaged (\d+),(\d+),(\d+): ", line), re.match(r"misplaced (\d+) ", line)
    if cell:
        begin = tuple(first + int(number) * step for first, number, step in zip(scale.offset, cell.groups(), scale.chunk))
        found = [name for name, cells in objects.items() if begin in cells]
    else:
        found = [name for name in objects if shard and int(name.rpartition("/")[2].removesuffix(".shard"), 16) == int(shard[1])]
    return found or list(objects)


def open_link(
    url: str,
    *,
    cache: PathText | None = None,
    cache_limit: int = CACHE_LIMIT,
    timeout: float = PATIENCE,
    workers: int = CONNECTIONS,
    absent: Sequence[int] = NOT_THERE,
    verify: Verify = judge,
) -> Link:
    """
    The volume behind a link, of which the info is fetched at once.

    `cache` is the folder in which the folders of links are, the user's cache folder where it is left out; `cache_limit` is how many
    bytes all objects there may have: those that were used longest ago are removed first, and none that is in use, so it may be passed
    meanwhile. A silent server is waited for `timeout` seconds, and asked over `workers` connections. `absent` are the statuses that say
    that there is no such object; stores that let nobody list them say 403.

    `verify` judges a box of a folder's scale, and raises Damaged; it is the program's.

    Raises UsageError for what is no link, FetchFault where the server doesn't give the info, and BadInfo where there is none.
    """
    address = address_of(url)
    root = default_root() if cache is None else pathlib.Path(cache).expanduser()
    web = Web(address, timeout, workers, absent)
    info = Info.parse(read_info(web, address), f"{address}/info")
    local = folder_of(root, address)
    _renew(local, info)
    return Link(info, local, Copier(address, local, web, workers), cache_limit, verify)


def _renew(local: pathlib.Path, info: Info) -> None:
    """Puts an info into a folder. What was fetched of a scale that was another one is removed."""
    try:
        old = Info.read(local / "info")
    except BadInfo:
        old = info
    for key in old.keys:
        if programs.is_name(key) and _described(old, key) != _described(info, key):
            shutil.rmtree(local / key, ignore_errors=True)
    with new_file(local / "info") as file:
        file.write(_with_first_sizes(info).content())


def _described(info: Info, key: str) -> Any:
    """What an info says of a scale, of its first chunk size, or None where it has none."""
    shown = _with_first_sizes(info)
    return (shown.data_type, shown.channels, shown.member_of(key)) if key in shown.keys else None


def _with_first_sizes(info: Info) -> Info:
    """An info with the first chunk size of each scale alone: what is fetched are chunks of that one."""
    scales = [_with_first_size(scale) if isinstance(scale, dict) else scale for scale in info.document["scales"]]
    return Info(info.name, {**info.document, "scales": scales})


def _with_first_size(scale: dict[str, Any]) -> dict[str, Any]:
    sizes = scale.get("chunk_sizes")
    return {**scale, "chunk_sizes": sizes[:1]} if isinstance(sizes, list) else scale
