"""Copies of parts of volumes that web servers have, in folders of one's own."""
from __future__ import annotations

import contextlib
import os
import pathlib
from typing import Any, NamedTuple

from .boxes import box_of
from .infos import Info
from .programs import PathText, check_key, place_of
from .progress import Bar, bar

# What servers say of what they haven't: stores that don't let everyone list them say the latter. How many are absent is told.
NOT_THERE = (404, 403)


class Copied(NamedTuple):
    """How many files were copied, how many the server hasn't, and how many were there already."""

    copied: int
    absent: int
    kept: int


def fetch_info(link: str, dataset: PathText) -> Info:
    """Copies the info of a volume into the folder of a data set; raises FetchFault, BadInfo, and UsageError where that is no folder."""
    from .links import copy_info

    place_of(dataset)
    return Info.parse(copy_info(link, dataset, absent=NOT_THERE), f"{os.fspath(dataset)}/info")


def fetch(link: str, dataset: PathText, key: str, box: Any = "all", *, progress: bool | None = None) -> Copied:
    """
    Copies the chunks of a scale that a box meets into the folder of a data set, and the info where there is none.

    `box` is a text `[x0:x1,y0:y1,z0:z1]`, or `all`, or three pairs, of x, y and z, in voxels of the scale. Files that are there stay,
    so a copy that was broken off goes on. `progress` is as for vol_tool.progress.bar. Raises FetchFault, BadInfo, NoScale, OutsideScale.
    """
    from .links import copy

    path = pathlib.Path(dataset).expanduser() / "info"
    info = Info.read(path) if path.exists() else fetch_info(link, dataset)
    scale = info.scale(check_key(key))
    wanted = scale.box if isinstance(box, str) and box == "all" else box_of(box)
    with contextlib.ExitStack() as at_end:
        bars: list[Bar] = []

        def tell(done: int, total: int) -> None:
            if not bars:
                bars.append(at_end.enter_context(contextlib.closing(bar(key, total, done - 1, " objects", progress))))
            bars[0].update(1)

        found = copy(link, dataset, key, wanted, absent=NOT_THERE, tell=tell)
    return Copied(*found)
