"""Files of data sets: which are objects, and how one is put in one step."""
from __future__ import annotations

import os
import pathlib
from typing import Iterator

from .programs import PathText


def files_in(folder: PathText) -> Iterator[str]:
    """The paths of the files that are objects, in a scale's folder or deeper."""
    try:
        entries = os.scandir(folder)
    except (FileNotFoundError, NotADirectoryError):
        return
    with entries:
        for entry in entries:
            if entry.is_dir():
                yield from files_in(entry.path)
            elif not entry.name.endswith(".part"):
                yield entry.path


def is_empty(folder: PathText) -> bool:
    """Whether no object stands below a scale's folder."""
    return next(files_in(folder), None) is None


def put_whole(path: pathlib.Path, content: bytes) -> None:
    """Puts a file in one step: whoever reads it gets the old bytes or the new ones."""
    path.parent.mkdir(parents=True, exist_ok=True)
    part = path.with_name(f"{path.name}.part")
    part.write_bytes(content)
    part.replace(path)
