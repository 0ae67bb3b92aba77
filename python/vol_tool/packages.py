"""Packages that are used where they are there: each is imported when it is first needed, and told by name where it isn't installed."""
from __future__ import annotations

import importlib
from types import ModuleType

from .errors import MissingPackage

# What brings each of them, on Debian.
_DEBIAN = {
    "dask": "python3-dask",
    "h5py": "python3-h5py",
    "PIL": "python3-pil",
    "tifffile": "python3-tifffile",
    "tqdm": "python3-tqdm",
    "urllib3": "python3-urllib3",
    "zarr": "python3-zarr",
}

# The names under which an index has those whose modules are called otherwise.
_INDEX = {"PIL": "pillow"}


def need(name: str, what_for: str) -> ModuleType:
    """
    The package `name`, imported.

    `what_for` is what needs it, as "stack.tif" or "links". Raises MissingPackage, with its name and what brings it, where it isn't there.
    """
    try:
        return importlib.import_module(name)
    except ImportError:
        index = _INDEX.get(name, name)
        debian = f"apt-get install {_DEBIAN[name]}, or " if name in _DEBIAN else ""
        raise MissingPackage(f"{what_for} needs the package {index}, which isn't installed: {debian}pip install {index}") from None


def have(name: str) -> bool:
    """Whether the package `name` can be imported."""
    try:
        importlib.import_module(name)
    except ImportError:
        return False
    return True
