"""Boxes of scales in files, as numpy.save writes them: the values are read into the mapped file, so an array is never whole in memory."""
from __future__ import annotations

import contextlib
import os
from typing import TYPE_CHECKING, Any, Sequence

import numpy
from numpy.lib import format as npy

from .axes import to_stored
from .boxes import box_of, box_text, is_inside
from .errors import OutsideScale, VolToolError

if TYPE_CHECKING:
    from .arrays import Scale
    from .programs import PathText


def box_positions(scale: Scale, given: Any) -> list[range]:
    """The positions, on the axes channel, z, y, x, of a box that is counted from the scale's offset on; raises OutsideScale."""
    whole = scale.info.box
    box = whole if isinstance(given, str) and given == "all" else box_of(given)
    if not is_inside(box, whole):
        raise OutsideScale(f"box {box_text(box)} outside {box_text(whole)}", 3)
    places = [range(begin - first, end - first) for (begin, end), first in zip(box, scale.offset)]
    return [range(dict(zip(scale.axes, scale.shape)).get("c", 1)), *reversed(places)]


def _make(path: str, shape: Sequence[int], dtype: numpy.dtype, by_columns: bool) -> numpy.ndarray:
    """A new file with an array, mapped. All of its room is taken at once, so that a full disk is told here."""
    descr = {"descr": npy.dtype_to_descr(dtype), "fortran_order": by_columns, "shape": tuple(shape)}
    with open(path, "w+b") as file:
        npy.write_array_header_1_0(file, descr)
        file.flush()
        begin = file.tell()
        os.posix_fallocate(file.fileno(), 0, begin + int(numpy.prod(shape, dtype=object)) * dtype.itemsize)
    return numpy.memmap(path, dtype, "r+", begin, tuple(shape), "F" if by_columns else "C")


def save(scale: Scale, positions: list[range], out: PathText) -> None:
    """
    Writes the values at some positions into a file, as numpy.save would. It stands under its name when it is whole.

    Arrays with the axes x, y, z are in the order of columns, which is how the values come. Raises OSError where the file can't be made.
    """
    path = os.fspath(out)
    part = f"{path}.part"
    lengths = dict(zip("czyx", map(len, positions)))
    try:
        values = _make(part, [lengths[axis] for axis in scale.axes], scale.dtype, scale.axes.startswith("x"))
        scale.reader().read_into(to_stored(values, scale.axes), positions)
        del values
        os.replace(part, path)
    except OSError as why:
        if isinstance(why, VolToolError):
            raise
        raise OSError(why.errno, why.strerror, path) from None
    finally:
        with contextlib.suppress(OSError):
            os.remove(part)
