"""The types of values that are stored, and values of other types that are put into a scale."""
from __future__ import annotations

from typing import Any

import numpy

from .errors import UnsupportedType

STORED = "only uint8, uint16, uint32 and uint64 are stored"


def _cast_of(dtype: numpy.dtype) -> str:
    """What makes a type that is stored of another one, in words."""
    if dtype.kind == "b":
        return 'array.astype("uint8") makes such'
    if dtype.kind == "i":
        return f'array.astype("uint{8 * dtype.itemsize}") makes such, where no value is below 0'
    if dtype.kind == "f":
        return 'array.round().astype("uint16") makes such, where all values lie from 0 to 65535; multiply those from 0 to 1 before'
    if dtype.kind == "c":
        return "abs(array) has real values, of which such can be made"
    return "no cast makes such"


def check_type(dtype: Any, name: str) -> str:
    """The name of a type that is stored, in either order of bytes; raises UnsupportedType with the cast that would do."""
    dtype = numpy.dtype(dtype)
    if dtype.kind == "u" and dtype.itemsize in (1, 2, 4, 8):
        return f"uint{8 * dtype.itemsize}"
    raise UnsupportedType(f"{name} has values of the type {dtype.name}, and {STORED}: {_cast_of(dtype)}")


def fit(values: Any, dtype: numpy.dtype) -> numpy.ndarray:
    """
    Values that are assigned, with a scale's type.

    Whole numbers and booleans are taken where the type has all of them. Raises UnsupportedType for others.
    """
    values = numpy.asarray(values)
    if numpy.can_cast(values.dtype, dtype, "safe"):
        return values.astype(dtype, copy=False)
    if values.dtype.kind not in "iu":
        check_type(values.dtype, "what is assigned")
    if values.size and not (0 <= int(values.min()) and int(values.max()) <= numpy.iinfo(dtype).max):
        most = numpy.iinfo(dtype).max
        raise UnsupportedType(f"what is assigned has values from {values.min()} to {values.max()}, and a {dtype.name} has 0 to {most}")
    return values.astype(dtype)
