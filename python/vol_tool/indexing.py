"""numpy's basic indexing: whole numbers, slices, `...` and None, as positions on each axis and what is left to do with their values."""
from __future__ import annotations

import operator
from typing import Any, NamedTuple, Sequence

from .errors import BadIndex, OutsideScale


class Picked(NamedTuple):
    """
    What an index picks of an array.

    `positions` has those on each axis, ascending; `rest` is the index that makes of their values what numpy would give.
    """

    positions: tuple[range, ...]
    rest: tuple[Any, ...]

    @property
    def is_empty(self) -> bool:
        return any(len(axis) == 0 for axis in self.positions)

    @property
    def shape(self) -> tuple[int, ...]:
        """How many positions there are on each axis."""
        return tuple(len(axis) for axis in self.positions)


def _is_number(part: Any) -> bool:
    """Whether a part of an index is a whole number; booleans are none, as they pick by a mask."""
    if isinstance(part, bool) or type(part).__name__ in ("bool_", "bool"):
        return False
    try:
        operator.index(part)
    except TypeError:
        return False
    return True


def _check_kind(part: Any) -> None:
    if part is None or part is Ellipsis or isinstance(part, slice) or _is_number(part):
        return
    raise BadIndex(
        f"only integers, slices (`:`), ellipsis (`...`) and None are indices of a stored scale, and not {type(part).__name__}: "
        "read a box, and index that"
    )


def _spread(index: Any, dimensions: int) -> list[Any]:
    """The parts of an index, one for each axis, and Nones between; without the ellipsis."""
    parts = list(index) if isinstance(index, tuple) else [index]
    for part in parts:
        _check_kind(part)
    count = sum(part is not None and part is not Ellipsis for part in parts)
    if count > dimensions:
        raise BadIndex(f"too many indices for array: array is {dimensions}-dimensional, but {count} were indexed")
    places = [place for place, part in enumerate(parts) if part is Ellipsis]
    if len(places) > 1:
        raise BadIndex("an index can only have a single ellipsis ('...')")
    at = places[0] if places else len(parts)
    return [*parts[:at], *[slice(None)] * (dimensions - count), *parts[at + 1 :]]


def _position(number: Any, axis: int, length: int) -> int:
    at = operator.index(number)
    if not -length <= at < length:
        raise OutsideScale(f"index {at} is out of bounds for axis {axis} with size {length}")
    return at % length


def _pick(part: Any, axis: int, length: int) -> tuple[range, Any]:
    """The positions that a part picks of an axis, and what is left to do with their values."""
    if not isinstance(part, slice):
        at = _position(part, axis, length)
        return range(at, at + 1), 0
    try:
        found = range(*part.indices(length))
    except ValueError as why:
        raise BadIndex(str(why)) from None
    return (found, slice(None)) if found.step > 0 else (found[::-1], slice(None, None, -1))


def pick(index: Any, shape: Sequence[int]) -> Picked:
    """
    What an index picks of an array of a shape.

    Raises OutsideScale for a number past an axis, BadIndex for what isn't basic indexing, and TypeError as numpy does for a slice of
    anything else than whole numbers.
    """
    positions: list[range] = []
    rest: list[Any] = []
    for part in _spread(index, len(shape)):
        if part is None:
            rest.append(None)
            continue
        axis = len(positions)
        found, left = _pick(part, axis, shape[axis])
        positions.append(found)
        rest.append(left)
    has_ellipsis = index is Ellipsis or (isinstance(index, tuple) and any(part is Ellipsis for part in index))
    return Picked(tuple(positions), (*rest, Ellipsis) if has_ellipsis else tuple(rest))
