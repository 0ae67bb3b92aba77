"""The orders of an array's axes. Inside the package arrays have the axes channel, z, y, x, as the programs' values stand."""
from __future__ import annotations

from typing import TYPE_CHECKING, Sequence

from .errors import UsageError

if TYPE_CHECKING:
    import numpy

# The orders that have a name. Those without c have the channels in front or behind, where there are several.
ORDERS = {"zyx": "czyx", "czyx": "czyx", "xyz": "xyzc", "xyzc": "xyzc", "zyxc": "zyxc"}

# A last axis of at most so many values, behind a longer first one, is one of channels rather than x.
FEW_CHANNELS = 4


def check_axes(axes: str) -> str:
    """The name of an order; raises UsageError where it is none."""
    if axes not in ORDERS:
        raise UsageError(f"axes is one of {', '.join(ORDERS)}, and not {axes}")
    return axes


def axes_of_scale(axes: str, channels: int) -> str:
    """The letters of a scale's axes: `zyx` and `xyz` have no c where there is one channel."""
    return axes if "c" in check_axes(axes) or channels == 1 else ORDERS[axes]


def axes_of_array(axes: str, shape: Sequence[int], name: str) -> str:
    """The letters of the axes of an array that goes in, which may leave the channel out where there is one; raises UsageError."""
    order = ORDERS[check_axes(axes)]
    if len(shape) not in (3, 4) or 0 in shape:
        raise UsageError(f"{name} has the shape {tuple(shape)}, and 3 or 4 axes are wanted, none of them empty")
    if axes == "zyx" and len(shape) == 4 and shape[3] <= FEW_CHANNELS < shape[0]:
        raise UsageError(f"{name} has the shape {tuple(shape)}: is the last axis the channels (axes zyxc), or x (axes czyx)?")
    return order if len(shape) == 4 else order.replace("c", "")


def to_stored(values: numpy.ndarray, axes: str) -> numpy.ndarray:
    """A view of an array that has these axes, with the axes channel, z, y, x."""
    if "c" not in axes:
        values, axes = values[None], f"c{axes}"
    return values.transpose([axes.index(axis) for axis in "czyx"])


def from_stored(values: numpy.ndarray, axes: str) -> numpy.ndarray:
    """A view with these axes of an array that has the axes channel, z, y, x; of one without c the first channel."""
    if "c" not in axes:
        return values[0].transpose(["zyx".index(axis) for axis in axes])
    return values.transpose(["czyx".index(axis) for axis in axes])
