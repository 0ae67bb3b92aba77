"""A scale as a notebook shows it: a table, and the slice in its middle, as HTML. Greys and the colours of labels are those of the page."""
from __future__ import annotations

import base64
import html
import math
import struct
import zlib
from typing import TYPE_CHECKING, Any, NamedTuple, Sequence

import numpy

from .checking import size_in_words

if TYPE_CHECKING:
    from .arrays import Scale

# How many pixels a picture has at most on a side, and how many voxels the chunks have that are read for it, about.
MOST_PIXELS = 256
MOST_VOXELS = 1 << 27

# How many times as long a voxel is shown on x as on y, at most, or the other way round.
MOST_RATIO = 64

_WORD = numpy.uint64(0xFFFFFFFF)
_STYLE = "border: 1px solid #8884; image-rendering: pixelated"


class Window(NamedTuple):
    """The part of a slice that is shown: where it begins on x and y, how many voxels it has there, and of how many one is a pixel."""

    begin: tuple[int, int]
    sides: tuple[int, int]
    step: int


def slice_png_html(scale: Scale) -> str:
    """
    The HTML of a scale: a table of what it is, and its slice in the middle of z, of the first channel, as a PNG of at most 256 pixels.

    Of a slice that has many chunks the middle part alone is read. Where it can't be read the reason stands there instead: this raises
    nothing that reading raises.
    """
    try:
        shown = _figure(scale)
    except Exception as why:  # whatever is wrong with the scale, the table is still of use
        shown = f"<p>No slice is shown: {html.escape(str(why) or type(why).__name__)}</p>"
    return f'<div style="display: flex; gap: 1.5em; align-items: start">{_table(scale)}{shown}</div>'


# The table


def _times(numbers: Sequence[Any]) -> str:
    return " × ".join(map(str, numbers))


def _table(scale: Scale) -> str:
    encoding = getattr(getattr(scale, "info", None), "encoding", None)
    rows = [
        ("scale", scale.key),
        ("shape", f"{_times(scale.shape)} ({', '.join(scale.axes)})"),
        ("dtype", numpy.dtype(scale.dtype).name),
        ("chunks", f"{_times(scale.chunks)}{f', {encoding}' if encoding else ''}"),
        ("resolution", f"{_times(scale.resolution)} nm (x, y, z)"),
        ("offset", f"{', '.join(map(str, scale.offset))} (x, y, z)"),
        ("size", size_in_words(math.prod(scale.shape) * numpy.dtype(scale.dtype).itemsize)),
    ]
    left = 'style="text-align: left"'
    lines = (f"<tr><th {left}>{name}</th><td {left}>{html.escape(text)}</td></tr>" for name, text in rows)
    return f"<table>{''.join(lines)}</table>"


# The picture


def _figure(scale: Scale) -> str:
    lengths, chunks = dict(zip(scale.axes, scale.shape)), dict(zip(scale.axes, scale.chunks))
    depth = min(chunks["z"], lengths["z"]) * lengths.get("c", 1)
    window = _window_of((lengths["x"], lengths["y"]), MOST_VOXELS // depth)
    picture = _picture(_slice_of(scale, lengths, window), _has_labels(scale))
    data = base64.b64encode(png_of(picture)).decode()
    width, height = _shown_size(picture.shape[1::-1], scale.resolution)
    image = f'<img alt="slice" src="data:image/png;base64,{data}" style="{_STYLE}; width: {width}px; height: {height}px">'
    return f"<div>{image}<br><small>{_caption(scale, lengths, window)}</small></div>"


def _window_of(sides: tuple[int, int], room: int) -> Window:
    """The whole slice, or a square in its middle where it has more than so many voxels."""
    if math.prod(sides) > room:
        most = max(1, math.isqrt(room))
        least = min(min(sides), most)
        sides_shown = tuple(min(side, max(most, room // least)) for side in sides)
    else:
        sides_shown = sides
    x, y = ((side - shown) // 2 for side, shown in zip(sides, sides_shown))
    return Window((x, y), (sides_shown[0], sides_shown[1]), -(-max(sides_shown) // MOST_PIXELS))


def _slice_of(scale: Scale, lengths: dict[str, int], window: Window) -> numpy.ndarray:
    """The values of a window on the slice in the middle of z, of the first channel, with the axes y, x."""
    x, y = (slice(begin, begin + side, window.step) for begin, side in zip(window.begin, window.sides))
    index: dict[str, Any] = {"x": x, "y": y, "z": lengths["z"] // 2, "c": 0}
    values = numpy.asarray(scale[tuple(index[axis] for axis in scale.axes)])
    return values if scale.axes.index("y") < scale.axes.index("x") else values.T


def _has_labels(scale: Scale) -> bool:
    """Whether the values are labels: where the scale says so, or else has the encoding of such."""
    found = getattr(scale, "is_labels", None)
    return getattr(getattr(scale, "info", None), "encoding", None) == "compressed_segmentation" if found is None else bool(found)


def _picture(values: numpy.ndarray, has_labels: bool) -> numpy.ndarray:
    """The pixels of a slice: a level of grey each, or red, green and blue."""
    if not has_labels:
        return greys_of(values)
    labels, places = numpy.unique(values, return_inverse=True)
    return colours_of(labels)[places.reshape(values.shape)]


def greys_of(values: numpy.ndarray) -> numpy.ndarray:
    """Levels of grey: of bytes as they are, of other values between the least and the greatest that are shown."""
    if values.dtype == numpy.uint8:
        return values
    low, high = int(values.min()), int(values.max())
    if low == high:
        low, high = 0, int(numpy.iinfo(values.dtype).max)
    share = (values - values.dtype.type(low)).astype("float64") / float(high - low)
    return numpy.floor(share * 255 + 0.5).astype("uint8")


def _mix(words: numpy.ndarray) -> numpy.ndarray:
    """The last step of MurmurHash3 for 32 bits."""
    words = (words ^ words >> numpy.uint64(16)) * numpy.uint64(0x85EBCA6B) & _WORD
    words = (words ^ words >> numpy.uint64(13)) * numpy.uint64(0xC2B2AE35) & _WORD
    return words ^ words >> numpy.uint64(16)


def colours_of(labels: numpy.ndarray) -> numpy.ndarray:
    """A bright colour for each of some labels, in red, green and blue, by a hash, and black for 0."""
    words = labels.astype("uint64")
    chosen = _mix((words & _WORD ^ _mix(words >> numpy.uint64(32))) + numpy.uint64(0x9E3779B9) & _WORD).astype("int64")
    hue, saturation, brightness = chosen % 360 / 60, 0.55 + (chosen >> 9 & 63) / 160, 0.7 + (chosen >> 17 & 63) / 220
    turned = (numpy.array([[5], [3], [1]]) + hue) % 6
    share = numpy.clip(numpy.minimum(turned, 4 - turned), 0, 1)
    levels = numpy.floor(255 * (brightness - brightness * saturation * share) + 0.5)
    return (levels * (words != 0)).T.astype("uint8")


def png_of(pixels: numpy.ndarray) -> bytes:
    """A PNG of bytes with the axes y, x, or y, x and red, green, blue."""
    height, width = pixels.shape[:2]
    rows = numpy.ascontiguousarray(pixels).reshape(height, -1)
    content = zlib.compress(numpy.insert(rows, 0, 0, axis=1).tobytes())  # each row begins with its filter, which is none
    head = struct.pack(">2I5B", width, height, 8, 2 if pixels.ndim == 3 else 0, 0, 0, 0)
    return b"\x89PNG\r\n\x1a\n" + b"".join(_chunk(*part) for part in ((b"IHDR", head), (b"IDAT", content), (b"IEND", b"")))


def _chunk(name: bytes, content: bytes) -> bytes:
    return struct.pack(">I", len(content)) + name + content + struct.pack(">I", zlib.crc32(name + content))


def _shown_size(sides: Sequence[int], resolution: Sequence[float]) -> tuple[int, int]:
    """How wide and high a picture is shown: as its voxels are long, the longer side with as many pixels as may be."""
    x, y = resolution[:2]
    ratio = max(1 / MOST_RATIO, min(x / y, MOST_RATIO)) if 0 < x < math.inf and 0 < y < math.inf else 1
    width, height = sides[0] * ratio, sides[1]
    factor = MOST_PIXELS / max(width, height)
    factor = math.floor(factor) if factor > 1 else factor
    return max(1, round(width * factor)), max(1, round(height * factor))


def _caption(scale: Scale, lengths: dict[str, int], window: Window) -> str:
    words = [f"z {scale.offset[2] + lengths['z'] // 2}"]
    if lengths.get("c", 1) > 1:
        words.append("channel 0")
    if window.sides != (lengths["x"], lengths["y"]):
        words.append(f"the middle {_times(window.sides)} voxels")
    if window.step > 1:
        words.append(f"one of {window.step} voxels on x and y")
    return html.escape(", ".join(words))
