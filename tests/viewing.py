#!/usr/bin/env python3
"""Tries `bin/volume view`, the page python/vol_tool/data/slices.html in a headless browser, and arrays that are views by the package.

    [PICTURES=FOLDER] tests/viewing.py [PROGRAM]

Scales of every form are written by the program (those of float32, which it refuses, by the model), and each picture of the page is
compared, pixel by pixel, with one that is made here from the same values. In FOLDER the browser's screenshots are left. Without Chromium
the rows of the page are skipped, and without numpy all but those of pages that are files.
"""
import collections
import contextlib
import dataclasses
import http.client
import itertools
import json
import math
import os
import pathlib
import random
import signal
import struct
import subprocess
import sys
import threading
import time
import urllib.parse

from browser import Browser, fetch_parts
from harness import LIMIT, ROOT, Trial, Wrong, call, find_python, main, methods_of, want, want_true
from model import Sharding, Volume, infos_of, stored, stream_of
from model.chance import with_numbers
from model.murmur import finish
from model.segments import bytes_of
from servers import Handler, Plain, own, read_file, running

VOLUME, PACKAGE = ROOT / "bin" / "volume", ROOT / "python" / "vol_tool"
PAGE = PACKAGE / "data" / "slices.html"
WINDOW = (1000, 720)
CODES = {1: "B", 2: "H", 4: "I", 8: "Q"}


# Scales, and the pictures that are due


@dataclasses.dataclass(frozen=True)
class Scale(Volume):
    """A scale with the lengths of a voxel, and the values of its voxels: x fastest, then y, z and the channel."""

    values: list = ()
    resolution: tuple = (4, 4, 8)
    is_float: bool = False

    def info(self):
        info = json.loads(super().info())
        info["scales"][0]["resolution"] = self.resolution
        info |= {"type": "segmentation"} if self.block else {}
        info |= {"data_type": "float32"} if self.is_float else {}
        return json.dumps(info).encode()

    def spot(self, voxel, channel):
        """The number of a value, by its voxel, which is counted from the scale's first one."""
        x, y, z = voxel
        return x + self.size[0] * (y + self.size[1] * (z + self.size[2] * channel))

    def value(self, voxel, channel):
        return self.values[self.spot(voxel, channel)]

    def raw(self, box):
        x, y, z = (range(begin - first, end - first) for (begin, end), first in zip(box, self.offset))
        values = [self.value((i, j, k), c) for c in range(self.channels) for k in z for j in y for i in x]
        return struct.pack(f"<{len(values)}{'f' if self.is_float else CODES[self.width]}", *values)

    def step(self, view, axis):
        return view.zoom * self.resolution[axis] // min(self.resolution)


def values_of(size, channels, value_of):
    x, y, z = map(range, size)
    return [value_of(i, j, k, c) for c in range(channels) for k in z for j in y for i in x]


def image(bits, size, chunk, channels=1, **more):
    """Values up to a greatest one: slopes, so that a wrong axis is seen, and some noise."""
    greatest = 2**bits - 1
    chance = random.Random(greatest)

    def value(i, j, k, c):
        slope = (i * 5 + j * 11 + k * 3 + c * 70) * greatest // 1500 % greatest
        return min(greatest, slope + chance.randrange(greatest // 16 + 1))

    return Scale(size, chunk, channels=channels, width=bits // 8, values=values_of(size, channels, value), **more)


def labels(bits, size, chunk, block, **more):
    """Labels in boxes, some of them 0."""

    def label(i, j, k, _):
        number = i // 7 + 31 * (j // 6) + 1009 * (k // 5)
        return 0 if number % 4 == 0 else number * 0x9E3779B97F4A7C15 % 2**bits

    return Scale(size, chunk, width=bits // 8, block=block, values=values_of(size, 1, label), **more)


FLOATS = [math.nan, math.inf, -math.inf, -0.75, 0.0, 1.5, 3.25]


def floats(i, j, k, _):
    number = i + 3 * j + 7 * k
    return FLOATS[number // 5 % len(FLOATS)] if number % 5 == 0 else (number % 97 - 30) / 16


def store(trial, *scales, part=None):
    """Writes scales of a data set, or a part of one; those of floats, which the program refuses, without it."""
    trial.lay_out(infos_of(*scales))
    for scale in scales:
        box = part or scale.whole
        if scale.is_float:
            trial.lay_out(scale.files({cell: scale.raw(scale.box_of(cell)) for cell in scale.cells_in(box)}))
        else:
            cells = [view.cells_in(box) for view in scale.views]
            objects = sum(len(set(map(view.path_of, own))) for view, own in zip(scale.views, cells))
            trial.want(scale.words("write"), stored(objects, sum(map(len, cells))), stream_of([(box, scale.raw(box))]))


def label_colour(value):
    """The page's colour of a label: a hue, a saturation and a brightness by a hash, and black for 0."""
    if value == 0:
        return "000000"
    chosen = finish((value & 0xFFFFFFFF ^ finish(value >> 32)) + 0x9E3779B9 & 0xFFFFFFFF)
    hue, saturation, brightness = chosen % 360 / 60, 0.55 + (chosen >> 9 & 63) / 160, 0.7 + (chosen >> 17 & 63) / 220
    parts = [brightness - brightness * saturation * max(0, min(turned, 4 - turned, 1)) for turned in ((at + hue) % 6 for at in (5, 3, 1))]
    return "".join(f"{math.floor(255 * part + 0.5):02x}" for part in parts)


def grey(value, low, high):
    share = (value - low) / (high - low)
    level = 0 if math.isnan(share) else math.floor(255 * max(0, min(1, share)) + 0.5)
    return f"{level:02x}" * 3


@dataclasses.dataclass(frozen=True)
class View:
    """
    What a page shows: the voxel at the cross, what stands in the middle of each slice, both counted from the scale's first voxel, and
    how many pixels the shortest side of a voxel has.
    """

    at: tuple
    zoom: int = 4
    channel: int = 0
    window: tuple | None = None
    centre: tuple | None = None

    @property
    def middle(self):
        return self.centre or tuple(place + 0.5 for place in self.at)

    def query(self, scale):
        at = ",".join(str(place + first) for place, first in zip(self.at, scale.offset))
        window = f"&low={self.window[0]!r}&high={self.window[1]!r}" if self.window else ""
        return f"at={at}&zoom={self.zoom}&channel={self.channel}&cross=0{window}"

    def side(self, scale, axis, length):
        """The voxel under each pixel of a side of a slice; those outside of the scale are None."""
        step = scale.step(self, axis)
        first = math.floor(length / 2 - self.middle[axis] * step + 0.5)
        found = [(pixel - first) // step for pixel in range(length)]
        return [voxel if 0 <= voxel < scale.size[axis] else None for voxel in found]


# The axes of each slice: across, down, and through it.
PANES = {"xy": (0, 1, 2), "zy": (2, 1, 0), "xz": (0, 2, 1)}
OUTSIDE = "14181c"


def value_at(scale, view, axes, column, row):
    voxel = dict(zip(axes, (column, row, view.at[axes[2]])))
    return scale.value((voxel[0], voxel[1], voxel[2]), view.channel)


def picture_of(scale, view, name, columns, rows):
    """The picture of a slice, as the page gives it, with these voxels in its columns and rows: six digits for each pixel."""
    colours = {}

    def colour_at(column, row):
        if column is None or row is None:
            return OUTSIDE
        value = value_at(scale, view, PANES[name], column, row)
        if value not in colours:
            colours[value] = label_colour(value) if scale.block else grey(value, *view.window)
        return colours[value]

    lines = {row: "".join(colour_at(column, row) for column in columns) for row in set(rows)}
    return "".join(lines[row] for row in rows)


# The server of a view


def processes():
    """The state of each process, and which one has begun it."""
    found = {}
    for path in pathlib.Path("/proc").glob("[0-9]*/stat"):
        with contextlib.suppress(OSError):
            state, parent = path.read_text().rsplit(")", 1)[1].split()[:2]
            found[int(path.parent.name)] = state, int(parent)
    return found


def servers_of(pid):
    return [number for number, (_, parent) in processes().items() if parent == pid]


def variables(trial):
    """What the environment has for the command and for scripts that import the package."""
    return {"VOL_TOOL": str(trial.program), "PYTHONPATH": str(PACKAGE.parent), "PYTHONDONTWRITEBYTECODE": "1"}


@contextlib.contextmanager
def viewing(trial, *words, by=signal.SIGINT):
    """A run of `view`, by its address and its process. It ends with status 0 by a signal, and its server with it. It wants numpy."""
    find_python("numpy")
    child = subprocess.Popen(
        [sys.executable, VOLUME, "view", *words], cwd=trial.folder, env={**os.environ, **variables(trial)},
        stdin=subprocess.DEVNULL, stdout=subprocess.PIPE, stderr=subprocess.PIPE, text=True,
    )
    try:
        link = child.stdout.readline().strip()
        if not link.startswith("http://127.0.0.1:"):
            raise Wrong(f"view says {link!r} and {child.stderr.read()!r}")
        yield link, child.pid
        servers = servers_of(child.pid)
        child.send_signal(by)
        out, errors = child.communicate(timeout=LIMIT)
        want((child.returncode, out, errors), (0, "", ""), "at its end")
        want([server for server in servers if processes().get(server, "Z")[0] != "Z"], [], "servers that are left")
    finally:
        if child.poll() is None:
            for number in [child.pid, *servers_of(child.pid)]:
                os.kill(number, signal.SIGKILL)
            child.communicate()


def ask(link, target):
    """The status and the body of a reply."""
    with contextlib.closing(http.client.HTTPConnection(urllib.parse.urlsplit(link).netloc, timeout=LIMIT)) as client:
        client.request("GET", target)
        reply = client.getresponse()
        return reply.status, reply.read()


def make_bytes(trial):
    store(trial, Scale((4, 3, 2), (8, 8, 8), values=range(24)))
    return "/s/0-4_0-3_0-2", bytes(range(24))


def begins(trial):
    """Words and a signal of the command. What its page answers, and whom it refuses, is tried in python/tests."""
    target, chunk = make_bytes(trial)
    for words, query, number in ([], "", signal.SIGINT), (["s"], "scale=s", signal.SIGTERM), (["s", "--port=0"], "scale=s", signal.SIGHUP):
        with viewing(trial, "d", *words, by=number) as (link, pid):
            want((link.partition("?")[2], len(servers_of(pid))), (query, 1), "the query, and how many servers there are")
            for what, body in ("/", PAGE.read_bytes()), (target, chunk):
                want(ask(link, what), (200, body), what)


# The package

ARRAYS = """
import numpy
import vol_tool

values = numpy.arange(2 * 10 * 12 * 14, dtype="u4").reshape(2, 10, 12, 14) * 1000003
views = {"steps": values[:, ::2, 1::3, ::-2], "turned": values[0].transpose(2, 0, 1), "few": values[0, :1, :1, ::7]}
for name, array in views.items():
    before = array.copy()
    array.setflags(write=False)
    axes = "czyx" if array.ndim == 4 else "zyx"
    scale = vol_tool.write(name, "s", array, axes=axes, resolution=(1, 1, 1), chunk=(4, 4, 4), offset=(-3, 0, 2))
    assert (array == before).all() and (scale[...] == array).all(), name
    found = vol_tool.open(name, axes=axes)["s"][...]
    found[...] = 0
    box = vol_tool.read(name, "s", ((numpy.int64(-3), numpy.int32(-1)), (0, 1), (2, numpy.uint8(3))), axes=axes)
    assert (box == before[..., :1, :1, :2]).all() and box.flags.writeable, name
"""


def stores_views(trial):
    """Arrays that are views of others and may only be read; boxes of numpy's numbers; what is read may be changed."""
    want(call([find_python("numpy"), "-c", ARRAYS], trial.folder, **variables(trial)), (0, "", ""), "the script")


# The page


class Page(Browser):
    """A browser with the page, which shows a view of a scale."""

    scale = view = None

    def __init__(self):
        super().__init__(WINDOW)

    def on(self, name, script):
        """The value of an expression about an `element` of the page."""
        return self.run(f"(element => {script})(document.getElementById('{name}'))")

    def settle(self):
        self.run("slices.settled()")

    def set_field(self, name, value):
        self.on(name, f"{{ element.value = {json.dumps(value)}; element.dispatchEvent(new Event('change')) }}")
        self.settle()

    def open_view(self, link, query):
        """Opens a view's page with a query, and waits until the slices stand there."""
        self.open(f"{link.partition('?')[0]}?{query}", "window.slices")
        self.settle()

    @contextlib.contextmanager
    def opened(self, trial, scale, view, source=None):
        """The page shows a scale out of a row's folder, or a source's; at the end it tells no fault, and raised no exception."""
        self.scale, self.view = scale, view
        with viewing(trial, scale.dataset) if source is None else contextlib.nullcontext((PAGE.as_uri(), None)) as (link, _):
            self.open_view(link, view.query(scale) + (f"&source={source}" if source else ""))
            yield
            want((self.on("faults", "element.hidden"), self.exceptions), (True, []), "no fault, and no exceptions")

    @contextlib.contextmanager
    def shows(self, trial, scale, view, source=None):
        """The same, and it has the pictures that are due."""
        with self.opened(trial, scale, view, source):
            self.want_pictures()
            yield

    def changes(self, **members):
        """The view has these members now, and the page shows it."""
        self.view = dataclasses.replace(self.view, **members)
        self.want_pictures()

    def moves(self, *steps):
        """The cross was moved on each axis, and nothing else."""
        self.changes(at=tuple(map(sum, zip(self.view.at, steps))), centre=self.view.middle)

    def pans(self, *pixels):
        """What stands in the middle was moved across and down."""
        moved = [place - by / self.scale.step(self.view, axis) for axis, (place, by) in enumerate(zip(self.view.middle, pixels))]
        self.changes(centre=(*moved, self.view.middle[2]))

    def fits_window(self):
        """The window is the range of what the three slices show."""
        values = set()
        for name, axes in PANES.items():
            places = itertools.product(*(set(side) - {None} for side in self.sides(name)))
            values |= {value_at(self.scale, self.view, axes, *place) for place in places}
        self.changes(window=(min(values), max(values)))

    def sides(self, name):
        """The voxels in the columns and in the rows of a slice."""
        sides = self.on(name, "[element.width, element.height]")
        want_true(min(sides) >= 100, f"the slice {name} has {sides} pixels")
        return [self.view.side(self.scale, axis, length) for axis, length in zip(PANES[name], sides)]

    def differences(self, name):
        """The pixels of a slice that aren't as is due, each with its column, its row, and what it is and should be; and its voxels."""
        self.settle()
        columns, rows = self.sides(name)
        found = self.run(f"slices.pictureOf('{name}')").split()[2]
        wanted = picture_of(self.scale, self.view, name, columns, rows)
        want(len(found), len(wanted), f"the digits of {name}")
        pairs = ((at // 6, found[at : at + 6], wanted[at : at + 6]) for at in range(0, len(wanted), 6))
        return [(at % len(columns), at // len(columns), is_, due) for at, is_, due in pairs if is_ != due], columns, rows

    def want_pictures(self):
        """The three pictures of the page are those that are due."""
        for name in PANES:
            want(self.differences(name)[0][:1], [], f"{name}: the first pixel that is another: column, row, what it is and should be")

    def want_cross(self):
        """In each slice one line of pixels across and one down differ, which meet in the voxel at the cross."""
        for name, (across, down, _) in PANES.items():
            other, columns, rows = self.differences(name)
            want_true(other, f"{name} has no cross")
            column, row = (collections.Counter(places).most_common(1)[0][0] for places in list(zip(*other))[:2])
            strays = [place for place in other if place[0] != column and place[1] != row]
            want((strays, columns[column], rows[row]), ([], self.view.at[across], self.view.at[down]), f"the cross of {name}")

    def want_hatched(self, told, across, down):
        """The page tells this first. Of the first slice the pixels of some voxels are hatched, and all others are as due."""
        faults = self.on("faults", "element.textContent")
        want_true(faults.startswith(told), f"it tells {faults!r} wanted {told!r}")
        other, columns, rows = self.differences("xy")
        inside = sum(column in across for column in columns) * sum(row in down for row in rows)
        strays = [place for place in other if columns[place[0]] not in across or rows[place[1]] not in down]
        want((len(other), strays), (inside, []), "the hatched pixels")
        reds = {pixel for *_, pixel, _ in other}
        want_true(len(reds) > 1 and all(int(pixel[:2], 16) > int(pixel[2:4], 16) for pixel in reds), f"lines of red {reds}")

    def middle_of(self, name):
        return self.on(name, "(box => [box.x + box.width / 2, box.y + box.height / 2])(element.getBoundingClientRect())")

    def press(self, x, y, *path):
        """The mouse is pressed at a point, moved along others, and let go."""
        self.mouse("mousePressed", x, y, button="left", buttons=1, clickCount=1)
        for place in path:
            self.mouse("mouseMoved", *place, button="left", buttons=1)
        self.mouse("mouseReleased", *[(x, y), *path][-1], button="left", clickCount=1)

    def drag(self, *steps):
        """Fingers are put down, moved and lifted, at some points each time."""
        for kind, points in zip(["touchStart", *["touchMove"] * (len(steps) - 1), "touchEnd"], [*steps, []]):
            self.touch(kind, *points)

    def keep(self, title):
        if folder := os.environ.get("PICTURES"):
            pathlib.Path(folder).mkdir(parents=True, exist_ok=True)
            self.take_picture(pathlib.Path(folder) / f"{title.replace(' ', '_').replace(',', '')}.png")

    def want_told(self, link, query, told):
        """The page tells a fault, and no other goes uncaught."""
        self.open_view(link, query)
        faults = self.on("faults", "element.textContent")
        want_true(told in faults, f"it tells {faults!r} wanted {told!r}")
        want(self.exceptions, [], "exceptions")


FLOAT_SIZE = (40, 30, 20)

# Title, scale, what is shown of it
FORMS = [
    ("bytes, three channels", image(8, (70, 45, 33), (32, 16, 16), 3), View((30, 20, 10), 4, 1, (10, 200))),
    ("16 bits in shards", image(16, (61, 50, 40), (16, 16, 16), sharding=Sharding(2, False, 2, 3)), View((60, 0, 39), 5, 0, (1000, 50000))),
    (
        "floats",
        Scale(FLOAT_SIZE, (16, 16, 16), width=4, values=values_of(FLOAT_SIZE, 1, floats), resolution=(10, 5, 15), is_float=True),
        View((20, 15, 7), 3, 0, (-1.5, 2.25)),
    ),
    ("labels of 32 bits", labels(32, (48, 40, 36), (32, 32, 16), (8, 8, 8)), View((24, 20, 18), 3)),
    (
        "labels of 64 bits in shards", labels(64, (40, 44, 30), (16, 16, 8), (5, 4, 3), sharding=Sharding(1, True, 3, 4)),
        View((17, 3, 29), 6),
    ),
    ("the first of two chunk sizes", image(8, (40, 30, 20), (16, 16, 16), more=([9, 30, 4],)), View((20, 15, 10), 4, 0, (10, 200))),
    ("an offset below 0, clipped chunks", image(32, (37, 29, 23), (10, 9, 8), offset=(-17, 5, -40)), View((36, 28, 22), 7, 0, (0, 2**32))),
    ("64 bits in shards", image(64, (33, 20, 50), (7, 8, 9), 2, sharding=Sharding(0, True, 0, 11)), View((1, 2, 3), 2, 1, (0, 2**64))),
]

# Shardings of one small scale: no bits, all bits dropped, many more shards than chunks.
SHARDINGS = [(0, False, 0, 0), (3, False, 0, 2), (0, True, 4, 0), (64, True, 1, 1), (1, True, 2, 62), (5, False, 6, 9)]

# What the page says of a chunk, and what was done to its shard: where it is cut, and numbers by their places. It has two entries, two
# chunks of 8 bytes, and an index with their rows, which are two ids, two starts and two sizes from byte 48 on.
SHARD_DAMAGES = [
    ("shard short index", 10, {}), ("shard bad range", None, {0: 48, 8: 0}), ("shard bad length 23", None, {0: 0, 8: 23}),
    (f"shard too many rows {2**22 + 1}", None, {0: 0, 8: 24 * (2**22 + 1)}), ("shard short minishard", -1, {}),
    ("index id 1", None, {56: 0}), ("index start 1", None, {72: 2**64 - 8}), ("chunk too long 9 limit 8", None, {88: 9}),
    ("shard short chunk", None, {72: 1000}), ("chunk length 7 wanted 8", None, {88: 7}), ("chunk length 0 wanted 8", None, {88: 0}),
]

# What the page says of a segmentation of the one voxel 7, and its words: where the channel starts, two of a header, and the table.
SEGMENTATION_DAMAGES = [
    ("seg length 3", b"abc"), ("seg channel 0", bytes_of([1, 2])), ("seg bits 0 0 3", bytes_of([1, 3 << 24 | 2, 2, 7])),
    ("seg values 0 0", bytes_of([1, 1 << 24 | 2, 3, 7])), ("seg table 0 0 0", bytes_of([1, 3, 2, 7])),
]


class Failing(Handler):
    """Sends the files below a folder whole, whatever range is asked for; one it answers 500, and one it breaks off."""

    protocol_version = "HTTP/1.0"

    def do_GET(self):  # pylint: disable=invalid-name
        content, name = read_file(self.server.folder / self.path.lstrip("/")), self.path.rpartition("/")[2]
        status = 500 if name == self.server.failing else 404 if content is None else 200
        content = content if status == 200 else b""
        sent = content[: len(content) // 2] if name == self.server.broken else content
        self.reply(status, sent, len(content), **{"Access-Control-Allow-Origin": "*"})


class Slow(Plain):
    """Answers a page of another origin after a while, and notes how many requests are there at once."""

    def do_GET(self):  # pylint: disable=invalid-name
        with self.server.lock:
            self.server.now += 1
            self.server.most = max(self.server.most, self.server.now)
        time.sleep(0.1)
        # before the reply, behind which the next request may come
        with self.server.lock:
            self.server.now -= 1
        super().do_GET()

    def reply(self, status, body, length=None, **fields):
        super().reply(status, body, length, Access_Control_Allow_Origin="*", **fields)


class OnPage(Trial):
    """The rows that are given a browser with the page."""

    def shardings_of_every_kind(self, page):
        for number, sharding in enumerate(SHARDINGS):
            scale = image(8, (23, 19, 14), (4, 3, 4), sharding=Sharding(*sharding), dataset=f"d{number}")
            store(self, scale)
            with page.shows(self, scale, View((4, 5, 6), 5, 0, (0, 300))):
                pass

    def chunk_ids_of_more_than_32_bits(self, page):
        """Of a grid with one layer: a corner is stored of a scale that is otherwise absent."""
        length = 1 << 20
        part = [(length - 24, length - 2), (length - 20, length), (0, 3)]
        scale = Scale((length, length, 3), (4, 4, 4), width=2, values=collections.defaultdict(int), sharding=Sharding(1, True, 2, 3))
        for number, voxel in enumerate(itertools.product(*(range(*ends) for ends in part))):
            scale.values[scale.spot(voxel, 0)] = number * 40 + 1
        store(self, scale, part=part)
        with page.shows(self, scale, View((length - 12, length - 10, 1), 6, 0, (0, 60000))):
            pass

    def values_under_the_pointer(self, page):
        """With their position; chunks that aren't stored."""
        scale = labels(64, (40, 44, 30), (16, 16, 8), (8, 8, 8), offset=(-5, 100, 0))
        store(self, scale, part=[(-5, 27), *scale.whole[1:]])
        scale = dataclasses.replace(scale, values=[0 if spot % 40 >= 32 else value for spot, value in enumerate(scale.values)])
        with page.shows(self, scale, View((20, 22, 14), 4)):
            x, y = page.middle_of("xy")
            for column, row, name, wanted in [
                (3, -2, "where", "x 18  y 120  z 14"), (3, -2, "value", str(scale.value((23, 20, 14), 0))),
                (15, 0, "value", "0 (no chunk is stored here)"), (-22, 0, "where", "outside of the scale"),
            ]:
                page.mouse("mouseMoved", x + 4 * column, y + 4 * row)
                want(page.on(name, "element.textContent"), wanted, f"{name} at {column},{row}")
            want_true("not stored" in page.on("busy", "element.textContent"), "it doesn't tell that chunks are absent")
            page.keep("chunks that are absent")

    def wheel_keys_click_and_drag(self, page):
        """Each is told by the pictures."""
        scale = image(8, (70, 45, 33), (32, 16, 16), 2)
        store(self, scale)
        with page.shows(self, scale, View((30, 20, 10), 4, 0, (0, 255))):
            x, y = page.middle_of("xy")
            for turns in (1, 1, 1, -1):
                page.mouse("mouseWheel", x, y, deltaX=0, deltaY=120 * turns)
            page.moves(0, 0, 2)
            page.press(x, y, *((x + aside, y - 16) for aside in (10, 24, 40)))
            page.pans(40, -16)
            page.press(x + 8, y + 12)
            page.moves(2 - 10, 3 + 4, 0)
            for key, kind in itertools.product(("ArrowLeft", "ArrowDown", "."), ("keyDown", "keyUp")):
                page.call("Input.dispatchKeyEvent", type=kind, key=key)
            page.moves(-1, 1, 1)
            page.mouse("mouseWheel", x, y, deltaX=0, deltaY=8, modifiers=8)
            page.pans(0, -8)
            page.mouse("mouseMoved", x, y)
            before = page.on("where", "element.textContent")
            page.mouse("mouseWheel", x, y, deltaX=0, deltaY=-90, modifiers=2)
            page.settle()
            page.mouse("mouseMoved", x, y)
            want(page.on("where", "element.textContent"), before, "under the pointer after zooming")

    def fingers(self, page):
        scale = image(8, (70, 45, 33), (32, 16, 16))
        store(self, scale)
        page.resize(*WINDOW, is_mobile=True)
        with page.shows(self, scale, View((30, 20, 10), 4, 0, (0, 255))):
            x, y = page.middle_of("xy")
            page.drag([(x, y)], [(x + 20, y + 8)], [(x + 48, y + 16)])
            page.pans(48, 16)
            page.drag([(x - 40, y), (x + 40, y)], [(x - 80, y), (x + 80, y)])
            page.changes(zoom=8)
            page.drag([(x + 17, y + 17)])
            page.settle()
            want(page.on("position", "element.value"), "20, 18, 10", "the cross after a tap")
            page.resize(390, 780, scale=2, is_mobile=True)
            time.sleep(0.2)
            page.settle()
            page.keep("a telephone")

    def windows_channels_and_the_cross(self, page):
        """The window is the range of what is shown, at first and at the button's press; it, the channel and the cross can be set."""
        scale = image(16, (90, 80, 70), (32, 32, 32), 2)
        store(self, scale)
        with page.opened(self, scale, View((45, 40, 35), 12, 1)):
            page.fits_window()
            for name, value in ("low", 1000), ("high", 2000), ("channel", 0):
                page.set_field(name, value)
            page.changes(window=(1000, 2000), channel=0)
            page.on("range", "element.click()")
            page.fits_window()
            page.set_field("position", "50, 41,36")
            page.moves(5, 1, 1)
            page.on("cross", "element.click()")
            page.want_cross()
            for name in ("cross", "labels"):
                page.on(name, "element.click()")
            page.scale = dataclasses.replace(scale, block=(8, 8, 8))
            page.want_pictures()

    def another_scale(self, page):
        """It is shown at the same place, as large as before; one that can't be shown is listed with its reason."""
        fine = image(8, (64, 48, 32), (32, 32, 32), key="t")
        coarse = image(8, (32, 24, 16), (16, 16, 16), resolution=(8, 8, 16))
        store(self, fine, coarse)
        info = json.loads((self.folder / "d/info").read_text())
        info["scales"].insert(0, {**info["scales"][0], "key": "u", "encoding": "jpeg"})
        self.lay_out({"d/info": json.dumps(info).encode()})
        with page.shows(self, fine, View((21, 20, 10), 4, 0, (0, 255))):
            want(page.on("scale", "element.options[0].disabled"), True, "a scale of jpeg")
            page.set_field("scale", "s")
            page.scale = coarse
            page.changes(at=(10, 10, 5), zoom=8, centre=(10.75, 10.25, 5.25))

    def a_damaged_chunk(self, page):
        """It is hatched and told, and the others are shown; once it is mended it is shown too."""
        scale = image(8, (70, 45, 33), (32, 16, 16))
        store(self, scale)
        chunk = self.folder / scale.path_of((1, 1, 0))
        whole = chunk.read_bytes()
        chunk.write_bytes(whole[:-1])
        with page.opened(self, scale, View((30, 20, 10), 4, 0, (0, 255))):
            page.want_hatched("chunk 1,1,0 can't be shown: chunk length 8191 wanted 8192", range(32, 64), range(16, 32))
            page.keep("a damaged chunk")
            chunk.write_bytes(whole)
            page.on("faults", "element.querySelector('button').click()")
            page.want_pictures()

    def damaged_shards(self, page):
        store(self, Scale((4, 2, 2), (2, 2, 2), values=range(16), sharding=Sharding(1, False, 1, 0)))
        whole = (self.folder / "d/s/0.shard").read_bytes()
        with viewing(self, "d") as (link, _):
            for wanted, end, numbers in SHARD_DAMAGES:
                self.lay_out({"d/s/0.shard": with_numbers(whole[:end], numbers)})
                page.want_told(link, "at=3,0,0", wanted)

    def damaged_segmentations(self, page):
        store(self, Scale((1, 1, 1), (1, 1, 1), width=4, block=(1, 1, 1), values=[7]))
        with viewing(self, "d") as (link, _):
            for wanted, chunk in SEGMENTATION_DAMAGES:
                self.lay_out({"d/s/0-1_0-1_0-1": chunk})
                page.want_told(link, "at=0,0,0", wanted)

    def servers_that_fail(self, page):
        """Requests that fail, of a page that is a file; a server that sends no ranges; and none at all."""
        scale = labels(32, (48, 40, 36), (32, 32, 16), (8, 8, 8), sharding=Sharding(0, True, 1, 1))
        plain, view = image(8, (70, 45, 33), (32, 16, 16), dataset="plain"), View((30, 20, 10), 4, 0, (0, 255))
        for one in scale, plain:
            store(self, one)
        with running(Failing, folder=self.folder / "d", failing=None, broken=None) as server:
            source = f"http://127.0.0.1:{server.server_port}"
            with page.shows(self, scale, view, source):
                pass
            server.folder, page.scale = self.folder / "plain", plain
            for member, told in ("failing", "the server answers 500"), ("broken", "the server's answer breaks off"):
                vars(server).update({"failing": None, "broken": None, member: plain.name((1, 1, 0))})
                page.open_view(PAGE.as_uri(), f"source={source}&{view.query(plain)}")
                page.want_hatched(f"chunk 1,1,0 can't be shown: {told}", range(32, 64), range(16, 32))
        for address, told in (source, "the server can't be reached"), ("", "name the volume"):
            page.want_told(PAGE.as_uri(), f"source={address}", told)

    def requests_at_once(self, page):
        """A page that is a file has one at a time to a server of this machine, or as many as its address says."""
        scale, view = image(8, (70, 45, 33), (32, 16, 16)), View((30, 20, 10), 4, 0, (0, 255))
        store(self, scale)
        for more, least, most in ("", 1, 1), ("&connections=3", 2, 3):
            with running(Slow, folder=self.folder / "d", knows_ranges=True, lock=threading.Lock(), now=0, most=0) as server:
                with page.shows(self, scale, view, f"http://127.0.0.1:{server.server_port}{more}"):
                    want_true(least <= server.most <= most, f"{server.most} requests at once, {more}")

    def what_vol_tool_serve_serves(self, page):
        """A page that is a file shows it."""
        scale = image(16, (61, 50, 40), (16, 16, 16), sharding=Sharding(2, False, 2, 3))
        store(self, scale)
        with own(self) as port, page.shows(self, scale, View((30, 25, 20), 5, 0, (1000, 50000)), f"http://localhost:{port}"):
            pass

def shows_form(trial, page, title, scale, view):
    store(trial, scale)
    with page.shows(trial, scale, view):
        page.keep(title)


def fetches_pieces(trial):
    """A page of another origin asks `vol_tool serve` for 40 pieces at once, over as many connections as the browser likes."""
    content = random.Random(0).randbytes(40 << 16)
    trial.lay_out({"d/s/large": content})
    with own(trial) as port:
        fetch_parts(port, content, 8000)


def on_page(trial, judge, *arguments):
    with Page() as page:
        judge(trial, page, *arguments)


def rows():
    yield "arrays that are views of others", stores_views
    yield "how a view begins and ends", begins
    yield "pieces of vol_tool serve at once", fetches_pieces
    for title, *form in FORMS:
        yield f"the page: {title}", on_page, shows_form, title, *form
    for title, judge in methods_of(OnPage, Trial):
        yield f"the page: {title}", on_page, judge


if __name__ == "__main__":
    main(rows)
