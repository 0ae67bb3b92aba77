"""What a notebook shows of a scale, and the server of the page, over the program and over a script in its place."""
from __future__ import annotations

import base64
import contextlib
import html.parser
import http.client
import json
import math
import os
import pathlib
import re
import signal
import socket
import stat
import struct
import subprocess
import sys
import time
import types
import urllib.parse
import zlib

import numpy
import pytest

from vol_tool import pictures, views
from vol_tool.errors import BadInfo, Damaged, NoScale, PortFault, StreamFault, UsageError, VolToolError

ROOT = pathlib.Path(__file__).resolve().parents[2]
PROGRAM = pathlib.Path(os.environ.get("VOL_TOOL") or ROOT / "crates/vol_tool/out/vol_tool")
LIMIT = 60


# Pictures


class Array:
    """A scale as pictures.py takes one; it notes what is read of it."""

    def __init__(self, values, axes="zyx", encoding="raw", **members):
        self.values, self.axes, self.shape, self.dtype = values, axes, values.shape, values.dtype
        self.key, self.resolution, self.offset = "8_8_40", (8, 8, 40), (0, 0, 0)
        self.chunks = tuple(min(64, length) for length in values.shape)
        self.info, self.asked = types.SimpleNamespace(encoding=encoding), []
        vars(self).update(members)

    def __getitem__(self, index):
        self.asked.append(index)
        if isinstance(self.values, Exception):
            raise self.values
        return self.values[index]


def picture_in(text):
    """The pixels of the one picture in a text of HTML."""
    data, = re.findall(r'src="data:image/png;base64,([A-Za-z0-9+/=]+)"', text)
    return pixels_of(base64.b64decode(data))


def pixels_of(png):
    """The pixels of a PNG, which is judged as far as it goes."""
    assert png.startswith(b"\x89PNG\r\n\x1a\n")
    at, parts = 8, []
    while at < len(png):
        length, name = struct.unpack_from(">I4s", png, at)
        content = png[at + 8 : at + 8 + length]
        assert struct.unpack_from(">I", png, at + 8 + length)[0] == zlib.crc32(name + content)
        parts.append((name, content))
        at += 12 + length
    assert [name for name, _ in parts] == [b"IHDR", b"IDAT", b"IEND"]
    width, height, depth, kind, *rest = struct.unpack(">2I5B", parts[0][1])
    assert (depth, rest) == (8, [0, 0, 0]) and kind in (0, 2)
    each = 3 if kind == 2 else 1
    rows = numpy.frombuffer(zlib.decompress(parts[1][1]), "uint8").reshape(height, 1 + width * each)
    assert not rows[:, 0].any()
    return rows[:, 1:].reshape((height, width, 3) if each == 3 else (height, width))


class Reader(html.parser.HTMLParser):
    """Reads the texts of HTML, and sees that each element ends."""

    def __init__(self, text):
        super().__init__()
        self.open, self.texts = [], []
        self.feed(text)
        self.close()
        assert self.open == []

    def handle_starttag(self, tag, attrs):
        if tag not in ("br", "img"):
            self.open.append(tag)

    def handle_endtag(self, tag):
        assert self.open.pop() == tag

    def handle_data(self, data):
        self.texts.append(data)


BYTES = numpy.random.default_rng(0).integers(0, 256, (9, 30, 40), "uint8")


def test_an_image_of_bytes():
    scale = Array(BYTES, offset=(1, 2, 3))
    text = pictures.slice_png_html(scale)
    numpy.testing.assert_array_equal(picture_in(text), BYTES[4])
    shape = "9 × 30 × 40"
    wanted = {"8_8_40", f"{shape} (z, y, x)", "uint8", f"{shape}, raw", "8 × 8 × 40 nm (x, y, z)", "1, 2, 3 (x, y, z)", "10.5 KiB", "z 7"}
    assert wanted <= set(Reader(text).texts)
    assert "width: 240px; height: 180px" in text
    assert scale.asked == [(4, slice(0, 30, 1), slice(0, 40, 1))]


@pytest.mark.parametrize("axes", ["zyx", "xyz", "czyx", "xyzc", "zyxc"])
def test_axes(axes):
    """The picture is the same in all orders; of several channels it is the first one's."""
    stored, order = (numpy.stack([BYTES, BYTES + numpy.uint8(1)]), "czyx") if "c" in axes else (BYTES, "zyx")
    values = stored.transpose([order.index(axis) for axis in axes])
    text = pictures.slice_png_html(Array(values, axes))
    numpy.testing.assert_array_equal(picture_in(text), BYTES[4])
    assert ("channel 0" in text) == ("c" in axes)


@pytest.mark.parametrize("dtype", ["uint16", "uint32", "uint64"])
def test_greys(dtype):
    """From the least to the greatest value, also where these are far from 0."""
    top = numpy.iinfo(dtype).max
    values = (BYTES.astype(dtype) * 7 + numpy.array(top - 7 * 255, dtype)) if dtype != "uint16" else BYTES.astype(dtype) * 7 + 100
    found = picture_in(pictures.slice_png_html(Array(values)))
    share = (BYTES[4] - BYTES[4].min()) / (BYTES[4].max() - BYTES[4].min())
    numpy.testing.assert_array_equal(found, numpy.floor(share * 255 + 0.5).astype("uint8"))


def test_greys_that_are_all_the_same():
    assert (picture_in(pictures.slice_png_html(Array(BYTES.astype("uint16") * 0))) == 0).all()
    assert (picture_in(pictures.slice_png_html(Array(BYTES.astype("uint16") * 0 + 65535))) == 255).all()


def finish(word):
    word = (word ^ word >> 16) * 0x85EBCA6B & 0xFFFFFFFF
    word = (word ^ word >> 13) * 0xC2B2AE35 & 0xFFFFFFFF
    return word ^ word >> 16


def label_colour(value):
    """The page's colour of a label: a hue, a saturation and a brightness by a hash, and black for 0."""
    if value == 0:
        return [0, 0, 0]
    chosen = finish((value & 0xFFFFFFFF ^ finish(value >> 32)) + 0x9E3779B9 & 0xFFFFFFFF)
    hue, saturation, brightness = chosen % 360 / 60, 0.55 + (chosen >> 9 & 63) / 160, 0.7 + (chosen >> 17 & 63) / 220
    turned = ((at + hue) % 6 for at in (5, 3, 1))
    return [math.floor(255 * (brightness - brightness * saturation * max(0, min(at, 4 - at, 1))) + 0.5) for at in turned]


def test_colours_of_labels():
    """Those of the page."""
    labels = [0, 1, 2, 3, 255, 2**16, 2**32 - 1, 2**32, 2**63, 2**64 - 1, *range(10**9, 10**9 + 2000), *range(2**40, 2**62, 2**51)]
    found = pictures.colours_of(numpy.array(labels, "uint64"))
    assert found.tolist() == [label_colour(label) for label in labels]
    assert pictures.colours_of(numpy.array([7], "uint8")).tolist() == [label_colour(7)]


@pytest.mark.parametrize("members", [{"encoding": "compressed_segmentation"}, {"is_labels": True}])
def test_labels(members):
    values = (BYTES // 50).astype("uint64") * 0x9E3779B97F4A7C15
    found = picture_in(pictures.slice_png_html(Array(values, **members)))
    assert found.tolist() == [[label_colour(int(value)) for value in row] for row in values[4]]
    assert picture_in(pictures.slice_png_html(Array(values, encoding="compressed_segmentation", is_labels=False))).ndim == 2


class Wide(Array):
    """One that has no values before they are asked for."""

    def __init__(self, shape, chunks, **members):
        super().__init__(types.SimpleNamespace(shape=shape, dtype=numpy.dtype("uint8")), **members)
        self.chunks = chunks

    def __getitem__(self, index):
        self.asked.append(index)
        spans = [range(*part.indices(length)) for part, length in zip(index, self.shape) if isinstance(part, slice)]
        return numpy.zeros(list(map(len, spans)), "uint8")


@pytest.mark.parametrize("shape, chunks, wanted, words", [
    ((10, 1000, 300), (10, 64, 64), ((0, 1000, 4), (0, 300, 4)), ["one of 4 voxels"]),
    ((100, 5000, 9000), (64, 64, 64), ((1776, 3224, 6), (3776, 5224, 6)), ["one of 6", "the middle 1448 × 1448"]),
    ((10**6, 10**6, 10**6), (512, 512, 512), ((499744, 500256, 2), (499744, 500256, 2)), ["the middle 512 × 512"]),
    ((4, 10**9, 3), (4, 1, 3), ((494407595, 505592405, 43691), (0, 3, 43691)), ["the middle 3 × 11184810"]),
    ((1, 10**6, 10**6), (10**12, 1, 1), ((494207, 505792, 46), (494207, 505792, 46)), ["one of 46"]),
    ((10**12, 9, 9), (10**12, 1, 1), ((4, 5, 1), (4, 5, 1)), ["the middle 1 × 1"]),
])
def test_large_slices(shape, chunks, wanted, words):
    """A step is left out, and of what has very many chunks only the middle is read."""
    scale = Wide(shape, chunks)
    text = pictures.slice_png_html(scale)
    (z, y, x), = scale.asked
    assert (z, (y.start, y.stop, y.step), (x.start, x.stop, x.step)) == (shape[0] // 2, *wanted)
    assert max(picture_in(text).shape) <= 256
    assert (y.stop - y.start) * (x.stop - x.start) * min(chunks[0], shape[0]) <= max(pictures.MOST_VOXELS, shape[0])
    for word in words:
        assert word in text


@pytest.mark.parametrize("resolution, size", [
    ((8, 8, 40), (240, 180)), ((4, 8, 40), (160, 240)), ((80, 8, 1), (256, 19)), ((0, 8, 1), (240, 180)),
    ((math.nan, 8, 1), (240, 180)), ((1e300, 1e-300, 1), (256, 3)), ((math.inf, -1, 1), (240, 180)), ((1, 1000, 1), (5, 240)),
])
def test_sizes_that_are_shown(resolution, size):
    text = pictures.slice_png_html(Array(BYTES, resolution=resolution))
    assert f"width: {size[0]}px; height: {size[1]}px" in text


@pytest.mark.parametrize("why", [
    Damaged("damaged 0,0,0: chunk length 3 wanted <4>", 4), MemoryError(), ValueError("no"), RecursionError("too deep"),
])
def test_what_cannot_be_read(why):
    scale = Array(BYTES)
    scale.values = why
    text = pictures.slice_png_html(scale)
    texts = " ".join(Reader(text).texts)
    assert "9 × 30 × 40 (z, y, x)" in texts and "No slice is shown: " + (str(why) or type(why).__name__) in texts
    assert "<img" not in text


def test_texts_of_strangers():
    """What an info says is no HTML."""
    text = pictures.slice_png_html(Array(BYTES, key="<script>alert(1)</script>", encoding="<b>", resolution=("<i>", 1, 1)))
    assert "<script" not in text and "<b>" not in text and "<i>" not in text
    assert "<script>alert(1)</script>" in Reader(text).texts


def test_pictures_of_pillow():
    """Another reader of PNG sees the same."""
    image = pytest.importorskip("PIL.Image", reason="Pillow isn't installed")
    import io

    colours = numpy.random.default_rng(1).integers(0, 256, (7, 5, 3), "uint8")
    for pixels in (colours, colours[..., 0]):
        numpy.testing.assert_array_equal(numpy.asarray(image.open(io.BytesIO(pictures.png_of(pixels)))), pixels)


# The page

# A script in the place of the program: `serve` alone, one connection after the other, with a word on its error output where it refuses.
SCRIPT = """#!{python}
import http.server, os, pathlib, re, sys
command, dataset, *options = sys.argv[1:]
options = dict(option.lstrip("-").split("=") for option in options)
assert command == "serve" and options["port"] == "0" and "VOL_TOOL_ADDRESS" not in os.environ
if not pathlib.Path(dataset, "info").exists() or os.path.exists("refuses"):
    print("door fault", file=sys.stderr)
    sys.exit(9)

class Peer(http.server.BaseHTTPRequestHandler):
    protocol_version = "HTTP/1.1"
    timeout = 1

    def log_message(self, *_):
        pass

    def do_GET(self):
        path = pathlib.Path(dataset + self.path)
        if ".." in self.path or self.path.endswith("/") or not path.is_file():
            return self.answer(404, b"")
        body = path.read_bytes()
        found = re.fullmatch("bytes=([0-9]+)-([0-9]+)", self.headers.get("Range", ""))
        if found and int(found[1]) >= len(body):
            return self.answer(416, b"", {{"Content-Range": f"bytes */{{len(body)}}"}})
        if found:
            first, last = int(found[1]), min(int(found[2]), len(body) - 1)
            return self.answer(206, body[first : last + 1], {{"Content-Range": f"bytes {{first}}-{{last}}/{{len(body)}}"}})
        self.answer(200, body)

    do_HEAD = do_GET

    def answer(self, status, body, fields={{}}):
        self.send_response(status)
        for name, value in {{"Content-Length": len(body), "Accept-Ranges": "bytes", **fields}}.items():
            self.send_header(name, value)
        self.end_headers()
        if self.command == "GET":
            self.wfile.write(body)

server = http.server.HTTPServer(("127.0.0.1", 0), Peer)
print("listening", server.server_port, flush=True)
server.serve_forever()
"""

CHUNK = bytes(range(24))
NAME = "/s/0-2_0-3_0-4"
SCALE = {"key": "s", "size": [2, 3, 4], "chunk_sizes": [[2, 3, 4]], "resolution": [1, 1, 1], "encoding": "raw"}
INFO = json.dumps({"type": "image", "data_type": "uint8", "num_channels": 1, "scales": [SCALE]}).encode()


@pytest.fixture(params=["script", "program"])
def folder(request, tmp_path, monkeypatch):
    """A folder with the data set d, where this process is; the program is a script, or itself."""
    if request.param == "program" and not PROGRAM.exists():
        pytest.skip("the program isn't built: VOL_TOOL names it")
    script = tmp_path / "serve.py"
    script.write_text(SCRIPT.format(python=sys.executable))
    script.chmod(script.stat().st_mode | stat.S_IXUSR)
    monkeypatch.setenv("VOL_TOOL", str(script if request.param == "script" else PROGRAM))
    monkeypatch.setenv("VOL_TOOL_ADDRESS", "0.0.0.0")
    (tmp_path / "d/s").mkdir(parents=True)
    (tmp_path / "d/info").write_bytes(INFO)
    (tmp_path / f"d{NAME}").write_bytes(CHUNK)
    monkeypatch.chdir(tmp_path)
    return tmp_path


def ask(url, target, method="GET", **fields):
    """The status, a field and the body of a reply."""
    where = urllib.parse.urlsplit(url)
    link = http.client.HTTPConnection(where.hostname, where.port, timeout=LIMIT)
    with contextlib.closing(link):
        link.request(method, target, headers=fields)
        reply = link.getresponse()
        return reply.status, reply.headers["Content-Range"], reply.read()


def processes():
    """The state of each process, and which one has begun it."""
    found = {}
    for path in pathlib.Path("/proc").glob("[0-9]*/stat"):
        with contextlib.suppress(OSError):
            state, parent = path.read_text().rsplit(")", 1)[1].split()[:2]
            found[int(path.parent.name)] = state, int(parent)
    return found


def programs_of(pid):
    return [number for number, (state, parent) in processes().items() if parent == pid and state != "Z"]


def ends(url):
    """Nobody listens there any more."""
    where = urllib.parse.urlsplit(url)
    with pytest.raises(ConnectionRefusedError):
        socket.create_connection((where.hostname, where.port), timeout=LIMIT).close()


def test_replies(folder):
    """The page and the objects come from one address, to which peers that say nothing are no hindrance."""
    page = views.page()
    assert page.startswith(b"<!doctype html>") and b"compressed_segmentation" in page
    with views.serve_page("d", wait=False) as server, contextlib.ExitStack() as silent:
        where = urllib.parse.urlsplit(server.url)
        assert where.hostname == "127.0.0.1" and where.path == "/" and not where.query and server.url in repr(server)
        for _ in range(6):
            silent.enter_context(socket.create_connection((where.hostname, where.port)))
        for what, how, status, told, body in [
            ("/", {}, 200, None, page),
            ("/?scale=s&at=1,2,3", {}, 200, None, page),
            ("/", {"method": "HEAD"}, 200, None, b""),
            ("/info", {}, 200, None, INFO),
            (NAME, {}, 200, None, CHUNK),
            (NAME, {"Range": "bytes=3-5"}, 206, "bytes 3-5/24", CHUNK[3:6]),
            (NAME, {"Range": "bytes=24-25"}, 416, "bytes */24", b""),
            (NAME, {"method": "HEAD"}, 200, None, b""),
            ("/s/none", {}, 404, None, b""),
            (NAME, {"Host": "localhost:1"}, 200, None, CHUNK),
        ]:
            assert ask(server.url, what, **how) == (status, told, body), f"{what} {how}"
        for other in ("/../d/info", "/%69nfo", "/s/"):
            assert ask(server.url, other)[0] == 404
        assert ask(server.url, NAME, Host="volumes.example:80")[0] == 403
        assert ask(server.url, "/", Host="volumes.example:80")[0] == 403
        assert ask(server.url, "/", method="POST")[0] == 501
    ends(server.url)


def test_a_server_that_ended(folder):
    """It is begun anew, as is a connection that was silent for too long."""
    with views.serve_page(folder / "d", key="s", wait=False) as server:
        assert server.url.endswith("/?scale=s") and f'href="{server.url}"' in server._repr_html_()
        assert ask(server.url, NAME) == (200, None, CHUNK)
        for pid in programs_of(os.getpid()):
            os.kill(pid, signal.SIGKILL)
        assert ask(server.url, NAME) == (200, None, CHUNK)
        time.sleep(1.5)
        assert ask(server.url, NAME) == (200, None, CHUNK)
        assert len(programs_of(os.getpid())) == 1
    assert programs_of(os.getpid()) == []
    server.close()
    ends(server.url)


@pytest.mark.parametrize("folder", ["script"], indirect=True)
def test_a_program_that_does_not_begin_again(folder):
    with views.serve_page("d", wait=False) as server:
        (folder / "refuses").touch()
        for pid in programs_of(os.getpid()):
            os.kill(pid, signal.SIGKILL)
        assert ask(server.url, NAME)[0] == 502
        (folder / "refuses").unlink()
        assert ask(server.url, NAME) == (200, None, CHUNK)


def test_servers_at_once(folder):
    with views.serve_page("d", wait=False) as one, views.serve_page("d", wait=False) as other:
        assert one.url != other.url
        one.close()
        assert ask(other.url, NAME) == (200, None, CHUNK)
    forgotten = views.serve_page("d", wait=False).url
    ends(forgotten)
    assert programs_of(os.getpid()) == []


def test_other_addresses(folder):
    with views.serve_page("d", address="0.0.0.0", wait=False) as server:
        assert server.url.startswith("http://127.0.0.1:")
        assert ask(server.url, NAME, Host="volumes.example")[0] == 200
    with views.serve_page("d", address="127.0.0.2", wait=False) as server:
        assert server.url.startswith("http://127.0.0.2:")
        assert ask(server.url, NAME)[0] == 200 and ask(server.url, NAME, Host="volumes.example")[0] == 403


def test_an_address_of_more_bits(folder):
    try:
        socket.create_server(("::1", 0), family=socket.AF_INET6).close()
    except OSError:
        pytest.skip("this machine has no ::1")
    with views.serve_page("d", address="::1", wait=False) as server:
        assert server.url.startswith("http://[::1]:") and ask(server.url, NAME)[0] == 200


def test_what_is_refused(folder):
    (folder / "broken").mkdir()
    (folder / "broken/info").write_bytes(b"{")
    with socket.create_server(("127.0.0.1", 0)) as taken:
        port = taken.getsockname()[1]
        for words, more, kind, text in [
            (["e"], {}, BadInfo, "e/info"), (["broken"], {}, BadInfo, "broken/info"), (["d"], {"key": "t"}, NoScale, "t"),
            (["d", port], {}, PortFault, f"port {port}"), (["d", 65536], {}, UsageError, "65536"), (["a b"], {}, UsageError, "a b"),
            (["d"], {"address": "192.0.2.1"}, PortFault, "192.0.2.1"),
        ]:
            for wait in (True, False):
                with pytest.raises(VolToolError) as found:
                    views.serve_page(*words, **more, wait=wait)
                assert type(found.value) is kind and text in str(found.value), f"{words} {more}: {found.value!r}"
    assert programs_of(os.getpid()) == []


@pytest.mark.parametrize("folder", ["script"], indirect=True)
def test_a_program_that_does_not_begin(folder):
    (folder / "refuses").touch()
    with pytest.raises(PortFault, match="door fault") as found:
        views.serve_page("d", wait=False)
    assert found.value.status == 9
    (folder / "serve.py").write_text(f"#!{sys.executable}\nprint('no')")
    with pytest.raises(StreamFault):
        views.serve_page("d", wait=False)


WAITING = """
import sys
sys.path.insert(0, sys.argv[1])
from vol_tool.views import serve_page
assert serve_page("d", key="s") is None
print("over")
"""


@pytest.mark.parametrize("by", [signal.SIGINT, signal.SIGTERM, signal.SIGHUP])
def test_a_view_until_it_is_ended(folder, by):
    """It ends by a signal, and the program with it."""
    words = [sys.executable, "-c", WAITING, str(pathlib.Path(views.__file__).parents[1])]
    child = subprocess.Popen(words, stdout=subprocess.PIPE, stderr=subprocess.PIPE, text=True)
    try:
        url = child.stdout.readline().strip()
        assert re.fullmatch(r"http://127\.0\.0\.1:\d+/\?scale=s", url), child.stderr.read()
        assert ask(url, NAME) == (200, None, CHUNK)
        begun = programs_of(child.pid)
        assert len(begun) == 1
        child.send_signal(by)
        assert child.communicate(timeout=LIMIT) == ("over\n", "") and child.returncode == 0
        assert [pid for pid in begun if processes().get(pid, "Z")[0] != "Z"] == []
    finally:
        if child.poll() is None:
            for pid in (*programs_of(child.pid), child.pid):
                os.kill(pid, signal.SIGKILL)
            child.communicate()


def test_a_python_that_ends(folder):
    """A server that nobody closed ends with its process."""
    code = WAITING.replace('assert serve_page("d", key="s") is None', 'import os; one = serve_page("d", wait=False); print(one.url)')
    words = [sys.executable, "-c", code, str(pathlib.Path(views.__file__).parents[1])]
    done = subprocess.run(words, stdout=subprocess.PIPE, stderr=subprocess.PIPE, text=True, timeout=LIMIT, check=True)
    url, over = done.stdout.split()
    assert (over, done.stderr) == ("over", "")
    ends(url)


def test_a_browser_is_opened(folder, monkeypatch):
    import webbrowser

    opened = []
    monkeypatch.setattr(webbrowser, "open", opened.append)
    with views.serve_page("d", open_browser=True, wait=False) as server:
        assert opened == [server.url]
