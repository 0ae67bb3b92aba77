"""Links: what is asked for and kept, what is refused and told, against servers of these tests' own on the loopback address."""
from __future__ import annotations

import contextlib
import gzip
import http.server
import json
import logging
import multiprocessing
import os
import pathlib
import random
import re
import socket
import sys
import threading
import time

import pytest

pytest.importorskip("urllib3", reason="urllib3 isn't installed")

from vol_tool import caches, copies, links, shards, web  # noqa: E402
from vol_tool.errors import (  # noqa: E402
    BadInfo, Conflict, Damaged, FetchFault, MissingPackage, NoScale, OutsideScale, StoreFault, TooLarge, UnsupportedType, UsageError,
)
from vol_tool.infos import Info  # noqa: E402

ROOT = pathlib.Path(__file__).resolve().parents[2]
PROGRAM = pathlib.Path(os.environ.get("VOL_TOOL") or ROOT / "crates/vol_tool/out/vol_tool")

BOX = ((0, 4), (0, 4), (0, 1))
SCALE = {"key": "s", "size": [4, 4, 1], "chunk_sizes": [[2, 2, 1]], "resolution": [1, 1, 1], "encoding": "raw"}
INFO = {"type": "image", "data_type": "uint8", "num_channels": 1, "scales": [SCALE]}
FIRST, SECOND, THIRD = (f"/v/s/{name}_0-1" for name in ("0-2_0-2", "2-4_0-2", "0-2_2-4"))
CHUNKS = {FIRST: bytes([1, 2, 3, 4]), SECOND: bytes([5, 6, 7, 8]), THIRD: bytes([9, 10, 11, 12])}
ABSENT = "/v/s/2-4_2-4_0-1"


def info_of(*scales, **members):
    return json.dumps({**INFO, "scales": list(scales), **members}).encode()


# The server


class Peer(http.server.BaseHTTPRequestHandler):
    """
    A peer of a server with files. `at_first` has of each path what its first answers are: a status, and how many bytes of the body are
    sent; `codings` how it comes; `barrier` is where each chunk waits for another one.
    """

    protocol_version = "HTTP/1.1"
    disable_nagle_algorithm = True

    def setup(self):
        super().setup()
        self.server.peers.append(self.connection)

    def log_message(self, *_):
        pass

    def do_GET(self):
        server, path = self.server, self.path
        with server.lock:
            server.asked.append((path, self.headers.get("Range")))
            server.ports.add(self.client_address[1])
            first = server.at_first.get(path)
            status, count = first.pop(0) if first else (None, None)
        if server.barrier and path != "/v/info":
            server.barrier.wait()
        if server.pause:
            time.sleep(server.pause)
        if path in server.moved:
            self.answer(302, b"", {"Location": server.moved[path]})
        elif status not in (None, 200):
            self.answer(status, b"no\n", {"Retry-After": "86400"} if status == 429 else {})
        elif path not in server.files:
            self.answer(server.not_there, b"none\n")
        else:
            self.send(server.files[path], count)

    def send(self, body, count):
        """A file, or a range of it, or the begin of it."""
        fields, status = {"ETag": f'"{hash(body)}"'}, 200
        asked = re.fullmatch(r"bytes=(\d+)-(\d+)", self.headers.get("Range", "")) if self.server.knows_ranges else None
        if asked and int(asked[1]) >= len(body):
            return self.answer(416, b"", {"Content-Range": f"bytes */{len(body)}"})
        if asked:
            begin, end = int(asked[1]), min(int(asked[2]) + 1, len(body))
            status, fields["Content-Range"], body = 206, f"bytes {begin}-{end - 1}/{len(body)}", body[begin:end]
        coding = self.server.codings.get(self.path)
        body = gzip.compress(body) if coding == "gzip" else body
        self.answer(status, body, {**fields, **({"Content-Encoding": coding} if coding else {})}, count)

    def answer(self, status, body, fields=(), count=None):
        self.send_response(status)
        for name, value in {"Content-Length": len(body), **dict(fields)}.items():
            self.send_header(name, value)
        self.end_headers()
        self.wfile.write(body[:count])
        self.close_connection |= count is not None


@contextlib.contextmanager
def serving(**members):
    usual = {
        "files": {"/v/info": info_of(SCALE), **CHUNKS}, "codings": {}, "at_first": {}, "barrier": None, "moved": {}, "not_there": 404,
        "knows_ranges": True, "pause": 0, "asked": [], "ports": set(), "peers": [], "lock": threading.Lock(),
    }
    with http.server.ThreadingHTTPServer(("127.0.0.1", 0), Peer) as server:
        server.daemon_threads, server.handle_error = True, lambda *_: None
        vars(server).update({**usual, **members}, link=f"http://127.0.0.1:{server.server_port}/v")
        threading.Thread(target=server.serve_forever, kwargs={"poll_interval": 0.01}, daemon=True).start()
        try:
            yield server
        finally:
            server.shutdown()
            for peer in server.peers:
                with contextlib.suppress(OSError):
                    peer.shutdown(socket.SHUT_RDWR)


@pytest.fixture
def server():
    with serving() as found:
        yield found


@pytest.fixture(autouse=True)
def surroundings(tmp_path, monkeypatch):
    """A cache of the test's own, no proxy, and no pauses before another try."""
    monkeypatch.setenv("XDG_CACHE_HOME", str(tmp_path / "cache"))
    for name in list(os.environ):
        if name.lower().endswith("_proxy"):
            monkeypatch.delenv(name)
    monkeypatch.setattr(web, "PAUSE", 0.001)
    monkeypatch.setattr(web, "LONGEST_PAUSE", 0.01)


class Judge:
    """What judges in place of the program: it notes what is asked for, and says that something is wrong where it is told to."""

    def __init__(self):
        self.asked, self.wrong = [], None

    def __call__(self, dataset, key, box):
        self.asked.append((dataset, key, box))
        if self.wrong is not None:
            raise self.wrong


@pytest.fixture
def judge():
    return Judge()


def asked_for(server):
    """The paths that were asked for, but for the info."""
    return sorted(path for path, _ in server.asked if path != "/v/info")


def files_in(folder):
    return {str(path.relative_to(folder)): path.read_bytes() for path in folder.rglob("*") if path.is_file()}


def objects_in(link):
    return {f"/v/{name}": content for name, content in files_in(link.local).items() if name != "info"}


def told(kind, call, *texts):
    with pytest.raises(kind) as found:
        call()
    assert type(found.value) is kind
    for text in texts:
        assert text in str(found.value)
    assert "\n" not in str(found.value) and " at 0x" not in str(found.value)
    return found.value


# Addresses

ADDRESSES = {
    "gs://b/v/": "https://storage.googleapis.com/b/v", "precomputed://gs://b/v": "https://storage.googleapis.com/b/v",
    "gs://b/v/info": "https://storage.googleapis.com/b/v", "precomputed://https://a/v": "https://a/v", "http://a/v/": "http://a/v",
    "http://a/v/info": "http://a/v", "http://a:8080/": "http://a:8080", "https://a/v|neuroglancer-precomputed:": "https://a/v",
    "gs://b": "https://storage.googleapis.com/b", "https://[::1]:80/v": "https://[::1]:80/v",
}
NO_ADDRESSES = [
    "s3://b/v", "cells", "/cells", "http://", "https:///v", "precomputed://cells", "gs://", "precomputed://", "http://a/v?x=1",
    "http://a/v#x", "http://me:secret@a/v", "ftp://a/v", "http://a:x/v", "http://[::1/v", "",
]


@pytest.mark.parametrize("link", ADDRESSES)
def test_addresses(link):
    assert links.is_link(link) and links.address_of(link) == ADDRESSES[link]


@pytest.mark.parametrize("link", NO_ADDRESSES)
def test_what_is_no_address(link):
    told(UsageError, lambda: links.address_of(link), link)


def test_what_is_a_link():
    assert not any(map(links.is_link, ("cells", "/data/cells", "a:b", "file.h5:/raw", "", "http:", "http:/a")))


def test_names_of_folders(monkeypatch, tmp_path):
    addresses = ("https://a/v", "https://a/w", "http://a/v", "https://a:80/v" + "w" * 300, "https://../..")
    names = list(map(caches.name_of, addresses))
    assert len(set(names)) == len(names)
    assert all(re.fullmatch(r"[A-Za-z0-9][A-Za-z0-9_.-]{5,150}", name) for name in names[:4]) and "/" not in names[4]
    assert names[0].startswith("a_v-")
    assert caches.default_root() == tmp_path / "cache/vol_tool"
    for name in ("", "not/absolute"):
        monkeypatch.setenv("XDG_CACHE_HOME", name)
        monkeypatch.setenv("HOME", str(tmp_path))
        assert caches.default_root() == tmp_path / ".cache/vol_tool"


# What is fetched


def test_a_box(server, judge):
    link = links.open_link(server.link, verify=judge)
    assert link.info == json.loads(server.files["/v/info"])
    assert json.loads((link.local / "info").read_bytes()) == link.info and objects_in(link) == {}
    link.ensure("s", ((1, 3), (0, 2), (0, 1)))
    assert asked_for(server) == sorted([FIRST, SECOND])
    assert objects_in(link) == {path: CHUNKS[path] for path in (FIRST, SECOND)}
    assert judge.asked == [(link.local, "s", ((1, 3), (0, 2), (0, 1)))]
    link.ensure("s", BOX)
    assert asked_for(server) == sorted([FIRST, SECOND, THIRD, ABSENT])
    assert objects_in(link) == CHUNKS and len(judge.asked) == 2
    for box in (BOX, ((0, 1), (0, 1), (0, 1)), ((3, 4), (3, 4), (0, 1))):
        link.ensure("s", box)
    assert len(asked_for(server)) == 4 and len(judge.asked) == 2, "what is there, and what is absent, is asked for again"
    assert server.link in repr(link)


def test_a_box_once_more(server, judge):
    """Another process asks for what was absent, and for nothing that is there, which it judges."""
    links.open_link(server.link, verify=judge).ensure("s", BOX)
    server.asked.clear()
    server.files[ABSENT] = bytes([1, 1, 1, 1])
    link = links.open_link(server.link, verify=judge)
    link.ensure("s", BOX)
    assert asked_for(server) == [ABSENT] and len(judge.asked) == 2
    link.clear()
    assert objects_in(link) == {}
    link.ensure("s", BOX)
    assert objects_in(link) == {**CHUNKS, ABSENT: bytes([1, 1, 1, 1])} and len(judge.asked) == 3


def test_nothing_there(server, judge):
    """Nothing is judged where nothing is there."""
    link = links.open_link(server.link, verify=judge)
    link.ensure("s", ((2, 4), (2, 4), (0, 1)))
    assert judge.asked == [] and objects_in(link) == {}


def test_a_cache_of_ones_own(server, judge, tmp_path):
    link = links.open_link(f"precomputed://{server.link}/info", cache=tmp_path / "mine", verify=judge)
    assert link.local.parent == tmp_path / "mine"
    assert (link.local.parent / f"{link.local.name}.link").read_text() == f"{server.link}\n"
    link.ensure("s", BOX)
    assert objects_in(link) == CHUNKS


def test_gzip(judge):
    with serving(codings=dict.fromkeys(["/v/info", *CHUNKS], "gzip")) as server:
        link = links.open_link(server.link, verify=judge)
        link.ensure("s", BOX)
        assert objects_in(link) == CHUNKS


def test_offsets_and_edges(judge):
    scale = {**SCALE, "size": [5, 3, 2], "voxel_offset": [-3, 7, 0], "chunk_sizes": [[2, 2, 2]]}
    files = {f"/v/s/{name}": b"x" for name in ("-3--1_7-9_0-2", "-1-1_7-9_0-2", "1-2_7-9_0-2", "1-2_9-10_0-2")}
    with serving(files={"/v/info": info_of(scale), **files}) as server:
        link = links.open_link(server.link, verify=judge)
        link.ensure("s", ((-2, 2), (8, 9), (1, 2)))
        assert asked_for(server) == sorted(list(files)[:3])
        link.ensure("s", ((1, 2), (9, 10), (0, 1)))
        assert objects_in(link) == files


def test_the_first_of_several_chunk_sizes(judge):
    scale = {**SCALE, "chunk_sizes": [[2, 2, 1], [4, 4, 1]]}
    with serving(files={"/v/info": info_of(scale), **CHUNKS}) as server:
        link = links.open_link(server.link, verify=judge)
        link.ensure("s", BOX)
        assert objects_in(link) == CHUNKS
        assert link.info["scales"][0]["chunk_sizes"] == [[2, 2, 1], [4, 4, 1]]
        assert json.loads((link.local / "info").read_bytes())["scales"] == [SCALE]


def test_several_connections(judge):
    with serving(barrier=threading.Barrier(2, timeout=10)) as server:
        link = links.open_link(server.link, verify=judge)
        link.ensure("s", BOX)
        assert objects_in(link) == CHUNKS


def test_connections_are_kept(judge):
    scale = {**SCALE, "size": [100, 2, 1]}
    files = {f"/v/s/{at}-{at + 2}_0-2_0-1": b"abcd" for at in range(0, 100, 2)}
    with serving(files={"/v/info": info_of(scale), **files}) as server:
        link = links.open_link(server.link, verify=judge, workers=3)
        link.ensure("s", ((0, 100), (0, 2), (0, 1)))
        assert objects_in(link) == files and len(server.ports) <= 4
        link.close()


def test_batches(judge, monkeypatch):
    monkeypatch.setattr(copies, "BATCH", 2)
    with serving() as server:
        link = links.open_link(server.link, verify=judge)
        link.ensure("s", BOX)
        assert objects_in(link) == CHUNKS


def test_one_object_for_several_threads(judge):
    """It is asked for once."""
    with serving(pause=0.2) as server:
        link = links.open_link(server.link, verify=judge)
        threads = [threading.Thread(target=link.ensure, args=("s", ((0, 1), (0, 1), (0, 1)))) for _ in range(6)]
        for thread in threads:
            thread.start()
        for thread in threads:
            thread.join(20)
        assert asked_for(server) == [FIRST] and objects_in(link) == {FIRST: CHUNKS[FIRST]}


def ensure_and_tell(link, pipe):
    link.ensure("s", BOX)
    pipe.send(len(objects_in(link)))


def test_a_process_that_is_forked(server, judge):
    """As those of a data loader are: it has no threads and no connections of its parent."""
    link = links.open_link(server.link, verify=judge)
    link.ensure("s", ((0, 1), (0, 1), (0, 1)))
    here, there = multiprocessing.Pipe()
    child = multiprocessing.get_context("fork").Process(target=ensure_and_tell, args=(link, there), daemon=True)
    child.start()
    assert here.poll(20) and here.recv() == 3
    child.join(20)
    link.ensure("s", BOX)


# Shards


def test_chunk_ids_and_shards():
    """The examples of the format's page, and the model of this project's tests."""
    assert shards.chunk_id((5, 1, 3), (4, 0, 2)) == 24
    sys.path.insert(0, str(ROOT / "tests"))
    try:
        from model.murmur import hash8
        from model.shards import Sharding
    except ImportError:
        pytest.skip("the model isn't there")
    finally:
        sys.path.remove(str(ROOT / "tests"))
    chance = random.Random(0)
    for number in [0, 1, 2**32 - 1, 2**32, 2**64 - 1, *(chance.getrandbits(chance.randrange(65)) for _ in range(300))]:
        assert shards.murmur(number) == hash8(number)
    for _ in range(300):
        size = [chance.choice((1, 2, 3, 5, 16, 33)) for _ in range(3)]
        offset = [chance.randrange(-9, 9) for _ in range(3)]
        words = chance.randrange(65), chance.random() < 0.5, chance.randrange(8), chance.randrange(20)
        model = Sharding(*words)
        member = {**SCALE, "size": size, "voxel_offset": offset, "chunk_sizes": [[1, 1, 1]], "sharding": model.member()}
        scale = Info.parse(info_of(member), "info").scale("s")
        cell = [chance.randrange(side) for side in size]
        box = tuple((first + number, first + number + 1) for first, number in zip(offset, cell))
        shard, _ = model.place(shards.chunk_id(size, cell))
        assert shards.shard_name(scale, box) == model.file(shard)


SHARDING = {
    "@type": "neuroglancer_uint64_sharded_v1", "preshift_bits": 0, "hash": "identity", "minishard_bits": 0, "shard_bits": 1,
}
SHARDS = {f"/v/s/{number}.shard": bytes(range(100 + number)) for number in range(2)}
IN_SHARDS = {"/v/info": info_of({**SCALE, "sharding": SHARDING}), **SHARDS}


@pytest.mark.parametrize("knows_ranges", [True, False])
@pytest.mark.parametrize("piece", [1, 30, 100, 1000])
def test_whole_shards(judge, monkeypatch, piece, knows_ranges):
    monkeypatch.setattr(web, "PIECE", piece)
    with serving(files=IN_SHARDS, knows_ranges=knows_ranges) as server:
        link = links.open_link(server.link, verify=judge)
        link.ensure("s", ((2, 3), (0, 4), (0, 1)))
        assert objects_in(link) == {"/v/s/1.shard": SHARDS["/v/s/1.shard"]}
        count = -(-101 // piece) if knows_ranges else 1
        assert asked_for(server) == ["/v/s/1.shard"] * count
        link.ensure("s", ((2, 3), (1, 2), (0, 1)))
        assert len(judge.asked) == 1
        link.ensure("s", BOX)
        assert objects_in(link) == SHARDS and len(judge.asked) == 2


def test_an_absent_shard_and_an_empty_one(judge):
    with serving(files={**IN_SHARDS, "/v/s/0.shard": b""}) as server:
        del server.files["/v/s/1.shard"]
        link = links.open_link(server.link, verify=judge)
        link.ensure("s", BOX)
        assert objects_in(link) == {"/v/s/0.shard": b""}


def test_a_shard_that_is_changed_meanwhile(judge, monkeypatch):
    monkeypatch.setattr(web, "PIECE", 30)
    whole = web.Web._ask

    def ask(self, address, headers, *more):
        reply = whole(self, address, headers, *more)
        if headers.get("Range") == "bytes=30-59":
            server.files["/v/s/0.shard"] = bytes(100)
        return reply

    monkeypatch.setattr(web.Web, "_ask", ask)
    with serving(files=dict(IN_SHARDS)) as server:
        link = links.open_link(server.link, verify=judge)
        told(FetchFault, lambda: link.ensure("s", ((0, 1), (0, 1), (0, 1))), f"{server.link}/s/0.shard", "changed")
        assert files_in(link.local).keys() == {"info"}


def test_pieces_that_break_off(judge, monkeypatch):
    monkeypatch.setattr(web, "PIECE", 30)
    with serving(files=IN_SHARDS, at_first={"/v/s/0.shard": [(200, None), (503, None), (200, 7)]}) as server:
        link = links.open_link(server.link, verify=judge)
        link.ensure("s", ((0, 1), (0, 1), (0, 1)))
        assert objects_in(link) == {"/v/s/0.shard": SHARDS["/v/s/0.shard"]}


# What may pass, and what doesn't


@pytest.mark.parametrize("status", [408, 429, 500, 502, 503, 504])
def test_a_busy_server(judge, status):
    with serving(at_first={"/v/info": [(status, None)], FIRST: [(status, None)] * 3, SECOND: [(200, 1), (200, 0), (200, 3)]}) as server:
        link = links.open_link(server.link, verify=judge)
        begin = time.monotonic()
        link.ensure("s", BOX)
        assert objects_in(link) == CHUNKS and time.monotonic() < begin + 10


def test_a_server_that_stays_busy(judge):
    with serving(at_first={FIRST: [(503, None)] * 99}) as server:
        link = links.open_link(server.link, verify=judge)
        told(FetchFault, lambda: link.ensure("s", BOX), f"{server.link}{FIRST[2:]}: 503 Service Unavailable")
        assert asked_for(server).count(FIRST) == web.FURTHER_TRIES + 1
        assert judge.asked == [] and FIRST not in objects_in(link)
        server.at_first.clear()
        link.ensure("s", BOX)
        assert objects_in(link) == CHUNKS


def test_answers_that_break_off(judge):
    with serving(at_first={FIRST: [(200, 2)] * 99}) as server:
        link = links.open_link(server.link, verify=judge)
        told(FetchFault, lambda: link.ensure("s", BOX), f"{server.link}{FIRST[2:]}: ", "broken")
        assert FIRST not in objects_in(link)


@pytest.mark.parametrize("status", [400, 401, 403, 410, 418])
def test_a_request_that_is_refused(judge, status):
    with serving(at_first={FIRST: [(status, None)] * 99}) as server:
        link = links.open_link(server.link, verify=judge)
        more = "absent=(403, 404)" if status == 403 else str(status)
        told(FetchFault, lambda: link.ensure("s", BOX), f"{server.link}{FIRST[2:]}: {status}", more)
        assert asked_for(server).count(FIRST) == 1, "it is asked for again"


def test_a_store_that_says_403_of_what_it_has_not(judge):
    with serving(not_there=403) as server:
        told(FetchFault, lambda: links.open_link(server.link, verify=judge).ensure("s", BOX), "403")
        link = links.open_link(server.link, verify=judge, absent=(403, 404))
        link.ensure("s", BOX)
        assert objects_in(link) == CHUNKS


def test_another_coding(judge):
    with serving(codings={FIRST: "zstd"}) as server:
        link = links.open_link(server.link, verify=judge)
        told(FetchFault, lambda: link.ensure("s", BOX), f"{server.link}{FIRST[2:]}: it comes compressed, by zstd")


def test_what_is_no_gzip(judge):
    """The header says gzip, and the body is none."""
    with serving(codings={FIRST: "GZIP"}) as server:
        link = links.open_link(server.link, verify=judge)
        told(FetchFault, lambda: link.ensure("s", BOX), f"{server.link}{FIRST[2:]}: ")


def test_a_server_that_is_gone(judge, monkeypatch):
    with serving() as server:
        link = links.open_link(server.link, verify=judge)
    told(FetchFault, lambda: link.ensure("s", BOX), server.link, "Connection refused")
    told(FetchFault, lambda: links.open_link(server.link), f"{server.link}/info: ", "Connection refused")


def test_a_server_that_is_silent(monkeypatch):
    monkeypatch.setattr(web, "FURTHER_TRIES", 1)
    with socket.create_server(("127.0.0.1", 0)) as door:
        link, begin = f"http://127.0.0.1:{door.getsockname()[1]}/v", time.monotonic()
        told(FetchFault, lambda: links.open_link(link, timeout=0.2), f"{link}/info: the server doesn't answer in time")
        assert time.monotonic() < begin + 5


def test_redirects(judge):
    with serving(moved={FIRST: SECOND, SECOND: SECOND}) as server:
        server.moved[FIRST] = f"{server.link}/elsewhere"
        server.files["/v/elsewhere"] = b"1234"
        link = links.open_link(server.link, verify=judge)
        link.ensure("s", ((0, 1), (0, 1), (0, 1)))
        assert objects_in(link) == {FIRST: b"1234"}
        told(FetchFault, lambda: link.ensure("s", BOX), f"{server.link}{SECOND[2:]}: too many redirects")


def test_a_proxy(judge, monkeypatch):
    """That of the environment is asked, with the whole address; but not for what it is told to leave out."""
    with serving() as server:
        far = "http://far.example:81/v"
        server.files.update({f"{far}{path[2:]}": content for path, content in server.files.items()})
        monkeypatch.setenv("http_proxy", f"127.0.0.1:{server.server_port}")
        link = links.open_link(far, verify=judge)
        link.ensure("s", ((0, 1), (0, 1), (0, 1)))
        assert files_in(link.local)[FIRST[3:]] == CHUNKS[FIRST]
        assert [path for path, _ in server.asked] == [f"{far}/info", f"{far}{FIRST[2:]}"]
        monkeypatch.setenv("http_proxy", "http://127.0.0.1:1")
        monkeypatch.setenv("no_proxy", "127.0.0.1")
        links.open_link(server.link, verify=judge)
        with pytest.raises(FetchFault, match="proxy"):
            links.open_link("http://far.example:82/v")


# What is told


def test_no_info():
    for status, kind in (404, BadInfo), (403, FetchFault):
        with serving(files={}, not_there=status) as server:
            told(kind, lambda: links.open_link(server.link), f"{server.link}/info")


@pytest.mark.parametrize("content", [b"", b"{", b"[]", b'{"scales": 1}', b'{"data_type": "uint8", "num_channels": 1}', b"\xff"])
def test_an_info_that_is_none(content):
    with serving(files={"/v/info": content}) as server:
        told(BadInfo, lambda: links.open_link(server.link), f"{server.link}/info")


def test_scales_that_are_not_read(judge):
    strange = [
        {**SCALE, "key": "jpeg", "encoding": "jpeg"}, {**SCALE, "key": "packed", "sharding": {**SHARDING, "data_encoding": "gzip"}},
        {**SCALE, "key": "../out"}, {**SCALE, "key": "odd", "sharding": {"hash": "crc"}}, {**SCALE, "key": "broken", "size": [1, 2]}, 7,
    ]
    with serving(files={"/v/info": info_of(SCALE, *strange), **CHUNKS}) as server:
        link = links.open_link(server.link, verify=judge)
        for key, kind, text in [
            ("none", NoScale, "none"), ("jpeg", BadInfo, "encoding jpeg"), ("packed", BadInfo, "data_encoding gzip"),
            ("../out", UsageError, "../out"), ("odd", BadInfo, "odd"), ("broken", BadInfo, "size"),
        ]:
            told(kind, lambda key=key: link.ensure(key, BOX), text)
        for box in (((0, 5), (0, 4), (0, 1)), ((2, 2), (0, 4), (0, 1)), ((-1, 2), (0, 4), (0, 1))):
            assert told(OutsideScale, lambda box=box: link.ensure("s", box), "outside [0:4,0:4,0:1]").status == 3
        told(UsageError, lambda: link.ensure("s", "all"), "all")
        assert asked_for(server) == []
        link.ensure("s", BOX)
        link.clear()
        assert objects_in(link) == {}
    with serving(files={"/v/info": info_of(SCALE, data_type="float32")}) as server:
        told(UnsupportedType, lambda: links.open_link(server.link).ensure("s", BOX), "float32")


def test_too_many_cells(judge):
    size = [1 << 20, 1 << 10, 1 << 10]
    with serving(files={"/v/info": info_of({**SCALE, "size": size, "chunk_sizes": [[1, 64, 64]]})}) as server:
        link = links.open_link(server.link, verify=judge)
        told(TooLarge, lambda: link.ensure("s", tuple((0, side) for side in size)), str(1 << 28))


def test_a_folder_that_cannot_be_written(judge, tmp_path):
    (tmp_path / "file").touch()
    with serving() as server:
        told(StoreFault, lambda: links.open_link(server.link, cache=tmp_path / "file"), "file")
        link = links.open_link(server.link, verify=judge)
        (link.local / "s").touch()
        told(StoreFault, lambda: link.ensure("s", BOX), str(link.local))


def test_no_urllib3(monkeypatch):
    monkeypatch.setitem(sys.modules, "urllib3", None)
    told(MissingPackage, lambda: links.open_link("http://127.0.0.1:1/v"), "python3-urllib3")


# What is damaged


def test_a_damaged_chunk(server, judge):
    link = links.open_link(server.link, verify=judge)
    judge.wrong = Damaged("damaged 1,0,0: chunk length 3 wanted 4", 4)
    why = told(Damaged, lambda: link.ensure("s", BOX), "damaged 1,0,0: chunk length 3 wanted 4", f"{server.link}{SECOND[2:]}", "removed")
    assert why.status == 4
    assert objects_in(link) == {path: CHUNKS[path] for path in (FIRST, THIRD)}
    judge.wrong = None
    server.asked.clear()
    link.ensure("s", BOX)
    assert asked_for(server) == [SECOND] and objects_in(link) == CHUNKS and len(judge.asked) == 2


def test_other_damages(server, judge):
    link = links.open_link(server.link, verify=judge)
    for wrong in (Damaged("something new", 4), Damaged("damaged 7,7,7: x", 4), Conflict("conflict 1 2,2,2 0 1 2", 4)):
        judge.wrong = wrong
        told(type(wrong), lambda: link.ensure("s", BOX), wrong.line)
        assert objects_in(link) == {}


def test_damaged_shards(judge):
    with serving(files=IN_SHARDS) as server:
        link = links.open_link(server.link, verify=judge)
        for line, left in ("misplaced 1 0 5", "0"), ("damaged 0,1,0: shard short index", "1"):
            judge.wrong = Damaged(line, 4)
            told(Damaged, lambda: link.ensure("s", BOX), line)
            assert objects_in(link) == {f"/v/s/{left}.shard": SHARDS[f"/v/s/{left}.shard"]}


# The cache


def age(link, *paths):
    """These were used in this order, an hour ago."""
    for number, path in enumerate(paths):
        file = link.local / path[3:]
        os.utime(file, ns=(time.time_ns() - (3600 - number) * 10**9, file.stat().st_mtime_ns))


def test_the_limit(judge, tmp_path, caplog):
    """What was used longest ago goes; and nothing that a link hasn't brought."""
    (tmp_path / "mine").mkdir()
    (tmp_path / "mine/photo").write_bytes(bytes(1000))
    (tmp_path / "mine/album").mkdir()
    (tmp_path / "mine/album/photo").write_bytes(bytes(1000))
    caplog.set_level(logging.INFO, "vol_tool")
    with serving() as server:
        link = links.open_link(server.link, cache=tmp_path / "mine", cache_limit=11, verify=judge)
        for x, y in (0, 0), (2, 0):
            link.ensure("s", ((x, x + 1), (y, y + 1), (0, 1)))
        age(link, SECOND, FIRST)
        assert "removed" not in caplog.text
        link.ensure("s", ((0, 1), (2, 3), (0, 1)))
        assert objects_in(link).keys() == {FIRST, THIRD}
        assert "12 bytes, over its limit of 11" in caplog.text and "1 files" in caplog.text
        age(link, FIRST, THIRD)
        link.ensure("s", ((0, 1), (0, 1), (0, 1)))
        link.ensure("s", ((2, 3), (0, 1), (0, 1)))
        assert objects_in(link).keys() == {FIRST, SECOND}, "one that was used again goes"
        assert len(judge.asked) == 4
    assert files_in(tmp_path / "mine").items() >= {"photo": bytes(1000), "album/photo": bytes(1000)}.items()


def test_what_is_in_use_stays(judge, monkeypatch):
    with serving() as server:
        link = links.open_link(server.link, cache_limit=0, verify=judge)
        first = link.ensure("s", ((0, 4), (0, 2), (0, 1)))
        assert objects_in(link).keys() == {FIRST, SECOND}
        other = links.open_link(server.link, cache_limit=0, verify=judge)
        second = other.ensure("s", ((0, 1), (2, 3), (0, 1)))
        assert objects_in(link) == CHUNKS
        first.check(), second.check()
        del first
        link.ensure("s", ((0, 1), (0, 1), (0, 1)))
        server.files[ABSENT] = b"abcd"
        link.ensure("s", ((2, 3), (2, 3), (0, 1)))
        assert objects_in(link).keys() == {THIRD, ABSENT}
        second.check()


def test_a_cache_with_two_names(judge, tmp_path):
    """What is in use stays, whatever the folder is called."""
    (tmp_path / "mine").mkdir()
    (tmp_path / "other").symlink_to("mine")
    with serving() as server:
        one, two = (links.open_link(server.link, cache=tmp_path / name, cache_limit=0, verify=judge) for name in ("mine", "other"))
        held = one.ensure("s", ((0, 1), (0, 1), (0, 1)))
        two.ensure("s", ((2, 3), (0, 1), (0, 1)))
        held.check()
        assert one.local == two.local


def test_what_goes_while_it_is_in_use(server, judge):
    """By the hand of another process, or of the user: it is told, since it reads as zeros."""
    link = links.open_link(server.link, verify=judge)
    held = link.ensure("s", BOX)
    held.check()
    link.ensure("s", BOX)
    held.check()
    (link.local / FIRST[3:]).unlink()
    told(FetchFault, held.check, FIRST[3:], "removed while it was in use")
    held = link.ensure("s", BOX)
    (link.local / FIRST[3:]).write_bytes(b"1234")
    told(FetchFault, held.check, FIRST[3:])
    held = link.ensure("s", ((2, 3), (2, 3), (0, 1)))
    held.check()


def test_what_goes_while_it_is_fetched(server, judge, monkeypatch):
    """Another process may remove what comes before it is used: it is fetched again, or that is told."""
    link, real, wanted = links.open_link(server.link, verify=judge), caches.Held.take, ((0, 4), (0, 2), (0, 1))

    def take(held):
        takes.append(len(takes))
        if takes[-1] in lost:
            (link.local / FIRST[3:]).unlink(missing_ok=True)
        return real(held)

    monkeypatch.setattr(caches.Held, "take", take)
    for lost, count in ({1, 2}, 3), ({2}, 1):
        takes = []
        link.clear()
        server.asked.clear()
        link.ensure("s", wanted).check()
        assert (asked_for(server).count(FIRST), asked_for(server).count(SECOND)) == (count, 1)
    lost, takes = set(range(99)), []
    link.clear()
    told(FetchFault, lambda: link.ensure("s", wanted), str(link.local))
    assert len(takes) == links.MOST_TRIES


def test_what_another_process_put_anew(server, judge):
    """It is judged again."""
    link = links.open_link(server.link, verify=judge)
    link.ensure("s", BOX)
    link.ensure("s", BOX)
    assert len(judge.asked) == 1
    path = link.local / FIRST[3:]
    path.unlink()
    path.write_bytes(b"1234")
    link.ensure("s", ((2, 4), (0, 2), (0, 1)))
    assert len(judge.asked) == 1
    link.ensure("s", BOX)
    link.ensure("s", BOX)
    assert len(judge.asked) == 2


def test_when_a_cache_is_looked_through(tmp_path, monkeypatch):
    """At first, and then each time when some more has come."""
    looked = []
    monkeypatch.setattr(caches, "trim", lambda root, limit: looked.append((root, limit)))
    counts = []
    for count in (1, 5, 5, 1, 9, 3, 100):
        caches.grew(tmp_path, 640, count)
        counts.append(len(looked))
    assert counts == [1, 1, 1, 2, 2, 3, 4] and set(looked) == {(tmp_path, 640)}


def test_what_was_left_behind(server, judge):
    link = links.open_link(server.link, cache_limit=1 << 20, verify=judge)
    old, new = link.local / "old.part", link.local / "new.part"
    for path in (old, new):
        path.touch()
    os.utime(old, (0, 0))
    caches.trim(link.local.parent, 1 << 20)
    assert new.exists() and not old.exists()


def test_an_info_that_changed(judge):
    """What was fetched of a scale that was another one goes; what is told of the others stays."""
    other = {**SCALE, "key": "t"}
    files = {"/v/info": info_of(SCALE, other), **CHUNKS, **{path.replace("/s/", "/t/"): content for path, content in CHUNKS.items()}}
    with serving(files=files) as server:
        link = links.open_link(server.link, verify=judge)
        for key in "st":
            link.ensure(key, BOX)
        assert len(objects_in(link)) == 6
        files["/v/info"] = info_of({**SCALE, "chunk_sizes": [[2, 2, 1], [9, 9, 9]]}, {**other, "encoding": "RAW"})
        link = links.open_link(server.link, verify=judge)
        assert objects_in(link) == CHUNKS
        assert json.loads((link.local / "info").read_bytes())["scales"][1]["encoding"] == "RAW"
        files["/v/info"] = info_of(SCALE, data_type="uint16")
        assert objects_in(links.open_link(server.link, verify=judge)) == {}


# Copies in folders of one's own


def test_copies(server, tmp_path, monkeypatch):
    monkeypatch.chdir(tmp_path)
    assert links.copy_info(server.link, "far") == json.loads(server.files["/v/info"])
    assert files_in(tmp_path / "far") == {"info": server.files["/v/info"]}
    done = []
    assert links.copy(server.link, "far", "s", BOX, tell=lambda *words: done.append(words)) == (3, 1, 0)
    assert done == [(1, 4), (2, 4), (3, 4), (4, 4)]
    wanted = {"info": server.files["/v/info"], **{path[3:]: content for path, content in CHUNKS.items()}}
    assert files_in(tmp_path / "far") == wanted
    (tmp_path / "far" / FIRST[3:]).unlink()
    server.asked.clear()
    assert links.copy(server.link, tmp_path / "far", "s", BOX) == (1, 1, 2)
    assert asked_for(server) == sorted([FIRST, ABSENT]) and files_in(tmp_path / "far") == wanted
    told(OutsideScale, lambda: links.copy(server.link, "far", "s", ((0, 5), (0, 4), (0, 1))), "outside")
    told(NoScale, lambda: links.copy(server.link, "far", "t", BOX), "t")
    told(BadInfo, lambda: links.copy(server.link, "near", "s", BOX), "near")
    assert not (tmp_path / "cache").exists()


def test_copies_of_shards(tmp_path):
    with serving(files=IN_SHARDS) as server:
        links.copy_info(server.link, tmp_path / "far")
        assert links.copy(server.link, tmp_path / "far", "s", BOX) == (2, 0, 0)
        assert {path: (tmp_path / "far" / path[3:]).read_bytes() for path in SHARDS} == SHARDS


def test_a_copy_that_breaks_off(tmp_path):
    with serving(at_first={FIRST: [(400, None)]}) as server:
        links.copy_info(server.link, tmp_path / "far")
        told(FetchFault, lambda: links.copy(server.link, tmp_path / "far", "s", BOX), "400")
        assert not list((tmp_path / "far").rglob("*.part"))
        copied, absent, kept = links.copy(server.link, tmp_path / "far", "s", BOX)
        assert (copied + kept, absent) == (3, 1)


# With the program


@pytest.mark.skipif(not PROGRAM.exists(), reason="the program isn't built: VOL_TOOL names it")
def test_by_the_program(monkeypatch):
    monkeypatch.setenv("VOL_TOOL", str(PROGRAM))
    from vol_tool import programs

    with serving() as server:
        link = links.open_link(server.link)
        link.ensure("s", BOX)
        assert programs.verify(link.local, "s") == "cells 4 stored 3 absent 1"
        link.clear()
        server.files[SECOND] = b"123"
        told(Damaged, lambda: link.ensure("s", BOX), "damaged 1,0,0: chunk length 3 wanted 4", SECOND[2:])
        assert objects_in(link).keys() == {FIRST, THIRD}
        link.ensure("s", ((0, 2), (0, 4), (0, 1)))
    with serving(files=IN_SHARDS) as server:
        link = links.open_link(server.link)
        told(Damaged, lambda: link.ensure("s", BOX), "damaged")
        assert len(objects_in(link)) == 1


LAYOUTS = {
    "files": {}, "labels": {"encoding": "compressed_segmentation", "block": (3, 4, 5)}, "shards": {"sharding": (1, "identity", 1, 2)},
    "labels in shards": {"encoding": "compressed_segmentation", "sharding": (0, "murmur", 2, 5)},
    "more shards than chunks": {"sharding": (2, "murmur", 0, 19)},
}


@pytest.mark.skipif(not PROGRAM.exists(), reason="the program isn't built: VOL_TOOL names it")
@pytest.mark.parametrize("layout", LAYOUTS)
def test_scales_behind_links(monkeypatch, tmp_path, layout):
    """All that a scale holds, and boxes of it, come through a link as they were written; what isn't there is 0."""
    monkeypatch.setenv("VOL_TOOL", str(PROGRAM))
    numpy = pytest.importorskip("numpy", reason="numpy isn't installed")
    import vol_tool

    values = numpy.random.default_rng(0).integers(0, 9, (21, 30, 37)).astype("uint32")
    how = {"resolution": (8, 8, 40), "offset": (-5, 100, 0), "chunk": (8, 16, 8), **LAYOUTS[layout]}
    vol_tool.write(str(tmp_path / "d"), "s", values, **how)
    files = {f"/v/{name}": content for name, content in files_in(tmp_path / "d").items()}
    with serving(files=files) as server:
        scale = vol_tool.open(server.link)["s"]
        box = (slice(3, 9), slice(None, 16), slice(-3, None))
        numpy.testing.assert_array_equal(scale[box], values[box])
        met = len(asked_for(server))
        assert met < len(files) - 1 or "shards" in layout
        numpy.testing.assert_array_equal(scale[...], values)
        assert sorted(set(asked_for(server))) == sorted(set(files) - {"/v/info"})
    with serving(files={"/v/info": files["/v/info"]}) as server:
        assert not vol_tool.open(server.link)["s"][...].any()


@pytest.mark.skipif(not PROGRAM.exists(), reason="the program isn't built: VOL_TOOL names it")
def test_misplaced_rows(monkeypatch, tmp_path):
    """A shard with the chunks of another one, which the program tells, is removed, and no other."""
    monkeypatch.setenv("VOL_TOOL", str(PROGRAM))
    numpy = pytest.importorskip("numpy", reason="numpy isn't installed")
    import vol_tool

    values = numpy.ones((8, 8, 128), "uint8")
    vol_tool.write(str(tmp_path / "d"), "s", values, resolution=(1, 1, 1), chunk=(2, 2, 2), sharding=(0, "identity", 1, 5))
    files = {f"/v/{name}": content for name, content in files_in(tmp_path / "d").items()}
    files["/v/s/1a.shard"] = files["/v/s/0b.shard"]
    with serving(files=files) as server:
        link = links.open_link(server.link)
        told(Damaged, lambda: link.ensure("s", ((0, 128), (0, 8), (0, 8))), "misplaced 26 ", f"{server.link}/s/1a.shard")
        assert objects_in(link).keys() == files.keys() - {"/v/info", "/v/s/1a.shard"}
