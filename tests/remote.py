#!/usr/bin/env python3
"""Cuts boxes out of servers of byte ranges with the built vol_fetch: what comes is what vol_tool cuts out of the folder.

    tests/remote.py [PROGRAM [COUNT]]

PROGRAM is vol_tool; vol_fetch is crates/vol_fetch/out/vol_fetch, or what the variable VOL_FETCH names, and vol_serve likewise. There are
COUNT scales, of every form in turn, some damaged, each served by vol_tool, vol_serve, Python and nginx; and 50 replies
at random for each, against a plain model (model/fitting.py). Servers of the tests' own reply in odd ways, or in ways that fit nothing: then
it tells a store fault behind a front of the cutout.
"""
import contextlib
import dataclasses
import functools
import itertools
import math
import pathlib
import random
import re
import socket
import subprocess
import time

from browser import fetch_parts
from harness import (
    LIMIT, ROOT, Trial, built, find_strace, find_tool, main, methods_of, open_closed_pipe, open_full, shorten, want, want_ending, want_true,
    within, wrong_with,
)
from model import Sharding, Volume, along, cutout, damaged, infos_of, printed, refused, spell
from model.chance import damage_some, form_of, pick_box, pick_layouts, pick_stored, some_chunks
from model.fitting import LENGTH, Asked, fitting, taken
from model.infos import Refused as BadInfo
from model.infos import scale_in
from model.odd import pick_info, pick_reply, pick_reply_pieces
from model.replies import MOST_HEAD, PAUSE, SILENCE
from peers import NOTED, want_set
from servers import (
    CLOSE, HOLD, HOST, KEEP, RESET, Breaking, Closing, fetch_words, free_port, nginx, own, python, read_file, site, telling,
)

OTHER_HOST = "127.0.0.2"
FAULT = refused("store fault")
REPLIES = 50

# How long a head may take, and how far the rest of a reply may fall back behind one of so many bytes a second.
HEAD = 30
BEHIND, PACE = 10, 16384

ONE = Volume([11, 1, 1], [11, 1, 1])
ONE_IN_SHARD = dataclasses.replace(ONE, sharding=Sharding())
CHUNK = b"0123456789a"

# Scales of each form with two layers of cells, of which one is absent.
FORMS = {
    "raw": Volume([4, 2, 4], [2, 2, 2], (0, 0, -2)),
    "raw in shards": Volume([4, 2, 4], [2, 2, 2], channels=2, sharding=Sharding(0, False, 1, 1)),
    "labels": Volume([4, 2, 4], [2, 2, 2], width=4, block=(2, 2, 1)),
    "labels in shards": Volume([4, 2, 4], [2, 2, 2], (-4, 7, 0), width=8, block=(1, 2, 2), sharding=Sharding(1, True, 1, 0)),
}


def files_of(volume):
    return {**infos_of(volume), **volume.files({(0, 0, 0): CHUNK})}


# Servers that are told what to reply


@dataclasses.dataclass(frozen=True)
class Honest:
    """The reply of an ordinary server: its status, the lengths that it tells, other fields, and its body."""

    status: str
    lengths: list
    fields: list
    body: bytes = b""
    version: str = "HTTP/1.1"

    def head(self):
        lengths = (f"Content-Length: {length}" for length in self.lengths)
        return "\r\n".join([f"{self.version} {self.status}", *lengths, *self.fields, "", ""]).encode()

    def whole(self):
        return self.head() + self.body

    def but(self, *fields, **members):
        """It with other members, and more fields."""
        reply = dataclasses.replace(self, **members)
        return dataclasses.replace(reply, fields=[*reply.fields, *fields])


def honest(request, content):
    if content is None:
        return Honest("404 Not Found", [0], ["Server: a"])
    if request.method == "HEAD" or request.range is None:
        return Honest("200 OK", [len(content)], ["Server: a"], b"" if request.method == "HEAD" else content)
    (first, last), total = request.range, len(content)
    part = content[first : last + 1]
    told = f"bytes {first}-{first + len(part) - 1}/{total}" if part else f"bytes */{total}"
    return Honest("206 Partial Content" if part else "416 Range Not Satisfiable", [len(part)], [f"Content-Range: {told}"], part)


def shift_range(**by):
    """A part that says it is another one."""

    def change(reply):
        found = re.search(r"bytes (\d+)-(\d+)/(\d+)", reply.fields[0])
        first, last, total = (int(number) + by.get(name, 0) for number, name in zip(found.groups(), ("first", "last", "total")))
        return reply.but(fields=[f"Content-Range: bytes {first}-{last}/{total}"])

    return change


def pad_head(reply, length):
    """A reply whose head has so many bytes."""
    return reply.but("X: " + "a" * (length - len(reply.head()) - 5))


def as_part(reply):
    """A length that is told as a part of as many bytes."""
    (length,) = reply.lengths
    return reply.but(f"Content-Range: bytes 0-{length - 1}/{length}", status="206 Partial Content")


def but(*fields, **members):
    return lambda reply: reply.but(*fields, **members)


# Replies that don't fit: what is sent in place of an honest one, of a part that is asked for, and of the length of an object.
PARTS = {
    "a part that is too long": lambda reply: reply.but(lengths=[reply.lengths[0] + 1]),
    "a range that begins before": shift_range(first=-1), "a range that begins behind": shift_range(first=1),
    "a range that ends before": shift_range(last=-1), "a range of another place": shift_range(first=1, last=1, total=1),
    "no range": but(fields=[]), "two ranges": lambda reply: reply.but(*reply.fields),
    "several parts": but("Content-Type: multipart/byteranges", fields=[]),
}
LENGTHS = {"a part for a length": as_part, "no part for a length": but(status="416 Range Not Satisfiable")}
UNFIT = {
    "nothing": lambda reply: b"", "a reset": lambda reply: b"", "half a head": lambda reply: reply.head()[: len(reply.head()) // 2],
    "a head without its last byte": lambda reply: reply.head()[:-1], "no body": Honest.head,
    "a short body": lambda reply: reply.whole()[:-1], "a long body": lambda reply: reply.whole() + b"x",
    "no length": but(lengths=[]), "a length that is none": but(lengths=["a"]), "a length of 64 bits and one": but(lengths=[2**64]),
    "two lengths": lambda reply: reply.but(lengths=[*reply.lengths, reply.lengths[0] + 1]),
    "a length twice": lambda reply: reply.but(lengths=2 * reply.lengths),
    "a length with a sign": lambda reply: reply.but(lengths=[f"+{reply.lengths[0]}"]),
    "chunks": but("Transfer-Encoding: chunked", lengths=[]), "chunks and a length": but("Transfer-Encoding: chunked"),
    "a long head": lambda reply: pad_head(reply, MOST_HEAD + 1),
    "a head without an end": lambda reply: reply.head()[:-2] + b"X: " + b"a" * MOST_HEAD,
    "a redirect": lambda reply: Honest("302 Found", [0], ["Location: /info"]), "a coding": but("Content-Encoding: gzip"),
    "a fault": but(status="500 Internal Server Error"), "no change": but(status="304 Not Modified"),
    "no access": but(status="403 Forbidden"),
    "a reply in front": lambda reply: b"HTTP/1.1 100 Continue\r\n\r\n" + reply.whole(), "another version": but(version="HTTP/2.0"),
    "no head": lambda reply: b"220 ready\r\n", "a head in another coding": lambda reply: b"\x16\x03\x01\x02\x00", **PARTS, **LENGTHS,
}

# Those that are broken off; behind the others it would go on for ever.
BROKEN = {"a reset": RESET, **dict.fromkeys(["nothing", "half a head", "a head without its last byte", "no body", "a short body"], CLOSE)}


def is_made_of(kind, reply):
    """Whether a kind that doesn't fit can be made of an honest reply."""
    if kind in PARTS:
        return reply.status.startswith("206")
    if kind in LENGTHS:
        return reply.status.startswith("200") and not reply.body and reply.lengths[0] > 0
    # of a longer one, which doesn't come at once, no byte behind its end is received
    return len(reply.whole()) < MOST_HEAD if kind == "a long body" else reply.body or kind not in ("no body", "a short body")


def odd_head(reply):
    """A head that is written as it may be, but nobody does."""
    fields = [f"Content-Length: \t 000{reply.lengths[0]}", *reply.fields, "Content-Encoding: identity", "X-E:"]
    lines = [f"HTTP/1.1 {reply.status[:3]}", *(name.upper() + ":" + rest for name, rest in (line.split(":", 1) for line in fields))]
    return b"\r\n\n" + "\n".join([*lines, "", ""]).encode() + reply.body


def with_page(reply):
    return reply.but(lengths=[200_000], body=bytes(200_000)) if reply.status.startswith("404") else reply


def in_pieces(reply):
    stream = reply.whole()
    cuts = sorted({0, len(stream), *(CHANCE.randrange(1, len(stream)) for _ in range(4))})
    return [stream[begin:end] for begin, end in itertools.pairwise(cuts)]


def cut_after(stream, first, every):
    """The front of a stream, and the rest in pieces of so many bytes."""
    return [stream[:first], *(stream[begin : begin + every] for begin in range(first, len(stream), every))]


CHANCE = random.Random(0)

# Replies that fit, what is then, and whether each is on a connection of its own.
FIT = {
    "at once": (Honest.whole, KEEP, False), "in pieces": (in_pieces, KEEP, False), "with odd heads": (odd_head, KEEP, False),
    "by an older version": (but(version="HTTP/1.0"), CLOSE, True),
    "with an end that is told": (but("Connection: keep-alive, CLOSE"), CLOSE, True),
    "with an end that isn't told": (Honest.whole, CLOSE, True), "with a reset behind it": (Honest.whole, RESET, True),
    "with an end that is told, and doesn't come": (but("Connection: close"), HOLD, True), "with long pages": (with_page, KEEP, False),
    "with the longest heads": (lambda reply: pad_head(reply, MOST_HEAD), KEEP, False),
}


class Fetching(Trial):
    def fetcher(self):
        return Trial(built("vol_fetch"), self.folder)

    def fetch(self, port, volume=ONE, box=None, **how):
        """What fetching a box ends with, or the whole scale."""
        return self.fetcher().run(fetch_words(port, volume, box or volume.whole), **how)

    def want_fetched(self, wanted, port, volume=ONE, box=None, what="it", **how):
        want_ending(self.fetch(port, volume, box, **how), wanted, what)

    def want_as_cut(self, port, volume, box, what):
        """Fetching a box ends as cutting it out of the folder does."""
        self.want_fetched(self.run(volume.words("cutout", spell(box))), port, volume, box, f"{what}, {spell(box)}")

    def honest(self, request):
        return honest(request, read_file(self.folder / "d" / request.target[1:]))

    def telling(self, stream=Honest.whole, then=KEEP, at=0, suits=lambda reply: True, pause=0.001):
        """A server whose replies `stream` makes of honest ones that suit, from the request of a number on; the others are honest."""

        def answer(request):
            reply = self.honest(request)
            if request.number < at or not suits(reply):
                return [reply.whole()], KEEP
            told = stream(reply)
            told = told.whole() if isinstance(told, Honest) else told
            return [told] if isinstance(told, bytes) else told, then

        return telling(answer, pause=pause)

    def servers(self):
        folder = self.folder / "d"
        yield "vol_tool", own(self)
        yield "vol_serve", own(dataclasses.replace(self, program=built("vol_serve")), "d --workers=2")
        yield "Python's server", python(folder)
        yield "one that closes", python(folder, Closing)
        yield "one without ranges", python(folder, knows_ranges=False)
        yield "nginx", nginx(folder, self.folder / "nginx")

    def store_form(self, title):
        """A scale of a form, and its cutout."""
        volume = FORMS[title]
        ending = cutout(volume, self.store(volume, some_chunks(volume)))
        self.want(volume.words("cutout", spell(volume.whole)), ending)
        return volume, ending


def want_front(found, ending, what):
    """A store fault, behind a front of what another ending has."""
    want((found[0], found[2]), (FAULT[0], FAULT[2]), f"{what}: the status and the line")
    want_true(ending[1].startswith(found[1]), f"{what}: no front: {shorten(found[1])}")


# Scales at random


def want_fault_or_cut(row, volume, box, chance):
    """A server replies in a way that doesn't fit from some request on: a store fault, or where it comes to no such request the cutout."""
    kind, at, given = chance.choice(list(UNFIT)), chance.randrange(12), []

    def note(reply):
        given.append(reply)
        return UNFIT[kind](reply)

    ending = row.run(volume.words("cutout", spell(box)))
    with row.telling(note, BROKEN.get(kind, HOLD), at, functools.partial(is_made_of, kind)) as server:
        found = row.fetch(server.server_port, volume, box)
    (want_front if given else want_ending)(found, ending, f"{kind} from request {at} on, {spell(box)}")


def want_faults_or_cuts(row, volume, boxes, chance):
    for box in boxes:
        want_fault_or_cut(row, volume, box, chance)


def cuts_from(row, server, volume, boxes):
    """What comes from a server is what is cut out of the folder."""
    with server as port:
        for box in boxes:
            row.want_as_cut(port, volume, box, "a server")


def cuts_scale(trial, seed):
    """A scale of which some files may be damaged, and whose chunk size may be the first of two."""
    row, chance = Fetching.of(trial), random.Random(f"remote {seed}")
    (volume,) = pick_layouts(chance, [form_of(seed)])
    if volume.sharding is None and seed // 8 % 2:
        volume = dataclasses.replace(volume, more=([2, 3, 5],))
    files = trial.store(volume, pick_stored(chance, volume))
    (trial.folder / "d").mkdir(exist_ok=True)
    if seed // 4 % 2:
        trial.lay_out(damage_some(chance, volume, files))
    boxes = [volume.whole, pick_box(chance, volume), pick_box(chance, volume)]
    for title, server in row.servers():
        yield f"a scale {seed}, {title}", wrong_with(cuts_from, row, server, volume, boxes)
    yield f"a scale {seed}, replies that don't fit", wrong_with(want_faults_or_cuts, row, volume, boxes, chance)


def refuses_infos(trial, seed):
    """An info that may be wrong, and words that it has no scale for."""
    trial.lay_out({"d/info": pick_info(random.Random(f"remote info {seed}"))})
    volume = Volume([1, 1, 1], [1, 1, 1])
    with own(trial) as port:
        for key, box in [("s", volume.whole), ("t", volume.whole), ("s", along(-(2**41), 1 - 2**41)), ("s", along(0, 2**40))]:
            Fetching.of(trial).want_as_cut(port, dataclasses.replace(volume, key=key), box, f"key {key}")


# Odd replies


def heads_of(server):
    return [request.head.replace(f":{server.server_port}\r\n".encode(), b"\r\n") for request in server.requests]


def want_fault(row, volume, ending, heads, kind, at):
    """Where the reply to a request doesn't fit a store fault is told at once, behind a front of the cutout, and nothing more is asked."""
    what = f"to request {at}"
    with row.telling(UNFIT[kind], BROKEN.get(kind, HOLD), at) as server:
        with within(0, SILENCE - 2, what):
            want_front(row.fetch(server.server_port, volume), ending, what)
        # a kept end that ended or was reset before a byte of the reply is dialled anew once
        again = heads[at : at + 1] if kind in ("nothing", "a reset") and at > 0 else []
        want(heads_of(server), heads[: at + 1] + again, f"{what}: what is asked")


def tells_faults(trial, title, most):
    """Each reply that doesn't fit, to at most so many requests."""
    row = Fetching.of(trial)
    volume, ending = row.store_form(title)
    with row.telling() as server:
        row.want_fetched(ending, server.server_port, volume, what="an honest server")
        want(server.connections, 1, "its connections")
        heads, replies = heads_of(server), list(map(row.honest, server.requests))
    for kind in UNFIT:
        suited = [at for at, reply in enumerate(replies) if is_made_of(kind, reply)]
        for at in random.Random(f"{kind} {title}").sample(suited, min(most, len(suited))):
            yield f"{kind}, {title}", wrong_with(want_fault, row, volume, ending, heads, kind, at)


def want_taken(row, volume, ending, kind):
    stream, then, closes = FIT[kind]
    with row.telling(stream, then) as server:
        row.want_fetched(ending, server.server_port, volume)
        want(server.connections, len(server.requests) if closes else 1, "the connections")


def takes_odd_replies(trial, title):
    row = Fetching.of(trial)
    volume, ending = row.store_form(title)
    for kind in FIT:
        yield f"{kind}, {title}", wrong_with(want_taken, row, volume, ending, kind)


# Replies at random

# The scale, what the request asks that is replied to, and whether another one follows
CASES = {
    "info": (ONE, Asked(0, 2**16)), "chunk": (ONE, Asked(0, 12)), "length": (ONE_IN_SHARD, LENGTH), "part": (ONE_IN_SHARD, Asked(16, 11)),
}


def ending_of(case, says):
    """What a cutout ends with by what a reply says; None in a part where there is less than was there before, which is damaged."""
    if case == "info":
        if says is None:
            return refused("info of d: absent")
        try:
            scale_in(says)
        except BadInfo as fault:
            return refused(f"info of d: {fault}")
        return printed(CHUNK)
    if case == "chunk":
        if says is None:
            return printed(bytes(11))
        return printed(says) if len(says) == 11 else refused(damaged((0, 0, 0), f"chunk length {len(says)} wanted 11"))
    if case == "length":
        (shard,) = ONE_IN_SHARD.files({(0, 0, 0): CHUNK}).values()
        # the entry is read whatever the length is
        return cutout(ONE_IN_SHARD, {} if says is None else {"d/s/0.shard": shard[: max(16, min(says, len(shard)))]})
    return printed(says) if says is not None and len(says) == 11 else None


def goes_on(case, says):
    """Whether a cutout asks for more behind a reply that says this: not where an info is refused or a shard absent, nor behind its values."""
    return ending_of(case, says) == printed(CHUNK) if case == "info" else case == "length" and says is not None


def judges_reply(trial, case, chance):
    volume, asked = CASES[case]
    files = files_of(volume)
    path = "d/info" if case == "info" else next(path for path in files if path != "d/info")
    stream = pick_reply(chance, asked, files[path])
    pieces = pick_reply_pieces(chance, asked, stream)

    def answer(request):
        numbers = request.range and (request.range[0], request.range[1] - request.range[0] + 1)
        if f"d{request.target}" == path and numbers == asked:
            return pieces, CLOSE
        return [honest(request, files.get(f"d{request.target}")).whole()], KEEP

    with telling(answer) as server:
        found = Fetching.of(trial).fetch(server.server_port, volume)
    reply = fitting(asked, taken(asked, stream))
    # what comes behind a reply is taken for the next one's
    is_left = reply is not None and goes_on(case, reply.says) and not reply.closes and len(taken(asked, stream)) < len(stream)
    wanted = FAULT if reply is None or is_left else ending_of(case, reply.says)
    what = f"{case}: {pieces!r:.600}"
    if wanted is None:
        want_true(found[0] != 0 and found[1] == b"", f"{what}: {found!r:.300}")
    else:
        want_ending(found, wanted, what)


def judges_replies(trial, seed):
    """Replies at random to each kind of request in turn."""
    for number in range(REPLIES):
        judges_reply(trial, list(CASES)[number % len(CASES)], random.Random(f"replies {seed} {number}"))


# What a cutout of one chunk asks for: the method, the object and the range.
ASKS = {
    "d/s/0-11_0-1_0-1": ["GET /info 0-65535", "GET /s/0-11_0-1_0-1 0-11"],
    "d/s/0.shard": [
        "GET /info 0-65535", "HEAD /s/0.shard", *(f"GET /s/0.shard {part}" for part in ("0-15", "27-34", "35-42", "43-50", "16-26")),
    ],
}


def asks_once(trial, volume):
    """The requests of a cutout of one chunk, over one connection, and the bytes of each."""
    trial.lay_out(files_of(volume))
    row, (path,) = Fetching.of(trial), volume.files({(0, 0, 0): CHUNK})
    with row.telling() as server:
        row.want_fetched(printed(CHUNK), server.server_port, volume)
        asked = [(request, "-".join(map(str, request.range or ()))) for request in server.requests]
        want([f"{request.method} {request.target} {part}".strip() for request, part in asked], ASKS[path], "the requests")
        want(server.connections, 1, "the connections")
        for request, part in asked:
            ranged = f"Range: bytes={part}\r\n" if part else ""
            head = f"{request.method} {request.target} HTTP/1.1\r\nHost: {HOST}:{server.server_port}\r\n{ranged}\r\n"
            want(request.head, head.encode(), "a request")


BOX = "[0:11,0:1,0:1]"
BAD_WORDS = {
    "HOST": ["", "-a", ".a", "a_b", "a" * 256, "\u00e9", "[::1]", "::1", "a:80", "http://a", "a/", "a b", "a@b"],
    "PORT": ["", "0", "00", "080", "65536", "99999999999999999999", "+80", "-1", "8 0", "http", "80/"],
    "DATASET": ["", "./d", "d/", "/d", "-d", "d//e", "..", "d" * 201, "d?", "d e"],
    "KEY": ["", "./s", "s/", "/s", "-s", "s/../t", "s" * 201, "s#"],
    "BOX": ["", "[0:11,0:1]", "0:11,0:1,0:1", "[0:11,0:1,0:1] ", "[0:11, 0:1,0:1]", "[0:11,0:1,0:1,0:1]", "[:11,0:1,0:1]"],
}


class Cases(Fetching):
    """The rows that have no more arguments."""

    @classmethod
    def of(cls, trial):
        trial.lay_out(files_of(ONE))
        return super().of(trial)

    def a_server_that_is_silent(self):
        """One that says nothing more amid a body."""
        with self.telling(lambda reply: reply.whole()[:-1], HOLD, 1) as server, within(SILENCE - 1, SILENCE + 5):
            self.want_fetched(FAULT, server.server_port)

    def sockets_are_set(self):
        """Of each connection, before anything goes through it."""
        noted = self.folder / "calls"
        with own(self) as port:
            words = [find_strace(), "-f", "-qq", "-o", noted, "-e", NOTED, self.fetcher().program, *fetch_words(port, ONE, ONE.whole)]
            done = subprocess.run(words, capture_output=True, timeout=LIMIT, check=False)
        want_ending((done.returncode, done.stdout, done.stderr), printed(CHUNK))
        want_set(noted.read_text())

    def a_head_that_drips(self):
        """A byte of it every 3 seconds."""
        with self.telling(lambda reply: cut_after(reply.whole(), 1, 1), at=1, pause=3) as server, within(HEAD - 1, HEAD + 5):
            self.want_fetched(FAULT, server.server_port)

    def a_head_that_comes_slowly(self):
        """In five pieces, within its limit."""
        with self.telling(lambda reply: cut_after(reply.whole(), 20, 20)[:4] + [reply.whole()[80:]], at=1, pause=4) as server:
            with within(4 * 4, HEAD):
                self.want_fetched(printed(CHUNK), server.server_port)

    def _fetch_slowly(self, rate, seconds):
        """A chunk that comes at a rate for so many seconds, in pieces behind its first 16 KiB; what it ends with, and what it should."""
        values = random.Random(0).randbytes(16384 + rate * seconds)
        volume = Volume([len(values), 1, 1], [len(values), 1, 1])
        self.lay_out({**infos_of(volume), **volume.files({(0, 0, 0): values})})
        with self.telling(lambda reply: cut_after(reply.whole(), 16384, rate // 2), at=1, pause=0.5) as server:
            return self.fetch(server.server_port, volume), printed(values)

    def a_reply_that_drips(self):
        """It falls back more and more behind the pace: it is left once it is so far back."""
        with within(BEHIND - 1, BEHIND + 5):
            found, wanted = self._fetch_slowly(PACE // 8, 60)
        want_front(found, wanted, "a reply that drips")

    def a_reply_that_keeps_pace(self):
        """For longer than it may fall back."""
        with within(BEHIND + 2, BEHIND + 10):
            found, wanted = self._fetch_slowly(2 * PACE, BEHIND + 4)
        want_ending(found, wanted)

    def a_server_that_takes_no_connection(self):
        """One whose queue of them is full."""
        with contextlib.ExitStack() as held:
            door = held.enter_context(socket.create_server((HOST, 0), backlog=0))
            for _ in range(4):
                peer = held.enter_context(socket.socket())
                peer.setblocking(False)
                peer.connect_ex(door.getsockname())
            with within(SILENCE - 1, SILENCE + 5):
                self.want_fetched(FAULT, door.getsockname()[1])

    def a_server_that_breaks_off(self):
        """One that breaks off each connection as it takes it, before the request or amid it: no second one is dialled."""
        for number in range(20):
            with telling(None, Breaking) as server:
                self.want_fetched(FAULT, server.server_port, what=f"fetch {number}")
                want(server.connections, 1, "the connections")

    def requests_of_several_chunks(self):
        """Each chunk of a box once: two layers of an unsharded scale."""
        volume = Volume([4, 1, 2], [2, 1, 1])
        self.store(volume, {cell: b"ab" for cell in volume.cells})
        with self.telling() as server:
            self.want_fetched(printed(b"abababab"), server.server_port, volume)
            names = ["/info", *(f"/s/{volume.name(cell)}" for cell in volume.cells)]
            want([request.target for request in server.requests], names, "the objects")
            want(server.connections, 1, "the connections")

    def words(self):
        """Those that are no line have the usage each, and nothing is dialled."""
        with self.telling() as server:
            good = [HOST, str(server.server_port), "d", "s", BOX]
            lines = [[], good[:4], [*good, ""], ["--help"], ["fetch", *good], [b"\xff", *good[1:]]]
            lines += [[*good[:at], bad, *good[at + 1 :]] for at, words in enumerate(BAD_WORDS.values()) for bad in words]
            for words in lines:
                want_ending(self.fetcher().run(words), refused("usage"), f"{words!r:.200}")
            want(server.connections, 0, "the connections")

    def words_at_their_limits(self):
        """The longest host, which has no address, and the least and the greatest port, where nobody listens: the words are a line."""
        for host, port in (("a" * 255, "80"), (HOST, "1"), (HOST, "65535")):
            want_ending(self.fetcher().run([host, port, "d", "s", BOX]), FAULT, f"{host:.20} {port}")

    def names(self):
        """Hosts by name, in any case, and names as long as they may be."""
        volume = dataclasses.replace(ONE, dataset="d" * 99 + "/" + "e" * 100, key="/".join(["k" * 66, "l" * 66, "m" * 66]))
        self.lay_out(files_of(volume))
        with python(self.folder / volume.dataset) as port:
            for host in (HOST, "localhost", "LocalHost"):
                want_ending(self.fetcher().run([host, *fetch_words(port, volume, volume.whole)[1:]]), printed(CHUNK), host)

    def other_hosts_and_ports(self):
        """Servers at one port of two addresses, and at another port, each with its own values: the one of the words is asked."""
        other, third = bytes(reversed(CHUNK)), b"other words"
        for folder, values in (("other", other), ("third", third)):
            self.lay_out({f"{folder}/{path}": values if held == CHUNK else held for path, held in files_of(ONE).items()})
        with python(self.folder / "d") as port, python(self.folder / "third/d") as last:
            with python(self.folder / "other/d", host=OTHER_HOST, port=port):
                for host, at, values in ((HOST, port, CHUNK), (OTHER_HOST, port, other), (HOST, last, third)):
                    want_ending(self.fetcher().run([host, str(at), "d", "s", BOX]), printed(values), f"{host} {at}")

    def a_name_of_two_addresses(self):
        """The first one refuses: the other one is asked. Where both refuse it is a fault."""
        library = self.folder / "two_addresses.so"
        source = pathlib.Path(__file__).with_name("two_addresses.c")
        want(subprocess.run([find_tool("cc"), "-shared", "-fPIC", "-o", library, source], timeout=LIMIT).returncode, 0, "the library")
        with self.telling() as server:
            for port, ending in ((server.server_port, printed(CHUNK)), (free_port(), FAULT)):
                found = self.fetcher().run(["two.test", *fetch_words(port, ONE, ONE.whole)[1:]], LD_PRELOAD=str(library))
                want_ending(found, ending, f"two.test {port}")
            want(server.connections, 1, "the connections")

    def no_server_and_no_data_set(self):
        """Nobody listens, and no data set is there."""
        self.want_fetched(FAULT, free_port(), what="nobody listens")
        with python(self.folder / "e") as port:
            self.want_fetched(refused("info of d: absent"), port, what="no data set")

    def an_output_that_takes_nothing(self):
        with own(self) as port:
            for output in (open_full, open_closed_pipe):
                self.want_fetched(refused("output fault"), port, output=output)

    def large_objects(self):
        """Shards of many pieces, as they are and where each part of them comes as the whole."""
        volume = Volume([96, 64, 64], [32, 32, 32], channels=2, sharding=Sharding(1, False, 1, 1))
        values = random.Random(0).randbytes(math.prod(volume.size) * volume.channels)
        (self.folder / "d/s/0-11_0-1_0-1").unlink()
        self.write(volume, [(volume.whole, values)])
        for title, server in self.servers():
            yield f"large objects, {title}", wrong_with(self._fetch_all, server, volume, values)

    def _fetch_all(self, server, volume, values):
        with server as port:
            self.want_fetched(printed(values), port, volume)

    def the_site_of_the_examples(self):
        """nginx in front of vol_serve: a cutout, a page of a browser, and a range by TLS and HTTP/2, with all origins allowed."""
        volume, ending = self.store_form("labels in shards")
        large = random.Random(0).randbytes(40 << 16)
        self.lay_out({"d/s/large": large})
        unit = (ROOT / "examples/serving/vol_serve.service").read_text()
        words = re.search("^ExecStart=[^ ]*/vol_serve cells --port=8080 (.*)$", unit, re.M)[1]
        server = dataclasses.replace(self, program=built("vol_serve"))
        with server.start(f"d --port=0 {words}", stdout=subprocess.PIPE) as child:
            try:
                behind = int(child.stdout.readline().removeprefix(b"listening "))
                with site(behind, self.folder / "site") as (port, tls):
                    self.want_fetched(ending, port, volume)
                    fetch_parts(port, large, 3000)
                    head = ["curl", "-sk", "--http2", "-D", "-", "-r", "2-4", f"https://localhost:{tls}/s/large"]
                    got = subprocess.run(head, check=True, capture_output=True, timeout=LIMIT).stdout
                    want_true(got.startswith(b"HTTP/2 206"), f"by TLS: {got[:200]!r}")
                    want_true(b"access-control-allow-origin: *" in got.lower(), f"all origins: {got[:300]!r}")
                    want(got.partition(b"\r\n\r\n")[2], large[2:5], "the range")
            finally:
                child.kill()

    def a_slow_reader(self):
        """The output waits for its reader longer than the server keeps a connection that idles: another one is dialled."""
        volume = Volume([256, 256, 4], [256, 256, 1])
        values = random.Random(0).randbytes(4 << 16)
        self.store(volume, {(0, 0, z): values[z << 16 : z + 1 << 16] for z in range(4)})
        pipes = {"stdout": subprocess.PIPE, "stderr": subprocess.PIPE}
        with own(self) as port, self.fetcher().start(fetch_words(port, volume, volume.whole), **pipes) as child:
            time.sleep(PAUSE + 1)
            output, errors = child.communicate(timeout=LIMIT)
            want_ending((child.returncode, output, errors), printed(values))


def waits_for_a_page(trial, length, least, most):
    """Where there is no object a page of 2^30 bytes is waited for, of which none comes, and a longer one isn't."""
    trial.lay_out(infos_of(ONE))
    row = Fetching.of(trial)
    with row.telling(lambda reply: reply.but(lengths=[length]).head(), HOLD, 1) as server, within(least, most):
        row.want_fetched(FAULT, server.server_port)


def rows(count):
    yield "a page of 2^30 bytes", waits_for_a_page, 2**30, SILENCE - 1, LIMIT
    yield "a page of a byte more", waits_for_a_page, 2**30 + 1, 0, SILENCE - 1
    yield from methods_of(Cases, Fetching)
    for seed in range(count):
        yield f"replies {seed}", judges_replies, seed
        yield f"a scale {seed}", cuts_scale, seed
        yield f"an info {seed}", refuses_infos, seed
    for title in FORMS:
        yield f"replies that don't fit, {title}", tells_faults, title, max(1, count // 8)
        yield f"odd replies, {title}", takes_odd_replies, title
    for volume in (ONE, ONE_IN_SHARD):
        yield f"requests of one chunk, {'in a shard' if volume.sharding else 'unsharded'}", asks_once, volume


if __name__ == "__main__":
    main(rows, count=8)
