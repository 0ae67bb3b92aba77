#!/usr/bin/env python3
"""Serves data sets over the loopback with the built vol_tool; raw sockets, Python's HTTP client and curl ask for objects.

    tests/serving.py [PROGRAM]
"""
import contextlib
import http.client
import os
import signal
import struct
import subprocess
import threading
import time
from concurrent.futures import ThreadPoolExecutor

from harness import LIMIT, Wrong, call, descriptor_limit, find_tool, main, methods_of, open_full, want, within
from model import along, info_of, refused, stored, stream_of
from model.replies import (
    ABSENT, BAD, MOST_HEAD, MOST_NAME, MOST_REQUESTS, NOT_ALLOWED, PAUSE, SILENCE, ask, closing, head_of, no_part_of, part_of,
)
from model.small import shards
from peers import ASK, OBJECT, OPEN_FILES, REPLY, Doors, Served, connect, in_halves, receive, reset, talk, words_of

HEAD_ALONE = head_of("200 OK", 10)
PART = part_of(OBJECT, 2, 4)
NO_PART = no_part_of(OBJECT)
ONCE, BEYOND = "Range: bytes=2-4", "Range: bytes=10-"
RANGED = ask("GET /s/x", ONCE)

# How old a connection may get that is never idle, in seconds.
AGE = 60

# What is asked of the ten bytes, which bytes come, and which they are.
RANGES = [
    ("bytes=2-4", b"234", "2-4/10"), ("bytes=7-", b"789", "7-9/10"), ("bytes=-1", b"9", "9-9/10"), ("bytes=0-99", OBJECT, "0-9/10"),
    ("bytes=10-", b"", "*/10"), ("bytes=9-9", b"9", "9-9/10"), ("bytes=-0", b"", "*/10"),
    ("bytes=0-18446744073709551616", OBJECT, "0-9/10"), ("bytes=1-99999999999999999999999", OBJECT[1:], "1-9/10"),
    ("bytes=18446744073709551616-", b"", "*/10"), ("bytes=18446744073709551616-18446744073709551617", b"", "*/10"),
    ("bytes=-18446744073709551616", OBJECT, "0-9/10"),
]

# What is passed over.
NO_RANGES = [
    "bytes=4-2", "bytes=0-1,3-4", "bytes=18446744073709551617-18446744073709551616", "bytes=-", "bytes=+1-2", "bytes= 1-2",
    "bytes=1-2-3", "octets=1-2",
]

# Streams that are cut short, hostile, or closed by their first request, and what is sent to each.
HOSTILE = [
    (b"", b""), (b"GET /s/x HTTP/1.1\r\n", BAD), (b"a" * MOST_HEAD + RANGED, BAD), (b"\0" + RANGED, BAD), (RANGED + b"\0", PART + BAD),
    (ask("GET /../x") + RANGED, ABSENT + PART),
    (ask("GET /s/x", ONCE, "Connection: Keep-Alive, CLOSE") + RANGED, closing(PART)),
    (ask("GET /s/x", f"Range: bytes={'9' * 400}-"), NO_PART),
]


def client_at(port):
    return contextlib.closing(http.client.HTTPConnection("127.0.0.1", port, timeout=LIMIT))


def fetch(client, target, asked=None, method="GET", field="Content-Range"):
    """What a request is answered: the status, the bytes, and a field of the head."""
    client.request(method, target, headers={} if asked is None else {"Range": asked})
    reply = client.getresponse()
    return reply.status, reply.read(), reply.getheader(field)


class Cases(Doors):
    """The rows that have a server of their own, the longest first."""

    @contextlib.contextmanager
    def _client(self):
        with self.serving(1) as port, client_at(port) as client:
            yield client

    def lets_old_connections_go(self):
        """One that asks again and again, and is never idle, gets whole replies alone, and the next one's turn comes in a minute."""
        with self.serving(2) as port, connect(port) as busy, within(AGE - 1, AGE + 5, "the reply beside a peer that is never idle"):
            reply = REPLY
            while reply == REPLY:
                time.sleep(PAUSE / 5)
                busy.sendall(ASK)
                reply = receive(busy, len(REPLY))
            want(reply, b"", "the last of all replies")
            want(talk(port, ASK), REPLY, "the next peer's reply")

    def lets_silent_peers_go(self):
        """One that says nothing, and, after a pause, one that says nothing more behind a reply, whatever it said before that."""
        for said, least, most in [(b"", SILENCE - 2, SILENCE + 5), (ASK, PAUSE / 2, PAUSE + 4), (ASK + ASK[:9], PAUSE / 2, PAUSE + 4)]:
            with self.serving(2) as port, connect(port) as silent:
                silent.sendall(said)
                with within(least, most, f"the reply beside a peer that said {said!r}"):
                    want(talk(port, ASK), REPLY, "the next peer's reply")

    def lets_dripping_peers_go(self):
        """One that sends a byte now and then is let go as if it said nothing, though it never stops; also behind a reply."""

        def drip(peer):
            with contextlib.suppress(OSError):
                for byte in padded(MOST_HEAD):
                    peer.sendall(bytes([byte]))
                    time.sleep(0.8 * PAUSE)

        for front, reply in [(b"", b""), (ASK, REPLY)]:
            with self.serving(2) as port, connect(port) as peer:
                peer.sendall(front)
                want(receive(peer, len(reply)), reply, "to what came before")
                thread = threading.Thread(target=drip, args=(peer,), daemon=True)
                thread.start()
                with within(SILENCE - 2, SILENCE + 5, f"the reply beside a peer that drips behind {front!r}"):
                    want(talk(port, ASK), REPLY, "the next peer's reply")
            thread.join()

    def answers_in_each_cut(self):
        """Each such stream in every cut into two pieces; of the one that is longer than a head, cuts around that length."""
        around = [1, MOST_HEAD - 1, MOST_HEAD, MOST_HEAD + 1]
        rows = [(row, cut) for row in HOSTILE for cut in (range(1, len(row[0])) if len(row[0]) < MOST_HEAD else around)]
        with self.serving(len(rows)) as port:
            for (stream, wanted), cut in rows:
                want(talk(port, stream, [stream[:cut], stream[cut:]]), wanted, f"to {stream[:60]!r}, cut at {cut}")

    def answers_bytes_exactly(self):
        rows = [
            (RANGED, PART), (RANGED + ASK, PART + REPLY), *HOSTILE, (ask("GET /../x") + ASK, ABSENT + REPLY),
            (ask("GET /%2e%2e/x"), ABSENT), (ask("GET /s/x?a"), ABSENT), (ask("GET //etc/passwd"), ABSENT),
        ]
        with self.serving(3 * len(rows)) as port:
            for request, wanted in rows:
                each = [request[at : at + 1] for at in range(len(request))] if len(request) < MOST_HEAD else in_halves(request)
                for pieces in ((), in_halves(request), each):
                    # what comes behind a reply that closes is drained for a second alone
                    want(talk(port, request, pieces, pause=0.002), wanted, f"to {request[:60]!r}")

    def lets_idle_peers_go(self):
        """Six connections that are kept hold up the others for a pause each; one that asks in pieces isn't let go."""
        with self.serving(8) as port, contextlib.ExitStack() as kept:
            for _ in range(6):
                with within(0, PAUSE + 2, "a kept connection's object"):
                    want(fetch(kept.enter_context(client_at(port)), "/s/x")[1], OBJECT, "a kept connection's object")
            with within(0, PAUSE + 2, "the next peer's reply"):
                want(talk(port, ASK), REPLY, "the next peer's reply")
            want(talk(port, ASK + ASK, 2 * in_halves(ASK), pause=0.6 * PAUSE), REPLY + REPLY, "a slow peer's replies")

    def serves_more_peers_than_descriptors(self):
        """Twenty come at once; beside what it always has open it may have a connection and a file."""
        with self.serving(20, prepare=descriptor_limit(OPEN_FILES + 2)) as port, ThreadPoolExecutor(20) as peers:
            want(list(peers.map(lambda _: talk(port, ASK), range(20))), 20 * [REPLY], "the replies")

    def serves_eight_that_keep_their_connections(self):
        done = threading.Barrier(8, timeout=LIMIT)

        def fetch_some(port):
            with client_at(port) as client:
                found = [fetch(client, "/s/x", "bytes=2-4") for _ in range(10)]
                done.wait()
                return found

        with self.serving(8) as port, within(0, 8 * PAUSE + 1, "eight clients"), ThreadPoolExecutor(8) as clients:
            found = list(clients.map(fetch_some, 8 * [port]))
        want(found, 8 * [10 * [(206, b"234", "bytes 2-4/10")]], "the objects of eight clients")

    def closes_behind_the_last_request(self):
        """The last reply of a connection ends it, also where more requests came; and the next connection counts anew."""
        piece = 1024
        with self.serving(2) as port:
            with connect(port) as peer:
                received = peer.makefile("rb")
                for _ in range(MOST_REQUESTS // piece - 1):
                    peer.sendall(piece * ASK)
                    want(received.read(piece * len(REPLY)) == piece * REPLY, True, "a piece of the replies")
                peer.sendall((piece + 1) * ASK)
                want(received.read(), (piece - 1) * REPLY + closing(REPLY), "the last piece of the replies")
            want(talk(port, ASK), REPLY, "the next peer's reply")

    def gives_whole_objects(self):
        with self._client() as client:
            for _ in range(3):
                want(fetch(client, "/s/x", field="Access-Control-Allow-Origin"), (200, OBJECT, "*"), "an object")
            want(fetch(client, "/s/x", method="HEAD", field="Content-Length"), (200, b"", "10"), "a head")
            want(fetch(client, "/s/y")[:2], (404, b""), "no object")

    def gives_ranges(self):
        self.lay_out({"d/s/empty": b""})
        with self._client() as client:
            for asked, body, part in RANGES:
                want(fetch(client, "/s/x", asked), (416 if part.startswith("*") else 206, body, f"bytes {part}"), asked)
            for asked in NO_RANGES:
                want(fetch(client, "/s/x", asked), (200, OBJECT, None), asked)
            for asked, status, told in [("bytes=-1", 200, None), ("bytes=0-", 416, "bytes */0"), ("bytes=-0", 416, "bytes */0")]:
                want(fetch(client, "/s/empty", asked), (status, b"", told), f"{asked} of no bytes")

    def gives_large_objects(self):
        large = os.urandom(1 << 20) * 5 + b"end"
        self.lay_out({"d/s/large": large})
        with self._client() as client:
            want(fetch(client, "/s/large")[1] == large, True, "the whole object")
            want(fetch(client, "/s/large", "bytes=65535-3000000")[1] == large[65535:3000001], True, "a large part")

    def answers_before_more_comes(self):
        """A reply leaves once its request's head is there, whatever may come behind it, and the next request is answered then."""
        with self.serving(1) as port, connect(port) as peer:
            for request, reply in [
                (ASK, REPLY), (ask("HEAD /s/x"), HEAD_ALONE), (ask("GET /s/y"), ABSENT), (ASK + ASK[:20], REPLY), (ASK[20:], REPLY),
            ]:
                with within(0, SILENCE / 2, f"to {request!r}"):
                    peer.sendall(request)
                    want(receive(peer, len(reply)), reply, f"to {request!r}")

    def finds_names(self):
        longest = "/".join(["a" * 250, "b" * 250, "c" * (MOST_NAME - len("d/") - 502)])
        self.lay_out({f"d/{name}": OBJECT for name in ("s/y.part", "s/a b", longest, longest + "c", "s/-_.Z9")})
        (self.folder / "d/s/link").symlink_to("x")
        absent = [longest + "c", "s/y.part", "s/a%20b", "", "s", "s/", "s/x/", "s/x/y", "s/./x", "s/../s/x", "s//x", "s/x#a"]
        targets = [*(f"/{name}" for name in absent), "http://a/s/x", "s/x", "*", "\\s/x"]
        rows = [(ask(f"GET /{name}"), REPLY) for name in (longest, "s/-_.Z9", "s/link")]
        self.want_replies(rows + [(ask(f"GET {target}"), ABSENT) for target in targets])

    def gives_files_as_they_stand(self):
        # what is done between two requests of one connection, and what the file has then
        changes = [
            ("printf abcdefghij >s/y; mv s/y s/x", b"abcdefghij"), ("printf 'and so on, and on' >s/y; mv s/y s/x", b"and so on, and on"),
            ("printf abc >s/y; mv s/y s/x", b"abc"), ("printf def >>s/x", b"abcdef"), ("truncate -s 2 s/x", b"ab"),
            ("printf cd >s/x", b"cd"), ("truncate -s 0 s/x", b""), ("rm s/x", None), ("printf anew >s/x", b"anew"),
            ("mv s t; mkdir s; printf newer >s/x", b"newer"), ("rm -r s", None),
        ]
        with self._client() as client:
            want(fetch(client, "/s/x")[1], OBJECT, "as it was laid out")
            for change, wanted in changes:
                want(call(["sh", "-ec", change], self.folder / "d"), (0, "", ""), change)
                for method in ("GET", "HEAD", "GET"):
                    found = fetch(client, "/s/x", method=method, field="Content-Length")
                    body = wanted if wanted and method == "GET" else b""
                    want(found, (404 if wanted is None else 200, body, str(len(wanted or b""))), f"{change}, {method}")

    def judges_ranges_by_the_file_that_stands(self):
        with self._client() as client:
            for content, asked, status, body, told in [
                (b"0123456789", "bytes=10-", 416, b"", "bytes */10"),
                (b"0123456789abc", "bytes=10-", 206, b"abc", "bytes 10-12/13"),
                (b"0123456789abc", "bytes=-2", 206, b"bc", "bytes 11-12/13"),
                (b"0123", "bytes=-2", 206, b"23", "bytes 2-3/4"),
                (b"0123", "bytes=10-", 416, b"", "bytes */4"),
            ]:
                self.lay_out({"d/s/x": content})
                want(fetch(client, "/s/x", asked), (status, body, told), f"{asked} of {content!r}")

    def passes_over_peers_that_reset(self):
        self.lay_out({"d/s/large": bytes(1 << 24)})
        with self.serving(2) as port:
            peer = connect(port)
            peer.sendall(ask("GET /s/large"))
            peer.recv(100)
            reset(peer)
            want(talk(port, ASK), REPLY, "the next peer's reply")

    def serves_one_after_the_other(self):
        with self.serving(2) as port:
            first = connect(port)
            first.sendall(ASK)
            want(receive(first, len(REPLY)), REPLY, "the first peer's reply")
            first.sendall(ASK[:9])
            with connect(port) as second:
                second.sendall(ASK)
                second.settimeout(0.3)
                with contextlib.suppress(TimeoutError):
                    raise Wrong(f"the second peer got {second.recv(100)!r} beside the first")
                first.close()
                second.settimeout(LIMIT)
                want(second.recv(65536), REPLY, "the second peer's reply")

    def refuses_words_and_outputs(self):
        self.want("serve d --port=0", refused("usage"))
        self.want(words_of(1, None), refused("output fault"), output=open_full)

    def serves_shards_as_a_viewer_reads_them(self):
        """The entry of a minishard, its index and a chunk, by three ranges of one object."""
        self.lay_out({"d/info": info_of([2, 1, 1], [1, 1, 1], None, **shards(minishard_bits=1)), "d/s/x": None})
        self.want("write d s", stored(1, 2), stream_of([(along(0, 2), b"\x0a\x0b")]))
        with self._client() as client:

            def part(begin, end):
                status, body, _ = fetch(client, "/s/0.shard", f"bytes={begin}-{end - 1}")
                want(status, 206, "the status of a range")
                return body

            for minishard, value in ((0, b"\x0a"), (1, b"\x0b")):
                start, end = struct.unpack("<2Q", part(16 * minishard, 16 * minishard + 16))
                _, begin, length = struct.unpack("<3Q", part(32 + start, 32 + end))
                want(part(32 + begin, 32 + begin + length), value, f"the chunk of minishard {minishard}")

    def serves_curl(self):
        curl = find_tool("curl")
        with self.serving(9) as port:
            url = f"http://127.0.0.1:{port}/s/x"
            found = call([curl, "-sS", "-r", "2-4", url, "--next", "-sS", url], self.folder)
            want(found, (0, f"234{OBJECT.decode()}", ""), "curl")
            with within(0, 8 * PAUSE + 1, "eight transfers at once"):
                found = call([curl, "-sS", "--no-progress-meter", "--parallel", "--parallel-immediate", *8 * [url]], self.folder)
            want(found, (0, 8 * OBJECT.decode(), ""), "curl, eight transfers at once")

    def ends_where_it_is_stopped(self):
        with self.start("serve d --port=0 --connections=9", stdout=subprocess.PIPE) as child:
            child.stdout.readline()
            child.send_signal(signal.SIGTERM)
            want(child.wait(LIMIT), -signal.SIGTERM, "the status")


# Streams of requests, and what each is answered.


def padded(length, front=b""):
    """A request whose head has so many bytes, from its first empty line to its last."""
    begin = front + b"GET /s/x HTTP/1.1\r\nHost: a\r\nX: "
    return begin + b"a" * (length - len(begin) - 4) + b"\r\n\r\n"


def gets(*fields):
    return ask("GET /s/x", *fields)


FIRST_LINE = b"GET /s/x HTTP/1.1\n"
MOST_FIELDS = FIRST_LINE + (MOST_HEAD - len(FIRST_LINE) - 1) // 3 * b"a:\n" + b"\n"
LENGTH, NO_LENGTH, CHUNKED = "Content-Length: 1", "Content-Length: 0", "Transfer-Encoding: chunked"

# A body that comes, or may come, is refused before anything else is judged; one of no bytes is none.
BODIES = [
    gets(CHUNKED), gets("TRANSFER-ENCODING: identity"), gets("Transfer-Encoding:"), gets(NO_LENGTH, CHUNKED), gets(LENGTH),
    *(gets(f"Content-Length:{length}") for length in (" 00", " +0", " 0, 0", "")), gets(NO_LENGTH, "content-length: 1"),
    gets(LENGTH, NO_LENGTH), *(ask(line, LENGTH) for line in ("HEAD /s/x", "POST /s/x", "GET /s/y")),
]
NO_BODIES = [gets(NO_LENGTH), gets("content-length:\t0 "), gets(NO_LENGTH, NO_LENGTH)]

# A range that is asked twice, or on a condition, is passed over; a field's name may be spelled in any case.
PASSED_OVER = [
    (ONCE, ONCE), (ONCE, "range: bytes=0-0"), ("Range: a", ONCE), (BEYOND, ONCE), (ONCE, 'If-Range: "a"'),
    ('if-range: "a"', BEYOND), (ONCE, "If-Range:"), ('If-Range: "a"',),
]
NOT_PASSED_OVER = [(ONCE, 'If-Match: "a"', 'If-None-Match: "a"'), ("RANGE: \tByTeS=002-4 ",)]

# Heads without a host, with one, and with two.
HOSTS = [b"\r\n".join([b"GET /s/x HTTP/1.1", *[b"Host: a", b"Host: b"][:count], b"", b""]) for count in range(3)]

REPLIES = {
    # behind each reply that doesn't close comes that to the next request
    "goes on where it isn't asked to close": [
        (request + ASK, reply + REPLY) for request, reply in [
            *((gets(field), REPLY) for field in ("Connection: keep-alive", "Connection: closed, not close, clos", "Keep-Alive: close")),
            (ask("HEAD /s/x"), HEAD_ALONE), (gets(BEYOND), NO_PART), (ask("GET /s/y"), ABSENT), (ask("POST /s/x"), NOT_ALLOWED),
        ]
    ],
    # a head counts from its first empty line to its last, each by itself
    "takes heads up to their limit": [
        (padded(MOST_HEAD), REPLY), (padded(MOST_HEAD + 1), BAD), (ASK + padded(MOST_HEAD) + ASK, REPLY + REPLY + REPLY),
        (ASK + padded(MOST_HEAD + 1) + ASK, REPLY + BAD), (padded(MOST_HEAD, b"\r\n\n") + ASK, REPLY + REPLY),
        (padded(MOST_HEAD + 1, b"\r\n\n") + ASK, BAD), (MOST_FIELDS + ASK, REPLY + REPLY),
    ],
    "refuses bodies": [
        *((request + b"0\r\n\r\n" + ASK, BAD) for request in BODIES),
        *((request + ASK, REPLY + REPLY) for request in NO_BODIES),
    ],
    # the method comes before the name, and the name before what is asked of the object
    "judges in order": [
        *((ask(line), NOT_ALLOWED) for line in ("POST /s/y", "DELETE /../x", "OPTIONS *", "get /s/x", "HEADS /s/x")),
        (ask("POST /s/x", BEYOND), NOT_ALLOWED), (ask("GET /s/y", "Range: bytes=0-"), ABSENT), (ask("HEAD /s/y"), ABSENT),
        (ask("HEAD /s/x", ONCE), HEAD_ALONE), (ask("HEAD /s/x", BEYOND), HEAD_ALONE),
    ],
    "passes over ranges": [*((gets(*fields), REPLY) for fields in PASSED_OVER), *((gets(*fields), PART) for fields in NOT_PASSED_OVER)],
    # also with lines that end in LF alone
    "judges no host": [(ended + ASK, REPLY + REPLY) for head in HOSTS for ended in (head, head.replace(b"\r\n", b"\n"))],
}


CLOSE = "Connection: Keep-Alive, CLOSE"

# What is answered at once, though the peer goes on waiting.
AT_ONCE = {
    "closes where it is asked": [
        (request + ASK, closing(reply)) for request, reply in [
            (b"GET /s/x HTTP/1.0\r\n\r\n", REPLY), (b"GET /s/x HTTP/1.0\r\nConnection: keep-alive\r\n\r\n", REPLY),
            (gets("Connection: keep-alive", "connection:\tclose\t,"), REPLY), (gets(CLOSE), REPLY), (ask("HEAD /s/x", CLOSE), HEAD_ALONE),
            (gets(ONCE, CLOSE), PART), (gets(BEYOND, CLOSE), NO_PART), (ask("GET /s/y", CLOSE), ABSENT), (ask("GET /../x", CLOSE), ABSENT),
            (ask("POST /s/x", CLOSE), NOT_ALLOWED),
        ]
    ],
    # what can't become a head any more, and a front as long as a head may be
    "refuses at once": [
        (front, BAD) for front in [
            b"\0", b"\r\rGET", b"GET /s/x HTTP/1.2", b"GET /s/x HTTP/1.1\r\nX : a", b"GET  /", b"GET /\x7f", b"a" * MOST_HEAD,
            b"G" * 3 * MOST_HEAD,
        ]
    ],
    # a peer goes on sending behind a request that is refused, and still gets the reply
    "keeps the last reply": [(ask("POST /s/x", "Content-Length: 50000") + b"x" * 50000, BAD)],
}


def answers_replies(trial, requests):
    Served.of(trial).want_replies(requests)


def answers_at_once(trial, requests):
    with Served.of(trial).serving(len(requests)) as port:
        for request, reply in requests:
            with within(0, SILENCE / 2, f"to {request[:60]!r}"):
                want(talk(port, request, half_close=False), reply, f"to {request[:60]!r}")


def rows():
    yield from methods_of(Cases, Served)
    for judge, table in ((answers_replies, REPLIES), (answers_at_once, AT_ONCE)):
        yield from ((title, judge, requests) for title, requests in table.items())


if __name__ == "__main__":
    main(rows)
