#!/usr/bin/env python3
"""Serves data sets to several peers at once with the built vol_serve.

    tests/connections.py [PROGRAM [COUNT]]

Streams of requests at random, COUNT of them with each of 1, 2, 8 and 16 workers, in pieces cut at random, over up to twelve connections at
once: what each gets is what a plain model (model/requests.py) says, byte by byte. Others are silent, break off or drip meanwhile. A
Chromium reads ranges of another origin.
"""
import concurrent.futures
import contextlib
import functools
import itertools
import random
import signal
import socket
import subprocess
import threading
import time

from browser import fetch_parts
from harness import HALL_PROGRAM, LIMIT, NO_OUTPUTS, answers, descriptor_limit, main, methods_of, want, want_true, within
from model import refused
from model.replies import ABSENT, BAD, SILENCE, ask, closing, part_of, whole_of
from model.requests import cut_at_random, pick_stream
from peers import ASK, OBJECT, OPEN_FILES, REPLY, Doors, Served, connect, receive, reset, talk, words_of

WORKERS = [1, 2, 8, 16]

# How many connections there are at once.
PEERS = 12

# How many peers there are that say nothing.
IDLE = 200

# How long a connection is kept that says nothing behind a reply, in seconds.
KEPT = 5

LARGE = random.Random(0).randbytes(3 << 20)
GET_LARGE = ask("GET /s/large")
OBJECTS = {"/s/x": OBJECT, "/s/empty": b"", "/info": b"{}\n", "/s/0-64_0-64_0-64": LARGE[:70000], "/s/0.shard": LARGE[: 1 << 18]}


def converse(port, pieces):
    """All that is sent to pieces of a stream, of which the last may come too late."""
    with connect(port) as peer:
        peer.setsockopt(socket.IPPROTO_TCP, socket.TCP_NODELAY, 1)
        with contextlib.suppress(BrokenPipeError, ConnectionResetError):
            for piece in pieces:
                peer.sendall(piece)
            peer.shutdown(socket.SHUT_WR)
        return receive(peer)


class Hall(Doors):
    """A row that serves OBJECTS, and /s/large."""

    WORKERS = 4

    @classmethod
    def of(cls, trial):
        trial.lay_out({f"d{target}": content for target, content in {**OBJECTS, "/s/large": LARGE}.items()})
        return super().of(trial)


class Cases(Hall):
    """The rows that have no more arguments."""

    def a_peer_that_drips(self):
        """One that sends a byte now and then is let go though it never stops; the other worker answers meanwhile."""
        is_over = threading.Event()

        def drip(peer):
            with contextlib.suppress(OSError):
                while not is_over.wait(0.5):
                    peer.sendall(b"A")

        with self.serving(4, 2) as port, connect(port) as peer, within(SILENCE - 2, SILENCE + 5, "the peer that drips"):
            thread = threading.Thread(target=drip, args=(peer,))
            thread.start()
            for _ in range(3):
                with within(0, 2, "a reply beside a peer that drips"):
                    want(talk(port, ASK), REPLY, "the reply")
            with contextlib.suppress(ConnectionResetError):
                want(peer.recv(100), b"", "to the peer that drips")
            is_over.set()
            thread.join()

    def idle_peers_beside_one_that_asks(self):
        """It connected first, and is answered at once while 200 others say nothing: one place less is all that it takes."""
        with self.start("d --port=0 --connections=1000 --workers=16", stdout=subprocess.PIPE) as child, contextlib.ExitStack() as idle:
            try:
                port = int(child.stdout.readline().split()[1])
                peer = idle.enter_context(connect(port))
                for number in range(3 * IDLE):
                    if number < IDLE:
                        other = idle.enter_context(socket.socket())
                        other.setblocking(False)
                        other.connect_ex(("127.0.0.1", port))
                    with within(0, 2, "a reply beside idle peers"):
                        peer.sendall(ASK)
                        want(receive(peer, len(REPLY)), REPLY, "a reply")
                    time.sleep(0.02)
            finally:
                child.send_signal(signal.SIGTERM)
                want(child.wait(LIMIT), -signal.SIGTERM, "the status")

    def silent_peers_that_hold_all_descriptors(self):
        """They are let go before the server gives up, and the next peer gets its reply."""
        with self.serving(5, 5, prepare=descriptor_limit(OPEN_FILES + 4)) as port, contextlib.ExitStack() as silent:
            for _ in range(4):
                silent.enter_context(connect(port))
            with within(SILENCE - 2, SILENCE + 5, "the next peer's reply"):
                want(talk(port, ASK), REPLY, "the reply")

    def files_that_change(self):
        """Each worker sees a file that was replaced."""
        with self.serving(24) as port, concurrent.futures.ThreadPoolExecutor(8) as peers:
            for content in (OBJECT, b"another", b"more of it than before"):
                self.lay_out({"d/s/new": content})
                (self.folder / "d/s/new").rename(self.folder / "d/s/x")
                want(list(peers.map(functools.partial(talk, port), 8 * [ASK])), 8 * [whole_of(content)], "the replies")

    def connections_that_are_kept(self):
        """Six, as a browser's, are asked again after a while each."""
        with self.serving(6, 8) as port, contextlib.ExitStack() as kept:
            peers = [kept.enter_context(connect(port)) for _ in range(6)]
            for _ in range(3):
                with within(0, 2, "the replies"):
                    for peer in peers:
                        peer.sendall(ASK)
                        want(receive(peer, len(REPLY)), REPLY, "a reply")
                time.sleep(1)

    def peers_that_stay(self):
        """They got their last reply, and neither send nor close."""
        with self.serving(12, 2) as port, contextlib.ExitStack() as staying:
            with within(0, 10, "12 peers"):
                for _ in range(11):
                    peer = staying.enter_context(connect(port))
                    peer.sendall(ask("GET /s/x", "Connection: close"))
                    want(receive(peer), closing(REPLY), "a reply")
                want(talk(port, ASK), REPLY, "the last reply")

    def requests_that_come_together(self):
        """Two are answered by two sends: the second one doesn't wait for the peer to acknowledge the first."""
        spent = []
        with self.serving(1, 1) as port, connect(port) as peer:
            for _ in range(60):
                begin = time.monotonic()
                peer.sendall(ASK + ASK)
                want(receive(peer, 2 * len(REPLY)), REPLY + REPLY, "the replies")
                spent.append(time.monotonic() - begin)
        median = 1000 * sorted(spent)[len(spent) // 2]
        want_true(median < 30, f"the middle one of {len(spent)} pairs took {median:.0f} ms")

    def parts_over_kept_connections(self):
        """Twelve, each of which asks for parts in turn."""
        done = threading.Barrier(PEERS, timeout=LIMIT)

        def ask_for_parts(first):
            with connect(port) as peer:
                for begin in range(first << 16, len(LARGE), PEERS << 16):
                    peer.sendall(ask("GET /s/large", f"Range: bytes={begin}-{begin + 65535}"))
                    reply = part_of(LARGE, begin, begin + 65535)
                    want(receive(peer, len(reply)) == reply, True, f"the part from {begin} on")
                done.wait()

        with self.serving(PEERS, PEERS) as port, concurrent.futures.ThreadPoolExecutor(PEERS) as peers:
            list(peers.map(ask_for_parts, range(PEERS)))

    def a_browser(self):
        """It gets 40 ranges of another origin in under 3 seconds, though it keeps its connections."""
        with self.start("d --port=0 --connections=1000 --workers=8", stdout=subprocess.PIPE) as child:
            try:
                fetch_parts(int(child.stdout.readline().split()[1]), LARGE[: 40 << 16], 3000)
            finally:
                child.send_signal(signal.SIGTERM)
                want(child.wait(LIMIT), -signal.SIGTERM, "the status")


def lets_a_slow_reader_go(trial, size):
    """One that takes so many bytes of a long reply each second is let go though it never stops, and the next one is answered."""
    trial.lay_out({"d/s/long": {1 << 26: b""}})
    is_over = threading.Event()

    def read_slowly(peer):
        with contextlib.suppress(OSError):
            while peer.recv(size) and not is_over.wait(1):
                pass

    with Hall.of(trial).serving(2, 1) as port, connect(port) as peer:
        peer.sendall(ask("GET /s/long"))
        thread = threading.Thread(target=read_slowly, args=(peer,))
        thread.start()
        with within(SILENCE - 2, 4 * SILENCE, "the reply behind a peer that reads slowly"):
            want(talk(port, ASK), REPLY, "the reply")
        is_over.set()
        thread.join()


def answers_streams(trial, workers, count):
    """Up to twelve streams at once; the server ends once all were served."""
    chance = random.Random(workers)
    streams = [pick_stream(chance, OBJECTS) for _ in range(count)]
    pieces = [cut_at_random(chance, stream) for stream, _ in streams]
    with Hall.of(trial).serving(count, workers) as port, concurrent.futures.ThreadPoolExecutor(PEERS) as peers:
        for got, (stream, replies) in zip(peers.map(functools.partial(converse, port), pieces), streams):
            want(got, replies, f"to {stream[:300]!r}")


def answers_beside_silent_peers(trial, workers):
    """One worker is left, and answers at once."""
    with Served.of(trial).serving(workers + 2, workers) as port, contextlib.ExitStack() as silent:
        for number in range(workers - 1):
            silent.enter_context(connect(port)).sendall(ASK[:number])
        for _ in range(3):
            with within(0, 2, "a reply beside silent peers"):
                want(talk(port, ASK + ASK), REPLY + REPLY, "the replies")


def lets_peers_go(trial, talks, least, most):
    """Both workers have a peer that says no more, or reads no more; the next one is answered when these are let go."""
    trial.lay_out({"d/s/large": {1 << 26: b""}})
    with Served.of(trial).serving(3, 2) as port, connect(port) as first, connect(port) as second:
        for peer, (said, got) in itertools.product((first, second), talks):
            peer.sendall(said)
            want(receive(peer, len(got)), got, "to a peer")
        with within(least - 2, most + 5, "the next peer's reply"):
            want(talk(port, ASK), REPLY, "the next peer's reply")


def breaks_off(trial, workers):
    """Peers break off amid a long reply, each beside one that gets the whole of it."""
    whole, pairs = whole_of(LARGE), 6
    with Hall.of(trial).serving(2 * pairs, workers) as port, concurrent.futures.ThreadPoolExecutor(pairs) as peers:
        got = []
        for _ in range(pairs):
            peer = connect(port)
            peer.sendall(GET_LARGE + ASK)
            got.append(peers.submit(talk, port, GET_LARGE))
            want(peer.recv(100), whole[:100], "the first bytes of a reply")
            reset(peer)
        for reply in got:
            want(reply.result() == whole, True, "the whole of a reply")


def keeps_the_last_reply(trial, workers):
    """A peer goes on sending behind its last request, reads late, and still gets the whole of a long reply, or of one that refuses."""
    with Hall.of(trial).serving(2, workers) as port, connect(port) as peer:
        peer.sendall(ask("GET /s/large", "Connection: close") + b"x" * 50000)
        time.sleep(KEPT / 2)
        want_true(receive(peer) == closing(whole_of(LARGE)), "the long reply isn't whole")
        want(talk(port, ask("POST /s/x", "Content-Length: 50000") + b"x" * 50000, half_close=False), BAD, "the refusal")


def answers_more_peers_than_descriptors(trial, silent, workers, more, request, reply):
    """Silent peers hold all that the server may open; the others wait, and get their replies when these leave."""
    limit = descriptor_limit(OPEN_FILES + silent)
    with Served.of(trial).serving(silent + more, workers, prepare=limit) as port, contextlib.ExitStack() as staying:
        for _ in range(silent):
            staying.enter_context(connect(port))
        with concurrent.futures.ThreadPoolExecutor(more) as peers:
            replies = [peers.submit(talk, port, request) for _ in range(more)]
            time.sleep(1)
            want([got.done() for got in replies], more * [False], "who is answered beside the silent peers")
            staying.close()
            with within(0, 5, "the replies"):
                want([got.result() for got in replies], more * [reply], "the replies")


def serves_so_many(trial, connections, workers):
    """Then it ends, and nobody listens any more."""
    with Served.of(trial).serving(connections, workers) as port:
        for _ in range(connections):
            want(talk(port, ASK), REPLY, "the reply")
        with contextlib.suppress(ConnectionRefusedError, ConnectionResetError), connect(port) as peer:
            want(peer.recv(1), b"", "to one peer more")


# Command lines that are none.

ALL = words_of(1, 2).split()

NO_COMMANDS = [
    [], ["d"], ["--help"], ALL[1:], ALL[:3], [ALL[0], *ALL[2:]], [*ALL[:2], ALL[3]], ["serve", *ALL],
    *([*ALL, more] for more in ("s", "", "--", "--help", "--workers=2", "--port=0", "--method=mean")),
    *([dataset, *ALL[1:]] for dataset in ("", "../d", "/d", "d/", "-d", "d" * 201, b"\xff")),
    *([*ALL[:3], f"--workers{more}"] for more in ("=0", "=17", "=01", "=", "", "=-1", "=x")), [*ALL[:3], "--workers", "2"],
    *([ALL[0], f"--port={port}", *ALL[2:]] for port in ("65536", "-1", "00", "", "x")),
    *([*ALL[:2], f"--connections={count}", ALL[3]] for count in ("0", "65537", "01", "")),
]

# How many silent peers there are, a descriptor for each, how many workers, how many more peers, and what each of these asks and gets.
# What is absent takes no descriptor, and each worker that had an object keeps its file open.
MORE_PEERS = [(8, 16, 32, ask("GET /s/none"), ABSENT), (4, 5, 2, ASK, REPLY)]

# Title, what peers say in turn, with what they get, and after how many seconds at least and at most they are let go; of a reply that isn't
# read several pieces are sent.
SILENT = [
    ("a request for more than they read", [(GET_LARGE, b"HTTP/1.1")], SILENCE, 3 * SILENCE),
    ("nothing", [], SILENCE, SILENCE),
    ("the begin of a head", [(ASK[:-1], b"")], SILENCE, SILENCE),
    ("a request and the begin of another", [(ASK, REPLY), (ASK[:3], b"")], SILENCE, SILENCE),
    ("a request", [(ASK, REPLY)], KEPT, KEPT),
]


def rows(count):
    for title, *case in SILENT:
        yield f"peers that say {title}", lets_peers_go, *case
    for workers in WORKERS:
        yield f"streams, {workers} workers", answers_streams, workers, count
    for size in (1, 4096):
        yield f"a peer that takes {size} bytes a second", lets_a_slow_reader_go, size
    yield from methods_of(Cases, Served)
    for workers in WORKERS:
        yield f"silent peers beside one, {workers} workers", answers_beside_silent_peers, workers
        yield f"peers that break off, {workers} workers", breaks_off, workers
    for workers in (1, 2):
        yield f"peers that go on sending, {workers} workers", keeps_the_last_reply, workers
    for silent, *case in MORE_PEERS:
        yield f"more peers than the descriptors of {silent}", answers_more_peers_than_descriptors, silent, *case
    for connections, workers in ((1, 1), (1, 16), (3, 2), (20, 4)):
        yield f"{connections} connections, {workers} workers", serves_so_many, connections, workers
    for title, output in NO_OUTPUTS:
        yield f"the line to {title}", answers, {}, words_of(1, 2), refused("output fault"), b"", output
    for command in NO_COMMANDS:
        yield f"no command: {command!r:.120}", answers, {"d/s/x": OBJECT}, command, refused("usage")


if __name__ == "__main__":
    main(rows, count=150, jobs=4, program=HALL_PROGRAM)
