"""What the scripts share that serve a data set: a server, its peers, and what these get where the run is disturbed."""
import concurrent.futures
import contextlib
import dataclasses
import os
import re
import resource
import signal
import socket
import struct
import subprocess
import time

from harness import LIMIT, PIPE, Trial, Wrong, descriptor_limit, find_strace, want, want_ending, want_true, within
from model import printed, refused
from model.replies import ABSENT, FAILED, ask, closing, head_of, part_of, whole_of

# What a server has open that has no connection: its streams and the socket that listens.
OPEN_FILES = 4

OBJECT = b"0123456789"
ASK = ask("GET /s/x")
REPLY = whole_of(OBJECT)


def connect(port, address="127.0.0.1"):
    return socket.create_connection((address, port), LIMIT)


def receive(peer, count=None):
    """So many bytes, or all that comes until the end."""
    found = bytearray()
    while len(found) != count and (piece := peer.recv(1 << 16 if count is None else count - len(found))):
        found += piece
    return bytes(found)


def reset(peer):
    peer.setsockopt(socket.SOL_SOCKET, socket.SO_LINGER, struct.pack("ii", 1, 0))
    peer.close()


def talk(port, request, pieces=(), half_close=True, address="127.0.0.1", pause=0.01):
    """All that a server sends to a request, whose pieces are sent apart."""
    with connect(port, address) as peer:
        for piece in pieces or [request]:
            peer.sendall(piece)
            if pieces:
                time.sleep(pause)
        if half_close:
            peer.shutdown(socket.SHUT_WR)
        return receive(peer)


def in_halves(stream):
    return [piece for piece in (stream[: len(stream) // 2], stream[len(stream) // 2 :]) if piece]


# The calls that make a connection, set it, and use it; and what it is set to before it is used so.
NOTED = "trace=socket,accept,accept4,setsockopt,sendto,recvfrom"
OPTIONS = {"sendto": {"TCP_NODELAY", "SO_SNDTIMEO"}, "recvfrom": {"TCP_NODELAY", "SO_RCVTIMEO"}}


def want_set(told):
    """By the calls that strace noted, each connection sends at once, and waits for so long at most: for what goes out, and what comes in."""
    options, uses = {}, set()
    for line in told.splitlines():
        if made := re.search(r"\b(?:socket|accept4?)\b.*= (\d+)$", line):
            options[made[1]] = set()
        elif option := re.search(r" setsockopt\((\d+), \w+, ([A-Z_]+?)(?:_OLD|_NEW)?,", line):
            options[option[1]].add(option[2])
        elif used := re.search(r" (sendto|recvfrom)\((\d+),", line):
            want_true(OPTIONS[used[1]] <= options[used[2]], f"it is set to {options[used[2]]} alone before {line}")
            uses.add(used[1])
    want(uses, set(OPTIONS), "how connections are used")


def words_of(connections, workers, port=0):
    """The words of vol_tool that serve the data set d, or of vol_serve with so many workers."""
    words = f"d --port={port} --connections={connections}"
    return f"serve {words}" if workers is None else f"{words} --workers={workers}"


@contextlib.contextmanager
def started(trial, connections, workers=None, prepare=None, **environment):
    """A server of the data set d, or one of several workers, and its port. `prepare` is called before the program begins."""
    pipes = {"stdout": subprocess.PIPE, "stderr": subprocess.PIPE}
    child = trial.start(words_of(connections, workers), preexec_fn=prepare, env={**os.environ, **environment}, **pipes)
    try:
        line = child.stdout.readline()
        if not line.startswith(b"listening "):
            raise Wrong(f"it says {line!r} and {child.stderr.read()!r}")
        yield child, int(line.split()[1])
    finally:
        child.kill()
        child.communicate()


def want_end(child, wanted=printed(b"")):
    """A server ends so, with status 0 if nothing is said, and says nothing else."""
    output, errors = child.communicate(timeout=LIMIT)
    want_ending((child.returncode, output, errors), wanted, "at the end")


@contextlib.contextmanager
def serving(trial, connections, workers=None, **how):
    """The same by its port alone; it has to end with status 0."""
    with started(trial, connections, workers, **how) as (child, port):
        yield port
        want_end(child)


class Served(Trial):
    """A row with servers of the data set d, which has the object s/x: vol_tool's, or those of so many workers."""

    WORKERS = None

    @classmethod
    def of(cls, trial):
        trial.lay_out({"d/s/x": OBJECT})
        return super().of(trial)

    def serving(self, connections, workers=None, **how):
        return serving(self, connections, workers or self.WORKERS, **how)

    def want_replies(self, rows):
        """Each stream of requests is answered so, at once and in halves; to several peers at once where there are several workers."""
        talks = [(stream, pieces, wanted) for stream, wanted in rows for pieces in ((), in_halves(stream))]
        with self.serving(len(talks)) as port, concurrent.futures.ThreadPoolExecutor(self.WORKERS or 1) as peers:
            for got, (stream, _, wanted) in zip(peers.map(lambda row: talk(port, *row[:2]), talks), talks):
                want(got, wanted, f"to {stream[:120]!r}")


class Doors(Served):
    """The rows that each of the servers has."""

    def says_that_the_store_failed(self):
        """What is neither a file nor a folder is a fault, which ends the connection alone."""
        self.lay_out({"d/s/pipe": PIPE})
        pipe = ask("GET /s/pipe")
        rows = [(pipe + ASK, FAILED), (ASK + pipe + ASK, REPLY + FAILED), (ask("HEAD /s/pipe"), FAILED), (ASK + ASK, REPLY + REPLY)]
        self.want_replies(2 * rows)

    def sets_what_it_accepts(self):
        noted, traced = self.folder / "calls", self.folder / "traced"
        traced.write_text(f"#!/bin/sh\nexec {find_strace()} -f -qq -o {noted} -e {NOTED} {self.program} \"$@\"\n")
        traced.chmod(0o755)
        with dataclasses.replace(self, program=traced).serving(2) as port:
            want(talk(port, ASK), REPLY, "a reply")
            want(talk(port, ASK + ASK), REPLY + REPLY, "two replies")
        want_set(noted.read_text())

    def breaks_off_where_a_file_gets_shorter(self):
        """Amid a reply: its whole head was sent, and not all of its body; and the other peers are served."""
        length = 1 << 26
        self.lay_out({"d/s/large": {length: b""}})
        head = head_of("200 OK", length)
        with self.serving(3) as port, connect(port) as peer, connect(port) as other:
            other.sendall(ASK[:9])
            peer.sendall(ask("GET /s/large") + ASK)
            want(receive(peer, len(head)), head, "the head")
            os.truncate(self.folder / "d/s/large", 1)
            body = receive(peer)
            want_true(body == bytes(len(body)) and len(body) < length, f"no front of the body: {len(body)} bytes")
            other.sendall(ASK[9:])
            other.shutdown(socket.SHUT_WR)
            want(receive(other), REPLY, "the other peer's reply")
            want(talk(port, ASK), REPLY, "the next peer's reply")

    def refuses_taken_ports(self):
        with socket.create_server(("127.0.0.1", 0)) as taken:
            self.want_unchanged(words_of(1, self.WORKERS, taken.getsockname()[1]), refused("door fault"))

    def binds_the_address_that_is_named(self):
        with self.serving(1, VOL_TOOL_ADDRESS="127.0.0.2") as port:
            want(talk(port, ASK, address="127.0.0.2"), REPLY, "the reply")
        self.want(words_of(1, self.WORKERS), refused("door fault"), VOL_TOOL_ADDRESS="localhost.")

    def waits_for_descriptors(self):
        """While the system gives none for the next connection its peer waits, and gets its reply once there is one."""
        with started(self, 2, self.WORKERS, descriptor_limit(OPEN_FILES)) as (child, port), connect(port) as peer:
            peer.sendall(ASK)
            peer.settimeout(1)
            with contextlib.suppress(TimeoutError):
                raise Wrong(f"without a descriptor it sends {peer.recv(1)!r}")
            peer.settimeout(LIMIT)
            resource.prlimit(child.pid, resource.RLIMIT_NOFILE, resource.getrlimit(resource.RLIMIT_NOFILE))
            with within(0, 5, "the reply"):
                want(receive(peer, len(REPLY)), REPLY, "the reply")
            peer.close()
            want(talk(port, ASK), REPLY, "the next peer's reply")
            want_end(child)

    def gives_up_without_descriptors(self):
        """After 20 seconds in which it got none, though a peer waits."""
        with started(self, 1, self.WORKERS, descriptor_limit(OPEN_FILES)) as (child, port), connect(port), within(18, 30, "giving up"):
            want_end(child, refused("door fault"))

    def is_loopback_alone(self):
        """Another address of this machine's loopback isn't served where none is named."""
        with self.serving(1) as port:
            with contextlib.suppress(ConnectionRefusedError), connect(port, "127.0.0.2"):
                raise Wrong("another address is served")
            want(talk(port, ASK), REPLY, "the reply")


# A row of three objects is served to two peers by a run that is disturbed: what each asks over its connection, and the replies.
PEERS = [
    [
        (ask("GET /s/0-1_0-1_0-1"), whole_of(b"\1")),
        (ask("GET /s/y"), ABSENT),
        (ask("HEAD /s/1-2_0-1_0-1"), whole_of(b"\2")[:-1]),
        (ask("GET /s/2-3_0-1_0-1", "Range: bytes=0-"), part_of(b"\3", 0, 0)),
    ],
    [(ask("GET /s/0-1_0-1_0-1", "Connection: close"), closing(whole_of(b"\1")))],
]

SERVE = ["serve", "d", "--port=0", f"--connections={len(PEERS)}"]

WHOLE = [b"".join(reply for _, reply in peer) for peer in PEERS]


def got_by(port, peer):
    """What a peer gets, which is nothing where the run has ended, or ends meanwhile."""
    try:
        return talk(port, b"".join(request for request, _ in peer))
    except TimeoutError:
        raise
    except OSError:
        return b""


def serve_peers(command, folder, variables=None, get=got_by, peers=PEERS):
    """
    What a served run ends with: its status, the first word that it prints, all behind its first line, its standard error, and what
    each peer got, which `get` gives for the port and the peer.
    """
    pipes = {"stdin": subprocess.DEVNULL, "stdout": subprocess.PIPE, "stderr": subprocess.PIPE}
    with subprocess.Popen(command, cwd=folder, env=variables, start_new_session=True, **pipes) as child:
        try:
            line = child.stdout.readline().split()
            got = [get(int(line[1]), peer) for peer in peers] if line else []
            output, errors = child.communicate(timeout=LIMIT)
        finally:
            if child.poll() is None:
                os.killpg(child.pid, signal.SIGKILL)
    return child.returncode, line[:1], output, errors, got


def fronts_of(peer):
    """The whole first replies to a peer, as many as there may be, the fewest first."""
    return [b"".join(reply for _, reply in peer[:count]) for count in range(len(peer) + 1)]


def failed_of(peer):
    """Whole first replies to a peer, and behind them that the store failed."""
    return [front + FAILED for front in fronts_of(peer)[:-1]]


def is_answered(got):
    """Whether each peer got all replies, or the first ones and that the store failed."""
    each = zip(got, PEERS)
    return len(got) == len(PEERS) and all(one in [fronts_of(peer)[-1], *failed_of(peer)] for one, peer in each)
