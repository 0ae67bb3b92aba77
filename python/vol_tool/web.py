"""
Files of web servers, over a pool of connections, by urllib3, on which requests stands.

What may pass is asked for again by urllib3's own rules. It reads an answer's body within them, so that one that breaks off is asked for
again too, which requests doesn't do.
"""
from __future__ import annotations

import contextlib
import os
import pathlib
import re
import threading
import urllib.parse
import urllib.request
from typing import Any, BinaryIO, Collection, Iterator

from .errors import FetchFault, StoreFault, VolToolError
from .packages import need

# What a server answers that may be otherwise later, how often it is asked again, and the pauses before, in seconds: none before the first
# one, then twice this, and each time twice as long; and at most how long where the server says.
BUSY = (408, 429, 500, 502, 503, 504)
FURTHER_TRIES = 3
PAUSE = 1.0
LONGEST_PAUSE = 60

MOST_REDIRECTS = 5

# How many bytes are asked for at once of a file that is fetched in pieces.
PIECE = 1 << 24

_CONTENT_RANGE = re.compile(r"bytes (\d+)-(\d+)/(\d+)")
_PREFIX = re.compile(r"<[^>]*>: |HTTPS?ConnectionPool\([^)]*\): ")


class Absent(Exception):
    """The server has no such file."""


@contextlib.contextmanager
def new_file(path: pathlib.Path) -> Iterator[BinaryIO]:
    """A file that stands under its name when it is whole. Until then its name ends in `.part`. Raises StoreFault."""
    part = path.with_name(f"{path.name}.{os.getpid()}-{threading.get_ident()}.part")
    try:
        path.parent.mkdir(parents=True, exist_ok=True)
        with part.open("wb") as file:
            yield file
        part.replace(path)
    except OSError as why:
        if isinstance(why, VolToolError):
            raise
        raise StoreFault(f"{path}: {why.strerror or why}") from why
    finally:
        with contextlib.suppress(OSError):
            part.unlink()


def _retries() -> Any:
    """What may be asked for again, as urllib3 has it; but no server makes this one wait for hours."""

    class Retries(need("urllib3", "a link").Retry):  # type: ignore[misc]
        def get_retry_after(self, response: Any) -> float | None:
            wanted = super().get_retry_after(response)
            return None if wanted is None else min(wanted, LONGEST_PAUSE)

    each = dict.fromkeys(("connect", "read", "status", "other"), FURTHER_TRIES)
    return Retries(total=None, redirect=MOST_REDIRECTS, status_forcelist=BUSY, backoff_factor=PAUSE, raise_on_status=False, **each)


def _proxy_of(address: str) -> str | None:
    """The proxy that the environment names for an address."""
    parts = urllib.parse.urlsplit(address)
    proxy = urllib.request.getproxies().get(parts.scheme)
    if not proxy or urllib.request.proxy_bypass(parts.netloc):
        return None
    return proxy if "://" in proxy else f"http://{proxy}"


def _pool_for(address: str, timeout: float, connections: int) -> Any:
    """What keeps the connections to the server of an address, or to the proxy before it."""
    urllib3 = need("urllib3", "a link")
    how = {"timeout": urllib3.Timeout(connect=timeout, read=timeout), "maxsize": connections, "retries": _retries()}
    proxy = _proxy_of(address)
    if proxy is None:
        return urllib3.PoolManager(**how)
    who = urllib3.util.parse_url(proxy).auth
    return urllib3.ProxyManager(proxy, proxy_headers=urllib3.util.make_headers(proxy_basic_auth=who) if who else None, **how)


class Web:
    """
    The server of an address. A silent one is waited for `timeout` seconds; it is asked over at most so many `connections` at once;
    `absent` are the statuses that say that there is no such file.
    """

    def __init__(self, address: str, timeout: float, connections: int, absent: Collection[int]) -> None:
        self._how = address, timeout, connections
        self._absent = absent
        self.begin()

    def begin(self) -> None:
        """Forgets all connections, which a process that was forked shares with another."""
        self._pool = _pool_for(*self._how)

    def end(self) -> None:
        """Closes the connections."""
        self._pool.clear()

    def read(self, address: str) -> bytes:
        """All bytes of a file, without the coding that they came in. Raises Absent, and FetchFault."""
        return self._ask(address, {"Accept-Encoding": "gzip"}, (200,), ("identity", "gzip")).data

    def pieces(self, address: str) -> Iterator[bytes]:
        """The bytes of a file in pieces, each asked for in turn; all at once where the server knows no ranges. Raises as `read`."""
        at, total, mark = 0, 1, None
        while at < total:
            headers = {"Accept-Encoding": "identity", "Range": f"bytes={at}-{at + PIECE - 1}"}
            reply = self._ask(address, headers, (206,) if at else (200, 206, 416), ("identity",))
            if reply.status != 206:
                yield reply.data if reply.status == 200 else b""
                return
            found = _CONTENT_RANGE.fullmatch(reply.headers.get("Content-Range", ""))
            first, last, total = map(int, found.groups()) if found else (-1, -1, -1)
            if (first, last - first + 1) != (at, len(reply.data)) or mark not in (None, (total, reply.headers.get("ETag"))):
                raise FetchFault(f"{address}: the server sends other bytes than were asked for, or the file was changed meanwhile")
            mark = total, reply.headers.get("ETag")
            yield reply.data
            at = last + 1

    def save(self, address: str, path: pathlib.Path, in_pieces: bool) -> int:
        """Copies a file, and gives its length in bytes. Raises as `read`, and StoreFault."""
        pieces = self.pieces(address) if in_pieces else iter([self.read(address)])
        piece, length = next(pieces, b""), 0
        with new_file(path) as file:
            while piece:
                length += file.write(piece)
                piece = next(pieces, b"")
        return length

    def _ask(self, address: str, headers: dict[str, str], fit: Collection[int], codings: Collection[str]) -> Any:
        """The answer to a request, with one of these statuses, in one of these codings."""
        errors = need("urllib3", "a link").exceptions
        try:
            reply = self._pool.request("GET", address, headers={"User-Agent": "vol_tool", **headers}, enforce_content_length=True)
        except errors.HTTPError as why:
            raise FetchFault(f"{address}: {_reason(errors, why)}") from why
        if reply.status in self._absent:
            raise Absent
        if reply.status not in fit:
            more = ", which some stores say of what they haven't: absent=(403, 404) takes it so" if reply.status == 403 else ""
            raise FetchFault(f"{address}: {reply.status} {reply.reason or ''}".rstrip() + more)
        coding = reply.headers.get("Content-Encoding", "identity").lower()
        if coding not in codings:
            raise FetchFault(f"{address}: it comes compressed, by {coding}")
        return reply


def _reason(errors: Any, why: Exception) -> str:
    """What is wrong with an answer, or with the want of one, in a line."""
    cause = getattr(why, "reason", None) or why
    if isinstance(cause, errors.TimeoutError) and not isinstance(cause, errors.NewConnectionError):
        return "the server doesn't answer in time"
    text = str(cause.args[0] if isinstance(cause, errors.ProtocolError) and cause.args else cause)
    return _PREFIX.sub("", text.partition("\n")[0]) or type(cause).__name__
