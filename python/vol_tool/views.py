"""
The page of slices: it is served to this machine, with the files of a data set, which the program `vol_tool serve` gives.

What a notebook shows of a scale is in pictures.py.
"""
from __future__ import annotations

import contextlib
import http.client
import http.server
import importlib.resources
import os
import re
import signal
import socket
import socketserver
import subprocess
import threading
import urllib.parse
import weakref
from typing import Any, Iterator

from .errors import PortFault, StreamFault, UsageError, VolToolError
from .infos import Info
from .pictures import slice_png_html
from .programs import PathText, Place, Run, place_of

__all__ = ["PageServer", "serve_page", "slice_png_html"]

# How many connections the program takes until it ends, how many peers there are at once, and how long a silent one is waited for, in
# seconds; and how often the program is asked again.
MOST_CONNECTIONS = 1 << 16
MOST_PEERS = 16
PATIENCE = 10
FURTHER_TRIES = 2

HERE = "127.0.0.1"
_TARGET = re.compile(r"[A-Za-z0-9_./-]+")

# What an object's reply keeps of the program's, and the request of the page's.
PASSED_ON = ("Content-Length", "Content-Type", "Content-Range", "Accept-Ranges")
ASKED_ON = ("Range",)


def page() -> bytes:
    """The page, as HTML."""
    return (importlib.resources.files(__package__) / "data" / "slices.html").read_bytes()


class _Served:
    """
    The program's server over a data set. It serves one connection after the other, so one is kept for all requests, which take turns;
    where it or the server has ended, it is begun anew, until it is over.
    """

    def __init__(self, place: Place) -> None:
        self.place = place
        self.turn = threading.Lock()
        self._life = threading.Lock()
        self._is_over = False
        self._run: Run | None = None
        self._link: http.client.HTTPConnection | None = None

    def begin(self) -> None:
        """
        Begins the server, at a free port of the loopback address, and in a group of its own, since a script may stand around it. Raises
        the error that the program tells.
        """
        own = {name: value for name, value in os.environ.items() if name != "VOL_TOOL_ADDRESS"}
        words = ["serve", self.place.name, "--port=0", f"--connections={MOST_CONNECTIONS}"]
        with self._life:
            if self._is_over:
                raise StreamFault("the page's server is over")
            self._drop()
            self._run = Run("vol_tool", words, self.place.folder, stdout=subprocess.PIPE, env=own, start_new_session=True)
            line = self._run.tool.stdout.readline().split()
        if len(line) != 2:
            self._run.end()
            raise StreamFault("vol_tool serve doesn't begin")
        self._link = http.client.HTTPConnection(HERE, int(line[1]), timeout=PATIENCE)

    def end(self) -> None:
        """Ends the server for good."""
        with self._life:
            self._is_over = True
            self.drop_link()
            self._drop()

    def _drop(self) -> None:
        """Ends the run of the program, where there is one."""
        if self._run is None:
            return
        if self._run.tool.poll() is None:
            with contextlib.suppress(ProcessLookupError):
                os.killpg(self._run.tool.pid, signal.SIGTERM)
            self._run.tool.wait()
        self._run.__exit__()
        self._run = None

    def drop_link(self) -> None:
        """Closes the connection; the next request opens another."""
        if self._link is not None:
            self._link.close()

    def _connect(self) -> http.client.HTTPConnection:
        """Connects to the server; one that nobody listens for has ended, or is about to."""
        if self._run is not None and self._link is not None and self._run.tool.poll() is None:
            with contextlib.suppress(ConnectionRefusedError):
                self._link.connect()
                return self._link
            self._run.tool.wait(PATIENCE)
        self.begin()
        assert self._link is not None
        self._link.connect()
        return self._link

    def _ask_once(self, method: str, target: str, fields: dict[str, str]) -> http.client.HTTPResponse:
        try:
            link = self._link if self._link is not None and self._link.sock is not None else self._connect()
            link.request(method, target, headers=fields)
            return link.getresponse()
        except (OSError, http.client.HTTPException):
            self.drop_link()
            raise

    def ask(self, method: str, target: str, fields: dict[str, str]) -> http.client.HTTPResponse:
        """
        The reply to a request; whoever has the turn calls it. A connection that was kept may have ended, and so may a server be about to
        that still takes one: then there are further tries.
        """
        for _ in range(FURTHER_TRIES):
            try:
                return self._ask_once(method, target, fields)
            except (OSError, http.client.HTTPException) as why:
                if isinstance(why, VolToolError):
                    raise
        return self._ask_once(method, target, fields)


class _Peer(http.server.BaseHTTPRequestHandler):
    """A request of the page: for itself, or for an object of the data set, which the program's server is asked for."""

    protocol_version = "HTTP/1.1"
    timeout = PATIENCE
    disable_nagle_algorithm = True
    server: _Front

    def do_GET(self) -> None:
        # Another site's page may have this address under a name of its own.
        host = urllib.parse.urlsplit(f"//{self.headers.get('Host', '')}").hostname
        target = self.path.partition("?")[0]
        if not self.server.is_own(host):
            self.send_error(403)
        elif target == "/":
            self._send_page()
        elif _TARGET.fullmatch(target):
            with self.server.served.turn:
                self._pass_on(target)
        else:
            self.send_error(404)

    do_HEAD = do_GET

    def log_message(self, *_: Any) -> None:
        pass

    def _send_fields(self, status: int, fields: dict[str, str]) -> None:
        self.send_response(status)
        for name, value in {**fields, "Cache-Control": "no-store", "Connection": "close"}.items():
            self.send_header(name, value)
        self.end_headers()

    def _send_page(self) -> None:
        content = self.server.content
        self._send_fields(200, {"Content-Type": "text/html; charset=utf-8", "Content-Length": str(len(content))})
        if self.command == "GET":
            self.wfile.write(content)

    def _pass_on(self, target: str) -> None:
        """Hands the reply of the program's server on, piece by piece. Where the page is gone its rest isn't waited for."""
        served = self.server.served
        asked = {name: self.headers[name] for name in ASKED_ON if name in self.headers}
        try:
            reply = served.ask(self.command, target, asked)
        except (OSError, http.client.HTTPException, subprocess.TimeoutExpired, VolToolError):
            self.send_error(502)
            return
        try:
            self._send_fields(reply.status, {name: reply.headers[name] for name in PASSED_ON if name in reply.headers})
            while piece := reply.read(1 << 16):
                self.wfile.write(piece)
        except (OSError, http.client.HTTPException):
            served.drop_link()


class _Front(socketserver.ThreadingTCPServer):
    """The page and the objects of a data set, for at most so many peers at once."""

    allow_reuse_address = True
    daemon_threads = True

    def __init__(self, address: str, port: int, served: _Served) -> None:
        self.content, self.served, self._address = page(), served, address
        self._room = threading.BoundedSemaphore(MOST_PEERS)
        self.address_family = socket.AF_INET6 if ":" in address else socket.AF_INET
        super().__init__((address, port), _Peer)

    def is_own(self, host: str | None) -> bool:
        """Whether a name is one under which the page is asked for; any is where all of the machine's addresses are served."""
        return self._address in ("0.0.0.0", "::") or host in (HERE, "localhost", self._address)

    def process_request(self, request: Any, client_address: Any) -> None:
        self._room.acquire()
        super().process_request(request, client_address)

    def process_request_thread(self, request: Any, client_address: Any) -> None:
        try:
            super().process_request_thread(request, client_address)
        finally:
            self._room.release()

    def handle_error(self, request: Any, client_address: Any) -> None:
        """A peer that is gone is no news."""


def _end(front: _Front, served: _Served) -> None:
    front.shutdown()
    front.server_close()
    served.end()


class PageServer:
    """
    A running server of the page and of a data set's files. `url` is the page's address.

    It serves until it is closed, or forgotten, or until Python ends; as a context it is closed at its end.
    """

    def __init__(self, place: Place, address: str, port: int, query: str) -> None:
        served = _Served(place)
        try:
            served.begin()
            front = _open_front(address, port, served)
        except BaseException:
            served.end()
            raise
        host = {"0.0.0.0": HERE, "::": "[::1]"}.get(address, f"[{address}]" if ":" in address else address)
        self.url = f"http://{host}:{front.server_address[1]}/{query}"
        self.close = weakref.finalize(self, _end, front, served)
        threading.Thread(target=front.serve_forever, args=(0.1,), daemon=True).start()

    def __enter__(self) -> PageServer:
        return self

    def __exit__(self, *_: object) -> None:
        self.close()

    def __repr__(self) -> str:
        return f"<page {self.url}>"

    def _repr_html_(self) -> str:
        return f'<a href="{self.url}" target="_blank">{self.url}</a>'


def _open_front(address: str, port: int, served: _Served) -> _Front:
    try:
        return _Front(address, port, served)
    except OverflowError:
        raise UsageError(f"a port is a number from 0 to 65535, and not {port}") from None
    except OSError as why:
        raise PortFault(f"port {port} of {address}: {why.strerror or why}; name another, or none for any free one") from None


@contextlib.contextmanager
def _until_ended() -> Iterator[threading.Event]:
    """Ctrl-C and the signals that end a program end what is waited for here."""
    ended = threading.Event()
    numbers = (signal.SIGINT, signal.SIGTERM, signal.SIGHUP) if threading.current_thread() is threading.main_thread() else ()
    before = {number: signal.signal(number, lambda *_: ended.set()) for number in numbers}
    try:
        yield ended
    finally:
        for number, handler in before.items():
            signal.signal(number, handler)


def serve_page(
    dataset: PathText, port: int = 0, *, key: str | None = None, open_browser: bool = False, address: str = HERE, wait: bool = True
) -> PageServer | None:
    """
    Serves the page of slices through the scales of a data set, a folder, with its files.

    The page is at `port` of `address`, any free one where that is 0, and shows the scale `key` at first. No other machine is let in unless
    `address` is one of this machine's that others reach. With `wait` the page's address is printed, and it is served until Ctrl-C, or a
    signal that ends programs, which gives None; without, the running server is given at once, whose `close` ends it.

    Raises BadInfo where there is no info, NoScale where it has no such key, PortFault where the port is taken, and UsageError.
    """
    place = place_of(dataset)
    info = Info.read(place.path / "info", f"{os.fspath(dataset)}/info")
    if key is not None:
        info.member_of(key)
    query = "" if key is None else f"?scale={urllib.parse.quote(key)}"
    with _until_ended() if wait else contextlib.nullcontext() as ended:
        server = PageServer(place, address, port, query)
        if open_browser:
            import webbrowser

            webbrowser.open(server.url)
        if ended is None:
            return server
        with server:
            print(server.url, flush=True)
            ended.wait()
    return None
