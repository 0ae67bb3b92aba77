"""
Servers that give the files of a folder by ranges: the proved ones; Python's, as it keeps connections, closes them, or knows no ranges;
nginx; and one of which a test says each reply.
"""
import contextlib
import dataclasses
import http.server
import os
import re
import socket
import socketserver
import subprocess
import threading
import time

from harness import LIMIT, ROOT, Wrong, find_tool
from model import spell
from peers import connect, reset

RANGE = re.compile(r"bytes=([0-9]+)-([0-9]+)")
HOST = "127.0.0.1"


def fetch_words(port, volume, box):
    """The words of vol_fetch for a box of a volume that this machine serves."""
    return [HOST, str(port), volume.dataset, volume.key, spell(box)]


def read_file(path):
    try:
        return path.read_bytes()
    except (OSError, ValueError):
        return None


@contextlib.contextmanager
def own(trial, words="serve d"):
    """A proved server of the data set d, for as many connections as it takes at most, by its port."""
    with trial.start(f"{words} --port=0 --connections=65536", stdout=subprocess.PIPE) as child:
        try:
            yield int(child.stdout.readline().removeprefix(b"listening "))
        finally:
            child.kill()


@contextlib.contextmanager
def running(handler, host=HOST, port=0, **members):
    """A server of Python's that runs beside a row, with members for its handlers."""
    with http.server.ThreadingHTTPServer((host, port), handler) as server:
        vars(server).update(members)
        threading.Thread(target=server.serve_forever, kwargs={"poll_interval": 0.01}, daemon=True).start()
        try:
            yield server
        finally:
            server.shutdown()


# Python's


class Handler(http.server.BaseHTTPRequestHandler):
    """A peer of a server that says nothing of itself."""

    protocol_version = "HTTP/1.1"
    disable_nagle_algorithm = True

    def log_message(self, *_):
        pass

    def reply(self, status, body, length=None, **fields):
        self.send_response(status)
        for name, value in {"Content-Length": len(body) if length is None else length, **fields}.items():
            self.send_header(name.replace("_", "-"), str(value))
        self.end_headers()
        if self.command == "GET":
            self.wfile.write(body)


class Plain(Handler):
    """One of a server that has a folder, and knows ranges or doesn't."""

    def do_GET(self):  # pylint: disable=invalid-name
        content = read_file(self.server.folder / self.path[1:])
        found = RANGE.fullmatch(self.headers.get("Range", "")) if self.server.knows_ranges else None
        if content is None:
            self.reply(404, b"no such file\n")
        elif found is None or self.command == "HEAD":
            self.reply(200, content)
        else:
            first, last = int(found[1]), min(int(found[2]), len(content) - 1)
            if first >= len(content):
                self.reply(416, b"", Content_Range=f"bytes */{len(content)}")
            else:
                self.reply(206, content[first : last + 1], Content_Range=f"bytes {first}-{last}/{len(content)}")

    do_HEAD = do_GET


class Closing(Plain):
    protocol_version = "HTTP/1.0"


@contextlib.contextmanager
def python(folder, handler=Plain, knows_ranges=True, **where):
    """Python's server of a folder, by its port."""
    with running(handler, folder=folder, knows_ranges=knows_ranges, **where) as server:
        yield server.server_port


# nginx

NGINX = """
daemon off; master_process off; pid {own}/pid; error_log {own}/errors;
events {{ worker_connections 64; }}
http {{
    access_log off; default_type application/octet-stream;
    client_body_temp_path {own}/body; proxy_temp_path {own}/proxy; fastcgi_temp_path {own}/fastcgi;
    uwsgi_temp_path {own}/uwsgi; scgi_temp_path {own}/scgi;
    {site}
}}
"""

PLAIN = "server {{ listen 127.0.0.1:{port}; root {folder}; }}"

# Where the site of the examples has what a row has elsewhere: ports, the server behind it, the certificate and its key.
SITE = ROOT / "examples/serving/site.conf"
PLACES = {"listen 80;": "listen 127.0.0.1:{port};", "listen 443": "listen 127.0.0.1:{tls}", "127.0.0.1:8080": "127.0.0.1:{behind}",
          "/etc/ssl/certs/volumes.pem": "{own}/cert", "/etc/ssl/private/volumes.key": "{own}/key"}  # fmt: skip
CERTIFICATE = "openssl req -x509 -newkey rsa:2048 -nodes -days 2 -subj /CN=localhost -keyout {own}/key -out {own}/cert"


def free_port():
    with socket.create_server((HOST, 0)) as door:
        return door.getsockname()[1]


def wait_for(port, child):
    begin = time.monotonic()
    while child.poll() is None and time.monotonic() < begin + LIMIT:
        with contextlib.suppress(ConnectionRefusedError):
            connect(port).close()
            return
        time.sleep(0.02)
    raise Wrong("nginx doesn't listen")


@contextlib.contextmanager
def started_nginx(own, port, site):
    """nginx with a site, and a folder of its own; a row without nginx is skipped."""
    program = find_tool("nginx")
    (own / "conf").write_text(NGINX.format(own=own, site=site))
    os.chmod(own, 0o777)
    command = [program, "-p", str(own), "-e", str(own / "errors"), "-c", str(own / "conf")]
    with subprocess.Popen(command, stdin=subprocess.DEVNULL, stdout=subprocess.DEVNULL, stderr=subprocess.DEVNULL) as child:
        try:
            wait_for(port, child)
            yield
        finally:
            child.kill()


@contextlib.contextmanager
def nginx(folder, own):
    """nginx's server of a folder, by its port."""
    own.mkdir()
    port = free_port()
    with started_nginx(own, port, PLAIN.format(port=port, folder=folder)):
        yield port


@contextlib.contextmanager
def site(behind, own):
    """nginx with the site of the examples in front of a server, by its ports without TLS and with it."""
    find_tool("openssl")
    own.mkdir()
    subprocess.run(CERTIFICATE.format(own=own).split(), check=True, capture_output=True)
    text, where = SITE.read_text(), {"port": free_port(), "tls": free_port(), "behind": behind, "own": own}
    for place, its_own in PLACES.items():
        if place not in text:
            raise Wrong(f"the site of the examples has no {place!r}")
        text = text.replace(place, its_own.format(**where))
    with started_nginx(own, where["port"], text):
        yield where["port"], where["tls"]


# A server of which a test says each reply

KEEP, CLOSE, RESET, HOLD = "keep", "close", "reset", "hold"


@dataclasses.dataclass(frozen=True)
class Request:
    """A request: its number among all, its bytes, its method and target, and the first and the last byte that it asks for, or None."""

    number: int
    head: bytes
    method: str
    target: str
    range: tuple | None


class Peer(socketserver.StreamRequestHandler):
    """A connection of a server that is told what to say."""

    disable_nagle_algorithm = True
    timeout = LIMIT

    def read_request(self):
        """The next request, or None."""
        head = b""
        while not head.endswith(b"\r\n\r\n"):
            line = self.rfile.readline()
            if not line:
                return None
            head += line
        method, target, rest = head.decode().split(" ", 2)
        found = RANGE.search(rest)
        with self.server.lock:
            request = Request(len(self.server.requests), head, method, target, found and (int(found[1]), int(found[2])))
            self.server.requests.append(request)
        return request

    def break_off(self):
        self.rfile.close()
        reset(self.request)

    def serve(self):
        while (request := self.read_request()) is not None:
            pieces, then = self.server.answer(request)
            for number, piece in enumerate(pieces):
                time.sleep(self.server.pause if number > 0 else 0)
                self.request.sendall(piece)
            if then == CLOSE:
                self.request.shutdown(socket.SHUT_WR)
            if then == RESET:
                self.break_off()
            # a peer that is kept says more, and another one until it lets go
            while then in (CLOSE, HOLD) and self.request.recv(65536):
                pass
            if then != KEEP:
                return

    def handle(self):
        with self.server.lock:
            self.server.connections += 1
        # a peer that goes takes no more
        with contextlib.suppress(OSError):
            self.serve()


class Breaking(Peer):
    def serve(self):
        self.break_off()


def telling(answer, peer=Peer, pause=0.001):
    """
    A server that is told what to say: `answer` says of each request in which pieces the reply comes, with pauses between them, and what then
    is: KEEP waits for the next one, CLOSE ends what is sent, RESET breaks the connection off, and HOLD says nothing more. All requests are
    noted.
    """
    return running(peer, answer=answer, pause=pause, lock=threading.Lock(), connections=0, requests=[])
