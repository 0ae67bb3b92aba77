"""The bytes of requests and of their replies, after the page of serving."""

# What a request's head has at most, in bytes, and how many requests a connection has.
MOST_HEAD = 8192
MOST_REQUESTS = 65536

# How long the name of an object may be, with that of the data set and the `/` behind it.
MOST_NAME = 512

# How long a peer may take for a head, and for the first byte behind a reply, in seconds.
SILENCE = 10
PAUSE = 0.5


def ask(line, *fields):
    """The bytes of a request: its method and target, and its fields behind the host."""
    return "\r\n".join([f"{line} HTTP/1.1", "Host: a", *fields, "", ""]).encode()


def head_of(status, count, *lines):
    """The bytes of a reply's head: its status, the length of its body, and the lines behind those of every reply."""
    every = ["Content-Type: application/octet-stream", "Accept-Ranges: bytes", "Access-Control-Allow-Origin: *"]
    return "\r\n".join([f"HTTP/1.1 {status}", f"Content-Length: {count}", *every, *lines, "", ""]).encode()


def whole_of(content):
    return head_of("200 OK", len(content)) + content


def part_of(content, first, last):
    """The reply that has some bytes of an object, the last one among them."""
    body = content[first : last + 1]
    return head_of("206 Partial Content", len(body), f"Content-Range: bytes {first}-{last}/{len(content)}") + body


def closing(reply):
    """A reply that ends the connection."""
    return reply.replace(b"\r\n\r\n", b"\r\nConnection: close\r\n\r\n", 1)


def no_part_of(content):
    return head_of("416 Range Not Satisfiable", 0, f"Content-Range: bytes */{len(content)}")


ABSENT = head_of("404 Not Found", 0)
NOT_ALLOWED = head_of("405 Method Not Allowed", 0, "Allow: GET, HEAD")
BAD = closing(head_of("400 Bad Request", 0))
FAILED = closing(head_of("500 Internal Server Error", 0))
