"""Streams of requests at random, some wrong, damaged, cut off or as long as a head may be; and what is sent to them."""
from .chance import choose, damage_bytes
from .heads import replies_to
from .replies import MOST_HEAD

TOP = 2**64 - 1

METHODS = ["HEAD", "HEAD", "HEAD", "POST", "get", "G\tET", "GE(T", "", "M-SEARCH", "GET ", " GET"]
TARGETS = [
    "/s/y", "/info", "/", "/../x", "//s/x", "s/x", "*", "/s/x?y", "/s/%78", "/s/x/", "/s/\u00e9", "/s/./x", "/s/../s/x", "/s", "/s/",
    "/s/x.part", "http://a/s/x", "/s/" + "x" * 600, "/s/\x7f", "/s/ x", "", "/s/.../x", "/..", "/.", "/s/x\t",
]
VERSIONS = ["HTTP/1.0", "HTTP/1.0", "HTTP/2.0", "HTTP/1.1 ", "HTTP/1.", "http/1.1", "HTTP/1.2", "", "HTTP/1.10"]
FIELDS = [
    "If-Range: x", "if-RANGE:", "Connection: close", "Connection: Keep-Alive, CLOSE", "connection: keep-alive, closed",
    "Connection: ,close,", "Connection:\tclose \t", "Connection: clo se", "Transfer-Encoding: chunked", "transfer-encoding:",
    "Content-Length: 5", "content-length:  0\t", "Content-Length: 00", "Content-Length: 0", "Content-Length:", "X-Empty:", "Bad name: x",
    " folded", "X : 1", ": x", "X", "X: \u00e9", "X: \x01", "X: a\tb", "X: \x7f", "X:\x00", "Host: b", "X-" + "y" * 300 + ": z",
]
UNITS = ["BYTES=", "\t bytes=00", "items=", "bytes= ", "bytes", "bytes =", "=", "bytes=-", "bytes=1,"]


def pick_end(chance, seldom=1):
    return choose(chance, "\r\n", ["\n"] * 9 + ["\r", "\r\r\n", "\n\r"], 8 * seldom)


def pick_digits(chance):
    small = str(chance.randrange(16))
    large = [str(chance.randrange(200_000)), str(TOP + chance.randint(-2, 2)), "9" * chance.randint(1, 60)]
    return chance.choice(["", "0", small, small, "0" * 30 + small, *large])


def pick_range(chance):
    tail = choose(chance, "", [",0-1", " \t", "-", "a", ".0"], 10)
    name, unit = choose(chance, "Range", ["range", "RANGE", "Range "], 8), choose(chance, "bytes=", UNITS, 6)
    return f"{name}:{unit}{pick_digits(chance)}-{pick_digits(chance)}{tail}"


def pick_head(chance, targets, seldom):
    """The bytes of a head, which may be none: once in so many times of those where it often is."""
    method = choose(chance, chance.choice(["GET", "GET", "GET", "HEAD"]), METHODS, 6 * seldom)
    target, version = choose(chance, chance.choice(targets), TARGETS, 3 * seldom), choose(chance, "HTTP/1.1", VERSIONS, 6 * seldom)
    fields = [
        pick_range(chance) if chance.random() < 0.5 else choose(chance, "Host: a", FIELDS, 4 * seldom) for _ in range(chance.randint(0, 4))
    ]
    blank = choose(chance, "", ["\r\n", "\n", "\r\n\n\r\n", "\r", " "], 10 * seldom)
    lines = [f"{method} {target} {version}", *fields, ""]
    return (blank + "".join(text + pick_end(chance, seldom) for text in lines)).encode("utf-8" if chance.random() < 0.9 else "latin-1")


def pick_requests(chance, targets, count, seldom=1):
    """A stream of so many requests for some targets, or in one of four cases a damaged one."""
    stream = b"".join(pick_head(chance, targets, seldom) for _ in range(count))
    form = chance.random()
    if form < 0.15:
        return damage_bytes(chance, stream)
    if form < 0.2:
        begin = b"GET /s/x HTTP/1.1\r\nX: "
        return begin + b"a" * (MOST_HEAD + chance.choice([-1, 0, 1, 100]) - len(begin) - 4) + b"\r\n\r\n" + stream
    return chance.randbytes(chance.randint(1, 40)) + stream if form < 0.25 else stream


def pick_stream(chance, objects):
    """A stream of requests for objects, by their targets, and all that is sent to it."""
    stream = pick_requests(chance, list(objects), chance.choice([0, 1, 1, 2, 3, 5, 12]), 6)
    return stream, replies_to(stream, {f"d{target}": content for target, content in objects.items()})[0]


def cut_at_random(chance, stream, longest=2**20):
    """The pieces of a stream: all at once, cut at some places, or byte by byte, where it isn't longer than this."""
    count = chance.choice([0, 1, 2, 5, len(stream) if len(stream) <= longest else 3])
    inside = range(1, len(stream))
    places = [0, *sorted(chance.sample(inside, min(count, len(inside)))), len(stream)]
    return [stream[begin:end] for begin, end in zip(places, places[1:])]
