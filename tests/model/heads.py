"""
A plain model of a connection: the replies to a whole stream of requests, after docs/serving.md. What a head is, is one expression for a
request, and one for a reply: empty lines, the first line, field lines, an empty line (RFC 9112, sections 2 to 5, as `httparse` accepts
them); a target is UTF-8.
"""
import re

from .replies import ABSENT, BAD, MOST_HEAD, MOST_NAME, MOST_REQUESTS, NOT_ALLOWED, closing, head_of, no_part_of, part_of, whole_of

TOKEN = rb"[!#$%&'*+.^_`|~0-9A-Za-z-]+"
LINES = rb"\r?\n(?P<fields>(?:" + TOKEN + rb":[\t\x20-\x7e\x80-\xff]*\r?\n)*)\r?\n"
REQUEST = re.compile(rb"(?:\r?\n)*(?P<method>" + TOKEN + rb") (?P<target>[\x21-\x7e\x80-\xff]+) HTTP/1\.(?P<minor>[01])" + LINES)
REPLY = re.compile(rb"(?:\r?\n)*HTTP/1\.(?P<minor>[01]) (?P<status>[0-9]{3})(?: [\t\x20-\x7e\x80-\xff]*)?" + LINES)
SEGMENT = r"(?!\.{1,2}(?:/|$))[A-Za-z0-9_.-]+"
NAME = re.compile(rf"{SEGMENT}(?:/{SEGMENT})*")
RANGE = re.compile(rb"bytes=(?:([0-9]+)-([0-9]*)|-([0-9]+))", re.IGNORECASE)


class Head:
    """A head: what its first line has, by names; how long it is; and its fields' values, by their names in lower case."""

    def __init__(self, found):
        self.first, self.length, self.fields = found, found.end(), {}
        for line in found["fields"].split(b"\n")[:-1]:
            name, value = line.removesuffix(b"\r").split(b":", 1)
            self.fields.setdefault(name.lower().decode(), []).append(value.strip(b" \t"))

    def values(self, name):
        return self.fields.get(name, [])

    def closes(self):
        """Whether the connection is to end behind it."""
        members = (member for value in self.values("connection") for member in value.split(b","))
        return self.first["minor"] == b"0" or any(member.strip(b" \t").lower() == b"close" for member in members)


def read_head(received, kind):
    """The head of a kind that bytes begin with, or None."""
    found = kind.match(received)
    return None if found is None or found.end() > MOST_HEAD else Head(found)


def number_of(digits):
    """A number of any number of digits."""
    number = 0
    for digit in digits:
        number = 10 * number + digit - ord("0")
    return number


def object_of(target, objects, dataset):
    """The bytes of the object that a target names, or None."""
    name = target[1:]
    is_name = target[:1] == "/" and NAME.fullmatch(name) is not None and len(dataset) + 1 + len(name) <= MOST_NAME
    return objects.get(f"{dataset}/{name}") if is_name else None


def ranged(content, value):
    """The reply to a range of an object."""
    found = RANGE.fullmatch(value)
    if found is None:
        return whole_of(content)
    if found[3] is not None:
        count = number_of(found[3])
        if count == 0:
            return no_part_of(content)
        return part_of(content, max(0, len(content) - count), len(content) - 1) if content else whole_of(content)
    first, last = number_of(found[1]), number_of(found[2]) if found[2] else None
    if last is not None and last < first:
        return whole_of(content)
    if first >= len(content):
        return no_part_of(content)
    return part_of(content, first, len(content) - 1 if last is None else min(last, len(content) - 1))


def judged(head, target, objects, dataset):
    """The reply to a head, whichever request of its connection it is."""
    if head.values("transfer-encoding") or any(value != b"0" for value in head.values("content-length")):
        return BAD
    if head.first["method"] not in (b"GET", b"HEAD"):
        return NOT_ALLOWED
    content = object_of(target, objects, dataset)
    if content is None:
        return ABSENT
    if head.first["method"] == b"HEAD":
        return head_of("200 OK", len(content))
    ranges = head.values("range")
    return whole_of(content) if len(ranges) != 1 or "if-range" in head.fields else ranged(content, ranges[0])


def replies_to(stream, objects, dataset="d"):
    """All that is sent to a stream, and whether the last reply ends the connection."""
    sent = b""
    for number in range(1, MOST_REQUESTS + 1):
        head = read_head(stream, REQUEST)
        try:
            target = None if head is None else head.first["target"].decode()
        except UnicodeDecodeError:
            target = None
        if target is None:
            return (sent + BAD, True) if stream else (sent, False)
        reply = judged(head, target, objects, dataset)
        if reply == BAD:
            return sent + reply, True
        if head.closes() or number == MOST_REQUESTS:
            return sent + closing(reply), True
        sent, stream = sent + reply, stream[head.length :]
    raise AssertionError("the last request closes")
