"""
A plain model of a client that reads objects over HTTP: which bytes are the reply to what was asked of an object, and what they say (RFC
9110, sections 8.4, 8.6, 14.4 and 15; RFC 9112, sections 2 to 6). Limits, and what isn't read, are this project's own. Nothing but the bytes
of a whole reply is looked at.
"""
import re
import typing

from .heads import REPLY, number_of, read_head
from .replies import MOST_HEAD

DIGITS = re.compile(rb"[0-9]+")
PART = re.compile(rb"bytes ([0-9]+)-([0-9]+)/([0-9]+)")

# How many bytes a body may have that isn't the part that was asked for.
MOST_UNASKED = 2**30


class Asked(typing.NamedTuple):
    """What is asked of an object: so many bytes from a place on, or, by `HEAD`, its length."""

    first: int
    count: int


LENGTH = None


class Reply(typing.NamedTuple):
    """What a reply says, a length or bytes, or None where there is no object; and whether the connection ends behind it."""

    says: object
    closes: bool


def length_told(head):
    """The one length that a head says, of the object as it is; or None."""
    lengths = head.values("content-length")
    if any(coding.lower() != b"identity" for coding in head.values("content-encoding")) or head.values("transfer-encoding"):
        return None
    if len(lengths) != 1 or DIGITS.fullmatch(lengths[0]) is None:
        return None
    length = number_of(lengths[0])
    return length if length < 2**64 else None


def is_part(head, asked, length):
    """Whether a head's one range is what was asked for, as far as the object reaches, and has this length."""
    ranges = head.values("content-range")
    found = PART.fullmatch(ranges[0]) if len(ranges) == 1 else None
    if found is None:
        return False
    first, last, total = map(number_of, found.groups())
    end = min(asked.first + asked.count, total)
    return asked.first == first <= last == end - 1 and length == end - first


def said(head, asked, length, body):
    """What a reply says, in a list of one; none where it doesn't fit what was asked."""
    status = head.first["status"]
    if asked is LENGTH:
        return {b"200": [length], b"404": [None]}.get(status, [])
    if status == b"206":
        return [body] if is_part(head, asked, length) else []
    if length > MOST_UNASKED:
        return []
    return {b"200": [body[asked.first : asked.first + asked.count]], b"404": [None], b"416": [b""]}.get(status, [])


def ends_of(asked, received):
    """The head that bytes begin with, the length that it says, and where the reply ends; or three times None."""
    head = read_head(received, REPLY)
    length = None if head is None else length_told(head)
    return (None, None, None) if length is None else (head, length, head.length + (0 if asked is LENGTH else length))


def fitting(asked, received):
    """The reply that these bytes are to what was asked, with nothing in front and nothing behind; or None."""
    head, length, end = ends_of(asked, received)
    if end != len(received):
        return None
    says = said(head, asked, length, received[head.length :])
    return Reply(says[0], head.closes()) if says else None


def taken(asked, stream):
    """
    What a client receives of a stream that comes at once: at most the longest head's length before it knows the reply's, and then no
    more than the reply has.
    """
    _, _, end = ends_of(asked, stream)
    return stream[: max(MOST_HEAD, end or 0)]
