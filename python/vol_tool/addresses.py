"""Links as addresses over HTTP."""
from __future__ import annotations

import urllib.parse

from .errors import UsageError

BEGINNINGS = ("https://", "http://", "gs://", "precomputed://")
BUCKETS = "https://storage.googleapis.com/"


def is_link(text: str) -> bool:
    """Whether a text is a link, and no folder."""
    return text.startswith(BEGINNINGS)


def address_of(link: str) -> str:
    """
    A link as an address over HTTP, without a slash or `/info` behind it. Those of a bucket are at the store's own host.

    Raises UsageError where it is none.
    """
    text = link.removesuffix("|neuroglancer-precomputed:").removeprefix("precomputed://")
    text = text.rstrip("/").removesuffix("/info").rstrip("/")
    if text.startswith("gs://"):
        text = BUCKETS + text.removeprefix("gs://")
    try:
        parts = urllib.parse.urlsplit(text)
        is_fit = parts.scheme in ("http", "https") and bool(parts.hostname) and parts.port != 0
    except ValueError:
        is_fit = False
    if not is_fit:
        raise UsageError(f"{link} is no link: it begins with https://, http:// or gs://, or precomputed:// and one of these")
    if parts.query or parts.fragment or "@" in parts.netloc:
        raise UsageError(f"{link} has more than a volume's address: nothing behind ? or #, and no name or password, is taken")
    return text
