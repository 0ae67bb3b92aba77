"""How far something is, by tqdm on a terminal where that is installed."""
from __future__ import annotations

import sys
from typing import Any, Protocol

from .packages import have, need


class Bar(Protocol):
    """What tells how far something is."""

    def update(self, count: int) -> object: ...

    def close(self) -> object: ...


class Silent:
    """Tells nothing."""

    def update(self, count: int) -> None:
        """So many more are done."""

    def close(self) -> None:
        """It is over."""


def bar(what: str, total: int, done: int = 0, unit: str = "B", progress: bool | None = None) -> Bar:
    """
    A bar of tqdm's on standard error, of so many bytes or others in all.

    `progress` is whether it is shown; where it is None it is on a terminal alone, and only where tqdm is installed. Raises MissingPackage
    where it is wanted and isn't.
    """
    is_shown = sys.stderr.isatty() and have("tqdm") if progress is None else progress
    if not is_shown:
        return Silent()
    options: dict[str, Any] = {"unit": unit, "unit_scale": unit == "B", "unit_divisor": 1024, "leave": False, "desc": what}
    return need("tqdm", "a bar of progress").tqdm(total=total, initial=done, **options)
