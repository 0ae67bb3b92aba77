"""What runs end with: their statuses, and the one line that each fault has."""

OK, USAGE, INFO, REQUEST, DAMAGED, STORE, FEED, OUTPUT, MEMORY, DOOR = range(10)

# What a line of standard error begins with, by its status; each other line is of a request that is refused.
BEGINS = {
    USAGE: ("usage",), INFO: ("info of ",), DAMAGED: ("damaged ", "misplaced ", "shard ", "conflict "), STORE: ("store fault",),
    FEED: ("feed fault",), OUTPUT: ("output fault",), MEMORY: ("out of memory",), DOOR: ("door fault",),
}


class Damaged(Exception):
    """A fault of a chunk, or on the way to it, as it is told."""


def refused(line, output=b""):
    """What a run ends with that tells a fault, and has printed so much before."""
    status = next((status for status, begins in BEGINS.items() if line.startswith(begins)), REQUEST)
    return status, output, f"{line}\n".encode()


def printed(output):
    """What a run ends with that prints bytes, or a line."""
    return OK, f"{output}\n".encode() if isinstance(output, str) else bytes(output), b""


def stored(objects, cells):
    """What a write or a copy ends with that stores so many objects, and cells in them."""
    return printed(f"objects {objects} cells {cells}")


def damaged(cell, fault, number=0):
    """The line of a fault of a cell, of a further chunk size with its number."""
    return f"damaged {f'in {number} ' if number else ''}{','.join(map(str, cell))}: {fault}"
