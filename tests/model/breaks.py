"""Segmentation chunks that are wrong in one way, each with the line that is due: three cells, of which the second is damaged."""
import itertools

from .segments import bytes_of, packed_words, words_of
from .shards import Sharding
from .volumes import Volume

DAMAGED_CELL = (1, 0, 0)

SHARDINGS = {"unsharded": None, "in a shard": Sharding(minishard_bits=1), "in one of 16 shards": Sharding(1, True, 2, 4)}

# Each form of three cells with each width, by its title. The last block has two voxels in the chunk, and the values ascend.
VOLUMES = {
    f"{form}, {width} bytes a value": Volume([10, 3, 2], [4, 3, 2], (-5, 0, 7), 2, width, (2, 2, 1), sharding)
    for (form, sharding), width in itertools.product(SHARDINGS.items(), (4, 8))
}


def ascending(volume):
    """The chunks of all cells with the values 1, 2, 3 and so on, or these times 2^33 + 1 where they are wide."""
    step = 1 if volume.width == 4 else 2**33 + 1
    raws = {cell: bytes_of([step * (at + 1) for at in range(volume.shape(cell).count())], volume.width) for cell in volume.cells}
    return {cell: volume.spell(cell, raw) for cell, raw in raws.items()}


# What is done to the words of a chunk, and with which number.
BREAKS = {
    "headers behind the end": ("channel", 0), "3 bits": ("bits", 3), "33 bits": ("bits", 33), "255 bits": ("bits", 255),
    "indices behind the end": ("values", 0), "a table behind the end": ("table", 0), "a table's second entry behind the end": ("table", 1),
}


def break_words(title, shape, words, channel, block):
    """Changes a word of a channel, or of a block of it, so that it leads one word behind the chunk, or says a number. Gives the line."""
    (part, number), head, left = BREAKS[title], words[channel] + 2 * block, len(words) - words[channel]
    if part == "channel":
        words[channel] = len(words) - 2 * len(shape.blocks()) + 1
        return f"seg channel {channel}"
    if part == "bits":
        words[head] = words[head] % 2**24 | number << 24
    elif part == "values":
        words[head + 1] = left - packed_words(shape.block_voxels(), words[head] >> 24) + 1
        return f"seg values {channel} {block}"
    else:
        words[head] = left - (number + 1) * (shape.width // 4) + 1 | words[head] >> 24 << 24
    return f"seg {part} {channel} {block} {number}"


def broken(volume, *breaks):
    """
    The damaged cell's chunk after breaks, each by its title, a channel, and whether it is in the last block or the first; and the
    line of each.
    """
    shape, words = volume.shape(DAMAGED_CELL), words_of(ascending(volume)[DAMAGED_CELL])
    last_block = len(shape.blocks()) - 1
    lines = [break_words(title, shape, words, channel, last_block if last else 0) for title, channel, last in breaks]
    return bytes_of(words), lines


def every_break(volume):
    """The title of each break, the damaged cell's chunk after it, and its line: also of chunks of other lengths."""
    for title, channel, last in itertools.product(BREAKS, (0, 1), (False, True)):
        chunk, (line,) = broken(volume, (title, channel, last))
        yield f"{title}, channel {channel}, {'last' if last else 'first'} block", chunk, line
    chunk, limit = ascending(volume)[DAMAGED_CELL], volume.limit(DAMAGED_CELL)
    for found in (0, 4, len(chunk) - 1):
        yield f"{found} bytes", chunk[:found], f"seg length {found}"
    for found in (limit + 1, limit + 4, limit + 4000):
        yield f"{found} bytes", chunk.ljust(found, b"\0"), too_long(volume, limit, found)


def too_long(volume, limit, found):
    return f"seg length {limit + 1}" if volume.sharding is None else f"chunk too long {found} limit {limit}"
