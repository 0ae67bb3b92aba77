"""A plain model of segmentation chunks, after docs/format.md: voxel by voxel, and word by word."""
import dataclasses
import itertools
import math

from .faults import Damaged

BITS = [0, 1, 2, 4, 8, 16, 32]


@dataclasses.dataclass(frozen=True)
class Shape:
    """The sizes of a chunk and of its blocks in voxels, its channels, and the bytes of a value: 4 or 8."""

    size: tuple
    block: tuple
    channels: int
    width: int

    def blocks(self):
        """The first voxel of each block, x fastest."""
        x, y, z = (range(0, size, step) for size, step in zip(self.size, self.block))
        return [(i, j, k) for k in z for j in y for i in x]

    def block_voxels(self):
        return math.prod(self.block)

    def voxels_of(self, channel, begin):
        """The voxels of a block: the number of each one's value in the chunk, and in the block."""
        x, y, z = (range(first, min(first + step, size)) for first, step, size in zip(begin, self.block, self.size))
        for k, j, i in itertools.product(z, y, x):
            place = i + self.size[0] * (j + self.size[1] * (k + self.size[2] * channel))
            yield place, i - begin[0] + self.block[0] * (j - begin[1] + self.block[1] * (k - begin[2]))

    def count(self):
        return math.prod(self.size) * self.channels


def words_of(chunk, width=4):
    """The words of bytes, or numbers of another width."""
    return [int.from_bytes(chunk[at : at + width], "little") for at in range(0, len(chunk), width)]


def bytes_of(words, width=4):
    return b"".join(word.to_bytes(width, "little") for word in words)


def number_of(words):
    return int.from_bytes(bytes_of(words), "little")


def packed_words(voxels, bits):
    """How many words the indices of a whole block have."""
    return -(-voxels * bits // 32)


def pack(shape, bits, indices):
    """The words of the indices of a block, by the numbers of its voxels."""
    packed = sum(index << (number * bits) for number, index in indices.items())
    return words_of(packed.to_bytes(4 * packed_words(shape.block_voxels(), bits), "little"))


def encode_channel(shape, values, channel):
    blocks = shape.blocks()
    headers, behind, tables = [], [], {}
    for begin in blocks:
        own = {number: values[place] for place, number in shape.voxels_of(channel, begin)}
        table = tuple(sorted(set(own.values())))
        index = {value: place for place, value in enumerate(table)}
        bits = next(bits for bits in BITS if len(table) <= 2**bits)
        indices = 2 * len(blocks) + len(behind)
        behind += pack(shape, bits, {number: index[value] for number, value in own.items()})
        if table not in tables:
            tables[table] = 2 * len(blocks) + len(behind)
            behind += words_of(bytes_of(table, shape.width))
        headers += [tables[table] | bits << 24, indices]
    return headers + behind


def encode(shape, raw):
    """This project's spelling of the values of raw bytes."""
    values = words_of(raw, shape.width)
    channels = [encode_channel(shape, values, channel) for channel in range(shape.channels)]
    starts = itertools.accumulate(map(len, channels[:-1]), initial=shape.channels)
    return bytes_of([*starts, *itertools.chain(*channels)])


def decode_block(shape, words, channel, number, begin, start, found):
    """Puts the values of a block of a channel that starts at a word."""
    head, indices = words[start + 2 * number : start + 2 * number + 2]
    table, bits = head & 0xFFFFFF, head >> 24
    if bits not in BITS:
        raise Damaged(f"seg bits {channel} {number} {bits}")
    first = start + indices
    count = packed_words(shape.block_voxels(), bits)
    if bits and first + count > len(words):
        raise Damaged(f"seg values {channel} {number}")
    packed = number_of(words[first : first + count])
    half = shape.width // 4
    for place, own in shape.voxels_of(channel, begin):
        entry = start + table + half * (packed >> (own * bits) & (2**bits - 1))
        if entry + half > len(words):
            raise Damaged(f"seg table {channel} {number} {own}")
        found[place] = number_of(words[entry : entry + half])


def decode(shape, chunk):
    words = words_of(chunk[: len(chunk) // 4 * 4])
    if len(chunk) % 4 or len(words) < shape.channels:
        raise Damaged(f"seg length {len(chunk)}")
    found = [0] * shape.count()
    blocks = shape.blocks()
    for channel in range(shape.channels):
        start = words[channel]
        if start + 2 * len(blocks) > len(words):
            raise Damaged(f"seg channel {channel}")
        for number, begin in enumerate(blocks):
            decode_block(shape, words, channel, number, begin, start, found)
    return bytes_of(found, shape.width)


# Another program's spelling.


def spell_block(chance, shape, own):
    """A block's bits, and the words of its indices and of its table: values in any order, also twice, and any padding."""
    table = list(set(own.values())) + chance.choices(list(own.values()), k=chance.randint(0, 2))
    chance.shuffle(table)
    bits = chance.choice([bits for bits in BITS if len(table) <= 2**bits])
    indices = (table.index(own[number]) if number in own else chance.getrandbits(32) for number in range(shape.block_voxels()))
    packed = pack(shape, bits, {number: index % 2**bits for number, index in enumerate(indices)})
    return bits, packed, words_of(bytes_of(table, shape.width))


def spell_loosely(chance, shape, raw):
    """The values of raw bytes with all headers in front, and behind them indices and tables in any order, with gaps."""
    values, blocks = words_of(raw, shape.width), shape.blocks()
    spelled = []
    for channel, begin in itertools.product(range(shape.channels), blocks):
        own = {number: values[place] for place, number in shape.voxels_of(channel, begin)}
        spelled.append(spell_block(chance, shape, own))
    parts = [(number, which) for number in range(len(spelled)) for which in (1, 2)]
    chance.shuffle(parts)
    starts = [shape.channels + 2 * len(blocks) * channel for channel in range(shape.channels)]
    words = starts + [0] * (2 * len(spelled))
    for number, which in parts:
        words += [chance.getrandbits(32)] * chance.choice([0, 0, 0, 1])
        header, place = shape.channels + 2 * number, len(words) - starts[number // len(blocks)]
        words[header + 2 - which] = place | spelled[number][0] << 24 if which == 2 else place
        words += spelled[number][which]
    return bytes_of(words)
