"""The list of writes that is made from a number, after the page of the generator, its sum, and the line that tells them."""
from .boxes import voxels_in
from .faults import printed
from .volumes import Values


def draws(state):
    """Gives what draws a number below a bound from the state."""

    def below(bound):
        nonlocal state
        state = (1103515245 * state + 12345) % 2**31
        return (state >> 8) % bound

    return below


def generated(volume, number, count):
    """The list: boxes with the bytes of their values."""
    below, writes, zeros = draws(number), [], bytes(volume.width - 1)
    for write in range(count):
        box = []
        for offset, size in zip(volume.offset, volume.size):
            begin = below(size)
            box.append((offset + begin, offset + begin + 1 + below(min(64, size - begin))))
        first, length = (number + 31 * write) % 256, voxels_in(box) * volume.channels
        values = (bytes(range(256)) * (length // 256 + 2))[first : first + length]
        writes.append((box, b"".join(bytes([value]) + zeros for value in values) if zeros else values))
    return writes


def sum_of(volume, writes):
    raw, width = Values(volume, writes).raw, volume.width
    return sum(sum(raw[byte::width]) << (8 * byte) for byte in range(width)) % 2**64


def answer(count, objects, total):
    """What the command ends with after so many writes that put objects of these bytes and leave this sum."""
    length = sum(map(len, objects))
    return printed(f"writes {count} objects {len(objects)} bytes {length} sum {total}")
