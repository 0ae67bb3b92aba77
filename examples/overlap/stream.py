#!/usr/bin/env python3
"""
Writes a stream of three overlapping boxes to the standard output, for the dataset `d` beside this script: one scale,
`s`, of 8 x 5 x 1 voxels and two channels.

In channel 0 the boxes have the values 1, 2 and 3, in channel 1 the values 10, 20 and 30.
"""
import struct
import sys

# The begin and the size of each box, x first.
BOXES = [
    ((0, 0, 0), (8, 3, 1)),
    ((2, 1, 0), (4, 4, 1)),
    ((5, 2, 0), (2, 2, 1)),
]


def write_of(begin, size, number):
    """One write: its box, and then the values of all its voxels in channel 0, then in channel 1."""
    voxels = size[0] * size[1] * size[2]
    values = bytes([number] * voxels + [10 * number] * voxels)
    return struct.pack("<3q3Q", *begin, *size) + values


def main():
    writes = [write_of(begin, size, number) for number, (begin, size) in enumerate(BOXES, 1)]
    sys.stdout.buffer.write(b"PVW1" + struct.pack("<I", len(writes)) + b"".join(writes))


if __name__ == "__main__":
    main()
