#!/usr/bin/env python3
"""The table of values that the tests of the crate murmur_hash compare with: the low eight bytes of the hash of the eight
little-endian bytes of a number, with seed 0, from the public algorithm (model/murmur.py).

    tests/murmur_table.py            prints the table as the test has it
    tests/murmur_table.py FILE       fails where FILE lacks one of its rows

Each run first computes the verification value that the public test program has for this hash, and fails on another.
"""
import pathlib
import sys

from model.murmur import VERIFICATION, hash8, verification


def numbers():
    yield from range(8)
    for bits in (7, 8, 15, 16, 24, 31, 32, 33, 40, 48, 56, 63):
        yield from (2**bits - 1, 2**bits)
    yield from (2**64 - 1, 0x0123456789ABCDEF)
    state = 1
    for _ in range(14):
        state = (state * 6364136223846793005 + 1442695040888963407) % 2**64
        yield state


if __name__ == "__main__":
    if verification() != VERIFICATION:
        sys.exit(f"this program isn't MurmurHash3_x86_128: verification {verification():#x}")
    rows = [f"(0x{number:016x}, 0x{hash8(number):016x})," for number in numbers()]
    text = pathlib.Path(sys.argv[1]).read_text(encoding="utf-8") if len(sys.argv) > 1 else "\n".join(rows)
    missing = [row for row in rows if row not in text]
    if missing:
        sys.exit("\n".join([f"rows missing in {sys.argv[1]}:", *missing]))
    print(f"{len(rows)} rows of {sys.argv[1]} are right" if len(sys.argv) > 1 else text)
