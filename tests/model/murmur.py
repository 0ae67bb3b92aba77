"""MurmurHash3_x86_128 for keys of any length, from Austin Appleby's public code (MurmurHash3.cpp of SMHasher)."""

MASK = 0xFFFFFFFF

# Of each of the four lanes: its factor, how far its word and itself are turned, and what is added.
FACTORS = (0x239B961B, 0xAB0E9789, 0x38B34AE5, 0xA1E38B93)
WORD_TURNS = (15, 16, 17, 18)
LANE_TURNS = (19, 17, 15, 13)
SUMMANDS = (0x561CCD1B, 0x0BCAA747, 0x96CD1C35, 0x32AC3B17)

# What the public test program has for this hash, over 256 keys of 0 to 255 bytes and 256 seeds.
VERIFICATION = 0xB3ECE62A


def turn(number, bits):
    return (number << bits | number >> (32 - bits)) & MASK


def scramble(word, lane):
    return turn(word * FACTORS[lane] & MASK, WORD_TURNS[lane]) * FACTORS[(lane + 1) % 4] & MASK


def finish(number):
    number ^= number >> 16
    number = number * 0x85EBCA6B & MASK
    number ^= number >> 13
    number = number * 0xC2B2AE35 & MASK
    return number ^ number >> 16


def mix(lanes):
    first = sum(lanes) & MASK
    return [first, *((lane + first) & MASK for lane in lanes[1:])]


def murmur3_x86_128(key, seed=0):
    lanes = [seed] * 4
    body = len(key) // 16 * 16
    for at in range(0, body, 16):
        for lane in range(4):
            word = int.from_bytes(key[at + 4 * lane : at + 4 * lane + 4], "little")
            turned = turn(lanes[lane] ^ scramble(word, lane), LANE_TURNS[lane])
            lanes[lane] = ((turned + lanes[(lane + 1) % 4]) * 5 + SUMMANDS[lane]) & MASK
    for lane in range(4):
        lanes[lane] ^= scramble(int.from_bytes(key[body + 4 * lane : body + 4 * lane + 4], "little"), lane)
    lanes = mix([finish(lane) for lane in mix([lane ^ len(key) for lane in lanes])])
    return b"".join(lane.to_bytes(4, "little") for lane in lanes)


def verification():
    hashes = b"".join(murmur3_x86_128(bytes(range(count)), 256 - count) for count in range(256))
    return int.from_bytes(murmur3_x86_128(hashes)[:4], "little")


def hash8(number):
    """The low eight bytes of the hash of the eight little-endian bytes of a number."""
    return int.from_bytes(murmur3_x86_128(number.to_bytes(8, "little"))[:8], "little")
