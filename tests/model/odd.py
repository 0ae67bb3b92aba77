"""Info documents, streams of writes and replies at random: right ones, ones that are wrong in one or two places, and damaged bytes."""
import copy
import itertools
import json

from .boxes import bytes_of, head_of, stream_of
from .chance import choose, damage_bytes, pick_volume, pick_writes
from .fitting import LENGTH, ends_of
from .heads import REPLY, read_head
from .replies import MOST_HEAD
from .requests import FIELDS, TOP, pick_end
from .streams import MOST_WRITES


# Documents

# What a member may be that isn't as it is to be.
ODD_VALUES = [
    None, True, False, 0, 1, 2, 3, 64, 65, 25, 1024, 1025, -1, 2**24, 2**24 + 1, 2**31, 2**40, 2**40 + 1, -(2**40), -(2**40) - 1, 2**63,
    2**63 - 1, TOP, TOP + 1, -(2**63) - 1, 1.0, -0.0, 0.5, 1e300, "", "raw", "RAW", "Raw ", "gzip", "image", "segmentation", "uint8",
    "UINT64", "uInt32", "uint16", "uint128", "float32", "int64", "jpeg", "compresso", "compressed_segmentation",
    "Compressed_Segmentation", "\u212aaw", "neuroglancer_multiscale_volume", "neuroglancer_uint64_sharded_v1", "identity", "Identity",
    "murmurhash3_x86_128", "s", [], {}, [1], [1, 1], [1, 1, 1], [1, 1, 1, 1], [0, 1, 1], [1, 1, 0], [2, 2.0, 2], [1, "1", 1], [1, None, 1],
    [2**40, 1, 1], [1, 2**40 + 1, 1], [1, 1, 2**63], [-1, 1, 1], [-(2**40), 2**40, 0], [2**24 + 1, 1, 1], [2**27, 1, 1], [2**27 + 1, 1, 1],
    [[1, 1, 1]], [[2, 2, 2], [1, 1, 1]], [[1, 1]], [[1, 1, 1], 1], [[0, 1, 1]], [[1, 1, 1], [0, 1, 1]], [[2**40 + 1, 1, 1]], [[]],
    [[2**40] * 3], [[1, 1, 1.0]], ["a", 1, 1], [8.0, 8e0, -1.5],
]


# Of a member values at its limits and behind them.
EDGES = {
    "num_channels": [0, 1, 1024, 1025], "size": [[2**40, 1, 1], [1, 2**40 + 1, 1], [1, 1, 0]],
    "voxel_offset": [[2**40, 0, 0], [0, 2**40 + 1, 0], [0, 0, -(2**40)], [-(2**40) - 1, 0, 0], [2**63 - 1, 0, 0], [2**63, 0, 0]],
    "chunk_sizes": [
        [[2**40, 1, 1]], [[1, 1, 2**40 + 1]], [[0, 1, 1]], [], [[1, 1, 1], [2, 2, 2]], [[1, 0, 1], [2**41, 1, 1]],
        [[2, 3, 1]] * 8, [[1, 1, 1]] * 9, [[1, 1, 1]] * 8 + [[0, 1, 1]], [[2, 2, 2], [2**24, 1, 1], [2**24 + 1, 1, 1]],
    ],
    "data_type": ["uint8", "uint16", "UINT32", "uint64", "int8", "Int16", "FLOAT32", "uint65"], "type": ["image", "segmentation", "Image"],
    "encoding": ["raw", "RAW", "compressed_segmentation", "Compressed_segmentation", "jpeg", "raw "],
    "@type": ["neuroglancer_multiscale_volume", "neuroglancer_uint64_sharded_v1"],
    "compressed_segmentation_block_size": [[2**24, 1, 1], [1, 2**24 + 1, 1], [1, 1, 0], [2**12, 2**12, 1], [2**12, 2**12, 2], [8, 8, 8]],
    "sharding": [None, {}, []], "preshift_bits": [0, 64, 65], "hash": ["identity", "murmurhash3_x86_128", "IDENTITY"],
    "minishard_bits": [0, 24, 25], "shard_bits": [0, 40, 41, 61, 64, 65], "minishard_index_encoding": ["raw", "gzip", "Raw", ""],
    "data_encoding": ["raw", "gzip", "Gzip", None],
}


def places_in(info):
    """The holders of members that are read, each with the names that they may have."""
    yield info, ["@type", "type", "data_type", "num_channels", "scales"]
    scales = info.get("scales")
    for scale in scales if isinstance(scales, list) else []:
        if isinstance(scale, dict):
            names = "key size voxel_offset chunk_sizes resolution encoding compressed_segmentation_block_size sharding"
            yield scale, names.split()
            if isinstance(scale.get("sharding"), dict):
                names = "@type preshift_bits hash minishard_bits shard_bits minishard_index_encoding data_encoding"
                yield scale["sharding"], names.split()


def near(chance, value):
    """A value that is like another one."""
    if isinstance(value, bool) or value is None:
        return chance.choice([0, 1, "true", not value])
    if isinstance(value, int):
        return chance.choice([value + 1, value - 1, float(value), str(value), -value, [value]])
    if isinstance(value, str):
        return chance.choice([value.upper(), value.capitalize(), value + " ", value[1:], value[:-1], [value]])
    if isinstance(value, list) and value:
        at = chance.randrange(len(value))
        put = chance.choice([[], [near(chance, value[at])], [chance.choice(ODD_VALUES)], 2 * value[at : at + 1]])
        return [*value[:at], *put, *value[at + 1 :]]
    return chance.choice(ODD_VALUES)


def change_member(chance, info):
    """A member that is read is gone, or another; or there is one more."""
    *others, (holder, names) = places_in(info)
    if others and chance.random() < 0.5:
        holder, names = chance.choice(others)
    present = [name for name in names if name in holder]
    name = chance.choice(present if present and chance.random() < 0.8 else names)
    kind = chance.choice(["gone", "odd", "near", "edge", "edge"])
    if kind == "gone":
        holder.pop(name, None)
    elif kind == "near":
        holder[name] = near(chance, holder.get(name))
    else:
        holder[name] = copy.deepcopy(chance.choice(ODD_VALUES if kind == "odd" else EDGES.get(name, ODD_VALUES)))


def add_scale(chance, info):
    """Another scale, or what is none, in front of the one that is wanted or behind it."""
    scales = info.get("scales")
    if isinstance(scales, list):
        own = [{**scale, "encoding": "jpeg"} for scale in scales if isinstance(scale, dict)]
        other = chance.choice([{"key": "t"}, {}, None, "s", ["key", "s"], {"key": ["s"]}, {"key": "S"}, *own])
        scales.insert(chance.randrange(len(scales) + 1), other)


def widen(chance, info):
    """Sizes and chunks near the limits."""
    scales = info.get("scales")
    for scale in scales if isinstance(scales, list) else []:
        if isinstance(scale, dict):
            shifts = [chance.choice([0, 1, 2, 8, 9, 21, 22, 24, 27, 28, 40]) for _ in range(3)]
            scale["size"] = [2 ** chance.choice([shift, 40]) - chance.choice([0, 0, 1]) or 1 for shift in shifts]
            scale["chunk_sizes"] = [
                [2 ** max(0, shift - chance.choice([0, 3, 9])) + chance.choice([0, 0, 1]) for shift in shifts]
                for _ in range(chance.choice([1, 1, 1, 1, 2, 3]))
            ]
            if chance.random() < 0.3:
                info["num_channels"] = chance.choice([1, 2, 1023, 1024, 1025])


def repeat_member(chance, text):
    """A member stands twice, and of the two the last one counts."""
    name = chance.choice(["type", "size", "encoding", "sharding", "hash", "scales"])
    again = json.dumps(chance.choice(ODD_VALUES))
    return text.replace(f'"{name}":', f'"{name}": {again}, "{name}":', 1) if chance.random() < 0.5 else f'{text[:-1]}, "{name}": {again}}}'


# Bytes in the place of a value that no member reads: most of them are no JSON text.
ODD_TEXTS = [
    "1e400", "-1e400", "1e-400", "0e999999", "NaN", "Infinity", "-", "01", "1.", ".5", "+1", "1e", "0x1", "--1", "1" * 400, "9" * 308,
    '"\\ud800"', '"\\udc00"', '"\\ud800\\udc00"', '"\\ud800\\ud800"', '"\\\\ud800"', '"\\u12"', '"\\x41"', '"\\u0000"', '"\t"', '"\x7f"',
    '"\\/"', "'a'", '"a', "tru", "nul", "True", "null", "[1,]", "[,1]", "[1 2]", "{,}", '{"a"}', '{"a":}', "{1:2}", "[" * 100 + "]" * 100,
    "[" * 125 + "]" * 125, "[" * 126 + "]" * 126, "[" * 127 + "]" * 127, "[" * 200 + "]" * 200, "[" * 200, "/**/1", "1 //",
    "\u00e9", '"\u00e9"',
    '{"a": 1, "a": 2}',
]


def pick_info(chance):
    """The bytes of a document."""
    form = chance.random()
    volume = pick_volume(chance, is_raw=chance.random() < 0.5, in_shards=chance.random() < 0.5)
    info = json.loads(volume.info())
    if chance.random() < 0.3:
        info["@type"] = "neuroglancer_multiscale_volume"
    for scale in info["scales"]:
        if "sharding" in scale and chance.random() < 0.5:
            scale["sharding"].update(minishard_index_encoding="raw", data_encoding="raw")
        if chance.random() < 0.2:
            scale["chunk_sizes"] += [[chance.randint(1, 9) for _ in range(3)] for _ in range(chance.randint(1, 7))]
    if chance.random() < 0.2:
        widen(chance, info)
    for _ in range(chance.choice([0, 1, 1, 1, 1, 2, 3])):
        chance.choice([change_member, change_member, change_member, add_scale])(chance, info)
    text = json.dumps(info, indent=chance.choice([None, None, 2]), ensure_ascii=chance.random() < 0.5)
    if form < 0.1:
        text = repeat_member(chance, text)
    elif form < 0.2:
        text = f'{text[:-1]}, "unread": {chance.choice(ODD_TEXTS)}}}'
    content = text.encode()
    if 0.2 <= form < 0.3:
        return damage_bytes(chance, content)
    if 0.3 <= form < 0.34:
        padded = [content.ljust(2**20), content.ljust(2**20 + 1), b" \t\r\n" + content + b"\n"]
        return chance.choice([*padded, b"\xef\xbb\xbf" + content, content + b"\0"])
    return content


# Streams


def pick_number(chance, of):
    """A number that a begin or a size may have, as 64 bits."""
    return chance.choice([of + 1, of - 1, 0, 1, -1, 2**40, 2**63 - 1, 2**63, TOP, chance.getrandbits(64)]) % 2**64


def change_write(chance, box, values):
    """A write of which a number is another, or that has more or fewer values."""
    numbers = [begin for begin, _ in box] + [end - begin for begin, end in box]
    if chance.random() < 0.7:
        at = chance.randrange(6)
        numbers[at] = pick_number(chance, numbers[at])
    else:
        values = chance.choice([values[:-1], values + b"\1", b"", values[: chance.randrange(len(values) + 1)]])
    begins = [number - 2**64 if number >= 2**63 else number for number in (number % 2**64 for number in numbers[:3])]
    return bytes_of(begins, numbers[3:]) + values


def pick_stream(chance, volume):
    """The bytes of a stream of writes of a volume."""
    writes = pick_writes(chance, volume, chance.randint(0, 4))
    form = chance.random()
    if form < 0.2 or not writes:
        return stream_of(writes)
    if form < 0.6:
        at = chance.randrange(len(writes))
        pieces = [stream_of([write])[8:] for write in writes]
        pieces[at] = change_write(chance, *writes[at])
        count = chance.choice([len(writes)] * 6 + [len(writes) - 1, len(writes) + 1, MOST_WRITES, MOST_WRITES + 1, 2**32 - 1])
        return head_of(count) + b"".join(pieces)
    stream = stream_of(writes)
    if form < 0.8:
        return stream[: chance.randrange(len(stream) + 1)]
    return damage_bytes(chance, stream) if form < 0.9 else stream + chance.randbytes(chance.choice([1, 48, 100]))


# Replies

STATUSES = {True: ["200"] * 9 + ["404"] * 2, False: ["206"] * 9 + ["200"] * 5 + ["404"] * 2 + ["416"] * 2}
ODD_STATUSES = ["000", "100", "201", "204", "206", "302", "304", "400", "416", "500", "503", "20", "2000", "2 0", "", "x00"]
ODD_LINES = ["HTTP/1.0", "HTTP/1.0", "HTTP/2.0", "HTTP/1.2", "http/1.1", "HTTP/1.", "HTTP/1.1 ", " HTTP/1.1", "ICY", ""]
REASONS = [" ", "", " Partial Content", " \u00e9\t ", " \x01", "  a: b", "\tOK", " \x7f"]
REPLY_FIELDS = [
    *FIELDS, "Server: a", "Accept-Ranges: none", "Content-Encoding: identity", "content-encoding:IDENTITY ", "Content-Encoding: gzip",
    "Content-Encoding:", "Content-Encoding: identity, gzip", "Trailer: a", "Location: /s/y", "Content-Type: multipart/byteranges",
]


def pick_length(chance, length):
    """The fields that say a body's length: mostly one, and right."""
    others = [str(length + 1), str(max(0, length - 1)), f"00{length}", "0" * 60 + str(length), str(2**63), str(TOP)]
    digits = choose(chance, str(length), others, 8)
    odd = ["", f"+{length}", f"{length},{length}", f"-{length}", f"{length} 0", f"{length}.0", hex(length), "9" * 40, str(2**64 + length)]
    names = choose(chance, ["Content-Length"], [["content-LENGTH"], ["content-length"], [], ["Content-Length", "Content-length"]], 6)
    return [f"{name}:{choose(chance, ' ', ['', chr(9), '  '], 6)}{choose(chance, digits, odd, 12)}" for name in names]


def pick_place(chance, first, last, total):
    """The fields that say which part a body is: mostly one, and right."""
    numbers = [choose(chance, number, [number + 1, max(0, number - 1), 0, 2**64 + number, 10**50], 12) for number in (first, last, total)]
    first, last, total = (choose(chance, "", ["0", "0" * 30], 12) + str(number) for number in numbers)
    right = f"bytes {first}-{last}/{total}"
    odd = [
        f"bytes={first}-{last}/{total}", f"Bytes {first}-{last}/{total}", f"bytes  {first}-{last}/{total}", f"bytes {first}-{last}/*",
        f"bytes */{total}", f"bytes {first}-{last}", f"bytes {first}-{last}/{total}/", f"bytes {first}--{last}/{total}", "", "items 0-0/1",
    ]
    count = choose(chance, 1, [0, 2], 12)
    return [f"{choose(chance, 'Content-Range', ['content-range', 'CONTENT-RANGE'], 6)}: {choose(chance, right, odd, 10)}"] * count


def pick_reply(chance, asked, content):
    """The bytes of a reply to what is asked of an object with this content."""
    status = choose(chance, chance.choice(STATUSES[asked is LENGTH]), ODD_STATUSES, 12)
    part = b"" if asked is LENGTH else content[asked.first : asked.first + asked.count]
    body = {"200": content, "206": part, "404": chance.choice([b"", b"none\n"])}.get(status, b"")
    fields = pick_length(chance, len(body))
    if status == "206" or chance.random() < 0.05:
        fields += pick_place(chance, asked.first if asked else 0, (asked.first if asked else 0) + len(part) - 1, len(content))
    fields += [choose(chance, "Server: a", REPLY_FIELDS, 3) for _ in range(chance.choice([0, 0, 1, 1, 2]))]
    chance.shuffle(fields)
    line = f"{choose(chance, 'HTTP/1.1', ODD_LINES, 15)} {status}{choose(chance, ' OK', REASONS, 4)}"
    blank = choose(chance, "", ["\r\n", "\n", "\r\n\n\r\n", "\r", " "], 12)
    head = blank + "".join(text + pick_end(chance) for text in [line, *fields, ""])
    if asked is LENGTH:
        body = choose(chance, b"", [body, b"x"], 12)
    body = choose(chance, body, [body + b"x", body[:-1], body[: len(body) // 2], body * 2, b"x" * len(body), body[::-1]], 8)
    stream = head.encode("utf-8" if chance.random() < 0.9 else "latin-1") + body
    return damage_reply(chance, stream)


def damage_reply(chance, stream):
    """A reply, in one of six cases with other bytes, cut off, with bytes in front, or as long as a head may be."""
    form = chance.random()
    if form < 0.05:
        return damage_bytes(chance, stream)
    if form < 0.1:
        return stream[: chance.randrange(len(stream) + 1)]
    if form < 0.12:
        return chance.randbytes(chance.randint(1, 40)) + stream
    if form < 0.17 and b"\n" in stream:
        line, rest = stream.split(b"\n", 1)
        found = read_head(stream, REPLY)
        head = MOST_HEAD if found is None else found.length
        return line + b"\nX:" + b"a" * max(0, MOST_HEAD - head - 4 + chance.choice([-1, 0, 1, 100])) + b"\r\n" + rest
    return stream


def pick_reply_pieces(chance, asked, stream):
    """A reply in pieces; where bytes come behind it the last piece has them, and the end of the head."""
    head, _, end = ends_of(asked, stream)
    if end is None or end > len(stream):
        end = len(stream)
    elif end < len(stream):
        end = head.length
    if chance.random() < 0.5 or len(stream) < 2:
        return [stream]
    cuts = sorted({0, len(stream), *(chance.randrange(1, end) for _ in range(chance.randint(1, 4)))})
    return [stream[begin:finish] for begin, finish in itertools.pairwise(cuts)]
