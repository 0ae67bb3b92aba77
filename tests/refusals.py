#!/usr/bin/env python3
"""Runs the built vol_tool on bad input: each gives its named refusal and nothing else.

    tests/refusals.py [PROGRAM]

The output is empty, but where a cutout breaks off: then it has what lies below the layer of chunks that is damaged or can't be read.
"""
import itertools
import struct

from harness import DEVICE, FOLDER, LOOP, NO_OUTPUTS, PIPE, answers, main, open_folder
from model import SEGMENTED, SHARDING, box_in, bytes_of, head_of, info_of, printed, refused, shard_of, stream_of
from model.small import (
    FAR, FIRST, INFO_PATH, LOW, NO_CHUNKS, NO_FOLDER, SECOND, VALUES, WHOLE, changed, deep_info, padded, shards, wide_info, with_info,
    with_next,
)

CUT = ["cutout", "d", "s"]
WRITE = ["write", "d", "s"]
VERIFY = ["verify", "d", "s"]
UPDATE = ["update", "d", "s"]

# The words of each command that reads the scale s, and what each of them is.
COMMANDS = [
    ([*CUT, WHOLE], "dataset key box"), (VERIFY, "dataset key"),
    ([*VERIFY, FAR], "dataset key box"), (WRITE, "dataset key workers"),
    (UPDATE, "dataset key workers"), (["generate", "d", "s", "7", "1"], "dataset key number number workers"),
    (["reshard", "d", "s", "e", "t"], "dataset key dataset key workers"),
    (["downsample", "d", "s", "t", "--method=mean"], "dataset key key method workers"),
]

# Words of each kind that are none, and options that are none of any command.
NONE = {
    "dataset": ["", "../d", "d/../d", "/d", "d/", "d//d", "-d", "d" * 201, b"\xff"],
    "key": ["", "..", "../s", ".", "s//s", "s s", "-s", "s" * 201, "é"],
    "box": ["[0:4, 0:2,0:1]", " [0:4,0:2,0:1]", "[0:4,0:2,0:1]\n", "[0:1,0:1]", "[0:1,0:1,0:1,0:1]", "0:4,0:2,0:1", "", "[-0:4,0:2,0:1]",
        "[0:4,01:2,0:1]", "[0:4,0:+1,0:1]", "[0:4,1:1,0:1]", "[0:4,2:1,0:1]", "[0:2199023255553,0:2,0:1]",
        "[-2199023255553:4,0:2,0:1]", "[0:18446744073709551616,0:2,0:1]", f"--box={WHOLE}"],
    "number": ["", "-1", "01", "+1", "1.0", "2147483648"],
    "method": ["--method", "--method=", "--method=Mean", "--method=median", "--method=mean ", "-method=mean", "mean"],
    "workers": [
        "--workers=0", "--workers=17", "--workers=01", "--workers=+1", "--workers=", "--workers", "--workers 1", "--workers=1 --workers=1"],
    "options": ["x", "", WHOLE, b"\xff", "--port=1", "--connections=1", "-w", "--", "--help", "--method=mode"],
}

GOOD_WORDS = [words for words, _ in COMMANDS] + [[*VERIFY, WHOLE]]


def spoiled(words, kinds):
    """Command lines that are none: with a word less or more, or with one that is none in the place of another."""
    command, *others = words
    yield from (words[:count] for count in range(1, len(words)))
    yield from ([command.upper(), *others], ["--workers=1", *words], [*words, words[-1]])
    for place, kind in enumerate(kinds.split(), 1):
        if kind == "workers":
            yield from ([*words, *options.split()] for options in NONE[kind])
        else:
            yield from ([*words[:place], none, *words[place + 1 :]] for none in NONE[kind])
    yield from ([*words, option] for option in NONE["options"])
    if "workers" not in kinds:
        yield [*words, "--workers=1"]


def no_commands():
    """Command lines that are none, each once."""
    no_method = ["downsample", "d", "s", "t"]
    lines = [
        [], ["--help"], ["cut", "d", "s", WHOLE], ["--method=mean", *no_method], [*no_method, "--method", "mean"],
        ["downsample", "d", "s", "--method=mean"],
        *itertools.chain(*(spoiled(words, kinds) for words, kinds in COMMANDS)),
    ]
    return [words for number, words in enumerate(lines) if words not in GOOD_WORDS and words not in lines[:number]]


# title, the info document or what is changed, what every command tells of it
INFOS = [
    ("that is missing", None, "absent"), ("that is a folder", FOLDER, "absent"),
    ("that is a link to itself", LOOP, "store fault"), ("that is a pipe", PIPE, "store fault"),
    ("that is empty", b"", "not json"), ("of 2 MiB", b" " * 2**21, "too long"),
    ("of 2^20 + 1 bytes", b" " * (2**20 + 1), "too long"), ("of 2^20 bytes", b" " * 2**20, "not json"),
    ("that isn't UTF-8", b'{"type":"\xff"}', "not json"), ("that isn't JSON", b"{'type': 'image'}", "not json"),
    ("cut off", info_of([4, 2, 1], [2, 2, 1])[:-1], "not json"), ("that is an array", b"[]", "root wrong kind"),
    ("that is an empty object", b"{}", "type missing"), ("with a size of 0", with_info(size=[4, 2, 0]), "size bad value"),
    ("with another @type", with_info({"@type": "x"}), "@type bad value"),
    ("with a type that is none", with_info({"type": "mesh"}), "type bad value"),
    ("with a data type of floats", with_info({"data_type": "float32"}), "unsupported data_type"),
    ("without channels", with_info({"num_channels": 0}), "num_channels bad value"),
    ("with 1,025 channels", with_info({"num_channels": 1025}), "limit num_channels"),
    ("with scales that are no array", with_info({"scales": {}}), "scales wrong kind"),
    ("with a size of 2^40 + 1", with_info(size=[2**40 + 1, 2, 1]), "limit size"),
    ("with a size that is a float", with_info(size=[4.0, 2, 1]), "size wrong kind"),
    ("with an offset of text", with_info(voxel_offset="0"), "voxel_offset wrong kind"),
    ("with an offset beyond 2^40", with_info(voxel_offset=[-(2**40) - 1, 0, 0]), "limit voxel_offset"),
    ("with nine chunk sizes", with_info(chunk_sizes=9 * [[2, 2, 1]]), "limit chunk_sizes"),
    ("with two chunk sizes, in shards", with_info(chunk_sizes=[[2, 2, 1], [4, 2, 1]], **shards()), "unsupported chunk_sizes"),
    ("with a resolution of two", with_info(resolution=[8, 8]), "resolution wrong kind"),
    ("with an encoding of pictures", with_info(encoding="jpeg"), "unsupported encoding"),
    ("with segmented bytes", with_info(encoding="compressed_segmentation"), "encoding bad value"),
    ("with gzip in shards", with_info(**shards(data_encoding="gzip")), "unsupported data_encoding"),
    ("with a chunk of more than 2^27 bytes", with_info(size=[512, 512, 513], chunk=[512, 512, 513]), "limit chunk_bytes"),
    ("with a resolution beyond floating point", info_of([4, 2, 1], [2, 2, 1]).replace(b"[8, 8, 40]", b"[8, 8, 1e400]"), "not json"),
    ("with 1,024 channels of 131,073 bytes", deep_info(131073), "limit chunk_bytes"),
    ("with 2^24 + 2 padded voxels", padded(2**23 + 1, 2), "limit padded"),
    ("of a sharded segmentation of 96 bits, with 2^24 + 1 padded voxels", wide_info(), "limit morton_bits"),
]

# Chunks of segmentations of 64 bits, each with one block of 8 x 8 x 8: 7 and 9 in turn along x, and indices of 3 bits.
SEVEN_NINE = struct.pack("<3I16I4I", 1, 0x01000012, 2, *[0xAAAAAAAA] * 16, 7, 0, 9, 0)
BAD_BITS = struct.pack("<3I", 1, 0x03000002, 2)

SHARD = "d/s/0.shard"
WIDE = {"data_type": "uint64"}
LARGE = "[0:1024,0:1024,0:1025]"
CUBE = f"[0:{2**40},0:{2**40},0:{2**40}]"

# title, what is changed, the line of each command that reads both chunks
CELLS = [
    ("a short chunk", {FIRST: b"123"}, "damaged 0,0,0: chunk length 3 wanted 4"),
    ("a chunk of a byte more", {FIRST: b"12345"}, "damaged 0,0,0: chunk length 5 wanted 4"),
    ("an empty chunk", {FIRST: b""}, "damaged 0,0,0: chunk length 0 wanted 4"),
    ("faults in both cells", {SECOND: b"", FIRST: b"1"}, "damaged 0,0,0: chunk length 1 wanted 4"),
    ("a chunk that is a link to itself", {SECOND: LOOP}, "store fault"), ("a chunk that is a pipe", {SECOND: PIPE}, "store fault"),
    ("a chunk that is a device", {FIRST: DEVICE}, "store fault"),
    ("a shard that is a pipe", {**with_info(sharding=SHARDING), SHARD: PIPE}, "store fault"),
]

# title, what is changed, a box, and that of the scale
OUTSIDE = [
    ("a box past the end", {}, "[0:5,0:2,0:1]", WHOLE), ("a box before the begin", {}, "[-1:4,0:2,0:1]", WHOLE),
    ("a box with 2^41", {}, FAR, WHOLE), ("a box with -2^41", {}, LOW, WHOLE),
    ("a box before an offset", with_info(voxel_offset=[-3, 5, 7]), "[-4:1,5:7,7:8]", "[-3:1,5:7,7:8]"),
    ("a box outside, of a damaged scale", {FIRST: b""}, "[0:4,0:3,0:1]", WHOLE),
]

# title, what is changed, the box, the line
CUTOUTS = [
    ("a raw chunk as a segmentation's", with_info(WIDE, **SEGMENTED), WHOLE, "damaged 0,0,0: seg channel 0"),
    ("a segmentation's chunk of half words", {**with_info(WIDE, **SEGMENTED), FIRST: b"123456"}, WHOLE, "damaged 0,0,0: seg length 6"),
    ("a bad chunk of a segmentation in a shard",
     {**with_info(WIDE, sharding=SHARDING, **SEGMENTED), SHARD: shard_of(0, [(0, 0, BAD_BITS)])}, WHOLE, "damaged 0,0,0: seg bits 0 0 3"),
    ("a fault in the second cell", {SECOND: b""}, WHOLE, "damaged 1,0,0: chunk length 0 wanted 4"),
    ("a short shard", {**with_info(sharding=SHARDING), SHARD: b"short"}, WHOLE, "damaged 0,0,0: shard short index"),
    ("a shard without its second entry", {INFO_PATH: info_of([2, 1, 1], [1, 1, 1], **shards(minishard_bits=1)), SHARD: bytes(16)},
     "[0:2,0:1,0:1]", "damaged 1,0,0: shard short index"),
    ("a box of more than 2^30 bytes", with_info(size=[2048] * 3, chunk=[64] * 3), LARGE, f"box too large {2**30 + 2**20}"),
    ("a box of 2^120 bytes", with_info(size=[2**40] * 3, chunk=[64] * 3), CUBE, f"box too large {2**120}"),
    ("a fault in a cell of the second row", {**with_info(size=[4, 4, 1]), "d/s/2-4_2-4_0-1": b"123"}, "[3:4,3:4,0:1]",
     "damaged 1,1,0: chunk length 3 wanted 4"),
    ("half a chunk of wide values", {**with_info({"data_type": "uint16", "num_channels": 2}), FIRST: bytes(8)}, WHOLE,
     "damaged 0,0,0: chunk length 8 wanted 16"),
]

# title, what is changed, the data set and the key that are named, what is told of the info
ABSENT = [
    ("a dataset that is missing", {}, "e", "s", "absent"), ("DATASET of 200 bytes", {}, "d" * 200, "s", "absent"),
    ("a dataset that is a file", {"e": b""}, "e", "s", "absent"), ("a key that no scale has", {}, "d", "t", "scale absent"),
]

# Layers of chunks of 2 x 2 x 1 voxels, of one channel and of two, and of chunks with two planes. FIRST and SECOND are the lowest
# layer of the first two. The last chunk of the last layer is short, or a pipe.
THREE_LAYERS = {**with_info(size=[4, 2, 3]), "d/s/2-4_0-2_2-3": b"123"}
SECOND_ABOVE = "d/s/2-4_0-2_1-2"
TWO_CHANNELS = {
    **with_info({"num_channels": 2}, size=[4, 2, 2]), FIRST: bytes([1, 2, 3, 4, 21, 22, 23, 24]),
    SECOND: bytes([5, 6, 7, 8, 25, 26, 27, 28]), "d/s/0-2_0-2_1-2": bytes(range(31, 39)),
}
THICK = {
    **with_info({"num_channels": 2}, size=[4, 2, 4], chunk=[2, 2, 2], voxel_offset=[0, 0, -3]),
    "d/s/0-2_0-2_-3--1": bytes(range(1, 17)), "d/s/0-2_0-2_-1-1": b"",
}
IN_A_SHARD = {
    **with_info(size=[4, 2, 2], sharding=SHARDING),
    SHARD: shard_of(0, [(0, 0, bytes([1, 2, 3, 4])), (0, 1, bytes([5, 6, 7, 8])), (0, 2, bytes(4)), (0, 3, b"123")]),
}
TWO = "[0:4,0:2,0:2]"

# title, what is changed, the box, the output, the line
BROKEN_OFF = [
    ("the third layer", THREE_LAYERS, "[0:4,0:2,0:3]", VALUES + bytes(8), "damaged 1,0,2: chunk length 3 wanted 4"),
    ("the layer where the box begins", THREE_LAYERS, "[0:4,0:2,2:3]", b"", "damaged 1,0,2: chunk length 3 wanted 4"),
    ("a row of a box", THREE_LAYERS, "[1:3,1:2,0:3]", bytes([4, 7, 0, 0]), "damaged 1,0,2: chunk length 3 wanted 4"),
    ("the second layer of two channels", {**TWO_CHANNELS, SECOND_ABOVE: b"123"}, TWO, VALUES, "damaged 1,0,1: chunk length 3 wanted 8"),
    ("both layers", {**TWO_CHANNELS, SECOND: b"", "d/s/0-2_0-2_1-2": b"123"}, TWO, b"", "damaged 1,0,0: chunk length 0 wanted 8"),
    ("two channels of a layer of two planes, of which the box has one", THICK, "[0:4,0:2,-2:1]", bytes([5, 6, 0, 0, 7, 8, 0, 0]),
     "damaged 0,0,1: chunk length 0 wanted 16"),
    ("the second layer of a shard", IN_A_SHARD, TWO, VALUES, "damaged 1,0,1: chunk length 3 wanted 4"),
    ("a pipe in the second layer", {**with_info(size=[4, 2, 2]), SECOND_ABOVE: PIPE}, TWO, VALUES, "store fault"),
    ("a pipe in the second layer of two channels", {**TWO_CHANNELS, SECOND_ABOVE: PIPE}, TWO, VALUES, "store fault"),
]

# A stream that writes the whole scale, and others.
STREAM = stream_of([(box_in(WHOLE), VALUES)])
SECOND_WRITE = head_of(2) + STREAM[8:]
LONG = stream_of(2 * [(box_in("0:2097153,0:1,0:1"), bytes(2097153))])
TOO_MANY = "padded voxels 4194305 over 4194304"
EMPTY = "folder not empty"


def one_write(begin, size, values=b""):
    return head_of(1) + bytes_of(begin, size) + values


# title, the stream, the line
STREAMS = [
    ("of an empty stream", b"", "stream: bad magic"), ("of three bytes", b"PVW", "stream: bad magic"),
    ("with another magic", b"PVW2" + STREAM[4:], "stream: bad magic"), ("without a count", b"PVW1", "write 0: truncated"),
    ("of 65,537 boxes", head_of(65537), "stream: too many writes 65537"),
    ("of 65,536 boxes that are missing", head_of(65536), "write 0: truncated"), ("of a byte less", STREAM[:-1], "write 0: truncated"),
    ("of a byte more", STREAM + b"\0", "stream: trailing bytes"),
    ("of a byte behind no boxes", head_of(0) + b"\0", "stream: trailing bytes"),
    ("of a second box without its values", SECOND_WRITE + bytes_of([0, 0, 0], [1, 1, 1]), "write 1: truncated"),
    ("of no voxels", one_write([0, 0, 0], [4, 2, 0]), "write 0: empty box"),
    ("past the end", one_write([0, 0, 0], [5, 2, 1], bytes(10)), "write 0: outside scale"),
    ("before the begin", SECOND_WRITE + bytes_of([-1, 0, 0], [1, 1, 1]) + b"9", "write 1: outside scale"),
    ("of a size that passes 64 bits", one_write([2, 0, 0], [2**64 - 1, 1, 1]), "write 0: outside scale"),
]

# title, what is changed, the stream, the line
WRITES = [
    ("of 2^22 + 1 padded voxels", {**NO_CHUNKS, **padded(2**22 + 1)}, head_of(0), TOO_MANY),
    ("of 2^22 + 1 padded voxels over chunks", padded(2**22 + 1), head_of(0), TOO_MANY),
    ("of 2^22 + 1 padded voxels with a bad stream", {**NO_CHUNKS, **padded(2**22 + 1)}, b"", TOO_MANY),
    ("of 2^22 + 1 padded voxels beside a pipe", {**NO_CHUNKS, **padded(2**22 + 1), "d/s/x": PIPE}, STREAM, TOO_MANY),
    ("of 2^22 + 2 padded voxels of two channels", {**NO_CHUNKS, **padded(2**21 + 1, 2)}, head_of(0), "padded voxels 4194306 over 4194304"),
    ("over chunks", {}, STREAM, EMPTY), ("over chunks, with a bad stream", {}, b"", EMPTY),
    ("over one chunk", {FIRST: None}, STREAM, EMPTY), ("above a deep object", {**NO_CHUNKS, "d/s/x/y": b""}, STREAM, EMPTY),
    ("above an object in a folder that ends in .part", {**NO_CHUNKS, "d/s/x.part/y": b""}, STREAM, EMPTY),
    ("of more than 2^30 bytes", {**NO_CHUNKS, **with_info(WIDE, size=[2**27 + 1, 1, 1])}, one_write([0, 0, 0], [2**27 + 1, 1, 1]),
     "write 0: too large"),
    ("into more than 2^22 chunks", {**NO_CHUNKS, **with_info(size=[2097153, 1, 1], chunk=[1, 1, 1])}, LONG, "too many cells 4194306"),
    ("beside a pipe", {**NO_CHUNKS, "d/s/x": PIPE}, STREAM, "store fault"),
    ("above a deep pipe", {**NO_CHUNKS, "d/s/x/y.part": b"", "d/s/x/z": PIPE}, STREAM, "store fault"),
    ("to a folder that is a file", NO_FOLDER, STREAM, "store fault"),
]

# title, what is changed, the box, the output
SERVED = [
    ("a sound dataset", {}, WHOLE, VALUES), ("UINT8 and Raw", with_info({"data_type": "UINT8"}, encoding="Raw"), WHOLE, VALUES),
    ("1,024 channels of 131,072 bytes", {INFO_PATH: deep_info(131072)}, "[7:9,0:1,0:1]", bytes(2048)),
    ("a box across the chunks", {}, "[1:3,1:2,0:1]", bytes([4, 7])),
    ("the first of two chunk sizes", {**with_info(chunk_sizes=[[2, 2, 1], [4, 2, 1]]), "d/s/0-4_0-2_0-1": b""}, WHOLE, VALUES),
    ("a fault outside the box", {SECOND: b""}, "[0:2,0:2,0:1]", bytes([1, 2, 3, 4])),
    ("an offset below 0", {**with_info(voxel_offset=[-3, 5, 7]), "d/s/-3--1_5-7_7-8": bytes([1, 2, 3, 4])}, "[-2:0,5:7,7:8]",
     bytes([2, 0, 4, 0])),
    ("two channels of 16 bits",
     {**with_info({"@type": "neuroglancer_multiscale_volume", "data_type": "uint16", "num_channels": 2}), FIRST: bytes(range(16)),
      SECOND: None}, "[1:3,0:2,0:1]", bytes([2, 3, 0, 0, 6, 7, 0, 0, 10, 11, 0, 0, 14, 15, 0, 0])),
    ("planes of 64 bits",
     {**with_info({"type": "segmentation", **WIDE}, size=[1, 1, 3], chunk=[1, 1, 2]), "d/s/0-1_0-1_0-2": bytes(range(16)),
      "d/s/0-1_0-1_2-3": bytes(range(8))}, "[0:1,0:1,1:3]", bytes(range(8, 16)) + bytes(range(8))),
    ("a segmentation's chunk, and one that is missing",
     {**with_info({"type": "segmentation", **WIDE}, **SEGMENTED), FIRST: SEVEN_NINE, SECOND: None}, WHOLE,
     2 * struct.pack("<4Q", 7, 9, 0, 0)),
    ("a segmentation's chunk in a shard",
     {**with_info({"data_type": "UINT64"}, sharding=SHARDING, **SEGMENTED), SHARD: shard_of(0, [(0, 0, BAD_BITS), (0, 1, SEVEN_NINE)])},
     "[2:4,1:2,0:1]", struct.pack("<2Q", 7, 9)),
    ("2^22 + 1 padded voxels", padded(2**22 + 1), "[0:1,0:1,0:1]", bytes(4)),
    ("2^24 padded voxels", padded(2**23, 2), "[8388607:8388608,0:1,0:1]", bytes(8)),
    ("a chunk that is missing", {FIRST: None}, WHOLE, bytes([0, 0, 5, 6, 0, 0, 7, 8])),
    ("a folder in a chunk's place", {FIRST: FOLDER}, WHOLE, bytes([0, 0, 5, 6, 0, 0, 7, 8])),
    ("a file in the place of the chunks' folder", NO_FOLDER, WHOLE, bytes(8)),
]


def rows():
    for words in no_commands():
        files = changed(with_next(), {"e/info": with_next()[INFO_PATH]})
        yield f"no command: {words!r:.120}", answers, files, words, refused("usage"), STREAM
    for (words, _), (title, info, line) in itertools.product(COMMANDS, INFOS):
        change = info if isinstance(info, dict) else {INFO_PATH: info}
        told = line if line == "store fault" else f"info of d: {line}"
        yield f"an info {title}, {' '.join(words)}", answers, changed(change), words, refused(told)
    for (words, _), (title, change, dataset, key, line) in itertools.product(COMMANDS, ABSENT):
        named = [words[0], dataset, key, *words[3:]]
        yield f"{title}, {' '.join(words)}", answers, changed(change), named, refused(f"info of {dataset}: {line}")
    for words, (title, change, line) in itertools.product(([*CUT, WHOLE], VERIFY, UPDATE), CELLS):
        yield f"{title}, {words[0]}", answers, changed(change), words, refused(line), STREAM
    for words, (title, change, box, whole) in itertools.product((CUT, VERIFY), OUTSIDE):
        yield f"{title}, {words[0]}", answers, changed(change), [*words, box], refused(f"box {box} outside {whole}")
    for title, change, box, line in CUTOUTS:
        yield title, answers, changed(change), [*CUT, box], refused(line)
    for title, change, box, output, line in BROKEN_OFF:
        yield f"a cutout that breaks off: {title}", answers, changed(change), [*CUT, box], refused(line, output)
    for (words, change), (title, feed, line) in itertools.product(((WRITE, NO_CHUNKS), (UPDATE, {})), STREAMS):
        yield f"{words[0]}, a stream {title}", answers, changed(change), words, refused(line), feed
    for title, change, feed, line in WRITES:
        yield f"a write {title}", answers, changed(change), WRITE, refused(line), feed
    for title, change, box, output in SERVED:
        yield title, answers, changed(change), [*CUT, box], printed(output)
    for title, output in NO_OUTPUTS:
        yield f"output to {title}", answers, changed(), [*CUT, WHOLE], refused("output fault"), b"", output
    yield "a folder as the stream", answers, changed(NO_CHUNKS), WRITE, refused("feed fault"), open_folder
    too_many = changed(NO_CHUNKS, padded(2**22 + 1))
    yield "a folder as the stream of too many voxels", answers, too_many, WRITE, refused(TOO_MANY), open_folder


if __name__ == "__main__":
    main(rows)
