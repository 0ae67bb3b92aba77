"""
The command `volume`: arrays, TIFF stacks and links go into volumes, boxes come out, and all is looked at and judged.

It ends with 0, or with the status of the program behind it; with 1 for what it refuses itself, and with 2 for words that it can't read.
What is wrong is one line on the error output.
"""
from __future__ import annotations

import argparse
import json
import logging
import os
import re
import sys
from typing import Any, Callable, Sequence

from .errors import NotEmpty, UsageError, VolToolError
from .infos import ENCODINGS, MOST_BLOCK, MOST_CHUNK, MOST_OFFSET, Sharding, three_between, three_lengths
from .programs import MOST_WORKERS

AXES = ("zyx", "czyx", "xyz", "xyzc", "zyxc")
METHODS = ("mode", "mean")
MOST_LEVELS = 40
MOST_CONNECTIONS = 1 << 16
MEBIBYTE = 1 << 20
LEAST_MEBIBYTES = 128

Words = argparse.Namespace


# Words


def _checked(read: Callable[[str], Any]) -> Callable[[str], Any]:
    """What reads a word, with this package's refusals as argparse wants them."""

    def read_word(text: str) -> Any:
        try:
            return read(text)
        except VolToolError as why:
            raise argparse.ArgumentTypeError(why.line) from None

    return read_word


def _numbers(name: str, least: int, most: int) -> Callable[[str], Any]:
    """Reads three whole numbers between commas."""

    def read_numbers(text: str) -> Any:
        try:
            return three_between(name, [int(word) for word in text.split(",")], least, most)
        except ValueError:
            raise argparse.ArgumentTypeError(f"X,Y,Z are wanted, each from {least} to {most}, and not {text}") from None

    return read_numbers


def _lengths(text: str) -> Any:
    """Reads three lengths between commas."""
    try:
        return three_lengths(text.split(","))
    except ValueError:
        raise argparse.ArgumentTypeError(f"X,Y,Z are wanted, each over 0, and not {text}") from None


def _whole(least: int, most: int) -> Callable[[str], int]:
    """Reads a whole number."""

    def read_number(text: str) -> int:
        if not re.fullmatch(r"\d{1,12}", text) or not least <= int(text) <= most:
            raise argparse.ArgumentTypeError(f"a number from {least} to {most} is wanted, and not {text}")
        return int(text)

    return read_number


def count_workers() -> int:
    """As many workers as this process has processors."""
    return min(MOST_WORKERS, len(os.sched_getaffinity(0)))


def _join_numbers(words: Sequence[str]) -> list[str]:
    """The words, where an option's numbers that begin with `-` are one word with it, as argparse wants them."""
    joined: list[str] = []
    for word in words:
        if joined and joined[-1] in ("--offset", "--at") and re.match(r"-\d", word):
            joined[-1] += f"={word}"
        else:
            joined.append(word)
    return joined


# Commands


def _layout_of(words: Words) -> dict[str, Any]:
    return {"encoding": words.encoding, "chunk": words.chunk, "block": words.block, "sharding": words.sharding}


def _put(words: Words) -> int:
    from .infos import Layout
    from .writing import put

    layout = Layout.of(**_layout_of(words))
    stored = put(
        words.dataset, words.key, words.source, resolution=words.resolution, offset=words.offset, axes=words.axes, layout=layout,
        workers=words.workers, resume=words.resume, at=words.at, memory=words.memory * MEBIBYTE,
    )  # fmt: skip
    print(f"objects {stored.objects} cells {stored.cells}")
    return 0


def _get(words: Words) -> int:
    from .arrays import read

    read(words.dataset, words.key, words.box, words.out, axes=words.axes)
    return 0


def _add(words: Words) -> int:
    from .pyramids import add

    add(words.dataset, words.key, words.key2, **_layout_of(words))
    return 0


def _pyramid(words: Words) -> int:
    from .pyramids import Level, pyramid, size_text
    from .streams import Stored

    def tell(level: Level, method: str, stored: Stored) -> None:
        text = f"{level.scale.key} {size_text(level.scale.size)} {method}: objects {stored.objects} cells {stored.cells}"
        print(text, flush=True)

    if not pyramid(words.dataset, words.key, levels=words.levels, method=words.method, workers=words.workers, tell=tell):
        print(f"{words.key}: no scale is left to make")
    return 0


def _view(words: Words) -> int:
    from .views import serve_page

    serve_page(words.dataset, words.port, key=words.key)
    return 0


def _fetch(words: Words) -> int:
    from .checking import describe
    from .fetching import fetch, fetch_info

    if (words.key is None) != (words.box is None):
        raise UsageError("fetch takes LINK DATASET, or LINK DATASET KEY BOX")
    if words.key is None:
        for line in describe(fetch_info(words.link, words.dataset)):
            print(line)
        return 0
    copied, absent, kept = fetch(words.link, words.dataset, words.key, words.box)
    print(f"copied {copied} absent {absent}{f' kept {kept}' if kept else ''}")
    return 0


def _verify(words: Words) -> int:
    from .checking import verify

    found = verify(words.dataset, words.key, words.box)
    print(f"cells {found.cells} stored {found.stored} absent {found.absent}")
    return 0


def _serve(words: Words) -> int:
    from .programs import place_of, program

    place, path = place_of(words.dataset), program("vol_serve")
    os.chdir(place.folder)
    options = {"port": words.port, "connections": words.connections, "workers": words.workers}
    os.execv(path, [path, place.name, *(f"--{name}={value}" for name, value in options.items())])


def _info(words: Words) -> int:
    from .checking import tell_all

    status = 0
    for line, found in tell_all(words.dataset, words.key, words.quick):
        print(line, flush=True)
        status = status or found
    return status


# What the words of each command are


def _add_layout(parser: argparse.ArgumentParser) -> None:
    """The options that name a layout."""
    chunk, block = _numbers("chunk", 1, MOST_CHUNK), _numbers("block", 1, MOST_BLOCK)
    parser.add_argument("--chunk", type=chunk, default=(64, 64, 64), metavar="X,Y,Z", help="voxels of a chunk (64,64,64)")
    parser.add_argument("--encoding", choices=ENCODINGS, default="raw", help="compressed_segmentation for labels of uint32 or uint64 (raw)")
    parser.add_argument("--block", type=block, default=(8, 8, 8), metavar="X,Y,Z", help="voxels of a block (8,8,8)")
    words = "PRESHIFT,identity|murmur,MINISHARD_BITS,SHARD_BITS"
    parser.add_argument("--sharding", type=_checked(Sharding.of), metavar="WORDS", help=f"{words} (a file a chunk)")


def _add_workers(parser: argparse.ArgumentParser) -> None:
    workers = count_workers()
    parser.add_argument("--workers", type=_whole(1, MOST_WORKERS), default=workers, metavar="N", help=f"threads that encode ({workers})")


def _set_put(parser: argparse.ArgumentParser) -> None:
    parser.add_argument("source", metavar="SOURCE", help="x.npy, file.h5:/path, a zarr folder, stack.tif or a folder of TIFF files")
    parser.add_argument("dataset", metavar="DATASET", help="the folder that has, or gets, the volume's info")
    parser.add_argument("key", metavar="KEY", help="the scale, in the info or new")
    parser.add_argument("--axes", choices=AXES, default="zyx", help="the array's axes (zyx, with channels in front where it has four)")
    parser.add_argument("--resolution", type=_lengths, metavar="X,Y,Z", help="nanometres of a voxel, wanted for a new scale")
    first = _numbers("offset", -MOST_OFFSET, MOST_OFFSET)
    parser.add_argument("--offset", type=first, default=(0, 0, 0), metavar="X,Y,Z", help="the first voxel of a new scale (0,0,0)")
    _add_layout(parser)
    _add_workers(parser)
    memory = _whole(LEAST_MEBIBYTES, 1 << 16)
    parser.add_argument("--memory", type=memory, default=400, metavar="MIB", help="how much memory may be taken, in MiB (400)")
    way = parser.add_mutually_exclusive_group()
    way.add_argument("--resume", action="store_true", help="goes on where a put of this array was broken off")
    at = _numbers("at", -MOST_OFFSET, 2 * MOST_OFFSET)
    way.add_argument("--at", type=at, metavar="X,Y,Z", help="puts the array over what the scale holds, from X,Y,Z on")


def _set_get(parser: argparse.ArgumentParser) -> None:
    parser.add_argument("dataset", metavar="DATASET", help="a folder, http://HOST:PORT of a server, or another link")
    parser.add_argument("key", metavar="KEY")
    parser.add_argument("box", metavar="BOX", help="[x0:x1,y0:y1,z0:z1] in voxels, in quotes, or all")
    parser.add_argument("out", metavar="OUT.npy")
    parser.add_argument("--axes", choices=AXES, default="zyx", help="the array's axes (zyx, with channels in front where there are some)")


def _set_add(parser: argparse.ArgumentParser) -> None:
    for name in ("dataset", "key", "key2"):
        parser.add_argument(name, metavar=name.upper())
    _add_layout(parser)


def _set_pyramid(parser: argparse.ArgumentParser) -> None:
    parser.add_argument("dataset", metavar="DATASET")
    parser.add_argument("key", metavar="KEY")
    parser.add_argument("--levels", type=_whole(1, MOST_LEVELS), metavar="N", help="how many (until one has one chunk)")
    parser.add_argument("--method", choices=METHODS, help="what a voxel gets of the eight below (mode for labels, else mean)")
    _add_workers(parser)


def _set_view(parser: argparse.ArgumentParser) -> None:
    parser.add_argument("dataset", metavar="DATASET")
    parser.add_argument("key", metavar="KEY", nargs="?")
    parser.add_argument("--port", type=_whole(0, (1 << 16) - 1), default=0, metavar="P", help="the page's port (any free one)")


def _set_fetch(parser: argparse.ArgumentParser) -> None:
    parser.add_argument("link", metavar="LINK", help="begins with http://, https://, gs:// or precomputed://")
    parser.add_argument("dataset", metavar="DATASET", help="the folder that the copy goes into")
    parser.add_argument("key", metavar="KEY", nargs="?")
    parser.add_argument("box", metavar="BOX", nargs="?", help="[x0:x1,y0:y1,z0:z1] in voxels, in quotes, or all")


def _set_verify(parser: argparse.ArgumentParser) -> None:
    parser.add_argument("dataset", metavar="DATASET")
    parser.add_argument("key", metavar="KEY")
    parser.add_argument("box", metavar="BOX", nargs="?", help="[x0:x1,y0:y1,z0:z1] in voxels, in quotes (the whole scale)")


def _set_serve(parser: argparse.ArgumentParser) -> None:
    parser.add_argument("dataset", metavar="DATASET")
    parser.add_argument("--port", type=_whole(0, (1 << 16) - 1), default=8080, metavar="P", help="0 is any free one (8080)")
    most = MOST_CONNECTIONS
    parser.add_argument("--connections", type=_whole(1, most), default=most, metavar="N", help=f"it ends after so many ({most})")
    parser.add_argument("--workers", type=_whole(1, MOST_WORKERS), default=8, metavar="W", help="so many connections at a time (8)")


def _set_info(parser: argparse.ArgumentParser) -> None:
    parser.add_argument("dataset", metavar="DATASET", help="a folder or a link")
    parser.add_argument("key", metavar="KEY", nargs="?", help="one scale alone")
    parser.add_argument("--quick", action="store_true", help="tells what the info says, and judges no chunk")


LAYOUT = "--resolution 8,8,40 --encoding compressed_segmentation --block 8,8,8"

# Each command: what it does in a line, what else there is to say of it, an example, and what reads its words and does it.
COMMANDS: dict[str, tuple[str, str, str, Callable[[argparse.ArgumentParser], None], Callable[[Words], int]]] = {
    "put": (
        "writes an array into a scale",
        "The scale's folder has to be empty, but with --at. DATASET/info is made where there is none, and the scale added to it, which\n"
        "needs --resolution; the layout of a scale that is there stays. The array is read slab by slab. Where it was broken off the same\n"
        "words and --resume go on. Values are uint8, uint16, uint32 or uint64.",
        f"volume put labels.npy cells 8_8_40 {LAYOUT}\nvolume put scan.h5:/volume fly 8_8_40 --resolution 8,8,40",
        _set_put, _put,
    ),
    "get": (
        "reads a box as an array in a file",
        "The file is as numpy.save writes it, and stands under its name when it is whole.",
        "volume get cells 8_8_40 '[40:70,50:80,18:22]' box.npy\nvolume get http://localhost:8080 8_8_40 '[40:70,50:80,18:22]' box.npy",
        _set_get, _get,
    ),
    "add": (
        "adds a scale of the same voxels in another layout",
        "It adds KEY2 to DATASET/info and stores nothing: vol_tool reshard DATASET KEY DATASET KEY2 fills it.",
        "volume add fly 8_8_40 in_shards --chunk 32,32,32 --sharding 0,identity,1,1",
        _set_add, _add,
    ),
    "pyramid": (
        "adds the coarser scales of one, and makes them",
        "Each is half as large as the one before, in its layout. Scales that are there stay.",
        "volume pyramid fly 8_8_40 --levels 2",
        _set_pyramid, _pyramid,
    ),
    "view": (
        "shows slices through the scales on a page of this machine",
        "It prints the page's address, and ends by Ctrl-C. No other machine is let in.",
        "volume view cells 8_8_40 --port=8081",
        _set_view, _view,
    ),
    "fetch": (
        "copies a part of a volume that a web server has",
        "Without KEY and BOX it copies the info, and says of each scale whether it can be read. Files that are there stay, so a copy that\n"
        "was broken off goes on.",
        "volume fetch gs://BUCKET/VOLUME far\nvolume fetch gs://BUCKET/VOLUME far 8_8_40 '[40:70,50:80,18:22]'",
        _set_fetch, _fetch,
    ),
    "verify": (
        "judges what is stored",
        "It prints how many cells there are, and of how many a chunk is stored, or none.",
        "volume verify cells 8_8_40",
        _set_verify, _verify,
    ),
    "serve": (
        "serves the stored files to viewers, by vol_serve",
        "In Neuroglancer the volume is then precomputed://http://localhost:8080. VOL_TOOL_ADDRESS names another address of this machine.",
        "volume serve cells --port=8080",
        _set_serve, _serve,
    ),
    "info": (
        "tells the scales, and what is stored of them, by verify",
        "Of a link it says whether each scale can be read.",
        "volume info cells\nvolume info gs://BUCKET/VOLUME",
        _set_info, _info,
    ),
}


class _TellVersion(argparse.Action):
    """Prints the version, and ends."""

    def __call__(self, parser: argparse.ArgumentParser, *_: Any) -> None:
        from .versions import version_text

        print(version_text())
        parser.exit()


def parser_of_all() -> argparse.ArgumentParser:
    """What reads the words of all commands."""
    how = argparse.RawDescriptionHelpFormatter
    whole = argparse.ArgumentParser(prog="volume", description=(__doc__ or "").strip(), formatter_class=how)
    whole.add_argument("--version", action=_TellVersion, nargs=0, help="prints the version, the commit and the kit")
    commands = whole.add_subparsers(required=True, metavar="|".join(COMMANDS), dest="command")
    for name, (does, more, example, set_words, job) in COMMANDS.items():
        lines = "".join(f"\n    {line}" for line in example.splitlines())
        one = commands.add_parser(
            name, help=does, description=f"{does[0].upper()}{does[1:]}.\n\n{more}", epilog=f"for example:{lines}", formatter_class=how
        )
        set_words(one)
        one.set_defaults(job=job, parser=one)
    return whole


def error_text(why: BaseException) -> str:
    """What is wrong, in a line."""
    if isinstance(why, KeyboardInterrupt):
        return f"broken off; {why}" if why.args else "broken off"
    if isinstance(why, OSError) and not isinstance(why, VolToolError) and why.filename is not None:
        return f"{why.filename}: {why.strerror}"
    return " ".join(str(why).split("\n")) or type(why).__name__


def help_text(words: Words, why: BaseException) -> str:
    """What can be done about it, or nothing; it is told on a terminal alone."""
    if isinstance(why, NotEmpty) and words.command == "put":
        return f"{words.dataset}/{words.key} holds an array: remove this folder first, or put over a part of it with --at X,Y,Z\n"
    return ""


def main(words: Sequence[str] | None = None) -> int:
    """Does what the words say, those of this process where none are given; gives the status that it ends with."""
    found, unknown = parser_of_all().parse_known_args(_join_numbers(sys.argv[1:] if words is None else words))
    if unknown:
        found.parser.error(f"unrecognized arguments: {' '.join(unknown)}")
    logging.getLogger("urllib3").setLevel(logging.ERROR)  # each further try would be told
    try:
        return found.job(found)
    except (VolToolError, OSError, MemoryError, json.JSONDecodeError, KeyboardInterrupt) as why:
        print(f"volume: {error_text(why)}\n{help_text(found, why) if sys.stderr.isatty() else ''}", end="", file=sys.stderr)
        return getattr(why, "status", None) or 1


if __name__ == "__main__":
    sys.exit(main())
