#!/usr/bin/env python3
"""
Runs the built programs over what is larger than anything that the tests have, each at half its size and whole.

    bench/large.py [--folder FOLDER] [--gib GIB] [--tries N] [NAME ..]

Told are the seconds of a processor, behind them those of the clock, and the peak memory of each run; and how many times as many seconds of
a processor the whole takes: 2.0 where time grows as the work does. Those change less than the clock's where the machine does other work; of
N tries in turn the best counts. A NAME picks the groups of that name. The volume that is put slab by slab has GIB GiB, 20 if it is left
out, in FOLDER, where TMPDIR says if that is left out. It needs Debian's python3-numpy.
"""
import argparse
import dataclasses
import os
import pathlib
import random
import resource
import shutil
import subprocess
import sys
import tempfile
import time

ROOT = pathlib.Path(__file__).resolve().parent.parent
sys.path[:0] = [str(ROOT / "tests"), str(ROOT / "python" / "tests")]

from memory import watch  # noqa: E402
from model import Sharding, Volume, along, spell, stream_of  # noqa: E402
from model.replies import ask, closing, whole_of  # noqa: E402
from peers import connect, receive  # noqa: E402

PROGRAM, HALL_PROGRAM = (ROOT / "crates" / name / "out" / name for name in ("vol_tool", "vol_serve"))
PUT = """
import numpy, sys, vol_tool
layer = numpy.random.default_rng(0).integers(0, 256, (1, 1024, 1024), "uint8")
array = numpy.broadcast_to(layer, (int(sys.argv[1]), 1024, 1024))
vol_tool.write("d", "s", array, resolution=(8, 8, 40))
"""


# Runs a program out of a small process, since what the process has that begins it counts as the program's memory too.
RUNNER = """
import os, sys, time
begin = time.monotonic()
_, status, usage = os.wait4(os.posix_spawn(sys.argv[1], sys.argv[1:], os.environ), 0)
print(usage.ru_utime + usage.ru_stime, time.monotonic() - begin, usage.ru_maxrss / 1024, file=sys.stderr)
sys.exit(os.waitstatus_to_exitcode(status))
"""


@dataclasses.dataclass
class Taken:
    """What a run took: seconds of a processor and of the clock, and its peak memory in MiB."""

    processor: float
    seconds: float
    memory: float

    def spell(self):
        return f"{self.processor:.2f} ({self.seconds:.2f}) s"


def start(program, words, **streams):
    return subprocess.Popen([sys.executable, "-ISc", RUNNER, program, *words], stderr=subprocess.PIPE, text=True, **streams)


def taken(child):
    """What a program took, which has to end well."""
    lines = child.stderr.read().splitlines()
    if child.wait():
        raise SystemExit(f"{' '.join(map(str, child.args[3:]))} ended with {child.returncode}: {lines}")
    return Taken(*map(float, lines[-1].split()))


def run(words, feed=None):
    return taken(start(PROGRAM, words, stdin=feed or subprocess.DEVNULL, stdout=subprocess.DEVNULL))


def put_in(command, volume, writes):
    """Writes boxes, of which each has the bytes of its values."""
    with tempfile.TemporaryFile() as feed:
        feed.write(stream_of(writes))
        feed.seek(0)
        return run(volume.words(command), feed)


def lay_out(*volumes):
    """Data sets of which nothing is stored."""
    for volume in volumes:
        shutil.rmtree(volume.dataset, ignore_errors=True)
        folder = pathlib.Path(volume.dataset)
        (folder / volume.key).mkdir(parents=True)
        (folder / "info").write_bytes(volume.info())


def line_of(cells, sharding, dataset="d"):
    """A line of so many cells of a voxel."""
    return Volume([cells, 1, 1], [1, 1, 1], sharding=sharding, dataset=dataset)


def voxel(volume, at):
    return volume.words("cutout", spell(along(at, at + 1)))


def full(cells):
    return [(along(0, cells), bytes(1 + at % 255 for at in range(cells)))]


def other(cells, bits):
    """A data set into which the scale goes, in shards of other sizes."""
    return line_of(cells, Sharding(preshift=4, minishard_bits=6, shard_bits=bits - 10), "e")


def absent(bits):
    """Cells that are absent, in a scale of files."""
    cells = 2**bits
    volume = line_of(cells, None)
    lay_out(volume, other(cells, bits))
    yield "verify of cells that are absent, of files", run(volume.words("verify"))
    yield "a cutout of one voxel of these", run(voxel(volume, cells - 1))
    yield "reshard of these", run(["reshard", "d", "s", "e", "s"])


def stored(bits):
    """Cells that are stored, 64 in a minishard, of which each shard has 256."""
    cells = 2**bits
    volume = line_of(cells, Sharding(preshift=6, minishard_bits=8, shard_bits=bits - 14))
    lay_out(volume, other(cells, bits))
    yield "write of cells in shards of 16,384", put_in("write", volume, full(cells))
    yield "verify of these", run(volume.words("verify"))
    yield "a cutout of one voxel of these", run(voxel(volume, cells - 1))
    yield "a cutout of all", run(volume.words("cutout", spell(volume.whole)))
    yield "reshard of these into shards of 1,024", run(["reshard", "d", "s", "e", "s"])
    yield "update of one voxel of these", put_in("update", volume, [(along(5, 6), b"\7")])


def index(bits):
    """An index of so many rows."""
    cells = 2**bits
    volume = line_of(cells, Sharding())
    lay_out(volume)
    yield "write of an index of rows", put_in("write", volume, full(cells))
    yield "verify of it", run(volume.words("verify"))
    yield "a cutout of the voxel of its last row", run(voxel(volume, cells - 1))
    yield "a cutout of all", run(volume.words("cutout", spell(volume.whole)))
    yield "update of the voxel of its last row", put_in("update", volume, [(along(cells - 1, cells), b"\7")])


def cube(bits):
    """The same of a cube of cells, which a box asks for in another order than that of their ids."""
    size = [2**6, 2**6, 2 ** (bits - 12)]
    volume = Volume(size, [1, 1, 1], sharding=Sharding())
    lay_out(volume)
    put_in("write", volume, [(volume.whole, bytes(1 + at % 255 for at in range(2**bits)))])
    yield "verify of an index of rows, cells of a cube", run(volume.words("verify"))
    yield "a cutout of all of these", run(volume.words("cutout", spell(volume.whole)))


def copied_index(bits):
    """An index that a copy reads: each cell of the source is searched for from its front."""
    cells = 2**bits
    volume = line_of(cells, Sharding())
    lay_out(volume, other(cells, bits))
    put_in("write", volume, full(cells))
    yield "reshard out of an index of rows", run(["reshard", "d", "s", "e", "s"])


def boxes(bits):
    """Boxes of 8 x 8 x 8 voxels at random."""
    volume, chance = Volume([512] * 3, [64] * 3), random.Random(0)
    lay_out(volume)
    picked = ([chance.randrange(504) for _ in range(3)] for _ in range(2**bits))
    writes = [([(begin, begin + 8) for begin in begins], chance.randbytes(512)) for begins in picked]
    yield "write of a stream of boxes of 8 x 8 x 8", put_in("write", volume, writes)
    yield "update of the same", put_in("update", volume, writes)


def one_of(thousands):
    """A shard of chunks of 8 x 8 x 8 voxels, of which one is corrected."""
    volume = Volume([8, 8, 8000 * thousands], [8] * 3, sharding=Sharding(minishard_bits=6))
    lay_out(volume)
    layer = random.Random(0).randbytes(512)
    put_in("write", volume, [(volume.whole, 1000 * thousands * layer)])
    yield "update of one voxel in a shard of chunks", put_in("update", volume, [([(3, 4), (3, 4), (9, 10)], b"\7")])


def slabs(gib):
    """An array that is put in slab by slab, of which all rows of z are alike; and a cutout of a slab of its end."""
    environment = {**os.environ, "PYTHONPATH": str(ROOT / "python")}
    begin, before = time.monotonic(), resource.getrusage(resource.RUSAGE_CHILDREN)
    _, together, _ = watch([sys.executable, "-c", PUT, str(int(1024 * gib))], env=environment)
    after = resource.getrusage(resource.RUSAGE_CHILDREN)
    processor = after.ru_utime + after.ru_stime - before.ru_utime - before.ru_stime
    yield "a volume put slab by slab, in GiB", Taken(processor, time.monotonic() - begin, together / 2**20)
    volume = Volume([1024, 1024, int(1024 * gib)], [64] * 3)
    yield "a cutout of 64 planes of it", run(volume.words("cutout", spell([(0, 1024), (0, 1024), (1024 * gib - 64, 1024 * gib)])))
    shutil.rmtree("d")


def connections(bits):
    """Connections one after the other, of which each asks once."""
    count = 2**bits
    pathlib.Path("d/s").mkdir(parents=True, exist_ok=True)
    pathlib.Path("d/s/x").write_bytes(b"0123456789")
    child = start(HALL_PROGRAM, ["d", "--port=0", f"--connections={count}", "--workers=4"], stdout=subprocess.PIPE)
    port = int(child.stdout.readline().split()[1])
    for _ in range(count):
        with connect(port) as peer:
            peer.sendall(ask("GET /s/x", "Connection: close"))
            if receive(peer) != closing(whole_of(b"0123456789")):
                raise SystemExit("another reply")
    yield "connections of vol_serve, 4 workers", taken(child)


# The runs by name, and their sizes: half, and whole.
GROUPS = {
    "absent": (absent, 21, 22), "stored": (stored, 21, 22), "index": (index, 21, 22), "cube": (cube, 15, 16), "copied": (copied_index, 13, 14),
    "boxes": (boxes, 15, 16), "one": (one_of, 50, 100), "slabs": (slabs, None, None), "connections": (connections, 15, 16),
}
EXACT = {"one": 1000, "slabs": 1}


def count_of(name, size):
    return f"{size * EXACT[name] if name in EXACT else 2**size:,}"


def best_of(runs):
    return min((took for _, took in runs), key=lambda took: took.processor)


def main():
    parser = argparse.ArgumentParser()
    parser.add_argument("--folder")
    parser.add_argument("--gib", type=float, default=20)
    parser.add_argument("--tries", type=int, default=1)
    parser.add_argument("names", nargs="*")
    options = parser.parse_args()
    print("| What | Half | Whole | Growth | Memory, MiB |\n|---|---|---|---|---|", flush=True)
    with tempfile.TemporaryDirectory(dir=options.folder) as top:
        os.chdir(top)
        for name in options.names or GROUPS:
            work, half, whole = GROUPS[name]
            half, whole = (half, whole) if half else (int(options.gib / 2), int(options.gib))
            tries = [[*work(size)] for _ in range(options.tries) for size in (half, whole)]
            for runs in zip(*tries):
                title, small, large = runs[0][0], best_of(runs[::2]), best_of(runs[1::2])
                growth = large.processor / small.processor if small.processor else 0
                sizes = f"{count_of(name, half)}: {small.spell()}", f"{count_of(name, whole)}: {large.spell()}"
                print(f"| {title} | {sizes[0]} | {sizes[1]} | {growth:.2f} | {small.memory:.0f}, {large.memory:.0f} |", flush=True)
        os.chdir("/")


if __name__ == "__main__":
    main()
