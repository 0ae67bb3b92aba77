#!/usr/bin/env python3
"""
Times the Python package: reads of a scale against the program's own cutout into a file, and an array of 3 GiB that is put in.

    bench/package.py [FOLDER [GIB]]

In FOLDER, /dev/shm if it is left out, there has to be room for twice the array. The scale is 512 x 512 x 512 bytes in chunks of 64 x 64 x
64, and each is read in turn, the best and the median of 9 tries told. The array is zarr's, in its own chunks of 64 x 64 x 64; memory is
the most that the process and the program have together, looked at each 5 ms, and the most of each by itself. It is broken off half way,
by a kill, and goes on. Wants Debian's python3-numpy and python3-zarr, or PYTHON may name a Python that has them.
"""
import os
import pathlib
import shutil
import statistics
import subprocess
import sys
import tempfile
import time

ROOT = pathlib.Path(__file__).resolve().parent.parent
sys.path[:0] = [str(ROOT / "python"), str(ROOT / "python" / "tests")]

from memory import watch  # noqa: E402

TRIES = 9
PUT = """
import sys, time
import numpy, zarr
import vol_tool
begin = time.monotonic()
vol_tool.write("big", "s", "big.zarr", resolution=(8, 8, 40), resume=sys.argv[1] == "resume")
print(f"{time.monotonic() - begin:.1f}", flush=True)
"""


def timed(job):
    begin = time.perf_counter()
    job()
    return time.perf_counter() - begin


def tell(what, seconds):
    print(f"{what}: best {1000 * min(seconds):.1f} ms, median {1000 * statistics.median(seconds):.1f} ms", flush=True)


def time_reads():
    import numpy

    import vol_tool
    from vol_tool.programs import program

    values = numpy.random.default_rng(0).integers(0, 256, (512, 512, 512), "uint8")
    scale = vol_tool.write("bytes", "s", values, resolution=(8, 8, 40))
    words = [program("vol_tool"), "cutout", "bytes", "s", "[0:512,0:512,0:512]"]

    def cut():
        with open("box.raw", "wb") as out:
            subprocess.run(words, stdout=out, check=True)

    cuts, reads = [], []
    for _ in range(TRIES):
        cuts.append(timed(cut))
        reads.append(timed(lambda: scale[...]))
    assert (scale[...] == values).all()
    tell("cutout of 512 x 512 x 512 bytes into a file", cuts)
    tell("scale[...] of the same", reads)
    print(f"ratio of the best {min(reads) / min(cuts):.2f}, of the medians {statistics.median(reads) / statistics.median(cuts):.2f}")
    tell("scale[100, 200, 300]", [timed(lambda: scale[100, 200, 300]) for _ in range(50)])
    tell("scale[100]", [timed(lambda: scale[100]) for _ in range(TRIES)])


def make_zarr(gib):
    import numpy
    import zarr

    side = 1024
    array = zarr.open("big.zarr", mode="w", shape=(int(gib * 1024), side, side), chunks=(64, 64, 64), dtype="u1")
    chance = numpy.random.default_rng(0)
    layer = chance.integers(0, 40, (64, side, side), "u1") + numpy.arange(side, dtype="u2").astype("u1")
    for at in range(0, array.shape[0], 64):
        array[at : at + 64] = layer[: array.shape[0] - at] + numpy.uint8(at // 64)
    return array


def run_put(word, until=None):
    environment = {**os.environ, "PYTHONPATH": str(ROOT / "python")}
    return watch([sys.executable, "-c", PUT, word], until, env=environment)


def time_put(gib):
    import vol_tool

    array = make_zarr(gib)
    said, together, alone = run_put("new")
    memory = f"at most {together >> 20} MiB together, {alone >> 20} MiB of one process"
    print(f"a zarr array of {gib} GiB put in: {said} s, {memory}", flush=True)
    shutil.rmtree("big")
    _, together, _ = run_put("new", float(said) / 2)
    print(f"killed after half that: at most {together >> 20} MiB together")
    said, together, alone = run_put("resume")
    print(f"resumed: {said} s, at most {together >> 20} MiB together, {alone >> 20} MiB of one process", flush=True)
    scale = vol_tool.open("big")["s"]
    for at in range(0, array.shape[0], 64):
        assert (scale[at : at + 64] == array[at : at + 64]).all()
    print("all values are the array's")


def main():
    parent, gib = (sys.argv[1:2] or ["/dev/shm"])[0], float((sys.argv[2:3] or ["3"])[0])
    with tempfile.TemporaryDirectory(dir=parent) as name:
        os.chdir(name)
        time_reads()
        shutil.rmtree("bytes")
        time_put(gib)
        os.chdir("/")


if __name__ == "__main__":
    main()
