#!/usr/bin/env python3
"""Copies out of one minishard, by the built vol_tool: how long a chunk takes, where the minishard has few chunks and where it has many.

    bench/minishards.py [PROGRAM [TRIES]]

The scales are cubes of 8, 16 and 25 chunks a side, of 16 x 16 x 16 bytes each, in one minishard of one shard. Each is copied into files and
into two shards of four minishards, in chunks of the same size: the best of so many tries (5), in microseconds a chunk. PROGRAM is the built
vol_tool if it is left out. Files lie where TMPDIR says.
"""
import json
import os
import pathlib
import shutil
import struct
import subprocess
import sys
import tempfile
import time

ROOT = pathlib.Path(__file__).resolve().parent.parent
SIDE = 16
ONE = {"@type": "neuroglancer_uint64_sharded_v1", "preshift_bits": 0, "hash": "identity", "minishard_bits": 0, "shard_bits": 0}
SOME = {**ONE, "minishard_bits": 2, "shard_bits": 1}
TARGETS = [("files", None), ("shards", SOME)]


def info_of(count, sharding):
    scale = {
        "chunk_sizes": [[SIDE] * 3], "encoding": "raw", "key": "s", "resolution": [1] * 3, "size": [SIDE * count] * 3,
        "voxel_offset": [0] * 3, **({"sharding": {**sharding, "minishard_index_encoding": "raw", "data_encoding": "raw"}} if sharding else {}),
    }
    return json.dumps({"type": "image", "data_type": "uint8", "num_channels": 1, "scales": [scale]})


def make_source(program, count):
    pathlib.Path("source").mkdir()
    pathlib.Path("source/info").write_text(info_of(count, ONE))
    side = SIDE * count
    box = struct.pack("<4sI6q", b"PVW1", 1, 0, 0, 0, side, side, side)
    values = bytes(number % 251 for number in range(side)) * side * side
    subprocess.run([program, "write", "source", "s"], input=box + values, stdout=subprocess.DEVNULL, check=True)


def copy_once(program, count, sharding):
    """How many seconds a copy takes."""
    shutil.rmtree("target", ignore_errors=True)
    pathlib.Path("target").mkdir()
    pathlib.Path("target/info").write_text(info_of(count, sharding))
    begin = time.perf_counter()
    subprocess.run([program, "reshard", "source", "s", "target", "s"], stdout=subprocess.DEVNULL, check=True)
    return time.perf_counter() - begin


def main():
    program = pathlib.Path(sys.argv[1] if len(sys.argv) > 1 else ROOT / "crates/vol_tool/out/vol_tool").resolve()
    tries = int(sys.argv[2]) if len(sys.argv) > 2 else 5
    with tempfile.TemporaryDirectory() as folder:
        os.chdir(folder)
        for count in (8, 16, 25):
            make_source(program, count)
            for title, sharding in TARGETS:
                best = min(copy_once(program, count, sharding) for _ in range(tries))
                print(f"{count**3:6} chunks into {title}: {best / count**3 * 1e6:6.1f} us a chunk", flush=True)
            shutil.rmtree("source")


if __name__ == "__main__":
    main()
