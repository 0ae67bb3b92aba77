#!/usr/bin/env python3
"""Times writes of ./stream into the empty scales ours/s and plain/s by several workers, in turn (see workers.sh).

    bench/workers.py PROGRAM LAYOUT

For each number of workers it prints the best time of vol_tool and of ./plain_sharded, and both speed-ups over one worker.
The status is 1 where a command fails or the objects differ.
"""
import filecmp
import os
import shutil
import subprocess
import sys
import time

TRIES = 3
WORKERS = [1, 2, 3, 4, 8, 16]


def run(words, folder):
    """The seconds that a write took, into a scale that is emptied before."""
    shutil.rmtree(folder, ignore_errors=True)
    with open("stream", "rb") as feed:
        begin = time.perf_counter()
        subprocess.run(words, stdin=feed, stdout=subprocess.DEVNULL, check=True)
        return time.perf_counter() - begin


def same(first, second):
    names = sorted(os.listdir(first))
    return names == sorted(os.listdir(second)) and not any(filecmp.cmpfiles(first, second, names, shallow=False)[1:])


def main():
    program, layout = sys.argv[1:]
    best = {}
    for _ in range(TRIES):
        for workers in WORKERS:
            ours = run([program, "write", "ours", "s", f"--workers={workers}"], "ours/s")
            plain = run(["./plain_sharded", layout, "write", "plain", "s", str(workers)], "plain/s")
            if not same("ours/s", "plain/s"):
                sys.exit(f"the objects of {workers} workers differ")
            kept = best.get(workers, (ours, plain))
            best[workers] = (min(kept[0], ours), min(kept[1], plain))
    one = best[1]
    for workers, (ours, plain) in best.items():
        gains = (one[0] / ours, one[1] / plain)
        print(f"{workers:3} workers  ours {ours * 1000:7.0f} ms, {gains[0]:.2f} times as fast  plain {plain * 1000:7.0f} ms,"
              f" {gains[1]:.2f} times as fast  ratio of both {gains[0] / gains[1]:.2f}")


if __name__ == "__main__":
    main()
