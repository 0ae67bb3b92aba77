#!/usr/bin/env python3
"""Times two commands that have the same job, in turn, each with its output to a file.

    bench/compare.py TRIES OURS PLAIN [INPUT [BEFORE]]

OURS, PLAIN and BEFORE are each a command in one word; BEFORE is run before each of the others, and isn't timed. INPUT
is the file that OURS and PLAIN read (/dev/null). It prints the best time, the least processor time and the largest peak
memory of each, and the ratios of the times; a rate is that of the larger of input and output. Where other work takes the
processors, the processor time tells more. The status is 1 where a command fails or their outputs differ.
"""
import filecmp
import os
import shlex
import subprocess
import sys
import tempfile
import time


def run(command, feed, path):
    """The seconds that a command took, those of a processor, and its peak memory in MiB. Its output is a new file."""
    words = shlex.split(command)
    if os.path.exists(path):
        os.remove(path)
    actions = [
        (os.POSIX_SPAWN_OPEN, 0, feed, os.O_RDONLY, 0),
        (os.POSIX_SPAWN_OPEN, 1, path, os.O_WRONLY | os.O_CREAT, 0o600),
    ]
    begin = time.perf_counter()
    child = os.posix_spawnp(words[0], words, os.environ, file_actions=actions)
    _, status, usage = os.wait4(child, 0)
    seconds = time.perf_counter() - begin
    if status != 0:
        sys.exit(f"{command}: status {os.waitstatus_to_exitcode(status)}")
    return seconds, usage.ru_utime + usage.ru_stime, usage.ru_maxrss / 1024


def main():
    tries, ours, plain = int(sys.argv[1]), sys.argv[2], sys.argv[3]
    feed = sys.argv[4] if len(sys.argv) > 4 else "/dev/null"
    before = sys.argv[5] if len(sys.argv) > 5 else "true"
    with tempfile.TemporaryDirectory() as folder:
        paths = [os.path.join(folder, name) for name in ("ours", "plain")]
        runs = [[], []]
        for _ in range(tries):
            for kept, command, path in zip(runs, (ours, plain), paths):
                subprocess.run(shlex.split(before), check=True)
                kept.append(run(command, feed, path))
        if not filecmp.cmp(*paths, shallow=False):
            sys.exit("the outputs differ")
        size = max(map(os.path.getsize, (feed, paths[0]))) / 2**20
    best = []
    for name, kept in zip(("ours", "plain"), runs):
        seconds, busy, peak = (pick(column) for pick, column in zip((min, min, max), zip(*kept)))
        best.append((seconds, busy))
        print(f"{name:5}  {seconds * 1000:7.1f} ms  {size / seconds:7.0f} MiB/s  processor {busy * 1000:7.1f} ms"
              f"  peak {peak:6.1f} MiB")
    ratio, ratio_busy = (ours / plain for ours, plain in zip(*best))
    print(f"ratio  {ratio:.2f}, of processor time {ratio_busy:.2f}  ({size:.0f} MiB, best of {tries})")


if __name__ == "__main__":
    main()
