#!/usr/bin/env python3
"""Counts the instructions of two commands that have the same job, by valgrind: other work of the machine doesn't change them.

    bench/instructions.py OURS PLAIN [INPUT [BEFORE]]

OURS, PLAIN and BEFORE are each a command in one word; BEFORE is run before each of the others. INPUT is the file that OURS
and PLAIN read (/dev/null). It prints both numbers and their ratio, or says that there is no valgrind.
"""
import re
import shlex
import shutil
import subprocess
import sys

CALLGRIND = ["valgrind", "--tool=callgrind", "--callgrind-out-file=/dev/null"]


def count(command, feed):
    """The instructions of a command, in millions."""
    with open(feed, "rb") as given:
        words = CALLGRIND + shlex.split(command)
        run = subprocess.run(words, stdin=given, stdout=subprocess.DEVNULL, stderr=subprocess.PIPE, text=True)
    found = re.search(r"Collected : (\d+)", run.stderr)
    if run.returncode != 0 or not found:
        sys.exit(f"{command}: status {run.returncode}")
    return int(found[1]) / 1e6


def main():
    if not shutil.which("valgrind"):
        print("no valgrind, so no instructions")
        return
    feed = sys.argv[3] if len(sys.argv) > 3 else "/dev/null"
    before = sys.argv[4] if len(sys.argv) > 4 else "true"
    counts = []
    for command in sys.argv[1:3]:
        subprocess.run(shlex.split(before), check=True)
        counts.append(count(command, feed))
    print(f"ours {counts[0]:.0f}, plain {counts[1]:.0f} million instructions, ratio {counts[0] / counts[1]:.2f}")


if __name__ == "__main__":
    main()
