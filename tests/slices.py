#!/usr/bin/env python3
"""Makes the pictures of the README: the page of slices with an image of cells, and with its labels, in light and in dark.

    tests/slices.py [PROGRAM]

An image and its labels are made at random, from one number, and stored by the package; Chromium takes what `volume view` shows of each.
It needs Chromium, numpy and the program, and writes docs/pictures/slices-light.png and slices-dark.png.
"""
import base64
import contextlib
import os
import pathlib
import struct
import subprocess
import sys
import tempfile
import zlib

from browser import Browser
from harness import PROGRAM, ROOT, find_python

PICTURES = ROOT / "docs" / "pictures"
SIZE, GAP = (560, 520), 6
SHOWN = {"image": "at=280,128,16&low=0&high=255&labels=0&zoom=1", "labels": "at=280,128,16&labels=1&zoom=1"}

# Cells around points at random: their walls are bright, their insides have some grain. Labels are the points' numbers, and 0 in the walls.
MAKES = """
import numpy
import vol_tool

chance = numpy.random.default_rng(7)
shape = numpy.array([32, 256, 560])
points = chance.random((120, 3)) * shape
steps = numpy.array([5.0, 1.0, 1.0])
grid = numpy.stack(numpy.meshgrid(*map(numpy.arange, shape), indexing="ij"), axis=-1).astype("f4")
grid += 3 * numpy.sin(grid[..., ::-1] / 9)
first = numpy.full(shape, numpy.inf, "f4")
second, labels = first.copy(), numpy.zeros(shape, "u4")
for number, point in enumerate(points, 1):
    far = numpy.sqrt((((grid - point.astype("f4")) * steps.astype("f4")) ** 2).sum(axis=-1))
    nearer = far < first
    second = numpy.where(nearer, first, numpy.minimum(second, far))
    labels[nearer] = number
    first = numpy.minimum(first, far)
wall = numpy.clip((second - first) / 5, 0, 1)
inside = 60 + 70 * numpy.sin(labels * 2.4) ** 2
image = 225 - (225 - inside) * wall + 8 * numpy.round(0.36 * chance.standard_normal(shape))
image = 8 * numpy.round(image / 8)
labels[wall < 0.45] = 0
sizes = {"resolution": (8, 8, 40), "chunk": (64, 64, 16)}
vol_tool.write("slices", "image", numpy.clip(image, 0, 255).astype("u1"), **sizes)
vol_tool.write("labels", "labels", labels, encoding="compressed_segmentation", block=(8, 8, 8), **sizes)
"""


@contextlib.contextmanager
def viewing(folder, dataset, environment):
    """The address at which a data set is shown."""
    words = [sys.executable, ROOT / "bin/volume", "view", dataset]
    with subprocess.Popen(words, cwd=folder, env=environment, stdout=subprocess.PIPE, text=True) as child:
        try:
            yield child.stdout.readline().strip()
        finally:
            child.terminate()


def emulate(browser, scheme):
    browser.call("Emulation.setEmulatedMedia", features=[{"name": "prefers-color-scheme", "value": scheme}])


def pack(picture):
    """The same PNG, whose bytes are deflated anew: a browser does it in haste."""
    place, kept, data = 8, [picture[:8]], b""
    while place < len(picture):
        length, kind = struct.unpack(">I4s", picture[place : place + 8])
        if kind == b"IDAT":
            data += picture[place + 8 : place + 8 + length]
        else:
            kept.append(picture[place : place + 12 + length])
        place += 12 + length
    part = b"IDAT" + zlib.compress(zlib.decompress(data), 9)
    kept.insert(-1, struct.pack(">I", len(part) - 4) + part + struct.pack(">I", zlib.crc32(part)))
    return b"".join(kept)


def join(browser, pictures, path):
    """One picture of some that stand side by side."""
    images = "".join(f'<img src="data:image/png;base64,{base64.b64encode(picture).decode()}">' for picture in pictures)
    page = f'<!doctype html><style>body{{margin:0;display:flex;gap:{GAP}px;background:#8c959f}}</style>{images}'
    browser.resize(len(pictures) * SIZE[0] + GAP * (len(pictures) - 1), SIZE[1])
    browser.open(f"data:text/html;base64,{base64.b64encode(page.encode()).decode()}", "[...document.images].every(one => one.complete)")
    browser.take_picture(path)
    path.write_bytes(pack(path.read_bytes()))


def main():
    program = pathlib.Path(sys.argv[1] if len(sys.argv) > 1 else PROGRAM).resolve()
    environment = {**os.environ, "VOL_TOOL": str(program), "PYTHONPATH": str(ROOT / "python")}
    with tempfile.TemporaryDirectory() as name, Browser(SIZE) as browser:
        folder = pathlib.Path(name)
        subprocess.run([find_python("numpy"), "-c", MAKES], cwd=folder, env=environment, check=True)
        for scheme in ("light", "dark"):
            pictures = []
            for dataset, key in ("slices", "image"), ("labels", "labels"):
                with viewing(folder, dataset, environment) as address:
                    browser.resize(*SIZE)
                    emulate(browser, scheme)
                    browser.open(f"{address.partition('?')[0]}?scale={key}&{SHOWN[key]}", "window.slices")
                    browser.run("slices.settled()")
                    browser.take_picture(folder / "one.png")
                    pictures.append((folder / "one.png").read_bytes())
            join(browser, pictures, PICTURES / f"slices-{scheme}.png")


if __name__ == "__main__":
    main()
