#!/usr/bin/env python3
"""Writes the example dataset `d` beside this script: one scale, `s`, of 6 x 5 x 4 voxels in chunks of 4 x 4 x 4.

The voxel (x, y, z) has the value x + 10 y + 60 z. The chunk of the far corner isn't stored, so it reads as zero.
"""
import json
import pathlib

SIZE = (6, 5, 4)
CHUNK = (4, 4, 4)
ABSENT = "4-6_4-5_0-4"


def spans(size, chunk):
    """The begin and end of each chunk along an axis. The last one ends with the scale."""
    return [(begin, min(begin + chunk, size)) for begin in range(0, size, chunk)]


def chunks():
    """The name and the bytes of each chunk: x fastest, then y, then z."""
    for z in spans(SIZE[2], CHUNK[2]):
        for y in spans(SIZE[1], CHUNK[1]):
            for x in spans(SIZE[0], CHUNK[0]):
                name = "_".join(f"{begin}-{end}" for begin, end in (x, y, z))
                yield name, bytes(
                    i + 10 * j + 60 * k for k in range(*z) for j in range(*y) for i in range(*x)
                )


def main():
    info = {
        "@type": "neuroglancer_multiscale_volume",
        "type": "image",
        "data_type": "uint8",
        "num_channels": 1,
        "scales": [
            {
                "key": "s",
                "size": list(SIZE),
                "chunk_sizes": [list(CHUNK)],
                "resolution": [8, 8, 40],
                "encoding": "raw",
            }
        ],
    }
    dataset = pathlib.Path(__file__).parent / "d"
    (dataset / "s").mkdir(parents=True, exist_ok=True)
    (dataset / "info").write_text(json.dumps(info, separators=(",", ":")) + "\n")
    for name, values in chunks():
        if name != ABSENT:
            (dataset / "s" / name).write_bytes(values)


if __name__ == "__main__":
    main()
