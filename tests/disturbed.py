"""What the scripts share that disturb small runs: the runs, over a row of three voxels and volumes of layers, and what may come."""
import dataclasses
import pathlib
import tempfile

from harness import files_in, lay_out, want_front, want_true
from model import Sharding, Volume, along, infos_of, line, refused, sound, stream_of, voxels_in
from model.pyramids import next_of, upper_of
from runs import Run, cutout_run, list_run, made_run, update_run, verify_run, write_run

# A row, and the same in two shards, of two minishards each; what it holds, and the same with a chunk that is too long.
SHARDING = Sharding(0, False, 1, 1)
ROW, SHARDED = line(3), line(3, sharding=SHARDING)
THREE, TWICE = [(ROW.whole, b"\1\2\3")], [(ROW.whole, b"\1\2\3"), (along(1, 2), b"\2")]
ROW_FILES, SHARDS = (volume.files_after(THREE)[0] for volume in (ROW, SHARDED))
FULL_ROW = {**infos_of(ROW), **ROW_FILES}
TORN = {**ROW_FILES, "d/s/1-2_0-1_0-1": b"\2\2"}
BAD_SHARD = SHARDED.files({(0, 0, 0): b"\1", (1, 0, 0): b"\2", (2, 0, 0): b"\3\3"})

# What an update of the row, or of its first voxel, has over: other values, of which one is missing.
OLD = {"d/s/0-1_0-1_0-1": b"\7", "d/s/2-3_0-1_0-1": b"\x08"}
OLD_SHARDS = SHARDED.files_after([(ROW.whole, b"\7\2\3")])[0]

# The row in pairs; with labels of four bytes, and these in blocks; and what an update of the blocks has over.
PAIRS = line(3, 2, dataset="e")
LABELS, BLOCKS = line(3, width=4), line(3, 2, width=4, block=(8, 8, 8))
LABELLED = LABELS.files_after([(ROW.whole, b"\1\0\1\0\2\0\2\0\3\0\3\0")])[0]
OLD_BLOCKS, NEW_LABELS = BLOCKS.files_after([(ROW.whole, bytes(range(12)))])[0], [(along(1, 3), bytes(8))]

# The next scale, a chunk a voxel, and the same in shards.
NEXT, NEXT_IN_SHARDS = next_of(ROW, key="t"), next_of(ROW, key="t", sharding=SHARDING)

# Two layers of two channels each, a chunk a voxel.
LAYERS = Volume([1, 1, 2], [1, 1, 1], channels=2)
LAYER_FILES = LAYERS.files({(0, 0, 0): b"\1\2", (0, 0, 1): b"\3\4"})

# A row of four voxels that is stored whole and in halves, and what it holds; and the halves alone.
SIZES, HALVES = line(4, 4, 2), line(4, 2)
FOUR = [(along(0, 4), b"\1\2\3\4")]
SIZES_FILES = SIZES.files_after(FOUR)[0]

OUTSIDE = stream_of(FOUR)
WRITE, GENERATE, VERIFY, COPY, CUT = "write d s", "generate d s 7 3", "verify d s", "reshard d s e s", "cutout d s [0:3,0:1,0:1]"
WORKERS = "--workers=3"
NOT_EMPTY = refused("folder not empty")
SEVERAL = refused("several chunk sizes")
BEYOND = refused("box [0:4,0:1,0:1] outside [0:3,0:1,0:1]")


def elsewhere(volume):
    return dataclasses.replace(volume, dataset="e")


def puts_nothing(run):
    """All cells are prepared before the first one is stored."""
    return dataclasses.replace(run, put={})


def want_front_of(run, found, endings, parts_allowed=0):
    """A run that is disturbed has one of these statuses and lines, and a front of its output and of its files."""
    status, output, errors, files = found
    want_true((status, errors) in endings, f"status {status}, {errors!r}")
    want_true(run.ending[1].startswith(output), f"output {output!r}")
    want_front(files, run.before, run.put, max(run.parts, parts_allowed))


# Scales of three layers in two shards, of two minishards each, with two channels: raw chunks of a voxel, and segmentations of two.
DEEP = {
    "deep shards": Volume([2, 1, 3], [1, 1, 1], channels=2, sharding=SHARDING),
    "deep shards of blocks": Volume([4, 1, 3], [2, 1, 1], channels=2, width=4, block=(2, 1, 1), sharding=SHARDING),
}


def counting(volume, box, first):
    """A write of a box with the values from a number on."""
    values = range(first, first + voxels_in(box) * volume.channels)
    return box, b"".join(value.to_bytes(volume.width, "little") for value in values)


def deep_runs(title, volume):
    """Runs of each command over a deep scale, and of one that makes it of the scale above."""
    writes, over = [counting(volume, volume.whole, 1)], [counting(volume, [volume.whole[0], (0, 1), (1, 3)], 101)]
    chunks, workers = volume.chunks_after(writes), "--workers=2"
    files, torn = volume.files(chunks), volume.files({**chunks, volume.cells[-1]: chunks[volume.cells[-1]][:-1]})
    upper = upper_of(volume)
    uppers = upper.files_after([counting(upper, upper.whole, 1)])[0]
    torn_uppers = {**uppers, upper.path_of(upper.cells[-1]): b""}
    target = dataclasses.replace(volume, dataset="e", chunk=[*volume.chunk[:2], 2])
    return {
        f"a write into {title}": write_run(volume, writes),
        f"a write into {title} with workers": write_run(volume, writes, workers),
        f"a list into {title}": list_run(volume, 7, 3),
        f"an update of {title}": update_run(volume, files, over),
        f"an update of {title} with workers": update_run(volume, files, over, workers),
        f"a cutout of {title}": cutout_run(volume, files),
        f"a cutout of damaged {title}": cutout_run(volume, torn),
        f"a judgement of {title}": verify_run(volume, files),
        f"a judgement of damaged {title}": verify_run(volume, torn),
        f"a copy of {title}": made_run(None, volume, target, files),
        f"a copy of {title} with workers": made_run(None, volume, target, files, workers),
        f"a next scale into {title}": made_run("mode", upper, volume, uppers),
        f"a next scale into {title} with workers": made_run("mode", upper, volume, uppers, workers),
        f"a copy of damaged {title}": puts_nothing(made_run(None, volume, target, torn)),
        f"a next scale into {title} of a damaged object": puts_nothing(made_run("mode", upper, volume, torn_uppers)),
    }


DEEP_RUNS = {name: run for title, volume in DEEP.items() for name, run in deep_runs(title, volume).items()}

# Of a scale of two chunk sizes.
SIZES_RUNS = {
    "a write of two sizes": write_run(SIZES, FOUR),
    "a write of two sizes with workers": write_run(SIZES, FOUR, WORKERS),
    "a list of two sizes": list_run(SIZES, 7, 3),
    "an update of two sizes": Run({**infos_of(SIZES), **SIZES_FILES}, "update d s", stream_of(FOUR), SEVERAL),
    "a cutout of two sizes": cutout_run(SIZES, SIZES_FILES),
    "a judgement of two sizes": verify_run(SIZES, SIZES_FILES),
    "a judgement of sizes that differ": verify_run(SIZES, {**SIZES_FILES, "d/s/2-4_0-1_0-1": b"\3\5"}),
    "a copy of two sizes": made_run(None, SIZES, elsewhere(HALVES), SIZES_FILES),
    "a copy into two sizes": Run({**infos_of(HALVES, elsewhere(SIZES)), **HALVES.files_after(FOUR)[0]}, COPY, b"", SEVERAL),
}

RUNS = {
    "a write": write_run(ROW, TWICE),
    "a write with workers": write_run(ROW, THREE, WORKERS),
    "a write beside unfinished files":
        dataclasses.replace(write_run(ROW, THREE), before={**infos_of(ROW), "d/s/a/b.part": b"", "d/s/c/d/e.part": b""}),
    "a write of nothing": write_run(ROW, []),
    "a write into shards": write_run(SHARDED, TWICE),
    "an update": update_run(ROW, OLD, TWICE),
    "an update with workers": update_run(ROW, OLD, TWICE, WORKERS),
    "an update of nothing": update_run(ROW, OLD, []),
    "an update of an empty scale": update_run(SHARDED, {}, THREE),
    "an update of a shard": update_run(SHARDED, OLD_SHARDS, [(along(0, 1), b"\1")]),
    "an update of shards": update_run(SHARDED, OLD_SHARDS, THREE, WORKERS),
    "an update of blocks": update_run(BLOCKS, OLD_BLOCKS, NEW_LABELS),
    "an update of blocks with workers": update_run(BLOCKS, OLD_BLOCKS, NEW_LABELS, WORKERS),
    "an update of a damaged object": puts_nothing(update_run(ROW, TORN, TWICE)),
    "an update of a damaged shard": dataclasses.replace(update_run(SHARDED, {**OLD_SHARDS, "d/s/1.shard": b"short"}, THREE), parts=0),
    "an update outside": Run({**infos_of(ROW), **OLD}, "update d s", OUTSIDE, refused("write 0: outside scale")),
    "a list": list_run(ROW, 7, 3),
    "a list with workers": list_run(ROW, 7, 3, WORKERS),
    "a list into shards": list_run(SHARDED, 7, 3),
    "a list beside objects": Run(FULL_ROW, GENERATE, b"", NOT_EMPTY),
    "a cutout": cutout_run(ROW, ROW_FILES),
    "a cutout of nothing": cutout_run(ROW, {}),
    "a cutout of layers": cutout_run(LAYERS, LAYER_FILES),
    "a cutout of a damaged layer": cutout_run(LAYERS, {**LAYER_FILES, "d/s/0-1_0-1_1-2": b"\3"}),
    "a cutout of shards": cutout_run(SHARDED, SHARDS),
    "a copy": made_run(None, ROW, PAIRS, ROW_FILES),
    "a copy with workers": made_run(None, ROW, PAIRS, ROW_FILES, WORKERS),
    "a copy of nothing": made_run(None, ROW, PAIRS, {}),
    "a copy into shards": made_run(None, ROW, elsewhere(SHARDED), ROW_FILES),
    "a copy out of shards": made_run(None, SHARDED, PAIRS, SHARDS),
    "a copy into blocks": made_run(None, LABELS, elsewhere(BLOCKS), LABELLED),
    "a copy into blocks with workers": made_run(None, LABELS, elsewhere(BLOCKS), LABELLED, WORKERS),
    "a copy of a damaged object": puts_nothing(made_run(None, ROW, elsewhere(ROW), TORN)),
    "a copy into a folder that isn't empty": Run({**infos_of(ROW, PAIRS), **ROW_FILES, "e/s/a": b""}, COPY, b"", NOT_EMPTY),
    "a copy into another volume": Run({**FULL_ROW, **infos_of(elsewhere(LABELS))}, COPY, b"", refused("differs data_type")),
    "a copy into no scale": Run(FULL_ROW, COPY, b"", refused("info of e: absent")),
    "a next scale": made_run("mean", ROW, NEXT, ROW_FILES),
    "a next scale with workers": made_run("mean", ROW, NEXT, ROW_FILES, WORKERS),
    "a next scale in shards": made_run("mean", ROW, NEXT_IN_SHARDS, ROW_FILES),
    "a next scale of a damaged object": puts_nothing(made_run("mean", ROW, NEXT, TORN)),
    "a next scale into a folder that isn't empty":
        Run({**infos_of(ROW, NEXT), **ROW_FILES, "d/t/a": b""}, "downsample d s t --method=mean", b"", NOT_EMPTY),
    "a judgement": verify_run(ROW, ROW_FILES),
    "a judgement of a box": Run(FULL_ROW, f"{VERIFY} [1:3,0:1,0:1]", b"", sound(2, 2)),
    "a judgement of shards": verify_run(SHARDED, SHARDS),
    "a judgement of a damaged object": verify_run(ROW, TORN),
    "a judgement of a damaged shard": verify_run(SHARDED, BAD_SHARD),
    "a judgement outside": Run(FULL_ROW, f"{VERIFY} [0:4,0:1,0:1]", b"", BEYOND),
    "a folder that isn't empty": Run({**infos_of(ROW), "d/s/a/b": b""}, WRITE, stream_of(THREE), NOT_EMPTY),
    "a write outside": Run(infos_of(ROW), WRITE, OUTSIDE, refused("write 0: outside scale")),
    "a broken stream": Run(infos_of(ROW), WRITE, stream_of(THREE)[:-1], refused("write 0: truncated")),
    "a box outside": Run(infos_of(ROW), "cutout d s [0:4,0:1,0:1]", b"", BEYOND),
    "a damaged object": cutout_run(ROW, TORN),
    "no such scale": Run(infos_of(ROW), "cutout d t [0:3,0:1,0:1]", b"", refused("info of d: scale absent")),
    "a broken info": Run({"d/info": ROW.info()[:-1]}, CUT, b"", refused("info of d: not json")),
    "no info": Run({}, CUT, b"", refused("info of d: absent")),
    "no command": Run(infos_of(ROW), "cut", b"", refused("usage")),
    **SIZES_RUNS,
    **DEEP_RUNS,
}


def in_store(trial, files, run_in):
    """
    What a run in a folder with files leaves, its files last, and what it noted: `run_in` is given the folder and the path of a note that
    may be made.
    """
    with tempfile.TemporaryDirectory(dir=trial.folder) as name:
        folder, note = pathlib.Path(name) / "store", pathlib.Path(name) / "note"
        folder.mkdir()
        lay_out(folder, files)
        found = run_in(folder, note)
        return (*found, files_in(folder)), note.read_text(errors="replace") if note.exists() else None
