#!/usr/bin/env python3
"""Breaks writes of the built vol_tool off: what stands afterwards is whole objects, and `.part` files where it was killed.

    tests/broken_off.py [PROGRAM]

A write is killed at a random moment, 50 times and until one of them came amid its objects; cutouts and judgements run while another
process writes; and a write meets a full disk, a small tmpfs, which is passed over with a word where none can be mounted.
"""
import dataclasses
import functools
import random
import subprocess
import tempfile
import time

from harness import LIMIT, Skipped, main, objects_in, snapshot, want, want_files, want_front, want_true, wrong_with
from model import OK, Sharding, Values, Volume, cutout, refused, sound, spell, verdict, voxels_in
from model.copies import read_cells, values_of
from model.pyramids import upper_of
from runs import apart, is_killed_often, list_run, made_run, started, update_run, write_run

SHARDS = Sharding(3, False, 2, 3)


def in_forms(chunks, labels):
    """Both in files and in shards, by their titles."""
    shards, labels_in_shards = (dataclasses.replace(volume, sharding=SHARDS) for volume in (chunks, labels))
    return {"chunks": chunks, "shards": shards, "labels": labels, "labels in shards": labels_in_shards}


# Segmentations have fewer voxels, which the model spells and reads; and so have next scales, which it reduces voxel by voxel.
FORMS = in_forms(Volume([256] * 3, [32] * 3), Volume([48] * 3, [8] * 3, width=4, block=(8, 8, 8)))
NEXT_FORMS = in_forms(Volume([32] * 3, [4] * 3), Volume([32] * 3, [4] * 3, width=4, block=(2, 2, 2)))

# Chunks of two sizes, of which no box is the other's too.
WITH_SIZES = {**FORMS, "two sizes": Volume([32] * 3, [4] * 3, more=([8] * 3,))}

KILLS = 50
MOST_KILLS = 1000
WRITES_WATCHED = 5

# The bytes of a page, which a file on a small disk has at least.
PAGE = 4096


def at_random(volume, seed, box):
    """No value is 0, so that each of them is told from a voxel that isn't written."""
    return [(box, random.Random(seed).randbytes(voxels_in(box) * volume.width).replace(b"\0", b"\1"))]


def all_voxels(volume):
    return at_random(volume, 1, volume.whole)


def over_some(volume):
    """
    An update of all voxels but the outermost, so that the outer chunks keep some of the old ones, or zeros: over a part of the scale, in
    chunks of all shards or of some.
    """
    side = volume.size[0]
    held, _, _ = volume.files_after(at_random(volume, 2, [(0, side // 2), (0, side // 2), (0, 5 * side // 32)]))
    return update_run(volume, held, at_random(volume, 3, [(1, side - 1)] * 3))


def made_of(method, source, volume):
    return made_run(method, source, volume, source.files_after(all_voxels(source))[0])


def copied(volume):
    """A copy of raw, larger chunks."""
    source = dataclasses.replace(volume, chunk=[2 * chunk for chunk in volume.chunk], block=None, sharding=None, dataset="f")
    return made_of(None, source, volume)


# title, the scales by their forms, and what makes the run for one
WORKS = {
    "a write": (WITH_SIZES, lambda volume: write_run(volume, all_voxels(volume))),
    "a list": (WITH_SIZES, lambda volume: list_run(volume, 5, 200)),
    "an update": (FORMS, over_some),
    "a copy": (FORMS, copied),
    "a next scale": (NEXT_FORMS, lambda volume: made_of("mean", upper_of(volume), volume)),
}


@functools.lru_cache(maxsize=1)
def run_of(form, work):
    """A scale of a form and a run into it; two workers write its labels."""
    scales, make_run = WORKS[work]
    volume = scales[form]
    run = make_run(volume)
    return volume, run if volume.block is None else dataclasses.replace(run, words=[*run.words, "--workers=2"])


def cut_of(volume):
    return volume.words("cutout", spell(volume.whole))


def want_standing(own, volume, run, parts_allowed):
    """A front of the files stands; a cutout gives what they have, and a judgement counts it. Gives how many stand."""
    files = own.files()
    own.want(cut_of(volume), cutout(volume, files))
    own.want("verify d s", verdict(volume, files))
    # the data set that is copied stands beside them
    return want_front(files, objects_in(run.before), run.put, parts_allowed)


def measure(trial, run):
    """How many seconds a write takes."""
    with started(trial, run) as (_, process):
        begin = time.monotonic()
        process.wait(LIMIT)
        return time.monotonic() - begin


def rows_of_kills(trial, form, work):
    """Kills from the begin or from the first object on; where none came amid the objects more come as soon as the first is there."""
    volume, run = run_of(form, work)
    first, chance, longest = next(iter(run.put)), random.Random(2), 1.2 * measure(trial, run)

    def pick(number):
        if number >= KILLS:
            return first, 0
        return (first, chance.uniform(0, longest / 20)) if number % 2 else (None, chance.uniform(0, longest))

    judge = functools.partial(want_standing, volume=volume, run=run, parts_allowed=1)
    return is_killed_often(trial, run, pick, KILLS, MOST_KILLS, judge)


def want_sound(found, last, cells):
    """A judgement finds nothing wrong, and at least so many chunks. Gives how many are stored."""
    there = next((count for count in range(last, cells + 1) if found == sound(cells, count)), None)
    want_true(there is not None, f"verify: {found!r}, and {last} chunks before")
    return there


def want_whole_chunks(found, volume, *scales):
    """Each chunk of a cutout is whole: all of an object's values, or those before."""
    status, output, errors = found
    want((status, errors, len(output)), (OK, b"", len(scales[0].raw)), "cutout")
    cut = Values(volume, [(volume.whole, output)])
    for box in map(volume.box_of, volume.cells):
        want_true(cut.of(box) in [values.of(box) for values in scales], f"cutout: {box} is torn")


def watch(trial, volume, run, *scales):
    """Cutouts and judgements while a write runs. Gives how many there were."""
    count = last = 0
    with started(trial, run) as (own, process):
        while process.poll() is None:
            last = want_sound(own.run("verify d s"), last, len(volume.cells))
            want_whole_chunks(own.run(cut_of(volume)), volume, *scales)
            count += 1
        want(process.wait(), OK, "the write's status")
        want_files(own.files(), {**objects_in(run.before), **run.put})
        want_standing(own, volume, run, 0)
    return count


def is_watched(trial, form, work):
    (volume, run), counts = run_of(form, work), []
    scales = [values_of(volume, read_cells(volume, files)) for files in (run.before, run.after())]
    for number in range(WRITES_WATCHED):
        yield f"watched write {number}", wrong_with(lambda: counts.append(watch(trial, volume, run, *scales)))
    yield "cutouts and judgements while a write runs", None if any(counts) else "there were none"


def pages_of(files):
    return sum(-(-len(content) // PAGE) for content in files.values())


def meets_full_disk(trial, form, work):
    (volume, run), own = run_of(form, work), apart(trial, "disk")
    own.folder.mkdir()
    # the files before, and half of what comes beside them
    size = PAGE * ((pages_of(run.before) + pages_of(run.after())) // 2)
    mount = ["mount", "-t", "tmpfs", "-o", f"size={size}", "tmpfs", own.folder]
    if subprocess.run(mount, capture_output=True, timeout=LIMIT).returncode != 0:
        raise Skipped("no tmpfs can be mounted, for which root is wanted")
    try:
        own.lay_out(run.before)
        own.want(run.words, refused("store fault"), run.stream)
        count = want_standing(own, volume, run, 0)
        want_true(0 < count < len(run.put), f"{count} objects stand")
    finally:
        subprocess.run(["umount", own.folder], check=True, timeout=LIMIT)


# Runs that only read


def read_is_killed(trial, words, due, delay):
    """A run that reads and is killed after so many seconds has printed a front of what is due, and leaves the folder as before."""
    before = snapshot(trial.folder)
    with tempfile.TemporaryFile(dir=trial.folder.parent) as output:
        process = trial.start(words, stdout=output)
        time.sleep(delay)
        process.kill()
        process.wait()
        output.seek(0)
        found = output.read()
    want_true(due.startswith(found) or found.startswith(due), f"output {found[:100]!r}")
    want_true(snapshot(trial.folder) == before, "the folder isn't as before")


def reads_are_killed(trial, form):
    volume, chance, own = FORMS[form], random.Random(2), apart(trial, "data")
    files = own.store(volume, volume.chunks_after(all_voxels(volume)))
    read_runs = {
        "a cutout": (cut_of(volume), cutout(volume, files)[1]),
        "a judgement": (volume.words("verify"), verdict(volume, files)[1]),
        "a server": (["serve", "d", "--port=0", "--connections=9"], b"listening "),
    }
    for title, case in read_runs.items():
        for number in range(KILLS):
            yield f"{title}: kill {number}", wrong_with(read_is_killed, own, *case, chance.uniform(0, 0.05))


def rows():
    for work, (scales, _) in WORKS.items():
        for form, volume in scales.items():
            yield f"{work} of {form}, kills", rows_of_kills, form, work
            # a reader of a shard that is replaced meanwhile may get the old one's index and the new one's bytes; and the second of two
            # sizes differs from the first until it stands
            if not (work == "an update" and volume.sharding or volume.more):
                yield f"{work} of {form}, watched", is_watched, form, work
            yield f"{work} of {form}, a full disk", meets_full_disk, form, work
    for form in FORMS:
        yield f"kills of runs that read {form}", reads_are_killed, form


if __name__ == "__main__":
    main(rows)
