#!/usr/bin/env python3
"""Lets no file of a run of the built vol_tool grow past some bytes: whole objects stand, the first ones that are due, and nothing else.

    tests/no_room.py [PROGRAM]

A write, a list, an update, a copy and a reduction are run over scales of every form, with several shards, minishards and layers, by one
worker and by two, the first two also into two chunk sizes; and the limit is that of each object that is due, a byte less, half of it, and
none. The first object that is longer is a fault of the store. Then the command is run again without a limit, and all objects stand: over
what is left where it may be there, else in an emptied folder.

The same runs are made where no folder may be written, and runs that read also where a file or a folder may not be read: as nobody, where
root runs this. And names that differ in case alone are apart.
"""
import contextlib
import dataclasses
import functools
import itertools
import os
import pathlib
import random
import shutil

from harness import file_limit, main, objects_in, want, want_files, want_true
from model import Sharding, Volume, cutout, infos_of, refused, spell, verdict, voxels_in
from runs import apart, cutout_run, list_run, made_run, update_run, verify_run, write_run

# Three layers of cells, the last ones clipped on each axis.
RAW = Volume([5, 3, 5], [2, 2, 2], (-3, 0, 7), 2, 4)
SHARDING = Sharding(0, False, 1, 2)
FORMS = {
    "raw chunks": RAW,
    "raw chunks in shards": dataclasses.replace(RAW, sharding=SHARDING),
    "segmentations": dataclasses.replace(RAW, block=(2, 1, 2)),
    "segmentations in shards": dataclasses.replace(RAW, block=(2, 1, 2), sharding=SHARDING),
}

# Two chunk sizes, of which no box is the other's too.
SIZES = dataclasses.replace(RAW, more=([3, 3, 3],))


def at_random(seed, box):
    return [(box, random.Random(seed).randbytes(voxels_in(box) * RAW.channels * RAW.width))]


ALL = at_random(1, RAW.whole)
INNER = at_random(2, [(begin + 1, end - 1) for begin, end in RAW.whole])


def over_all(volume, *options):
    return update_run(volume, volume.files_after(ALL)[0], INNER, *options)


def made_into(method, volume, *options):
    """From raw chunks of another size, for a method of a scale that is twice as large but for an odd edge."""
    source = dataclasses.replace(RAW, chunk=[3, 3, 3], dataset="f", key="t")
    if method is not None:
        size, offset = [2 * RAW.size[0], 2 * RAW.size[1], 2 * RAW.size[2] - 1], tuple(2 * at for at in RAW.offset)
        source = dataclasses.replace(source, size=size, offset=offset, dataset="d")
    return made_run(method, source, volume, source.files_after(at_random(3, source.whole))[0], *options)


IN_EACH_SIZE = {
    "a write": lambda volume, *options: write_run(volume, ALL, *options),
    "a list": lambda volume, *options: list_run(volume, 7, 9, *options),
}
RUNS = {
    **IN_EACH_SIZE, "an update": over_all, "a copy": functools.partial(made_into, None),
    "a reduction": functools.partial(made_into, "mean"),
}


def rooms_of(files):
    """Limits around the lengths of files."""
    lengths = {len(content) for content in files.values()}
    return sorted({0, *lengths, *(length - 1 for length in lengths), *(length // 2 for length in lengths)})


def is_full(trial, volume, make_run, options):
    run = make_run(volume, *options)
    before = objects_in(run.before)
    for room in rooms_of(run.put):
        own = apart(trial, str(room))
        own.lay_out(run.before)
        front = dict(itertools.takewhile(lambda item: len(item[1]) <= room, run.put.items()))
        ending = run.ending if len(front) == len(run.put) else refused("store fault")
        own.want(run.words, ending, run.stream, prepare=file_limit(room))
        want_files(own.files(), {**before, **front}, f"with {room} bytes, file")
        if "update" not in run.words:
            own.lay_out({path: None for path in front})
        own.want(run.words, run.ending, run.stream)
        want_files(own.files(), {**before, **run.put}, f"without a limit behind {room} bytes, file")


# Folders and files that may not be used


NOBODY = 65534


def be_nobody():
    if os.geteuid() == 0:
        os.setgroups([])
        os.setgid(NOBODY)
        os.setuid(NOBODY)


def for_nobody(trial):
    """The same with a program that anybody may run, in a folder that anybody may read."""
    trial.folder.chmod(0o755)
    program = pathlib.Path(shutil.copy(trial.program, trial.folder / "program"))
    own = dataclasses.replace(apart(trial, "own"), program=program)
    own.folder.mkdir()
    return own


@contextlib.contextmanager
def with_mode(mode, paths):
    """Some paths with another mode."""
    before = {path: path.stat().st_mode for path in paths}
    for path in reversed(paths):
        path.chmod(mode)
    yield
    for path in paths:
        path.chmod(before[path])


def may_not_write(trial, volume, make_run, options):
    own, run = for_nobody(trial), make_run(volume, *options)
    own.lay_out(run.before)
    folders = [own.folder, *sorted(path for path in own.folder.rglob("*") if path.is_dir())]
    with with_mode(0o555, folders):
        own.want_unchanged(run.words, refused("store fault"), run.stream, prepare=be_nobody)


def reads_only(trial, volume):
    """What only reads needs no folder that it may write; and what it may not read is a fault of the store, and not absent."""
    own, files = for_nobody(trial), volume.files_after(ALL)[0]
    runs = [cutout_run(volume, files), verify_run(volume, files)]
    own.lay_out(runs[0].before)
    with with_mode(0o555, [own.folder, own.folder / "d", own.folder / "d/s"]):
        for run in runs:
            own.want_unchanged(run.words, run.ending, prepare=be_nobody)
    for path in ["d/info", "d", "d/s", *files]:
        with with_mode(0, [own.folder / path]):
            for run in runs:
                status, output, errors = own.run(run.words, prepare=be_nobody)
                want((status, errors), refused("store fault")[::2], f"{path} can't be read: the ending")
                # of a cutout the values of layers in front of what can't be read may be there
                want_true(run.ending[1].startswith(output) and (run is runs[0] or not output), f"{path} can't be read: {output!r:.100}")


def are_apart_by_case(trial, volume):
    """Where a file system looks at case, data sets and scales whose names differ in it alone have nothing in common."""
    volumes = [dataclasses.replace(volume, dataset=dataset, key=key) for dataset, key in itertools.product("dD", "sS")]
    trial.lay_out(infos_of(*volumes))
    due = {}
    for seed, each in enumerate(volumes):
        run = write_run(each, at_random(seed, volume.whole))
        trial.want(run.words, run.ending, run.stream)
        due |= run.put
    want_files(trial.files(), due)
    for each in volumes:
        trial.want(each.words("cutout", spell(volume.whole)), cutout(each, due, volume.whole))
        trial.want(each.words("verify"), verdict(each, due, volume.whole))


def rows():
    for options in ([], ["--workers=2"]):
        for (form, volume), (title, make_run) in itertools.product(FORMS.items(), RUNS.items()):
            yield f"{title}, {form}, {' '.join(options)}", is_full, volume, make_run, options
        for title, make_run in IN_EACH_SIZE.items():
            yield f"{title}, chunks of two sizes, {' '.join(options)}", is_full, SIZES, make_run, options
        for (form, volume), (title, make_run) in itertools.product(FORMS.items(), RUNS.items()):
            yield f"{title} where nothing may be written, {form}, {' '.join(options)}", may_not_write, volume, make_run, options
    for form, volume in FORMS.items():
        yield f"what may be read alone, or not, {form}", reads_only, volume
        yield f"names that differ in case, {form}", are_apart_by_case, volume


if __name__ == "__main__":
    main(rows)
