#!/usr/bin/env python3
"""Refuses each allocation of runs of the built vol_tool in turn: a run ends with `out of memory`, or as if nothing was.

    tests/no_memory.py [PROGRAM]

It wants a C compiler, `cc`, for the library that refuses (refuse_memory.c); without one the rows are skipped. Where the store is asked,
an allocation for a path, for a folder's entries or of the system's own library may end as a store fault instead. Afterwards whole objects
stand, the first ones that are due, and no half of one, but that a copy into shards, or an update of some, may leave one file whose name
ends in .part.
"""
import collections
import contextlib
import dataclasses
import pathlib
import subprocess
import time

from disturbed import FULL_ROW, RUNS, in_store, want_front_of
from harness import LIMIT, Wrong, built, find_tool, main, want, want_true, words_in
from model import DOOR, MEMORY, OK, STORE, USAGE, Sharding, Volume, cutout, infos_of
from model.chance import some_chunks
from model.replies import SILENCE
from peers import PEERS, SERVE, WHOLE, connect, failed_of, fronts_of, is_answered, receive, serve_peers
from servers import fetch_words, python

# More allocations than a run of these has.
MOST_ALLOCATIONS = 10_000

NO_MEMORY = (MEMORY, b"out of memory\n")

# Scales of few and of many cells: none takes more allocations to be fetched than another, and none amid its output.
SHARDS = Sharding(1, False, 1, 1)
FETCHED = [Volume([2 * count, 1, count], [2, 1, 1], channels=2, sharding=sharding) for count in (2, 5) for sharding in (None, SHARDS)]


def build_library(trial):
    library = trial.folder / "refuse_memory.so"
    source = pathlib.Path(__file__).with_name("refuse_memory.c")
    command = [find_tool("cc"), "-O1", "-fno-builtin", "-shared", "-fPIC", "-o", library, source]
    want(subprocess.run(command, timeout=LIMIT).returncode, 0, "the library that refuses")
    return str(library)


def refuse_each(trial, title, files, run_with, want_refused):
    """
    Each allocation of a run over files is refused in turn, until it has no more.

    `run_with` runs in a folder with variables, and `want_refused` judges what it leaves, its files last, against what it leaves with
    memory.
    """
    library, statuses, whole = build_library(trial), collections.Counter(), None
    for number in range(MOST_ALLOCATIONS):

        def run_in(folder, note):
            return run_with(folder, {"LD_PRELOAD": library, "REFUSE": str(number), "REFUSED": str(note)})

        found, note = in_store(trial, files, run_in)
        if number == 0:
            whole = found
        elif note is None:
            print(f"{title}: {number - 1} allocations; runs by their status: {dict(statuses)}", flush=True)
            want_true(found == whole and number > 1, f"no allocation was refused: {found!r:.200}")
            return
        try:
            want_refused(found, whole)
        except Wrong as wrong:
            raise Wrong(f"allocation {number}: {wrong}") from wrong
        statuses[found[0]] += number > 0
    raise Wrong("it has more allocations than were tried")


def is_refused_each(trial, title, run):
    def run_with(folder, variables):
        return dataclasses.replace(trial, folder=folder).run(run.words, run.stream, **variables)

    def want_refused(found, whole):
        want(whole[:3], run.ending, "with memory")
        if whole[0] == OK:
            want(whole[3], run.after(), "files with memory")
        if found != whole:
            want_front_of(run, found, [NO_MEMORY] if run.ending[0] == USAGE else [NO_MEMORY, (STORE, b"store fault\n")])
            want_true(not found[1] or words_in(run.words)[0] == "cutout", f"output {found[1]!r}")

    refuse_each(trial, title, run.before, run_with, want_refused)


def is_refused_each_served(trial):
    def run_with(folder, variables):
        return serve_peers([trial.program, *SERVE], folder, variables)

    def want_refused(found, whole):
        status, line, output, errors, got, files = found
        want(whole[4], WHOLE, "with memory")
        want_true((status, errors) in [(OK, b""), NO_MEMORY, (DOOR, b"door fault\n")], f"status {status}, {errors!r}")
        want_true(not output and line in ([], [b"listening"]), f"output {line!r} {output!r}")
        want(files, whole[-1], "files")
        whole_ones = all(one in fronts_of(peer) + failed_of(peer) for one, peer in zip(got, PEERS))
        want_true(whole_ones and (status != OK or is_answered(got)), f"status {status}, and the peers got {got!r}")

    refuse_each(trial, "a served run", FULL_ROW, run_with, want_refused)


def got_in_silence(port, _peer):
    """What a peer gets that says nothing."""
    with contextlib.suppress(OSError), connect(port) as peer:
        return receive(peer)
    return b""


def is_refused_each_beside_a_silent_peer(trial):
    """What a connection takes it takes before it waits for a byte of its peer."""
    listening = []

    def run_with(folder, variables):
        command, begin = [trial.program, "serve", "d", "--port=0", "--connections=1"], time.monotonic()
        found = serve_peers(command, folder, variables, got_in_silence, ["silent"])
        return (*found, time.monotonic() - begin < SILENCE / 2)

    def want_refused(found, whole):
        want(whole, (OK, [b"listening"], b"", b"", [b""], False, FULL_ROW), "with memory")
        if found != whole:
            status, line, output, errors, got, is_soon, files = found
            want_true((status, errors) in [NO_MEMORY, (DOOR, b"door fault\n")] and is_soon, f"status {status}, {errors!r}, soon {is_soon}")
            want((output, b"".join(got), files), (b"", b"", FULL_ROW))
            listening.append(bool(line))

    refuse_each(trial, "a silent peer", FULL_ROW, run_with, want_refused)
    want_true(sum(listening) > 1, f"{sum(listening)} allocations behind the first line")


def is_refused_each_fetched(trial, volume):
    chunks = some_chunks(volume)
    ending = cutout(volume, volume.files(chunks))

    def run_with(folder, variables):
        with python(folder / "d") as port:
            apart = dataclasses.replace(trial, program=built("vol_fetch"), folder=folder)
            return apart.run(fetch_words(port, volume, volume.whole), **variables)

    def want_refused(found, whole):
        want(whole[:3], ending, "with memory")
        if found != whole:
            want_true((found[0], found[2]) in [NO_MEMORY, (STORE, b"store fault\n")], f"status {found[0]}, {found[2]!r}")
            want(found[1], b"", "output")

    files = {**infos_of(volume), **volume.files(chunks)}
    refuse_each(trial, f"a fetched box of {len(volume.cells)} cells", files, run_with, want_refused)


def rows():
    yield "a served run", is_refused_each_served
    yield "a silent peer", is_refused_each_beside_a_silent_peer
    for volume in FETCHED:
        yield f"a fetched box of {len(volume.cells)} cells", is_refused_each_fetched, volume
    for title, run in RUNS.items():
        yield title, is_refused_each, title, run


if __name__ == "__main__":
    main(rows)
