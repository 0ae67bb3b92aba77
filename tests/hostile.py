#!/usr/bin/env python3
"""Gives the built vol_tool info documents, streams, stores and requests at random, most of them wrong: each is answered as is due.

    tests/hostile.py [PROGRAM [COUNT]]

What is due is worked out by plain models (model/infos.py, streams.py, answers.py, copies.py, updates.py, pyramids.py and heads.py).
COUNT is how many of each kind there are: documents; streams, of which each is written into an empty scale and then put over what it left;
lists of a number; stores of every form, of which some files are damaged, and which every command reads, those with a next scale apart; and
streams of requests, which come in pieces. Runs that are refused change nothing, and the others leave the files of the models.
"""
import contextlib
import dataclasses
import math
import random
import socket
import time

from harness import main, want, want_files
from model import cutout, infos_of, printed, refused, sound, spell, stored, stream_of, verdict
from model.chance import FORMS, damage_some, form_of, pick_box, pick_layouts, pick_scales, pick_sizes, pick_stored, pick_writes
from model.heads import replies_to
from model.infos import Refused as BadInfo
from model.infos import padded_voxels, scale_in
from model.odd import pick_info, pick_stream
from model.pyramids import METHODS
from model.requests import cut_at_random, pick_requests
from model.streams import Refused as BadStream
from model.streams import writes_in
from peers import connect, serving
from runs import list_run, pick_workers, want_made

NOWHERE = [(-(2**41), 1 - 2**41)] * 3
FEW_CELLS = 4096
FEW_BYTES = 2**20
MOST_CELLS = 2**22
MOST_PADDED = 2**22


# Documents


def answers_of(volume):
    """What some runs end with over a scale of which nothing is stored: they tell its box, its values, its cells and its limit."""
    begin, each = [(first, first + 1) for first, _ in volume.whole], volume.channels * volume.width
    cells = sum(math.prod(view.grid) for view in volume.views)
    padded = next((count for count in map(padded_voxels, volume.views) if count > MOST_PADDED), None)
    written = stored(0, 0) if padded is None else refused(f"padded voxels {padded} over {MOST_PADDED}")
    rows_of = [
        (volume.words("cutout", spell(NOWHERE)), refused(f"box {spell(NOWHERE)} outside {spell(volume.whole)}")),
        (volume.words("cutout", spell(begin)), printed(bytes(each))),
        (volume.words("write"), written),
        (volume.words("update"), refused("several chunk sizes") if volume.more and padded is None else written),
    ]
    # each cell of a judgement is looked for, and where there are several chunk sizes all values are compared
    if cells <= FEW_CELLS and (not volume.more or math.prod(volume.size) * each <= FEW_BYTES):
        rows_of.append((volume.words("verify"), sound(cells, 0)))
    elif cells > MOST_CELLS:
        rows_of.append((volume.words("verify"), refused(f"too many cells {cells}")))
    return rows_of


def judges_info(trial, seed):
    content = pick_info(random.Random(f"info {seed}"))
    trial.lay_out({"d/info": content})
    try:
        rows_of = answers_of(scale_in(content))
    except BadInfo as fault:
        told = refused(f"info of d: {fault}")
        rows_of = [(["cutout", "d", "s", spell(NOWHERE)], told), (["write", "d", "s"], told)]
    for words, wanted in rows_of:
        trial.want(words, wanted, stream_of([]))
    want_files(trial.files(), {})


# Streams


def want_written(trial, volume, content):
    """A stream that is written into an empty scale."""
    try:
        due, put, cells = volume.files_after(writes_in(volume, content))
        wanted = stored(len(put), cells)
    except BadStream as fault:
        due, wanted = {}, refused(str(fault))
    trial.want(volume.words("write"), wanted, content)
    want_files(trial.files(), due)


def want_updated(trial, volume, content):
    """A stream that is put over what stands."""
    if volume.more:
        trial.want_unchanged(volume.words("update"), refused("several chunk sizes"), content)
        return
    try:
        writes = writes_in(volume, content)
    except BadStream as fault:
        trial.want_unchanged(volume.words("update"), refused(str(fault)), content)
    else:
        trial.want_update(volume, writes)


def judges_streams(trial, seed):
    chance = random.Random(f"streams {seed}")
    volume = pick_sizes(chance, *pick_layouts(chance, [form_of(seed)]))
    trial.lay_out(infos_of(volume))
    want_written(trial, volume, pick_stream(chance, volume))
    want_updated(trial, volume, pick_stream(chance, volume))


def judges_lists(trial, seed):
    """A list that is made from a number, in an empty scale."""
    chance = random.Random(f"lists {seed}")
    volume = pick_sizes(chance, *pick_layouts(chance, [form_of(seed)]))
    run = list_run(volume, chance.randrange(2**31), chance.randint(0, 5), *pick_workers(chance))
    trial.lay_out(run.before)
    trial.want(run.words, run.ending)
    want_files(trial.files(), run.put)


# Stores


def judges_stores(trial, seed):
    """A store of which some files are damaged, by each command."""
    chance = random.Random(f"stores {seed}")
    volume, other = pick_layouts(chance, [form_of(seed), form_of(seed, len(FORMS))])
    target = dataclasses.replace(other, dataset="e", key="t")
    files = volume.files(pick_stored(chance, volume))
    trial.lay_out({**infos_of(volume), **infos_of(target), **files})
    trial.lay_out(damage_some(chance, volume, files))
    files = trial.files()
    for box in (volume.whole, pick_box(chance, volume), pick_box(chance, volume)):
        trial.want(volume.words("cutout", spell(box)), cutout(volume, files, box))
        trial.want(volume.words("verify", spell(box)), verdict(volume, files, box))
    if files:
        trial.want(volume.words("write"), refused("folder not empty"), stream_of([]))
        trial.want(volume.words("generate", "1", "1"), refused("folder not empty"))
    want_files(trial.files(), files)
    want_made(trial, None, volume, target, *pick_workers(chance))
    trial.want_update(volume, pick_writes(chance, volume, chance.randint(1, 3)), *pick_workers(chance))


def judges_next_scales(trial, seed):
    """The next scale of one of which some files are damaged."""
    chance = random.Random(f"next scales {seed}")
    source, target = pick_scales(chance, [form_of(seed), form_of(seed, len(FORMS))])
    target = dataclasses.replace(target, key="t")
    files = source.files(pick_stored(chance, source))
    trial.lay_out({**infos_of(source, target), **damage_some(chance, source, files)})
    want_made(trial, chance.choice(list(METHODS)), source, target, *pick_workers(chance))


# Requests

OBJECTS = {"d/s/x": b"0123456789", "d/s/empty": b"", "d/s/long": b"long" * 40_000, "d/s/...": b"dots", "d/info": b"{}"}

TARGETS = ["/s/x", "/s/x", "/s/empty", "/s/long", "/info", "/s/..."]

# How many connections a server has here, and how long a peer waits between two pieces, in seconds.
CONNECTIONS = 20
PAUSE = 0.001


def talk_in_pieces(port, pieces):
    """All that a server sends to pieces that are sent apart."""
    with connect(port) as peer:
        peer.setsockopt(socket.IPPROTO_TCP, socket.TCP_NODELAY, 1)
        # a server that closed takes no more
        with contextlib.suppress(ConnectionError):
            for piece in pieces:
                peer.sendall(piece)
                time.sleep(PAUSE)
            peer.shutdown(socket.SHUT_WR)
        with peer.makefile("rb") as received:
            return received.read()


def answers_requests(trial, seed):
    """The connections of a server, each with a stream of requests."""
    trial.lay_out({**OBJECTS, "d/s/x.part": b"unfinished"})
    with serving(trial, CONNECTIONS) as port:
        for number in range(CONNECTIONS):
            chance = random.Random(f"requests {seed} {number}")
            stream = pick_requests(chance, TARGETS, chance.randint(0, 3))
            wanted, _ = replies_to(stream, OBJECTS)
            pieces = cut_at_random(chance, stream, 60)
            want(talk_in_pieces(port, pieces), wanted, f"to {pieces!r:.300}")


def rows(count):
    for seed in range(-(-count // CONNECTIONS)):
        yield f"requests {seed}", answers_requests, seed
    for seed in range(count):
        yield f"an info {seed}", judges_info, seed
        yield f"streams {seed}", judges_streams, seed
        yield f"a list {seed}", judges_lists, seed
        yield f"a store {seed}", judges_stores, seed
        yield f"a next scale {seed}", judges_next_scales, seed


if __name__ == "__main__":
    main(rows, count=80)
