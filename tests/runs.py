"""
What the scripts share that run commands over scales: runs, each with what is before it and what the models have of its end, runs that stop
halfway, and kills.
"""
import contextlib
import dataclasses
import pathlib
import tempfile
import time

from harness import FOLDER, contents, leaves, objects_in, open_closed_pipe, open_full, standing, want_files, want_front, want_true, wrong_with
from model import answer, copy_of, cutout, generated, infos_of, refused, spell, stored, stream_of, sum_of, update_of, verdict
from model.pyramids import reduction_of

WORKERS = (1, 2, 3, 16)


def pick_workers(chance):
    """The option that says how many workers there are, or none."""
    return chance.choice([[], *([f"--workers={count}"] for count in WORKERS)])


def apart(trial, name):
    """The same in a folder inside."""
    return dataclasses.replace(trial, folder=pathlib.Path(trial.folder, name))


# Runs


@dataclasses.dataclass(frozen=True)
class Run:
    """
    A run: the files before, its words and stream, what it ends with, the files that it puts, in their order, and how many that aren't
    finished it may leave where it is disturbed.
    """

    before: dict
    words: object
    stream: bytes
    ending: tuple
    put: dict = dataclasses.field(default_factory=dict)
    parts: int = 0

    def after(self):
        return {**self.before, **self.put}


def write_run(volume, writes, *options):
    files, put, cells = volume.files_after(writes)
    return Run(infos_of(volume), volume.words("write", *options), stream_of(writes), stored(len(put), cells), files)


def list_run(volume, number, count, *options):
    writes = generated(volume, number, count)
    files, put, _ = volume.files_after(writes)
    words = volume.words("generate", str(number), str(count), *options)
    return Run(infos_of(volume), words, b"", answer(count, put, sum_of(volume, writes)), files)


def update_run(volume, held, writes, *options):
    update, parts = update_of(volume, held, writes), int(volume.sharding is not None)
    return Run({**infos_of(volume), **held}, volume.words("update", *options), stream_of(writes), update.answer, update.files, parts)


def made_by(method, source, target, files):
    """The words of a copy, or of a next scale by a method, and what the model has of it."""
    if method is None:
        return source.words("reshard", target.dataset, target.key), copy_of(source, target, files)
    return source.words("downsample", target.key, f"--method={method}"), reduction_of(source, target, method, files)


def made_run(method, source, target, held, *options):
    """A scale that is made of another's files."""
    words, made = made_by(method, source, target, held)
    parts = int(target.sharding is not None)
    return Run({**infos_of(source, target), **held}, [*words, *options], b"", made.answer, made.files, parts)


def cutout_run(volume, files, box=None):
    box = box or volume.whole
    return Run({**infos_of(volume), **files}, volume.words("cutout", spell(box)), b"", cutout(volume, files, box))


def verify_run(volume, files):
    return Run({**infos_of(volume), **files}, volume.words("verify"), b"", verdict(volume, files))


def want_made(trial, method, source, target, *options):
    """A scale is made as the model has it of what stands. Gives the model's."""
    words, made = made_by(method, source, target, contents(standing(trial.folder)))
    trial.want_made([*words, *options], made)
    return made


def rows_of_stops(run):
    """A run that stops halfway, and one over what others left: of its own objects it is replaced."""
    paths = list(run.put)
    for title, count in (("first", 0), ("second", 1)):
        files, put = {**run.before, paths[count]: FOLDER}, dict(list(run.put.items())[:count])
        yield f"a folder in the {title} file's place", leaves, files, run.words, refused("store fault"), put, run.stream
    for title, output in (("to a full device", open_full), ("into a closed pipe", open_closed_pipe)):
        yield f"the line {title}", leaves, run.before, run.words, refused("output fault"), run.put, run.stream, output
    folder = pathlib.PurePath(paths[0]).parent
    left = {f"{folder}/a/b": FOLDER, f"{paths[0]}.part": bytes(100), f"{folder}/other.part": b"left"}
    yield "leftovers", leaves, {**run.before, **left}, run.words, run.ending, {**run.put, f"{paths[0]}.part": None}, run.stream


# Kills


@contextlib.contextmanager
def started(trial, run):
    """A run that goes on in a folder of its own."""
    with tempfile.TemporaryDirectory(dir=trial.folder) as name, tempfile.TemporaryFile() as feed:
        own = apart(trial, name)
        own.lay_out(run.before)
        feed.write(run.stream)
        feed.seek(0)
        process = own.start(run.words, stdin=feed)
        try:
            yield own, process
        finally:
            process.kill()
            process.wait()


def await_change(process, path):
    """Waits until a file is put or replaced, or the process has ended."""
    def number():
        with contextlib.suppress(FileNotFoundError):
            return path.stat().st_ino

    before = number()
    while process.poll() is None and number() == before:
        pass


def is_killed(trial, run, path, delay, judge):
    """A run that is killed so many seconds after a file was put, or after its begin, and then run again. Gives how many files were put."""
    with started(trial, run) as (own, process):
        if path is not None:
            await_change(process, own.folder / path)
        time.sleep(delay)
        process.kill()
        process.wait()
        held = objects_in(run.before)
        count = want_front(own.files(), held, run.put, parts_allowed=1)
        judge(own)
        if "update" in run.words:
            own.want(run.words, run.ending, run.stream)
            want_files(own.files(), {**held, **run.put}, "after a second run, file")
        elif count:
            own.want(run.words, refused("folder not empty"), run.stream)
    return count


def is_killed_often(trial, run, pick, kills, most=None, judge=lambda own: None):
    """
    A run that isn't killed, and so many kills; and where there may be more of them, so many until one came between the first file and the
    last. `pick` gives for the number of a kill which file is awaited, or None, and how many seconds behind it the kill comes; `judge` is
    given what stands then.
    """
    counts = []

    def kill(number):
        counts.append(is_killed(trial, run, *pick(number), judge))

    def is_between():
        return any(0 < count < len(run.put) for count in counts)

    def kill_between():
        for number in range(kills, most):
            if is_between():
                return
            kill(number)
        want_true(is_between(), f"there was none: {counts}")

    yield "a run that isn't killed", wrong_with(leaves, apart(trial, "whole"), run.before, run.words, run.ending, run.put, run.stream)
    for number in range(kills):
        yield f"kill {number}", wrong_with(kill, number)
    if most is not None:
        yield "a kill between the first file and the last", wrong_with(kill_between)
