"""
What the scripts share: rows that have names and are picked, run side by side and told; and runs of the built program, each row in
a temporary folder of its own. A script gives `main` its rows: each a title, a function and what it is called with behind the row's
`Trial`. The function raises `Wrong`; one that goes through several rows yields each one's title, and what is wrong or None. A row that
can't be tried for want of a tool raises `Skipped`, which is counted; rows.txt says how many rows a script has, and fewer are a fault.
"""
import argparse
import collections
import contextlib
import dataclasses
import functools
import importlib.util
import itertools
import multiprocessing
import os
import pathlib
import re
import resource
import shutil
import signal
import subprocess
import sys
import tempfile
import time
import traceback

from model import OK, cutout, infos_of, printed, spell, stored, stream_of, update_of

ROOT = pathlib.Path(__file__).resolve().parent.parent
CRATES = ROOT / "crates"
PROGRAM, HALL_PROGRAM = (CRATES / name / "out" / name for name in ("vol_tool", "vol_serve"))

# How many rows each script of the gate has.
ROWS = ROOT / "tests" / "rows.txt"

# How long a run may take, in seconds.
LIMIT = 60


class Wrong(Exception):
    """What is wrong with a row."""


class Skipped(Exception):
    """Why a row isn't tried."""


def shorten(value):
    text = repr(value)
    return text if len(text) <= 200 else f"{text[:200]}.. ({len(text)} characters)"


def tell_difference(found, wanted):
    """Two values that differ; of long bytes or texts what stands around the first difference."""
    if type(found) is type(wanted) and isinstance(found, (bytes, str)) and max(len(found), len(wanted)) > 100:
        pairs = enumerate(zip(found, wanted))
        place = next((place for place, (one, other) in pairs if one != other), min(len(found), len(wanted)))
        part = slice(max(0, place - 8), place + 24)
        lengths = f" of {len(found)} and {len(wanted)}"
        return f"from {part.start}{lengths} on {found[part]!r} wanted {wanted[part]!r}"
    return f"{shorten(found)} wanted {shorten(wanted)}"


def want(found, wanted, what="it"):
    if found != wanted:
        raise Wrong(f"{what}: {tell_difference(found, wanted)}")


def want_true(is_right, wrong):
    if not is_right:
        raise Wrong(wrong)


def want_ending(found, wanted, what="it"):
    """The status, the output and the standard error of a run."""
    for part, one, other in zip(("status", "output", "standard error"), found, wanted):
        want(one, other, f"{what}: {part}" + (f" (it tells {found[2]!r:.200})" if part == "status" else ""))


def wrong_with(judge, *arguments):
    """What is wrong with what is judged, or None; or that it is skipped."""
    try:
        judge(*arguments)
    except Wrong as wrong:
        return str(wrong)
    except Skipped as skipped:
        return skipped


@contextlib.contextmanager
def within(least, most, what="it"):
    """What is done here takes so many seconds."""
    begin = time.monotonic()
    yield
    spent = time.monotonic() - begin
    want_true(least <= spent <= most, f"{what} took {spent:.1f} s")


def want_files(found, wanted, what="file"):
    for path in sorted({*found, *wanted}):
        want(found.get(path), wanted.get(path), f"{what} {path}")


def want_put(before, after, put):
    """Of files, as they stand in a folder, these are put, or gone, which is None; all others are as they were."""
    want_files(*({path: entry for path, entry in found.items() if path not in put} for found in (after, before)))
    want_files({path: after[path][2] for path in put if path in after}, {path: due for path, due in put.items() if due is not None})


def front_in(files, due):
    """The first ones of those that are due, as far as they stand."""
    return dict(itertools.takewhile(lambda item: files.get(item[0]) == item[1], due.items()))


def want_front(files, before, due, parts_allowed=0):
    """
    Files are those before, with a front of those that are put in their place or beside them, in their order, and at most so many whose
    names end in .part. Gives how long that front is.
    """
    front = front_in(files, due)
    parts = [path for path in files if path not in {**before, **front} and path.endswith(".part")]
    want_files({path: content for path, content in files.items() if path not in parts}, {**before, **front})
    want_true(len(parts) <= parts_allowed, f"not finished: {parts}")
    return len(front)


# What a file may be instead of its bytes: nothing, another kind of file, or bytes by their places, with holes between.
NONE, PIPE, FOLDER, LOOP, DEVICE = None, "pipe", "folder", "loop", "device"


def lay_out(folder, files):
    for name, content in files.items():
        path = folder / name
        if content is NONE:
            with contextlib.suppress(FileNotFoundError, NotADirectoryError):
                path.unlink()
            continue
        path.parent.mkdir(parents=True, exist_ok=True)
        if content == PIPE:
            os.mkfifo(path)
        elif content == FOLDER:
            path.mkdir(parents=True)
        elif content in (LOOP, DEVICE):
            path.symlink_to(path.name if content == LOOP else "/dev/zero")
        else:
            with path.open("wb") as file:
                for place, piece in content.items() if isinstance(content, dict) else [(0, content)]:
                    file.seek(place)
                    file.write(piece)
                file.truncate()


def put_program(path, text):
    path.parent.mkdir(parents=True, exist_ok=True)
    path.write_text(text)
    path.chmod(0o755)
    return path


def files_in(folder):
    return {str(path.relative_to(folder)): path.read_bytes() for path in sorted(folder.rglob("*")) if path.is_file()}


def objects_in(files):
    """Files but for the data sets' info documents."""
    return {path: content for path, content in files.items() if pathlib.PurePath(path).name != "info"}


def snapshot(folder):
    """Each path of a folder, with what it is and what it holds."""
    found = {}
    for path in sorted(folder.rglob("*")):
        content = os.readlink(path) if path.is_symlink() else path.read_bytes() if path.is_file() else None
        found[str(path.relative_to(folder))] = (path.lstat().st_mode, path.lstat().st_mtime_ns, content)
    return found


def standing(folder):
    """Each file of a folder with its mode, its time and its bytes."""
    return {path: entry for path, entry in snapshot(folder).items() if entry[2] is not None}


def contents(files):
    return {path: entry[2] for path, entry in files.items()}


# Streams that fail.


def open_folder():
    return os.open("/", os.O_RDONLY)


def open_full():
    return os.open("/dev/full", os.O_WRONLY)


def open_closed_pipe():
    """The end to write to of a pipe that nobody reads."""
    read_end, write_end = os.pipe()
    os.close(read_end)
    return write_end


NO_OUTPUTS = [("a full device", open_full), ("a closed pipe", open_closed_pipe)]


@contextlib.contextmanager
def opened(stream):
    """A stream of a run, which a function may open."""
    found = stream() if callable(stream) else stream
    try:
        yield found
    finally:
        if callable(stream):
            os.close(found)


def memory_limit(count):
    return lambda: resource.setrlimit(resource.RLIMIT_DATA, (count, count))


def file_limit(count):
    """From now on no file of a process grows past so many bytes, as where a disk is full."""

    def prepare():
        signal.signal(signal.SIGXFSZ, signal.SIG_IGN)
        resource.setrlimit(resource.RLIMIT_FSIZE, (count, count))

    return prepare


def descriptor_limit(count):
    """From now on a process may have so many files and sockets open."""
    hard = resource.getrlimit(resource.RLIMIT_NOFILE)[1]
    return lambda: resource.setrlimit(resource.RLIMIT_NOFILE, (count, hard))


def call(command, folder, errors=subprocess.PIPE, **environment):
    """What a command ends with that reads nothing: its status, its output and its standard error, as texts."""
    done = subprocess.run(command, cwd=folder, stdin=subprocess.DEVNULL, stdout=subprocess.PIPE, stderr=errors, timeout=LIMIT,
                          env={**os.environ, **environment})
    return done.returncode, done.stdout.decode(), (done.stderr or b"").decode()


def call_on_terminal(command, folder, **environment):
    """The same of a command whose standard error is a terminal."""
    ours, theirs = os.openpty()
    with open(ours, "rb", buffering=0) as terminal:
        status, output, _ = call(command, folder, errors=theirs, **environment)
        os.close(theirs)
        # where nothing was written there is nothing to read
        with contextlib.suppress(OSError):
            return status, output, terminal.read(4096).decode()
    return status, output, ""


def words_in(text):
    return text.split() if isinstance(text, str) else text


def built(name):
    """A program beside vol_tool, or the one that the environment names, as VOL_FETCH names vol_fetch."""
    return pathlib.Path(os.environ.get(name.upper(), CRATES / name / "out" / name)).resolve()


@dataclasses.dataclass(frozen=True)
class Trial:
    """A row that is tried: the program, and the folder in which it runs."""

    program: pathlib.Path
    folder: pathlib.Path

    @classmethod
    def of(cls, trial):
        """The same row with the methods of a class of its own."""
        return cls(trial.program, trial.folder)

    def run(self, words, feed=b"", output=subprocess.PIPE, prepare=None, **environment):
        """
        What a run ends with: its status, its output where that is a pipe, and its standard error. `words` are a text without blanks
        in them, or a list. `feed` is what the standard input gives: bytes, or an open file; it and `output` may be functions that open
        them. `prepare` is called in the new process before the program begins.
        """
        with opened(feed) as stdin, opened(output) as stdout:
            given = {"input": stdin} if isinstance(stdin, bytes) else {"stdin": stdin}
            done = subprocess.run(
                [os.fsencode(self.program), *map(os.fsencode, words_in(words))], cwd=self.folder, stdout=stdout,
                stderr=subprocess.PIPE, timeout=LIMIT, preexec_fn=prepare, env={**os.environ, **environment}, **given,
            )
        return done.returncode, done.stdout or b"", done.stderr

    def want(self, words, wanted, *streams, **how):
        """A run ends with this status, output and standard error."""
        spelled = " ".join(map(str, words_in(words)))
        want_ending(self.run(words, *streams, **how), wanted, f"{spelled:.120}")

    def want_unchanged(self, words, wanted, *streams, **how):
        """So does a run that leaves the folder as it is."""
        before = snapshot(self.folder)
        self.want(words, wanted, *streams, **how)
        want_true(snapshot(self.folder) == before, "the folder isn't as before")

    def start(self, words, **streams):
        quiet = {name: subprocess.DEVNULL for name in ("stdin", "stdout", "stderr")}
        return subprocess.Popen([self.program, *words_in(words)], cwd=self.folder, **{**quiet, **streams})

    def lay_out(self, files):
        lay_out(self.folder, files)

    def files(self):
        return objects_in(files_in(self.folder))

    def write(self, volume, writes, *options):
        """Writes boxes into a scale, whose info it puts; what is due is told and stands. Gives the files."""
        self.lay_out(infos_of(volume))
        files, put, cells = volume.files_after(writes)
        self.want(volume.words("write", *options), stored(len(put), cells), stream_of(writes))
        want_files(self.files(), files)
        return files

    def want_made(self, words, made, feed=b""):
        """
        A run ends as the model's: its files stand in the place of those before or beside them, or a front of them where it broke off, and
        perhaps what there is of the next one; all others are as they were.
        """
        before = standing(self.folder)
        want_ending(self.run(words, feed), made.answer)
        after = standing(self.folder)
        put = made.files if made.answer[0] == OK else front_in(contents(after), made.files)
        begun = {f"{path}.part" for path in made.paths[len(put) : len(put) + 1]} - {*before}
        want_put(before, {path: entry for path, entry in after.items() if path not in begun}, put)

    def want_update(self, volume, writes, *options):
        """So does an update. Gives the model's."""
        update = update_of(volume, contents(standing(self.folder)), writes)
        self.want_made(volume.words("update", *options), update, stream_of(writes))
        return update

    def store(self, volume, chunks):
        """Puts a scale's info and its chunks. Gives the files."""
        files = volume.files(chunks)
        self.lay_out({**infos_of(volume), **files})
        return files

    def want_cuts(self, volume, files, boxes):
        """Cutouts of boxes are what a scale's files give, or their fault."""
        for box in boxes:
            self.want(volume.words("cutout", spell(box)), cutout(volume, files, box))

    def want_values(self, volume, values, boxes):
        for box in boxes:
            self.want(volume.words("cutout", spell(box)), printed(values.of(box)))


def answers(trial, files, words, wanted, *streams, **how):
    """A run over files ends so, and changes nothing."""
    trial.lay_out(files)
    trial.want_unchanged(words, wanted, *streams, **how)


def leaves(trial, files, words, wanted, put, *streams, **how):
    """A run over files ends so, and puts these in their place or beside them."""
    trial.lay_out(files)
    before = standing(trial.folder)
    trial.want(words, wanted, *streams, **how)
    want_put(before, standing(trial.folder), put)


# Tools that a machine may lack


def needed(tool, name):
    """A tool that was found; a row that needs one that isn't there is skipped."""
    if not tool:
        raise Skipped(f"{name} isn't installed")
    return tool


def find_tool(name, *others):
    """The path of a tool that has one of these names; a row without it is skipped. A server may stand where root alone looks."""
    folders = os.pathsep.join([os.environ.get("PATH", os.defpath), "/usr/local/sbin", "/usr/sbin"])
    return needed(next(filter(None, (shutil.which(one, path=folders) for one in (name, *others))), None), name)


@functools.cache
def find_strace():
    """The path of strace; a row without it, or where it may make no call fail, is skipped."""
    strace = find_tool("strace")
    command = [strace, "-qq", "-o", "/dev/null", "-e", "inject=close:error=EIO:when=1000", "true"]
    if subprocess.run(command, capture_output=True, check=False).returncode != 0:
        raise Skipped("strace may not trace here")
    return strace


def find_python(*modules):
    """A Python that has these modules: the one that runs, or the system's, which has Debian's packages; a row without it is skipped."""
    script = "import importlib.util, sys; sys.exit(None in map(importlib.util.find_spec, sys.argv[1:]))"
    pythons = [path for path in (sys.executable, "/usr/bin/python3") if os.access(path, os.X_OK)]
    found = (path for path in pythons if subprocess.run([path, "-c", script, *modules], check=False).returncode == 0)
    missing = [module for module in modules if importlib.util.find_spec(module) is None]
    return needed(next(found, None), " or ".join(missing))


# Pages


def cells_of(line):
    return [cell.strip() for cell in line.strip().strip("|").split(" | ")]


def module_of(crate, name):
    return CRATES / crate / "specs" / f"{name}.antt"


def is_defined(name, modules):
    """Whether a name is defined in one of some modules."""
    texts = (path.read_text() for path in modules if path.exists())
    return any(re.search(rf"^\s*(?:\w+ )*{re.escape(name)}(?: |$)", text, re.M) for text in texts)


def main_of_pages(judge_all):
    """`main` for rows that are judged already, each with all that is wrong with it."""
    main(lambda: ((title, tell, wrong) for title, wrong in judge_all()), jobs=1, program=None)


def tell(_trial, wrong):
    want_true(not wrong, "; ".join(wrong))


# Rows


def judge(program, title, judge_row, *arguments):
    """The titles of a row, or of the rows that it goes through, each with what is wrong or None, or that it is skipped."""
    told = []
    with tempfile.TemporaryDirectory(ignore_cleanup_errors=True) as name:
        try:
            found = judge_row(Trial(program, pathlib.Path(name).resolve()), *arguments)
            for row in [(title, None)] if found is None else found:
                told.append(row)
        except Wrong as wrong:
            told.append((title, str(wrong)))
        except Skipped as skipped:
            told.append((title, skipped))
        except subprocess.TimeoutExpired:
            told.append((title, "it didn't end in time"))
        except Exception as error:  # pylint: disable=broad-except
            place = traceback.extract_tb(error.__traceback__)[-1]
            told.append((title, f"{error!r} in {pathlib.Path(place.filename).name}:{place.lineno}"))
    return told


def methods_of(cases, base):
    """A row for each method, by its name, that a class of trials has beside those of another; a row may hand the method more."""
    for part in cases.__mro__:
        for name, method in vars(part).items() if not issubclass(base, part) else ():
            if callable(method) and not name.startswith("_"):
                yield name.replace("_", " "), lambda trial, *more, method=method: method(cases.of(trial), *more)


# The program and the rows that are judged, for the processes that judge them.
PICKED = []


def judge_number(number):
    return judge(*PICKED[number])


def number_in(title):
    """The number of a random trial, with which its title ends; -1 of another row."""
    last = title.split()[-1]
    return int(last) if last.isdecimal() else -1


def read_options(count, jobs, program):
    page = sys.modules["__main__"].__doc__ or ""
    parser = argparse.ArgumentParser(description=page.strip().splitlines()[0])
    if program is not None:
        told = f"{program.relative_to(ROOT)} if it is left out"
        parser.add_argument("program", nargs="?", type=pathlib.Path, default=program, help=told)
    if count is not None:
        parser.add_argument("count", nargs="?", type=int, default=count, help=f"how many trials at random there are of a kind ({count})")
        parser.add_argument("--first", metavar="N", type=int, default=0, help="judges the trials alone whose numbers are N and more")
    parser.add_argument("-k", metavar="WORD", default="", help="judges the rows alone that have this in their titles")
    parser.add_argument("--jobs", metavar="N", type=int, default=jobs, help=f"how many rows are judged at once ({jobs})")
    return parser.parse_args()


def read_rows():
    """What rows.txt says of each script of the gate: how many rows it has, and which programs it runs."""
    lines = (line.split("#")[0].split() for line in ROWS.read_text().splitlines())
    return {name: (int(count), programs) for name, count, *programs in filter(None, lines)}


def judge_count(script, count):
    """Whether a script has fewer rows than rows.txt says; a line tells it, and that there are more."""
    due, _ = read_rows().get(script, (count, []))
    if count == due:
        return False
    told = "rows are lost" if count < due else "put the new number there"
    print(f"{count} rows, and tests/{ROWS.name} says {due} of {script}: {told}")
    return count < due


class Tally:
    """What became of the rows; each that is wrong is printed as it comes."""

    def __init__(self):
        self.passed = self.failed = 0
        self.skipped = collections.Counter()

    def take(self, title, wrong):
        if isinstance(wrong, Skipped):
            self.skipped[str(wrong)] += 1
        elif wrong is None:
            self.passed += 1
        else:
            self.failed += 1
            print(f"{title}: {wrong}", flush=True)

    def rows(self):
        return self.passed + self.failed + self.skipped.total()

    def tell(self):
        """Prints why rows were skipped, and last how many rows passed, failed and were skipped."""
        for reason, count in self.skipped.items():
            print(f"skipped {count} rows: {reason}")
        skipped = f", {self.skipped.total()} skipped" if self.skipped else ""
        print(f"{self.passed} passed, {self.failed} failed{skipped}")


def main(rows_of, count=None, jobs=None, program=PROGRAM):
    """
    Judges the rows that `rows_of` gives, of so many random trials where it takes a count; prints each row that is wrong, why rows were
    skipped, and how many there were; and ends with status 1 where one failed, there was none, or there are fewer than rows.txt says.
    """
    processors = len(os.sched_getaffinity(0))
    options = read_options(count, min(jobs or processors, processors), program)
    if program is not None:
        program = options.program.resolve()
        if not os.access(program, os.X_OK):
            print(f"there is no program {program}\n0 passed, 1 failed")
            sys.exit(1)
    rows = rows_of() if count is None else rows_of(options.count)
    first = 0 if count is None else options.first
    PICKED.extend((program, *row) for row in rows if options.k in row[0] and (not first or number_in(row[0]) >= first))
    tally = Tally()
    with multiprocessing.get_context("fork").Pool(options.jobs) as pool:
        for title, wrong in itertools.chain.from_iterable(pool.imap(judge_number, range(len(PICKED)))):
            tally.take(title, wrong)
    # of some rows alone, or of more trials than the gate's, there is no number
    is_whole = not options.k and not first and (count is None or options.count == count)
    tally.failed += is_whole and judge_count(pathlib.Path(sys.argv[0]).stem, tally.rows())
    tally.tell()
    sys.exit(1 if tally.failed or not tally.rows() else 0)
