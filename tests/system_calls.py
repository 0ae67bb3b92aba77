#!/usr/bin/env python3
"""Makes each system call of runs of the built vol_tool fail in turn: no run ends well with wrong bytes.

    tests/system_calls.py [PROGRAM]

It wants `strace`, which makes the calls fail; the rows are skipped where that isn't installed or isn't allowed. Of each call to
files, folders and streams that a plain run makes, the first, the second and so on fails: with an error of the device, with a full disk,
and with a signal, which is tried again or is a fault; and the call fails from then on, as on a device that is lost. Afterwards whole
objects stand, the first ones that are due, and no half of one, but that a device that is lost, a copy or a next scale into shards, and an
update of some may leave one file whose name ends in .part. Of a served run the calls to peers fail too.
"""
import collections
import functools
import itertools
import re
import subprocess

from disturbed import DEEP_RUNS, FULL_ROW, RUNS, SIZES_RUNS, in_store, want_front_of
from harness import LIMIT, Wrong, find_strace, main, want, want_true, words_in, wrong_with
from model import DOOR, FEED, OK, OUTPUT, STORE, Sharding, Volume, along
from peers import PEERS, SERVE, WHOLE, failed_of, fronts_of, is_answered, serve_peers
from runs import cutout_run, write_run

# The calls to files, folders and streams; those to peers; and those that have to do with memory, time, threads and the process alone.
TO_FILES = set(
    """
    open openat openat2 creat close fcntl lseek dup dup2 dup3 ioctl read readv pread64 preadv preadv2 write writev pwrite64 pwritev
    pwritev2 stat lstat fstat newfstatat statx access faccessat faccessat2 readlink readlinkat getdents getdents64 mkdir mkdirat rename
    renameat renameat2 unlink unlinkat rmdir ftruncate truncate fallocate fsync fdatasync sendfile copy_file_range poll getcwd
    """.split()
)
TO_PEERS = set(
    "socket bind listen getsockname getpeername accept accept4 getsockopt setsockopt recvfrom recvmsg sendto sendmsg shutdown".split()
)
TO_OTHERS = set(
    """
    execve exit exit_group arch_prctl prlimit64 getrandom set_tid_address set_robust_list rseq brk mmap munmap mprotect mremap madvise
    clone3 futex sigaltstack rt_sigaction rt_sigprocmask sched_getaffinity clock_gettime gettid getpid
    """.split()
)

# How the calls fail: an error, and whether each later one fails too. A signal comes once, since it is tried again.
FAILURES = [("EIO", ""), ("ENOSPC", ""), ("EINTR", ""), ("EIO", "+"), ("ENOSPC", "+")]

# What a program ends with that the system couldn't start.
UNSTARTED = 127
LOADER_LINE = b"error while loading shared libraries"

# The runs that are traced.
TRACED = [
    "a write", "a write beside unfinished files", "a write of nothing", "a write into shards", "a folder that isn't empty", "a list",
    "an update", "an update of nothing", "an update of a shard", "an update of shards", "an update of a damaged shard", "a cutout",
    "a cutout of shards", "a cutout of nothing", "a cutout of layers", "a cutout of a damaged layer", "a copy", "a copy into shards",
    "a next scale", "a next scale in shards", "an update of blocks", "a copy into blocks", "a copy out of shards", "a judgement",
    "a judgement of shards", *SIZES_RUNS, *DEEP_RUNS,
]

FAULTS = {STORE: b"store fault\n", FEED: b"feed fault\n", OUTPUT: b"output fault\n"}

# What a served run says on standard error, by its status.
SERVED_LINES = {OK: b"", OUTPUT: b"output fault\n", DOOR: b"door fault\n"}


def traced(trial, files, options, run_in):
    """
    What a run over files leaves under strace, its files last; and what strace told, by lines. `run_in` is given the folder and the first
    words of the command.
    """

    def run_noted(folder, note):
        return run_in(folder, [find_strace(), "-f", "-qq", "-o", note, *options, trial.program])

    found, told = in_store(trial, files, run_noted)
    return found, told.splitlines()


def trace_run(trial, run, options):
    stream = trial.folder / "stream"
    stream.write_bytes(run.stream)

    def run_in(folder, command):
        with stream.open("rb") as feed:
            done = subprocess.run([*command, *words_in(run.words)], cwd=folder, stdin=feed, capture_output=True, timeout=LIMIT)
        return done.returncode, done.stdout, done.stderr

    return traced(trial, run.before, options, run_in)


def want_failed(run, found, call, is_lost):
    """
    A run of which a call failed ends as it is to, but that of its line a front may be written; or with a fault and its line, or with no
    line where that can't be written; or wasn't started.
    """
    (wanted, due, line), (status, output, errors, files) = run.ending, found
    is_told = errors == line or call == "write" and line.startswith(errors)
    if (status, output, files) == (wanted, due, run.after()) and is_told:
        return
    if status == UNSTARTED and LOADER_LINE in errors:
        want((output, files), (b"", run.before), "a run that wasn't started")
        return
    untold = [(fault, b"") for fault in FAULTS] if is_lost and call == "write" else []
    want_front_of(run, found, [*FAULTS.items(), *untold], int(is_lost))


def trace_served(trial, options):
    return traced(trial, FULL_ROW, options, lambda folder, command: serve_peers([*command, *SERVE], folder))


def is_front(one, peer):
    """Whether a peer got a front of its replies, or of the first ones and that the store failed."""
    return any(end.startswith(one) for end in [fronts_of(peer)[-1], *failed_of(peer)])


def want_failed_served(found, call, _is_lost):
    """A served run of which a call failed. Only a call to a peer may cut its replies short."""
    status, line, output, errors, got, files = found
    if status == UNSTARTED and LOADER_LINE in errors:
        want((line, got), ([], []), "a run that wasn't started")
        return
    told = SERVED_LINES.get(status)
    is_told = told is not None and (errors == told or call == "write" and told.startswith(errors))
    want_true(is_told, f"status {status}, {errors!r}")
    want_true(not output and line in ([], [b"listening"]) and files == FULL_ROW, f"output {line!r} {output!r}, files {files}")
    is_due = is_answered(got) if status == OK and call not in TO_PEERS else all(map(is_front, got, PEERS))
    want_true(is_due, f"status {status}, the peers got {got!r}")


def want_each(trace, want_failed_run, call, count, failure, statuses):
    fault, later = failure
    for number in range(1, count + 1):
        options = ["-e", f"trace={call}", "-e", f"inject={call}:error={fault}:when={number}{later}"]
        try:
            found, lines = trace(options)
            want_true(any("(INJECTED)" in line for line in lines), "it didn't fail")
            statuses[found[0]] += 1
            want_failed_run(found, call, bool(later))
        except (subprocess.TimeoutExpired, TimeoutError) as error:
            raise Wrong(f"call {number}: it doesn't end") from error
        except Wrong as wrong:
            raise Wrong(f"call {number}: {wrong}") from wrong


def fails_each(title, to_fail, trace, due, want_failed_run):
    """
    Each kind of call of a run that is to fail, and each way to fail: `trace` runs it with options of strace, and `want_failed_run` judges
    one of which a call failed.
    """
    plain, lines = trace([])
    yield f"{title}, no call fails", wrong_with(want, plain, due)
    counts = collections.Counter(found[1] for found in (re.match(r"\d+ +(\w+)\(", line) for line in lines) if found)
    others = sorted(set(counts) - to_fail - TO_OTHERS)
    yield f"{title}, the kinds of its calls", f"others: {others}" if others else None
    statuses, calls = collections.Counter(), sorted(set(counts) & to_fail)
    for call, failure in itertools.product(calls, FAILURES):
        wrong = wrong_with(want_each, trace, want_failed_run, call, counts[call], failure, statuses)
        yield f"{title}, {call} {''.join(failure)}", wrong
    told = ", ".join(f"{counts[call]} {call}" for call in calls)
    print(f"{title}: {told}; runs by their status: {dict(sorted(statuses.items()))}", flush=True)


def fails_each_of(trial, title, run):
    trace = functools.partial(trace_run, trial, run)
    return fails_each(title, TO_FILES, trace, (*run.ending, run.after()), functools.partial(want_failed, run))


def fails_each_served(trial):
    due = (OK, [b"listening"], b"", b"", WHOLE, FULL_ROW)
    return fails_each("a served run", TO_FILES | TO_PEERS, functools.partial(trace_served, trial), due, want_failed_served)


# A line of 5,000 voxels, each a row of one index, of which 1,024 rows are read at a time.
MANY = Volume([5000, 1, 1], [1, 1, 1], sharding=Sharding())
MANY_FILES = MANY.files({cell: bytes([cell[0] % 251]) for cell in MANY.cells})

# title, a run, and how many bytes of its objects it reads
READ = {
    "a cutout of the last of 5,000 rows": (cutout_run(MANY, MANY_FILES, along(4999, 5000)), 16 + 24 * 5000 + 1),
    "a cutout of the first of 5,000 rows": (cutout_run(MANY, MANY_FILES, along(0, 1)), 16 + 24 * 1024 + 1),
    **{title: (RUNS[title], 3) for title in ("a cutout", "a judgement", "a list", "a copy")},
}


def reads_once(trial, run, count):
    """A run reads so many bytes of its objects, beside the documents: none twice, and none that it doesn't need."""
    found, lines = trace_run(trial, run, ["-y", "-s", "0", "-e", "trace=read,readv,pread64,preadv,preadv2"])
    want(found, (*run.ending, run.after()))
    calls = re.findall(r"\(\d+<[^>]*/store/([^>]+)>.* = (\d+)$", "\n".join(lines), re.MULTILINE)
    want(sum(int(length) for path, length in calls if not path.endswith("/info")), count, "how many bytes are read")


# title, a write of single voxels, and how many calls take its stream: three small reads, then 64 KiB each, and the end
STREAMED = {
    "5,000 voxels": (write_run(MANY, [(along(n, n + 1), bytes([n % 251])) for n in range(5000)]), 3 + 4 + 1),
    "a large box": (write_run(MANY, [(MANY.whole, bytes(5000))]), 3 + 1 + 1),
}


def streams_ahead(trial, run, count):
    """So many calls take the stream of a run: small boxes are read ahead, and a large one goes straight to its place."""
    found, lines = trace_run(trial, run, ["-s", "0", "-e", "trace=read"])
    want(found, (*run.ending, run.after()))
    want(sum(" read(0, " in line for line in lines), count, "how many calls take the stream")


def rows():
    for title, case in STREAMED.items():
        yield f"how the stream is taken of {title}", streams_ahead, *case
    for title, case in READ.items():
        yield f"what is read by {title}", reads_once, *case
    yield "a served run", fails_each_served
    for title in TRACED:
        yield title, fails_each_of, title, RUNS[title]


if __name__ == "__main__":
    main(rows)
