#!/usr/bin/env python3
"""Runs the tests of the Python package, which are python/tests, by pytest, and counts them as rows.

    tests/package.py [PROGRAM]

They want pytest and numpy, for the Python that runs or for /usr/bin/python3, which has Debian's packages; what a test wants besides, as
h5py, zarr, dask or tifffile, is named where it is missing. vol_fetch and vol_serve are those beside the program.
"""
import collections
import os
import subprocess
import xml.etree.ElementTree

from harness import ROOT, Skipped, built, find_python, main, read_rows, want_true

# How long all of them may take, in seconds.
LIMIT = 900


def read_results(path):
    """Of each test its title, and what is wrong, or that it was skipped."""
    for case in xml.etree.ElementTree.parse(path).iter("testcase"):
        title = f"{case.get('classname').rpartition('.')[2]}: {case.get('name')}"
        failed = case.find("failure") if case.find("failure") is not None else case.find("error")
        skipped = case.find("skipped")
        if skipped is not None:
            yield title, Skipped(skipped.get("message"))
        else:
            yield title, None if failed is None else (failed.text or failed.get("message"))[-2000:]


def run_tests(trial):
    """All tests, in processes that find nothing but this checkout's package and programs."""
    results = trial.folder / "results.xml"
    try:
        python = find_python("pytest", "numpy")
    except Skipped as why:
        yield from [("the tests of the package", why)] * read_rows().get("package", (1, []))[0]
        return
    programs = {"VOL_TOOL": trial.program, **{name.upper(): built(name) for name in ("vol_fetch", "vol_serve")}}
    environment = {**os.environ, **{name: str(path) for name, path in programs.items()}, "PYTHONDONTWRITEBYTECODE": "1"}
    words = [python, "-m", "pytest", "-q", "-p", "no:cacheprovider", f"--junitxml={results}", f"--basetemp={trial.folder / 'tests'}"]
    done = subprocess.run(
        [*words, ROOT / "python" / "tests"], cwd=ROOT / "python", env=environment, stdin=subprocess.DEVNULL, stdout=subprocess.PIPE,
        stderr=subprocess.STDOUT, text=True, timeout=LIMIT, check=False,
    )
    want_true(results.exists(), f"pytest ended with status {done.returncode}: {done.stdout[-2000:]}")
    found = list(read_results(results))
    counts = collections.Counter(isinstance(wrong, str) for _, wrong in found)
    want_true(found and (done.returncode != 0) == (counts[True] > 0), f"pytest ended with status {done.returncode}: {done.stdout[-2000:]}")
    yield from found


def rows():
    yield "the tests of the package", run_tests


if __name__ == "__main__":
    main(rows)
