#!/usr/bin/env python3
"""Tries the edits of crates/NAME/more-edits, which the gate leaves out: the prover has to refuse each.

    tests/more_edits.py [--all] [NAME[/EDIT] ..]

Without names those of all crates, for hours; with --all those of must-fail too; with an EDIT, which is a name without `.edit`, that one of
a crate. A crate takes its own proof once more, and 10 to 60 seconds for each edit. The command `rt must-fail` tries them in a copy of the checkout, over the libraries that are built there: those that aren't
yet are proved first.
"""
import argparse
import os
import pathlib
import shutil
import subprocess
import sys
import tempfile

from harness import CRATES, ROOT

PARTS = ("src", "specs", "proofs")


def link_or_copy(source, target):
    """Libraries are large, and never written into."""
    try:
        os.link(source, target)
    except OSError:
        shutil.copy2(source, target)


def copy_checkout(top):
    for name in ("crates.txt", "HANDLES"):
        shutil.copy(ROOT / name, top)
    for crate in CRATES.iterdir():
        for part in PARTS:
            if (crate / part).is_dir():
                shutil.copytree(crate / part, top / "crates" / crate.name / part)
        if (crate / "out/rlib/stamp").exists():
            shutil.copytree(crate / "out/rlib", top / "crates" / crate.name / "out/rlib", copy_function=link_or_copy)


def put_edits(top, name, folders, picked):
    """Puts a crate's edits where `rt` looks for them, or the picked ones of these. Gives their names."""
    target = top / "crates" / name / "must-fail"
    target.mkdir()
    edits = [path for folder in folders for path in sorted((CRATES / name / folder).glob("*.edit")) if not picked or path.stem in picked]
    for path in edits:
        shutil.copy(path, target)
    return sorted(path.name for path in edits)


def pick(names):
    """The crates of some names, each with its edits that are picked, none where all are."""
    picked = {}
    for name, slash, edit in (name.partition("/") for name in names):
        picked.setdefault(name, []).extend([edit] if slash else [])
    return picked


def try_crate(top, name, edits):
    """Tells each edit of a crate that isn't refused. Gives how many are."""
    how = {"stdout": subprocess.PIPE, "stderr": subprocess.STDOUT, "text": True, "errors": "replace"}
    lines = subprocess.run(["rt", "must-fail", name], cwd=top, check=False, **how).stdout.splitlines()
    starts = {edit: f"rt: must-fail {name}/{edit}: refused, as it must be" for edit in edits}
    refused = [edit for edit, start in starts.items() if any(line.startswith(start) for line in lines)]
    if len(refused) < len(edits):
        print("\n".join(line for line in lines if "refused, as it must be" not in line))
        print("\n".join(f"{name}/{edit}: it isn't refused" for edit in edits if edit not in refused))
    print(f"{name}: {len(refused)} of {len(edits)} refused", flush=True)
    return len(refused)


def main():
    parser = argparse.ArgumentParser(description=__doc__.strip().splitlines()[0])
    parser.add_argument("names", nargs="*", metavar="NAME[/EDIT]", help="a crate, or an edit of one (all crates that have such edits)")
    parser.add_argument("--all", action="store_true", help="tries the edits of must-fail too")
    options = parser.parse_args()
    folders = ("must-fail", "more-edits") if options.all else ("more-edits",)
    having = sorted({path.parent.parent.name for folder in folders for path in CRATES.glob(f"*/{folder}/*.edit")})
    passed = failed = 0
    with tempfile.TemporaryDirectory() as folder:
        top = pathlib.Path(folder).resolve()
        copy_checkout(top)
        for name, picked in pick(options.names or having).items():
            edits = put_edits(top, name, folders, picked) if name in having else []
            missing = {*picked} - {pathlib.Path(edit).stem for edit in edits}
            if missing or not edits:
                print(f"{name}: it has no such edits: {', '.join(sorted(missing))}")
                failed += 1
                continue
            refused = try_crate(top, name, edits)
            passed, failed = passed + refused, failed + len(edits) - refused
    print(f"{passed} passed, {failed} failed")
    sys.exit(1 if failed or not passed else 0)


if __name__ == "__main__":
    main()
