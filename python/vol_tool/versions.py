"""What `volume --version` prints."""
from __future__ import annotations

import pathlib
import subprocess

from . import __kit__, __version__

ROOT = pathlib.Path(__file__).resolve().parents[2]


def find_commit(root: pathlib.Path = ROOT) -> str:
    """The commit of the checkout that the package is in, or of the one that it was installed from; or nothing."""
    if (root / ".git").exists() and (root / "python" / "vol_tool").is_dir():
        command = ["git", "-C", str(root), "rev-parse", "--short=12", "HEAD"]
        try:
            return subprocess.run(command, capture_output=True, text=True, check=True).stdout.strip()
        except (OSError, subprocess.CalledProcessError):
            return ""
    try:
        return (root / "commit").read_text().strip()
    except OSError:
        return ""


def version_text() -> str:
    """The version, the commit where it is known, and the kit that proves the programs, each in a line."""
    commit = find_commit()
    return "\n".join([f"vol_tool {__version__}", *[f"commit {commit}"] * bool(commit), f"kit {__kit__}"])
