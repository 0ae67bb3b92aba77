"""What the tests share: the program, and scales with their files as the Python models of tests/ have them."""
import pathlib
import sys

import pytest

ROOT = pathlib.Path(__file__).resolve().parents[2]
sys.path[:0] = [str(ROOT / "python"), str(ROOT / "tests")]

from vol_tool.errors import MissingProgram  # noqa: E402
from vol_tool.programs import program  # noqa: E402


def need_program(name):
    """Skips a test where a program isn't built."""
    try:
        return program(name)
    except MissingProgram as why:
        pytest.skip(str(why))


@pytest.fixture
def folder(tmp_path, monkeypatch):
    """A folder of the test's own, which is the current one."""
    monkeypatch.chdir(tmp_path)
    return tmp_path


@pytest.fixture
def vol_tool(folder):
    """The package, where the program is there, in a folder of the test's own."""
    need_program("vol_tool")
    import vol_tool as package

    return package
