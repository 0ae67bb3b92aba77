"""The errors of lines and statuses, and what else they are."""
import pickle

import pytest

from vol_tool import errors
from vol_tool.errors import error_of

LINES = {
    (1, "usage"): errors.UsageError,
    (2, "info of d: absent"): errors.BadInfo,
    (2, "info of d: scale absent"): errors.NoScale,
    (2, "info of d: unsupported data_type"): errors.BadInfo,
    (3, "box [0:2,0:1,0:1] outside [0:1,0:1,0:1]"): errors.OutsideScale,
    (3, "box too large 2147483648"): errors.TooLarge,
    (3, "padded voxels 5 over 4194304"): errors.TooLarge,
    (3, "several chunk sizes"): errors.SeveralChunkSizes,
    (3, "differs size"): errors.UnlikeScales,
    (3, "too many cells 9"): errors.TooLarge,
    (3, "folder not empty"): errors.NotEmpty,
    (3, "write 1: outside scale"): errors.OutsideScale,
    (3, "stream: bad magic"): errors.BadStream,
    (3, "write 0: truncated"): errors.BadStream,
    (4, "damaged 0,0,0: chunk length 0 wanted 64"): errors.Damaged,
    (4, "damaged in 1 0,0,0: chunk length 0 wanted 64"): errors.Damaged,
    (4, "misplaced 0 1 2"): errors.Damaged,
    (4, "shard 0 1: index id 0"): errors.Damaged,
    (4, "conflict 1 0,0,4 0 0 28"): errors.Conflict,
    (5, "store fault"): errors.StoreFault,
    (6, "feed fault"): errors.StreamFault,
    (7, "output fault"): errors.StreamFault,
    (8, "out of memory"): errors.OutOfMemory,
    (9, "door fault"): errors.PortFault,
    (125, "bin/vol_tool: the program can't be built"): errors.MissingProgram,
    (77, "what"): errors.VolToolError,
    (-9, ""): errors.VolToolError,
}


@pytest.mark.parametrize("status, line", LINES)
def test_lines(status, line):
    found = error_of(status, line)
    assert type(found) is LINES[status, line]
    assert (found.status, found.line) == (status, line or "the program was ended by the signal 9")
    assert str(found) == found.line
    again = pickle.loads(pickle.dumps(found))
    assert (type(again), again.status, again.line) == (type(found), found.status, found.line)


# What a program that knows nothing of this package catches.
KINDS = {
    "OutsideScale": IndexError, "BadIndex": IndexError, "NoScale": KeyError, "UnsupportedType": TypeError, "StoreFault": OSError,
    "FetchFault": OSError, "OutOfMemory": MemoryError, "UsageError": ValueError, "MissingPackage": ImportError, "NotEmpty": FileExistsError,
    "MissingProgram": FileNotFoundError, "UnreadableSource": OSError, "Conflict": errors.Damaged,
}


@pytest.mark.parametrize("name", KINDS)
def test_kinds(name):
    kind = getattr(errors, name)
    assert issubclass(kind, KINDS[name]) and issubclass(kind, errors.VolToolError)
    assert str(kind("a line", 3)) == "a line"
