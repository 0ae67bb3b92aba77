"""Arrays as numpy.save writes them, without numpy; and the command `volume` of this checkout, which takes them."""
import os
import struct

from harness import ROOT

SCRIPT = ROOT / "bin" / "volume"
MAGIC = b"\x93NUMPY\x01\x00"


def variables(program):
    """What the environment has for the command, or for a script that imports the package."""
    path = os.pathsep.join(filter(None, [str(ROOT / "python"), os.environ.get("PYTHONPATH")]))
    return {"VOL_TOOL": str(program), "PYTHONPATH": path, "PYTHONDONTWRITEBYTECODE": "1"}


def save(path, descr, shape, values):
    """Puts an array; the values are bytes in the file's order."""
    text = repr({"descr": descr, "fortran_order": False, "shape": tuple(shape)})
    text += " " * (-(len(text) + 11) % 64) + "\n"
    path.write_bytes(MAGIC + struct.pack("<H", len(text)) + text.encode() + values)
