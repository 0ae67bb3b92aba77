#!/usr/bin/env python3
"""Runs the command lines of docs/guide.md, one after the other, on small data, and compares what they print with what stands below them.
Those of the README's first screen have to be among them, and its first block of Python is run and compared too.

    tests/guide.py [PROGRAM]

The page's blocks of `sh` are run by one bash in a temporary home; a block of `text` is the output of the block before it. A block of
`python` is saved under the name in its first line, and run unless a block of `sh` runs it; where a module that it imports isn't installed
it is only compiled, and its row is skipped. The ports 8080 and 8081 stand for free ones.
"""
import array
import os
import re
import subprocess

from arrays import save
from harness import HALL_PROGRAM, LIMIT, ROOT, Skipped, built, call, find_python, main, shorten, tell_difference, want
from servers import free_port

GUIDE = (ROOT / "docs" / "guide.md").read_text()
README = (ROOT / "README.md").read_text()
BLOCK = re.compile(r"^```(\w+)\n(.*?)^```$", re.MULTILINE | re.DOTALL)
LINE = re.compile(r"^    ((?:vol_tool|vol_serve|volume|export|mkdir) .*)$", re.MULTILINE)
IMPORT = re.compile(r"^(?:import|from) (\w+(?:, \w+)*)", re.MULTILINE)

# Waits until a server answers at a port, and until what it prints is there.
WAIT = r"until (exec 9<>/dev/tcp/127.0.0.1/{} && printf 'GET / HTTP/1.0\r\n\r\n' >&9 && read -r _ <&9) 2>/dev/null; do sleep 0.1; done"
PRINTED = """until [[ $(tail -n 1 "$GUIDE_OUT") != '-- block '* ]]; do sleep 0.1; done"""


def save_values(path, descr, code, value_of):
    values = array.array(code, (value_of(x, y, z) for z in range(64) for y in range(128) for x in range(128)))
    save(path, descr, (64, 128, 128), values.tobytes())


def read_blocks(page):
    """Its blocks: the language, the text, and of `sh` the output that is due."""
    blocks = []
    for language, text in BLOCK.findall(page):
        if language == "text":
            blocks[-1][2] = text
        else:
            blocks.append([language, text, ""])
    return blocks


def python_of(text):
    """The Python that runs a script, or that it is skipped for want of a module. The checkout's own package wants numpy."""
    modules = {module for names in IMPORT.findall(text) for module in names.split(", ")}
    try:
        return find_python(*sorted({"numpy" if module == "vol_tool" else module for module in modules}))
    except Skipped as skipped:
        return skipped


def lines_of(number, language, text, wanted, scripts):
    """The lines of bash for a block, whose output is due or of no matter; `scripts` are all blocks of `sh`."""
    yield f"echo '-- block {number}'"
    if language == "sh":
        yield text
        for port in re.findall(r"--port=(\d+)", text):
            yield WAIT.format(port)
            yield PRINTED if wanted else ":"
        if number == 0:
            yield 'PATH="$GUIDE_BIN:$PATH"'
    else:
        name = re.match(r"# (\w+\.py)\n", text)[1]
        yield f"cat >{name} <<'END OF SCRIPT'\n{text}END OF SCRIPT"
        python = python_of(text)
        is_compiled = f"python3 {name}" in scripts or isinstance(python, Skipped)
        yield f"python3 -m py_compile {name}" if is_compiled else f"{python} {name}{'' if wanted else ' >/dev/null'}"


def run_guide(program, home, blocks):
    """The status, the output and the standard error of the whole guide, in a home with the arrays that it begins with, and the programs."""
    for folder in ("volumes", "bin"):
        (home / folder).mkdir()
    save_values(home / "volumes/image.npy", "<u2", "H", lambda x, y, z: (x + 3 * y + 7 * z) % 60000)
    save_values(home / "volumes/labels.npy", "<u4", "I", lambda x, y, z: x // 20 + 100 * (y // 30) + 70000 * (z // 9))
    for name, path in ("vol_tool", program), ("vol_serve", HALL_PROGRAM), ("vol_fetch", built("vol_fetch")):
        (home / "bin" / name).symlink_to(path)
    scripts = "".join(text for language, text, _ in blocks if language == "sh")
    lines = ["set -e -o pipefail", "trap 'kill $(jobs -p) 2>/dev/null || :' EXIT"]
    for number, (language, text, wanted) in enumerate(blocks):
        lines += lines_of(number, language, text, wanted, scripts)
    script, out, err = home / "guide.sh", home / "out", home / "err"
    script.write_text("\n".join([*lines, f"echo '-- block {len(blocks)}'", ""]))
    environment = {**os.environ, "HOME": str(home), "VOL_TOOL": str(program), "GUIDE_BIN": str(home / "bin"), "GUIDE_OUT": str(out)}
    command = ["timeout", str(5 * LIMIT), "bash", script]
    with out.open("w") as to_out, err.open("w") as to_err:
        done = subprocess.run(command, cwd=ROOT, env=environment, stdin=subprocess.DEVNULL, stdout=to_out, stderr=to_err)
    return done.returncode, out.read_text(), err.read_text()


def runs_first_python(trial):
    """The README's first block of Python prints the block of text behind it."""
    language, text, wanted = read_blocks(README)[0]
    want((language, bool(wanted)), ("python", True), "the README's first block, and whether its output is told")
    python = python_of(text)
    if isinstance(python, Skipped):
        raise python
    found = call([python, "-c", text], trial.folder, PYTHONPATH=str(ROOT / "python"), VOL_TOOL=str(trial.program))
    want(found, (0, wanted, ""), "the README's first block")


def judge_lines(_trial):
    """The command lines of the README are lines of the guide, or begin some."""
    known = [line for language, text in BLOCK.findall(GUIDE) if language == "sh" for line in text.splitlines()]
    for line in LINE.findall(README):
        words = line.split("#")[0].strip()
        yield f"README: {words}", None if any(one.startswith(words) for one in known) else "it isn't in the guide"


def judge_all(trial):
    """Each block of the guide prints what is due."""
    free = {port: str(free_port()) for port in ("8080", "8081")}
    blocks = read_blocks(re.sub(r"\b808[01]\b", lambda port: free[port[0]], GUIDE))
    status, out, err = run_guide(trial.program, trial.folder, blocks)
    outputs = re.split(r"^-- block \d+\n", out, flags=re.MULTILINE)[1:]
    for number, (language, text, wanted) in enumerate(blocks):
        title = f"{language}: {text.splitlines()[0]}"
        if number + 1 >= len(outputs):
            yield title, f"it isn't passed: status {status} {shorten(err)}"
            return
        python = python_of(text) if language == "python" else None
        is_due = not wanted or outputs[number] == wanted
        wrong = None if is_due else f"it prints {tell_difference(outputs[number], wanted)}"
        yield title, python if isinstance(python, Skipped) else wrong


def rows():
    yield "README: the first block of Python", runs_first_python
    yield "README: the command lines", judge_lines
    yield "the guide", judge_all


if __name__ == "__main__":
    main(rows)
