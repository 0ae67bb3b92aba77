"""How much memory a process and those that it begins have, looked at again and again."""
import pathlib
import subprocess
import time


def _of_one(process):
    """The resident memory of a process, the most that it had, in bytes, and the processes that it began."""
    folder = pathlib.Path(f"/proc/{process}")
    fields = dict(line.split(":", 1) for line in (folder / "status").read_text().splitlines())
    began = [int(number) for number in (folder / f"task/{process}/children").read_text().split()]
    return *(int(fields[name].split()[0]) << 10 for name in ("VmRSS", "VmHWM")), began


def memory_of(process):
    """The resident memory of a process and of all that it began together, and the most that one of them had, in bytes."""
    together, alone, waiting = 0, 0, [process]
    while waiting:
        try:
            now, most, began = _of_one(waiting.pop())
        except (OSError, KeyError):
            continue  # it has ended
        together, alone, waiting = together + now, max(alone, most), waiting + began
    return together, alone


def watch(words, until=None, **how):
    """
    Runs a command, in a session of its own; gives what it printed, and the most memory that all its processes had together, and one. After
    so many seconds all of them are killed.
    """
    begin, together, alone = time.monotonic(), 0, 0
    with subprocess.Popen(words, stdout=subprocess.PIPE, text=True, start_new_session=True, **how) as tool:
        while tool.poll() is None:
            now, most = memory_of(tool.pid)
            together, alone = max(together, now), max(alone, most)
            if until is not None and time.monotonic() - begin > until:
                subprocess.run(["kill", "-9", "--", f"-{tool.pid}"], check=False)
            time.sleep(0.005)
        return tool.stdout.read().strip(), together, alone
