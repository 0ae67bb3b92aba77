#!/usr/bin/env python3
"""Checks that the tables of docs/layers.md are what this script makes of crates.txt, the heads of the crates and docs/layers.txt.

    tests/layers.py [--write]

With `--write` it makes them. A room of crates.txt is a table, and a crate a row of it: the first sentence of the comment at the head of the
crate, what docs/layers.txt says that it promises, its main clauses and some wrong programs. tests/clauses.py checks that these are there.
"""
import re
import sys

from harness import CRATES, ROOT, main_of_pages

PAGE, MORE = ROOT / "docs" / "layers.md", ROOT / "docs" / "layers.txt"
BEGIN, END = "<!-- what follows is made by tests/layers.py --write -->\n", "<!-- what was made ends here -->\n"


def rooms():
    """The groups of crates.txt: the comment above each, and its crates."""
    found = []
    for line in (ROOT / "crates.txt").read_text().splitlines()[1:]:
        if line.startswith("# "):
            found.append((line[2:], []))
        elif ":" in line:
            found[-1][1].append(line.split(":")[0])
    return found


def head_of(crate):
    """The first sentence of the comment at the head of a crate."""
    path = next(path for path in (CRATES / crate / "src" / name for name in ("lib.rt", "main.rt")) if path.exists())
    lines = []
    for line in path.read_text().splitlines():
        if not line.startswith("//! "):
            break
        lines.append(line[4:])
    return re.match(r".*?(?:\.(?= |$)|:$|$)", " ".join(lines))[0]


def read_more():
    """What docs/layers.txt has of each crate: what it promises, its clauses by their call, and edits."""
    found, crate = {}, None
    for line in MORE.read_text().splitlines():
        name, _, rest = line.partition(":")
        if line.startswith("    "):
            found[crate][name.strip()] = rest.split()
        elif line and not line.startswith("#"):
            crate = name
            found[crate] = {"": rest.strip()}
    return found


def spelled(names):
    return ", ".join(f"`{name}`" for name in names)


def row_of(crate, more):
    says = f"{head_of(crate)} {more.get('', '')}".strip()
    clauses = "; ".join(f"`{call}`: {spelled(names)}" for call, names in more.items() if call not in ("", "edits"))
    return f"| **{crate}** | {says} | {clauses} | {spelled(more.get('edits', []))} |"


def make_tables():
    more = read_more()
    for name, crates in rooms():
        yield from (f"## {name.partition(':')[0]}", "")
        if ":" in name:
            yield from (f"{name.partition(': ')[2][0].upper()}{name.partition(': ')[2][1:]}.", "")
        yield from ("| Crate | What it is, and promises | Main clauses | Refuses |", "|---|---|---|---|")
        yield from (row_of(crate, more.get(crate, {})) for crate in crates)
        yield ""


def parts_of_page():
    """What is before the tables, the tables, and what is behind them."""
    before, _, rest = PAGE.read_text().partition(BEGIN)
    made, _, behind = rest.partition(END)
    return before, made, behind


def judge_all():
    made, due = parts_of_page()[1].splitlines(), ["", *make_tables()]
    wrong = next((f"`{one:.60}` stands for `{other:.60}`" for one, other in zip(made, due) if one != other), None)
    wrong = wrong or (f"it has {len(made)} lines, and {len(due)} are made" if len(made) != len(due) else None)
    yield "docs/layers.md: what is made", [f"{wrong}: tests/layers.py --write makes it"] if wrong else []
    crates = {crate for _, listed in rooms() for crate in listed}
    yield "docs/layers.txt: crates", [f"there is no {crate}" for crate in read_more() if crate not in crates]
    for crate in sorted(crates):
        yield f"the head of {crate}", [] if head_of(crate) else ["it says nothing"]


if __name__ == "__main__":
    if sys.argv[1:] == ["--write"]:
        before_all, _, behind_all = parts_of_page()
        PAGE.write_text(f"{before_all}{BEGIN}\n{''.join(f'{line}' + chr(10) for line in make_tables())}{END}{behind_all}")
    else:
        main_of_pages(judge_all)
