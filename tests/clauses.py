#!/usr/bin/env python3
"""Checks that every clause, law, edit and name that a page has is in the code, that links lead somewhere, and that edits apply.

    tests/clauses.py

It reads README.md, docs/, tests/ and crates/, and runs nothing.
"""
import collections
import functools
import re

from harness import CRATES, ROOT, cells_of, is_defined, main_of_pages, module_of

BLOCK = re.compile(r"^(?:impl(?:<.*?>)? (?:(\w+)(?:<.*>)? for )?(\w+)|(?:pub(?:\(\w+\))? )?(?:trait|struct|enum|const) (\w+))")
FUNCTION = re.compile(r"^\s*(?:pub(?:\(\w+\))? )?(?:const )?fn (\w+)")
CLAUSE = re.compile(r"^\s+(?:ensures (\w+)|(?:pub )?ghost (\w+)(?::| =)) \{")

# a list of names, each between backquotes
NAMES = r"`\w+`(?:(?:,| and|, and) `\w+`)*"

# members of requests, and tools
NOT_OURS = {"rayon", "fsync"}

# where the wrong programs stand: those that the gate tries, and those that more_edits.py tries
EDITS = ("must-fail", "more-edits")


class Code:
    """Of each crate the clauses of each function, trait and type, by its name."""

    def __init__(self):
        self.clauses = collections.defaultdict(lambda: collections.defaultdict(set))
        kept = [one for path in sorted(CRATES.glob("*/src/**/*.rt")) for one in self.read(path)]
        # a type has the clauses of each trait that it keeps
        for own, trait in kept:
            for other in self.clauses.values():
                own |= other.get(trait, set())
        self.calls = {"From"}.union(*self.clauses.values())
        self.all = set().union(*(clauses for crate in self.clauses.values() for clauses in crate.values()))

    def read(self, path):
        """Takes up a file. Gives the clauses of each type there that keeps a trait, and the trait."""
        found, owner, function = self.clauses[path.relative_to(CRATES).parts[0]], None, None
        for line in path.read_text().splitlines():
            if block := BLOCK.match(line):
                owner, function = block[2] or block[3], None
                own = found[owner]
                if block[1]:
                    yield own, block[1]
            elif line.startswith("}"):
                owner = None
            if named := FUNCTION.match(line):
                owner, function = owner if line.startswith(" ") else None, named[1]
                found[function] |= set()
            if clause := CLAUSE.match(line):
                for name in {owner, function} - {None}:
                    found[name].add(clause[1] or clause[2])

    def of(self, call, crates=None):
        """The clauses of a call in some of the crates, or None where there is no such call."""
        name = call.split("::")[-1]
        found = [self.clauses[crate][name] for crate in crates or self.clauses if name in self.clauses[crate]]
        return set().union(*found) if found else None

    def lacking(self, names, calls, known=None):
        """What is wrong with names that are to be clauses of some calls."""
        known = set().union(*(self.of(call) or set() for call in calls)) if known is None else known
        return [f"{', '.join(calls) or 'the code'} has no clause {name}" for name in names if name not in known]


def names_in(text):
    return re.findall(r"`([\w:]+)`", text)


def wrong_in_row(code, place, cells):
    """The clauses that a last cell names, none of the calls having them in the cell at a place."""
    calls = names_in(cells[place])
    missing = [call for call in calls if code.of(call) is None]
    if missing:
        return [f"there is no {missing[0]} in the code"]
    parts = (re.match(rf"({NAMES})(?=$|:| as | of each)", part) for part in re.split(r"[;.:] ", cells[-1]))
    return [wrong for names in parts if names for wrong in code.lacking(names_in(names[1]), calls)]


def judge_layers(code):
    """The rows of crates, each crate once: behind its name, in bold, what it is, the clauses of its calls, and edits."""
    listed = []
    for line in (ROOT / "docs/layers.md").read_text().splitlines():
        if not (found := re.match(r"\| \*\*(\w+)\*\* \|", line)):
            continue
        crate, (_, _, clauses, edits) = found[1], cells_of(line)
        listed.append(crate)
        wrong = [] if (CRATES / crate).is_dir() else [f"there is no crate {crate}"]
        for owner, *names in filter(None, map(names_in, clauses.split("; "))):
            known = code.of(owner, [crate])
            wrong += [f"there is no {owner} in {crate}"] if known is None else code.lacking(names, [owner], known)
        paths = {edit: [CRATES / crate / folder / f"{edit}.edit" for folder in EDITS] for edit in names_in(edits)}
        wrong += [f"there is no edit {edit}" for edit, places in paths.items() if not any(place.exists() for place in places)]
        yield f"docs/layers.md: {crate}", wrong
    for crate in sorted({path.name for path in CRATES.iterdir() if path.is_dir()} | set(listed)):
        yield f"docs/layers.md: {crate}, once", [] if listed.count(crate) == 1 else [f"it is listed {listed.count(crate)} times"]


def wrong_in_list(code, cells):
    """The clauses in a last cell: of a call before them, of the call in the first cell, or of any; or calls alone."""
    wrong = []
    for part in cells[-1].split("; "):
        calls = re.match(r"((?:`[\w:]+`(?:, )?)+): ", part)
        owners = names_in(calls[1] if calls else cells[0])
        names = re.sub(r"\(.*?\)", "", part[calls.end() :] if calls else part)
        if re.match(NAMES, names):
            wrong += code.lacking(names_in(names), owners, None if owners else code.all | code.calls)
    return wrong


def judge_tables(code, page, lines):
    """Tables whose first cell is a clause of one call, whose rows have calls and their clauses, or whose last column has clauses."""
    judge = None
    for line in lines:
        cells = cells_of(line)
        if head := re.match(r"\| Clauses? of `([\w:]+)`", line):
            judge = functools.partial(lambda call, cells: code.lacking(names_in(cells[0]), [call]), head[1])
        elif re.match(r"\| (Crate \| )?Call \| (Clauses|Says)", line):
            judge = functools.partial(wrong_in_row, code, int(line.startswith("| Crate")))
        elif line.startswith("| ") and line.rstrip().endswith("| Clauses |"):
            judge = functools.partial(wrong_in_list, code)
        elif not line.startswith("|"):
            judge = None
        elif judge and not line.startswith("|---"):
            yield f"{page}: {cells[0]}", judge(cells)


def judge_theorem(code):
    """The page of the theorem: each part is a clause of `run`, and what it cites stands in the module that it names."""
    text = (ROOT / "docs/theorem.md").read_text()
    parts, clauses = re.findall(r"^(?:## )?`(\w+)`(?:$|: )", text, re.M), code.of("run", ["vol_tool"])
    for name in sorted({*parts, *clauses}):
        yield f"docs/theorem.md: {name}", [] if name in parts and name in clauses else [f"{name} is a clause, or a part, alone"]
    for names, crate, module in re.findall(rf"({NAMES}) in\s+(\w+)'s\s+`specs/(\w+)\.antt`", text):
        for name in names_in(names):
            is_there = is_defined(name, [module_of(crate, module)])
            yield f"docs/theorem.md: {name}", [] if is_there else [f"{name} isn't defined in {module}"]


def judge_words(code, page, text):
    """What is called a clause or a law in a sentence."""
    for names, call in re.findall(rf"\b(?:clauses?|laws?) ({NAMES})(?: of `([\w:]+)`)?", text):
        yield f"{page}: {names}", code.lacking(names_in(names), [call] if call else [], None if call else code.all)


def edits_in(*folders):
    return [path for folder in folders for path in sorted(CRATES.glob(f"*/{folder}/*.edit"))]


def wrong_in_edit(path):
    """Each old text has to stand once in its file, as the pairs in front of it leave that."""
    texts, name, old = {}, None, None
    for line in path.read_text().splitlines():
        kind, _, rest = line.partition(": ")
        if kind == "file":
            name = rest
            texts.setdefault(name, (path.parent.parent / name).read_text())
        elif kind == "old":
            old = rest
        elif kind == "new" and name and old:
            if texts[name].count(old) != 1:
                return [f"{old.strip()} stands in {name} {texts[name].count(old)} times"]
            texts[name], old = texts[name].replace(old, rest), None
        else:
            return [f"{line} is out of place"]
    return [] if texts and old is None else ["it changes nothing"]


def judge_edits():
    """The edits of a crate apply, and each stands in one of the folders alone; and two pages say how many there are in each."""
    crates = collections.defaultdict(list)
    for path in edits_in(*EDITS):
        crates[path.parent.parent.name].append(path)
    for crate, paths in sorted(crates.items()):
        wrong = [f"{path.stem}: {one}" for path in paths for one in wrong_in_edit(path)]
        twice = collections.Counter(path.stem for path in paths)
        yield f"crates/{crate}: edits", wrong + [f"{name} stands in both folders" for name, count in twice.items() if count > 1]
    for line in (ROOT / "docs/theorem.md").read_text().split("| Wrong program |")[-1].split("\n\n")[0].splitlines()[2:]:
        parts = (part.partition(": ") for part in cells_of(line)[1].split("; "))
        named = [(crate, name) for crates, _, names in parts for crate in crates.split(", ") for name in names_in(names)]
        wrong = [f"there is no {name} in {crate}" for crate, name in named if not (CRATES / crate / EDITS[0] / f"{name}.edit").exists()]
        yield f"docs/theorem.md: {cells_of(line)[0]}", wrong
    for page in ("README.md", "docs/theorem.md"):
        text = " ".join((ROOT / page).read_text().split())
        for folder in EDITS:
            told, count = re.findall(rf"(\d+)(?: \w+)* in `crates/\*/{folder}`", text), len(edits_in(folder))
            yield f"{page}: {folder}", [] if told == [str(count)] else [f"it tells {', '.join(told) or 'nothing'}, and there are {count}"]


def judge_crates():
    """No line of crates.txt names a crate of a later one."""
    rows = [line.partition("#")[0].replace(":", " ").split() for line in (ROOT / "crates.txt").read_text().splitlines()]
    rows = [row for row in rows if row]
    names = [row[0] for row in rows]
    wrong = [f"{row[0]} names {name} of a later line" for k, row in enumerate(rows) for name in row[1:] if name in names[k:]]
    yield "crates.txt: order", wrong


def words_of_code():
    """The words of the crates and of the scripts, and what crates, edits and scripts are called."""
    paths = [path for kind in ("src/**/*.rt", "specs/*.antt", "proofs/*.antt") for path in CRATES.glob(f"*/{kind}")]
    found = {path.name for path in CRATES.iterdir()} | {path.stem for path in edits_in(*EDITS)}
    for folder in ("tests", "tests/model", "bin", "python/vol_tool", "python/vol_tool/data"):
        scripts = [path for path in (ROOT / folder).iterdir() if path.is_file() and path.suffix != ".md"]
        found |= {path.name for path in scripts}
        paths += scripts
    return found.union(*({path.stem, *re.findall(r"\w+", path.read_text())} for path in paths))


def judge_names():
    known = words_of_code() | NOT_OURS
    for name in ("theorem", "trusted", "layers", "map", "round", "DECISIONS", "serving"):
        text = (ROOT / f"docs/{name}.md").read_text()
        words = {word for names in re.findall(r"`([A-Za-z_][\w:]*)`", text) for word in names.split("::")}
        yield f"docs/{name}.md: names", [f"there is no {word} in the code" for word in sorted(words - known)]


def judge_links(page, path, text):
    text = re.sub(r"^```.*?^```$", "", text, flags=re.M | re.S)
    for link in re.findall(r"\]\((?!\w+:)([^)\s]+)\)", text) + re.findall(r'src(?:set)?="([^"]+)"', text):
        name, _, part = link.partition("#")
        target = path.parent / name if name else path
        wrong = [] if target.exists() else [f"there is no {name}"]
        if part and not wrong:
            headings = re.findall(r"^#+ (.*)$", target.read_text(), re.M)
            parts = [re.sub(r"[^\w\- ]", "", heading.lower()).replace(" ", "-") for heading in headings]
            wrong = [] if part in parts else [f"{target.name} has no part {part}"]
        yield f"{page}: {link}", wrong


def judge_definitions(page, path, text):
    """What a link to a module of definitions names is defined there."""
    for names, link in re.findall(r"\[([^\]]*)\]\(([^)\s]+\.antt)\)", text):
        missing = [name for name in names_in(names) if f"/{name}.antt" not in link and not is_defined(name, [path.parent / link])]
        yield f"{page}: {names}", [f"{name} isn't defined in {link}" for name in missing]


def judge_all():
    code = Code()
    yield from judge_layers(code)
    for path in [path for folder in (ROOT, ROOT / "docs", ROOT / "tests") for path in sorted(folder.glob("*.md"))]:
        page, text = path.relative_to(ROOT), path.read_text()
        yield from judge_tables(code, page, text.splitlines())
        yield from judge_words(code, page, " ".join(text.split()))
        yield from judge_links(page, path, text)
        yield from judge_definitions(page, path, text)
    yield from judge_theorem(code)
    yield from judge_names()
    yield from judge_edits()
    yield from judge_crates()


if __name__ == "__main__":
    main_of_pages(judge_all)
