#!/usr/bin/env python3
"""Checks that docs/trusted.md lists exactly the definitions, and the types of the code, that the contracts of the programs reach by name.

    tests/trusted.py [--print]

It reads docs/ and crates/, and runs nothing. Reached is what a contract of `run`, `serve_all` or `fetch` names, or a trait in which they
speak; what a definition that is reached names; and what the ghost fields and the model of a type do that is. A lemma is proved, so nobody
has to believe it: the way ends there. The page also tells how many lines there are, and which other definitions stand beside these; and a
word that it names for some modules is one of theirs that is reached. With --print the definitions are printed in the order of the page.
"""
import collections
import dataclasses
import functools
import re
import sys

from harness import CRATES, ROOT, cells_of, main_of_pages, module_of

USE = re.compile(r"^\s*(?:ghost )?use Rattle\.(\w+)\.specs\.([\w.]+?)(?:\.\{(.*)\})?(?: as (\w+))?;?$")
WORD = re.compile(r"[^\s(),;{}\[\]|⟦⟧]+")

# the words in front of a definition, and its name; a lemma has none but `pub`
HEAD = re.compile(r"((?:(?:abbrev|unfoldable|pub|record|data) )*)([^\s:(){}]+)(?= )")

# the files whose contracts are judged, and those of the traits in which they speak: all but private functions and bodies counts
CONTRACTS = ("vol_tool/src/top.rt", "vol_serve/src/top.rt", "vol_fetch/src/fetch.rt")
TRAITS = ("remote_store/src/dial.rt", "vol_base/src/outside.rt", "folder_store/src/folder.rt", "pipes/src/pipe.rt")

# commands, the program's call, a port and a member of a field
NOT_DEFINED = {"cutout", "write", "update", "generate", "serve", "verify", "vol_serve", "run", "serde_json", "close"}


@dataclasses.dataclass
class Definition:
    """A definition or a lemma: its lines without those of comments, and with them."""

    name: str
    is_lemma: bool
    lines: list = dataclasses.field(default_factory=list)
    text: list = dataclasses.field(default_factory=list)

    def words(self):
        return words_in(" ".join(self.lines))


def words_in(text):
    """The words of a text; of `f.g` also `f`; the operators that stand between others, and that of `do`."""
    found = set(WORD.findall(text))
    operators = {f"◌{sign}◌" for word in found for sign in re.findall(r"[^\w.◌]+", word)}
    return found | {word.split(".")[0] for word in found} | operators | ({"◌>>=◌"} if "←" in found else set())


class Uses:
    """What the `use` lines of a file bring in of this repository: names, and modules in front of a dot."""

    def __init__(self, text):
        self.names, self.spaces = {}, {}
        for crate, path, names, other in (found.groups() for found in map(USE.match, text.splitlines()) if found):
            if not (CRATES / crate).is_dir():
                continue
            if names is None:
                self.spaces[other or path.split(".")[-1]] = (crate, path)
                continue
            for name, _, alias in (name.strip().partition(" as ") for name in names.split(",")):
                self.names[alias or name] = (crate, path, name)

    def find(self, words):
        """Of words those that are brought in, each as a crate, a path and a name."""
        for word in words:
            space, _, name = word.partition(".")
            if word in self.names:
                yield self.names[word]
            elif name and space in self.spaces:
                yield *self.spaces[space], name.split(".")[0]


class Module:
    """The definitions and lemmas of a file, in their order, and by their names, a type by those of its cases too."""

    def __init__(self, path):
        text = path.read_text()
        self.uses, self.all, self.named = Uses(text), [], {}
        comment, inside = [], False
        for line in text.splitlines():
            inside = line.startswith("module ") or (inside and line[:1] in (" ", ""))
            line = line[2:] if inside and line.startswith("  ") else line
            if line.startswith("--"):
                comment.append(line)
            elif not line or re.match(r"module |infix|(?:pub )?(?:use|mod) ", line):
                comment = []
            else:
                self.take(line, comment)
                comment = []

    def take(self, line, comment):
        head = HEAD.match(line)
        if head and (head[1] or line.startswith(f"{head[2]} :")):
            one = Definition(head[2], not re.search("abbrev|unfoldable|record|data", head[1]))
            self.all.append(one)
            self.named[one.name] = one
        one = self.all[-1]
        one.lines.append(line)
        one.text += [*comment, line]
        if case := re.match(r"  (\w+) :", line):
            self.named.setdefault(case[1], one)

    def definitions(self):
        return [one for one in self.all if not one.is_lemma]


@functools.cache
def read_module(crate, name):
    return Module(module_of(crate, name))


@functools.cache
def files_of_types():
    """The files of the types of the code, by crate and name."""
    found = {}
    for path in CRATES.glob("*/src/*.rt"):
        for name in re.findall(r"^pub(?:\(crate\))? (?:struct|enum|trait) (\w+)", path.read_text(), re.M):
            found[path.parent.parent.name, name] = path
    return found


class Reach:
    """What is reached: definitions and lemmas by crate, module and name; types by crate and name."""

    def __init__(self):
        self.found, self.types, self.waiting = {}, set(), []
        for path in CONTRACTS + TRAITS:
            text = (CRATES / path).read_text()
            part = re.sub(r"^(?:fn .*?^\}|\{$.*?^\}| *(?://|ghost use|use) .*?$)", "", text, flags=re.M | re.S)
            self.waiting += Uses(text).find(words_in(part))
        while self.waiting:
            crate, path, name = self.waiting.pop()
            module, _, owner = path.partition(".")
            if module == "declared":
                self.take_type(crate, owner.split("."), name)
            else:
                self.take(crate, module, owner or name)

    def take(self, crate, module, name):
        here = read_module(crate, module)
        one = here.named[name]
        if (crate, module, one.name) not in self.found:
            self.found[crate, module, one.name] = one
            if not one.is_lemma:
                self.waiting += here.uses.find(one.words())
                self.waiting += [(crate, module, word) for word in one.words() if word in here.named]

    def take_type(self, crate, path, name):
        """A type, by the path of one of its cases or of itself: what its ghost fields and its model name, and the types of its fields."""
        name = next((part for part in path if part[0].isupper() and not part.startswith("The")), name)
        if (crate, name) in self.types or (crate, name) not in files_of_types():
            return
        self.types.add((crate, name))
        text = files_of_types()[crate, name].read_text()
        head = rf"(?:pub(?:\(crate\))? (?:struct|enum)|impl(?:<.*?>)? Model for) {name}\b"
        parts = " ".join(re.findall(rf"^{head}.*?(?:;$|^\}})", text, re.M | re.S))
        words = words_in(re.sub(r"^ *(?://|ghost use) .*?$", "", parts, flags=re.M))
        self.waiting += Uses(text).find(words)
        fields = ((other, word) for other in {crate, *re.findall(r"^use (\w+)::", text, re.M)} for word in re.findall(r"\w+", parts))
        self.waiting += [(other, f"declared.{word}", word) for other, word in fields if (other, word) in files_of_types()]

    def modules(self):
        """The names of the definitions that are reached, by crate and module."""
        found = collections.defaultdict(set)
        for (crate, module, name), one in self.found.items():
            if not one.is_lemma:
                found[crate, module].add(name)
        return dict(found)

    def lines(self):
        return sum(len(one.lines) for one in self.found.values() if not one.is_lemma)

    def files(self):
        """The files of the types that are reached, and of the traits, each as a crate and a name."""
        paths = [files_of_types()[one] for one in self.types] + [CRATES / path for path in TRAITS]
        return {(path.parent.parent.name, path.stem) for path in paths}


def rows_of(text, head):
    """The rows of the tables with this last column: crate, modules, and what it says."""
    for table in re.findall(rf"^\| Crate \| Module \| {head} \|\n\|[-|]*\n((?:\|.*\n)*)", text, re.M):
        yield from map(cells_of, table.splitlines())


def judge_listed(reached, rows, types):
    """Modules and types: each is reached and listed once, and no other is reached; and a row's words are reached in its modules."""
    found, listed = reached.modules(), collections.Counter()
    for crate, names, says in rows:
        modules = names.split(", ")
        listed.update((crate, name) for name in modules)
        known = NOT_DEFINED.union(*(found.get((crate, name), ()) for name in modules))
        yield f"{crate} {names}: words", [f"{word} isn't reached there" for word in re.findall(r"`(\w+)`", says) if word not in known]
    files = collections.Counter((crate, name) for crate, names in types for name in names.split(", "))
    for kind, listed, due in (("", listed, set(found)), ("type of ", files, reached.files())):
        for one in sorted({*listed, *due}):
            wrong = {"it isn't reached": one not in due, "it isn't listed": one not in listed, "it is listed twice": listed[one] > 1}
            yield f"{kind}{one[0]} {one[1]}", [why for why, is_wrong in wrong.items() if is_wrong]


def judge_rest(reached, rows):
    """Of each module that is reached the definitions that aren't: they are listed as such."""
    listed = {(crate, name): set(re.findall(r"`([^`]+)`", says)) for crate, name, says in rows}
    modules = reached.modules()
    for crate, name in sorted({*modules, *listed}):
        rest = {one.name for one in read_module(crate, name).definitions()} - modules.get((crate, name), set())
        told = listed.get((crate, name), set())
        wrong = [f"{word} isn't reached" for word in sorted(rest - told)] + [f"{word} is reached or gone" for word in sorted(told - rest)]
        yield f"{crate} {name}: the rest", wrong


def judge_all():
    reached, text = Reach(), (ROOT / "docs/trusted.md").read_text()
    types = " ".join(text.split("## Types of the code")[1].split("\n## ")[0].split())
    yield from judge_listed(reached, list(rows_of(text, "Says")), re.findall(r"\*\*(\w+)\*\* (\w+(?:, \w+)*)", types))
    yield from judge_rest(reached, list(rows_of(text, "Not reached")))
    count = reached.lines() // 100 * 100 + 100
    told = re.findall(r"fewer than ([\d,]+) short\s+lines", text)
    yield "lines", [] if told == [f"{count:,}"] else [f"it tells {', '.join(told)}, and there are {reached.lines()}: fewer than {count:,}"]


def print_all():
    reached = Reach()
    for crate, names, _ in rows_of((ROOT / "docs/trusted.md").read_text(), "Says"):
        for name in names.split(", "):
            print(f"-- {crate}, {name}\n")
            for one in read_module(crate, name).definitions():
                if (crate, name, one.name) in reached.found:
                    print("\n".join(one.text), end="\n\n")


if __name__ == "__main__":
    if sys.argv[1:] == ["--print"]:
        print_all()
    else:
        main_of_pages(judge_all)
