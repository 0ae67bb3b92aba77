#!/usr/bin/env python3
"""Checks that the pages' sentences are short: none of over 35 words, 20 on average in each page; and that the README has at most 900.

    tests/sentences.py [--all]

It reads the pages, and runs nothing. With `--all` it prints each page's numbers, and each sentence that is too long.

How it counts. Tables, headings, blocks of code and pictures are left out. So are a title in bold of at most four words in front of a
block, and a list of eight names in bold or more. A paragraph, an item of a list and a quotation are blocks of their own. A sentence ends at a full stop, a question mark or an exclamation mark with a blank behind it, and with its block: a colon, a
semicolon or a dash ends none. A word is what stands between blanks and has a letter or a digit; code between backquotes is one word,
and of a link its text counts alone. Of the README the words of tables count, too.
"""
import re
import sys

from harness import ROOT, main_of_pages

MOST, AVERAGE, README_WORDS, TITLE_WORDS, LIST_NAMES = 35, 20, 900, 4, 8

# What is left out: blocks of code and pictures; and lines of tables, of headings, of one picture or one mark.
BLOCKS = re.compile(r"^ *```.*?^ *```$|<!--.*?-->|<picture>.*?</picture>", re.M | re.S)
LINE = re.compile(r"\s*(?:\|.*|#.*|!\[.*\]\(.*\)|<.*>)$")
ITEM = re.compile(r"^(?:> ?)?\s*(?:[-*] |\d+\. )")
TITLE = re.compile(r"^\*\*[^*]+\.\*\* ")
END = re.compile(r"""(?<=[.?!])(?:\*\*|["')])*\s+(?=\S)""")
NO_END = re.compile(r"(?:\b(?:e\.g|i\.e|vs|St)|\.\.)\.?$")


def pages():
    folders = (ROOT, ROOT / "docs", ROOT / "tests")
    return [path for folder in folders for path in sorted(folder.glob("*.md"))]


def blocks_of(text):
    """The paragraphs, items and quotations of a page, each in one line. Lines of code are indented, behind an empty line."""
    kept = []
    for line in [*BLOCKS.sub("", text).splitlines(), ""]:
        is_end = not line.strip(" >") or LINE.match(line)
        if kept and (is_end or ITEM.match(line)):
            yield " ".join(kept)
            kept = []
        if not is_end and (kept or not line.startswith("    ")):
            kept.append(ITEM.sub("", line).strip("> "))


def plain(block):
    """A block without a short title in front, and without the marks of its links and its code."""
    title = TITLE.match(block)
    block = block[title.end() :] if title and len(title[0].split()) <= TITLE_WORDS else block
    block = re.sub(r"(`+).+?\1", "code", block)
    return re.sub(r"\[([^\]]*)\]\([^)]*\)", r"\1", block)


def words_in(sentence):
    return [word for word in sentence.split() if re.search(r"\w", word)]


def sentences_of(text):
    """Each sentence of a page, as its words."""
    for block in blocks_of(text):
        if block.count("**") >= 2 * LIST_NAMES:
            continue
        begin, block = 0, plain(block)
        for end in END.finditer(block):
            if not NO_END.search(block[begin : end.start()]):
                yield words_in(block[begin : end.start()])
                begin = end.end()
        yield words_in(block[begin:])


def judge_page(page, text):
    sentences = [words for words in sentences_of(text) if words]
    count = sum(map(len, sentences))
    long = [f"{len(words)} words: {' '.join(words[:8])} .." for words in sentences if len(words) > MOST]
    average = count / max(1, len(sentences))
    yield f"{page}: the longest sentences", long
    yield f"{page}: the average", [f"{average:.1f} words a sentence, and {AVERAGE} are the most"] * (average > AVERAGE)
    if page == "README.md":
        count += sum(len(words_in(plain(line).replace("|", " "))) for line in text.splitlines() if line.startswith("|"))
        yield f"{page}: its length", [f"{count} words, and {README_WORDS} are the most"] * (count > README_WORDS)


def judge_all():
    for path in pages():
        yield from judge_page(str(path.relative_to(ROOT)), path.read_text())


def tell_all():
    """Prints the numbers of each page, and the sentences that are too long."""
    for path in pages():
        lengths = [len(words) for words in sentences_of(path.read_text()) if words]
        over = sum(length > MOST for length in lengths)
        numbers = f"{sum(lengths):6d} words {len(lengths):4d} sentences {sum(lengths) / len(lengths):5.1f} on average"
        print(f"{str(path.relative_to(ROOT)):20} {numbers} {max(lengths):3d} the longest {over:3d} over {MOST} "
              f"{sum(length > 40 for length in lengths):3d} over 40")
        for _, wrong in judge_page(str(path.relative_to(ROOT)), path.read_text()):
            print("".join(f"    {one}\n" for one in wrong), end="")


if __name__ == "__main__":
    if sys.argv[1:2] == ["--all"]:
        tell_all()
    else:
        main_of_pages(judge_all)
