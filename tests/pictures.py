#!/usr/bin/env python3
"""Checks that the pictures of the pages are what this script draws, from the code's own numbers where it has some.

    tests/pictures.py [--write]

With `--write` it draws them into docs/pictures. They are SVG, with a ground of their own and colours for light and dark. The shard's bytes
are the known ones that vol_spec's `KnownShards` proves, the boxes of a write those of examples/overlap, the crates those of crates.txt.
"""
import html
import re
import runpy
import sys
import textwrap

from clauses import Code
from harness import CRATES, ROOT, main_of_pages
from layers import rooms

PICTURES = ROOT / "docs" / "pictures"
WIDTH = 880

# Of each kind of area its ground and its edge, in light and in dark; and the colours of the page, of texts and of lines.
AREAS = {
    "blue": ("#ddf4ff", "#0969da", "#0c2d6b", "#4493f8"),
    "green": ("#dafbe1", "#1a7f37", "#04391a", "#3fb950"),
    "yellow": ("#fff8c5", "#9a6700", "#432a02", "#d29922"),
    "purple": ("#fbefff", "#8250df", "#341a64", "#ab7df8"),
    "red": ("#ffebe9", "#cf222e", "#5a1216", "#f85149"),
    "grey": ("#f6f8fa", "#8c959f", "#1c2129", "#656c76"),
}
INKS = {"ground": ("#ffffff", "#0d1117"), "ink": ("#1f2328", "#f0f6fc"), "soft": ("#59636e", "#9da7b3"), "line": ("#6e7781", "#8b949e")}


def styles(dark):
    """The colours of light or of dark, as a style sheet."""
    inks = {name: colours[dark] for name, colours in INKS.items()}
    yield f".ground{{fill:{inks['ground']}}}.ink{{fill:{inks['ink']}}}.soft{{fill:{inks['soft']}}}.head{{fill:{inks['line']}}}"
    yield f".line{{stroke:{inks['line']};fill:none}}.thick{{stroke:{inks['ink']};fill:none;stroke-width:3}}"
    for name, colours in AREAS.items():
        fill, edge = colours[2 * dark : 2 * dark + 2]
        yield f".{name}{{fill:{fill};stroke:{edge}}}.{name}-ink{{fill:{edge}}}"


STYLE = (
    "text{font:13px ui-sans-serif,system-ui,'Segoe UI',Helvetica,Arial,sans-serif}.code{font-family:ui-monospace,Consolas,Menlo,monospace}"
    f".bold{{font-weight:600}}.small{{font-size:11.5px}}.line{{stroke-width:1.5}}{''.join(styles(0))}"
    f"@media(prefers-color-scheme:dark){{{''.join(styles(1))}}}"
)


class Picture:
    """What is drawn, line by line."""

    def __init__(self, title, height):
        self.height = height
        self.lines = [
            f'<svg xmlns="http://www.w3.org/2000/svg" viewBox="0 0 {WIDTH} {height}" width="{WIDTH}" height="{height}" role="img">',
            f"<title>{html.escape(title)}</title>",
            f"<style>{STYLE}</style>",
            '<defs><marker id="tip" viewBox="0 0 8 8" refX="7" refY="4" markerWidth="7" markerHeight="7" orient="auto">'
            '<path class="head" d="M0 0L8 4L0 8z"/></marker></defs>',
            f'<rect class="ground" width="{WIDTH}" height="{height}" rx="6"/>',
        ]

    def text(self, x, y, words, kind="ink", anchor="start"):
        self.lines.append(f'<text class="{kind}" x="{x:g}" y="{y:g}" text-anchor="{anchor}">{html.escape(words)}</text>')

    def texts(self, x, y, lines, kind="ink", anchor="start", step=17):
        for place, words in enumerate(lines):
            self.text(x, y + step * place, words, kind, anchor)

    def note(self, x, y, *lines, anchor="start", step=17):
        self.texts(x, y, lines, "soft small", anchor, step)

    def begin(self, title, *lines):
        """The title on top, and what is said below it."""
        self.text(16, 26, title, "ink bold")
        self.note(16, 44, *lines)

    def area(self, x, y, width, height, kind, rx=4):
        self.lines.append(f'<rect class="{kind}" x="{x:g}" y="{y:g}" width="{width:g}" height="{height:g}" rx="{rx}"/>')

    def named(self, x, y, width, height, kind, lines, text="ink", rx=4):
        """An area with lines of text in its middle."""
        self.area(x, y, width, height, kind, rx)
        self.texts(x + width / 2, y + height / 2 + 4.5 - 8.5 * (len(lines) - 1), lines, text, "middle")

    def line(self, *points, tip=False, dashed=False):
        path = "M" + "L".join(f"{x:g} {y:g}" for x, y in points)
        more = ' marker-end="url(#tip)"' * tip + ' stroke-dasharray="4 4"' * dashed
        self.lines.append(f'<path class="line" d="{path}"{more}/>')

    def whole(self):
        return "\n".join([*self.lines, "</svg>", ""])


# A shard


def known_shard():
    """The pieces of the known shard: numbers of eight bytes, and chunks of a byte, each with its place; and how long the shard is."""
    text = (CRATES / "vol_spec/proofs/KnownShards.antt").read_text()
    written = re.search(r"^two = (.*)$", text, re.M)[1]
    place, pieces = 0, []
    for numbers, byte in re.findall(r"numbers \(([^)]*)\)|(\d+) ∷", written):
        for number in re.findall(r"\d+", numbers) or [byte]:
            size = 8 if numbers else 1
            pieces.append((place, int(number), size))
            place += size
    return pieces, place


# The fields of a shard, row by row, each with whether it is a place; and where places are counted from.
INDEX = [("id", False), ("start of the chunk", True), ("size", False)]
CHUNK_FIELD = [("its only value", False)]
SHARD = [
    ("entries", "of minishards 0 and 1", "blue", [(f"{end} of index {number}", True) for number in (0, 1) for end in ("start", "end")]),
    ("chunk", "of id 0", "green", CHUNK_FIELD),
    ("index", "of minishard 0", "yellow", INDEX),
    ("chunk", "of id 1", "green", CHUNK_FIELD),
    ("index", "of minishard 1", "yellow", INDEX),
]
BASE = 32


def draw_field(picture, x, y, kind, means, is_place, piece):
    place, number, size = piece
    width = 176 if size == 8 else 96
    picture.area(x, y, width, 62, kind)
    picture.note(x + 8, y + 16, f"{place}")
    picture.text(x + width - 8, y + 16, f"{number} → {BASE + number}" if is_place else f"{number}", "ink bold", "end")
    picture.text(x + 8, y + 35, number.to_bytes(size, "little").hex(" "), "ink code small")
    picture.note(x + 8, y + 53, means)


def draw_shard():
    pieces, length = known_shard()
    picture = Picture(f"The {length} bytes of a shard with two chunks of a byte", 68 + 74 * len(SHARD))
    picture.begin(
        f"The {length} bytes of a shard: two minishards, with one chunk of one byte each",
        "Each box is a field, with the place of its first byte on top. "
        f"“→ n” is the byte that a start or an end means: it counts from {BASE} on.",
    )
    left = iter(pieces)
    for row, (name, whose, kind, fields) in enumerate(SHARD):
        y = 62 + 74 * row
        picture.text(16, y + 26, name, f"{kind}-ink bold")
        picture.note(16, y + 44, whose)
        for column, (means, is_place) in enumerate(fields):
            draw_field(picture, 150 + 180 * column, y, kind, means, is_place, next(left))
    return picture


# A cutout

# The size and the chunks of a scale, a box in it, and how many pixels a voxel has.
SIZE, CHUNK, BEGIN, END, UNIT = (15, 11, 10), (4, 4, 4), (5, 2, 2), (13, 7, 9), 13


def cells_of_box():
    """The first and the last cell that the box meets, on each axis."""
    return [(begin // chunk, (end - 1) // chunk) for begin, end, chunk in zip(BEGIN, END, CHUNK)]


def planes_of(layer):
    """The first and the last plane of the box that is in a layer."""
    return max(BEGIN[2], layer * CHUNK[2]), min(END[2], (layer + 1) * CHUNK[2]) - 1


def draw_layer(picture, x, y, layer):
    """A layer from above: its cells, those that the box meets, and the box."""
    (first_x, last_x), (first_y, last_y), _ = cells_of_box()
    for j in range(-(-SIZE[1] // CHUNK[1])):
        for i in range(-(-SIZE[0] // CHUNK[0])):
            is_met = first_x <= i <= last_x and first_y <= j <= last_y
            at = (x + i * CHUNK[0] * UNIT, y + j * CHUNK[1] * UNIT)
            size = [min(CHUNK[axis], SIZE[axis] - place * CHUNK[axis]) * UNIT for axis, place in ((0, i), (1, j))]
            picture.area(*at, *size, "yellow" if is_met else "grey", 0)
    picture.area(x + BEGIN[0] * UNIT, y + BEGIN[1] * UNIT, *((END[axis] - BEGIN[axis]) * UNIT for axis in (0, 1)), "thick", 0)
    low, high = planes_of(layer)
    picture.text(x, y - 24, f"layer {layer}", "ink bold")
    picture.note(x, y - 8, f"z {low} to {high} of the box" if low < high else f"z {low} of the box")
    picture.note(x, y + SIZE[1] * UNIT + 18, f"{(last_x - first_x + 1) * (last_y - first_y + 1)} cells are read, x fastest")


def draw_output(picture, layers):
    """The bytes of the output in their order, as long as the layers are high."""
    picture.text(16, 292, "The output", "ink bold")
    says, x = ("channel 0: layer by layer, each written once it is whole", "channel 1, and so on"), 104
    for channel, words in enumerate(says):
        begin = x
        for layer in layers:
            low, high = planes_of(layer)
            width = 45 * (high - low + 1) + 12
            picture.named(x, 274, width, 30, ("blue", "purple")[channel], [f"layer {layer}"], "ink small")
            x += width + 3
        picture.note((begin + x) / 2, 322, words, anchor="middle")
        x += 8


def draw_cutout():
    first, last = cells_of_box()[2]
    box = ",".join(f"{begin}:{end}" for begin, end in zip(BEGIN, END))
    size, chunk = (" × ".join(map(str, sides)) for sides in (SIZE, CHUNK))
    picture = Picture("A box, its cells, and the layers of a cutout", 372)
    picture.begin(
        f"A cutout of [{box}] from {size} voxels in chunks of {chunk}",
        "Layers from above. Yellow: the cells that the box meets. Thick: the box. Cells at the far edge are clipped.",
    )
    for place, layer in enumerate(range(first, last + 1)):
        draw_layer(picture, 34 + place * 282, 96, layer)
        if place:
            picture.line((place * 282 - 39, 168), (place * 282 + 20, 168), tip=True)
    draw_output(picture, range(first, last + 1))
    memory = "Memory is that of one channel of one layer of the box."
    picture.note(16, 352, f"{memory} Where a cell of layer 1 is damaged, the output has layer 0 of channel 0, and no more.")
    return picture


# A write


def overlap():
    """The boxes of examples/overlap, on x and y, and the values of channel 0 that they leave, row by row."""
    boxes = runpy.run_path(str(ROOT / "examples/overlap/stream.py"))["BOXES"]
    rows = (ROOT / "examples/overlap/box.txt").read_text().splitlines()
    return boxes, [row.split() for row in rows[: len(rows) // 2]]


# The kinds of 0 and of the boxes' values; the parts of the shard; the columns' places and titles, and what is said below each.
VALUES = ["grey", "blue", "yellow", "purple"]
PARTS = [
    ("entries, zeros first", "blue"), ("chunk, chunk, ..", "green"), ("index of minishard 0", "yellow"), ("chunk, ..", "green"),
    ("index of minishard 1", "yellow"),
]
PLANS = "the last write counts,|and no write leaves 0;|each cell that one meets|is a job, in the order of|shard, minishard, id"
STEPS = [
    (16, 256, "1 read the stream", "all of it is read first,|so a faulty stream|changes nothing"),
    (190, 200, "2 plan the cells", PLANS),
    (400, 232, "3 fill and encode", "rows are copied|over zeros; several|workers encode, each|in a frame of its own"),
    (560, 240, "4 store in order", "one thread appends to|0.shard.part; with each|index the entry is|overwritten"),
    (724, 136, "5 finish", "under its own name|a shard is whole|or absent; its bytes|don’t depend on the|number of workers"),
]


def draw_values(picture, x, y, values):
    """The values that are left, and the borders of the cells, which are 4 x 4 voxels."""
    for j, row in enumerate(values):
        for i, value in enumerate(row):
            picture.named(x + i * 20, y + j * 20, 20, 20, VALUES[int(value)], [value], "ink small", 0)
    for column in (0, 80, 160):
        picture.line((x + column, y - 4), (x + column, y + 104))
    for row in (0, 80, 100):
        picture.line((x - 4, y + row), (x + 164, y + row))


def draw_write():
    boxes, values = overlap()
    picture = Picture("How a write goes from its stream to a shard", 350)
    picture.begin("From the stream to a shard: the three boxes of examples/overlap")
    for x, y, title, says in STEPS:
        picture.text(x, 58, title, "ink bold")
        picture.note(x, y, *says.split("|"), step=15)
    picture.named(16, 72, 120, 26, "grey", [f"PVW1, {len(boxes)} writes"], "ink small")
    for number, (begin, size) in enumerate(boxes):
        spelled = ",".join(f"{first}:{first + length}" for first, length in zip(begin, size))
        picture.named(16, 104 + 44 * number, 120, 38, VALUES[number + 1], [f"write {number}", f"[{spelled}]"], "ink small")
    draw_values(picture, 190, 72, values)
    for job in range(4):
        picture.named(400, 72 + 36 * job, 112, 30, "green", [f"chunk of job {job}"], "ink small")
    for place, (words, kind) in enumerate(PARTS):
        picture.named(560, 72 + 29 * place, 128, 26, kind, [words], "ink small")
    picture.named(724, 72, 140, 40, "blue", ["0.shard.part is", "renamed 0.shard"], "ink small")
    for begin, end in ((140, 184), (356, 394), (516, 554), (692, 718)):
        picture.line((begin, 92), (end, 92), tip=True)
    picture.line((16, 308), (864, 308))
    alone = "Unsharded, each chunk is an object of its own: begun, appended, finished,"
    picture.note(16, 330, f"{alone} in the order x fastest, then y, then z.")
    return picture


# A round

# What the seats of the round that is drawn did, and how many jobs it has.
EVENTS = [(1, "claim"), (0, "claim"), (2, "claim"), (1, "deposit"), (1, "claim"), (2, "deposit"), (2, "claim")]
SEATS, JOBS = 3, 6


def replay():
    """The texts of the events, the stage of each job after them, and the job that each seat has out: claims are of the next job."""
    told, stages, out = [], ["idle"] * JOBS, {}
    for seat, kind in EVENTS:
        job = out.pop(seat) if kind == "deposit" else sum(stage != "idle" for stage in stages)
        stages[job] = "done" if kind == "deposit" else f"out at {seat}"
        if kind == "claim":
            out[seat] = job
        told.append(f"{kind} {job} at {seat}")
    return told, stages, out


def draw_shared(picture, x, told, stages):
    """What the lock guards."""
    picture.area(x, 62, 320, 272, "grey")
    picture.text(x + 160, 84, "the round, behind a lock", "ink bold", "middle")
    picture.note(x + 16, 108, f"next job: {sum(stage != 'idle' for stage in stages)}")
    for job, stage in enumerate(stages):
        kind = {"done": "green", "idle": "grey"}.get(stage, "yellow")
        lines = [f"{job}", *stage.replace(" at", "|at").split("|")]
        picture.named(x + 16 + 48 * job, 114, 46, 54, kind, lines, "ink small")
    picture.note(x + 16, 186, "chunks of the jobs that are done")
    for place, job in enumerate(job for job, stage in enumerate(stages) if stage == "done"):
        picture.named(x + 16 + 84 * place, 192, 78, 24, "green", [f"chunk {job}"], "ink small")
    picture.note(x + 16, 240, "the log, in the order in which the lock was held")
    for place, words in enumerate(told):
        kind = "blue" if words.startswith("claim") else "purple"
        picture.named(x + 16 + 98 * (place % 3), 248 + 27 * (place // 3), 94, 24, kind, [words], "ink small")


def draw_seat(picture, y, seat, job):
    picture.area(16, y, 204, 84, "yellow")
    picture.text(28, y + 22, f"seat {seat}", "ink bold")
    picture.note(28, y + 42, f"encodes job {job} in a frame,", "outside the lock")
    picture.line((314, y + 26), (224, y + 26), tip=True)
    picture.line((222, y + 60), (312, y + 60), tip=True)
    picture.text(268, y + 19, "claim", "blue-ink small", "middle")
    picture.text(268, y + 76, "deposit", "purple-ink small", "middle")


def draw_round():
    told, stages, out = replay()
    picture = Picture("Workers, the lock and the log of a round", 392)
    picture.begin(
        f"A round of {JOBS} jobs: {SEATS} workers, one lock, one log",
        "Only what is in the middle is shared and changed, by who holds the lock. Encoding goes on outside it.",
    )
    draw_shared(picture, 316, told, stages)
    for seat in range(SEATS):
        draw_seat(picture, 62 + 94 * seat, seat, out[seat])
    picture.area(690, 118, 174, 152, "green")
    picture.text(702, 142, "the caller", "ink bold")
    says = "Once all seats ended,|each job was claimed|once and deposited once.|It stores the chunks in|the jobs’ order."
    picture.note(702, 164, *says.split("|"))
    picture.line((638, 194), (686, 194), tip=True)
    picture.note(
        16,
        358,
        "The log is lawful: each claim is of the next job, each deposit of a job that is out at that seat. So what is stored doesn’t",
        "depend on the number of workers, or on who is first. That two of them encode at once no clause can say: a test does.",
    )
    return picture


# The crates

# Rooms that only tests and measurements use; and where the crates of a room begin, beside its name.
BESIDE, ASIDE = ("What tests stand on", "Trials", "Measured"), 236


def chips(crates):
    """The crates of a room in rows, each with its place along the row and its width."""
    rows, x = [[]], ASIDE
    for crate in crates:
        width = 7 * len(crate) + 14
        if x + width > WIDTH - 24:
            rows.append([])
            x = ASIDE
        rows[-1].append((x, width, crate))
        x += width + 5
    return rows


def draw_crates():
    groups = list(reversed(rooms()))
    names = [textwrap.wrap(name.partition(":")[0], 30) for name, _ in groups]
    heights = [max(12 + 28 * len(chips(crates)), 16 + 15 * len(lines)) for (_, crates), lines in zip(groups, names)]
    picture = Picture("The crates by room, from crates.txt", 66 + sum(heights) + 5 * len(groups))
    picture.begin(
        f"The {sum(len(crates) for _, crates in groups)} crates by room",
        "The ground is at the bottom. A crate uses crates of the rooms below, and of its own. Grey: for tests and measurements.",
    )
    kinds, y = ("blue", "yellow", "green", "purple"), 56
    for place, ((name, crates), lines, height) in enumerate(zip(groups, names, heights)):
        kind = "grey" if name.startswith(BESIDE) else kinds[place % len(kinds)]
        picture.area(16, y, WIDTH - 32, height, "grey")
        picture.texts(26, y + 24 - 5 * (len(lines) > 1), lines, "ink small", step=15)
        for row, line in enumerate(chips(crates)):
            for x, width, crate in line:
                picture.named(x, y + 8 + 28 * row, width, 24, kind, [crate], "ink code small")
        y += height + 5
    return picture


# The theorem

# What each clause of `run` says, and what the theorem rests on.
CLAUSES = {
    "headline": "what reads back", "answers": "what is stored and printed", "succeeds": "when it ends with Ok",
    "keeps": "what stays, what is read", "causes": "why it failed",
}  # fmt: skip
RESTS = [
    ("yellow", "the definitions", "trusted", "crates/*/specs say what the|format says: trusted.md lists|them in reading order"),
    ("yellow", "the kit", "trusted", "prover, compiler, std, ports|(serde_json, httparse, ..);|clang, LLVM"),
    ("yellow", "the system", "trusted", "the C library, the kernel, the|network and the disk: its calls|do what the trait Folder says"),
    ("red", "the edge", "only tested", "sockets and the standard|streams get what passes: real|ones tell nothing"),
]


def draw_statement(picture):
    middle = WIDTH / 2
    picture.area(16, 38, WIDTH - 32, 92, "blue")
    premises = "Let write end with Ok, over a store that tells its objects, and let W be the writes of its stream."
    picture.text(middle, 62, f"{premises} Then in the objects m′ after it:", "ink", "middle")
    picture.text(middle, 90, "value_in(m′, p, c) = last(W, 0, p, c)", "ink code bold", "middle")
    says = "for each position p and channel c of the scale: the value of the last write that covers p, else 0"
    picture.note(middle, 116, says, anchor="middle")


def draw_theorem():
    missing = sorted(Code().of("run", ["vol_tool"]) - CLAUSES.keys())
    picture = Picture("What the theorem says, and what it rests on", 462)
    picture.begin("What the theorem says, of a write")
    draw_statement(picture)
    picture.line((98, 158), (98, 132), tip=True)
    picture.note(112, 149, "This is part of the clause headline of the call run, which has four more clauses, and more commands.")
    for place, (name, says) in enumerate([*CLAUSES.items(), *((name, "?") for name in missing)]):
        picture.named(16 + place * 171, 160, 164, 50, "blue", [name, says], "ink small")
    picture.line((WIDTH / 2, 238), (WIDTH / 2, 213), tip=True)
    code = "The code: proved to keep these clauses, crate by crate, for every input,"
    picture.named(16, 240, WIDTH - 32, 48, "green", [code, "any store, feed, outlets and door, and any number of workers"], "ink small")
    picture.text(16, 322, "What it rests on", "ink bold")
    for place, (kind, name, how, says) in enumerate(RESTS):
        x = 16 + place * 214
        picture.area(x, 336, 206, 110, kind)
        picture.text(x + 12, 360, name, "ink bold")
        picture.text(x + 194, 360, how, f"{kind}-ink small bold", "end")
        picture.texts(x + 12, 386, says.split("|"), "ink small")
        picture.line((x + 160, 336), (x + 160, 291), tip=True)
    return picture


DRAWN = {
    "shard": draw_shard, "cutout": draw_cutout, "write": draw_write, "round": draw_round, "crates": draw_crates, "theorem": draw_theorem,
}  # fmt: skip


def judge_all():
    pages = "".join(path.read_text() for path in (ROOT / "docs").glob("*.md"))
    for name, draw in DRAWN.items():
        path = PICTURES / f"{name}.svg"
        is_same = path.exists() and path.read_text() == draw().whole()
        yield f"docs/pictures/{name}.svg", [] if is_same else ["it isn't what tests/pictures.py --write draws"]
        yield f"docs/pictures/{name}.svg: its page", [] if f"](pictures/{name}.svg)" in pages else ["no page has it"]


def write_all():
    PICTURES.mkdir(exist_ok=True)
    for name, draw in DRAWN.items():
        (PICTURES / f"{name}.svg").write_text(draw().whole())


if __name__ == "__main__":
    if sys.argv[1:] == ["--write"]:
        write_all()
    else:
        main_of_pages(judge_all)
