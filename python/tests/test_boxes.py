"""Boxes, and how they are cut."""
import itertools
import random

import pytest

from model.boxes import spell
from model.chance import pick_box, pick_volume
from vol_tool.boxes import box_of, box_text, cells_in, chunk_name, count_voxels, cut_box, is_inside, read_box
from vol_tool.errors import UsageError


def test_texts():
    box = ((-3, 4), (0, 1), (17, 20))
    assert box_text(box) == "[-3:4,0:1,17:20]" == spell(box)
    assert read_box("[-3:4,0:1,17:20]") == box == box_of(box) == box_of([[-3, 4], [0, 1], [17, 20]])


@pytest.mark.parametrize("given", ["", "[0:1,0:1]", "[0:1, 0:1,0:1]", "0:1,0:1,0:1", [(0, 1)], [(0, 1, 2)] * 3, 7, [(0, 0.5)] * 3])
def test_what_is_no_box(given):
    with pytest.raises(UsageError):
        box_of(given)


@pytest.mark.parametrize("seed", range(20))
def test_cells_are_the_models(seed):
    chance = random.Random(seed)
    volume = pick_volume(chance, True, False)
    box = pick_box(chance, volume)
    found = list(cells_in(box, volume.whole, volume.chunk))
    assert [chunk_name(cell) for cell in found] == [volume.name(cell) for cell in volume.cells_in(box)]


@pytest.mark.parametrize("seed", range(50))
def test_cuts(seed):
    """They cover the box once, end at borders, are small enough or of one cell, and come x fastest."""
    chance = random.Random(seed)
    volume = pick_volume(chance, True, False)
    box, most = pick_box(chance, volume), chance.randint(1, 300)
    parts = cut_box(box, volume.offset, volume.chunk, most)
    voxels = [voxel for part in parts for voxel in itertools.product(*(range(*span) for span in part))]
    assert sorted(voxels) == sorted(itertools.product(*(range(*span) for span in box)))
    assert parts == sorted(parts, key=lambda part: [begin for begin, _ in reversed(part)])
    cell = count_voxels([(0, min(step, end - begin)) for step, (begin, end) in zip(volume.chunk, box)])
    for part in parts:
        assert is_inside(part, box) and count_voxels(part) <= max(most, cell)
        for (begin, end), (first, last), origin, step in zip(part, box, volume.offset, volume.chunk):
            assert begin == first or (begin - origin) % step == 0
            assert end == last or (end - origin) % step == 0
