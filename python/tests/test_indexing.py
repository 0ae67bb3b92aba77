"""numpy's basic indexing, against numpy itself."""
import random

import numpy
import pytest

from trials import random_index, same
from vol_tool.errors import BadIndex, OutsideScale
from vol_tool.indexing import pick

SHAPES = [(4, 5, 6), (1, 1, 1), (3, 1, 7), (2, 3, 4, 5)]


def take(values, index):
    """What an index gives by its positions and its rest."""
    picked = pick(index, values.shape)
    assert all(axis.step > 0 for axis in picked.positions)
    return values[tuple(slice(axis.start, axis.stop, axis.step) for axis in picked.positions)][picked.rest]


@pytest.mark.parametrize("shape", SHAPES)
def test_as_numpy(shape):
    chance, values = random.Random(repr(shape)), numpy.arange(numpy.prod(shape)).reshape(shape)
    for _ in range(2000):
        index = random_index(chance, shape)
        assert same(take(values, index), values[index]), index


@pytest.mark.parametrize("index", [7, -5, (0, 5), (0, 0, -7), (numpy.int8(4),)])
def test_numbers_past_an_axis(index):
    values = numpy.zeros((4, 5, 6))
    with pytest.raises(IndexError) as wanted:
        values[index]
    with pytest.raises(OutsideScale) as found:
        pick(index, values.shape)
    assert str(found.value) == str(wanted.value)


OTHERS = [(0, 0, 0, 0), (Ellipsis, Ellipsis), 1.0, "a", [0, 1], numpy.array([0, 1]), True, numpy.True_, slice(0, 4, 0)]


@pytest.mark.parametrize("index", OTHERS)
def test_other_indices(index):
    with pytest.raises(BadIndex):
        pick(index, (4, 5, 6))


@pytest.mark.parametrize("index", [slice("a", 3), slice(0, 2.5)])
def test_slices_of_no_numbers(index):
    with pytest.raises(TypeError):
        numpy.zeros(4)[index]
    with pytest.raises(TypeError):
        pick(index, (4, 5, 6))


def test_what_numpy_says_of_too_many():
    with pytest.raises(IndexError) as wanted:
        numpy.zeros((4, 5, 6))[0, 0, 0, 0]
    with pytest.raises(BadIndex) as found:
        pick((0, 0, 0, 0), (4, 5, 6))
    assert str(found.value) == str(wanted.value)
