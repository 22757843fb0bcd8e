"""Hilbert indices of cells and points, parts of points along the curve, and halving of grids by recursive coordinate bisection.

What is proved is the library below, the calls of include/skarvolm.h: each answer and each refusal, on every input. This package,
which hands numbers to them, is tested and not proved.

    >>> import skarvolm
    >>> skarvolm.encode_2d(127, 127, order=7)
    10922
    >>> skarvolm.decode_2d(10922, order=7)
    (127, 127)
    >>> skarvolm.index_2d([24, 24, 70], [2.8, 4, 4], order=1)
    array('Q', [0, 1, 2])
    >>> skarvolm.rcb([[10, 20, 30, 40]], depth=3).ids
    array('I', [5, 5, 7, 7])

A call that the library refuses raises `Refused`, with the number and what it means; a number that C's type cannot hold raises
OverflowError, and what is no whole number where one is wanted TypeError.

    >>> skarvolm.encode_2d(128, 0, order=7)
    Traceback (most recent call last):
        ...
    skarvolm.Refused: refusal 2: a cell coordinate is 2^order or more

Sequences of numbers are lists, arrays of the module array or, where numpy is there, numpy arrays. Coordinates are float64; indices,
weights, cells and amounts uint64: an array of that type is lent as it is and not copied. What a call makes is an array of the module
array, or a numpy array where the first sequence is one.
"""

import ctypes
from collections import namedtuple

from . import _library
from ._lent import F64, U32, U64, Lent, joined, whole

__all__ = [
    "DEFAULT_ORDER", "NOT_CUT", "REFUSALS", "Halved", "Parted", "Refused", "Replayed", "cell", "decode_2d", "decode_3d", "deposit",
    "encode_2d", "encode_3d", "halve", "index_2d", "index_3d", "parts", "rcb", "replay",
]

# The order of a call that names none. Indices that were stored while it was 12 are of order 12.
DEFAULT_ORDER = 16

# The split of a node that is not cut.
NOT_CUT = 2**32 - 1

# What each number of refusal means.
REFUSALS = {
    1: "order over 32 (2D, or one axis) or over 21 (3D)",
    2: "a cell coordinate is 2^order or more",
    3: "a decoder's index is 4^order (2D) or 8^order (3D) or more",
    4: "no points: the x slice is empty",
    5: "slice lengths don't fit",
    6: "a coordinate is NaN, infinite, or over 1,048,576 in size",
    7: "an axis is thin: its rounded width is above 0 and below 2^-20",
    8: "low above high, or a value outside low to high",
    9: "a side is 0 or over 1,024, or there are over 65,536 cells",
    10: "depth over 12",
    11: "a weight over 16,777,215",
    12: "a part count of 0 or over 1,024, or over 65,536 points",
    13: "the edition is neither 1 nor 2",
    14: "the first axis is not one of the grid's",
    20: "an event's cell is not in the grid",
}

Halved = namedtuple("Halved", "ids splits")
Halved.__doc__ = """The part of each cell, and the cut of each node: the root's first, those of the halves of node i (counted from 1)
at nodes 2i and 2i + 1, in grid coordinates, NOT_CUT for a node not cut."""

Parted = namedtuple("Parted", "parts order")
Parted.__doc__ = """The part of each point, and the numbers of the points in order of index, equal indices by number."""

Replayed = namedtuple("Replayed", "weights ids splits answers")
Replayed.__doc__ = """The weights after the night, parts and cuts of the last halving, and the answer to each event: 0, or the number by
which it is refused, 20 or 11, and then without effect."""

_calls = _library.load()


class Refused(ValueError):
    """A call that the library refuses: its `number`, and what that means as `text`. Nothing was written."""

    def __init__(self, number):
        self.number, self.text = number, REFUSALS[number]
        super().__init__(f"refusal {number}: {self.text}")


def _call(name, *arguments):
    number = _calls[name](*arguments)
    if number:
        raise Refused(number)


def _results(name, count, *arguments):
    """The numbers that a call puts behind its last pointers."""
    results = [ctypes.c_uint64() for _ in range(count)]
    _call(name, *arguments, *map(ctypes.byref, results))
    return tuple(result.value for result in results)


def _slices(*lent):
    return [part for one in lent for part in one.slice()]


def deposit(source, mask):
    """The bits of `source`, lowest first, laid onto the set bits of `mask`, lowest first. Never refused.

    >>> bin(deposit(0b101, 0b11010))
    '0b10010'
    """
    return _calls["deposit"](whole("source", source, 64), whole("mask", mask, 64))


def encode_2d(x, y, order=DEFAULT_ORDER):
    """The Hilbert index of a cell. Refused 1, 2.

    >>> encode_2d(0, 127, order=7)
    5461
    """
    return _results("encode_2d", 1, whole("x", x, 64), whole("y", y, 64), whole("order", order, 32))[0]


def encode_3d(x, y, z, order=DEFAULT_ORDER):
    """The Hilbert index of a cell. Refused 1, 2.

    >>> encode_3d(1, 1, 1, order=1)
    5
    """
    cell_ = whole("x", x, 64), whole("y", y, 64), whole("z", z, 64)
    return _results("encode_3d", 1, *cell_, whole("order", order, 32))[0]


def decode_2d(index, order=DEFAULT_ORDER):
    """The cell (x, y) of a Hilbert index. Refused 1, 3."""
    return _results("decode_2d", 2, whole("index", index, 64), whole("order", order, 32))


def decode_3d(index, order=DEFAULT_ORDER):
    """The cell (x, y, z) of a Hilbert index. Refused 1, 3.

    >>> decode_3d(63, order=2)
    (3, 0, 0)
    """
    return _results("decode_3d", 3, whole("index", index, 64), whole("order", order, 32))


def cell(low, high, value, order=DEFAULT_ORDER):
    """The cell of a value on the axis from `low` to `high`. Where low is below high it differs by at most 1 from the whole part of
    (value - low) * 2**order / (high - low), worked out exactly. Refused 1, 6, 8, 7 for the axis, then 6, 8 for the value.

    >>> [cell(0, 4, value, order=2) for value in (0, 1, 2, 2.5, 3, 4)]
    [0, 0, 1, 2, 2, 3]
    """
    return _results("cell", 1, float(low), float(high), whole("order", order, 32), float(value))[0]


def index_2d(xs, ys, order=DEFAULT_ORDER, box=None):
    """The Hilbert index of each point, on axes from the lowest to the highest coordinate, where an index moves as points are added;
    or in a box, (xlow, xhigh, ylow, yhigh), where it stays. Refused 1, 4, 5, 6, 7; in a box 1, 4, 5, then 6, 8, 7 for the box and 6, 8
    for the points.

    >>> index_2d([3, 0], [1, 4], order=1, box=(0, 4, 0, 4))
    array('Q', [3, 1])
    """
    return _index("index_2d", (xs, ys), order, box)


def index_3d(xs, ys, zs, order=DEFAULT_ORDER, box=None):
    """The Hilbert index of each point, as `index_2d` has it; a box is (xlow, xhigh, ylow, yhigh, zlow, zhigh).

    >>> index_3d([0, 1], [0, 1], [0, 1], order=1)
    array('Q', [0, 5])
    """
    return _index("index_3d", (xs, ys, zs), order, box)


def _index(name, points, order, box):
    if box is not None and len(box) != 2 * len(points):
        raise ValueError(f"box: found {len(box)} numbers, wanted low and high of {len(points)} coordinates")
    lent = [Lent(coordinates, F64) for coordinates in points]
    indices = Lent.made(lent[0].length, U64)
    order = whole("order", order, 32)
    if box is None:
        _call(name, *_slices(*lent), order, *indices.slice())
    else:
        _call(name + "_in", *map(float, box), *_slices(*lent), order, *indices.slice())
    return indices.like(points[0])


def parts(indices, n, weights=None):
    """`n` parts of points along the curve, by their indices and weights (1 each where none are given). n times the weight of a part is
    at most the weight of all and n times the heaviest weight on one index. Refused 12, 4, 5, 11.

    >>> parts([7, 3, 5, 2], 2)
    Parted(parts=array('I', [1, 0, 1, 0]), order=array('I', [3, 1, 2, 0]))
    """
    lent = Lent(indices, U64)
    weighed = Lent([1] * lent.length if weights is None else weights, U64)
    given, order = Lent.made(lent.length, U32), Lent.made(lent.length, U32)
    _call("parts", whole("n", n, 32), *_slices(lent, weighed, given, order))
    return Parted(given.like(indices), order.like(indices))


def rcb(weights, depth, sides=None):
    """Halves a grid `depth` times as coupe does: `halve` by edition 1, across y first.

    >>> rcb([1] * 16, depth=2, sides=(4, 4)).splits
    array('I', [2, 2, 2])
    """
    return halve(weights, depth, sides)


def halve(weights, depth, sides=None, edition=1, first=1):
    """Halves a grid `depth` times by an edition (1, coupe's, or 2, by which light blocks come out even), across the axis `first` first
    (0 is x, 1 is y, 2 is z). Refused 13, 14, 9, 10, 5, 11.

    The weights are rows, or layers of rows, as lists or as an array of two or three axes; or one sequence, beside the sides (width,
    height) or (width, height, layers), in which cell (x, y, z) stands at x + width * (y + height * z).

    >>> halve([[1, 1], [1, 1]], depth=2, edition=2)
    Halved(ids=array('I', [0, 1, 2, 3]), splits=array('I', [1, 1, 1]))
    """
    cells, sides = _grid(weights, sides)
    lent = Lent(cells, U64)
    splits, ids = _made_by_halving(depth, lent.length)
    name, record = _record("halve", sides, first, depth)
    _call(name, whole("edition", edition, 32), *record, *_slices(lent, splits, ids))
    return Halved(_shaped(ids.like(weights), weights), splits.like(weights))


def replay(weights, depth, cells, amounts, sides=None, first=1):
    """A bench night replayed on a grid, as `halve` takes it: it is halved by edition 2, then each event adds an amount to the cell of a
    number, and the grid is halved afresh where a part has become too heavy or too light. The weights that were given stay. Refused
    14, 9, 10, 5, 11.

    >>> replay([0] * 9, 2, cells=[0, 9, 4, 8], amounts=[1, 1, 1, 1], sides=(3, 3)).answers
    array('I', [0, 20, 0, 0])
    """
    start, sides = _grid(weights, sides)
    before = Lent(start, U64)
    after = Lent.copied(before, U64)
    splits, ids = _made_by_halving(depth, before.length)
    numbers, added = Lent(cells, U64), Lent(amounts, U64)
    answers = Lent.made(numbers.length, U32)
    name, record = _record("replay", sides, first, depth)
    _call(name, *record, *_slices(after, numbers, added, answers, splits, ids))
    return Replayed(
        _shaped(after.like(weights), weights), _shaped(ids.like(weights), weights), splits.like(weights), answers.like(weights)
    )


def _made_by_halving(depth, cells):
    """Room for splits and ids; none for the splits of a depth that is refused before they are looked at."""
    return Lent.made((1 << depth) - 1 if whole("depth", depth, 32) <= 12 else 0, U32), Lent.made(cells, U32)


def _record(name, sides, first, depth):
    """The call for a grid of these sides, and its numbers: sides, first axis, depth."""
    record = [whole("sides", side, 32) for side in sides] + [whole("first", first, 32), whole("depth", depth, 32)]
    return f"{name}_{len(sides)}d", record


def _grid(weights, sides):
    """The weights in one sequence, and the sides, (width, height) or (width, height, layers)."""
    if sides is None:
        shape = getattr(weights, "shape", None) or _shape(weights)
        if len(shape) in (2, 3):
            return weights if hasattr(weights, "shape") else joined(weights, len(shape)), tuple(reversed(shape))
        raise ValueError("weights: wanted rows, layers of rows, or sides beside one sequence")
    if len(sides) not in (2, 3):
        raise ValueError(f"sides: found {len(sides)}, wanted 2 or 3")
    return weights, tuple(sides)


def _shape(nested):
    """How many lists there are in a list of lists on each axis, and numbers in each of the innermost."""
    shape = []
    while isinstance(nested, (list, tuple)):
        shape.append(len(nested))
        nested = nested[0] if nested else None
    return shape


def _shaped(made, given):
    """What was made for each cell, in the shape of a numpy array that was given."""
    return made.reshape(given.shape) if hasattr(made, "reshape") else made
