"""Document 01's halving and the editions and first axes of document 02, from their words and nothing else: a line's weight is summed cell
by cell, lo and hi are Python's own f64, and P, j and the cut are searched as the rule says. And how numbers stand in the cases of the
program `cases`."""
import math, os
from itertools import product

data = os.path.join(os.path.dirname(os.path.abspath(__file__)), "..", "crates", "cases", "data")
UNCUT = 4294967295


def limits(edition, t):
    lo = (t / 2) * (1 - 0.01)
    return (math.floor(lo) if edition == 1 else math.ceil(lo)), math.floor((t / 2) * (1 + 0.01))


def cut_of(lines, edition):
    """how many lines lie before the cut"""
    lo, hi = limits(edition, sum(lines))
    reached = [j for j in range(len(lines)) if sum(lines[:j]) >= lo]
    if not reached:
        return len(lines) - 1
    return reached[0] if sum(lines[: reached[0]]) <= hi else reached[0] - 1


def halve(edition, sides, first, depth, weights):
    """the splits and ids of an accepted grid"""
    n = len(sides)
    cells = [tuple(reversed(c)) for c in product(*[range(s) for s in reversed(sides)])]
    splits = [UNCUT] * (2**depth - 1)
    ids = {}

    # the cells of a block stand in a list, its ranges beside it; a cell goes on through nodes that are not cut
    def go(node, level, ranges, inside):
        if level == depth:
            for c in inside:
                ids[c] = node - 2**depth
            return
        axis = (first + level) % n
        low, high = ranges[axis]
        if low == high:
            assert not inside
            return
        lines = [0] * (high - low)
        for c in inside:
            lines[c[axis] - low] += weight[c]
        cut = low + cut_of(lines, edition)
        splits[node - 1] = cut
        left, right = list(ranges), list(ranges)
        left[axis], right[axis] = (low, cut), (cut, high)
        go(2 * node, level + 1, left, [c for c in inside if c[axis] < cut])
        go(2 * node + 1, level + 1, right, [c for c in inside if c[axis] >= cut])

    weight = dict(zip(cells, weights))
    go(1, 0, [(0, s) for s in sides], cells)
    return splits, [ids[c] for c in cells]


def words(numbers):
    return " ".join("uncut" if x == UNCUT else str(x) for x in numbers)


def sevens(n):
    return f"{n}*7" if n else ""


def numbers(part):
    out = []
    for word in part.split():
        n, star, value = word.partition("*")
        out += [int(value)] * int(n) if star else [UNCUT if word == "uncut" else int(word)]
    return out
