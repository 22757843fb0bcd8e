"""The rule of a cell on an axis, by document 01 and in Python's floats, which are f64 and round once. And how an f64 stands in the cases of the
program `cases`: as the number of its bits."""
import math, struct


def cell(low, high, order, value):
    n, width = 2.0**order, high - low
    if width == 0.0:
        return 0
    f = n / width
    while n <= width * f:
        f = math.nextafter(f, 0.0)
    return int(f * (value - low))


def bits(x):
    return struct.unpack("<Q", struct.pack("<d", x))[0]
