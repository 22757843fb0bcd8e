"""What is lent to a call: numbers of C's types, and memory of a type of C's for a sequence of numbers."""

import array
import ctypes
import operator

# the codes of array.array for the slices of the C interface, and the codes under which the same memory may come from elsewhere
F64, U64, U32 = "d", "Q", "I"
CODES = {F64: "d", U64: "QL", U32: "IL"}


def whole(name, value, bits):
    """A whole number that C's unsigned type of so many bits holds."""
    number = operator.index(value)
    if not 0 <= number < 1 << bits:
        raise OverflowError(f"{name}: found {number}, wanted a whole number from 0 to 2^{bits} - 1")
    return number


class Lent:
    """Contiguous memory of a type of C's: the caller's own where it is that already, else a copy."""

    def __init__(self, values, code):
        self.values = _as_memory(values, code)
        self.length = memoryview(self.values).nbytes // array.array(code).itemsize
        # nothing is read or written through the address of an empty slice; it is that of a live number
        self._first = ctypes.c_char.from_buffer(self.values) if self.length else ctypes.c_uint64()

    @classmethod
    def made(cls, count, code):
        """So many zeros."""
        return cls(array.array(code, bytes(count * array.array(code).itemsize)), code)

    @classmethod
    def copied(cls, lent, code):
        """The same numbers in memory of their own."""
        return cls(_copy(memoryview(lent.values), code), code)

    def slice(self):
        """Address and length, as a call takes them."""
        return ctypes.addressof(self._first), self.length

    def like(self, given):
        """The numbers: a numpy array where one was given, else as they are."""
        if type(given).__module__ != "numpy":
            return self.values
        import numpy

        return numpy.frombuffer(self.values, dtype=self.values.typecode)


def _as_memory(values, code):
    size = array.array(code).itemsize
    try:
        view = memoryview(values)
    except TypeError:
        return array.array(code, values)
    if view.itemsize != size or view.format not in CODES[code]:
        return array.array(code, joined(getattr(values, "tolist", view.tolist)(), view.ndim))
    if view.c_contiguous and not view.readonly and _aligned(values, size):
        return values
    return _copy(view, code)


def _copy(view, code):
    copy = array.array(code)
    copy.frombytes(view.tobytes())
    return copy


def joined(nested, axes):
    """The numbers of a list of lists, or of lists of those, in one list."""
    for _ in range(axes - 1):
        lengths = {len(row) for row in nested}
        if len(lengths) > 1:
            raise ValueError(f"found rows of {min(lengths)} and of {max(lengths)}, wanted one length")
        nested = [value for row in nested for value in row]
    return nested


def _aligned(values, size):
    return not memoryview(values).nbytes or ctypes.addressof(ctypes.c_char.from_buffer(values)) % size == 0
