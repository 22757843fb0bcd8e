"""The package against the named cases of the rules, the header and itself. Run by tests/python."""

import array
import ctypes
import doctest
import math
import pathlib
import random
import re
import unittest

import skarvolm
from skarvolm import _library
from skarvolm._lent import F64, Lent

try:
    import numpy
except ImportError:
    numpy = None

HEADER = (pathlib.Path(__file__).resolve().parents[3] / "include" / "skarvolm.h").read_text()


def load_tests(loader, tests, pattern):
    tests.addTests(doctest.DocTestSuite(skarvolm))
    return tests


class Header(unittest.TestCase):
    def test_refusals(self):
        said = {int(number): text for number, text in re.findall(r"^ \* {1,3}(\d+)  (.*)$", HEADER, re.M)}
        self.assertEqual(said.pop(0), "answered")
        self.assertEqual(skarvolm.REFUSALS, said)

    def test_default_order(self):
        self.assertIn(f"#define SKARVOLM_DEFAULT_ORDER {skarvolm.DEFAULT_ORDER}\n", HEADER)

    def test_signatures(self):
        c_types = {"uint32_t": ctypes.c_uint32, "uint64_t": ctypes.c_uint64, "double": ctypes.c_double, "size_t": ctypes.c_size_t}
        declared = re.findall(r"^uint(?:32|64)_t skarvolm_(\w+)\(([^;]*)\);", HEADER, re.M | re.S)
        for name, words in declared:
            if name.startswith("rcb"):
                continue
            taken = []
            words = [word.strip() for word in words.split(",")]
            for here, following in zip(words, words[1:] + [""]):
                kind = here.replace("const ", "").split()[0]
                if "*" not in here:
                    taken.append(c_types[kind])
                elif following.startswith("size_t"):
                    taken.append(ctypes.c_void_p)
                else:
                    taken.append(ctypes.POINTER(c_types[kind]))
            self.assertEqual(_library.CALLS[name], tuple(taken), name)
        self.assertEqual(set(_library.CALLS), {name for name, _ in declared if not name.startswith("rcb")})


class Curve(unittest.TestCase):
    def refused(self, number, call, *words, **named):
        with self.assertRaises(skarvolm.Refused) as raised:
            call(*words, **named)
        self.assertEqual(raised.exception.number, number)

    def test_named_cases(self):
        for order, x, y, index in (
            (0, 0, 0, 0), (1, 1, 0, 3), (2, 1, 0, 1), (2, 3, 3, 10), (7, 0, 127, 5461), (7, 127, 127, 10922),
            (30, 2**30 - 1, 0, 1152921504606846975), (32, 2**32 - 1, 0, 2**64 - 1),
        ):
            self.assertEqual(skarvolm.encode_2d(x, y, order), index)
            self.assertEqual(skarvolm.decode_2d(index, order), (x, y))
        self.assertEqual(skarvolm.encode_3d(3, 0, 0, 2), 63)

    def test_default_order(self):
        self.assertEqual(skarvolm.encode_2d(65535, 0), 2**32 - 1)
        self.assertEqual(skarvolm.decode_3d(2**48 - 1), (65535, 0, 0))

    def test_refusals(self):
        self.refused(1, skarvolm.encode_2d, 0, 0, 33)
        self.refused(2, skarvolm.encode_2d, 2**30, 0, 30)
        self.refused(3, skarvolm.decode_3d, 8, 1)
        self.refused(6, skarvolm.cell, 0, 4, math.nan)
        self.refused(8, skarvolm.cell, 4, 0, 2)

    def test_what_c_cannot_hold(self):
        for wrong in (-1, 2**64):
            self.assertRaises(OverflowError, skarvolm.encode_2d, wrong, 0, 4)
            self.assertRaises(OverflowError, skarvolm.decode_2d, wrong, 4)
            self.assertRaises(OverflowError, skarvolm.parts, [wrong], 1)
        self.assertRaises(OverflowError, skarvolm.encode_2d, 0, 0, 2**32)
        self.assertRaises(TypeError, skarvolm.encode_2d, 1.0, 0, 4)
        self.assertRaises(TypeError, skarvolm.parts, [0.5], 1)


class Points(unittest.TestCase):
    def test_forms_of_a_sequence(self):
        random.seed(1)
        xs, ys = ([random.uniform(-9, 9) for _ in range(500)] for _ in range(2))
        wanted = list(skarvolm.index_2d(xs, ys))
        wide = array.array("d", [value for x in xs for value in (x, 0.0)])
        for form in (array.array("d", xs), tuple(xs), memoryview(array.array("d", xs)), memoryview(wide)[::2]):
            self.assertEqual(list(skarvolm.index_2d(form, ys)), wanted)
        if numpy:
            made = skarvolm.index_2d(numpy.array(xs), numpy.array(ys))
            self.assertIs(type(made), numpy.ndarray)
            self.assertEqual(made.dtype, numpy.uint64)
            self.assertEqual(made.tolist(), wanted)
            columns = numpy.array([xs, ys]).T
            self.assertEqual(skarvolm.index_2d(columns[:, 0], columns[:, 1]).tolist(), wanted)
            self.assertEqual(skarvolm.index_2d(numpy.array(xs, dtype=">f8"), ys).tolist(), wanted)
            self.assertEqual(skarvolm.index_2d(numpy.frombuffer(numpy.array(xs).tobytes()), ys).tolist(), wanted)

    def test_memory_of_the_right_type_is_lent_as_it_is(self):
        mine = [array.array("d", [1, 2])] + ([numpy.array([1.0, 2.0])] if numpy else [])
        for values in mine:
            self.assertIs(Lent(values, F64).values, values)

    def test_a_point_has_the_index_of_its_cells(self):
        xs, ys = [23.98, 24.02, 200.0], [2.8, 4.0, 22.0]
        for order in (0, 1, 12, 16, 32):
            cells = [
                (skarvolm.cell(min(xs), max(xs), x, order), skarvolm.cell(min(ys), max(ys), y, order)) for x, y in zip(xs, ys)
            ]
            self.assertEqual(list(skarvolm.index_2d(xs, ys, order)), [skarvolm.encode_2d(*one, order) for one in cells])

    def test_refusals(self):
        for number, words in ((1, ([], [], 33)), (4, ([], [])), (5, ([1], [1, 2])), (6, ([math.inf], [0])), (7, ([0, 1e-9], [0, 0]))):
            with self.assertRaises(skarvolm.Refused) as raised:
                skarvolm.index_2d(*words)
            self.assertEqual(raised.exception.number, number)
        self.assertRaises(ValueError, skarvolm.index_2d, [1], [1], 4, (0, 1))


class Grids(unittest.TestCase):
    def test_named_cases(self):
        self.assertEqual(list(skarvolm.rcb([1] * 16, 2, (4, 4)).ids), [0, 0, 1, 1, 0, 0, 1, 1, 2, 2, 3, 3, 2, 2, 3, 3])
        row = skarvolm.rcb([[10, 20, 30, 40]], 3)
        self.assertEqual(list(row.ids), [5, 5, 7, 7])
        self.assertEqual(list(row.splits), [0, 0, 2, skarvolm.NOT_CUT, skarvolm.NOT_CUT, 0, 0])
        self.assertEqual(list(skarvolm.rcb([[1, 1], [1, 1]], 2).ids), [1, 1, 3, 3])

    def test_rows_and_layers(self):
        layers = [[[1, 2, 3], [4, 5, 6]], [[7, 8, 9], [10, 11, 12]]]
        flat = skarvolm.halve(list(range(1, 13)), 3, (3, 2, 2), edition=2, first=2)
        self.assertEqual(skarvolm.halve(layers, 3, edition=2, first=2), flat)
        self.assertRaises(ValueError, skarvolm.halve, [[1, 2], [3]], 1)
        self.assertRaises(ValueError, skarvolm.halve, [1, 2], 1)
        if numpy:
            made = skarvolm.halve(numpy.array(layers, dtype=numpy.uint64), 3, edition=2, first=2)
            self.assertEqual(made.ids.shape, (2, 2, 3))
            self.assertEqual(made.ids.ravel().tolist(), list(flat.ids))
            self.assertEqual(skarvolm.halve(numpy.array(layers), 3, edition=2, first=2).ids.tolist(), made.ids.tolist())

    def test_depth_12(self):
        halved = skarvolm.halve([16777215] * 65536, 12, (256, 256))
        self.assertEqual((len(halved.splits), len(set(halved.ids))), (4095, 4096))

    def test_refusals(self):
        for number, words in (
            (13, ([1], 0, (1, 1), 3)), (14, ([1], 0, (1, 1), 1, 2)), (9, ([1], 0, (0, 1))), (10, ([1], 13, (1, 1))),
            (5, ([1, 1], 0, (1, 1))), (11, ([2**24], 0, (1, 1))),
        ):
            with self.assertRaises(skarvolm.Refused) as raised:
                skarvolm.halve(*words)
            self.assertEqual(raised.exception.number, number)

    def test_a_night(self):
        start = array.array("Q", [0] * 9)
        night = skarvolm.replay(start, 2, [0, 9, 4, 8], [1, 1, 1, 1], (3, 3))
        self.assertEqual(list(night.answers), [0, 20, 0, 0])
        self.assertEqual(list(night.weights), [1, 0, 0, 0, 1, 0, 0, 0, 1])
        self.assertEqual(list(night.ids), [1, 1, 1, 2, 2, 3, 2, 2, 3])
        self.assertEqual(list(start), [0] * 9)

    def test_no_cells(self):
        grids = [([], (0, 1)), ([[]], None)] + ([(numpy.zeros((1, 0), numpy.uint64), None)] if numpy else [])
        for weights, sides in grids:
            for call in (lambda: skarvolm.halve(weights, 0, sides), lambda: skarvolm.replay(weights, 0, [], [], sides)):
                with self.assertRaises(skarvolm.Refused) as raised:
                    call()
                self.assertEqual(raised.exception.number, 9)

    @unittest.skipUnless(numpy, "there is no numpy")
    def test_a_night_in_the_shape_of_an_array(self):
        start = numpy.zeros((3, 3), numpy.uint64)
        night = skarvolm.replay(start, 2, [0, 4, 8], [1, 1, 1])
        self.assertEqual(night.weights.tolist(), [[1, 0, 0], [0, 1, 0], [0, 0, 1]])
        self.assertEqual(night.ids.shape, (3, 3))
        self.assertFalse(start.any())

    def test_parts_by_their_sentence(self):
        random.seed(2)
        for _ in range(50):
            points, n = random.randrange(1, 40), random.randrange(1, 9)
            indices = [random.randrange(12) for _ in range(points)]
            weights = [random.randrange(5) for _ in range(points)]
            below = lambda index: sum(w for i, w in zip(indices, weights) if i <= index)
            splits = [min(i for i in indices if n * below(i) >= k * sum(weights)) for k in range(1, n)]
            got = skarvolm.parts(indices, n, weights)
            self.assertEqual(list(got.parts), [sum(split < index for split in splits) for index in indices])
            self.assertEqual(list(got.order), sorted(range(points), key=lambda i: (indices[i], i)))


if __name__ == "__main__":
    unittest.main()
