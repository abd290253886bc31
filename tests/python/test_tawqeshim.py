"""Tests of python/tawqeshim.py: refusals, what it takes as cells and what it does not, how shares are rounded, demands for domestic
goods, what schemes add, shortages, merged tables, tables in another order, the slowest sheets, the worked table from its file to its page,
tables written as files, its library, help, records and types, and what the documents show. Tests of numpy, pandas and mypy are skipped
where these are not installed."""
import copy
import ctypes
import doctest
import inspect
import itertools
import math
import os
import pickle
import pydoc
import random
import re
import shutil
import subprocess
import sys
import tempfile
import unittest
from array import array
from collections import OrderedDict, UserString, deque
from decimal import Decimal
from fractions import Fraction
from pathlib import Path

ROOT = Path(__file__).resolve().parent.parent.parent
sys.path.insert(0, str(ROOT / "python"))
import tawqeshim as t

try:
    import numpy
except ImportError:
    numpy = None
try:
    import pandas
except ImportError:
    pandas = None

FLOWS = [100, 400, 300, 600]
COLUMNS = [[500, 900], [250, 560], [250, 360], [600, 1000], [1000, 2000]]
ADJUSTMENT = [50, 90]
ADJUSTED_IMPORTS = [300, 450]  # with these imports the adjustment balances
DOMESTIC = [75_000, 150_000, 240_000, 240_000]
ROWS = [[75_000, 150_000], [240_000, 240_000]]
DEMAND = [625, 1280]
MADE = ([999, 1999], 9)


def table(**changed):
    names = ["final_demand", "exports", "imports", "value_added", "production"]
    return {"flows": FLOWS, **dict(zip(names, COLUMNS)), **changed}


class Refusing(unittest.TestCase):
    """Helper: a call that is refused."""

    def refused(self, number, place, call, *given, **named):
        with self.assertRaises(t.Refused) as seen:
            call(*given, **named)
        no = seen.exception
        self.assertEqual((no.number, no.place, no.question), (number, place, t.QUESTIONS[number]))
        self.assertEqual(bool(no.detail), number in (2, 19))
        self.assertEqual(str(no), f"question {number}, place {place}: {t.QUESTIONS[number]}" + f" {no.detail}" * bool(no.detail))
        return no.detail


class Refusals(Refusing):
    def test_every_question(self):
        # but 10, which is reserved
        self.refused(1, 0, t.inverse, [])
        self.refused(1, 0, t.coefficients, [], [], [], [], [], [])
        self.refused(1, 0, t.production, [0] * 41 * 41, [0] * 41)
        self.refused(1, 0, t.production, DOMESTIC, DEMAND, n=2**64 - 1)
        self.refused(3, 4, t.coefficients, **table(final_demand=[1_000_000_001, 900]))
        self.refused(4, 1, t.coefficients, **table(value_added=[600, 1001]))
        self.refused(5, 0, t.coefficients, **table(exports=[251, 560]))
        self.refused(6, 0, t.coefficients, [0], [1], [5], [2], [4], [4])
        self.refused(7, 0, t.coefficients, [960_000], [40_000], [0], [0], [40_000], [1_000_000])
        self.refused(16, 1, t.coefficients, **table(exports=[250, 10**9], adjustment=[0, 1]))
        self.refused(8, 1, t.production, DOMESTIC, [0, 2_000_000_001])
        self.refused(8, 0, t.production, DOMESTIC, [2**64 - 1, 0])
        self.refused(9, 0, t.production, DOMESTIC, DEMAND, 8)
        self.refused(17, 1, t.impact, DOMESTIC, DEMAND, [626, 1279])
        self.refused(18, 0, t.aggregate, t.Table.of(**table()), [[0], [0, 1]])
        self.refused(19, 0, t.aggregate, t.Table.of([0] * 4, [10**9, 1], [0, 0], [0, 0], [10**9, 1], [10**9, 1]), [[0, 1]])
        self.refused(20, 1, t.permute, t.Table.of(**table()), [1, 1])
        for number, place, file in [(11, 2, [1, 2, 11]), (11, 2, [1, 2, 10, 1, 0, 0, 0]), (12, 0, [1, 41]),
                                    (13, 2, [1, 2, 3, 3, 0, 0, 0, 1]), (13, 2, [1, 2, 10, 3, 0, 0, 0, 1]),
                                    (14, 8, [1, 2] + [10, 1, 0, 0, 0, 1] * 2), (14, 8, [1, 2] + [3, 1, 0, 0, 0, 1] * 2), (15, 0, [])]:
            self.refused(number, place, t.read_table, bytes(file))

    def test_exports_and_adjustment(self):
        limit = 10**9
        for exports, adjustment in ((limit, 0), (0, limit), (1, limit - 1), (limit - 1, 1)):
            self.assertEqual(t.coefficients([0], [0], [exports], [0], [limit], [limit], [adjustment]).demand, [limit])
        for exports, adjustment in ((limit, 1), (1, limit), (limit // 2, limit // 2 + 1), (limit, limit)):
            self.refused(16, 0, t.coefficients, [0], [0], [exports], [1], [limit], [limit], [adjustment])
        zeros = [0] * 3
        for place, adjustment in enumerate(([limit] * 3, [0, limit, limit], [0, 0, limit])):
            self.refused(16, place, t.coefficients, [0] * 9, zeros, [1] * 3, zeros, zeros, zeros, adjustment)
        # 3 comes before 16, and 16 before 4
        self.refused(3, 4 + 5 * 2 + 1, t.coefficients, **table(adjustment=[limit, limit + 1]))
        self.refused(16, 0, t.coefficients, **table(adjustment=[limit, 0], value_added=[600, 1001]))

    def test_schemes(self):
        over = 2_000_000_001
        # 8 of the first demand, 8 of the second, 17, and 9
        self.refused(8, 1, t.impact, DOMESTIC, [0, over], [over, 0])
        self.refused(8, 1, t.impact, DOMESTIC, DEMAND, [624, over])
        self.refused(17, 0, t.impact, DOMESTIC, DEMAND, [624, 1279], 0)
        self.refused(9, 0, t.impact, DOMESTIC, DEMAND, [635, 1280], 9)
        self.refused(9, 0, t.impact, DOMESTIC, [0, 0], [0, 0], 0)
        self.refused(7, 0, t.impact, [950_001], [1], [0], 0)
        self.refused(1, 0, t.impact, [], [], [])
        self.assertEqual(t.QUESTIONS[17], "is the second demand nowhere below the first?")

    def test_domestic_demand(self):
        self.refused(1, 0, t.domestic_demand, [], [])
        self.refused(1, 0, t.domestic_demand, [0] * 41, [0] * 41)
        one, limit = 1_000_000, 10**9
        # 3 through the four columns, an earlier one first; then 16
        wrong = [[0, one + 1], [0, limit + 1], [0, limit + 1], [0, limit + 1]]
        within = [[one, one], [limit, limit], [limit, limit], [0, limit]]
        for k in range(4):
            self.refused(3, 2 * k + 1, t.domestic_demand, *within[:k], *wrong[k:])
        self.refused(3, 0, t.domestic_demand, [2**64 - 1, 0], [0, 0])
        self.refused(16, 1, t.domestic_demand, *within)

    def test_wrong_lengths_are_the_librarys_to_refuse(self):
        for name in [*table(), "adjustment"]:
            self.refused(2, 0, t.coefficients, **table(**{name: [0] * 3}), n=2)
        self.refused(2, 0, t.production, DOMESTIC, DEMAND + [0])
        self.refused(2, 0, t.production, ROWS, DEMAND + [0])
        self.refused(2, 0, t.price, DOMESTIC[:3], DEMAND)
        for before, after in ((DEMAND, DEMAND + [0]), (DEMAND + [0], DEMAND), (DEMAND, []), ([], DEMAND)):
            self.refused(2, 0, t.impact, DOMESTIC, before, after, n=2)
        for k in range(4):
            self.refused(2, 0, t.domestic_demand, *([0] * (3 if j == k else 2) for j in range(4)), n=2)
        self.refused(2, 0, t.implied_demand, array("Q", DOMESTIC), array("Q"), n=2)
        self.refused(2, 0, t.induced, FLOWS, [0], [0, 0], [0, 0], [0, 0])
        self.refused(2, 0, t.inverse, DOMESTIC[:3])
        self.assertEqual(t.row(DOMESTIC[:3], 0), [])

    def test_which_list_has_which_length(self):
        long = "has every list its exact length? n is 3, the length of demand; domestic has length 4, not 9"
        with self.assertRaisesRegex(t.Refused, f"^question 2, place 0: {re.escape(long)}$"):
            t.production(ROWS, DEMAND + [0])
        for detail, call, *given in [
                ("n is 2, the length of rises; domestic has length 3, not 4", t.price, DOMESTIC[:3], DEMAND),
                ("n is 2, the length of before; after has length 3, not 2", t.impact, DOMESTIC, DEMAND, DEMAND + [0]),
                ("n is 3, the length of before; domestic has length 4, not 9; after has length 2, not 3",
                 t.impact, DOMESTIC, DEMAND + [0], DEMAND),
                ("n is 2, the length of final_demand; import_shares has length 1, not 2; adjustment has length 3, not 2",
                 t.domestic_demand, [0], [1, 2], None, [0, 0, 0]),
                ("n is 1, the length of production; domestic has length 4, not 1", t.implied_demand, DOMESTIC, [1]),
                ("n is 2, the length of production; imports has length 1, not 2", t.induced, FLOWS, [0], [0, 0], [0, 0], [0, 0]),
                ("n is 1, the root of the length of domestic, rounded down; domestic has length 3, not 1", t.inverse, DOMESTIC[:3]),
                ("n is 3, the length of final_demand; flows has length 4, not 9; exports has length 2, not 3; imports has length 2, not 3; "
                 "value_added has length 2, not 3; production has length 2, not 3", t.coefficients, FLOWS, [500, 900, 0], *COLUMNS[1:])]:
            self.assertEqual(self.refused(2, 0, call, *given), detail)
        self.assertEqual(self.refused(2, 0, t.inverse, DOMESTIC, n=3), "n is 3; domestic has length 4, not 9")
        for name in [*table(), "adjustment"]:
            detail = f"n is 2; {name} has length 3, not {4 if name == 'flows' else 2}"
            self.assertEqual(self.refused(2, 0, t.coefficients, **table(**{name: [0] * 3}), n=2), detail)

    def test_a_refusal_can_be_kept(self):
        for call in (lambda: t.production(DOMESTIC, DEMAND, 8), lambda: t.production(DOMESTIC, [1])):
            try:
                call()
            except t.Refused as no:
                for kept in (pickle.loads(pickle.dumps(no)), copy.copy(no)):
                    self.assertEqual((type(kept), kept.args, vars(kept), str(kept)), (t.Refused, (no.number, no.place), vars(no), str(no)))


class Given(unittest.TestCase):
    """Helpers: what is given as a demand or as a sheet."""

    def taken(self, *demands):
        for demand in demands:
            with self.subTest(demand=demand):
                self.assertEqual(t.production(DOMESTIC, demand), MADE)

    def not_taken(self, error, text, *demands):
        for k, demand in enumerate(demands):
            with self.subTest(k=k, kind=type(demand)):
                with self.assertRaisesRegex(error, f"^{text}"):
                    t.production(DOMESTIC, demand)

    def sheet_taken(self, *sheets):
        for sheet in sheets:
            with self.subTest(sheet=sheet):
                self.assertEqual(t.production(sheet, DEMAND), MADE)
                self.assertEqual(t.inverse(sheet), t.inverse(DOMESTIC))

    def sheet_not_taken(self, error, text, *sheets):
        for k, sheet in enumerate(sheets):
            with self.subTest(k=k, kind=type(sheet)):
                for call in (t.inverse, lambda d: t.production(d, DEMAND), lambda d: t.implied_demand(d, DEMAND)):
                    with self.assertRaisesRegex(error, f"^{text}"):
                        call(sheet)


class Sequences(Given):
    def test_sequences_of_whole_numbers(self):
        self.taken(DEMAND, tuple(DEMAND), range(625, 1281, 655), deque(DEMAND), [625.0, 1280], (625, 1280.0))
        self.sheet_taken(DOMESTIC, tuple(DOMESTIC), ROWS, tuple(map(tuple, ROWS)), [array("q", row) for row in ROWS],
                         [range(75_000, 150_001, 75_000), [240_000.0, 240_000]], deque(ROWS))

    def test_what_has_no_cells_in_order(self):
        named = {0: 625, 1: 1280}
        for demand in (named, OrderedDict(named), {625, 1280}, frozenset(DEMAND), named.keys(), named.values(), named.items(), "ab", b"ab",
                       bytearray(b"ab"), iter(DEMAND), (k for k in DEMAND), None, 625, 1.0, object):
            self.not_taken(TypeError, f"demand is a {type(demand).__name__}, ", demand)
            self.sheet_not_taken(TypeError, "domestic is a ", demand)

    def test_every_argument_is_named(self):
        for name in [*table(), "adjustment"]:
            for wrong in ({0: 1}, "12"):
                with self.assertRaisesRegex(TypeError, f"^{name} is a "):
                    t.coefficients(**table(**{name: wrong}))
            with self.assertRaisesRegex(ValueError, rf"^{name}\[1\] is -7, below 0$"):
                t.coefficients(**table(**{name: [0, -7]}))
        names = ["inputs", "imports", "value_added", "final_demand", "production"]
        for name in names:
            with self.assertRaisesRegex(TypeError, f"^{name} is a set, "):
                t.induced(**{**dict.fromkeys(names, [1]), name: {1}})
        for call, name in ((t.price, "rises"), (t.implied_demand, "production"), (t.production, "demand")):
            with self.assertRaisesRegex(TypeError, f"^{name} is a dict, "):
                call(DOMESTIC, {0: 1, 1: 2})
        names = ["import_shares", "final_demand", "exports", "adjustment"]
        for name in names:
            with self.assertRaisesRegex(TypeError, f"^{name} is a dict, "):
                t.domestic_demand(**{**dict.fromkeys(names, [1]), name: {0: 1}})
            with self.assertRaisesRegex(ValueError, rf"^{name}\[1\] is -7, below 0$"):
                t.domestic_demand(**{**dict.fromkeys(names, [0, 0]), name: [0, -7]})
        for name in ("domestic", "before", "after"):
            given = {"domestic": DOMESTIC, "before": DEMAND, "after": DEMAND}
            with self.assertRaisesRegex(TypeError, f"^{name} is a dict, "):
                t.impact(**{**given, name: {0: 1, 1: 2}})
            with self.assertRaisesRegex(ValueError, rf"^{name}\[1\] is -7, below 0$"):
                t.impact(**{**given, name: [0, -7]})

    def test_cells_that_are_no_numbers(self):
        self.not_taken(TypeError, r"demand\[1\] is .*, not a whole number$", [0, True], [0, None], [0, "1"], [0, b"1"], [0, Decimal(1)],
                       [0, Fraction(2, 1)], [0, 1j], [0, [1]], [0, {}], (0, False))
        self.not_taken(TypeError, r"demand\[0\] is .*, not a whole number$", [[625], [1280]], [DEMAND], [{625}, {1280}])
        self.sheet_not_taken(TypeError, r"domestic\[3\] is True, not a whole number$", DOMESTIC[:3] + [True])
        self.sheet_not_taken(TypeError, r"domestic\[1\]\[0\] is None, not a whole number$", [ROWS[0], [None, 0]])
        self.sheet_not_taken(TypeError, r"domestic\[0\]\[0\] is \[75000, 150000\], not a whole number$", [ROWS, ROWS])
        self.sheet_not_taken(TypeError, r"domestic\[0\] is a dict, ", [{0: 1, 1: 2}, {0: 1, 1: 2}])
        self.sheet_not_taken(TypeError, r"domestic\[1\] is a int, ", [[1, 2], 3])
        self.sheet_not_taken(TypeError, r"domestic\[0\] is a str, ", ["12", "34"])
        self.sheet_not_taken(TypeError, r"domestic\[0\]\[0\] is '1', not a whole number$", UserString("12"))

    def test_numbers_that_no_cell_holds(self):
        self.not_taken(ValueError, r"demand\[0\] is -1, below 0$", [-1, 0], [-1.0, 0])
        self.not_taken(ValueError, r"demand\[1\] is 18446744073709551616, above 18446744073709551615$", [0, 2**64])
        self.not_taken(ValueError, r"demand\[1\] is a number of \d+ bits, above 18446744073709551615$", [0, 10**400], [0, 10**5000])
        self.not_taken(ValueError, r"demand\[1\] is a number of \d+ bits, below 0$", [0, -10**400], [0, -10**5000])
        self.not_taken(ValueError, r"demand\[1\] is (1.5|-0.5|nan|inf|-inf), not a whole number$", [0, 1.5], [0, -0.5], [0, float("nan")],
                       [0, float("inf")], [0, float("-inf")])
        self.not_taken(ValueError, r"demand\[1\] is (9007199254740992.0|1e\+300): a float of 2\*\*53 or above", [0, 2.0**53], [0, 1e300])
        self.assertEqual(t._whole("x", 2.0**53 - 1), 2**53 - 1)

    def test_other_numbers(self):
        for budget in (-1, 2**32, 10**400, 1.5):
            with self.assertRaisesRegex(ValueError, "^budget is "):
                t.price(DOMESTIC, DEMAND, budget)
        for call, name in ((lambda k: t.row(DOMESTIC, k), "sector"), (lambda k: t.inverse(DOMESTIC, n=k), "n")):
            for wrong in (-1, 2**64, 10**5000):
                with self.assertRaisesRegex(ValueError, f"^{name} is "):
                    call(wrong)
            for wrong in ("1", True, [1]):
                with self.assertRaisesRegex(TypeError, f"^{name} is .*, not a whole number$"):
                    call(wrong)

    def test_rows(self):
        self.sheet_not_taken(ValueError, r"domestic\[1\] has 1 cells, and domestic\[0\] has 2$", [[1, 2], [3]])
        self.sheet_not_taken(ValueError, r"domestic\[1\] has 3 cells, and domestic\[0\] has 1$", [[1], [2, 3, 4]])
        self.sheet_not_taken(ValueError, "domestic has 1 rows of 4 cells", [DOMESTIC])
        self.sheet_not_taken(ValueError, "domestic has 4 rows of 1 cells", [[cell] for cell in DOMESTIC])
        self.sheet_not_taken(ValueError, "domestic has 1 rows of 0 cells", [[]])
        self.sheet_not_taken(ValueError, r"domestic\[1\]\[1\] is -1, below 0$", [[0, 0], [0, -1]])
        self.assertEqual(t.row(ROWS, 1), ROWS[1])


class Buffers(Given):
    def test_buffers_of_integers_of_every_width(self):
        self.taken(*(array(code, DEMAND) for code in "hHiIlLqQ"), *(memoryview(array(code, DEMAND)) for code in "hHiIlLqQ"),
                   array("d", DEMAND), array("f", DEMAND))
        self.assertEqual(t.production([0], array("b", [7])).amounts, [7])
        self.assertEqual(t.production([0], memoryview(b"\7")).amounts, [7])
        kinds = [ctypes.c_int16, ctypes.c_uint16, ctypes.c_int32, ctypes.c_uint32, ctypes.c_int64, ctypes.c_uint64, ctypes.c_double]
        self.taken(*((kind * 2)(*DEMAND) for kind in kinds), *(memoryview((kind * 2)(*DEMAND)) for kind in kinds))
        self.sheet_taken(*(array(code, DOMESTIC) for code in "iIlLqQd"))

    def test_any_order_in_memory(self):
        wide = memoryview(array("Q", [cell for demand in DEMAND for cell in (demand, 7)]))
        odd = memoryview(bytearray(b"\0" + array("Q", DEMAND).tobytes()))[1:].cast("Q")
        self.taken(wide[::2], memoryview(array("q", DEMAND[::-1]))[::-1], odd, memoryview(array("Q", DEMAND)).toreadonly())
        self.sheet_taken(*(memoryview(array(code, DOMESTIC)).cast("B").cast(code, (2, 2)) for code in "IqQ"),
                         ((ctypes.c_uint64 * 2) * 2)(*map(tuple, ROWS)), ((ctypes.c_int32 * 2) * 2)(*map(tuple, ROWS)))

    def test_each_cell_is_checked(self):
        self.not_taken(ValueError, r"demand\[1\] is -2, below 0$", *(array(code, [0, -2]) for code in "bhilqd"),
                       (ctypes.c_int32 * 2)(0, -2), memoryview((ctypes.c_int64 * 2)(0, -2)))
        self.not_taken(ValueError, r"demand\[1\] is 1.5, not a whole number$", array("d", [0, 1.5]), (ctypes.c_float * 2)(0, 1.5))
        self.sheet_not_taken(ValueError, r"domestic\[1\]\[0\] is -2, below 0$",
                             memoryview(array("q", [0, 0, -2, 0])).cast("B").cast("q", (2, 2)))

    def test_buffers_that_are_no_cells(self):
        self.not_taken(TypeError, "demand is a buffer of format ", (ctypes.c_bool * 2)(True, True), (ctypes.c_char * 2)(b"a", b"b"),
                       memoryview(b"\1\1").cast("?"), memoryview(b"ab").cast("c"), ctypes.c_uint64.__ctype_be__.__mul__(2)(*DEMAND))
        self.not_taken(ValueError, "demand has 2 dimensions, not 1$", memoryview(array("Q", DEMAND)).cast("B").cast("Q", (2, 1)))
        self.not_taken(ValueError, "demand has 0 dimensions, not 1$", ctypes.c_uint64(5))
        self.sheet_not_taken(ValueError, "domestic has 4 rows of 1 cells", memoryview(array("Q", DOMESTIC)).cast("B").cast("Q", (4, 1)))
        self.sheet_not_taken(ValueError, "domestic has 3 dimensions, not 1 or 2$",
                             memoryview(array("Q", DOMESTIC)).cast("B").cast("Q", (2, 2, 1)))

    def test_no_change_and_nothing_held(self):
        domestic, demand = array("Q", DOMESTIC), array("Q", DEMAND)
        self.assertEqual(t.production(domestic, memoryview(demand)), MADE)
        self.assertEqual((domestic.tolist(), demand.tolist()), (DOMESTIC, DEMAND))
        try:
            t.production(domestic, demand, 8)
        except t.Refused:
            demand.append(0)  # a buffer that is still held could not grow

    def test_a_row_is_a_stretch_of_the_buffer(self):
        sheet = array("Q", DOMESTIC)
        row = t.row(sheet, 1)
        sheet[2] = 5
        self.assertEqual((type(row), row.tolist()), (memoryview, [5, 240_000]))
        self.assertEqual(t.row(memoryview(sheet).cast("B").cast("Q", (2, 2)), 0).tolist(), [75_000, 150_000])
        self.assertEqual(t.row((ctypes.c_uint64 * 4)(*DOMESTIC), 1), [240_000, 240_000])
        self.assertEqual(t.row(array("q", DOMESTIC), 1), [240_000, 240_000])
        self.assertEqual(len(t.row(sheet, 2)), 0)
        self.assertEqual(t.row(array("Q"), 0), [])


@unittest.skipUnless(numpy, "numpy is not installed")
class Numpy(Given, Refusing):
    def test_arrays_of_every_type(self):
        codes = ["i2", "u2", "i4", "u4", "i8", "u8", ">i8", ">u4", "<i4", "f4", "f8", ">f8", "g", "O"]
        self.taken(*(numpy.array(DEMAND, dtype=code) for code in codes), numpy.array([625, 1280], dtype="f2"), list(numpy.array(DEMAND)),
                   list(numpy.array(DEMAND, dtype="f8")), numpy.array([625, 1280.0], dtype=object))
        self.sheet_taken(*(numpy.array(shape, dtype=code) for code in codes[2:] for shape in (DOMESTIC, ROWS)))

    def test_any_order_in_memory(self):
        rows = numpy.array(ROWS)
        wide = numpy.zeros((4, 6), dtype=numpy.int64)
        wide[::2, 1::3] = rows
        fixed = numpy.array(ROWS, dtype=numpy.uint64)
        fixed.flags.writeable = False
        self.sheet_taken(numpy.asfortranarray(rows), rows.T.copy().T, wide[::2, 1::3], rows[::-1][::-1], fixed, list(rows),
                         list(map(list, rows)))
        self.taken(numpy.array(DEMAND[::-1])[::-1], numpy.array([625, 0, 1280])[::2])

    def test_each_cell_is_checked(self):
        self.not_taken(ValueError, r"demand\[1\] is -2(.0)?, below 0$", *(numpy.array([0, -2], dtype=code) for code in "bhilqefdg"))
        nan, inf = float("nan"), float("inf")
        self.not_taken(ValueError, r"demand\[1\] is (nan|-?inf|0.5|-1.5), not a whole number$",
                       *(numpy.array([0, cell], dtype=code) for code in "efd" for cell in (nan, inf, -inf, 0.5, -1.5)))
        self.not_taken(ValueError, r"demand\[1\] is .*, not a whole number$", numpy.array([0, 1 + 2 * numpy.finfo("g").eps], dtype="g"),
                       *(numpy.array([0, cell], dtype="g") for cell in (nan, inf, 0.5)))
        self.not_taken(ValueError, r"demand\[1\] is 9007199254740992.0: a float of 2\*\*53 or above", numpy.array([0, 2.0**53]))
        below = numpy.array([[0, 0], [-3, 0]])
        self.sheet_not_taken(ValueError, r"domestic\[1\]\[0\] is -3, below 0$", below, numpy.asfortranarray(below), below.T.copy().T)
        with numpy.errstate(all="raise"):
            self.not_taken(ValueError, r"demand\[0\] is nan", numpy.array([nan, 0]), numpy.array([nan, 0], dtype="f4"))
        self.taken(numpy.array([625, 1280.0]) + -0.0)

    def test_masks(self):
        masked = numpy.ma.array(DEMAND, mask=[False, True])
        self.not_taken(ValueError, r"demand\[1\] is masked$", masked, numpy.ma.array(DEMAND, mask=[False, True], dtype=object))
        self.not_taken(TypeError, r"demand\[1\] is masked, not a whole number$", list(masked))
        self.not_taken(TypeError, r"demand\[0\] is .*, not a whole number$", [numpy.ma.array(625, mask=True), 1280])
        self.sheet_not_taken(ValueError, r"domestic\[1\]\[0\] is masked$", numpy.ma.array(ROWS, mask=[[0, 0], [1, 0]]))
        self.sheet_not_taken(ValueError, r"domestic\[1\]\[0\] is masked$", list(numpy.ma.array(ROWS, mask=[[0, 0], [1, 0]])))
        self.taken(numpy.ma.array(DEMAND), numpy.ma.array(DEMAND, mask=[False, False]))

    def test_arrays_that_are_no_cells(self):
        self.not_taken(TypeError, "demand is an array of ", numpy.array([True, False]), numpy.array(["1", "2"]), numpy.array([b"1", b"2"]),
                       numpy.array([1j, 2]), numpy.array([1, 2], dtype="m8[ns]"), numpy.array([1, 2], dtype="M8[ns]"),
                       numpy.array([(1, 2), (3, 4)], dtype="i8,i8"))
        self.not_taken(TypeError, r"demand\[1\] is ", numpy.array([1, None]), numpy.array([1, "2"], dtype=object), [1, numpy.True_],
                       numpy.array([1, True], dtype=object))
        self.not_taken(ValueError, "demand has 2 dimensions, not 1$", numpy.array([DEMAND]), numpy.array([DEMAND]).T)
        self.not_taken(ValueError, "demand has 0 dimensions, not 1$", numpy.array(5), numpy.int64(5), numpy.float64(5))
        self.sheet_not_taken(ValueError, "domestic has (1|4) rows of (4|1) cells", numpy.array([DOMESTIC]), numpy.array([DOMESTIC]).T)
        self.sheet_not_taken(ValueError, "domestic has 3 dimensions, not 1 or 2$", numpy.zeros((2, 2, 1), dtype=int))

    def test_what_numpy_makes_an_array_of(self):
        class Own:
            def __array__(self, dtype=None, copy=None):
                return numpy.array(DEMAND, dtype=dtype)

        class Interface:
            __array_interface__ = numpy.array(DEMAND).__array_interface__

        self.taken(Own(), Interface())

    def test_no_change_and_a_row(self):
        sheet = numpy.array(ROWS, dtype=numpy.uint64)
        t.production(sheet, numpy.array(DEMAND))
        self.assertEqual(sheet.tolist(), ROWS)
        row = t.row(sheet, 1)
        sheet[1, 0] = 5
        self.assertEqual((type(row), row.tolist()), (memoryview, [5, 240_000]))
        self.assertEqual(t.row(numpy.asfortranarray(sheet), 0), ROWS[0])
        self.assertEqual(t.row(numpy.array(ROWS), 1), ROWS[1])


    def test_groups(self):
        merged = t.aggregate(Merging.THREE, [[0, 2], [1]])
        for groups in (*(numpy.array([5, 2], dtype=code) for code in ("u8", "i8", "i2", ">i4", "f8", "O")), list(numpy.array([5, 2])),
                       *([numpy.array([0, 2], dtype=code), [1]] for code in ("u8", "i2", "f4", "O")),
                       [numpy.arange(0, 3, 2), numpy.uint64(2)], numpy.array([[0, 2], [1]], dtype=object)):
            self.assertEqual(t.aggregate(Merging.THREE, groups), merged)
        for error, text, groups in [(ValueError, "groups has 2 dimensions, not 1$", numpy.array([[0, 2], [1, 1]])),
                                    (ValueError, r"groups\[1\] is -2, below 0$", numpy.array([5, -2])),
                                    (ValueError, r"groups\[0\]\[1\] is -2, below 0$", [numpy.array([0, -2]), [1]]),
                                    (ValueError, r"groups\[0\]\[1\] is 64, above 63$", [numpy.array([0, 64]), [1]]),
                                    (ValueError, r"groups\[0\]\[1\] is masked$", [numpy.ma.array([0, 2], mask=[False, True]), [1]]),
                                    (ValueError, r"groups\[0\] has 0 dimensions, not 1$", [numpy.array(5), 2]),
                                    (TypeError, r"groups\[0\] is an array of bool, ", [numpy.array([True, False]), [1]]),
                                    (TypeError, r"groups\[0\] is .*, not a whole number$", [numpy.True_, 2])]:
            with self.assertRaisesRegex(error, f"^{text}"):
                t.aggregate(Merging.THREE, groups)

    def test_order(self):
        turned = t.permute(Merging.THREE, [1, 2, 0])
        for order in (*(numpy.array([1, 2, 0], dtype=code) for code in ("u8", "i8", "u1", "i2", ">i4", "f2", "f8", "g", "O")),
                      numpy.array([0, 9, 2, 9, 1])[::-2], list(numpy.array([1, 2, 0])), numpy.roll(numpy.arange(3), -1),
                      numpy.argsort([7, 5, 6]), numpy.ma.array([1, 2, 0])):
            with self.subTest(order=order):
                self.assertEqual(t.permute(Merging.THREE, order), turned)
        for place, order in [(2, [1, 2, 1]), (1, [1, 7, 1]), (0, [3, 3, 3])]:
            for code in ("u8", "i2", "f4", "O"):
                self.refused(20, place, t.permute, Merging.THREE, numpy.array(order, dtype=code))
        self.refused(20, 2, t.permute, Merging.THREE, numpy.array([1, 2, 2**64 - 1], dtype="u8"))
        for error, text, order in [(ValueError, "order has 2 dimensions, not 1$", numpy.eye(3, dtype=int)),
                                   (ValueError, r"order\[1\] is -2, below 0$", numpy.array([1, -2, 0])),
                                   (ValueError, r"order\[2\] is 0.5, not a whole number$", numpy.array([1, 2, 0.5])),
                                   (ValueError, r"order\[2\] is masked$", numpy.ma.array([1, 2, 0], mask=[0, 0, 1])),
                                   (TypeError, "order is an array of bool, ", numpy.array([True, False, True])),
                                   (TypeError, r"order\[0\] is .*, not a whole number$", [numpy.True_, 2, 0])]:
            with self.assertRaisesRegex(error, f"^{text}"):
                t.permute(Merging.THREE, order)


@unittest.skipUnless(pandas, "pandas is not installed")
class Pandas(Given, Refusing):
    def test_groups(self):
        merged = t.aggregate(Merging.THREE, [[0, 2], [1]])
        named = pandas.DataFrame({"sector": [0, 1, 2], "group": ["a", "b", "a"]}).groupby("group")
        for groups in (pandas.Series([5, 2]), pandas.Series([[0, 2], [1]], index=["a", "b"]), [pandas.Series([0, 2]), pandas.Index([1])],
                       named["sector"].apply(list), list(named.indices.values())):
            self.assertEqual(t.aggregate(Merging.THREE, groups), merged)
        with self.assertRaisesRegex(ValueError, "^groups has 2 dimensions, not 1$"):
            t.aggregate(Merging.THREE, pandas.DataFrame([[0, 2], [1, 1]]))

    def test_order(self):
        turned = t.permute(Merging.THREE, [1, 2, 0])
        sorted_by = pandas.DataFrame({"sector": [0, 1, 2], "code": ["c", "a", "b"]}).sort_values("code")
        for order in (pandas.Series([1, 2, 0]), pandas.Series([1, 2, 0], index=[0, 2, 1]), pandas.Series([1, 2, 0], dtype="UInt8"),
                      pandas.Index([1, 2, 0]), sorted_by["sector"], sorted_by.index):
            self.assertEqual(t.permute(Merging.THREE, order), turned)
        self.refused(20, 2, t.permute, Merging.THREE, pandas.Series([1, 2, 2]))
        for error, text, order in [(ValueError, "order has 2 dimensions, not 1$", sorted_by[["sector"]]),
                                   (ValueError, r"order\[2\] is nan, not a whole number$", pandas.Series([1, 2, None])),
                                   (TypeError, r"order\[0\] is 'a', not a whole number$", sorted_by["code"])]:
            with self.assertRaisesRegex(error, f"^{text}"):
                t.permute(Merging.THREE, order)

    def test_series_and_frames(self):
        self.taken(pandas.Series(DEMAND), pandas.Series(DEMAND, index=["b", "a"]), pandas.Series(DEMAND, index=[1, 0]),
                   pandas.Series(DEMAND, dtype="float64"), pandas.Series(DEMAND, dtype="Int64"), pandas.Series(DEMAND, dtype="UInt32"),
                   pandas.Series(DEMAND, dtype=object), pandas.Index(DEMAND), pandas.DataFrame({"a": DEMAND, "b": [1, 2]})["a"])
        frame = pandas.DataFrame(ROWS, columns=[3, 7], index=["x", "y"])
        self.sheet_taken(frame, frame.astype("float64"), frame.astype({3: "float64"}), frame.astype("Int64"), frame.T.T, frame.values)

    def test_what_is_refused(self):
        self.not_taken(ValueError, r"demand\[1\] is nan, not a whole number$", pandas.Series([625, None]))
        self.not_taken(TypeError, r"demand\[1\] is <NA>, not a whole number$", pandas.Series([625, None], dtype="Int64"))
        self.not_taken(ValueError, r"demand\[0\] is -1", pandas.Series([-1, 2]), pandas.Series([-1, 2], dtype="Int64"))
        self.not_taken(ValueError, "demand has 2 dimensions, not 1$", pandas.DataFrame({"a": DEMAND}), pandas.DataFrame([DEMAND]))
        self.not_taken(TypeError, "demand is an array of ", pandas.Series([True, False]), pandas.to_timedelta(pandas.Series(DEMAND)),
                       pandas.to_datetime(pandas.Series(DEMAND)))
        self.not_taken(TypeError, r"demand\[0\] is ", pandas.Series(["625", "1280"]), pandas.Series([True, False], dtype="boolean"))
        self.sheet_not_taken(ValueError, r"domestic\[1\]\[0\] is nan", pandas.DataFrame([[0, 0], [None, 0]]))
        self.sheet_not_taken(TypeError, r"domestic\[0\]\[0\] is 'agriculture', not a whole number$",
                             pandas.DataFrame([["agriculture", 1], ["industry", 2]]))
        self.sheet_not_taken(ValueError, "domestic has 2 rows of 3 cells", pandas.DataFrame([[0, 0, 0], [0, 0, 0]]))


class Shares(Refusing):
    """Input coefficients, value shares and import shares to the nearest millionth, halves upward; the rest rounded down."""

    OVER = [88_161], [4_640], [0], [0], [4_640], [92_801]  # a is 950,000.54
    WITHIN = [9_501_000], [500_047], [0], [1_047], [499_000], [10_000_000]  # m is 104.69

    def nearest(self, part, whole):
        return math.floor(Fraction(part * 10**6, whole) + Fraction(1, 2))

    def parts(self, whole):
        """Parts of a whole: all of a small one; of a large one some, and those beside halves of a millionth."""
        if whole <= 1280:
            return range(whole + 1)
        some = {0, 1, 2, whole // 3, whole // 2, whole - 1, whole}
        for k in (0, 1, 333_333, 500_000, 949_999, 950_000, 999_999):
            at = (2 * k + 1) * whole // (2 * 10**6)
            some |= {at - 1, at, at + 1}
        return sorted(part for part in some if 0 <= part <= whole)

    def test_nearest(self):
        halves = 0
        for whole in (1, 2, 3, 6, 7, 128, 129, 640, 1280, 92_801, 10**6, 1_999_999, 2 * 10**6, 2_000_001, 2**27, 999_999_999, 10**9):
            for part in self.parts(whole):
                rest = whole - part
                a, v = self.nearest(part, whole), self.nearest(rest, whole)
                d, f = (10**6 - a) * a // 10**6, (10**6 - a) * rest // 10**6 + part  # the import share is a, too
                self.assertEqual(t.coefficients([part], [rest], [part], [part], [rest], [whole]), ([a], [v], [a], [d], [f]))
                halves += Fraction(part * 10**6, whole).denominator == 2
        self.assertGreater(halves, 500)

    def test_one_share(self):
        for part, whole, share in [(2, 3, 666_667), (1, 3, 333_333), (1, 128, 7_813), (1, 1_999_999, 1), (1, 2_000_000, 1),
                                   (1, 2_000_001, 0)]:
            self.assertEqual(self.nearest(part, whole), share)
            rest = whole - part
            self.assertEqual(t.coefficients([part], [rest], [0], [0], [rest], [whole]).inputs, [share])
            self.assertEqual(t.coefficients([0], [whole], [part], [part], [whole], [whole]).imports, [share])
            self.assertEqual(t.coefficients([rest], [whole], [0], [rest], [part], [whole]).value_added, [share])
        self.assertEqual(t.coefficients([0], [0], [0], [0], [0], [0]), ([0], [0], [0], [0], [0]))

    def test_domestic_and_demand_are_rounded_down(self):
        # 950,000.6555 and 48,984.565 without exports
        sheets = t.coefficients([950_300], [49_000], [1_015], [315], [49_700], [1_000_000])
        self.assertEqual(sheets, ([950_300], [49_700], [315], [950_000], [49_999]))
        # half a millionth is imported: 999,999 are left, not 1,000,000
        sheets = t.coefficients([1_900_002], [99_998], [1], [1], [99_998], [2_000_000])
        self.assertEqual(sheets, ([950_001], [49_999], [1], [950_000], [99_998]))

    def test_a_column_of_inputs_may_be_over_one(self):
        sheets = t.coefficients([[999_999, 0], [1_000_001, 0]], [1, 999_999], [1_100_000, 200_000], [100_000, 200_000], [0, 2_000_000],
                                [2_000_000, 2_000_000])
        self.assertEqual((sheets.inputs, sheets.domestic), ([500_000, 0, 500_001, 0], [450_000, 0, 450_000, 0]))
        self.assertEqual(sheets.demand, [1_100_000, 1_099_999])

    def test_a_column_sum_near_its_limit(self):
        self.refused(7, 0, t.coefficients, *self.OVER)
        self.assertEqual(t.coefficients(*self.WITHIN), ([950_100], [49_900], [105], [950_000], [499_994]))
        lines = b"sector demand production value imports\n1 499994 9999861 498993 1050\nrounds 268\n"
        for table, page in ((self.OVER, b"refused 7 0\n"), (self.WITHIN, lines)):
            self.assertEqual(t.page(t.write_table(t.Table.of(*table))), page)


class Tables(Refusing):
    """A Table as what sheets are worked out from."""

    def test_the_same_as_its_lists(self):
        for table in (Merging.WORKED, Merging.THREE, t.Table.of(**Tables.adjusted()), t.read_table(Merging.FILE),
                      t.aggregate(t.read_table(Merging.FILE), Merging.THIRTEEN).table,
                      t.permute(t.read_table(Merging.FILE), range(36, -1, -1)).table):
            self.assertEqual(t.coefficients(table), t.coefficients(*table[2:9]))
        self.assertEqual(t.coefficients(flows=Merging.WORKED).demand, DEMAND)
        self.assertEqual(t.coefficients(Merging.WORKED._replace(flows=[FLOWS[:2], FLOWS[2:]], exports=(250.0, 560))).demand, DEMAND)
        # the rises are no part of it
        self.assertEqual(t.coefficients(Merging.WORKED._replace(rises=[2**64])).demand, DEMAND)

    @staticmethod
    def adjusted():
        return table(imports=ADJUSTED_IMPORTS, adjustment=ADJUSTMENT)

    def test_refusals(self):
        for number, place, changed in [(1, 0, {"sectors": 41}), (3, 5, {"final_demand": [500, 10**9 + 1]}),
                                       (16, 0, {"exports": [10**9, 0], "adjustment": [1, 0]}), (4, 1, {"value_added": [600, 1001]}),
                                       (5, 0, {"exports": [251, 560]}), (5, 1, {"adjustment": [0, 1]})]:
            self.refused(number, place, t.coefficients, Merging.WORKED._replace(**changed))
        self.assertEqual(self.refused(2, 0, t.coefficients, Merging.WORKED._replace(sectors=3, adjustment=[0] * 3)),
                         "n is 3, the sectors of the table; flows has length 4, not 9; " +
                         "; ".join(f"{name} has length 2, not 3" for name in [*table()][1:]))
        with self.assertRaisesRegex(ValueError, r"^imports\[1\] is -7, below 0$"):
            t.coefficients(Merging.WORKED._replace(imports=[0, -7]))

    def test_a_table_alone_or_every_column(self):
        for name in [*table(), "adjustment", "n"][1:]:
            with self.assertRaisesRegex(TypeError, f"^{name} is given beside a Table, which has its own: give the Table alone$"):
                t.coefficients(Merging.WORKED, **{name: 2 if name == "n" else [0, 0]})
        for name in [*table()][1:]:
            given = table()
            del given[name]
            for other in (given, table(**{name: None})):
                with self.assertRaisesRegex(TypeError, f"^{name} is left out or None: .*, or a Table alone$"):
                    t.coefficients(**other)
        for given in (FLOWS, tuple(Merging.WORKED), t.aggregate(Merging.WORKED, [[0, 1]]), t.permute(Merging.WORKED, [1, 0]), None):
            with self.assertRaisesRegex(TypeError, "^final_demand is left out or None: .*, or a Table alone$"):
                t.coefficients(given)
        with self.assertRaisesRegex(TypeError, "^flows is a NoneType, "):
            t.coefficients(**table(flows=None))


class Demands(unittest.TestCase):
    """Demands for domestic goods of final demands."""

    SHARES = [250_000, 200_000]
    FILES = sorted((ROOT / "examples").glob("*.table"))

    def test_worked(self):
        final, exports = COLUMNS[:2]
        for given, expected in [
                ([self.SHARES, final, exports], DEMAND), ([self.SHARES, [600, 900], exports], [700, 1280]),
                ([[300_000, 250_000], final, exports, ADJUSTMENT], [650, 1325]),
                ([array("q", self.SHARES), (500.0, 900), None, exports], DEMAND), ([self.SHARES, final], [375, 720]),
                ([[333_333] * 2, [1, 2]], [0, 1]), ([[1_000_000] * 2, [7, 7], [2, 0], [0, 3]], [2, 3]),
                ([[0] * 2, [10**9, 0], [10**9 - 1, 0], [1, 0]], [2 * 10**9, 0])]:
            self.assertEqual(t.domestic_demand(*given), expected)

    def test_a_table_has_its_own(self):
        accepted = 0
        for file in self.FILES:
            try:
                table = t.read_table(file.read_bytes())
                sheets = t.coefficients(table)
            except t.Refused:
                continue
            accepted += 1
            own = t.domestic_demand(sheets.imports, table.final_demand, table.exports, table.adjustment)
            self.assertEqual(own, sheets.demand, file.name)
        self.assertGreater(accepted, 2)

    def test_a_scheme_in_each_sector(self):
        table = t.read_table((ROOT / "examples/sectors37.table").read_bytes())
        sheets = t.coefficients(table)
        for i in range(table.sectors):
            for spent in (1, 500, 123_457):
                final = [*table.final_demand]
                final[i] += spent
                after = t.domestic_demand(sheets.imports, final, table.exports, table.adjustment)
                added = [b - a for a, b in zip(sheets.demand, after)]
                inside = (1_000_000 - sheets.imports[i]) * spent // 1_000_000
                self.assertIn(added.pop(i), (inside, min(inside + 1, spent)))
                self.assertEqual(set(added), {0})
                self.assertLess(t.impact(sheets.domestic, sheets.demand, after).rounds, t.PRODUCTION_BUDGET)

    def test_nothing_is_changed(self):
        given = [self.SHARES[:], *(column[:] for column in COLUMNS[:2])]
        t.domestic_demand(*given)
        self.assertEqual(given, [self.SHARES, *COLUMNS[:2]])


class Schemes(unittest.TestCase):
    """What a scheme adds to production."""

    def test_the_rise_is_the_difference_of_two_productions(self):
        lower, higher = [41, 24], [42, 24]  # the lower demand takes a round more
        other = [[259_750, 398_963], [235_662, 247_592]]
        for domestic, before, after, expected in [
                (DOMESTIC, DEMAND, [635, 1280], ([12, 4], 10)), (ROWS, array("q", DEMAND), (635.0, 1280), ([12, 4], 10)),
                (DOMESTIC, [0, 0], DEMAND, MADE), (other, lower, higher, ([1, 0], 9)), ([950_000], [1], [2], ([20], 20)),
                (DOMESTIC, DEMAND, [2_000_000_000] * 2, None)]:
            rise = t.impact(domestic, before, after)
            first, second = t.production(domestic, before), t.production(domestic, after)
            self.assertEqual(rise.rises, [b - a for a, b in zip(first.amounts, second.amounts)])
            self.assertEqual(rise.rounds, max(first.rounds, second.rounds))
            self.assertEqual(rise, expected or rise)
            added = [b - a for a, b in zip(before, after)]
            self.assertTrue(all(r >= a for r, a in zip(rise.rises, added)))
            self.assertLess(sum(rise.rises), 20 * sum(added) + 20 * len(added))

    def test_equal_demands(self):
        for demand in (DEMAND, [0, 0], [2_000_000_000, 1]):
            self.assertEqual(t.impact(DOMESTIC, demand, demand), ([0, 0], t.production(DOMESTIC, demand).rounds))
        self.assertEqual(t.impact(DOMESTIC, DEMAND, DEMAND, 9), ([0, 0], 9))


class Shortages(Refusing):
    """Demands behind productions, below 0 where a sector is short."""

    LIMIT = 1_600_000_000_000

    def behind(self, domestic, production):
        """By the paper, in Python's own numbers."""
        n = len(production)
        return [made - sum(d * y for d, y in zip(domestic[i * n:], production)) // 1_000_000 for i, made in enumerate(production)]

    def test_worked(self):
        for domestic, production, expected in [
                (DOMESTIC, MADE[0], DEMAND), (ROWS, array("q", [1000, 2000]), DEMAND), (DOMESTIC, (0, 1000.0), [-150, 760]),
                (DOMESTIC, [0, 1001], [-150, 761]), (DOMESTIC, [162, 1000], [0, 722]), (DOMESTIC, [161, 1000], [-1, 722]),
                (DOMESTIC, [1000, 0], [925, -240]), (DOMESTIC, [0, 0], [0, 0]),
                ([0, 950_000, 0, 0], [0, self.LIMIT], [-1_520_000_000_000, self.LIMIT]),
                ([23_750] * 1600, [0] + [1000] * 39, [-926] + [74] * 39)]:
            self.assertEqual(t.implied_demand(domestic, production), expected)

    def test_by_the_paper(self):
        short = 0
        for n in (1, 2, 7, 40):
            for k in range(200):
                domestic = [(i * 7919 + k * 104_729) % (950_000 // n + 1) for i in range(n * n)]
                production = [(i * 15_485_863 + k * k) * (k + i) % (self.LIMIT // n + 1) * (i % 3 != k % 3) for i in range(n)]
                demand = t.implied_demand(domestic, production)
                self.assertEqual(demand, self.behind(domestic, production))
                short += min(demand) < 0
        self.assertGreater(short, 200)

    def test_forward_and_back(self):
        for demand in (DEMAND, [0, 0], [0, 2_000_000_000]):
            self.assertEqual(t.implied_demand(DOMESTIC, t.production(DOMESTIC, demand).amounts), demand)
        with self.assertRaisesRegex(ValueError, r"demand\[0\] is -150, below 0$"):
            t.production(DOMESTIC, t.implied_demand(DOMESTIC, [0, 1000]))

    def test_refusals(self):
        self.refused(8, 1, t.implied_demand, DOMESTIC, [0, self.LIMIT + 1])
        self.refused(7, 1, t.implied_demand, [0, 950_001, 0, 0], [0, self.LIMIT + 1])
        self.refused(1, 0, t.implied_demand, [0] * 41 * 41, [0] * 41)
        self.refused(2, 0, t.implied_demand, DOMESTIC, [0, 1000, 0])
        self.assertIn("reserved", t.QUESTIONS[10])


class Merging(Refusing):
    """Tables whose sectors are merged."""

    WORKED = t.Table(2, 14, FLOWS, *COLUMNS, [0, 0], [0, 0])
    THREE = t.Table.of([[10, 20, 30], [5, 40, 15], [25, 10, 50]], [50, 80, 90], [20, 25, 45], [30, 20, 20], [60, 80, 105],
                       [100, 150, 200], [0, 5, 0], [7, 8, 9])
    FILE = (ROOT / "examples/sectors37.table").read_bytes()
    THIRTEEN = [[0], [1], range(2, 20), [20], [21, 22, 23], [24], [25], [26], [27], [28], [29], range(30, 36), [36]]

    def by_hand(self, table, groups):
        """The merged table and the sizes, each cell added up."""
        n = table.sectors
        flows = [sum(table.flows[i * n + j] for i in rows for j in columns) for rows in groups for columns in groups]
        columns = [[sum(column[i] for i in group) for group in groups] for column in table[3:9]]
        return t.Aggregate(t.Table.of(flows, *columns), [len(group) for group in groups])

    def made(self, *amounts, n=2, **changed):
        """A table without flows, in which this is made and used, and changed columns."""
        named = {"final_demand": amounts, "exports": [0] * n, "imports": [0] * n, "value_added": amounts, "production": amounts}
        return t.Table.of([0] * n * n, **{**named, **changed})

    def test_the_worked_table_in_one(self):
        for groups in ([[0, 1]], [(1, 0)], [range(2)], [3], [0b11], [3.0]):
            merged = t.aggregate(self.WORKED, groups)
            self.assertEqual(merged, ((1, 6, [1400], [1400], [810], [610], [1600], [3000], [0], [0]), [2]))
        self.assertEqual((type(merged), type(merged.table)), (t.Aggregate, t.Table))
        self.assertEqual(t.coefficients(merged.table), ([466_667], [533_333], [217_857], [365_000], [1905]))
        adjusted = t.Table.of(**table(imports=ADJUSTED_IMPORTS, adjustment=ADJUSTMENT))
        self.assertEqual(t.aggregate(adjusted, [[0, 1]]).table, (1, 7, [1400], [1400], [810], [750], [1600], [3000], [140], [0]))

    def test_the_outer_sectors_of_three(self):
        merged, sizes = t.aggregate(self.THREE, [[0, 2], [1]])
        self.assertEqual(merged, (2, 15, [115, 30, 20, 40], [140, 80], [65, 25], [50, 20], [165, 80], [300, 150], [0, 5], [0, 0]))
        self.assertEqual(sizes, [2, 1])

    def test_every_cell_is_added_up(self):
        table = t.read_table(self.FILE)
        for table, groups in [(self.WORKED, [[0], [1]]), (self.WORKED, [[1], [0]]), (self.THREE, [[0, 1, 2]]), (self.THREE, [[2], [1, 0]]),
                              (self.THREE, [[1], [2], [0]]), (table, self.THIRTEEN), (table, [range(37)]),
                              (table, [[i] for i in range(36, -1, -1)]), (table, [range(k, 37, 5) for k in range(5)])]:
            merged = t.aggregate(table, groups)
            self.assertEqual(merged, self.by_hand(table, groups))
            self.assertEqual(sum(merged.sizes), table.sectors)
            for before, after in zip(table[2:9], merged.table[2:9]):
                self.assertEqual(sum(after), sum(before))

    def test_thirteen_of_37(self):
        table = t.read_table(self.FILE)
        merged, sizes = t.aggregate(table, self.THIRTEEN)
        self.assertEqual(sizes, [1, 1, 18, 1, 3, 1, 1, 1, 1, 1, 1, 6, 1])
        self.assertEqual((table.sectors, merged.sectors, merged.named), (37, 13, 13 * 13 + 6 * 13))
        self.assertEqual(merged.production, [166_928, 253_780, 3_526_267, 173_203, 786_290, 246_612, 214_368, 176_695, 214_491, 157_515,
                                             290_930, 1_022_092, 184_032])
        self.assertEqual(t.read_table(t.write_table(merged)), merged)
        sheets = t.coefficients(*merged[2:9])
        self.assertEqual(sheets.imports, [219_996, 59_997, 189_308, 309_997, 155_860, 150_000, 299_999, 279_995, 319_998, 339_995, 59_999,
                                          234_118, 309_998])
        self.assertEqual((sum(t.production(sheets.domestic, sheets.demand).amounts), sum(merged.production)), (7_413_103, 7_413_203))

    def test_single_sectors_change_nothing_but_rises(self):
        for table in (self.WORKED, self.THREE, t.read_table(self.FILE)):
            merged, sizes = t.aggregate(table, [[i] for i in range(table.sectors)])
            self.assertEqual(merged[2:9], table[2:9])
            self.assertEqual((merged.rises, sizes), ([0] * table.sectors, [1] * table.sectors))

    def test_forms_of_groups(self):
        merged = t.aggregate(self.THREE, [[0, 2], [1]])
        for groups in ([5, 2], (5, 2), [[2, 0], [1]], [[0, 2], 2], [5, [1]], [(0, 2), range(1, 2)], deque([deque([0, 2]), [1]]),
                       [5.0, 2.0], [[0.0, 2], [1.0]], array("Q", [5, 2]), array("b", [5, 2]), memoryview(array("i", [5, 2])),
                       [array("B", [0, 2]), memoryview(b"\1")], (ctypes.c_uint64 * 2)(5, 2), range(5, 1, -3)):
            with self.subTest(groups=groups):
                self.assertEqual(t.aggregate(self.THREE, groups), merged)
        self.assertEqual(t.aggregate(self.THREE._replace(flows=[[10, 20, 30], [5, 40, 15], [25, 10, 50]], exports=(20.0, 25, 45)),
                                     [[0, 2], [1]]), merged)

    def test_nothing_is_changed(self):
        table, groups = t.Table(*self.THREE[:2], *map(list, self.THREE[2:])), [[0, 2], [1]]
        t.aggregate(table, groups)
        self.assertEqual((table, groups), (self.THREE, [[0, 2], [1]]))

    def test_groups_that_18_refuses(self):
        for groups in ([[0, 2], [1, 2]], [[0], [1]], [[0, 1, 2], []], [[], [0, 1, 2]], [[]], [[0, 1], [1]], [5, 5], [7, 7, 7], [3, 3, 1],
                       [[0, 1, 2, 3]], [[0, 1], [2, 63]], [[0, 1], [63]], [[0, 2], 0], [2**64 - 1], [7 + 2**63], [3, 4 + 2**32]):
            with self.subTest(groups=groups):
                self.refused(18, 0, t.aggregate, self.THREE, groups)
        forty = self.made(*[1] * 40, n=40)
        for sector in (40, 41, 62, 63):
            self.refused(18, 0, t.aggregate, forty, [[*range(40), sector]])
        self.refused(18, 0, t.aggregate, forty, [range(39)])
        self.assertEqual(t.aggregate(forty, [range(40)]).sizes, [40])

    def test_sums_that_19_refuses(self):
        limit, groups = 10**9, [[0, 1]]
        at = t.aggregate(self.made(limit - 1, 1), groups).table
        self.assertEqual((at.final_demand, at.value_added, at.production), ([limit],) * 3)
        for second in (2, limit):
            self.refused(19, 0, t.aggregate, self.made(limit - 1, second), groups)
        # final demand alone, imports alone, and exports with the adjustment
        half = [limit - 1, 0]
        imported = {"value_added": half, "production": half}
        self.assertEqual(t.aggregate(self.made(limit - 1, 1, imports=[0, 1], **imported), groups).table.final_demand, [limit])
        self.refused(19, 0, t.aggregate, self.made(limit - 1, 2, imports=[0, 2], **imported), groups)
        bought = t.Table.of([1, 0, 0, 0], [limit - 1, 0], [1, 0], [limit, 0], [0, 0], [1, 0])
        self.assertEqual(t.aggregate(bought, groups).table.imports, [limit])
        self.refused(19, 0, t.aggregate, bought._replace(final_demand=[limit - 1, 1], imports=[limit, 1]), groups)
        none = {"final_demand": [0, 0]}
        sent = self.made(limit - 1, 1, exports=[limit - 1, 0], adjustment=[0, 1], **none)
        self.assertEqual(t.aggregate(sent, groups).table[3:9], ([0], [limit - 1], [0], [limit], [limit], [1]))
        self.refused(19, 0, t.aggregate, self.made(limit - 1, 2, exports=[limit - 1, 0], adjustment=[0, 2], **none), groups)
        full = self.made(*[limit] * 40, n=40)
        self.assertEqual(t.aggregate(full, [[i] for i in range(40)]).table, full)
        self.assertEqual(self.refused(19, 0, t.aggregate, full, [range(40)]), "the sum of final_demand in group 0 is 40,000,000,000")

    def test_which_group_has_which_sum(self):
        limit, zeros = 10**9, [0] * 3
        over = [limit, limit, 1]
        for detail, groups, table in [
                ("the sum of final_demand in group 1 is 1,000,000,001", [[0], [1, 2]], self.made(*over, n=3)),
                ("the sum of final_demand in group 0 is 2,000,000,001", [7], self.made(*over, n=3)),
                ("the sum of exports in group 1 is 1,000,000,001", [[0], [2, 1]], self.made(*over, n=3, final_demand=zeros, exports=over)),
                ("the sum of flows from group 0 to group 1 is 1,000,000,002", [[2], [1, 0]],
                 t.Table.of([0] * 6 + [limit, 2, 0], [limit, 2, 0], zeros, [0, 0, limit], [0, 0, 2], [limit, 2, 2])),
                ("the sum of imports in group 0 is 1,000,000,001", [[0, 1], [2]],
                 t.Table.of([1] + [0] * 8, [limit - 1, 1, 0], [1, 0, 0], [limit, 1, 0], zeros, [1, 0, 0])),
                ("the sum of value_added in group 0 is 1,000,000,001", [[0, 2], [1]],
                 t.Table.of([0] * 9, [limit - 1, 0, 0], [1, 0, 1], zeros, [limit, 0, 1], [limit, 0, 1])),
                ("the sum of production in group 0 is 1,000,000,001", [[0, 2], [1]],
                 t.Table.of([1] + [0] * 8, [limit - 2, 0, 0], [1, 0, 1], zeros, [limit - 1, 0, 1], [limit, 0, 1])),
                # exports are limit - 1 and the adjustment is 2
                ("the sum of production in group 1 is 1,000,000,002", [[0], [1, 2]],
                 t.Table.of([0] * 4 + [1, 0, 0, 0, 1], zeros, [0, limit - 1, 0], [0, 0, 1], [0, limit - 1, 1], [0, limit, 2], [0, 0, 2]))]:
            with self.subTest(detail=detail):
                self.assertEqual(self.refused(19, 0, t.aggregate, table, groups), detail)

    def test_how_many_groups(self):
        for table, groups in [(self.WORKED, []), (self.WORKED, ()), (self.WORKED, [[0], [1], []]), (self.WORKED, [1, 2, 3]),
                              (self.WORKED, [3] * 41), (self.WORKED, [[0, 1]] * 1000), (self.made(7, n=1), [[0], [0]])]:
            n = table.sectors
            self.assertEqual(self.refused(2, 0, t.aggregate, table, groups),
                             f"n is {n}, the sectors of the table; groups has length {len(groups)}, not 1 to {n}")

    def test_the_order_of_the_questions(self):
        bad, limit = [[0], [0]], 10**9
        wrong = self.made(limit, 5)
        self.refused(19, 0, t.aggregate, wrong, [[0, 1]])
        self.refused(18, 0, t.aggregate, wrong, bad)
        wrong = wrong._replace(final_demand=[limit, 1], exports=[0, 6], imports=[0, 2])
        self.refused(6, 1, t.aggregate, wrong, [[0, 1]])
        self.refused(6, 1, t.aggregate, wrong, bad)
        for number, place, changed in [(5, 1, {"exports": [0, 7]}), (4, 1, {"value_added": [limit, 4]}),
                                       (16, 1, {"adjustment": [0, limit]}), (3, 4 + 5 * 2, {"adjustment": [limit + 1, limit]})]:
            wrong = wrong._replace(**changed)
            self.refused(number, place, t.aggregate, wrong, bad)
        self.refused(2, 0, t.aggregate, wrong, [])
        self.refused(2, 0, t.aggregate, wrong._replace(imports=[0]), bad)
        for n in (0, 41, 2**64 - 1):
            self.refused(1, 0, t.aggregate, wrong._replace(sectors=n), [])

    def test_wrong_lengths(self):
        for name in t.Table._fields[2:9]:
            for other in ([], [0] * 3, [0] * 5):
                self.refused(2, 0, t.aggregate, self.WORKED._replace(**{name: other}), [[0, 1]])
        self.assertEqual(self.refused(2, 0, t.aggregate, self.WORKED._replace(imports=[0], exports=[1, 2, 3]), []),
                         "n is 2, the sectors of the table; exports has length 3, not 2; imports has length 1, not 2; "
                         "groups has length 0, not 1 to 2")
        self.assertEqual(self.refused(2, 0, t.aggregate, self.WORKED._replace(imports=[0]), [[0], [1]]),
                         "n is 2, the sectors of the table; imports has length 1, not 2")
        # the rises are no part of it
        self.assertEqual(t.aggregate(self.WORKED._replace(rises=[2**64]), [[0, 1]]), t.aggregate(self.WORKED, [[0, 1]]))

    def test_question_7(self):
        # the first sector buys what the second imports; merged with the third, that is no longer told apart
        apart = t.Table.of([0, 0, 0, 98, 0, 0, 0, 0, 0], [100, 0, 10_000], [0] * 3, [0, 98, 0], [2, 0, 10_000], [100, 0, 10_000])
        self.assertEqual(t.coefficients(apart).domestic, [0] * 9)
        self.refused(7, 0, t.coefficients, t.aggregate(apart, [[0], [1, 2]]).table)
        # a sector that is refused, merged with a neighbour
        over = t.Table.of([960_000, 0, 0, 0], [40_000, 10**6], [0, 0], [0, 0], [40_000, 10**6], [10**6, 10**6])
        self.refused(7, 0, t.coefficients, over)
        self.assertEqual(t.coefficients(t.aggregate(over, [[0, 1]]).table).domestic, [480_000])

    def test_what_is_no_group(self):
        for error, text, groups in [
                (ValueError, r"groups\[0\] names sector 2 twice$", [[2, 0, 2], [1]]),
                (ValueError, r"groups\[1\] names sector 1 twice$", [5, [1, 1]]),
                (ValueError, r"groups\[0\]\[1\] is 64, above 63$", [[0, 64], [1]]),
                (ValueError, r"groups\[0\]\[0\] is -1, below 0$", [[-1]]),
                (ValueError, r"groups\[0\]\[0\] is 18446744073709551616, above ", [[2**64]]),
                (ValueError, r"groups\[1\]\[0\] is 0.5, not a whole number$", [[0, 2], [0.5]]),
                (ValueError, r"groups\[1\] is -2, below 0$", [5, -2]),
                (ValueError, r"groups\[1\] is 18446744073709551616, above ", [5, 2**64]),
                (ValueError, r"groups\[0\] is 2.5, not a whole number$", [2.5]),
                (TypeError, r"groups\[0\]\[0\] is '0', not a whole number$", [["0"]]),
                (TypeError, r"groups\[0\]\[1\] is True, not a whole number$", [[0, True]]),
                (TypeError, r"groups\[0\] is True, not a whole number$", [True]),
                (TypeError, r"groups\[0\]\[0\] is \[0, 1\], not a whole number$", [[[0, 1], [2]]]),
                (TypeError, r"groups\[1\] is None, not a whole number$", [5, None]),
                (TypeError, r"groups\[0\] is a str, ", ["012"]),
                (TypeError, r"groups\[0\] is a set, ", [{0, 2}, {1}]),
                (TypeError, r"groups\[0\] is a dict, ", [{0: 2}]),
                (TypeError, r"groups\[0\] is a bytes, ", [b"\0\2", b"\1"]),
                *((TypeError, f"groups is a {type(other).__name__}, ", other) for other in ({0: [0]}, "012", {5, 2}, 7, None, iter([7])))]:
            with self.subTest(text=text):
                with self.assertRaisesRegex(error, f"^{text}"):
                    t.aggregate(self.THREE, groups)

    def test_what_is_no_table(self):
        for given in (None, 2, tuple(self.WORKED), table(), (FLOWS, *COLUMNS), self.FILE):
            with self.assertRaisesRegex(TypeError, f"^table is a {type(given).__name__}, not a Table: "):
                t.aggregate(given, [[0, 1]])
        for name in t.Table._fields[2:9]:
            with self.assertRaisesRegex(ValueError, rf"^{name}\[1\] is -7, below 0$"):
                t.aggregate(self.WORKED._replace(**{name: [0, -7]}), [[0, 1]])
        with self.assertRaisesRegex(ValueError, "^sectors is -1, below 0$"):
            t.aggregate(self.WORKED._replace(sectors=-1), [[0, 1]])


class Ordering(Refusing):
    """Tables whose sectors are in another order."""

    WORKED, THREE, FILE = Merging.WORKED, Merging.THREE, Merging.FILE
    NAMES = t.Table._fields[2:9]

    def column(self, cells, order):
        return [cells[i] for i in order]

    def sheet(self, cells, order):
        return [cells[i * len(order) + j] for i in order for j in order]

    def by_hand(self, table, order):
        """The table in the new order and the inverse list, cell by cell."""
        columns = [self.column(column, order) for column in table[3:9]]
        return t.Permuted(t.Table.of(self.sheet(table.flows, order), *columns), [order.index(i) for i in range(table.sectors)])

    def without_rises(self, table):
        return t.Table.of(*table[2:9])

    def there_and_back(self, table, order):
        turned, inverse = t.permute(table, order)
        self.assertEqual(t.permute(turned, inverse), (self.without_rises(table), [*order]))

    def any_table(self, some, n):
        """Amounts within their limit, that need not balance."""
        cells = [[some.choice((0, some.randrange(10**9 + 1), some.randrange(9))) for _ in range(n)] for _ in range(n + 7)]
        return t.Table.of(cells[:n], *cells[n:])

    def any_list(self, some, n):
        return some.sample(range(n), n)

    def test_the_worked_table(self):
        turned = t.permute(self.WORKED, [1, 0])
        self.assertEqual(turned, ((2, 14, [600, 300, 400, 100], [900, 500], [560, 250], [360, 250], [1000, 600], [2000, 1000], [0, 0],
                                   [0, 0]), [1, 0]))
        self.assertEqual((type(turned), type(turned.table), type(turned.inverse)), (t.Permuted, t.Table, list))
        self.assertEqual(t.permute(*turned), (self.WORKED, [1, 0]))
        sheets = t.coefficients(turned.table)
        self.assertEqual(sheets, ([300_000, 300_000, 200_000, 100_000], [500_000, 600_000], [200_000, 250_000],
                                  [240_000, 240_000, 150_000, 75_000], [1280, 625]))
        self.assertEqual(t.production(sheets.domestic, sheets.demand), ([1999, 999], 9))
        adjusted = t.Table.of(**table(imports=ADJUSTED_IMPORTS, adjustment=ADJUSTMENT))
        self.assertEqual(t.permute(adjusted, [1, 0]).table[5:9], ([450, 300], [1000, 600], [2000, 1000], [90, 50]))

    def test_three_sectors(self):
        turned, inverse = t.permute(self.THREE, [1, 2, 0])
        self.assertEqual(turned, (3, 25, [40, 15, 5, 10, 50, 25, 20, 30, 10], [80, 90, 50], [25, 45, 20], [20, 20, 30], [80, 105, 60],
                                  [150, 200, 100], [5, 0, 0], [0, 0, 0]))
        self.assertEqual(inverse, [2, 0, 1])
        back, order = t.permute(turned, inverse)
        self.assertEqual(back, (3, 25, [10, 20, 30, 5, 40, 15, 25, 10, 50], [50, 80, 90], [20, 25, 45], [30, 20, 20], [60, 80, 105],
                                [100, 150, 200], [0, 5, 0], [0, 0, 0]))
        self.assertEqual(order, [1, 2, 0])
        self.assertEqual({type(cell) for cells in (*turned[2:], inverse) for cell in cells}, {int})

    def test_the_same_order(self):
        for table in (self.WORKED, self.THREE, t.read_table(self.FILE)):
            n = table.sectors
            self.assertEqual(t.permute(table, range(n)), (self.without_rises(table), [*range(n)]))

    def test_one_sector(self):
        for table in (t.Table.of([1], [2], [3], [4], [5], [6], [7]), t.Table.of([0], *[[0]] * 6)):
            self.assertEqual(t.permute(table, [0]), (table, [0]))

    def test_forty_sectors_backwards(self):
        n = 40
        for amounts in (range(10**9 - 1879, 10**9 + 1), [10**9] * 1880):
            table = t.Table.of(amounts[:n * n], *(amounts[n * (n + k):n * (n + k + 1)] for k in range(6)))
            turned, inverse = t.permute(table, range(n - 1, -1, -1))
            self.assertEqual(turned[2:9], tuple(cells[::-1] for cells in table[2:9]))
            self.assertEqual((turned.sectors, turned.named, inverse), (n, n * n + 6 * n, [*range(n - 1, -1, -1)]))
            self.assertEqual(t.permute(turned, inverse), (table, inverse))

    def test_any_table_and_list(self):
        some = random.Random(9)
        for n in (*range(1, 41), *[3, 5, 8, 13, 37] * 5):
            table, order, other = self.any_table(some, n), self.any_list(some, n), self.any_list(some, n)
            with self.subTest(n=n, order=order, other=other):
                turned, inverse = t.permute(table, order)
                self.assertEqual((turned, inverse), self.by_hand(table, order))
                self.assertEqual(([inverse[i] for i in order], [order[k] for k in inverse]), ([*range(n)],) * 2)
                self.assertEqual(t.permute(turned, inverse), (self.without_rises(table), order))
                # one order and then another are one order
                twice = t.permute(turned, other)
                self.assertEqual(t.permute(table, self.column(order, other)), (twice.table, self.column(twice.inverse, inverse)))

    def test_every_list_of_few_sectors(self):
        some = random.Random(9)
        for n in range(1, 5):
            table = self.any_table(some, n)
            for order in itertools.product(range(n + 1), repeat=n):
                wrong = [k for k, entry in enumerate(order) if entry >= n or entry in order[:k]]
                if wrong:
                    self.refused(20, wrong[0], t.permute, table, order)
                else:
                    self.assertEqual(t.permute(table, order), self.by_hand(table, order))
                    self.there_and_back(table, order)

    def test_forms_of_lists(self):
        turned = t.permute(self.THREE, [1, 2, 0])
        for order in ((1, 2, 0), deque([1, 2, 0]), [1.0, 2, 0.0], (1.0, 2.0, -0.0), *(array(code, [1, 2, 0]) for code in "bBhHiIlLqQfd"),
                      memoryview(array("Q", [1, 2, 0])), memoryview(array("i", [0, 9, 2, 9, 1]))[::-2], memoryview(b"\1\2\0"),
                      (ctypes.c_uint64 * 3)(1, 2, 0), (ctypes.c_int16 * 3)(1, 2, 0)):
            with self.subTest(order=order):
                self.assertEqual(t.permute(self.THREE, order), turned)
        self.assertEqual(t.permute(order=[1, 2, 0], table=self.THREE), turned)
        self.assertEqual(t.permute(self.THREE, range(2, -1, -1)), t.permute(self.THREE, [2, 1, 0]))
        self.assertEqual(t.permute(self.THREE._replace(flows=[[10, 20, 30], [5, 40, 15], [25, 10, 50]], exports=(20.0, 25, 45)),
                                   [1, 2, 0]), turned)

    def test_nothing_is_changed(self):
        table = t.Table(*self.THREE[:2], *map(list, self.THREE[2:]))
        for order in ([1, 2, 0], array("Q", [1, 2, 0])):
            turned, inverse = t.permute(table, order)
            self.assertEqual((table, [*order]), (self.THREE, [1, 2, 0]))
            for cells in (*turned[2:], inverse):
                cells[:] = [7] * len(cells)
            self.assertEqual((table, [*order]), (self.THREE, [1, 2, 0]))
            order.append(0)  # a buffer that is still held could not grow
            self.refused(2, 0, t.permute, table, order)
            self.assertEqual((table, [*order]), (self.THREE, [1, 2, 0, 0]))

    def test_rises_are_no_part_of_it(self):
        turned, inverse = t.permute(self.THREE, [1, 2, 0])
        for rises in ([0, 0, 0], [7, 8, 9], [10**9 + 1] * 3, [2**64], [], [-1], None):
            table = self.THREE._replace(rises=rises)
            self.assertEqual(t.permute(table, [1, 2, 0]), (turned, inverse))
            self.assertEqual(t.permute(turned._replace(rises=rises), inverse).table, self.without_rises(self.THREE))
        self.assertEqual((turned.rises, turned.named, self.THREE.named), ([0, 0, 0], 25, 28))
        # nor is the count of cells that a file names
        self.assertEqual(t.permute(self.THREE._replace(named=0), [1, 2, 0]), (turned, inverse))

    def test_tables_that_have_no_sheets(self):
        limit, zeros = 10**9, [0] * 3
        for number, place, table in [
                (4, 1, self.THREE._replace(value_added=[60, 81, 105])), (5, 0, self.THREE._replace(exports=[21, 25, 45])),
                (5, 2, self.THREE._replace(adjustment=[0, 5, 1])),
                (16, 0, self.THREE._replace(exports=[limit, 25, 45], adjustment=[1, 5, 0])),
                (16, 1, t.Table.of([0] * 9, zeros, [0, limit, 0], zeros, zeros, zeros, [0, limit, 0])),
                (6, 2, t.Table.of([0] * 9, [0, 0, 1], [0, 0, 5], [0, 0, 2], [0, 0, 4], [0, 0, 4])),
                (7, 1, t.Table.of([0] * 4 + [960_000] + [0] * 4, [1, 40_000, 1], zeros, zeros, [1, 40_000, 1], [1, 10**6, 1]))]:
            with self.subTest(number=number, place=place):
                self.refused(number, place, t.coefficients, table)
                for order in itertools.permutations(range(3)):
                    turned, inverse = t.permute(table, order)
                    self.assertEqual((turned, inverse), self.by_hand(table, order))
                    self.there_and_back(table, order)
                    self.refused(number, inverse[place], t.coefficients, turned)

    def test_lists_that_20_refuses(self):
        last = 2**64 - 1
        for place, *orders in [
                (0, [3, 0, 1], [7, 1, 2], [3, 3, 3], [3, 0, 0], [last, 1, 2], [last] * 3, [256, 1, 2], [2**32, 1, 2], [2**63, 1, 2]),
                (1, [0, 3, 1], [1, 7, 1], [0, 0, 1], [2, 2, 2], [0, 0, 3], [1, 1, last], [0, last, 1], [2, 2**32 + 1, 0]),
                (2, [0, 1, 3], [1, 2, 3], [1, 2, 7], [0, 1, 0], [1, 2, 1], [0, 1, 1], [2, 1, 2], [0, 1, last], [0, 1, 2**32 + 2])]:
            for order in orders:
                with self.subTest(order=order):
                    for form in (order, tuple(order), deque(order), array("Q", order), memoryview(array("Q", order)),
                                 (ctypes.c_uint64 * 3)(*order), [*map(float, order)] if max(order) < 2**53 else order):
                        self.refused(20, place, t.permute, self.THREE, form)
        self.refused(20, 2, t.permute, self.THREE, range(1, 4))
        self.refused(20, 0, t.permute, self.THREE, range(3, 0, -1))
        for entry in (1, 2, 40, 63, 64, last):
            self.refused(20, 0, t.permute, t.Table.of([1], [2], [3], [4], [5], [6]), [entry])

    def test_every_place_of_forty(self):
        table, order = self.any_table(random.Random(9), 40), [*range(7, 40), *range(7)]
        self.there_and_back(table, order)
        for k in range(40):
            for entry in (40, 41, 63, 2**64 - 1):
                self.refused(20, k, t.permute, table, [*order[:k], entry, *order[k + 1:]])
            for earlier in {*range(0, k, 7), *range(k)[-2:]}:
                # of two equal entries the later, and of two wrong ones the first
                self.refused(20, k, t.permute, table, [*order[:k], order[earlier], *order[k + 1:]])
                self.refused(20, k, t.permute, table, [*order[:k], order[earlier], *[40] * (39 - k)])

    def test_the_order_of_the_questions(self):
        limit, wrong = 10**9, [[3, 0, 0], [1, 1, 0], [0, 2**64 - 1, 2], [1, 2, 0]]
        place = 0
        for name in self.NAMES:
            cells = getattr(self.THREE, name)
            for k in range(len(cells)):
                for over, order in zip((limit + 1, 2**32, 2**64 - 1, limit + 1), wrong):
                    self.refused(3, place, t.permute, self.THREE._replace(**{name: cells[:k] + [over] + cells[k + 1:]}), order)
                    # with every later cell over
                    later = {other: [limit + 1] * 3 for other in self.NAMES[self.NAMES.index(name) + 1:]}
                    later[name] = cells[:k] + [over] * (len(cells) - k)
                    self.refused(3, place, t.permute, self.THREE._replace(**later), order)
                place += 1
        self.assertEqual(place, 3 * 3 + 6 * 3)
        over = self.THREE._replace(adjustment=[0, 5, limit + 1])
        self.refused(3, 26, t.permute, over, [3, 3, 3])
        self.refused(20, 0, t.permute, over._replace(adjustment=[0, 5, limit]), [3, 3, 3])
        # 2 before both, and 1 before all
        self.refused(2, 0, t.permute, over, [3, 3])
        self.refused(2, 0, t.permute, over._replace(imports=[0]), [3, 3, 3])
        for n in (0, 41, 2**64 - 1):
            for order in ([], [0, 1, 2], [3, 3]):
                self.refused(1, 0, t.permute, over._replace(sectors=n), order)
        for n in (0, 41):
            self.refused(1, 0, t.permute, t.Table.of([0] * n * n, *[[0] * n] * 5), range(n))

    def test_wrong_lengths(self):
        for table, order in [(self.THREE, []), (self.THREE, [2]), (self.THREE, [1, 0]), (self.THREE, (0, 1, 2, 3)), (self.THREE, range(41)),
                             (self.WORKED, [0]), (self.WORKED, [1, 0, 1]), (self.WORKED, array("Q", [1] * 1000))]:
            n = table.sectors
            self.assertEqual(self.refused(2, 0, t.permute, table, order),
                             f"n is {n}, the sectors of the table; order has length {len(order)}, not {n}")
        for name in self.NAMES:
            cells = getattr(self.THREE, name)
            for other in ([], cells[1:], cells + [0], [10**9 + 1]):
                for order in ([1, 2, 0], [3, 3, 3]):
                    self.assertEqual(self.refused(2, 0, t.permute, self.THREE._replace(**{name: other}), order),
                                     f"n is 3, the sectors of the table; {name} has length {len(other)}, not {len(cells)}")
        self.assertEqual(self.refused(2, 0, t.permute, self.WORKED._replace(imports=[0], exports=[1, 2, 3]), [0]),
                         "n is 2, the sectors of the table; exports has length 3, not 2; imports has length 1, not 2; "
                         "order has length 1, not 2")
        self.assertEqual(self.refused(2, 0, t.permute, self.THREE._replace(sectors=2), [1, 0]),
                         "n is 2, the sectors of the table; flows has length 9, not 4; " +
                         "; ".join(f"{name} has length 3, not 2" for name in self.NAMES[1:]))
        self.assertEqual(self.refused(2, 0, t.permute, self.WORKED._replace(sectors=3), [1, 2, 0]),
                         "n is 3, the sectors of the table; flows has length 4, not 9; " +
                         "; ".join(f"{name} has length 2, not 3" for name in self.NAMES[1:]))

    def test_what_is_no_list(self):
        for error, text, order in [
                (TypeError, r"order\[1\] is True, not a whole number$", [2, True, 0]),
                (TypeError, r"order\[0\] is False, not a whole number$", (False, 1, 2)),
                (TypeError, r"order\[2\] is None, not a whole number$", [1, 2, None]),
                (TypeError, r"order\[0\] is '1', not a whole number$", ["1", "2", "0"]),
                (TypeError, r"order\[1\] is Fraction\(2, 1\), not a whole number$", [1, Fraction(2), 0]),
                (TypeError, r"order\[1\] is Decimal\('2'\), not a whole number$", [1, Decimal(2), 0]),
                (TypeError, r"order\[0\] is \[1\], not a whole number$", [[1], [2], [0]]),
                (TypeError, r"order\[0\] is \[1, 2, 0\], not a whole number$", [[1, 2, 0]]),
                (ValueError, r"order\[1\] is 0.5, not a whole number$", [1, 0.5, 0]),
                (ValueError, r"order\[1\] is nan, not a whole number$", array("d", [1, float("nan"), 0])),
                (ValueError, r"order\[1\] is 9007199254740992.0: a float of 2\*\*53 or above", [1, 2.0**53, 0]),
                (ValueError, r"order\[2\] is -1, below 0$", [0, 1, -1]),
                (ValueError, r"order\[2\] is -1, below 0$", array("b", [0, 1, -1])),
                (ValueError, r"order\[0\] is -3, below 0$", range(-3, 0)),
                (ValueError, r"order\[2\] is 18446744073709551616, above 18446744073709551615$", [0, 1, 2**64]),
                (ValueError, "order has 2 dimensions, not 1$", memoryview(b"\1\2\0").cast("B", (3, 1))),
                *((TypeError, f"order is a {type(other).__name__}, ", other) for other in (
                    {0: 1, 1: 2, 2: 0}, {0, 1, 2}, "120", b"\1\2\0", bytearray(b"\1\2\0"), iter([1, 2, 0]), 1, 1.0, None))]:
            with self.subTest(text=text):
                # a table that is refused too
                for given in (self.THREE, self.THREE._replace(flows=[10**9 + 1])):
                    with self.assertRaisesRegex(error, f"^{text}"):
                        t.permute(given, order)

    def test_what_is_no_table(self):
        for given in (None, 2, tuple(self.WORKED), table(), (FLOWS, *COLUMNS), FLOWS, self.FILE, t.permute(self.WORKED, [1, 0]),
                      t.aggregate(self.WORKED, [[0, 1]])):
            with self.assertRaisesRegex(TypeError, f"^table is a {type(given).__name__}, not a Table: "):
                t.permute(given, [1, 0])
        for name in self.NAMES:
            with self.assertRaisesRegex(ValueError, rf"^{name}\[1\] is -7, below 0$"):
                t.permute(self.WORKED._replace(**{name: [0, -7]}), [1, 0])
            with self.assertRaisesRegex(TypeError, f"^{name} is a dict, "):
                t.permute(self.WORKED._replace(**{name: {0: 1, 1: 2}}), [1, 0])
        with self.assertRaisesRegex(ValueError, "^sectors is -1, below 0$"):
            t.permute(self.WORKED._replace(sectors=-1), [1, 0])
        with self.assertRaisesRegex(ValueError, "^flows has 1 rows of 4 cells"):
            t.permute(self.WORKED._replace(flows=[FLOWS]), [1, 0])

    def test_sheets_production_and_prices(self):
        some = random.Random(9)
        for file in Demands.FILES:
            table = t.read_table(file.read_bytes())
            n, sheets = table.sectors, t.coefficients(table)
            made, rises = t.production(sheets.domestic, sheets.demand), [some.randrange(10**6) for _ in range(n)]
            prices = t.price(sheets.domestic, rises)
            for order in (range(n - 1, -1, -1), [*range(1, n), 0], *(self.any_list(some, n) for _ in range(5))):
                with self.subTest(file=file.name, order=order):
                    new = t.coefficients(t.permute(table, order).table)
                    self.assertEqual(new, (self.sheet(sheets.inputs, order), self.column(sheets.value_added, order),
                                           self.column(sheets.imports, order), self.sheet(sheets.domestic, order),
                                           self.column(sheets.demand, order)))
                    self.assertEqual(t.production(new.domestic, new.demand), (self.column(made.amounts, order), made.rounds))
                    self.assertEqual(t.price(new.domestic, self.column(rises, order)), (self.column(prices.rises, order), prices.rounds))
                    self.refused(9, 0, t.production, new.domestic, new.demand, made.rounds - 1)
                    self.refused(9, 0, t.price, new.domestic, self.column(rises, order), prices.rounds - 1)
        self.assertGreater(len(Demands.FILES), 2)

    def test_archives(self):
        some, table = random.Random(9), t.read_table(self.FILE)
        files = {self.FILE}
        for order in (range(36, -1, -1), [*range(1, 37), 0], *(self.any_list(some, 37) for _ in range(5))):
            turned, inverse = t.permute(table, order)
            file = t.write_table(turned)
            self.assertNotIn(file, files)
            files.add(file)
            self.assertEqual((len(file), t.read_table(file)), (len(self.FILE), turned))
            back = t.permute(t.read_table(file), inverse).table
            self.assertEqual((back, t.write_table(back)), (table, self.FILE))

    def test_merging(self):
        some, table = random.Random(9), t.read_table(self.FILE)
        merged = t.aggregate(table, Merging.THIRTEEN)
        for order in (range(36, -1, -1), *(self.any_list(some, 37) for _ in range(5))):
            turned, inverse = t.permute(table, order)
            # single sectors in that order, and groups of the sectors where they came to
            self.assertEqual(t.aggregate(table, [[i] for i in order]), (turned, [1] * 37))
            self.assertEqual(t.aggregate(turned, [self.column(inverse, group) for group in Merging.THIRTEEN]), merged)
        for order in itertools.permutations(range(3)):
            self.assertEqual(t.aggregate(self.THREE, [[i] for i in order]).table, t.permute(self.THREE, order).table)


class Budgets(Refusing):
    """The slowest sheets that are known settle with the default budget."""

    N = 40
    RING = [[950_000 if i == (j + 1) % 40 else 0 for j in range(40)] for i in range(40)]  # each sector buys from the next alone

    def loop_and_ring(self, outlet, first, nexts, last):
        """Sector 0 buys from itself and a little from sector 1; the others buy in a ring, and a little from sector 1."""
        d = [[0] * self.N for _ in range(self.N)]
        d[0][0], d[1][0], d[1][-1] = 950_000 - outlet, outlet, last
        for j, cell in enumerate(nexts, 1):
            d[j + 1][j], d[1][j] = cell, first if j > 1 else 0
        return d

    def slowest_production(self):
        first = 2_050
        d = self.loop_and_ring(1, first, [947_379] * (self.N - 2), 999_999 - first * (self.N - 3))
        for j in range(1, self.N):
            d[0][j] = 950_000 - sum(row[j] for row in d)
        rest = [77_696_537_295, 38_007_651_736] + [38_007_537_295] * (self.N - 2)
        demand = [amount - sum(map(int.__mul__, row, rest)) // 10**6 for amount, row in zip(rest, d)]
        demand[1] += 1
        return d, demand

    def slowest_inverse(self):
        nexts, amount, first = [], 3_535, 1_370
        for j in range(1, self.N - 1):
            cell = 950_000 - (first if j > 1 else 0)
            while cell * amount % 10**6 < 19 * (10**6 - cell):
                cell -= 1
            nexts.append(cell)
            amount = cell * amount // 10**6
        return self.loop_and_ring(152, first, nexts, 949_638)

    def test_slowest(self):
        demand, rises = ([limit - 19] + [limit - 20] * (self.N - 1) for limit in (2 * 10**9, 10**9))
        slowest, slow_demand = self.slowest_production()
        for count, call, *given in [(1_189, t.production, self.RING, demand), (1_244, t.production, slowest, slow_demand),
                                    (1_244, t.impact, slowest, [0] * self.N, slow_demand), (1_175, t.price, self.RING, rises),
                                    (1_022, t.inverse, self.slowest_inverse())]:
            with self.subTest(call=call.__name__, count=count):
                settled = call(*given)
                self.assertEqual(settled.rounds, count)
                self.assertEqual(call(*given, count), settled)
                self.refused(9, 0, call, *given, count - 1)

    def test_defaults(self):
        header = (ROOT / "include/tawqeshim.h").read_text()
        for name, budget, calls in [("PRODUCTION", t.PRODUCTION_BUDGET, (t.production, t.impact)),
                                    ("PRICE", t.PRICE_BUDGET, (t.price, t.inverse))]:
            self.assertIn(f"TAWQESHIM_{name}_BUDGET UINT32_C({budget})", header)
            for call in calls:
                self.assertEqual(inspect.signature(call).parameters["budget"].default, budget)


class Files(unittest.TestCase):
    def test_worked_table(self):
        file = (ROOT / "examples/worked.table").read_bytes()
        self.assertEqual(len(file), 91)
        read = t.read_table(file)
        self.assertEqual(read, (2, 14, FLOWS, *COLUMNS, [0, 0], [0, 0]))
        self.assertEqual(t.coefficients(read).demand, DEMAND)
        for given in (file, bytearray(file), memoryview(file), array("B", file), memoryview(file[::-1])[::-1]):
            self.assertEqual(t.page(given), (ROOT / "crates/roadsheet/stdout").read_bytes())

    def test_a_table_with_an_adjustment(self):
        file = (ROOT / "examples/adjusted.table").read_bytes()
        self.assertEqual(len(file), 103)
        read = t.read_table(file)
        self.assertEqual(read, (2, 16, *table(imports=ADJUSTED_IMPORTS).values(), ADJUSTMENT, [0, 0]))
        sheets = t.coefficients(read)
        self.assertEqual(sheets, t.coefficients(**table(imports=ADJUSTED_IMPORTS, adjustment=ADJUSTMENT)))
        self.assertEqual((sheets.imports, sheets.demand), ([300_000, 250_000], [650, 1325]))
        made = t.production(sheets.domestic, sheets.demand)
        lines = [b"sector demand production value imports", b"1 650 999 599 299", b"2 1325 1999 999 449", b"rounds 8", b""]
        self.assertEqual((made, t.page(file)), (([999, 1999], 8), b"\n".join(lines)))

    def test_no_adjustment_is_zeros(self):
        sheets = t.coefficients(FLOWS, *COLUMNS)
        for adjustment in (None, [0, 0], (0, 0), array("Q", [0, 0])):
            self.assertEqual(t.coefficients(FLOWS, *COLUMNS, adjustment), sheets)
        moved = table(exports=[200, 0], adjustment=[50, 560])
        self.assertEqual(t.coefficients(**moved), sheets)
        with self.assertRaises(t.Refused):
            t.coefficients(**table(imports=ADJUSTED_IMPORTS))

    def test_exports_and_adjustment_over_their_limit(self):
        table = t.Table.of([0], [0], [10**9], [0], [0], [0], [1])
        file = t.write_table(table)
        self.assertEqual((t.read_table(file), t.page(file)), (table, b"refused 16 0\n"))

    def test_what_is_no_file(self):
        for given in ("examples/worked.table", Path("worked.table"), None, [1, 2, 8], {1: 2}, array("I", [1, 2]), array("Q", [1])):
            for call in (t.page, t.read_table):
                with self.assertRaisesRegex(TypeError, "^file is a "):
                    call(given)


class Written(Refusing):
    """Tables written as files."""

    SLICES = ["flows", "final_demand", "exports", "imports", "value_added", "production", "adjustment", "rises"]
    WORKED = t.Table(2, 14, FLOWS, *COLUMNS, [0, 0], [0, 0])
    FILE = (ROOT / "examples/worked.table").read_bytes()

    def records(self, file):
        """The records of a file between the first and the end."""
        records, at = [], 2
        while file[at] != 8:
            length = 7 if file[at] == 2 else 6
            records.append(file[at:at + length])
            at += length
        return records

    def tables(self):
        yield self.WORKED
        yield self.WORKED._replace(named=16, rises=[7, 1_000_000_000])
        yield self.WORKED._replace(named=16, adjustment=[7, 1_000_000_000])
        yield self.WORKED._replace(named=18, adjustment=[5, 6], rises=[7, 8])
        yield t.Table(1, 0, [0], [0], [0], [0], [0], [0], [0], [0])
        yield t.Table(1, 8, [1], [2], [3], [4], [5], [6], [7], [8])
        yield t.Table(40, 1880, list(range(1, 1601)), *([10**9 - 256 * k - i for i in range(40)] for k in range(7)))

    def test_the_example_files(self):
        for file in (ROOT / "examples").glob("*.table"):
            self.assertEqual(t.write_table(t.read_table(file.read_bytes())), file.read_bytes(), file.name)

    def test_a_written_file_reads_as_its_table(self):
        for table in self.tables():
            file = t.write_table(table)
            self.assertEqual((type(file), len(file)), (bytes, 3 + sum(map(len, self.records(file)))))
            self.assertEqual(t.read_table(file), table)
            self.assertEqual(self.records(file), sorted(self.records(file)))
            self.assertEqual(t.write_table(t.read_table(file)), file)
        self.assertEqual(len(file), 12_883)

    def test_one_file_of_a_table(self):
        records = self.records(self.FILE)
        named_zero, adjusted_zero = bytes([9, 2, 0, 0, 0, 0]), bytes([10, 1, 0, 0, 0, 0])
        for other in (records[::-1], records[5:] + records[:5], [named_zero, *records], [*records[::-1], named_zero],
                      [adjusted_zero, *records, named_zero]):
            file = bytes([1, 2]) + b"".join(other) + bytes([8])
            self.assertNotEqual(file, self.FILE)
            self.assertEqual(t.write_table(t.read_table(file)), self.FILE)
        self.assertEqual(t.write_table(self.WORKED._replace(named=0)), self.FILE)
        self.assertEqual(t.read_table(t.write_table(self.WORKED._replace(named=0))), self.WORKED)

    def test_tables_that_differ(self):
        files = {t.write_table(table) for table in self.tables()}
        for name in self.SLICES:
            for k, amount in enumerate(getattr(self.WORKED, name)):
                for other in {0, amount + 1, 256 * amount + 1, 10**9} - {amount}:
                    cells = list(getattr(self.WORKED, name))
                    cells[k] = other
                    file = t.write_table(self.WORKED._replace(**{name: cells}))
                    self.assertNotIn(file, files)
                    files.add(file)
        zeros = {t.write_table(t.Table.of([0] * n * n, *[[0] * n] * 5)) for n in range(1, 41)}
        self.assertEqual(zeros, {bytes([1, n, 8]) for n in range(1, 41)})

    def test_refusals(self):
        for n in (0, 41, 2**64 - 1):
            self.refused(1, 0, t.write_table, self.WORKED._replace(sectors=n))
        self.refused(1, 0, t.write_table, t.Table.of([], [], [], [], [], []))
        for name in self.SLICES:
            cells = getattr(self.WORKED, name)
            for other in ([], cells[1:], cells + [0], [10**9 + 1]):
                self.assertEqual(self.refused(2, 0, t.write_table, self.WORKED._replace(**{name: other})),
                                 f"n is 2, the sectors of the table; {name} has length {len(other)}, not {len(cells)}")
        place = 0
        for name in self.SLICES:
            cells = getattr(self.WORKED, name)
            for k in range(len(cells)):
                for over in (10**9 + 1, 2**32, 2**64 - 1):
                    self.refused(3, place, t.write_table, self.WORKED._replace(**{name: cells[:k] + [over] + cells[k + 1:]}))
                place += 1
        self.refused(3, 2 * 2 + 5 * 2, t.write_table, self.WORKED._replace(adjustment=[10**9 + 1, 0], rises=[10**9 + 1, 0]))
        self.refused(3, 2 * 2 + 6 * 2, t.write_table, self.WORKED._replace(rises=[10**9 + 1, 10**9 + 1]))
        self.refused(3, 4, t.write_table, t.read_table(bytes([1, 2, 3, 1, 255, 255, 255, 255, 8])))

    def test_tables_of_lists(self):
        rows = [FLOWS[:2], FLOWS[2:]]
        for flows, columns in ((FLOWS, COLUMNS), (rows, COLUMNS), (array("q", FLOWS), map(tuple, COLUMNS)),
                               (tuple(map(tuple, rows)), [array("d", column) for column in COLUMNS])):
            made = t.Table.of(flows, *columns)
            self.assertEqual(made, self.WORKED)
            self.assertEqual({type(cell) for name in self.SLICES for cell in getattr(made, name)}, {int})
        self.assertEqual(t.Table.of(FLOWS, *COLUMNS, [0, 5]), self.WORKED._replace(named=15, adjustment=[0, 5]))
        self.assertEqual(t.Table.of(FLOWS, *COLUMNS, rises=[0, 5]), self.WORKED._replace(named=15, rises=[0, 5]))
        self.assertEqual(t.Table.of(FLOWS, *COLUMNS, [1, 2], [0, 5]), self.WORKED._replace(named=17, adjustment=[1, 2], rises=[0, 5]))
        self.assertEqual(t.Table.of(FLOWS, *COLUMNS, n=3).sectors, 3)
        self.assertEqual(t.write_table(self.WORKED._replace(flows=rows, exports=(250.0, 560))), self.FILE)
        self.assertEqual(t.coefficients(*t.Table.of(**table())[2:9]).demand, DEMAND)

    def test_what_is_no_table(self):
        for given in (None, 2, self.FILE, tuple(self.WORKED), list(self.WORKED), table(), (FLOWS, *COLUMNS)):
            with self.assertRaisesRegex(TypeError, f"^table is a {type(given).__name__}, not a Table: "):
                t.write_table(given)
        for name in self.SLICES:
            for error, text, wrong in ((TypeError, " is a dict, ", {0: 1, 1: 2}), (TypeError, " is a NoneType, ", None),
                                       (ValueError, r"\[1\] is -7, below 0$", [0, -7]), (TypeError, r"\[0\] is True, ", [True, 0]),
                                       (ValueError, r"\[1\] is 0.5, not a whole number$", [0, 0.5])):
                with self.assertRaisesRegex(error, f"^{name}{text}"):
                    t.write_table(self.WORKED._replace(**{name: wrong}))
                if wrong is not None or name not in ("adjustment", "rises"):
                    with self.assertRaisesRegex(error, f"^{name}{text}"):
                        t.Table.of(**{**table(), name: wrong})
        for wrong in (-1, 2**64):
            with self.assertRaisesRegex(ValueError, "^sectors is "):
                t.write_table(self.WORKED._replace(sectors=wrong))
        with self.assertRaisesRegex(TypeError, "^sectors is '2', not a whole number$"):
            t.write_table(self.WORKED._replace(sectors="2"))
        with self.assertRaisesRegex(ValueError, "^flows has 1 rows of 4 cells"):
            t.write_table(self.WORKED._replace(flows=[FLOWS]))


class Library(unittest.TestCase):
    def imported(self, code="import tawqeshim", library=ROOT / "target/libtawqeshim.so"):
        return subprocess.run([sys.executable, "-Bc", code], cwd=ROOT / "python", capture_output=True, text=True,
                              env={**os.environ, "TAWQESHIM_LIBRARY": str(library)})

    def not_imported(self, text, library):
        run = self.imported(library=library)
        self.assertEqual(run.returncode, 1)
        self.assertRegex(run.stderr.splitlines()[-1], f"^ImportError: .*{text}.*run scripts/shared-library .*TAWQESHIM_LIBRARY")

    def test_by_its_path(self):
        self.assertEqual(self.imported().returncode, 0)
        self.assertEqual(self.imported(library="../target/libtawqeshim.so").returncode, 0)

    def test_no_library(self):
        self.not_imported("there is no library .*/none.so", ROOT / "target/none.so")
        self.not_imported("there is no library ", ROOT)
        self.not_imported("cannot be loaded as a library ", Path(__file__))

    @unittest.skipUnless(shutil.which(os.environ.get("CC", "gcc")), "there is no C compiler")
    def test_another_library(self):
        with tempfile.TemporaryDirectory() as place:
            for text, code in [("is another library, or one before version 1.0.0", "int other;"),
                               (f"has version 0.9.1, and this module has {t.__version__}", 'const char tawqeshim_version[] = "0.9.1";')]:
                built = Path(place) / "lib.so"
                compiler = os.environ.get("CC", "gcc")
                subprocess.run([compiler, "-shared", "-fPIC", "-x", "c", "-o", built, "-"], input=code.encode(), check=True)
                self.not_imported(text, built)

    def test_no_import_of_numpy(self):
        run = self.imported("import sys, tawqeshim as t; t.production([0], [1]); print({'numpy', 'pandas'} & set(sys.modules))")
        self.assertEqual((run.stdout, run.returncode), ("set()\n", 0))


class Help(unittest.TestCase):
    def test_every_name_is_documented_and_typed(self):
        text = pydoc.render_doc(t, renderer=pydoc.plaintext)
        for name in t.__all__:
            self.assertIn(name, text)
            thing = getattr(t, name)
            if inspect.isfunction(thing):
                signature = inspect.signature(thing)
                kinds = [signature.return_annotation, *(p.annotation for p in signature.parameters.values())]
                self.assertNotIn(inspect.Signature.empty, kinds)
                self.assertIn(">>> ", thing.__doc__)
            elif inspect.isclass(thing):
                self.assertGreater(len(thing.__doc__), 15)

    def test_help_is_short(self):
        text = pydoc.render_doc(t, renderer=pydoc.plaintext)
        for boilerplate in ("Alias for field", "inherited from", "_replace(", "_make(", "__new__", "__repr__", "__annotations__", "count("):
            self.assertNotIn(boilerplate, text.split("FUNCTIONS")[0], boilerplate)
        self.assertLess(text.split("\n").index("FUNCTIONS"), 400)

    def test_every_function_is_typed(self):
        for name, thing in inspect.getmembers(t, lambda thing: inspect.isfunction(thing) and thing.__module__ == t.__name__):
            missing = set(inspect.signature(thing).parameters) - set(thing.__annotations__)
            self.assertFalse(missing or "return" not in thing.__annotations__, name)


class Records(unittest.TestCase):
    """What the calls give are named tuples like any others, of which `help` shows less."""

    FIELDS = {"Coefficients": "inputs value_added imports domestic demand", "Production": "amounts rounds", "Impact": "rises rounds",
              "Prices": "rises rounds", "Induced": "value_added imports", "Inverse": "cells power sensitivity rounds",
              "Table": "sectors named flows final_demand exports imports value_added production adjustment rises",
              "Aggregate": "table sizes", "Permuted": "table inverse"}

    def test_each_is_a_tuple(self):
        self.assertEqual(set(self.FIELDS), {name for name in t.__all__ if inspect.isclass(getattr(t, name))} - {"Refused"})
        for name, fields in self.FIELDS.items():
            kind, fields = getattr(t, name), tuple(fields.split())
            plain = tuple([k] for k in range(len(fields)))
            record = kind(*plain)
            self.assertEqual((kind.__mro__, kind._fields, kind.__module__, kind.__qualname__),
                             ((kind, tuple, object), fields, "tawqeshim", name))
            self.assertEqual((record, tuple(record), [*record], len(record), hash(kind)), (plain, plain, [*plain], len(plain), hash(kind)))
            self.assertEqual(record, kind(**dict(zip(fields, plain))))
            self.assertEqual([getattr(record, field) for field in fields], [*plain])
            self.assertEqual(repr(record), f"{name}({', '.join(f'{field}={cells}' for field, cells in zip(fields, plain))})")
            kept = [pickle.loads(pickle.dumps(record, protocol)) for protocol in range(pickle.HIGHEST_PROTOCOL + 1)]
            for same in (*kept, copy.copy(record), copy.deepcopy(record), kind._make(plain), record._replace()):
                self.assertEqual((type(same), same), (kind, record))
            self.assertEqual(record._asdict(), dict(zip(fields, plain)))
            self.assertEqual(record._replace(**{fields[-1]: 7}), (*plain[:-1], 7))
            with self.assertRaises(AttributeError):
                record.other = 1
            with self.assertRaises(TypeError):
                kind(*plain, 1)

    def test_dir(self):
        for name, fields in self.FIELDS.items():
            kind = getattr(t, name)
            self.assertEqual(set(dir(kind)), {*fields.split(), *["of"] * (name == "Table")})
            self.assertTrue({"_replace", "count", *fields.split()} <= set(dir(kind(*fields.split()))))
            for field in fields.split():
                self.assertNotIn("Alias", getattr(kind, field).__doc__)


class Types(unittest.TestCase):
    """What a type checker sees of the module."""

    SCRIPT = """
import tawqeshim
flows = [[100, 400], [300, 600]]
table = tawqeshim.Table.of(flows, [500, 900], [250, 560], [250, 360], [600, 1000], [1000, 2000])
sheets = tawqeshim.coefficients(table)
domestic: list[int] = sheets.domestic
made = tawqeshim.production(domestic, sheets.demand)
amounts: list[int] = made.amounts
after: list[int] = tawqeshim.domestic_demand(sheets.imports, [600, 900], [250, 560])
merged: tawqeshim.Table = tawqeshim.aggregate(table, [[0, 1]]).table
turned: tawqeshim.Permuted = tawqeshim.permute(table, (1, 0))
back: tawqeshim.Table = tawqeshim.permute(turned.table, turned.inverse).table
same: list[int] = tawqeshim.permute(table, range(2)).inverse
tawqeshim.coefficients(*table[2:9])
"""
    WRONG = ["rounds: str = made.rounds", "demand: str = sheets.demand", "tawqeshim.production(domestic, {0: 625, 1: 1280})",
             "tawqeshim.coefficients(flows)", "tawqeshim.coefficients(table, [500, 900])", "tawqeshim.permute(flows, [1, 0])",
             "tawqeshim.permute(table, {0: 1, 1: 0})", "tawqeshim.permute(turned, turned.inverse)"]

    @unittest.skipUnless(shutil.which("mypy"), "mypy is not installed")
    def test_mypy(self):
        with tempfile.TemporaryDirectory() as place:
            script = Path(place) / "mine.py"
            script.write_text("\n".join([self.SCRIPT, *self.WRONG]))
            for path in ("PYTHONPATH", "MYPYPATH"):
                run = subprocess.run(["mypy", "--strict", f"--cache-dir={place}", "--hide-error-context", script], cwd=place, text=True,
                                     capture_output=True, env={**os.environ, path: str(ROOT / "python")})
                wrong = re.findall(r"^mine\.py:(\d+): error: ", run.stdout, re.MULTILINE)
                first = self.SCRIPT.count("\n") + 2
                self.assertEqual(wrong, [str(first + k) for k in range(len(self.WRONG))], run.stdout + run.stderr)


class Documents(unittest.TestCase):
    """What the documents say that can be held against the repository."""

    def test_examples(self):
        for name in ("README.md", "docs/CALLS.md"):
            self.assertEqual(doctest.testfile(str(ROOT / name), module_relative=False, verbose=False).failed, 0)

    def test_the_worked_file_and_its_page(self):
        model = (ROOT / "docs/MODEL.md").read_text()
        dump = re.findall(r"^    [ \d]\d      ((?:[0-9a-f]{2} )+) *", model, re.MULTILINE)
        self.assertEqual(bytes.fromhex("".join(dump)), (ROOT / "examples/worked.table").read_bytes())
        page = "".join(f"    {line}\n" for line in (ROOT / "crates/roadsheet/stdout").read_text().splitlines())
        for name in ("README.md", "docs/MODEL.md"):
            self.assertIn(page, (ROOT / name).read_text())

    def test_the_definitions_that_the_model_names(self):
        seen = 0
        for paragraph in (ROOT / "docs/MODEL.md").read_text().split("\n\n"):
            file = source = None
            for word in re.findall("`([^` ]+)`", paragraph if paragraph.startswith("Defined: ") else ""):
                if word.endswith(".antt"):
                    file, source = word, (ROOT / (word if "/" in word else f"crates/model/specs/{word}")).read_text()
                else:
                    self.assertTrue(re.search(rf"(?m)^ *(\w+ )*{word}\b", source), f"MODEL.md: {word} is not defined in {file}")
                    seen += 1
        self.assertGreater(seen, 100)


if __name__ == "__main__":
    unittest.main()
