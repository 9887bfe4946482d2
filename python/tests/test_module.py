"""The module: values, texts, solving and measuring, held to the definitions and to the proved programs."""
import ast
import copy
import ctypes
import dataclasses
import doctest
import importlib.util
import inspect
import math
import os
import pickle
import random
import re
import sys
import threading
import typing
import unittest
from fractions import Fraction

from common import (EXAMPLES, PACKAGE, ROOT, doubled, draw_limits, draw_plan, draw_prices, draw_sheet, folder, full_sheet, largest,
                    measured, numbers_text, plan_text, prices_text, program, put, reach, read, run, sheet_text, total_of)

import jangoripu
from jangoripu import Group, Measures, Plan, Prices, Refused, Sheet, Solution, calls, measure, passed, price_tanks, reading, solve, tables
from jangoripu.files import FILE_BYTES
from jangoripu.refusals import WORDS

try:
    import numpy
except ImportError:
    numpy = None
try:
    import scipy.sparse as sparse
except ImportError:
    sparse = None

PAIRS = ((1, 1, 5), (1, 2, 4), (2, 1, 4), (2, 2, 1))
TWO = Sheet(2, 2, PAIRS)
ONES = (1, 1, 1, 1)
TRIANGLE = Sheet(3, 3, ((2, 1, 1), (3, 1, 1), (3, 2, 1)), True)
FILES = sorted(name for name in os.listdir(PACKAGE) if name.endswith(".py"))


def refusal(call, *passed, **named):
    """The refusal of a call as number, place and source."""
    try:
        call(*passed, **named)
    except Refused as refused:
        return refused.number, refused.place, refused.source
    raise AssertionError(f"{call.__name__} was not refused")


class Values(unittest.TestCase):
    MADE = {
        Sheet: lambda: Sheet(2, 2, [[1, 1, 5], [2, 1, 4]]),
        Plan: lambda: Plan([1, 0]),
        Group: lambda: Group([1, 2, 3], [4], 7),
        Prices: lambda: Prices([1, 2], [3], [Group([1])]),
        Measures: lambda: Measures(1, 3, 1, 0, 0, 0, 1),
        Solution: lambda: Solution(Plan([1]), Prices([1, 0], [0]), 4),
    }

    def test_frozen(self):
        for kind, make in self.MADE.items():
            self.assertTrue(dataclasses.is_dataclass(kind))
            for field in dataclasses.fields(kind):
                with self.subTest(kind=kind.__name__, field=field.name), self.assertRaises(dataclasses.FrozenInstanceError):
                    setattr(make(), field.name, 1)

    def test_equal_by_value(self):
        for kind, make in self.MADE.items():
            with self.subTest(kind=kind.__name__):
                self.assertIsNot(make(), make())
                self.assertEqual(make(), make())
                self.assertEqual(hash(make()), hash(make()))
                self.assertEqual(len({make(), make()}), 1)
                self.assertEqual(pickle.loads(pickle.dumps(make())), make())
        self.assertNotEqual(Sheet(2, 2, PAIRS), Sheet(2, 2, PAIRS, True))
        self.assertNotEqual(Sheet(2, 2, PAIRS), Sheet(2, 2, PAIRS[::-1]))
        self.assertNotEqual(Plan([1, 0]), Plan([0, 1]))
        self.assertNotEqual(Group([1]), Group([1], price=1))

    def test_after_use(self):
        """A sheet that was used is the same value, and can be copied and sent elsewhere."""
        used, new = Sheet(2, 2, PAIRS), Sheet(2, 2, PAIRS)
        solution = solve(used, ONES)
        jangoripu.tidy(used)
        self.assertEqual((used, hash(used), repr(used)), (new, hash(new), repr(new)))
        self.assertEqual(dataclasses.asdict(used), dataclasses.asdict(new))
        for again in (pickle.loads(pickle.dumps(used)), copy.copy(used), copy.deepcopy(used), dataclasses.replace(used)):
            self.assertEqual(again, new)
            self.assertEqual(solve(again, ONES), solution)
        other = dataclasses.replace(used, pairs=PAIRS[:1])
        self.assertEqual(solve(other, ONES).merit, 5)
        self.assertEqual(pickle.loads(pickle.dumps(solution)), solution)

    def test_fields(self):
        sheet = Sheet(2, 2, [[1, 1, 5], [2, 1, 4]])
        self.assertEqual((sheet.rows, sheet.columns, sheet.pairs, sheet.one_sided), (2, 2, ((1, 1, 5), (2, 1, 4)), False))
        self.assertEqual([field.name for field in dataclasses.fields(Prices)], ["fish", "pairs", "groups"])
        self.assertEqual([field.name for field in dataclasses.fields(Solution)], ["plan", "prices", "merit"])

    def test_names_of_fish(self):
        self.assertEqual([TWO.fish_name(fish) for fish in (1, 2, 3, 4)], ["dam 1", "dam 2", "sire 1", "sire 2"])
        self.assertEqual([TRIANGLE.fish_name(fish) for fish in (1, 3)], ["family 1", "family 3"])
        self.assertEqual((TWO.fish, TRIANGLE.fish), (4, 3))
        self.assertEqual((TWO.ends(2), TRIANGLE.ends(2)), ((1, 4), (3, 1)))
        self.assertEqual(TWO.pair_name(3), "dam 2 with sire 1")
        self.assertEqual(TRIANGLE.pair_name(3), "family 3 with family 2")

    def test_plan_of_ends(self):
        plan = Plan.of(TWO, [(2, 1), (1, 2)])
        self.assertEqual(plan, Plan((0, 1, 1, 0)))
        self.assertEqual(plan.chosen, (2, 3))
        self.assertEqual(plan.ends(TWO), ((1, 2), (2, 1)))
        with self.assertRaisesRegex(ValueError, "row 3, column 1$"):
            Plan.of(TWO, [(3, 1)])

    def test_best(self):
        for gap, best in ((0, True), (1, True), (2, False), (550, False)):
            self.assertIs(Measures(1, 2 + gap, gap, 0, 0, 0, gap).best, best)

    def test_refusals_travel(self):
        refused = Refused(12, 4, "input", "words")
        again = pickle.loads(pickle.dumps(refused))
        self.assertEqual((again.number, again.place, again.source, again.words), (12, 4, "input", "words"))
        self.assertEqual(again, refused)
        self.assertEqual(hash(again), hash(refused))
        self.assertNotEqual(refused, Refused(12, 5, "input", "words"))
        self.assertEqual(str(refused), "refused 12 at 4 in input: words")
        self.assertEqual(refused.line, "refused 12 at 4 in input")


class Sheets(unittest.TestCase):
    def test_from_triples(self):
        self.assertEqual(Sheet.from_triples(iter(PAIRS)), TWO)
        self.assertEqual(Sheet.from_triples([(3, 1, 7), (1, 2, 0)]), Sheet(3, 2, ((3, 1, 7), (1, 2, 0))))
        self.assertEqual(Sheet.from_triples([(1, 1, 5)], rows=4, columns=6), Sheet(4, 6, ((1, 1, 5),)))
        self.assertEqual(Sheet.from_triples([]), Sheet(1, 1))
        self.assertEqual(Sheet.from_triples([(5, 2, 1)], one_sided=True), Sheet(5, 5, ((5, 2, 1),), True))
        for bad in ([(1, 1)], [(1, 1, 5, 6)]):
            with self.assertRaises(ValueError):
                Sheet.from_triples(bad)

    @unittest.skipIf(sparse is None, "SciPy is not there")
    def test_from_sparse(self):
        rows, columns, merits = [1, 0, 1, 0], [0, 1, 2, 0], [4, -3, 0, 5]
        matrix = sparse.coo_matrix((merits, (rows, columns)), shape=(2, 4))
        self.assertEqual(Sheet.from_sparse(matrix), Sheet(2, 4, ((2, 1, 4), (1, 2, -3), (2, 3, 0), (1, 1, 5))))
        for kind in ("csr", "csc", "lil", "dok", "bsr"):
            with self.subTest(kind=kind):
                sheet = Sheet.from_sparse(matrix.asformat(kind))
                self.assertEqual((sheet.rows, sheet.columns), (2, 4))
                kept = {pair for pair in sheet.pairs if pair[2]}
                self.assertEqual(kept, {(2, 1, 4), (1, 2, -3), (1, 1, 5)})
        self.assertEqual(Sheet.from_sparse(matrix.tocsr()).pairs, ((1, 1, 5), (1, 2, -3), (2, 1, 4), (2, 3, 0)))
        self.assertEqual(Sheet.from_sparse(sparse.coo_array(matrix)), Sheet.from_sparse(matrix))
        self.assertEqual(Sheet.from_sparse(matrix.astype(float)), Sheet.from_sparse(matrix))
        with self.assertRaises(TypeError):
            Sheet.from_sparse(sparse.coo_matrix(([1.5], ([0], [0])), shape=(1, 1)))
        twice = sparse.coo_matrix(([5, 5], ([0, 0], [0, 0])), shape=(1, 1))
        self.assertEqual(refusal(jangoripu.tidy, Sheet.from_sparse(twice)), (8, 2, "input"))

    @unittest.skipIf(sparse is None, "SciPy is not there")
    def test_from_sparse_one_sided(self):
        below = sparse.coo_matrix(([7, 0, 3], ([2, 1, 2], [0, 0, 1])), shape=(3, 3))
        wanted = Sheet(3, 3, ((3, 1, 7), (2, 1, 0), (3, 2, 3)), True)
        self.assertEqual(Sheet.from_sparse(below, one_sided=True), wanted)
        rows, columns, merits = below.row.tolist(), below.col.tolist(), below.data.tolist()
        both = sparse.coo_matrix((merits + merits, (rows + columns, columns + rows)), shape=(3, 3))
        self.assertEqual(Sheet.from_sparse(both, one_sided=True), wanted)
        other = sparse.coo_matrix(([7, 8], ([2, 0], [0, 2])), shape=(3, 3))
        with self.assertRaisesRegex(ValueError, "^not symmetric: row 1, column 3 is 8, and row 3, column 1 is not$"):
            Sheet.from_sparse(other, one_sided=True)
        with self.assertRaisesRegex(ValueError, "^not symmetric: "):  # above the diagonal alone
            Sheet.from_sparse(below.T, one_sided=True)
        with self.assertRaisesRegex(ValueError, "^a one-sided sheet has as many columns as rows$"):
            Sheet.from_sparse(sparse.coo_matrix((2, 3)), one_sided=True)
        looped = sparse.coo_matrix(([1], ([1], [1])), shape=(3, 3))
        self.assertEqual(refusal(jangoripu.tidy, Sheet.from_sparse(looped, one_sided=True)), (6, 1, "input"))

    def test_from_array_of_lists(self):
        for absent in (0, None, math.nan, -1):
            with self.subTest(absent=absent):
                cell = float("nan") if absent != absent else absent
                table = [[5, cell, 4], [cell, 1, cell]]
                self.assertEqual(Sheet.from_array(table, absent=absent), Sheet(2, 3, ((1, 1, 5), (1, 3, 4), (2, 2, 1))))
        self.assertEqual(Sheet.from_array([[0, 7]], absent=None), Sheet(1, 2, ((1, 1, 0), (1, 2, 7))))
        self.assertEqual(Sheet.from_array([(2.0, -3.0)], absent=0), Sheet(1, 2, ((1, 1, 2), (1, 2, -3))))
        self.assertEqual(Sheet.from_array([[None, None]], absent=None), Sheet(1, 2))
        with self.assertRaises(TypeError):
            Sheet.from_array([[5]])
        with self.assertRaises(TypeError):
            Sheet.from_array([[5]], 0)
        with self.assertRaises(TypeError):
            Sheet.from_array([[5, None]], absent=0)
        with self.assertRaisesRegex(ValueError, "^the rows differ in length$"):
            Sheet.from_array([[5, 1], [4]], absent=0)

    @unittest.skipIf(numpy is None, "numpy is not there")
    def test_from_array_of_numpy(self):
        whole = numpy.array([[5, 0], [-1, 4]])
        self.assertEqual(Sheet.from_array(whole, absent=0), Sheet(2, 2, ((1, 1, 5), (2, 1, -1), (2, 2, 4))))
        self.assertEqual(Sheet.from_array(whole, absent=-1), Sheet(2, 2, ((1, 1, 5), (1, 2, 0), (2, 2, 4))))
        self.assertEqual(Sheet.from_array(whole, absent=None), Sheet(2, 2, ((1, 1, 5), (1, 2, 0), (2, 1, -1), (2, 2, 4))))
        self.assertEqual(Sheet.from_array(whole.astype(numpy.int8), absent=numpy.int64(0)), Sheet.from_array(whole, absent=0))
        floats = numpy.array([[5.0, numpy.nan], [-1.0, 0.0]])
        self.assertEqual(Sheet.from_array(floats, absent=numpy.nan), Sheet(2, 2, ((1, 1, 5), (2, 1, -1), (2, 2, 0))))
        with self.assertRaises(TypeError):
            Sheet.from_array(floats, absent=0)  # nan is no merit
        with self.assertRaises(TypeError):
            Sheet.from_array(numpy.array([[0.5]]), absent=0)
        made = Sheet.from_array(whole, absent=0)
        self.assertTrue(all(type(number) is int for pair in made.pairs for number in pair))

    def test_from_array_one_sided(self):
        wanted = Sheet(3, 3, ((2, 1, 7), (3, 1, 0)), True)
        no = None
        self.assertEqual(Sheet.from_array([[no, no, no], [7, no, no], [0, no, no]], absent=no, one_sided=True), wanted)
        self.assertEqual(Sheet.from_array([[no, 7, 0], [7, no, no], [0, no, no]], absent=no, one_sided=True), wanted)
        with self.assertRaisesRegex(ValueError, "^not symmetric: row 1, column 2 is 8, "):
            Sheet.from_array([[no, 8], [7, no]], absent=no, one_sided=True)
        with self.assertRaisesRegex(ValueError, "^a one-sided sheet has as many columns as rows$"):
            Sheet.from_array([[no, 8]], absent=no, one_sided=True)

    def test_from_bytes(self):
        text = sheet_text(TWO)
        for same in (text, bytearray(text), memoryview(text), text.decode()):
            self.assertEqual(Sheet.from_bytes(same), TWO)
        self.assertEqual(Sheet.from_bytes(sheet_text(TRIANGLE)), TRIANGLE)
        self.assertEqual(refusal(Sheet.from_bytes, b""), (2, 1, "sheet.mtx"))
        self.assertEqual(refusal(Sheet.from_bytes, "%%MatrixMarket matrix coordinate integer general\n1 1 1\n1 1 \u0663\n"),
                         (5, 3, "sheet.mtx"))

    def test_texts_are_texts(self):
        for no_text in (5, 0, None, 1.5):
            with self.subTest(no_text=no_text), self.assertRaises(TypeError):
                Sheet.from_bytes(no_text)

    def test_from_path(self):
        with folder({"sheet.mtx": sheet_text(TWO), "bad.mtx": b"x"}) as place:
            path = os.path.join(place, "sheet.mtx")
            self.assertEqual(Sheet.from_path(path), TWO)
            self.assertEqual(Sheet.from_path(os.fsencode(path)), TWO)
            self.assertEqual(refusal(Sheet.from_path, os.path.join(place, "bad.mtx")), (2, 1, os.path.join(place, "bad.mtx")))
            with self.assertRaises(FileNotFoundError):
                Sheet.from_path(os.path.join(place, "absent.mtx"))
            with self.assertRaises(OSError):
                Sheet.from_path(place)
            os.mkfifo(os.path.join(place, "fifo"))
            with self.assertRaisesRegex(OSError, "is a FIFO, not a regular file"):
                Sheet.from_path(os.path.join(place, "fifo"))
            put(place, {"long.mtx": b" " * 40000})
            self.assertEqual(refusal(Sheet.from_path, os.path.join(place, "long.mtx"))[:2], (1, 0))


class WholeNumbers(unittest.TestCase):
    """Each place that takes a number takes a whole one of any sort, and no other."""

    PLACES = {
        "rows": lambda number: Sheet(number, 2).rows,
        "columns": lambda number: Sheet(2, number).columns,
        "row": lambda number: Sheet(3, 3, ((number, 1, 1),)).pairs[0][0],
        "column": lambda number: Sheet(3, 3, ((1, number, 1),)).pairs[0][1],
        "merit": lambda number: Sheet.from_triples([(1, 1, number)]).pairs[0][2],
        "mark": lambda number: Plan((number,)).marks[0],
        "fish of a group": lambda number: Group((number,)).fish[0],
        "pair of a group": lambda number: Group((1,), (number,)).pairs[0],
        "price of a group": lambda number: Group((1,), (), number).price,
        "price of a fish": lambda number: Prices((number,), ()).fish[0],
        "price of a pair": lambda number: Prices((), (number,)).pairs[0],
        "limit": lambda number: solve(TWO, (number, 3, 3, 3)) and int(number),
        "limit of a family": lambda number: price_tanks(TRIANGLE, (number, 3, 3)) and int(number),
        "index": lambda number: jangoripu.test_index(Sheet(1, 2, ((1, 1, 1), (1, 2, 1))), (0, 2, number, 4, 1, 2, 1, 2)) or int(number),
    }

    def test_whole(self):
        taken = [3, 3.0, Fraction(6, 2)]
        if numpy is not None:
            taken += [kind(3) for kind in (numpy.int8, numpy.uint8, numpy.int16, numpy.int32, numpy.uint32, numpy.int64, numpy.uint64,
                                           numpy.float32, numpy.float64)]
        for name, give in self.PLACES.items():
            for number in taken:
                with self.subTest(place=name, kind=type(number).__name__):
                    got = give(number)
                    self.assertEqual(got, 3)
                    self.assertIs(type(got), int)

    def test_not_whole(self):
        refused = [1.5, math.nan, math.inf, -math.inf, "3", b"3", None, 3j, Fraction(7, 2), [3]]
        if numpy is not None:
            refused += [numpy.float32(1.5), numpy.float64("nan"), numpy.array([3, 4])]
        for name, give in self.PLACES.items():
            for number in refused:
                with self.subTest(place=name, number=repr(number)), self.assertRaises(TypeError):
                    give(number)

    def test_words(self):
        with self.assertRaisesRegex(TypeError, r"^1\.5 is no whole number$"):
            Plan((1.5,))

    def test_truth_values_are_numbers(self):
        for number in (Plan((True,)).marks[0], Sheet(True, 2).rows, Sheet(1, 1, ((True, 1, 1),)).pairs[0][0]):
            self.assertIs(type(number), int)
        self.assertEqual(jangoripu.write_limits([True, 1]), jangoripu.write_limits([1, 1]))


class Kinds(unittest.TestCase):
    """What is passed in the place of a sheet, a plan or prices is told by what is needed."""

    def test_they_are_named(self):
        plan, prices = Plan((0,) * len(TWO.pairs)), Prices((0,) * TWO.fish, (0,) * len(TWO.pairs))
        for needed, call, passed in (("Sheet", solve, ([(1, 1, 2)], (1, 1))), ("Sheet", jangoripu.tidy, (b"x",)),
                                     ("Sheet", price_tanks, ([(2, 1, 2)], (1, 1))),
                                     ("Sheet", measure, (None, (1,), plan, prices)), ("Plan", measure, (TWO, (1,) * 4, [1, 0, 1, 0], prices)),
                                     ("Prices", measure, (TWO, (1,) * 4, plan, (0, 0))), ("Plan", jangoripu.write_plan, (TWO, [1]))):
            with self.subTest(call=call.__name__, needed=needed), self.assertRaisesRegex(TypeError, f"^a {needed} is needed, not a "):
                call(*passed)
        for call, passed in ((Prices, ((), (), "ab")), (jangoripu.mark_class, ("examples",)), (jangoripu.write_sheet, (TWO, "ab"))):
            with self.subTest(call=call.__name__), self.assertRaises(TypeError):
                call(*passed)
        with self.assertRaises(TypeError):
            Sheet.from_array([1, 2], absent=0)
        with self.assertRaises(ValueError):
            jangoripu.write_sheet(TWO, ["a\n1 1 7"])

    def test_numbers_from_1(self):
        for number in (0, -1, len(TWO.pairs) + 1):
            with self.assertRaises(IndexError):
                TWO.pair_name(number)
        for number in (0, -1, TWO.fish + 1):
            with self.assertRaises(IndexError):
                TWO.fish_name(number)


class NeverWrap(unittest.TestCase):
    """A number that a C type does not hold is refused at its place, and never taken as another."""

    GREAT = (2**31, 2**32, 2**32 + 1, 2**64 + 1, 10**30)
    SMALL = (-2**40, -10**30)
    ALL = GREAT + (-1,) + SMALL
    FISH, PAIRS = (5, 5, 5, 5), (0, 0, 0, 0)

    def put(self, numbers, place, value):
        return tuple(value if number == place else old for number, old in enumerate(numbers))

    def each(self, values, places):
        return [(value, place) for value in values for place in range(places)]

    def refused(self, wanted, call, *passed):
        self.assertEqual(refusal(call, *passed), wanted, f"{call.__name__}{passed}")

    def test_sizes(self):
        for value in self.ALL + (0, 65):
            for sheet in (Sheet(value, 2, PAIRS), Sheet(2, value, PAIRS), Sheet(value, value, PAIRS), Sheet(value, 2), Sheet(2, value),
                          Sheet(value, 2, (), True), Sheet(2, value, (), True)):
                with self.subTest(sheet=sheet):
                    for call in (jangoripu.tidy, jangoripu.write_sheet, jangoripu.build_index):
                        self.refused((4, 0, "input"), call, sheet)
                    self.refused((4, 0, "input"), jangoripu.read_plan, plan_text(TWO, Plan((0, 0, 0, 0))), sheet)
                    self.refused((4, 0, "input"), jangoripu.write_plan, sheet, Plan((0,) * len(sheet.pairs)))
                    self.assertIn(refusal(solve, sheet, ONES), ((4, 0, "input"), (9, 0, "input")))
                    self.assertIn(refusal(price_tanks, sheet, ONES), ((4, 0, "input"), (9, 0, "input")))
                    self.assertIn(refusal(jangoripu.to_dimacs, sheet, ONES), ((4, 0, "input"), (9, 0, "input")))
        for value in self.ALL + (0, 129):
            self.refused((4, 0, "input"), jangoripu.tidy, Sheet(value, value, (), True))

    def test_sizes_that_add_up_to_few_fish(self):
        for rows, columns in ((-1, 3), (2**40, 4 - 2**40), (-2**32, 2**32 + 4), (2**64, -2**64)):
            with self.subTest(rows=rows, columns=columns):
                for call in (jangoripu.tidy, jangoripu.build_index):
                    self.refused((4, 0, "input"), call, Sheet(rows, columns))

    def test_too_many_pairs(self):
        many = Sheet(64, 64, tuple((row, column, 1) for row in range(1, 65) for column in range(1, 65))[:1025])
        for call in (jangoripu.tidy, jangoripu.write_sheet, jangoripu.build_index):
            self.refused((4, 0, "input"), call, many)
        self.refused((4, 0, "input"), solve, many, (1,) * 128)
        self.refused((4, 0, "input"), price_tanks, many, (1,) * 128)

    def test_ends(self):
        for value, place in self.each(self.ALL + (0, 3), 4):
            for side in (0, 1):
                pairs = self.put(PAIRS, place, self.put(PAIRS[place], side, value))
                sheet = Sheet(2, 2, pairs)
                for call, passed in ((jangoripu.tidy, ()), (jangoripu.build_index, ()), (solve, (ONES,)), (jangoripu.to_dimacs, (ONES,)),
                                     (price_tanks, (ONES,)), (jangoripu.write_plan, (Plan(self.PAIRS),)),
                                     (measure, (ONES, Plan(self.PAIRS), Prices(self.FISH, self.PAIRS)))):
                    self.refused((6, place + 1, "input"), call, sheet, *passed)

    def test_merits(self):
        for value, place in self.each(self.GREAT + self.SMALL + (1000001, -1000001), 4):
            sheet = Sheet(2, 2, self.put(PAIRS, place, self.put(PAIRS[place], 2, value)))
            for call, passed in ((jangoripu.tidy, ()), (jangoripu.write_sheet, ()), (jangoripu.build_index, ()), (solve, (ONES,)),
                                 (jangoripu.to_dimacs, (ONES,)), (price_tanks, (ONES,)), (jangoripu.write_plan, (Plan(self.PAIRS),)),
                                 (measure, (ONES, Plan(self.PAIRS), Prices(self.FISH, self.PAIRS)))):
                self.refused((7, place + 1, "input"), call, sheet, *passed)

    def test_limits(self):
        for value, place in self.each(self.ALL + (65,), 4):
            limits = self.put(ONES, place, value)
            self.refused((10, place + 1, "input"), solve, TWO, limits)
            self.refused((10, place + 1, "input"), jangoripu.to_dimacs, TWO, limits)
            self.refused((10, place + 1, "input"), price_tanks, TWO, limits)
            self.refused((10, place + 1, "input"), measure, TWO, limits, Plan(self.PAIRS), Prices(self.FISH, self.PAIRS))

    def test_written_limits(self):
        for value, place in self.each(self.ALL + (65,), 4):
            told = refusal(jangoripu.write_limits, self.put(ONES, place, value))
            self.assertIn(told, ((10, place + 1, "input"), (10, place + 3, "limits.mtx")), value)

    def test_marks(self):
        for value, place in self.each(self.ALL + (2, 255, 256, 257), 4):
            plan = Plan(self.put(self.PAIRS, place, value))
            self.refused((11, place + 1, "input"), jangoripu.write_plan, TWO, plan)
            self.refused((11, place + 1, "input"), measure, TWO, ONES, plan, Prices(self.FISH, self.PAIRS))

    def test_prices(self):
        group = Group((1, 2, 3), (), 2)
        plan = Plan(self.PAIRS)
        for value, place in self.each(self.ALL + (4000001,), 4):
            prices = Prices(self.put(self.FISH, place, value), self.PAIRS)
            self.refused((13, place + 1, "input"), measure, TWO, ONES, plan, prices)
            prices = Prices(self.FISH, self.put(self.PAIRS, place, value))
            self.refused((13, 4 + place + 1, "input"), measure, TWO, ONES, plan, prices)
            groups = tuple(Group((1, 2, 3), (), value) if number == place else group for number in range(4))
            self.refused((13, 8 + place + 1, "input"), measure, TWO, ONES, plan, Prices(self.FISH, self.PAIRS, groups))

    def test_written_prices(self):
        for value, place in self.each(self.ALL + (4000001,), 4):
            told = refusal(jangoripu.write_prices, Prices(self.put(self.FISH, place, value), self.PAIRS))
            self.assertIn(told, ((13, place + 1, "input"), (13, place + 3, "prices.mtx")), value)

    def test_groups(self):
        plan, good = Plan(self.PAIRS), Group((1,), (), 0)
        for value, place in self.each(self.ALL + (0, 5, 64, 65, 128, 129), 3):
            bad = Group((1, value, 2), (), 0)
            groups = tuple(bad if number == place else good for number in range(3))
            self.refused((14, place + 1, "input"), measure, TWO, ONES, plan, Prices(self.FISH, self.PAIRS, groups))
            bad = Group((1, 2), (value,), 0)
            groups = tuple(bad if number == place else good for number in range(3))
            self.refused((14, place + 1, "input"), measure, TWO, ONES, plan, Prices(self.FISH, self.PAIRS, groups))
        self.assertEqual(measure(TWO, ONES, plan, Prices(self.FISH, self.PAIRS, (good,) * 16)).gap, 20)
        for many in (17, 300):
            self.refused((14, 17, "input"), measure, TWO, ONES, plan, Prices(self.FISH, self.PAIRS, (good,) * many))

    def test_index(self):
        sheet = Sheet(2, 2, PAIRS[:2])  # dam 2 has no pair, so an offset stands there twice
        index = jangoripu.build_index(sheet)
        self.assertEqual(index, (0, 2, 2, 3, 4, 1, 2, 1, 2))
        for value, place in self.each(self.ALL + (2**32 + 2, 2**32 - 1), len(index)):
            bad = self.put(index, place, value)
            self.refused((18, place + 1, "input"), jangoripu.test_index, sheet, bad)
            self.refused((18, place + 1, "input"), solve, sheet, ONES, bad)
        self.assertEqual(solve(sheet, ONES, index), solve(sheet, ONES))

    def test_lengths(self):
        prices, plan = Prices(self.FISH, self.PAIRS), Plan(self.PAIRS)
        for short in (ONES[:3], ONES + (1,), ()):
            for call, passed in ((solve, (short,)), (jangoripu.to_dimacs, (short,)), (price_tanks, (short,)), (measure, (short, plan, prices)),
                                 (measure, (ONES, Plan(short), prices)), (jangoripu.write_plan, (Plan(short),)),
                                 (measure, (ONES, plan, Prices(short, self.PAIRS))), (measure, (ONES, plan, Prices(self.FISH, short))),
                                 (jangoripu.test_index, (short,)), (solve, (ONES, short))):
                with self.subTest(call=call.__name__, passed=passed):
                    self.refused((9, 0, "input"), call, TWO, *passed)

    def test_counts_of_texts(self):
        for call in (jangoripu.write_limits, lambda numbers: jangoripu.write_prices(Prices(numbers, ()))):
            for numbers in ((), (1,) * 1153, (1,) * 5000):
                self.refused((4, 0, "input"), call, numbers)
        for rows in self.ALL:
            sheet = Sheet(rows, 1)
            for call in (jangoripu.read_limits, jangoripu.read_prices):
                if sheet.fish > 1152:
                    self.refused((4, 0, "input"), call, numbers_text(ONES), sheet)
        for call in (jangoripu.read_limits, jangoripu.read_prices):
            self.refused((4, 0, "input"), call, numbers_text(ONES), Sheet(-1, -1))

    def test_texts(self):
        header = "%%MatrixMarket matrix coordinate integer general\n"
        for value in self.GREAT + self.SMALL:
            self.refused((3, 2, "sheet.mtx"), jangoripu.read_sheet, f"{header}{value} 1 0\n")
            for line in (f"{value} 1 1", f"1 {value} 1", f"1 1 {value}"):
                self.refused((5, 3, "sheet.mtx"), jangoripu.read_sheet, f"{header}1 1 1\n{line}\n")
            self.refused((5, 4, "limits.mtx"), jangoripu.read_limits, numbers_text((1, value, 1, 1)), TWO)
            self.refused((5, 4, "prices.mtx"), jangoripu.read_prices, numbers_text((1, value, 1, 1) * 2), TWO)


def drawn(seed, times, one_sided=None):
    """Drawn sheets of either sort, with limits."""
    draw = random.Random(seed)
    for number in range(times):
        general = number % 2 == 1 if one_sided is None else one_sided
        sides = draw.choice((1, 2, 3, 5, 8)), draw.choice((1, 2, 4, 7))
        span = draw.choice((1, 3, 40, 1000000))
        sheet = draw_sheet(draw, *sides, draw.randint(0, 25), general, -span, span)
        yield draw, sheet, draw_limits(draw, sheet)


class Texts(unittest.TestCase):
    def test_there_and_back(self):
        count = 0
        for draw, sheet, limits in drawn(30, 300):
            plan, prices = draw_plan(draw, sheet, limits), draw_prices(draw, sheet, limits)
            with self.subTest(sheet=sheet):
                for written, text in ((jangoripu.write_sheet(sheet), sheet_text(sheet)),
                                      (jangoripu.write_limits(limits), numbers_text(limits)),
                                      (jangoripu.write_plan(sheet, plan), plan_text(sheet, plan)),
                                      (jangoripu.write_prices(prices), prices_text(prices))):
                    self.assertEqual(written, text)
                    self.assertIs(type(written), bytes)
                self.assertEqual(jangoripu.read_sheet(sheet_text(sheet)), sheet)
                self.assertEqual(jangoripu.read_limits(numbers_text(limits), sheet), limits)
                self.assertEqual(jangoripu.read_plan(plan_text(sheet, plan), sheet), plan)
                self.assertEqual(jangoripu.read_prices(prices_text(prices), sheet), prices)
                ordered = Sheet(sheet.rows, sheet.columns, tuple(sorted(sheet.pairs)), sheet.one_sided)
                self.assertEqual(jangoripu.tidy(sheet), sheet_text(ordered))
                count += 1
        self.assertEqual(count, 300)

    def test_dimacs_there_and_back(self):
        for _, sheet, _ in drawn(31, 150, False):
            with self.subTest(sheet=sheet):
                ones = (1,) * sheet.fish
                lines = [f"p asn {sheet.fish} {len(sheet.pairs)}", *(f"n {dam}" for dam in range(1, sheet.rows + 1)),
                         *(f"a {row} {sheet.rows + column} {-merit}" for row, column, merit in sheet.pairs)]
                text = "".join(f"{line}\n" for line in lines).encode()
                self.assertEqual(jangoripu.to_dimacs(sheet, ones), text)
                self.assertEqual(jangoripu.from_dimacs(text), (sheet, ones))

    def test_full(self):
        sheet, limits = full_sheet()
        solution = solve(sheet, limits)
        self.assertEqual(jangoripu.read_sheet(jangoripu.write_sheet(sheet)), sheet)
        self.assertEqual(jangoripu.read_limits(jangoripu.write_limits(limits), sheet), limits)
        self.assertEqual(jangoripu.read_plan(jangoripu.write_plan(sheet, solution.plan), sheet), solution.plan)
        self.assertEqual(jangoripu.read_prices(jangoripu.write_prices(solution.prices), sheet), solution.prices)
        general = draw_sheet(random.Random(5), 128, 128, 1024, True)
        self.assertEqual(len(general.pairs), 1024)
        self.assertEqual(jangoripu.read_sheet(jangoripu.write_sheet(general)), general)

    def test_comments(self):
        text = jangoripu.write_sheet(TWO, ["dam 1: Ada", "sire 2: Bj\u00f6rn"])
        lines = text.decode().split("\n")
        self.assertEqual(lines[1:3], ["% dam 1: Ada", "% sire 2: Bj\u00f6rn"])
        self.assertEqual(lines[:1] + lines[3:], sheet_text(TWO).decode().split("\n"))
        with self.assertRaises((ValueError, Refused)):  # a comment that would be a pair
            jangoripu.write_sheet(Sheet(1, 1), ["x\n1 1 1\n1 1 5"])

    def test_no_groups_in_a_text(self):
        with self.assertRaisesRegex(ValueError, "^a price text has no groups$"):
            jangoripu.write_prices(Prices((1, 1, 1), (0, 0, 0), (Group((1, 2, 3)),)))

    def test_sources(self):
        self.assertEqual(refusal(jangoripu.read_sheet, b"x", source="a.mtx"), (2, 1, "a.mtx"))
        self.assertEqual(refusal(jangoripu.read_limits, b"x", TWO, source="b.mtx"), (2, 1, "b.mtx"))
        self.assertEqual(refusal(jangoripu.read_plan, b"x", TWO, source="c.mtx"), (2, 1, "c.mtx"))
        self.assertEqual(refusal(jangoripu.read_prices, b"x", TWO, source="d.mtx"), (2, 1, "d.mtx"))
        self.assertEqual(refusal(jangoripu.from_dimacs, b"x", source="e.asn"), (20, 1, "e.asn"))


def examples(*names):
    """The folders of examples that have these files."""
    return sorted(place for place, _, files in os.walk(EXAMPLES) if set(names) <= set(files))


def line_of(call):
    """What a call gives, or the line that the programs write of its refusal."""
    try:
        return call()
    except Refused as refused:
        return f"{refused.line}\n".encode()


class Programs(unittest.TestCase):
    """Byte equality with the proved programs on all examples."""

    def folders(self, least, *names):
        found = examples(*names)
        self.assertGreaterEqual(len(found), least)
        for place in found:
            yield os.path.relpath(place, ROOT), {name: read(place, name) for name in names}

    def test_solve(self):
        for name, files in self.folders(9, "sheet.mtx", "limits.mtx"):
            with self.subTest(example=name):
                def solved():
                    sheet = jangoripu.read_sheet(files["sheet.mtx"])
                    return jangoripu.write_plan(sheet, solve(sheet, jangoripu.read_limits(files["limits.mtx"], sheet)).plan)
                self.assertEqual(line_of(solved), program("solve", files))

    def test_price_tanks(self):
        went = 0
        for name, files in self.folders(9, "sheet.mtx", "limits.mtx"):
            with self.subTest(example=name):
                def priced():
                    sheet = jangoripu.read_sheet(files["sheet.mtx"])
                    return jangoripu.write_prices(price_tanks(sheet, jangoripu.read_limits(files["limits.mtx"], sheet)))
                self.assertEqual(line_of(priced), program("price_tanks", files))
                went += line_of(priced).startswith(b"%%MatrixMarket ")
        self.assertGreaterEqual(went, 2)

    def test_mark(self):
        for name, files in self.folders(8, "sheet.mtx", "limits.mtx", "plan.mtx", "prices.mtx"):
            with self.subTest(example=name):
                def marked():
                    sheet = jangoripu.read_sheet(files["sheet.mtx"])
                    limits, plan = jangoripu.read_limits(files["limits.mtx"], sheet), jangoripu.read_plan(files["plan.mtx"], sheet)
                    return f"{measure(sheet, limits, plan, jangoripu.read_prices(files['prices.mtx'], sheet)).line}\n".encode()
                self.assertEqual(line_of(marked), program("mark", files))

    def test_tidy(self):
        for name, files in self.folders(11, "sheet.mtx"):
            with self.subTest(example=name):
                self.assertEqual(line_of(lambda: jangoripu.tidy(jangoripu.read_sheet(files["sheet.mtx"]))), program("tidy", files))

    def test_to_dimacs(self):
        went = 0
        for name, files in self.folders(9, "sheet.mtx", "limits.mtx"):
            with self.subTest(example=name):
                def out():
                    sheet = jangoripu.read_sheet(files["sheet.mtx"])
                    return jangoripu.to_dimacs(sheet, jangoripu.read_limits(files["limits.mtx"], sheet))
                self.assertEqual(line_of(out), program("to_dimacs", files))
                went += line_of(out).startswith(b"p asn ")
        self.assertGreaterEqual(went, 1)

    def test_from_dimacs(self):
        found = [name for name in sorted(os.listdir(os.path.join(EXAMPLES, "dimacs"))) if name.endswith(".asn")]
        self.assertGreaterEqual(len(found), 2)
        for name in found:
            with self.subTest(name=name):
                text = read(EXAMPLES, "dimacs", name)
                sheet, limits = jangoripu.from_dimacs(text)
                self.assertEqual(jangoripu.write_sheet(sheet), program("from_dimacs", {"crosses.asn": text}))
                self.assertEqual(limits, (1,) * (sheet.rows + sheet.columns))

    def test_written_texts_are_taken(self):
        """What the module writes of each example, the program mark takes, and tells the measures of."""
        for name, files in self.folders(9, "sheet.mtx", "limits.mtx"):
            with self.subTest(example=name):
                sheet = jangoripu.read_sheet(files["sheet.mtx"])
                if sheet.one_sided:
                    continue
                limits = jangoripu.read_limits(files["limits.mtx"], sheet)
                solution = solve(sheet, limits)
                written = {"sheet.mtx": jangoripu.write_sheet(sheet), "limits.mtx": jangoripu.write_limits(limits),
                           "plan.mtx": jangoripu.write_plan(sheet, solution.plan), "prices.mtx": jangoripu.write_prices(solution.prices)}
                line = f"merit {solution.merit} total {2 * solution.merit} fish 0 groups 0 pairs 0 cover 0 gap 0\n"
                self.assertEqual(program("mark", written), line.encode())


class Groups(unittest.TestCase):
    def test_tank(self):
        place = os.path.join(EXAMPLES, "tank")
        sheet = Sheet.from_path(os.path.join(place, "sheet.mtx"))
        limits = jangoripu.read_limits(read(place, "limits.mtx"), sheet)
        plan = jangoripu.read_plan(read(place, "plan.mtx"), sheet)
        prices = Prices((0, 0, 4, 8, 0), (0,) * 5, (Group((1, 2, 3), (), 20),))
        self.assertEqual(measure(sheet, limits, plan, prices), Measures(16, 32, 0, 0, 0, 0, 0))
        self.assertEqual(largest(sheet, limits), 16)
        alone = measure(sheet, limits, plan, Prices((10, 10, 10, 8, 0), (0,) * 5))
        self.assertEqual((alone.total, alone.gap, alone.best), (38, 6, False))

    def test_triangle(self):
        place = os.path.join(EXAMPLES, "triangle")
        sheet = Sheet.from_path(os.path.join(place, "sheet.mtx"))
        self.assertEqual(sheet, TRIANGLE)
        plan = jangoripu.read_plan(read(place, "plan.mtx"), sheet)
        prices = jangoripu.read_prices(read(place, "prices.mtx"), sheet)
        half = measure(sheet, (1, 1, 1), plan, prices)
        self.assertEqual((half, half.best), (Measures(1, 3, 1, 0, 0, 0, 1), True))

    def test_case_6(self):
        prices = Prices((0, 0, 0), (0, 0, 0), (Group((1, 2, 3), (), 2),))
        for plan in ((1, 0, 0), (0, 1, 0), (0, 0, 1)):
            self.assertEqual(measure(TRIANGLE, (1, 1, 1), Plan(plan), prices), Measures(1, 2, 0, 0, 0, 0, 0))

    def test_case_7(self):
        got = measure(TRIANGLE, (1, 1, 1), Plan((1, 0, 0)), Prices((2, 2, 0), (0, 0, 0)))
        self.assertEqual((got, got.best), (Measures(1, 4, 0, 0, 0, 2, 2), False))
        self.assertEqual(largest(TRIANGLE, (1, 1, 1)), 1)

    def test_case_10(self):
        sheet = Sheet(2, 2, ((2, 1, 1),), True)
        self.assertEqual(refusal(measure, sheet, (1, 1), Plan((1,)), Prices((2, 0), (0,), (Group((1, 2)),))), (14, 1, "input"))

    def test_case_11(self):
        sheet = Sheet(1, 3, ((1, 1, 1), (1, 2, 1), (1, 3, 1)))
        prices = Prices((0, 0, 0, 0), (0, 0, 0), (Group((1,), (1, 2, 3), 2),))
        for plan in ((1, 1, 0), (1, 0, 1), (0, 1, 1)):
            self.assertEqual(measure(sheet, (2, 1, 1, 1), Plan(plan), prices), Measures(2, 4, 0, 0, 0, 0, 0))

    def test_case_12(self):
        sheet = Sheet(1, 2, ((1, 1, 5), (1, 2, 3)))
        self.assertEqual(measure(sheet, (2, 1, 1), Plan((1, 1)), Prices((6, 0, 0), (4, 0))), Measures(8, 16, 0, 0, 0, 0, 0))

    def test_last_bits(self):
        """A group of the last fish and with the last pair of a full one-sided sheet."""
        draw = random.Random(12)
        sheet = draw_sheet(draw, 128, 128, 1024, True, 0, 0)
        limits = (1,) * 128
        for pair in (64, 65, 1023, 1024):
            for fish in {end for end in sheet.ends(pair)} | {128}:
                marked = (pair,) if fish in sheet.ends(pair) else ()
                group = Group((fish,), marked, 1)
                prices = Prices((0,) * 128, (0,) * 1024, (group,))
                if marked:
                    self.assertEqual(refusal(measure, sheet, limits, Plan((0,) * 1024), prices), (14, 1, "input"))  # 1 + 1 is even
                    limits_2 = tuple(2 if one == fish else 1 for one in range(1, 129))
                    got = measure(sheet, limits_2, Plan((0,) * 1024), prices)
                    self.assertEqual((got.total, got.groups), (1, 1))
                else:
                    self.assertEqual(measure(sheet, limits, Plan((0,) * 1024), prices).total, 0)

    def test_order_and_repeats(self):
        """A group is a set: order and repeats of its fish and pairs make no difference."""
        sheet, limits = Sheet(1, 3, ((1, 1, 1), (1, 2, 1), (1, 3, 1))), (2, 1, 1, 1)
        groups = (Group((1,), (1, 2, 3), 2), Group((1, 1), (3, 2, 1, 1, 3), 2))
        told = {measure(sheet, limits, Plan((1, 1, 0)), Prices((0,) * 4, (0,) * 3, (group,))) for group in groups}
        self.assertEqual(told, {Measures(2, 4, 0, 0, 0, 0, 0)})


class Solving(unittest.TestCase):
    def test_measures(self):
        gaps, with_groups = set(), 0
        for draw, sheet, limits in drawn(32, 600):
            plan, prices = draw_plan(draw, sheet, limits), draw_prices(draw, sheet, limits, draw.choice((0, 1, 3, 16)))
            with self.subTest(sheet=sheet, limits=limits, plan=plan, prices=prices):
                wanted = measured(sheet, limits, plan, prices)
                got = measure(sheet, limits, plan, prices)
                self.assertEqual(got, wanted)
                self.assertEqual(got.line, "merit %d total %d fish %d groups %d pairs %d cover %d gap %d" % dataclasses.astuple(wanted))
                gaps.add(got.gap)
                with_groups += got.groups > 0
        self.assertGreater(len(gaps), 200)
        self.assertGreater(with_groups, 50)

    def test_reach(self):
        for draw, sheet, limits in drawn(33, 100):
            prices = draw_prices(draw, sheet, limits, 3)
            for pair in range(1, len(sheet.pairs) + 1):
                self.assertEqual(prices.reach(sheet, pair), reach(sheet, prices, pair - 1))

    def test_every_plan(self):
        draw = random.Random(34)
        merits = set()
        for _ in range(150):
            span = draw.choice((1, 2, 9, 1000000))
            sheet = draw_sheet(draw, draw.randint(1, 4), draw.randint(1, 4), draw.randint(0, 10), False, -span, span)
            limits = draw_limits(draw, sheet, draw.choice((1, 2, 4)))
            with self.subTest(sheet=sheet, limits=limits):
                solution = solve(sheet, limits)
                self.assertEqual(solution.merit, largest(sheet, limits))
                self.assertEqual(measured(sheet, limits, solution.plan, solution.prices),
                                 Measures(solution.merit, 2 * solution.merit, 0, 0, 0, 0, 0))
                self.assertEqual(solution.prices.groups, ())
                self.assertTrue(all(price % 2 == 0 and 0 <= price <= 2000000 for price in solution.prices.fish + solution.prices.pairs))
                merits.add(solution.merit)
        self.assertGreater(len(merits), 20)

    def test_table(self):
        self.assertEqual(solve(Sheet(1, 1), (0, 0)).merit, 0)  # case 1
        self.assertEqual(solve(TWO, ONES).plan.ends(TWO), ((1, 2), (2, 1)))  # case 2
        self.assertEqual(measure(TWO, ONES, Plan((1, 0, 0, 1)), Prices((4, 2, 6, 4), (0,) * 4)), Measures(6, 16, 0, 0, 0, 4, 4))  # case 3
        self.assertEqual(solve(Sheet(1, 1, ((1, 1, -3),)), (1, 1)).plan, Plan((0,)))  # case 4
        seven = Sheet(1, 1, ((1, 1, 7),))
        self.assertEqual(solve(seven, (0, 5)).merit, 0)  # case 5
        self.assertEqual(measure(seven, (0, 5), Plan((0,)), Prices((14, 0), (0,))).gap, 0)
        self.assertEqual(solve(Sheet(1, 1, ((1, 1, 1000000),)), (64, 64)).merit, 1000000)  # cases 8 and 9


class Tanks(unittest.TestCase):
    """Prices of one-sided sheets. Which prices come out is free, so they are held to what they must be."""

    def total(self, sheet, limits):
        return total_of(sheet, limits, price_tanks(sheet, limits))

    def example(self, name):
        place = os.path.join(EXAMPLES, name)
        sheet = Sheet.from_path(os.path.join(place, "sheet.mtx"))
        return sheet, jangoripu.read_limits(read(place, "limits.mtx"), sheet), jangoripu.read_plan(read(place, "plan.mtx"), sheet)

    def test_examples(self):
        for name, merit, total, gap in (("tank", 16, 38, 6), ("triangle", 1, 3, 1)):
            sheet, limits, plan = self.example(name)
            told = measure(sheet, limits, plan, price_tanks(sheet, limits))
            self.assertEqual((told.merit, told.total, told.gap, told.best), (merit, total, gap, gap < 2))
            self.assertEqual(largest(sheet, limits), merit)

    def test_two_triangles(self):
        """A best plan with a gap of 2, which groups close."""
        pairs = tuple((row + more, column + more, 1) for more in (0, 3) for row, column, _ in TRIANGLE.pairs)
        sheet, limits = Sheet(6, 6, pairs, True), (1,) * 6
        best = Plan.of(sheet, [(2, 1), (5, 4)])
        told = measure(sheet, limits, best, price_tanks(sheet, limits))
        self.assertEqual((told.merit, told.total, told.gap, told.best), (2, 6, 2, False))
        self.assertEqual(largest(sheet, limits), 2)
        groups = (Group((1, 2, 3), (), 2), Group((4, 5, 6), (), 2))
        self.assertEqual(measure(sheet, limits, best, Prices((0,) * 6, (0,) * 6, groups)).gap, 0)

    def test_every_plan(self):
        """The total is the largest merit of the doubled sheet, and never less than twice that of the sheet itself."""
        draw, gaps = random.Random(35), set()
        for _ in range(200):
            span = draw.choice((1, 2, 9, 1000000))
            sheet = draw_sheet(draw, draw.randint(1, 5), 0, draw.choice((0, 1, 3, 4, 5)), True, draw.choice((-span, 0)), span)
            limits = draw_limits(draw, sheet, draw.choice((1, 2, 4))) if draw.random() < 0.4 else (1,) * sheet.fish
            with self.subTest(sheet=sheet, limits=limits):
                total, best = self.total(sheet, limits), largest(sheet, limits)
                self.assertEqual(total, largest(*doubled(sheet, limits)))
                self.assertGreaterEqual(total, 2 * best)
                plan, prices = draw_plan(draw, sheet, limits), price_tanks(sheet, limits)
                told = measure(sheet, limits, plan, prices)
                self.assertEqual(told, measured(sheet, limits, plan, prices))
                self.assertGreaterEqual(told.gap, 2 * (best - told.merit))
                gaps.add(total - 2 * best)
        self.assertTrue({0, 1} < gaps, gaps)

    def test_sizes(self):
        """Up to 64 families and 512 pairs; one more is refused."""
        draw = random.Random(36)
        for families, pairs in ((64, 512), (33, 512), (64, 0), (1, 0)):
            sheet = draw_sheet(draw, families, 0, pairs, True)
            self.assertEqual(len(sheet.pairs), pairs)
            for limits in (draw_limits(draw, sheet), (1,) * families, (64,) * families, (0,) * families):
                self.assertEqual(self.total(sheet, limits), solve(*doubled(sheet, limits)).merit)
        for families, pairs in ((65, 512), (65, 0), (128, 1024), (64, 513), (33, 513)):
            sheet = draw_sheet(draw, families, 0, pairs, True)
            self.assertEqual(len(sheet.pairs), pairs)
            self.assertEqual(refusal(price_tanks, sheet, (1,) * families), (24, 0, "input"))

    def test_greatest(self):
        """Prices reach 2,000,000 half points, and no more."""
        sheet = Sheet(2, 2, ((2, 1, 1000000),), True)
        self.assertEqual(self.total(sheet, (1, 1)), 2000000)
        self.assertEqual(price_tanks(sheet, (64, 64)), Prices((0, 0), (2000000,)))
        self.assertEqual(self.total(Sheet(2, 2, ((2, 1, -1000000),), True), (64, 64)), 0)


class Threads(unittest.TestCase):
    def test_at_once(self):
        """Eight threads, each with sheets of its own, get what one thread gets."""
        work = []
        for seed in range(8):
            draw = random.Random(seed)
            own = []
            for number in range(12):
                side = draw.choice((3, 20, 64))
                sheet = draw_sheet(draw, side, draw.randint(1, 64), 16 * side)
                limits = draw_limits(draw, sheet)
                plan, prices = draw_plan(draw, sheet, limits), draw_prices(draw, sheet, limits, greatest=1000000)
                tank = draw_sheet(draw, side, side, 8 * side, True)
                own.append((sheet, limits, plan, prices if number % 4 else Prices((0,) * sheet.fish, (0,) * len(sheet.pairs)), tank))
            work.append(own)

        def done(own):
            told = []
            for sheet, limits, plan, prices, tank in own:
                text = jangoripu.write_plan(sheet, plan)
                told.append((solve(sheet, limits), jangoripu.tidy(sheet), jangoripu.read_plan(text, sheet)))
                told.append(price_tanks(tank, (1,) * tank.fish))
                try:
                    told.append(measure(sheet, limits, plan, prices))
                except Refused as refused:
                    told.append(str(refused))
            return told

        alone = [done(own) for own in work]
        self.assertTrue(any(isinstance(one, str) for one in alone[0]))
        self.assertEqual(len({str(one) for one in alone}), 8)
        got, start = [None] * 8, threading.Barrier(8)

        def one(number):
            start.wait()
            got[number] = [done(work[number]) for _ in range(2)]

        threads = [threading.Thread(target=one, args=(number,)) for number in range(8)]
        for thread in threads:
            thread.start()
        for thread in threads:
            thread.join()
        self.assertEqual(got, [[own, own] for own in alone])

    def test_one_sheet(self):
        """Eight threads with the same sheet, which none has used before."""
        sheet, limits = full_sheet(8)
        wanted = solve(*full_sheet(8))
        got, start = [None] * 8, threading.Barrier(8)

        def one(number):
            start.wait()
            got[number] = [solve(sheet, limits) for _ in range(3)]

        threads = [threading.Thread(target=one, args=(number,)) for number in range(8)]
        for thread in threads:
            thread.start()
        for thread in threads:
            thread.join()
        self.assertEqual(got, [[wanted] * 3] * 8)


class Package(unittest.TestCase):
    def test_import_time(self):
        code = ("import sys, time; sys.path.insert(0, sys.argv[1]); start = time.perf_counter(); import jangoripu; "
                "print(time.perf_counter() - start, 'numpy' in sys.modules or 'scipy' in sys.modules)")
        times = []
        for _ in range(5):
            ran = run([sys.executable, "-I", "-B", "-c", code, os.path.dirname(PACKAGE)])
            self.assertEqual((ran.status, ran.err), (0, b""))
            taken, others = ran.out.split()
            self.assertEqual(others, b"False")
            times.append(float(taken))
        self.assertLess(min(times), 0.2)

    def test_python_3_9(self):
        self.assertIn("__init__.py", FILES)
        for name in FILES:
            with self.subTest(file=name):
                self.assertTrue(ast.parse(read(PACKAGE, name), name, feature_version=(3, 9)).body)
        launch = ast.parse(read(ROOT, "python", "launch"), "launch", feature_version=(3, 9))
        self.assertTrue(launch.body)

    def test_standard_library_only(self):
        names = set()
        for file in FILES:
            for node in ast.walk(ast.parse(read(PACKAGE, file), file)):
                if isinstance(node, ast.Import):
                    names |= {alias.name.split(".")[0] for alias in node.names}
                elif isinstance(node, ast.ImportFrom) and not node.level:
                    names.add(node.module.split(".")[0])
        self.assertIn("ctypes", names)
        for name in names:
            with self.subTest(imports=name):
                if hasattr(sys, "stdlib_module_names"):
                    self.assertIn(name, sys.stdlib_module_names)
                else:
                    origin = importlib.util.find_spec(name).origin
                    library = os.path.dirname(os.__file__)
                    self.assertTrue(origin in ("built-in", "frozen") or library in origin and "-packages" not in origin)

    def test_hints_and_docstrings(self):
        checked = 0
        for name in jangoripu.__all__:
            public = getattr(jangoripu, name)
            own = [(name, public)]
            if inspect.isclass(public):
                own += [(f"{name}.{part}", getattr(value, "__func__", getattr(value, "fget", value)))
                        for part, value in vars(public).items() if not part.startswith("_") and
                        (inspect.isfunction(value) or isinstance(value, (property, classmethod, staticmethod)))]
            for called, function in own:
                with self.subTest(name=called):
                    self.assertTrue((inspect.getdoc(function) or "").strip())
                    self.assertFalse((function.__doc__ or "").startswith(f"{called}("), "a dataclass's own docstring")
                    if not inspect.isfunction(function):
                        continue
                    hints = typing.get_type_hints(function)
                    self.assertIn("return", hints)
                    for parameter in list(inspect.signature(function).parameters)[1 if "." in called else 0:]:
                        self.assertIn(parameter, hints)
                    checked += 1
        self.assertGreater(checked, 30)
        self.assertTrue(jangoripu.__doc__)

    def test_documented_names(self):
        for name in ("Sheet", "Prices", "Group", "Plan", "Measures", "Solution", "Refused", "solve", "price_tanks", "measure", "read_sheet",
                     "read_limits", "read_plan", "read_prices", "write_sheet", "write_limits", "write_plan", "write_prices", "tidy", "to_dimacs",
                     "from_dimacs", "mark", "mark_class"):
            self.assertIn(name, jangoripu.__all__)
        self.assertEqual(sorted(set(jangoripu.__all__)), list(jangoripu.__all__))
        self.assertTrue(os.path.isfile(os.path.join(PACKAGE, "py.typed")))

    def test_doctest(self):
        result = doctest.testmod(jangoripu)
        self.assertEqual(result.failed, 0)
        self.assertGreaterEqual(result.attempted, 3)

    def test_calls_are_passed_as_the_header_declares_them(self):
        header = re.sub(r"/\*.*?\*/", " ", read(ROOT, "include", "jangoripu.h").decode(), flags=re.DOTALL)
        kinds = {"bool": ctypes.c_bool, "uint32_t": ctypes.c_uint32, "size_t": ctypes.c_size_t}

        def kind(parameter):
            return ctypes.c_void_p if re.search(r"[*\[]", parameter) else kinds[parameter.split()[0]]

        declared = re.findall(r"^uint32_t jangoripu_(\w+)\(([^)]*)\);", header, re.MULTILINE)
        self.assertGreater(len(declared), 10)
        self.assertEqual({name: [kind(one) for one in passed.split(",")] for name, passed in declared}, calls._CALLS)
        self.assertEqual(kind("const uint8_t *text"), ctypes.c_void_p)
        self.assertEqual(kind("uint64_t answer[5]"), ctypes.c_void_p)

    def test_lengths_are_the_headers(self):
        header = read(ROOT, "include", "jangoripu.h").decode()
        defined = {name: int(value) for name, value in re.findall(r"^#define JANGORIPU_(\w+) (\d+)\b", header, re.MULTILINE)}
        own = {"MOST_EDGES": calls.MOST_EDGES, "MOST_VERTICES": calls.MOST_FISH, "ASSIGNMENT_BOUNDS": calls.MOST_FISH,
               "LONGEST_INDEX": calls.LONGEST_INDEX, "SUBGRAPH_BYTES": calls.PLAN_BYTES, "GRAPH_BYTES": calls.SHEET_BYTES,
               "WORKSPACE_NUMBERS": calls.WORKSPACE, "VERTEX_WORDS": calls.FISH_WORDS, "EDGE_WORDS": calls.PAIR_WORDS,
               "MOST_NUMBERS": calls.MOST_FISH + calls.MOST_EDGES, "LONGEST_TEXT": FILE_BYTES - 1,
               "LONGEST_LINE": reading.LONGEST_LINE, "GREATEST_WEIGHT": tables.GREATEST_MERIT,
               "MOST_SIDE": passed.MOST_PRICED["families"], "MOST_DOUBLED_EDGES": passed.MOST_PRICED["pairs"]}
        self.assertEqual({name: defined[name] for name in own}, own)

    def test_every_refusal_of_the_header_has_words(self):
        header = read(ROOT, "include", "jangoripu.h").decode()
        listed = header[header.index("enum jangoripu_refusal {"):]
        numbers = [int(number) for number in re.findall(r"JANGORIPU_\w+ = (\d+)", listed[: listed.index("};")])]
        self.assertEqual(sorted(WORDS), [number for number in numbers if number])

    def test_version(self):
        header = read(ROOT, "include", "jangoripu.h").decode()
        told = re.findall(r'^#define JANGORIPU_VERSION "([0-9]+\.[0-9]+\.[0-9]+)"$', header, re.MULTILINE)
        self.assertEqual([jangoripu.__version__], told)

    def test_no_version_file_in_the_repository(self):
        """In the repository the header alone tells the version."""
        self.assertFalse(os.path.exists(os.path.join(PACKAGE, "VERSION")))


if __name__ == "__main__":
    unittest.main()
