"""The solver, and the prices of tanks, beside others: SciPy and networkx on drawn sheets, and LEMON's dimacs-solver and glpsol on the minimum
cost flows that `to-dimacs --min` writes. Each is skipped where the other solver is not there."""
import functools
import os
import random
import re
import shutil
import subprocess
import unittest
from concurrent.futures import ThreadPoolExecutor

from common import command, doubled, draw_limits, draw_sheet, files_of, folder, full_sheet, measured, put, read, run, total_of

from jangoripu import Measures, Plan, Sheet, measure, price_tanks, solve
from jangoripu.tables import min_cost_flow

try:
    import numpy
    from scipy.optimize import linear_sum_assignment, linprog
    from scipy.sparse import coo_matrix
except ImportError:
    numpy = None
try:
    import networkx
except ImportError:
    networkx = None

SHEETS = 500
TANKS = 300
FLOWS = 200
SPANS = 3 * ((-1000000, 1000000), (-100, 1000)) + ((-5, 5), (0, 3), (1, 1), (-1, 1), (-9, -1))


def draw_case(draw, greatest, limit):
    """A sheet with ties or without, of either sign, with pairs in any number; and its limits, all 1 or drawn from 0."""
    rows, columns = draw.randint(1, greatest), draw.randint(1, greatest)
    sheet = draw_sheet(draw, rows, columns, draw.choice((rows, 2 * rows, 5 * rows, rows * columns)), False, *draw.choice(SPANS))
    return sheet, (1,) * sheet.fish if limit == 1 else draw_limits(draw, sheet, limit)


def special():
    """Limits all 0, no pairs, merits all below 0, all merits the greatest, and full sheets."""
    sheet, limits = full_sheet(3)
    many = tuple((row, column, 1000000) for row in range(1, 33) for column in range(1, 33))
    ones = (1,) * 128
    return [(sheet, (0,) * 128), (Sheet(1, 1), (1, 1)), (Sheet(64, 64), ones), (Sheet(3, 2), (0, 0, 0, 4, 4)),
            (Sheet(64, 64, tuple((row, column, -1 - abs(merit) // 2) for row, column, merit in sheet.pairs)), ones),
            (Sheet(32, 32, many), (64,) * 64), (Sheet(32, 32, many), (1,) * 64), (sheet, limits), (sheet, (64,) * 128), (sheet, ones)]


@functools.lru_cache(None)
def cases():
    """The drawn sheets: half with limits all 1, half with any limits; sides up to 64."""
    draw, made = random.Random(500), special()
    while len(made) < SHEETS:
        greatest = draw.choice((2, 4, 8, 8, 16, 16, 32, 64))
        made.append(draw_case(draw, greatest, 1 if len(made) % 2 else draw.choice((1, 2, 3, 4, 4))))
    return made


@functools.lru_cache(None)
def solutions():
    return [solve(sheet, limits) for sheet, limits in cases()]


def all_solved():
    return [(sheet, limits, solution) for (sheet, limits), solution in zip(cases(), solutions())]


def one_to_one():
    return [case for case in all_solved() if set(case[1]) == {1}]


def linear(sheet, limits):
    """The optimum of SciPy's linear program, in which a pair may be chosen in part."""
    pairs = len(sheet.pairs)
    ends = [end - 1 for pair in range(1, pairs + 1) for end in sheet.ends(pair)]
    uses = coo_matrix(([1] * (2 * pairs), (ends, [number // 2 for number in range(2 * pairs)])), shape=(sheet.fish, pairs))
    found = linprog([-merit for *_, merit in sheet.pairs], A_ub=uses.tocsr(), b_ub=limits, bounds=(0, 1), method="highs")
    assert found.status == 0, found
    return -found.fun


def matching(sheet):
    """networkx's matching of largest weight: the numbers of its pairs."""
    graph = networkx.Graph()
    for pair, (*_, merit) in enumerate(sheet.pairs, 1):
        graph.add_edge(*sheet.ends(pair), weight=merit, pair=pair)
    return [graph.edges[edge]["pair"] for edge in networkx.max_weight_matching(graph)]


def merit_of(sheet, chosen):
    return sum(sheet.pairs[pair - 1][2] for pair in chosen)


class Drawn(unittest.TestCase):
    def told(self, sheet, limits):
        return f"{sheet} with limits {limits}"

    def test_gap(self):
        """Each plan is valid, and its prices prove it: by the definitions, and by the call."""
        self.assertEqual(len(all_solved()), SHEETS)
        for sheet, limits, solution in all_solved():
            wanted = Measures(solution.merit, 2 * solution.merit, 0, 0, 0, 0, 0)
            self.assertEqual(measured(sheet, limits, solution.plan, solution.prices), wanted, self.told(sheet, limits))
            self.assertEqual(measure(sheet, limits, solution.plan, solution.prices), wanted, self.told(sheet, limits))

    def test_drawn_well(self):
        """Among the sheets are full sides, every limit from 0 to 4, merits of both signs and many different optima."""
        sheets = [sheet for sheet, _ in cases()]
        self.assertTrue(any(sheet.rows == 64 and sheet.columns == 64 for sheet in sheets))
        self.assertEqual({limit for _, limits in cases()[10:] for limit in limits}, {0, 1, 2, 3, 4})
        self.assertTrue({-1000000 < merit < 0 for sheet in sheets for *_, merit in sheet.pairs} == {True, False})
        self.assertGreater(len({solution.merit for solution in solutions()}), 200)
        self.assertGreater(len(one_to_one()), 200)

    def test_special(self):
        merits = [solution.merit for solution in solutions()[:7]]
        self.assertEqual(merits, [0, 0, 0, 0, 0, 1024000000, 32000000])
        self.assertEqual(solutions()[8].merit, sum(max(0, merit) for *_, merit in cases()[8][0].pairs))

    @unittest.skipIf(numpy is None, "SciPy is not there")
    def test_scipy_assignment(self):
        """Limits 1: SciPy's assignment, in which a pair that is not there, or is below 0, counts 0."""
        for sheet, limits, solution in one_to_one():
            table = numpy.zeros((sheet.rows, sheet.columns), dtype=numpy.int64)
            for row, column, merit in sheet.pairs:
                table[row - 1, column - 1] = max(0, merit)
            chosen = linear_sum_assignment(table, maximize=True)
            self.assertEqual(solution.merit, int(table[chosen].sum()), self.told(sheet, limits))

    @unittest.skipIf(numpy is None, "SciPy is not there")
    def test_scipy_linear_program(self):
        """Any limits: SciPy's linear program, whose optimum is a whole number on a two-sided sheet."""
        tried = 0
        for sheet, limits, solution in all_solved():
            if set(limits) == {1} or not sheet.pairs:
                continue
            self.assertLess(abs(solution.merit - linear(sheet, limits)), 0.01, self.told(sheet, limits))
            tried += 1
        self.assertGreater(tried, 150)

    @unittest.skipIf(networkx is None, "networkx is not there")
    def test_networkx_matching(self):
        """Limits 1, small sheets: networkx's matching of largest weight."""
        tried = 0
        for sheet, limits, solution in one_to_one():
            if len(sheet.pairs) > 60:
                continue
            self.assertEqual(solution.merit, merit_of(sheet, matching(sheet)), self.told(sheet, limits))
            tried += 1
        self.assertGreater(tried, 80)

    @unittest.skipIf(networkx is None, "networkx is not there")
    def test_networkx_flow(self):
        """Any limits, smaller sheets: networkx's flow of least cost."""
        tried = 0
        for sheet, limits, solution in all_solved():
            if len(sheet.pairs) > 120:
                continue
            graph = networkx.DiGraph()
            graph.add_edge("source", "sink")
            for fish, limit in enumerate(limits, 1):
                ends = ("source", fish) if fish <= sheet.rows else (fish, "sink")
                graph.add_edge(*ends, capacity=limit)
            for pair, (*_, merit) in enumerate(sheet.pairs, 1):
                graph.add_edge(*sheet.ends(pair), capacity=1, weight=-merit)
            graph.nodes["source"]["demand"], graph.nodes["sink"]["demand"] = -sum(limits), sum(limits)
            least, _ = networkx.network_simplex(graph)
            self.assertEqual(solution.merit, -least, self.told(sheet, limits))
            tried += 1
        self.assertGreater(tried, 200)


@functools.lru_cache(None)
def tanks():
    """Drawn one-sided sheets, up to 64 families and 512 pairs, and their limits: a third all 1."""
    draw, made = random.Random(300), []
    while len(made) < TANKS:
        families = draw.choice((1, 2, 3, 4, 5, 7, 7, 12, 12, 20, 33, 64))
        pairs = min(512, draw.choice((families, 2 * families, families * families // 2)))
        sheet = draw_sheet(draw, families, 0, pairs, True, *draw.choice(SPANS))
        made.append((sheet, (1,) * families if len(made) % 3 == 0 else draw_limits(draw, sheet, draw.choice((1, 2, 4)))))
    return made


class Tanks(unittest.TestCase):
    """The prices of tanks: they cover every pair by the definitions, and their total is what others find."""

    def total(self, sheet, limits):
        return total_of(sheet, limits, price_tanks(sheet, limits))

    def test_doubled(self):
        """The largest merit of the doubled sheet, by the solver."""
        totals = set()
        for sheet, limits in tanks():
            total = self.total(sheet, limits)
            self.assertEqual(total, solve(*doubled(sheet, limits)).merit, (sheet, limits))
            totals.add(total)
        self.assertGreater(len(totals), 150)
        self.assertTrue(any(sheet.rows == 64 and len(sheet.pairs) == 512 for sheet, _ in tanks()))

    @unittest.skipIf(numpy is None, "SciPy is not there")
    def test_scipy_linear_program(self):
        """Twice what could be had at most if a pair could be chosen in part."""
        tried = 0
        for sheet, limits in tanks():
            if not sheet.pairs:
                continue
            self.assertLess(abs(self.total(sheet, limits) - 2 * linear(sheet, limits)), 0.01, (sheet, limits))
            tried += 1
        self.assertGreater(tried, 200)

    @unittest.skipIf(networkx is None, "networkx is not there")
    def test_networkx_matching(self):
        """Limits 1, smaller sheets: a best plan, which is accepted; its gap is 0 or more, and now and then more than 1."""
        gaps = []
        for sheet, limits in tanks():
            if set(limits) != {1} or len(sheet.pairs) > 80:
                continue
            chosen = matching(sheet)
            plan = Plan(tuple(int(pair in chosen) for pair in range(1, len(sheet.pairs) + 1)))
            told = measure(sheet, limits, plan, price_tanks(sheet, limits))
            self.assertEqual((told.merit, told.gap), (merit_of(sheet, chosen), self.total(sheet, limits) - 2 * told.merit))
            gaps.append(told.gap)
        self.assertGreater(len(gaps), 60)
        self.assertTrue(min(gaps) == 0 and max(gaps) > 1, gaps)


class Flows(unittest.TestCase):
    """The minimum cost flows, in one folder: flow0.min, flow1.min and so on."""

    @classmethod
    def setUpClass(cls):
        draw, made = random.Random(200), special()
        while len(made) < FLOWS:
            sides = (1, 2, 4, 8, 8, 16, 16, 32, 64) if len(made) < 60 else (2, 4, 8, 12)
            made.append(draw_case(draw, draw.choice(sides), draw.choice((1, 2, 3, 4, 4))))
        cls.cases = made
        cls.merits = [solve(sheet, limits).merit for sheet, limits in made]
        cls.entered = folder()
        cls.place = cls.entered.__enter__()
        cls.addClassCleanup(cls.entered.__exit__, None, None, None)
        cls.by_command = range(0, FLOWS, 8)
        for number, (sheet, limits) in enumerate(made):
            text = min_cost_flow(sheet, limits)
            if number in cls.by_command:
                put(cls.place, files_of(sheet, limits))
                ran = command("to-dimacs", "--min", cls.place)
                if ran.status != 0 or ran.err or ran.out != text:
                    raise AssertionError(f"to-dimacs --min of {sheet} with limits {limits}: {ran}")
            put(cls.place, {f"flow{number}.min": text})

    def path(self, number, ending="min"):
        return os.path.join(self.place, f"flow{number}.{ending}")

    def each(self, solve_one):
        with ThreadPoolExecutor(2) as both:
            got = list(both.map(solve_one, range(FLOWS)))
        self.assertEqual(len(got), FLOWS)
        for number, (least, merit) in enumerate(zip(got, self.merits)):
            self.assertEqual(least, -merit, f"flow {number}: {self.cases[number]}")

    @unittest.skipIf(shutil.which("dimacs-solver") is None, "LEMON's dimacs-solver is not there")
    def test_lemon(self):
        def least(number):
            ran = run(["dimacs-solver", self.path(number)], stdin=subprocess.DEVNULL)
            told = re.findall(rb"^Min flow cost: (-?[0-9]+)$", ran.err + ran.out, re.MULTILINE)
            self.assertEqual((ran.status, len(told)), (0, 1), ran)
            self.assertIn(b"Feasible flow: found", ran.err + ran.out)
            return int(told[0])
        self.each(least)

    @unittest.skipIf(shutil.which("glpsol") is None, "glpsol is not there")
    def test_glpk(self):
        def least(number):
            ran = run(["glpsol", "--mincost", self.path(number), "-o", self.path(number, "out")], stdin=subprocess.DEVNULL)
            self.assertEqual(ran.status, 0, ran)
            out = read(self.path(number, "out"))
            told = re.findall(rb"^Objective: +(-?[0-9.e+]+) \(MINimum\)$", out, re.MULTILINE)
            self.assertEqual((re.findall(rb"^Status: +(.*)$", out, re.MULTILINE), len(told)), ([b"OPTIMAL"], 1), out)
            return int(float(told[0]))
        self.each(least)

    def test_layout(self):
        """What a text says, without a solver: its nodes and arcs, and the least cost in a comment."""
        for number, (sheet, limits) in enumerate(self.cases[:60]):
            rows = [line.split() for line in read(self.path(number)).decode().split("\n")[:-1]]
            words = [row for row in rows if row[0] != "c"]
            self.assertIn(["c", "the", "least", "cost", "is", str(-self.merits[number])], rows)
            arcs = [tuple(map(int, row[1:])) for row in words if row[0] == "a"]
            self.assertEqual(words[0], ["p", "min", str(sheet.fish + 2), str(len(arcs))])
            supply = [tuple(map(int, row[1:])) for row in words if row[0] == "n"]
            self.assertEqual(sum(flow for _, flow in supply), 0)
            self.assertEqual([row[0] for row in words], ["p"] + ["n"] * len(supply) + ["a"] * len(arcs))
            pairs = [(row, sheet.rows + column, 0, 1, -merit) for row, column, merit in sheet.pairs]
            self.assertEqual([arc for arc in arcs if max(arc[:2]) <= sheet.fish], pairs)
            carried = {min(arc[:2]): arc[2:] for arc in arcs if min(arc[:2]) <= sheet.fish < max(arc[:2])}
            self.assertEqual(carried, {fish: (0, limit, 0) for fish, limit in enumerate(limits, 1)})

    def test_refused(self):
        """The solver's refusals are those of the flow too."""
        with folder(files_of(Sheet(3, 3, ((2, 1, 1),), True), (1, 1, 1))) as place:
            ran = command("to-dimacs", "--min", place)
        self.assertEqual((ran.status, ran.out), (1, b"refused 16 at 0 in input\n"))


if __name__ == "__main__":
    unittest.main()
