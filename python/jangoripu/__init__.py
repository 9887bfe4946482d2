"""Jangoripu: plans of crosses of largest merit, and prices that prove them.

A module over the proved library: what it decides, a proved call decides. Merits are in points; prices, totals, leftovers and gaps in half
points. A refusal is the exception Refused. Threads may call at once.

>>> from jangoripu import Sheet, solve
>>> sheet = Sheet.from_triples([(1, 1, 5), (1, 2, 4), (2, 1, 4), (2, 2, 1)])
>>> solve(sheet, [1, 1, 1, 1]).merit
8
"""
from typing import Optional, Sequence

from . import calls as _calls
from .marking import ClassMarks, Marked, mark, mark_class
from .places import version as _version
from .refusals import Refused
from .texts import (from_dimacs, read_limits, read_plan, read_prices, read_sheet, tidy, to_dimacs, write_limits, write_plan, write_prices,
                    write_sheet)
from .values import Group, Measures, Plan, Prices, Sheet, Solution

__version__ = _version()
__all__ = ["ClassMarks", "Group", "Marked", "Measures", "Plan", "Prices", "Refused", "Sheet", "Solution", "build_index", "from_dimacs",
           "mark", "mark_class", "measure", "price_tanks", "read_limits", "read_plan", "read_prices", "read_sheet", "solve", "test_index",
           "tidy", "to_dimacs", "write_limits", "write_plan", "write_prices", "write_sheet"]


def solve(sheet: Sheet, limits: Sequence[int], index: Optional[Sequence[int]] = None) -> Solution:
    """A plan of largest merit of a two-sided sheet, and prices that prove it. An index is built where none is given."""
    return _calls.solution(sheet, limits, index)


def price_tanks(sheet: Sheet, limits: Sequence[int]) -> Prices:
    """Prices of a one-sided sheet of at most 64 families and 512 pairs, without groups: every pair is covered, and no valid plan has more
    merit than half the total. A best plan can have a gap above 1 against them, where pairs form an odd ring."""
    return _calls.price_general(sheet, limits)


def measure(sheet: Sheet, limits: Sequence[int], plan: Plan, prices: Prices) -> Measures:
    """How a plan measures against prices, on either sort of sheet."""
    return _calls.measure(sheet, limits, plan, prices)


def build_index(sheet: Sheet) -> "tuple[int, ...]":
    """The sheet's index: which pairs each fish has."""
    return _calls.build_index(sheet)


def test_index(sheet: Sheet, index: Sequence[int]) -> None:
    """Refuses an index that is not the sheet's."""
    _calls.test_index(sheet, index)
