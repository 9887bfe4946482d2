"""What the calls take and give, in the users' words. Fish, pairs and groups count from 1; merits are in points, prices in half points."""
from __future__ import annotations

import numbers
import operator
import os
from dataclasses import dataclass
from typing import Any, Dict, Iterable, List, Optional, Sequence, Tuple, Union

Text = Union[bytes, bytearray, memoryview, str]
Path = Union[str, bytes, "os.PathLike[str]", "os.PathLike[bytes]"]
Triple = Tuple[int, int, int]


def whole(value: Any) -> int:
    """A whole number as an int, however large. A float that is not whole is a TypeError, and so is what is no number."""
    try:
        return int(operator.index(value))
    except TypeError:
        pass
    if isinstance(value, numbers.Real):
        try:
            number = int(value)
        except (OverflowError, ValueError):  # infinite, or not a number
            number = None
        if number is not None and number == value:
            return number
    raise TypeError(f"{value!r} is no whole number")


def wholes(values: Iterable[Any]) -> Tuple[int, ...]:
    """Whole numbers as ints."""
    kept = tuple(values)
    try:
        return tuple(map(int, map(operator.index, kept)))
    except TypeError:
        return tuple(map(whole, kept))


@dataclass(frozen=True)
class Sheet:
    """The pairs that may be crossed. A two-sided sheet has dams (rows) and sires (columns); on a one-sided one, rows and columns are both
    the number of families. A pair is a triple: row, column, merit. Nothing is tested here: a call refuses what is out of range."""

    rows: int
    columns: int
    pairs: Tuple[Triple, ...] = ()
    one_sided: bool = False

    def __post_init__(self) -> None:
        object.__setattr__(self, "rows", whole(self.rows))
        object.__setattr__(self, "columns", whole(self.columns))
        object.__setattr__(self, "pairs", tuple(_triple(pair) for pair in self.pairs))
        object.__setattr__(self, "one_sided", bool(self.one_sided))

    @classmethod
    def _known(cls, rows: int, columns: int, pairs: Tuple[Triple, ...], one_sided: bool) -> Sheet:
        """A sheet of what is known to be whole numbers."""
        sheet = object.__new__(cls)
        for name, value in (("rows", rows), ("columns", columns), ("pairs", pairs), ("one_sided", one_sided)):
            object.__setattr__(sheet, name, value)
        return sheet

    def __getstate__(self) -> Dict[str, Any]:
        """What is kept: not what was made for the calls."""
        return {name: value for name, value in vars(self).items() if not name.startswith("_")}

    @property
    def fish(self) -> int:
        """The number of fish: dam i is fish i, sire j is fish rows + j, and family i is fish i. A size below 0 counts as 0."""
        return max(0, self.rows) if self.one_sided else max(0, self.rows) + max(0, self.columns)

    def ends(self, pair: int) -> Tuple[int, int]:
        """The two fish of a pair, which is given by its number."""
        if not 1 <= pair <= len(self.pairs):
            raise IndexError(f"the sheet has {len(self.pairs)} pairs, numbered from 1")
        row, column, _ = self.pairs[pair - 1]
        return row, column if self.one_sided else self.rows + column

    def fish_name(self, fish: int) -> str:
        """A fish in words: "dam 3", "sire 2" or "family 4"."""
        if not 1 <= fish <= self.fish:
            raise IndexError(f"the sheet has {self.fish} fish, numbered from 1")
        if self.one_sided:
            return f"family {fish}"
        return f"dam {fish}" if fish <= self.rows else f"sire {fish - self.rows}"

    def pair_name(self, pair: int) -> str:
        """A pair in words: "dam 1 with sire 2", or "family 5 with family 2"."""
        self.ends(pair)
        row, column, _ = self.pairs[pair - 1]
        return f"family {row} with family {column}" if self.one_sided else f"dam {row} with sire {column}"

    @classmethod
    def from_triples(cls, triples: Iterable[Sequence[Any]], rows: Optional[int] = None, columns: Optional[int] = None,
                     one_sided: bool = False) -> Sheet:
        """A sheet of triples (row, column, merit), rows and columns from 1. Sizes that are not given are the greatest that occur."""
        pairs = tuple(_triple(pair) for pair in triples)
        most = [max((pair[side] for pair in pairs), default=1) for side in (0, 1)]
        if one_sided:
            most = [max(most)] * 2
        return cls(most[0] if rows is None else rows, most[1] if columns is None else columns, pairs, one_sided)

    @classmethod
    def from_sparse(cls, matrix: Any, one_sided: bool = False) -> Sheet:
        """A sheet of a scipy.sparse matrix: each stored entry is a pair, also a stored 0, in the matrix's own order. One-sided: the entries
        below the diagonal; one above it must mirror one below."""
        entries = matrix.tocoo()
        rows, columns = matrix.shape
        stored = zip(entries.row.tolist(), entries.col.tolist(), entries.data.tolist())
        return cls._from_entries([(row + 1, column + 1, merit) for row, column, merit in stored], rows, columns, one_sided)

    @classmethod
    def from_array(cls, array: Any, *, absent: Any, one_sided: bool = False) -> Sheet:
        """A sheet of a numpy array, or of a list of rows: a pair for each cell that is not `absent`, which may be a number, None or nan;
        row by row. One-sided: the cells below the diagonal; one above it must mirror one below."""
        table = array.tolist() if hasattr(array, "tolist") else list(array)
        if not all(isinstance(row, (list, tuple)) for row in table):
            raise TypeError("a table of rows is needed: an array of two dimensions, or a list of lists")
        columns = len(table[0]) if table else 0
        if any(len(row) != columns for row in table):
            raise ValueError("the rows differ in length")
        cells = [(r, c, cell) for r, row in enumerate(table, 1) for c, cell in enumerate(row, 1) if not _same(cell, absent)]
        return cls._from_entries(cells, len(table), columns, one_sided)

    @classmethod
    def _from_entries(cls, entries: List[Tuple[int, int, Any]], rows: int, columns: int, one_sided: bool) -> Sheet:
        if not one_sided:
            return cls(rows, columns, tuple(entries))
        if rows != columns:
            raise ValueError("a one-sided sheet has as many columns as rows")
        below = {(row, column): merit for row, column, merit in entries if row > column}
        for row, column, merit in entries:
            if row < column and ((column, row) not in below or below[column, row] != merit):
                raise ValueError(f"not symmetric: row {row}, column {column} is {merit}, and row {column}, column {row} is not")
        return cls(rows, columns, tuple(entry for entry in entries if entry[0] >= entry[1]), True)

    @classmethod
    def from_bytes(cls, text: Text) -> Sheet:
        """The sheet that a Matrix Market text holds."""
        from . import texts

        return texts.read_sheet(text)

    @classmethod
    def from_path(cls, path: Path) -> Sheet:
        """The sheet that a Matrix Market file holds."""
        from . import files, texts

        return texts.read_sheet(files.read(path), source=files.shown(path))


def _triple(pair: Sequence[Any]) -> Triple:
    row, column, merit = pair
    return whole(row), whole(column), whole(merit)


def _same(cell: Any, absent: Any) -> bool:
    return cell is absent or cell == absent or (cell != cell and absent != absent)


@dataclass(frozen=True)
class Plan:
    """A mark for each pair of a sheet, in its order: 1 for chosen, 0 for not."""

    marks: Tuple[int, ...]

    def __post_init__(self) -> None:
        object.__setattr__(self, "marks", wholes(self.marks))

    @classmethod
    def of(cls, sheet: Sheet, ends: Iterable[Tuple[int, int]]) -> Plan:
        """The plan that chooses these pairs, each given by row and column. A ValueError names one that is not on the sheet."""
        number = {pair[:2]: place for place, pair in enumerate(sheet.pairs)}
        marks = [0] * len(sheet.pairs)
        for row, column in ends:
            if (row, column) not in number:
                raise ValueError("a pair that is chosen is not on the sheet: row {!s:.40}, column {!s:.40}".format(row, column))
            marks[number[row, column]] = 1
        return cls(tuple(marks))

    @property
    def chosen(self) -> Tuple[int, ...]:
        """The numbers of the chosen pairs."""
        return tuple(pair for pair, mark in enumerate(self.marks, 1) if mark)

    def ends(self, sheet: Sheet) -> Tuple[Tuple[int, int], ...]:
        """The chosen pairs, each as row and column."""
        return tuple(sheet.pairs[pair - 1][:2] for pair in self.chosen)


@dataclass(frozen=True)
class Group:
    """A group: its fish, its marked pairs, and its price in half points."""

    fish: Tuple[int, ...]
    pairs: Tuple[int, ...] = ()
    price: int = 0

    def __post_init__(self) -> None:
        object.__setattr__(self, "fish", wholes(self.fish))
        object.__setattr__(self, "pairs", wholes(self.pairs))
        object.__setattr__(self, "price", whole(self.price))

    def covers(self, sheet: Sheet, pair: int) -> bool:
        """Whether the group covers a pair: it marks it, or has both its fish."""
        return pair in self.pairs or all(fish in self.fish for fish in sheet.ends(pair))


@dataclass(frozen=True)
class Prices:
    """A price sheet, in half points: a price for each fish, one for each pair in the sheet's order, and groups, if there are any."""

    fish: Tuple[int, ...]
    pairs: Tuple[int, ...]
    groups: Tuple[Group, ...] = ()

    def __post_init__(self) -> None:
        object.__setattr__(self, "fish", wholes(self.fish))
        object.__setattr__(self, "pairs", wholes(self.pairs))
        object.__setattr__(self, "groups", tuple(self.groups))
        if not all(isinstance(group, Group) for group in self.groups):
            raise TypeError("groups are of the class Group")

    def reach(self, sheet: Sheet, pair: int) -> int:
        """What the prices that cover a pair add up to; the pair is covered if that is at least twice its merit."""
        groups = sum(group.price for group in self.groups if group.covers(sheet, pair))
        return sum(self.fish[fish - 1] for fish in sheet.ends(pair)) + self.pairs[pair - 1] + groups


@dataclass(frozen=True)
class Measures:
    """How a plan measures against prices: the merit in points; the total, the four leftovers and the gap in half points."""

    merit: int
    total: int
    fish: int
    groups: int
    pairs: int
    cover: int
    gap: int

    @property
    def best(self) -> bool:
        """Whether the prices prove the plan best: the gap is 0 or 1."""
        return self.gap <= 1

    @property
    def line(self) -> str:
        """The line that `mark` writes."""
        return (f"merit {self.merit} total {self.total} fish {self.fish} groups {self.groups} pairs {self.pairs} cover {self.cover} "
                f"gap {self.gap}")


@dataclass(frozen=True)
class Solution:
    """A plan of largest merit, prices that prove it with gap 0, and its merit in points."""

    plan: Plan
    prices: Prices
    merit: int
