"""Sheets from tables, and minimum cost flows for other solvers. Nothing here is proved; what comes out is held to the proved calls."""
from __future__ import annotations

import csv
import io
import re
from typing import Iterable, List, Sequence, Tuple

from . import calls, texts
from .files import shown
from .refusals import Refused
from .values import Sheet, wholes

LONGEST_NAME = 60
GREATEST_MERIT = 1_000_000
Names = Tuple[Tuple[str, str], ...]


class BadTable(ValueError):
    """A table that is no sheet, with its row and column."""


def _separator(table: str) -> str:
    """The most frequent of tab, semicolon and comma in the first row, quoted cells left out."""
    row = re.match(r'(?:"[^"]*"|[^"\n])*', re.sub(r'""', "", table))
    plain = re.sub(r'"[^"]*"', "", row.group() if row else "")
    return max("\t;,", key=plain.count)


def _decoded(text: bytes) -> str:
    """A table's signs: in UTF-8, or else as Windows writes them in western Europe."""
    for encoding in ("utf-8-sig", "cp1252"):
        try:
            return text.decode(encoding)
        except UnicodeDecodeError:
            pass
    return text.decode("latin-1")


def _rows(text: bytes, separator: str = "") -> List[List[str]]:
    """The rows of a table, without blanks around cells and without empty rows at the end."""
    table = _decoded(text)
    if "\0" in table:
        raise BadTable("a table has no bytes 0: is it in UTF-16? Save it as CSV in UTF-8")
    said = re.match(r"sep=(.)\r?\n", table)  # a line of some spreadsheets
    if said:
        table, separator = table[said.end():], separator or said.group(1)
    separator = separator or _separator(table)
    if len(separator) != 1 or separator in '"\r\n':
        raise BadTable("a separator is one sign, and no quotation mark or line end")
    try:
        rows = [[cell.strip() for cell in row] for row in csv.reader(io.StringIO(table, newline=""), delimiter=separator, strict=True)]
    except (csv.Error, TypeError, ValueError) as error:
        raise BadTable(f"the table cannot be read, perhaps for a quotation mark that is not closed: {error}") from None
    while rows and not any(rows[-1]):
        rows.pop()
    return rows


def from_csv(text: bytes, separator: str = "", bare: bool = False) -> Tuple[Sheet, Names]:
    """The sheet of a table as spreadsheets export it, and the names of its dams and sires. The first row has the sires' names and the first
    column the dams', unless the table is bare; an empty cell is no pair. Commas, semicolons or tabs separate cells."""
    table = _rows(text, separator)
    if bare:
        sires: List[str] = []
        dams: List[str] = []
        merits = table
    else:
        sires, dams, merits = (table or [[]])[0][1:], [(row or [""])[0] for row in table[1:]], [row[1:] for row in table[1:]]
        _test_names(table)
    columns = max((number for row in [sires, *merits] for number, cell in enumerate(row, 1) if cell), default=0)
    if not merits or not columns:
        raise BadTable("a table has a row of sires' names, after an empty cell, and below it a row for each dam: her name and her merits"
                       if not bare else "the table is empty")
    skip = 0 if bare else 1
    pairs = [(dam, sire, _merit(cell, dam + skip, sire + skip))
             for dam, row in enumerate(merits, 1) for sire, cell in enumerate(row, 1) if cell]
    if not pairs:
        raise BadTable("no cell of the table has a merit; perhaps another sign separates its cells: --separator says which")
    names = [(f"{kind} {number}", name) for kind, given in (("dam", dams), ("sire", sires)) for number, name in enumerate(given, 1)]
    return Sheet(len(merits), columns, tuple(pairs)), tuple((fish, shown(name)[:LONGEST_NAME]) for fish, name in names if name)


def _test_names(table: List[List[str]]) -> None:
    """Tests the rows of a table with names: each dam has one, and no row has more cells than the first."""
    for number, row in enumerate(table[1:], 2):
        if not any(row):
            raise BadTable(f"row {number} of the table is empty: take it out")
        if not row[0]:
            raise BadTable(f"row {number} of the table has no name in its first cell; a table without names is taken with --bare")
        if any(row[len(table[0]):]):
            raise BadTable(f"row {number} of the table has more cells than the first row, which has an empty cell and the sires' names")


def doubts(names: Names) -> List[str]:
    """What may not be as it was meant: names that are all numbers, and names that two dams or two sires have."""
    notes = []
    if names and all(re.fullmatch(r"[+-]?[0-9]+", name) for _, name in names):
        notes.append("all names are numbers; if the first row and the first column are merits, --bare takes the table")
    for kind in ("dam", "sire"):
        given = [name for fish, name in names if fish.startswith(kind)]
        notes += [f"more than one {kind} has the name {name}" for name in sorted(set(given)) if given.count(name) > 1]
    return notes


def _merit(cell: str, row: int, column: int) -> int:
    """A cell's merit. A point with one or two zeros after it is taken, and not one with three, which some write for a thousand."""
    plain = cell.replace("\u2212", "-")
    where = f"row {row}, column {column} of the table is '{shown(cell)[:40]}'"
    if not re.fullmatch(r"[+-]?[0-9]{1,40}(\.0{0,2})?", plain):
        raise BadTable(f"{where}: a merit is a whole number, and a cell without a pair is empty")
    merit = int(plain.split(".")[0])
    if abs(merit) > GREATEST_MERIT:
        raise BadTable(f"{where}: merits are -1,000,000 to 1,000,000")
    return merit


def sheet_text(sheet: Sheet, names: Names) -> bytes:
    """The sheet of a table as a text, with the names of dams and sires as comments."""
    try:
        return texts.write_sheet(sheet, [f"{fish}: {name}" for fish, name in names])
    except Refused as refused:
        if refused.source == "input":
            raise
        return texts.write_sheet(sheet)  # without names, where these make the text too long


def min_cost_flow(sheet: Sheet, limits: Sequence[int]) -> bytes:
    """A two-sided sheet with any limits as a minimum cost flow in the DIMACS layout. A node s supplies what could be used in all, and a
    node t takes it; an arc from s to each dam and from each sire to t carries what the limit allows, an arc for each pair one unit at the
    negated merit, and an arc from s to t what is not used. So the least cost is the largest merit negated, which a comment says."""
    limits = wholes(limits)
    solution = calls.solution(sheet, limits)
    flow = min(sum(limits[: sheet.rows]), sum(limits[sheet.rows:]))
    source, sink = sheet.fish + 1, sheet.fish + 2
    arcs: List[Tuple[int, int, int, int]] = [(source, dam, limits[dam - 1], 0) for dam in range(1, sheet.rows + 1)]
    arcs += [(row, sheet.rows + column, 1, -merit) for row, column, merit in sheet.pairs]
    arcs += [(fish, sink, limits[fish - 1], 0) for fish in range(sheet.rows + 1, sheet.fish + 1)]
    arcs.append((source, sink, flow, 0))
    lines: Iterable[str] = [
        f"c dams are nodes 1 to {sheet.rows}, sires nodes {sheet.rows + 1} to {sheet.fish}, s is node {source} and t node {sink}",
        f"c the least cost is {-solution.merit}",
        f"p min {sheet.fish + 2} {len(arcs)}", f"n {source} {flow}", f"n {sink} {-flow}",
        *("a %d %d 0 %d %d" % arc for arc in arcs)]
    return "".join(f"{line}\n" for line in lines).encode()
