"""Marking folders: each on its own sheet, or a class on its teacher's key."""
from __future__ import annotations

import os
from dataclasses import dataclass
from typing import Dict, Iterable, Optional, Tuple

from . import calls, files, texts
from .hints import hinted
from .refusals import Refused, count
from .values import Measures, Path, Plan, Prices, Sheet, Solution

Identity = Tuple[bytes, Tuple[int, ...]]
SHEET, LIMITS, PLAN, PRICES = NAMES = ("sheet.mtx", "limits.mtx", "plan.mtx", "prices.mtx")


@dataclass(frozen=True)
class Marked:
    """A folder that was marked. Just one of `measures`, `refused` and `unread` is there, unless the folder has another sheet or other
    limits than the key (`same_sheet` is False); `unread` says why something could not be read."""

    folder: str
    measures: Optional[Measures] = None
    refused: Optional[Refused] = None
    unread: Optional[str] = None
    merit: Optional[int] = None  #: of a valid plan, also where its prices are refused
    lacks: Optional[int] = None  #: what a valid plan lacks exactly, where there is a key that can be solved
    same_sheet: Optional[bool] = None  #: whether sheet and limits are the key's; None without a key
    hints: Tuple[str, ...] = ()

    @property
    def line(self) -> str:
        """The line that `mark` writes for the folder, or why there is none."""
        if self.measures:
            return self.measures.line
        return self.refused.line if self.refused else self.result

    @property
    def best(self) -> bool:
        """Whether the folder's prices prove its plan best."""
        return self.measures is not None and self.measures.best

    @property
    def result(self) -> str:
        """What came of it, in words."""
        if self.unread is not None:
            return f"not read: {self.unread}"
        if self.same_sheet is False:
            return "not the class's sheet"
        if self.refused:
            return str(self.refused)
        assert self.measures is not None
        if self.measures.best:
            return "best"
        if self.lacks == 0:
            return "best, but its prices leave a gap"
        if self.lacks is not None:
            return f"lacks {count(self.lacks, 'point')}"
        return f"lacks at most {count(self.measures.gap // 2, 'point')}"


@dataclass(frozen=True)
class ClassMarks:
    """A class that was marked. `differ` says whether folders were marked on different sheets or limits; `best_merit` is that of the
    key's sheet, where there is a key that can be solved."""

    rows: Tuple[Marked, ...]
    key: Optional[str] = None
    best_merit: Optional[int] = None
    differ: bool = False

    @property
    def counted(self) -> Tuple[Marked, ...]:
        """The folders that could be read and have the class's sheet."""
        return tuple(row for row in self.rows if row.unread is None and row.same_sheet is not False)

    @property
    def counts(self) -> Dict[str, int]:
        """How many were marked, are best, have a gap, were refused, have another sheet than the key, and could not be read."""
        counted = self.counted
        best, refused = sum(row.best for row in counted), sum(row.refused is not None for row in counted)
        unread = sum(row.unread is not None for row in self.rows)
        return {"marked": len(counted), "best": best, "gap": len(counted) - best - refused, "refused": refused,
                "other_sheet": len(self.rows) - len(counted) - unread, "unread": unread}


@dataclass(frozen=True)
class Problem:
    """A sheet with its limits. Two are the same class's if the sheets' tidy forms and the limits are."""

    sheet: Sheet
    limits: Tuple[int, ...]

    @property
    def identity(self) -> Identity:
        return texts.tidy(self.sheet), self.limits


class Problems:
    """Reads problems; the same bytes are read once."""

    def __init__(self) -> None:
        self._known: Dict[Tuple[bytes, bytes], Tuple[Problem, Identity]] = {}

    def read(self, sheet: bytes, limits: bytes) -> Tuple[Problem, Identity]:
        """A problem and its identity."""
        if (sheet, limits) not in self._known:
            read = texts.read_sheet(sheet)
            problem = Problem(read, texts.read_limits(limits, read))
            self._known[sheet, limits] = problem, problem.identity
        return self._known[sheet, limits]


@dataclass(frozen=True)
class Key:
    """A teacher's folder: its problem, and its solution where the sheet is two-sided."""

    problem: Problem
    identity: Identity
    solution: Optional[Solution]

    @classmethod
    def read(cls, folder: Path, problems: Problems) -> Key:
        """Reads a key. Its files have to be there; a refusal names the file, and its words have the hints."""
        found = look(os.fsdecode(folder), names=(SHEET, LIMITS))
        for file in found.values():
            if file.text is None:
                raise FileNotFoundError(file.why)
        try:
            problem, identity = problems.read(found[SHEET].known, found[LIMITS].known)
        except Refused as refused:
            path, (_, told) = files.shown(found[refused.source].path), hinted(refused, found)
            raise Refused(refused.number, refused.place, path, "; ".join((refused.words, *told))) from None
        solution = None if problem.sheet.one_sided else calls.solution(problem.sheet, problem.limits)
        return cls(problem, identity, solution)


def look(folder: str, given: Optional[Dict[str, files.File]] = None, names: Iterable[str] = NAMES) -> Dict[str, files.File]:
    """The files of a folder, with those that are given in the place of its own. Raises OSError where the folder is none or a file is not
    a regular one."""
    given = given or {}
    if not os.path.isdir(folder):
        raise NotADirectoryError(f"{files.shown(folder)} is no folder")
    return {name: given[name] if name in given else files.look(os.path.join(folder, name)) for name in names}


def mark(folder: Path, key: Optional[Path] = None) -> Marked:
    """Marks a folder as the program `mark` does, on its own sheet. That is held to the key's, a teacher's folder, where one is given."""
    return mark_class([folder], key).rows[0]


def mark_class(folders: Iterable[Path], key: Optional[Path] = None) -> ClassMarks:
    """Marks each folder of a class. With a key, a teacher's folder with the class's sheet and limits, a folder that has others is not
    marked, and what each valid plan lacks is exact. Raises Refused or OSError for the key itself."""
    if isinstance(folders, (str, bytes, os.PathLike)):
        raise TypeError("folders are given as a list, not as one name")
    problems = Problems()
    held = None if key is None else Key.read(key, problems)
    seen = set()
    rows = []
    for folder in folders:
        name = os.fsdecode(folder)
        try:
            found = look(name)
        except OSError as error:
            rows.append(Marked(name, unread=error.strerror or str(error)))
            continue
        row, identity = mark_files(name, found, problems, held)
        rows.append(row)
        if identity is not None:
            seen.add(identity)
    best = held.solution.merit if held and held.solution else None
    return ClassMarks(tuple(rows), None if key is None else os.fsdecode(key), best, held is None and len(seen) > 1)


def mark_files(folder: str, found: Dict[str, files.File], problems: Problems,
               key: Optional[Key] = None) -> Tuple[Marked, Optional[Identity]]:
    """Marks the files of a folder: what came of it, and the identity of the problem where there is one."""
    merit = lacks = same = identity = None
    try:
        problem, identity = problems.read(found[SHEET].known, found[LIMITS].known)
        if key is not None:
            same = identity == key.identity
            if not same:
                return Marked(folder, same_sheet=False), identity
        plan = texts.read_plan(found[PLAN].known, problem.sheet)
        merit, lacks = _worth(problem, plan, found[PLAN].known, key)
        prices = texts.read_prices(found[PRICES].known, problem.sheet)
        measures = calls.measure(problem.sheet, problem.limits, plan, prices)
        return Marked(folder, measures, merit=merit, lacks=lacks, same_sheet=same), identity
    except Refused as refused:
        refused, told = hinted(refused, found)
        if refused.number == 15:
            told += _in_points(problem.sheet, plan, prices)
        return Marked(folder, refused=refused, merit=merit, lacks=lacks, same_sheet=same, hints=told), identity


def _in_points(sheet: Sheet, plan: Plan, prices: Prices) -> Tuple[str, ...]:
    """A hint, where no chosen pair is covered, and by twice the prices every pair would be."""
    reach = [(prices.reach(sheet, pair), merit) for pair, (_, _, merit) in enumerate(sheet.pairs, 1)]
    chosen = [reach[pair - 1] for pair in plan.chosen]
    if not chosen or any(have >= 2 * merit for have, merit in chosen) or any(have < merit for have, merit in reach):
        return ()
    return ("twice these prices would cover every pair: prices are in half points, so those in points are to be doubled",)


def _worth(problem: Problem, plan: Plan, text: bytes, key: Optional[Key]) -> Tuple[Optional[int], Optional[int]]:
    """A valid plan's merit, and what it lacks where the key's solution is known: by measuring it against prices that cover every pair.
    A plan over a limit has neither; it is refused where it is marked, after its prices are read."""
    try:
        if key is not None and key.solution is not None:
            sheet = key.problem.sheet
            measures = calls.measure(sheet, key.problem.limits, texts.read_plan(text, sheet), key.solution.prices)
            return measures.merit, measures.gap // 2
        sheet = problem.sheet
        cover = Prices((0,) * sheet.fish, tuple(max(0, 2 * merit) for _, _, merit in sheet.pairs))
        return calls.measure(sheet, problem.limits, plan, cover).merit, None
    except Refused:
        return None, None
