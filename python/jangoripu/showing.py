"""What was marked, for people, spreadsheets and programs."""
from __future__ import annotations

import csv
import io
import json
import unicodedata
from typing import Any, Dict, List, Optional, Sequence

from .files import shown
from .marking import ClassMarks, Marked

DIFFER = "the folders' sheets or limits differ: each was marked on its own. --key FOLDER marks them on one"


def width(text: str) -> int:
    """How many columns a terminal shows a text in."""
    return sum(map(_columns, text))


def _columns(sign: str) -> int:
    """None for a sign that goes onto the one before, also a later part of a Korean syllable; two for a wide one."""
    if unicodedata.category(sign) in ("Mn", "Me") or "\u1160" <= sign <= "\u11ff" or "\ud7b0" <= sign <= "\ud7fb":
        return 0
    return 2 if unicodedata.east_asian_width(sign) in "WF" else 1


def _result(row: Marked) -> str:
    return row.result + "".join(f"; {hint}" for hint in row.hints)


def _cell(number: Optional[int]) -> str:
    return "-" if number is None else str(number)


def _cells(row: Marked, key: bool, encoding: str) -> List[str]:
    total, gap = (row.measures.total, row.measures.gap) if row.measures else (None, None)
    merit = row.merit if key or row.measures else None
    numbers = [merit, row.lacks, total, gap] if key else [merit, total, gap]
    return [held.encode(encoding, "backslashreplace").decode(encoding) for held in (shown(row.folder), *map(_cell, numbers), _result(row))]


def _aligned(rows: Sequence[Sequence[str]]) -> List[str]:
    wide = [max(width(row[column]) for row in rows) for column in range(len(rows[0]))]
    lines = []
    for row in rows:
        cells = [row[0] + " " * (wide[0] - width(row[0]))]
        cells += [" " * (wide[column] - width(row[column])) + row[column] for column in range(1, len(row) - 1)]
        lines.append("  ".join(cells + [row[-1]]))
    return lines


def table(marks: ClassMarks, encoding: str = "utf-8") -> str:
    """A table with a row a folder, and what it comes to; aligned as it is shown in this encoding."""
    key = marks.key is not None
    head = ["folder", "merit", *(["lacks"] if key else []), "total", "gap", "result"]
    lines = _aligned([head] + [_cells(row, key, encoding) for row in marks.rows])
    counts = marks.counts
    summary = f"{counts['marked']} marked: {counts['best']} best, {counts['gap']} with a gap, {counts['refused']} refused"
    if counts["other_sheet"]:
        summary += f"; {counts['other_sheet']} not on the class's sheet, not counted"
    if counts["unread"]:
        summary += f"; {counts['unread']} not read"
    lines.append(summary)
    if key:
        assert marks.key is not None
        best = "a one-sided sheet, whose best merit is not known" if marks.best_merit is None else f"the best merit is {marks.best_merit}"
        lines.append(f"key {shown(marks.key)}: {best}")
    if marks.differ:
        lines.append(DIFFER)
    return "\n".join(lines)


def plain(marks: ClassMarks) -> str:
    """A line for each folder, as `mark` writes it."""
    return "\n".join(f"{shown(row.folder)}: {row.line}" for row in marks.rows)


def _safe(text: str) -> str:
    """A cell that no spreadsheet takes for a formula."""
    return "'" + text if text[:1] in ("=", "+", "-", "@") else text


def csv_text(marks: ClassMarks) -> str:
    """A table for spreadsheets, with commas."""
    out = io.StringIO()
    writer = csv.writer(out, lineterminator="\n")
    writer.writerow(["folder", "result", "best", "merit", "lacks", "total", "gap", "refused", "place", "source"])
    for row in marks.rows:
        measures, refused = row.measures, row.refused
        writer.writerow([_safe(shown(row.folder)), _result(row), "yes" if row.best else "no", row.merit, row.lacks,
                         measures and measures.total, measures and measures.gap, refused and refused.number, refused and refused.place,
                         refused and refused.source])
    return out.getvalue().rstrip("\n")


def json_text(record: Dict[str, Any]) -> str:
    """A record as JSON in one line."""
    return json.dumps(record)


def row_record(row: Marked) -> Dict[str, Any]:
    """What came of a folder, for programs."""
    measures, refused = row.measures, row.refused
    return {
        "folder": row.folder, "line": row.line if measures or refused else None, "result": row.result, "merit": row.merit,
        "lacks": row.lacks, "best": row.best, "same_sheet": row.same_sheet, "unread": row.unread,
        "measures": None if measures is None else vars(measures),
        "refused": None if refused is None else {"number": refused.number, "place": refused.place, "source": refused.source,
                                                  "words": refused.words, "hints": list(row.hints)},
    }


def class_record(marks: ClassMarks) -> Dict[str, Any]:
    """What came of a class, for programs."""
    return {"key": marks.key, "best_merit": marks.best_merit, "differ": marks.differ, "counts": marks.counts,
            "folders": [row_record(row) for row in marks.rows]}
