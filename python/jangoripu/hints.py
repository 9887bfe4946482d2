"""What went wrong by accident: hints that go with a refusal."""
from __future__ import annotations

import re
from typing import Dict, List, Optional, Tuple

from .files import File, shown
from .reading import Reading
from .refusals import Refused

SORTS = {"sheet.mtx": b"coordinate integer", "limits.mtx": b"array integer", "plan.mtx": b"coordinate pattern",
         "prices.mtx": b"array integer"}
SYMMETRIC = "SciPy's mmwrite takes symmetric for every square matrix that happens to be so, unless symmetry='general' is given"
WHAT = {b"coordinate integer": "a sheet", b"array integer": "limits or prices", b"coordinate pattern": "a plan"}
MMWRITE = "from SciPy, mmwrite(.., field='integer', symmetry='general') of whole numbers"


def hinted(refused: Refused, found: Dict[str, File], program: str = "") -> Tuple[Refused, Tuple[str, ...]]:
    """A refusal and hints, from the files as they were found and the program that refused, if it matters. Where the refusal's file is absent
    or cannot be read, its words say so."""
    sheet = found.get("sheet.mtx")
    if refused.source not in found:
        return refused, tuple(_other_sort(refused.number, sheet, program)) if sheet else ()
    file = found[refused.source]
    if file.text is None:
        return Refused(refused.number, refused.place, refused.source, file.why), ()
    told = _accidents(refused, file)
    if not told and refused.number == 4 and sheet and file is not sheet:
        told = _symmetric(sheet)  # other counts are asked for than of dams and sires
    return refused, tuple(told)


def _other_sort(number: int, sheet: File, program: str) -> List[str]:
    """Hints for a sheet of the sort that is not taken."""
    one_sided = _symmetric(sheet)
    if number == 16:
        return one_sided + (["if families are meant, `jangoripu price-tanks` prices them"] if program == "solve" else [])
    if number == 24 and not one_sided:
        return ["if dams and sires are meant, `jangoripu solve --prices` prices them; if families are, the header ends with symmetric"]
    return []


def _symmetric(file: File) -> List[str]:
    if b"symmetric" not in file.known.split(b"\n")[0].lower():
        return []
    return [f"the header says symmetric, so the sheet is one-sided: families, not dams and sires. {SYMMETRIC}"]


def encoding_hints(file: File, line: Optional[bytes] = None) -> List[str]:
    """Hints on the bytes of a file, or of one line of it, whatever it is to hold."""
    name = shown(file.path)
    text = file.known if line is None else line
    if text[:3] == b"\xef\xbb\xbf":
        return [f"{name} begins with a byte order mark: save it without one (plain text, or UTF-8 without BOM)"]
    if text[:2] in (b"\xff\xfe", b"\xfe\xff"):
        return [f"{name} is in UTF-16: save it as plain text, or as UTF-8 without BOM"]
    if b"\r" in text:
        return [f"{name} has the line ends of Windows, byte 13 before byte 10: tr -d '\\r' < FILE > NEW takes them out"]
    if b"\xc2\xa0" in text:
        return [f"{name} has a no-break space, which is not taken for a space: write plain spaces"]
    return []


def _accidents(refused: Refused, file: File) -> List[str]:
    lines = file.known.split(b"\n")
    line = lines[refused.place - 1] if 1 <= refused.place <= len(lines) else b""
    found = encoding_hints(file, line)
    if found:
        return found
    header = lines[0].lower().split()
    if refused.number == 2:
        return _header(header, refused.source, shown(file.path))
    if refused.number == 17 and refused.place == 1:
        return [f"the last word of the header is the sheet's, general or symmetric. {SYMMETRIC}"]
    if refused.number == 6:
        return _ends(file, line.split(), header)
    return _numbers(refused, line.split()) if refused.number in (3, 5, 20) else []


def _header(header: List[bytes], source: str, name: str) -> List[str]:
    if header[:1] != [b"%%matrixmarket"]:
        return ["a Matrix Market text begins with %%MatrixMarket, in these letters"] if source in SORTS else []
    if len(header) > 3 and header[3] in (b"real", b"double", b"complex", b"unsigned-integer"):
        return [f"the header says {header[3].decode()}, and only integer is taken: {MMWRITE}"]
    got = b" ".join(header[2:4])
    if got in WHAT and got != SORTS.get(source):
        return [f"{name} has the header of {WHAT[got]}"]
    if len(header) > 4 and header[4] in (b"symmetric", b"skew-symmetric", b"hermitian"):
        return [f"the header says {header[4].decode()}, and should end with general: from SciPy, symmetry='general'"]
    return []


def _ends(file: File, words: List[bytes], header: List[bytes]) -> List[str]:
    """Hints for a row or column of a Matrix Market text that is out of range."""
    if header[:1] != [b"%%matrixmarket"]:
        return []
    if b"symmetric" in header:
        return [f"if dams and sires are meant, the header ends with general, not symmetric. {SYMMETRIC}"]
    reading = Reading("sheet", file.known)
    sire = int(words[1]) - reading.size(0)
    return [f"a column is a sire's own number, not that of fish: sire {sire} is column {sire}"] if 0 < sire <= reading.size(1) else []


def _numbers(refused: Refused, words: List[bytes]) -> List[str]:
    """Hints for a line that is malformed."""
    if any(re.fullmatch(rb"[+-]?\d*\.\d*([eE][+-]?\d+)?|[+-]?\d+[eE][+-]?\d+", word) for word in words):
        if refused.source == "prices.mtx":
            return ["prices are in half points, so that half a point is 1: they are whole numbers"]
        return [f"numbers are whole, without a point or an exponent: {MMWRITE}"]
    if any(re.fullmatch(rb"\+\d+|[+-]?0\d+|-0", word) for word in words):
        return ["a number has no + sign and no leading zero: `jangoripu rewrite` puts an old text right"]
    if any(b"," in word or b";" in word for word in words):
        table = ": `jangoripu from-csv` makes a sheet of a table" if refused.source == "sheet.mtx" else ""
        return ["blanks separate numbers, not commas" + table]
    return []
