"""The texts. Readers, the writer of plans, the tidy form and the DIMACS assignment texts are the proved calls. The other writers are held
to the proved readers: what they wrote is read back, and must be what was to be written."""
from __future__ import annotations

from typing import Any, Iterable, Sequence, Tuple

from . import calls
from .refusals import Refused, told
from .values import Plan, Prices, Sheet, Text, wholes

HEADER = "%%MatrixMarket matrix"
LONGEST = 999_999_999  # has the most digits that a number may have


def as_bytes(text: Text) -> bytes:
    if isinstance(text, str):
        return text.encode("utf-8", "surrogateescape")
    if isinstance(text, (bytes, bytearray, memoryview)):
        return bytes(text)
    raise TypeError(f"a text is bytes or a str, not {type(text).__name__}")


def read_sheet(text: Text, source: str = "sheet.mtx") -> Sheet:
    """The sheet that a text holds. `source` is what a refusal names."""
    return calls.read_graph(as_bytes(text), source)


def read_limits(text: Text, sheet: Sheet, source: str = "limits.mtx") -> Tuple[int, ...]:
    """The limits that a text holds, one for each fish of the sheet."""
    return calls.read_numbers(as_bytes(text), False, sheet.fish, source, sheet)


def read_plan(text: Text, sheet: Sheet, source: str = "plan.mtx") -> Plan:
    """The plan of the sheet that a text holds."""
    return calls.read_subgraph(as_bytes(text), sheet, source)


def read_prices(text: Text, sheet: Sheet, source: str = "prices.mtx") -> Prices:
    """The prices that a text holds: of each fish, then of each pair; a text has no groups."""
    fish, pairs = sheet.fish, len(sheet.pairs)
    numbers = calls.read_numbers(as_bytes(text), True, fish + pairs, source, sheet)
    return Prices(numbers[:fish], numbers[fish:])


def _array(numbers: Sequence[int], prices: bool) -> bytes:
    """Limits or prices as a text. A number that has no way to be written is out of range, and is tested as the nearest that has."""
    written = [min(max(number, -LONGEST), LONGEST) for number in numbers]
    text = "".join(f"{line}\n" for line in [f"{HEADER} array integer general", f"{len(written)} 1", *written]).encode()
    what, range_, source = ("price", "0 to 4,000,000 half points", "prices.mtx") if prices else ("limit", "0 to 64", "limits.mtx")
    try:
        _same(tuple(numbers), calls.read_numbers(text, prices, len(numbers), source))
    except Refused as refused:
        if refused.number not in (10, 13):
            raise
        number = refused.place - 2  # after the header and the size line
        words = f"{what} {number} is {told(numbers[number - 1])}: {what}s are {range_}"
        raise Refused(refused.number, refused.place, source, words) from None
    return text


def _same(written: Any, read: Any) -> None:
    if written != read:
        raise ValueError("what was written reads back as something else")


def write_sheet(sheet: Sheet, comments: Iterable[str] = ()) -> bytes:
    """A sheet as a text, its pairs in their own order; `tidy` gives its one tidy form. Each comment is a line after the header."""
    if isinstance(comments, str):
        raise TypeError("comments are given as a list, a line each")
    comments = tuple(comments)
    if any("\n" in comment for comment in comments):
        raise ValueError("a comment is one line")
    calls.tidy_graph(sheet)  # refuses what is out of range, with its pair
    lines = [f"{HEADER} coordinate integer {'symmetric' if sheet.one_sided else 'general'}"]
    lines += [f"% {comment}" for comment in comments]
    lines += [f"{sheet.rows} {sheet.columns} {len(sheet.pairs)}"] + ["%d %d %d" % pair for pair in sheet.pairs]
    text = "".join(f"{line}\n" for line in lines).encode("utf-8", "backslashreplace")
    _same(sheet, read_sheet(text))
    return text


def write_limits(limits: Sequence[int]) -> bytes:
    """Limits as a text."""
    return _array(wholes(limits), False)


def write_plan(sheet: Sheet, plan: Plan) -> bytes:
    """A plan of the sheet as a text, by the proved writer."""
    return calls.write_subgraph(sheet, plan)


def write_prices(prices: Prices) -> bytes:
    """Prices as a text, which has no groups: a ValueError where there are some."""
    if prices.groups:
        raise ValueError("a price text has no groups")
    return _array(prices.fish + prices.pairs, True)


def tidy(sheet: Sheet) -> bytes:
    """The sheet's one tidy form, by the proved call. Two sheets are the same exactly if their tidy forms are."""
    return calls.tidy_graph(sheet)


def to_dimacs(sheet: Sheet, limits: Sequence[int]) -> bytes:
    """A two-sided sheet whose limits are all 1 as a DIMACS assignment text, by the proved call."""
    return calls.write_assignment(sheet, limits)


def from_dimacs(text: Text, source: str = "crosses.asn") -> Tuple[Sheet, Tuple[int, ...]]:
    """The sheet, and its limits, which are all 1, of a DIMACS assignment text."""
    return calls.read_assignment(as_bytes(text), source)
