"""The proved calls, by ctypes. Each function here is an exported call of the shared library: it lends it arrays of its own, so threads may
call at once, and raises Refused. Numbers never wrap: one that its C type does not hold is passed as the nearest number that it holds, or,
where that could be taken, as another that is out of range as well; so the call refuses it at its place."""
from __future__ import annotations

import ctypes
import threading
from array import array
from typing import Any, Callable, List, Optional, Sequence, Tuple

from .places import places
from .passed import Passed
from .reading import Reading
from .refusals import Refused, count
from .values import Group, Measures, Plan, Prices, Sheet, Solution, wholes

MOST_EDGES = 1024
MOST_FISH = 128
LONGEST_INDEX = 2177
PLAN_BYTES = 16384
SHEET_BYTES = 32768
WORKSPACE = 4096
FISH_WORDS = 2
PAIR_WORDS = 16

_U8, _U32, _I32, _U64, _I64 = ctypes.c_uint8, ctypes.c_uint32, ctypes.c_int32, ctypes.c_uint64, ctypes.c_int64
_SLICE = [ctypes.c_void_p, ctypes.c_size_t]
_GRAPH = [ctypes.c_bool, _U32, _U32, _U32] + 3 * _SLICE
_TOLD = [ctypes.c_void_p]
_CALLS = {
    "read_graph": 4 * _SLICE + _TOLD,
    "read_numbers": _SLICE + [ctypes.c_bool, _U32] + _SLICE + _TOLD,
    "read_subgraph": _SLICE + _GRAPH + _SLICE + _TOLD,
    "write_subgraph": _GRAPH + 2 * _SLICE + _TOLD,
    "tidy_graph": _GRAPH + _SLICE + _TOLD,
    "write_assignment": _GRAPH + 2 * _SLICE + _TOLD,
    "read_assignment": 5 * _SLICE + _TOLD,
    "build_index": _GRAPH + _SLICE + _TOLD,
    "test_index": _GRAPH + _SLICE + _TOLD,
    "solve": _GRAPH + 6 * _SLICE + _TOLD,
    "price_general": _GRAPH + 3 * _SLICE + _TOLD,
    "measure": _GRAPH + 4 * _SLICE + [_U32] + 3 * _SLICE + 2 * _TOLD,
}
_lock = threading.Lock()
_loaded: Optional[ctypes.CDLL] = None


class NoLibrary(ImportError):
    """The shared library is not there, or cannot be loaded."""


def library() -> ctypes.CDLL:
    """The shared library, loaded once."""
    global _loaded
    with _lock:
        if _loaded is None:
            try:
                opened = ctypes.CDLL(places().library)
            except OSError as error:
                raise NoLibrary(f"the library cannot be loaded: {error}") from None
            for name, passed in _CALLS.items():
                call = getattr(opened, "jangoripu_" + name)
                call.argtypes, call.restype = passed, _U32
            _loaded = opened
    return _loaded


def _call(name: str, *passed: Any) -> int:
    number: int = getattr(library(), "jangoripu_" + name)(*passed)
    return number


# ---- what is lent: a slice is an array, which is never null, and its length

def _lent(kind: Any, code: str, values: Sequence[int], held: Callable[[int], int]) -> Tuple[Any, int]:
    """Numbers as a C type holds them; `held` gives what is passed for one that it does not hold."""
    try:
        numbers = array(code, values)
    except OverflowError:
        numbers = array(code, map(held, values))
    length = len(numbers)
    return (kind * length).from_buffer(numbers) if length else (kind * 1)(), length


def _room(kind: Any, length: int) -> Tuple[Any, int]:
    return (kind * max(1, length))(), length


def _nearest(value: int, least: int, greatest: int) -> int:
    return min(max(value, least), greatest)


def _natural(value: int) -> int:
    return _nearest(value, 0, 2**32 - 1)


def _naturals(values: Sequence[int]) -> Tuple[Any, int]:
    return _lent(_U32, "I", values, _natural)


def _positions(values: Sequence[int]) -> Tuple[Any, int]:
    """The numbers of an index. The nearest to one below 0 would be 0, which an index has."""
    return _lent(_U32, "I", values, lambda value: value if 0 <= value < 2**32 else 2**32 - 1)


def _integers(values: Sequence[int]) -> Tuple[Any, int]:
    return _lent(_I32, "i", values, lambda value: _nearest(value, -(2**31), 2**31 - 1))


def _marks(plan: Plan) -> Tuple[Any, int]:
    _is(Plan, plan)
    return _lent(_U8, "B", plan.marks, lambda mark: mark if 0 <= mark <= 255 else 255)


def _words(values: Sequence[int]) -> Tuple[Any, int]:
    return _lent(_U64, "Q", values, lambda value: value)


def _is(kind: type, value: Any) -> None:
    if not isinstance(value, kind):
        raise TypeError(f"a {kind.__name__} is needed, not a {type(value).__name__}")


def _graph(sheet: Sheet) -> Sequence[Any]:
    """A sheet as the calls take it. It is made once a sheet, and only read."""
    _is(Sheet, sheet)
    lent = vars(sheet).get("_lent")
    if lent is None:
        rows, columns, merits = zip(*sheet.pairs) if sheet.pairs else ((), (), ())
        sizes = map(_natural, (sheet.rows, sheet.columns, len(sheet.pairs)))
        lent = (sheet.one_sided, *sizes, *_naturals(rows), *_naturals(columns), *_integers(merits))
        vars(sheet)["_lent"] = lent
    return lent


def _group_words(sheet: Sheet, group: Group) -> Tuple[List[int], List[int]]:
    """A group's marks as 64-bit words. A group with a fish or a pair that the sheet has not is passed as one without fish, which breaks the
    rules too."""
    words = []
    for members, most, length in ((group.fish, sheet.fish, FISH_WORDS), (group.pairs, len(sheet.pairs), PAIR_WORDS)):
        most = min(most, 64 * length)
        if not all(1 <= member <= most for member in members):
            return [0] * FISH_WORDS, [0] * PAIR_WORDS
        bits = 0
        for member in members:
            bits |= 1 << (member - 1)
        words.append([bits >> (64 * word) & (2**64 - 1) for word in range(length)])
    return words[0], words[1]


# ---- readers

def read_graph(text: bytes, source: str) -> Sheet:
    told = (_U64 * 5)()
    row, column, weight = _room(_U32, MOST_EDGES), _room(_U32, MOST_EDGES), _room(_I32, MOST_EDGES)
    number = _call("read_graph", text, len(text), *row, *column, *weight, told)
    if number:
        raise Reading("sheet", text).refused(number, told[0], source)
    return _sheet(told, row, column, weight)


def _sheet(told: Any, row: Any, column: Any, weight: Any) -> Sheet:
    edges = told[4]
    return Sheet._known(told[2], told[3], tuple(zip(row[0][:edges], column[0][:edges], weight[0][:edges])), told[1] == 1)


def read_assignment(text: bytes, source: str) -> Tuple[Sheet, Tuple[int, ...]]:
    told = (_U64 * 5)()
    row, column, weight, bound = _room(_U32, MOST_EDGES), _room(_U32, MOST_EDGES), _room(_I32, MOST_EDGES), _room(_I32, MOST_FISH)
    number = _call("read_assignment", text, len(text), *row, *column, *weight, *bound, told)
    if number:
        raise Reading("crosses", text).refused(number, told[0], source)
    sheet = _sheet(told, row, column, weight)
    return sheet, tuple(bound[0][: sheet.fish])


def read_numbers(text: bytes, prices: bool, asked: int, source: str, sheet: Optional[Sheet] = None) -> Tuple[int, ...]:
    """`asked` numbers; a count out of range is refused by the call itself, so no more room than the greatest count is made."""
    place = _U64()
    out = _room(_I32, min(asked, MOST_FISH + MOST_EDGES + 1))
    number = _call("read_numbers", text, len(text), prices, out[1], *out, ctypes.byref(place))
    if number == 4 and place.value == 0:
        raise Refused(number, 0, "input", f"{count(asked, 'number')}: a text of limits or prices has 1 to 1,152")
    if number:
        raise Reading("prices" if prices else "limits", text, sheet).refused(number, place.value, source)
    return tuple(out[0][:asked])


def read_subgraph(text: bytes, sheet: Sheet, source: str) -> Plan:
    place = _U64()
    chosen = _room(_U8, len(sheet.pairs))
    number = _call("read_subgraph", text, len(text), *_graph(sheet), *chosen, ctypes.byref(place))
    if number:
        own = number in (4, 6, 7, 8, 9) and _refuses_graph(sheet)
        if own:  # the sheet that was passed, and not the text
            raise own
        raise Reading("plan", text, sheet).refused(number, place.value, source)
    return Plan(tuple(chosen[0][: chosen[1]]))


def _refuses_graph(sheet: Sheet) -> Optional[Refused]:
    try:
        tidy_graph(sheet)
    except Refused as refused:
        return refused
    return None


# ---- writers

def _written(name: str, length: int, passed: Passed, *more: Any) -> bytes:
    told, out = (_U64 * 2)(), _room(_U8, length)
    number = _call(name, *_graph(passed.sheet), *more, *out, told)
    if number:
        raise passed.refused(number, told[0])
    return ctypes.string_at(out[0], told[1])


def write_subgraph(sheet: Sheet, plan: Plan) -> bytes:
    return _written("write_subgraph", PLAN_BYTES, Passed(sheet, plan=plan), *_marks(plan))


def tidy_graph(sheet: Sheet) -> bytes:
    return _written("tidy_graph", SHEET_BYTES, Passed(sheet))


def write_assignment(sheet: Sheet, limits: Sequence[int]) -> bytes:
    limits = wholes(limits)
    return _written("write_assignment", SHEET_BYTES, Passed(sheet, limits), *_integers(limits))


# ---- the index

def build_index(sheet: Sheet) -> Tuple[int, ...]:
    """A sheet whose index would be longer than any is out of range: its sizes are refused, by the call that tidies."""
    length = sheet.fish + 1 + 2 * len(sheet.pairs)
    if not 0 <= length <= LONGEST_INDEX:
        refused = _refuses_graph(sheet)
        assert refused is not None
        raise refused
    place, index = _U64(), _room(_U32, length)
    number = _call("build_index", *_graph(sheet), *index, ctypes.byref(place))
    if number:
        raise Passed(sheet).refused(number, place.value)
    return tuple(index[0][:length])


def test_index(sheet: Sheet, index: Sequence[int]) -> None:
    place, index = _U64(), wholes(index)
    number = _call("test_index", *_graph(sheet), *_positions(index), ctypes.byref(place))
    if number:
        raise Passed(sheet, index=index).refused(number, place.value)


# ---- solving, pricing and measuring

def _prices(fish: Tuple[Any, int], pairs: Tuple[Any, int]) -> Prices:
    """The prices that a call wrote."""
    return Prices(tuple(fish[0][: fish[1]]), tuple(pairs[0][: pairs[1]]))


def solve(sheet: Sheet, limits: Sequence[int], index: Optional[Sequence[int]] = None) -> Tuple[Plan, Prices]:
    """The prices of fish have the length of the limits, and so the index that is built here: it is right just if the limits' length is."""
    limits = wholes(limits)
    place, graph, pairs = _U64(), _graph(sheet), len(sheet.pairs)
    if index is None:
        lent = _room(_U32, len(limits) + 1 + 2 * pairs)
        _call("build_index", *graph, *lent, ctypes.byref(place))  # what this refuses, the solver refuses too
    else:
        index = wholes(index)
        lent = _positions(index)
    chosen, fish_price, pair_price = _room(_U8, pairs), _room(_I32, len(limits)), _room(_I32, pairs)
    number = _call("solve", *graph, *_integers(limits), *lent, *chosen, *fish_price, *pair_price, *_room(_I32, WORKSPACE),
                   ctypes.byref(place))
    if number:
        raise Passed(sheet, limits, index=index).refused(number, place.value)
    return Plan(tuple(chosen[0][:pairs])), _prices(fish_price, pair_price)


def price_general(sheet: Sheet, limits: Sequence[int]) -> Prices:
    """As with solving, the prices of fish have the length of the limits."""
    limits = wholes(limits)
    place, graph = _U64(), _graph(sheet)
    fish_price, pair_price = _room(_I32, len(limits)), _room(_I32, len(sheet.pairs))
    number = _call("price_general", *graph, *_integers(limits), *fish_price, *pair_price, ctypes.byref(place))
    if number:
        raise Passed(sheet, limits).refused(number, place.value)
    return _prices(fish_price, pair_price)


def measure(sheet: Sheet, limits: Sequence[int], plan: Plan, prices: Prices) -> Measures:
    _is(Sheet, sheet)
    _is(Prices, prices)
    limits = wholes(limits)
    words = [_group_words(sheet, group) for group in prices.groups]
    fish_words = [word for fish, _ in words for word in fish]
    pair_words = [word for _, pairs in words for word in pairs]
    told, place = (_I64 * 7)(), _U64()
    number = _call("measure", *_graph(sheet), *_integers(limits), *_marks(plan), *_integers(prices.fish), *_integers(prices.pairs),
                   len(prices.groups), *_integers([group.price for group in prices.groups]), *_words(fish_words), *_words(pair_words),
                   told, ctypes.byref(place))
    if number:
        raise Passed(sheet, limits, plan, prices).refused(number, place.value)
    return Measures(*told)


def solution(sheet: Sheet, limits: Sequence[int], index: Optional[Sequence[int]] = None) -> Solution:
    limits = wholes(limits)
    plan, prices = solve(sheet, limits, index)
    return Solution(plan, prices, measure(sheet, limits, plan, prices).merit)
