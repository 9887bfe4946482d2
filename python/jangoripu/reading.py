"""Refusals of texts, in words: the place is a line."""
from __future__ import annotations

import re
from dataclasses import dataclass
from typing import List, Optional, Tuple

from .refusals import SIZES_RULE, WORDS, Refused, count
from .values import Sheet

LONGEST_LINE = 1024
HEADERS = {"sheet": "coordinate integer general, or symmetric", "limits": "array integer general",
           "plan": "coordinate pattern general, or symmetric", "prices": "array integer general"}
SIZES = {"sheet": "rows, columns and the number of pairs", "plan": "rows, columns and the number of chosen pairs",
         "limits": "the number of limits, and 1", "prices": "the number of prices, and 1"}
LATER = {"sheet": "row, column and merit", "plan": "row and column", "limits": "one limit", "prices": "one price"}
NUMBER = rb"(0|[1-9]\d{0,8})"
BLANKS = rb"[ \t]+"
DIMACS = [rb"p[ \t]+asn" + 2 * (BLANKS + NUMBER), rb"n" + BLANKS + NUMBER, rb"a" + 2 * (BLANKS + NUMBER) + BLANKS + rb"(0|-?[1-9]\d{0,8})"]


def shown(line: bytes, most: int = 60) -> str:
    """A line as it can be shown: printable ASCII, the rest escaped, and not too long."""
    text = "".join(chr(byte) if 32 <= byte < 127 and byte != 92 else f"\\x{byte:02x}" for byte in line[:most])
    return f"'{text}'" + (" .." if len(line) > most else "")


@dataclass(frozen=True)
class Reading:
    """A text that was read: of which sort, and the sheet that it goes with."""

    sort: str
    text: bytes
    sheet: Optional[Sheet] = None

    @property
    def lines(self) -> List[bytes]:
        lines = self.text.split(b"\n")
        return lines[:-1] if lines[-1] == b"" else lines

    def refused(self, number: int, place: int, source: str) -> Refused:
        """A refusal of the text, in words that show its line and name what it is about."""
        return Refused(number, place, source, self._words(number, place))

    def _words(self, number: int, place: int) -> Optional[str]:
        if number == 1 or place == 0:
            return None
        if not self.text:
            return "the text is empty"
        if place == 1 and self.text.startswith((b"\xef\xbb\xbf", b"\xff\xfe", b"\xfe\xff")):
            return "the text begins with a byte order mark, which is no part of its first line"
        lines = self.lines
        if place > len(lines):
            return f"line {place} is missing: " + self._missing(number)
        line = lines[place - 1]
        if len(line) > LONGEST_LINE:
            return f"line {place} has more than {LONGEST_LINE:,} bytes"
        if line.endswith(b"\r"):
            return f"line {place} ends with byte 13, a carriage return: {shown(line)}"
        say = getattr(self, f"_say_{number}", None)
        return f"line {place} is {shown(line)}: {say(place, line.split()) if say else WORDS.get(number, 'see the manual')}"

    # ---- what a line is about

    def _entries(self) -> Tuple[int, List[int]]:
        """The size line, and the later lines that are not blank, by their places; 0 and none where there is no size line."""
        lines = self.lines
        places = [place for place, line in enumerate(lines, 1) if place > 1 and line.strip(b" \t")]
        while places and lines[places[0] - 1].startswith(b"%"):
            places.pop(0)
        return (places[0], places[1:]) if places else (0, [])

    @property
    def one_sided(self) -> bool:
        return self.lines[0].lower().split()[-1:] == [b"symmetric"]

    def size(self, part: int) -> int:
        """A number of the size line, which was accepted."""
        place, _ = self._entries()
        return int(self.lines[place - 1].split()[part])

    @property
    def _said(self) -> int:
        """How many lines the size line says."""
        return self.size(2 if self.sort in ("sheet", "plan") else 0)

    def _dimacs(self, letter: bytes) -> List[int]:
        """The lines of an assignment text that begin with a letter, by their places."""
        return [place for place, line in enumerate(self.lines, 1) if line.startswith(letter)]

    def _pair(self, words: List[bytes]) -> str:
        row, column = (word.decode("ascii") for word in words[:2])
        return f"family {row} with family {column}" if self.one_sided else f"dam {row} with sire {column}"

    def _whose(self, place: int) -> str:
        """Whose limit or price stands on a line."""
        number = self._entries()[1].index(place) + 1
        what = "limit" if self.sort == "limits" else "price"
        if self.sheet is None:
            return f"{what} {number}"
        if number <= self.sheet.fish:
            return f"the {what} of {self.sheet.fish_name(number)}"
        pair = number - self.sheet.fish
        return f"the {what} of pair {pair} ({self.sheet.pair_name(pair)})"

    # ---- the refusals

    def _missing(self, number: int) -> str:
        if number == 5:
            return f"the size line says {count(self._said, 'line')}, and {len(self._entries()[1])} follow"
        if number == 20 and not self._dimacs(b"p"):
            return "there is no p line"
        if number == 20:
            return f"the p line says {self._arcs()}, and {len(self._dimacs(b'a'))} follow"
        return "there is no size line" if number == 3 else WORDS.get(number, "see the manual")

    def _arcs(self) -> str:
        return count(int(self.lines[self._dimacs(b"p")[0] - 1].split()[3]), "arc")

    def _say_2(self, place: int, words: List[bytes]) -> str:
        return f"the header should be %%MatrixMarket matrix {HEADERS[self.sort]}"

    def _say_3(self, place: int, words: List[bytes]) -> str:
        return f"the size line should be {SIZES[self.sort]}, without leading zeros"

    def _say_4(self, place: int, words: List[bytes]) -> str:
        if self.sort == "crosses":
            return "the n lines are the dams and the nodes left over the sires, 1 to 64 of each, with at most 1,024 arcs"
        if self.sort in ("sheet", "plan"):
            return SIZES_RULE[self.one_sided]
        assert self.sheet is not None
        fish, pairs = self.sheet.fish, len(self.sheet.pairs)
        if self.sort == "limits":
            return f"the size line should be {fish} 1, one limit for each of {fish} fish"
        return f"the size line should be {fish + pairs} 1, for {fish} fish and {count(pairs, 'pair')}"

    def _say_5(self, place: int, words: List[bytes]) -> str:
        if self.lines[place - 1].startswith(b"%"):
            return "comments stand between the header and the size line only"
        if self._entries()[1].index(place) >= self._said:
            return f"one line too many, the size line says {self._said}"
        return f"the line should be {LATER[self.sort]}, in whole numbers without + and leading zeros"

    def _say_6(self, place: int, words: List[bytes]) -> str:
        if self.sort == "crosses":
            dams, nodes = len(self._dimacs(b"n")), int(self.lines[self._dimacs(b"p")[0] - 1].split()[2])
            return f"an arc goes from a dam, node 1 to {dams}, to a sire, node {dams + 1} to {nodes}"
        if not self.one_sided:
            return f"rows are 1 to {self.size(0)} and columns 1 to {self.size(1)}"
        if words[0] == words[1]:
            return "a family is not paired with itself"
        return f"families are 1 to {self.size(0)}, and the greater number comes first"

    def _say_7(self, place: int, words: List[bytes]) -> str:
        if self.sort == "crosses":
            return "the cost is out of range, costs are -1,000,000 to 1,000,000"
        return f"the merit of {self._pair(words)} is out of range, merits are -1,000,000 to 1,000,000"

    def _say_8(self, place: int, words: List[bytes]) -> str:
        if self.sort == "crosses":
            earlier = next(number for number in self._dimacs(b"a") if self.lines[number - 1].split()[1:3] == words[1:3])
            return f"these nodes stand on line {earlier} already"
        earlier = next(number for number in self._entries()[1] if self.lines[number - 1].split()[:2] == words[:2])
        return f"{self._pair(words)} stands on line {earlier} already"

    def _say_10(self, place: int, words: List[bytes]) -> str:
        return f"{self._whose(place)} is out of range, limits are 0 to 64"

    def _say_13(self, place: int, words: List[bytes]) -> str:
        return f"{self._whose(place)} is out of range, prices are 0 to 4,000,000 half points"

    def _say_17(self, place: int, words: List[bytes]) -> str:
        assert self.sheet is not None
        sheet = self.sheet
        if place == 1:
            sort, word = ("one-sided", "symmetric") if sheet.one_sided else ("two-sided", "general")
            return f"the sheet is {sort}, so the plan's header should end with {word}"
        if place == self._entries()[0]:
            return f"the sheet has {count(sheet.rows, 'row')}, {count(sheet.columns, 'column')} and {count(len(sheet.pairs), 'pair')}"
        return f"{self._pair(words)} is no pair of the sheet"

    def _say_20(self, place: int, words: List[bytes]) -> str:
        line = self.lines[place - 1].rstrip(b" \t")
        if not any(re.fullmatch(form, line) for form in DIMACS):
            return "a line should be p asn NODES ARCS, n NODE or a SOURCE TARGET COST, in whole numbers without + and leading zeros"
        if words[0] == b"a" and any(earlier < place for earlier in self._dimacs(b"p")):
            return f"one arc too many, the p line says {self._arcs()}"
        return "out of turn: one p line comes first, then n lines, then a lines"

    def _say_21(self, place: int, words: List[bytes]) -> str:
        return "the source nodes should be 1, 2, 3 and so on, a line for each"
