"""Refusals: the exception, and the words of each number. What was refused is said more closely by reading.py and passed.py."""
from __future__ import annotations

from typing import Optional

WORDS = {
    1: "the text is longer than 32,768 bytes",
    2: "the first line is absent, too long or no accepted header",
    3: "the size line is absent, malformed or too long",
    4: "sizes out of range, or not the count that is needed",
    5: "a later line is malformed, too long, missing or surplus",
    6: "an end out of range or on the wrong side",
    7: "a merit out of range: merits are -1,000,000 to 1,000,000",
    8: "the same ends as an earlier pair",
    9: "what is passed has not the length that is needed",
    10: "a limit out of range: limits are 0 to 64",
    11: "a mark that is neither 0 nor 1",
    12: "the plan uses this fish more often than its limit",
    13: "a price out of range: prices are 0 to 4,000,000 half points",
    14: "a group breaks a rule, or there are more than 16",
    15: "this pair is not covered by the prices",
    16: "a one-sided sheet cannot be solved or go out as a DIMACS file",
    17: "the plan does not agree with the sheet",
    18: "the index is not the sheet's",
    19: "this fish's limit is not 1",
    20: "a DIMACS line is malformed, too long, missing, surplus or out of turn",
    21: "the source nodes are not 1 up to their number in rising order",
    24: "only a one-sided sheet of at most 64 families and 512 pairs is priced so",
}
SIZES_RULE = {False: "a two-sided sheet has 1 to 64 dams, 1 to 64 sires and at most 1,024 pairs",
              True: "a one-sided sheet has 1 to 128 families, as many columns as rows, and at most 1,024 pairs"}


class Refused(Exception):
    """A refusal: its number and place, the text that it is of ("input" for what no text says), and what it means in words."""

    def __init__(self, number: int, place: int, source: str = "input", words: Optional[str] = None) -> None:
        super().__init__(number, place, source, words)
        self.number = number
        self.place = place
        self.source = source
        self.words = WORDS.get(number, "see the manual") if words is None else words

    @property
    def line(self) -> str:
        """The line that the programs write."""
        return f"refused {self.number} at {self.place} in {self.source}"

    def __str__(self) -> str:
        return f"{self.line}: {self.words}"

    def __eq__(self, other: object) -> bool:
        return isinstance(other, Refused) and (self.line, self.words) == (other.line, other.words)

    def __hash__(self) -> int:
        return hash((self.line, self.words))


def told(number: int) -> str:
    """A number that was passed, however long it is."""
    return str(number) if abs(number) < 10**40 else "a number of more than 40 digits"


def count(number: int, noun: str) -> str:
    """A number of things: "1 pair", "2 pairs"."""
    return f"{told(number)} {noun}" + ("" if number == 1 else "s")
