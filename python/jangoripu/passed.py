"""Refusals of numbers that were passed, in words: the place is a pair, a fish, a price or a group."""
from __future__ import annotations

from dataclasses import dataclass
from typing import List, Optional, Sequence, Tuple

from .refusals import SIZES_RULE, WORDS, Refused, count, told
from .values import Plan, Prices, Sheet

MOST_PRICED = {"families": 64, "pairs": 512}


@dataclass(frozen=True)
class Passed:
    """What a call on numbers was passed, to say a refusal in words."""

    sheet: Sheet
    limits: Optional[Sequence[int]] = None
    plan: Optional[Plan] = None
    prices: Optional[Prices] = None
    index: Optional[Sequence[int]] = None

    def refused(self, number: int, place: int) -> Refused:
        """A refusal, in words that name the fish and the pair."""
        say = getattr(self, f"_say_{number}", None)
        return Refused(number, place, "input", say(place) if say else None)

    def _pair(self, place: int) -> str:
        return f"pair {place} ({self.sheet.pair_name(place)})"

    def _say_4(self, _: int) -> str:
        sheet = self.sheet
        sizes = ("row", "column") if sheet.one_sided else ("dam", "sire")
        return (f"{count(sheet.rows, sizes[0])}, {count(sheet.columns, sizes[1])} and {count(len(sheet.pairs), 'pair')}: "
                f"{SIZES_RULE[sheet.one_sided]}")

    def _say_6(self, place: int) -> str:
        row, column, _ = self.sheet.pairs[place - 1]
        if not self.sheet.one_sided:
            rule = f"rows are 1 to {self.sheet.rows} and columns 1 to {self.sheet.columns}"
        elif row == column:
            rule = "a family is not paired with itself"
        else:
            rule = f"families are 1 to {self.sheet.rows}, and the row is the greater"
        return f"pair {place} has row {told(row)} and column {told(column)}: {rule}"

    def _say_7(self, place: int) -> str:
        return f"the merit of {self._pair(place)} is {told(self.sheet.pairs[place - 1][2])}: merits are -1,000,000 to 1,000,000"

    def _say_8(self, place: int) -> str:
        ends = self.sheet.pairs[place - 1][:2]
        earlier = next(number for number, pair in enumerate(self.sheet.pairs, 1) if pair[:2] == ends)
        return f"{self._pair(place)} has the same ends as pair {earlier}"

    def _say_9(self, _: int) -> str:
        fish, pairs = self.sheet.fish, len(self.sheet.pairs)
        lengths: List[Tuple[str, Optional[Sequence[int]], int, str]] = [
            ("limits", self.limits, fish, "one a fish"),
            ("marks", None if self.plan is None else self.plan.marks, pairs, "one a pair"),
            ("prices of fish", None if self.prices is None else self.prices.fish, fish, "one a fish"),
            ("prices of pairs", None if self.prices is None else self.prices.pairs, pairs, "one a pair"),
            ("numbers of an index", self.index, fish + 1 + 2 * pairs, "fish + 1 + 2 times the pairs")]
        wrong = [f"{what}: {len(got)} passed, {told(needed)} needed, {why}" for what, got, needed, why in lengths
                 if got is not None and len(got) != needed]
        return "; ".join(wrong) or WORDS[9]

    def _limit(self, place: int) -> str:
        assert self.limits is not None
        return f"the limit of {self.sheet.fish_name(place)} is {told(self.limits[place - 1])}"

    def _say_10(self, place: int) -> str:
        return f"{self._limit(place)}: limits are 0 to 64"

    def _say_11(self, place: int) -> str:
        assert self.plan is not None
        return f"the mark of {self._pair(place)} is {told(self.plan.marks[place - 1])}: a mark is 0 or 1"

    def _say_12(self, place: int) -> str:
        assert self.plan is not None and self.limits is not None
        uses = sum(place in self.sheet.ends(pair) for pair in self.plan.chosen)
        return f"the plan uses {self.sheet.fish_name(place)} in {count(uses, 'pair')}, and its limit is {self.limits[place - 1]}"

    def _say_13(self, place: int) -> str:
        assert self.prices is not None
        fish, pairs = len(self.prices.fish), len(self.prices.pairs)
        if place <= fish:
            whose, price = self.sheet.fish_name(place), self.prices.fish[place - 1]
        elif place <= fish + pairs:
            whose, price = self._pair(place - fish), self.prices.pairs[place - fish - 1]
        else:
            number = place - fish - pairs
            whose, price = f"group {number}", self.prices.groups[number - 1].price
        return f"the price of {whose} is {told(price)}: prices are 0 to 4,000,000 half points"

    def _say_14(self, place: int) -> str:
        assert self.prices is not None and self.limits is not None
        if place > len(self.prices.groups) or len(self.prices.groups) > 16:
            return f"there are {len(self.prices.groups)} groups, and at most 16 are taken"
        group, sheet = self.prices.groups[place - 1], self.sheet
        strange = [f"fish {told(fish)}" for fish in group.fish if not 1 <= fish <= sheet.fish]
        strange += [f"pair {told(pair)}" for pair in group.pairs if not 1 <= pair <= len(sheet.pairs)]
        if strange:
            return f"group {place} has {strange[0]}, which is not on the sheet"
        if not group.fish:
            return f"group {place} has no fish"
        for pair in group.pairs:
            inside = sum(fish in group.fish for fish in sheet.ends(pair))
            if inside != 1:
                which = "both its fish" if inside else "no fish"
                return f"group {place} marks {self._pair(pair)}, which has {which} in the group, and not just one"
        limits, marked = sum(self.limits[fish - 1] for fish in set(group.fish)), len(set(group.pairs))
        return f"group {place}: the limits of its fish, {limits}, and its marked pairs, {marked}, make {limits + marked}, which is even"

    def _say_15(self, place: int) -> str:
        assert self.prices is not None
        merit, reach = self.sheet.pairs[place - 1][2], self.prices.reach(self.sheet, place)
        return (f"{self._pair(place)} is not covered: its prices reach {count(reach, 'half point')}, {2 * merit - reach} short of "
                f"{2 * merit}, which is twice its merit")

    def _say_16(self, _: int) -> str:
        return "the sheet is one-sided, and only two-sided sheets are solved or go out as DIMACS files"

    def _say_18(self, place: int) -> str:
        among = "offsets" if place <= self.sheet.fish + 1 else "numbers of pairs"
        return f"the index is not the sheet's: the first difference is at position {place}, among the {among}"

    def _say_19(self, place: int) -> str:
        return f"{self._limit(place)}: in an assignment file every limit is 1; a minimum cost flow (--min) takes any"

    def _say_24(self, _: int) -> str:
        if not self.sheet.one_sided:
            return "the sheet is two-sided, and only one-sided sheets are priced so"
        has = {"families": self.sheet.rows, "pairs": len(self.sheet.pairs)}
        over = [what for what, most in MOST_PRICED.items() if has[what] > most]
        return (f"the sheet has {' and '.join(f'{has[what]} {what}' for what in over)}, and at most "
                f"{' and '.join(f'{MOST_PRICED[what]} {what}' for what in over)} are priced")
