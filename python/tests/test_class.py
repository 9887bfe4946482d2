"""A class that is marked: on each folder's own sheet, and on a teacher's key; as a table, as JSON, as CSV and plain."""
import csv
import io
import json
import os
import random
import re
import time
import unicodedata
import unittest

from common import COMMAND, EXAMPLES, LAUNCH, ROOT, command, draw_limits, draw_plan, draw_prices, draw_sheet, files_of, folder, full_class, full_sheet
from common import largest, measured, program, put, read, run, uses
from forked import forked
from jangoripu import Plan, Prices, Sheet, solve

SEASON = os.path.join(EXAMPLES, "season")
CLASS = os.path.join(EXAMPLES, "class")
EMPTY = files_of(Sheet(1, 1, ()), (0, 0), Plan(()), Prices((0, 0), ()))
DIFFER = "the folders' sheets or limits differ"


def width(text):
    """The columns that a terminal shows a text in. U+1160 to U+11FF are the later parts of a Korean syllable in NFD."""
    return sum(0 if unicodedata.combining(sign) or "\u1160" <= sign <= "\u11ff" else 2 if unicodedata.east_asian_width(sign) in "WF" else 1 for sign in text)


def merit_of(sheet, plan):
    return sum(pair[2] for pair, mark in zip(sheet.pairs, plan.marks) if mark)


def reordered(draw, sheet, prices):
    """The same sheet with its pairs in another order, and the prices that go with it."""
    order = draw.sample(range(len(sheet.pairs)), len(sheet.pairs))
    return (Sheet(sheet.rows, sheet.columns, tuple(sheet.pairs[pair] for pair in order), sheet.one_sided),
            Prices(prices.fish, tuple(prices.pairs[pair] for pair in order)), order)


class Case(unittest.TestCase):
    def setUp(self):
        made = folder()
        self.place = made.__enter__()
        self.addCleanup(made.__exit__, None, None, None)

    def put(self, name, files):
        put(os.path.join(self.place, name), files)
        return name

    def run_class(self, *words):
        ran = forked("class", *words, cwd=self.place)
        self.assertNotIn(b"Traceback", ran.err)
        return ran

    def records(self, *words):
        ran = self.run_class("--json", *words)
        self.assertEqual(ran.err, b"")
        return json.loads(ran.out.decode("ascii"))


class OwnSheets(Case):
    """Without a key."""

    def test_the_manuals_table(self):
        names = ["best", "damaged", "falling-merit", "over-limit", "uncovered"]
        ran = command("class", *(f"examples/class/{name}" for name in names), cwd=ROOT)
        lines = ran.out.decode().split("\n")
        self.assertEqual((ran.status, ran.err), (1, b""))
        self.assertEqual(lines[0], "folder                        merit  total  gap  result")
        self.assertEqual(lines[1], "examples/class/best            2960   5920    0  best")
        self.assertTrue(lines[2].startswith("examples/class/damaged            -      -    -  refused 5 at 7 in plan.mtx: "), lines[2])
        self.assertEqual(lines[3], "examples/class/falling-merit   2685   5920  550  lacks at most 275 points")
        self.assertTrue(lines[4].startswith("examples/class/over-limit         -      -    -  refused 12 at 4 in input: "), lines[4])
        self.assertTrue(lines[5].startswith("examples/class/uncovered          -      -    -  refused 15 at 1 in input: "), lines[5])
        self.assertEqual(lines[6:], ["5 marked: 1 best, 1 with a gap, 3 refused", ""])

    def test_plain(self):
        names = ["best", "damaged", "falling-merit", "over-limit", "uncovered"]
        ran = forked("class", "--plain", *names, cwd=CLASS)
        expected = ""
        for name in names:
            files = {own: read(CLASS, name, own) for own in os.listdir(os.path.join(CLASS, name))}
            expected += f"{name}: {program('mark', files).decode()}"
        self.assertEqual((ran.status, ran.out.decode(), ran.err), (1, expected, b""))

    def test_statuses(self):
        for words, status in (([SEASON], 0), ([SEASON, os.path.join(CLASS, "falling-merit")], 0), ([SEASON, os.path.join(CLASS, "damaged")], 1),
                              ([SEASON, "nowhere"], 2), ([os.path.join(CLASS, "damaged"), "nowhere"], 2)):
            for form in ([], ["--json"], ["--csv"], ["--plain"]):
                self.assertEqual(self.run_class(*form, *words).status, status, (form, words))

    def test_differing_sheets_are_told(self):
        draw = random.Random(5)
        sheet = draw_sheet(draw, 3, 3, 6, least=-9, greatest=9)
        limits = (1, 2, 1, 1, 2, 1)
        plan, prices = draw_plan(draw, sheet, limits), draw_prices(draw, sheet, limits)
        other, others, order = reordered(draw, sheet, prices)
        self.assertNotEqual(other.pairs, sheet.pairs)
        moved = Plan(tuple(plan.marks[pair] for pair in order))
        self.put("one", files_of(sheet, limits, plan, prices))
        self.put("order", files_of(other, limits, moved, others))
        self.put("no plan", files_of(sheet, limits))
        self.put("bad sheet", {"sheet.mtx": b"x"})
        self.put("limits", files_of(sheet, (1, 2, 1, 1, 2, 2), plan, prices))
        self.put("merits", files_of(Sheet(3, 3, sheet.pairs[:5] + ((*sheet.pairs[5][:2], sheet.pairs[5][2] - 1),)), limits, plan, prices))
        self.put("fewer, no plan", files_of(Sheet(3, 3, sheet.pairs[:5]), limits))
        self.put("empty", EMPTY)
        for names, differ in ((["one"], False), (["one", "one", "order"], False), (["one", "no plan", "bad sheet", "nowhere"], False),
                              (["one", "limits"], True), (["merits", "one"], True), (["one", "order", "fewer, no plan"], True),
                              (["one", "empty"], True), (["bad sheet"], False), (["empty", "empty"], False)):
            ran = self.run_class(*names)
            self.assertEqual(sum(line.startswith(DIFFER) for line in ran.out.decode().split("\n")), differ, names)
            self.assertEqual(ran.out.count(b"\n"), 2 + len(names) + differ, names)
            self.assertIs(self.records(*names)["differ"], differ)
            for form in ("--csv", "--plain"):
                self.assertEqual(self.run_class(form, *names).err.decode().startswith(f"jangoripu: {DIFFER}"), differ, (form, names))


class Key(Case):
    """With a teacher's key."""

    def small_class(self, seed, one_sided=False):
        """A drawn class with all that can happen in it; for each folder what is known of it: the merit of a valid plan on the class's sheet."""
        draw = random.Random(seed)
        sheet = draw_sheet(draw, draw.randint(2, 4), draw.randint(2, 4), 9, one_sided, -5, 30)
        limits = draw_limits(draw, sheet, 2)
        best = largest(sheet, limits)
        self.put("key", files_of(sheet, limits))
        known = {}

        def add(name, sheet, limits, plan, prices, merit, **more):
            known[self.put(name, dict(files_of(sheet, limits, plan, prices), **more))] = (merit, measured(sheet, limits, plan, prices)
                                                                                          if merit is not None and not more and prices else None)

        for turn in range(4):
            plan, prices = draw_plan(draw, sheet, limits), draw_prices(draw, sheet, limits)
            merit = merit_of(sheet, plan)
            add(f"good {turn}", sheet, limits, plan, prices, merit)
            add(f"no prices {turn}", sheet, limits, plan, None, merit)
            add(f"bad prices {turn}", sheet, limits, plan, prices, merit, **{"prices.mtx": b"x"})
            other, others, order = reordered(draw, sheet, prices)
            moved = Plan(tuple(plan.marks[pair] for pair in order))
            add(f"other order {turn}", other, limits, moved, others, merit)
            add(f"other order, no prices {turn}", other, limits, moved, None, merit)
            if any(pair[2] > 0 for pair in sheet.pairs):
                nothing = Prices((0,) * sheet.fish, (0,) * len(sheet.pairs))
                add(f"not covered {turn}", sheet, limits, plan, nothing, merit, **{"prices.mtx": files_of(sheet, limits, plan, nothing)["prices.mtx"]})
            full = Plan((1,) * len(sheet.pairs))
            if any(used > limit for used, limit in zip(uses(sheet, full.marks), limits)):
                add(f"over a limit {turn}", sheet, limits, full, prices, None)
            add(f"bad plan {turn}", sheet, limits, plan, prices, None, **{"plan.mtx": b"x"})
        return sheet, limits, best, known

    def test_what_plans_lack(self):
        for seed in range(8):
            _, _, best, known = self.small_class(seed)
            record = self.records("--key", "key", *known)
            self.assertEqual(record["best_merit"], best)
            rows = {row["folder"]: row for row in record["folders"]}
            self.assertEqual(list(rows), list(known))
            for name, (merit, measures) in known.items():
                row = rows[name]
                self.assertIs(row["same_sheet"], True)
                self.assertEqual((row["merit"], row["lacks"]), (merit, None if merit is None else best - merit), (seed, name))
                self.assertEqual(row["measures"], None if measures is None else vars(measures), (seed, name))
                self.assertEqual(row["refused"] is None, measures is not None, (seed, name))
                self.assertEqual(row["best"], measures is not None and measures.gap <= 1)
            counts = record["counts"]
            self.assertEqual(counts["marked"], len(known))
            self.assertEqual(counts["best"], sum(row["best"] for row in rows.values()))
            self.assertEqual(counts["refused"], sum(measures is None for _, measures in known.values()))
            self.assertEqual(counts["best"] + counts["gap"] + counts["refused"], counts["marked"])
            self.assertEqual((counts["other_sheet"], counts["unread"]), (0, 0))

    def test_the_table_says_what_they_lack(self):
        _, _, best, known = self.small_class(11)
        ran = self.run_class("--key", "key", *known)
        lines = ran.out.decode().rstrip("\n").split("\n")
        self.assertEqual(re.split(" {2,}", lines[0]), ["folder", "merit", "lacks", "total", "gap", "result"])
        self.assertEqual(lines[-1], f"key key: the best merit is {best}")
        for (name, (merit, measures)), line in zip(known.items(), lines[1:]):
            cells = re.split(" {2,}", line, maxsplit=5)
            numbers = [merit, None if merit is None else best - merit, measures and measures.total, measures and measures.gap]
            self.assertEqual(cells[:5], [name] + ["-" if number is None else str(number) for number in numbers], line)
            if measures is not None and measures.gap > 1:
                lacks = best - merit
                self.assertEqual(cells[5], "best, but its prices leave a gap" if not lacks else f"lacks {lacks} point{'s' * (lacks != 1)}")
        self.assertEqual(ran.status, 1)

    def test_poor_prices_of_a_best_plan(self):
        sheet = Sheet(2, 2, ((1, 1, 5), (1, 2, 4), (2, 1, 4), (2, 2, 1)))
        limits, plan = (1, 1, 1, 1), Plan((0, 1, 1, 0))
        self.put("key", files_of(sheet, limits))
        self.put("poor", files_of(sheet, limits, plan, Prices((10, 10, 0, 0), (0, 0, 0, 0))))
        self.put("fine", files_of(sheet, limits, plan, Prices((8, 6, 2, 0), (0, 0, 0, 0))))
        self.put("falling", files_of(sheet, limits, Plan((1, 0, 0, 1)), Prices((8, 6, 2, 0), (0, 0, 0, 0))))
        ran = self.run_class("--key=key", "poor", "fine", "falling")
        self.assertEqual(ran.out.decode().split("\n"), [
            "folder   merit  lacks  total  gap  result", "poor         8      0     20    4  best, but its prices leave a gap",
            "fine         8      0     16    0  best", "falling      6      2     16    4  lacks 2 points",
            "3 marked: 1 best, 2 with a gap, 0 refused", "key key: the best merit is 8", ""])
        self.assertEqual(ran.status, 0)

    def test_other_sheets_are_not_counted(self):
        draw = random.Random(21)
        sheet, limits, best, known = self.small_class(21)
        plan, prices = draw_plan(draw, sheet, limits), draw_prices(draw, sheet, limits)
        first = sheet.pairs[0]
        strange = {
            "empty": EMPTY,
            "limits": files_of(sheet, (limits[0] + 1,) + limits[1:], plan, prices),
            "merits": files_of(Sheet(sheet.rows, sheet.columns, ((first[0], first[1], first[2] - 1),) + sheet.pairs[1:]), limits, plan, prices),
            "a pair less": files_of(Sheet(sheet.rows, sheet.columns, sheet.pairs[1:]), limits, Plan(plan.marks[1:]), Prices(prices.fish, prices.pairs[1:])),
            "a sire more": files_of(Sheet(sheet.rows, sheet.columns + 1, sheet.pairs), limits + (0,), plan, Prices(prices.fish + (0,), prices.pairs)),
            "no plan at all": files_of(Sheet(1, 1, ()), (0, 0)),
        }
        for name, files in strange.items():
            self.put(name, files)
        self.put("bad sheet", {"sheet.mtx": b"x"})
        names = [*known, *strange, "bad sheet", "nowhere"]
        record = self.records("--key", "key", *names)
        rows = {row["folder"]: row for row in record["folders"]}
        for name in strange:
            self.assertIs(rows[name]["same_sheet"], False)
            self.assertEqual(rows[name]["result"], "not the class's sheet")
            self.assertEqual([rows[name][cell] for cell in ("best", "merit", "lacks", "measures")], [False, None, None, None])
        counts = record["counts"]
        self.assertEqual((counts["marked"], counts["other_sheet"], counts["unread"]), (len(known) + 1, len(strange), 1))
        self.assertEqual(counts["best"] + counts["gap"] + counts["refused"], counts["marked"])
        self.assertEqual(counts["marked"] + counts["other_sheet"] + counts["unread"], len(names))
        ran = self.run_class("--key", "key", *names)
        self.assertEqual(ran.status, 2)
        self.assertIn(f"{counts['marked']} marked: {counts['best']} best, {counts['gap']} with a gap, {counts['refused']} refused; "
                      f"{len(strange)} not on the class's sheet, not counted; 1 not read\n", ran.out.decode())
        self.assertNotIn(DIFFER, ran.out.decode())
        self.assertEqual(ran.out.decode().count("not the class's sheet"), len(strange))
        self.assertEqual(self.run_class("--key", "key", "empty").status, 1)
        self.assertEqual(self.run_class("--plain", "--key", "key", "empty").out, b"empty: not the class's sheet\n")

    def test_an_empty_sheet_is_best_only_without_a_key(self):
        self.put("empty", EMPTY)
        self.assertIn(b"1 best", self.run_class("empty").out)
        ran = self.run_class("--key", SEASON, "empty", SEASON)
        self.assertIn(b"1 marked: 1 best, 0 with a gap, 0 refused; 1 not on the class's sheet, not counted\n", ran.out)

    def test_the_seasons_class(self):
        names = sorted(os.listdir(CLASS))
        ran = forked("class", "--key", SEASON, *names, cwd=CLASS)
        lines = ran.out.decode().split("\n")
        cells = {line.split()[0]: line.split()[1:5] for line in lines[1:6]}
        self.assertEqual(cells["best"], ["2960", "0", "5920", "0"])
        self.assertEqual(cells["falling-merit"], ["2685", "275", "5920", "550"])
        self.assertEqual(cells["damaged"], ["-", "-", "-", "-"])
        self.assertEqual(cells["over-limit"], ["-", "-", "-", "-"])
        self.assertEqual(cells["uncovered"][2:], ["-", "-"])
        self.assertEqual(int(cells["uncovered"][0]) + int(cells["uncovered"][1]), 2960)
        self.assertTrue(lines[3].endswith("  lacks 275 points"), lines[3])
        self.assertEqual(lines[7], f"key {SEASON}: the best merit is 2960")

    def test_a_one_sided_key(self):
        sheet, limits, best, known = self.small_class(31, one_sided=True)
        record = self.records("--key", "key", *known)
        self.assertIsNone(record["best_merit"])
        for row in record["folders"]:
            merit, measures = known[row["folder"]]
            self.assertEqual((row["merit"], row["lacks"]), (merit, None))
            self.assertEqual(row["measures"], None if measures is None else vars(measures))
            if measures is not None and measures.gap > 1:
                self.assertEqual(row["result"], f"lacks at most {measures.gap // 2} point{'s' * (measures.gap // 2 != 1)}")
                self.assertLessEqual(best - merit, measures.gap // 2)
        self.assertIn("key key: a one-sided sheet", self.run_class("--key", "key", *known).out.decode())

    def test_keys_that_are_none(self):
        self.put("good", files_of(Sheet(1, 1, ((1, 1, 3),)), (1, 1), Plan((1,)), Prices((6, 0), (0,))))
        self.put("no limits", {"sheet.mtx": files_of(Sheet(1, 1, ()), ())["sheet.mtx"]})
        self.put(".", {"file": b"x"})
        os.makedirs(os.path.join(self.place, "folders", "sheet.mtx"))
        for key, said in (("nowhere", "nowhere"), ("file", "file"), ("no limits", "limits.mtx"), ("folders", "sheet.mtx")):
            for form in ([], ["--json"]):
                ran = self.run_class("--key", key, *form, "good")
                self.assertEqual((ran.status, ran.out), (2, b""), key)
                self.assertTrue(ran.err.startswith(b"jangoripu: ") and b"key" in ran.err and said.encode() in ran.err, ran.err)
        ran = self.run_class("good", "--key")
        self.assertEqual((ran.status, ran.out), (2, b""))

    def test_a_key_with_accidents(self):
        good = files_of(Sheet(1, 1, ((1, 1, 3),)), (1, 1), Plan((1,)), Prices((6, 0), (0,)))
        self.put("good", good)
        self.put("named", {"sheet.mtx": good["sheet.mtx"], "limits.mtx.txt": good["limits.mtx"]})
        self.put("windows", dict(good, **{"sheet.mtx": good["sheet.mtx"].replace(b"\n", b"\r\n")}))
        ran = self.run_class("--key", "nowhere", "good")
        self.assertEqual((ran.status, ran.err), (2, b"jangoripu: the key: nowhere is no folder\n"))
        ran = self.run_class("--key", "named", "good")
        self.assertEqual(ran.status, 2)
        self.assertIn(b"there is no file named/limits.mtx, but there is limits.mtx.txt", ran.err)
        ran = self.run_class("--key", "windows", "good")
        self.assertEqual((ran.status, ran.out), (1, b"refused 2 at 1 in windows/sheet.mtx\n"))
        self.assertIn(b"line ends of Windows", ran.err)

    def test_a_key_that_is_refused(self):
        self.put("good", EMPTY)
        for name, files, line in (("sheet", dict(EMPTY, **{"sheet.mtx": b"x"}), "refused 2 at 1 in sheet/sheet.mtx\n"),
                                  ("limits", dict(EMPTY, **{"limits.mtx": EMPTY["limits.mtx"].replace(b"\n0\n", b"\n65\n", 1)}),
                                   "refused 10 at 3 in limits/limits.mtx\n")):
            self.put(name, files)
            ran = self.run_class("good", "--key", name)
            self.assertEqual((ran.status, ran.out.decode()), (1, line))
            self.assertTrue(ran.err.startswith(b"jangoripu: ") and b"key" in ran.err and name.encode() + b".mtx" in ran.err, ran.err)


class Forms(Case):
    """The table, JSON and CSV say the same."""

    def test_they_agree(self):
        draw = random.Random(61)
        sheet = draw_sheet(draw, 3, 3, 7, least=0, greatest=9)
        limits = (1, 2, 1, 1, 2, 1)
        self.put("key", files_of(sheet, limits))
        names = []
        for turn in range(12):
            plan, prices = draw_plan(draw, sheet, limits), draw_prices(draw, sheet, limits, greatest=9)
            files = files_of(sheet, limits, plan, prices)
            if turn % 4 == 1:
                del files["prices.mtx"]
            if turn % 6 == 2:
                files = EMPTY
            names.append(self.put(f"=t,\"{turn}\"", files))
        best = solve(sheet, limits)
        names.append(self.put("best", files_of(sheet, limits, best.plan, best.prices)))
        names.append("nowhere")
        for key in ([], ["--key", "key"]):
            record = self.records(*key, *names)
            table = list(csv.reader(io.StringIO(self.run_class("--csv", *names, *key).out.decode())))
            self.assertEqual(table[0], ["folder", "result", "best", "merit", "lacks", "total", "gap", "refused", "place", "source"])
            lines = self.run_class(*names, *key).out.decode().split("\n")
            self.assertEqual(len(table), 1 + len(names))
            for name, row, cells, line in zip(names, record["folders"], table[1:], lines[1:]):
                self.assertEqual(row["folder"], name)
                self.assertEqual(cells[0].lstrip("'"), name)
                self.assertFalse(cells[0].startswith("="))
                self.assertTrue(cells[1].startswith(row["result"]))
                self.assertEqual(cells[2], "yes" if row["best"] else "no")
                measures, refused = row["measures"] or {}, row["refused"] or {}
                numbers = [row["merit"], row["lacks"], measures.get("total"), measures.get("gap")]
                self.assertEqual(cells[3:7], ["" if number is None else str(number) for number in numbers])
                self.assertEqual(cells[7:], [str(refused.get(name, "")) for name in ("number", "place", "source")])
                shown = line[len(name):].split()
                if not key:
                    numbers = [measures.get("merit"), measures.get("total"), measures.get("gap")]
                self.assertEqual(shown[:len(numbers)], ["-" if number is None else str(number) for number in numbers], line)
                self.assertIn(row["result"], line)
            counts = record["counts"]
            self.assertEqual(counts["unread"], 1)
            self.assertEqual(counts["best"], sum(row["best"] for row in record["folders"]))
            self.assertTrue(lines[1 + len(names)].startswith(
                f"{counts['marked']} marked: {counts['best']} best, {counts['gap']} with a gap, {counts['refused']} refused"))


NAMES = [name if isinstance(name, bytes) else name.encode() for name in (
    "plain", "a\ttab", "two\nlines", "cr\rhere", "\x1b[31mred\x1b[0m", "\x1b]0;title\x07", unicodedata.normalize("NFC", "Åse Bjørnåsen"),
    unicodedata.normalize("NFD", "Åse Bjørnåsen"), "魚の計画", "ｆｕｌｌ", "한국", unicodedata.normalize("NFD", "한국"), "emoji 🐟", b"no text \xff\xfe\xc3", b"\xc3\xa9\xc3", "-leading", "--json", "=1+1",
    "+1", "@x", "'quoted'", 'double "', "back\\slash", "\\n", "two\\nlines", "rtl \u202e reversed", "zero\u200bwidth", "joined\u200d", "no\u00a0break", "\u2028line", "\x7f",
    "\u0085next", " leading blank", "trailing blank ", "wide  blanks", "$HOME", "*", "%s", "a,b;c", "\ufeffmark", "soft\u00adhyphen", "x" * 60, "\u0301alone")]


class Names(Case):
    """Any bytes can be a name: one row a folder, aligned as a terminal shows it, and nothing that a terminal obeys."""

    def setUp(self):
        super().setUp()
        self.names = sorted(NAMES)
        self.assertEqual(len(set(self.names)), len(NAMES))
        season = {name: read(SEASON, name) for name in os.listdir(SEASON)}
        for name in self.names:
            put(os.path.join(self.place.encode(), name), {own.encode(): text for own, text in season.items()})

    def harmless(self, out):
        for byte in out:
            self.assertTrue(byte == 10 or byte >= 32 and byte != 127, byte)
        text = out.decode()
        wrong = [sign for sign in text if sign != "\n" and unicodedata.category(sign) in ("Cc", "Cf", "Cs", "Co", "Cn", "Zl", "Zp")]
        self.assertEqual(wrong, [])
        return text

    def aligned(self, text, rows):
        lines = text.split("\n")[:rows + 1]
        before = width(lines[0][:lines[0].index("result")])
        shown = []
        for line in lines[1:]:
            self.assertTrue(line.endswith("  best"), line)
            self.assertEqual(width(line) - len("best"), before, line)
            shown.append(line[:-len("best")])
        cells = [re.fullmatch(r"(.*?) +2960 .*", line, re.S).group(1) for line in shown]
        self.assertEqual(len(set(cells)), rows)
        return cells

    def test_under_each_locale(self):
        outs = set()
        for how in ({"LC_ALL": "C"}, {"LC_ALL": "C.UTF-8"}, {"LC_ALL": None, "LANG": None, "LC_CTYPE": None, "PYTHONIOENCODING": None},
                    {"LC_ALL": "POSIX", "PYTHONIOENCODING": "ascii", "PYTHONUTF8": "0"}):
            ran = command("class", "--", *self.names, cwd=self.place, env=how)
            self.assertEqual((ran.status, ran.err), (0, b""), how)
            text = self.harmless(ran.out)
            self.aligned(text, len(self.names))
            self.assertTrue(text.endswith(f"\n{len(self.names)} marked: {len(self.names)} best, 0 with a gap, 0 refused\n"))
            self.assertEqual(text.count("\n"), len(self.names) + 2)
            outs.add(ran.out)
        self.assertEqual(len(outs), 1)
        for sign in ("Åse", "魚の計画", "🐟", "\\n", "\\t", "\\x1b", "\\u202e", "\\xff", "\\\\"):
            self.assertIn(sign.encode(), ran.out)

    def test_with_a_key(self):
        ran = command("class", "--key", self.names[3], "--", *self.names, cwd=self.place)
        self.assertEqual((ran.status, ran.err), (0, b""))
        self.aligned(self.harmless(ran.out), len(self.names))

    def test_where_the_output_takes_no_such_signs(self):
        """What the output's encoding does not hold is escaped, and the columns are aligned all the same."""
        for coding in ("ascii", "latin-1"):
            ran = run([COMMAND[0], "-B", "-m", "jangoripu", "class", "--", *self.names], cwd=self.place,
                      env={"PYTHONPATH": os.path.dirname(LAUNCH), "PYTHONIOENCODING": coding, "PYTHONUTF8": None})
            self.assertEqual((ran.status, ran.err), (0, b""))
            self.aligned(ran.out.decode(coding), len(self.names))

    def test_plain_and_mark(self):
        for words in (["class", "--plain", "--"], ["mark", "--"]):
            ran = command(*words, *self.names, cwd=self.place)
            self.assertEqual(ran.status, 0)
            lines = self.harmless(ran.out).rstrip("\n").split("\n")
            self.assertEqual(len(lines), len(self.names))
            self.assertEqual(len(set(lines)), len(self.names))
            self.assertTrue(all(line.endswith(" gap 0") for line in lines))

    def test_json(self):
        ran = command("class", "--json", "--", *self.names, cwd=self.place)
        record = json.loads(self.harmless(ran.out))
        self.assertEqual([os.fsencode(row["folder"]) for row in record["folders"]], self.names)
        ran = command("mark", "--json", "--", *self.names, cwd=self.place)
        self.assertEqual([os.fsencode(json.loads(line)["folder"]) for line in self.harmless(ran.out).split("\n")[:-1]], self.names)

    def test_csv(self):
        ran = command("class", "--csv", "--", *self.names, cwd=self.place)
        rows = list(csv.reader(io.StringIO(self.harmless(ran.out))))
        self.assertEqual(len(rows), 1 + len(self.names))
        self.assertEqual(len({row[0] for row in rows}), 1 + len(self.names))
        for row in rows[1:]:
            self.assertEqual(row[1:], ["best", "yes", "2960", "", "5920", "0", "", "", ""])
            self.assertNotIn(row[0][0], "=+-@")

    def test_names_in_messages(self):
        """What is told of such a folder on standard error is harmless too."""
        for name in self.names:
            put(os.path.join(self.place.encode(), name), {b"plan.mtx": b"\x1b[2J"})
        ran = command("mark", "--", *self.names, cwd=self.place)
        self.assertEqual(ran.status, 1)
        self.harmless(ran.out)
        told = self.harmless(ran.err)
        self.assertEqual(sum(line.startswith("jangoripu: ") for line in told.split("\n")), len(self.names))
        ran = command("class", *(b"./" + name + b"x" for name in self.names), cwd=self.place)
        self.assertEqual((ran.status, ran.err), (2, b""))
        self.assertEqual(self.harmless(ran.out).count("\n"), len(self.names) + 2)
        self.assertIn(f"0 marked: 0 best, 0 with a gap, 0 refused; {len(self.names)} not read\n".encode(), ran.out)


class Speed(Case):
    def test_200_full_folders(self):
        folders = full_class(self.place, 200)
        sheet, limits = full_sheet()
        self.put("key", files_of(sheet, limits))
        self.assertEqual((sheet.rows, sheet.columns, len(sheet.pairs)), (64, 64, 1024))
        for key in ([], ["--key", os.path.join(self.place, "key")]):
            spent = []
            for _ in range(2):
                begun = time.monotonic()
                ran = command("class", *key, *folders)
                spent.append(time.monotonic() - begun)
                self.assertEqual(ran.status, 0, ran.err)
                self.assertIn(b"\n200 marked: ", ran.out)
                self.assertEqual(ran.out.count(b"\n"), 202 + len(key) // 2)
                if spent[-1] < 2:
                    break
            self.assertLess(min(spent), 2.0, key)


if __name__ == "__main__":
    unittest.main()
