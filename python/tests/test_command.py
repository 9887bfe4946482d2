"""The command: its output is byte for byte what the programs write, its status is the manual's, and a refusal has words and hints."""
import concurrent.futures
import csv
import glob
import io
import json
import os
import random
import re
import unittest

from common import EXAMPLES, ROOT, command, doubled, draw_limits, draw_plan, draw_prices, draw_sheet, files_of, folder, full_sheet, measured
from common import numbers_text, program, put, read, sheet_text
from forked import forked
from jangoripu import Plan, Prices, Sheet

NAMES = ("sheet.mtx", "limits.mtx", "plan.mtx", "prices.mtx")
COMMANDS = ("solve", "price-tanks", "mark", "class", "rewrite", "tidy", "to-dimacs", "from-dimacs", "from-csv")


def all_at_once(work, tasks):
    """Runs commands two at a time; gives their results in order."""
    with concurrent.futures.ThreadPoolExecutor(2) as pool:
        return list(pool.map(work, tasks))


def status_of(written):
    """The status that goes with what a program wrote."""
    return 1 if written.startswith(b"refused ") or written == b"cannot read\n" else 0


def files_in(place, names=NAMES):
    return {name: read(place, name) for name in names if os.path.isfile(os.path.join(place, name))}


def example_folders():
    return sorted({os.path.dirname(path) for path in glob.glob(os.path.join(EXAMPLES, "**", "*.mtx"), recursive=True)})


def damage(draw, files):
    """The files with one of them damaged in one way or another."""
    files = dict(files)
    name = draw.choice(sorted(files))
    lines = files[name].split(b"\n")
    place = draw.randrange(len(lines))
    way = draw.randrange(10)
    if way == 0:
        del files[name]
        return files
    if way == 1:
        del lines[place]
    elif way == 2:
        lines.insert(place, lines[draw.randrange(len(lines))])
    elif way == 3:
        lines[place] += b"\r"
    elif way == 4:
        lines[place] = b" " + lines[place].replace(b" ", b"\t ")
    elif way == 5:
        lines[place] = re.sub(rb"\d+", lambda _: str(draw.choice((0, 1, 65, 129, 999, 1000001, 4000001))).encode(), lines[place], 1)
    elif way == 6:
        lines[place] = re.sub(rb"\d+", lambda found: draw.choice((b"+", b"0", b"-", b".", b"x")) + found.group(), lines[place], 1)
    elif way == 7:
        lines[place] = bytes(draw.randrange(256) for _ in range(draw.choice((1, 5, 1025))))
    elif way == 8:
        lines.insert(place, b"% a remark" if draw.random() < 0.5 else b"")
    else:
        lines.append(b"\n" * 33000)
    files[name] = b"\n".join(lines)
    return files


def drawn_folders(seed, number, damaged):
    """Drawn problems with plan and prices, each as files; the given part of them is damaged."""
    draw = random.Random(seed)
    made = []
    for turn in range(number):
        one_sided = draw.random() < 0.25
        rows, columns = draw.choice(((1, 1), (2, 3), (4, 4), (9, 7), (30, 40))) if not one_sided else (draw.choice((1, 2, 5, 20)), 0)
        sheet = draw_sheet(draw, rows, columns, draw.choice((0, 3, 8, 60, 300)), one_sided, -50, 200)
        limits = draw_limits(draw, sheet) if draw.random() < 0.6 else (1,) * sheet.fish
        files = files_of(sheet, limits, draw_plan(draw, sheet, limits), draw_prices(draw, sheet, limits))
        made.append(damage(draw, files) if draw.random() < damaged else files)
    return made


def pairs_of(text):
    """Rows, columns and pairs of a sheet's text, in its order."""
    lines = [line.split() for line in text.decode().split("\n")[1:] if line and not line.startswith("%")]
    return int(lines[0][0]), int(lines[0][1]), [tuple(map(int, line)) for line in lines[1:]]


def hints_in(err):
    return [line[len("  hint: "):] for line in err.decode().split("\n") if line.startswith("  hint: ")]


class Case(unittest.TestCase):
    def quiet(self, ran):
        """Nothing on standard error."""
        self.assertEqual(ran.err, b"")

    def told(self, ran):
        """Words on standard error, one line and its hints, that are no accident of Python's."""
        self.assertNotIn(b"Traceback", ran.err)
        lines = ran.err.decode().rstrip("\n").split("\n")
        self.assertTrue(lines[0].startswith("jangoripu: ") and len(lines[0]) > 25, lines)
        self.assertTrue(all(line.startswith("  hint: ") for line in lines[1:]), lines)

    def same(self, ran, written, what):
        """The program's bytes, its status, and words just if it refused."""
        self.assertEqual(ran.out, written, what)
        self.assertEqual(ran.status, status_of(written), what)
        self.told(ran) if ran.status else self.quiet(ran)


class SameBytes(Case):
    """Plain output is what the programs write."""

    def test_problems_of_the_examples(self):
        tasks = [(name, place) for place in example_folders() for name in ("solve", "price-tanks", "to-dimacs")]
        for (name, place), ran in zip(tasks, all_at_once(lambda task: command(*task), tasks)):
            self.same(ran, program(name.replace("-", "_"), files_in(place, NAMES[:2])), (name, place))

    def test_files_of_the_examples(self):
        paths = sorted(glob.glob(os.path.join(EXAMPLES, "**", "*.mtx"), recursive=True) +
                       glob.glob(os.path.join(EXAMPLES, "**", "*.asn"), recursive=True))
        first = {}
        for path in paths:
            first.setdefault(read(path), path)
        tasks = []
        for path in first.values():
            asn, sheet = path.endswith(".asn"), os.path.basename(path) in ("sheet.mtx", "tidy.mtx")
            tasks += [("rewrite", "old.mtx", path)] + [("tidy", "sheet.mtx", path)] * sheet + [("from-dimacs", "crosses.asn", path)] * asn
        self.assertGreater(len(tasks), 25)
        for (name, own, path), ran in zip(tasks, all_at_once(lambda task: command(task[0], task[2]), tasks)):
            self.same(ran, program(name.replace("-", "_"), {own: read(path)}), (name, path))

    def test_mark_on_the_examples(self):
        places = example_folders()
        ran = command("mark", *places)
        lines = [program("mark", files_in(place)) for place in places]
        self.assertEqual(ran.out, b"".join(f"{place}: ".encode() + line for place, line in zip(places, lines)))
        self.assertEqual(ran.status, 1)
        words = ran.err.decode().split("\n")
        for place, line in zip(places, lines):
            begins = re.compile(rf"jangoripu: (there is no file )?{re.escape(place)}(/[a-z]+\.mtx)?(: |$|, )")
            self.assertEqual(sum(bool(begins.match(word)) for word in words), status_of(line), place)

    def test_mark_alone_and_in_the_folder_itself(self):
        for name in ("season", "class/falling-merit", "class/damaged", "class/over-limit", "triangle"):
            place = os.path.join(EXAMPLES, *name.split("/"))
            line = program("mark", files_in(place))
            self.same(command("mark", place), line, name)
            self.same(command("mark", cwd=place), line, name)

    def test_mark_on_drawn_folders(self):
        drawn = drawn_folders(31, 90, 0.7)
        with folder() as place:
            names = [f"folder {number}" for number in range(len(drawn))]
            for name, files in zip(names, drawn):
                put(os.path.join(place, name), files)
            ran = forked("mark", *names, cwd=place)
        lines = [program("mark", files) for files in drawn]
        self.assertEqual(ran.out, b"".join(f"{name}: ".encode() + line for name, line in zip(names, lines)))
        refused = [name for name, line in zip(names, lines) if status_of(line)]
        self.assertTrue(20 < len(refused) < 80)
        words = [line for line in ran.err.decode().split("\n") if line and not line.startswith("  hint: ")]
        named = [re.match(r"jangoripu: (?:there is no file )?(folder \d+)[/:]", line) for line in words]
        self.assertEqual([found and found.group(1) for found in named], refused)
        self.assertEqual(ran.status, 1)

    def test_one_file_commands_on_drawn_texts(self):
        draw = random.Random(7)
        tasks = []
        for files in drawn_folders(32, 12, 0.0) + drawn_folders(33, 24, 1.0):
            if "sheet.mtx" in files and len(tasks) < 20:
                tasks.append(("tidy", "sheet.mtx", files["sheet.mtx"]))
        old = draw_sheet(draw, 5, 6, 20, least=-90, greatest=90)
        for _ in range(12):
            text = re.sub(rb"(?<= )\d+$", lambda found: draw.choice((b"00", b"+0", b"+")) + found.group(), sheet_text(old), flags=re.M)
            tasks.append(("rewrite", "old.mtx", damage(draw, {"old.mtx": text}).get("old.mtx", b"")))
        for _ in range(12):
            sheet = draw_sheet(draw, 4, 5, 12, least=-90, greatest=90)
            crosses = program("to_dimacs", files_of(sheet, (1,) * 9))
            self.assertTrue(crosses.startswith(b"p asn 9 12\n"))
            tasks.append(("from-dimacs", "crosses.asn", crosses if draw.random() < 0.4 else damage(draw, {"c": crosses}).get("c", b"")))
        found = [forked(task[0], "-", stdin=task[2]) for task in tasks]
        for (name, own, text), ran in zip(tasks, found):
            self.same(ran, program(name.replace("-", "_"), {own: text}), (name, text[:300]))
        self.assertGreater(len({(task[0], ran.status) for task, ran in zip(tasks, found)}), 5)

    def test_drawn_problems(self):
        drawn = drawn_folders(34, 8, 0.0) + drawn_folders(35, 8, 1.0)
        sheet, limits = full_sheet()
        drawn += [files_of(sheet, limits), files_of(sheet, (1,) * 128)]
        with folder() as place:
            tasks = []
            for number, files in enumerate(drawn):
                put(os.path.join(place, str(number)), files)
                tasks += [("solve", number), ("to-dimacs", number)] if number % 2 or number > 15 else [("solve", number)]
                tasks.append(("price-tanks", number))
            found = [forked(task[0], str(task[1]), cwd=place) for task in tasks]
        for (name, number), ran in zip(tasks, found):
            files = {own: text for own, text in drawn[number].items() if own in NAMES[:2]}
            self.same(ran, program(name.replace("-", "_"), files), (name, number))
        self.assertEqual({(task[0], ran.status) for task, ran in zip(tasks, found)},
                         {(name, status) for name in ("solve", "to-dimacs", "price-tanks") for status in (0, 1)})


class Arguments(Case):
    """Files beside folders, standard input, and where options stand."""

    def setUp(self):
        made = folder()
        self.place = made.__enter__()
        self.addCleanup(made.__exit__, None, None, None)
        draw = random.Random(41)
        self.sheet = draw_sheet(draw, 4, 3, 9, least=0, greatest=90)
        self.limits = (1, 2, 1, 2, 2, 1, 3)
        self.plan = draw_plan(draw, self.sheet, self.limits)
        self.prices = draw_prices(draw, self.sheet, self.limits)
        self.files = files_of(self.sheet, self.limits, self.plan, self.prices)
        self.line = measured(self.sheet, self.limits, self.plan, self.prices).line.encode() + b"\n"
        season = files_in(os.path.join(EXAMPLES, "season"))
        put(self.place, {f"our-{name}": text for name, text in self.files.items()})
        put(os.path.join(self.place, "season"), season)
        put(os.path.join(self.place, "-P"), self.files)
        put(os.path.join(self.place, "--json"), self.files)
        self.season = program("mark", season)

    def run_here(self, *words, **how):
        return forked(*words, cwd=self.place, **how)

    def all_four(self, joined=False):
        words = [(f"--{name.split('.')[0]}", f"our-{name}") for name in NAMES]
        return ["=".join(word) for word in words] if joined else [part for word in words for part in word]

    def test_files_in_the_place_of_a_folders(self):
        self.same(self.run_here("mark", "season"), self.season, "season")
        for words in (self.all_four() + ["season"], ["season"] + self.all_four(), self.all_four(joined=True) + ["season"],
                      self.all_four(joined=True), ["season"] + self.all_four(joined=True)[:2] + self.all_four()[4:]):
            self.same(self.run_here("mark", *words), self.line, words)

    def test_each_file_alone(self):
        for option, name in zip(("--sheet", "--limits", "--plan", "--prices"), NAMES):
            files = dict(files_in(os.path.join(self.place, "season")), **{name: self.files[name]})
            self.same(self.run_here("mark", option, f"our-{name}", "season"), program("mark", files), option)

    def test_problems_with_files(self):
        ours = {name: self.files[name] for name in NAMES[:2]}
        words = ["--sheet=our-sheet.mtx", "season", "--limits", "our-limits.mtx"]
        self.same(self.run_here("solve", *words), program("solve", ours), "solve")
        self.same(self.run_here("to-dimacs", *words), program("to_dimacs", ours), "to-dimacs")
        self.same(self.run_here("price-tanks", *words), program("price_tanks", ours), "price-tanks")
        self.assertEqual(self.run_here("to-dimacs", *words).out, b"refused 19 at 2 in input\n")
        put(self.place, {"tank.mtx": sheet_text(Sheet(3, 3, ((2, 1, 5),), True)), "three.mtx": numbers_text((1, 1, 1))})
        words = ["--sheet=tank.mtx", "season", "--limits=-"]
        ran = self.run_here("price-tanks", *words, stdin=read(self.place, "three.mtx"))
        self.same(ran, program("price_tanks", {"sheet.mtx": read(self.place, "tank.mtx"), "limits.mtx": read(self.place, "three.mtx")}), words)

    def test_standard_input(self):
        words = self.all_four()
        for place, name in enumerate(NAMES):
            given = words[:]
            given[2 * place + 1] = "-"
            self.same(self.run_here("mark", *given, stdin=self.files[name]), self.line, name)
        self.same(self.run_here("tidy", "-", stdin=self.files["sheet.mtx"]), program("tidy", {"sheet.mtx": self.files["sheet.mtx"]}), "tidy")
        self.same(self.run_here("rewrite", "-", stdin=self.files["plan.mtx"]), self.files["plan.mtx"], "rewrite")
        ran = self.run_here("solve", "--sheet=-", "--limits", "-", stdin=self.files["sheet.mtx"])
        self.assertEqual((ran.status, ran.out), (2, b""))
        self.assertIn(b"standard input can be read only once", ran.err)

    def test_several_folders_with_one_plan(self):
        ran = self.run_here("mark", "season", "--plan", "-", "./-P", stdin=self.files["plan.mtx"])
        files = dict(files_in(os.path.join(self.place, "season")), **{"plan.mtx": self.files["plan.mtx"]})
        self.assertEqual(ran.out, b"season: " + program("mark", files) + b"./-P: " + self.line)
        self.assertEqual(ran.status, 1)

    def test_end_of_options(self):
        self.same(self.run_here("mark", "--", "-P"), self.line, "-- -P")
        self.same(self.run_here("mark", "./-P"), self.line, "./-P")
        self.same(self.run_here("mark", "--", "--json"), self.line, "-- --json")
        self.assertEqual(json.loads(self.run_here("mark", "--json", "--", "--json").out)["line"].encode() + b"\n", self.line)
        self.same(self.run_here("tidy", "--", "our-sheet.mtx"), program("tidy", {"sheet.mtx": self.files["sheet.mtx"]}), "tidy")
        put(self.place, {"--": self.files["sheet.mtx"], "--help": self.files["sheet.mtx"]})
        for name in ("--", "--help"):
            self.same(self.run_here("tidy", "--", name), program("tidy", {"sheet.mtx": self.files["sheet.mtx"]}), name)

    def test_default_names(self):
        for name, own, text in (("tidy", "sheet.mtx", self.files["sheet.mtx"]), ("rewrite", "old.mtx", self.files["limits.mtx"]),
                                ("from-dimacs", "crosses.asn", b"p asn 2 1\nn 1\na 1 2 -7\n")):
            ran = self.run_here(name)
            self.assertEqual((ran.status, ran.out), (2, b""))
            self.assertIn(own.encode(), ran.err)
            put(self.place, {own: text})
            self.same(self.run_here(name), program(name.replace("-", "_"), {own: text}), name)

    def test_an_empty_name_is_no_name(self):
        put(self.place, {name: self.files[name] for name in NAMES})
        for words in (["mark", ""], ["solve", ""], ["tidy", ""], ["mark", "--sheet="], ["class", "--key=", "season"]):
            ran = self.run_here(*words)
            self.assertEqual((ran.status, ran.out), (2, b""), words)

    def test_wrong_words(self):
        for words, told in ((["mark", "--nonsense"], "--nonsense"), (["tidy", "-x"], "-x"), (["solve", "season", "season"], "season"),
                            (["tidy", "a", "b"], "b"), (["mark", "--sheet"], "--sheet"), (["mark", "--plan=a", "--plan", "b"], "--plan"),
                            (["solve", "--plan", "x"], "--plan"), (["class"], "folders"), (["class", "--json", "--csv", "season"], "--json"),
                            (["price-tanks", "--prices"], "--prices"), (["price-tanks", "a", "b"], "b"),
                            (["mark", "--json=1"], "--json=1"), (["class", "--key", "season"], "folders")):
            ran = self.run_here(*words)
            self.assertEqual((ran.status, ran.out), (2, b""), words)
            first, *usage = ran.err.decode().split("\n")
            self.assertTrue(first.startswith("jangoripu: ") and told in first, (words, first))
            self.assertTrue(usage[0].startswith(f"jangoripu {words[0]} "), usage)


class Overview(Case):
    def test_version(self):
        header = read(ROOT, "include", "jangoripu.h").decode()
        version = re.search(r'^#define JANGORIPU_VERSION "(\d+\.\d+\.\d+)"$', header, re.M).group(1)
        self.same(command("--version"), f"jangoripu {version}\n".encode(), "--version")

    def test_help(self):
        options = {"solve": ["--prices", "--sheet", "--limits"], "price-tanks": ["--sheet", "--limits"],
                   "mark": ["--json", "--sheet", "--limits", "--plan", "--prices"],
                   "class": ["--key", "--json", "--csv", "--plain"], "to-dimacs": ["--min", "--sheet", "--limits"],
                   "from-csv": ["--bare", "--separator"]}
        tasks = [(name, word) for name in COMMANDS for word in ("--help", "-h")] + [("--help",), ("-h",), ("mark", "nowhere", "--help")]
        found = {task: forked(*task) for task in tasks}
        for task, ran in found.items():
            self.assertEqual((ran.status, ran.err), (0, b""), task)
            if task[0] in COMMANDS:
                self.assertTrue(ran.out.decode().startswith(f"jangoripu {task[0]} "), task)
                self.assertEqual(ran.out, found[task[0], "--help"].out)
                self.assertTrue(all(option.encode() in ran.out for option in options.get(task[0], [])), task)
        overview = found["--help",].out.decode()
        self.assertTrue(all(re.search(f"^jangoripu {name} ", overview, re.M) for name in COMMANDS))
        self.assertIn("Exit status: 0 a result, 1 a refusal, 2 something could not be read or written.", overview)
        self.assertTrue(all(len(line) <= 150 for ran in found.values() for line in ran.out.decode().split("\n")))

    def test_no_command_and_an_unknown_one(self):
        overview = command("--help").out
        ran = command()
        self.assertEqual((ran.status, ran.out, ran.err), (2, b"", overview))
        for words in (["draw"], ["--json"], ["--", "mark"], ["Mark"], ["mar\x1b[2Jk"]):
            ran = command(*words)
            self.assertEqual((ran.status, ran.out), (2, b""), words)
            self.assertTrue(ran.err.startswith(b"jangoripu: ") and ran.err.endswith(overview) and b"\x1b" not in ran.err, words)


class Refusals(Case):
    """A refusal's line is on standard output, its words and a hint on standard error."""

    def setUp(self):
        made = folder()
        self.place = made.__enter__()
        self.addCleanup(made.__exit__, None, None, None)
        self.season = files_in(os.path.join(EXAMPLES, "season"))

    def refused(self, files, line, words=("mark",), links=None):
        """Marks a folder with these files: the line."""
        place = os.path.join(self.place, str(len(os.listdir(self.place))))
        put(place, files)
        for name, target in (links or {}).items():
            os.symlink(target, os.path.join(place, name))
        ran = forked(*words, place)
        self.assertEqual((ran.status, ran.out.decode()), (1, line + "\n"), ran.err)
        return ran

    def hinted(self, files, line, *said, words=("mark",)):
        """The line, and one hint that says all this."""
        ran = self.refused(files, line, words)
        self.told(ran)
        hints = hints_in(ran.err)
        self.assertEqual(len(hints), 1, ran.err)
        for part in said:
            self.assertIn(part, hints[0])
        return ran

    def worded(self, files, line, *said, words=("mark",), links=None):
        """The line, and words that say all this and need no hint."""
        ran = self.refused(files, line, words, links)
        self.assertEqual((hints_in(ran.err), ran.err.count(b"\n")), ([], 1))
        for part in said:
            self.assertIn(part.encode(), ran.err)

    def test_words(self):
        for name, line, said in (("damaged", "refused 5 at 7 in plan.mtx", ("plan.mtx", "line 7")),
                                 ("over-limit", "refused 12 at 4 in input", ("dam 4",)),
                                 ("uncovered", "refused 15 at 1 in input", ("pair 1", "dam 1 with sire 1"))):
            ran = forked("mark", os.path.join(EXAMPLES, "class", name))
            self.assertEqual((ran.status, ran.out.decode()), (1, line + "\n"))
            self.told(ran)
            for part in said:
                self.assertIn(part.encode(), ran.err, name)

    def test_how_much_a_pair_falls_short(self):
        sheet = Sheet(1, 2, ((1, 1, 5), (1, 2, 40)))
        put(self.place, files_of(sheet, (1, 1, 1), Plan((0, 1)), Prices((3, 10, 50), (0, 7))))
        ran = forked("mark", self.place)
        self.assertEqual((ran.status, ran.out), (1, b"refused 15 at 2 in input\n"))
        for part in (b"pair 2", b"dam 1 with sire 2", b"60", b"20 short"):
            self.assertIn(part, ran.err)

    def test_absent_files(self):
        for number, name in enumerate(NAMES):
            files = {own: text for own, text in self.season.items() if own != name}
            self.worded(files, f"refused 2 at 1 in {name}", "there is no file", name)
            other = (name + ".txt", name.upper(), name.title(), name.upper() + ".TXT")[number]
            self.worded(dict(files, **{other: b"x"}), f"refused 2 at 1 in {name}", "there is no file", f"there is {other}", f"rename it to {name}")
        self.worded({}, "refused 2 at 1 in sheet.mtx", "there is no file", "sheet.mtx", words=("solve",))

    def test_a_file_that_cannot_be_read(self):
        files = {own: text for own, text in self.season.items() if own != "plan.mtx"}
        self.worded(files, "refused 2 at 1 in plan.mtx", "plan.mtx cannot be read", links={"plan.mtx": "plan.mtx"})
        self.worded(files, "refused 2 at 1 in plan.mtx", "plan.mtx is a link to a file that is not there", links={"plan.mtx": "nowhere"})
        self.worded(files, "refused 2 at 1 in plan.mtx", "plan.mtx cannot be read", links={"plan.mtx": "x" * 300})
        put(self.place, {"Near.MTX.txt": b"x"})
        for name, said in (("x" * 300, "x" * 300 + " cannot be read"), ("no such file", "there is no file no such file\n"),
                           ("near.mtx", "there is no file near.mtx, but there is Near.MTX.txt: rename it to near.mtx\n")):
            ran = forked("tidy", name, cwd=self.place)
            self.assertEqual((ran.status, ran.out), (2, b""))
            self.assertIn(said.encode(), ran.err)

    def test_how_a_file_was_saved(self):
        for number, name in enumerate(NAMES):
            text = self.season[name]
            line = f"refused 2 at 1 in {name}"
            self.hinted(dict(self.season, **{name: text.replace(b"\n", b"\r\n")}), line, name, "line ends of Windows")
            self.hinted(dict(self.season, **{name: b"\xef\xbb\xbf" + text}), line, name, "byte order mark")
            coding = ("utf-16", "utf-16-be", "utf-16", "utf-16")[number]
            begin = "\ufeff" if coding == "utf-16-be" else ""
            self.hinted(dict(self.season, **{name: (begin + text.decode()).encode(coding)}), line, name, "UTF-16")
        late = self.season["prices.mtx"].replace(b"770\n", b"770\r\n")
        self.hinted(dict(self.season, **{"prices.mtx": late}), "refused 5 at 3 in prices.mtx", "line ends of Windows")

    def test_one_file_commands_hint_too(self):
        ran = forked("rewrite", "-", stdin=self.season["sheet.mtx"].replace(b"\n", b"\r\n"))
        self.assertEqual((ran.status, ran.out), (1, b"cannot read\n"))
        self.assertIn("line ends of Windows", hints_in(ran.err)[0])
        ran = forked("tidy", "-", stdin=b"\xef\xbb\xbf" + self.season["sheet.mtx"])
        self.assertEqual((ran.status, ran.out), (1, b"refused 2 at 1 in sheet.mtx\n"))
        self.assertIn("byte order mark", hints_in(ran.err)[0])
        ran = forked("from-dimacs", "-", stdin=b"p asn 2 1\r\nn 1\r\na 1 2 -7\r\n")
        self.assertEqual((ran.status, ran.out), (1, b"refused 20 at 1 in crosses.asn\n"))
        self.assertIn("line ends of Windows", hints_in(ran.err)[0])
        ran = forked("from-dimacs", "-", stdin=b"p asn 2 1\nn 01\na 1 2 -7\n")
        self.assertEqual((ran.status, ran.out), (1, b"refused 20 at 2 in crosses.asn\n"))
        self.told(ran)

    def test_headers(self):
        sheet, limits, plan = (self.season[name] for name in NAMES[:3])
        line = "refused 2 at 1 in {}".format
        for word in (b"real", b"double", b"complex", b"REAL"):
            self.hinted(dict(self.season, **{"sheet.mtx": sheet.replace(b"integer", word)}), line("sheet.mtx"), word.decode().lower(),
                        "whole numbers", "field='integer'")
        self.hinted(dict(self.season, **{"limits.mtx": limits.replace(b"integer", b"real")}), line("limits.mtx"), "real", "field='integer'")
        self.hinted(dict(self.season, **{"sheet.mtx": plan}), line("sheet.mtx"), "header of a plan")
        self.hinted(dict(self.season, **{"plan.mtx": sheet}), line("plan.mtx"), "header of a sheet")
        self.hinted(dict(self.season, **{"plan.mtx": limits}), line("plan.mtx"), "header of limits or prices")
        self.hinted(dict(self.season, **{"limits.mtx": sheet}), line("limits.mtx"), "header of a sheet")
        self.hinted(dict(self.season, **{"prices.mtx": plan}), line("prices.mtx"), "header of a plan")
        self.hinted(dict(self.season, **{"sheet.mtx": b"5 4 14\n" + sheet}), line("sheet.mtx"), "%%MatrixMarket")

    def test_numbers(self):
        sheet = self.season["sheet.mtx"]
        for number in (b"420.0", b"4.2e2", b"42e1", b"420."):
            text = sheet.replace(b"1 1 420\n", b"1 1 " + number + b"\n")
            self.hinted(dict(self.season, **{"sheet.mtx": text}), "refused 5 at 4 in sheet.mtx", "whole", "field='integer'")
        for number in (b"+420", b"0420", b"-0", b"+0"):
            text = sheet.replace(b"1 1 420\n", b"1 1 " + number + b"\n")
            self.hinted(dict(self.season, **{"sheet.mtx": text}), "refused 5 at 4 in sheet.mtx", "+ sign", "leading zero", "rewrite")
        self.hinted(dict(self.season, **{"sheet.mtx": sheet.replace(b"5 4 14", b"05 4 14")}), "refused 3 at 3 in sheet.mtx", "leading zero")
        limits = self.season["limits.mtx"]
        self.hinted(dict(self.season, **{"limits.mtx": limits.replace(b"\n2\n", b"\n2.0\n", 1)}), "refused 5 at 4 in limits.mtx", "whole")
        self.hinted(dict(self.season, **{"limits.mtx": limits.replace(b"\n2\n", b"\n007\n", 1)}), "refused 5 at 4 in limits.mtx", "leading zero")

    def test_a_comment_in_the_wrong_place(self):
        text = self.season["sheet.mtx"].replace(b"5 4 14\n", b"5 4 14\n% the pairs\n")
        self.worded(dict(self.season, **{"sheet.mtx": text}), "refused 5 at 4 in sheet.mtx", "comments", "size line")

    def test_prices_in_points(self):
        points = read(EXAMPLES, "points", "prices.mtx")
        self.hinted(dict(self.season, **{"prices.mtx": points}), "refused 15 at 1 in input", "half points", "doubled")
        put(self.place, dict(self.season, **{"prices.mtx": numbers_text((0,) * 23)}))
        ran = forked("mark", self.place)
        self.assertEqual((ran.out, hints_in(ran.err)), (b"refused 15 at 1 in input\n", []))
        self.worded(files_in(os.path.join(EXAMPLES, "class", "uncovered")), "refused 15 at 1 in input", "2 short of 840")

    def test_half_a_point(self):
        text = self.season["prices.mtx"].replace(b"770\n", b"770.5\n")
        self.hinted(dict(self.season, **{"prices.mtx": text}), "refused 5 at 3 in prices.mtx", "half points", "whole numbers")

    def test_a_sire_by_his_number_among_the_fish(self):
        text = self.season["plan.mtx"].replace(b"1 2\n", b"1 7\n")
        self.hinted(dict(self.season, **{"plan.mtx": text}), "refused 6 at 3 in plan.mtx", "sire 2 is column 2")

    def test_bytes_that_do_no_harm(self):
        """A carriage return and a no-break space in a comment are no hint for another fault."""
        text = self.season["sheet.mtx"].replace(b"5 4 14\n", b"% a\r\n%\xc2\xa0b\n5 4 14\n").replace(b"1 1 420", b"1 1 x")
        self.worded(dict(self.season, **{"sheet.mtx": text}), "refused 5 at 6 in sheet.mtx", "line 6 is '1 1 x'")

    def test_names_that_are_nearly_right(self):
        files = {own: text for own, text in self.season.items() if own != "plan.mtx"}
        for near in ("plan.txt", "plan (1).mtx", "Plan - Copy.mtx", "plan.mtx.mtx", "plan"):
            self.worded(dict(files, **{near: b"x"}), "refused 2 at 1 in plan.mtx", f"but there is {near}: rename it to plan.mtx")
        self.worded(dict(files, **{"planned.mtx": b"x", "my plan.mtx": b"x"}), "refused 2 at 1 in plan.mtx", "plan.mtx\n")

    def test_no_break_spaces(self):
        text = self.season["sheet.mtx"].replace(b"1 1 420", "1\u00a01 420".encode())
        self.hinted(dict(self.season, **{"sheet.mtx": text}), "refused 5 at 4 in sheet.mtx", "no-break space")

    def test_the_other_sort_of_sheet(self):
        """A hint says which command takes the sheet, if there is one."""
        tank = files_in(os.path.join(EXAMPLES, "tank"))
        for words, count in ((("solve",), 2), (("solve", "--prices"), 2), (("to-dimacs",), 1), (("to-dimacs", "--min"), 1)):
            ran = self.refused(tank, "refused 16 at 0 in input", words)
            self.told(ran)
            hints = hints_in(ran.err)
            self.assertEqual((len(hints), "price-tanks" in hints[-1]), (count, count == 2), words)
        self.hinted(self.season, "refused 24 at 0 in input", "solve --prices", "symmetric", words=("price-tanks",))
        many = tuple((row, column, 1) for row in range(2, 34) for column in range(1, row))[:513]
        for sheet, said in ((Sheet(65, 65, (), True), "65 families"), (Sheet(33, 33, many, True), "513 pairs")):
            self.worded(files_of(sheet, (1,) * sheet.rows), "refused 24 at 0 in input", said, words=("price-tanks",))

    def test_commas(self):
        text = self.season["sheet.mtx"].replace(b"1 1 420", b"1,1,420")
        self.hinted(dict(self.season, **{"sheet.mtx": text}), "refused 5 at 4 in sheet.mtx", "commas", "from-csv")


class SciPy(Case):
    """Files that SciPy's mmwrite writes where nothing is said."""

    def written(self, rows, **how):
        try:
            import numpy
            import scipy.io
            import scipy.sparse
        except ImportError:
            self.skipTest("SciPy is not there")
        out = io.BytesIO()
        scipy.io.mmwrite(out, scipy.sparse.coo_matrix(numpy.array(rows)), **how)
        return out.getvalue()

    def solved(self, sheet, fish):
        with folder({"sheet.mtx": sheet, "limits.mtx": numbers_text((1,) * fish)}) as place:
            return forked("solve", place)

    def test_as_the_manual_says(self):
        for rows, merit in (([[5, 4], [4, 1]], 8), ([[0, 4], [4, 0]], 8), ([[1, 2, 3], [0, 0, 9]], 11)):
            text = self.written(rows, field="integer", symmetry="general")
            ran = self.solved(text, len(rows) + len(rows[0]))
            self.assertEqual(ran.status, 0, ran.err)
            best = {tuple(map(int, line.split())) for line in ran.out.decode().split("\n")[2:-1]}
            self.assertEqual(sum(rows[row - 1][column - 1] for row, column in best), merit)

    def test_symmetric_with_a_diagonal(self):
        text = self.written([[5, 4, 0], [4, 1, 2], [0, 2, 7]])
        self.assertTrue(text.startswith(b"%%MatrixMarket matrix coordinate integer symmetric\n"))
        ran = self.solved(text, 6)
        self.assertEqual((ran.status, ran.out), (1, b"refused 6 at 4 in sheet.mtx\n"))
        self.assertIn("symmetry='general'", hints_in(ran.err)[0])

    def test_symmetric_without_a_diagonal(self):
        text = self.written([[0, 4], [4, 0]])
        self.assertIn(b"symmetric\n", text)
        ran = self.solved(text, 4)
        self.assertEqual((ran.status, ran.out), (1, b"refused 4 at 2 in limits.mtx\n"))
        self.assertIn("symmetry='general'", "".join(hints_in(ran.err)))
        ran = self.solved(text, 2)
        self.assertEqual((ran.status, ran.out), (1, b"refused 16 at 0 in input\n"))
        self.assertIn("symmetry='general'", hints_in(ran.err)[0])

    def test_a_symmetric_plan(self):
        plan = self.written([[0, 1], [1, 0]], field="pattern")
        self.assertIn(b"symmetric\n", plan)
        sheet = Sheet(2, 2, ((1, 1, 1), (1, 2, 5), (2, 1, 5)))
        with folder(dict(files_of(sheet, (1, 1, 1, 1), None, Prices((10, 10, 0, 0), (0, 0, 0))), **{"plan.mtx": plan})) as place:
            ran = forked("mark", place)
        self.assertEqual((ran.status, ran.out), (1, b"refused 17 at 1 in plan.mtx\n"))
        self.assertIn("symmetry='general'", hints_in(ran.err)[0])

    def test_floats(self):
        ran = self.solved(self.written([[1.0, 2.0, 3.0]]), 4)
        self.assertEqual((ran.status, ran.out), (1, b"refused 2 at 1 in sheet.mtx\n"))
        self.assertIn("real", hints_in(ran.err)[0])
        self.assertIn("field='integer'", hints_in(ran.err)[0])


class SolversPrices(Case):
    def test_gap_0(self):
        draw = random.Random(51)
        problems = []
        for rows, columns, pairs in ((1, 1, 1), (1, 1, 0), (3, 2, 5), (6, 6, 30), (12, 9, 80), (64, 64, 1024)):
            sheet = draw_sheet(draw, rows, columns, pairs)
            problems.append(files_of(sheet, draw_limits(draw, sheet)))
        problems.append(files_in(os.path.join(EXAMPLES, "season"), NAMES[:2]))
        with folder() as place:
            names = [str(number) for number in range(len(problems))]
            for name, files in zip(names, problems):
                put(os.path.join(place, name), files)
            found = [forked("solve", *words, name, cwd=place) for name in names for words in ([], ["--prices"])]
            for name, plan, prices in zip(names, found[::2], found[1::2]):
                self.assertEqual((plan.status, prices.status, plan.err, prices.err), (0, 0, b"", b""))
                put(os.path.join(place, name), {"plan.mtx": plan.out, "prices.mtx": prices.out})
            ran = forked("mark", *names, cwd=place)
        self.assertEqual(ran.status, 0)
        self.assertEqual(re.findall(r" gap (\d+)$", ran.out.decode(), re.M), ["0"] * len(names))

    def test_the_walk(self):
        walk = os.path.join(EXAMPLES, "walk")
        self.same(forked("solve", "--prices", walk), read(walk, "prices.mtx"), "walk")

    def test_refused(self):
        for name, line in (("tank", b"refused 16 at 0 in input\n"), ("untidy", b"refused 2 at 1 in limits.mtx\n")):
            self.same(forked("solve", os.path.join(EXAMPLES, name), "--prices"), line, name)


class TankPrices(Case):
    """Which prices come out is free: what `mark` says of them is held to what it must be."""

    def marked(self, place):
        """What `price-tanks` writes for a folder, put there as its prices, gives these numbers by `mark`; each by its name."""
        priced = forked("price-tanks", place)
        self.same(priced, program("price_tanks", files_in(place, NAMES[:2])), place)
        ran = forked("mark", "--prices", "-", place, stdin=priced.out)
        self.assertEqual((ran.status, ran.err), (0, b""))
        words = ran.out.decode().split()
        return dict(zip(words[::2], map(int, words[1::2])))

    def test_the_examples(self):
        for name, merit, total, gap in (("tank", 16, 38, 6), ("triangle", 1, 3, 1)):
            told = self.marked(os.path.join(EXAMPLES, name))
            self.assertEqual((told["merit"], told["total"], told["gap"]), (merit, total, gap))

    def test_drawn(self):
        """Every pair is covered, and the total is that of the doubled sheet's best plan."""
        draw = random.Random(52)
        for families, pairs in ((1, 0), (2, 1), (5, 6), (9, 20), (20, 100), (64, 512)):
            sheet = draw_sheet(draw, families, 0, pairs, True)
            limits = draw_limits(draw, sheet)
            with folder(files_of(sheet, limits, draw_plan(draw, sheet, limits))) as place:
                told = self.marked(place)
                put(place, files_of(*doubled(sheet, limits)))
                put(place, {"plan.mtx": forked("solve", place).out, "prices.mtx": forked("solve", "--prices", place).out})
                self.assertEqual(forked("mark", place).out.decode().split()[1], str(told["total"]))

    def test_the_layout(self):
        """Just what is read as prices, and nothing else: no comments, a number a line, written in the one way."""
        lines = forked("price-tanks", os.path.join(EXAMPLES, "tank")).out.decode().split("\n")
        self.assertEqual(lines[:2], ["%%MatrixMarket matrix array integer general", "10 1"])
        self.assertTrue(all(re.fullmatch(r"0|[1-9]\d*", line) for line in lines[2:12]), lines)
        self.assertEqual(lines[12:], [""])

    def test_refused(self):
        for name, line in (("season", b"refused 24 at 0 in input\n"), ("untidy", b"refused 2 at 1 in limits.mtx\n"),
                           ("points", b"refused 2 at 1 in sheet.mtx\n")):
            self.same(forked("price-tanks", os.path.join(EXAMPLES, name)), line, name)


class Json(Case):
    def test_the_same_numbers(self):
        drawn = drawn_folders(61, 30, 0.5)
        with folder() as place:
            names = [f"{number}\n" for number in range(len(drawn))]
            for name, files in zip(names, drawn):
                put(os.path.join(place, name), files)
            ran = forked("mark", "--json", *names, cwd=place)
        records = [json.loads(line) for line in ran.out.decode("ascii").rstrip("\n").split("\n")]
        self.assertEqual([record["folder"] for record in records], names)
        statuses = []
        for record, files in zip(records, drawn):
            line = program("mark", files).decode().rstrip("\n")
            words = line.split(" ")
            statuses.append(status_of(line.encode()))
            self.assertEqual(record["line"], line)
            if statuses[-1]:
                refused = record["refused"]
                self.assertEqual([str(refused["number"]), str(refused["place"]), refused["source"]], [words[1], words[3], words[5]])
                self.assertIsNone(record["measures"])
                self.assertTrue(refused["words"] and isinstance(refused["hints"], list))
            else:
                self.assertIsNone(record["refused"])
                self.assertEqual(record["measures"], dict(zip(words[::2], map(int, words[1::2]))))
        self.assertEqual(ran.status, 1)
        self.assertTrue(5 < sum(statuses) < 25)

    def test_a_folder_that_is_not_there(self):
        season = os.path.join(EXAMPLES, "season")
        ran = forked("mark", "--json", "nowhere", season)
        self.assertEqual(ran.status, 2)
        records = [json.loads(line) for line in ran.out.decode().rstrip("\n").split("\n")]
        self.assertEqual([record["folder"] for record in records if record["measures"]], [season])
        self.assertIn(b"nowhere", ran.err)


class Status(Case):
    def test_folders_and_files_that_are_not_there(self):
        season = os.path.join(EXAMPLES, "season")
        with folder() as place:
            put(place, {"file": b"x"})
            for words in (["solve", "nowhere"], ["price-tanks", "nowhere"], ["mark", "nowhere"], ["to-dimacs", "nowhere"], ["tidy", "nowhere"], ["rewrite", "nowhere"],
                          ["from-dimacs", "nowhere"], ["from-csv", "nowhere"], ["solve", "file"], ["mark", "file"], ["mark", "--sheet", "nowhere"],
                          ["solve", "--limits=nowhere", season], ["class", "--key", "nowhere", season], ["tidy", "."]):
                ran = forked(*words, cwd=place)
                self.assertEqual((ran.status, ran.out), (2, b""), words)
                self.told(ran)

    def test_the_worst_of_several(self):
        season, damaged = os.path.join(EXAMPLES, "season"), os.path.join(EXAMPLES, "class", "damaged")
        for words, status, lines in (((season, season), 0, 2), ((damaged, season), 1, 2), ((season, "nowhere", damaged), 2, 2), ((damaged, "nowhere"), 2, 1)):
            ran = forked("mark", *words)
            self.assertEqual((ran.status, ran.out.count(b"\n")), (status, lines), words)


class FromCsv(Case):
    """Tables of spreadsheets: what comes out has the table's pairs and is read by the programs."""

    def gives(self, text, rows, columns, pairs, *words):
        """The table gives this sheet, which the programs read; gives its comments."""
        ran = forked("from-csv", "-", *words, stdin=text)
        self.assertEqual((ran.status, ran.err), (0, b""))
        self.assertEqual(pairs_of(ran.out), (rows, columns, pairs))
        self.assertEqual(pairs_of(program("tidy", {"sheet.mtx": ran.out})), (rows, columns, sorted(pairs)))
        files = {"sheet.mtx": ran.out, "limits.mtx": numbers_text((1,) * (rows + columns))}
        self.assertTrue(program("solve", files).startswith(b"%%MatrixMarket matrix coordinate pattern general\n"))
        return [line for line in ran.out.decode().split("\n")[1:] if line.startswith("%")]

    def refuses(self, text, *said, words=()):
        ran = forked("from-csv", "-", *words, stdin=text)
        self.assertEqual(ran.status, 1, ran)
        self.assertFalse(ran.out.startswith(b"%"))
        self.told(ran)
        for part in said:
            self.assertIn(part.encode(), ran.err)

    def test_separators(self):
        pairs = [(1, 1, 12), (1, 2, 7), (2, 1, 9), (3, 2, -4)]
        rows = [["", "Ali", "Bo"], ["one", "12", "7"], ["two", "9", ""], ["three", "", "-4"]]
        for sign in ",;\t":
            for end in ("\n", "\r\n"):
                text = end.join(sign.join(row) for row in rows) + end
                comments = self.gives(text.encode(), 3, 2, pairs)
                self.assertEqual(comments, ["% dam 1: one", "% dam 2: two", "% dam 3: three", "% sire 1: Ali", "% sire 2: Bo"])
        self.gives("|".join(rows[0]).encode() + b"\n" + "\n".join("|".join(row) for row in rows[1:]).encode(), 3, 2, pairs, "--separator", "|")
        self.gives("\n".join(";".join(row) for row in rows).encode(), 3, 2, pairs, "--separator=;")
        self.refuses("\n".join(";".join(row) for row in rows).encode(), words=("--separator", ","))

    def test_as_python_writes_it(self):
        draw = random.Random(71)
        for turn in range(6):
            sheet = draw_sheet(draw, draw.randint(1, 9), draw.randint(1, 9), draw.randint(1, 30))
            merits = {pair[:2]: pair[2] for pair in sheet.pairs}
            names = draw.sample(["Ole, the \"old\"", "Åse", "a;b", "tab\there", "two\nlines", "n", "% 5", "'q'", "魚", "\x1b[2J", "x" * 300, "7", "=1+1",
                                 "\ufeff", "back\\slash", "cr\r\nlf", "‮", " a "], 18)
            out = io.StringIO()
            writer = csv.writer(out, delimiter=",;\t"[turn % 3], lineterminator=("\n", "\r\n")[turn % 2], quoting=(csv.QUOTE_MINIMAL, csv.QUOTE_ALL)[turn // 3])
            writer.writerow(["merit"] + names[:sheet.columns])
            for row in range(1, sheet.rows + 1):
                writer.writerow([names[9 + row - 1]] + [merits.get((row, column), "") for column in range(1, sheet.columns + 1)])
            text = (("\ufeff" if turn == 4 else "") + out.getvalue()).encode()
            sign = ",;\t"[turn % 3]
            comments = self.gives(text, sheet.rows, sheet.columns, sorted(sheet.pairs), f"--separator={sign}")
            self.assertEqual(len(comments), sheet.rows + sheet.columns)
            self.assertTrue(all(re.match(r"% (dam|sire) \d: ", comment) and comment.isprintable() for comment in comments), comments)

    def test_marks_and_blanks(self):
        self.gives(b"\xef\xbb\xbf,a,b\r\nd, 7 ,\r\ne,,8\r\n\r\n,,\r\n", 2, 2, [(1, 1, 7), (2, 2, 8)])
        self.gives(',a,b\nd,"7","−8"\n'.encode(), 1, 2, [(1, 1, 7), (1, 2, -8)])
        self.gives(b",a,b\nd,+7,007\ne,12.0,-0\n", 2, 2, [(1, 1, 7), (1, 2, 7), (2, 1, 12), (2, 2, 0)])
        self.gives(",Åse,Bø\nd,1,2\n".encode("latin-1"), 1, 2, [(1, 1, 1), (1, 2, 2)])
        self.gives(b",a\rd,1\re,2\r", 2, 1, [(1, 1, 1), (2, 1, 2)])

    def test_ragged_rows(self):
        self.gives(b",a,b,c\nd,1\ne\nf,,,3\n", 3, 3, [(1, 1, 1), (3, 3, 3)])
        self.gives(b",a,b\nd,1,,,\ne,,2,,\n", 2, 2, [(1, 1, 1), (2, 2, 2)])
        self.refuses(b",a\nd,1\ne,1,2,3\n", "row 3")
        self.refuses(b",a\nd,1\n\ne,1\n", "row 3")
        self.refuses(b",a\n,1\ne,1\n", "row 2", "--bare")

    def test_names_that_two_have(self):
        """The sheet is written, and it is noted."""
        ran = forked("from-csv", "-", stdin=b",a,b,a\nd,1,2,3\nd,4,,\ne,5,,\n")
        self.assertEqual((ran.status, pairs_of(ran.out)), (0, (3, 3, [(1, 1, 1), (1, 2, 2), (1, 3, 3), (2, 1, 4), (3, 1, 5)])))
        lines = ran.err.decode().rstrip("\n").split("\n")
        self.assertEqual(len(lines), 2)
        self.assertTrue(lines[0].startswith("jangoripu: ") and lines[0].endswith("more than one dam has the name d"), lines)
        self.assertTrue(lines[1].startswith("jangoripu: ") and lines[1].endswith("more than one sire has the name a"), lines)

    def test_bare(self):
        self.assertEqual(self.gives(b"1,2\n,4\n", 2, 2, [(1, 1, 1), (1, 2, 2), (2, 2, 4)], "--bare"), [])
        self.gives(b"5\n", 1, 1, [(1, 1, 5)], "--bare")
        self.gives(b"1;;3\n;5\n", 2, 3, [(1, 1, 1), (1, 3, 3), (2, 2, 5)], "--bare", "--separator=;")

    def test_bad_cells(self):
        for cell in ("x", "1.5", "1.000", "2.500", "1e3", "1 2", "--1", "1,0", "12a", "0x10", "٣", "½", "nan"):
            self.refuses(f',a,b\nd,1,2\ne,3,"{cell}"\n'.encode(), "row 3", "column 3")
            self.refuses(f'1,2\n3,"{cell}"\n'.encode(), "row 2", "column 2", words=("--bare",))
        self.refuses(b",a,b\nd,1,\x1b[2J\n", "row 2", "column 3", "x1b")

    def test_merits_out_of_range(self):
        for merit in ("1000001", "-1000001", "9" * 30, "-" + "9" * 30):
            self.refuses(f",a,b\nd,{merit},2\n".encode(), "merit", "row 2, column 2")
        self.gives(b",a,b\nd,1000000,-1000000\n", 1, 2, [(1, 1, 1000000), (1, 2, -1000000)])

    def test_separators_inside_quotation_marks(self):
        comments = self.gives(b';"Rainbow, late, 2024";"Brown, ""early"", 2023"\nAlder;31;24\n', 1, 2, [(1, 1, 31), (1, 2, 24)])
        self.assertEqual(comments[1:], ["% sire 1: Rainbow, late, 2024", '% sire 2: Brown, "early", 2023'])
        self.gives(b',"a;b;c;d"\nA,1\n', 1, 1, [(1, 1, 1)])
        self.gives(b'"a\n;;;",s\nA,1\n', 1, 1, [(1, 1, 1)])

    def test_a_line_that_says_the_separator(self):
        self.gives(b"sep=;\r\n;a,b\r\nd;1\r\n", 1, 1, [(1, 1, 1)])

    def test_a_quotation_mark_that_is_not_closed(self):
        self.refuses(b',S1,S2\n"Alder,3,4\nBirch,5,6\n', "quotation mark")

    def test_no_merit_at_all(self):
        self.refuses(b";a,x;b\nd;1;2\n", "no cell of the table has a merit", words=("--separator=,",))
        self.refuses(b",a,b\nd,,\n", "no cell of the table has a merit")

    def test_names_that_are_numbers(self):
        ran = forked("from-csv", "-", stdin=b"3,12\n4,5\n")
        self.assertEqual((ran.status, ran.out.split(b"\n")[-2]), (0, b"1 1 5"))
        self.assertIn(b"note: all names are numbers", ran.err)

    def test_a_very_long_number(self):
        self.refuses(b",a\nd," + b"9" * 5000 + b"\n")

    def test_too_many(self):
        self.refuses(",".join(["", "a"]).encode() + b"\n" + b"d,1\n" * 65, "65")
        self.refuses(b",a" * 65 + b"\nd,1\n", "65")
        self.refuses(b",a" * 64 + b"\n" + (b"d" + b",1" * 64 + b"\n") * 17, "1,024")
        self.gives(b",a\n" + b"".join(b"d%d,1\n" % row for row in range(64)), 64, 1, [(row, 1, 1) for row in range(1, 65)])
        self.refuses(b",a\nd,1\n" + b",\n" * 17000, "32,768")

    def test_long_names(self):
        """Where names would make the text too long they are left out."""
        head = "".join(f",{sire}" + "魚" * 49 for sire in range(64))
        rows = [f"{dam}" + "魚" * 49 + ",-1000000" * 16 + "," * 48 for dam in range(64)]
        text = "\n".join([head] + rows).encode()
        self.assertTrue(30000 < len(text) <= 32768)
        pairs = [(row, column, -1000000) for row in range(1, 65) for column in range(1, 17)]
        self.assertEqual(self.gives(text, 64, 64, pairs), [])

    def test_no_table(self):
        for text in (b"", b"\n", b",a,b\n", b"\n\n\n", b"a\n", b"a\nb\n", ",a\nd,1\n".encode("utf-16")):
            self.refuses(text)
        self.refuses(b"", words=("--bare",))

    def test_separators_that_are_none(self):
        for sign in ("ab", "\n", "\r", '"', "é!"):
            ran = forked("from-csv", f"--separator={sign}", "-", stdin=b",a\nd,1\n")
            self.assertIn(ran.status, (1, 2), sign)
            self.assertEqual(ran.out, b"")
            self.assertTrue(ran.err.startswith(b"jangoripu: ") and b"Traceback" not in ran.err, ran.err)

    def test_the_default_name(self):
        with folder({"table.csv": b",a\nd,8\n"}) as place:
            ran = forked("from-csv", cwd=place)
            self.assertEqual(pairs_of(ran.out), (1, 1, [(1, 1, 8)]))
            ran = forked("from-csv", "table.csv", cwd=place)
            self.assertEqual(pairs_of(ran.out), (1, 1, [(1, 1, 8)]))


if __name__ == "__main__":
    unittest.main()
