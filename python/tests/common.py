"""What the tests share: places, running commands, drawn sheets with fixed seeds, texts written here and not by the package, what the
definitions say of a plan and its prices, and a full class of folders."""
import contextlib
import itertools
import os
import random
import shutil
import subprocess
import sys
import tempfile
from typing import NamedTuple

sys.dont_write_bytecode = True
ROOT = os.path.dirname(os.path.dirname(os.path.dirname(os.path.realpath(__file__))))
PACKAGE = os.path.join(ROOT, "python", "jangoripu")
LAUNCH = os.path.join(ROOT, "python", "launch")
PROGRAMS = os.path.join(ROOT, "target", "bin")
EXAMPLES = os.path.join(ROOT, "examples")
COMMAND = [sys.executable, "-IS", "-B", LAUNCH]
if os.path.dirname(PACKAGE) not in sys.path:
    sys.path.insert(0, os.path.dirname(PACKAGE))

from jangoripu import Group, Measures, Plan, Prices, Sheet  # noqa: E402


# ---- running

class Ran(NamedTuple):
    status: int
    out: bytes
    err: bytes


def run(words, cwd=None, env=None, stdin=b"", timeout=60):
    """Runs a command, without a shell. `env` is added to the environment; a variable that is None is taken out of it. `stdin` is bytes, or
    what subprocess takes (a file, a descriptor, subprocess.DEVNULL)."""
    given = {name: value for name, value in {**os.environ, **(env or {})}.items() if value is not None}
    fed = {"input": stdin} if isinstance(stdin, bytes) else {"stdin": stdin}
    ran = subprocess.run(words, cwd=cwd, env=given, stdout=subprocess.PIPE, stderr=subprocess.PIPE, timeout=timeout, check=False, **fed)
    return Ran(ran.returncode, ran.stdout, ran.stderr)


def command(*words, **how):
    """Runs the command jangoripu."""
    return run([*COMMAND, *words], **how)


@contextlib.contextmanager
def folder(files=None):
    """A temporary folder with these files, name: bytes, which is gone afterwards."""
    made = tempfile.mkdtemp(prefix="tests-")
    try:
        put(made, files or {})
        yield made
    finally:
        shutil.rmtree(made)


def put(place, files):
    """Writes files, name: bytes, into a folder, which is made where it is not there."""
    os.makedirs(place, exist_ok=True)
    for name, text in files.items():
        with open(os.path.join(place, name), "wb") as file:
            file.write(text)


def read(*path):
    with open(os.path.join(*path), "rb") as file:
        return file.read()


def program(name, files):
    """What a proved program writes in a folder with these files."""
    with folder(files) as place:
        ran = run([os.path.join(PROGRAMS, name)], cwd=place)
    assert ran.status == 0 and ran.out, f"the program {name} wrote nothing"
    return ran.out


# ---- texts

def _text(lines):
    return "".join(f"{line}\n" for line in lines).encode()


def _last(sheet):
    return "symmetric" if sheet.one_sided else "general"


def sheet_text(sheet):
    return _text([f"%%MatrixMarket matrix coordinate integer {_last(sheet)}", f"{sheet.rows} {sheet.columns} {len(sheet.pairs)}",
                  *(f"{row} {column} {merit}" for row, column, merit in sheet.pairs)])


def numbers_text(numbers):
    """Limits or prices as a text."""
    return _text(["%%MatrixMarket matrix array integer general", f"{len(numbers)} 1", *numbers])


def plan_text(sheet, plan):
    chosen = [pair for pair, mark in zip(sheet.pairs, plan.marks) if mark]
    return _text([f"%%MatrixMarket matrix coordinate pattern {_last(sheet)}", f"{sheet.rows} {sheet.columns} {len(chosen)}",
                  *(f"{row} {column}" for row, column, _ in chosen)])


def prices_text(prices):
    return numbers_text(prices.fish + prices.pairs)


def files_of(sheet, limits, plan=None, prices=None):
    """The files of a folder."""
    files = {"sheet.mtx": sheet_text(sheet), "limits.mtx": numbers_text(limits)}
    if plan is not None:
        files["plan.mtx"] = plan_text(sheet, plan)
    if prices is not None:
        files["prices.mtx"] = prices_text(prices)
    return files


# ---- drawn sheets

def draw_sheet(draw, rows, columns, pairs, one_sided=False, least=-1000000, greatest=1000000):
    """A sheet with at most so many pairs, in any order; `draw` is a random.Random."""
    columns = rows if one_sided else columns
    cells = [(row, column) for row in range(1, rows + 1) for column in range(1, row if one_sided else columns + 1)]
    ends = draw.sample(cells, min(pairs, len(cells), 1024))
    return Sheet(rows, columns, tuple((row, column, draw.randint(least, greatest)) for row, column in ends), one_sided)


def draw_limits(draw, sheet, greatest=4):
    return tuple(draw.randint(0, greatest) for _ in range(sheet.fish))


def draw_plan(draw, sheet, limits):
    """A valid plan, of largest merit by chance alone."""
    left, marks = list(limits), [0] * len(sheet.pairs)
    for pair in draw.sample(range(len(marks)), len(marks)):
        ends = [fish - 1 for fish in ends_of(sheet, pair)]
        if draw.random() < 0.8 and all(left[fish] for fish in ends):
            marks[pair] = 1
            for fish in ends:
                left[fish] -= 1
    return Plan(tuple(marks))


def draw_prices(draw, sheet, limits, groups=0, greatest=50):
    """Prices that cover every pair, with at most so many groups."""
    fish = [draw.randint(0, greatest) for _ in range(sheet.fish)]
    made = [group for group in (draw_group(draw, sheet, limits, greatest) for _ in range(groups)) if group is not None]
    lent = Prices(tuple(fish), (0,) * len(sheet.pairs), tuple(made))
    lacks = [2 * sheet.pairs[pair][2] - reach(sheet, lent, pair) for pair in range(len(sheet.pairs))]
    return Prices(lent.fish, tuple(max(0, lack) + draw.choice((0, 0, draw.randint(0, greatest))) for lack in lacks), lent.groups)


def draw_group(draw, sheet, limits, greatest=50):
    """A group that keeps the rules, or None where these fish have none."""
    fish = draw.sample(range(1, sheet.fish + 1), draw.randint(1, min(sheet.fish, 6)))
    border = [pair for pair in range(len(sheet.pairs)) if sum(end in fish for end in ends_of(sheet, pair)) == 1]
    marked = draw.sample(border, draw.randint(0, min(len(border), 4)))
    if (sum(limits[one - 1] for one in fish) + len(marked)) % 2 == 0:
        if marked:
            marked.pop()
        elif border:
            marked.append(draw.choice(border))
        else:
            return None
    return Group(tuple(fish), tuple(pair + 1 for pair in marked), draw.randint(0, greatest))


# ---- what the definitions say; here pairs count from 0, as in Python, and fish from 1

def ends_of(sheet, pair):
    row, column, _ = sheet.pairs[pair]
    return (row, column) if sheet.one_sided else (row, sheet.rows + column)


def uses(sheet, marks):
    """How often a plan uses each fish."""
    used = [0] * sheet.fish
    for pair, mark in enumerate(marks):
        for fish in ends_of(sheet, pair):
            used[fish - 1] += mark
    return used


def covered(sheet, group):
    """The pairs that a group covers: its marked pairs, and those with both fish inside."""
    return {pair for pair in range(len(sheet.pairs))
            if pair + 1 in group.pairs or all(fish in group.fish for fish in ends_of(sheet, pair))}


def reach(sheet, prices, pair):
    """The prices that cover a pair, added up."""
    first, second = ends_of(sheet, pair)
    groups = sum(group.price for group in prices.groups if pair in covered(sheet, group))
    return prices.fish[first - 1] + prices.fish[second - 1] + prices.pairs[pair] + groups


def measured(sheet, limits, plan, prices):
    """The measures of a valid plan against prices that cover every pair, by the definitions."""
    numbers = range(len(sheet.pairs))
    chosen = [pair for pair in numbers if plan.marks[pair]]
    merit = sum(sheet.pairs[pair][2] for pair in chosen)
    used = uses(sheet, plan.marks)
    assert all(use <= limit for use, limit in zip(used, limits)), "the plan is not valid"
    assert all(reach(sheet, prices, pair) >= 2 * sheet.pairs[pair][2] for pair in numbers), "a pair is not covered"
    total = sum(limit * price for limit, price in zip(limits, prices.fish)) + sum(prices.pairs)
    groups = 0
    for group in prices.groups:
        most = (sum(limits[fish - 1] for fish in group.fish) + len(group.pairs) - 1) // 2
        total += most * group.price
        groups += group.price * (most - sum(pair in covered(sheet, group) for pair in chosen))
    fish = sum(price * (limit - use) for price, limit, use in zip(prices.fish, limits, used))
    pairs = sum(prices.pairs[pair] for pair in numbers if not plan.marks[pair])
    cover = sum(reach(sheet, prices, pair) - 2 * sheet.pairs[pair][2] for pair in chosen)
    assert fish + groups + pairs + cover == total - 2 * merit, "the leftovers are not the gap"
    return Measures(merit, total, fish, groups, pairs, cover, total - 2 * merit)


def total_of(sheet, limits, prices):
    """The total of prices that a call gives: these are in range, have no groups, and cover every pair."""
    assert prices.groups == () and all(0 <= price <= 2000000 for price in prices.fish + prices.pairs), "no prices of a call"
    return measured(sheet, limits, Plan((0,) * len(sheet.pairs)), prices).total


def doubled(sheet, limits):
    """The two-sided sheet with every family of a one-sided one on both sides and each pair once in each direction, and its limits."""
    turned = tuple((column, row, merit) for row, column, merit in sheet.pairs)
    return Sheet(sheet.rows, sheet.rows, sheet.pairs + turned), tuple(limits) * 2


def largest(sheet, limits):
    """The largest merit, by trying every plan."""
    most = 0
    for marks in itertools.product((0, 1), repeat=len(sheet.pairs)):
        if all(use <= limit for use, limit in zip(uses(sheet, marks), limits)):
            most = max(most, sum(mark * pair[2] for mark, pair in zip(marks, sheet.pairs)))
    return most


# ---- a class

def full_sheet(seed=1):
    """A full two-sided sheet: 64 dams, 64 sires and 1,024 pairs; and its limits."""
    draw = random.Random(seed)
    sheet = draw_sheet(draw, 64, 64, 1024)
    return sheet, draw_limits(draw, sheet)


def full_class(place, folders, seed=1):
    """Makes a class in a folder: so many folders, each with the same full sheet and limits, its own valid plan, and prices that cover every
    pair. Gives their paths."""
    draw = random.Random(seed)
    sheet, limits = full_sheet(seed)
    made = []
    for number in range(1, folders + 1):
        made.append(os.path.join(place, f"trainee{number:03}"))
        put(made[-1], files_of(sheet, limits, draw_plan(draw, sheet, limits), draw_prices(draw, sheet, limits, greatest=1000000)))
    return made
