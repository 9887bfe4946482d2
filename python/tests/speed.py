"""Measures the command and the module on a class of 200 full folders, beside the programs themselves: python3 python/tests/speed.py. A time
is the median of seven runs; the last column is its ratio to 200 runs of the program `mark` by a shell."""
import os
import random
import statistics
import subprocess
import sys
import time

from common import COMMAND, PACKAGE, PROGRAMS, files_of, folder, full_sheet, put
from jangoripu import Plan, Prices, Sheet, measure, read_sheet, solve

FOLDERS = 200
RUNS = 7


def median(action):
    """The median of some runs, in seconds."""
    times = []
    for _ in range(RUNS):
        began = time.perf_counter()
        action()
        times.append(time.perf_counter() - began)
    return statistics.median(times)


def ran(*words, **how):
    return lambda: subprocess.run(words, check=True, stdout=subprocess.DEVNULL, **how)


def make_class(place):
    """Folders with a full sheet, each in an order of its own, and a best plan without some of its pairs."""
    draw = random.Random(3)
    sheet, limits = full_sheet()
    best = solve(sheet, limits)
    for number in range(FOLDERS):
        order = draw.sample(range(len(sheet.pairs)), len(sheet.pairs))
        own = Sheet(sheet.rows, sheet.columns, tuple(sheet.pairs[pair] for pair in order))
        plan = Plan(tuple(best.plan.marks[pair] * (draw.random() < 0.9) for pair in order))
        prices = Prices(best.prices.fish, tuple(best.prices.pairs[pair] for pair in order))
        put(os.path.join(place, f"{number:03}"), files_of(own, limits, plan, prices))
    return sheet, limits, best


def main():
    with folder() as place:
        sheet, limits, best = make_class(place)
        names = sorted(os.listdir(place))
        loop = f'for name in *; do (cd "$name" && "{PROGRAMS}/mark"); done'
        programs = median(ran("sh", "-c", loop, cwd=place))
        rows = [(f"{FOLDERS} runs of the program mark by a shell", programs),
                ("class, each on its own sheet", median(ran(*COMMAND, "class", *names, cwd=place))),
                ("class --key", median(ran(*COMMAND, "class", "--key", names[0], *names, cwd=place))),
                ("mark, which runs the program for each folder", median(ran(*COMMAND, "mark", *names, cwd=place)))]
        for what, spent in rows:
            print(f"{what:50} {1000 * spent:8.0f} ms {spent / programs:8.2f}")
        text = files_of(sheet, limits)["sheet.mtx"]
        imported = [sys.executable, "-c", f"import sys; sys.path.insert(0, {os.path.dirname(PACKAGE)!r}); import jangoripu"]
        for what, spent in (("Python starts", median(ran(sys.executable, "-c", "pass"))), ("and imports the module", median(ran(*imported))),
                            ("solve one folder by the command", median(ran(*COMMAND, "solve", os.path.join(place, names[0])))),
                            ("solve a full sheet by the module, 100 times", median(lambda: [solve(sheet, limits) for _ in range(100)])),
                            ("measure a plan of it, 100 times", median(lambda: [measure(sheet, limits, best.plan, best.prices) for _ in range(100)])),
                            ("read it, 100 times", median(lambda: [read_sheet(text) for _ in range(100)]))):
            print(f"{what:50} {1000 * spent:8.1f} ms")


if __name__ == "__main__":
    main()
