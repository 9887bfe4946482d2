"""The manual: what it shows of commands and of Python is what they do."""
import doctest
import os
import re
import shutil
import subprocess
import sys
import unittest

from common import EXAMPLES, LAUNCH, ROOT, folder

MANUAL = os.path.join(ROOT, "docs", "MANUAL.md")
NOT_HERE = ("PREFIX", "pip ", "program.c", "ours.mtx", "season-2025")  # words of commands that need more than the examples


def commands(text):
    """The commands that indented blocks show after $, each with the lines that it is to write."""
    for block in re.findall(r"(?:^    .*\n|^\n(?=    ))+", text, re.MULTILINE):
        shown = None
        for line in [*(line[4:].rstrip() for line in block.strip("\n").split("\n")), "$ "]:
            if line.startswith("$ "):
                if shown:
                    yield shown[0], "\n".join(shown[1:]).strip("\n")
                shown = [line[2:]]
            elif shown:
                shown.append(line)


def like(line):
    """A pattern for a line as the manual shows it: a line .. stands for any lines, and a word .. for any word."""
    return ".*" if line == ".." else " ".join(r"\S+" if word == ".." else re.escape(word) for word in line.split(" "))


class Manual(unittest.TestCase):
    def setUp(self):
        with open(MANUAL, encoding="utf-8") as file:
            self.text = file.read()
        made = folder()
        self.place = made.__enter__()
        self.addCleanup(made.__exit__, None, None, None)
        os.symlink(EXAMPLES, os.path.join(self.place, "examples"))
        shutil.copytree(os.path.join(EXAMPLES, "season"), os.path.join(self.place, "season"))
        os.mkdir(os.path.join(self.place, "bin"))
        with open(os.path.join(self.place, "bin", "jangoripu"), "w", encoding="utf-8") as file:
            file.write(f"#!/bin/sh\nexec '{sys.executable}' -IS '{LAUNCH}' \"$@\"\n")
        os.chmod(os.path.join(self.place, "bin", "jangoripu"), 0o755)

    def test_commands(self):
        for name in ("sheet", "limits", "plan", "prices"):
            shutil.copy(os.path.join(EXAMPLES, "season", name + ".mtx"), self.place)
        mine = os.path.join(self.place, "mine")
        os.mkdir(mine)
        shutil.copy(os.path.join(EXAMPLES, "season", "sheet.mtx"), mine)
        shutil.copy(os.path.join(EXAMPLES, "season", "limits.mtx"), os.path.join(mine, "limits.mtx.txt"))
        environment = dict(os.environ, PATH=os.path.join(self.place, "bin") + os.pathsep + os.environ["PATH"])
        tried = 0
        made = {"dimacs-solver": "dimacs-solver", "glpsol": "season.out"}  # tools, and words of what they make
        for command, wanted in commands(self.text):
            absent = [tool for tool, word in made.items() if word in command and not shutil.which(tool)]
            if absent or any(word in command for word in NOT_HERE):
                continue
            ran = subprocess.run(["sh", "-c", command], cwd=self.place, env=environment, check=False, stdout=subprocess.PIPE,
                                 stderr=subprocess.STDOUT)
            if not wanted:
                continue  # it makes a file that a later one reads
            got = "\n".join(line.rstrip() for line in ran.stdout.decode(errors="replace").rstrip("\n").split("\n"))
            pattern = "\n".join(map(like, wanted.split("\n")))
            with self.subTest(command=command):
                self.assertRegex(got, re.compile(rf"\A{pattern}\Z", re.DOTALL))
            tried += 1
        self.assertGreater(tried, 15)

    def test_python(self):
        try:
            import numpy  # noqa: F401
            import scipy  # noqa: F401
        except ImportError:
            self.skipTest("numpy and SciPy are not there")
        before = os.getcwd()
        os.chdir(self.place)
        try:
            tests = doctest.DocTestParser().get_doctest(self.text, {}, "the manual", MANUAL, 0)
            said = []
            result = doctest.DocTestRunner(verbose=False).run(tests, out=said.append)
        finally:
            os.chdir(before)
        self.assertEqual(result.failed, 0, "".join(said))
        self.assertGreater(result.attempted, 30)

    def test_the_spreadsheet(self):
        ran = subprocess.run([sys.executable, "-I", LAUNCH, "from-csv", os.path.join(EXAMPLES, "spreadsheet", "table.csv")], check=True,
                             stdout=subprocess.PIPE)
        with open(os.path.join(EXAMPLES, "spreadsheet", "sheet.mtx"), "rb") as file:
            self.assertEqual(ran.stdout, file.read())
