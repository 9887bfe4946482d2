"""The command where names, files, the environment or the machine are not as they should be."""
import ctypes
import os
import random
import re
import resource
import shutil
import signal
import socket
import stat
import subprocess
import time
import unittest

from common import COMMAND, EXAMPLES, LAUNCH, command, files_of, folder, program, put, read, run
from jangoripu import Plan, Prices, Sheet

SEASON = os.path.join(EXAMPLES, "season")
NAMES = ("sheet.mtx", "limits.mtx", "plan.mtx", "prices.mtx")
FILES = {name: read(SEASON, name) for name in NAMES}
DECOY = files_of(Sheet(1, 1, ((1, 1, 1),)), (1, 1), Plan((1,)), Prices((2, 0), (0,)))
OURS = re.compile(rb'launch", line [1-9][0-9]|jangoripu|race condition')  # what comes after the launcher's first lines
CROSSES = b"p asn 2 1\nn 1\na 1 2 -7\n"


class Case(unittest.TestCase):
    def setUp(self):
        made = folder()
        self.place = made.__enter__()
        self.addCleanup(made.__exit__, None, None, None)

    def path(self, *names):
        return os.path.join(self.place, *names)

    def told(self, ran, what=None):
        """Status 2, nothing on standard output, and words."""
        self.assertEqual((ran.status, ran.out), (2, b""), (what, ran.err))
        self.harmless(ran.err)
        self.assertTrue(ran.err.startswith(b"jangoripu: ") and len(ran.err) > 20, ran.err)

    def harmless(self, err):
        self.assertNotIn(b"Traceback", err)
        self.assertNotIn(b"Exception", err)
        self.assertNotIn(b"Error", err)


class Folders(Case):
    """The folder that is named is marked, whatever its name and the environment are."""

    def setUp(self):
        super().setUp()
        self.names = ["-", "-P", "-L", "a b", "$HOME", "*", "~", "best", "..best", "'", "a\\b", "--"]
        decoys = {"CDPATH": self.path("decoys"), "HOME": self.path("home"), "OLDPWD": self.path("old"), "ENV": self.path("env")}
        for place in decoys.values():
            put(place, DECOY)
            for name in self.names + ["work"]:
                put(os.path.join(place, name), DECOY)
        for name in self.names:
            put(self.path("work", name), FILES)
        self.env = dict(decoys, CDPATH=f"{decoys['CDPATH']}:.")
        self.line = program("mark", FILES)
        self.assertNotEqual(self.line, program("mark", DECOY))

    def test_each_alone(self):
        words = [["mark", name] for name in self.names if name[0] != "-"] + [["mark", "-"], ["mark", "--", "-P"], ["mark", "./-P"], ["mark", "--", "--"]]
        words += [["mark", "--", "-"], ["class", "--plain", "-"]]
        for word in words:
            ran = command(*word, cwd=self.path("work"), env=self.env)
            expected = b"-: " + self.line if word[0] == "class" else self.line
            self.assertEqual((ran.status, ran.out, ran.err), (0, expected, b""), word)

    def test_all_at_once(self):
        ran = command("mark", "--", *self.names, cwd=self.path("work"), env=self.env)
        shown = [name.replace("\\", "\\\\") for name in self.names]
        self.assertEqual(ran.out, b"".join(f"{name}: ".encode() + self.line for name in shown))
        ran = command("solve", "-", cwd=self.path("work"), env=self.env)
        self.assertEqual(ran.out, program("solve", {name: FILES[name] for name in NAMES[:2]}))

    def under(self, shell):
        """Called by a shell that has CDPATH exported."""
        if not shutil.which(shell):
            self.skipTest(f"{shell} is not there")
        script = 'cd "$1" || exit 9; shift; export CDPATH="$CDPATH"; "$@" mark best; "$@" mark -; "$@" mark -- -P; "$@" mark ./*/'
        ran = run([shell, "-c", script, "sh", self.path("work"), *COMMAND], env=self.env)
        lines = ran.out.split(b"\n")[:-1]
        self.assertEqual(lines[:3], [self.line.rstrip(b"\n")] * 3)
        self.assertEqual(len(lines), 3 + len([name for name in self.names if name[0] != "."]))
        self.assertTrue(all(line.endswith(b": " + self.line.rstrip(b"\n")) for line in lines[3:]))

    def test_under_dash(self):
        self.under("dash")

    def test_under_bash(self):
        self.under("bash")

    def test_files_with_such_names(self):
        sheet = FILES["sheet.mtx"]
        tidy = program("tidy", {"sheet.mtx": sheet})
        names = ["a b.mtx", "$HOME.mtx", "*.mtx", "-x.mtx", "new\nline", "'\""]
        put(self.path("files"), {name: sheet for name in names})
        for name in names:
            self.assertEqual(command("tidy", "--", name, cwd=self.path("files"), env=self.env).out, tidy, name)


class NotRegular(Case):
    """A FIFO, a socket, a device or a folder in the place of a file is told at once."""

    def timed(self, *words, **how):
        begun = time.monotonic()
        ran = command(*words, cwd=self.place, timeout=20, **how)
        spent = time.monotonic() - begun
        if spent > 1:  # once more: the machine may have been busy
            begun = time.monotonic()
            ran = command(*words, cwd=self.place, timeout=20, **how)
            spent = min(spent, time.monotonic() - begun)
        self.assertLess(spent, 1, words)
        return ran

    def make(self, kind, path):
        if kind == "FIFO":
            os.mkfifo(path)
        elif kind == "socket":
            made = socket.socket(socket.AF_UNIX)
            made.bind(path)
            self.addCleanup(made.close)
        elif kind == "device":
            os.symlink("/dev/zero", path)
        else:
            os.mkdir(path)

    def test_in_a_folder(self):
        for kind in ("FIFO", "socket", "device", "folder"):
            for name in NAMES:
                where = f"{kind}-{name}"
                put(self.path(where), {own: text for own, text in FILES.items() if own != name})
                self.make(kind, self.path(where, name))
        put(self.path("good"), FILES)
        for kind in ("FIFO", "socket", "device", "folder"):
            folders = [f"{kind}-{name}" for name in NAMES]
            self.told(self.timed("mark", folders[NAMES.index("plan.mtx")]), kind)
            ran = self.timed("mark", *folders, "good")
            self.assertEqual((ran.status, ran.out), (2, b"good: " + program("mark", FILES)))
            lines = ran.err.decode().rstrip("\n").split("\n")
            self.assertEqual(len(lines), 4)
            for where, name, line in zip(folders, NAMES, lines):
                self.assertTrue(line.startswith(f"jangoripu: {where}: ") and f"{name} is a {kind}, " in line, line)
            ran = self.timed("class", *folders, "good")
            self.assertEqual((ran.status, ran.err), (2, b""))
            text = ran.out.decode()
            self.assertEqual(text.count(f" is a {kind}, "), 4)
            self.assertIn("\n1 marked: 1 best, 0 with a gap, 0 refused; 4 not read\n", text)
            self.told(self.timed("solve", folders[0]), kind)
            self.told(self.timed("to-dimacs", folders[1]), kind)
            self.told(self.timed("price-tanks", folders[1]), kind)
            ran = self.timed("class", "--key", folders[1], "good")
            self.told(ran, kind)
            self.assertIn(b"key", ran.err)

    def test_named(self):
        for kind in ("FIFO", "socket", "device", "folder"):
            self.make(kind, self.path(kind))
            for words in (["tidy", kind], ["solve", "--sheet", kind, SEASON], ["mark", f"--prices={kind}", SEASON]):
                ran = self.timed(*words)
                self.told(ran, words)
                self.assertIn(f"{kind} is a {kind}".encode(), ran.err)
        for words in (["rewrite", "FIFO"], ["from-dimacs", "device"], ["from-csv", "socket"], ["tidy", "/dev/zero"], ["tidy", "/dev/stdin"],
                      ["class", "FIFO"], ["mark", "device"]):
            ran = self.timed(*words)
            self.assertEqual(ran.status, 2, words)
            self.harmless(ran.err)

    def test_standard_input_without_end(self):
        """No more of standard input is read than a text may have and one byte."""
        for name, line in (("tidy", b"refused 1 at 0 in sheet.mtx\n"), ("from-dimacs", b"refused 1 at 0 in crosses.asn\n"), ("rewrite", b"cannot read\n")):
            with open("/dev/zero", "rb") as zero:
                ran = self.timed(name, "-", stdin=zero)
            self.assertEqual((ran.status, ran.out), (1, line))


class Large(Case):
    """Of a large file no more is read than is needed to see that it is too long."""

    def small(self):
        resource.setrlimit(resource.RLIMIT_AS, (400 << 20, 400 << 20))

    def test_a_file_of_10_gb(self):
        for name in NAMES:
            put(self.path(name[:-4]), {own: text for own, text in FILES.items() if own != name})
            with open(self.path(name[:-4], name), "wb") as file:
                file.write(FILES[name])
                file.truncate(10 << 30)
        sheet = self.path("sheet", "sheet.mtx")
        for words, line in ((["tidy", sheet], "refused 1 at 0 in sheet.mtx"), (["solve", "sheet"], "refused 1 at 0 in sheet.mtx"),
                            (["solve", "limits"], "refused 1 at 0 in limits.mtx"), (["mark", "plan"], "refused 1 at 0 in plan.mtx"),
                            (["mark", "prices"], "refused 1 at 0 in prices.mtx"), (["rewrite", sheet], "cannot read"),
                            (["from-dimacs", sheet], "refused 1 at 0 in crosses.asn"), (["to-dimacs", "sheet"], "refused 1 at 0 in sheet.mtx"),
                            (["price-tanks", "limits"], "refused 1 at 0 in limits.mtx"),
                            (["solve", f"--sheet={sheet}", "limits"], "refused 1 at 0 in sheet.mtx")):
            begun = time.monotonic()
            ran = subprocess.run([*COMMAND, *words], cwd=self.place, stdout=subprocess.PIPE, stderr=subprocess.PIPE, preexec_fn=self.small, timeout=20)
            self.assertLess(time.monotonic() - begun, 2, words)
            self.assertEqual((ran.returncode, ran.stdout.decode()), (1, line + "\n"), (words, ran.stderr))
            self.harmless(ran.stderr)
        ran = command("class", "sheet", "limits", "plan", "prices", cwd=self.place)
        self.assertEqual(ran.out.decode().count(": the text is longer than 32,768 bytes"), 4)
        ran = command("from-csv", sheet)
        self.assertEqual((ran.status, ran.out), (1, b""))

    def test_one_byte_too_many(self):
        text = FILES["sheet.mtx"] + b"\n" * (32768 - len(FILES["sheet.mtx"]))
        put(self.place, {"fits": text, "long": text + b"\n"})
        self.assertEqual(command("tidy", "fits", cwd=self.place).out, program("tidy", {"sheet.mtx": FILES["sheet.mtx"]}))
        self.assertEqual(command("tidy", "long", cwd=self.place).out, b"refused 1 at 0 in sheet.mtx\n")

    def test_many_bytes_are_not_read(self):
        """What is read of a pipe is counted: what is left in it is the rest."""
        taken = os.pipe()
        os.set_blocking(taken[1], False)
        sent = 0
        try:
            while True:
                sent += os.write(taken[1], b" " * 4096)
        except BlockingIOError:
            pass
        os.close(taken[1])
        ran = command("tidy", "-", stdin=taken[0])
        left = 0
        while True:
            part = os.read(taken[0], 65536)
            if not part:
                break
            left += len(part)
        os.close(taken[0])
        self.assertEqual((ran.status, ran.out), (1, b"refused 1 at 0 in sheet.mtx\n"))
        self.assertEqual(sent - left, 32769)


class Output(Case):
    """Where standard output cannot be written the status is 2, for every command."""

    def commands(self):
        put(self.path("f"), dict(FILES, **{"old.mtx": FILES["plan.mtx"], "crosses.asn": CROSSES, "table.csv": b",a\nd,1\n"}))
        put(self.path("ones"), DECOY)
        words = [["solve", "f"], ["solve", "--prices", "f"], ["mark", "f"], ["mark", "f", "f"], ["mark", "--json", "f"], ["class", "f"],
                 ["class", "--json", "f"], ["price-tanks", os.path.join(EXAMPLES, "tank")], ["rewrite", "f/old.mtx"], ["tidy", "f/sheet.mtx"],
                 ["to-dimacs", "ones"], ["to-dimacs", "--min", "f"], ["from-dimacs", "f/crosses.asn"], ["from-csv", "f/table.csv"],
                 ["--version"], ["--help"], ["mark", "--help"]]
        refused = [["solve", "f/nothing"], ["mark", "f/nothing"], ["class", "f/nothing"], ["tidy", "f/plan.mtx"], ["class", "--key", "f/nothing", "f"]]
        put(self.path("f", "nothing"), {"sheet.mtx": b"", "limits.mtx": b""})
        return words + refused

    def shell(self, script, words, **how):
        return run(["sh", "-c", script, "sh", *COMMAND, *words], cwd=self.place, **how)

    def test_full_and_closed_and_gone(self):
        for number, words in enumerate(self.commands()):
            for script in ('exec "$@" >/dev/full', 'exec "$@" >&-') if number % 2 else ('exec "$@" >&-', 'exec "$@" >/dev/full'):
                ran = self.shell(script, words)
                self.told(ran, (script, words))
                self.assertIn(b"standard output", ran.err)
                if number > 6:
                    break
            first, last = os.pipe()
            os.close(first)
            try:
                ran = subprocess.run([*COMMAND, *words], cwd=self.place, stdout=last, stderr=subprocess.PIPE)
            finally:
                os.close(last)
            self.assertEqual(ran.returncode, 2, words)
            self.harmless(ran.stderr)
            self.assertIn(b"standard output", ran.stderr)

    def test_a_reader_that_goes(self):
        """The reader takes one line and is gone."""
        put(self.path("f"), FILES)
        reader = subprocess.Popen([*COMMAND, "mark", *["f"] * 60], cwd=self.place, stdout=subprocess.PIPE, stderr=subprocess.PIPE)
        self.assertEqual(reader.stdout.readline(), b"f: " + program("mark", FILES))
        reader.stdout.close()
        err = reader.stderr.read()
        reader.stderr.close()
        self.assertEqual(reader.wait(), 2)
        self.harmless(err)

    def test_standard_error_closed_or_full(self):
        put(self.path("f"), FILES)
        put(self.path("bad"), dict(FILES, **{"plan.mtx": b"x"}))
        for script in ('exec "$@" 2>&-', 'exec "$@" 2>/dev/full'):
            for words, status, out in ((["mark", "f"], 0, program("mark", FILES)), (["mark", "bad"], 1, b"refused 2 at 1 in plan.mtx\n"),
                                       (["mark", "nowhere"], 2, b""), (["draw"], 2, b""), (["tidy", "nowhere"], 2, b""), (["tidy", "-x"], 2, b"")):
                ran = self.shell(script, words)
                self.assertEqual((ran.status, ran.out, ran.err), (status, out, b""), (script, words))

    def test_standard_input_closed(self):
        put(self.path("f"), FILES)
        for words, status, out in ((["mark", "f"], 0, program("mark", FILES)), (["solve", "f"], 0, program("solve", FILES)),
                                   (["tidy", "f/sheet.mtx"], 0, program("tidy", FILES))):
            ran = self.shell('exec "$@" <&-', words)
            self.assertEqual((ran.status, ran.out, ran.err), (status, out, b""), words)
        for words in (["tidy", "-"], ["mark", "--plan=-", "f"], ["from-csv", "-"]):
            self.told(self.shell('exec "$@" <&-', words), words)
        with open(self.path("out"), "wb") as only_written:
            self.told(command("tidy", "-", stdin=only_written))

    def test_all_closed(self):
        put(self.path("f"), FILES)
        for words, status in ((["mark", "f"], 2), (["tidy", "f/sheet.mtx"], 2), (["solve", "f"], 2), (["class", "f"], 2), (["--help"], 2)):
            self.assertEqual(self.shell('exec "$@" <&- >&- 2>&-', words).status, status, words)
        self.assertEqual({name: read(self.path("f"), name) for name in NAMES}, FILES)


class Signals(Case):
    """Nothing is left behind, whenever a signal comes."""

    def start(self, words, **how):
        return subprocess.Popen([*COMMAND, *words], cwd=self.place, env=dict(os.environ, TMPDIR=self.path("tmp")), stdout=subprocess.PIPE,
                                stderr=subprocess.PIPE, stdin=subprocess.PIPE, **how)

    def ended(self, process):
        out, err = process.communicate(timeout=30)
        self.assertEqual(os.listdir(self.path("tmp")), [])
        return process.returncode, out, err

    def test_at_random_points(self):
        draw = random.Random(2024)
        os.mkdir(self.path("tmp"))
        put(self.path("f"), dict(FILES, **{"old.mtx": FILES["plan.mtx"], "crosses.asn": CROSSES}))
        words = [["mark", *["f"] * 40], ["tidy", "f/sheet.mtx"], ["mark", *["f"] * 40], ["solve", "f"], ["rewrite", "f/old.mtx"], ["from-dimacs", "f/crosses.asn"]]
        sent = [(signal.SIGINT,), (signal.SIGTERM,), (signal.SIGHUP,), (signal.SIGPIPE,), (signal.SIGINT, signal.SIGTERM), (signal.SIGHUP, signal.SIGINT)]
        ends = set()
        for turn in range(60):
            numbers = sent[turn % len(sent)]
            process = self.start(words[(turn + turn // 6) % len(words)])
            time.sleep(draw.random() * 0.15)
            for number in numbers:
                process.send_signal(number)
            status, out, err = self.ended(process)
            if signal.SIGINT in numbers and (b"Fatal Python error" in err or b"Traceback" in err and not OURS.search(err)):
                continue  # it came while Python itself started
            self.assertEqual(err, b"", numbers)
            self.assertIn(status, (0, *(-number for number in numbers)))
            ends.add(status)
        self.assertGreater(len(ends), 3)

    def test_in_the_midst_of_marking(self):
        """After the first line it is at work: then each signal ends it, as itself."""
        os.mkdir(self.path("tmp"))
        put(self.path("f"), FILES)
        draw = random.Random(7)
        for number in (signal.SIGINT, signal.SIGTERM, signal.SIGHUP) * 4:
            process = self.start(["mark", *["f"] * 200])
            self.assertEqual(process.stdout.readline(), b"f: " + program("mark", FILES))
            time.sleep(draw.random() * 0.02)
            process.send_signal(number)
            status, out, err = self.ended(process)
            self.assertEqual((status, err), (-number, b""))
            self.assertLess(out.count(b"\n"), 199)

    def test_two_signals_at_once(self):
        os.mkdir(self.path("tmp"))
        put(self.path("f"), FILES)
        for turn in range(6):
            process = self.start(["mark", *["f"] * 200])
            process.stdout.readline()
            for number in (signal.SIGINT, signal.SIGTERM, signal.SIGHUP, signal.SIGTERM):
                process.send_signal(number)
            status, _, err = self.ended(process)
            self.assertEqual(err, b"")
            self.assertIn(status, (-signal.SIGINT, -signal.SIGTERM, -signal.SIGHUP))

    def test_to_a_whole_group(self):
        """As a terminal sends it: the program that runs gets it too."""
        os.mkdir(self.path("tmp"))
        put(self.path("f"), FILES)
        for turn in range(4):
            process = self.start(["mark", *["f"] * 200], start_new_session=True)
            process.stdout.readline()
            time.sleep(0.003 * turn)
            os.killpg(process.pid, signal.SIGINT)
            status, _, err = self.ended(process)
            self.assertEqual((status, err), (-signal.SIGINT, b""))

    def test_while_it_waits_for_standard_input(self):
        os.mkdir(self.path("tmp"))
        for number in (signal.SIGINT, signal.SIGTERM, signal.SIGHUP):
            process = self.start(["tidy", "-"])
            time.sleep(0.7)
            process.send_signal(number)
            self.assertEqual(self.ended(process), (-number, b"", b""))

    def test_early_interrupts_are_quiet(self):
        """An interrupt that comes while the package is imported shows no traceback of it."""
        os.mkdir(self.path("tmp"))
        put(self.path("f"), FILES)
        for turn in range(10):
            process = self.start(["mark", "f"])
            time.sleep(0.015 + 0.005 * turn)
            process.send_signal(signal.SIGINT)
            status, _, err = self.ended(process)
            self.assertIsNone(OURS.search(err), err)

    def test_what_is_ignored_stays_ignored(self):
        os.mkdir(self.path("tmp"))
        put(self.path("f"), FILES)

        def ignoring():
            signal.signal(signal.SIGHUP, signal.SIG_IGN)
            signal.signal(signal.SIGTERM, signal.SIG_IGN)

        process = self.start(["mark", *["f"] * 60], preexec_fn=ignoring)
        first = process.stdout.readline()
        for _ in range(5):
            process.send_signal(signal.SIGHUP)
            process.send_signal(signal.SIGTERM)
            time.sleep(0.01)
        status, out, err = self.ended(process)
        self.assertEqual((status, first + out, err), (0, 60 * (b"f: " + program("mark", FILES)), b""))

    def test_temporary_folders_are_private(self):
        os.mkdir(self.path("tmp"))
        put(self.path("f"), FILES)
        process = self.start(["mark", *["f"] * 100])
        seen = set()
        while process.poll() is None and not seen:
            for name in os.listdir(self.path("tmp")):
                try:
                    mode = os.stat(self.path("tmp", name)).st_mode
                except FileNotFoundError:
                    continue
                if stat.S_ISDIR(mode):
                    seen.add(stat.S_IMODE(mode))
        process.terminate()
        self.ended(process)
        self.assertEqual(seen, {0o700})


class Surroundings(Case):
    """Neither the working folder nor Python's variables decide what is run."""

    STRANGE = ("json", "ctypes", "subprocess", "os", "csv", "signal", "tempfile", "jangoripu", "unicodedata", "site", "sitecustomize", "usercustomize", "re")

    def test_modules_of_the_working_folder(self):
        strange = b"import sys\nsys.stderr.write('strange code was run')\nraise SystemExit(9)\n"
        put(self.path("w"), dict(FILES, **{f"{name}.py": strange for name in self.STRANGE}))
        for env in ({}, {"PYTHONPATH": self.path("w")}, {"PYTHONPATH": ".", "PYTHONHOME": None, "PYTHONSTARTUP": self.path("w", "json.py"), "PYTHONUSERBASE": self.path("w")}):
            for words, out in ((["mark"], program("mark", FILES)), (["mark", "--json"], None), (["class", "."], None), (["class", "--csv", "."], None)):
                for begin in (COMMAND, [LAUNCH]):
                    if begin == [LAUNCH]:
                        env = dict(env, PATH="/usr/bin:/bin", PYTHONDONTWRITEBYTECODE="1")
                        if words != ["mark"]:
                            continue
                    ran = run([*begin, *words], cwd=self.path("w"), env=env)
                    self.assertEqual((ran.status, ran.err), (0, b""), words)
                    self.assertTrue(out is None or ran.out == out)
        self.assertNotIn("__pycache__", os.listdir(self.path("w")))

    def test_programs_of_the_working_folder(self):
        put(self.path("w"), dict(FILES, mark=b"#!/bin/sh\necho strange\n", tidy=b"#!/bin/sh\necho strange\n"))
        for name in ("mark", "tidy"):
            os.chmod(self.path("w", name), 0o755)
        ran = command("mark", cwd=self.path("w"), env={"PATH": ".:" + os.environ["PATH"]})
        self.assertEqual(ran.out, program("mark", FILES))

    def test_an_empty_environment(self):
        put(self.path("f"), FILES)
        ran = subprocess.run([*COMMAND, "mark", self.path("f")], env={}, stdout=subprocess.PIPE, stderr=subprocess.PIPE)
        self.assertEqual((ran.returncode, ran.stdout, ran.stderr), (0, program("mark", FILES), b""))

    def test_a_link_to_the_launcher(self):
        os.symlink(LAUNCH, self.path("jangoripu"))
        put(self.path("f"), FILES)
        ran = run([COMMAND[0], "-I", "-B", self.path("jangoripu"), "mark", self.path("f")])
        self.assertEqual((ran.status, ran.out), (0, program("mark", FILES)))

    def test_a_working_folder_that_is_read_only(self):
        put(self.path("f"), FILES)
        os.chmod(self.path("f"), 0o555)
        try:
            for words, name in ((["mark"], "mark"), (["solve"], "solve"), (["tidy"], "tidy")):
                ran = command(*words, cwd=self.path("f"))
                self.assertEqual((ran.status, ran.out, ran.err), (0, program(name, FILES), b""))
            self.assertEqual(sorted(os.listdir(self.path("f"))), sorted(NAMES))
        finally:
            os.chmod(self.path("f"), 0o755)

    def test_a_working_folder_that_is_gone(self):
        put(self.path("f"), FILES)
        script = 'mkdir "$1" && cd "$1" && rmdir "$1" && shift && exec "$@"'
        for words, name in ((["mark", self.path("f")], "mark"), (["solve", self.path("f")], "solve"), (["tidy", self.path("f", "sheet.mtx")], "tidy")):
            ran = run(["sh", "-c", script, "sh", self.path("gone"), *COMMAND, *words])
            self.assertEqual((ran.status, ran.out, ran.err), (0, program(name, FILES), b""), words)
        for words, status in ((["mark"], 1), (["tidy"], 2), (["class", "."], 1), (["mark", "here"], 2)):
            ran = run(["sh", "-c", script, "sh", self.path("gone"), *COMMAND, *words])
            self.assertEqual(ran.status, status, (words, ran))
            self.harmless(ran.err)

    def test_no_room(self):
        """A TMPDIR that is no folder does no harm."""
        put(self.path("f"), FILES)
        for place in (self.path("nowhere"), self.path("f", "sheet.mtx"), "", "."):
            ran = command("mark", self.path("f"), cwd=self.place, env={"TMPDIR": place})
            self.assertEqual((ran.status, ran.out, ran.err), (0, program("mark", FILES), b""), place)
        self.assertEqual(os.listdir(self.place), ["f"])

    def test_files_that_cannot_be_written(self):
        """A temporary folder that takes no bytes is told, and leaves nothing."""
        put(self.path("f"), FILES)

        def no_files():
            resource.setrlimit(resource.RLIMIT_FSIZE, (0, 0))
            signal.signal(signal.SIGXFSZ, signal.SIG_IGN)

        ran = subprocess.run([*COMMAND, "mark", self.path("f")], stdout=subprocess.PIPE, stderr=subprocess.PIPE, preexec_fn=no_files,
                             env=dict(os.environ, TMPDIR=self.place))
        self.assertEqual((ran.returncode, ran.stdout), (2, b""))
        self.harmless(ran.stderr)
        self.assertEqual(os.listdir(self.place), ["f"])


def without_rights():
    """Takes from root the right to read what its mode forbids (capabilities 1 and 2), for what this process then runs."""
    for right in (1, 2):
        if ctypes.CDLL(None, use_errno=True).prctl(24, right, 0, 0, 0) != 0:
            os._exit(77)


class Unreadable(Case):
    """A file that the user may not read. Root may read all, unless that right is taken away."""

    def test_it_is_told(self):
        how = {"preexec_fn": without_rights} if os.getuid() == 0 else {}
        put(self.path("f"), FILES)
        os.chmod(self.path("f", "plan.mtx"), 0)

        def ran(*words):
            done = subprocess.run([*COMMAND, *words], cwd="/", stdout=subprocess.PIPE, stderr=subprocess.PIPE, **how)
            return done.returncode, done.stdout, done.stderr

        if ran("--version")[0] == 77:
            self.skipTest("root's rights cannot be taken away")
        status, out, err = ran("mark", self.path("f"))
        self.assertEqual((status, out), (1, b"refused 2 at 1 in plan.mtx\n"))
        self.assertIn(b": " + self.path("f", "plan.mtx").encode() + b" cannot be read: Permission denied\n", err)
        status, out, err = ran("tidy", self.path("f", "plan.mtx"))
        self.assertEqual((status, out), (2, b""))
        self.assertIn(b"plan.mtx cannot be read: Permission denied", err)
        os.chmod(self.path("f"), 0o600)
        status, out, err = ran("mark", self.path("f"))
        self.assertEqual((status, out), (1, b"refused 2 at 1 in sheet.mtx\n"))
        self.assertIn(b"sheet.mtx cannot be read: Permission denied", err)


class Vanishing(Case):
    def test_a_folder_that_is_removed_while_it_is_marked(self):
        draw = random.Random(3)
        for turn in range(4):
            made = [self.path(f"{turn}-{number}") for number in range(60)]
            for place in made:
                put(place, FILES)
            process = subprocess.Popen([*COMMAND, "class", *made] if turn % 2 else [*COMMAND, "mark", *made], stdout=subprocess.PIPE, stderr=subprocess.PIPE)
            time.sleep(0.06 + draw.random() * 0.1)
            for place in draw.sample(made, len(made)):
                shutil.rmtree(place)
            out, err = process.communicate(timeout=30)
            self.assertIn(process.returncode, (0, 1, 2))
            self.harmless(err)
            told = out.decode() + err.decode()
            for place in made:
                self.assertIn(f"{place}", told)


if __name__ == "__main__":
    unittest.main()
