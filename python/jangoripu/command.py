"""The command jangoripu. It runs the proved programs and writes what they write; what it says beyond that goes to standard error.
Exit status: 0 a result, 1 a refusal, 2 something could not be read or written."""
from __future__ import annotations

import os
import sys
from typing import Any, Callable, Dict, List, NamedTuple, Optional, Sequence, Tuple

from . import __version__, calls, files, marking, programs, showing, tables, texts
from .files import File, shown
from .hints import encoding_hints, hinted
from .marking import LIMITS, NAMES, SHEET
from .refusals import Refused
from .usage import USAGE, overview

OLD, CROSSES, TABLE = "old.mtx", "crosses.asn", "table.csv"
RESULT, REFUSED, FAILED = 0, 1, 2


class Usage(Exception):
    """The command was called in a way that it is not meant to be."""


class Unread(Exception):
    """Something could not be read or written."""


# ---- saying

def say(data: bytes) -> None:
    """Writes to standard output, all of it or Unread."""
    try:
        if sys.stdout is None:
            raise OSError("it is closed")
        left = memoryview(data)
        while left:
            left = left[os.write(1, left):]
    except OSError as error:
        raise Unread(f"standard output cannot be written: {error.strerror or error}") from None


def output_encoding() -> str:
    return getattr(sys.stdout, "encoding", None) or "utf-8"


def say_line(line: str) -> None:
    say((line + "\n").encode(output_encoding(), "backslashreplace"))


def tell(*words: str) -> None:
    """Writes to standard error, which may be closed or full."""
    if sys.stderr is None:
        return
    try:
        for line in words:
            os.write(2, (line + "\n").encode(sys.stderr.encoding or "utf-8", "backslashreplace"))
    except OSError:
        pass


def explain(refused: Refused, told: Sequence[str], found: Dict[str, File], where: str = "") -> int:
    """A refusal in words, with its hints; the status is that of a refusal. What is of no file is told with its folder, if there are
    several; the words of a file that could not be read name it themselves."""
    file = found.get(refused.source)
    if file is not None:
        where = "" if file.text is None else f"{shown(file.path)}: "
    tell(f"jangoripu: {where}{refused.words}", *(f"  hint: {hint}" for hint in told))
    return REFUSED


# ---- the words of the command line

class Words(NamedTuple):
    named: List[str]
    flags: List[str]
    values: Dict[str, str]


class Command(NamedTuple):
    run: Callable[[Words], int]
    most: Optional[int]
    flags: Tuple[str, ...]
    values: Tuple[str, ...]


def parse(command: Command, words: Sequence[str]) -> Words:
    """Options may stand anywhere; `--` ends them. A lone - is a name."""
    named: List[str] = []
    flags: List[str] = []
    values: Dict[str, str] = {}
    left = list(words)
    while left:
        word = left.pop(0)
        if word == "--":
            named += left
            break
        option, joined, value = word.partition("=")
        if word in command.flags:
            flags.append(word)
        elif option in command.values:
            if option in values:
                raise Usage(f"{option} is given twice")
            if not joined and not left:
                raise Usage(f"{option} needs a value")
            values[option] = value if joined else left.pop(0)
            if not values[option]:
                raise Usage(f"{option} needs a value")
        elif word.startswith("-") and word != "-":
            raise Usage(f"there is no option {shown(word)}; a name that begins with - is written ./{shown(word)}, or after --")
        else:
            named.append(word)
    if command.most is not None and len(named) > command.most:
        raise Usage(f"one name too many: {shown(named[command.most])}")
    return Words(named, flags, values)


# ---- reading

def read_given(path: str, stdin: List[int]) -> File:
    """A file that is named on the command line; - is standard input, once."""
    if path != "-":
        try:
            return File(path, files.read(path))
        except files.NotRegular as error:
            raise Unread(f"{error}; for standard input write -") from None
        except OSError as error:
            raise Unread(files.not_read(path, error).why) from None
    if stdin:
        raise Usage("standard input can be read only once")
    stdin.append(0)
    if sys.stdin is None:
        raise Unread("standard input is closed")
    try:
        return File("standard input", files.read_from(0))
    except OSError as error:
        raise Unread(f"standard input cannot be read: {error.strerror or error}") from None


def given_files(words: Words, names: Sequence[str]) -> Dict[str, File]:
    """The files that options name in the place of a folder's."""
    stdin: List[int] = []
    options = {"--" + name.split(".")[0]: name for name in names}
    return {name: read_given(words.values[option], stdin) for option, name in options.items() if option in words.values}


def look(folder: str, given: Dict[str, File], names: Sequence[str]) -> Dict[str, File]:
    try:
        return marking.look(folder, given, names)
    except OSError as error:
        raise Unread(error.strerror or str(error)) from None


def run(program: str, found: Dict[str, File]) -> bytes:
    try:
        return programs.run(program, {name: file.text for name, file in found.items()})
    except (programs.ProgramFailed, OSError) as error:
        raise Unread(str(error)) from None


def refusal_of(written: bytes) -> Optional[str]:
    """The line of a refusal, if that is what a program wrote."""
    return written.decode("ascii").rstrip("\n") if written.startswith(b"refused ") else None


def refused_by(attempt: Callable[[], Any]) -> Optional[Refused]:
    """What the calls refuse, with its words."""
    try:
        attempt()
    except Refused as refused:
        return refused
    except calls.NoLibrary:  # what the program wrote stands without
        pass
    return None


def worded(line: str, refused: Optional[Refused]) -> Refused:
    """A program's refusal with its words: the calls refuse the same bytes alike."""
    if refused is not None and refused.line == line:
        return refused
    _, number, _, place, _, source = line.split(" ")
    return Refused(int(number), int(place), source)


def finish(program: str, found: Dict[str, File], again: Callable[[], Any]) -> int:
    """Writes what a program writes; a refusal's words go to standard error."""
    written = run(program, found)
    say(written)
    line = refusal_of(written)
    if line is None:
        return RESULT
    return explain(*hinted(worded(line, refused_by(again)), found, program), found)


def composed(program: str, found: Dict[str, File], compose: Callable[[], bytes]) -> int:
    """Writes what the package itself composes in the place of a program, or a refusal's line."""
    try:
        written = compose()
    except Refused as refused:
        say_line(refused.line)
        return explain(*hinted(refused, found, program), found)
    say(written)
    return RESULT


# ---- the commands

def problem_files(words: Words) -> Dict[str, File]:
    """The sheet and the limits: those of the folder that is named, or as options name them."""
    names = (SHEET, LIMITS)
    return look((words.named or ["."])[0], given_files(words, names), names)


def of_problem(found: Dict[str, File], call: Callable[..., Any]) -> Callable[[], Any]:
    """A call on the sheet and its limits, to be made."""

    def made() -> Any:
        problem, _ = marking.Problems().read(found[SHEET].known, found[LIMITS].known)
        return call(problem.sheet, problem.limits)

    return made


def solve(words: Words) -> int:
    found = problem_files(words)
    solution = of_problem(found, calls.solution)
    if "--prices" in words.flags:
        return composed("solve", found, lambda: texts.write_prices(solution().prices))
    return finish("solve", found, solution)


def price_tanks(words: Words) -> int:
    found = problem_files(words)
    return finish("price_tanks", found, of_problem(found, calls.price_general))


def to_dimacs(words: Words) -> int:
    found = problem_files(words)
    if "--min" in words.flags:
        return composed("to_dimacs", found, of_problem(found, tables.min_cost_flow))
    return finish("to_dimacs", found, of_problem(found, texts.to_dimacs))


def mark(words: Words) -> int:
    given = given_files(words, NAMES)
    folders = words.named or ["."]
    status = RESULT
    for folder in folders:
        where = f"{shown(folder)}: " if len(folders) > 1 else ""
        try:
            found = look(folder, given, NAMES)
        except Unread as error:
            tell(f"jangoripu: {where}not read: {error}")
            if "--json" in words.flags:
                say_row(marking.Marked(folder, unread=str(error)))
            status = FAILED
            continue
        marked = mark_json if "--json" in words.flags else mark_line
        status = max(status, marked(folder, found, where))
    return status


def mark_line(folder: str, found: Dict[str, File], where: str) -> int:
    """Writes the line of the program, and a refusal's words."""
    written = run("mark", found)
    say(where.encode(output_encoding(), "backslashreplace") + written)
    line = refusal_of(written)
    if line is None:
        return RESULT
    try:
        row, _ = marking.mark_files(folder, found, marking.Problems())
        return explain(worded(line, row.refused), row.hints, found, where)
    except calls.NoLibrary:
        return explain(worded(line, None), (), found, where)


def mark_json(folder: str, found: Dict[str, File], where: str) -> int:
    """Writes what came of the folder, for programs."""
    row, _ = marking.mark_files(folder, found, marking.Problems())
    say_row(row)
    return REFUSED if row.refused else RESULT


def say_row(row: marking.Marked) -> None:
    say_line(showing.json_text(showing.row_record(row)))


FORMS: Dict[str, Callable[[marking.ClassMarks], str]] = {
    "--plain": showing.plain, "--csv": showing.csv_text,
    "--json": lambda marks: showing.json_text(showing.class_record(marks))}


def class_(words: Words) -> int:
    if not words.named:
        raise Usage("name the class's folders")
    forms = sorted(set(words.flags))
    if len(forms) > 1:
        raise Usage("only one of --json, --csv and --plain")
    try:
        marks = marking.mark_class(words.named, words.values.get("--key"))
    except Refused as refused:
        say_line(refused.line)
        tell(f"jangoripu: the key: {refused.source}: {refused.words}")
        return REFUSED
    except OSError as error:
        raise Unread(f"the key: {error.strerror or error}") from None
    if marks.differ and forms and forms[0] != "--json":
        tell(f"jangoripu: {showing.DIFFER}")
    say_line(FORMS[forms[0]](marks) if forms else showing.table(marks, output_encoding()))
    counts = marks.counts
    return FAILED if counts["unread"] else REFUSED if counts["refused"] or counts["other_sheet"] else RESULT


def anew(program: str, name: str, again: Callable[[bytes], Any]) -> Callable[[Words], int]:
    """A command that runs a program on one file."""

    def command(words: Words) -> int:
        file = read_given((words.named or [name])[0], [])
        return finish(program, {name: file}, lambda: again(file.known))

    return command


def rewrite(words: Words) -> int:
    file = read_given((words.named or [OLD])[0], [])
    written = run("rewrite", {OLD: file})
    say(written)
    if written != b"cannot read\n":
        return RESULT
    tell(f"jangoripu: {shown(file.path)}: the old rules take it as no sheet, no limits, no plan and no prices",
         *(f"  hint: {hint}" for hint in encoding_hints(file)))
    return REFUSED


def from_csv(words: Words) -> int:
    file = read_given((words.named or [TABLE])[0], [])
    if len(file.known) == files.FILE_BYTES:
        tell(f"jangoripu: {shown(file.path)}: the table is longer than 32,768 bytes")
        return REFUSED
    try:
        sheet, names = tables.from_csv(file.known, words.values.get("--separator", ""), "--bare" in words.flags)
        written = tables.sheet_text(sheet, names)
    except (tables.BadTable, Refused) as error:
        tell(f"jangoripu: {shown(file.path)}: {error.words if isinstance(error, Refused) else error}")
        return REFUSED
    tell(*(f"jangoripu: {shown(file.path)}: note: {note}" for note in tables.doubts(names)))
    say(written)
    return RESULT


COMMANDS: Dict[str, Command] = {
    "solve": Command(solve, 1, ("--prices",), ("--sheet", "--limits")),
    "price-tanks": Command(price_tanks, 1, (), ("--sheet", "--limits")),
    "mark": Command(mark, None, ("--json",), ("--sheet", "--limits", "--plan", "--prices")),
    "class": Command(class_, None, ("--json", "--csv", "--plain"), ("--key",)),
    "rewrite": Command(rewrite, 1, (), ()),
    "tidy": Command(anew("tidy", SHEET, texts.read_sheet), 1, (), ()),
    "to-dimacs": Command(to_dimacs, 1, ("--min",), ("--sheet", "--limits")),
    "from-dimacs": Command(anew("from_dimacs", CROSSES, texts.from_dimacs), 1, (), ()),
    "from-csv": Command(from_csv, 1, ("--bare",), ("--separator",)),
}


def command_line(words: Sequence[str]) -> int:
    """Carries out the words of a command line, and gives the exit status."""
    name = words[0] if words else ""
    options = words[: words.index("--")] if "--" in words else words
    if "--help" in options or "-h" in options:
        say_line(USAGE[name] if name in COMMANDS else overview())
        return RESULT
    if name == "--version":
        say_line(f"jangoripu {__version__}")
        return RESULT
    if name not in COMMANDS:
        tell(*([f"jangoripu: there is no command {shown(name)}"] if name else []), overview())
        return FAILED
    try:
        command = COMMANDS[name]
        return command.run(parse(command, words[1:]))
    except Usage as error:
        tell(f"jangoripu: {error}", USAGE[name])
    return FAILED


def main() -> int:
    """The command."""
    programs.plain_interrupts()
    try:
        return command_line(sys.argv[1:])
    except (Unread, calls.NoLibrary) as error:
        tell(f"jangoripu: {error}")
    return FAILED
