"""How the command is used, in words."""

SHORT = {
    "solve": "solve [FOLDER]        a plan of largest merit",
    "price-tanks": "price-tanks [FOLDER]  prices for a one-sided sheet",
    "mark": "mark [FOLDER..]       a plan measured against prices",
    "class": "class FOLDER..        a class marked, as a table",
    "rewrite": "rewrite [FILE]        an old text with its numbers in the one way",
    "tidy": "tidy [FILE]           a sheet in its tidy form",
    "to-dimacs": "to-dimacs [FOLDER]    a sheet as a DIMACS file",
    "from-dimacs": "from-dimacs [FILE]    a DIMACS assignment as a sheet",
    "from-csv": "from-csv [FILE]       a table of a spreadsheet as a sheet",
}

USAGE = {
    "solve": """\
jangoripu solve [--prices] [--sheet FILE] [--limits FILE] [FOLDER]
Reads sheet.mtx and limits.mtx in the folder (by default the working folder)
and writes a plan of largest merit to standard output, or a line 'refused
NUMBER at PLACE in FILE'. Only two-sided sheets are solved. --prices writes the
price text that proves the plan best instead: with it `mark` gives every best
plan the gap 0. --sheet and --limits name files to be read in the place of the
folder's; - is standard input.""",
    "price-tanks": """\
jangoripu price-tanks [--sheet FILE] [--limits FILE] [FOLDER]
Reads sheet.mtx and limits.mtx in the folder (by default the working folder)
and writes a price text for a one-sided sheet of at most 64 families and 512
pairs to standard output, or a line 'refused NUMBER at PLACE in FILE'. `mark`
takes it as prices.mtx: no plan has more merit than half its total, and a gap
of 0 or 1 proves a plan best. A larger gap does not say that the plan is not
best. --sheet and --limits name files to be read in the place of the folder's;
- is standard input.""",
    "mark": """\
jangoripu mark [--json] [--sheet FILE] [--limits FILE] [--plan FILE] [--prices
    FILE] [FOLDER..]
Reads sheet.mtx, limits.mtx, plan.mtx and prices.mtx in each folder (by default
the working folder) and writes one line: how the plan measures against the
prices, or 'refused NUMBER at PLACE in FILE'. The merit is in points, the other
numbers are in half points. A gap of 0 or 1 proves the plan best. With several
folders each line begins with its folder. --json writes an object a line
instead. The other options name files to be read in the place of the folder's;
- is standard input.""",
    "class": """\
jangoripu class [--key FOLDER] [--json | --csv | --plain] FOLDER..
Marks each folder, as 'mark' does, and prints a table with a row for each, the
merit in points, total and gap in half points, and at the end how many plans
are best, how many have a gap of more than 1 and how many were refused. --key
names the teacher's folder, with the class's sheet.mtx and limits.mtx: a folder
with another sheet or other limits is not counted, and the table has the best
merit and what each valid plan lacks. --plain prints a line 'FOLDER: LINE' for
each folder, --csv a table for spreadsheets, --json an object for programs.""",
    "rewrite": """\
jangoripu rewrite [FILE]
Reads an old sheet, limits, plan or price text (by default old.mtx in the
working folder; - is standard input) and writes it to standard output with its
numbers in the one way: without + signs and leading zeros, and 0 for -0. Every
other byte is copied. A text that the old rules refuse as each of these gives
only the line 'cannot read'.""",
    "tidy": """\
jangoripu tidy [FILE]
Reads a sheet (by default sheet.mtx in the working folder; - is standard input)
and writes it to standard output in its tidy form: no comments, no blank lines,
one space between numbers, pairs by rising row and then column; or a line
'refused NUMBER at PLACE in sheet.mtx'. Two sheets are the same exactly if
their tidy forms are the same bytes. Pair numbers follow the new order, so a
price text made for another order is not for it.""",
    "to-dimacs": """\
jangoripu to-dimacs [--min] [--sheet FILE] [--limits FILE] [FOLDER]
Reads sheet.mtx and limits.mtx in the folder (by default the working folder)
and writes the sheet to standard output in the DIMACS assignment layout, or a
line 'refused NUMBER at PLACE in FILE'. Dams are the source nodes 1 up to their
number, sire j is node rows + j, and a cost is a negated merit. Only two-sided
sheets with every limit 1 can go out so. --min writes a two-sided sheet with
any limits as a minimum cost flow (p min) instead, whose least cost is the
largest merit negated. --sheet and --limits name files; - is standard input.""",
    "from-dimacs": """\
jangoripu from-dimacs [FILE]
Reads crosses in the DIMACS assignment layout (by default crosses.asn in the
working folder; - is standard input) and writes them to standard output as a
two-sided sheet, its pairs in the order of the arcs, or a line 'refused NUMBER
at PLACE in crosses.asn'. Every limit that goes with the sheet is 1.""",
    "from-csv": """\
jangoripu from-csv [--bare] [--separator SIGN] [FILE]
Reads a table as spreadsheets export it (by default table.csv in the working
folder; - is standard input) and writes it to standard output as a two-sided
sheet. The first row has the sires' names, after an empty cell, and each later
row a dam's name and her merits; an empty cell is no pair. The names are
written as comments. --bare takes a table without names. Commas, semicolons or
tabs separate cells: the most frequent in the first row, unless --separator
says which.""",
}


def overview() -> str:
    """All commands, a line each."""
    lines = [f"jangoripu {short}" for short in SHORT.values()]
    return "\n".join(lines + [
        "jangoripu COMMAND --help        more on a command",
        "jangoripu --version             the version",
        "Options may stand before or after names; -- ends them.",
        "Exit status: 0 a result, 1 a refusal, 2 something could not be read or written."])
