"""The tables of docs/OLD-LISTINGS.md that have code: each row is adapted, and becomes what it says."""

import re
import unittest

from programs import ROOT, adapt, play

PAGE = f"{ROOT}/docs/OLD-LISTINGS.md"
DIALECT = re.compile(r"<!-- dialect (\S+) -->")
CODE = re.compile(r"`([^`]+)`")
HEADER, RULE = "| Your listing has |", "|---"
# The rest of the listing of each row.
REST = "".join(f"{number} REM\n" for number in (100, 200, 300))
RUNS = re.compile(r"[A-Z]=|IF |PRINT |FOR ")
BYTES, STAYS = "Bytes and lines", "What may stay as it is"


class Row:
    """A row: its heading, its dialect and its cells."""

    def __init__(self, heading, dialect, cells):
        self.heading, self.dialect, self.cells = heading, dialect, cells


def lines_of_page():
    """The lines of the page."""
    with open(PAGE, encoding="utf-8") as file:
        return file.read().split("\n")


def rows_of_page():
    """The rows of all tables whose first column is what a listing has."""
    heading, dialect, in_table, found = "", "", False, []
    for line in lines_of_page():
        if line.startswith("## "):
            heading = line[3:]
        dialect = DIALECT.fullmatch(line)[1] if DIALECT.fullmatch(line) else dialect
        in_table = line.startswith(HEADER) or in_table and line.startswith("|")
        if in_table and not line.startswith((HEADER, RULE)):
            found.append(Row(heading, dialect, [cell.strip() for cell in line.strip("|").split(" | ")]))
    return found


def items_of_page():
    """The list of what may stay as it is."""
    page = lines_of_page()
    start = page.index(f"## {STAYS}")
    return [line[2:] for line in page[start:] if line.startswith("- ")]


def numbered(pieces):
    """A listing of these lines."""
    return "".join(f"{10 * place} {piece}\n" for place, piece in enumerate(pieces, 1))


class Becomes(unittest.TestCase):
    """A row with code becomes the code in its second cell, and the report has the text of its third."""

    def __init__(self, row):
        super().__init__()
        self.row = row

    def id(self):
        return f"row {self.row.cells[0]} ({self.row.dialect})"

    def runTest(self):
        before, after, *text = self.row.cells
        status, program, report = adapt(numbered(CODE.findall(before)) + REST, "--dialect", self.row.dialect)
        texts = [line.split(" ", 1)[1] for line in program.splitlines()]
        self.assertEqual((status, *(it for it in texts if it != "REM")), (0, *CODE.findall(after)), report)
        for due in text:
            self.assertRegex(report, f"line [0-9]+: meaning may change: {re.escape(due)}\n")
        if not text:
            self.assertNotIn("meaning may change", report)
        self.assertNotEqual(play(program, ["--steps", "99", "--answers", ",".join("1" * 99)], "1\n" * 99)[0], 1, program)

    def __str__(self):
        return self.id()


class Refused(unittest.TestCase):
    """A row for a person: its line is a REM, the report says why, and what to write is Tiny BASIC."""

    def __init__(self, row):
        super().__init__()
        self.row = row

    def id(self):
        return f"row {self.row.cells[0]}"

    def runTest(self):
        before, due, after = self.row.cells
        code = CODE.findall(before)[0]
        status, program, report = adapt(numbered([code]) + REST, "--dialect", self.row.dialect)
        self.assertEqual((status, program), (1, f"10 REM {code}\n{REST}"), report)
        self.assertRegex(report, f"line 10: rewrite by hand: {re.escape(due)}.*\n")
        written = [piece for piece in CODE.findall(after) if RUNS.match(piece)]
        played = play(numbered(written) + "100 STOP\n", ["--steps", "99", "--answers", "1"], "")
        self.assertNotEqual(played[0], 1, played)

    def __str__(self):
        return self.id()


STAYING = {
    "byte 13 before byte 10, tabs, empty lines, a last line without its byte 10": (
        "10\tPRINT 1\r\n\r\n\n20 PRINT\t2",
        "     1\n     2\n",
    ),
    "lines in any order, and zeros before their numbers": (
        "020 PRINT 2\n10 PRINT 1\n00030 PRINT 3\n",
        "     1\n     2\n     3\n",
    ),
    "LET, or no LET": ("10 LET A=1\n20 B=2;PRINT A+B\n", "     3\n"),
    "no blanks, as in `FORI=1TO3`": ("10FORI=1TO3\n20IFI#2PRINTI\n30NEXTI\n", "     1\n     3\n"),
    "abbreviated words, as `P.` and `GOS.`": ("10 F.I=1TO3S.2;GOS.30;N.I\n20 S.\n30 P.A.(-I);R.\n", "     1\n     3\n"),
    "strings in `'`": ("10 PRINT 'SAY \"HI\"'\n", 'SAY "HI"\n'),
    "GOTO and GOSUB to a value that is computed": (
        '10 LET A=3\n20 GOSUB A*10\n25 GOTO A+4\n30 PRINT "HI";RETURN\n7 IF A STOP\n',
        "HI\n",
    ),
    "a program without END or STOP": ('10 PRINT "HI"\n', "HI\n"),
}


class Stays(unittest.TestCase):
    """What may stay as it is runs, as it is and adapted as Palo Alto Tiny BASIC."""

    def __init__(self, item):
        super().__init__()
        self.item = item

    def id(self):
        return f"may stay: {self.item}"

    def runTest(self):
        program, shown = STAYING[self.item]
        self.assertEqual(play(program, [], ""), (0, shown, ""))
        status, adapted, report = adapt(program, "--dialect", "palo-alto")
        self.assertEqual(status, 0, report)
        self.assertEqual(play(adapted, [], ""), (0, shown, ""))

    def __str__(self):
        return self.id()


class Complete(unittest.TestCase):
    """Each row is once on the page, and each item that may stay has a test."""

    def id(self):
        return "rows: none is twice, and the items that may stay are those that are tried"

    def runTest(self):
        names = [(row.heading, row.dialect, row.cells[0]) for row in rows_of_page()]
        self.assertEqual(len(names), len(set(names)))
        self.assertEqual(items_of_page(), list(STAYING))
        self.assertGreater(len(names), 100)

    def __str__(self):
        return self.id()


def suite():
    """The tests of the page's rows with code, and of what may stay."""
    found = [Complete()] + [Stays(item) for item in STAYING]
    for row in rows_of_page():
        if row.heading.startswith("What a person"):
            found.append(Refused(row))
        elif row.heading != BYTES:
            found.append(Becomes(row))
    return found
