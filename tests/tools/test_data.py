"""Tests of tables for other programs: JSON lines, merging, and CSV that is safe in spreadsheets."""

from __future__ import annotations

import csv
import io
import random
import tempfile
import unittest
from fractions import Fraction
from statistics import NormalDist
from typing import List

import listings
from listings import DICE, MIXED, Reply, Run, listed, listing, outcomes, table_of
from ptb_tools import data, tables

DEVIATIONS = NormalDist().inv_cdf(0.975)
PARTIAL, USAGE, BAD_INPUT, UNREAD = 3, 64, 65, 66
PROGRAM = "10 A=RND(3);IF A=2 B=RND(3);IF B=2 STOP\n20 C=RND(2);PRINT A+C\n"


class Json(unittest.TestCase):
    """JSON lines."""

    maxDiff = None

    def test_lines(self) -> None:
        reply = outcomes(listing(MIXED), "--json", "--by", "last-line", "--program", "a.bas", "--options=--choose 8")
        head, *rows = table_of(reply.out)
        self.assertEqual(reply.status, 0)
        due = {
            "table": data.FORMAT, "by": ["last-line"], "runs": 5, "outcomes": 3, "rows": 3, "covered": "1/1",
            "spans": [["0/1", "1/1"]], "partial": False, "sampled": False, "program": "a.bas", "options": "--choose 8",
        }
        self.assertEqual(head, due)
        self.assertEqual(rows[0], {
            "outcome": ["HI"], "ending": "END", "chance": "5/8", "number": 0.625, "runs": 3, "first": "1/4",
            "transcript": "HI\n",
        })
        self.assertEqual(rows[2], {
            "outcome": [""], "ending": "END", "chance": "1/8", "number": 0.125, "runs": 1, "first": "4/4,1/2",
            "transcript": "",
        })

    def test_all_bytes(self) -> None:
        shown = "".join(map(chr, range(256)))
        row = table_of(outcomes(listing([Run((), "END", shown)]), "--json").out)[1]
        self.assertEqual((row["transcript"], row["first"]), (shown, "none"))

    def test_part(self) -> None:
        reply = outcomes(listing([DICE[0], DICE[2]]), "--json")
        head = table_of(reply.out)[0]
        self.assertEqual((reply.status, head["partial"], head["covered"]), (PARTIAL, True, "2/3"))
        self.assertEqual(head["spans"], [["0/1", "1/2"], ["2/3", "5/6"]])

    def test_sampled(self) -> None:
        head, *rows = table_of(outcomes(listing(MIXED), "--json", "--sampled", "--by", "ending").out)
        self.assertEqual((head["sampled"], head["covered"], head["spans"]), (True, None, None))
        self.assertEqual([(row["chance"], row["runs"], row["sampled"]) for row in rows][0], ("3/5", 3, True))
        self.assertAlmostEqual(rows[0]["low"], 0.230724, 6)
        self.assertAlmostEqual(rows[0]["high"], 0.882379, 6)


class Merging(unittest.TestCase):
    """Tables of parts are added up to the table of the whole."""

    maxDiff = None

    def setUp(self) -> None:
        folder = tempfile.TemporaryDirectory()
        self.addCleanup(folder.cleanup)
        self.folder = folder.name
        self.count = 0

    def table(self, reports: bytes, *arguments: str) -> str:
        """The path of a file with the table of reports."""
        return self.file(outcomes(reports, "--json", *arguments).out)

    def file(self, content: str) -> str:
        """The path of a file with this content."""
        self.count += 1
        path = f"{self.folder}/{self.count}.json"
        with open(path, "w", encoding="utf-8") as file:
            file.write(content)
        return path

    def refused(self, line: str, *files: str) -> None:
        """Checks that tables are refused with this line."""
        self.assertEqual(outcomes(b"", "--merge", *files), Reply(BAD_INPUT, "", f"outcomes: {line}\n"))

    def test_parts_of_a_tree(self) -> None:
        """However a listing is split, the sum of the tables is its table, in each form."""
        whole = listed(PROGRAM)
        runs = listings.runs_of(whole)
        drawn = random.Random("parts")
        for by in [], ["--by=ending"], ["--by=last-line"], ["--by=answer:2"], ["--match=5", "--by=ending"]:
            cuts = sorted(drawn.sample(range(1, len(runs)), 2))
            parts = [runs[begin:end] for begin, end in zip([0, *cuts], [*cuts, len(runs)])]
            files = [self.table(listing(part), *by) for part in parts]
            self.assertEqual(outcomes(b"", "--merge", *files), outcomes(listing(runs), *by))
            for form in "--json", "--csv":
                self.assertEqual(outcomes(b"", "--merge", form, *files), outcomes(listing(runs), form, *by))
            merged = self.file(outcomes(b"", "--merge", "--json", *files[:2]).out)
            self.assertEqual(outcomes(b"", "--merge", merged, files[2]), outcomes(listing(runs), *by))

    def test_sums_are_exact(self) -> None:
        """Chances that floats can't add up: one of 3, and many of 3 to the power of 40."""
        first = Run(((1, 3),), "END", "")
        deep = [Run(((2, 3), *((1, 3),) * 39, (k, 3)), "END", "") for k in (1, 2, 3)]
        files = [self.table(listing(runs), "--by=ending") for runs in ([first], deep[:1], deep[1:])]
        row = table_of(outcomes(b"", "--merge", "--json", *files).out)[1]
        self.assertEqual(Fraction(row["chance"]), Fraction(1, 3) + Fraction(3, 3**41))

    def test_order_of_files(self) -> None:
        """The rows are the same in any order of the files, except those with the same chance."""
        parts = [self.table(listing(runs), "--by=ending") for runs in (MIXED[:2], MIXED[2:4], MIXED[4:])]
        due = outcomes(listing(MIXED), "--by=ending")
        found = outcomes(b"", "--merge", *reversed(parts))
        self.assertEqual((found.status, sorted(found.out.splitlines())), (0, sorted(due.out.splitlines())))

    def test_standard_input(self) -> None:
        reports = outcomes(listing(DICE[:2]), "--json").out.encode()
        due = outcomes(listing(DICE))
        self.assertEqual(outcomes(reports, "--merge", "-", self.table(listing(DICE[2:]))), due)
        self.assertEqual(outcomes(reports, "--merge").status, PARTIAL)

    def test_parts_that_are_missing(self) -> None:
        reply = outcomes(b"", "--merge", self.table(listing(DICE[:1])), self.table(listing(DICE[2:3])))
        self.assertEqual(reply.status, PARTIAL)
        self.assertTrue(reply.out.startswith("2 runs, 2 outcomes; this is a part of the tree: 2/3 of it\n"))

    def test_the_same_part_twice(self) -> None:
        first, second = self.table(listing(DICE[:2])), self.table(listing(DICE[1:]))
        cause = "line 1: this table has runs that a table before it has, too"
        self.refused(f"{first}: {cause}", first, first)
        self.refused(f"{second}: {cause}", first, second)

    def test_sampled(self) -> None:
        runs = [MIXED[k] for k in (0, 1, 0, 4, 2, 0, 3)]
        files = [self.table(listing(part), "--sampled", "--by=ending") for part in (runs[:2], runs[2:5], runs[5:])]
        due = outcomes(listing(runs), "--sampled", "--by=ending")
        self.assertEqual(outcomes(b"", "--merge", *files), due)
        self.assertEqual(outcomes(b"", "--merge", files[0], *files).out.splitlines()[0], "9 sampled runs, 3 endings")
        torn = self.table(listing(runs[:2]) + b"RUN 1", "--sampled", "--by=ending")
        for some in [torn, files[1]], [files[1], torn]:
            self.assertEqual(outcomes(b"", "--merge", *some).status, PARTIAL)

    def test_tables_that_differ(self) -> None:
        first = self.table(listing(DICE[:2]), "--by=ending")
        others = {
            "by": ["--by=last-line"], "sampled": ["--by=ending", "--sampled"], "program": ["--by=ending", "--program=A"],
            "options": ["--by=ending", "--options=A"],
        }
        for name, arguments in others.items():
            other = self.table(listing(DICE[2:]), *arguments)
            self.refused(f"{other}: line 1: this table has another {name!r} than the first one", first, other)

    def test_tables_that_are_not_complete(self) -> None:
        lines = outcomes(listing(DICE), "--json").out.splitlines(True)
        for count in range(1, len(lines)):
            torn = self.file("".join(lines[:count]))
            self.refused(f"{torn}: line {count + 1}: the table isn't complete", torn)
        more = self.file("".join([*lines, lines[-1]]))
        self.refused(f"{more}: line {len(lines) + 1}: the table isn't complete", more)
        within = self.file("".join(lines)[:-9])
        self.refused(f"{within}: line {len(lines)}: this is no row of a table", within)
        short = self.table(listing(DICE), "--top", "2")
        self.refused(f"{short}: line 1: --top has left rows out of this table", short)

    def test_no_tables(self) -> None:
        lines = outcomes(listing(DICE), "--json").out.splitlines(True)
        for content in "", "HELLO\n", "{}\n", "[]\n", "1\n", lines[1], lines[0].replace("outcomes 1", "outcomes 2"):
            file = self.file(content)
            self.refused(f"{file}: line 1: no table of --json begins here", file)
        for old, new in ('"1/2"', '"0.5"'), ('"runs": 1', '"runs": 0'), ('"first"', '"last"'), ('"1/2"', '"1/0"'):
            file = self.file("".join([lines[0], lines[1].replace(old, new), *lines[2:]]))
            self.refused(f"{file}: line 2: this is no row of a table", file)
        changed = self.file("".join([lines[0], lines[1].replace('"chance": "1/2"', '"chance": "1/3"'), *lines[2:]]))
        self.refused(f"{changed}: line {len(lines)}: the chances of the rows aren't those of its runs", changed)
        missing = f"{self.folder}/none"
        reply = outcomes(b"", "--merge", missing)
        self.assertEqual(reply, Reply(UNREAD, "", f"outcomes: cannot read {missing}: No such file or directory\n"))


class Csv(unittest.TestCase):
    """CSV for spreadsheets."""

    def rows(self, runs: List[Run], *arguments: str) -> List[List[str]]:
        """The cells of the table of runs."""
        return list(csv.reader(io.StringIO(outcomes(listing(runs), "--csv", *arguments).out, newline="")))

    def test_table(self) -> None:
        head = ["numerator", "denominator", "chance", "runs", "covered", "ending", "last line", "first run", "transcript"]
        due = [
            head,
            ["5", "8", "0.625000000000", "3", "1.000000000000", "END", "HI", "RUN 1/4", "HI\n"],
            ["1", "4", "0.250000000000", "1", "1.000000000000", "HOW", "'10 P.1/?0", "RUN 3/4", "'HOW?\n10 P.1/?0\n"],
            ["1", "8", "0.125000000000", "1", "1.000000000000", "END", "", "RUN 4/4,1/2", ""],
        ]
        self.assertEqual(self.rows(MIXED, "--by", "last-line"), due)

    def test_two_ways(self) -> None:
        rows = self.rows(MIXED, "--by", "answer:2", "--match", "=1")
        self.assertEqual(rows[0][4:8], ["covered", "'answer:2", "'match:=1", "ending"])
        self.assertEqual([row[5:7] for row in rows[1:]], [["none", "the rest"], ["1", "the rest"], ["2", "the rest"]])

    def test_decimals(self) -> None:
        for chance, due in [
            (Fraction(1), "1.000000000000"), (Fraction(1, 3), "0.333333333333"), (Fraction(2, 3), "0.666666666667"),
            (Fraction(1, 10**12), "0.000000000001"), (Fraction(1, 3 * 10**12), "0.000000000000"), (Fraction(1, 16), "0.062500000000"),
        ]:
            self.assertEqual(data.decimal_of(chance), due)

    def test_safe_texts(self) -> None:
        formulas = "=1+1", "=NOW()", " =A", "+A", "-A", "@A", " =1", "'A", "\tA", "\rA"
        numbers_and_dates = "1/2", "2-3", "MAR 1", "10:30", "1E5", "1.5", "-1.5", "A1", "1 2"
        for text in *formulas, *numbers_and_dates:
            self.assertEqual(data.safe(text), f"'{text}")
        for text in "", "RIGHT!", "     7", "-12", "7\n", "A=B", "IT WAS YOU":
            self.assertEqual(data.safe(text), text)

    def test_no_cell_is_a_date_or_a_formula(self) -> None:
        texts = ["1/2\n", "=1+1\n", "3-4\n", "-A\n", "@SUM(A1)\n", "OCT 5\n"]
        rows = self.rows([Run(((k, 6),), "END", text) for k, text in enumerate(texts, 1)])
        for row in rows[1:]:
            for cell in row:
                self.assertRegex(cell, r"\A(?:'|RUN |END\Z|[0-9]+(?:\.[0-9]+)?\Z)")

    def test_quotes_and_byte_13(self) -> None:
        self.assertEqual(self.rows([Run((), "END", 'A"B,\rC\n')])[1][-1], 'A"B,\rC\n')

    def test_part(self) -> None:
        self.assertEqual(self.rows(DICE[:1])[1][4], "0.500000000000")

    def test_sampled(self) -> None:
        head, *rows = self.rows(MIXED, "--sampled", "--by", "ending")
        self.assertEqual(head[:7], [
            "sampled numerator", "sampled denominator", "sampled share", "sampled runs", "low", "high", "covered",
        ])
        self.assertEqual([*rows[0][:4], rows[0][6]], ["3", "5", "0.600000000000", "3", "sampled"])
        for bound in rows[0][4:6]:
            self.assertRegex(bound, r"\A0\.[0-9]{12}\Z")
            self.assertAlmostEqual((0.6 - float(bound)) ** 2 * 5, DEVIATIONS**2 * float(bound) * (1 - float(bound)))
        self.assertTrue(rows[0][4] < "0.6" < rows[0][5])


class Intervals(unittest.TestCase):
    """Wilson's intervals."""

    def test_intervals(self) -> None:
        """The ends are the two chances for which the share is 1.96 standard deviations away."""
        for found, drawn in (0, 1), (1, 1), (1, 3), (500, 1000), (0, 1000), (999, 1000), (123456, 10**6):
            share = found / drawn
            least, greatest = tables.interval(found, drawn)
            self.assertTrue(0 <= least <= share <= greatest <= 1)
            self.assertLess(least, greatest)
            for bound in least, greatest:
                self.assertAlmostEqual((share - bound) ** 2 * drawn, DEVIATIONS**2 * bound * (1 - bound), 9)


if __name__ == "__main__":
    unittest.main()
