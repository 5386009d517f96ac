"""Tests of tools/outcomes on tables of chances, as ptb --chances prints them."""

from __future__ import annotations

import json
import os
import tempfile
import unittest
from typing import List, Tuple

from listings import Reply, outcomes

PARTIAL, USAGE, BAD_INPUT = 3, 64, 65

EVEN_ANSWERS = "\nAnswers count as equally likely, also those that --choose gives instead of lines.\n"
ROLLS = b"CHANCE 2/3 2 END 1\n1\nCHANCE 1/6 1 END 1\n2\nCHANCE 1/6 1 LIMIT 1\n1\n"
BY_LINE = f"""4 runs, 2 last lines
 83.33 %  5/6  ##############################  1, 3 runs
 16.67 %  1/6  ######                          2, 1 run
{EVEN_ANSWERS}"""
BY_ENDING = f"""4 runs, 2 endings
 83.33 %  5/6  ##############################  END, 3 runs
 16.67 %  1/6  ######                          LIMIT, 1 run
{EVEN_ANSWERS}"""
TWO_WAYS = f"""4 runs, 2 endings by 2 last lines

             1        2       all
END    66.67 %  16.67 %   83.33 %
LIMIT  16.67 %   0.00 %   16.67 %
all    83.33 %  16.67 %  100.00 %

Each number is the chance of its row and its column together.
{EVEN_ANSWERS}"""
CSV = """"numerator","denominator","chance","runs","covered","ending","last line","first run","transcript"
"5","6","0.833333333333","3","1.000000000000","END","1","",""
"1","6","0.166666666667","1","1.000000000000","END","2","",""
"""
# tables that are none: the place of the byte that shows it, and why
MALFORMED: List[Tuple[bytes, int, str]] = [
    (b"CHANCE 1/2 1 END 1\n1\n\nCHANCE 1/2 1 END 1\n2\n", 22, "no row of a table of chances begins here"),
    (b"CHANCE 0/1 1 END 1\n1\n", 1, "no row of a table of chances begins here"),
    (b"CHANCE 1/2 0 END 1\n1\n", 1, "no row of a table of chances begins here"),
    (b"CHANCE 1/2 1 DONE 1\n1\n", 1, "no row of a table of chances begins here"),
    (b"CHANCE 1/2 1 END 1\n12\n", 21, "the last line doesn't end where its row says"),
    (b"CHANCE 1/2 1 END 1\n2\nCHANCE 1/2 1 END 1\n1\n", 22, "this row should come before the previous one"),
    (b"CHANCE 1/2 1 STOP 1\n1\nCHANCE 1/2 1 END 1\n2\n", 23, "this row should come before the previous one"),
    (b"CHANCE 1/2 1 END 1\n1\nCHANCE 1/2 1 END 1\n1\n", 22, "this row should come before the previous one"),
    (b"CHANCE 1/2 1 END 1\n1\nCHANCE 2/3 1 END 1\n2\n", 22, "the chances add up to more than 1"),
    (b"CHANCE 1/1 1 END 1\n1\nCHANCE 1/", 22, "no row can come after the last run of the tree"),
]


class Tables(unittest.TestCase):
    """Tables that were worked out by hand."""

    maxDiff = None

    def prints(self, *arguments: str, table: str) -> None:
        """Checks what is printed of the rolls."""
        self.assertEqual(outcomes(ROLLS, *arguments), Reply(0, table, ""))

    def test_by_last_line(self) -> None:
        self.prints(table=BY_LINE)
        self.prints("--by", "last-line", table=BY_LINE)

    def test_by_ending(self) -> None:
        self.prints("--by", "ending", table=BY_ENDING)

    def test_two_ways(self) -> None:
        self.prints("--by", "ending", "--by", "last-line", table=TWO_WAYS)

    def test_top(self) -> None:
        rows = BY_LINE.splitlines(keepends=True)
        self.prints("--top", "1", table="".join(rows[:2]) + "\nand 1 more\n" + EVEN_ANSWERS)

    def test_one_run(self) -> None:
        bar = "#" * 30
        table = f"1 run, 1 last line\n100.00 %  1  {bar}  (nothing is shown), 1 run\n"
        self.assertEqual(outcomes(b"CHANCE 1/1 1 END 0\n\n"), Reply(0, table, ""))

    def test_many_runs(self) -> None:
        runs = 2**100
        rows = f"CHANCE 1/{runs} 1 END 1\n1\nCHANCE {runs - 1}/{runs} {runs - 1} END 1\n2\n"
        table = outcomes(rows.encode()).out
        self.assertTrue(table.startswith(f"{runs:,} runs, 2 last lines\n"), table)
        self.assertIn(f"{runs - 1}/{runs}", table)

    def test_a_line_like_a_row(self) -> None:
        line = "CHANCE 1/2 1 END 1"
        rows = f"CHANCE 1/2 1 END {len(line)}\n{line}\nCHANCE 1/2 1 STOP 1\n1\n"
        self.assertIn(f"{line}, 1 run\n", outcomes(rows.encode()).out)

    def test_csv(self) -> None:
        self.prints("--csv", table=CSV)

    def test_page(self) -> None:
        with tempfile.TemporaryDirectory() as folder:
            file = os.path.join(folder, "page.html")
            self.assertEqual(outcomes(ROLLS, "--html", file), Reply(0, "", ""))
            with open(file, encoding="utf-8") as page:
                text = page.read()
        self.assertIn("83.33 %", text)
        self.assertIn("<p>3 runs.</p>", text)
        self.assertNotIn("Repeat it", text)
        self.assertNotIn("Tree of answers", text.split("<main>")[1].split("<section")[1])


class Merged(unittest.TestCase):
    """Tables in JSON lines, and what is added up of them."""

    def merged(self, *tables: str) -> Reply:
        """The sum of tables."""
        with tempfile.TemporaryDirectory() as folder:
            files = [os.path.join(folder, str(number)) for number in range(len(tables))]
            for file, table in zip(files, tables):
                with open(file, "w", encoding="utf-8") as out:
                    out.write(table)
            reply = outcomes(b"", "--merge", *files)
            return reply._replace(errors=reply.errors.replace(folder, ""))

    def test_rows(self) -> None:
        head, *rows = map(json.loads, outcomes(ROLLS, "--json").out.splitlines())
        self.assertEqual((head["summed"], head["runs"], head["covered"]), (True, 4, "1/1"))
        fields = [(row["outcome"], row["chance"], row["runs"], row["first"], row["transcript"], row["line"]) for row in rows]
        self.assertEqual(fields, [(["1"], "5/6", 3, None, None, "1"), (["2"], "1/6", 1, None, None, "2")])

    def test_a_table_alone(self) -> None:
        self.assertEqual(self.merged(outcomes(ROLLS, "--json").out), Reply(0, BY_LINE, ""))
        self.assertEqual(self.merged(outcomes(ROLLS, "--json", "--by", "ending").out), Reply(0, BY_ENDING, ""))

    def test_the_same_table_twice(self) -> None:
        table = outcomes(ROLLS, "--json").out
        error = "outcomes: /1: line 1: this table has runs that a table before it has, too\n"
        self.assertEqual(self.merged(table, table), Reply(BAD_INPUT, "", error))

    def test_with_a_table_of_reports(self) -> None:
        reports = outcomes(b"RUN 1/2 END 1 0\n\n", "--json", "--by", "last-line").out
        error = "outcomes: /1: line 1: this table has another 'summed' than the first one\n"
        self.assertEqual(self.merged(reports, outcomes(ROLLS, "--json").out), Reply(BAD_INPUT, "", error))

    def test_a_part(self) -> None:
        part = outcomes(ROLLS[:42], "--json").out
        error = "outcomes: /0: line 1: this table is a part of a table of --chances\n"
        self.assertEqual(self.merged(part), Reply(BAD_INPUT, "", error))


class Refused(unittest.TestCase):
    """Tables that are torn or none, and options that need reports."""

    def test_torn(self) -> None:
        for size in range(len(b"CHANCE "), len(ROLLS)):
            rows = ROLLS[:size].count(b"\n") // 2
            reply = outcomes(ROLLS[:size])
            torn = f"outcomes: byte {size + 1}: the input ends within a row"
            if size in (21, 42):
                self.assertEqual((reply.status, reply.errors), (PARTIAL, ""), size)
            elif rows:
                self.assertEqual((reply.status, reply.errors), (PARTIAL, f"{torn}; the complete rows are shown\n"), size)
            else:
                self.assertEqual(reply, Reply(BAD_INPUT, "", f"{torn}\n"), size)

    def test_malformed(self) -> None:
        for table, place, cause in MALFORMED:
            self.assertEqual(outcomes(table), Reply(BAD_INPUT, "", f"outcomes: byte {place}: {cause}\n"), table)

    def test_options(self) -> None:
        for option, words in {
            "--by outcome": ["--by", "outcome"],
            "--by answer:1": ["--by", "ending", "--by", "answer:1"],
            "--match": ["--match", "1"],
            "--sampled": ["--sampled"],
        }.items():
            error = f"outcomes: {option} needs the reports of --all; see outcomes --help\n"
            self.assertEqual(outcomes(ROLLS, *words), Reply(USAGE, "", error))

    def test_two_files(self) -> None:
        with tempfile.NamedTemporaryFile() as file:
            file.write(ROLLS)
            file.flush()
            error = f"outcomes: {file.name}: byte 1: a table of --chances must be the only file\n"
            self.assertEqual(outcomes(b"", file.name, file.name), Reply(BAD_INPUT, "", error))


if __name__ == "__main__":
    unittest.main()
