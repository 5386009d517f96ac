"""Tests of tools/outcomes as a command: tables, groupings, partial and torn listings, statuses."""

from __future__ import annotations

import ast
import glob
import os
import re
import signal
import subprocess
import sys
import tempfile
import time
import unittest
from fractions import Fraction
from typing import List

import listings
from listings import DICE, MIXED, OUTCOMES, PLAIN, ROOT, Reply, Run, example, listed, listing, outcomes

PARTIAL, USAGE, BAD_INPUT, UNREAD, UNWRITTEN, INTERRUPTED = 3, 64, 65, 66, 74, 130
KILOBYTES_OF_A_MILLION = 40_000

DICE_TABLE = """4 runs, 4 outcomes

 50.00 %  1/2  ##############################  END, 1 run

 16.67 %  1/6  ##########                      END, 1 run
    |      1

 16.67 %  1/6  ##########                      END, 1 run
    |      2

 16.67 %  1/6  ##########                      END, 1 run
    |      3

Answers count as equally likely, also those that --choose gives instead of lines.
"""
EVEN_ANSWERS = DICE_TABLE[DICE_TABLE.index("\nAnswers") :]
BY_ENDING = """5 runs, 3 endings
 50.00 %  1/2  ##############################  END, 3 runs
 25.00 %  1/4  ###############                 STOP, 1 run
 25.00 %  1/4  ###############                 HOW, 1 run
"""
BY_LINE = """5 runs, 3 last lines
 62.50 %  5/8  ##############################  HI, 3 runs
 25.00 %  1/4  ############                    10 P.1/?0, 1 run
 12.50 %  1/8  ######                          (nothing is shown), 1 run
"""


class Tests(unittest.TestCase):
    """What the tests of a command have in common."""

    maxDiff = None

    def prints(self, runs: List[Run], *arguments: str, table: str, status: int = 0) -> None:
        """Checks the table of runs."""
        self.assertEqual(outcomes(listing(runs), *arguments), Reply(status, table, ""))

    def refuses(self, reports: bytes, *arguments: str, status: int, line: str) -> None:
        """Checks that there is no table, and why."""
        self.assertEqual(outcomes(reports, *arguments), Reply(status, "", f"outcomes: {line}\n"))


class Tables(Tests):
    """Tables that were worked out by hand."""

    def test_outcomes(self) -> None:
        self.prints(DICE, table=DICE_TABLE)

    def test_one_run(self) -> None:
        bar = "#" * 30
        self.prints([Run((), "END", "")], table=f"1 run, 1 outcome\n\n100.00 %  1  {bar}  END, 1 run\n")

    def test_by_ending(self) -> None:
        self.prints(MIXED, "--by", "ending", table=BY_ENDING + EVEN_ANSWERS)

    def test_by_last_line(self) -> None:
        self.prints(MIXED, "--by=last-line", table=BY_LINE + EVEN_ANSWERS)

    def test_by_answer(self) -> None:
        table = """5 runs, 3 answers to question 2
 75.00 %  3/4  ##############################  no answer, 3 runs
 12.50 %  1/8  #####                           answer 1, 1 run
 12.50 %  1/8  #####                           answer 2, 1 run
"""
        self.prints(MIXED, "--by", "answer:2", table=table + EVEN_ANSWERS)

    def test_by_match(self) -> None:
        table = """5 runs, 2 groups
 62.50 %  5/8  ##############################  matches ^HI$, 3 runs
 37.50 %  3/8  ##################              the rest, 2 runs
"""
        self.prints(MIXED, "--match", "^HI$", table=table + EVEN_ANSWERS)

    def test_two_ways(self) -> None:
        table = """5 runs, 3 last lines by 3 endings

                        END     STOP      HOW       all
HI                  37.50 %  25.00 %   0.00 %   62.50 %
10 P.1/?0            0.00 %   0.00 %  25.00 %   25.00 %
(nothing is shown)  12.50 %   0.00 %   0.00 %   12.50 %
all                 50.00 %  25.00 %  25.00 %  100.00 %

Each number is the chance of its row and its column together.
"""
        self.prints(MIXED, "--by", "last-line", "--by", "ending", table=table + EVEN_ANSWERS)

    def test_two_ways_by_match(self) -> None:
        table = """5 runs, 2 groups by 3 answers to question 2

            no answer  answer 1  answer 2       all
matches HI    50.00 %    0.00 %   12.50 %   62.50 %
the rest      25.00 %   12.50 %    0.00 %   37.50 %
all           75.00 %   12.50 %   12.50 %  100.00 %

Each number is the chance of its row and its column together.
"""
        self.prints(MIXED, "--match", "HI", "--by", "answer:2", table=table + EVEN_ANSWERS)

    def test_two_ways_with_many_columns(self) -> None:
        runs = listings.tree([2, 20], lambda answers: f"LINE {answers[1]} OF A GAME THAT IS LONG\n")
        reply = outcomes(listing(runs), "--by", "answer:1", "--by", "last-line")
        lines = reply.out.splitlines()
        self.assertEqual(lines[0], "40 runs, 2 answers to question 1 by 20 last lines")
        self.assertEqual(lines[2].count("LINE"), 7)
        self.assertIn("LINE 7 OF A GAME THAT...", lines[2])
        self.assertRegex(lines[2], "others +all$")
        self.assertEqual(lines[3].split(), ["answer", "1", *["2.50", "%"] * 7, "32.50", "%", "50.00", "%"])
        self.assertEqual(lines[5].split(), ["all", *["5.00", "%"] * 7, "65.00", "%", "100.00", "%"])

    def test_answers_are_in_order(self) -> None:
        runs = listings.tree([12], lambda answers: "A" if answers[0] == 3 else "B")
        lines = outcomes(listing(runs), "--by", "answer:1", "--by", "last-line").out.splitlines()
        self.assertEqual([line.split()[1] for line in lines[3:15]], [str(k + 1) for k in range(12)])

    def test_top(self) -> None:
        table = "".join(BY_LINE.splitlines(True)[:2]) + "\nand 2 more\n" + EVEN_ANSWERS
        self.prints(MIXED, "--by", "last-line", "--top", "1", table=table)
        self.prints(MIXED, "--by", "last-line", "--top", "3", table=BY_LINE + EVEN_ANSWERS)
        self.prints(MIXED, "--by", "last-line", "--top", "4", table=BY_LINE + EVEN_ANSWERS)

    def test_top_with_ties(self) -> None:
        """Of outcomes with the same chance, those whose runs come first are shown."""
        table = "".join(BY_ENDING.splitlines(True)[:3]) + "\nand 1 more\n" + EVEN_ANSWERS
        self.prints(MIXED, "--by", "ending", "--top", "2", table=table)
        runs = listings.tree([9], lambda answers: "ABCABCABC"[answers[0] - 1])
        reply = outcomes(listing(runs), "--by", "last-line", "--top", "2")
        self.assertEqual(re.findall("  ([A-C]), 3 runs", reply.out), ["A", "B"])
        self.assertIn("\nand 1 more\n", reply.out)

    def test_chances_that_are_nearly_0_and_1(self) -> None:
        """A chance is never shown as 0 or 1 if it is neither."""
        cases = [
            (20_000, 1, "0.01 %", "99.99 %"),
            (20_001, 1, "<0.01 %", ">99.99 %"),
            (19_999, 1, "0.01 %", "99.99 %"),
            (20_000, 3, "0.02 %", "99.98 %"),
            (32_767, 1, "<0.01 %", ">99.99 %"),
        ]
        for bound, rare, least, greatest in cases:
            runs = listings.tree([bound], lambda answers: "RARE" if answers[0] <= rare else "OFTEN")
            lines = outcomes(listing(runs), "--by", "last-line").out.splitlines()
            self.assertEqual(lines[1].strip().split("  ")[0], greatest, bound)
            self.assertEqual(lines[2].strip().split("  ")[0], least, bound)

    def test_byte_13(self) -> None:
        table = f"1 run, 1 outcome\n\n100.00 %  1  {'#' * 30}  END, 1 run\n    | A\\rB\n"
        self.prints([Run((), "END", "A\rB\n")], table=table)
        table = f"1 run, 1 last line\n100.00 %  1  {'#' * 30}  A\\rB, 1 run\n"
        self.prints([Run((), "END", "A\rB\n")], "--by", "last-line", table=table)

    def test_long_fractions(self) -> None:
        """A run with thousands of answers has a chance with thousands of digits."""
        answers = ((1, 1000),) * 2000
        reply = outcomes(listing([Run(answers, "END", "")]))
        self.assertEqual((reply.status, reply.errors), (PARTIAL, ""))
        self.assertIn(f"  1/1{'0' * 6000}  #", reply.out)


class AgainstCounts(Tests):
    """Tables of many kinds of trees have what is counted in another way."""

    KEYS = {
        "outcome": lambda run: (run.ending, run.shown),
        "ending": lambda run: run.ending,
        "last-line": lambda run: listings.last_line(run.shown),
        "answer:1": lambda run: run.answers[0][0] if run.answers else 0,
        "answer:3": lambda run: run.answers[2][0] if len(run.answers) > 2 else 0,
        "match:[13]$": lambda run: bool(re.search("[13]$", run.shown, re.MULTILINE)),
    }

    def check(self, reports: bytes) -> None:
        """Checks the tables of a listing by each grouping, and by two."""
        runs = listings.runs_of(reports)
        names = list(self.KEYS)
        for by in [*([name] for name in names), names[1:3], names[3:1:-1], names[4:], ["answer:1", "answer:3"]]:
            due = listings.grouped(runs, lambda run: tuple(self.KEYS[name](run) for name in by))
            arguments = [f"--match={name[6:]}" if name.startswith("match:") else f"--by={name}" for name in by]
            rows = listings.table_of(outcomes(reports, "--json", *arguments).out)[1:]
            found = [(Fraction(row["chance"]), row["runs"], row["first"], row["ending"], row["transcript"]) for row in rows]
            expected = [
                (chance, count, first.spelled(), first.ending, first.shown) for chance, count, first in due.values()
            ]
            self.assertEqual(found, expected, by)

    def test_programs(self) -> None:
        for program, arguments in [
            ("10 A=RND(2);IF A=2 B=RND(3);PRINT B\n", []),
            ("10 INPUT A,B;PRINT A*B\n", ["--choose", "4"]),
            ("10 A=A+1;IF A<6 IF RND(2)=1 GOTO 10\n20 PRINT A\n", []),
            ("10 FOR I=1 TO 80;IF RND(I+1)=1 STOP\n20 NEXT I;PRINT I\n", ["--first", "150"]),
            ("10 A=RND(4);GOTO A*10\n20 GOTO 20\n30 P.A/0\n40 P.@(A*9999)\n", ["--steps", "9"]),
            ("10 PRINT RND(3)+RND(3)+RND(3)\n", []),
        ]:
            with self.subTest(program):
                self.check(listed(program, *arguments))

    def test_examples(self) -> None:
        for name in "doors", "throw":
            with self.subTest(name):
                self.check(example(name))

    def test_tables_of_examples(self) -> None:
        files = sorted(glob.glob(f"{ROOT}/examples/*.outcomes"))
        self.assertEqual(len(files), 7)
        for file in files:
            with open(file) as table:
                reply = outcomes(example(os.path.basename(file).partition(".")[0]))
                self.assertEqual(reply, Reply(0, table.read(), ""), file)

    def test_like_reports(self) -> None:
        self.check(listed('10 PRINT "RUN 1/2 END 2 0";PRINT;PRINT RND(3),;PRINT "RUN ",RND(2)\n'))

    def test_byte_13_and_long_transcripts(self) -> None:
        self.check(listed('10 PRINT "A",_,RND(3),_,\n'))
        self.check(listed("10 FOR I=1 TO 9000;P.RND(1);N.I;P.RND(3)\n", "--steps", "99999"))


class Parts(Tests):
    """Listings of a part of a tree, of several files, torn and interrupted."""

    def setUp(self) -> None:
        folder = tempfile.TemporaryDirectory()
        self.addCleanup(folder.cleanup)
        self.folder = folder.name

    def file(self, name: str, content: bytes) -> str:
        """The path of a file with this content."""
        path = f"{self.folder}/{name}"
        with open(path, "wb") as file:
            file.write(content)
        return path

    def test_a_part(self) -> None:
        for runs, part in (DICE[:1], "1/2"), (DICE[1:], "1/2"), (DICE[1:2], "1/6"), (DICE[::2], "2/3"):
            reply = outcomes(listing(runs), "--by", "ending")
            head = f"{len(runs)} run{'s' * (len(runs) > 1)}, 1 ending; this is a part of the tree: {part} of it"
            self.assertEqual((reply.status, reply.out.splitlines()[0], reply.errors), (PARTIAL, head, ""))

    def test_files_are_one_listing(self) -> None:
        paths = [self.file(f"{k}.out", listing([run])) for k, run in enumerate(DICE)]
        self.assertEqual(outcomes(b"", *paths), Reply(0, DICE_TABLE, ""))
        self.assertEqual(outcomes(listing(DICE[1:2]), paths[0], "-", *paths[2:]), Reply(0, DICE_TABLE, ""))
        self.assertEqual(outcomes(b"", paths[0], *paths[2:]).status, PARTIAL)

    def test_shares(self) -> None:
        whole = "10 A=RND(3);IF A=2 B=RND(3)\n20 PRINT A,B\n"
        parts = [listed(whole, "--under", under) for under in ("1", "2", "3")]
        due = outcomes(listed(whole))
        self.assertEqual(outcomes(b"".join(parts)), due)
        self.assertEqual(due.status, 0)
        self.assertEqual(outcomes(parts[0] + parts[2]).out.splitlines()[0][-9:], "2/3 of it")

    def test_shares_in_another_order(self) -> None:
        first, second = (self.file(f"{k}.out", listing(runs)) for k, runs in enumerate((DICE[:2], DICE[2:])))
        line = f"{first}: byte 1: this run should come before the previous one"
        self.refuses(b"", second, first, status=BAD_INPUT, line=line)
        line = f"{first}: byte 1: this run should come before the previous one"
        self.refuses(b"", first, first, status=BAD_INPUT, line=line)

    def test_the_same_run_twice(self) -> None:
        line = f"byte {len(listing(DICE)) + 1}: this run should come before the previous one"
        self.refuses(listing(DICE) * 2, status=BAD_INPUT, line=line)
        line = f"byte {len(listing(DICE[:1])) + 1}: this run is the same as the previous one"
        self.refuses(listing(DICE[:1] * 2), status=BAD_INPUT, line=line)

    def test_torn(self) -> None:
        """The table of the complete reports, and the byte where the input ends."""
        data, whole = listing(DICE), listing(DICE[:2])
        part = outcomes(whole)
        for cut in range(len(whole) + 1, len(listing(DICE[:3]))):
            line = f"outcomes: byte {cut + 1}: the input ends within a report; the complete reports are shown\n"
            self.assertEqual(outcomes(data[:cut]), Reply(PARTIAL, part.out, line))
        self.assertTrue(part.out.startswith("2 runs, 2 outcomes; this is a part of the tree: 2/3 of it\n"))

    def test_torn_before_the_first_report_is_complete(self) -> None:
        data = listing(DICE)
        for cut in range(1, len(listing(DICE[:1]))):
            self.refuses(data[:cut], status=BAD_INPUT, line=f"byte {cut + 1}: the input ends within a report")

    def test_torn_after_a_complete_tree(self) -> None:
        data = listing(DICE)
        line = f"byte {len(data) + 1}: no report can come after the last run of the tree"
        self.refuses(data + b"RUN 2", status=BAD_INPUT, line=line)

    def test_torn_file_among_others(self) -> None:
        first = self.file("a.out", listing(DICE[:2])[:-3])
        second = self.file("b.out", listing(DICE[2:]))
        reply = outcomes(b"", first, second, "--by", "ending")
        said = f"outcomes: {first}: byte {len(listing(DICE[:2])) - 2}: the input ends within a report; "
        self.assertEqual(reply.errors, f"{said}the complete reports are shown\n")
        self.assertEqual(reply.out.splitlines()[0], "3 runs, 1 ending; this is a part of the tree: 5/6 of it")
        self.assertEqual(reply.status, PARTIAL)

    def test_nothing(self) -> None:
        self.refuses(b"", status=BAD_INPUT, line="byte 1: there is no report")
        self.refuses(b"HELLO\n", status=BAD_INPUT, line="byte 1: no report begins here")

    def test_a_file_that_is_malformed(self) -> None:
        first, second = self.file("a.out", listing(DICE[:2])), self.file("b.out", b"HELLO\n")
        self.refuses(b"", first, second, status=BAD_INPUT, line=f"{second}: byte 1: no report begins here")

    def test_files_that_cannot_be_read(self) -> None:
        missing = f"{self.folder}/none"
        self.refuses(b"", missing, status=UNREAD, line=f"cannot read {missing}: No such file or directory")
        self.refuses(b"", self.folder, status=UNREAD, line=f"cannot read {self.folder}: Is a directory")

    def test_other_forms_say_so(self) -> None:
        line = "outcomes: 1 run, 1 outcome; this is a part of the tree: 1/2 of it\n"
        for arguments in ["--csv"], ["--json"], ["--html", f"{self.folder}/page.html"]:
            reply = outcomes(listing(DICE[:1]), *arguments)
            self.assertEqual((reply.status, reply.errors), (PARTIAL, line))


def take_interrupts() -> None:
    """Takes Ctrl-C as usual, even if these tests run in the background, where a shell ignores it."""
    signal.signal(signal.SIGINT, signal.SIG_DFL)


class Interrupted(Tests):
    """Ctrl-C ends what is read, and shows what is complete."""

    def interrupted(self, reports: bytes, *arguments: str) -> Reply:
        """The tool, to which Ctrl-C comes while it waits after these reports."""
        how = {"stdin": subprocess.PIPE, "stdout": subprocess.PIPE, "stderr": subprocess.PIPE, "env": PLAIN}
        with subprocess.Popen([OUTCOMES, *arguments], preexec_fn=take_interrupts, **how) as process:
            process.stdin.write(reports)
            process.stdin.flush()
            self.wait_for(process)
            process.send_signal(signal.SIGINT)
            try:
                process.wait(60)  # its input is still open
            except subprocess.TimeoutExpired:
                process.kill()
            out, errors = process.communicate()
        return Reply(process.returncode, out.decode(), errors.decode())

    def wait_for(self, process: subprocess.Popen) -> None:
        """Waits until the process has read what there is, and waits for more."""
        for _ in range(600):
            with open(f"/proc/{process.pid}/wchan") as place, open(f"/proc/{process.pid}/stat") as stat:
                is_waiting = "pipe" in place.read() or stat.read().rpartition(")")[2].split()[0] == "S"
            with open(f"/proc/{process.pid}/status") as status:
                handled = int(re.search("SigCgt:\\s*([0-9a-f]+)", status.read())[1], 16) >> (signal.SIGINT - 1) & 1
            with open(f"/proc/{process.pid}/syscall") as call:
                reads = call.read().split()[:2] == ["0", "0x0"]
            if is_waiting and handled and reads:
                time.sleep(0.2)
                return
            time.sleep(0.05)

    def test_between_reports(self) -> None:
        reply = self.interrupted(listing(DICE[:2]), "--by", "ending")
        due = "2 runs, 1 ending; this is a part of the tree: 2/3 of it\n"
        self.assertEqual((reply.status, reply.out[: len(due)], reply.errors), (PARTIAL, due, ""))

    def test_within_a_report(self) -> None:
        reply = self.interrupted(listing(DICE[:3])[:-2], "--by", "ending")
        due = "2 runs, 1 ending; this is a part of the tree: 2/3 of it\n"
        self.assertEqual((reply.status, reply.out[: len(due)], reply.errors), (PARTIAL, due, ""))

    def test_after_the_last_report(self) -> None:
        self.assertEqual(self.interrupted(listing(DICE)), Reply(0, DICE_TABLE, ""))

    def test_before_the_first_report(self) -> None:
        self.assertEqual(self.interrupted(b"RUN 1/2 END"), Reply(INTERRUPTED, "", ""))

    def test_ignored(self) -> None:
        """Ctrl-C that is ignored, as by a shell for what runs in the background, stays ignored."""
        with subprocess.Popen(["bash", "-c", f"trap '' INT; exec '{OUTCOMES}'"], stdin=-1, stdout=-1, env=PLAIN) as process:
            process.stdin.write(listing(DICE[:2]))
            process.stdin.flush()
            time.sleep(1)
            process.send_signal(signal.SIGINT)
            time.sleep(0.2)
            out, _ = process.communicate(listing(DICE[2:]))
        self.assertEqual((process.returncode, out.decode()), (0, DICE_TABLE))

    def test_later_files_are_not_read(self) -> None:
        with tempfile.NamedTemporaryFile() as file:
            file.write(listing(DICE[2:]))
            file.flush()
            reply = self.interrupted(listing(DICE[:2]), "--by", "ending", "-", file.name)
        self.assertEqual((reply.status, reply.out.splitlines()[0][:7]), (PARTIAL, "2 runs,"))


class Sampled(Tests):
    """Listings of runs that were drawn."""

    def test_table(self) -> None:
        runs = [MIXED[k] for k in (4, 0, 0, 2, 1, 0, 4, 0)]
        table = """8 sampled runs, 3 endings
 75.00 %  40.93 to 92.85 %  ##############################  END, 6 runs
 12.50 %   2.24 to 47.09 %  #####                           HOW, 1 run
 12.50 %   2.24 to 47.09 %  #####                           STOP, 1 run

These runs are sampled: in 95 of 100 samples the interval contains the true chance.
"""
        self.prints(runs, "--sampled", "--by", "ending", table=table)

    def test_two_ways(self) -> None:
        table = """4 sampled runs, 2 endings by 2 last lines

          HI  10 P.1/?0       all
END  75.00 %     0.00 %   75.00 %
HOW   0.00 %    25.00 %   25.00 %
all  75.00 %    25.00 %  100.00 %

Each number is the share of its row and its column together.

These runs are sampled: in 95 of 100 samples the interval contains the true chance.
"""
        runs = [MIXED[k] for k in (0, 2, 0, 4)]
        self.prints(runs, "--sampled", "--by=ending", "--by=last-line", table=table)

    def test_the_same_run_without_answers(self) -> None:
        reply = outcomes(MIXED[0]._replace(answers=()).report() * 3, "--sampled", "--by", "ending")
        self.assertEqual((reply.status, reply.errors), (0, ""))
        self.assertEqual(reply.out.splitlines()[1], f"100.00 %  43.85 to 100.00 %  {'#' * 30}  END, 3 runs")

    def test_form_1(self) -> None:
        reports = b"RUN 2 END 1 0\n\nRUN 1 STOP 1 0\n\nRUN 2 END 1 0\n\n"
        reply = outcomes(reports, "--sampled", "--by", "ending")
        self.assertEqual(reply.status, 0)
        self.assertEqual(reply.out.splitlines()[1][:28], " 66.67 %  20.77 to 93.85 %  ")

    def test_by_answer(self) -> None:
        runs = [MIXED[k] for k in (4, 0, 4, 3)]
        rows = listings.table_of(outcomes(listing(runs), "--sampled", "--json", "--by", "answer:2").out)[1:]
        self.assertEqual([(row["outcome"], row["chance"]) for row in rows], [(["2"], "1/2"), (["none"], "1/4"), (["1"], "1/4")])

    def test_torn(self) -> None:
        reply = outcomes(listing(MIXED)[:-1], "--sampled", "--by", "ending")
        self.assertEqual(reply.status, PARTIAL)
        self.assertEqual(reply.out.splitlines()[0], "4 sampled runs, 3 endings; this is a part of the sample")
        self.assertIn("the input ends within a report", reply.errors)

    def test_of_the_program(self) -> None:
        for form in "1", "2":
            reply = outcomes(listings.sampled("10 PRINT RND(6)\n", 7, 3, "--form", form), "--sampled", "--by", "answer:1")
            self.assertEqual((reply.status, reply.errors), (0, ""))
            shares = re.findall(r"([0-9.]+) to ([0-9.]+) % +#+ +(.*)", reply.out)
            self.assertEqual(shares, [("20.77", "93.85", "answer 5, 2 runs"), ("6.15", "79.23", "answer 3, 1 run")])

    def test_intervals_have_the_chances(self) -> None:
        """Of the sums of two dice, at least nine of eleven intervals have the chance that is counted by hand."""
        reply = outcomes(listings.sampled("10 P.RND(6)+RND(6)\n", 1, 10_000), "--sampled", "--by", "last-line")
        self.assertEqual((reply.status, reply.out.splitlines()[0]), (0, "10,000 sampled runs, 11 last lines"))
        rows = re.findall(r"([0-9.]+) to ([0-9.]+) % +#+ +([0-9]+), [0-9,]+ runs", reply.out)
        within = [float(low) <= 100 * (6 - abs(int(total) - 7)) / 36 <= float(high) for low, high, total in rows]
        self.assertEqual(len(within), 11)
        self.assertGreaterEqual(sum(within), 9)

    def test_each_output_says_so(self) -> None:
        with tempfile.NamedTemporaryFile() as page:
            for arguments in [], ["--csv"], ["--json"], ["--by=ending", "--by=last-line"], ["--html", page.name]:
                reply = outcomes(listing(MIXED), "--sampled", *arguments)
                self.assertEqual((reply.status, reply.errors), (0, ""))
                self.assertIn("sampled", reply.out or page.read().decode().lower())


class Arguments(Tests):
    """Usage errors, help, streams."""

    def test_usage_errors(self) -> None:
        cases = [
            ["--by", "size"], ["--by", "answer:0"], ["--by", "answer:"], ["--by", "answer:x"], ["--by", "match:A"],
            ["--match", "("], ["--top", "0"], ["--top", "x"], ["--top", "01"], ["--csv", "--html", "page"],
            ["--csv", "--json"], ["--html"], ["--t", "1"], ["--unknown"], ["--by=ending"] * 3,
            ["--by=outcome", "--by=ending"], ["--by=ending", "--by=last-line", "--top=1"],
            ["--merge", "--by=ending"], ["--merge", "--sampled"], ["--merge", "--program=A"],
            ["-", "-"],
        ]
        for arguments in cases:
            with self.subTest(arguments):
                reply = outcomes(listing(MIXED), *arguments)
                self.assertEqual((reply.status, reply.out), (USAGE, ""))
                self.assertRegex(reply.errors, r"^outcomes: [^\n]*; see outcomes --help\n$")

    def test_help(self) -> None:
        for option in "-h", "--help":
            reply = outcomes(b"", option)
            self.assertEqual((reply.status, reply.errors), (0, ""))
            self.assertTrue({"--by", "--match", "--merge", "--sampled", "--html"} <= set(re.findall("--[a-z]+", reply.out)))

    def test_version(self) -> None:
        version = subprocess.check_output([f"{ROOT}/tools/version"], text=True)
        for option in "-V", "--version":
            self.assertEqual(outcomes(b"", option), Reply(0, f"ptb-outcomes {version}", ""))

    def test_streams(self) -> None:
        """Streams that are closed, or can't be written, also without PYTHONUNBUFFERED."""
        due = {
            "<&-": (UNREAD, "outcomes: cannot read the reports: standard input is closed\n"),
            ">&-": (UNWRITTEN, "outcomes: cannot write: standard output is closed\n"),
            "> /dev/full": (UNWRITTEN, "outcomes: cannot write: No space left on device\n"),
            "--csv > /dev/full": (UNWRITTEN, "outcomes: cannot write: No space left on device\n"),
            "--json > /dev/full": (UNWRITTEN, "outcomes: cannot write: No space left on device\n"),
            "--html /dev/full": (UNWRITTEN, "outcomes: cannot write: No space left on device\n"),
            "--html /none/page": (UNWRITTEN, "outcomes: cannot write: No such file or directory\n"),
            "2>&-": (0, ""),
        }
        for words, (status, errors) in due.items():
            command = ["bash", "-c", f"'{OUTCOMES}' {words}"]
            done = subprocess.run(command, input=listing(MIXED), capture_output=True, env=PLAIN, check=False)
            self.assertEqual((done.returncode, done.stderr.decode()), (status, errors), words)
            self.assertEqual(done.stdout != b"", status == 0, words)

    def test_from_any_folder(self) -> None:
        with tempfile.TemporaryDirectory() as folder:
            os.symlink(OUTCOMES, f"{folder}/link")
            for tool in OUTCOMES, f"{folder}/link":
                self.assertEqual(listings.call(tool, listing(DICE), cwd=folder), Reply(0, DICE_TABLE, ""))
            self.assertEqual(os.listdir(folder), ["link"])

    def test_python_3_9(self) -> None:
        files = glob.glob(f"{ROOT}/tools/ptb_tools/*.py")
        self.assertGreater(len(files), 8)
        for file in files:
            with open(file, encoding="utf-8") as source:
                ast.parse(source.read(), feature_version=(3, 9))


class Pages(Tests):
    """What is handed to the page."""

    def test_page(self) -> None:
        with tempfile.NamedTemporaryFile(suffix=".html") as page:
            arguments = ["--program", "a b.bas", "--options=--choose 8", "--html", page.name]
            self.assertEqual(outcomes(listing(DICE), *arguments), Reply(0, "", ""))
            content = page.read().decode()
        for text in "Outcomes of a b.bas", "--choose 8", time.strftime("%Y-%m-%d"), "1/6", "Tree of answers":
            self.assertIn(text, content)

    def test_signs_in_the_last_line(self) -> None:
        with tempfile.NamedTemporaryFile(suffix=".html") as page:
            run = Run((), "END", "<b>&amp;</pre>\n")
            outcomes(listing([run]), "--by", "last-line", "--program", "<b>", "--html", page.name)
            content = page.read().decode()
        self.assertNotIn("<b>&amp;</pre>", content)
        self.assertIn("&lt;b&gt;&amp;amp;&lt;/pre&gt;", content)
        self.assertNotIn("<title>Outcomes of <b>", content)


class Many(Tests):
    """A million reports."""

    MEASURE = """import resource, subprocess, sys
with open(sys.argv[2], "rb") as reports:
    done = subprocess.run([sys.argv[1], *sys.argv[3:]], stdin=reports, stdout=subprocess.PIPE)
used = resource.getrusage(resource.RUSAGE_CHILDREN)
sys.stderr.write(f"{used.ru_maxrss}")
sys.stdout.buffer.write(done.stdout)
sys.exit(done.returncode)
"""

    def test_a_million(self) -> None:
        """Memory doesn't grow with the number of runs, and the chances are exact."""
        with tempfile.NamedTemporaryFile() as file:
            for k in range(1_000_000):
                answers = b"%d/100,%d/100,%d/100" % (1 + k // 10000, 1 + k // 100 % 100, 1 + k % 100)
                file.write(b"RUN %b END 4 7\n%6d\n\n" % (answers, k % 7))
            file.flush()
            for by in "ending", "last-line", "answer:2":
                command = [sys.executable, "-c", self.MEASURE, OUTCOMES, file.name, "--json", "--by", by]
                done = subprocess.run(command, capture_output=True, timeout=listings.SECONDS, check=True)
                rows = listings.table_of(done.stdout.decode())[1:]
                self.assertEqual(sum(Fraction(row["chance"]) for row in rows), 1)
                counts = {"ending": [1_000_000], "answer:2": [10_000] * 100}
                due = counts.get(by, [len(range(k, 1_000_000, 7)) for k in range(7)])
                self.assertEqual([row["runs"] for row in rows], due)
                self.assertLess(int(done.stderr.split()[-1]), KILOBYTES_OF_A_MILLION, by)

    def test_memory_with_different_transcripts(self) -> None:
        with tempfile.NamedTemporaryFile() as file:
            for k in range(1, 30_001):
                file.write(b"RUN %d/30000 END 4 4001\n%4000d\n\n" % (k, k))
            file.flush()
            command = [sys.executable, "-c", self.MEASURE, OUTCOMES, file.name, "--json", "--by", "ending"]
            done = subprocess.run(command, capture_output=True, timeout=listings.SECONDS, check=True)
        self.assertLess(int(done.stderr.split()[-1]), KILOBYTES_OF_A_MILLION)


if __name__ == "__main__":
    unittest.main()
