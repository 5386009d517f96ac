"""Tests of the page of outcomes, without a browser: what it says, that it is safe, and its size."""

from __future__ import annotations

import base64
import hashlib
import os
import re
import subprocess
import tempfile
import unittest
from fractions import Fraction

from elements import Element, elements_of
from tables_for_tests import DATE, ROOT, TITLE, doors, page_of, row_of, table_of, throws, tree_of, worst
from tables_for_tests import Node, Row, Table

MOST_BYTES, MOST_ROWS, MOST_NODES = 1_000_000, 1_000, 2_000
SIGNS = "<b>A&amp;B\"C'D</b></script></title></pre>$x${y}"


def rows(page: Element) -> list[Element]:
    """The rows of a page."""
    return [part for part in page.one("div", "rows").parts if isinstance(part, Element)]


def row(table: Table) -> Element:
    """The first row of the page of a table."""
    return rows(elements_of(page_of(table)))[0]


def cell(element: Element, name: str) -> str:
    """The text of a cell of a row."""
    return element.one("span", name).text


def facts(page: Element) -> dict[str, str]:
    """What the head of a page says of the listing."""
    return dict(zip([term.text for term in page.all("dt")], [text.text for text in page.all("dd")]))


def parts_of(whole: int, *parts: int) -> Table:
    """A table of rows with these parts of the chance."""
    return table_of([row_of(f"LINE {part}", Fraction(part, whole)) for part in parts])


class Head(unittest.TestCase):
    """What is known of the listing."""

    def test_facts(self) -> None:
        page = elements_of(page_of(doors()))
        due = {
            "Program": "examples/doors.bas",
            "Options": "--choose 8",
            "Date": DATE,
            "Runs": "4",
            "Outcomes": "2",
            "Tree of runs": "complete",
        }
        self.assertEqual(facts(page), due)
        self.assertEqual(page.one("h1").text, TITLE)
        self.assertEqual(page.one("title").text, f"{TITLE} (4 runs)")
        self.assertEqual(list(page.all("p", "notice")), [])

    def test_what_is_not_known_is_left_out(self) -> None:
        page = elements_of(page_of(parts_of(1, 1)))
        self.assertEqual(list(facts(page)), ["Date", "Runs", "Outcomes", "Tree of runs"])

    def test_partial(self) -> None:
        page = elements_of(page_of(table_of([row_of("A", Fraction(1, 4))], partial=True)))
        self.assertEqual(page.one("title").text, f"{TITLE} (1 run, partial)")
        self.assertEqual(facts(page)["Tree of runs"], "partial: 25.00 %")
        notice = page.one("p", "notice").text.replace("\u00a0", " ")
        self.assertEqual(notice, "Partial. Runs are missing. The chances add up to 25.00 % (1/4) instead of 100 %.")

    def test_sampled(self) -> None:
        page = elements_of(page_of(table_of([row_of("A", Fraction(1), runs=50)], sampled=True)))
        self.assertEqual(page.one("title").text, f"{TITLE} (50 runs, sampled)")
        self.assertEqual(facts(page)["Tree of runs"], "sampled")
        self.assertIn("Sampled. 50 runs drawn at random.", page.one("p", "notice").text)
        self.assertEqual([span.text for span in page.one("p", "head").all("span")][:2], ["Share", "95 % interval"])

    def test_a_part_of_a_sample(self) -> None:
        page = elements_of(page_of(table_of([row_of("A", Fraction(1))], sampled=True, partial=True)))
        self.assertEqual(page.one("title").text, f"{TITLE} (1 run, partial, sampled)")
        self.assertEqual(facts(page)["Tree of runs"], "sampled, partial")
        self.assertEqual([note.text.split(".")[0] for note in page.all("p", "notice")], ["Partial", "Sampled"])
        self.assertNotIn("add up", page.text)

    def test_groupings_are_named(self) -> None:
        names = {
            ("last-line",): "Last line",
            ("outcome",): "Outcome",
            ("answer:2", "ending"): "Answer to question 2, ending",
            ("match:WON|LOST",): "Match WON|LOST",
        }
        for by, due in names.items():
            table = table_of([row_of("A", Fraction(1), key=("A",) * len(by))], by=by)
            self.assertEqual(elements_of(page_of(table)).one("p", "head").one("span", "w").text, due)

    def test_powers_of_ten_are_rounded(self) -> None:
        for runs, due in {10**15 - 1: "999,999,999,999,999", 10**15: "1.00 × 10¹⁵", 9_996 * 10**12: "1.00 × 10¹⁶"}.items():
            table = table_of([row_of("A", Fraction(1), runs=runs)])
            self.assertEqual(facts(elements_of(page_of(table)))["Runs"], due)

    def test_great_numbers(self) -> None:
        table = table_of([row_of("A", Fraction(1), runs=2**100)])
        page = elements_of(page_of(table))
        self.assertEqual(facts(page)["Runs"], "1.27 × 10³⁰")
        self.assertEqual(cell(rows(page)[0], "n"), "1.27 × 10³⁰ runs")
        self.assertEqual(cell(row(table_of([row_of("A", Fraction(1), runs=1_234_567)])), "n"), "1,234,567 runs")


class Rows(unittest.TestCase):
    """A row: chance, bar, label, preview and runs."""

    def test_chances(self) -> None:
        chances = {
            Fraction(2, 3): ("66.67 %", "2/3"),
            Fraction(1): ("100.00 %", "1"),
            Fraction(1, 8): ("12.50 %", "1/8"),
            Fraction(1, 20_001): ("<0.01 %", "1/20001"),
            Fraction(1, 20_000): ("0.01 %", "1/20000"),
            Fraction(32766, 32767): (">99.99 %", "32766/32767"),
            Fraction(1_234_567_890, 9_876_543_211): ("12.50 %", "1234567890/9876543211"),
            Fraction(1, 2**80): ("<0.01 %", "about 1 in 1.21 × 10²⁴"),
            Fraction(2, 3**50): ("<0.01 %", "about 1 in 3.59 × 10²³"),
            Fraction(3**50, 4 * 3**50 - 1): ("25.00 %", "about 1 in 4"),
        }
        for chance, due in chances.items():
            found = row(table_of([row_of("A", chance)]))
            self.assertEqual((cell(found, "p"), cell(found, "f")), due)

    def test_a_long_fraction_is_in_the_opened_row(self) -> None:
        long = row(table_of([row_of("A", Fraction(1, 2**80))]))
        self.assertIn(f"The chance is 1/{2**80}.", long.one("div", "o").text)
        longer = row(table_of([row_of("A", Fraction(1, 2**40_000))]))
        self.assertIn("The fraction is too long for this page.", longer.one("div", "o").text)
        self.assertEqual(cell(longer, "f"), "about 1 in 1.58 × 10¹²⁰⁴¹")
        self.assertNotIn("The chance is", row(doors()).text)

    def test_bars_are_parts_of_all_runs(self) -> None:
        found = rows(elements_of(page_of(parts_of(1000, 5, 1))))
        self.assertEqual([element.attributes["style"] for element in found], ["--c:0.005", "--c:0.001"])

    def test_the_likeliest_is_first(self) -> None:
        page = elements_of(page_of(parts_of(10, 2, 5, 3)))
        self.assertEqual([element.one("b").text for element in rows(page)], ["LINE 5", "LINE 3", "LINE 2"])

    def test_equal_chances_keep_their_order(self) -> None:
        table = table_of([row_of(label, Fraction(1, 4)) for label in "CABD"])
        self.assertEqual([element.one("b").text for element in rows(elements_of(page_of(table)))], list("CABD"))

    def test_runs(self) -> None:
        self.assertEqual([cell(element, "n") for element in rows(elements_of(page_of(doors())))], ["2 runs", "2 runs"])
        self.assertEqual(cell(row(parts_of(1, 1)), "n"), "1 run")

    def test_two_lines_before_the_last(self) -> None:
        shown = row(doors())
        self.assertEqual(shown.one("b").text, "THE PRIZE IS YOURS!")
        self.assertEqual(shown.one("small").text, "I OPEN DOOR 3: NOTHING.\nDO YOU CHANGE TO THE OTHER:Y")

    def test_two_lines_of_other_groupings(self) -> None:
        table = table_of([row_of("END", Fraction(1), transcript=b"A\n\n  B\nC\n")], by=("ending",))
        self.assertEqual(row(table).one("small").text, "  B\nC")

    def test_no_preview(self) -> None:
        for transcript in (b"A\n", b"", None):
            table = table_of([row_of("A", Fraction(1), transcript=transcript)])
            self.assertEqual(list(row(table).all("small")), [])

    def test_labels(self) -> None:
        labels = {
            ("outcome", "  A "): "A",
            ("outcome", ""): "(nothing is shown)",
            ("last-line", " "): "(nothing is shown)",
            ("ending", "STOP"): "STOP",
            ("answer:2", "6"): "answer 6",
            ("answer:2", "none"): "no answer",
            ("match:WON", "matches WON"): "matches WON",
        }
        for (grouping, label), due in labels.items():
            self.assertEqual(row(table_of([row_of(label, Fraction(1))], by=(grouping,))).one("b").text, due)

    def test_a_label_for_each_grouping(self) -> None:
        table = table_of([row_of("x", Fraction(1), key=("STOP", "YES"))], by=("ending", "last-line"))
        self.assertEqual(row(table).one("b").text, "STOP · YES")

    def test_long_labels_are_cut(self) -> None:
        shown = row(table_of([row_of("A" * 161, Fraction(1), transcript=b"B" * 161 + b"\nA\n")]))
        self.assertEqual((shown.one("b").text, shown.one("small").text), ("A" * 159 + "…", "B" * 159 + "…"))
        self.assertEqual(row(table_of([row_of("A" * 160, Fraction(1))])).one("b").text, "A" * 160)

    def test_unusual_endings_are_marked(self) -> None:
        for ending, due in {"HOW": ["HOW"], "LIMIT": ["LIMIT"], "END": [], "STOP": []}.items():
            shown = row(table_of([row_of("A", Fraction(1), ending=ending)]))
            self.assertEqual([mark.text for mark in shown.all("i")], due)
        by_ending = table_of([row_of("HOW", Fraction(1), ending="HOW")], by=("ending",))
        self.assertEqual(list(row(by_ending).all("i")), [])


class Opened(unittest.TestCase):
    """What a row opens to."""

    def transcripts(self, transcript: bytes | None) -> tuple[list[str], str]:
        """The transcripts as they are in the page, and the text around them."""
        shown = row(table_of([row_of("A", Fraction(1), transcript=transcript)])).one("div", "o")
        return [pre.text for pre in shown.all("pre")], " ".join(note.text for note in shown.all("p"))

    def test_transcript(self) -> None:
        for transcript in (b"A\n", b"\n\nA", b"  A <b>&amp;</pre>\n", b"x" * 4096):
            self.assertEqual(self.transcripts(transcript)[0], ["\n" + transcript.decode()])

    def test_control_characters_are_spelled(self) -> None:
        self.assertEqual(self.transcripts(b"A\rB\x00\x1b[m\x7f\x85\n")[0], ["\nA\\rB\\x00\\x1b[m\\x7f\\x85\n"])
        label = row(table_of([row_of("A\rB", Fraction(1), transcript=b"A\rB")])).one("b").text
        self.assertEqual(label, "A\\rB")

    def test_no_transcript(self) -> None:
        self.assertEqual(self.transcripts(b"")[0], [])
        self.assertIn("Nothing is shown.", self.transcripts(b"")[1])
        self.assertNotIn("Nothing", self.transcripts(None)[1])

    def test_a_long_transcript_is_cut(self) -> None:
        lines = b"".join(b"LINE %04d\n" % number for number in range(1000))
        (begin, end), notes = self.transcripts(lines)
        self.assertTrue(lines.startswith(begin[1:].encode()) and begin.endswith("\n"))
        self.assertTrue(lines.endswith(end[1:].encode()) and end.startswith("\nLINE"))
        shown = len(begin) + len(end) - 2
        self.assertTrue(4000 < shown <= 4096)
        self.assertIn(f"{10_000 - shown:,} bytes of 10,000 are left out here", notes)

    def test_one_byte_too_many(self) -> None:
        (begin, end), notes = self.transcripts(b"x" * 4096 + b"y")
        self.assertEqual((begin, end), ("\n" + "x" * 3072, "\n" + "x" * 1023 + "y"))
        self.assertIn("1 byte of 4,097", notes)

    def test_the_ending_of_the_first_run(self) -> None:
        endings = {
            "END": "The run ends after its last statement.",
            "STOP": "The run ends with STOP.",
            "WHAT": "The run ends with the fault WHAT?.",
            "HOW": "The run ends with the fault HOW?.",
            "SORRY": "The run ends with the fault SORRY.",
            "LIMIT": "The run stops at the limit of commands.",
            "NOINPUT": "The run ends at an INPUT that finds no line.",
        }
        for ending, due in endings.items():
            shown = row(table_of([row_of("A", Fraction(1), ending=ending)]))
            self.assertEqual(list(shown.all("p"))[0].text, due)
        self.assertEqual(list(row(doors()).all("p"))[0].text, "The first of 2 runs ends with STOP.")

    def command(self, **changes: object) -> str:
        """The command of a row of a table with changes."""
        first = changes.pop("first", (2, 1))
        return row(table_of([row_of("A", Fraction(1), first=first)], **changes)).one("code").text

    def test_command(self) -> None:
        self.assertEqual(row(doors()).one("code").text, "ptb --answers 2 --choose 8 examples/doors.bas")
        self.assertEqual(self.command(), "ptb --answers 2,1 PROGRAM")
        self.assertEqual(self.command(first=()), "ptb --answers none PROGRAM")
        self.assertEqual(self.command(program="my game.bas"), "ptb --answers 2,1 'my game.bas'")
        self.assertEqual(self.command(program="a&b's.bas"), "ptb --answers 2,1 'a&b'\"'\"'s.bas'")
        self.assertEqual(self.command(options="--steps 9"), "ptb --answers 2,1 --steps 9 PROGRAM")

    def test_a_long_command_is_left_out(self) -> None:
        shown = row(table_of([row_of("A", Fraction(1), first=(1,) * 42_768)]))
        self.assertEqual(list(shown.all("code")), [])
        self.assertIn("with 42,768 answers, is too long for this page", shown.text)
        self.assertEqual(len(self.command(first=(1,) * 1000)), len("ptb --answers  PROGRAM") + 1999)


class Remarks(unittest.TestCase):
    """The remarks below the table."""

    def test_answers_count_as_equally_likely(self) -> None:
        for first, sampled, due in (((1,), False, True), ((), False, False), ((1,), True, False)):
            table = table_of([row_of("A", Fraction(1), first=first)], sampled=sampled)
            page = elements_of(page_of(table))
            self.assertEqual("count as equally likely" in page.one("footer").text, due, (first, sampled))


class Sampled(unittest.TestCase):
    """Shares with their intervals."""

    def test_intervals(self) -> None:
        # R. G. Newcombe, Two-sided confidence intervals for the single proportion, 1998, method 3
        published = {(81, 263): (25.53, 36.62), (15, 148): (6.24, 16.05), (0, 20): (0, 16.11), (1, 29): (0.61, 17.18)}
        for (found, drawn), (least, greatest) in published.items():
            some = row_of("A", Fraction(found, drawn), runs=found)
            shown = row(table_of([some], sampled=True, runs=drawn))
            self.assertEqual(cell(shown, "f"), f"{least:.2f} to {greatest:.2f} %")

    def test_shares_that_are_left_out(self) -> None:
        some = [row_of(f"{number}", Fraction(1, 2000)) for number in range(2000)]
        page = elements_of(page_of(table_of(some, sampled=True, covered=Fraction(1, 7))))
        self.assertEqual(page.one("p", "rest").text, "and 1,000 more outcomes, 50.00 %")


class Left(unittest.TestCase):
    """Rows that are left out."""

    def test_none(self) -> None:
        table = parts_of(MOST_ROWS, *[1] * MOST_ROWS)
        page = elements_of(page_of(table))
        self.assertEqual(len(rows(page)), MOST_ROWS)
        self.assertEqual(list(page.all("p", "rest")), [])

    def test_one(self) -> None:
        table = parts_of(2 * MOST_ROWS + 1, *[2] * MOST_ROWS, 1)
        page = elements_of(page_of(table))
        self.assertEqual(len(rows(page)), MOST_ROWS)
        self.assertEqual(page.one("p", "rest").text, "and 1 more outcome, 0.05 %")

    def test_the_least_likely_are_left_out(self) -> None:
        table = parts_of(7_000, *[1] * 3_000, *[4] * MOST_ROWS)
        page = elements_of(page_of(table))
        self.assertEqual({element.one("b").text for element in rows(page)}, {"LINE 4"})
        self.assertEqual(page.one("p", "rest").text, "and 3,000 more outcomes, 42.86 %")

    def test_those_that_the_table_left_out(self) -> None:
        table = table_of([row_of("A", Fraction(1, 8))], outcomes=5, covered=Fraction(1, 2), partial=True)
        self.assertEqual(elements_of(page_of(table)).one("p", "rest").text, "and 4 more outcomes, 37.50 %")


class Tree(unittest.TestCase):
    """The view of the tree of answers."""

    def tree(self, root: Node, rows: list[Row] | None = None, **changes: object) -> Element:
        """The view in the page of a table with this tree."""
        table = table_of(rows or [row_of("A", Fraction(1), runs=9)], answers_tree=root, **changes)
        return elements_of(page_of(table)).one("section", "tree")

    def lines(self, tree: Element) -> list[str]:
        """The lines of a tree: answers and, without a style, captions."""
        found = []
        for item in tree.all("li"):
            line = next(part for part in [*item.all("summary"), *item.all("div"), item] if isinstance(part, Element))
            parts = [part if isinstance(part, str) else part.text for part in line.parts]
            found.append(" | ".join(filter(None, map(str.strip, parts))))
        return found

    def test_no_tree(self) -> None:
        for tree in (None, tree_of([])):
            page = elements_of(page_of(table_of([row_of("A", Fraction(1), first=())], answers_tree=tree)))
            self.assertEqual(list(page.all("section", "tree")), [])
            self.assertIn("hidden", page.one("div", "views").attributes)

    def test_lines(self) -> None:
        page = elements_of(page_of(doors()))
        self.assertNotIn("hidden", page.one("div", "views").attributes)
        due = [
            "Question 1: 1 to 3",
            "1 | 33.33 % | 1/3 | 2 runs",
            "Question 2: 1 to 2",
            "1 | 16.67 % | 1/6 | 1 run",
            "2 | 16.67 % | 1/6 | 1 run",
            "2 | 33.33 % | 1/3 | 1 run",
            "3 | 33.33 % | 1/3 | 1 run",
        ]
        tree = page.one("section", "tree")
        self.assertEqual(self.lines(tree), due)
        self.assertEqual(tree.one("summary").attributes["style"], "--c:0.3333")
        self.assertNotIn("Three dots", tree.text)

    def test_answers_rise(self) -> None:
        root = tree_of([3])
        root.children = {answer: root.children[answer] for answer in (3, 1, 2)}
        self.assertEqual([line[0] for line in self.lines(self.tree(root))[1:]], ["1", "2", "3"])

    def test_runs_are_named_if_each_row_has_one(self) -> None:
        some = [row_of("HEADS", Fraction(1, 2), first=(2,)), row_of("TAILS", Fraction(1, 2), first=(1,))]
        due = ["1 | 50.00 % | 1/2 | 1 run | TAILS", "2 | 50.00 % | 1/2 | 1 run | HEADS"]
        self.assertEqual(self.lines(self.tree(tree_of([2]), some))[1:], due)
        unnamed = self.tree(tree_of([2]), [some[0], row_of("TAILS", Fraction(1, 2), first=(1,), runs=2)])
        self.assertEqual(list(unnamed.all("q")), [])

    def test_levels_that_are_left_out(self) -> None:
        tree = self.tree(tree_of([10] * 5))
        lines = self.lines(tree)
        self.assertEqual(len(lines), 1110 + 111)
        self.assertEqual(lines[:3] + lines[4:6], [
            "Question 1: 1 to 10", "1 | 10.00 % | 1/10 | 10,000 runs", "Question 2: 1 to 10",
            "Question 3: 1 to 10", "1 | 0.10 % | 1/1000 | 100 runs | …"])
        self.assertIn("Three dots mean that more questions follow.", tree.text)

    def test_answers_that_are_left_out(self) -> None:
        lines = self.lines(self.tree(tree_of([32_767])))
        self.assertEqual(len(lines), MOST_NODES - 1)
        self.assertEqual(lines[-2:], ["1997 | <0.01 % | 1/32767 | 1 run", "and 30,770 more answers, 93.91 %"])

    def test_a_level_in_part(self) -> None:
        lines = self.lines(self.tree(tree_of([2, 5_000])))
        self.assertEqual(lines.count("and 4,003 more answers, 40.03 %"), 2)
        self.assertLess(len(lines), MOST_NODES + 3)

    def test_few_answers_of_a_level_are_not_shown(self) -> None:
        lines = self.lines(self.tree(tree_of([300, 20])))
        self.assertEqual(len(lines), 301)
        self.assertEqual(lines[-1], "300 | 0.33 % | 1/300 | 20 runs | …")

    def test_nodes(self) -> None:
        for bounds in ([1999], [1998], [2000], [44, 44], [45, 44], [12, 12, 12], [2] * 12, [1] * 300, [13, 13, 11]):
            found = [line for line in self.lines(self.tree(tree_of(bounds))) if not line.startswith("Question")]
            self.assertTrue(0 < len(found) < MOST_NODES, bounds)
        self.assertEqual(len(self.lines(self.tree(tree_of([1998])))), 1999)

    def test_a_deep_tree_is_not_deeply_nested(self) -> None:
        root = leaf = tree_of([2])
        for _ in range(900):
            leaf.children[2] = tree_of([2], leaf.chance / 2)
            leaf = leaf.children[2]
        lines = self.lines(self.tree(root))
        self.assertIn("Question 40: 1 to 2", lines)
        self.assertNotIn("Question 41: 1 to 2", lines)

    def test_a_tree_that_came_without_its_deeper_answers(self) -> None:
        root = tree_of([2])
        root.children[2] = Node(Fraction(1, 2), 7, 4)
        self.assertEqual(self.lines(self.tree(root))[-1], "2 | 50.00 % | 1/2 | 7 runs | …")

    def test_bounds_that_are_not_known(self) -> None:
        root = Node(Fraction(1), 1, None, {2: Node(Fraction(1), 1, None)})
        self.assertEqual(self.lines(self.tree(root)), ["Question 1", "2 | 100.00 % | 1 | 1 run"])

    def test_a_part_of_a_tree(self) -> None:
        root = Node(Fraction(1, 3), 1, 3, {2: Node(Fraction(1, 3), 1, None)})
        self.assertEqual(self.lines(self.tree(root)), ["Question 1: 1 to 3", "2 | 33.33 % | 1/3 | 1 run"])

    def test_small_trees_are_open(self) -> None:
        opened = [("open" in details.attributes) for details in self.tree(tree_of([5, 10])).all("details")]
        self.assertEqual(opened, [True] * 5)
        closed = [("open" in details.attributes) for details in self.tree(tree_of([6, 10])).all("details")]
        self.assertEqual(closed, [False] * 6)


class Safe(unittest.TestCase):
    """Nothing of a program becomes a part of the page, and nothing comes from elsewhere."""

    def signs(self) -> str:
        """A page all of whose texts have signs of HTML."""
        some = [row_of(SIGNS, Fraction(1), ending=f"!{SIGNS}", transcript=f"{SIGNS}\n".encode() * 3)]
        table = table_of(some, by=(SIGNS,), program=SIGNS, options=SIGNS, answers_tree=tree_of([1]))
        return page_of(table, title=SIGNS, date=SIGNS)

    def test_signs(self) -> None:
        page = elements_of(self.signs())
        self.assertEqual(page.one("title").text, f"{SIGNS} (1 run)")
        self.assertEqual(page.one("h1").text, SIGNS)
        self.assertEqual([facts(page)[name] for name in ("Program", "Options", "Date")], [SIGNS] * 3)
        shown = rows(page)[0]
        self.assertEqual(shown.one("b").text, SIGNS)
        self.assertEqual(shown.one("i").text, f"!{SIGNS}")
        self.assertEqual(shown.one("small").text, f"{SIGNS}\n{SIGNS}")
        self.assertEqual(shown.one("pre").text, f"\n{SIGNS}\n" + f"{SIGNS}\n" * 2)
        self.assertIn(SIGNS, shown.one("code").text)
        self.assertEqual(page.one("section", "tree").one("q").text, SIGNS)
        self.assertEqual(page.one("p", "head").one("span", "w").text, SIGNS)

    def test_nothing_from_elsewhere(self) -> None:
        for page in (self.signs(), page_of(doors())):
            named = re.findall(r'(?:src|href|action|data)=["\']?([^"\' >]*)', page)
            self.assertEqual(named, ["data:,"])
            self.assertEqual(re.findall(r"url\(|@import|https?:", page), [])

    def test_the_only_script_is_that_of_the_page(self) -> None:
        page = elements_of(self.signs())
        script = page.one("script").text
        digest = base64.b64encode(hashlib.sha256(script.encode()).digest()).decode()
        policies = [meta for meta in page.all("meta") if meta.attributes.get("http-equiv")]
        self.assertEqual(len(policies), 1)
        policy = policies[0].attributes["content"] or ""
        self.assertIn("default-src 'none'", policy)
        self.assertIn(f"script-src 'sha256-{digest}'", policy)


class FromReports(unittest.TestCase):
    """The page that tools/outcomes makes of reports."""

    def test_page(self) -> None:
        reports = b"RUN 1/2 END 2 2\nA\n\nRUN 2/2,1/3 STOP 4 2\nB\n\nRUN 2/2,2/3 END 4 2\nA\n\nRUN 2/2,3/3 END 4 2\nA\n\n"
        with tempfile.TemporaryDirectory() as folder:
            file = os.path.join(folder, "page.html")
            words = [f"{ROOT}/tools/outcomes", "--by", "last-line", "--program", "a&b.bas", "--html", file]
            subprocess.run(words, input=reports, check=True)
            with open(file, encoding="utf-8") as page:
                elements = elements_of(page.read())
        found = [(cell(it, "p"), cell(it, "f"), it.one("b").text, cell(it, "n")) for it in rows(elements)]
        self.assertEqual(found, [("83.33 %", "5/6", "A", "3 runs"), ("16.67 %", "1/6", "B", "1 run")])
        self.assertEqual(elements.one("title").text, "Outcomes of a&b.bas (4 runs)")
        self.assertEqual(rows(elements)[1].one("code").text, "ptb --answers 2,1 'a&b.bas'")
        questions = [it.text for it in elements.one("section", "tree").all("li", "q")]
        self.assertEqual(questions, ["Question 1: 1 to 2", "Question 2: 1 to 3"])


class Size(unittest.TestCase):
    """A page is small, whatever the table."""

    def test_many_runs(self) -> None:
        page = page_of(throws())
        self.assertLess(len(page.encode()), MOST_BYTES)
        elements = elements_of(page)
        self.assertEqual(len(rows(elements)), MOST_ROWS)
        self.assertEqual(elements.one("p", "rest").text, "and 99,000 more outcomes, 99.00 %")
        self.assertTrue(all(len(list(shown.all("pre"))) == 2 for shown in rows(elements)))
        self.assertGreater(len(page.encode()), MOST_BYTES * 3 // 4)

    def test_texts_are_not_cut_if_there_is_room(self) -> None:
        some = [row_of(f"{number}", Fraction(1, 100), transcript=b"x" * 4096) for number in range(100)]
        self.assertNotIn("left out", page_of(table_of(some)))

    def test_long_texts(self) -> None:
        page = page_of(worst())
        self.assertLess(len(page.encode()), MOST_BYTES)
        self.assertGreater(len(rows(elements_of(page))), MOST_ROWS // 5)
        self.assertIn("more outcomes, ", page)


if __name__ == "__main__":
    unittest.main()
