"""Tables that tests make pages of, and the tree of their answers."""

from __future__ import annotations

import io
import os
import sys
from fractions import Fraction
from itertools import product

sys.dont_write_bytecode = True
ROOT = os.path.dirname(os.path.dirname(os.path.dirname(os.path.realpath(__file__))))
sys.path.insert(0, f"{ROOT}/tools")

from ptb_tools import page  # noqa: E402
from ptb_tools.tables import Node, Row, Table  # noqa: E402

TITLE, DATE = "Outcomes of a test", "2026-11-27"


def page_of(table: Table, title: str = TITLE, date: str = DATE) -> str:
    """The page of a table."""
    out = io.BytesIO()
    page.write(table, out, title=title, date=date)
    return out.getvalue().decode()


def table_of(rows: list[Row], **changes: object) -> Table:
    """A complete table of these rows by their last lines, with changes."""
    fields: dict[str, object] = {
        "rows": rows,
        "by": ("last-line",),
        "runs": sum(row.runs for row in rows),
        "outcomes": len(rows),
        "covered": sum((row.chance for row in rows), Fraction(0)),
        "partial": False,
        "sampled": False,
        "program": None,
        "options": None,
        "answers_tree": None,
    }
    return Table(**{**fields, **changes})  # type: ignore[arg-type]


def row_of(label: str, chance: Fraction, **changes: object) -> Row:
    """The row of a run that shows this line and gets the answer 1, with changes. `first` has the
    answers of the run, and `first_bounds` their bounds, if they are known."""
    fields: dict[str, object] = {
        "key": (label,),
        "ending": "END",
        "chance": chance,
        "runs": 1,
        "answers": spelled(changes.pop("first", (1,)), changes.pop("first_bounds", None)),
        "transcript": f"{label}\n".encode("latin-1"),
    }
    return Row(**{**fields, **changes})  # type: ignore[arg-type]


def spelled(answers: tuple[int, ...], bounds: tuple[int, ...] | None) -> bytes:
    """Answers as a report spells them."""
    items = zip(answers, bounds) if bounds else ((answer,) for answer in answers)
    return (",".join("/".join(map(str, item)) for item in items) or "none").encode()


def tree_of(bounds: list[int], chance: Fraction = Fraction(1)) -> Node:
    """The tree of a program that always asks questions with these bounds."""
    if not bounds:
        return Node(chance, 1, None)
    bound, rest = bounds[0], bounds[1:]
    children = {answer: tree_of(rest, chance / bound) for answer in range(1, bound + 1)}
    return Node(chance, sum(child.runs for child in children.values()), bound, children)


def doors() -> Table:
    """The three doors of examples/doors.bas, whose chances are well known."""
    asked = "YOUR DOOR, 1 TO 3:1\nI OPEN DOOR {}: NOTHING.\nDO YOU CHANGE TO THE OTHER:Y\n{}\n"
    won, lost = "THE PRIZE IS YOURS!", "NO. THE PRIZE IS BEHIND DOOR 1"
    rows = [
        row_of(won, Fraction(2, 3), ending="STOP", runs=2, first=(2,), first_bounds=(3,),
               transcript=asked.format(3, won).encode()),
        row_of(lost, Fraction(1, 3), runs=2, first=(1, 1), first_bounds=(3, 2),
               transcript=asked.format(2, lost).encode()),
    ]
    tree = tree_of([3])
    tree.children[1] = tree_of([2], Fraction(1, 3))
    tree.runs = 4
    return table_of(rows, program="examples/doors.bas", options="--choose 8", answers_tree=tree)


def throws(questions: int = 5, bound: int = 10, lines: int = 20) -> Table:
    """Every run of a program that throws dice and shows many lines; each run is an outcome."""
    chance = Fraction(1, bound**questions)
    lists = product(range(1, bound + 1), repeat=questions)
    rows = [
        row_of(f"THE SUM IS {sum(answers)}", chance, first=answers, first_bounds=(bound,) * questions,
               transcript=transcript_of_throws(answers, lines))
        for answers in lists
    ]
    return table_of(rows, by=("outcome",), program="throws.bas", answers_tree=tree_of([bound] * questions))


def transcript_of_throws(answers: tuple[int, ...], lines: int) -> bytes:
    """What a run of `throws` shows."""
    thrown = [f"THROW {throw + 1} SHOWS {answer}\n" for throw, answer in enumerate(answers)]
    return "".join(["LET US THROW SOME DICE\n" * lines, *thrown, f"THE SUM IS {sum(answers)}\n"]).encode()


def worst() -> Table:
    """A table whose page would be as large as can be: every text is long, and is longer as HTML."""
    signs = "&<\"'" * 4_000
    rows = [
        row_of(signs, Fraction(1_500 - row, 7**450), ending="HOW", runs=10**30 + row,
               first=tuple(range(1, 3_000)), first_bounds=None, transcript=f"{signs}\n".encode() * 3 + b"%d" % row)
        for row in range(1_500)
    ]
    tree = tree_of([12, 12, 12, 12], Fraction(1, 3**400))
    names = {"program": f"{signs[:900]}.bas", "options": f"--choose {signs[:900]}"}
    by = ("outcome", "last-line", f"match:{signs}")
    rows = [row._replace(key=row.key * 3) for row in rows]
    return table_of(rows, by=by, partial=True, answers_tree=tree, **names)
