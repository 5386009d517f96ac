"""Tables of outcomes for other programs: JSON lines, which can be merged, and CSV for spreadsheets."""

from __future__ import annotations

import csv
import json
import re
from fractions import Fraction
from itertools import groupby
from operator import attrgetter
from typing import Any, Dict, Iterable, List, Optional, TextIO

from .tables import Gathering, Row, Table, grouping_of
from .text import last_line
from .tree import NO_ANSWERS, Overlap, Span, joined, values_of

FORMAT = "ptb outcomes 1"
DIGITS = 12  # of a chance as a decimal
FRACTION = re.compile("(0|[1-9][0-9]*)/([1-9][0-9]*)")
WHOLE_NUMBER = re.compile(r"\s*-?[0-9]+\s*")
DIGIT = re.compile("[0-9]")
# what a text begins with that a spreadsheet may take for a formula
FORMULA = re.compile(r"\s*[=+\-@']|[\t\r]")


class BadTable(Exception):
    """Why a file has no table that can be merged: the number of a line, from 1, and the cause."""

    def __init__(self, line: int, cause: str) -> None:
        super().__init__(f"line {line}: {cause}")


def spelled(fraction: Fraction) -> str:
    """A fraction with its denominator, even if that is 1."""
    return f"{fraction.numerator}/{fraction.denominator}"


def fraction_of(text: Any) -> Fraction:
    """The fraction that is spelled so; ValueError for anything else."""
    found = FRACTION.fullmatch(text) if isinstance(text, str) else None
    if found is None:
        raise ValueError(text)
    return Fraction(int(found[1]), int(found[2]))


# ---- JSON


def write_json(table: Table, out: TextIO) -> None:
    """Writes a line with what is known of the listing, and a line for each row."""
    head = {
        "table": FORMAT,
        "by": list(table.by),
        "runs": table.runs,
        "outcomes": table.outcomes,
        "rows": len(table.rows),
        "covered": None if table.sampled else spelled(table.covered),
        "spans": table.spans and [[spelled(start), spelled(end)] for start, end in table.spans],
        "partial": table.partial,
        "sampled": table.sampled,
        "program": table.program,
        "options": table.options,
    }
    if table.summed:
        head["summed"] = True
    out.write(json.dumps(head) + "\n")
    out.writelines(json.dumps(fields_of(row, table)) + "\n" for row in table.rows)


def fields_of(row: Row, table: Table) -> Dict[str, Any]:
    """A row as an object."""
    fields = {
        "outcome": list(row.key),
        "ending": row.ending,
        "chance": spelled(row.chance),
        "number": float(row.chance),
        "runs": row.runs,
        "first": row.answers.decode(),
        "transcript": (row.transcript or b"").decode("latin-1"),
    }
    if table.summed:
        fields["line"] = fields["transcript"]
        fields["first"] = fields["transcript"] = None
    if table.sampled:
        fields["sampled"] = True
        fields["low"], fields["high"] = table.interval(row)
    return fields


class Merge:
    """Tables that are added up. Each must be of other runs, and grouped in the same way."""

    def __init__(self) -> None:
        self._head: Optional[Dict[str, Any]] = None
        self._gathering = Gathering(())
        self._partial = False
        self._spans: Optional[List[Span]] = []

    def add(self, lines: Iterable[str]) -> None:
        """Adds the table with these lines; BadTable if it can't be added."""
        numbered = enumerate(lines, 1)
        head = head_of(next(numbered, (1, ""))[1])
        if head["rows"] != head["outcomes"]:
            raise BadTable(1, "--top has left rows out of this table")
        self._join(head)
        before, rows, chances = self._gathering.runs, 0, Fraction(0)
        total = head["runs"] if head["sampled"] else 1
        for rows, (number, line) in enumerate(numbered, 1):
            try:
                row = row_of(json.loads(line))
            except (ValueError, KeyError, TypeError, AttributeError) as error:
                raise BadTable(number, "this is no row of a table") from error
            self._gathering.add_row(row, total)
            chances += row.chance
        if rows != head["rows"] or self._gathering.runs - before != head["runs"]:
            raise BadTable(rows + (2 if rows < head["rows"] else 1), "the table isn't complete")
        if chances != (1 if head["sampled"] else sum(end - start for start, end in head["spans"])):
            raise BadTable(rows + 1, "the chances of the rows aren't those of its runs")

    def _join(self, head: Dict[str, Any]) -> None:
        """Joins what is known of the listings."""
        first = self._head
        if first is None:
            self._head = first = head
            self._gathering = Gathering([grouping_of(name) for name in head["by"]])
        for name in ("by", "sampled", "summed", "program", "options"):
            if head[name] != first[name]:
                raise BadTable(1, f"this table has another {name!r} than the first one")
        self._partial |= head["partial"]
        if head["sampled"]:
            self._spans = None
        elif head["spans"] is None:
            gaps = "is a part of a table of --chances" if head["summed"] else "has too many gaps to be merged"
            raise BadTable(1, f"this table {gaps}")
        else:
            try:
                self._spans = joined(self._spans or [], head["spans"])
            except Overlap:
                raise BadTable(1, "this table has runs that a table before it has, too") from None

    def table(self, top: Optional[int]) -> Table:
        """The sum of the tables, of which at least one was added."""
        head = self._head or {}
        outcomes = len(self._gathering.outcomes)
        rows, covered = self._gathering.rows(head["sampled"], top)
        partial = self._partial if head["sampled"] else covered != 1
        return Table(
            rows=rows,
            by=tuple(head["by"]),
            runs=self._gathering.runs,
            outcomes=outcomes,
            covered=covered,
            partial=partial,
            sampled=head["sampled"],
            program=head["program"],
            options=head["options"],
            answers_tree=None,
            spans=self._spans,
            summed=head["summed"],
        )


def head_of(line: str) -> Dict[str, Any]:
    """The first line of a table."""
    try:
        head = json.loads(line)
        if head["table"] != FORMAT:
            raise ValueError(head)
        if head["spans"] is not None:
            head["spans"] = [(fraction_of(start), fraction_of(end)) for start, end in head["spans"]]
        for name, kind in (("runs", int), ("outcomes", int), ("rows", int), ("by", list)):
            if not isinstance(head[name], kind):
                raise ValueError(name)
        for name in ("partial", "sampled"):
            head[name] = bool(head[name])
        head["summed"] = bool(head.get("summed"))
        head["program"], head["options"] = head.get("program"), head.get("options")
        list(map(grouping_of, head["by"]))
    except (ValueError, KeyError, TypeError, re.error) as error:
        raise BadTable(1, "no table of --json begins here") from error
    return head


def row_of(fields: Dict[str, Any]) -> Row:
    """The row with these fields."""
    answers = NO_ANSWERS if fields["first"] is None else fields["first"].encode()
    values_of(answers)  # ValueError if these are no answers
    if not isinstance(fields["runs"], int) or fields["runs"] < 1:
        raise ValueError(fields["runs"])
    return Row(
        tuple(fields["outcome"]),
        fields["ending"],
        fraction_of(fields["chance"]),
        fields["runs"],
        answers,
        (fields["line"] if fields["transcript"] is None else fields["transcript"]).encode("latin-1"),
    )


# ---- CSV


def write_csv(table: Table, out: TextIO) -> None:
    """Writes a header and a line for each row. A spreadsheet takes no cell for a date or a formula."""
    writer = csv.writer(out, lineterminator="\n", quoting=csv.QUOTE_ALL)
    others = [at for at, name in enumerate(table.by) if name.startswith(("answer:", "match:"))]
    head = ["numerator", "denominator", "chance", "runs"]
    if table.sampled:
        head = ["sampled numerator", "sampled denominator", "sampled share", "sampled runs", "low", "high"]
    head += ["covered", *(safe(table.by[at]) for at in others), "ending", "last line", "first run", "transcript"]
    writer.writerow(head)
    covered = "sampled" if table.sampled else decimal_of(table.covered)
    for chance, rows in groupby(table.rows, attrgetter("chance")):
        numbers = [str(chance.numerator), str(chance.denominator), decimal_of(chance)]
        for row in rows:
            bounds = [f"{it:.{DIGITS}f}" for it in table.interval(row)] if table.sampled else []
            labels = [safe(row.key[at]) for at in others]
            writer.writerow([*numbers, str(row.runs), *bounds, covered, *labels, *texts_of(row, table.summed)])


def texts_of(row: Row, summed: bool) -> List[str]:
    """Ending, last line, answers and transcript of the first run of a row; no more than its ending and
    its last line if it was added up."""
    shown = row.transcript or b""
    transcript, line = shown.decode("latin-1"), last_line(shown).decode("latin-1")
    run = ["", ""] if summed else [f"RUN {row.answers.decode()}", safe(transcript)]
    return [row.ending, safe(line), *run]


def decimal_of(chance: Fraction) -> str:
    """A chance as a decimal."""
    scaled = round(chance * 10**DIGITS)
    return f"{scaled // 10**DIGITS}.{scaled % 10**DIGITS:0{DIGITS}d}"


def safe(text: str) -> str:
    """A text that a spreadsheet takes for nothing else.

    An apostrophe is put before a text with a digit, except a whole number, and before one that begins
    as a formula does or with an apostrophe.
    """
    if WHOLE_NUMBER.fullmatch(text):
        return text
    return f"'{text}" if FORMULA.match(text) or DIGIT.search(text) else text
