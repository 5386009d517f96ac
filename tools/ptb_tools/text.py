"""The table of outcomes on a terminal."""

from __future__ import annotations

from fractions import Fraction
from functools import lru_cache
from itertools import groupby
from operator import attrgetter
from typing import TYPE_CHECKING, Dict, Iterator, List, Sequence, TextIO

if TYPE_CHECKING:
    from .tables import Row, Table

LEAST_SHOWN = Fraction(1, 20000)  # a smaller chance would be shown as 0.00 %
WIDTH_OF_BARS = 30
MOST_COLUMNS = 8  # of a table of two ways, and so many characters above each:
WIDTH_OF_A_HEAD = 24
NOTHING_SHOWN = "(nothing is shown)"
# Reports don't distinguish the answers to RND from those of --choose, so this is said of both.
EVEN_ANSWERS = "Answers count as equally likely, also those that --choose gives instead of lines."
SAMPLED = "These runs are sampled: in 95 of 100 samples the interval contains the true chance."
TWO_WAYS = "Each number is the {} of its row and its column together."


def percent_of(chance: Fraction) -> str:
    """A chance in percent with two places; never 0 nor 100 if the chance is neither."""
    if 0 < chance < LEAST_SHOWN:
        return "<0.01 %"
    if 1 - LEAST_SHOWN < chance < 1:
        return ">99.99 %"
    hundredths = round(10_000 * chance)
    if 0 < chance < 1:
        hundredths = min(max(hundredths, 1), 9_999)
    return f"{hundredths // 100}.{hundredths % 100:02d} %"


@lru_cache(maxsize=4096)
def count_of(number: int, noun: str) -> str:
    """A number with its noun, as `1 run` and `3,200 runs`."""
    return f"{number:,} {noun}{'' if number == 1 else 's'}"


def readable(transcript: bytes) -> str:
    """A transcript as text. Byte 13, which would move the cursor, is spelled `\\r`."""
    return transcript.decode("latin-1").replace("\r", "\\r")


def last_line(transcript: bytes) -> bytes:
    """The last line of a transcript that isn't empty."""
    return transcript.rstrip(b"\n").rpartition(b"\n")[2]


# ---- what is above and below a table


def summary_of(table: Table) -> str:
    """How many runs and outcomes there are, and whether these are all of a tree."""
    runs = count_of(table.runs, "sampled run" if table.sampled else "run")
    summary = f"{runs}, {groups_of(table)}"
    if not table.partial:
        return summary
    if table.sampled:
        return f"{summary}; this is a part of the sample"
    return f"{summary}; this is a part of the tree: {table.covered} of it"


def groups_of(table: Table) -> str:
    """How many values each grouping has."""
    if len(table.by) == 1:
        return counted(table.outcomes, table.by[0])
    return " by ".join(counted(len({row.key[at] for row in table.rows}), by) for at, by in enumerate(table.by))


def counted(number: int, grouping: str) -> str:
    """So many values of a grouping."""
    kind, _, detail = grouping.partition(":")
    if kind == "answer":
        return f"{count_of(number, 'answer')} to question {detail}"
    return count_of(number, "group" if kind == "match" else kind.replace("-", " "))


def notes_on(table: Table, left: int) -> Iterator[str]:
    """What is below a table: how many outcomes aren't shown, and what the chances rest on."""
    if left:
        yield f"and {left:,} more"
    if len(table.by) > 1:
        yield TWO_WAYS.format("share" if table.sampled else "chance")
    if table.sampled:
        yield SAMPLED
    elif table.has_questions:
        yield EVEN_ANSWERS


# ---- rows


def write(table: Table, out: TextIO) -> None:
    """Writes a table for people."""
    out.write(f"{summary_of(table)}\n")
    if len(table.by) == 1:
        left = table.outcomes - len(table.rows)
        write_rows(table, out)
    else:
        left = 0
        write_two_ways(table, out)
    out.writelines(f"\n{note}\n" for note in notes_on(table, left))


def write_rows(table: Table, out: TextIO) -> None:
    """A line for each row, and below it what the first run showed if the rows are outcomes."""
    # many rows have the same chance as a rule
    ranks = [list(rows) for _, rows in groupby(table.rows, attrgetter("chance"))]
    width = max(len(exactly(rank[0], table)) for rank in ranks)
    greatest = table.rows[0].chance
    for rank in ranks:
        chance, exact = rank[0].chance, exactly(rank[0], table)
        bar = "#" * max(1, round(WIDTH_OF_BARS * chance / greatest))
        begin = f"{percent_of(chance):>8}  {exact:>{width}}  {bar:<{WIDTH_OF_BARS}}"
        out.writelines(lines_of(row, table.by[0], begin) for row in rank)


def lines_of(row: Row, grouping: str, begin: str) -> str:
    """The lines of a row, of which the first one begins so."""
    line = f"{begin}  {title_of(row, grouping)}, {count_of(row.runs, 'run')}\n"
    return f"\n{line}{framed(row.transcript or b'')}" if grouping == "outcome" else line


def exactly(row: Row, table: Table) -> str:
    """The chance of a row as a fraction; of a sampled row, its interval."""
    if not table.sampled:
        return str(row.chance)
    least, greatest = table.interval(row)
    return f"{100 * least:.2f} to {100 * greatest:.2f} %"


def title_of(row: Row, grouping: str) -> str:
    """What the runs of a row have in common, in one line."""
    if grouping == "outcome":
        return row.ending
    return label_of(row.key[0], grouping)


def label_of(label: str, grouping: str) -> str:
    """A label of a grouping as it is shown."""
    if grouping in ("last-line", "outcome"):
        return label.replace("\r", "\\r") or NOTHING_SHOWN
    if grouping.startswith("answer:"):
        return f"answer {label}" if label != "none" else "no answer"
    return label


def framed(transcript: bytes) -> str:
    """The lines of a transcript as they are in a table."""
    lines = readable(transcript).split("\n")
    if not lines[-1]:
        lines.pop()
    return "".join([f"    | {line}".rstrip() + "\n" for line in lines])


# ---- two ways


def write_two_ways(table: Table, out: TextIO) -> None:
    """A table with a row for each value of the first grouping, and a column for each of the second."""
    rows = totals_of(table.rows, 0)
    columns = totals_of(table.rows, 1)
    cells = {row.key: row.chance for row in table.rows}
    shown = list(columns)[: MOST_COLUMNS if len(columns) <= MOST_COLUMNS else MOST_COLUMNS - 1]
    heads = [cut(label_of(label, table.by[1])) for label in shown]
    heads += ["others"] if len(shown) < len(columns) else []
    lines = [["", *heads, "all"]]
    for label, total in [*rows.items(), (None, sum(rows.values(), Fraction(0)))]:
        known = [columns[it] if label is None else cells.get((label, it), Fraction(0)) for it in shown]
        rest = [total - sum(known, Fraction(0))] if len(shown) < len(columns) else []
        head = "all" if label is None else label_of(label, table.by[0])
        lines.append([cut(head), *map(percent_of, [*known, *rest, total])])
    widths = [max(map(len, column)) for column in zip(*lines)]
    out.write("\n")
    for first, *others in lines:
        texts = [f"{first:<{widths[0]}}", *(f"{it:>{size}}" for it, size in zip(others, widths[1:]))]
        out.write("  ".join(texts).rstrip() + "\n")


def totals_of(rows: Sequence[Row], at: int) -> Dict[str, Fraction]:
    """The chance of each label of a grouping, the likeliest first, and then in the order of runs."""
    totals: Dict[str, Fraction] = {}
    for row in sorted(rows, key=lambda row: row.first):
        totals[row.key[at]] = totals.get(row.key[at], Fraction(0)) + row.chance
    return dict(sorted(totals.items(), key=lambda it: -it[1]))


def cut(text: str) -> str:
    """A text that is short enough for a head."""
    return text if len(text) <= WIDTH_OF_A_HEAD else f"{text[: WIDTH_OF_A_HEAD - 3]}..."
