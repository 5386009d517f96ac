"""The page of a table of outcomes: one file for a browser, which needs nothing else and no network.

page.html is its frame, page.css its style and page.js its script. Everything can be read without the
script; it adds search, sorting, and the choice between the table and the tree of answers.

A page has fewer than MOST_BYTES bytes, whatever the table. It has the likeliest rows and the first
levels of the tree. Long texts are cut, with a note, to the greatest length with which the page is
small enough.
"""

from __future__ import annotations

import base64
import hashlib
import os
import shlex
from dataclasses import dataclass
from fractions import Fraction
from heapq import nlargest
from html import escape
from math import log10
from string import Template
from typing import BinaryIO, Iterator

from .tables import Node, Row, Table
from .text import count_of, label_of, percent_of

MOST_BYTES = 1_000_000
MOST_ROWS = 1_000
MOST_BYTES_OF_A_TRANSCRIPT = 4_096
MOST_NODES = 2_000  # of the tree, with the lines for answers that are left out
MOST_LEVELS = 40
LEAST_SIBLINGS = 10  # a level that is shown in part has at least so many answers of each question
CHARACTERS_OF_A_TITLE = 60  # at the end of a run
NODES_SHOWN_OPEN = 60  # a tree of more nodes is shown with the first question alone
CHARACTERS_OF_A_HEADING = 300  # of the title, the program and the options
COLUMNS_OF_A_FRACTION = 21
DIGITS_OF_A_NUMBER = 15
LINES_OF_A_PREVIEW = 2

ENDINGS = {
    "END": "ends after its last statement",
    "STOP": "ends with STOP",
    "WHAT": "ends with the fault WHAT?",
    "HOW": "ends with the fault HOW?",
    "SORRY": "ends with the fault SORRY",
    "LIMIT": "stops at the limit of commands",
    "NOINPUT": "ends at an INPUT that finds no line",
}
EXPECTED_ENDINGS = ("END", "STOP")
# Bytes that a browser drops or refuses are spelled as in programs; a newline stays.
SPELLED = {code: f"\\x{code:02x}" for code in (*range(32), *range(127, 160)) if code != 10}
SPELLED[13] = "\\r"
SUPERSCRIPTS = str.maketrans("-0123456789", "⁻⁰¹²³⁴⁵⁶⁷⁸⁹")


@dataclass(frozen=True)
class Room:
    """How much of a table a page shows: rows, and of each row the bytes of its transcript and of its
    command, the characters of a line, and the digits of a fraction."""

    rows: int
    transcript: int
    command: int
    line: int
    digits: int


def room_of(rows: int, transcript: int) -> Room:
    """The room for so many rows with transcripts of so many bytes."""
    line = 160 if transcript >= 512 else 80
    return Room(rows, transcript, max(200, transcript // 2), line, transcript // 10)


# The first of these with which a page is small enough is taken; with the last one every page is.
SIZES = (MOST_BYTES_OF_A_TRANSCRIPT, 3072, 2048, 1536, 1024, 768, 512, 384, 256, 128, 0)
ROOMS = [*(room_of(MOST_ROWS, size) for size in SIZES), room_of(MOST_ROWS // 2, 0), room_of(MOST_ROWS // 4, 0)]


def write(table: Table, out: BinaryIO, *, title: str, date: str) -> None:
    """Writes the page of a table, with a title and the date of the listing, which is shown as it is."""
    tree = tree_of(table)
    pieces = {
        **head_of(table, title, date),
        "tree": tree,
        "no_views": "" if tree else " hidden",
        "remarks": "\n".join(remarks_on(table)),
    }
    frame = Template(part("page.html"))
    likeliest = nlargest(MOST_ROWS, table.rows, key=lambda row: row.chance)
    for room in ROOMS:
        page = frame.substitute(pieces, **rows_of(table, likeliest[: room.rows], room)).encode()
        if len(page) < MOST_BYTES:
            break
    out.write(page)


def part(name: str) -> str:
    """The text of page.html, page.css or page.js."""
    with open(os.path.join(os.path.dirname(__file__), name), encoding="utf-8") as file:
        return file.read()


# ---- the head


def head_of(table: Table, title: str, date: str) -> dict[str, str]:
    """Style, script, titles, what is known of the listing, and the notices."""
    style, script = part("page.css"), part("page.js")
    digest = base64.b64encode(hashlib.sha256(script.encode()).digest()).decode()
    shown = cut_line(title, CHARACTERS_OF_A_HEADING)
    marks = [count(table.runs, "run")] + [kind for kind in ("partial", "sampled") if getattr(table, kind)]
    return {
        "policy": "default-src 'none'; img-src data:; style-src 'unsafe-inline'; "
        f"script-src 'sha256-{digest}'",
        "style": style,
        "script": script,
        "title": escape(f"{shown} ({', '.join(marks)})"),
        "heading": escape(shown),
        "facts": "\n".join(facts_of(table, date)),
        "notices": "\n".join(notices_on(table)),
        "share": "Share" if table.sampled else "Chance",
        "exactly": "95 % interval" if table.sampled else "Fraction",
        "grouping": escape(head_of_labels(table.by)),
    }


def head_of_labels(by: tuple[str, ...]) -> str:
    """The groupings as they are named above the labels of rows."""
    names = ", ".join(map(name_of, by))
    return names[:1].upper() + names[1:]


def name_of(grouping: str) -> str:
    """The name of a grouping for people, as "last line" or "answer to question 2"."""
    kind, _, detail = grouping.partition(":")
    name = "answer to question" if kind == "answer" else kind.replace("-", " ")
    return cut_line(f"{name} {detail}".strip(), CHARACTERS_OF_A_HEADING)


def facts_of(table: Table, date: str) -> Iterator[str]:
    """What is known of the listing, as terms with their descriptions."""
    facts = [
        ("Program", table.program),
        ("Options", table.options),
        ("Date", date),
        ("Runs", number(table.runs)),
        ("Outcomes", number(table.outcomes)),
        ("Tree of runs", tree_word(table)),
    ]
    for term, text in facts:
        if text:
            shown = escape(cut_line(text, CHARACTERS_OF_A_HEADING))
            yield f"<div><dt>{term}</dt><dd>{shown}</dd></div>"


def tree_word(table: Table) -> str:
    """How much of the tree of runs was read."""
    if table.sampled:
        return "sampled, partial" if table.partial else "sampled"
    return f"partial: {percent_of(table.covered)}" if table.partial else "complete"


def notices_on(table: Table) -> Iterator[str]:
    """What a reader must know before the table."""
    if table.partial and table.sampled:
        yield '<p class="notice"><strong>Partial.</strong> The listing of the runs isn\'t complete.</p>'
    elif table.partial:
        covered, exact = percent_of(table.covered), short_fraction(table.covered)
        text = f"Runs are missing. The chances add up to {covered}{f' ({exact})' if exact else ''}"
        shown = escape(f"{text} instead of 100 %.").replace(" %", "&nbsp;%")
        yield f'<p class="notice"><strong>Partial.</strong> {shown}</p>'
    if table.sampled:
        yield (
            f'<p class="notice"><strong>Sampled.</strong> {count(table.runs, "run")} drawn at random. '
            "Each share is an estimate. In 95 of 100 samples the interval contains the true chance.</p>"
        )


def remarks_on(table: Table) -> Iterator[str]:
    """The remarks below the table."""
    if not table.sampled and table.has_questions:
        yield (
            "<p>All answers to a question count as equally likely, including those that --choose gives "
            "instead of lines.</p>"
        )
    if table.summed:
        yield "<p>A row opens to its exact chance. The runs were added up, and are not known one by one.</p>"
    else:
        yield (
            "<p>A row opens to the first of its runs. The command repeats that run if it is given the lines "
            "that the program read.</p>"
        )


# ---- the table


def rows_of(table: Table, shown: list[Row], room: Room) -> dict[str, object]:
    """The rows that are shown, a line for the others, and the widths of columns."""
    fractions = [exactly(row, table) for row in shown]
    rows = [row_of(row, exact, table, room) for row, exact in zip(shown, fractions)]
    return {
        "rows": "\n".join(rows),
        "rest": rest_of(table, shown),
        "columns_of_fractions": max(map(len, fractions), default=0),
        "columns_of_runs": max((len(count(row.runs, "run")) for row in shown), default=0),
    }


def rest_of(table: Table, shown: list[Row]) -> str:
    """How many outcomes are left out, and their chance."""
    left = table.outcomes - len(shown)
    if not left:
        return ""
    everything = Fraction(1) if table.sampled else table.covered
    chance = everything - sum((row.chance for row in shown), Fraction(0))
    return f'<p class="rest">and {count(left, "more outcome")}, {escape(percent_of(chance))}</p>'


def row_of(row: Row, exact: str, table: Table, room: Room) -> str:
    """A row: its chance, its bar, what happened and how many runs there are; and what it opens to."""
    title = title_of(row, table.by, room.line)
    shown = "" if table.summed else preview_of(row, table.by, room.line)
    return (
        f"<details style=--c:{float(row.chance):.6g}><summary>"
        f"<span class=p>{escape(percent_of(row.chance))}</span> <span class=f>{escape(exact)}</span> "
        f"<span class=b></span><span class=w><b>{title}</b>{badge_of(row)}"
        f"{f' <small>{escape(shown, False)}</small>' if shown else ''}</span> "
        f"<span class=n>{count(row.runs, 'run')}</span></summary>"
        f"<div class=o>{''.join(details_of(row, table, room))}</div></details>"
    )


def title_of(row: Row, by: tuple[str, ...], most: int) -> str:
    """What the runs of a row have in common; of an outcome, its last line."""
    labels = (label_of(text.strip()[: most + 1], grouping) for text, grouping in zip(row.key, by))
    return " <em>·</em> ".join(escape(cut_line(label, most), False) for label in labels)


def preview_of(row: Row, by: tuple[str, ...], most: int) -> str:
    """The last lines of the first run, without the one that is the label."""
    end = (row.transcript or b"")[-MOST_BYTES_OF_A_TRANSCRIPT:].decode("latin-1")
    lines = [line.rstrip() for line in end.split("\n") if line.strip()]
    if "outcome" in by or "last-line" in by:
        lines = lines[:-1]
    return "\n".join(cut_line(line, most) for line in lines[-LINES_OF_A_PREVIEW:])


def badge_of(row: Row) -> str:
    """How the first run ended, unless that is a usual ending or a label of the row."""
    if row.ending in EXPECTED_ENDINGS or row.ending in row.key:
        return ""
    return f" <i>{escape(row.ending)}</i>"


def exactly(row: Row, table: Table) -> str:
    """The chance of a row as a fraction, or about if that is long; the interval if it was sampled."""
    if table.sampled:
        least, greatest = table.interval(row)
        return f"{100 * least:.2f} to {100 * greatest:.2f} %"
    return short_fraction(row.chance) or about(1 / row.chance)


def about(times: Fraction) -> str:
    """A chance as "1 in 8192", rounded."""
    if times < 10**6:
        return f"about 1 in {float(times):.4g}"
    return f"about 1 in {power_of_ten(times.numerator, times.denominator)}"


def power_of_ten(above: int, below: int = 1) -> str:
    """A great number as a power of ten, as "1.27 × 10³⁰"."""
    size = log10(above) - log10(below)
    exponent = int(size)
    digits = f"{10 ** (size - exponent):.2f}"
    if digits == "10.00":
        digits, exponent = "1.00", exponent + 1
    return f"{digits} × 10{str(exponent).translate(SUPERSCRIPTS)}"


def details_of(row: Row, table: Table, room: Room) -> Iterator[str]:
    """What a row opens to: its first run, and the command that repeats it; runs that were added up have
    their exact chance alone."""
    runs = count(row.runs, "run")
    if table.summed:
        yield f"<p>{runs}."
    else:
        first = "The run" if row.runs == 1 else f"The first of {runs}"
        yield f"<p>{first} {ENDINGS.get(row.ending, escape(row.ending))}."
    if not table.sampled and not short_fraction(row.chance):
        precise = fraction(row.chance, room.digits)
        yield f" The chance is {precise}." if precise else " The fraction is too long for this page."
    yield "</p>"
    if table.summed:
        return
    if row.transcript is not None:
        yield from transcript_of(row.transcript, room.transcript)
    yield command_of(row, table, room.command)


def transcript_of(transcript: bytes, most: int) -> Iterator[str]:
    """A transcript. If it has more than so many bytes, its middle is left out."""
    if not transcript:
        yield "<p>Nothing is shown.</p>"
    elif len(transcript) <= most:
        yield framed(transcript)
    else:
        begin, end = ends_of(transcript, most)
        yield framed(begin) if begin else ""
        left = count(len(transcript) - len(begin) - len(end), "byte")
        yield f"<p>{left} of {number(len(transcript))} are left out here; the command shows them.</p>"
        yield framed(end) if end else ""


def ends_of(transcript: bytes, most: int) -> tuple[bytes, bytes]:
    """The first three quarters and the last quarter of so many bytes, in complete lines if possible."""
    begin, end = transcript[: most - most // 4], transcript[len(transcript) - most // 4 :]
    line, rest = begin.rfind(b"\n") + 1, end.find(b"\n") + 1
    return begin[:line] if line else begin, end[rest:] if 0 < rest < len(end) else end


def framed(transcript: bytes) -> str:
    """A transcript as it is shown. A browser drops a newline after <pre>, so one is added."""
    return f"<pre>\n{escape(transcript.decode('latin-1').translate(SPELLED), False)}</pre>"


def command_of(row: Row, table: Table, most: int) -> str:
    """The command that repeats the first run of a row, if it has at most so many bytes."""
    if 2 * len(row.first) <= most:  # an answer has at least a digit and a comma
        answers = ",".join(map(str, row.first)) or "none"
        program = "PROGRAM" if table.program is None else shlex.quote(table.program)
        command = " ".join(filter(None, ["ptb --answers", answers, table.options, program]))
        if len(command) <= most:
            return f"<p>Repeat it: <code>{escape(command, False)}</code></p>"
    what = f"with {count(len(row.first), 'answer')}, is too long for this page; --json has them"
    return f"<p>The command that repeats it, {what}.</p>"


# ---- the tree of answers


@dataclass(frozen=True)
class Cut:
    """What is shown of a tree: so many complete levels, which have so many nodes, and of the next
    level so many answers to each question."""

    levels: int
    nodes: int
    siblings: int

    def shown_of(self, node: Node, level: int) -> int:
        """How many answers are shown of the question after a node of this level."""
        if level < self.levels:
            return len(node.children)
        return min(self.siblings, len(node.children)) if level == self.levels else 0


def cut_of(root: Node) -> Cut:
    """The cut that shows as many levels as there is room for."""
    level, nodes = [root], 1
    for depth in range(MOST_LEVELS):
        asking = [node for node in level if node.children]
        below = sum(len(node.children) for node in asking)
        if not below or nodes + below >= MOST_NODES:
            siblings = (MOST_NODES - 1 - nodes) // len(asking) - 1 if asking else 0
            return Cut(depth, nodes, siblings if siblings >= LEAST_SIBLINGS else 0)
        nodes += below
        level = [child for node in asking for child in node.children.values()]
    return Cut(MOST_LEVELS, nodes, 0)


def tree_of(table: Table) -> str:
    """The view of the tree of answers, or nothing if the table has none or nothing was asked."""
    root = table.answers_tree
    if root is None or not root.children:
        return ""
    named = table.rows[:MOST_ROWS] if table.runs == table.outcomes else []
    writer = TreeWriter(cut_of(root), {row.first: row for row in named}, table.by)
    lines = "".join(writer.answers_to(root, ()))
    dots = " Three dots mean that more questions follow." if writer.is_cut else ""
    return (
        '<section id="tree" aria-label="Tree of answers">\n<h2>Tree of answers</h2>\n'
        f"<p>Each line is an answer, with the {'share' if table.sampled else 'chance'} of all runs that "
        f"begin with the answers down to it.{dots}</p>\n<ul>\n{lines}</ul>\n</section>"
    )


class TreeWriter:
    """Writes what is shown of a tree. If each row has one run, the runs have the titles of the rows."""

    def __init__(self, cut: Cut, rows: dict[tuple[int, ...], Row], by: tuple[str, ...]) -> None:
        self.cut, self.rows, self.by = cut, rows, by
        self.is_cut = False

    def answers_to(self, node: Node, path: tuple[int, ...]) -> Iterator[str]:
        """The answers to the question after a node: a line for each, and one for those left out."""
        shown = self.cut.shown_of(node, len(path))
        if shown:
            range_of_answers = f": 1 to {node.bound}" if node.bound else ""
            yield f"<li class=q>Question {len(path) + 1}{range_of_answers}</li>\n"
        left = node.chance
        for answer in sorted(node.children)[:shown]:
            child = node.children[answer]
            left -= child.chance
            yield f"<li>{self.line(child, (*path, answer))}</li>\n"
        hidden = len(node.children) - shown
        if shown and hidden:
            yield f"<li class=q>and {count(hidden, 'more answer')}, {escape(percent_of(left))}</li>\n"

    def line(self, node: Node, path: tuple[int, ...]) -> str:
        """An answer, with those to the next question if they are shown."""
        exact = short_fraction(node.chance)
        fraction_shown = f" <i>{exact}</i>" if exact else ""
        text = (
            f"<b>{path[-1]}</b> {escape(percent_of(node.chance))}{fraction_shown} "
            f"<i>{count(node.runs, 'run')}</i>"
        )
        bar = f"style=--c:{float(node.chance):.4g}"
        below = "".join(self.answers_to(node, path))
        if below:
            opened = " open" if self.cut.nodes <= NODES_SHOWN_OPEN else ""
            return f"<details{opened}><summary {bar}>{text}</summary><ul>\n{below}</ul></details>"
        return f"<div {bar}>{text}{self.end(node, path)}</div>"

    def end(self, node: Node, path: tuple[int, ...]) -> str:
        """What happens at the end of a run, or dots if more questions follow."""
        if node.bound is not None:
            self.is_cut = True
            return " <i>…</i>"
        row = self.rows.get(path)
        return f" <q>{title_of(row, self.by, CHARACTERS_OF_A_TITLE)}</q>" if row else ""


# ---- numbers and texts


def number(value: int) -> str:
    """A number with commas, or a power of ten if it is long."""
    return f"{value:,}" if value < 10**DIGITS_OF_A_NUMBER else power_of_ten(value)


def count(value: int, noun: str) -> str:
    """A number with its noun."""
    return count_of(value, noun) if value < 10**DIGITS_OF_A_NUMBER else f"{power_of_ten(value)} {noun}s"


def fraction(chance: Fraction, digits: int) -> str:
    """A chance as a fraction, or nothing if its denominator has more digits."""
    return str(chance) if chance.denominator < 10**digits else ""


def short_fraction(chance: Fraction) -> str:
    """A chance as a fraction, or nothing if that is too long for a column."""
    exact = fraction(chance, COLUMNS_OF_A_FRACTION)
    return exact if len(exact) <= COLUMNS_OF_A_FRACTION else ""


def cut_line(text: str, most: int) -> str:
    """A text of at most so many characters, spelled; dots are at the end of one that was cut."""
    shown = text[: most + 1].translate(SPELLED)
    return shown if len(shown) <= most else f"{shown[: most - 1]}…"
