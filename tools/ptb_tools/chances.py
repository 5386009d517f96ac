"""The table that ptb --chances prints: each result of runs, with its chance and the number of its runs.

A row is a line with the chance as a fraction, the number of runs, how they ended and the number of
bytes of their last line, then that line. The results rise: by their endings, then by their lines.
"""

from __future__ import annotations

import re
from fractions import Fraction
from typing import List, NamedTuple, Tuple

from .reports import ENDINGS, LINE_END, Malformed, Result

BEGIN = b"CHANCE "
HEADER = re.compile(
    rb"CHANCE ([1-9][0-9]*)/([1-9][0-9]*) ([1-9][0-9]*) (" + ENDINGS + rb") (0|[1-9][0-9]{0,17})\n"
)
RANKS = {ending: rank for rank, ending in enumerate(b"END STOP WHAT HOW SORRY LIMIT NOINPUT".split())}
NO_ROW = "no row of a table of chances begins here"


class Chance(NamedTuple):
    """A row: the chance of a result, and the number of its runs. Its transcript is the last line alone."""

    chance: Fraction
    runs: int
    result: Result


def read(text: bytes) -> Tuple[List[Chance], int]:
    """The complete rows of a table, and the place where they end.

    Malformed is raised for bytes that are no row, and for a row that can't be there.
    """
    rows: List[Chance] = []
    place, covered = 0, Fraction(0)
    while place < len(text):
        found = HEADER.match(text, place)
        if found is None:
            check_unfinished(text, place)
            break
        end = found.end() + int(found[5])
        if end >= len(text):
            break
        if text[end] != LINE_END:
            raise Malformed(end, "the last line doesn't end where its row says")
        row = Chance(Fraction(int(found[1]), int(found[2])), int(found[3]), Result(found[4], text[found.end() : end]))
        if rows and rank_of(row) <= rank_of(rows[-1]):
            raise Malformed(place, "this row should come before the previous one")
        covered += row.chance
        if covered > 1:
            raise Malformed(place, "the chances add up to more than 1")
        rows.append(row)
        place = end + 1
    return rows, place


def rank_of(row: Chance) -> Tuple[int, bytes]:
    """The place of a row in the order of the table."""
    return RANKS[row.result.ending], row.result.transcript


def check_unfinished(text: bytes, place: int) -> None:
    """Checks that a row may begin at this place, once it is complete."""
    begin = text[place : place + len(BEGIN)]
    if not BEGIN.startswith(begin) or b"\n" in text[place:]:
        raise Malformed(place, NO_ROW)
