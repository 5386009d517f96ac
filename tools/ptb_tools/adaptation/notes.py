"""What is reported about a listing: what was changed, what may mean something else, and what is left to a person."""

from __future__ import annotations

from dataclasses import dataclass
from enum import Enum
from typing import Dict, List, Optional

SHOWN_LINES = 6


class Kind(Enum):
    """What a note says about its line."""

    CHANGED = "changed"
    MEANING = "meaning may change"
    BY_HAND = "rewrite by hand"


@dataclass(frozen=True)
class Note:
    """A note on a line of the listing; the line is None where the note is about the complete listing."""

    line: Optional[int]
    kind: Kind
    text: str


class ByHand(Exception):
    """Why a person must rewrite a line."""


def numbered(lines: List[int]) -> str:
    """Line numbers as they are shown, the first few of them by number."""
    shown = ", ".join(str(line) for line in lines[:SHOWN_LINES])
    more = len(lines) - SHOWN_LINES
    word = "line" if len(lines) == 1 else "lines"
    return f"{word} {shown}" + (f" and {more} more" if more > 0 else "")


def changes(notes: List[Note]) -> List[str]:
    """A line for each kind of change, with the lines of the listing that it is about."""
    places: Dict[str, Dict[int, None]] = {}
    for note in notes:
        if note.kind is Kind.CHANGED:
            lines = places.setdefault(note.text, {})
            if note.line is not None:
                lines.setdefault(note.line)
    return [f"changed: {text}" + (f" ({numbered(list(lines))})" if lines else "") for text, lines in places.items()]


def remarks(notes: List[Note]) -> List[str]:
    """A line for each other note, once, in the order of the listing."""
    found: Dict[str, None] = {}
    for note in notes:
        place = "" if note.line is None else f"line {note.line}: "
        if note.kind is not Kind.CHANGED:
            found.setdefault(f"{place}{note.kind.value}: {note.text}")
    return list(found)
