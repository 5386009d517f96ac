"""Reads the bytes of a listing as lines with numbers: bytes of tapes and editors, prompts, wrapped and unnumbered lines."""

from __future__ import annotations

import re
from dataclasses import dataclass
from typing import List, Tuple

from .notes import Kind, Note

LARGEST_NUMBER = 32767
BYTES_TO_A_HIGH_ONE = 5  # on a tape at most
MARKS = {"“": '"', "”": '"', "‘": "'", "’": "'", "–": "-", "−": "-", "—": "-", "\u00a0": " ", "≠": "<>", "≤": "<=", "≥": ">="}
SPOKEN = re.compile(r"(NEW|LIST|RUN|OK|READY|SCR|SCRATCH|BYE|LOAD.*|SAVE.*)$", re.IGNORECASE)
NUMBERED = re.compile(r"[>*\]]?\s*(\d+)\s*(.*)", re.DOTALL)
WORD = re.compile(
    r"(\d+\s*)?(LET|IF|GO\s?TO|GO\s?SUB|RETURN|REM|FOR|NEXT|INPUT|PRINT|PR|IN|P\.|STOP|END|READ|DATA|DIM|DEF|ON|\?|'"
    r"|RESTORE|RET|NXT|[A-Z][A-Z0-9$%]*\s*(\(.*\))?\s*=|@\s*\(|[A-Z]{1,5}\.|RANDOMIZE|CLS|HOME|CLEAR|WHILE|POKE)",
    re.IGNORECASE,
)


@dataclass(frozen=True)
class Line:
    """A line of the listing: its number, and its text without it."""

    number: int
    text: str


class NoListing(Exception):
    """Why a file is no listing."""


def unparitied(data: bytes) -> bytes:
    """The bytes without the parity bits of a punched tape, which a good part of its bytes have."""
    high = sum(byte > 127 for byte in data)
    return bytes(byte & 127 for byte in data) if high * BYTES_TO_A_HIGH_ONE > len(data) else data


def decoded(data: bytes) -> Tuple[str, List[Note]]:
    """The text of the bytes of a listing, in letters that a program may have, and what was changed."""
    notes: List[Note] = []
    if data[:2] in (b"\xff\xfe", b"\xfe\xff"):
        text = data.decode("utf-16", "replace")
        notes.append(Note(None, Kind.CHANGED, "letters of 16 bits are letters of 8 bits"))
    else:
        plain = data[3:] if data[:3] == b"\xef\xbb\xbf" else data
        try:
            text = plain.decode("utf-8")
        except UnicodeDecodeError:
            text = unparitied(plain).decode("latin-1")
            notes.append(Note(None, Kind.CHANGED, "parity bits and other letters of 8 bits are dropped"))
    for mark, ascii_mark in MARKS.items():
        text = text.replace(mark, ascii_mark)
    text = re.sub("\r\n?", "\n", text).replace("\t", " ")
    clean = "".join(re.sub("[^\n -~]", "" if letter < " " or letter == "\x7f" else "?", letter) for letter in text)
    if clean != text:
        notes.append(Note(None, Kind.CHANGED, "characters that no program may have are dropped, or ? in strings"))
    return clean, notes


def pieces(text: str) -> Tuple[List[Tuple[str, str]], List[Note]]:
    """The lines as numbers, empty where there is none, and texts. Wrapped lines are joined."""
    rows = [row.rstrip() for row in text.split("\n")]
    spoken = [row for row in rows if SPOKEN.match(row.strip(">*] "))]
    kept = [row for row in rows if row.strip(">*] ") and row not in spoken]
    with_numbers = bool(kept) and NUMBERED.match(kept[0].strip()) is not None
    found: List[Tuple[str, str]] = []
    notes = [Note(None, Kind.CHANGED, f"{row} is left out") for row in spoken]
    for row in kept:
        numbered = NUMBERED.match(row.strip()) if with_numbers else None
        if numbered:
            found.append((numbered[1], numbered[2]))
        elif with_numbers:
            number, start = found[-1]
            found[-1] = (number, joined(start, row))
            notes.append(Note(int(number), Kind.CHANGED, "a wrapped line is joined to the line above"))
        else:
            found.append(("", row.strip()))
    return found, notes


def joined(start: str, row: str) -> str:
    """A line that was wrapped: in a string with the blank that starts its second row, and elsewhere with one blank."""
    in_string = start.count('"') % 2 == 1
    return start + (" " if row.startswith(" ") or not in_string else "") + row.strip()


def looks_like_listing(found: List[Tuple[str, str]]) -> bool:
    """Whether at least half of the lines start with what a statement starts with."""
    return bool(found) and 2 * sum(WORD.match(text) is not None for _, text in found) >= len(found)


def read(data: bytes) -> Tuple[List[Line], List[Note]]:
    """The lines of a listing, in the order of their numbers, and what was changed."""
    text, notes = decoded(data)
    found, changes = pieces(text)
    if not looks_like_listing(found):
        first = next((it for it in (f"{number} {line}".strip() for number, line in found) if it), "")
        raise NoListing(f"it has no statements of BASIC; its first line is {first[:40]!r}" if first else "it is empty")
    if not all(number for number, _ in found):
        numbers = range(10, 10 * len(found) + 1, 10)
        lines = {number: line for number, (_, line) in zip(numbers, found)}
        changes.append(Note(None, Kind.CHANGED, "lines without numbers have numbers"))
    else:
        lines = {int(number): line for number, line in found}
    return [Line(number, line) for number, line in sorted(lines.items()) if line], notes + changes
