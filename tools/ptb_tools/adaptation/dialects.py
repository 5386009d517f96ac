"""The dialects of BASIC that are known, and how the one of a listing is found out."""

from __future__ import annotations

import re
from dataclasses import dataclass, replace
from enum import Enum
from typing import List


class Random(Enum):
    """What RND gives: a fraction, a number from 0, or a number from 1."""

    FRACTION = "fraction"
    ZERO = "zero"
    ONE = "one"


@dataclass(frozen=True)
class Dialect:
    """How the statements of a listing are to be read."""

    name: str
    title: str
    separator: str  # between statements
    random: Random
    fractions: bool  # whether / gives fractions
    zone: int  # columns of a comma in PRINT
    padded: bool  # whether PRINT shows a blank before and after a number
    truth: int  # the value of a comparison that is true
    crunched: bool = False  # whether words need no blanks between them


PALO_ALTO = Dialect("palo-alto", "Palo Alto Tiny BASIC", ";", Random.ONE, False, 6, False, 1, True)
PITTMAN = Dialect("pittman", "Pittman's Tiny BASIC", ":", Random.ZERO, False, 8, False, 1)
DENVER = Dialect("denver", "Denver Tiny BASIC", ":", Random.ZERO, False, 8, False, 1)
MICROSOFT = Dialect("microsoft", "Microsoft BASIC", ":", Random.FRACTION, True, 14, True, -1)
DIALECTS = {it.name: it for it in (PALO_ALTO, PITTMAN, DENVER, MICROSOFT)}
SEPARATORS = (":", ";", "\\")

STRING = re.compile(r'"[^"]*("|$)')
REMARK = re.compile(r"(^|[:;\\])\s*REM.*", re.IGNORECASE)
FRACTION = re.compile(r"INT\s*\(|RND\s*\(\s*[01]\s*\)|RND\s*[*/+)-]|RND\s*$|\*\s*RND\b|[^0-9A-Z]\.[0-9]")
ONLY_MICROSOFT = re.compile(r"\$|\bDATA\b|\bREAD\b|\bDEF\b|\bON\b|\bINT\b|\bSQR\b|\bELSE\b|\bDIM\b|\bPOKE\b|\bAND\b|\bOR\b")
# an array @, # in a condition or for a width, INPUT with a text and no separator, several pairs in a LET
PALO_ALTO_SIGNS = re.compile(
    r"@\s*\(|[A-Z0-9)]\s*#\s*[A-Z0-9(@-]|\b(PRINT|P\.)[^:]*#\s*\d+\s*,|\bINPUT\s*\"\"\s*[A-Z]|\b[A-Z]\s*=[^:\n]*,\s*[A-Z]\s*="
)
COMMANDS = r"PRINT|P\.|GOTO|G\.|IF|I\.|LET|NEXT|N\.|GOSUB|STOP|RETURN|FOR|F\.|INPUT|REM|[A-Z]\s*="
CRUNCHED = re.compile(
    r"(^|[:;\\])\s*(FOR[A-Z]\d?=|IF\(?[A-Z]\d?[<>=#]|NEXT[A-Z]\d?\s*($|[:;,\\])|(READ|INPUT|PRINT)[A-Z]\d?\s*($|[:;,\\])"
    r"|LET[A-Z]\d?=)|\d(TO|THEN|STEP|AND|OR)[A-Z]"
)


def without_texts(line: str) -> str:
    """The text of a line without what its strings and remarks hold."""
    return REMARK.sub(r"\1", STRING.sub('""', line))


def separator_of(lines: List[str]) -> str:
    """The sign between the statements of the lines of a listing; nothing if there is none."""
    text = [re.sub(r"'[^']*'", "''", line) for line in lines]
    if any("\\" in line for line in text):
        return "\\"
    if any(":" in line for line in text):
        return ":"
    commands = r";\s*([A-Z@(]|$)"
    items = re.compile(r"(^|\bIF\b.*)\s*(P\.|PR|PRINT|\?|IN\.?|INPUT)")
    found = any(re.search(commands, line) and not items.match(line) for line in text)
    mixed = any(re.search(rf";\s*({COMMANDS})", line) for line in text)
    return ";" if found or mixed else ""


def name_of(lines: List[str], separator: str) -> str:
    """The name of the dialect of the lines of a listing."""
    text = "\n".join(lines)
    if separator == ";" or not separator and PALO_ALTO_SIGNS.search(text) and not ONLY_MICROSOFT.search(text):
        return "palo-alto"
    if re.search(r"\b(NXT|RET|SZ)\b(?!\.)|\bTB\s*\(", text):
        return "denver"
    if FRACTION.search(text) or ONLY_MICROSOFT.search(text) or re.search(r"\bFOR|TAB\s*\(|:|INPUT\s*\"", text):
        return "microsoft"
    return "pittman" if re.search(r"\bPR\b|\bRND\s*\(|><", text) else "microsoft"


def random_of(lines: List[str], dialect: Dialect) -> Random:
    """What RND gives in the lines of a listing."""
    text = "\n".join(lines)
    if dialect.random is not Random.FRACTION or FRACTION.search(re.sub(r"INT\s*\((?!.*RND)", "", text)):
        return dialect.random
    if re.search(r"\bRND\s*\(", text):
        return Random.ZERO if re.search(r"RND\s*\([^()]*\)\s*\+\s*1\b", text) else Random.ONE
    return dialect.random


def found(texts: List[str], name: str = "", separator: str = "", random: str = "") -> Dialect:
    """The dialect of a listing; a name, separator or kind of RND that isn't empty is taken as given."""
    lines = [without_texts(text).upper() for text in texts]
    sign = separator or separator_of(lines)
    dialect = DIALECTS[name or name_of(lines, sign)]
    crunched = dialect.crunched or any(CRUNCHED.search(line) for line in lines)
    dialect = replace(dialect, separator=sign or dialect.separator, crunched=crunched)
    return replace(dialect, random=Random(random) if random else random_of(lines, dialect))
