"""The trees of expressions and statements of a listing, and how they are searched."""

from __future__ import annotations

from dataclasses import dataclass, fields, is_dataclass
from fractions import Fraction
from typing import Iterator, Optional, Tuple


@dataclass(frozen=True)
class Number:
    """A number as it is written."""

    value: Fraction


@dataclass(frozen=True)
class Text:
    """A string, with the quote around it."""

    text: str
    quote: str = '"'


@dataclass(frozen=True)
class Name:
    """A variable."""

    name: str


@dataclass(frozen=True)
class Element:
    """An element of an array, or a call of a function that DEF defines."""

    name: str
    indices: Tuple[object, ...]


@dataclass(frozen=True)
class Call:
    """A call of a function of the language; without arguments where no parenthesis follows."""

    name: str
    arguments: Tuple[object, ...]


@dataclass(frozen=True)
class Unary:
    """A sign or NOT, and its operand."""

    sign: str
    operand: object


@dataclass(frozen=True)
class Binary:
    """Two operands and the operator between them. Comparisons are those of Tiny BASIC."""

    sign: str
    left: object
    right: object


@dataclass(frozen=True)
class Uniform:
    """A random fraction from 0 to below 1."""


@dataclass(frozen=True)
class Item:
    """An item of PRINT or INPUT and the separator after it: `;`, `,` or nothing."""

    value: object
    after: str = ""


@dataclass(frozen=True)
class Blanks:
    """TAB or SPC: blanks up to a column, or a number of blanks."""

    word: str
    count: object


@dataclass(frozen=True)
class Width:
    """`#` and a width, in PRINT."""

    width: object


@dataclass(frozen=True)
class Return:
    """`_`, which shows a byte 13."""


@dataclass(frozen=True)
class Statement:
    """A statement: its word, its parts, and for IF the statements of its two branches."""

    word: str
    parts: Tuple[object, ...] = ()
    then: Tuple["Statement", ...] = ()
    other: Optional[Tuple["Statement", ...]] = None


COMPARISONS = (">=", "#", ">", "=", "<=", "<")
LOGICAL = ("AND", "OR")
MIRRORED = {">=": "<=", "<=": ">=", ">": "<", "<": ">", "=": "=", "#": "#"}
NEGATED = {">=": "<", "<": ">=", ">": "<=", "<=": ">", "=": "#", "#": "="}
ONE = Number(Fraction(1))
ZERO = Number(Fraction(0))


def number(value: int) -> Number:
    """The tree of a whole number."""
    return Number(Fraction(value))


def walk(tree: object) -> Iterator[object]:
    """The tree and all trees in it, from left to right."""
    if isinstance(tree, tuple):
        for part in tree:
            yield from walk(part)
    elif is_dataclass(tree):
        yield tree
        for field in fields(tree):
            yield from walk(getattr(tree, field.name))


def is_truth(tree: object) -> bool:
    """Whether the value of a tree is that of a comparison."""
    if isinstance(tree, Unary):
        return tree.sign == "NOT"
    return isinstance(tree, Binary) and tree.sign in COMPARISONS + LOGICAL


def is_random(tree: object) -> bool:
    """Whether a tree asks for a random number."""
    return any(isinstance(it, Uniform) or (isinstance(it, Call) and it.name in ("RND", "RN")) for it in walk(tree))
