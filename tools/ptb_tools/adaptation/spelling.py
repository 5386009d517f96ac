"""Writes expressions in Tiny BASIC, with the parentheses that they need and no others."""

from __future__ import annotations

from .lines import LARGEST_NUMBER
from .notes import ByHand
from .trees import COMPARISONS, Binary, Call, Element, Name, Number, Unary

COMPARISON, SUM, PRODUCT, FACTOR = range(4)


def in_parentheses(text: str, needed: bool) -> str:
    """The text, in parentheses if they are needed."""
    return f"({text})" if needed else text


def spelled(tree: object, level: int = COMPARISON) -> str:
    """A tree in Tiny BASIC, at a place for trees of at least this level."""
    if isinstance(tree, Number):
        return spelled_number(tree, level)
    if isinstance(tree, Name):
        return tree.name
    if isinstance(tree, Element):
        return f"@({spelled(tree.indices[0])})"
    if isinstance(tree, Call):
        return tree.name + (f"({spelled(tree.arguments[0])})" if tree.arguments else "")
    if isinstance(tree, Unary):
        return in_parentheses(f"-{spelled(tree.operand, PRODUCT)}", level > SUM)
    if isinstance(tree, Binary):
        return spelled_operation(tree, level)
    raise ByHand("a value that is no number")


def spelled_number(tree: Number, level: int) -> str:
    """A whole number of the range."""
    value = tree.value
    if value.denominator != 1:
        raise ByHand(f"a fraction: {float(value):g}")
    if abs(value) > LARGEST_NUMBER:
        raise ByHand(f"the number {value.numerator} is above {LARGEST_NUMBER}")
    return in_parentheses(str(value.numerator), value < 0 and level > SUM)


def spelled_operation(tree: Binary, level: int) -> str:
    """Two operands with their operator."""
    if tree.sign in COMPARISONS:
        return in_parentheses(f"{spelled(tree.left, SUM)}{tree.sign}{spelled(tree.right, SUM)}", level > COMPARISON)
    if tree.sign in ("+", "-"):
        return in_parentheses(f"{spelled(tree.left, SUM)}{tree.sign}{spelled(tree.right, PRODUCT)}", level > SUM)
    return in_parentheses(f"{spelled(tree.left, PRODUCT)}{tree.sign}{spelled(tree.right, FACTOR)}", level > PRODUCT)
