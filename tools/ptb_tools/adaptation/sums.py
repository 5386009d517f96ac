"""Builds sums, products and quotients of trees, with their constants added up."""

from __future__ import annotations

from fractions import Fraction
from math import gcd
from typing import List, Tuple

from .trees import ONE, ZERO, Binary, Call, Element, Name, Number, Unary

Terms = List[Tuple[int, object]]


def terms_of(tree: object, sign: int = 1) -> Tuple[Terms, Fraction]:
    """The terms of a sum with their signs, and its constant."""
    if isinstance(tree, Number):
        return [], sign * tree.value
    if isinstance(tree, Unary) and tree.sign == "-":
        return terms_of(tree.operand, -sign)
    if isinstance(tree, Binary) and tree.sign in "+-":
        left, first = terms_of(tree.left, sign)
        right, second = terms_of(tree.right, sign if tree.sign == "+" else -sign)
        return left + right, first + second
    return [(sign, tree)], Fraction(0)


def sum_of(terms: Terms, constant: Fraction) -> object:
    """The sum of terms and a constant. A positive part is first where there is one."""
    first = next((it for it in terms if it[0] > 0), None)
    rest = [it for it in terms if it is not first]
    if first:
        tree = first[1]
    elif constant > 0 or not terms:
        tree, constant = Number(constant), Fraction(0)
    else:
        tree, rest = Unary("-", terms[0][1]), terms[1:]
    for sign, term in rest:
        tree = Binary("+" if sign > 0 else "-", tree, term)
    if constant:
        tree = Binary("+" if constant > 0 else "-", tree, Number(abs(constant)))
    return tree


def plus(left: object, right: object, sign: int = 1) -> object:
    """The sum of two trees, or with the sign -1 their difference."""
    first, constant = terms_of(left)
    second, other = terms_of(right, sign)
    return sum_of(first + second, constant + other)


def minus(left: object, right: object) -> object:
    """The difference of two trees."""
    return plus(left, right, -1)


def negative(tree: object) -> object:
    """0 less the tree."""
    return plus(ZERO, tree, -1)


def times(left: object, right: object) -> object:
    """The product of two trees."""
    if isinstance(left, Number) and isinstance(right, Number):
        return Number(left.value * right.value)
    if ZERO in (left, right):
        return ZERO
    if left == ONE or right == ONE:
        return right if left == ONE else left
    for one, other in ((left, right), (right, left)):
        if isinstance(one, Number) and isinstance(other, Binary) and other.sign == "*":
            if isinstance(other.left, Number):
                return times(times(one, other.left), other.right)
            if isinstance(other.right, Number):
                return times(other.left, times(one, other.right))
    return Binary("*", left, right)


def shortened(above: object, below: object) -> Tuple[object, object]:
    """Both parts of a quotient without a constant factor that they share."""
    if not isinstance(below, Number) or below.value.denominator != 1:
        return above, below
    if isinstance(above, Number):
        value = above.value / below.value
        return Number(Fraction(value.numerator)), Number(Fraction(value.denominator))
    if isinstance(above, Binary) and above.sign == "*":
        for factor, other in ((above.left, above.right), (above.right, above.left)):
            if isinstance(factor, Number) and factor.value.denominator == 1:
                shared = Fraction(gcd(factor.value.numerator, below.value.numerator))
                if shared == 1:
                    continue
                return times(other, Number(factor.value / shared)), Number(below.value / shared)
    return above, below


def never_negative(tree: object) -> bool:
    """Whether a value is at least 0, as far as its tree shows."""
    if isinstance(tree, Number):
        return tree.value >= 0
    if isinstance(tree, Call):
        return tree.name in ("RND", "ABS", "SIZE")
    if isinstance(tree, Binary) and tree.sign == "-":
        return isinstance(tree.left, Call) and tree.left.name == "RND" and tree.right == ONE
    if isinstance(tree, Binary):
        both = never_negative(tree.left) and never_negative(tree.right)
        return tree.sign not in ("+", "*", "/") or both
    return not isinstance(tree, (Name, Element, Unary))
