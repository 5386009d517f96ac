"""Makes expressions of whole numbers from those of a listing: fractions, INT, RND, comparisons and AND, OR, NOT.

Where a dialect has fractions, a value is a whole number and a fraction, which has a tree above and a tree below the bar.
INT drops the fraction, and a comparison multiplies both sides by what is below, so that both mean what they meant.
"""

from __future__ import annotations

from dataclasses import dataclass
from fractions import Fraction
from math import floor, gcd
from typing import Callable, Dict, List, Optional, Tuple

from .dialects import Dialect, Random
from .notes import ByHand
from .sums import minus, negative, never_negative, plus, shortened, sum_of, terms_of, times
from .trees import COMPARISONS, LOGICAL, MIRRORED, NEGATED, ONE, ZERO, Binary, Call, Element, Name, Number, Text, Unary, Uniform
from .trees import is_random, is_truth, number, walk

Pair = Tuple[object, object]
LARGE_FACTOR = 100
RN_BOUND = 10001


@dataclass(frozen=True)
class Mixed:
    """A value: a whole number, and a fraction that is added to it."""

    whole: object
    above: object = ZERO
    below: object = ONE

    def pair(self) -> Pair:
        """The value as one fraction."""
        return plus(times(self.whole, self.below), self.above), self.below


def mixed_of(above: object, below: object) -> Mixed:
    """The value of a fraction."""
    above, below = shortened(above, below)
    return Mixed(above) if below == ONE else Mixed(ZERO, above, below)


def has_uniform(tree: object) -> bool:
    """Whether a tree has a random fraction."""
    return any(isinstance(it, Uniform) for it in walk(tree))


def common(left: Mixed, right: Mixed) -> Tuple[object, object, object]:
    """What is below both fractions, and the factors that bring each of them there."""
    if isinstance(left.below, Number) and isinstance(right.below, Number):
        first, second = left.below.value.numerator, right.below.value.numerator
        shared = first * second // gcd(first, second)
        return number(shared), number(shared // first), number(shared // second)
    if left.below == right.below:
        return left.below, ONE, ONE
    return times(left.below, right.below), right.below, left.below


def split(tree: object) -> Tuple[Optional[object], object]:
    """The factor of the random fraction in a tree, None where it has none, and the rest of the tree."""
    if not has_uniform(tree):
        return None, tree
    if isinstance(tree, Uniform):
        return ONE, ZERO
    if isinstance(tree, Unary) and tree.sign == "-":
        factor, rest = split(tree.operand)
        return negative(factor), negative(rest)
    if isinstance(tree, Binary) and tree.sign in ("+", "-"):
        left, first = split(tree.left)
        right, second = split(tree.right)
        if left is not None and right is not None:
            raise ByHand("two random fractions in one value")
        join = plus if tree.sign == "+" else minus
        return join(left or ZERO, right or ZERO), join(first, second)
    if isinstance(tree, Binary) and tree.sign == "*":
        (left, first), (right, second) = split(tree.left), split(tree.right)
        if left is None or right is None:
            other = tree.left if left is None else tree.right
            return times(other, left or right), times(other, first if right is None else second)
    raise ByHand("a random fraction that is not multiplied by a whole number")


def drawn(tree: object) -> object:
    """The tree with a random whole number for the random fraction in it, as INT would make it."""
    factor, rest = split(tree)
    if factor is None:
        return tree
    if isinstance(factor, Unary) or isinstance(factor, Number) and factor.value < 0:
        return minus(rest, Call("RND", (negative(factor),)))
    return plus(minus(Call("RND", (factor,)), ONE), rest)


def negation(tree: object) -> object:
    """The condition that holds where this one doesn't."""
    if isinstance(tree, Binary) and tree.sign in COMPARISONS:
        return Binary(NEGATED[tree.sign], tree.left, tree.right)
    return Binary("=", tree, ZERO)


class Whole:
    """Makes expressions of whole numbers. `change` gets what was changed, and `warn` where the meaning may change."""

    def __init__(self, dialect: Dialect, change: Callable[[str], None], warn: Callable[[str], None]) -> None:
        self.dialect = dialect
        self.change = change
        self.warn = warn

    # ---- what the rest of the tool asks for

    def value(self, tree: object) -> object:
        """The whole number that is shown or stored for a value."""
        mixed = self.mixed(tree)
        if has_uniform(mixed.whole) or has_uniform(mixed.above):
            if mixed == Mixed(Uniform()):
                raise ByHand("RND gives a fraction here")
            self.warn("a random fraction becomes a whole number, as if by INT")
        elif isinstance(mixed.above, Number) and mixed.above != ZERO and isinstance(mixed.below, Number):
            raise ByHand(f"a fraction: {float(mixed.above.value / mixed.below.value):g}")
        elif mixed.below != ONE:
            self.warn("the fraction of a quotient is dropped")
        return self.dropped(mixed)

    def index(self, tree: object) -> object:
        """The whole number of an index, a line or a column. A fraction is dropped."""
        return self.dropped(self.mixed(tree))

    def condition(self, tree: object) -> object:
        """A tree that isn't 0 where the condition holds."""
        if isinstance(tree, Unary) and tree.sign == "NOT":
            self.change("NOT is the opposite comparison")
            return negation(self.condition(tree.operand))
        if isinstance(tree, Binary) and tree.sign in LOGICAL:
            self.change("AND is a product" if tree.sign == "AND" else "OR is a sum")
            sides = [self.operand(it, tree.sign) for it in (tree.left, tree.right)]
            return Binary("*" if tree.sign == "AND" else "+", *sides)
        if isinstance(tree, Binary) and tree.sign in COMPARISONS:
            return self.comparison(tree)
        if isinstance(tree, Binary) and tree.sign in ("+", "*") and is_truth(tree.left) and is_truth(tree.right):
            return Binary(tree.sign, self.condition(tree.left), self.condition(tree.right))
        return self.value(tree)

    def operand(self, tree: object, sign: str) -> object:
        """An operand of AND or OR as a condition."""
        if is_truth(tree):
            return self.condition(tree)
        if sign == "AND":
            self.warn("AND of numbers is taken to ask whether both are not 0")
        return Binary("#", self.value(tree), ZERO)

    # ---- values as pairs

    def dropped(self, mixed: Mixed) -> object:
        """A value without its fraction."""
        if has_uniform(mixed.whole) or has_uniform(mixed.above):
            above, below = mixed.pair()
            return self.quotient(*shortened(drawn(above), below))
        if mixed.below == ONE:
            return mixed.whole
        return plus(self.quotient(mixed.above, mixed.below), mixed.whole)

    def quotient(self, above: object, below: object) -> object:
        """A quotient without its fraction."""
        above, below = shortened(above, below)
        if below == ONE:
            return above
        if any(isinstance(it, Binary) and it.sign == "*" and not is_scaled(it) for it in walk(above)):
            self.warn("a product before a division may be above 32767, which is HOW?")
        for factor in factors(below):
            above = Binary("/", above, factor)
        return above

    def floor(self, tree: object) -> object:
        """What INT gives."""
        mixed = self.mixed(tree)
        if mixed.below == ONE and not has_uniform(mixed.whole):
            self.change("INT of a whole number is left out")
        if isinstance(mixed.above, Number) and isinstance(mixed.below, Number) and not has_uniform(mixed.whole):
            return plus(mixed.whole, number(floor(mixed.above.value / mixed.below.value)))
        above = drawn(mixed.pair()[0]) if has_uniform((mixed.whole, mixed.above)) else mixed.above
        if mixed.below != ONE and not (never_negative(above) and never_negative(mixed.below)):
            self.warn("INT drops the fraction of a negative quotient towards zero")
        return self.dropped(mixed)

    def pair(self, tree: object) -> Pair:
        """A value as one fraction."""
        return self.mixed(tree).pair()

    def mixed(self, tree: object) -> Mixed:
        """A value as a whole number and a fraction."""
        if isinstance(tree, Number):
            return mixed_of(number(tree.value.numerator), number(tree.value.denominator))
        if isinstance(tree, Element):
            return Mixed(Element(tree.name, tuple(self.index(it) for it in tree.indices)))
        if isinstance(tree, Call):
            return self.call(tree)
        if isinstance(tree, Unary) and tree.sign == "-":
            found = self.mixed(tree.operand)
            if not self.rebuilds():
                return Mixed(Unary("-", found.whole))
            return Mixed(negative(found.whole), negative(found.above), found.below)
        if is_truth(tree):
            return Mixed(self.truth(tree))
        if isinstance(tree, Binary):
            return self.operation(tree)
        if isinstance(tree, Text):
            raise ByHand("strings in expressions")
        return Mixed(tree)

    def rebuilds(self) -> bool:
        """Whether constants may be added up; a program in Tiny BASIC keeps its form."""
        return self.dialect.name != "palo-alto"

    def operation(self, tree: Binary) -> Mixed:
        """The value of a sum, a product, a quotient, a rest or a power."""
        if tree.sign == "MOD":
            return Mixed(self.rest(tree))
        if tree.sign == "^":
            return self.power(tree)
        left, right = self.mixed(tree.left), self.mixed(tree.right)
        if not self.rebuilds() or tree.sign == "/" and not self.dialect.fractions:
            return Mixed(Binary(tree.sign, left.whole, right.whole))
        if tree.sign in ("+", "-"):
            return self.sum(left, right, 1 if tree.sign == "+" else -1)
        (above, below), (other, under) = left.pair(), right.pair()
        if tree.sign == "/":
            return mixed_of(times(above, under), times(below, other))
        for factor in (below, under):
            if isinstance(factor, Number) and factor.value >= LARGE_FACTOR and not isinstance(above, Number):
                self.warn(f"a value is a number of parts of {factor.value} on the way; above 32767 it is HOW?")
        return mixed_of(times(above, other), times(below, under))

    def sum(self, left: Mixed, right: Mixed, sign: int) -> Mixed:
        """The sum or the difference of two values."""
        below, first, second = common(left, right)
        above = plus(times(left.above, first), times(right.above, second), sign)
        above, below = shortened(above, below)
        whole = plus(left.whole, right.whole, sign)
        return Mixed(plus(whole, above)) if below == ONE else Mixed(whole, above, below)

    def rest(self, tree: Binary) -> object:
        """What MOD gives."""
        left, right = self.value(tree.left), self.value(tree.right)
        if is_random(left) or is_random(right):
            raise ByHand("MOD of a random number; keep the number in a variable first")
        return Binary("-", left, Binary("*", Binary("/", left, right), right))

    def power(self, tree: Binary) -> Mixed:
        """A small power as a product."""
        times_itself = tree.right.value if isinstance(tree.right, Number) else 0
        if times_itself not in (1, 2, 3, 4) or is_random(tree.left):
            raise ByHand("a power; multiply in a loop")
        above, below = self.pair(tree.left)
        product: Pair = (above, below)
        for _ in range(int(times_itself) - 1):
            product = (Binary("*", product[0], above), times(product[1], below))
        return mixed_of(*product)

    def call(self, tree: Call) -> Mixed:
        """The value of a call of a function."""
        if tree.name in ("SIZE", "SZ", "FRE"):
            return Mixed(Call("SIZE", ()))
        if tree.name in ("RND", "RN"):
            return Mixed(self.random(tree))
        if len(tree.arguments) != 1:
            raise ByHand(f"{tree.name} needs one value")
        if tree.name == "INT":
            return Mixed(self.floor(tree.arguments[0]))
        above, below = self.pair(tree.arguments[0])
        if tree.name == "ABS":
            if isinstance(below, Number):
                return mixed_of(Call("ABS", (drawn_not(above),)), below)
            return Mixed(Call("ABS", (self.quotient(above, below),)))
        if tree.name == "SGN":
            if is_random(above):
                raise ByHand("SGN of a random number; keep the number in a variable first")
            return Mixed(Binary("-", Binary(">", above, ZERO), Binary("<", above, ZERO)))
        raise ByHand(f"{tree.name} has no counterpart")

    def random(self, tree: Call) -> object:
        """What RND gives: a fraction, or a whole number."""
        if tree.name == "RN" and not tree.arguments:
            return minus(Call("RND", (number(RN_BOUND),)), ONE)
        if self.dialect.random is Random.FRACTION:
            self.change("a random fraction is a random whole number")
            return Uniform()
        if len(tree.arguments) != 1:
            raise ByHand("RND without the number of its possible values")
        whole = Call("RND", (self.value(tree.arguments[0]),))
        if self.dialect.random is Random.ONE:
            return whole
        self.change("RND from 0 is RND from 1, less 1")
        return minus(whole, ONE)

    # ---- comparisons

    def truth(self, tree: object) -> object:
        """A condition as a number: -1 or 1 where it holds."""
        logical = [it for it in walk(tree) if isinstance(it, Binary) and it.sign in LOGICAL]
        if not all(is_truth(it.left) and is_truth(it.right) for it in logical):
            raise ByHand("AND and OR of numbers work on their bits; there is no counterpart")
        found = self.condition(tree)
        if any(it.sign == "OR" for it in logical) and isinstance(found, Binary) and found.sign in ("+", "*"):
            found = Binary(">", found, ZERO)  # a sum of conditions may be 2
        if self.dialect.truth > 0:
            return found
        self.change("a comparison that is worth -1 has a minus sign")
        return Unary("-", found)

    def comparison(self, tree: Binary) -> object:
        """A comparison of whole numbers. Fractions are multiplied by what is below them."""
        for side, other, sign in ((tree.left, tree.right, tree.sign), (tree.right, tree.left, MIRRORED[tree.sign])):
            found = self.divisibility(side, other, sign)
            if found:
                return found
        (above, below), (other, under) = self.pair(tree.left), self.pair(tree.right)
        ordered = tree.sign not in ("=", "#")
        if ordered and not (isinstance(below, Number) and isinstance(under, Number)):
            self.warn("the fraction of a quotient is dropped before a comparison")
            return Binary(tree.sign, self.quotient(above, below), self.quotient(other, under))
        if below != under:
            above, other = times(above, under), times(other, below)
        return self.compared(tree.sign, above, other)

    def divisibility(self, side: object, other: object, sign: str) -> Optional[object]:
        """The comparison of INT(A/B) and A/B, which asks whether B divides A."""
        if not (isinstance(side, Call) and side.name == "INT" and sign in ("=", "#") and self.dialect.fractions):
            return None
        above, below = self.pair(side.arguments[0]) if side.arguments else (ZERO, ONE)
        if below == ONE or is_random(above) or self.pair(other) != (above, below):
            return None
        return Binary(sign, Binary("*", Binary("/", above, below), below), above)

    def compared(self, sign: str, left: object, right: object) -> object:
        """A comparison of trees that may have a random fraction."""
        first, _ = split(left)
        second, _ = split(right)
        if first is None and second is None:
            if isinstance(right, Number) and is_random(left) and self.rebuilds():
                terms, constant = terms_of(left)
                left, right = sum_of(terms, Fraction(0)), Number(right.value - constant)
            return Binary(sign, left, right)
        if first is not None and second is not None:
            raise ByHand("two random fractions in one comparison")
        if first is None:
            sign, left, right = MIRRORED[sign], right, left
        if sign in ("=", "#"):
            raise ByHand("a random fraction is compared for being equal")
        left = drawn(left)
        sign = "<" if sign in ("<", "<=") else ">="
        if isinstance(right, Number) and isinstance(left, Binary) and left.sign == "-" and isinstance(left.right, Number):
            left, right = left.left, plus(right, left.right)
        if sign == ">=" and isinstance(right, Number):
            return Binary(">", left, plus(right, number(-1)))
        if isinstance(right, Number):
            return Binary("<=", left, plus(right, number(-1)))
        return Binary(sign, left, right)


def drawn_not(tree: object) -> object:
    """The tree, which must have no random fraction."""
    if has_uniform(tree):
        raise ByHand("ABS of a random fraction")
    return tree


def is_scaled(tree: Binary) -> bool:
    """Whether one factor of a product is a constant."""
    return isinstance(tree.left, Number) or isinstance(tree.right, Number)


def factors(tree: object) -> List[object]:
    """The factors of a product."""
    if isinstance(tree, Binary) and tree.sign == "*":
        return factors(tree.left) + factors(tree.right)
    return [tree]


def substituted(tree: object, values: Dict[object, object]) -> object:
    """The tree with trees for some of its names."""
    if isinstance(tree, Name):
        return values.get(tree, tree)
    if isinstance(tree, Unary):
        return Unary(tree.sign, substituted(tree.operand, values))
    if isinstance(tree, Binary):
        return Binary(tree.sign, substituted(tree.left, values), substituted(tree.right, values))
    if isinstance(tree, Element):
        return Element(tree.name, tuple(substituted(it, values) for it in tree.indices))
    if isinstance(tree, Call):
        return Call(tree.name, tuple(substituted(it, values) for it in tree.arguments))
    return tree
