"""Random expressions of Microsoft BASIC mean the same after tools/adapt, where it doesn't say that they may not.

Each expression is written and worked out here, with fractions and with -1 for what is true, and the program that tools/adapt makes
of it is run by ptb. A line with a note is left out, and so is what comes after a value above 32767.
"""

import random
import re
import unittest
from fractions import Fraction
from math import floor

from programs import adapt, play

SEEDS = range(24)
LINES = 20
VALUES = dict(zip("ABCDE", (0, 1, 2, 5, 9)))
COMPARISONS = {
    "=": lambda left, right: left == right,
    "<>": lambda left, right: left != right,
    "<": lambda left, right: left < right,
    ">": lambda left, right: left > right,
    "<=": lambda left, right: left <= right,
    ">=": lambda left, right: left >= right,
}
NOTE = re.compile(r"line ([0-9]+): (?:meaning may change|rewrite by hand)")


class Writer:
    """Writes random expressions, each with its value."""

    def __init__(self, seed):
        self.draw = random.Random(seed)

    def value(self, depth):
        """A number: its text and its value."""
        if depth == 0 or self.draw.random() < 0.2:
            return self.leaf()
        kinds = (self.sum, self.product, self.quotient, self.whole, self.truth)
        return self.draw.choice(kinds)(depth - 1)

    def leaf(self):
        """A variable or a constant."""
        if self.draw.random() < 0.6:
            name = self.draw.choice(list(VALUES))
            return name, Fraction(VALUES[name])
        text = self.draw.choice(("0", "1", "3", "7", ".5", "1.5", ".25"))
        return text, Fraction(text)

    def sum(self, depth):
        """A sum or a difference."""
        (left, first), (right, second) = self.value(depth), self.value(depth)
        if self.draw.random() < 0.5:
            return f"({left}+{right})", first + second
        return f"({left}-({right}))", first - second

    def product(self, depth):
        """A product."""
        (left, first), (right, second) = self.value(depth), self.value(depth)
        return f"{left}*{right}", first * second

    def quotient(self, depth):
        """A quotient by a constant."""
        text, value = self.value(depth)
        below = self.draw.randint(1, 6)
        return f"({text})/{below}", value / below

    def whole(self, depth):
        """INT, ABS or SGN."""
        text, value = self.value(depth)
        sign = (value > 0) - (value < 0)
        found = {"INT": Fraction(floor(value)), "ABS": abs(value), "SGN": Fraction(sign)}
        name = self.draw.choice(list(found))
        return f"{name}({text})", found[name]

    def truth(self, depth):
        """A condition as a number."""
        text, value = self.condition(depth)
        return f"({text})", Fraction(-1 if value else 0)

    def condition(self, depth):
        """A condition: its text, and whether it holds."""
        kind = self.draw.choice(("AND", "OR", "NOT", *COMPARISONS)) if depth else self.draw.choice(list(COMPARISONS))
        if kind in COMPARISONS:
            (left, first), (right, second) = self.value(depth and depth - 1), self.value(depth and depth - 1)
            return f"{left}{kind}{right}", COMPARISONS[kind](first, second)
        left, first = self.condition(depth - 1)
        if kind == "NOT":
            return f"NOT ({left})", not first
        right, second = self.condition(depth - 1)
        return f"({left}) {kind} ({right})", (first and second) if kind == "AND" else (first or second)

    def line(self):
        """A statement that shows 0 or 1, or a whole number, and what it shows."""
        if self.draw.random() < 0.5:
            text, value = self.condition(2)
            return f"X=0:IF {text} THEN X=1", int(value)
        text, value = self.value(3)
        return f"X=INT({text})", floor(value)


class Same(unittest.TestCase):
    """A listing of random expressions shows what was worked out."""

    def __init__(self, seed):
        super().__init__()
        self.seed = seed
        self.compared = 0

    def id(self):
        return f"meaning: random expressions {self.seed}"

    def runTest(self):
        writer = Writer(self.seed)
        lines = {number: writer.line() for number in range(20, 20 + 10 * LINES, 10)}
        listing = "10 " + ":".join(f"{name}={value}" for name, value in VALUES.items()) + "\n"
        listing += "".join(f'{number} {text}\n{number + 5} PRINT "L";{number};X\n' for number, (text, _) in lines.items())
        _, program, report = adapt(listing, "--dialect", "microsoft")
        noted = {int(number) for number in NOTE.findall(report)}
        for number in lines:
            if number not in noted:
                texts = re.findall(f"^(?:10|{number}|{number + 5}) .*$", program, re.M)
                self.check(number, lines[number], "\n".join(texts))
        self.assertGreater(self.compared, 3)

    def check(self, number, line, program):
        """Runs what one line of the listing became."""
        status, shown, _ = play(f"{program}\n", [], "")
        if status == 2:
            return
        self.compared += 1
        self.assertEqual((status, shown.split()), (0, ["L", str(number), str(line[1])]), f"{line[0]}\n{program}")

    def __str__(self):
        return self.id()


def suite():
    """The tests of random expressions."""
    return [Same(seed) for seed in SEEDS]
