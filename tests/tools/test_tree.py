"""Tests of places in the tree of runs: answers, order, gaps, and exact sums."""

from __future__ import annotations

import random
import unittest
from fractions import Fraction
from typing import List, Optional

import listings
from ptb_tools.tree import (
    MOST_SPANS,
    Coverage,
    Disorder,
    DrawnPath,
    Overlap,
    Path,
    Sum,
    is_first,
    item_before,
    joined,
    may_be_last,
    next_item,
    value_of,
    values_of,
)

HALF, THIRD = Fraction(1, 2), Fraction(1, 3)


class Answers(unittest.TestCase):
    """Answers as reports and lists spell them."""

    def test_values(self) -> None:
        self.assertEqual(value_of(b"2/6"), (2, 6))
        self.assertEqual(value_of(b"32767"), (32767, 0))
        self.assertEqual(values_of(b"none"), [])
        self.assertEqual(values_of(b"1/2,6"), [(1, 2), (6, 0)])

    def test_no_values(self) -> None:
        for spelled in b"", b"0", b"0/1", b"01", b"1/", b"/2", b"3/2", b"1/2,", b"x", b"100000", b"1/2/3", b"-1":
            with self.subTest(spelled), self.assertRaises(ValueError):
                values_of(spelled)

    def test_neighbours(self) -> None:
        for item, following in (b"1/2", b"2/2"), (b"2/2", b""), (b"9", b"10"), (b"9/10", b"10/10"):
            self.assertEqual(next_item(item), following)
        for item, before in (b"2/2", b"1/2"), (b"10", b"9"), (b"10/11", b"9/11"):
            self.assertEqual(item_before(item), before)
        self.assertEqual([is_first(item) for item in (b"1", b"1/5", b"2/5")], [True, True, False])
        self.assertEqual([may_be_last(item) for item in (b"1", b"4/5", b"5/5")], [True, False, True])


def walked(*runs: bytes) -> Path:
    """The path at the last of these runs, with what they cover."""
    path = Path(Coverage())
    for run in runs:
        path.advance(run)
    return path


def spans(*runs: bytes) -> Optional[List[tuple]]:
    """What these runs cover."""
    path = walked(*runs)
    return path.coverage.spans(path)


class Paths(unittest.TestCase):
    """The run that was read last."""

    def test_each_run_of_trees(self) -> None:
        """Each run has its answers, its product and its part of the interval, without a gap."""
        for bounds in [1], [3], [2, 2, 2, 2, 2], [1, 3, 1, 2], [12, 11]:
            path, end = Path(Coverage()), Fraction(0)
            for run in listings.tree(bounds, str):
                path.advance(run.spelled().encode())
                self.assertEqual(path.spelled().decode(), run.spelled())
                self.assertEqual(tuple(path.values()), run.answers)
                self.assertEqual(Fraction(1, path.product), run.chance())
                self.assertEqual(path.span(), (end, end + run.chance()))
                self.assertAlmostEqual(path.rough_end(), float(end + run.chance()))
                self.assertAlmostEqual(path.coverage.rough_share(path), float(end + run.chance()))
                answers = [answer for answer, _ in run.answers]
                self.assertEqual([path.answer_to(k + 1) for k in range(len(bounds) + 1)], [*answers, 0])
                end += run.chance()
            self.assertEqual(path.coverage.spans(path), [(0, 1)])

    def test_random_trees_with_gaps(self) -> None:
        """Of any runs of a tree, in order, the spans are the runs' parts, joined where they touch."""
        drawn = random.Random("gaps")
        for _ in range(300):
            runs = self.random_tree(drawn, ())
            kept = [run for run in runs if drawn.random() < drawn.choice([0.3, 0.9])]
            due: List[tuple] = []
            for start, end in map(self.part_of, kept):
                due[-1:] = [(due[-1][0], end)] if due and due[-1][1] == start else [*due[-1:], (start, end)]
            found = spans(*(",".join(f"{a}/{b}" for a, b in run).encode() or b"none" for run in kept))
            self.assertEqual(found, due, kept)

    def random_tree(self, drawn: random.Random, begun: tuple) -> List[tuple]:
        """All runs of a tree of some random questions."""
        if len(begun) == 4 or drawn.random() < 0.3:
            return [begun]
        bound = drawn.randrange(1, 4)
        return [run for answer in range(1, bound + 1) for run in self.random_tree(drawn, (*begun, (answer, bound)))]

    @staticmethod
    def part_of(run: tuple) -> tuple:
        """The part of the interval that a run has, from its questions one by one."""
        start, width = Fraction(0), Fraction(1)
        for answer, bound in run:
            width /= bound
            start += (answer - 1) * width
        return start, start + width

    def test_gaps(self) -> None:
        self.assertEqual(spans(), [])
        self.assertEqual(spans(b"1/2"), [(0, HALF)])
        self.assertEqual(spans(b"2/2"), [(HALF, 1)])
        self.assertEqual(spans(b"1/3", b"3/3"), [(0, THIRD), (2 * THIRD, 1)])
        self.assertEqual(spans(b"1/2,1/2", b"2/2,1/2"), [(0, HALF / 2), (HALF, HALF + HALF / 2)])
        self.assertEqual(spans(b"1/2,2/2", b"2/2,2/2"), [(HALF / 2, HALF), (HALF + HALF / 2, 1)])
        self.assertEqual(spans(b"none"), [(0, 1)])

    def test_too_many_gaps(self) -> None:
        for count, known in (MOST_SPANS, True), (MOST_SPANS + 1, False):
            runs = [b"%d/32767" % (2 * k + 1) for k in range(count)]
            found = spans(*runs)
            self.assertEqual(found is not None, known)
            self.assertEqual(len(found or ()), count if known else 0)

    def test_disorder(self) -> None:
        same, earlier = "this run is the same as the previous one", "this run should come before the previous one"
        no_tree = "no tree has both this run and the previous one"
        cases = [
            (b"1/2", b"1/2", same),
            (b"2/2", b"1/2", earlier),
            (b"none", b"none", same),
            (b"none", b"1/2", no_tree),
            (b"1/2", b"none", no_tree),
            (b"1/2", b"1/2,1/2", no_tree),
            (b"1/2,1/2", b"1/2", no_tree),
            (b"1/2", b"2/3", no_tree),
            (b"1/2,1/2", b"1/2,2/3", no_tree),
            (b"2/3,1/3", b"1/3,2/3", earlier),
            (b"10/20", b"9/20", earlier),
        ]
        for before, after, cause in cases:
            with self.subTest(before=before, after=after), self.assertRaisesRegex(Disorder, f"^{cause}$"):
                walked(before, after)

    def test_bounds_are_needed_for_chances(self) -> None:
        for runs in [b"1"], [b"1/2,1"], [b"1/2", b"2"], [b"1/2", b"2/2,1"]:
            with self.subTest(runs), self.assertRaises((ValueError, Disorder)):
                walked(*runs)

    def test_each_run_must_be_the_next_one(self) -> None:
        path = Path()
        for run in b"1,1", b"1,2", b"2", b"3,1":
            path.advance(run)
        for run in b"3,3", b"5", b"4,2":
            with self.assertRaisesRegex(Disorder, "doesn't come next"):
                path.advance(run)
        self.assertEqual(path.spelled(), b"3,1")

    def test_long_lists(self) -> None:
        """Runs with thousands of answers, which differ at any place."""
        drawn = random.Random("long")
        answers = [1] * 3000
        path = walked(b",".join(b"1/3" for _ in answers))
        for _ in range(40):
            at = drawn.randrange(3000)
            if answers[at] == 3:
                continue
            answers = [*answers[:at], answers[at] + 1, *([1] * (2999 - at))]
            path.advance(b",".join(b"%d/3" % answer for answer in answers))
            self.assertEqual([answer for answer, _ in path.values()], answers)
            self.assertEqual(path.product, 3**3000)

    def test_drawn_runs(self) -> None:
        path = DrawnPath()
        for spelled in b"2/2", b"1/2,3/3", b"1/2,3/3", b"1", b"none", b"2,1,3":
            path.advance(spelled)
            self.assertEqual((path.spelled(), path.product), (spelled, 1))
            answers = [answer for answer, _ in values_of(spelled)]
            self.assertEqual([path.answer_to(k + 1) for k in range(4)], (answers + [0] * 4)[:4])
        with self.assertRaises(ValueError):
            path.advance(b"0/2")


class Sums(unittest.TestCase):
    """Exact sums of chances."""

    def test_random_products(self) -> None:
        drawn = random.Random("sums")
        for most in 1, 3, 200:
            products = [drawn.randrange(1, 400) for _ in range(most)]
            total, count, found = Fraction(0), 0, Sum(products[0])
            for _ in range(2000):
                product = drawn.choice(products)
                if found.product != product:
                    found.switch(product)
                found.count += 1
                count += 1
                total += Fraction(1, product)
                if drawn.random() < 0.01:
                    self.assertEqual(found.runs(), count)
            self.assertEqual(found.chance(), total)
            self.assertEqual((found.runs(), found.chance()), (count, total))

    def test_one_product(self) -> None:
        found = Sum(6)
        found.count = 3
        self.assertEqual((found.terms(), found.chance()), ((3, 6), Fraction(1, 2)))
        found.switch(4)
        self.assertIsNone(found.terms())

    def test_fractions(self) -> None:
        found = Sum(1)
        found.add(3, 1, 6)
        found.add(4, 3, 4)
        self.assertEqual((found.runs(), found.chance()), (7, Fraction(11, 12)))


class Joining(unittest.TestCase):
    """Parts of the interval."""

    def test_joined(self) -> None:
        self.assertEqual(joined([], []), [])
        self.assertEqual(joined([(HALF, Fraction(1))], [(Fraction(0), HALF)]), [(0, 1)])
        self.assertEqual(joined([(Fraction(0), THIRD)], [(HALF, Fraction(1))]), [(0, THIRD), (HALF, 1)])

    def test_overlaps(self) -> None:
        for some, others in ([(0, 1)], [(0, 1)]), ([(0, HALF)], [(THIRD, 1)]), ([(0, 1)], [(THIRD, HALF)]):
            with self.assertRaises(Overlap):
                joined(some, others)


if __name__ == "__main__":
    unittest.main()
