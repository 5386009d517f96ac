"""Tables of outcomes: the rows into which the runs of a listing are grouped, each with its chance."""

from __future__ import annotations

import re
from dataclasses import dataclass, field
from fractions import Fraction
from math import sqrt
from operator import attrgetter, itemgetter
from typing import Callable, Dict, Hashable, Iterable, List, NamedTuple, Optional, Sequence, Tuple

from .reports import Result
from .text import last_line
from .tree import NO_ANSWERS, Path, Sum, Value, values_of

DEVIATIONS = 1.959963984540054  # of the normal distribution: 95 % are within


class Row(NamedTuple):
    """The runs of a listing that are alike.

    `key` has a label for each grouping of the table. The ending, the answers and the transcript are
    those of the first of these runs; the answers are spelled as in a report. In a sampled table
    `chance` is the share of the runs that were drawn.
    """

    key: Tuple[str, ...]
    ending: str
    chance: Fraction
    runs: int
    answers: bytes
    transcript: Optional[bytes]

    @property
    def first(self) -> Tuple[int, ...]:
        """The answers of the first run, without their bounds."""
        return tuple(answer for answer, _ in values_of(self.answers))


@dataclass
class Node:
    """The runs that begin with some answers: their chance, their number, and what follows.

    `bound` is the greatest answer to the next question, None if the runs are over there. There are no
    children if what follows is not kept.
    """

    chance: Fraction
    runs: int
    bound: int | None
    children: dict[int, Node] = field(default_factory=dict)


@dataclass
class Table:
    """The rows of a listing, the likeliest first, and what is known of the listing.

    `by` has the name of each grouping, as "last-line". `covered` is the chance of all runs that were
    read, 1 for a complete tree. `partial` says that runs are missing, `sampled` that the runs were
    drawn. `program` and `options` are those of the command that wrote the listing, if they are known;
    the options are those of a single run, as "--choose 8". `outcomes` counts all rows, also those
    that are left out of `rows`. `spans` are the parts of the tree that the runs cover, None if they
    are not known. `summed` says that this is a table of --chances: the answers of its runs are not
    known, and the transcript of a row is its last line alone.
    """

    rows: list[Row]
    by: tuple[str, ...]
    runs: int
    outcomes: int
    covered: Fraction
    partial: bool
    sampled: bool
    program: str | None
    options: str | None
    answers_tree: Node | None
    spans: list[tuple[Fraction, Fraction]] | None = None
    summed: bool = False

    @property
    def has_questions(self) -> bool:
        """Whether runs were asked for answers, as far as it is known."""
        return self.runs > 1 if self.summed else any(row.first for row in self.rows)

    def interval(self, row: Row) -> Tuple[float, float]:
        """Wilson's interval for the chance of a sampled row: 95 of 100 such intervals have it."""
        return interval(row.runs, self.runs)


def interval(found: int, drawn: int) -> Tuple[float, float]:
    """Wilson's interval for a chance, if so many of the runs drawn are found."""
    share, square = found / drawn, DEVIATIONS * DEVIATIONS
    centre = share + square / (2 * drawn)
    spread = DEVIATIONS * sqrt(share * (1 - share) / drawn + square / (4 * drawn * drawn))
    scale = 1 + square / drawn
    # sums of floats are rounded, and may miss the share at 0 and 1
    return max(0.0, min(share, (centre - spread) / scale)), min(1.0, max(share, (centre + spread) / scale))


# ---- groupings


@dataclass(frozen=True)
class Grouping:
    """What runs must share to be one row: a name, and for a run its value and the label of that. Both
    come from the result, or from the answer to a question."""

    name: str
    key_of: Callable[[Result], Hashable] = lambda result: None
    label_of: Callable[[Result], str] = lambda result: ""
    question: int = 0


def last_line_label(result: Result) -> str:
    """The last line that a run showed."""
    return last_line(result.transcript).decode("latin-1")


KINDS = {
    "outcome": Grouping("outcome", attrgetter("ending", "transcript"), last_line_label),
    "ending": Grouping("ending", attrgetter("ending"), lambda it: it.ending.decode()),
    "last-line": Grouping("last-line", lambda it: last_line(it.transcript), last_line_label),
}


def by_match(text: str) -> Grouping:
    """Runs whose transcript has a match of a regular expression are one row, the others another one.

    re.error if the text is no regular expression.
    """
    pattern = re.compile(text.encode(), re.MULTILINE)

    def label_of(result: Result) -> str:
        return f"matches {text}" if pattern.search(result.transcript) else "the rest"

    return Grouping(f"match:{text}", label_of, label_of)


def grouping_of(name: str) -> Grouping:
    """The grouping with a name, as "last-line" or "answer:2"; ValueError for anything else."""
    kind, _, detail = name.partition(":")
    if name in KINDS:
        return KINDS[name]
    if kind == "answer" and re.fullmatch("[1-9][0-9]{0,8}", detail):
        return Grouping(name, question=int(detail))
    if kind == "match":
        return by_match(detail)
    raise ValueError(name)


# ---- gathering


class Outcome(Sum):
    """The runs of a row: the sum of their chances, and the first of them."""

    __slots__ = ("answers", "result")

    def __init__(self, product: int, answers: bytes, result: Result) -> None:
        super().__init__(product)
        self.answers = answers
        self.result = result


class Gathering:
    """The outcomes of the runs that were read, by one or more groupings."""

    def __init__(self, by: Sequence[Grouping]) -> None:
        self.by = tuple(by)
        self.outcomes: Dict[Hashable, Outcome] = {}
        self.runs = 0
        self._questions = [grouping.question for grouping in by if grouping.question]
        # what a result has of the key of its outcome
        self._key_of = by[0].key_of if len(by) == 1 else self._keys_of

    def _keys_of(self, result: Result) -> Hashable:
        """What a result has of the key of its outcome, if there are several groupings."""
        return tuple(grouping.key_of(result) for grouping in self.by)

    def add_all(self, results: Iterable[Result], path: Path) -> None:
        """Adds runs. With each result the path is at its run."""
        if self._questions:
            self._add_by_answers(results, path)
            return
        key_of = self._key_of
        for result in results:
            outcome = result.group
            if outcome is None:
                outcome = result.group = self._outcome_of(key_of(result), result, path)
            if outcome.product != path.product:
                outcome.switch(path.product)
            outcome.count += 1
            self.runs += 1

    def _add_by_answers(self, results: Iterable[Result], path: Path) -> None:
        """Adds runs whose answers are a part of the key."""
        for result in results:
            if result.group is None:
                result.group = self._key_of(result)
            answers = tuple(map(path.answer_to, self._questions))
            outcome = self._outcome_of((result.group, answers), result, path)
            if outcome.product != path.product:
                outcome.switch(path.product)
            outcome.count += 1
            self.runs += 1

    def _outcome_of(self, key: Hashable, result: Result, path: Path) -> Outcome:
        """The outcome with this key; its first run is the one at which the path is, if it is new."""
        outcome = self.outcomes.get(key)
        if outcome is None:
            outcome = self.outcomes[key] = Outcome(path.product, path.spelled(), result)
        return outcome

    def add_row(self, row: Row, total: int) -> None:
        """Adds the runs of a row of another table, whose chance is multiplied by a total."""
        first = Result(row.ending.encode(), row.transcript or b"")
        answers = tuple(row.first[k - 1] if k <= len(row.first) else 0 for k in self._questions)
        key = (self._key_of(first), answers) if self._questions else self._key_of(first)
        self._add_sum(key, row.answers, first, row.runs, row.chance * total)

    def add_chance(self, result: Result, runs: int, chance: Fraction) -> None:
        """Adds so many runs with the same result, whose chances have this sum."""
        self._add_sum(self._key_of(result), NO_ANSWERS, result, runs, chance)

    def _add_sum(self, key: Hashable, answers: bytes, first: Result, runs: int, chance: Fraction) -> None:
        """Adds the sum of the chances of so many runs to the outcome with this key."""
        outcome = self.outcomes.get(key)
        if outcome is None:
            outcome = self.outcomes[key] = Outcome(1, answers, first)
        outcome.add(runs, chance.numerator, chance.denominator)
        self.runs += runs

    def rows(self, sampled: bool, top: Optional[int]) -> Tuple[List[Row], Fraction]:
        """The rows, the likeliest first, or the first so many; and the chance of all. Ends the gathering.

        Rows with the same chance are in the order of their first runs.
        """
        ranks = ranks_of(self.outcomes.values())
        total = self.runs if sampled else 1
        covered = sum((chance * len(group) for chance, group in ranks), Fraction(0)) / (total or 1)
        rows: List[Row] = []
        self.outcomes.clear()  # a table may have many rows: each outcome is let go once it has its row
        for chance, group in ranks:
            share = chance / total
            group.reverse()
            while group and (top is None or len(rows) < top):
                rows.append(self._row_of(group.pop(), share))
        return rows, covered

    def _row_of(self, outcome: Outcome, chance: Fraction) -> Row:
        """The row of an outcome with this chance."""
        result = outcome.result
        if self._questions:
            values = values_of(outcome.answers)
            labels = tuple([label_of(grouping, result, values) for grouping in self.by])
        else:
            labels = tuple([grouping.label_of(result) for grouping in self.by])
        result.group = None  # it refers to the outcome
        ending = result.ending.decode()
        return Row(labels, ending, chance, outcome.runs(), outcome.answers, result.transcript)


def ranks_of(outcomes: Iterable[Outcome]) -> List[Tuple[Fraction, List[Outcome]]]:
    """The outcomes by their chances, the greatest first. Those of a sample have their runs instead."""
    ranks: Dict[Fraction, List[Outcome]] = {}
    # most outcomes have a single product, and many of them the same one and the same count
    counted: Dict[Tuple[int, int], List[Outcome]] = {}
    for outcome in outcomes:
        terms = outcome.terms()
        rank = counted.get(terms) if terms else None
        if rank is None:
            rank = ranks.setdefault(outcome.chance(), [])
            if terms:
                counted[terms] = rank
        rank.append(outcome)
    return sorted(ranks.items(), key=itemgetter(0), reverse=True)


def label_of(grouping: Grouping, result: Result, values: Sequence[Value]) -> str:
    """The label of a run in a grouping."""
    if not grouping.question:
        return grouping.label_of(result)
    return str(values[grouping.question - 1][0]) if grouping.question <= len(values) else "none"
