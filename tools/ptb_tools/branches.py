"""The tree of answers of a listing, question by question, as far as there is room for it."""

from __future__ import annotations

from typing import Dict, Iterable, Iterator, List, Optional

from .reports import Result
from .tables import Node
from .tree import Path, Sum

MOST_LEVELS = 40
MOST_NODES = 20_000


class Branch:
    """The runs that begin with some answers, while they are read."""

    __slots__ = ("sum", "bound", "children")

    def __init__(self) -> None:
        self.sum = Sum(1)
        self.bound: Optional[int] = None
        self.children: Dict[int, Branch] = {}

    def add(self, product: int) -> None:
        """Adds a run whose bounds have this product."""
        if self.sum.product != product:
            self.sum.switch(product)
        self.sum.count += 1

    def node(self, total: int) -> Node:
        """The branch with those below it. Chances are divided by a total."""
        runs = self.sum.runs()
        children = {answer: child.node(total) for answer, child in self.children.items()}
        return Node(self.sum.chance() / total, runs, self.bound, children)


class Branches:
    """The tree of answers of the runs that were read. If it grows too large, its last level is left out."""

    def __init__(self) -> None:
        self._root = Branch()
        self._levels = MOST_LEVELS
        self._nodes = 1

    def noted(self, results: Iterable[Result], path: Path) -> Iterator[Result]:
        """The same results; with each of them the path is at its run, which is added."""
        for result in results:
            self._add(path)
            yield result

    def tree(self, sampled: bool) -> Node:
        """The tree; of runs that were drawn, with shares instead of chances."""
        return self._root.node(self._root.sum.runs() if sampled else 1)

    def _add(self, path: Path) -> None:
        branch = self._root
        branch.add(path.product)
        values = path.values()
        for answer, bound in values[: self._levels]:
            branch.bound = bound or None
            child = branch.children.get(answer)
            if child is None:
                child = branch.children[answer] = Branch()
                self._nodes += 1
            child.add(path.product)
            branch = child
        if len(values) > self._levels:
            branch.bound = values[self._levels][1] or None
        while self._nodes > MOST_NODES and self._levels > 1:
            self._leave_out()

    def _leave_out(self) -> None:
        """Leaves the last level out."""
        self._levels -= 1
        level: List[Branch] = [self._root]
        for _ in range(self._levels):
            level = [child for branch in level for child in branch.children.values()]
        for branch in level:
            self._nodes -= nodes_below(branch)
            branch.children = {}


def nodes_below(branch: Branch) -> int:
    """How many branches are below one."""
    return sum(1 + nodes_below(child) for child in branch.children.values())
