"""The line on a terminal that shows how much of a tree is done, while its runs are read."""

from __future__ import annotations

import os
import time
from typing import Optional, TextIO

from .text import count_of
from .tree import Path

SECONDS_A_LINE = 0.5
SECONDS_OF_PATIENCE = 10.0


class Progress:
    """Shows the share of the tree that is done, the runs, and the time that is left.

    The time is estimated from the share that is done. Where that stands still, the line says so.
    """

    def __init__(self, terminal: TextIO, path: Path) -> None:
        self._terminal = terminal
        self._path = path
        self._begun = self._shown = self._grown = time.monotonic()
        self._share = ""

    def tick(self, runs: int) -> None:
        """Shows the line again if it is time."""
        now = time.monotonic()
        if now - self._shown >= SECONDS_A_LINE and runs:
            self._shown = now
            self._write(self._line(runs, now))

    def _line(self, runs: int, now: float) -> str:
        """The line at this moment."""
        seconds = now - self._begun
        counted = f"{count_of(runs, 'run')}, {seconds:.0f} s"
        if self._path.coverage is None:
            return f"{counted}, sampled"
        share = self._path.coverage.rough_share(self._path)
        if f"{share:.2%}" != self._share:
            self._share, self._grown = f"{share:.2%}", now
        if now - self._grown >= SECONDS_OF_PATIENCE:
            advice = "this branch may have no end; see docs/LARGE-TREES.md"
            return f"{counted}, still at {100 * share:.4g} %: {advice}"
        rest = seconds * max(0.0, 1 - share)
        left = f", {rest / share:.0f} s left" if share > rest * 1e-9 else ""
        return f"{share:7.2%} done, {counted}{left}"

    def _write(self, line: str) -> None:
        """Replaces the line; one that is too long for the terminal is cut."""
        columns = width_of(self._terminal)
        print(f"\r\033[K{line[: columns - 1]}", end="", file=self._terminal, flush=True)

    def clear(self) -> None:
        """Takes the line away."""
        print("\r\033[K", end="", file=self._terminal, flush=True)


def width_of(terminal: TextIO) -> int:
    """How many columns a terminal has."""
    try:
        return os.get_terminal_size(terminal.fileno()).columns or 80
    except OSError:
        return 80


def terminal_of(stream: Optional[TextIO]) -> Optional[TextIO]:
    """The stream, if it is a terminal."""
    return stream if stream is not None and stream.isatty() else None
