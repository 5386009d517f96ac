"""Puts commands into lines with numbers: lines of at most 255 bytes, and jumps where one line isn't enough."""

from __future__ import annotations

import re
from dataclasses import dataclass, field
from typing import Dict, List, Optional, Sequence, Tuple, Union

from .lines import LARGEST_NUMBER

LONGEST_TEXT = 255
STEP = 10
LABEL = re.compile("\x01([^\x02]+)\x02")  # bytes that no listing has


@dataclass(frozen=True)
class Plain:
    """A command that the next one may follow."""

    text: str


@dataclass(frozen=True)
class Last:
    """A command that nothing may follow: GOTO, RETURN or STOP."""

    text: str


@dataclass(frozen=True)
class Choice:
    """An IF: its condition, the condition for its not being so, and the commands of its branches."""

    condition: str
    negated: str
    then: Tuple["Command", ...]
    other: Optional[Tuple["Command", ...]] = None


Command = Union[Plain, Last, Choice]


@dataclass
class Row:
    """A line of the program: the line of the listing that it comes from, its labels and its text."""

    source: int
    labels: List[str] = field(default_factory=list)
    text: str = ""


def label(name: object) -> str:
    """The place of a line number in a text."""
    return f"\x01{name}\x02"


def length(text: str) -> int:
    """The bytes of a text with line numbers of five digits."""
    return len(LABEL.sub("00000", text))


def one_line(commands: Sequence[Command]) -> Optional[str]:
    """The text of commands in one statement; None if they need several."""
    texts: List[str] = []
    for place, command in enumerate(commands):
        if isinstance(command, Choice):
            inner = None if command.other is not None or place + 1 < len(commands) else one_line(command.then)
            if inner is None:
                return None
            texts.append(f"IF {command.condition} {inner}".rstrip())
        else:
            texts.append(command.text)
            if isinstance(command, Last):
                break
    return ";".join(texts)


def ends(commands: Sequence[Command]) -> bool:
    """Whether commands never reach what follows them."""
    return any(isinstance(it, Last) for it in commands)


class Layout:
    """The lines of a program, to which commands are added in order."""

    def __init__(self) -> None:
        self.rows: List[Row] = []
        self.made = 0

    def line(self, source: int, name: object = None) -> None:
        """Starts a line, unless the one before is still empty; it gets the label as well."""
        if not self.rows or self.rows[-1].text:
            self.rows.append(Row(source))
        self.rows[-1].source = source
        if name is not None:
            self.rows[-1].labels.append(str(name))

    def put(self, text: str) -> None:
        """Adds a command to the line, or to a new one if it is full."""
        row = self.rows[-1]
        if row.text and length(row.text) + 1 + length(text) > LONGEST_TEXT:
            self.line(row.source)
            row = self.rows[-1]
        row.text += (";" if row.text else "") + text

    def write(self, commands: Sequence[Command], after: str) -> None:
        """Adds commands. The label `after` is that of the line that follows them."""
        for place, command in enumerate(commands):
            if isinstance(command, Choice):
                followed = place + 1 < len(commands)
                join = self.new_label() if followed else after
                self.choose(command, join)
                self.line(self.rows[-1].source, join if followed else None)
            else:
                self.put(command.text)
                if isinstance(command, Last):
                    return

    def new_label(self) -> str:
        """A label for a line inside of what was one line."""
        self.made += 1
        return f"inner {self.made}"

    def choose(self, choice: Choice, join: str) -> None:
        """Adds an IF. What follows both of its branches is at the label `join`."""
        source = self.rows[-1].source
        inner = one_line(choice.then)
        if inner is not None and choice.other and not ends(choice.then):
            inner = ";".join(it for it in (inner, f"GOTO {label(join)}") if it)
        text = f"IF {choice.condition} {inner}".rstrip()
        if inner is not None and length(text) <= LONGEST_TEXT:
            self.put(text)
            self.line(source)
            self.write(choice.other or (), join)
            return
        other = self.new_label() if choice.other else join
        self.put(f"IF {choice.negated} GOTO {label(other)}")
        self.line(source)
        self.write(choice.then, join)
        if choice.other:
            if not ends(choice.then):
                self.put(f"GOTO {label(join)}")
            self.line(source, other)
            self.write(choice.other, join)

    # ---- numbers

    def numbers(self) -> Tuple[List[int], bool]:
        """The number of each line, and whether they are others than those of the listing."""
        found: List[int] = []
        for row in self.rows:
            is_first = str(row.source) in row.labels
            found.append(row.source if is_first or not found else found[-1] + 1)
        head = sum(row.source == 0 for row in self.rows)
        if head and head < len(self.rows):
            found[:head] = range(found[head] - head, found[head])
        rising = all(first < second for first, second in zip(found, found[1:]))
        if rising and (not found or found[0] > 0 and found[-1] <= LARGEST_NUMBER):
            return found, False
        step = max(1, min(STEP, LARGEST_NUMBER // len(self.rows)))
        return [step * (place + 1) for place in range(len(self.rows))], True

    def program(self) -> Tuple[List[str], bool, int]:
        """The lines of the program, whether they have new numbers, and what it costs of the memory."""
        if any(label("end") in row.text for row in self.rows):
            self.line(self.rows[-1].source, "end")
            self.put("STOP")
        self.rows = [row for row in self.rows if row.text]
        numbers, renumbered = self.numbers()
        places: Dict[str, int] = {name: line for row, line in zip(self.rows, numbers) for name in row.labels}
        texts = [LABEL.sub(lambda found: str(places[found[1]]), row.text) for row in self.rows]
        cost = sum(len(text) + 3 for text in texts)
        return [f"{line} {text}" for line, text in zip(numbers, texts)], renumbered, cost
