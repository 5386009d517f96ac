"""Writes PRINT: blanks for TAB and zones, blanks around numbers, and commas between items."""

from __future__ import annotations

from typing import Callable, List, Tuple

from .dialects import Dialect
from .notes import ByHand
from .spelling import spelled
from .sums import minus, plus
from .trees import ZERO, Blanks, Item, Number, Return, Text, Width, number

LONGEST = 150  # bytes of the items of one PRINT
LONGEST_STRING = 100
DIGITS = 2  # that a number is taken to have where a column depends on it
BARE = "#1"


def wrap(text: str) -> List[str]:
    """A text in pieces that fit into a line; none where it is empty."""
    return [text[at : at + LONGEST_STRING] for at in range(0, len(text), LONGEST_STRING)]


class Printer:
    """Makes the commands of one PRINT from its items.

    `value` gives the whole number for a tree; `warn` gets where the meaning may change; `letter` gives a letter for a loop.
    """

    def __init__(
        self,
        dialect: Dialect,
        value: Callable[[object], object],
        warn: Callable[[str], None],
        letter: Callable[[], str],
    ) -> None:
        self.dialect = dialect
        self.value = value
        self.warn = warn
        self.letter = letter
        self.commands: List[str] = []
        self.parts: List[Tuple[str, str]] = []  # the items of this PRINT: texts as "text", others as "code"
        self.width = ""
        self.column = 0  # after what self.base is, where it is a value
        self.base: object = ZERO
        self.exact = True  # whether the column is known
        self.filled = False  # whether the last item is a number that fills its zone

    def print(self, items: Tuple[Item, ...]) -> List[str]:
        """The commands."""
        if self.dialect.name == "palo-alto":
            return [self.verbatim(items)]
        for place, item in enumerate(items):
            before = items[place - 1].after if place else ""
            self.item(item, before)
            if item.after == ",":
                self.zone()
        self.flush(bool(items) and items[-1].after != "")
        return self.commands

    def verbatim(self, items: Tuple[Item, ...]) -> str:
        """A PRINT of Tiny BASIC as it is."""
        if not all(it.after for it in items[:-1]):
            raise ByHand("a comma is missing between items of PRINT")
        parts = [self.code(it.value) + ("," if it.after else "") for it in items]
        return "PRINT" + (" " + "".join(parts) if parts else "")

    def code(self, value: object) -> str:
        """An item of Tiny BASIC."""
        if isinstance(value, Text):
            return f"{value.quote}{value.text}{value.quote}"
        if isinstance(value, Return):
            return "_"
        if isinstance(value, Width):
            return "#" + spelled(self.value(value.width))
        if isinstance(value, Blanks):
            raise ByHand("TAB has no counterpart")
        return spelled(self.value(value))

    # ---- items

    def item(self, item: Item, before: str) -> None:
        """Adds an item; `before` is the separator in front of it."""
        self.filled = False
        if isinstance(item.value, Text):
            self.text(item.value.text)
        elif isinstance(item.value, Blanks):
            self.blanks(item.value)
        else:
            in_zone = "," in (item.after, before) and self.known() and self.column % self.dialect.zone == 0
            self.number(item.value, in_zone)

    def text(self, text: str) -> None:
        """Adds a text; two of them one after the other become one."""
        self.column += len(text)
        if self.parts and self.parts[-1][0] == "text":
            text = self.parts.pop()[1] + text
        self.parts.append(("text", text))

    def number(self, tree: object, in_zone: bool) -> None:
        """Adds a number: in its own zone, or with the blanks that the dialect shows around it."""
        code = spelled(self.value(tree))
        padded = self.dialect.padded and not in_zone
        if padded:
            self.text(" ")
        width = f"#{self.dialect.zone - 1}" if in_zone else BARE
        if width != self.width:
            self.parts.append(("code", width))
            self.width = width
        self.parts.append(("code", code))
        if in_zone:
            self.column += self.dialect.zone - 1
        else:
            self.column += DIGITS
            self.exact = False
        if padded or in_zone:
            self.text(" ")
        self.filled = in_zone

    def blanks(self, blanks: Blanks) -> None:
        """Adds the blanks of TAB or SPC."""
        wanted = count = self.value(blanks.count)
        if blanks.word == "TAB":
            if not self.exact:
                self.warn(f"TAB after a number: the number is taken to have {DIGITS} digits")
            wanted = minus(minus(count, self.base), number(self.column))
        if isinstance(wanted, Number):
            self.text(" " * max(0, int(wanted.value)))
            return
        self.loop(spelled(wanted))
        self.base, self.column = (count, 0) if blanks.word == "TAB" else (plus(self.base, count), self.column)

    def loop(self, count: str) -> None:
        """Adds a loop that shows this number of blanks."""
        self.warn("TAB of a value shows at least one blank")
        if self.parts:
            self.flush(True)
        letter = self.letter()
        self.commands += [f"FOR {letter}=1 TO {count}", 'PRINT " ",', f"NEXT {letter}"]

    def zone(self) -> None:
        """Adds the blanks of a comma, up to the next zone."""
        if self.filled:
            return
        if not self.known():
            self.warn("a comma after a number shows two blanks; columns may not be straight")
        self.text(" " * (self.dialect.zone - self.column % self.dialect.zone if self.known() else 2))

    def known(self) -> bool:
        """Whether the column is a known number."""
        return self.exact and self.base == ZERO

    # ---- commands

    def flush(self, is_open: bool) -> None:
        """Makes commands of the items so far; an open line is continued by the next PRINT."""
        if not is_open and self.parts[-1:] == [("text", " ")] and len(self.parts) > 1:
            self.parts.pop()  # a blank at the end of a line is not seen
        codes: List[str] = []
        for kind, text in self.parts:
            codes += [f'"{piece}"' for piece in wrap(text)] if kind == "text" else [text]
        if not codes and is_open:
            codes = ['""']
        line: List[str] = []
        for code in codes:
            if line and sum(len(it) + 1 for it in line) + len(code) > LONGEST and not line[-1].startswith("#"):
                self.commands.append(f"PRINT {','.join(line)},")
                line = [it for it in line if it.startswith("#")][-1:]
            line.append(code)
        tail = f" {','.join(line)}" if line else ""
        self.commands.append(f"PRINT{tail}" + ("," if is_open and tail else ""))
        self.parts, self.width = [], ""
