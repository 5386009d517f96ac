"""Parses the statements of a line from its tokens."""

from __future__ import annotations

from fractions import Fraction
from typing import Callable, Dict, List, Tuple

from .dialects import Dialect
from .expressions import WITHOUT_STRINGS, Reader
from .notes import ByHand
from .tokens import Sort, tokens_of
from .trees import Blanks, Item, Name, Number, Return, Statement, Text, Width

SAME = {
    "PR": "PRINT",
    "LPRINT": "PRINT",
    "IN": "INPUT",
    "NXT": "NEXT",
    "RET": "RETURN",
    "END": "STOP",
    "HOME": "CLS",
    "CLRS": "CLS",
}
WITHOUT_EFFECT = ("RANDOMIZE", "CLEAR", "WIDTH", "NULL")
REFUSED = {
    "WHILE": "WHILE has no counterpart; use IF and GOTO",
    "WEND": "WEND has no counterpart; use IF and GOTO",
    "POKE": "POKE writes memory of a machine that is not there",
    "OUT": "OUT writes a port of a machine that is not there",
    "CALL": "CALL calls machine code",
    "MAT": "MAT has no counterpart; use FOR and NEXT",
    "SWAP": "SWAP has no counterpart; use a third variable",
    "GET": "keys cannot be read while the program runs",
    **{word: f"{word}: there are no files" for word in ("OPEN", "CLOSE", "SAVE", "LOAD", "CHAIN")},
}


class StatementReader(Reader):
    """Reads statements. Each method of a word reads what follows it."""

    def statements(self) -> Tuple[Statement, ...]:
        """The statements up to the end of the line or an ELSE."""
        found: List[Statement] = []
        while self.peek() is not None and not self.sees("ELSE"):
            if self.peek().sort is Sort.SEPARATOR:
                self.at += 1
                continue
            found.append(self.statement())
            if not self.at_end():
                raise ByHand(f"{self.peek().text} is not expected there")
        return tuple(found)

    def statement(self) -> Statement:
        """One statement."""
        token = self.peek()
        if token.sort is Sort.REMARK:
            self.at += 1
            return Statement("REM", (token.text,))
        if token.sort is not Sort.WORD:
            return self.read_let()
        self.at += 1
        word = SAME.get(token.text, token.text)
        if token.text != word or token.text == "CLS":
            self.changes.append(f"{token.text} is {'PRINT' if word == 'CLS' else word}")
        if word in WITHOUT_EFFECT:
            return self.skipped(word)
        if word in REFUSED:
            raise ByHand(REFUSED[word])
        read = READERS.get(word)
        if not read:
            raise ByHand(f"{word} cannot start a statement")
        return read(self)

    def skipped(self, word: str) -> Statement:
        """A statement that has no effect here."""
        while not self.at_end():
            self.at += 1
        self.changes.append(f"{word} is left out")
        return Statement("NOTHING")

    def read_let(self) -> Statement:
        """Pairs of a variable and a value."""
        pairs: List[object] = []
        while True:
            variable = self.variable()
            self.need("=")
            pairs += [variable, self.expression()]
            if not self.take(","):
                return Statement("LET", tuple(pairs))

    def read_print(self) -> Statement:
        """Items with separators."""
        items: List[Item] = []
        if self.sees("@") and self.dialect.name == "microsoft" or self.take("USING"):
            raise ByHand("PRINT USING and PRINT @ have no counterpart; use # and blanks")
        while not self.at_end():
            if self.sees(";", ","):
                items.append(Item(Text(""), self.next().text))
                continue
            value = self.print_value()
            items.append(Item(value, self.next().text if self.sees(";", ",") else ""))
        return Statement("PRINT", tuple(items))

    def print_value(self) -> object:
        """The value of an item of PRINT."""
        if self.sees("TAB", "TB", "SPC"):
            word = self.next().text
            return Blanks("SPC" if word == "SPC" else "TAB", self.arguments()[0])
        if self.dialect.name == "palo-alto":
            if self.take("#"):
                return Width(self.expression())
            if self.take("_"):
                return Return()
        if self.sees("#"):
            raise ByHand("PRINT #: there are no files")
        return self.expression()

    def read_input(self) -> Statement:
        """Texts and variables."""
        items: List[Item] = []
        if self.sees("#"):
            raise ByHand("INPUT #: there are no files")
        while not self.at_end() or not items:
            if self.peek() and self.peek().sort is Sort.STRING:
                value: object = self.factor()
            elif self.take("_"):
                value = Return()
            else:
                value = self.variable()
            items.append(Item(value, self.next().text if self.sees(";", ",") else ""))
        return Statement("INPUT", tuple(items))

    def read_if(self) -> Statement:
        """A condition and what follows it: a line number or statements, and those after ELSE."""
        condition = self.expression()
        with_then = self.take("THEN")
        then = self.branch(with_then)
        if not self.take("ELSE"):
            return Statement("IF", (condition,), then)
        return Statement("IF", (condition,), then, self.branch(True))

    def branch(self, with_word: bool) -> Tuple[Statement, ...]:
        """What is done in a branch of IF. A number or THEN GOTO is a jump."""
        if with_word and self.peek() and self.peek().sort is Sort.NUMBER:
            self.changes.append("THEN and a number is GOTO")
            jump = Statement("GOTO", (self.expression(),))
            return (jump, *self.statements())
        if with_word:
            self.changes.append("THEN is left out")
        return self.statements()

    def read_goto(self) -> Statement:
        """A line number, or an expression for it."""
        return Statement("GOTO", (self.expression(),))

    def read_gosub(self) -> Statement:
        """A line number, or an expression for it."""
        return Statement("GOSUB", (self.expression(),))

    def read_on(self) -> Statement:
        """A value, GOTO or GOSUB, and line numbers."""
        value = self.expression()
        word = self.next().text
        if word not in ("GOTO", "GOSUB"):
            raise ByHand(f"ON and {word} have no counterpart")
        lines = [self.expression()]
        while self.take(","):
            lines.append(self.expression())
        return Statement(f"ON {word}", (value, *lines))

    def read_for(self) -> Statement:
        """A variable, its first value, the limit, and the step if there is one."""
        variable = self.variable()
        self.need("=")
        first = self.expression()
        self.need("TO")
        limit = self.expression()
        steps = (self.expression(),) if self.take("STEP") else ()
        return Statement("FOR", (variable, first, limit, *steps))

    def read_next(self) -> Statement:
        """Variables, or none."""
        found: List[object] = []
        while not self.at_end():
            found.append(self.variable())
            self.take(",")
        return Statement("NEXT", tuple(found))

    def read_read(self) -> Statement:
        """The variables of READ."""
        found = [self.variable()]
        while self.take(","):
            found.append(self.variable())
        return Statement("READ", tuple(found))

    def read_dim(self) -> Statement:
        """The arrays of DIM. Those of strings are left out; the lines that use them are left to a person."""
        found: List[object] = []
        while True:
            token = self.peek()
            if token and token.text.endswith("$"):
                self.next()
                self.arguments()
                self.changes.append("DIM of strings is left out")
            else:
                found.append(self.variable())
            if not self.take(","):
                return Statement("DIM", tuple(found))

    def read_data(self) -> Statement:
        """Numbers with commas between them."""
        text = self.next().text if self.peek() and self.peek().sort is Sort.DATA else ""
        found: List[object] = []
        for item in text.split(","):
            try:
                found.append(Number(whole_number(item)))
            except ValueError:
                raise ByHand(f"DATA with {item.strip()[:20]}, which is no whole number") from None
        return Statement("DATA", tuple(found))

    def read_def(self) -> Statement:
        """A function of one line: its name, its parameter and its expression."""
        token = self.next()
        name = token.text + (self.next().text if token.text == "FN" else "")
        if name.endswith("$") or not name.startswith("FN"):
            raise ByHand(WITHOUT_STRINGS if name.endswith("$") else f"DEF {name} is no function")
        parameters = self.arguments() if self.sees("(") else ()
        self.need("=")
        return Statement("DEF", (Name(name), parameters, self.expression()))


def whole_number(item: str) -> Fraction:
    """The whole number of an item of DATA."""
    value = Fraction(item.replace(" ", "") or "0")
    if value.denominator != 1:
        raise ValueError
    return value


READERS: Dict[str, Callable[[StatementReader], Statement]] = {
    "LET": StatementReader.read_let,
    "PRINT": StatementReader.read_print,
    "INPUT": StatementReader.read_input,
    "IF": StatementReader.read_if,
    "GOTO": StatementReader.read_goto,
    "GOSUB": StatementReader.read_gosub,
    "ON": StatementReader.read_on,
    "FOR": StatementReader.read_for,
    "NEXT": StatementReader.read_next,
    "DEF": StatementReader.read_def,
    "DATA": StatementReader.read_data,
    "READ": StatementReader.read_read,
    "DIM": StatementReader.read_dim,
    "RESTORE": lambda reader: Statement("RESTORE"),
    "RETURN": lambda reader: Statement("RETURN"),
    "STOP": lambda reader: Statement("STOP"),
    "CLS": lambda reader: Statement("PRINT"),
}


def parsed(text: str, dialect: Dialect) -> Tuple[Tuple[Statement, ...], List[str]]:
    """The statements of the text of a line, and what their words changed into."""
    reader = StatementReader(tokens_of(text, dialect), dialect)
    found = reader.statements()
    if reader.sees("ELSE"):
        raise ByHand("ELSE without IF")
    return found, reader.changes
