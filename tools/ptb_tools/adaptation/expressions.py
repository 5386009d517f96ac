"""Parses expressions from tokens: numbers, names, elements, calls, and operators by their precedence."""

from __future__ import annotations

from fractions import Fraction
from typing import List, Optional, Tuple

from .dialects import Dialect
from .notes import ByHand
from .tokens import FUNCTIONS, Sort, Token
from .trees import Binary, Call, Element, Name, Number, Text, Unary

SPELLINGS = {"<>": "#", "><": "#", "=>": ">=", "=<": "<="}
LEVELS = (("OR",), ("AND",), (), (">=", "#", ">", "=", "<=", "<"), ("+", "-"), (), ("*", "/", "MOD"), ("^", "**"))
NOT_LEVEL, SIGN_LEVEL = 2, 5
WITHOUT_STRINGS = "strings in variables"
NO_SUCH = {
    "SQR": "SQR has no counterpart; search the root in a loop",
    "PEEK": "PEEK reads memory of a machine that is not there",
    "USR": "USR calls machine code",
    "INP": "INP reads a port of a machine that is not there",
    "LEN": WITHOUT_STRINGS,
    "ASC": WITHOUT_STRINGS,
    "VAL": WITHOUT_STRINGS,
    "INKEY": "keys cannot be read while the program runs",
}


class Reader:
    """Reads the tokens of a line from left to right."""

    def __init__(self, tokens: List[Token], dialect: Dialect) -> None:
        self.tokens = tokens
        self.dialect = dialect
        self.at = 0
        self.changes: List[str] = []

    def peek(self, ahead: int = 0) -> Optional[Token]:
        """The next token, or one after it; None at the end."""
        return self.tokens[self.at + ahead] if self.at + ahead < len(self.tokens) else None

    def sees(self, *texts: str) -> bool:
        """Whether the next token is one of these words or signs."""
        token = self.peek()
        return token is not None and token.sort in (Sort.WORD, Sort.SIGN) and token.text in texts

    def take(self, *texts: str) -> bool:
        """Takes the next token if it is one of these words or signs."""
        found = self.sees(*texts)
        self.at += found
        return found

    def need(self, text: str) -> None:
        """Takes a word or sign that must be there."""
        if not self.take(text):
            raise ByHand(f"{text} is missing" + (f" before {self.peek().text}" if self.peek() else " at its end"))

    def next(self) -> Token:
        """Takes the next token."""
        token = self.peek()
        if token is None:
            raise ByHand("something is missing at its end")
        self.at += 1
        return token

    def at_end(self) -> bool:
        """Whether the statement is over."""
        token = self.peek()
        return token is None or token.sort in (Sort.SEPARATOR, Sort.REMARK) or self.sees("ELSE")

    # ---- expressions

    def expression(self, level: int = 0) -> object:
        """An expression whose operators have at least this level."""
        if level == len(LEVELS):
            return self.factor()
        if level == NOT_LEVEL:
            return Unary("NOT", self.expression(level)) if self.take("NOT") else self.expression(level + 1)
        if level == SIGN_LEVEL:
            return self.signed(level)
        left = self.expression(level + 1)
        while True:
            sign = self.operator(LEVELS[level])
            if not sign:
                return left
            left = Binary(sign, left, self.expression(level + 1))

    def operator(self, signs: Tuple[str, ...]) -> str:
        """Takes an operator of a level; nothing if there is none."""
        token = self.peek()
        if token is None or token.sort not in (Sort.WORD, Sort.SIGN):
            return ""
        sign = SPELLINGS.get(token.text, token.text)
        if sign == "*" and self.peek(1) == Token(Sort.SIGN, "*") and "^" in signs:
            self.at += 2
            return "^"
        if sign not in signs or sign == "*" and self.peek(1) == Token(Sort.SIGN, "*"):
            return ""
        self.at += 1
        if sign != token.text:
            self.changes.append(f"{token.text} is {sign}")
        return sign

    def signed(self, level: int) -> object:
        """A product with a sign in front of it, or none."""
        if self.take("-"):
            return Unary("-", self.expression(level))
        self.take("+")
        return self.expression(level + 1)

    def factor(self) -> object:
        """A number, name, element, call, string or an expression in parentheses."""
        token = self.next()
        if token.sort is Sort.NUMBER:
            return Number(Fraction(token.text.rstrip(".") if token.text != "." else "0"))
        if token.sort is Sort.STRING:
            return Text(token.text[1:-1], token.text[0])
        if token.sort is Sort.NAME:
            return self.named(token.text)
        if token.text == "@":
            return Element("@", self.arguments())
        if token.sort is Sort.SIGN and token.text == "(":
            found = self.expression()
            self.need(")")
            return found
        if token.sort is Sort.SIGN and token.text == "-":
            return Unary("-", self.factor())
        if token.sort is Sort.WORD and token.text in FUNCTIONS:
            return self.call(token.text)
        raise ByHand(f"a value is missing before {token.text}")

    def arguments(self) -> Tuple[object, ...]:
        """The expressions in parentheses that follow."""
        self.need("(")
        found = [self.expression()]
        while self.take(","):
            found.append(self.expression())
        self.need(")")
        return tuple(found)

    def named(self, name: str) -> object:
        """A variable, or an element where a parenthesis follows."""
        if name.endswith("$"):
            raise ByHand(f"{WITHOUT_STRINGS}: {name}")
        is_element = self.sees("(") and self.dialect.name != "palo-alto"
        return Element(name, self.arguments()) if is_element else Name(name)

    def call(self, name: str) -> object:
        """A call of a function of the language."""
        if name in NO_SUCH:
            raise ByHand(NO_SUCH[name])
        if name in ("SIN", "COS", "TAN", "ATN", "LOG", "EXP"):
            raise ByHand(f"{name} gives fractions; use a table of whole numbers")
        return Call(name, self.arguments() if self.sees("(") else ())

    def variable(self) -> object:
        """A variable or an element, to which something is given."""
        token = self.next()
        if token.sort is Sort.NAME:
            return self.named(token.text)
        if token.text == "@":
            return Element("@", self.arguments())
        raise ByHand(f"{token.text} is no variable")
