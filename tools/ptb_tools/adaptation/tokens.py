"""Cuts the text of a line into words, names, numbers, strings, signs, remarks and data."""

from __future__ import annotations

import re
from dataclasses import dataclass
from enum import Enum
from typing import Iterator, List, Optional, Tuple

from .dialects import Dialect
from .notes import ByHand


class Sort(Enum):
    """What a token is."""

    WORD = "word"
    NAME = "name"
    NUMBER = "number"
    STRING = "string"
    SIGN = "sign"
    REMARK = "remark"
    DATA = "data"
    SEPARATOR = "separator"


@dataclass(frozen=True)
class Token:
    """A token: what it is, and its text; a string has its quotes."""

    sort: Sort
    text: str


COMMANDS = """NEXT LET IF GOTO GOSUB RETURN REMARK REM FOR INPUT PRINT STOP PR IN NXT RET END READ DATA RESTORE DIM DEF ON
    RANDOMIZE LPRINT CLS HOME CLEAR CLRS WIDTH NULL WHILE WEND POKE OUT CALL OPEN CLOSE SAVE LOAD CHAIN MAT GET SWAP""".split()
INNER = "THEN ELSE TO STEP AND OR NOT MOD TAB SPC TB USING".split()
FUNCTIONS = "RND ABS SIZE INT SGN SQR SIN COS TAN ATN LOG EXP PEEK USR INP FRE POS LEN ASC VAL INKEY RN SZ".split()
WORDS = sorted(COMMANDS + INNER + FUNCTIONS, key=len, reverse=True)
SHY_COMMANDS = "PR IN ON GET OUT MAT RET NXT END CALL OPEN LOAD SAVE CLEAR HOME WIDTH NULL SWAP".split()  # often names
PALO_ALTO_WORDS = "NEXT LET IF GOTO GOSUB RETURN REM FOR INPUT PRINT STOP TO STEP RND ABS SIZE THEN END".split()
DENVER_ONLY = ("NXT", "RET", "TB", "RN", "SZ", "CLRS")
# abbreviations with a period: the first one that fits is meant
SHORT_COMMANDS = "NEXT LET IF GOTO GOSUB RETURN REM FOR INPUT PRINT STOP THEN DATA END".split()
SHORT_FUNCTIONS = "RND ABS SIZE TAB INT".split()
SIGNS = ("<>", "><", ">=", "=>", "<=", "=<")
ONE_NUMBER = re.compile(r"\d+(\.\d*)?(E[+-]?\d+)?|\.\d+(E[+-]?\d+)?")
RUN = re.compile(r"[A-Z][A-Z0-9]*[$%]?")
SHORT = re.compile(r"([A-Z]+)\.")
DIGITS = re.compile(r"\d+")


class Scanner:
    """Cuts one line into tokens. Words and names may be in small letters."""

    def __init__(self, text: str, dialect: Dialect) -> None:
        self.source = text
        self.text = text.upper()
        self.dialect = dialect
        self.at = 0
        self.fresh = True  # whether a statement starts here
        self.condition = False  # whether the statement starts with IF, and no THEN was met
        self.operand = False  # whether the last token may end a value
        self.item = False  # whether an item of PRINT or INPUT may start here

    def tokens(self) -> Iterator[Token]:
        """The tokens of the line, in order."""
        while self.at < len(self.text):
            if self.text[self.at].isspace():
                self.at += 1
                continue
            token = self.next_token()
            self.notice(token)
            yield token
            if token == Token(Sort.WORD, "DATA"):
                yield self.data()

    def notice(self, token: Token) -> None:
        """Keeps what the reading of the next token depends on."""
        self.fresh = token.sort is Sort.SEPARATOR or token.text in ("THEN", "ELSE")
        if token.sort is Sort.WORD:
            self.condition = token.text == "IF" or self.condition and token.text in FUNCTIONS + ["AND", "OR", "NOT"]
        self.operand = token.sort in (Sort.NAME, Sort.NUMBER, Sort.STRING) or token.text == ")"
        self.item = token.text in ("PRINT", "INPUT", ",", ";")

    def next_token(self) -> Token:
        """The token at this place."""
        sign = self.text[self.at]
        if sign == "'" and self.dialect.name != "palo-alto" and not self.quotes():
            return self.rest(Sort.REMARK, 1)
        if sign in "\"'":
            return self.string(sign)
        number = (DIGITS if self.dialect.name == "palo-alto" else ONE_NUMBER).match(self.text, self.at)
        if number:
            return self.take(Sort.NUMBER, number[0])
        if sign.isalpha():
            return self.word()
        return self.sign()

    def quotes(self) -> bool:
        """Whether a string in ' starts here, and not a remark."""
        return self.item and "'" in self.text[self.at + 1 :]

    def take(self, sort: Sort, text: str) -> Token:
        """A token with the text at this place."""
        self.at += len(text)
        return Token(sort, text)

    def rest(self, sort: Sort, skipped: int) -> Token:
        """A token with the rest of the line."""
        text = self.source[self.at + skipped :]
        self.at = len(self.text)
        return Token(sort, text)

    def string(self, quote: str) -> Token:
        """A string; one that isn't closed ends with the line."""
        end = self.text.find(quote, self.at + 1)
        if end < 0:
            return Token(Sort.STRING, self.rest(Sort.STRING, 0).text + quote)
        return self.take(Sort.STRING, self.source[self.at : end + 1])

    def sign(self) -> Token:
        """A sign of one or two characters."""
        text = self.text[self.at]
        if text == self.dialect.separator and not (text == ";" and self.dialect.name != "palo-alto"):
            return self.take(Sort.SEPARATOR, text)
        if text == "?":
            self.at += 1
            return Token(Sort.WORD, "PRINT")
        pair = re.match(r"[<>=] ?[<>=]", self.text[self.at :]) if self.dialect.name != "palo-alto" else None
        if pair and pair[0].replace(" ", "") in SIGNS:
            self.at += len(pair[0])
            return Token(Sort.SIGN, pair[0].replace(" ", ""))
        if self.text[self.at : self.at + 2] in SIGNS:
            return self.take(Sort.SIGN, self.text[self.at : self.at + 2])
        return self.take(Sort.SIGN, text)

    def word(self) -> Token:
        """A word or a name. REM and ' take the rest of the line."""
        word = self.short_word() or self.keyword()
        if word is None:
            return self.name()
        if word in ("REM", "REMARK"):
            return self.rest(Sort.REMARK, 0)
        return Token(Sort.WORD, word)

    def short_word(self) -> Optional[str]:
        """The word that an abbreviation with a period means."""
        found = SHORT.match(self.text, self.at)
        if not found:
            return None
        for word in self.short_words():
            if word.startswith(found[1]) and word != found[1]:
                self.at = found.end()
                return word
        return None

    def short_words(self) -> List[str]:
        """The words that may be abbreviated here, in the order in which they are tried."""
        if self.fresh:
            return SHORT_COMMANDS
        if not self.operand:
            return SHORT_FUNCTIONS + SHORT_COMMANDS
        return (["THEN"] if self.condition else ["TO", "STEP"]) + SHORT_COMMANDS

    def keyword(self) -> Optional[str]:
        """The word at this place, if there is one."""
        run = RUN.match(self.text, self.at)[0]
        letters = re.match("[A-Z]+", run)[0]
        for word in WORDS:
            whole = letters == word and not run.endswith(("$", "%"))
            joined = self.dialect.crunched and run.startswith(word) and len(word) > 2 or run == word
            inner = self.dialect.crunched and word in ("IF", "TO", "OR", "ON") and run.startswith(word)
            if (whole or joined or inner) and self.is_meant(word):
                self.at += len(word)
                return word
        return None

    def is_meant(self, word: str) -> bool:
        """Whether a word of the table is a word of the dialect at this place."""
        if word in COMMANDS and self.text[self.at + len(word) :].lstrip().startswith("="):
            return False
        if word in DENVER_ONLY and self.dialect.name != "denver":
            return False
        if self.dialect.name == "palo-alto" and word not in PALO_ALTO_WORDS:
            return False
        return word not in SHY_COMMANDS or self.fresh or self.condition and self.operand

    def name(self) -> Token:
        """A name: the complete run of letters and digits, or where words need no blanks as much of it as is no word."""
        run = RUN.match(self.text, self.at)[0]
        if self.dialect.name == "palo-alto":
            return self.take(Sort.NAME, run[0])
        if not self.dialect.crunched:
            return self.take(Sort.NAME, run)
        if run.startswith("FN") and len(run) > 2:
            return self.take(Sort.NAME, run[:3])
        end = 1
        while end < len(run) and not any(run.startswith(word, end) for word in WORDS if self.ends_name(word)):
            end += 1
        return self.take(Sort.NAME, run[:end])

    def ends_name(self, word: str) -> bool:
        """Whether a word may follow a name directly."""
        return word in ("THEN", "TO", "STEP", "AND", "OR", "ELSE", "GOTO", "GOSUB", "MOD", "PRINT", "LET")

    def data(self) -> Token:
        """The text of DATA up to the end of the statement."""
        end, quoted = self.at, False
        while end < len(self.text) and (quoted or self.text[end] != self.dialect.separator):
            quoted ^= self.text[end] == '"'
            end += 1
        return self.take(Sort.DATA, self.source[self.at : end])


def joined(tokens: List[Token]) -> Iterator[Token]:
    """The tokens, with GO TO, GO SUB and the name of a function as one token each."""
    at = 0
    while at < len(tokens):
        pair: Tuple[str, ...] = tuple(it.text for it in tokens[at : at + 2])
        if pair in (("GO", "TO"), ("GO", "SUB")):
            yield Token(Sort.WORD, "".join(pair))
            at += 2
        elif pair[:1] == ("FN",) and len(pair) == 2:
            yield Token(Sort.NAME, "".join(pair))
            at += 2
        else:
            yield tokens[at]
            at += 1


def tokens_of(text: str, dialect: Dialect) -> List[Token]:
    """The tokens of the text of a line."""
    found = list(joined(list(Scanner(text, dialect).tokens())))
    for token in found:
        if token.sort is Sort.SIGN and ord(token.text[0]) > 126:
            raise ByHand(f"the character {token.text} is not known")
    return found
