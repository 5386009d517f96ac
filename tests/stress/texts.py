"""This file makes random cases: program texts, input lines, and the limits under which they are tried.

It knows the language only as far as it takes to write programs that get somewhere. It doesn't know what they mean.
"""

import random
import string
from dataclasses import dataclass

COMMANDS = "NEXT LET IF GOTO GOSUB RETURN REM FOR INPUT PRINT STOP".split()
FUNCTIONS = "RND ABS SIZE".split()
COMPARISONS = [">=", "#", ">", "=", "<=", "<"]
LETTERS = "ABCDN"
LOOP_LETTERS = "IJK"
LONGEST_TEXT = 255


@dataclass(frozen=True)
class Case:
    """A program and its input, with the limits under which they are tried."""

    number: int
    kind: str
    program: bytes
    input: bytes
    steps: int
    memory: int
    choose: int  # the bound of answers instead of lines; 0 if there are none


def case_of(seed, number):
    """The case of this number. It depends on the seed and the number alone, so each can be made again by itself."""
    chance = random.Random(f"case {seed} {number}")
    maker = Maker(chance)
    kind, lines_of = chance.choice(KINDS)
    return Case(
        number,
        kind,
        file_of(chance, lines_of(maker)),
        input_of(maker),
        chance.choice([1, 3, 10, 50, 200, 200, 1000]),
        chance.choice([4096, 4096, 4096, 4096, 4096, 1200, 600, 300, 32767]),
        chance.choice([0, 0, 0, 1, 2, 2, 3, 32767]),
    )


class Maker:
    """Makes parts of programs. Each method gives the text of the part that it is named for."""

    def __init__(self, chance):
        self.chance = chance
        self.pick = chance.choice

    def often(self, times_of_hundred):
        return self.chance.randrange(100) < times_of_hundred

    def blanks(self):
        return self.pick(["", "", "", "", " ", "  "])

    def word(self, word, table):
        """A word of the table, whole or cut to letters that no earlier word begins with."""
        cuts = [word[:n] for n in range(1, len(word))]
        right = [cut for cut in cuts if next(it for it in table if it.startswith(cut)) == word]
        return self.pick(right) + "." if right and self.often(40) else word

    def command(self, word):
        return self.word(word, COMMANDS) + self.blanks()

    # ---- values

    def number(self):
        small = str(self.chance.randint(0, 12))
        other = self.pick(["0", "1", "2", "99", "255", "256", "32766", "32767", "32768", "99999", "007"])
        return small if self.often(80) else other

    def random_number(self, depth):
        bound = self.pick("12223346") if self.often(85) else self.expression(depth + 1)
        return self.word("RND", FUNCTIONS) + self.blanks() + f"({bound})"

    def element(self, depth):
        """An element of the array, often one near an end of it."""
        ends = ["0", "1", "I", "A", "SIZE/2", "SIZE/2+1", "SIZE/2-1", "S./2", "-1", "32767"]
        index = self.pick(ends) if self.often(70) else self.expression(depth + 1)
        return "@" + self.blanks() + f"({index})"

    def letter(self):
        return self.pick(LETTERS + LOOP_LETTERS)

    def variable(self):
        return self.element(2) if self.often(15) else self.letter()

    def factor(self, depth):
        forms = [
            (30, self.number),
            (25, self.letter),
            (15, lambda: self.random_number(depth)),
            (8, lambda: f"({self.expression(depth + 1)})"),
            (6, lambda: self.element(depth)),
            (4, lambda: self.word("ABS", FUNCTIONS) + f"({self.expression(depth + 1)})"),
            (2, lambda: self.word("SIZE", FUNCTIONS)),
        ]
        weights, made = zip(*(forms if depth < 3 else forms[:3]))
        return self.chance.choices(made, weights)[0]()

    def expression(self, depth=0):
        text = self.pick(["", "", "", "", "", "-", "+"]) + self.blanks() + self.factor(depth)
        while self.often(35 - 10 * depth):
            text += self.blanks() + self.pick("++--*/") + self.blanks() + self.factor(depth)
        if depth == 0 and self.often(12):
            text += self.blanks() + self.pick(COMPARISONS) + self.blanks() + self.factor(1)
        return text

    def condition(self):
        return self.factor(1) + self.blanks() + self.pick(COMPARISONS) + self.blanks() + self.factor(1)

    def quoted(self):
        quote, other = self.pick(["'\"", "\"'"])
        return quote + self.pick(["HI", "", " ", "A;B", "?,", other, "RUN 1 END 1 0", "lower"]) + quote

    # ---- commands

    def let(self):
        pairs = [f"{self.variable()}{self.blanks()}={self.expression()}" for _ in range(self.pick([1, 1, 1, 2, 3]))]
        return self.pick(["", self.command("LET")]) + ",".join(pairs)

    def shown(self):
        forms = [self.quoted, self.expression, self.expression, lambda: "_", lambda: "#" + self.pick("01389")]
        return self.pick(forms)()

    def print(self):
        items = [self.shown() for _ in range(self.pick([0, 1, 1, 2, 3]))]
        comma = "," if items and self.often(25) else ""
        return self.command("PRINT") + ",".join(items) + comma

    def asked(self):
        forms = [
            self.variable,
            self.quoted,
            lambda: self.quoted() + self.variable(),
            lambda: "_" + self.variable(),
            lambda: " " + self.variable() + " ",
            lambda: f"@ ( {self.random_number(1)} )",
        ]
        return self.pick(forms)()

    def input(self):
        return self.command("INPUT") + ",".join(self.asked() for _ in range(self.pick([1, 1, 2])))

    def simple(self):
        """A command that the next one follows."""
        return self.chance.choices([self.let, self.print, self.input], [50, 40, 10])[0]()

    def conditional(self, command):
        return self.command("IF") + self.condition() + " " + command

    def loop_head(self, letter, most):
        """FOR from 1 to a number that isn't far."""
        last = self.pick([str(self.chance.randint(1, most)), self.random_number(1)])
        step = self.pick(["", "", "", self.word("STEP", ["STEP"]) + self.pick(["1", "2", "-1"])])
        return self.command("FOR") + letter + "=1" + self.word("TO", ["TO"]) + last + step

    def loop(self):
        """A whole loop in one statement."""
        letter = self.pick(LOOP_LETTERS)
        return ";".join([self.loop_head(letter, 3), self.simple(), self.command("NEXT") + letter])

    def any_command(self):
        """Any command, in its place or out of it."""
        forms = [
            self.simple,
            self.simple,
            lambda: self.conditional(self.any_command()),
            lambda: self.jump("GOTO"),
            lambda: self.jump("GOSUB"),
            lambda: self.loop_head(self.pick(LOOP_LETTERS), 9),
            lambda: self.command("NEXT") + self.pick(LOOP_LETTERS),
            lambda: self.command(self.pick(["RETURN", "STOP"])),
            lambda: self.command("REM") + self.quoted(),
        ]
        return self.pick(forms)()

    def jump(self, word):
        return self.command(word) + self.pick(["10", "20", "30", "30", "40", "15", self.expression(1)])

    # ---- programs, as lists of pairs of a number and a text

    def tree(self):
        """Questions, branches, loops over several statements, subroutines: most of these programs come to their end."""
        parts = [
            lambda: [self.let()],
            lambda: [self.simple() + ";" + self.simple()],
            lambda: [self.letter() + "=" + self.random_number(0)],
            lambda: [self.loop()],
            self.long_loop,
            lambda: [self.conditional(self.simple())],
            lambda: [self.command("GOSUB") + self.pick(["900", "950"]) + ";" + self.print()],
            lambda: [self.conditional(self.command("GOTO") + self.pick(["10", "20", "890"]))],
        ]
        texts = [self.letter() + "=" + self.random_number(0) for _ in range(self.pick([0, 1, 1, 2]))]
        texts += [text for _ in range(self.chance.randint(1, 6)) for text in self.pick(parts)()]
        subroutines = [
            (890, self.word("STOP", COMMANDS)),
            (900, self.simple()),
            (910, self.conditional(self.word("RETURN", COMMANDS))),
            (950, self.print()),
            (960, self.word("RETURN", COMMANDS)),
        ]
        return numbered(texts) + subroutines

    def branches(self):
        """Questions after some answers and not after others, and with bounds that answers set."""
        asks = lambda: self.pick("AB") + "=" + self.random_number(2)
        test = lambda: self.command("IF") + self.pick("AB") + self.pick(COMPARISONS) + self.pick("1123") + " "
        parts = [
            asks,
            lambda: test() + asks(),
            lambda: test() + asks(),
            lambda: self.command("IF") + self.random_number(2) + "=1 " + asks(),
            lambda: self.pick("AB") + "=" + self.word("RND", FUNCTIONS) + self.pick(["(A+1)", "(A)", "(ABS(B)+1)"]),
            lambda: test() + self.command("GOTO") + self.pick(["20", "30", "40", "890"]),
            lambda: test() + self.word("STOP", COMMANDS),
            lambda: self.command("PRINT") + self.pick(["A", "A,B", "'X'"]),
        ]
        texts = [asks(), *(self.pick(parts)() for _ in range(self.chance.randint(1, 4)))]
        return numbered(texts) + [(890, self.word("STOP", COMMANDS))]

    def long_loop(self):
        letter = self.pick(LOOP_LETTERS)
        return [self.loop_head(letter, 3), self.simple(), self.loop(), self.command("NEXT") + letter]

    def soup(self):
        """Commands in any order, in some programs with spoilt bytes."""
        texts = [
            ";".join(self.any_command() for _ in range(self.pick([1, 1, 2, 3])))
            for _ in range(self.chance.randint(1, 7))
        ]
        spoilt = self.pick([0, 0, 30])
        return numbered([self.spoilt(text) if self.often(spoilt) else text for text in texts])

    def spoilt(self, text):
        """The text with a byte that is dropped, put in, or changed."""
        place = self.chance.randrange(len(text) + 1)
        rest = self.pick([place, place + 1])
        return text[:place] + self.pick(["", *";,.()=@#'\"_?$Xx9 "]) + text[rest:]

    def deep(self):
        """Statements as long as they may be: many parentheses, many operators, long numbers, long lists."""
        room = self.chance.randint(200, LONGEST_TEXT)
        half = (room - 6) // 2
        texts = [
            "P." + "(" * half + "7" + ")" * (half - self.pick([0, 0, 1])),
            "P." + "R.(" * (half // 3) + "2" + ")" * (half // 3),
            "A=" + "@(" * (half // 3) + "0" + ")" * (half // 3) + ";P.A",
            "P." + "-(" * (half // 2) + self.number() + ")" * (half // 2),
            "P." + self.pick("+-*").join(["1"] * half),
            "P." + "0" * (room - 9) + self.number(),
            "A=" + ",A=".join(["A+1"] * (room // 7)) + ";P.A",
            "P." + ",".join(["R.(1)"] * (room // 6)),
            "I." * (room // 5) + "P.1",
            "IF" + "IF".join(["1"] * (room // 4)) + " P.1",
            "P." + ";P." * (room // 4),
            "P." + "(" * (room - 4),
            "IN.'" + "Q" * (room - 10) + "'A;P.A",
        ]
        return numbered([self.pick(texts)[:LONGEST_TEXT] for _ in range(self.pick([1, 2, 3]))])

    def nests(self):
        """Loops and calls that are open together, about as many as may be."""
        letters = self.chance.sample(string.ascii_uppercase, self.chance.randint(2, 23))
        heads = ";".join(f"F.{letter}=1TO{self.pick('1123')}" for letter in letters)
        nexts = ";".join(f"N.{letter}" for letter in reversed(letters))
        depth = self.pick([3, 20, 128, 230, 252, 255, 256, 257])
        forms = [
            [heads, "GOS.40", "S.", f"@(0)=@(0)+1;IF@(0)<{depth}GOS.40", "R."],
            [heads, "P.R.(2)", nexts],
            [f"A=A+1;F.I=1TO2;IF A<{depth}GOS.10", "N.I;P.A", "IF R.(2)=1 RETURN"],
            ["GOS.30;P.#1,R.(2)", "S.", f"A=A+1;IF A<{depth}GOS.30", "B=B+R.(1)", "R."],
            ["F.I=1TO9;F.J=1TO9;F.I=1TO2", "N.J;N.I", "N." + self.pick("IJ")],
        ]
        return numbered(self.pick(forms))

    def rough(self):
        """A program with a line that may be refused."""
        lines = self.soup()
        odd = [
            (self.pick([0, 32767, 32768, 99999, 10**30]), self.print()),
            (self.number(), "P." + "A" * self.pick([252, 253, 254, 400])),
            ("", self.print()),
            ("-10", self.print()),
            (70, "P." + chr(self.pick([0, 7, 13, 27, 31, 127, 128, 200, 255]))),
            (70, self.print() + "\r\r"),
        ]
        lines.insert(self.chance.randrange(len(lines) + 1), self.pick(odd))
        return lines


def numbered(texts):
    return [(10 * k, text) for k, text in enumerate(texts, 1)]


KINDS = [
    ("tree", Maker.tree),
    ("tree", Maker.tree),
    ("tree", Maker.tree),
    ("tree", Maker.tree),
    ("branches", Maker.branches),
    ("branches", Maker.branches),
    ("branches", Maker.branches),
    ("soup", Maker.soup),
    ("soup", Maker.soup),
    ("deep", Maker.deep),
    ("nests", Maker.nests),
    ("rough", Maker.rough),
]


# ---- files


def file_of(chance, lines):
    """A program's file: lines in any order, some entered twice or deleted again, with any blanks and line ends."""
    lines = chance.sample(lines, len(lines)) if chance.randrange(3) == 0 else lines
    ends = chance.choice([["\n"], ["\n"], ["\r\n"], ["\n", "\r\n"]])
    text = "".join(line_of(chance, *line) + chance.choice(ends) for line in edited(chance, lines))
    return (text[:-1] if chance.randrange(4) == 0 else text).encode("latin-1")


def edited(chance, lines):
    """The lines with others in front of them that they replace, and with lines that are deleted again."""
    edits = []
    for number, statement in lines:
        if chance.randrange(6) == 0:
            edits.append((number, "P.'OLD'"))
        edits.append((number, statement))
        if chance.randrange(12) == 0:
            other = chance.randint(1, 9)
            edits += [(other, "P.1/0"), (other, "")]
        if chance.randrange(20) == 0:
            edits.append(("", ""))
    if lines and chance.randrange(8) == 0:
        edits.append((chance.choice(lines)[0], ""))
    return edits


def line_of(chance, number, statement):
    before = chance.choice(["", "", "", " ", "\t", "0", "000"]) if number else ""
    between = chance.choice([" ", " ", " ", "", "\t", "  "])
    # where a statement begins with a digit a blank can't be left out, and a long one has no room for more
    between = " " if statement[:1].isdigit() else between
    after = chance.choice(["", "", "", " ", "\t"]) if len(statement) < LONGEST_TEXT else ""
    return f"{before}{number}{between}{statement}{after}"


def input_of(maker):
    """The bytes of standard input: answers to INPUT, good and bad, clean and dirty."""
    chance = maker.chance
    ends = [b"\n", b"\n", b"\n", b"\r\n"]
    count = chance.choice([0, 0, 1, 2, 3, 8])
    text = b"".join(input_line(maker) + chance.choice(ends) for _ in range(count))
    return text[:-1] if chance.randrange(3) == 0 else text


def input_line(maker):
    forms = [
        maker.number,
        maker.expression,
        lambda: maker.random_number(0),
        lambda: maker.pick(["", ")", "5+", "YES", "1/0", "@(9999)", "-", "\r", "  "]),
        lambda: maker.number() + " X Y",
        lambda: "(" * maker.pick([9, 120, 254, 255, 256, 400]) + "1",
        lambda: "1" + "+1" * maker.pick([100, 126, 127, 128, 300]),
    ]
    line = maker.pick(forms)().encode("latin-1")
    return dirty(maker, line) if maker.often(30) else line


def dirty(maker, line):
    """The line with bytes that are dropped or become blanks."""
    place = maker.chance.randrange(len(line) + 1)
    strange = bytes(maker.pick([0, 1, 9, 13, 27, 127, 128, 195, 255]) for _ in range(maker.pick([1, 2, 200])))
    return line[:place] + strange + line[place:]
