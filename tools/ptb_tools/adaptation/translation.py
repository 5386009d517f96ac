"""Makes commands of Tiny BASIC from the statements of a listing, line by line."""

from __future__ import annotations

from typing import Callable, Dict, List, Optional, Sequence, Set, Tuple

from .dialects import Dialect
from .layout import Choice, Command, Last, Plain, label
from .notes import ByHand, Kind, Note
from .print_items import Printer
from .spelling import spelled
from .storage import Storage
from .sums import plus
from .trees import ONE, Binary, Blanks, Call, Element, Item, Name, Number, Return, Statement, Text, Unary, is_random
from .whole import Whole, negation, substituted

LONGEST_REMARK = 200
AFTER_JUMP = "what follows a jump in its line is left out; if your dialect reaches it, give it a line of its own"
JUMPS = ("GOTO", "RETURN", "STOP")


class Translator:
    """Makes the commands of one line after the other; a line that a person must rewrite raises ByHand."""

    def __init__(self, dialect: Dialect, storage: Storage, lines: Set[int]) -> None:
        self.dialect = dialect
        self.storage = storage
        self.lines = lines
        self.loops: List[str] = []
        self.notes: List[Note] = []
        self.number = 0
        self.after = "end"
        self.depth = 0
        self.fixed_numbers = True  # whether the lines keep their numbers
        self.spare: Dict[str, str] = {}
        self.whole = Whole(dialect, self.change, self.warn)

    def line(self, number_: int, after: str, statements: Sequence[Statement]) -> Tuple[Command, ...]:
        """The commands of a line; `after` is the label of the line that follows."""
        self.number, self.after, self.depth = number_, after, 0
        kept, loops = len(self.notes), list(self.loops)
        try:
            return self.commands(statements)
        except ByHand:
            del self.notes[kept:]
            self.loops = loops
            raise

    # ---- notes

    def warn(self, text: str) -> None:
        """Notes that this line may mean something else."""
        self.notes.append(Note(self.number, Kind.MEANING, text))

    def change(self, text: str) -> None:
        """Notes what was changed in this line."""
        self.notes.append(Note(self.number, Kind.CHANGED, text))

    # ---- expressions

    def expanded(self, tree: object, depth: int = 0) -> object:
        """The tree with the expressions of the functions that DEF defines instead of their calls."""
        functions = self.storage.functions
        if depth > 20:
            raise ByHand("a function that calls itself")
        if isinstance(tree, (Name, Element)) and tree.name in functions:
            return self.expanded(self.called(tree, functions[tree.name]), depth + 1)
        if isinstance(tree, Element):
            return Element(tree.name, tuple(self.expanded(it, depth) for it in tree.indices))
        if isinstance(tree, Call):
            return Call(tree.name, tuple(self.expanded(it, depth) for it in tree.arguments))
        if isinstance(tree, Unary):
            return Unary(tree.sign, self.expanded(tree.operand, depth))
        if isinstance(tree, Binary):
            return Binary(tree.sign, self.expanded(tree.left, depth), self.expanded(tree.right, depth))
        return tree

    def called(self, tree: object, function: Statement) -> object:
        """The expression of a function with the values of a call."""
        values = tree.indices if isinstance(tree, Element) else ()
        parameters = function.parts[1]
        if len(parameters) != len(values):
            raise ByHand(f"{tree.name} has another number of values than its DEF")
        if any(is_random(value) for value in values):
            raise ByHand("a function of a random number; keep the number in a variable first")
        self.change("calls of functions are their expressions")
        return substituted(function.parts[2], dict(zip(parameters, values)))

    def value(self, tree: object) -> object:
        """The tree of Tiny BASIC for a value."""
        return self.storage.mapped(self.whole.value(self.expanded(tree)))

    def spelled(self, tree: object) -> str:
        """A value in Tiny BASIC."""
        return spelled(self.value(tree))

    def target(self, tree: object) -> str:
        """A variable in Tiny BASIC."""
        if isinstance(tree, Element) and tree.name in self.storage.functions:
            raise ByHand(f"{tree.name} is a function")
        return spelled(self.storage.mapped(self.whole.pair(self.expanded(tree))[0]))

    def place(self, tree: object) -> str:
        """A line number, or an expression for it."""
        if isinstance(tree, Number):
            if tree.value not in self.lines:
                raise ByHand(f"there is no line {tree.value}")
            return label(tree.value)
        if not self.fixed_numbers:
            raise ByHand("a line number is computed, and the lines have new numbers")
        return spelled(self.storage.mapped(self.whole.index(self.expanded(tree))))

    def letter(self, use: str) -> str:
        """A letter of the tool's own, the same one for each use."""
        if use not in self.spare:
            self.spare[use] = self.storage.free_letter()
        return self.spare[use]

    # ---- statements

    def commands(self, statements: Sequence[Statement]) -> Tuple[Command, ...]:
        """The commands of statements."""
        found: List[Command] = []
        for place, statement in enumerate(self.prompted(statements)):
            if found and isinstance(found[-1], Last):
                if statement.word not in ("REM", "DATA", "NOTHING"):
                    self.warn(AFTER_JUMP)
                break
            found += self.of(statement, place + 1 < len(statements))
        return tuple(found)

    def prompted(self, statements: Sequence[Statement]) -> List[Statement]:
        """The statements, with the text of a PRINT as the prompt of the INPUT that follows."""
        found: List[Statement] = []
        for statement in statements:
            asks = statement.word == "INPUT" and not isinstance(statement.parts[0].value, Text)
            before = found[-1] if found and self.dialect.name != "palo-alto" else Statement("NOTHING")
            last = before.parts[-1] if before.word == "PRINT" and before.parts else None
            if asks and last and isinstance(last.value, Text) and last.after == ";":
                found.pop()
                if len(before.parts) > 1:
                    found.append(Statement("PRINT", before.parts[:-1]))
                statement = Statement("INPUT", (last, *statement.parts))
                self.change("a text before INPUT is its prompt")
            found.append(statement)
        return found

    def of(self, statement: Statement, followed: bool) -> List[Command]:
        """The commands of one statement."""
        if statement.word == "IF":
            return [self.choice(statement)]
        if statement.word.startswith("ON "):
            return self.selection(statement)
        if statement.word in JUMPS:
            return [Last(self.jump(statement))]
        if statement.word == "REM":
            return [] if followed else [Plain(f"REM {statement.parts[0].strip()}".rstrip()[:LONGEST_REMARK])]
        return [Plain(text) for text in WRITERS[statement.word](self, statement)]

    def jump(self, statement: Statement) -> str:
        """GOTO, RETURN or STOP."""
        if statement.word == "GOTO":
            return f"GOTO {self.place(statement.parts[0])}"
        return statement.word

    def choice(self, statement: Statement) -> Choice:
        """An IF with its branches."""
        condition = self.whole.condition(self.expanded(statement.parts[0]))
        shown, negated = (spelled(self.storage.mapped(it)) for it in (condition, negation(condition)))
        self.depth += 1
        then = self.commands(statement.then)
        other = None if statement.other is None else self.commands(statement.other)
        self.depth -= 1
        if other is not None:
            self.change("ELSE is a line of its own")
        return Choice(shown, negated, then, other)

    def selection(self, statement: Statement) -> List[Command]:
        """ON with GOTO or GOSUB: an IF with a computed jump."""
        value = self.storage.mapped(self.whole.index(self.expanded(statement.parts[0])))
        found: List[Command] = []
        if not isinstance(value, Name):
            letter = self.letter("ON")
            found.append(Plain(f"{letter}={spelled(value)}"))
            value = Name(letter)
        places = [self.place(it) for it in statement.parts[1:]]
        name = value.name
        terms = "+".join(f"({name}={count})*{place}" for count, place in enumerate(places, 1))
        word = statement.word[3:]
        jump = f"{word} {terms}"
        command = Last(jump) if word == "GOTO" else Plain(jump)
        self.change(f"ON with {word} is an IF and a sum of line numbers")
        return [*found, Choice(f"({name}>0)*({name}<{len(places) + 1})", f"({name}<1)+({name}>{len(places)})", (command,))]

    def let(self, statement: Statement) -> List[str]:
        """LET without its word."""
        pairs = zip(statement.parts[::2], statement.parts[1::2])
        return [",".join(f"{self.target(variable)}={self.spelled(value)}" for variable, value in pairs)]

    def print(self, statement: Statement) -> List[str]:
        """PRINT."""
        if self.dialect.name != "palo-alto":
            if any(isinstance(it.value, Blanks) for it in statement.parts):
                self.change("TAB and SPC are blanks")
            if any(not isinstance(it.value, (Text, Blanks)) for it in statement.parts):
                self.change("PRINT has commas, and blanks around numbers are text")
        return Printer(self.dialect, self.value, self.warn, lambda: self.letter("TAB")).print(statement.parts)

    def input(self, statement: Statement) -> List[str]:
        """INPUT: each variable with a text in front of it, so that its name isn't shown."""
        if self.dialect.name == "palo-alto":
            if any(not it.after and not isinstance(it.value, (Text, Return)) for it in statement.parts[:-1]):
                raise ByHand("a comma is missing between items of INPUT")
            return ["INPUT " + "".join(self.asked(it) for it in statement.parts)]
        texts: List[str] = []
        prompt = ""
        for item in statement.parts:
            if isinstance(item.value, Text):
                prompt += item.value.text
            else:
                texts.append(f'"{prompt}"{self.target(item.value)}')
                prompt = ""
        if not texts:
            raise ByHand("INPUT without a variable")
        if len(texts) > 1:
            self.warn("each answer of INPUT is a line of its own")
        self.change("INPUT shows its text, if there is one, and a colon")
        return ["INPUT " + ",".join(texts)]

    def asked(self, item: Item) -> str:
        """An item of INPUT in Tiny BASIC."""
        if isinstance(item.value, Text):
            code = f"{item.value.quote}{item.value.text}{item.value.quote}"
        else:
            code = "_" if isinstance(item.value, Return) else self.target(item.value)
        return code + ("," if item.after else "")

    def gosub(self, statement: Statement) -> List[str]:
        """GOSUB."""
        return [f"GOSUB {self.place(statement.parts[0])}"]

    def loop(self, statement: Statement) -> List[str]:
        """FOR. A loop that may not be entered elsewhere runs once here."""
        variable, first, limit, *steps = statement.parts
        name = self.target(variable)
        if not name.isalpha():
            raise ByHand("FOR with a variable that has no letter of its own")
        step = steps[0] if steps else ONE
        trees = [self.value(it) for it in (first, limit, step)]
        if self.dialect.name != "palo-alto":
            self.warn_of_loop(*trees)
        self.loops.append(name)
        by = f" STEP {spelled(trees[2])}" if steps else ""
        return [f"FOR {name}={spelled(trees[0])} TO {spelled(trees[1])}{by}"]

    def warn_of_loop(self, first: object, limit: object, step: object) -> None:
        """Notes a loop that may not be entered in other dialects."""
        step_value = value_of(step)
        difference = value_of(plus(limit, first, -1))
        if step_value is None or difference is None:
            self.warn("FOR runs at least once, even if the first value is past the limit")
        elif difference * step_value < 0:
            self.warn("FOR runs once, although its first value is past the limit")

    def next(self, statement: Statement) -> List[str]:
        """NEXT for each of its variables, or for the newest loop."""
        names = [self.target(it) for it in statement.parts]
        if not names:
            if not self.loops:
                raise ByHand("NEXT without a variable, and no FOR before it")
            names = [self.loops[-1]]
            self.change("NEXT has a variable")
        if not all(name.isalpha() for name in names):
            raise ByHand("NEXT with a variable that has no letter of its own")
        if len(names) > 1:
            self.change("NEXT of several variables is several NEXT")
        for name in names:
            if name in self.loops and not self.depth:
                del self.loops[len(self.loops) - 1 - self.loops[::-1].index(name) :]
        return [f"NEXT {name}" for name in names]

    def read(self, statement: Statement) -> List[str]:
        """READ: the next number of the data, which are the first elements of @."""
        if not self.storage.data:
            raise ByHand("READ, and no DATA that can be read")
        pointer = self.storage.pointer
        self.change("READ takes the next element of @, where DATA are")
        return [",".join(f"{self.target(it)}=@({pointer}),{pointer}={pointer}+1" for it in statement.parts)]

    def restore(self, statement: Statement) -> List[str]:
        """RESTORE."""
        return [f"{self.storage.pointer}=0"] if self.storage.data else []

    def nothing(self, statement: Statement) -> List[str]:
        """A statement that is left out."""
        named = {"DIM": "DIM is left out, and arrays are parts of @", "DATA": "DATA are elements of @"}
        named["DEF"] = "DEF is left out"
        if statement.word in named:
            self.change(named[statement.word])
        return []


def value_of(tree: object) -> Optional[int]:
    """The value of a constant."""
    if isinstance(tree, Unary) and isinstance(tree.operand, Number):
        return -int(tree.operand.value)
    return int(tree.value) if isinstance(tree, Number) else None


WRITERS: Dict[str, Callable[[Translator, Statement], List[str]]] = {
    "LET": Translator.let,
    "PRINT": Translator.print,
    "INPUT": Translator.input,
    "GOSUB": Translator.gosub,
    "FOR": Translator.loop,
    "NEXT": Translator.next,
    "READ": Translator.read,
    "RESTORE": Translator.restore,
    **{word: Translator.nothing for word in ("DIM", "DATA", "DEF", "NOTHING")},
}
