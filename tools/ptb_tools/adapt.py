"""Adapts a listing in another dialect of BASIC: writes a program that ptb takes, and reports what it changed."""

from __future__ import annotations

import re
import sys
from typing import Dict, List, NamedTuple, Sequence, Tuple

from .adaptation.dialects import DIALECTS, SEPARATORS, Dialect, Random, found, without_texts
from .adaptation.layout import LONGEST_TEXT, Command, Layout, Plain
from .adaptation.lines import Line, NoListing, read
from .adaptation.notes import ByHand, Kind, Note, changes, remarks
from .adaptation.statements import parsed
from .adaptation.storage import Storage
from .adaptation.translation import Translator
from .adaptation.trees import Statement
from .command import UNREAD, UNWRITTEN, Parser, Refusal, run, say

LINES_LEFT, NO_LISTING = 1, 2
DEFAULT_MEMORY, LARGEST_MEMORY = 4096, 32767
BYTES_OF_ELEMENT = 2
PAIRS_OF_LET, NAMES_OF_REMARK = 12, 8

DESCRIPTION = """\
Adapts a listing in another dialect of BASIC. It writes a program for ptb to standard output, and to
standard error what it changed, where the meaning may change, and which lines a person must rewrite.
These lines are written as REM with their original text.
"""
EPILOG = """\
If LISTING is -, standard input is read. The dialect, the separator and the meaning of RND are found
out from the listing; the first line of the report names them.

Exit status: 0 all lines are adapted, 1 some lines are left to rewrite, 2 the file is no listing.
"""


class Adapted(NamedTuple):
    """The program that a listing becomes, and the notes on it."""

    lines: List[str]
    notes: List[Note]


class Listing:
    """The parsed lines of a listing, and those that are left to a person."""

    def __init__(self, lines: List[Line], dialect: Dialect) -> None:
        self.lines = lines
        self.dialect = dialect
        self.notes: List[Note] = []
        self.left: Dict[int, str] = {}
        self.statements: Dict[int, Tuple[Statement, ...]] = {}
        for line in lines:
            self.parse(line)

    def parse(self, line: Line) -> None:
        """Parses a line, or leaves it to a person."""
        try:
            statements, changed = parsed(line.text, self.dialect)
        except ByHand as reason:
            self.left[line.number] = str(reason)
            return
        self.statements[line.number] = statements
        if re.search("[a-z]", without_texts(line.text)):
            self.notes.append(Note(line.number, Kind.CHANGED, "words in small letters are in large ones"))
        if re.search("[A-Za-z][.]", without_texts(line.text)):
            self.notes.append(Note(line.number, Kind.CHANGED, "words with a period are complete"))
        self.notes += [Note(line.number, Kind.CHANGED, text) for text in changed]

    def storage(self) -> Storage:
        """The places of its variables, arrays and data. A line whose DIM can't be placed is left to a person."""
        for number, statements in list(self.statements.items()):
            try:
                Storage(list(statements), self.dialect)
            except ByHand as reason:
                self.left[number] = str(reason)
                del self.statements[number]
        return Storage([it for line in self.statements.values() for it in line], self.dialect)

    # ---- writing

    def written(self, fixed_numbers: bool) -> Tuple[Layout, Storage, List[Note]]:
        """The program, the storage and the notes of the lines."""
        storage = self.storage()
        translator = Translator(self.dialect, storage, {line.number for line in self.lines})
        translator.fixed_numbers = fixed_numbers
        layout = Layout()
        left = dict(self.left)
        write_data(layout, storage)
        for line, following in zip(self.lines, [*self.lines[1:], None]):
            after = str(following.number) if following else "end"
            layout.line(line.number, line.number)
            layout.write(self.commands(line, after, translator, left), after)
        write_names(layout, storage, self.lines[-1].number)
        by_hand = [Note(number, Kind.BY_HAND, reason) for number, reason in sorted(left.items())]
        notes = sorted(translator.notes + by_hand, key=lambda note: note.line or 0)
        return layout, storage, notes

    def commands(self, line: Line, after: str, translator: Translator, left: Dict[int, str]) -> Sequence[Command]:
        """The commands of a line, or its original text as a remark."""
        if line.number not in left:
            try:
                return translator.line(line.number, after, self.statements[line.number])
            except ByHand as reason:
                left[line.number] = str(reason)
        return [Plain(f"REM {line.text}"[:LONGEST_TEXT])]


def write_data(layout: Layout, storage: Storage) -> None:
    """Adds lines that store the numbers of DATA in the first elements of @."""
    if storage.data:
        layout.line(0, "data")
        pairs = [f"@({index})={item.value}" for index, item in enumerate(storage.data)]
        for place in range(0, len(pairs), PAIRS_OF_LET):
            layout.put(",".join(pairs[place : place + PAIRS_OF_LET]))


def write_names(layout: Layout, storage: Storage, last: int) -> None:
    """Adds remarks with the new names of variables, as the last lines."""
    names = [f"{letter} IS {name}" for letter, name in storage.renamed()]
    for place in range(0, len(names), NAMES_OF_REMARK):
        layout.line(last)
        layout.put("REM " + ", ".join(names[place : place + NAMES_OF_REMARK]))
        layout.line(last)


def adapted(data: bytes, name: str = "", separator: str = "", random: str = "") -> Adapted:
    """The program that the bytes of a listing become. A name, separator or kind of RND that is empty is found out."""
    lines, notes = read(data)
    dialect = found([line.text for line in lines], name, separator, random)
    listing = Listing(lines, dialect)
    layout, storage, lines_notes = listing.written(True)
    program, renumbered, cost = layout.program()
    if renumbered:
        layout, storage, lines_notes = listing.written(False)
        program, _, cost = layout.program()
        notes.append(Note(None, Kind.CHANGED, "lines have new numbers, since those of the listing leave no room"))
    notes.insert(0, Note(None, Kind.CHANGED, read_as(dialect)))
    return Adapted(program, notes + listing.notes + lines_notes + places(storage) + memory(cost, storage))


def read_as(dialect: Dialect) -> str:
    """The note on the dialect."""
    ranges = {Random.FRACTION: "a fraction", Random.ZERO: "from 0 to N-1", Random.ONE: "from 1 to N"}
    return f"{dialect.title} is read, with {dialect.separator} between statements, and RND(N) is {ranges[dialect.random]}"


def places(storage: Storage) -> List[Note]:
    """The notes on variables and arrays that have new names."""
    names = [f"the variable {old} is {new}" for new, old in storage.renamed()]
    arrays = [f"the array {text}" for text in storage.arrays() if not text.endswith("@(0)") or len(storage.places) > 1]
    return [Note(None, Kind.CHANGED, text) for text in names + arrays]


def memory(cost: int, storage: Storage) -> List[Note]:
    """The note on the memory that the program needs, if it needs more than the default."""
    needed = cost + BYTES_OF_ELEMENT * max(0, storage.next_index - 1)
    if needed <= DEFAULT_MEMORY:
        return []
    if needed > LARGEST_MEMORY:
        return [Note(None, Kind.BY_HAND, f"it needs {needed} bytes, and there are at most {LARGEST_MEMORY}")]
    return [Note(None, Kind.MEANING, f"it needs {needed} bytes: run it with --memory {LARGEST_MEMORY}")]


def data_of(path: str) -> bytes:
    """The bytes of a file, or of standard input."""
    try:
        if path == "-" and sys.stdin is None:
            raise Refusal(UNREAD, "cannot read the listing: standard input is closed")
        if path == "-":
            return sys.stdin.buffer.read()
        with open(path, "rb") as file:
            return file.read()
    except OSError as error:
        raise Refusal(UNREAD, f"cannot read {path}: {error.strerror}") from error


def write(lines: Sequence[str]) -> None:
    """Writes the program."""
    if sys.stdout is None:
        raise Refusal(UNWRITTEN, "cannot write: standard output is closed")
    try:
        sys.stdout.write("".join(f"{line}\n" for line in lines))
        sys.stdout.flush()
    except OSError as error:
        sys.stdout = None  # what it still holds isn't written at the end
        raise Refusal(UNWRITTEN, f"cannot write: {error.strerror}") from error


def arguments_of(words: Sequence[str]) -> object:
    """The arguments."""
    parser = Parser("ptb-adapt", description=DESCRIPTION, epilog=EPILOG)
    parser.add_argument("listing", metavar="LISTING", help="the file of the listing")
    parser.add_argument("--dialect", choices=list(DIALECTS), default="", help="the dialect of the listing")
    parser.add_argument("--separator", choices=SEPARATORS, default="", help="the sign between statements")
    parser.add_argument("--random", choices=[it.value for it in Random], default="", help="what RND gives")
    parser.add_argument("-q", "--quiet", action="store_true", help="don't report changes that keep the meaning")
    return parser.parse_args(words)


def serve(words: Sequence[str]) -> int:
    """Does what the arguments ask for, and gives the status."""
    options = arguments_of(words)
    data = data_of(options.listing)
    try:
        result = adapted(data, options.dialect, options.separator, options.random)
    except NoListing as reason:
        say(f"{options.listing}: not a listing: {reason}")
        return NO_LISTING
    write(result.lines)
    changed = [] if options.quiet else changes(result.notes)
    for line in changed + remarks(result.notes):
        say(line)
    return LINES_LEFT if any(note.kind is Kind.BY_HAND for note in result.notes) else 0


def main(arguments: Sequence[str]) -> int:
    """The status of the tool with these arguments."""
    return run(serve, arguments)
