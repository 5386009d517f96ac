"""Shows which outcomes a program has, how many runs lead to each, and what its chance is."""

from __future__ import annotations

import argparse
import gc
import io
import re
import sys
from datetime import date
from fractions import Fraction
from typing import BinaryIO, Iterable, List, NamedTuple, Optional, Sequence

from . import chances, data, text
from .branches import Branches
from .command import BAD_INPUT, PARTIAL, UNREAD, UNWRITTEN, USAGE, Parser, Refusal, name, run, say
from .progress import Progress, terminal_of
from .reports import PIECE, Malformed, Reader, Result
from .sources import Interrupt, Peeked, Source
from .tables import Gathering, Grouping, Table, grouping_of
from .tree import Coverage, DrawnPath, Path, Span

DESCRIPTION = """\
Shows which outcomes a program has, how many runs lead to each, and what its chance is. The reports
of ptb --all, in form 2 and in rising order, are read from the files, or from standard input. Files
are read in turn, as one listing, so shares of a tree may be given in order. The table of
ptb --chances is read, too; its outcomes are grouped by their last lines, or by their endings.
"""
EPILOG = """\
All answers to a question count as equally likely, including those that --choose gives instead of
lines. The status is 3 if the table is of a part of the tree.
"""
OF_CHANCES = ("ending", "last-line")  # how a table of --chances may be grouped
KINDS = "outcome, ending, last-line, or answer:K, the answer to question K [default: outcome]"


# ---- arguments


def number_of_outcomes(word: str) -> int:
    """The value of --top."""
    if not re.fullmatch("[1-9][0-9]{0,8}", word):
        raise argparse.ArgumentTypeError(f"{word!r} is not a number from 1 to 999999999")
    return int(word)


def kind_of(word: str) -> Grouping:
    """The value of --by."""
    try:
        if word.startswith("match:"):
            raise ValueError(word)
        return grouping_of(word)
    except ValueError:
        kinds = "outcome, ending, last-line and answer:K"
        raise argparse.ArgumentTypeError(f"{word!r} is not one of {kinds}") from None


def match_of(word: str) -> Grouping:
    """The value of --match."""
    try:
        return grouping_of(f"match:{word}")
    except re.error as error:
        raise argparse.ArgumentTypeError(f"{word!r} is no regular expression: {error}") from None


def parser() -> Parser:
    """The parser of the arguments."""
    usage = "ptb --all PROGRAM | %(prog)s [OPTION..] [FILE..]"
    found = Parser("ptb-outcomes", usage=usage, description=DESCRIPTION, epilog=EPILOG)
    add = found.add_argument
    add("files", metavar="FILE", nargs="*", help="a listing of runs; - is standard input")
    add("--by", action="append", type=kind_of, default=[], metavar="KIND", help=f"what runs must share: {KINDS}")
    matched = {"action": "append", "dest": "by", "type": match_of, "metavar": "REGEX"}
    add("--match", **matched, help="runs that show a match, and the rest; with a --by, a table of two ways")
    add("--top", type=number_of_outcomes, metavar="N", help="show only the N likeliest")
    add("--sampled", action="store_true", help="the runs were drawn: count each once, in any order")
    add("--merge", action="store_true", help="the files are tables of --json: add them up")
    add("--program", metavar="NAME", help="the program's name, for --html and --json")
    add("--options", metavar="TEXT", help="the options of its runs, for --html and --json")
    form = found.add_mutually_exclusive_group()
    form.add_argument("--csv", action="store_true", help="write a table for spreadsheets")
    form.add_argument("--json", action="store_true", help="write a table that can be merged, in JSON lines")
    form.add_argument("--html", metavar="FILE", help="write a page for a browser to FILE")
    return found


def options_of(arguments: Sequence[str]) -> argparse.Namespace:
    """The options that the arguments give."""
    options = parser().parse_args(arguments)
    names = [grouping.name for grouping in options.by]
    problem = None
    if options.files.count("-") > 1:
        problem = "FILE: standard input is there twice"
    elif len(names) > 2:
        problem = "--by and --match: more than two of them"
    elif len(names) == 2 and "outcome" in names:
        problem = "--by outcome excludes other groupings"
    elif len(names) == 2 and options.top:
        problem = "--top needs a single grouping"
    elif options.merge and (names or options.sampled):
        problem = "--merge excludes --by, --match and --sampled; the tables have their own"
    elif options.merge and (options.program or options.options):
        problem = "--merge excludes --program and --options; the tables have their own"
    if problem:
        raise Refusal(USAGE, f"{problem}; see {name()} --help")
    return options


# ---- reading


def standard_input() -> BinaryIO:
    """Standard input, if it is open."""
    if sys.stdin is None:
        raise Refusal(UNREAD, "cannot read the reports: standard input is closed")
    return sys.stdin.buffer


def opened(file: str) -> BinaryIO:
    """A file that is read, or standard input for `-`."""
    return standard_input() if file == "-" else open(file, "rb")


class Tear(NamedTuple):
    """A file that ends within a report, or within a row of a table of --chances: its name for messages,
    where that part begins, the number of its bytes, and what the part is."""

    file: str
    begin: int
    size: int
    part: str

    def ends_within(self) -> str:
        """A line that says so."""
        return f"{self.file}byte {self.size + 1}: the input ends within a {self.part}"


class Listing:
    """The runs of the files, as they are read into a table."""

    def __init__(self, options: argparse.Namespace) -> None:
        self._options = options
        self._coverage = None if options.sampled else Coverage()
        self._path = DrawnPath() if options.sampled else Path(self._coverage)
        self._gathering = Gathering(options.by or [grouping_of("outcome")])
        self._branches = Branches() if options.html is not None else None
        self._interrupt = Interrupt()
        self._torn: List[Tear] = []
        self._summed = False

    def read(self) -> None:
        """Reads the files in turn, until Ctrl-C."""
        terminal = terminal_of(sys.stderr)
        progress = Progress(terminal, self._path) if terminal else None
        try:
            with self._interrupt:
                for file in self._options.files or ["-"]:
                    self._read_file(file, progress)
        finally:
            if progress:
                progress.clear()

    def _read_file(self, file: str, progress: Optional[Progress]) -> None:
        """Reads a file."""
        place = "" if file == "-" else f"{file}: "
        tick = (lambda: progress.tick(self._gathering.runs)) if progress else None
        try:
            with opened(file) as source:
                peeked = Peeked(Source(source, self._interrupt, tick).read)
                if peeked.begins(chances.BEGIN):
                    self._read_chances(peeked.read_all(PIECE), place)
                    return
                reader = Reader(peeked.read, self._path)
                self._gathering.add_all(self._noted(reader), self._path)
        except Malformed as error:
            raise Refusal(BAD_INPUT, f"{place}{error}") from error
        except OSError as error:
            what = "the reports" if file == "-" else file
            raise Refusal(UNREAD, f"cannot read {what}: {error.strerror}") from error
        if reader.torn and not self._interrupt.came:
            self._torn.append(Tear(place, reader.end, reader.size, "report"))

    def _read_chances(self, read: bytes, place: str) -> None:
        """Reads a table of --chances, which has all runs and so is given alone."""
        options = self._options
        if len(options.files) > 1:
            raise Refusal(BAD_INPUT, f"{place}byte 1: a table of --chances must be the only file")
        others = [it.name for it in options.by if it.name not in OF_CHANCES]
        if others or options.sampled:
            option = "--sampled" if options.sampled else f"--by {others[0]}"
            if others and others[0].startswith("match:"):
                option = "--match"
            raise Refusal(USAGE, f"{option} needs the reports of --all; see {name()} --help")
        self._summed = True
        self._gathering = Gathering(options.by or [grouping_of("last-line")])
        rows, end = chances.read(read)
        for row in rows:
            self._gathering.add_chance(row.result, row.runs, row.chance)
        if end < len(read) and not self._interrupt.came:
            self._torn.append(Tear(place, end, len(read), "row"))

    def _noted(self, reader: Reader) -> Iterable[Result]:
        """The results of the runs, which are noted for the tree of answers if that is asked for."""
        return self._branches.noted(reader, self._path) if self._branches else reader

    def table(self) -> Table:
        """The table of the runs that were read."""
        options, gathering = self._options, self._gathering
        if not gathering.runs:
            if self._interrupt.came:
                raise KeyboardInterrupt
            raise Refusal(BAD_INPUT, self._torn[0].ends_within() if self._torn else "byte 1: there is no report")
        outcomes = len(gathering.outcomes)
        rows, covered = gathering.rows(options.sampled, options.top)
        if self._torn and covered == 1 and not options.sampled:
            last = self._torn[-1]
            place = f"{last.file}byte {last.begin + 1}"
            raise Refusal(BAD_INPUT, f"{place}: no {last.part} can come after the last run of the tree")
        for tear in self._torn:
            say(f"{tear.ends_within()}; the complete {tear.part}s are shown")
        torn = bool(self._torn) or self._interrupt.came
        return Table(
            rows=rows,
            by=tuple(grouping.name for grouping in gathering.by),
            runs=gathering.runs,
            outcomes=outcomes,
            covered=covered,
            partial=torn if options.sampled else covered != 1,
            sampled=options.sampled,
            program=options.program,
            options=options.options,
            answers_tree=self._branches.tree(options.sampled) if self._branches and not self._summed else None,
            spans=self._spans(covered),
            summed=self._summed,
        )

    def _spans(self, covered: Fraction) -> Optional[List[Span]]:
        """The parts of the tree that the runs cover, if they are known."""
        if self._summed:
            return [(Fraction(0), Fraction(1))] if covered == 1 else None
        return self._coverage.spans(self._path) if self._coverage else None


def listed(options: argparse.Namespace) -> Table:
    """The table of the listings in the files."""
    listing = Listing(options)
    listing.read()
    return listing.table()


def merged(options: argparse.Namespace) -> Table:
    """The sum of the tables in the files."""
    merge = data.Merge()
    for file in options.files or ["-"]:
        try:
            with opened(file) as source:
                merge.add(io.TextIOWrapper(source, "utf-8", "replace"))
        except data.BadTable as error:
            raise Refusal(BAD_INPUT, f"{'' if file == '-' else f'{file}: '}{error}") from error
        except OSError as error:
            raise Refusal(UNREAD, f"cannot read {file}: {error.strerror}") from error
    return merge.table(options.top)


# ---- writing


def write(options: argparse.Namespace, table: Table) -> None:
    """Writes the table as it is asked for."""
    sys.stdout.reconfigure(errors="backslashreplace")
    if options.html is not None:
        write_page(table, options.html)
    elif options.json:
        data.write_json(table, sys.stdout)
    elif options.csv:
        data.write_csv(table, sys.stdout)
    else:
        text.write(table, sys.stdout)
    sys.stdout.flush()


def write_page(table: Table, file: str) -> None:
    """Writes the page of the table."""
    from . import page  # it takes a while to be read

    title = f"Outcomes of {table.program}" if table.program else "Outcomes"
    with open(file, "wb") as out:
        page.write(table, out, title=title, date=date.today().isoformat())


def serve(arguments: Sequence[str]) -> int:
    """Does what the arguments ask for, and gives the status."""
    options = options_of(arguments)
    if sys.stdout is None:
        raise Refusal(UNWRITTEN, "cannot write: standard output is closed")
    table = merged(options) if options.merge else listed(options)
    try:
        write(options, table)
    except OSError as error:
        sys.stdout = None  # what it still holds isn't written at the end
        raise Refusal(UNWRITTEN, f"cannot write: {error.strerror}") from error
    if not table.partial:
        return 0
    if options.html is not None or options.csv or options.json:
        say(text.summary_of(table))
    return PARTIAL


def main(arguments: Sequence[str]) -> int:
    """The status of the tool with these arguments."""
    gc.disable()  # there are many objects, and none that need it
    if hasattr(sys, "set_int_max_str_digits"):
        sys.set_int_max_str_digits(0)  # a fraction is written in full, however long it is
    return run(serve, arguments)
