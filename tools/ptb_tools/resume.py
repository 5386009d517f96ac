"""Resumes a listing of runs that was interrupted, at any byte."""

from __future__ import annotations

import os
import re
import subprocess
from dataclasses import dataclass
from typing import BinaryIO, Dict, List, Optional, Sequence

from .command import BAD_INPUT, UNOPENED, UNREAD, UNWRITTEN, USAGE, Parser, Refusal, run
from .reports import PIECE, Malformed, Reader
from .tree import Path, items_of

NOT_A_RUN = 67  # the command's status if the answers of --after are no run
NOT_STARTED, NOT_FOUND, KILLED = 126, 127, 128  # as shells have them

ITEM = "[1-9][0-9]{0,4}(?:/[1-9][0-9]{0,4})?"
ANSWERS = f"none|{ITEM}(?:,{ITEM})*"
COUNT = r"\+?[0-9]{1,20}"

DESCRIPTION = """\
Adds to FILE the missing part of the listing that the command writes. The command is the one that
started FILE, with the same arguments and with the same standard input.

It is started once, from the run before the last complete report in FILE. It must first write the
bytes that FILE has from there on; what follows them is added. No byte of FILE is changed, so FILE is
a prefix of the listing at every moment.
"""
EPILOG = "The command may have --under, --after and --first; --first counts the reports in FILE, too."


def no_listing(place: int, cause: str) -> Refusal:
    """The refusal of a file that the command can't have written; its bytes are counted from 1."""
    line = f"this is no listing of that program: byte {place + 1}: {cause}"
    return Refusal(BAD_INPUT, line)


# ---- arguments


@dataclass(frozen=True)
class Command:
    """A command without --after and --first, the place after its --all, the values of these two, and
    the answers with which its runs begin, without bounds."""

    arguments: Sequence[str]
    place: int
    after: Optional[str]
    first: Optional[int]
    under: List[bytes]

    def from_run(self, answers: Optional[str], first: Optional[int]) -> List[str]:
        """The command for the first so many runs after the one with these answers."""
        after_option = [] if answers is None else ["--after", answers]
        first_option = [] if first is None else ["--first", str(first)]
        before, after = self.arguments[: self.place], self.arguments[self.place :]
        return [*before, *after_option, *first_option, *after]


def command_of(arguments: Sequence[str]) -> Command:
    """Takes --after and --first out of a command. The value of --under is noted, and stays there."""
    values: Dict[str, List[str]] = {"--after": [], "--first": [], "--under": []}
    kept: List[str] = []
    place = 0
    coming = iter(arguments)
    for argument in coming:
        option, equals, value = argument.partition("=")
        if option in values:
            values[option].append(value if equals else next(coming, ""))
            kept += [f"{option}={values[option][-1]}"] if option == "--under" else []
        elif argument == "--":
            kept += [argument, *coming]
        else:
            kept.append(argument)
            place = len(kept) if argument == "--all" else place
    if not place:
        raise Refusal(USAGE, "the command has no --all")
    after = value_of("--after", values["--after"], ANSWERS)
    first = value_of("--first", values["--first"], COUNT)
    under = value_of("--under", values["--under"], ANSWERS) or "none"
    count = None if first is None else int(first)
    return Command(kept, place, after, count, answers_of(under.encode()))


def value_of(option: str, values: Sequence[str], pattern: str) -> Optional[str]:
    """The value of an option that may be there once."""
    if len(values) > 1:
        raise Refusal(USAGE, f"{option} is there twice")
    if values and not re.fullmatch(pattern, values[0]):
        raise Refusal(USAGE, f"{option} can't have the value {values[0]!r}")
    return values[0] if values else None


# ---- what the file has


@dataclass(frozen=True)
class Standing:
    """What a file of this size has: how many complete reports, where the last one begins, and the
    answers of the run before it. If there is no complete report, these are the beginning of the file
    and the value of --after."""

    size: int
    reports: int
    last: int
    before: Optional[str]


def opened(path: str) -> BinaryIO:
    """The file, for writing if that is allowed; a complete listing needs no writing."""
    if not os.path.isfile(path):
        raise Refusal(UNREAD, "there is no such file")
    try:
        return open(path, "r+b", buffering=PIECE)
    except OSError:
        return open(path, "rb", buffering=PIECE)


def standing_in(file: BinaryIO, command: Command) -> Standing:
    """Reads the complete reports of a file. Each must be the next one of the tree."""
    path = Path()
    reader = Reader(file.read, path)
    reports = last = place = 0
    before = spelled = command.after
    try:
        for _ in reader:
            place, last = reader.place(), place
            if reports == command.first:
                cause = f"there are more reports than --first {command.first} allows"
                raise Malformed(last, cause)
            if not is_in_place(path, command, reports):
                raise Malformed(last, "this run doesn't come next")
            before, spelled, reports = spelled, path.spelled().decode(), reports + 1
    except Malformed as error:
        raise no_listing(error.place, error.cause) from error
    return Standing(reader.size, reports, last, before)


def is_in_place(path: Path, command: Command, reports: int) -> bool:
    """Whether the run at which the path is may come after so many reports in the file.

    It must begin with the answers of --under. The first one must also come directly after the run of
    --after, or be the first run of all. That the others follow one another is checked by the path.
    """
    if reports and not command.under:
        return True
    answers = answers_of(path.spelled())
    if answers[: len(command.under)] != command.under:
        return False
    return bool(reports) or is_first_run(answers, command)


def is_first_run(answers: Sequence[bytes], command: Command) -> bool:
    """Whether a run with these answers is the first one that the command lists.

    After those of --under, all answers of the first run are 1. Another run has the answers of the one
    before up to some place, there one more, and after it 1 for each question.
    """
    raised = len(answers) - 1
    while raised >= len(command.under) and answers[raised] == b"1":
        raised -= 1
    if command.after is None:
        return raised < len(command.under)
    before = answers_of(command.after.encode())
    if not len(command.under) <= raised < len(before) or before[:raised] != answers[:raised]:
        return False
    return int(answers[raised]) == int(before[raised]) + 1


def answers_of(spelled: bytes) -> List[bytes]:
    """The answers of a list, without their bounds."""
    return [item.partition(b"/")[0] for item in items_of(spelled)]


# ---- what the command writes


def resume(file: BinaryIO, command: Command, standing: Standing) -> int:
    """Starts the command, checks that it writes what the file has, and adds the rest.

    Gives the status to end with.
    """
    first = command.first
    if first is not None and standing.reports:
        first += 1 - standing.reports  # the last complete report is written again
    with started(command.from_run(standing.before, first)) as process:
        try:
            place = take_over(process.stdout, file, standing)
        except BaseException:
            process.terminate()
            raise
    status = process.returncode
    if status == 0 and place < standing.size:
        raise no_listing(place, "the listing of that program ends here")
    if status == NOT_A_RUN and standing.reports > 1:
        raise no_listing(standing.last, "the answers of the report before this one are no run")
    return status if status >= 0 else KILLED - status


def started(arguments: Sequence[str]) -> subprocess.Popen:
    """The command, with the standard input and the standard error of this tool."""
    try:
        return subprocess.Popen(arguments, stdout=subprocess.PIPE)
    except OSError as error:
        status = NOT_FOUND if isinstance(error, FileNotFoundError) else NOT_STARTED
        raise Refusal(status, f"cannot start {arguments[0]}: {error.strerror}") from error


def take_over(output: BinaryIO, file: BinaryIO, standing: Standing) -> int:
    """Compares what the command writes with what the file has, and writes what comes after it.

    Gives the place where that ends.
    """
    place = standing.last
    while piece := os.read(output.fileno(), PIECE):
        due = max(0, min(len(piece), standing.size - place))
        there = os.pread(file.fileno(), due, place)
        if not piece.startswith(there):
            same = next(at for at, byte in enumerate(there) if byte != piece[at])
            raise no_listing(place + same, "that program writes another byte here")
        write(file, place + len(there), piece[len(there) :])
        place += len(piece)
    return place


def write(file: BinaryIO, place: int, piece: bytes) -> None:
    """Writes a piece at its place. Another process that resumes the same file writes the same there."""
    if piece and not file.writable():
        raise Refusal(UNOPENED, "this file may not be written")
    while piece:
        try:
            count = os.pwrite(file.fileno(), piece, place)
        except OSError as error:
            raise Refusal(UNWRITTEN, f"cannot write: {error.strerror}") from error
        piece, place = piece[count:], place + count


# ---- the tool


def resumed(path: str, command: Command) -> int:
    """Resumes the listing in a file, and gives the status to end with."""
    try:
        with opened(path) as file:
            return resume(file, command, standing_in(file, command))
    except OSError as error:
        raise Refusal(UNREAD, f"cannot read: {error.strerror}") from error


def serve(arguments: Sequence[str]) -> int:
    """Does what the arguments ask for, and gives the status."""
    usage = "%(prog)s FILE -- ptb --all [ARGUMENT..]"
    parser = Parser("ptb-resume", usage=usage, description=DESCRIPTION, epilog=EPILOG)
    parser.add_argument("file", metavar="FILE", help="the listing")
    at = arguments.index("--") if "--" in arguments else len(arguments)
    file = parser.parse_args(arguments[:at]).file
    if not arguments[at + 1 :]:
        parser.error("a command is needed after FILE and --")
    try:
        return resumed(file, command_of(arguments[at + 1 :]))
    except Refusal as refusal:
        raise Refusal(refusal.status, f"{file}: {refusal}") from refusal


def main(arguments: Sequence[str]) -> int:
    """The status of the tool with these arguments."""
    return run(serve, arguments)
