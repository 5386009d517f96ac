"""The reports of a listing of runs, in form 1 or 2, read as they come.

A report is a line with the answers of a run, how it ended, its steps and the number of bytes that it
showed, then these bytes, then a newline. What is shown may have lines that look like reports.
"""

from __future__ import annotations

import re
from functools import lru_cache
from operator import length_hint
from typing import Callable, Dict, Iterator, List, NamedTuple, Optional, Tuple

from .tree import Disorder, Path, is_first, item_before, next_item, values_of

PIECE = 1 << 17  # so many bytes are asked for at once
MOST_KEPT = 4096  # so many results are kept, each with at most so many bytes:
LONGEST_KEPT = 1024
SEPARATOR = b"\nRUN "  # between reports, if what is shown doesn't have it
LINE_END = 10
NO_REPORT = "no report begins here"

ENDINGS = rb"(?:END|STOP|WHAT|HOW|SORRY|LIMIT|NOINPUT)"
ANSWERS = rb"(?:none|[0-9][0-9,/]*)"
MEASURES = re.compile(rb"(" + ENDINGS + rb") (?:0|[1-9][0-9]*) (0|[1-9][0-9]{0,17})")
HEADER = re.compile(rb"RUN (" + ANSWERS + rb") " + MEASURES.pattern + rb"\n")
# what a line has that may become a header
HEADER_SO_FAR = re.compile(
    rb"R?|RU|RUN|RUN (?:|n|no|non|"
    + ANSWERS
    + rb"(?: (?:[A-Z]{0,7}|"
    + ENDINGS
    + rb" [0-9]*(?: [0-9]{0,18})?))?)"
)


class Malformed(Exception):
    """An input that is no listing: the place of the byte that shows it, from 0, and the cause."""

    def __init__(self, place: int, cause: str) -> None:
        super().__init__(f"byte {place + 1}: {cause}")
        self.place = place
        self.cause = cause


class Result:
    """How a run ended, and what it showed.

    Runs with the same result have the same object, as a rule. So a reader of reports may keep in
    `group` what it found out about the result.
    """

    __slots__ = ("ending", "transcript", "group")

    def __init__(self, ending: bytes, transcript: bytes) -> None:
        self.ending = ending
        self.transcript = transcript
        self.group: object = None


class Measured(NamedTuple):
    """A complete report in the buffer: its answers, its result, and where the newline after it is."""

    answers: bytes
    result: Result
    end: int


class Reader:
    """Reads a listing: iterates over the results of its runs. With each of them `path` is at its run.

    `read` gives at most so many bytes, and none at the end of the input. At the end, `size` is the
    number of all bytes, `end` is the place where the last complete report ends, and `torn` says that
    there is a part of another one. Malformed is raised for bytes that are no report, and for a run
    that can't be there.
    """

    def __init__(self, read: Callable[[int], bytes], path: Path) -> None:
        self.path = path
        self.end = self.size = 0
        self.torn = False
        self._read = read
        self._ended = False
        # The buffer begins with the newline before a report, which has this place. So many of its
        # bytes are done with, and at least so many more are needed.
        self._buffer, self._base = b"\n", -1
        self._used, self._missing = 0, 1
        # The buffer split at separators, without its last piece; what is left of that; the number
        # of a piece with the offset of its separator in the buffer.
        self._split: List[bytes] = []
        self._pieces: Iterator[bytes] = iter(())
        self._offset = (0, 0)
        # Results by what reports have after their answers. Results by what they have after all
        # answers except the last, with the answer before that one, and that one.
        self._results: Dict[bytes, Result] = {}
        self._siblings: Dict[bytes, Tuple[bytes, bytes, Result]] = {}

    def __iter__(self) -> Iterator[Result]:
        path, siblings = self.path, self._siblings
        while not self._ended:
            self._fill()
            prefix, length = path.prefix, len(path.prefix)
            for piece in self._pieces:
                # most runs differ from the one before in the last answer alone
                if siblings and piece.startswith(prefix):
                    known = siblings.get(piece[length:])
                    if known and known[0] == path.last:
                        _, path.last, result = known
                        yield result
                        continue
                result = self._result_of(piece)
                if result is None:
                    break
                prefix, length = path.prefix, len(path.prefix)
                yield result
            yield from self._last_result()
        self.torn = self._used < len(self._buffer) - 1
        self.end = self._base + self._used + 1
        self.size = self._base + len(self._buffer)

    def place(self) -> int:
        """Where the report that was read last ends, and the next one begins."""
        number = self._number() + 1
        offset = self._offset_of(number) if number < len(self._split) else self._used
        return self._base + offset + 1

    # ---- the buffer

    def _fill(self) -> None:
        """Reads on, and splits what is there. The last piece is left out: it may be incomplete."""
        parts, count = [self._buffer[self._used :]], 0
        while count < self._missing and not self._ended:
            parts.append(self._read(PIECE))
            count += len(parts[-1])
            self._ended = not parts[-1]
        self._base += self._used
        self._used, self._missing = 0, 1
        self._buffer = b"".join(parts)
        self._split = []
        if self._buffer.startswith(SEPARATOR):
            self._split = self._buffer.split(SEPARATOR)[1:]
            self._used = len(self._buffer) - len(self._split.pop()) - len(SEPARATOR)
        self._pieces = iter(self._split)
        self._offset = (0, 0)

    def _number(self) -> int:
        """The number of the piece that was read last."""
        return max(0, len(self._split) - length_hint(self._pieces) - 1)

    def _offset_of(self, number: int) -> int:
        """Where the separator of a piece is in the buffer."""
        known, offset = self._offset
        offset += sum(map(len, self._split[known:number])) + len(SEPARATOR) * (number - known)
        self._offset = number, offset
        return offset

    def _take_pieces(self, following: int, end: int) -> None:
        """Takes the pieces from this offset on that belong to a report with this end."""
        while following < end:
            piece = next(self._pieces, None)
            if piece is None:
                self._used = end
                break
            following += len(SEPARATOR) + len(piece)

    # ---- reports

    def _result_of(self, piece: bytes) -> Optional[Result]:
        """Advances the path to the report that begins with this piece, and gives its result.

        None if the report isn't complete.
        """
        answers, _, tail = piece.partition(b" ")
        known = self._results.get(tail)
        result = known or new_result(tail)
        if result is None:
            return self._long_result(piece)
        self._advance(answers)
        if len(piece) > LONGEST_KEPT:
            return result
        if known is None:
            if len(self._results) >= MOST_KEPT:
                self._forget()
            self._results[tail] = result
        elif self.path.last and not is_first(self.path.last):
            self._keep_sibling(piece, result)
        return result

    def _keep_sibling(self, piece: bytes, result: Result) -> None:
        """Keeps the result of a report that is one piece, for others with the same last answer."""
        path = self.path
        if len(self._siblings) >= MOST_KEPT:
            self._forget()
        self._siblings[piece[len(path.prefix) :]] = item_before(path.last), path.last, result

    def _forget(self) -> None:
        """Keeps no results any longer."""
        self._siblings.clear()
        self._results.clear()

    def _long_result(self, piece: bytes) -> Optional[Result]:
        """The result of a report that shows what looks like the beginning of a report."""
        offset = self._offset_of(self._number())
        found = self._measured(offset)
        if found is None:
            self._used = offset
            return None
        self._advance(found.answers)
        self._take_pieces(offset + len(SEPARATOR) + len(piece), found.end)
        return found.result

    def _last_result(self) -> Iterator[Result]:
        """The result of the last report in the buffer, if it is complete."""
        found = self._measured(self._used)
        if found:
            self._split, self._pieces, self._offset = [], iter(()), (0, self._used)
            self._advance(found.answers)
            self._used = found.end
            yield found.result

    def _measured(self, offset: int) -> Optional[Measured]:
        """The report after the newline at this offset; None if the buffer ends before it does."""
        header = HEADER.match(self._buffer, offset + 1)
        if header is None:
            self._check_unfinished(offset)
            self._missing = len(self._buffer) - offset
            return None
        end = header.end() + int(header[3])
        if end >= len(self._buffer):
            self._missing = end + 1 - len(self._buffer)
            return None
        if self._buffer[end] != LINE_END:
            cause = "the transcript doesn't end where its report says"
            raise Malformed(self._base + end, cause)
        following = self._buffer[end : end + len(SEPARATOR)]
        if not SEPARATOR.startswith(following):
            raise Malformed(self._base + end + 1, NO_REPORT)
        transcript = self._buffer[header.end() : end]
        return Measured(header[1], Result(header[2], transcript), end)

    def _check_unfinished(self, offset: int) -> None:
        """Checks that a header may come after the newline at this offset, once it is complete."""
        if not HEADER_SO_FAR.fullmatch(self._buffer, offset + 1):
            raise Malformed(self._base + offset + 1, NO_REPORT)

    def _advance(self, answers: bytes) -> None:
        """Advances the path to the run with these answers."""
        path = self.path
        prefix = path.prefix
        if prefix and answers.startswith(prefix) and answers[len(prefix) :] == next_item(path.last):
            path.last = answers[len(prefix) :]
            return
        try:
            path.advance(answers)
        except Disorder as error:
            raise Malformed(self._report_place(), str(error)) from None
        except ValueError:
            raise Malformed(self._report_place(), cause_against(answers)) from None

    def _report_place(self) -> int:
        """Where the report begins that is read."""
        return self._base + self._offset_of(self._number()) + 1


def new_result(tail: bytes) -> Optional[Result]:
    """The result of a report that has these bytes after its answers, if it ends with them."""
    measures, newline, transcript = tail.partition(b"\n")
    ending, size = ending_and_size(measures)
    return Result(ending, transcript) if newline and len(transcript) == size else None


@lru_cache(maxsize=4096)
def ending_and_size(measures: bytes) -> Tuple[bytes, int]:
    """How a run ended and how many bytes it showed, as its report has it after the answers; a size of
    -1 if these bytes are something else."""
    found = MEASURES.fullmatch(measures)
    return (found[1], int(found[2])) if found else (b"", -1)


def cause_against(answers: bytes) -> str:
    """What is wrong with the answers of a report that a path refuses."""
    try:
        values_of(answers)
    except ValueError:
        return NO_REPORT
    return "a report without bounds; list the runs with --form 2"
