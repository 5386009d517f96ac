"""Tests of reading reports: complete, torn and malformed listings, in pieces of any size."""

from __future__ import annotations

import random
import unittest
from fractions import Fraction
from itertools import islice, repeat
from typing import Iterator, List, Tuple

import listings
from listings import DICE, MIXED, Run, in_pieces, listing
from ptb_tools import reports
from ptb_tools.reports import Malformed, Reader
from ptb_tools.tree import Coverage, DrawnPath, Path

NO_REPORT = "no report begins here"
NO_END = "the transcript doesn't end where its report says"

# transcripts in which each line could be one of a report, or which end in the middle of one
LIKE_REPORTS = [
    Run(((1, 3),), "END", "RUN 1/2 END 2 0\n\nRUN 2/2 END 2 0\n"),
    Run(((2, 3), (1, 2)), "STOP", "\nRUN "),
    Run(((2, 3), (2, 2)), "STOP", "A\nRUN 2/3,2/2 STOP 9 4\nA\nRU"),
    Run(((3, 3), (1, 1)), "LIMIT", "\nRUN \nRUN \nRUN \n\n"),
]
LISTINGS = {
    "dice": DICE,
    "mixed": MIXED,
    "like reports": LIKE_REPORTS,
    "one run": [Run((), "END", "HI\n")],
    "nothing shown": [Run((), "SORRY", "")],
    "empty lines": listings.tree([2, 2], lambda answers: "\n" * sum(answers)),
    "all endings": [
        Run(((k, 7),), ending, "?\n") for k, ending in enumerate("END STOP WHAT HOW SORRY LIMIT NOINPUT".split(), 1)
    ],
}


def read(data: bytes, size: int = 1 << 17) -> Tuple[List[Run], Reader]:
    """The runs of a listing that is read in pieces of this size, and the reader."""
    path = Path(Coverage())
    reader = Reader(in_pieces(data, size), path)
    found = []
    for result in reader:
        texts = result.ending.decode(), result.transcript.decode("latin-1")
        found.append(Run(tuple(path.values()), *texts))
    return found, reader


def ends_of(runs: List[Run]) -> List[int]:
    """The places after the reports of a listing, and its beginning."""
    return [len(listing(runs[:count])) for count in range(len(runs) + 1)]


class Complete(unittest.TestCase):
    """Complete listings."""

    def test_pieces_of_all_sizes(self) -> None:
        for name, runs in LISTINGS.items():
            data = listing(runs)
            for size in range(1, len(data) + 2):
                found, reader = read(data, size)
                self.assertEqual(found, runs, (name, size))
                self.assertEqual((reader.torn, reader.size, reader.end), (False, len(data), len(data)), name)

    def test_places(self) -> None:
        for name, runs in LISTINGS.items():
            for size in 1, 7, 1000:
                reader = Reader(in_pieces(listing(runs), size), Path(Coverage()))
                self.assertEqual([reader.place() for _ in reader], ends_of(runs)[1:], (name, size))

    def test_results_that_are_kept(self) -> None:
        """More different results than are kept, which come again, and runs that skip answers."""
        drawn = random.Random("kept")
        runs = listings.tree([40, 3, 100], lambda answers: f"{drawn.randrange(9000)}\n")
        self.assertEqual(read(listing(runs))[0], runs)
        kept = [run for run in runs if drawn.random() < 0.7]
        self.assertEqual(read(listing(kept))[0], kept)

    def test_gaps_between_results_that_are_kept(self) -> None:
        """A gap is noted, and a run that comes twice is refused, even if the report was seen before."""
        runs = listings.tree([3, 4], lambda answers: f"{answers[1]}\n")
        path = Path(Coverage())
        list(Reader(in_pieces(listing([*runs[:9], *runs[10:]]), 1000), path))
        gap = [(Fraction(0), Fraction(9, 12)), (Fraction(10, 12), Fraction(1))]
        self.assertEqual(path.coverage.spans(path), gap)
        for wrong in [*runs[:10], runs[9]], [*runs[:11], runs[9]]:
            with self.assertRaises(Malformed) as caught:
                read(listing(wrong))
            self.assertEqual(caught.exception.place, ends_of(wrong)[-2])

    def test_steps(self) -> None:
        """Runs that differ in their steps alone, which are not read."""
        data = b"".join(b"RUN %d/9 END %d 2\nA\n\n" % (k, k % 3) for k in range(1, 10))
        reader = Reader(in_pieces(data, 100), Path(Coverage()))
        self.assertEqual([(it.ending, it.transcript) for it in reader], [(b"END", b"A\n")] * 9)

    def test_long_transcripts(self) -> None:
        """Transcripts of more than 65,536 bytes, with reports after them."""
        texts = ["A" * 65_536, "B\n" * 100_000, "\nRUN 1/2 END 2 0\n" * 20_000, "", "C" * 131_072 + "\n"]
        runs = [Run(((k, 5),), "END", text) for k, text in enumerate(texts, 1)]
        for size in 4096, 65_536, 1 << 17:
            self.assertEqual(read(listing(runs), size)[0], runs)

    def test_long_headers(self) -> None:
        runs = [Run((*((2, 2),) * 60_000, (k, 3)), "END", f"{k}\n") for k in (1, 2, 3)]
        for size in 5000, 1 << 17:
            self.assertEqual(read(listing(runs), size)[0], runs)

    def test_form_1(self) -> None:
        data = b"RUN 1,1 END 2 0\n\nRUN 1,2 END 2 2\nA\n\nRUN 2 STOP 1 0\n\n"
        for path in DrawnPath(), Path():
            reader = Reader(in_pieces(data, 9), path)
            found = [(path.spelled(), result.transcript) for result in reader]
            self.assertEqual(found, [(b"1,1", b""), (b"1,2", b"A\n"), (b"2", b"")])

    def test_drawn_runs(self) -> None:
        runs = [Run(((k % 6 + 1, 6), (k % 2 + 1, 2)), "END", f"{k % 3}\n") for k in (5, 3, 3, 4, 1, 5)]
        path = DrawnPath()
        reader = Reader(in_pieces(listing(runs), 40), path)
        found = [Run(tuple(path.values()), "END", result.transcript.decode()) for result in reader]
        self.assertEqual(found, runs)


class Torn(unittest.TestCase):
    """Listings that end within a report."""

    def test_cut_at_each_byte(self) -> None:
        for name, runs in LISTINGS.items():
            data, ends = listing(runs), ends_of(runs)
            for cut in range(len(data) + 1):
                whole = sum(end <= cut for end in ends) - 1
                for size in 3, 1000:
                    found, reader = read(data[:cut], size)
                    self.assertEqual(found, runs[:whole], (name, cut))
                    self.assertEqual((reader.torn, reader.size), (cut not in ends, cut), (name, cut))
                    self.assertEqual(reader.end, ends[whole], (name, cut))

    def test_less_bytes_than_a_report_says(self) -> None:
        found, reader = read(b"RUN none END 1 999999999999999999\nabc")
        self.assertEqual((found, reader.torn), ([], True))

    def test_nothing(self) -> None:
        found, reader = read(b"")
        self.assertEqual((found, reader.torn, reader.size), ([], False, 0))


class Spoiled(unittest.TestCase):
    """Inputs that are no listing."""

    def refuses(self, data: bytes, byte: int, cause: str) -> None:
        """Checks that a listing is refused for a byte, counted from 1."""
        for size in 1, 5, 1000:
            with self.assertRaises(Malformed) as caught:
                read(data, size)
            self.assertEqual(str(caught.exception), f"byte {byte}: {cause}")

    def test_headers(self) -> None:
        spoiled = [
            b"HELLO\n", b"\n", b"\x00" * 1000, b"run 1/2 END 2 0\n\n", b"RUN  END 1 0\n\n", b"RUN none OVER 1 0\n\n",
            b"RUN none END 1 \n\n", b"RUN none END 1 0 \n\n", b"RUN none END 01 0\n\n", b"RUN none END 1 00\n\n",
            b"RUN none END -1 0\n\n", b"RUN none,1/2 END 1 0\n\n", b"RUN ,1/2 END 1 0\n\n", b"RUN 1/2, END 1 0\n\n",
            b"RUN 1/0 END 1 0\n\n", b"RUN 0/2 END 1 0\n\n", b"RUN 3/2 END 1 0\n\n", b"RUN 1/2;1/2 END 1 0\n\n",
            b"RUN none END 1 1234567890123456789\n\n", b"RUN none END 1 0\r\n\r\n", b" RUN none END 1 0\n\n",
        ]
        for data in spoiled:
            with self.subTest(data):
                self.refuses(data, 1, NO_REPORT)

    def test_after_a_report(self) -> None:
        first = listing(DICE[:1])
        for data in b"X", b"\n", b"RUX", b"HELLO\n", b"RUN", b"RUN 9\n":
            torn = data == b"RUN"
            if not torn:
                self.refuses(first + data, len(first) + 1, NO_REPORT)
            self.refuses(first + data + b"\n" + first, len(first) + 1, NO_REPORT)

    def test_sizes(self) -> None:
        data = listing(DICE)
        second = len(listing(DICE[:1]))
        shorter = data.replace(b"2/2,1/3 END 9 7", b"2/2,1/3 END 9 5")
        self.refuses(shorter, second + len(b"RUN 2/2,1/3 END 9 5\n") + 5 + 1, NO_END)
        for size in 8, 9, 20:
            longer = data.replace(b"2/2,1/3 END 9 7", b"2/2,1/3 END 9 %d" % size)
            header = second + len(b"RUN 2/2,1/3 END 9 %d\n" % size)
            self.refuses(longer, header + size + 1, NO_END)

    def test_no_newline_after_a_transcript(self) -> None:
        for shown in b"", b"HI\n":
            header = b"RUN %%d/2 END 2 %d\n" % len(shown)
            for data in header % 1 + shown + header % 2 + shown + b"\n", header % 1 + shown + header % 2 + shown:
                self.refuses(data, len(header % 1 + shown) + 1, NO_END)

    def test_without_bounds(self) -> None:
        cause = "a report without bounds; list the runs with --form 2"
        self.refuses(b"RUN 1 END 1 0\n\nRUN 2 END 1 0\n\n", 1, cause)
        self.refuses(b"RUN 1/2,1 END 1 0\n\n", 1, cause)
        self.refuses(listing(DICE[:1]) + b"RUN 2/2,1 END 1 0\n\n", len(listing(DICE[:1])) + 1, cause)

    def test_order(self) -> None:
        for at in range(len(DICE)):
            runs = [*DICE[: at + 1], DICE[at], *DICE[at + 1 :]]
            place = len(listing(DICE[: at + 1])) + 1
            self.refuses(listing(runs), place, "this run is the same as the previous one")
        turned = [DICE[0], DICE[2], DICE[1], DICE[3]]
        self.refuses(listing(turned), len(listing(turned[:2])) + 1, "this run should come before the previous one")
        again = [*DICE, *DICE]
        self.refuses(listing(again), len(listing(DICE)) + 1, "this run should come before the previous one")
        like = [*LIKE_REPORTS[:3], *LIKE_REPORTS[2:]]
        self.refuses(listing(like), len(listing(LIKE_REPORTS[:3])) + 1, "this run is the same as the previous one")

    def test_order_from_piece_to_piece(self) -> None:
        """A run that looks like the next one by its last answer, wherever what was read before ends."""
        runs = [Run(((a, 2), (b, 3)), "END", "") for a, b in ((1, 1), (1, 2), (2, 1))]
        data = listing(runs)
        for size in range(1, len(data) + 20):
            with self.assertRaises(Malformed) as caught:
                read(data + runs[1].report() + runs[2].report(), size)
            self.assertEqual(caught.exception.place, len(data))

    def test_endless_lines(self) -> None:
        """A line without an end that is no report is refused soon, and not kept."""

        def endless(begin: bytes, rest: bytes) -> Iterator[bytes]:
            return iter([begin + rest, *islice(repeat(rest * 1000), 1000)])

        for begin, rest in (b"", b"\x00"), (b"", b"A"), (b"RUN ", b"A"), (b"RUN 1/2 ", b"E"), (b"RUN 1/2 END ", b"x"):
            pieces, taken = endless(begin, rest), []

            def give(_: int) -> bytes:
                taken.append(next(pieces, b""))
                return taken[-1]

            with self.subTest(begin=begin, rest=rest), self.assertRaises(Malformed):
                list(Reader(give, Path(Coverage())))
            self.assertLess(len(taken), 10)


class Kept(unittest.TestCase):
    """What is kept of results."""

    def test_few_results_are_kept(self) -> None:
        """Also of runs whose last question has one answer, and of runs with the same result."""
        for last, shown in ("", "%05d"), (",1/1", "%05d"), ("", "A%.0s"):
            texts = [(f"{k}/20000{last}", shown % k) for k in range(1, 20_001)]
            data = "".join(f"RUN {answers} END 1 {len(text)}\n{text}\n" for answers, text in texts).encode()
            reader = Reader(in_pieces(data, 1 << 16), Path(Coverage()))
            self.assertEqual(sum(1 for _ in reader), 20_000)
            self.assertLessEqual(len(reader._results), reports.MOST_KEPT)
            self.assertLessEqual(len(reader._siblings), reports.MOST_KEPT)

    def test_long_results_are_not_kept(self) -> None:
        runs = listings.tree([20], lambda answers: "A" * 5000)
        reader = Reader(in_pieces(listing(runs), 1 << 16), Path(Coverage()))
        self.assertEqual(sum(1 for _ in reader), 20)
        self.assertEqual((len(reader._results), len(reader._siblings)), (0, 0))


if __name__ == "__main__":
    unittest.main()
