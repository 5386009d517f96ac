"""This file checks that a file which is no listing of the program is refused, and left as it was."""

import random

from trials import DICE, ENDINGS, LISTING, Case, Trials, no_listing, reports_of, write

NO_REPORT = "no report begins here"
NOT_NEXT = "this run doesn't come next"
THE_SAME = "this run is the same as the previous one"
BEFORE = "this run should come before the previous one"
OTHER_BYTE = "that program writes another byte here"
ENDS_HERE = "the listing of that program ends here"

# in form 1: bounds of the reports before the last aren't looked at
ALONE = ("--form", "1")
ALONE_ENDINGS = Case(ENDINGS.program, ENDINGS.input, (*ENDINGS.words, *ALONE))


class Spoiled(Trials):
    """Files that are no listing of the program."""

    def test_no_listings(self):
        """Files of other kinds, and texts that continue after a listing."""
        text = self.text(DICE)
        words = self.words(DICE)
        noise = bytes(random.Random("noise").randrange(256) for _ in range(100_000))
        self.refused("random bytes", noise, words, 65, no_listing(1, NO_REPORT), self.resume)
        self.refused("random letters", bytes(65 + byte % 26 for byte in noise), words, 65, no_listing(1, NO_REPORT))
        self.refused("zeros", bytes(1_000_000), words, 65, no_listing(1, NO_REPORT))
        self.refused("a program", DICE.program.encode(), words, 65, no_listing(1, NO_REPORT))
        self.refused("an empty line", b"\n", words, 65, no_listing(1, NO_REPORT))
        self.refused("an empty line after reports", text + b"\n", words, 65, no_listing(len(text) + 1, NO_REPORT))
        self.refused("a byte after a complete listing", text + b"R", words, 65, no_listing(len(text) + 1, ENDS_HERE))
        self.refused("a listing twice", text + text, words, 65, no_listing(len(text) + 1, BEFORE))
        number = b"RUN 1 END 1 " + b"9" * 6000 + b"\n"
        self.refused("a number of bytes without end", number, words, 65, no_listing(1, NO_REPORT))
        number = b"RUN 1/4 END 1 999999999999999999\n"
        self.refused("a number of bytes too large", number, words, 65, no_listing(15, OTHER_BYTE))
        self.refused("a report in another form", b"RUN 1 END 1 7\n     1\n\n", words, 65, no_listing(6, OTHER_BYTE))
        self.refused("an answer too large", b"RUN 999999 END 1 0\n\n", words, 65, no_listing(1, NO_REPORT))

    def test_other_programs(self):
        """Listings of other programs: which differ in what they show, or have runs that this one doesn't have."""
        dice = Case(DICE.program, words=ALONE)
        shown = reports_of(self.text(Case("10 PRINT RND(4)+1\n", words=ALONE)))
        more = reports_of(self.text(Case("10 PRINT RND(6)\n", words=ALONE)))
        whole = self.text(dice)
        words = self.words(dice)
        for reports in 1, 3, 4:
            place = len(b"".join(shown[: reports - 1])) + len("RUN 1 END 1 7\n     ")
            due = no_listing(place + 1, OTHER_BYTE)
            self.refused(f"{reports} reports of another program", b"".join(shown[:reports]), words, 65, due)
        five, six = b"".join(more[:5]), b"".join(more)
        self.refused("a run too many", five, words, 65, no_listing(len(whole) + 1, ENDS_HERE))
        due = no_listing(len(five) + 1, "the answers of the report before this one are no run")
        self.refused("two runs too many", six, words, 65, due, self.resume)
        torn = b"".join(more[:2]) + b"RUN 3 END 2"
        self.refused("a part of another report", torn, words, 65, no_listing(len(torn), OTHER_BYTE))

    def test_other_orders(self):
        """Reports of the program, but two of them in the wrong order, one left out, or one twice."""
        case = Case("10 PRINT RND(3)*RND(2)\n")
        reports = reports_of(self.text(case))
        words = self.words(case)
        self.hold("six reports", len(reports) == 6)
        first, second, third, fourth, fifth, sixth = reports
        orders = {
            "the first report left out": ([second, third], 0, NOT_NEXT),
            "a report left out": ([first, second, fourth, fifth], 2, NOT_NEXT),
            "the last but one left out": ([first, second, third, fourth, sixth], 4, NOT_NEXT),
            "a report twice": ([first, second, third, third, fourth], 3, THE_SAME),
            "the second report once more": ([first, second, third, second], 3, BEFORE),
            "two reports the wrong way round": ([first, second, fourth, third], 2, NOT_NEXT),
            "the first report last": ([first, second, third, first], 3, BEFORE),
        }
        for name, (order, wrong, cause) in orders.items():
            due = no_listing(len(b"".join(order[:wrong])) + 1, cause)
            self.refused(name, b"".join(order), words, 65, due)

    def test_changed_bytes(self):
        """A listing of which one byte is changed: any of its last report, or of a header, up to the answers or after the
        steps; in the last header any. (The steps and the transcripts of the reports before the last aren't looked at.)"""
        reports = reports_of(self.text(ALONE_ENDINGS))
        places, place = [], 0
        for report in reports[:-1]:
            header = report[: report.index(b"\n") + 1]
            steps = header.split()[3]
            at = header.rindex(b" " + steps + b" ")
            places += [place + k for k in range(len(header)) if not at < k <= at + len(steps)]
            place += len(report)
        text = b"".join(reports)
        places += range(place, len(text))
        bad = [place for place in places for flip in (1, 2, 16) if not self.is_refused(text, place, flip)]
        self.hold(f"each of {len(places)} bytes changed", not bad, bad)

    def is_refused(self, text, place, flip):
        """Whether the listing with this byte changed is refused as none, and left as it was."""
        content = text[:place] + bytes([text[place] ^ flip]) + text[place + 1 :]
        write(LISTING, content)
        reply = self.resume_here(LISTING, "--", *self.words(ALONE_ENDINGS))
        told = reply.errors.startswith(no_listing(0, "").partition("0")[0])
        return reply.status == 65 and told and reply.file == content

    def test_long_lines(self):
        """Runs with so many answers that a header is read in several pieces, or that they can't be a word."""
        words = ("--steps", "90000", *ALONE)
        case = Case("10 FOR I=1 TO 20000;LET A=RND(1)+RND(1);NEXT I\n20 PRINT RND(3)\n", words=words)
        text = self.text(case)
        for length in 70_000, 79_999, len(text) // 2 - 5, len(text) // 2 + 5, len(text) - 1:
            name = f"a long header: {length} bytes of {len(text)}"
            self.completed(name, text[:length], self.words(case), text)
        case = Case("10 FOR I=1 TO 30000;LET A=RND(1)+RND(1)+RND(1);NEXT I\n20 PRINT RND(3)\n", words=words)
        text = self.text(case)
        part = text[:-1]
        write(LISTING, part)
        reply = self.resume_here(LISTING, "--", *self.words(case))
        refused = (126, f"resume: {LISTING}: cannot start {self.ptb}: Argument list too long\n", part)
        held = (reply.status, reply.errors, reply.file) in (refused, (0, "", text))
        self.hold("answers that may be too long for a word", held, reply.errors)
