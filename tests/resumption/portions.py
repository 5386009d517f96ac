"""This file checks that a listing is resumed: after each byte, in portions, and with answers that have bounds."""

import os
import subprocess

from trials import DICE, ENDINGS, HEADERS, LISTING, PROGRAM, Case, Trials, no_listing, read, reports_of, write

PORTION = Case(DICE.program, words=("--after", "1", "--first", "2"))
SHARE = Case(HEADERS.program, words=("--under", "2/2"))
RUN_ALONE = Case(HEADERS.program, words=("--under=2,1",))
ALONE = Case(DICE.program, words=("--form", "1"))
TWO_QUESTIONS = "10 PRINT RND(2)*RND(2)\n"

NOT_A_RUN = "ptb: not a run\n  --after: item 1 is 3, but its question allows 1 to 2\n"
NO_RUN_BEGINS_SO = "ptb: no run begins so\n  --under: item 1 is 3, but its question allows 1 to 2\n"

# a listing whose answers have their bounds, and a stand-in for the program that writes it: as it continues after a run
BOUNDS = [b"RUN 1/2 END 2 0\n\n", b"RUN 2/2,1/2 HOW 3 2\nAB\n", b"RUN 2/2,2/2 END 3 1\n\n\n"]
STAND_IN = """#!/bin/sh
case "$*" in
--all) tail -c +1 ;;
'--all --after 1/2') tail -c +18 ;;
'--all --after 2/2,1/2') tail -c +41 ;;
*) exit 64 ;;
esac <bounds
"""


class Standing(Trials):
    """Listings that are resumed."""

    def test_cuts(self):
        self.cuts("endings of all kinds", ENDINGS, [b"WHAT", b"HOW", b"SORRY", b"LIMIT", b"NOINPUT", b"STOP", b" 0\n\n"])
        self.cuts("transcripts like reports", HEADERS, [b"\nRUN 1 END 2 0\n\nRUN 2,1 END 4 7\n", b"RUN 3\n"])
        self.cuts("a portion", PORTION, [b"RUN 2/4 ", b"RUN 3/4 "])
        self.cuts("a share", SHARE, [b"RUN 2/2,1/2 ", b"RUN 2/2,2/2 "])
        self.cuts("a share of one run", RUN_ALONE, [b"RUN 2/2,1/2 "])
        self.cuts("answers alone", ALONE, [b"RUN 2 ", b"RUN 3 "])
        self.cuts("an empty program", Case(""), [b"RUN none END 0 0\n\n"])

    def cuts(self, name, case, parts):
        """Cuts a listing, which has these parts, at each byte."""
        text = self.text(case)
        self.hold(f"{name}: the listing has what it is about", all(part in text for part in parts), text)
        bad = []
        for length in range(len(text) + 1):
            write(LISTING, text[:length])
            reply = self.resume_here(LISTING, "--", *self.words(case))
            if (reply.status, reply.errors, reply.file) != (0, "", text):
                bad.append((length, reply))
        self.hold(f"{name}: cut at each of {len(text)} bytes", not bad, bad[:3])

    def test_whole_and_nothing(self):
        """A complete listing stays as it is, even if it may not be written; an incomplete one may not be read-only."""
        text = self.text(DICE)
        write(LISTING, text)
        before = os.stat(LISTING).st_mtime_ns
        reply = self.resume(LISTING, "--", *self.words(DICE))
        self.hold("a complete listing", (reply.status, reply.errors, reply.file) == (0, "", text), reply)
        self.hold("a complete listing is left alone", os.stat(LISTING).st_mtime_ns == before)

        def read_only(path, mode, buffering):
            if mode != "rb":
                raise PermissionError(13, "Permission denied")
            return open(path, mode, buffering)

        self.module.open = read_only
        self.completed("a complete listing that may only be read", text, self.words(DICE), text)
        line = f"resume: {LISTING}: this file may not be written"
        self.refused("a part that may only be read", text[:-1], self.words(DICE), 73, line)
        del self.module.open
        self.completed("an empty file", b"", self.words(DICE), text, self.resume)

    def test_portions(self):
        """Arguments with --first and --after, spelled in both ways and in any place, at the borders of reports."""
        reports = reports_of(self.text(Case(TWO_QUESTIONS)))
        for standing in range(4):
            name, part, whole = f"--first 3 with {standing} reports", reports[:standing], reports[:3]
            words = [self.ptb, "--first=3", PROGRAM, "--all"]
            self.completed(name, b"".join(part), words, b"".join(whole))
        for standing in range(3):
            name, part, whole = f"--after 1,2 with {standing} reports", reports[2 : 2 + standing], reports[2:]
            words = [self.ptb, PROGRAM, "--first", "+09", "--all", "--after=1,2"]
            self.completed(name, b"".join(part), words, b"".join(whole))
        words = [self.ptb, "--all", PROGRAM, "--first", "3"]
        cause = "there are more reports than --first 3 allows"
        place = len(b"".join(reports[:3]))
        self.refused("more than --first", b"".join(reports), words, 65, no_listing(place + 1, cause))
        cause = "the listing of that program ends here"
        self.refused("a part more than --first", b"".join(reports)[: place + 5], words, 65, no_listing(place + 1, cause))
        words = [self.ptb, "--all", "--after", "1,1", PROGRAM]
        self.refused("reports before --after", b"".join(reports), words, 65, no_listing(1, "this run doesn't come next"))
        words = [self.ptb, "--all", "--after", "none", PROGRAM]
        self.refused("reports after none", reports[0], words, 65, no_listing(1, "this run doesn't come next"))
        write(LISTING, b"")
        reply = self.resume(LISTING, "--", self.ptb, "--all", "--after", "3,1", PROGRAM)
        self.hold("--after no run", (reply.status, reply.errors, reply.file) == (67, NOT_A_RUN, b""), reply)

    def test_shares(self):
        """Arguments with --under: reports of other shares are none of this one's."""
        reports = reports_of(self.text(Case(TWO_QUESTIONS)))
        words = [self.ptb, "--all", "--under=2", PROGRAM]
        for standing in range(3):
            self.completed(f"a share with {standing} reports", b"".join(reports[2 : 2 + standing]), words, b"".join(reports[2:]))
        words_after = [self.ptb, "--under", "2/2", "--first", "1", "--all", "--after", "2,1", PROGRAM]
        self.completed("a share after a run", reports[3][:9], words_after, reports[3])
        cause = "this run doesn't come next"
        self.refused("reports before the share", b"".join(reports), words, 65, no_listing(1, cause))
        self.refused("a share without its first run", reports[3], words, 65, no_listing(1, cause))
        first = [self.ptb, "--all", "--under", "1", PROGRAM]
        self.refused("reports after the share", b"".join(reports), first, 65, no_listing(len(b"".join(reports[:2])) + 1, cause))
        write(LISTING, b"")
        reply = self.resume(LISTING, "--", self.ptb, "--all", "--under", "3", PROGRAM)
        due = (67, NO_RUN_BEGINS_SO, b"")
        self.hold("--under no run", (reply.status, reply.errors, reply.file) == due, reply)

    def test_bounds(self):
        """Answers that are written with their bounds."""
        text = b"".join(BOUNDS)
        write("bounds", text)
        write("stand_in", STAND_IN.encode())
        os.chmod("stand_in", 0o755)
        bad = []
        for length in range(len(text) + 1):
            write(LISTING, text[:length])
            reply = self.resume_here(LISTING, "--", "./stand_in", "--all")
            if (reply.status, reply.file) != (0, text):
                bad.append((length, reply))
        self.hold("answers with bounds, cut at each byte", not bad, bad[:3])
        wrong = BOUNDS[0] + BOUNDS[2] + BOUNDS[1]
        due = no_listing(len(BOUNDS[0]) + 1, "this run doesn't come next")
        self.refused("answers with bounds in another order", wrong, ["./stand_in", "--all"], 65, due)

    def test_inputs(self):
        """A pipe as the input, and the program on standard input: each is read once."""
        text = self.text(ENDINGS)
        write(LISTING, text[: len(text) // 2])
        words = [self.tool, LISTING, "--", *self.words(ENDINGS)]
        done = subprocess.run(words, input=ENDINGS.input, capture_output=True)
        self.hold("a pipe as the input", (done.returncode, done.stdout, read(LISTING)) == (0, b"", text), done)
        text = self.text(DICE)
        write(LISTING, text[: len(text) // 2])
        reply = self.resume(LISTING, "--", self.ptb, "--all", stdin=PROGRAM)
        self.hold("the program on standard input", (reply.status, reply.file) == (0, text), reply)

    def test_names(self):
        """A program that is named like an option, and a command that follows another one."""
        text = self.text(DICE)
        write("--first", DICE.program.encode())
        for words in [[self.ptb, "--all", "--", "--first"], ["env", self.ptb, "--steps", "9", "--all", PROGRAM]]:
            self.completed(f"words {words[1:]}", text[:-10], words, text, self.resume)
