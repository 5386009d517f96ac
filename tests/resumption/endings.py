"""This file checks how tools/resume ends: for its words, for files, and by the command's status."""

import os
import subprocess

from trials import DICE, LISTING, PROGRAM, Case, Trials, read, write

UNREAD = "ptb: cannot read the program\n  none.bas: No such file or directory (os error 2)\n"
HELP = "see resume --help\n"
NO_COMMAND = f"resume: a command is needed after FILE and --; {HELP}"


class Endings(Trials):
    """How tools/resume ends."""

    def says(self, name, given, status, errors, file=b""):
        """Checks the status and the text for errors of a call with these arguments, and what is in the file after it."""
        reply = self.resume(*given)
        self.hold(name, (reply.status, reply.errors, reply.file) == (status, errors, file), reply)

    def test_arguments(self):
        self.text(DICE)
        write(LISTING, b"")
        ptb = self.ptb
        line = f"resume: {LISTING}: "
        self.says("no arguments", [], 64, f"resume: the following arguments are required: FILE; {HELP}")
        self.says("a file alone", [LISTING], 64, NO_COMMAND)
        self.says("no command", [LISTING, "--"], 64, NO_COMMAND)
        said = f"resume: unrecognized arguments: {ptb} --all {PROGRAM}; {HELP}"
        self.says("no --", [LISTING, ptb, "--all", PROGRAM], 64, said)
        self.says("no --all", [LISTING, "--", ptb, PROGRAM], 64, f"{line}the command has no --all\n")
        self.says("--all as a program", [LISTING, "--", ptb, "--", "--all"], 64, f"{line}the command has no --all\n")
        twice = [LISTING, "--", ptb, "--all", "--first", "1", "--first=2", PROGRAM]
        self.says("--first twice", twice, 64, f"{line}--first is there twice\n")
        twice = [LISTING, "--", ptb, "--all", "--under=1", "--under", "2", PROGRAM]
        self.says("--under twice", twice, 64, f"{line}--under is there twice\n")
        values = ("--first", "two"), ("--first", ""), ("--after", "01"), ("--after", "1,,2"), ("--after", "None"), ("--under", "2/")
        for option, value in values:
            given = [LISTING, "--", ptb, "--all", PROGRAM, option, value]
            self.says(f"{option} {value}", given, 64, f"{line}{option} can't have the value {value!r}\n")
        given = [LISTING, "--", ptb, "--all", PROGRAM, "--after"]
        self.says("--after without a value", given, 64, f"{line}--after can't have the value ''\n")
        done = subprocess.run([self.tool, "--help"], capture_output=True)
        helps = b"resume FILE -- ptb --all" in done.stdout
        self.hold("--help", helps and (done.returncode, done.stderr) == (0, b""), done)

    def test_files(self):
        self.text(DICE)
        words = self.words(DICE)
        self.says("a missing file", [LISTING, "--", *words], 66, f"resume: {LISTING}: there is no such file\n", None)
        self.says("a folder", [".", "--", *words], 66, "resume: .: there is no such file\n", None)

    def test_commands(self):
        """Commands that can't be started, that fail before they write, or in the middle of it."""
        text = self.text(DICE)
        write(LISTING, text[:20])
        missing = f"resume: {LISTING}: cannot start ./missing: No such file or directory\n"
        self.says("no such command", [LISTING, "--", "./missing", "--all"], 127, missing, text[:20])
        denied = f"resume: {LISTING}: cannot start ./{PROGRAM}: Permission denied\n"
        self.says("a command that is none", [LISTING, "--", f"./{PROGRAM}", "--all"], 126, denied, text[:20])
        given = [LISTING, "--", self.ptb, "--all", "none.bas"]
        self.says("the command can't read its program", given, 66, UNREAD, text[:20])
        given = [LISTING, "--", self.ptb, "--all", "--steps", "0", PROGRAM]
        reply = self.resume(*given)
        told = (reply.status, reply.file) == (64, text[:20]) and "--steps" in reply.errors
        self.hold("arguments that the command refuses", told, reply)
        write("whole", text)
        for ending, status in ("exit 74", 74), ("kill -9 $$", 137):
            for length, due in (10, 20), (30, 30), (45, 45):
                write("stand_in", f"#!/bin/sh\nhead -c {length} whole\n{ending}\n".encode())
                os.chmod("stand_in", 0o755)
                write(LISTING, text[:20])
                given = [LISTING, "--", "./stand_in", "--all"]
                self.says(f"{ending} after {length} bytes", given, status, "", text[:due])

    def test_a_full_disk(self):
        """A file at its size limit keeps a prefix of the listing, which is resumed where there is room."""
        case = Case("10 PRINT RND(99)\n")
        text = self.text(case)
        write(LISTING, text[:500])
        shell = 'ulimit -f 1; exec "$@"'
        given = ["bash", "-c", shell, "bash", self.tool, LISTING, "--", *self.words(case)]
        done = subprocess.run(given, stdin=subprocess.DEVNULL, stderr=subprocess.PIPE)
        due = f"resume: {LISTING}: cannot write: File too large\n".encode()
        self.hold("a file at its size limit", (done.returncode, done.stderr) == (74, due), done)
        self.hold("and what it holds", read(LISTING) == text[:1024])
        self.says("and is resumed", [LISTING, "--", *self.words(case)], 0, "", text)
