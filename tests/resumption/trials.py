"""This file has the listings that are tried, and calls tools/resume."""

import contextlib
import importlib
import io
import os
import random
import subprocess
import sys
import tempfile
import unittest
from dataclasses import dataclass
from unittest import mock

from stage import PTB, ROOT

TOOL = f"{ROOT}/tools/resume"
LISTING = "listing"
PROGRAM = "program.bas"
SECONDS_OF_A_CALL = 60

sys.path.insert(0, os.path.dirname(TOOL))

@dataclass(frozen=True)
class Case:
    """A program with its input lines, and the words of its listing besides --all and its name."""

    program: str
    input: bytes = b""
    words: tuple = ()


DICE = Case("10 PRINT RND(4)\n")
# each kind of ending, among them faults, and runs that show nothing
ENDINGS = Case(
    "10 LET A=RND(7);IF A=1 GOTO 80\n20 IF A=2 GOTO 20\n30 IF A=3 INPUT B;PRINT 2/(B-RND(2))\n40 IF A=4 INPUT B,C,D\n"
    "50 IF A=5 STOP\n60 IF A=6 LET @(9999)=1\n70 IF A=7 PRINT 2*-3\n80 REM\n",
    b"1\nRND(2)\n",
    ("--steps", "30"),
)
# transcripts in which each line could be one of a report, or which end without a line end
HEADERS = Case(
    '10 LET A=RND(2);PRINT "RUN 1 END 2 0"\n20 PRINT;PRINT "RUN 2,1 END 4 7";IF A=2 LET B=RND(2)\n'
    '30 IF A=2 IF B=2 PRINT "RUN 3",\n'
)


@dataclass(frozen=True)
class Reply:
    """The result of a call: its status, its text for errors, and what is in the file."""

    status: int
    errors: str
    file: bytes


class Trials(unittest.TestCase):
    """Tests of the tool, each in a folder of its own, with a source of random numbers."""

    ptb, tool, module = PTB, TOOL, importlib.import_module("ptb_tools.resume")

    def setUp(self):
        folder = tempfile.TemporaryDirectory(prefix="ptb-resuming-")
        self.addCleanup(folder.cleanup)
        self.addCleanup(os.chdir, "/")
        os.chdir(folder.name)
        write("input", b"")
        # the tool is called in this process, too, and its messages begin with its name
        named = mock.patch.object(sys, "argv", [self.tool])
        named.start()
        self.addCleanup(named.stop)
        self.random = random.Random("resuming")

    def hold(self, name, holds, seen=""):
        """A check that is made by whether something holds."""
        with self.subTest(name):
            self.assertTrue(holds, seen)

    def words(self, case):
        """The command that lists the case's runs."""
        return [self.ptb, "--all", *case.words, PROGRAM]

    def text(self, case):
        """Writes the case's files, and gives its complete listing."""
        write(PROGRAM, case.program.encode())
        write("input", case.input)
        with open("input", "rb") as stdin:
            return subprocess.run(self.words(case), stdin=stdin, stdout=subprocess.PIPE, check=True).stdout

    def resume(self, *words, stdin="input"):
        """Calls tools/resume with these arguments as a process of its own."""
        with open(stdin, "rb") as opened:
            done = subprocess.run([self.tool, *words], stdin=opened, capture_output=True, timeout=SECONDS_OF_A_CALL)
        return Reply(done.returncode, done.stderr.decode(), read(LISTING))

    def resume_here(self, *words):
        """Calls tools/resume without a process of its own, which is quicker; what its command says isn't seen."""
        errors = io.StringIO()
        kept = os.dup(0)
        with open("input", "rb") as opened:
            os.dup2(opened.fileno(), 0)
        try:
            with contextlib.redirect_stderr(errors):
                status = self.module.main(list(words))
        finally:
            os.dup2(kept, 0)
            os.close(kept)
        return Reply(status, errors.getvalue(), read(LISTING))

    def completed(self, name, content, words, text, call=None):
        """Checks that a file with this content is resumed up to the complete text."""
        write(LISTING, content)
        reply = (call or self.resume_here)(LISTING, "--", *words)
        self.hold(name, (reply.status, reply.errors, reply.file) == (0, "", text), reply)

    def refused(self, name, content, words, status, line, call=None):
        """Checks that a file with this content is refused with this line, and left as it was."""
        write(LISTING, content)
        before = os.stat(LISTING).st_mtime_ns
        reply = (call or self.resume_here)(LISTING, "--", *words)
        told = line in reply.errors.splitlines()
        self.hold(name, reply.status == status and told, f"{reply}; due: {status} {line}")
        self.hold(f"{name}: the file", reply.file == content and os.stat(LISTING).st_mtime_ns == before)


def write(name, content):
    with open(name, "wb") as file:
        file.write(content)


def read(name):
    if not os.path.isfile(name):
        return None
    with open(name, "rb") as file:
        return file.read()


def no_listing(byte, cause):
    """The line for a file that is no listing of the program; bytes are counted from 1."""
    return f"resume: {LISTING}: this is no listing of that program: byte {byte}: {cause}"


def reports_of(text):
    """The reports of a listing, by their numbers of bytes."""
    reports = []
    while text:
        header = text.index(b"\n") + 1
        end = header + int(text[:header].split()[-1]) + 1
        reports.append(text[:end])
        text = text[end:]
    return reports
