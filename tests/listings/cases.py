"""The cases: a listing in another dialect, the program that it becomes, what is reported, and games.

A case is a file of sections. Each starts with a line of two hyphens and its name:

    -- about TEXT             the dialect, and what the listing is there for
    -- arguments ARGUMENT..   arguments of tools/adapt, if there are any
    -- listing
    -- program STATUS         what tools/adapt writes, and its status
    -- report                 what it says on standard error
    -- play STATUS ARGUMENT.. the input lines of a game; the arguments and the status of ptb
    -- shows                  its transcript
"""

import glob
import os
import shlex
import unittest

from programs import CHECKS, adapt, play

FOLDER = os.path.dirname(os.path.realpath(__file__))
SECTION = "-- "


def sections_of(path):
    """The sections of a case: the words of the line that starts each, and the lines in it."""
    found = []
    with open(path, encoding="utf-8") as file:
        for line in file:
            if line.startswith(SECTION):
                found.append((line[len(SECTION) :], []))
            else:
                found[-1][1].append(line)
    return [(title, "".join(lines)) for title, lines in found]


class Adapted(unittest.TestCase):
    """A listing of a case is adapted."""

    def __init__(self, name, listing, arguments, due):
        super().__init__()
        self.name, self.listing, self.arguments = name, listing, arguments
        self.due = due  # the status, the program and the report

    def id(self):
        return f"{self.name}: the program and the report"

    def runTest(self):
        self.maxDiff = None
        status, program, report = adapt(self.listing, *self.arguments)
        found = (status, *program.split("\n"), *report.split("\n"))
        self.assertEqual(found, (self.due[0], *self.due[1].split("\n"), *self.due[2].split("\n")))

    def __str__(self):
        return self.id()


class Checked(unittest.TestCase):
    """The program of a case is accepted by ptb."""

    def __init__(self, name, program, check):
        super().__init__()
        self.name, self.program, self.check = name, program, check

    def id(self):
        return f"{self.name}: ptb {' '.join(self.check)}"

    def runTest(self):
        self.assertEqual(play(self.program, self.check, "")[::2], (0, ""))

    def __str__(self):
        return self.id()


class Played(unittest.TestCase):
    """A game of a case shows its transcript."""

    def __init__(self, name, program, game, transcript):
        super().__init__()
        self.name, self.program, self.transcript = name, program, transcript
        self.status, self.arguments, self.lines = game

    def id(self):
        return f"{self.name}: a game with {' '.join(self.arguments) or 'no arguments'}"

    def runTest(self):
        self.maxDiff = None
        found = play(self.program, self.arguments, self.lines)
        self.assertEqual((found[0], *found[1].split("\n"), found[2]), (self.status, *self.transcript.split("\n"), ""))

    def __str__(self):
        return self.id()


class Enough(unittest.TestCase):
    """There are as many cases as there should be, and each has a game that ends as games do."""

    def id(self):
        return "cases: at least 25, each with a game"

    def runTest(self):
        paths = glob.glob(f"{FOLDER}/*.case")
        self.assertGreaterEqual(len(paths), 25)
        for path in paths:
            games = [title for title, _ in sections_of(path) if title.startswith("play")]
            self.assertTrue(games and all(title.split()[1] == "0" for title in games), path)

    def __str__(self):
        return self.id()


def tests_of(path):
    """The tests of a case."""
    name = os.path.basename(path)[: -len(".case")]
    arguments, status, texts, found = [], 0, {}, []
    game = None
    for title, text in sections_of(path):
        word, *rest = shlex.split(title) if not title.startswith("about") else ["about"]
        texts[word] = text
        if word == "arguments":
            arguments = rest
        elif word == "program":
            status = int(rest[0])
            found += [Checked(name, text, check) for check in CHECKS]
        elif word == "report":
            found.append(Adapted(name, texts["listing"], arguments, (status, texts["program"], text)))
        elif word == "play":
            game = (int(rest[0]), rest[1:], text)
        elif word == "shows":
            found.append(Played(name, texts["program"], game, text))
    return found


def suite():
    """The tests of all cases."""
    return [Enough()] + [test for path in sorted(glob.glob(f"{FOLDER}/*.case")) for test in tests_of(path)]
