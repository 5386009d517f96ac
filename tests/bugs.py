#!/usr/bin/env python3
"""Checks the planted bugs of all crates, those that the gate tries (must-fail/) and the others (more-bugs/), without the prover:
each of them is well formed and can be planted, and has a name of its own in its crate.

The last line is 'N passed, M failed'. Arguments name parts of tests, as planted.
"""

import re
import sys
import unittest
from collections import Counter
from pathlib import Path

ROOT = Path(__file__).resolve().parent.parent
sys.dont_write_bytecode = True
sys.path.insert(0, str(ROOT / "tests/shared"))
import runner

FOLDERS = ("must-fail", "more-bugs")
NAME = re.compile(r"[a-z][a-z0-9_]*\.edit")
FILE = re.compile(r"(src|specs|proofs)/[A-Za-z0-9_/]+\.(rt|antt)")
LINE = re.compile(r"(file|old|new): (.*)")


class CannotBePlanted(Exception):
    """Says why a bug can't be planted."""


def pairs_of(lines):
    """The replacements of a planted bug, each with its file: (file, old, new)."""
    file = old = None
    for number, line in enumerate(lines, 1):
        found = LINE.fullmatch(line)
        if not found:
            raise CannotBePlanted(f"line {number} is no 'file: ..', 'old: ..' or 'new: ..'")
        kind, text = found.groups()
        if (kind == "new") != (old is not None) or (kind == "old" and file is None):
            raise CannotBePlanted(f"line {number} is a '{kind}:' in the wrong place")
        if kind == "file":
            file = text
        elif kind == "old":
            old = text
        else:
            yield file, old, text
            old = None
    if old is not None:
        raise CannotBePlanted("the last 'old:' has no 'new:'")


def plant(crate, lines):
    """Applies the replacements of a planted bug to the files of its crate, in turn, in memory alone."""
    texts = {}
    for file, old, new in pairs_of(lines):
        if not FILE.fullmatch(file) or not (crate / file).is_file():
            raise CannotBePlanted(f"{file} is no file of src/, specs/ or proofs/")
        text = texts.get(file) or (crate / file).read_text()
        if text.count(old) != 1:
            raise CannotBePlanted(f"{text.count(old)} times in {file}: {old}")
        if old == new:
            raise CannotBePlanted(f"changes nothing in {file}: {old}")
        texts[file] = text.replace(old, new)
    if not texts:
        raise CannotBePlanted("there is nothing to replace")


def files_of(crate):
    """All that is in the folders of a crate's planted bugs."""
    return [path for folder in FOLDERS for path in sorted((crate / folder).glob("*"))]


class PlantedBugs(unittest.TestCase):
    """What is in the folders of planted bugs."""

    def setUp(self):
        self.crates = sorted(ROOT.glob("crates/*"))
        self.assertTrue(self.crates)

    def test_planted(self):
        """Each bug is well formed, and each text that it replaces is in its file exactly once."""
        for crate in self.crates:
            for path in files_of(crate):
                with self.subTest(f"{crate.name}: {path.name}"):
                    plant(crate, path.read_text().splitlines())

    def test_names(self):
        """The folders of a crate have planted bugs alone, no two of one name."""
        for crate in self.crates:
            counts = Counter(path.name for path in files_of(crate))
            with self.subTest(crate.name):
                self.assertEqual([name for name in counts if not NAME.fullmatch(name)], [])
                self.assertEqual([name for name, count in counts.items() if count > 1], [])


if __name__ == "__main__":
    runner.main()
