#!/usr/bin/env python3
"""Checks that what docs/PROMISES.md names is there: each function, each clause of it, and each planted bug. It also checks that
the page names each public function of the libraries.

A clause belongs to a row if the contract of one of the row's functions has it, or if it is a field of a record that the row
or such a contract names. The last line is 'N passed, M failed'. Arguments name parts of tests, as planted_bugs.
"""

import re
import sys
import unittest
from pathlib import Path

ROOT = Path(__file__).resolve().parent.parent
sys.dont_write_bytecode = True
sys.path.insert(0, str(ROOT / "tests/shared"))
import runner

PAGE = ROOT / "docs/PROMISES.md"
WORD = r"[A-Za-z_][A-Za-z0-9_]*"
FUNCTION = re.compile(rf"\bfn ({WORD})(.*?)(?=\bfn |\Z)", re.S)
TYPE = re.compile(rf"\b(?:struct|enum|trait) ({WORD})|\bimpl\b[^{{;]*?\b([A-Z][A-Za-z0-9_]*)\b[^{{;]*\{{")
BODY = re.compile(r"^ *\{\}?$", re.M)
CLAUSE = re.compile(rf"\bensures\*? ({WORD}) \{{")
GHOST = re.compile(rf"\bghost ({WORD})\b")
DEFINITION = re.compile(rf"^(?:(?:abbrev|unfoldable|pub|record|data) )+({WORD})\b(.*?)(?=^\S|\Z)", re.M | re.S)
FIELD = re.compile(rf"^  (?:pub )?({WORD}) ?:", re.M)
CODE = re.compile(r"`([^`]+)`")
OWNERS = re.compile(r"(?:of|for) ((?:`[^`]+`(?:, | and )?)+)")
EDITS = re.compile(r"`(ptb[a-z_]*)`: ((?:`[a-z0-9_]+`(?:, )?)+)")


def without_modules(text):
    """The definitions with those of a block `module _ ..` at the left margin, too."""
    return re.sub(r"^module _.*\n((?:(?:  .*)?\n)+)", lambda it: re.sub("^  ", "", it[1], flags=re.M), text, flags=re.M)


class Sources:
    """What the sources and the definitions of all crates name."""

    def __init__(self):
        self.functions = {}
        self.types = {}
        self.definitions = {}
        for path in sorted(ROOT.glob("crates/*/src/**/*.rt")):
            self.read_code(path.parts[len(ROOT.parts) + 1], re.sub(r"//[^\n]*", "", path.read_text()))
        for path in sorted(ROOT.glob("crates/*/specs/**/*.antt")):
            for name, text in DEFINITION.findall(without_modules(path.read_text())):
                self.definitions[name] = self.definitions.get(name, "") + text

    def read_code(self, crate, text):
        for name, rest in FUNCTION.findall(text):
            contract = BODY.split(rest, maxsplit=1)[0]
            self.functions.setdefault(name, []).append((crate, contract))
        for names in TYPE.findall(text):
            for name in filter(None, names):
                self.types.setdefault(name, []).append((crate, text))

    def texts_of(self, path):
        """The texts of what a path such as `ptb_serve::serve` or `Explorer::next` names, if anything."""
        *before, last = re.sub(r"[^A-Za-z0-9_:]", "", path).split("::")
        crate = before[0] if before and before[0].startswith("ptb") else None
        found = [*self.functions.get(last, []), *self.types.get(last, [])]
        return [text for owner, text in found if crate in (None, owner)]

    def clauses_of(self, texts, row):
        """The names of the clauses of these texts, and of the fields of the records that they or the row name."""
        names = set()
        for text in texts:
            names |= {*CLAUSE.findall(text), *GHOST.findall(text)}
        for word in {it for text in [*texts, row] for it in re.findall(WORD, text)} & self.definitions.keys():
            names |= {word, *FIELD.findall(self.definitions[word])}
        return names


def rows_of(page):
    """The cells of each row of the page's tables, each with the first cell of its table's head."""
    head = None
    for line in filter(lambda it: it.startswith("| "), page.splitlines()):
        cells = [it.strip() for it in line.strip().strip("|").split(" | ")]
        if cells[0] in ("Crate", "Promise", "Mistake"):
            head = cells[0]
        else:
            yield head, cells


def public_functions():
    """The crate, the type and the name of each function that the libraries export, and of the public methods of their types."""
    for root in sorted(ROOT.glob("crates/*/src/lib.rt")):
        crate = root.parent.parent.name
        exported = set(re.findall(WORD, " ".join(re.findall(r"^pub use [^;]*;", root.read_text(), re.M))))
        for path in sorted(root.parent.glob("**/*.rt")) if not crate.endswith(("_rows", "_tests")) else []:
            owner = None
            for line in path.read_text().splitlines():
                opened = re.match(rf"impl\b.*?({WORD})(?:<.*>)? \{{", line)
                owner = opened[1] if opened else None if line == "}" else owner
                found = re.match(rf"( *)pub (?:const )?fn ({WORD})", line)
                if found and (owner or found[2]) in exported:
                    yield crate, owner, found[2]


class Page(unittest.TestCase):
    """What the page names is there, and it names what it should."""

    @classmethod
    def setUpClass(cls):
        cls.sources = Sources()
        cls.page = PAGE.read_text()
        cls.crates, cls.mistakes, cls.promises, cls.malformed = [], [], [], []
        tables = {"Crate": cls.crates, "Promise": cls.promises, "Mistake": cls.mistakes}
        for head, row in rows_of(cls.page):
            (tables[head] if cls.kind_of(row) == head else cls.malformed).append(row)

    @staticmethod
    def kind_of(row):
        """The head of the table in which a row belongs, if it has three cells."""
        if len(row) != 3:
            return None
        if re.match(r"`ptb_?[a-z_]*`(,|$)", row[0]):
            return "Crate"
        return "Mistake" if EDITS.search(row[1]) else "Promise"

    def holds(self, condition, complaint):
        """A check of its own, so that the others are made even if it fails."""
        with self.subTest(complaint):
            self.assertTrue(condition)

    def test_tables(self):
        """There are rows of each kind, and each has three cells and is in a table of its kind."""
        self.assertTrue(self.crates and self.mistakes and self.promises)
        self.assertEqual(self.malformed, [])

    def test_public_functions(self):
        """Each public function of the libraries has a promise. The row of a method names its type, too."""
        named = [set(re.findall(WORD, " ".join(CODE.findall(f"{row[1]} {row[2]}")))) for row in self.promises]
        functions = list(public_functions())
        self.assertTrue(functions)
        for crate, owner, name in functions:
            needed = {name, owner or name}
            self.holds(any(needed <= names for names in named), f"no promise of {crate}::{owner or ''} {name}")

    def test_crates(self):
        """There is a row for each crate, and the functions and types of the row are there."""
        named = [name for crates, _, _ in self.crates for name in CODE.findall(crates)]
        self.assertEqual(sorted(named), sorted(it.name for it in ROOT.glob("crates/*")))
        for crate, _, functions in self.crates:
            for name in CODE.findall(functions):
                self.holds(self.sources.texts_of(name), f"no function or type {name} of {crate}")

    def test_promises(self):
        """The functions of a promise are there, and have its clauses. A row without functions is about those above it."""
        texts = []
        for promise, functions, clauses in self.promises:
            texts = self.texts_of_row(promise, functions) if CODE.search(functions) else texts
            self.check_clauses(texts, clauses, f"{functions[:60]}: {promise[:60]}")

    def texts_of_row(self, promise, functions):
        """The texts of the functions and types of a promise, which are there."""
        texts = []
        for name in CODE.findall(functions):
            if name.startswith("ptb") and "::" not in name or name.endswith(".rt") or name.startswith(".."):
                continue
            found = self.sources.texts_of(name)
            self.holds(found, f"no function or type {name}: {promise[:60]}")
            texts += found
        return texts

    def check_clauses(self, texts, clauses, place):
        """The clauses are in the contracts of these texts, or in those that the clauses name as theirs."""
        owners = [it for names in OWNERS.findall(clauses) for it in CODE.findall(names)]
        owned = [text for it in owners for text in self.sources.texts_of(it)]
        known = self.sources.clauses_of([*texts, *owned], clauses)
        for name in CODE.findall(clauses):
            is_there = name in known or name in owners and (self.sources.texts_of(name) or name.startswith("std::"))
            self.holds(is_there, f"no clause {name} of {place}")

    def test_planted_bugs(self):
        """Each planted bug is there, among those that the gate tries."""
        for _, edits, _ in self.mistakes:
            for crate, names in EDITS.findall(edits):
                for name in CODE.findall(names):
                    path = ROOT / "crates" / crate / "must-fail" / f"{name}.edit"
                    self.holds(path.is_file(), f"no planted bug of the gate {crate}: {name}")

    def test_refusals(self):
        """The functions and clauses that refuse a mistake are there."""
        for _, edits, refusals in self.mistakes:
            for part in refusals.split("; "):
                texts = [text for name in CODE.findall(part) for text in self.sources.texts_of(name)]
                known = self.sources.clauses_of(texts, part)
                for name in CODE.findall(part):
                    is_there = name in known or self.sources.texts_of(name)
                    self.holds(is_there, f"nothing of the name {name} in {part[:60]}: {edits[:60]}")


if __name__ == "__main__":
    runner.main()
