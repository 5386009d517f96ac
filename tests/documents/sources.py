"""This file finds what the files of definitions, of proofs and of code define, and what their heads say."""

import glob
import os
import re

WIDTH = 120
UNBROKEN = re.compile(r" *#\[tactic\(.*|use [^,]+")
KEYWORDS = r"(?:(?:abbrev|unfoldable|pub|record|data) )*"
DECLARED = re.compile(rf"^ *{KEYWORDS}([^\s:(){{}}\[\]]+)(?: .*)?(?: |$)(?::|where|\()", re.M)
IN_CODE = re.compile(r"\b(?:fn|struct|enum|trait|const|mod|macro_rules!) +([A-Za-z_][A-Za-z0-9_]*)")
COMMENT = re.compile(r"--.*")
MAIN = re.compile(r"^-- Main (?:lemma|definition)s?: (.*)\.$", re.M)
HEAD = re.compile(r"\A(?:--.*\n)+")
TABLE_OF_FILES = re.compile(r"^\| ((?:`ptb[a-z_]*`(?:, )?)+) \| ((?:`[A-Z][A-Za-z]*`(?:, )?)+) \|", re.M)
TITLE = re.compile(r"^#+ .*\((`ptb[a-z_]*`: .*)\)$", re.M)
CODE = re.compile(r"`([^`\n]+)`")


def text_of(path):
    """The text of a file."""
    with open(path, encoding="utf-8") as file:
        return file.read()


def files(root, folder, pattern="*.antt"):
    """The files in a folder of the crates, without the lists of modules."""
    found = sorted(glob.glob(f"{root}/crates/*/{folder}/{pattern}", recursive=True))
    return [path for path in found if os.path.basename(path) != "Lib.antt"]


def wide_lines(text):
    """The numbers of the lines that have too many columns and can be broken."""
    lines = enumerate(text.split("\n"), 1)
    return [number for number, line in lines if len(line) > WIDTH and not UNBROKEN.fullmatch(line)]


def contract_imports(text):
    """The lines that import what the contracts of a file of code cite."""
    return [line for line in text.split("\n") if line.startswith("ghost use ")]


def head(text):
    """The comment with which a file begins."""
    found = HEAD.match(text)
    return found[0] if found else ""


def declared(text):
    """The names that a file of definitions or of proofs declares, with those of fields and constructors."""
    return set(DECLARED.findall(COMMENT.sub("", text)))


def main(text):
    """The names of what the head of a file of definitions or of proofs calls the main ones."""
    return set(CODE.findall("".join(MAIN.findall(head(text)))))


def all_names(root):
    """The names of crates, of files of definitions and of what they declare, and of functions and types of the code."""
    names = {os.path.basename(path) for path in glob.glob(f"{root}/crates/*")}
    for path in files(root, "specs"):
        names |= {os.path.basename(path).removesuffix(".antt"), *declared(text_of(path))}
    for path in files(root, "src", "**/*.rt"):
        names |= set(IN_CODE.findall(text_of(path)))
    return names


def crates_and_files(text):
    """The crates and the files of their definitions that a page names: in the rows of tables, and in titles."""
    for crates, named in TABLE_OF_FILES.findall(text):
        for name in CODE.findall(named):
            yield CODE.findall(crates), name
    for title in TITLE.findall(text):
        for part in title.split("; "):
            crate, _, named = part.partition(": ")
            for name in named.split(", "):
                yield [crate.strip("`")], name
