"""This file checks the prose of the pages: the width of their lines, and the words that tests/wording.txt refuses."""

import re
from fnmatch import fnmatch

WIDTH = 100
WORDING = "tests/wording.txt"
CODE = re.compile(r"`[^`\n]*(?:\n[^`\n]+)?`")


class Wording:
    """The patterns that the prose doesn't have, each with the words to use, and the lines that are excepted."""

    def __init__(self, lines):
        self.patterns = []
        self.excepted = []
        for line in lines:
            if line.startswith("except "):
                page, _, text = line[len("except ") :].partition(": ")
                self.excepted.append((page, text))
            elif line and not line.startswith("#"):
                pattern, _, instead = line.partition(" -> ")
                spread = pattern.replace(" ", r"\s+")
                self.patterns.append((re.compile(rf"\b(?:{spread})\b", re.IGNORECASE), instead))

    def excepts(self, page, line):
        """Whether this line of a page is excepted."""
        return any(fnmatch(page, it) and text in line for it, text in self.excepted)

    def unused(self, pages):
        """The exceptions that no line of the pages needs; the pages are lists of lines by their names."""
        for page, text in self.excepted:
            lines = [line for name in pages if fnmatch(name, page) for line in pages[name]]
            if not any(text in line and self.found_in(line) for line in lines):
                yield f"except {page}: {text}"

    def found_in(self, text):
        """The first pattern in a text, if there is one."""
        return next((found for found, _ in self.patterns if found.search(text)), None)


def kinds(lines):
    """Of each line of a page: `block`, `table` or `prose`."""
    fenced = False
    for line in lines:
        fence = line.lstrip().startswith("```")
        if fenced or fence or line.startswith("    "):
            yield "block"
        elif line.startswith("|"):
            yield "table"
        else:
            yield "prose"
        fenced ^= fence


def wide_lines(lines):
    """The numbers of the lines outside blocks and tables that have too many columns."""
    return [at for at, (line, kind) in enumerate(zip(lines, kinds(lines)), 1) if kind == "prose" and len(line) > WIDTH]


def torn_tables(lines):
    """The numbers of the lines of prose that have the rule below a table's head: tables whose rows were joined or indented."""
    return [at for at, (line, kind) in enumerate(zip(lines, kinds(lines)), 1) if kind == "prose" and "|---" in line]


def without_code(page, lines):
    """The text of a page in which code is left out; each line stays where it is."""
    if page.endswith(".1"):
        return "\n".join("``" if line.startswith(".") else line for line in lines)
    kept = ["" if kind == "block" else line for line, kind in zip(lines, kinds(lines))]
    return CODE.sub(lambda code: "``" + "\n" * code[0].count("\n"), "\n".join(kept))


def refused_words(page, lines, wording):
    """What the wording refuses in a page: the place, the words, and those to use."""
    text = without_code(page, lines)
    for pattern, instead in wording.patterns:
        for found in pattern.finditer(text):
            at = text.count("\n", 0, found.start())
            if not wording.excepts(page, lines[at]):
                yield f"{page}:{at + 1}: {' '.join(found[0].split())!r}; write: {instead}"
