#!/usr/bin/env python3
"""Checks the pages for readers: their commands, quotations of the source, links, named files and definitions, pictures, prose.

The commands that a page prints after a `$` are run, and what they show is compared with what is printed below them. A line
that continues a command begins with `>`. The commands of a block are run by one bash, so that they can leave statuses for
one another. Those of a page run in a folder of its own, in which ptb, tools and examples are as at the root, so that a
block can use the files of the blocks before it. A block with a program that is not installed is skipped if it is one of
OPTIONAL. A line that looks like a command and has no `$` is a failure.

A single command without `<` and `|` is one at a terminal: what is typed there comes after the colons of what is shown. If
it shows a seed that was drawn, it is run with this seed. A block that shows why a run ended is run at a terminal, since
nothing is said elsewhere.

`<!-- from FILE -->` before a block means that its lines are in FILE, one after the other.

The prose has short lines and complete tables, and avoids the words of tests/wording.txt. The heads of files of definitions
and of proofs name the main ones of what is in them. The lines of code, definitions and proofs are short.

The last line is 'N passed, M failed'. Arguments name parts of tests, as links or test_tool; without any, all are run. PTB
names another program than the one that ./ptb builds.
"""

import glob
import itertools
import os
import pty
import re
import shutil
import subprocess
import sys
import termios
import unittest

sys.dont_write_bytecode = True
TESTS = os.path.dirname(os.path.realpath(__file__))
sys.path[:0] = [f"{TESTS}/shared", f"{TESTS}/documents"]
import runner
import sources
from prose import WORDING, Wording, refused_words, torn_tables, wide_lines
from stage import ROOT, staged

PAGES_AT_THE_TOP = ["README.md", "CHANGELOG.md", "CONTRIBUTING.md", "SECURITY.md"]
SPECIFICATION = "specs/README.md"
ALL_PAGES = [*PAGES_AT_THE_TOP, "docs/*.md", "docs/*.1", "examples/README.md", SPECIFICATION, "tests/README.md", "tools/README.md"]
LINES_OF_A_PAGE = {"README.md": 200, "CONTRIBUTING.md": 150, "docs/ARCHITECTURE.md": 200, SPECIFICATION: 125}
DECISIONS = "docs/DECISIONS.md"
LINES_OF_A_DECISION = 8
MOST_IMPORTS = 5
BYTES_OF_A_PICTURE = 100_000
LOOKS_LIKE_COMMAND = re.compile(r"    (\./|rt |tests/|tools/|ptb-|cd |cat |diff |printf |echo |sed |tr |seq |xargs |parallel |q=)")
# Programs that a reader may do without.
OPTIONAL = ["parallel"]
# What is tried elsewhere: the first in a copy of the repository, by tests/installation.sh; the second has
# this script as a part.
TRIED_ELSEWHERE = {"./install ~/.local", "RT_JOBS=4 rt ci && tests/all.sh"}
WORDS_OF_ANTT = {"abbrev", "record", "unfoldable"}
NAMED_FILE = re.compile(r"`((?:bench|docs|examples|tests|tools)/[a-z0-9_.-]*[a-z0-9])[ `]")
PASSED_ON = re.compile(r"^pub use .*", re.M)
SEED = re.compile(r"ptb: seed ([0-9]+)")
ONLY_AT_A_TERMINAL = re.compile(r"ptb: (stopped at|INPUT found|a random number|one of the) ")


class Command:
    """A command as it is printed, its place, and the lines that are printed below it."""

    def __init__(self, page, line, text):
        self.place = f"{page}:{line}"
        self.text = text
        self.shown = []


def lines_of(page):
    """The lines of a page, without their ends."""
    with open(f"{ROOT}/{page}", encoding="utf-8") as file:
        return file.read().split("\n")


def all_pages():
    """The names of all pages that there are."""
    found = [path for pattern in ALL_PAGES for path in sorted(glob.glob(f"{ROOT}/{pattern}"))]
    return [os.path.relpath(path, ROOT) for path in found]


# ---- commands


def blocks(page):
    """The blocks of a page that have commands: lists of commands, in order."""
    found, block = [], []
    for number, line in enumerate([*lines_of(page), "."], 1):
        if line.strip() and not line.startswith("    "):
            found += [block] if block else []
            block = []
        elif line.startswith("    $ "):
            block.append(Command(page, number, line[6:]))
        elif block and line.startswith("    > ") and not block[-1].shown:
            block[-1].text += "\n" + line[6:]
        elif block:
            block[-1].shown.append(line[4:])
    return found


def shows(block, pattern):
    """Whether a line that a block shows begins like this."""
    return any(pattern.match(line) for command in block for line in command.shown)


def typed(block):
    """The lines that are typed where a block is one command at a terminal; after other colons there is a blank."""
    if len(block) > 1 or re.search("[<|]", block[0].text):
        return ""
    return "".join(f"{line.partition(':')[2]}\n" for line in block[0].shown if re.search(r"^[^:]*:\S", line))


def with_seed(command):
    """The command, with the seed that it shows as drawn, where it shows one."""
    seed = next(filter(None, map(SEED.fullmatch, command.shown[:1])), None)
    if not seed:
        return command.text
    return f"echo '{seed[0]}'; " + command.text.replace("./ptb ", f"./ptb --seed {seed[1]} ", 1)


def shown_by(block, folder):
    """What each command of a block shows, on both of its streams; the next one finds its status in `$?`."""
    mark = "end of a command of the documents"
    script = "".join(f"{{ {with_seed(it)}\n}} 2>&1\n{{ status=$?; echo '{mark}'; (exit $status); }}\n" for it in block)
    if shows(block, ONLY_AT_A_TERMINAL):
        shown = run_at_terminal(script, folder)
    else:
        lines = typed(block).encode()
        ran = subprocess.run(["bash", "-c", script], cwd=folder, input=lines, stdout=subprocess.PIPE, timeout=600)
        shown = ran.stdout
    said = shown.decode("utf-8", "replace").split(f"{mark}\n")
    return said[: len(block)] + [""] * (len(block) - len(said))


def run_at_terminal(script, folder):
    """What a script of bash shows at a terminal at which nothing is typed."""
    leader, follower = pty.openpty()
    attributes = termios.tcgetattr(follower)
    attributes[1] &= ~termios.OPOST  # a newline is shown as one byte
    termios.tcsetattr(follower, termios.TCSANOW, attributes)
    streams = {"stdin": follower, "stdout": follower, "stderr": follower}
    with subprocess.Popen(["bash", "-c", script], cwd=folder, **streams):
        os.close(follower)
        shown = b"".join(iter(lambda: read_or_end(leader), b""))
    os.close(leader)
    return shown


def read_or_end(leader):
    """The bytes that a terminal got; none once nobody has it open any more."""
    try:
        return os.read(leader, 4096)
    except OSError:
        return b""


def programs_missing(block):
    """The programs of a block that a reader may do without and that are not installed."""
    words = {word for command in block for word in command.text.split()}
    return [it for it in OPTIONAL if it in words and not shutil.which(it)]


class Commands(unittest.TestCase):
    """The commands of the pages that have some."""

    maxDiff = None

    def test_readme(self):
        self.check_page("README.md")

    def test_tool(self):
        self.check_page("docs/TOOL.md")

    def test_large_trees(self):
        self.check_page("docs/LARGE-TREES.md")

    def test_language(self):
        self.check_page("docs/LANGUAGE.md")

    def test_old_listings(self):
        self.check_page("docs/OLD-LISTINGS.md")

    def test_examples(self):
        self.check_page("examples/README.md")

    def check_page(self, page):
        """The page has commands, each is marked as one, and each shows what is printed below it."""
        with self.subTest(f"{page} has commands"):
            self.assertTrue(blocks(page))
        with self.subTest(f"{page}: each command has a $"):
            lines = [line.strip() for line in lines_of(page) if LOOKS_LIKE_COMMAND.match(line)]
            self.assertEqual([line for line in lines if line not in TRIED_ELSEWHERE], [])
        with staged() as folder:
            for block in blocks(page):
                self.check_block(block, folder)

    def check_block(self, block, folder):
        """Each command of a block shows what is printed below it."""
        missing = programs_missing(block)
        if missing:
            with self.subTest(block[0].place):
                self.skipTest(f"{' and '.join(missing)} is not installed")
            return
        for command, text in zip(block, shown_by(block, folder)):
            with self.subTest(f"{command.place}: {command.text}"):
                self.assertEqual(text.rstrip("\n"), "\n".join(command.shown).rstrip("\n"))


# ---- what pages name


def quotations(page):
    """The blocks after `<!-- from FILE -->`: the number of this line, the file, and the lines of the block."""
    lines = lines_of(page)
    for at, line in enumerate(lines):
        named = re.fullmatch(r"<!-- from (\S+) -->", line)
        if named:
            body = lines[at + 2 :]
            yield at + 1, named[1], list(itertools.takewhile(lambda it: it.startswith("    "), body))


def stripped(lines):
    """These lines as a text, without the blanks around them."""
    return "".join(f"{line.strip()}\n" for line in lines)


def links(page):
    """The files to which a page links."""
    return re.findall(r"\]\(([^)#:]+)(?:#[^)]*)?\)", "\n".join(lines_of(page)))


def named_files(page):
    """The scripts and examples that a page names in its text."""
    return sorted(set(NAMED_FILE.findall("\n".join(lines_of(page)))))


def files_of_definitions(page):
    """The files of definitions that a page names with their crates, each with the paths where it may be."""
    for crates, name in sources.crates_and_files("\n".join(lines_of(page))):
        yield name, [f"{ROOT}/crates/{crate}/specs/{name}.antt" for crate in crates]


def definitions(page):
    """The names beside the link to a file of definitions in a table, each with the file."""
    for line in lines_of(page):
        cells = [it.strip() for it in line.strip("|").split("|")]
        linked = re.search(r"\]\(([^)]*\.antt)\)", cells[0])
        if linked and len(cells) == 3:
            for name in re.findall(r"`([^`]+)`", cells[1]):
                yield name, os.path.normpath(os.path.join(os.path.dirname(page), linked[1]))


def named_sources(page):
    """The patterns of the paths of the sources and the files of definitions that a page names by their last names."""
    text = "\n".join(lines_of(page))
    for name in sorted(set(re.findall(r"`((?:[a-z_]+/)?[a-z_]+\.rt)`", text))):
        is_test = page == "tests/README.md" and glob.glob(f"{ROOT}/crates/*/src/tests/{name}")
        yield f"crates/*/src/{'tests/' if is_test else ''}{name}"
    for name in sorted(set(re.findall(r"`specs/([A-Za-z]+)`", text))):
        yield f"crates/*/specs/{name}.antt"


def decisions():
    """The entries of the page of decisions: the numbers of their first lines, and their lines."""
    found = []
    for number, line in enumerate(lines_of(DECISIONS), 1):
        if line.startswith("- "):
            found.append((number, [line]))
        elif line.startswith("  ") and found:
            found[-1][1].append(line)
    return found


class Named(unittest.TestCase):
    """What the pages name is there."""

    def on_all_pages(self, find):
        """What is found on the pages, each with its page; there is something."""
        found = [(page, it) for page in all_pages() for it in find(page)]
        self.assertTrue(found)
        return found

    def test_quotations(self):
        """Each block after `<!-- from FILE -->` is in that file as it is printed."""
        for page, (number, file, quoted) in self.on_all_pages(quotations):
            with self.subTest(f"{page}:{number}: a quotation of {file}"):
                self.assertTrue(quoted)
                self.assertTrue("\n" + stripped(quoted) in "\n" + stripped(lines_of(file)), quoted)

    def test_links(self):
        """Each file to which a page links is there."""
        for page, target in self.on_all_pages(links):
            with self.subTest(f"{page} links to {target}"):
                self.assertTrue(os.path.exists(f"{ROOT}/{os.path.dirname(page)}/{target}"))

    def test_pictures(self):
        """Pictures are small."""
        pictures = [(page, target) for page, target in self.on_all_pages(links) if target.endswith(".png")]
        self.assertTrue(pictures)
        for page, target in pictures:
            with self.subTest(f"{page}: the size of {target}"):
                self.assertLess(os.path.getsize(f"{ROOT}/{os.path.dirname(page)}/{target}"), BYTES_OF_A_PICTURE)

    def test_files(self):
        """The scripts and examples that a page names in its text are there."""
        for page, name in self.on_all_pages(named_files):
            with self.subTest(f"{page} names {name}"):
                self.assertTrue(os.path.exists(f"{ROOT}/{name}"))

    def test_definitions(self):
        """Each name beside the link to a file of definitions in a table is defined there."""
        for page, (name, file) in self.on_all_pages(definitions):
            with self.subTest(f"{page}: {name} is defined in {file}"):
                defined = rf" *(?:(?:abbrev|unfoldable|pub|record|data) )+{name}\b"
                self.assertTrue(any(re.match(defined, line) for line in lines_of(file)))

    def test_files_of_definitions(self):
        """The files of definitions that a page names with their crates are there."""
        for page, (name, paths) in self.on_all_pages(files_of_definitions):
            with self.subTest(f"{page} names {name}"):
                self.assertTrue(any(map(os.path.exists, paths)), paths)

    def test_names_of_the_specification(self):
        """What the page of the definitions names in its text is defined."""
        defined = sources.all_names(ROOT)
        named = set(sources.CODE.findall("\n".join(lines_of(SPECIFICATION))))
        for name in sorted(it for it in named if re.fullmatch("[A-Za-z_]+", it)):
            with self.subTest(name):
                self.assertTrue(name in defined or name in WORDS_OF_ANTT)

    def test_sources(self):
        """The sources and the files of definitions that a page names by their last names are there."""
        for page, pattern in self.on_all_pages(named_sources):
            with self.subTest(f"{page} names {pattern}"):
                self.assertTrue(glob.glob(f"{ROOT}/{pattern}"))

    def test_list_of_tests(self):
        """tests/README.md lists the scripts that tests/all.sh runs, in their order."""
        table = "\n".join(lines_of("tests/README.md")).partition("## ")[0]
        listed = re.findall(r"^\| `(\S+\.(?:sh|py))", table, re.M)
        self.assertEqual(listed, re.findall(r"^tried (\S+\.\S+)", "\n".join(lines_of("tests/all.sh")), re.M))


class Heads(unittest.TestCase):
    """The heads of files of definitions and of proofs name what is in them."""

    def test_definitions(self):
        """The head of a file of definitions names the main ones. A prelude declares none, and passes on some."""
        for path in sources.files(ROOT, "specs"):
            text = sources.text_of(path)
            with self.subTest(os.path.relpath(path, ROOT)):
                passed_on = set(re.findall(r"\w+", "".join(PASSED_ON.findall(text))))
                if path.endswith("/Prelude.antt"):
                    self.assertTrue(passed_on and not sources.declared(text))
                    continue
                self.assertTrue(sources.main(text))
                self.assertLessEqual(sources.main(text), sources.declared(text) | passed_on)

    def test_lemmas(self):
        """The head of a file of lemmas names the main ones. A file that exports lemmas declares none."""
        for path in sources.files(ROOT, "proofs"):
            text = sources.text_of(path)
            with self.subTest(os.path.relpath(path, ROOT)):
                if path.endswith("/PublicLemmas.antt"):
                    self.assertTrue(PASSED_ON.findall(text) and not sources.declared(text))
                    continue
                self.assertTrue(sources.main(text))
                self.assertLessEqual(sources.main(text), sources.declared(text))


# ---- prose


class Lemmas(unittest.TestCase):
    """Each crate exports one file of lemmas."""

    def test_exported(self):
        """The other files of lemmas are private."""
        for lib in sorted(glob.glob(f"{ROOT}/crates/*/proofs/Lib.antt")):
            with self.subTest(os.path.relpath(lib, ROOT)):
                self.assertLessEqual(set(re.findall(r"^pub mod (\w+)", sources.text_of(lib), re.M)), {"PublicLemmas"})


class Layout(unittest.TestCase):
    """The lines of code, of definitions and of proofs are short, where they can be."""

    def test_widths(self):
        """Only attributes of tactics, which `rt fmt` keeps on one line, and imports of one name are longer."""
        for crate in sorted(glob.glob(f"{ROOT}/crates/*")):
            places = [f"{crate}/src/**/*.rt", f"{crate}/specs/*.antt", f"{crate}/proofs/**/*.antt"]
            paths = [path for place in places for path in sorted(glob.glob(place, recursive=True))]
            with self.subTest(os.path.basename(crate)):
                self.assertTrue(paths)
                wide = [(path, number) for path in paths for number in sources.wide_lines(sources.text_of(path))]
                self.assertEqual([f"{os.path.relpath(path, ROOT)}:{number}" for path, number in wide], [])

    def test_imports(self):
        """A file of code begins with at most five lines of imports for its contracts."""
        paths = sorted(glob.glob(f"{ROOT}/crates/*/src/**/*.rt", recursive=True))
        self.assertTrue(paths)
        for path in paths:
            with self.subTest(os.path.relpath(path, ROOT)):
                self.assertLessEqual(len(sources.contract_imports(sources.text_of(path))), MOST_IMPORTS)


class Prose(unittest.TestCase):
    """The pages are short, and their prose is as it should be."""

    def test_widths(self):
        """Lines are short, except in man pages."""
        for page in all_pages():
            with self.subTest(page):
                self.assertEqual(wide_lines(lines_of(page)) if not page.endswith(".1") else [], [])

    def test_tables(self):
        """The rows of tables are neither joined nor indented."""
        for page in all_pages():
            with self.subTest(page):
                self.assertEqual(torn_tables(lines_of(page)), [])

    def test_words(self):
        """There are no words to avoid."""
        wording = Wording(lines_of(WORDING))
        for page in all_pages():
            with self.subTest(page):
                self.assertEqual(list(refused_words(page, lines_of(page), wording)), [])

    def test_exceptions(self):
        """Each exception of the wording is needed."""
        pages = {page: lines_of(page) for page in all_pages()}
        self.assertEqual(list(Wording(lines_of(WORDING)).unused(pages)), [])

    def test_lengths(self):
        """Pages to be read in one go are short."""
        for page, most in LINES_OF_A_PAGE.items():
            with self.subTest(page):
                self.assertLessEqual(len(lines_of(page)), most + 1)

    def test_decisions(self):
        """Each decision is an entry of a few lines, with a name for what was chosen."""
        entries = decisions()
        self.assertTrue(entries)
        for number, lines in entries:
            with self.subTest(f"{DECISIONS}:{number}"):
                self.assertRegex(" ".join(it.strip() for it in lines), r"\A- \*\*[^*]+\*\*")
                self.assertLessEqual(len(lines), LINES_OF_A_DECISION)


if __name__ == "__main__":
    runner.main()
