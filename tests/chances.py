#!/usr/bin/env python3
"""Computes the chances of runs from their reports, and compares them with those of the pages, of tools/outcomes and of --chances.

The programs are those of the chapter on chances in docs/TOOL.md, of README.md, and examples; the chances of some are
counted by hand, too. Tables of --chances are compared with those that are added up from reports, byte for byte.

The last line is 'N passed, M failed'. Arguments name parts of tests, as Games; without any, all are run. PTB names another
program than the one that ./ptb builds.
"""

import glob
import json
import os
import random
import re
import subprocess
import sys
import unittest
from collections import Counter
from fractions import Fraction
from itertools import product
from math import comb, factorial

sys.dont_write_bytecode = True
sys.path.insert(0, f"{os.path.dirname(os.path.realpath(__file__))}/shared")
import runner
from results import table_of, table_text
from stage import PTB, ROOT, staged


class Checked(unittest.TestCase):
    """Tests that compare what is said with what is due."""

    maxDiff = 4000

    def same(self, name, said, due):
        """A check that holds if both are the same."""
        with self.subTest(name):
            self.assertEqual(said, due)


# ---- listings


def listing(program, *words, lines=b""):
    """The bytes of all runs of the program with this path."""
    return subprocess.run([PTB, "--all", *words, program], input=lines, stdout=subprocess.PIPE, check=True).stdout


def listing_of_text(text):
    """The bytes of all runs of a program's text."""
    return subprocess.run([PTB, "--all"], input=text.encode(), stdout=subprocess.PIPE, check=True).stdout


def example(name, *words):
    """The bytes of all runs of an example on its lines."""
    with open(f"{ROOT}/examples/{name}.input", "rb") as lines:
        return listing(f"{ROOT}/examples/{name}.bas", *words, lines=lines.read())


def runs_in(text):
    """Of each run in a listing: its answers as they are spelled, its ending, what it showed, and its chance."""
    runs, at = [], 0
    while at < len(text):
        shown = text.index(b"\n", at) + 1
        _, spelled, ending, _, size = text[at:shown].decode().split()
        chance = Fraction(1)
        for bound in re.findall("/([0-9]+)", spelled):
            chance *= Fraction(1, int(bound))
        at = shown + int(size) + 1
        runs.append((spelled, ending, text[shown : at - 1].decode(), chance))
    return runs


def table(program, *words, lines=b""):
    """The chances of the results of the program with this path."""
    return subprocess.run([PTB, "--chances", *words, program], input=lines, stdout=subprocess.PIPE, check=True).stdout


def last_line(shown):
    """The last line of a transcript that isn't empty."""
    return next((line for line in reversed(shown.split("\n")) if line), "")


def added_up(runs, key):
    """The chance and the number of the runs that have the same key, for each key."""
    chances, numbers = Counter(), Counter()
    for run in runs:
        chances[key(run)] += run[3]
        numbers[key(run)] += 1
    return {it: (chances[it], numbers[it]) for it in chances}


# the examples that have few enough runs for all tables
LISTED = ["beast", "doors", "eight", "guess", "hanoi", "hello", "letters", "matches", "throw"]

# the examples with too many runs, each with a limit of commands
STEPS = {"bagels": "15", "craps": "20", "dice": "30", "duel": "60", "harvest": "60", "tictac": "300", "walk": "60"}
MOST_LISTED = 30_000

KEYS = {
    "outcome": lambda run: (run[1], run[2]),
    "ending": lambda run: run[1],
    "last-line": lambda run: last_line(run[2]),
}


def told(text, kind):
    """What the tool says of a listing, or of a table of --chances, in its table for programs: chance and number of runs by
    the same keys."""
    words = [f"{ROOT}/tools/outcomes", "--json", "--by", kind]
    done = subprocess.run(words, input=text, stdout=subprocess.PIPE, check=True)
    rows = [json.loads(line) for line in done.stdout.decode().splitlines()[1:]]
    runs = [("", row["ending"], row.get("line", row["transcript"]), Fraction(row["chance"]), row["runs"]) for row in rows]
    return {KEYS[kind](run): (run[3], run[4]) for run in runs}


# ---- the documents


TITLE = re.compile("^#+ Chances$", re.M)


def page_text(page):
    """The text of a page."""
    with open(f"{ROOT}/{page}", encoding="utf-8") as file:
        return file.read()


def chapter_of_the_tool():
    """The chapter on chances of docs/TOOL.md, up to the next title, and the program of its example."""
    text = re.split("^#+ ", TITLE.split(page_text("docs/TOOL.md"))[-1], flags=re.M)[0]
    return text, re.search(r"\$ echo '(.*)' \| ./ptb --all", text)[1]


def whole(chance):
    """A fraction as it is written, in lowest terms or not."""
    return Fraction(*map(int, chance.split("/")))


def rows_shown(text, command):
    """The rows of a table that a page prints below this command: percent, chance, title and runs of each."""
    table = text[text.index(command) :].split("\n\n")[0]
    rows = re.findall(r"^    +([<>0-9.]+) %  +([0-9/]+)  #+ +(.*), ([0-9,]+) runs?$", table, re.M)
    return [(title, whole(chance), int(runs.replace(",", "")), percent) for percent, chance, title, runs in rows]


def listing_by(command):
    """The bytes of a listing of runs by a command that a page prints."""
    with staged() as folder:
        return subprocess.run(["bash", "-c", command], cwd=folder, stdout=subprocess.PIPE, check=True).stdout


class Pages(Checked):
    """The chances that the pages print are those of the runs."""

    def test_page_of_the_tool(self):
        """The chapter's table, its numbers, and the runs that it prints."""
        text, program = chapter_of_the_tool()
        self.same("the page has the chapter once", len(TITLE.findall(page_text("docs/TOOL.md"))), 1)
        runs = runs_in(listing_of_text(program + "\n"))
        rows = re.findall(r"^\| `(.*)` \| (.*) \| ([0-9/]+) \|$", text, re.M)
        self.same("the table's runs", [row[0] for row in rows], [run[0] for run in runs])
        bounds = [re.findall("/([0-9]+)", run[0]) for run in runs]
        self.same("the table's bounds", [row[1].split(" and ") for row in rows], bounds)
        self.same("the table's chances", [whole(row[2]) for row in rows], [run[3] for run in runs])
        self.same("the runs that are printed", re.findall("^    RUN (\\S+)", text, re.M), [run[0] for run in runs])
        showing = [run for run in runs if run[2]]
        said = r"shows a number in (\w+) of its (\w+) runs, and with the chance ([0-9]+/[0-9]+), which is ([0-9/]+)\."
        numbers = re.search(said.replace(" ", r"\s+"), text)
        words = {"one": 1, "two": 2, "three": 3, "four": 4}
        self.same("how many runs show a number", (words[numbers[1]], words[numbers[2]]), (len(showing), len(runs)))
        self.same("their chance", {whole(numbers[3]), whole(numbers[4])}, {sum(run[3] for run in showing)})

    def test_readme(self):
        """The program of README is that of the chapter, so its chances are those of the chapter's table."""
        text = page_text("README.md")
        _, program = chapter_of_the_tool()
        self.same("README's example", re.findall(r"\$ echo '(.*)' \| ./ptb --all$", text, re.M), [program])
        text = text[text.index(f"echo '{program}' | ./ptb --all") :]
        runs = runs_in(listing_of_text(program + "\n"))
        self.same("README's runs", re.findall("^    RUN (\\S+)", text, re.M)[: len(runs)], [run[0] for run in runs])
        chance, ways = Fraction(comb(100, 50), 2**100), comb(100, 50)
        due = [(f"{chance.numerator}/{chance.denominator}", f"{ways}", f"{50:6}")]
        self.same("README's tosses", re.findall("^    CHANCE (\\S+) (\\S+) END 6\n    (.*)$", text, re.M), due)

    def test_tables_of_readme(self):
        self.check_tables("README.md", 2)

    def test_tables_of_the_tool(self):
        self.check_tables("docs/TOOL.md", 2)

    def test_tables_of_examples(self):
        self.check_tables("examples/README.md", 1)

    def check_tables(self, page, least):
        """Each table by endings or last lines that a page prints has the chances that the listed runs have."""
        text = page_text(page)
        commands = re.findall(r"^    (\$ (.*) \| tools/outcomes --by (ending|last-line))$", text, re.M)
        self.same(f"{page} has so many tables or more", len(commands) >= least, True)
        for command, listing_command, kind in commands:
            runs = runs_in(listing_by(listing_command))
            due = added_up(runs, KEYS[kind])
            rows = rows_shown(text, command)
            self.same(f"{page}: {command}", {row[0].strip(): row[1:3] for row in rows}, {it.strip(): due[it] for it in due})
            self.same(f"{page}: percents: {command}", [row[3] for row in rows], [f"{float(100 * row[1]):.2f}" for row in rows])
            falling = sorted((row[1] for row in rows), reverse=True)
            self.same(f"{page}: order: {command}", [row[1] for row in rows], falling)

    def test_page_of_examples(self):
        """The tables of these games in examples/README.md are those of their rules."""
        text = page_text("examples/README.md")
        for name, results in [("craps", craps(20)), ("walk", walk(100))]:
            rows = rows_shown(text, f"    $ ./ptb --chances examples/{name}.bas < /dev/null | tools/outcomes\n")
            due = [(line.decode(), *results[ending, line]) for ending, line in results]
            due = [(line, chance, number, f"{float(100 * chance):.2f}") for line, chance, number in due]
            self.same(f"the page's table of {name}", rows, sorted(due, key=lambda row: -row[1]))

    def test_page_of_large_trees(self):
        """The likeliest sums of ten throws in docs/LARGE-TREES.md are those of all throws."""
        text = page_text("docs/LARGE-TREES.md")
        sums = Counter({0: 1})
        for _ in range(10):
            sums = sum((Counter({total + die: sums[total] for total in sums}) for die in range(1, 7)), Counter())
        due = {f"{total}": (Fraction(number, 6**10), number) for total, number in sums.most_common(3)}
        rows = rows_shown(text, "    $ ./ptb --chances ten.bas < /dev/null | tools/outcomes --top 3\n")
        self.same("the likeliest sums of ten throws", {row[0]: row[1:3] for row in rows}, due)


# ---- the tool


class Tool(Checked):
    """The chances of tools/outcomes are those of the runs."""

    def test_example_of_the_pages(self):
        _, program = chapter_of_the_tool()
        self.check_tool("the example of the documents", listing_of_text(program + "\n"))

    def test_examples(self):
        for name in LISTED:
            self.check_tool(name, example(name))

    def test_answers_for_lines(self):
        self.check_tool("eight with --choose", listing(f"{ROOT}/examples/eight.bas", "--choose", "8"))

    def check_tool(self, name, text):
        """The tool has the chances that are worked out here, and those of a whole tree add up to 1."""
        runs = runs_in(text)
        self.same(f"all runs of {name}", sum(run[3] for run in runs), 1)
        for kind, key in KEYS.items():
            self.same(f"{name} by {kind}", told(text, kind), added_up(runs, key))

    def test_chances_by_hand(self):
        """Chances that nobody needs a listing for."""
        dice = Counter(map(sum, product(range(1, 7), repeat=3)))
        due = {f"{total:6}": (Fraction(number, 216), number) for total, number in dice.items()}
        self.same("the sums of three dice", told(example("throw"), "last-line"), due)
        won = told(example("doors"), "last-line")["THE PRIZE IS YOURS!"]
        self.same("the prize behind one of three doors, for those who switch", won[0], Fraction(2, 3))
        # in each of the 8 games, what is won is 1 + 7 + 49 of 512 equally likely rows of guesses, in which games end early
        won = told(listing(f"{ROOT}/examples/eight.bas", "--choose", "8"), "last-line")["RIGHT!"]
        self.same("three guesses of eight numbers", won, (1 - Fraction(7, 8) ** 3, 8 * (1 + 7 + 49)))
        heads = told(listing_of_text("10 A=A+1;IF RND(2)=1 IF A<5 GOTO 10\n20 PRINT A\n"), "last-line")
        due = {f"{k:6}": (Fraction(1, 2 ** min(k, 4)), 2 if k == 5 else 1) for k in range(1, 6)}
        self.same("heads in a row", heads, due)


# ---- the program's own table


def random_program(chance):
    """A program with questions in branches and in a loop, which ends in several ways. A line that it shows is not empty."""
    first, second, third = (chance.randint(1, 5) for _ in range(3))
    ending = chance.choice(["STOP", "GOTO 10", "GOTO 99", "P.1/0", "P.)"])
    return (
        f"10 A=RND({first})\n"
        f"20 IF A<{chance.randint(1, 3)} GOTO {chance.choice([10, 30, 40, 50])}\n"
        f"30 B=RND({second});PRINT {chance.choice(['A*B', 'A+B', 'B'])},{chance.choice(['', chr(39) + 'X' + chr(39)])}\n"
        f"40 IF B{chance.choice('<>=')}{chance.randint(1, 4)} {ending}\n"
        f"50 PRINT A-RND({third});IF RND(2)=2 {chance.choice(['STOP', 'GOTO 10', 'A=B*1000*A'])}\n"
    )


# Programs of which two plays are in states that differ in one thing, answer a question, and then show the thing. What they read is
# in LINES.
LINES = b"1\nRND(3)\n2\n"
PARTED_BY = {
    "a value": "10 A=RND(2)\n20 B=RND(2);B=0\n30 PRINT A\n",
    "an element": "10 @(1)=RND(2)\n20 B=RND(2);B=0\n30 PRINT @(1)\n",
    "the place": "10 IF RND(2)=1 GOTO 30\n20 A=A;B=RND(2);B=0;PRINT 1;STOP\n30 B=RND(2);B=0;PRINT 2;STOP\n",
    "a subroutine": "10 IF RND(2)=1 GOTO 30\n20 A=A;A=A;GOSUB 40;PRINT 1;STOP\n30 A=A;GOTO 40\n40 B=RND(2);B=0;RETURN\n",
    "the return": "10 IF RND(2)=1 GOTO 30\n20 A=A;GOSUB 40;PRINT 1;STOP\n30 GOSUB 40;PRINT 2;STOP\n40 B=RND(2);B=0;RETURN\n",
    "a loop": "10 IF RND(2)=1 GOTO 30\n20 A=A;FOR I=0 TO 1;GOTO 40\n30 A=A;I=0\n40 B=RND(2);B=0\n50 NEXT I\n",
    "the limit of a loop": "10 FOR I=0 TO RND(2)\n20 B=RND(2);B=0\n30 NEXT I;PRINT I\n",
    "the step of a loop": "10 FOR I=0 TO 2 STEP RND(2)\n20 B=RND(2);B=0\n30 NEXT I;PRINT I\n",
    "the body of a loop": "10 IF RND(2)=1 GOTO 30\n20 A=A;FOR I=1 TO 2;IF I=2 PRINT 1\n25 GOTO 40\n"
    "30 A=A;FOR I=1 TO 2;IF I=2 PRINT 2\n40 B=RND(2);B=0;NEXT I\n",
    "whether a line is begun": "10 IF RND(2)=1 GOTO 30\n20 A=A;PRINT 'X',;GOTO 40\n30 PRINT 'X';GOTO 40\n"
    "40 B=RND(2);B=0\n50 PRINT 'Y'\n",
    "the line that is begun": "10 PRINT RND(2),\n20 B=RND(2);B=0\n30 PRINT\n",
    "the last line": "10 PRINT RND(2)\n20 B=RND(2);B=0\n",
    "the lines that are left": "10 IF RND(2)=1 GOTO 30\n20 INPUT A;A=0;PRINT 'X';GOTO 40\n30 A=A;A=0;PRINT 'X'\n40 B=RND(2);B=0\n"
    "50 INPUT C\n60 PRINT C\n",
    "the commands so far": "10 IF RND(2)=1 A=A\n20 B=RND(2);B=0\n30 PRINT 'X'\n",
    "the ending": "10 B=RND(2);PRINT 'X';IF B=1 STOP\n",
    "nothing": "10 A=RND(3)+RND(2);A=0\n20 B=RND(5);B=0\n30 PRINT RND(2)\n",
}


# Commands after which plays differ, or meet again.
COMMANDS = [
    *["A=RND(2)", "A=RND(2)+RND(2)", "A=A+RND(2)*2-3", "A=0", "B=RND(1+RND(2))", "@(RND(2))=RND(2)", "@(1)=@(2)"],
    *["PRINT A", "PRINT RND(2)", "PRINT", "PRINT #1,B,", "IF RND(3)=1 PRINT 'X',", "IF A>1 PRINT B", "IF RND(2)=1 A=A"],
    *["INPUT B", "IF RND(2)=1 INPUT A", "GOSUB 90", "IF A=RND(2) GOSUB 90", "IF B=2 STOP", "IF @(1)=2 GOTO 70", "A=2/(B-1)"],
    *["FOR J=1 TO RND(2);NEXT J", "FOR J=0 TO 2 STEP RND(2);@(1)=J;NEXT J", "IF RND(2)=1 FOR I=1 TO 2", "RETURN", "GOTO 98+A"],
]


def meeting_program(chance):
    """A loop of such commands, and a subroutine."""
    first, second, third, fourth = chance.choices(COMMANDS, k=4)
    return (
        f"10 FOR I=1 TO {chance.randint(1, 3)}\n20 {first}\n30 {second}\n40 {third}\n50 NEXT I\n60 {fourth}\n"
        f"70 PRINT {chance.choice(['A', 'B', '@(1)', 'I', '#1,A,'])}\n80 STOP\n90 {chance.choice(COMMANDS)};RETURN\n"
    )


class Tables(Checked):
    """The tables of --chances are those of the listed runs."""

    def check_bytes(self, name, text, program_table):
        """The program's table has the bytes of the table that is added up from the listing of the same runs."""
        due = table_of((ending, shown.encode(), chance) for _, ending, shown, chance in runs_in(text))
        self.same(f"the bytes of the table of {name}", program_table, due)

    def check_table(self, name, text, program_table):
        """The tool says the same of a listing and of the program's table of the same runs."""
        self.check_bytes(name, text, program_table)
        for kind in ("last-line", "ending"):
            self.same(f"the table of {name} by {kind}", told(program_table, kind), told(text, kind))

    def test_examples(self):
        """The tables of all examples."""
        for path in sorted(glob.glob(f"{ROOT}/examples/*.bas")):
            name = os.path.basename(path).removesuffix(".bas")
            words = ["--steps", STEPS[name]] if name in STEPS else []
            text = example(name, *words, "--first", str(MOST_LISTED))
            self.same(f"so few runs of {name} that they are listed", text.count(b"\nRUN ") < MOST_LISTED - 1, True)
            with open(f"{ROOT}/examples/{name}.input", "rb") as lines:
                self.check_table(name, text, table(path, *words, lines=lines.read()))
        eight = f"{ROOT}/examples/eight.bas"
        self.check_table("eight with --choose", listing(eight, "--choose", "8"), table(eight, "--choose", "8"))

    def test_random_programs(self):
        """The tables of programs that are drawn, with a limit of commands."""
        chance = random.Random(56)
        with staged() as folder:
            path = f"{folder}/drawn.bas"
            for number in range(40):
                program = random_program(chance)
                with open(path, "w", encoding="ascii") as file:
                    file.write(program)
                steps = str(chance.randint(1, 16))
                words = ["--steps", steps]
                self.check_table(f"program {number}, {program!r} --steps {steps}", listing(path, *words), table(path, *words))

    def test_states(self):
        """Plays in states that differ in one thing are not one, whatever the limit of commands."""
        with staged() as folder:
            path = f"{folder}/parted.bas"
            for thing, program in PARTED_BY.items():
                with open(path, "w", encoding="ascii") as file:
                    file.write(program)
                for steps in [*range(1, 10), 100]:
                    words = ["--steps", str(steps)]
                    text = listing(path, *words, lines=LINES)
                    self.check_bytes(f"plays parted by {thing}, --steps {steps}", text, table(path, *words, lines=LINES))

    def test_meeting_programs(self):
        """The tables of such programs, where the runs are few enough to list them."""
        chance = random.Random(10)
        listed = 0
        with staged() as folder:
            path = f"{folder}/meeting.bas"
            for number in range(300):
                program = meeting_program(chance)
                with open(path, "w", encoding="ascii") as file:
                    file.write(program)
                words = ["--steps", str(chance.randint(5, 40)), *chance.choice([[], ["--choose", "2"]])]
                text = listing(path, *words, "--first", "3000", lines=LINES)
                if text.count(b"\nRUN ") < 2999:
                    listed += 1
                    self.check_bytes(f"program {number}, {program!r} {words}", text, table(path, *words, lines=LINES))
        self.same("most of these programs are listed", listed > 200, True)


# ---- games of many runs, by their rules


class Ends:
    """The results of a game, each with its chance and the number of its runs."""

    def __init__(self):
        self.results = {}

    def add(self, result, number, of):
        """So many more runs have this result; each has the chance 1 in `of`."""
        ending, line = result
        chance, so_far = self.results.get((ending, line.encode()), (0, 0))
        if number:
            self.results[ending, line.encode()] = chance + Fraction(number, of), so_far + number


WINS, LOSES, NOT_DECIDED = ("END", "THE SHOOTER WINS"), ("STOP", "THE SHOOTER LOSES"), ("STOP", "NOT DECIDED")
SPLASH, HOME, WALKING = ("STOP", "SPLASH!"), ("STOP", "HOME"), ("END", "STILL WALKING")


def craps(throws):
    """The results of craps, with so many throws at most."""
    dice = Counter(map(sum, product(range(1, 7), repeat=2)))
    ends = Ends()
    for first, number in dice.items():
        if first in (7, 11):
            ends.add(WINS, number, 36)
        elif first in (2, 3, 12):
            ends.add(LOSES, number, 36)
        else:
            for throw in range(2, throws + 1):
                ends.add(WINS, number * dice[first], 36**throw)
                ends.add(LOSES, number * dice[7], 36**throw)
                number *= 36 - dice[first] - dice[7]
            ends.add(NOT_DECIDED, number, 36**throws)
    return ends.results


def walk(steps):
    """The results of a walk of so many steps from place 3, with the river at 0 and the door at 10."""
    ends = Ends()
    walks = {3: 1}
    for step in range(1, steps + 1):
        farther = Counter()
        for place, number in walks.items():
            farther[place - 1] += number
            farther[place + 1] += number
        ends.add(SPLASH, farther.pop(0, 0), 2**step)
        ends.add(HOME, farther.pop(10, 0), 2**step)
        walks = farther
    ends.add(WALKING, sum(walks.values()), 2**steps)
    return ends.results


def tosses(number):
    """The results of so many tosses of a coin: of each difference of heads and tails, its chance and its number of runs."""
    ways = {2 * heads - number: comb(number, heads) for heads in range(number + 1)}
    return {("END", f"{it}".encode()): (Fraction(ways[it], 2**number), ways[it]) for it in ways}


class Games(Checked):
    """The tables of games with many runs are those of their rules."""

    def test_short_games(self):
        self.check_games(3, 12, 12)

    def test_long_games(self):
        self.check_games(20, 100, 200)

    def check_games(self, throws, steps, coins):
        """The tables of craps with so many throws at most, of a walk of so many steps, and of so many coins."""
        games = [
            ("craps", self.game("craps", "TO 20\n", f"TO {throws}\n"), craps(throws)),
            ("the walk", self.game("walk", "TO 100\n", f"TO {steps}\n"), walk(steps)),
            ("tosses", f"10 FOR I=1 TO {coins};A=A+2*RND(2)-3;NEXT I\n20 PRINT #1,A\n", tosses(coins)),
        ]
        with staged() as folder:
            for name, text, results in games:
                with open(f"{folder}/game.bas", "w", encoding="ascii") as file:
                    file.write(text)
                self.same(f"all of {name}", sum(chance for chance, _ in results.values()), 1)
                self.same(f"{name}: {throws}, {steps}, {coins}", table(f"{folder}/game.bas"), table_text(results))

    def game(self, name, old, new):
        """The text of an example in which something is replaced."""
        with open(f"{ROOT}/examples/{name}.bas", encoding="ascii") as file:
            text = file.read()
        self.same(f"{name} has {old} once", text.count(old), 1)
        return text.replace(old, new)

    def test_limits(self):
        """The longer a game may take, the closer are its chances to those of the game without an end."""
        for name, results, won, still, limit in [
            ("craps", craps(200), WINS, NOT_DECIDED, Fraction(244, 495)),
            ("the walk", walk(2000), HOME, WALKING, Fraction(3, 10)),
        ]:
            chance, left = (results[ending, line.encode()][0] for ending, line in (won, still))
            self.same(f"{name} without an end", chance < limit < chance + left < chance + Fraction(1, 10**9), True)


# ---- tic-tac-toe

# Squares are bits, three to an octal digit: rows, columns, diagonals.
THREE_IN_A_ROW = [0o700, 0o070, 0o007, 0o444, 0o222, 0o111, 0o421, 0o124]
SQUARES = [1 << place for place in range(9)]


def games(moved, to_move, players):
    """How each game ends after these squares of the player who has moved and of the one to move, and how many stay free."""
    free = [square for square in SQUARES if not square & (moved | to_move)]
    if any(moved & row == row for row in THREE_IN_A_ROW):
        yield f"{players[0]} WINS", len(free)
    elif not free:
        yield "A DRAW", 0
    else:
        for square in free:
            yield from games(to_move | square, moved, players[::-1])


class TicTacToe(Checked):
    """All games of tic-tac-toe."""

    def test_tic_tac_toe(self):
        """The games of the example, in shares by their first move, against those that are played here."""
        program = f"{ROOT}/examples/tictac.bas"
        lists = listing(program, "--shares", "1").decode().split()
        self.same("the first moves of tic-tac-toe", lists, [f"{square}/9" for square in range(1, 10)])
        shares = [listing(program, "--under", it) for it in lists]
        chances = Counter()
        for it, share, square in zip(lists, shares, SQUARES):
            ends = Counter()
            for (end, free), number in Counter(games(square, 0, "XO")).items():
                ends[end] += number
                chances[end] += number * Fraction(factorial(free), factorial(9))
            said = Counter(re.findall("^(?:[XO] WINS|A DRAW)$", share.decode(), re.M))
            self.same(f"the games of tic-tac-toe after {it}", said, ends)
        numbers = {"X WINS": 131184, "O WINS": 77904, "A DRAW": 46080}  # as the literature has them
        due = {end: (chances[end], number) for end, number in numbers.items()}
        self.same("all games of tic-tac-toe", told(b"".join(shares), "last-line"), due)
        results = {("STOP", end.encode()): due[end] for end in due}
        self.same("the table of all games of tic-tac-toe", table(program), table_text(results))


if __name__ == "__main__":
    runner.main()
