#!/usr/bin/env python3
"""Runs the program at a pseudo-terminal and compares every byte that the terminal shows.

Most runs start the program itself; some start the start script. shared/terminals.py has the
terminal and the scripts that runs follow.

The last line is 'N passed, M failed'. Arguments name parts of tests, as Ends or rlwrap; without
any, all are run. PTB names another program than the one that ./ptb builds.
"""

import os
import pty
import re
import shutil
import signal
import subprocess
import sys
import tempfile
import time
import unittest
from pathlib import Path
from typing import NamedTuple

ROOT = Path(__file__).resolve().parent.parent
sys.dont_write_bytecode = True
sys.path.insert(0, str(ROOT / "tests/shared"))
import runner
from terminals import BACKSPACE, CTRL_C, CTRL_D, ENTER, ERRORS, INPUT, OUTPUT, Run, Terminal
from terminals import due_of, echo, on_screen, run, screen, transcript_of

EXAMPLES = ROOT / "examples"
READING = "ptb: reading the program from the terminal; Ctrl-D ends it\n"
LIMIT = "ptb: stopped at line %d by the limit of %d commands; --steps N allows more\n"
ONE_COMMAND = "ptb: stopped at line 2 by the limit of 1 command; --steps N allows more\n"
NO_LINE = "ptb: INPUT found no line left; give more lines, or use --choose N\n"
NO_INPUT = (
    "ptb: INPUT found no line, since standard input was the program; name its file as PROGRAM\n"
)
NO_ANSWER = (
    "ptb: a random number was wanted and none is left; use --seed N, or give more --answers\n"
)
BAD_ANSWER = "ptb: one of the --answers is greater than its question allows; change it\n"


# ---- the program and its start script


def programs(folder):
    """The program and its start script; where PTB names a program, copies of both."""
    if "PTB" not in os.environ:
        hello = (EXAMPLES / "hello.bas").read_bytes()
        subprocess.run([ROOT / "ptb"], input=hello, stdout=subprocess.DEVNULL, check=True)
        return str(ROOT / "crates/ptb/out/ptb"), str(ROOT / "ptb")
    for crate in re.findall("^([a-z_]+):", (ROOT / "crates.txt").read_text(), re.M):
        (folder / "crates" / crate / "out").mkdir(parents=True)
    (folder / "tools").mkdir()
    for name in ("ptb", "build", "crates.txt", "tools/is-built", "tools/build-crate"):
        shutil.copy(ROOT / name, folder / name)
    program = folder / "crates/ptb/out/ptb"
    shutil.copy(os.environ["PTB"], program)
    return str(program), str(folder / "ptb")


class AtTerminal(unittest.TestCase):
    """What tests need: the program, its start script, a folder for files, and checks of runs."""

    maxDiff = None

    @classmethod
    def setUpClass(cls):
        folder = tempfile.TemporaryDirectory()
        cls.addClassCleanup(folder.cleanup)
        cls.folder = Path(folder.name)
        cls.program, cls.start = programs(cls.folder)

    def file(self, name, text):
        """Writes a file of the folder, and gives its path."""
        path = self.folder / name
        path.write_text(text)
        return str(path)

    def check_run(self, name, arguments, script, status=0, files=None):
        """Checks that the program follows this script and then ends with this status."""
        self.check_run_of(self.program, name, arguments, script, status, files)

    def check_run_of_start(self, name, arguments, script, status=0):
        self.check_run_of(self.start, name, arguments, script, status, None)

    def check_run_of(self, program, name, arguments, script, status, files):
        with self.subTest(name):
            found = run([program, *arguments], script, files or {})
            self.assert_same(found, Run(due_of(script), status))

    def check_run_to_file(self, name, arguments, script, status, stream, text):
        """The same where this stream is a file, which must then have this text."""
        path = self.file(f"stream{stream}", "")
        self.check_run(name, arguments, script, status, {stream: path})
        with self.subTest(f"{name}: the file"):
            self.assertEqual(Path(path).read_text(), text)

    def assert_same(self, found, due):
        """Compares runs, and shows what is different line by line."""
        self.assertEqual(vars(found), vars(due))


# ---- typed lines


def script_of(transcript, lines):
    """The script of a transcript whose lines are typed, each after a slip that is taken back.

    Lines that are left over at the end are not typed.
    """
    script, begin = [], 0
    for line in lines:
        end = transcript.find(f":{line}\n", begin) + 1
        if not end:
            break
        script += [transcript[begin:end], f"xy{BACKSPACE}{BACKSPACE}{line}{ENTER}"]
        begin = end + len(line) + 1
    return [*script, transcript[begin:]]


def example(name):
    """An example's arguments, its lines and its transcript."""
    path = EXAMPLES / f"{name}.bas"
    answers = path.with_suffix(".answers")
    listed = answers.read_text().strip() if answers.exists() else "none"
    lines = path.with_suffix(".input").read_text().splitlines()
    return ["--answers", listed, str(path)], lines, path.with_suffix(".transcript").read_text()


AFTER_BLOCK = """\
TOO LOW
YOUR GUESS:TOO HIGH
YOUR GUESS:WHAT?
YOUR GUESS:TOO LOW
YOUR GUESS:RIGHT, AFTER  4 GUESSES.
"""
ONE = "10 INPUT A;P.A\n"
TWO = "10 INPUT A,B;P.A,B\n"
LINES = [
    ("a line", ONE, ["A:", "5\r", "     5\n"]),
    ("a faulty line", ONE, ["A:", ")\r", "WHAT?\nA:", "5\r", "     5\n"]),
    ("an empty line", ONE, ["A:", "\r", "WHAT?\nA:", "5\r", "     5\n"]),
    ("two lines for a command", TWO, ["A:", "5\r", "B:", "6\r", "     5     6\n"]),
    ("a line in two pieces", TWO, ["A:", "12\x04", "", "34\r", "B:", "5\r", "  1234     5\n"]),
    ("a last line without newline", ONE, ["A:", "12\x04\x04", "\n    12\n"]),
    ("such a line in two pieces", ONE, ["A:", "1\x04", "", "2\x04\x04", "\n    12\n"]),
    ("a line of 300 bytes", ONE, ["A:", "7" + 299 * "X" + "\r", "     7\n"]),
    ("a line with tabs", ONE, ["A:", "1\t+\t2\r", "     3\n"]),
    ("a line with an accent", ONE, ["A:", "\u00e95\r", "     5\n"]),
    ("a line with an arrow", ONE, ["A:", "5\x1b[D\r", "     5\n"]),
    ("a line after output", '10 P."X",;INPUT A;P.A\n', ["XA:", "5\r", "     5\n"]),
]


class Lines(AtTerminal):
    """Lines that are typed while a program runs."""

    def test_examples(self):
        for path in sorted(EXAMPLES.glob("*.bas")):
            arguments, lines, transcript = example(path.stem)
            self.check_run(f"the example {path.stem}", arguments, script_of(transcript, lines))

    def test_streams(self):
        """The example guess, with lines that come ahead, and with streams that are files."""
        arguments, lines, transcript = example("guess")
        script = script_of(transcript, lines)
        block = "".join(line + ENTER for line in lines)
        asked = transcript[: transcript.index(lines[0])]
        text = self.file("lines", "".join(line + "\n" for line in lines))
        self.check_run("lines typed ahead", arguments, ["", block, asked + AFTER_BLOCK])
        self.check_run("a pasted block of lines", arguments, [asked, block, AFTER_BLOCK])
        self.check_run("input from a file", arguments, [transcript], files={INPUT: text})
        ahead = ["", block, ""]
        self.check_run_to_file("output to a file", arguments, ahead, 0, OUTPUT, transcript)
        self.check_run_to_file("errors to a file", arguments, script, 0, ERRORS, "")

    def test_lines(self):
        for name, program, script in LINES:
            path = self.file("lines.bas", program)
            self.check_run(name, ["--answers", "none", path], script)

    def test_lines_and_answers(self):
        two = self.file("two.bas", TWO)
        chosen = ["A:", "5\r", "B:", CTRL_D, "6\n     5     6\n"]
        self.check_run("after a line", ["--choose", "8", "--answers", "6", two], chosen)
        report = "RUN none END 2 21\nA:5\nB:6\n     5     6\n\n"
        self.check_run("all runs", ["--all", two], ["", "5\r6\r" + CTRL_D, report])

    def test_interrupt_at_prompt(self):
        arguments = ["--answers", "none", self.file("one.bas", ONE)]
        self.check_run("Ctrl-C", arguments, ["A:", "5", "", CTRL_C, ""], -signal.SIGINT)

    def test_interrupt_in_loop(self):
        loop = self.file("loop.bas", "10 INPUT A\n20 GOTO 20\n")
        arguments = ["--answers", "none", "--steps", "1000000000", loop]
        terminal = Terminal([self.program, *arguments], {})
        terminal.type("5" + ENTER)
        terminal.resume()
        terminal.read_until(lambda: b"A:" in terminal.shown)
        time.sleep(0.1)
        terminal.type(CTRL_C)
        found = Run(b"", terminal.end(), terminal.keeps_settings)
        self.assert_same(found, Run(b"", -signal.SIGINT))


# ---- why a run ended


class End(NamedTuple):
    """A run's program, options, script and status, and what is shown then of why it ended."""

    program: str
    options: str
    script: list
    status: int
    why: str


NONE, SEVEN, ALL = "--answers none", "--answers 7", "--all --steps 3"
STEPS, CHOICE, SEVEN_CHOSEN = NONE + " --steps 3", NONE + " --choose 6", SEVEN + " --choose 6"
TYPED = "10 INPUT A;B=RND(6)\n"
LINE, PIECE, NOTHING = ["A:", "5\r", ""], ["A:", "5\x04\x04", "\n"], ["A:", CTRL_D, ""]
ENDS = {
    "LIMIT after a newline": End('10 P."X";GOTO 10\n', STEPS, ["X\nX\n"], 4, LIMIT % (10, 3)),
    "LIMIT in a line": End('10 P."X",;GOTO 10\n', STEPS, ["XX"], 4, "\n" + LIMIT % (10, 3)),
    "LIMIT with nothing shown": End("10 GOTO 10\n", NONE, [""], 4, LIMIT % (10, 10000)),
    "LIMIT after a typed line": End("10 INPUT A;B=1;B=2;B=3\n", STEPS, LINE, 4, LIMIT % (10, 3)),
    "LIMIT with a seed": End("10 GOTO 10\n", "--seed 7 --steps 3", [""], 4, LIMIT % (10, 3)),
    "LIMIT after one command": End("1 A=1\n2 A=2\n3 A=3\n", NONE + " --steps 1", [""], 4, ONE_COMMAND),
    "LIMIT at the end of a line": End("10 A=1;B=2;C=3\n20 D=4\n", STEPS, [""], 4, LIMIT % (20, 3)),
    "LIMIT after a jump": End("10 A=1;GOTO 300\n300 A=1;GOTO 10\n", STEPS, [""], 4, LIMIT % (300, 3)),
    "LIMIT in the greatest line": End("32767 GOTO 32767\n", STEPS, [""], 4, LIMIT % (32767, 3)),
    "NOINPUT": End(ONE, NONE, NOTHING, 5, "\n" + NO_LINE),
    "NOINPUT after a line": End(TWO, NONE, [*LINE[:2], "B:", CTRL_D, ""], 5, "\n" + NO_LINE),
    "NOINPUT after a piece": End(TWO, NONE, [*PIECE[:2], "\nB:"], 5, "\n" + NO_LINE),
    "NOINPUT after a fault": End(ONE, NONE, ["A:", ")\x04\x04", "\nWHAT?\nA:"], 5, "\n" + NO_LINE),
    "NOANSWER after a newline": End('10 P."X";A=RND(6)\n', NONE, ["X\n"], 6, NO_ANSWER),
    "NOANSWER in a line": End('10 P."X",;A=RND(6)\n', NONE, ["X"], 6, "\n" + NO_ANSWER),
    "NOANSWER after a typed line": End(TYPED, NONE, LINE, 6, NO_ANSWER),
    "NOANSWER after a piece": End(TYPED, NONE, PIECE, 6, NO_ANSWER),
    "NOANSWER for a line": End(ONE, CHOICE, NOTHING, 6, "\n" + NO_ANSWER),
    "BADANSWER after a newline": End('10 P."X";A=RND(6)\n', SEVEN, ["X\n"], 7, BAD_ANSWER),
    "BADANSWER in a line": End('10 P."X",;A=RND(6)\n', SEVEN, ["X"], 7, "\n" + BAD_ANSWER),
    "BADANSWER for a line": End(ONE, SEVEN_CHOSEN, NOTHING, 7, "\n" + BAD_ANSWER),
    "END": End('10 P."X",\n', NONE, ["X"], 0, ""),
    "STOP": End('10 P."X",;STOP\n', NONE, ["X"], 0, ""),
    "WHAT": End('10 P."X",;)\n', NONE, ['X\nWHAT?\n10 P."X",;?)\n'], 1, ""),
    "HOW": End('10 P."X",;A=1/0\n', NONE, ['X\nHOW?\n10 P."X",;A=1/0?\n'], 2, ""),
    "SORRY": End('10 P."X",;A=@(9999)\n', NONE, ['X\nSORRY\n10 P."X",;A=@(9999)?\n'], 3, ""),
    "a listing of the text": End("10 GOTO 10\n", "--list", ["10 GOTO 10\n"], 0, ""),
    "all runs": End("10 GOTO 10\n", ALL, ["", CTRL_D, "RUN none LIMIT 3 0\n\n"], 0, ""),
}


class Ends(AtTerminal):
    """What is said of why a run ended."""

    def test_ends(self):
        for name, (program, options, script, status, why) in ENDS.items():
            arguments = [*options.split(), self.file("ends.bas", program)]
            self.check_run(name, arguments, [*script[:-1], script[-1] + why], status)
            errors, output = f"{name}, errors to a file", f"{name}, output to a file"
            self.check_run_to_file(errors, arguments, script, status, ERRORS, "")
            ahead, text = ["", "".join(script[1::2]), ""], transcript_of(script)
            self.check_run_to_file(output, arguments, ahead, status, OUTPUT, text)

    def test_input_from_file(self):
        """Standard input is a file that has the lines, or the program."""
        one, empty = self.file("one.bas", ONE), self.file("empty", "")
        no_line, no_input = ["A:\n" + NO_LINE], ["A:\n" + NO_INPUT]
        self.check_run("NOINPUT of a file with lines", [one], no_line, 5, {INPUT: empty})
        self.check_run("NOINPUT of a file with the program", [], no_input, 5, {INPUT: one})


# ---- programs that are typed

HI = ["", '10 P."HI"\r' + CTRL_D, "HI\n"]
TYPED_PROGRAMS = [
    ("a run", NONE, HI, 0),
    ("a listing", "--list", [*HI[:2], '10 P."HI"\n'], 0),
    ("all runs", "--all", [*HI[:2], "RUN none END 1 3\nHI\n\n"], 0),
    ("a refused program", NONE, ["", "P.\r" + CTRL_D, "ptb: line 1: no statement number\n"], 65),
    ("NOINPUT", NONE, ["", "10 INPUT A\r" + CTRL_D, "A:\n" + NO_INPUT], 5),
]


class TypedPrograms(AtTerminal):
    """Programs that are typed at the terminal."""

    def test_typed(self):
        for name, options, script, status in TYPED_PROGRAMS:
            self.check_run(name, options.split(), [READING, *script[1:]], status)

    def test_files(self):
        arguments, script = NONE.split(), [READING, HI[1], ""]
        self.check_run_to_file("errors to a file", arguments, HI, 0, ERRORS, READING)
        self.check_run_to_file("output to a file", arguments, script, 0, OUTPUT, "HI\n")

    def test_usage_error(self):
        """No program is read."""
        self.check_run("no --all", ["--after", "1"], ["ptb: --after needs --all\n"], 64)


# ---- dice

GAME = "10 P.RND(32767),RND(32767)\n20 INPUT A;P.A,RND(6)\n"
DIE = "10 P.#1,RND(1)\n"
SEED = re.compile(rb"ptb: seed (0|[1-9][0-9]{0,5})\r?\n")


class Dice(AtTerminal):
    """A seed is drawn and said where standard input and output are terminals, and nowhere else."""

    def check_game(self, program):
        """Plays a game without options, and again with the seed that is said; gives the seed."""
        game = self.file("game.bas", GAME)
        terminal = Terminal([program, game], {})
        terminal.resume()
        terminal.read_until(lambda: terminal.shown.endswith(b"A:"))
        terminal.type("5" + ENTER)
        status = terminal.end()
        said = SEED.match(terminal.shown)
        with self.subTest("the seed that is said"):
            self.assertTrue(said, terminal.shown)
            arguments = [self.program, "--seed", said[1].decode(), game]
            again = subprocess.run(arguments, input=b"5\n", capture_output=True, check=False)
            due = on_screen(again.stdout.decode()), again.returncode
            self.assertEqual((terminal.shown[said.end() :], status), due)
        return int(said[1]) if said else 0

    def seeds_of_games(self):
        for _ in range(4):
            yield self.check_game(self.program)
            time.sleep(0.02)

    def test_games(self):
        seeds = list(self.seeds_of_games())
        with self.subTest("each game has a seed of its own"):
            self.assertEqual(len(set(seeds)), len(seeds), seeds)
        with self.subTest("seeds from 0 to 999999, not 9999"):
            self.assertGreater(max(seeds), 9999)

    def test_game_of_start_script(self):
        self.check_game(self.start)

    def test_files(self):
        die, empty = self.file("die.bas", DIE), self.file("empty", "")
        errors = Path(self.file("errors", ""))
        self.check_run("a seed is said in a file", [die], ["1\n"], files={ERRORS: errors})
        with self.subTest("nothing but a seed"):
            self.assertRegex(errors.read_bytes(), rb"\A" + SEED.pattern + rb"\Z")
        self.check_run("a seed is given", ["--seed", "7", die], ["1\n"])
        self.check_run("no seed for a file with lines", [die], [NO_ANSWER], 6, {INPUT: empty})
        self.check_run_to_file("no seed for output to a file", [die], [""], 6, OUTPUT, "")

    def test_typed_program(self):
        """A seed is said, before the program is typed or after that."""
        terminal = Terminal([self.program], {})
        terminal.resume()
        terminal.read_until(lambda: on_screen(READING) in terminal.shown)
        terminal.type("10 P.#1,RND(1)" + ENTER + CTRL_D)
        status = terminal.end()
        shown, seeds = SEED.subn(b"", terminal.shown)
        found = Run(shown, status, terminal.keeps_settings)
        self.assert_same(found, Run(on_screen(READING + DIE + "1\n"), 0))
        self.assertEqual(seeds, 1, terminal.shown)


# ---- streams that are other devices


class Devices(AtTerminal):
    """A standard stream is another terminal, or a device that is none."""

    def test_second_terminal(self):
        """Standard error is another terminal: what is said is shown there alone."""
        loop = self.file("loop.bas", '10 P."X",;GOTO 10\n')
        master, slave = pty.openpty()
        arguments, files = [*STEPS.split(), loop], {ERRORS: os.ttyname(slave)}
        self.check_run("errors to another terminal", arguments, ["XX"], 4, files)
        os.close(slave)
        with self.subTest("what is said there"):
            self.assertEqual(all_of(master), on_screen("\n" + LIMIT % (10, 3)))

    def test_null_device(self):
        """The null device is a character device as a terminal is, and is no terminal."""
        die, one = self.file("die.bas", DIE), self.file("one.bas", ONE)
        no_input, no_line = {INPUT: os.devnull}, ["A:\n" + NO_LINE]
        self.check_run("the null device as the program", NONE.split(), [""], 0, no_input)
        self.check_run("input from it: no dice", [die], [NO_ANSWER], 6, no_input)
        self.check_run("input from it: no line", [one], no_line, 5, no_input)
        self.check_run("output to it", [die], [""], 6, {OUTPUT: os.devnull})
        self.check_run("errors to it", [*NONE.split(), die], [""], 6, {ERRORS: os.devnull})


def all_of(master):
    """All that a terminal shows which no program has open any more."""
    shown = b""
    try:
        while data := os.read(master, 65536):
            shown += data
    except OSError:
        os.close(master)
    return shown


# ---- progress

LONG = "10 A=RND(10);B=RND(10);C=RND(10);D=RND(10);E=RND(10);F=RND(25)\n20 P.A\n"
LONG_TABLE = "".join(f"CHANCE 1/10 250000 END 6\n{a:6}\n" for a in range(1, 11))
SHORT = "10 P.RND(2)\n"
SHORT_TABLE = "".join(f"CHANCE 1/2 1 END 6\n{a:6}\n" for a in (1, 2))
ERASED = "\r\x1b[K"
PROGRESS = re.escape(ERASED) + r"([0-9]+\.[0-9]{2})% done, ([0-9]+) states wait"


class Progress(AtTerminal):
    """The line that shows how far a table of chances is counted."""

    def shown(self, program, files):
        """What the terminal shows while the table of this program is counted, if all is well."""
        path = self.file("program.bas", program)
        terminal = Terminal([self.program, "--chances", path], {INPUT: os.devnull, **files})
        terminal.resume()
        self.assertEqual(terminal.end(), 0)
        return terminal.shown.decode()

    def test_line(self):
        """The line is written again and again, and erased before the table."""
        shown = self.shown(LONG, {})
        lines = re.findall(PROGRESS, shown)
        shares = [float(share) for share, _ in lines]
        self.assertGreater(len(shares), 0)
        self.assertEqual(shares, sorted(shares))
        self.assertLess(shares[-1], 100)
        self.assertEqual(re.sub(PROGRESS, "", shown), ERASED + on_screen(LONG_TABLE).decode())

    def test_errors_elsewhere(self):
        """Where standard error is a file, there is no line."""
        errors = self.file("errors", "")
        self.assertEqual(self.shown(LONG, {ERRORS: errors}), on_screen(LONG_TABLE).decode())
        self.assertEqual(Path(errors).read_text(), "")

    def test_table_elsewhere(self):
        """Where the table goes to a file, the line is erased in the end."""
        table = self.file("table", "")
        shown = self.shown(LONG, {OUTPUT: table})
        self.assertEqual(re.sub(PROGRESS, "", shown), ERASED)
        self.assertEqual(Path(table).read_text(), LONG_TABLE)

    def test_short(self):
        """A table that takes less than half a second has no line."""
        self.assertEqual(self.shown(SHORT, {}), on_screen(SHORT_TABLE).decode())


# ---- other ways to start


class Starts(AtTerminal):
    """The program is started by the start script, and by rlwrap."""

    def setUp(self):
        self.one = [*NONE.split(), self.file("a game.bas", ONE)]

    def test_start_script(self):
        arguments, lines, transcript = example("guess")
        self.check_run_of_start("an example", arguments, script_of(transcript, lines))
        self.check_run_of_start("Ctrl-C", self.one, ["A:", "5", "", CTRL_C, ""], -signal.SIGINT)
        self.check_run_of_start("Ctrl-D", self.one, ["A:", CTRL_D, "\n" + NO_LINE], 5)
        self.check_run_of_start("a typed program", NONE.split(), [READING, *HI[1:]])

    def test_process(self):
        """The start script gives way to the program."""
        terminal = Terminal([self.start, *self.one], {})
        terminal.resume()
        terminal.shows(b"A:")
        running = Path(f"/proc/{terminal.process}/exe")
        found = str(running.readlink()) if running.exists() else None
        os.kill(terminal.process, signal.SIGKILL)
        terminal.end()
        self.assertEqual(found, self.program)

    @unittest.skipUnless(shutil.which("rlwrap"), "rlwrap is not installed")
    def test_rlwrap(self):
        """rlwrap edits a line itself and hands it on by a terminal of its own."""
        arguments, lines, transcript = example("guess")
        terminal = Terminal(["env", "TERM=dumb", "rlwrap", "-n", self.program, *arguments], {})
        terminal.resume()
        due = ""
        script = script_of(transcript, lines)
        for shown, keys in zip(script[::2], script[1::2]):
            due += shown
            terminal.read_until(lambda due=due: screen(terminal.shown) == due)
            terminal.type(keys)
            due += screen(echo(keys))
        status = terminal.end()
        self.assertEqual((screen(terminal.shown), status), (transcript, 0))


if __name__ == "__main__":
    runner.main()
