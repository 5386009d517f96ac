"""This file strikes the program's calls for memory, reads, writes and files one by one, and checks how each run ends.

Then it has the allocations of tests refused. STRIKE_LIBRARY names the library that strikes calls.
"""

import multiprocessing
import os
import tempfile
from dataclasses import dataclass, replace

import crate_tests
import runner
from replies import Reply, replied
from rows import ROWS, Row, noted
from stage import PTB

STRIKE = os.path.abspath(os.environ["STRIKE_LIBRARY"])

KINDS = {
    "refuse": "allocations refused",
    "deplete": "ends of memory",
    "starve": "files not opened",
    "cut": "reads and writes cut",
    "fail": "reads and writes failed",
}
MOST_CALLS = 5000
# Where a vector gets the items of an iterator, room is requested twice: for all of them, and if that is refused for fewer.
# The arguments are such items, and so are the digits of each of the four numbers in a row of a table of chances.
MOST_SPARED = 1
MOST_SPARED_IN_A_ROW = 4
# A listing keeps at most 64 copies of its machine, each in two pieces of memory, and continues without one that is
# refused.
MOST_SPARED_COPIES = 128
SECONDS_OF_A_RUN = 60
OUT_OF_MEMORY = noted(71, "out of memory")
DEVICE_FAILED = "Input/output error (os error 5)"
NO_PROGRAM = "cannot read the program"
NO_INPUT = noted(66, "cannot read the input", f"standard input: {DEVICE_FAILED}")
UNWRITTEN = noted(74, "cannot write")


@dataclass(frozen=True)
class Sweep:
    """A row's runs with one kind of strike.

    It has how many calls were struck, how many of these runs were complete all the same, how many runs ended as they
    may, and how the others ended.
    """

    row: Row
    kind: str
    struck: int
    whole: int
    passed: int
    faults: tuple


def swept(task):
    """Strikes the row's first call of this kind, the second, and so on until a run has no such call any more."""
    row, kind = task
    with tempfile.TemporaryDirectory(prefix="ptb-refusals-") as folder:
        row = row_with_text(row, run(folder, row, "")[1])
        replies = []
        for number in range(1, MOST_CALLS):
            replies.append((number, *run(folder, row, f"{kind} {number}")))
            if not replies[-1][1]:
                break
    whole = sum(reply == row.due for _, struck, reply in replies if struck)
    faults = [f"{kind} {number}: {reply}" for number, struck, reply in replies if not is_due(row, kind, struck, reply)]
    passed = len(replies) - len(faults)
    if replies[-1][1]:
        faults.append(f"{kind}: no end at {MOST_CALLS}")
    if kind in ("refuse", "deplete") and whole > most_spared(row, kind):
        faults.append(f"{kind}: {whole} refusals made no difference")
    return Sweep(row, kind, len(replies) - 1, whole, passed, tuple(faults))


def most_spared(row, kind):
    """How many of a row's runs may be complete although an allocation was refused, or all from one on."""
    copies = MOST_SPARED_COPIES if "--all" in row.arguments.split() else 0
    vectors = MOST_SPARED + MOST_SPARED_IN_A_ROW * row.due.output.count(b"CHANCE ")
    return copies + (vectors if kind == "refuse" else 0)


def row_with_text(row, unstruck):
    """The row with its complete reply: if the text is clap's, it is the reply of a run in which nothing is struck."""
    return row if isinstance(row.due, Reply) else replace(row, due=replace(unstruck, status=row.due))


def run(folder, row, how):
    """Runs the row with a strike: what was struck, or an empty text, and the reply."""
    program, struck = os.path.join(folder, "program.bas"), os.path.join(folder, "struck")
    written(program, row.program)
    written(struck, "")
    arguments = row.arguments.split() + ([] if row.input is None else [program])
    stdin = row.program if row.input is None else row.input
    how_it_is_run = {
        "input": stdin.encode(),
        "capture_output": True,
        "env": {**os.environ, "LD_PRELOAD": STRIKE, "STRIKE": how, "STRUCK": struck},
    }
    reply = replied([PTB, *arguments], SECONDS_OF_A_RUN, **how_it_is_run)
    with open(struck, encoding="ascii") as name:
        return name.read(), reply


def written(path, text):
    with open(path, "w", encoding="ascii", newline="") as file:
        file.write(text)


def is_due(row, kind, struck, reply):
    """Whether a run may end so in which this call was struck, or none."""
    if not struck or kind == "cut":
        return reply == row.due
    if kind in ("refuse", "deplete"):
        return reply == row.due or is_cut_short(row, reply, OUT_OF_MEMORY) and has_whole_reports(row, reply)
    if kind == "starve":
        return reply == OUT_OF_MEMORY
    if struck == "W1":
        return is_cut_short(row, reply, UNWRITTEN)
    if struck == "W2":
        return (reply.status, reply.output) == (row.due.status, row.due.output)
    if struck == "R0" and row.input is not None:
        # A run reads a line when it asks for it, so that it may have shown something before.
        return reply == NO_INPUT if is_reported(row) or is_added_up(row) else is_cut_short(row, reply, NO_INPUT)
    return is_program_unread(row, reply)


def is_program_unread(row, reply):
    """Whether the program's text could not be read, and the second line names it."""
    if row.input is None:
        return reply == noted(66, NO_PROGRAM, f"standard input: {DEVICE_FAILED}")
    named = reply.errors.decode().split("/program.bas: ")
    return len(named) == 2 and reply == noted(66, NO_PROGRAM, f"{named[0].split()[-1]}/program.bas: {DEVICE_FAILED}")


def is_reported(row):
    """Whether a row writes reports of runs."""
    return "--all" in row.arguments or "--sample" in row.arguments


def is_added_up(row):
    """Whether a row writes the chances of runs."""
    return "--chances" in row.arguments


def has_whole_reports(row, reply):
    """Whether the next report was not begun, where reports are written; or the next line, where lists are. A table of
    chances is not begun at all.
    """
    if is_added_up(row):
        return not reply.output or reply.output == row.due.output
    if "--shares" in row.arguments:
        return not reply.output or reply.output.endswith(b"\n")
    rest = row.due.output[len(reply.output) :]
    return not is_reported(row) or not rest or rest.startswith(b"RUN ")


def is_cut_short(row, reply, note):
    """Whether a prefix of what is due was written, and then this note."""
    is_noted = (reply.status, reply.errors) == (note.status, note.errors)
    return is_noted and row.due.output.startswith(reply.output)


class Refusals(runner.Gathered):
    """The calls of the built program and of tests are refused one by one."""

    def test_calls_of_the_program(self):
        """Each run ends as it may, whichever of its calls is struck; and calls of each kind are struck."""
        with multiprocessing.get_context("fork").Pool() as pool:
            sweeps = pool.map(swept, [(row, kind) for kind in KINDS for row in ROWS], chunksize=1)
        for sweep in sweeps:
            self.count_sweep(sweep.row, sweep.passed, sweep.faults)
        for kind, name in KINDS.items():
            struck = [sweep.struck for sweep in sweeps if sweep.kind == kind]
            whole = sum(sweep.whole for sweep in sweeps if sweep.kind == kind)
            print(f"{name}: {sum(struck)} in {len(struck)} rows, {min(struck)} to {max(struck)} each; {whole} runs complete")
            # if nothing is struck in any row, the strikes don't reach the program
            with self.subTest(name):
                self.assertTrue(any(struck))

    def test_allocations_of_tests(self):
        """Each test passes, whichever of its allocations is refused."""
        for crate, test, wanted in crate_tests.TESTS:
            refused, passed, faults = crate_tests.swept(STRIKE, crate, test, wanted)
            self.count_sweep(f"{crate} {test}", passed, faults)
            print(f"allocations refused: {refused} in the test {test} of {crate}")

    def count_sweep(self, name, passed, faults):
        """Counts the runs that ended as they may, and what went wrong."""
        self.add_passed(passed)
        for fault in faults:
            with self.subTest(f"{name}: {fault}"):
                self.fail()


if __name__ == "__main__":
    runner.main()
