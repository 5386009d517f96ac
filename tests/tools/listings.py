"""Listings for tests of the tools, what is due for them, and calls of the tools.

What is due is computed by other means than the tools have: from all reports at once, and with
fractions.
"""

from __future__ import annotations

import io
import json
import os
import subprocess
import sys
import tempfile
from collections import defaultdict
from fractions import Fraction
from itertools import product
from typing import Callable, Dict, Iterable, List, NamedTuple, Sequence, Tuple

sys.dont_write_bytecode = True
ROOT = os.path.dirname(os.path.dirname(os.path.dirname(os.path.realpath(__file__))))
sys.path.insert(0, f"{ROOT}/tools")
PTB = os.path.realpath(os.environ.get("PTB", f"{ROOT}/ptb"))
OUTCOMES, SHARES = f"{ROOT}/tools/outcomes", f"{ROOT}/tools/shares"
SECONDS = 300

# Environments in which Python writes as users see it.
PLAIN = {name: value for name, value in os.environ.items() if name != "PYTHONUNBUFFERED"}


class Reply(NamedTuple):
    """The status of a tool, and what it wrote to both of its streams."""

    status: int
    out: str
    errors: str


class Run(NamedTuple):
    """A run as its report has it: its answers with their bounds, its ending, and what it showed."""

    answers: Tuple[Tuple[int, int], ...]
    ending: str
    shown: str

    def chance(self) -> Fraction:
        """One over the product of the bounds."""
        chance = Fraction(1)
        for _, bound in self.answers:
            chance /= bound
        return chance

    def spelled(self) -> str:
        """The answers as reports spell them."""
        return ",".join(f"{answer}/{bound}" for answer, bound in self.answers) or "none"

    def report(self) -> bytes:
        """The report of the run."""
        shown = self.shown.encode("latin-1")
        return f"RUN {self.spelled()} {self.ending} 9 {len(shown)}\n".encode() + shown + b"\n"


def call(tool: str, reports: bytes, *arguments: str, **how: object) -> Reply:
    """Calls a tool on these reports."""
    how = {"stdout": subprocess.PIPE, "stderr": subprocess.PIPE, "env": PLAIN, **how}
    done = subprocess.run([tool, *arguments], input=reports, timeout=SECONDS, check=False, **how)
    return Reply(done.returncode, *((it or b"").decode("utf-8", "replace") for it in (done.stdout, done.stderr)))


def outcomes(reports: bytes, *arguments: str, **how: object) -> Reply:
    """Calls tools/outcomes on these reports."""
    return call(OUTCOMES, reports, *arguments, **how)


def listing(runs: Iterable[Run]) -> bytes:
    """The reports of runs."""
    return b"".join(run.report() for run in runs)


def tree(bounds: Sequence[int], shown: Callable[[Sequence[int]], str], ending: str = "END") -> List[Run]:
    """All runs of a program that always asks questions with these bounds."""
    ranges = [range(1, bound + 1) for bound in bounds]
    return [Run(tuple(zip(answers, bounds)), ending, shown(answers)) for answers in product(*ranges)]


def listed(program: str, *arguments: str, lines: bytes = b"") -> bytes:
    """The listing of all runs of a program's text by ptb."""
    with tempfile.NamedTemporaryFile(suffix=".bas") as file:
        file.write(program.encode())
        file.flush()
        command = [PTB, "--all", *arguments, file.name]
        return subprocess.run(command, input=lines, stdout=subprocess.PIPE, check=True).stdout


def sampled(program: str, seed: int, runs: int, *arguments: str) -> bytes:
    """The reports of runs of a program's text that ptb draws."""
    with tempfile.NamedTemporaryFile(suffix=".bas") as file:
        file.write(program.encode())
        file.flush()
        command = [PTB, "--seed", str(seed), "--sample", str(runs), *arguments, file.name]
        return subprocess.run(command, input=b"", stdout=subprocess.PIPE, check=True).stdout


def example(name: str, *arguments: str) -> bytes:
    """The listing of all runs of an example on its lines."""
    with open(f"{ROOT}/examples/{name}.bas") as program, open(f"{ROOT}/examples/{name}.input", "rb") as lines:
        return listed(program.read(), *arguments, lines=lines.read())


def runs_of(reports: bytes) -> List[Run]:
    """The runs of a listing."""
    found = []
    while reports:
        header, _, rest = reports.partition(b"\n")
        _, spelled, ending, _, size = header.decode().split(" ")
        items = [] if spelled == "none" else spelled.split(",")
        answers = tuple((int(answer), int(bound)) for answer, bound in (item.split("/") for item in items))
        found.append(Run(answers, ending, rest[: int(size)].decode("latin-1")))
        reports = rest[int(size) + 1 :]
    return found


def last_line(shown: str) -> str:
    """The last line that isn't empty."""
    return next((line for line in reversed(shown.split("\n")) if line), "")


def grouped(runs: Iterable[Run], key_of: Callable[[Run], object]) -> Dict[object, Tuple[Fraction, int, Run]]:
    """The chance, the number and the first of the runs with each key, the likeliest first."""
    groups: Dict[object, List[Run]] = defaultdict(list)
    for run in runs:
        groups[key_of(run)].append(run)
    sums = [(key, (sum(run.chance() for run in some), len(some), some[0])) for key, some in groups.items()]
    return dict(sorted(sums, key=lambda it: -it[1][0]))


def in_pieces(data: bytes, size: int) -> Callable[[int], bytes]:
    """A reading function that gives so many bytes of data at once."""
    source = io.BytesIO(data)
    return lambda _: source.read(size)


# two runs that show the same, one of which stops; a fault; and a run without a line
MIXED = [
    Run(((1, 4),), "END", "HI\n"),
    Run(((2, 4),), "STOP", "HI\n"),
    Run(((3, 4),), "HOW", "HOW?\n10 P.1/?0\n"),
    Run(((4, 4), (1, 2)), "END", ""),
    Run(((4, 4), (2, 2)), "END", "HI\n"),
]
DICE = [
    Run(((1, 2),), "END", ""),
    Run(((2, 2), (1, 3)), "END", "     1\n"),
    Run(((2, 2), (2, 3)), "END", "     2\n"),
    Run(((2, 2), (3, 3)), "END", "     3\n"),
]


def table_of(lines: str) -> List[dict]:
    """The objects of a table in JSON lines."""
    return [json.loads(line) for line in lines.splitlines()]
