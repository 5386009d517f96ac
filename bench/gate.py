#!/usr/bin/env python3
"""Measures what each crate costs, and writes it into the tables of docs/gate.md: bench/gate.py build | gate

`build` runs ./build, and `gate` runs rt ci, with --anew if the kit has that option, in the root of this repository. It should be a
fresh clone, on a machine on which nothing else runs. With `taskset -c 0,1` before the command it is measured on two cores.

While the command runs, the processes of the prover below it are watched. A first build gives the seconds from the start of a crate
to its end; a gate gives the seconds of one processor for its proof, for the proof with its tests, and for the trials of its planted
bugs. The functions and the planted bugs are counted in the sources. The row of each crate is for four cores.
"""

import os
import re
import resource
import subprocess
import sys
import time
from dataclasses import dataclass
from pathlib import Path

ROOT = Path(__file__).resolve().parent.parent
PAGE = ROOT / "docs/gate.md"
COMMANDS = {"build": "./build", "gate": "rt ci"}
CORES = {1: "one", 2: "two", 4: "four", 8: "eight"}
TICKS = os.sysconf("SC_CLK_TCK")
FUNCTION = re.compile(r"^ *(?:pub(?:\([a-z]+\))? )?fn ", re.M)
SECONDS_BETWEEN_LOOKS = 0.5


@dataclass
class Task:
    """A process of the prover: its crate, what it does, when it was first and last seen, and its processor time."""

    crate: str
    kind: str
    first: float
    last: float
    spent: float = 0


# ---- watching


def processes():
    """All processes: of each its parent, and its processor time with that of its children that ended."""
    found = {}
    for name in filter(str.isdigit, os.listdir("/proc")):
        try:
            fields = Path(f"/proc/{name}/stat").read_text().rpartition(")")[2].split()
        except OSError:
            continue
        found[int(name)] = int(fields[1]), sum(map(int, fields[11:15])) / TICKS
    return found


def below(top, every):
    """A process, those that it started, and so on."""
    found = newest = {top} & {*every}
    while newest:
        newest = {it for it, (parent, _) in every.items() if parent in newest} - found
        found = found | newest
    return found


def task_of(process):
    """The task of a process of the prover; None for another process."""
    try:
        words = Path(f"/proc/{process}/cmdline").read_bytes().decode(errors="replace").split("\0")
    except OSError:
        return None
    if not words[0].endswith("/rattle") or "--crate-name" not in words:
        return None
    is_trial = any("rt-edit" in word for word in words)
    kind = "trials" if is_trial else "tests" if "--test" in words else "proof"
    return Task(words[words.index("--crate-name") + 1], kind, time.monotonic(), time.monotonic())


def look(top, tasks):
    """Notes the processor time of the prover's processes below the one that was started."""
    every = processes()
    for process in below(top, every):
        if process not in tasks and every[process][0] not in tasks:
            task = task_of(process)
            if task:
                tasks[process] = task
    for process, task in tasks.items():
        if process in every:
            jobs = sum(spent for parent, spent in every.values() if parent == process)
            task.spent = max(task.spent, every[process][1] + jobs)
            task.last = time.monotonic()


def watched(command):
    """Runs a command: the prover's tasks, the seconds that it took, and those of one processor."""
    tasks, began = {}, time.monotonic()
    lanes = {"RT_JOBS": f"{len(os.sched_getaffinity(0))}"}
    with subprocess.Popen(command, cwd=ROOT, env={**lanes, **os.environ}) as running:
        while running.poll() is None:
            look(running.pid, tasks)
            time.sleep(SECONDS_BETWEEN_LOOKS)
    if running.returncode:
        sys.exit(f"gate.py: {' '.join(command)} failed; {PAGE} is as it was")
    used = resource.getrusage(resource.RUSAGE_CHILDREN)
    return list(tasks.values()), time.monotonic() - began, used.ru_utime + used.ru_stime


# ---- the page


def cells_of(crate, tasks, name):
    """The cells of a crate's row that a command gives, by their columns."""
    code = [path.read_text() for path in (ROOT / "crates" / crate / "src").rglob("*.rt")]
    bugs = len(list((ROOT / "crates" / crate / "must-fail").glob("*.edit")))
    cells = {1: f"{sum(len(FUNCTION.findall(text)) for text in code)}", 2: f"{bugs or ''}"}
    mine = [task for task in tasks if task.crate == crate]
    if name == "build":
        spans = [(task.first, task.last) for task in mine]
        cells[3] = f"{max(last for _, last in spans) - min(first for first, _ in spans):.0f}" if spans else ""
    else:
        for column, kind in enumerate(("proof", "tests", "trials"), 4):
            spent = sum(task.spent for task in mine if task.kind == kind)
            cells[column] = f"{spent:,.0f}" if spent >= 0.5 else ""
    return cells


def filled(line, cells):
    """A row of a table in which the cells of these columns are replaced."""
    old = [cell.strip() for cell in line.strip("|").split("|")]
    return "| " + " | ".join(cells.get(column, cell) for column, cell in enumerate(old)) + " |"


def keeps_what_passed():
    """Whether `rt ci` of this kit takes what passed before as passed."""
    helped = subprocess.run(["rt", "help"], stdout=subprocess.PIPE, stderr=subprocess.STDOUT)
    return b"--anew" in helped.stdout


def main():
    name = sys.argv[1]
    options = ["--anew"] if name == "gate" and keeps_what_passed() else []
    tasks, seconds, spent = watched(COMMANDS[name].split() + options)
    cores = CORES.get(len(os.sched_getaffinity(0)), f"{len(os.sched_getaffinity(0))}")
    total = {2: "{}:{:02}".format(*divmod(round(seconds), 60)), 3: f"{spent / 60:.0f}"}
    lines = PAGE.read_text().split("\n")
    for number, line in enumerate(lines):
        crate = re.match(r"\| `(ptb[a-z_]*)` \|", line)
        if crate and cores == "four":
            lines[number] = filled(line, cells_of(crate[1], tasks, name))
        elif line.startswith(f"| `{COMMANDS[name]}` | {cores} |"):
            lines[number] = filled(line, total)
    PAGE.write_text("\n".join(lines))


if sys.argv[1:] not in (["build"], ["gate"]):
    sys.exit(__doc__.strip())
main()
