"""Prints the lists that split all runs of a program: starts ptb --all --shares, for scripts that call ptb-shares."""

from __future__ import annotations

import os
import subprocess
from typing import Sequence

from .command import Parser, Refusal, folder, run

NOT_STARTED, NOT_FOUND, KILLED = 126, 127, 128  # as shells have them

DESCRIPTION = """\
Starts ptb --all --shares DEPTH, which prints lists that split all runs: one list of answers a line,
each for ptb --all --under LIST, in the order of the runs. Standard input is the input of the runs.
"""
EPILOG = """\
The three options of runs must be the same for every share. The program is the ptb in the folder of
this tool, or else in the one above. PTB in the environment names another program.
"""


def program() -> str:
    """The program that plays the runs."""
    beside = os.path.join(folder(), "ptb")
    above = os.path.join(os.path.dirname(folder()), "ptb")
    return os.environ.get("PTB") or (beside if os.path.isfile(beside) else above)


def serve(words: Sequence[str]) -> int:
    """Does what the arguments ask for, and gives the status."""
    parser = Parser("ptb-shares", description=DESCRIPTION, epilog=EPILOG)
    parser.add_argument("program", metavar="PROGRAM", help="the file of the program")
    parser.add_argument("depth", metavar="DEPTH", help="the number of questions, 1 to 64")
    parser.add_argument("--steps", metavar="N", help="begin at most N commands in a run")
    parser.add_argument("--memory", metavar="N", help="bytes of memory for the program")
    parser.add_argument("--choose", metavar="N", help="where INPUT finds no line, take a number from 1 to N")
    options = parser.parse_args(words)
    values = {"--steps": options.steps, "--memory": options.memory, "--choose": options.choose}
    arguments = [it for option, value in values.items() if value is not None for it in (option, value)]
    command = [program(), "--all", "--shares", options.depth, *arguments, "--", options.program]
    try:
        status = subprocess.run(command, check=False).returncode
    except OSError as error:
        failed = NOT_FOUND if isinstance(error, FileNotFoundError) else NOT_STARTED
        raise Refusal(failed, f"cannot start {command[0]}: {error.strerror}") from error
    return status if status >= 0 else KILLED - status


def main(arguments: Sequence[str]) -> int:
    """The status of the tool with these arguments."""
    return run(serve, arguments)
