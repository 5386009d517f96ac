"""This file calls the program, and says what every reply must be like, whatever was asked."""

import os
import re
import subprocess
from contextlib import nullcontext
from dataclasses import dataclass

from replies import NOT_OVER, replied

ENDINGS = {"END": 0, "STOP": 0, "WHAT": 1, "HOW": 2, "SORRY": 3, "LIMIT": 4, "NOINPUT": 5}
LIMIT, NO_ANSWER, BAD_ANSWER = 4, 6, 7
BAD_WORDS, REFUSED_PROGRAM, UNREAD, NO_RUN, UNWRITTEN = 64, 65, 66, 67, 74

# Why a list fits no run, in the second line.
MISFIT = (
    rb"(?:item [1-9]\d* is [1-9]\d*, but its question allows 1 to [1-9]\d*"
    rb"|item [1-9]\d* states the bound [1-9]\d*, but its question has [1-9]\d*"
    rb"|the run is over after (?:1 item|(?:0|[1-9]\d*) items))"
)
NOT_A_RUN = rb"(?:%b|item [1-9]\d* is missing; its question allows 1 to [1-9]\d*|the list does not begin with the items of --under)" % MISFIT

# The text for errors that goes with each status. Lack of memory has one too, but nothing here is short of memory.
NOTES = {
    **dict.fromkeys(range(8), rb""),
    BAD_WORDS: rb"(?s).+",
    REFUSED_PROGRAM: rb"ptb: (?:program too long|line [1-9]\d*: "
    rb"(?:no statement number|number too big|text too long|bad byte at [1-9]\d*|program full))\n",
    UNREAD: rb"ptb: cannot read the (?:program|input)\n  [^\n]+\n",
    NO_RUN: rb"ptb: (?:not a run\n  --after: %b|no run begins so\n  --under: %b)\n" % (NOT_A_RUN, MISFIT),
    UNWRITTEN: rb"ptb: cannot write\n",
}
SILENT = {BAD_WORDS, REFUSED_PROGRAM, NO_RUN}
SECONDS_OF_A_CALL = 60


@dataclass(frozen=True)
class Call:
    """One start of the program in a case's folder: its words, and the files that are its standard input and output."""

    words: tuple
    stdin: str = "/dev/null"
    stdout: str = ""


def reply_of(program, folder, call):
    """Calls the program."""
    with open(os.path.join(folder, call.stdin), "rb") as stdin:
        with open(call.stdout, "wb") if call.stdout else nullcontext(subprocess.PIPE) as stdout:
            how = {"cwd": folder, "stdin": stdin, "stdout": stdout, "stderr": subprocess.PIPE}
            return replied([program, *call.words], SECONDS_OF_A_CALL, **how)


def fault_of(reply):
    """Why no call may be replied to like this, or an empty text."""
    if reply.status == NOT_OVER:
        return f"not over in {SECONDS_OF_A_CALL} seconds"
    if reply.status not in NOTES:
        return f"status {reply.status}"
    if not re.fullmatch(NOTES[reply.status], reply.errors):
        return f"status {reply.status} with another text for errors than is due"
    if reply.status in SILENT and reply.output:
        return f"status {reply.status}, and something was written"
    return ""
