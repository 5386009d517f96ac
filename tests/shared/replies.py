"""This file has the result of a call of the program, for tests that compare it with what is due."""

import subprocess
from dataclasses import dataclass

NOT_OVER = "not over in time"


@dataclass(frozen=True)
class Reply:
    """The result of a call.

    The status is a number, below 0 where a signal ended the program, or a text that says why there is none.
    """

    status: object
    output: bytes
    errors: bytes


def replied(words, seconds, **how):
    """Calls the program with these arguments, for so many seconds at most. What isn't captured is empty in the reply."""
    try:
        done = subprocess.run(words, timeout=seconds, check=False, **how)
    except subprocess.TimeoutExpired as late:
        return Reply(NOT_OVER, late.stdout or b"", late.stderr or b"")
    return Reply(done.returncode, done.stdout or b"", done.stderr or b"")
