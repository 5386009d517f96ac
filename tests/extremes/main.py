"""This file runs the program at the ends of its ranges, under a small stack, and compares its replies with those that are due."""

import functools
import multiprocessing
import os
import resource
import tempfile
import time
import unittest

import runner
from cases import cases
from replies import Reply, replied
from stage import PTB

STACK = 256 * 1024
SECONDS_OF_A_RUN = 300
# A word of 120,000 bytes leaves little room for the variables of the environment.
VARIABLES = {"PATH": "/usr/bin:/bin"}
SHOWN = 120
CASES = cases()


def stack_beside(words):
    """The small stack, and as much more as the words take of it, which the system puts there."""
    return STACK + sum(len(os.fsencode(word)) + 1 for word in words)


def replied_in_small_stack(words, stdin, folder=None):
    """Runs these words under the small stack, in this folder, with this file as standard input."""
    size = stack_beside(words)
    limit = functools.partial(resource.setrlimit, resource.RLIMIT_STACK, (size, size))
    how = {"env": VARIABLES, "preexec_fn": limit, "capture_output": True, "cwd": folder}
    try:
        return replied(words, SECONDS_OF_A_RUN, stdin=stdin, **how)
    except OSError as error:
        return Reply(f"not started: {error}", b"", b"")


def tried(number):
    """Runs a case by its number: its reply where that isn't due, and how long it took."""
    case = CASES[number]
    with tempfile.TemporaryDirectory(prefix="ptb-extremes-") as folder:
        program = os.path.join(folder, case.file)
        stdin = program if case.input is None else os.path.join(folder, "input.txt")
        for path, text in ((program, case.program), (stdin, case.input)):
            if text is not None:
                with open(path, "wb") as file:
                    file.write(text)
        words = [PTB, *case.words, *([] if case.input is None else [case.file])]
        began = time.monotonic()
        with open(stdin, "rb") as file:
            reply = replied_in_small_stack(words, file, folder)
        return None if reply == case.due else told(reply, case.due), time.monotonic() - began


def told(reply, due):
    """A reply, and where it differs from the one that is due, in a line."""
    pairs = enumerate(zip(reply.output, due.output))
    length = min(len(reply.output), len(due.output))
    place = next((k for k, (byte, other) in pairs if byte != other), length)
    here = reply.output[place : place + SHOWN]
    wanted = due.output[place : place + SHOWN]
    return (
        f"status {reply.status} ({due.status} is due), {len(reply.output)} bytes ({len(due.output)} are due),"
        f" from byte {place} on {here!r} ({wanted!r} is due), errors {reply.errors[:SHOWN]!r} ({due.errors!r})"
    )


class Extremes(unittest.TestCase):
    """The runs at the ends of the ranges."""

    def test_stack(self):
        """The stack of what is run here is as small as it is to be."""
        with open(os.devnull, "rb") as nothing:
            reply = replied_in_small_stack(["/bin/sh", "-c", "ulimit -s"], nothing)
        self.assertEqual(reply.output, b"256\n")

    def test_cases(self):
        """Each run has the reply that is due."""
        with multiprocessing.get_context("fork").Pool() as pool:
            results = pool.map(tried, range(len(CASES)), chunksize=1)
        for case, (fault, _) in zip(CASES, results):
            with self.subTest(case.name):
                self.assertIsNone(fault)
        seconds, name = max((seconds, case.name) for case, (_, seconds) in zip(CASES, results))
        print(f"the longest run, {name}, took {seconds:.1f} seconds")


if __name__ == "__main__":
    runner.main()
