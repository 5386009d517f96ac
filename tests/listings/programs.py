"""Starts tools/adapt and ptb for the tests of listings."""

import os
import subprocess
import tempfile

ROOT = os.path.dirname(os.path.dirname(os.path.dirname(os.path.realpath(__file__))))
ADAPT = f"{ROOT}/tools/adapt"
PTB = os.environ.get("PTB") or f"{ROOT}/ptb"
# How an adapted program is checked without running it: arguments of ptb that must succeed.
CHECKS = [["--list"], ["--check"]]


def adapt(listing, *arguments):
    """What tools/adapt does with a listing: its status, the program, and the report."""
    data = listing if isinstance(listing, bytes) else listing.encode()
    done = subprocess.run([ADAPT, *arguments, "-"], input=data, capture_output=True, check=False)
    return done.returncode, done.stdout.decode(), done.stderr.decode()


def play(program, arguments, lines):
    """What ptb does with a program: its status, what it shows, and what it says on standard error."""
    with tempfile.NamedTemporaryFile("w", suffix=".bas") as file:
        file.write(program)
        file.flush()
        command = [PTB, *arguments, file.name]
        done = subprocess.run(command, input=lines.encode(), capture_output=True, check=False, timeout=60)
    return done.returncode, done.stdout.decode(), done.stderr.decode()
