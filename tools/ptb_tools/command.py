"""What the tools have in common as commands: exit statuses, refusals, version and arguments."""

from __future__ import annotations

import argparse
import os
import subprocess
import sys
from typing import Callable, NoReturn, Sequence

from . import VERSION

PARTIAL = 3
USAGE, BAD_INPUT, UNREAD, NO_FOLDER, UNOPENED, UNWRITTEN = 64, 65, 66, 71, 73, 74
INTERRUPTED = 130


class Refusal(Exception):
    """Why a tool ends without its work: its status, and a line for standard error."""

    def __init__(self, status: int, line: str) -> None:
        super().__init__(line)
        self.status = status


def name() -> str:
    """The name with which the tool was started."""
    return os.path.basename(sys.argv[0])


def folder() -> str:
    """The folder of the tool, even if it was started by a link."""
    return os.path.dirname(os.path.realpath(sys.argv[0]))


def say(line: str) -> None:
    """Writes a line to standard error, if there is one."""
    if sys.stderr is not None:
        print(f"{name()}: {line}", file=sys.stderr)


def version() -> str:
    """The version of ptb to which the tools belong."""
    printer = os.path.join(folder(), "version")
    try:
        return VERSION or subprocess.check_output([printer], text=True).strip()
    except (OSError, subprocess.CalledProcessError):
        return "unknown"


class PrintVersion(argparse.Action):
    """Prints the name and the version of a tool, and ends it."""

    def __call__(self, parser: argparse.ArgumentParser, *_: object) -> NoReturn:
        print(f"{self.const} {version()}")
        parser.exit()


class Parser(argparse.ArgumentParser):
    """A parser of arguments whose usage errors have the status that those of ptb have."""

    def __init__(self, tool: str, **texts: str) -> None:
        kind = argparse.RawDescriptionHelpFormatter
        super().__init__(prog=name(), allow_abbrev=False, formatter_class=kind, **texts)
        said = {"nargs": 0, "action": PrintVersion, "const": tool}
        self.add_argument("-V", "--version", help="print the name and the version", **said)

    def error(self, message: str) -> NoReturn:
        """Refuses the arguments."""
        raise Refusal(USAGE, f"{message}; see {name()} --help")


def run(serve: Callable[[Sequence[str]], int], arguments: Sequence[str]) -> int:
    """The status of a tool with these arguments. Why it ends without its work is said."""
    try:
        return serve(arguments)
    except Refusal as refusal:
        say(str(refusal))
        return refusal.status
    except KeyboardInterrupt:
        return INTERRUPTED
