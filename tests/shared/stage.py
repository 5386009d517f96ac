"""This file makes a folder that has the program, its tools and its examples as the root has, for commands of the documents."""

import contextlib
import os
import tempfile

ROOT = os.path.dirname(os.path.dirname(os.path.dirname(os.path.realpath(__file__))))
PTB = os.path.realpath(os.environ.get("PTB", f"{ROOT}/ptb"))


@contextlib.contextmanager
def staged():
    """The path of such a folder, which is there for a while."""
    with tempfile.TemporaryDirectory() as folder:
        for name in ["docs", "examples", "tools"]:
            os.symlink(f"{ROOT}/{name}", f"{folder}/{name}")
        os.symlink(PTB, f"{folder}/ptb")
        yield folder
