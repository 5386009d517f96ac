"""Tests of tools/shares with stand-ins for ptb, and of the tree of answers for pages."""

from __future__ import annotations

import os
import subprocess
import tempfile
import unittest
from fractions import Fraction
from typing import List
from unittest import mock

import listings
from listings import PLAIN, PTB, ROOT, SHARES, Reply, call, in_pieces, listing, tree
from ptb_tools import branches
from ptb_tools.branches import Branches
from ptb_tools.reports import Reader
from ptb_tools.tables import Node
from ptb_tools.tree import Coverage, DrawnPath, Path

PROGRAMS = {
    "no question": "10 PRINT 7\n",
    "fewer questions": "10 A=RND(2);IF A=2 B=RND(3);PRINT B\n",
    "a bound that an answer sets": "10 A=RND(4);B=RND(A);IF B>1 C=RND(B)\n",
    "questions with one answer": "10 FOR I=1 TO 5;A=RND(1);NEXT I;B=RND(2)\n",
}


class Shares(unittest.TestCase):
    """The lists that are printed."""

    def setUp(self) -> None:
        folder = tempfile.TemporaryDirectory()
        self.addCleanup(folder.cleanup)
        self.folder = folder.name

    def shares(self, *arguments: str, ptb: str = PTB, lines: bytes = b"", **how: object) -> Reply:
        """Calls the tool."""
        return call(SHARES, lines, *arguments, env={**PLAIN, "PTB": ptb}, **how)

    def file(self, name: str, text: str, mode: int = 0o644) -> str:
        """The path of a file with this text."""
        path = f"{self.folder}/{name}"
        with open(path, "w", encoding="ascii") as file:
            file.write(text)
        os.chmod(path, mode)
        return path

    def test_each_depth(self) -> None:
        """The shares are the first answers of the runs, each once, in order."""
        for name, text in PROGRAMS.items():
            program = self.file("a.bas", text)
            runs = listings.runs_of(listings.listed(text))
            for depth in range(1, 5):
                begins = [",".join(f"{a}/{b}" for a, b in run.answers[:depth]) or "none" for run in runs]
                due = "".join(f"{begin}\n" for begin in dict.fromkeys(begins))
                self.assertEqual(self.shares(program, str(depth)), Reply(0, due, ""), (name, depth))

    def test_input_and_options(self) -> None:
        """Each run is given the input, and the options of runs."""
        text = "10 INPUT A;B=RND(A);INPUT C\n"
        program = self.file("a.bas", text)
        due = "1/2,1/3\n1/2,2/3\n1/2,3/3\n2/2,1/3\n2/2,2/3\n2/2,3/3\n"
        found = self.shares(program, "3", "--choose", "3", "--steps=50", "--memory", "4000", lines=b"2\n")
        self.assertEqual(found, Reply(0, due, ""))
        self.assertEqual(self.shares("--choose=2", program, "2").out, "1/2,1/1\n2/2,1/2\n2/2,2/2\n")

    def test_one_program_is_started(self) -> None:
        program = self.file("a.bas", "10 A=RND(3)+RND(3)\n")
        stand_in = self.file("count", f'#!/bin/sh\necho "$*" >>{self.folder}/calls\nexec {PTB} "$@"\n', 0o755)
        self.assertEqual(self.shares(program, "2", "--steps", "50", ptb=stand_in).out.count("\n"), 9)
        with open(f"{self.folder}/calls", encoding="ascii") as calls:
            self.assertEqual(calls.read(), f"--all --shares 2 --steps 50 -- {program}\n")

    def test_a_program_named_like_an_option(self) -> None:
        self.file("--first", PROGRAMS["fewer questions"])
        self.assertEqual(self.shares("--", "--first", "1", cwd=self.folder), Reply(0, "1/2\n2/2\n", ""))

    def test_failures(self) -> None:
        reply = self.shares(f"{self.folder}/none.bas", "1")
        self.assertEqual((reply.status, reply.out, reply.errors[:29]), (66, "", "ptb: cannot read the program\n"))
        program = self.file("a.bas", PROGRAMS["fewer questions"])
        for text, status in ("exit 5", 5), ("kill -9 $$", 137), ("kill $$", 143):
            stand_in = self.file("fails", f"#!/bin/sh\n{text}\n", 0o755)
            self.assertEqual(self.shares(program, "1", ptb=stand_in), Reply(status, "", ""))
        self.assertEqual(self.shares(program, "1", "--steps", "x").status, 64)
        missing = f"{self.folder}/none"
        line = f"shares: cannot start {missing}: No such file or directory\n"
        self.assertEqual(self.shares(program, "1", ptb=missing), Reply(127, "", line))
        self.assertEqual(self.shares(program, "1", ptb=program).status, 126)

    def test_usage_errors(self) -> None:
        program = self.file("a.bas", PROGRAMS["fewer questions"])
        for depth in "x", "0", "-1", "65":
            reply = self.shares(program, depth)
            self.assertEqual((reply.status, reply.out), (64, ""), depth)
            self.assertIn(f"invalid value '{depth}' for '--shares <N>'", reply.errors)
        for arguments in [], [program], [program, "1", "2"], ["--unknown"]:
            reply = self.shares(*arguments)
            self.assertEqual((reply.status, reply.out), (64, ""), arguments)
            self.assertRegex(reply.errors, r"^shares: [^\n]*; see shares --help\n$")

    def test_help_and_version(self) -> None:
        version = subprocess.check_output([f"{ROOT}/tools/version"], text=True)
        self.assertEqual(self.shares("--version"), Reply(0, f"ptb-shares {version}", ""))
        self.assertIn("--under LIST", self.shares("--help").out)

    def test_streams(self) -> None:
        program = self.file("a.bas", PROGRAMS["fewer questions"])
        for words, status in ("> /dev/full", 74), (">&-", 74):
            command = ["bash", "-c", f"'{SHARES}' '{program}' 1 {words}"]
            env = {**PLAIN, "PTB": PTB}
            done = subprocess.run(command, cwd=self.folder, stdin=subprocess.DEVNULL, capture_output=True, env=env, check=False)
            self.assertEqual((done.returncode, done.stdout), (status, b""), words)
            self.assertRegex(done.stderr, rb"^ptb: cannot write[^\n]*\n")


class TreeOfAnswers(unittest.TestCase):
    """The tree of answers, as it is counted in another way."""

    def tree_of(self, runs: List[listings.Run], path: Path, sampled: bool) -> Node:
        """The tree of the answers of runs."""
        found = Branches()
        for _ in found.noted(Reader(in_pieces(listing(runs), 1000), path), path):
            pass
        return found.tree(sampled)

    def check(self, node: Node, runs: List[listings.Run], level: int, total: int = 0) -> None:
        """Checks a node, below which are these runs."""
        chance = Fraction(len(runs), total) if total else sum(run.chance() for run in runs)
        self.assertEqual((node.runs, node.chance), (len(runs), chance))
        bounds = {run.answers[level][1] if len(run.answers) > level else None for run in runs}
        self.assertEqual({node.bound}, bounds)
        answers = {run.answers[level][0] for run in runs if len(run.answers) > level}
        self.assertEqual(set(node.children), answers)
        for answer, child in node.children.items():
            below = [run for run in runs if run.answers[level][0] == answer]
            self.check(child, below, level + 1, total)

    def test_trees(self) -> None:
        for runs in listings.MIXED, listings.DICE, listings.DICE[1:], tree([3, 2, 4], str), [listings.Run((), "END", "")]:
            self.check(self.tree_of(runs, Path(Coverage()), False), runs, 0)

    def test_drawn_runs(self) -> None:
        runs = [listings.MIXED[k] for k in (4, 1, 1, 3, 4, 0)]
        self.check(self.tree_of(runs, DrawnPath(), True), runs, 0, len(runs))

    def test_levels_that_are_left_out(self) -> None:
        """The last levels are left out until there are few nodes; one level stays."""
        runs = tree([4, 4, 4], str)
        for most, levels in (85, 3), (84, 2), (21, 2), (20, 1), (5, 1), (4, 1):
            with mock.patch.object(branches, "MOST_NODES", most):
                node = self.tree_of(runs, Path(Coverage()), False)
            depth, count = 0, 1
            level = [node]
            while level[0].children:
                level = [child for it in level for child in it.children.values()]
                depth, count = depth + 1, count + len(level)
            self.assertEqual(depth, levels, most)
            self.assertEqual({(it.bound, it.runs) for it in level}, {(4 if levels < 3 else None, 4 ** (3 - levels))})
            self.assertEqual(node.runs, 64)


if __name__ == "__main__":
    unittest.main()
