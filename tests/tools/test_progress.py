"""Tests of the line on a terminal that shows how much of a tree is done."""

from __future__ import annotations

import io
import os
import pty
import re
import subprocess
import time
import unittest
from unittest import mock

from listings import OUTCOMES, PLAIN, listing, tree
from ptb_tools import progress as progress_module
from ptb_tools.progress import Progress
from ptb_tools.tree import Coverage, DrawnPath, Path


class Clock:
    """A clock that the tests set."""

    def __init__(self) -> None:
        self.now = 100.0

    def monotonic(self) -> float:
        """The time."""
        return self.now


class Lines(unittest.TestCase):
    """The lines at set times."""

    def setUp(self) -> None:
        self.clock = Clock()
        patched = mock.patch.object(progress_module, "time", self.clock)
        patched.start()
        self.addCleanup(patched.stop)
        self.out = io.StringIO()
        self.path: Path = Path(Coverage())
        self.progress = Progress(self.out, self.path)

    def line(self, seconds: float, runs: int, answers: bytes = b"") -> str:
        """The line after so many more seconds, at this run; nothing if there is no new one."""
        if answers:
            self.path.advance(answers)
        self.clock.now += seconds
        before = len(self.out.getvalue())
        self.progress.tick(runs)
        return self.out.getvalue()[before:].replace("\r\x1b[K", "")

    def test_shares_and_times(self) -> None:
        self.assertEqual(self.line(0.4, 1, b"1/4,1/2"), "")
        self.assertEqual(self.line(0.2, 2, b"1/4,2/2"), " 25.00% done, 2 runs, 1 s, 2 s left")
        self.assertEqual(self.line(0.4, 3, b"2/4,1/2"), "")
        self.assertEqual(self.line(3.0, 4, b"2/4,2/2"), " 50.00% done, 4 runs, 4 s, 4 s left")
        self.assertEqual(self.line(4.0, 1_487_839, b"4/4"), " 75.00% done, 1,487,839 runs, 8 s, 3 s left")
        self.progress.clear()
        self.assertTrue(self.out.getvalue().endswith("\r\x1b[K"))

    def test_no_run_yet(self) -> None:
        self.assertEqual(self.line(5.0, 0), "")

    def test_a_share_of_a_tree(self) -> None:
        self.assertEqual(self.line(1.0, 1, b"3/4"), " 25.00% done, 1 run, 1 s, 3 s left")
        self.assertEqual(self.line(1.0, 2, b"4/4"), " 50.00% done, 2 runs, 2 s, 2 s left")

    def test_standing_still(self) -> None:
        """No time is estimated once the share hasn't grown for ten seconds; it is once it grows again."""
        advice = "still at 25 %: this branch may have no end; see docs/LARGE-TREES.md"
        self.assertEqual(self.line(1.0, 1, b"1/4"), " 25.00% done, 1 run, 1 s, 3 s left")
        deep = b"2/4" + b",1/4" * 40
        self.assertEqual(self.line(9.0, 2, deep), " 25.00% done, 2 runs, 10 s, 30 s left")
        self.assertEqual(self.line(1.0, 3, deep[:-3] + b"2/4"), f"3 runs, 11 s, {advice}"[:79])
        self.assertEqual(self.line(10.0, 4, deep[:-3] + b"3/4"), f"4 runs, 21 s, {advice}"[:79])
        self.assertEqual(self.line(9.0, 5, b"3/4"), " 50.00% done, 5 runs, 30 s, 30 s left")
        with mock.patch.object(progress_module, "width_of", lambda terminal: 200):
            self.assertEqual(self.line(10.0, 5), f"5 runs, 40 s, {advice.replace('25', '50')}")

    def test_narrow_terminals(self) -> None:
        with mock.patch.object(progress_module, "width_of", lambda terminal: 20):
            self.assertEqual(self.line(1.0, 1, b"1/4"), " 25.00% done, 1 run")

    def test_deep_runs(self) -> None:
        """Chances that are too small for a float."""
        self.assertEqual(self.line(1.0, 1, b",".join([b"1/9"] * 2000)), "  0.00% done, 1 run, 1 s")

    def test_drawn_runs(self) -> None:
        self.path = DrawnPath()
        self.progress = Progress(self.out, self.path)
        self.assertEqual(self.line(1.0, 7, b"1/2"), "7 runs, 1 s, sampled")


class AtATerminal(unittest.TestCase):
    """The tool with its standard error at a terminal."""

    def test_lines(self) -> None:
        leader, follower = pty.openpty()
        pipe = subprocess.PIPE
        reports = [run.report() for run in tree([8], lambda answers: "")]
        with subprocess.Popen([OUTCOMES, "--by", "ending"], stdin=pipe, stdout=pipe, stderr=follower, env=PLAIN) as process:
            os.close(follower)
            for report in reports:
                process.stdin.write(report)
                process.stdin.flush()
                time.sleep(0.6)
            table, _ = process.communicate()
        said = os.read(leader, 1 << 16)
        os.close(leader)
        lines = re.findall(rb"\r\x1b\[K *([0-9.]+)% done, ([0-9]+) runs?, [0-9]+ s, [0-9]+ s left", said)
        # a busy machine may begin late, and show fewer
        self.assertGreaterEqual(len(lines), 3, said)
        for share, runs in lines:
            self.assertEqual(float(share), 12.5 * int(runs))
        self.assertTrue(said.endswith(b"\r\x1b[K"), said)
        self.assertTrue(table.startswith(b"8 runs, 1 ending\n"), table)

    def test_while_no_report_comes(self) -> None:
        leader, follower = pty.openpty()
        pipe = subprocess.PIPE
        with subprocess.Popen([OUTCOMES, "--by", "ending"], stdin=pipe, stdout=pipe, stderr=follower, env=PLAIN) as process:
            os.close(follower)
            process.stdin.write(listing(tree([8], lambda answers: "")[:2]))
            process.stdin.flush()
            time.sleep(3)
            process.communicate()
        said = os.read(leader, 1 << 16)
        os.close(leader)
        self.assertGreaterEqual(said.count(b"25.00% done, 2 runs"), 2, said)

    def test_elsewhere(self) -> None:
        done = subprocess.run([OUTCOMES], input=listing(tree([2], str)), capture_output=True, env=PLAIN, check=True)
        self.assertEqual(done.stderr, b"")


if __name__ == "__main__":
    unittest.main()
