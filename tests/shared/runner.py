"""This file runs tests of unittest for a script of tests, and counts what they check.

A check is a subtest, or a test without subtests. It passed, failed or was skipped, and a skipped check is not one that
passed. A test with subtests that fails outside them is one more failed check. Checks that other processes make are counted
with `add_passed`.
"""

import sys
import unittest
from itertools import chain


class Counted(unittest.TextTestResult):
    """The result of tests, with the number of the checks that passed and of those that failed."""

    def __init__(self, *arguments, **options):
        super().__init__(*arguments, **options)
        self.passed = 0
        self.has_subtests = False  # whether the test that runs has had a subtest

    @property
    def failed(self):
        return len(self.failures) + len(self.errors) + len(self.unexpectedSuccesses)

    def startTest(self, test):
        super().startTest(test)
        self.has_subtests = False

    def addSubTest(self, test, subtest, err):
        super().addSubTest(test, subtest, err)
        self.has_subtests = True
        self.passed += err is None

    def addSuccess(self, test):
        super().addSuccess(test)
        self.passed += not self.has_subtests


class Gathered(unittest.TestCase):
    """Tests of which other processes make the checks."""

    def run(self, result=None):
        self.counted = result
        return super().run(result)

    def add_passed(self, number):
        """Counts so many checks that passed; those that failed are subtests that fail."""
        self.counted.passed += number
        self.counted.has_subtests = True


def cases_of(tests):
    """The single tests of what may be suites."""
    return chain.from_iterable(cases_of(it) if isinstance(it, unittest.TestSuite) else [it] for it in tests)


def tests_of_script():
    """The tests in the script that was started."""
    return unittest.defaultTestLoader.loadTestsFromModule(sys.modules["__main__"])


def main(tests=None, parts=None):
    """Runs these tests, or those in the script that was started, and exits with 0 if all checks passed.

    Only the tests run whose names have one of the parts in them, if there are any. Without `parts` the arguments of the
    script are these. The skipped checks are printed with their reasons. The last line is 'N passed, M failed'.
    """
    parts = (sys.argv[1:] if parts is None else parts) or [""]
    every = cases_of(tests_of_script() if tests is None else tests)
    chosen = [test for test in every if any(part in test.id() for part in parts)]
    runner = unittest.TextTestRunner(stream=sys.stdout, verbosity=0, resultclass=Counted)
    found = runner.run(unittest.TestSuite(chosen))
    for test, reason in found.skipped:
        print(f"skipped: {test}: {reason}")
    print(f"{found.passed} passed, {found.failed} failed")
    sys.exit(0 if found.passed and not found.failed else 1)
