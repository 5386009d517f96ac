#!/usr/bin/env python3
"""Runs the unittest modules of tests/tools. The last line is 'N passed, M failed'.

Arguments name parts of tests, as test_reports; without any, all are run. What was skipped is reported with its reason.
PTB names another program than the one that ./ptb builds.
"""

import os
import sys
import unittest

sys.dont_write_bytecode = True
TESTS = os.path.dirname(os.path.realpath(__file__))
sys.path[:0] = [f"{TESTS}/tools", f"{TESTS}/shared"]
import runner

runner.main(unittest.TestLoader().discover(f"{TESTS}/tools"))
