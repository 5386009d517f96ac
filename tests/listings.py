#!/usr/bin/env python3
"""Plays the listings of tests/listings, adapted by tools/adapt, and tries each row of docs/OLD-LISTINGS.md.

The last line is 'N passed, M failed'. Arguments name parts of tests, as acey; without any, all are run.
PTB names another program than the one that ./ptb builds.
"""

import os
import sys

sys.dont_write_bytecode = True
TESTS = os.path.dirname(os.path.realpath(__file__))
sys.path[:0] = [f"{TESTS}/listings", f"{TESTS}/shared"]
import bytes_of_files
import cases
import command
import meaning
import rows
import runner

MODULES = (cases, rows, bytes_of_files, command, meaning)

runner.main([test for module in MODULES for test in module.suite()])
