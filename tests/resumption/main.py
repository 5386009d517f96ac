"""This file runs the tests of tools/resume."""

import unittest

import damage
import endings
import kills
import portions
import runner

if __name__ == "__main__":
    runner.main(map(unittest.defaultTestLoader.loadTestsFromModule, (portions, damage, endings, kills)))
