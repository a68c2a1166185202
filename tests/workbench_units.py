#!/usr/bin/env python3
"""Runs the unit tests of work65's front end (tests/unit): tokens, statements, expressions, conditions, scripts, macros and included
files, as tables of rows. They need no program, and take a second.

usage: workbench_units.py. The last line is 'N passed, M failed', a row each; a test without rows has failed."""
import sys
import unittest

import pages


class Counted(unittest.TestResult):
    """Counts rows, and prints those that fail."""

    def __init__(self):
        super().__init__()
        self.passed = self.failed = self.before = 0

    def startTest(self, test):
        super().startTest(test)
        self.before = self.passed + self.failed

    def addSubTest(self, test, subtest, err):
        super().addSubTest(test, subtest, err)
        self.count(str(subtest), err)

    def addSuccess(self, test):
        if self.passed + self.failed == self.before:
            self.count(f"{test} has no rows", (None, None, None))

    def addError(self, test, err):
        super().addError(test, err)
        self.count(str(test), err)

    addFailure = addError

    def count(self, name, err):
        self.passed, self.failed = self.passed + (err is None), self.failed + (err is not None)
        if err is not None:
            print(f"FAILED: {name}: {err[1]}")


def main():
    found, result = unittest.TestLoader().discover(f"{pages.ROOT}/tests/unit"), Counted()
    found.run(result)
    print(f"{result.passed} passed, {result.failed} failed")
    return int(result.failed > 0 or result.passed < 100)


if __name__ == "__main__":
    sys.exit(main())
