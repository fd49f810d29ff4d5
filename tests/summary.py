"""The end of a run of tests: what was skipped, and 'N passed, M failed'."""

from __future__ import annotations

import sys
import unittest


def counts(result: unittest.TestResult) -> tuple[int, int]:
    """How many tests passed and how many failed. A test of which several parts failed counts once."""
    parts = [test for test, _ in result.failures + result.errors]
    failed = len({getattr(part, "test_case", part).id() for part in parts}) or int(not result.wasSuccessful())
    return max(result.testsRun - failed - len(result.skipped), 0), failed


def skipped_lines(result: unittest.TestResult) -> list[str]:
    """A line for each test that was skipped."""
    return [f"skipped: {test.id()}: {why}" for test, why in result.skipped]


def run_tests(tests: unittest.TestSuite) -> int:
    """Runs tests, prints how they end, and returns the exit status. A run of no tests fails."""
    result = unittest.TextTestRunner(stream=sys.stdout, descriptions=False).run(tests)
    passed, failed = counts(result)
    print(*skipped_lines(result), f"{passed} passed, {failed} failed", sep="\n")
    return 1 if failed or not result.testsRun else 0
