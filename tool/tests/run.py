#!/usr/bin/env python3
"""Runs every group of tests in this folder, one line a group; says which tests were left out and why; and counts.

The programs are named by the variables SHEET and JUDGE, which tool/test.sh sets; words name groups to run alone."""

import io
import sys
import unittest
from pathlib import Path

FOLDER = Path(__file__).parent


class Result(unittest.TextTestResult):
    """Counts the tests that passed as a whole."""

    passed = 0

    def addSuccess(self, test):
        super().addSuccess(test)
        self.passed += 1


def run_group(name, left_out):
    """Runs a group and says how it went: how many tests passed, and how many failed. Adds to `left_out` the tests that
    were not run, by their reason."""
    suite = unittest.defaultTestLoader.loadTestsFromName(f"test_{name}")
    said = io.StringIO()
    result = unittest.TextTestRunner(stream=said, verbosity=0, resultclass=Result).run(suite)
    # A part of a test counts as the test.
    whole = lambda test: getattr(test, "test_case", test).id()
    bad = {whole(test) for test, _ in result.failures + result.errors} | {whole(test) for test in result.unexpectedSuccesses}
    skipped = {whole(test): reason for test, reason in result.skipped if whole(test) not in bad}
    for test, reason in skipped.items():
        left_out.setdefault(reason, []).append(f"{name}.{test.split('.')[-1]}")
    print(f"{name}: {result.passed} passed, {len(bad)} failed" + f", {len(skipped)} left out" * bool(skipped), flush=True)
    if bad:
        print(said.getvalue(), file=sys.stderr)
    return result.passed, len(bad)


def main():
    sys.path.insert(0, str(FOLDER))
    sys.dont_write_bytecode = True
    groups = sys.argv[1:] or sorted(path.stem.removeprefix("test_") for path in FOLDER.glob("test_*.py"))
    left_out = {}
    counts = [run_group(name, left_out) for name in groups]
    for reason, tests in left_out.items():
        print(f"left out, {reason}: {', '.join(tests)}")
    passed, bad = (sum(column) for column in zip(*counts))
    # Only one who came to the end says this.
    print(f"all groups: {passed} passed, {bad} failed")
    return 1 if bad else 0


if __name__ == "__main__":
    sys.exit(main())
