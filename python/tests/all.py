#!/usr/bin/env python3
"""Runs the tests of this folder, or some modules, classes or tests of it: `./test` does so for each module.

They run the built program, or what the variable FC names. A test that is skipped counts as one that failed.
"""

from __future__ import annotations

import sys
import unittest

from helping import HERE


def suite(names: list[str]) -> unittest.TestSuite:
    """The tests of all modules, or those named."""
    loader = unittest.TestLoader()
    return loader.loadTestsFromNames(names) if names else loader.discover(str(HERE), top_level_dir=str(HERE))


def main() -> int:
    done = unittest.TextTestRunner(stream=sys.stderr, verbosity=0).run(suite(sys.argv[1:]))
    for case, reason in done.skipped:
        print(f"SKIPPED {case.id()}: {reason}")
    failed = len(done.failures) + len(done.errors) + len(done.unexpectedSuccesses) + len(done.skipped)
    print(f"{done.testsRun - failed} passed, {failed} failed")
    return 1 if failed else 0


if __name__ == "__main__":
    sys.exit(main())
