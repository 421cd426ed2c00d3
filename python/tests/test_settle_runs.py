"""No run that settle_runs makes breaks a line of `check --settle`, with few starts; run it by itself for many."""

from __future__ import annotations

import unittest

from helping import needs_fc

import settle_runs


@needs_fc
class SettleRuns(unittest.TestCase):
    def test_no_line_is_broken(self) -> None:
        for from_table in (False, True):
            self.assertIn("none broken", settle_runs.looked(20, 1, from_table))


if __name__ == "__main__":
    unittest.main()
