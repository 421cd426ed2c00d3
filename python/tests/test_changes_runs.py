"""No log that changes_runs makes breaks a line of `check --settle --changes`, with few logs; run it by itself for many.
A line that says too much is broken by one of a few logs."""

from __future__ import annotations

import unittest

from helping import needs_fc

import changes_runs
from changes_runs import Rounds
from settle_runs import Broken


class Counted(unittest.TestCase):
    """Rounds of logs that were counted by hand, with devices 0, 1 and 2."""

    def counts(self, entries: str, there: set[int]) -> list[int]:
        """How many rounds are over after each entry."""
        found, counter = [], Rounds(there)
        for entry in entries.split(", "):
            word, _, rest = entry.partition(" ")
            there = there - {int(rest)} if word == "leave" else there | {int(rest)} if word == "join" else there
            counter.take(entry, there)
            found.append(counter.count)
        return found

    def test_each_device_begins_and_ends(self) -> None:
        found = self.counts("B0, E0, B1, B2, E2, E1, B0, B1, B2, E0, E1, E2", {0, 1, 2})
        self.assertEqual(found, [0] * 5 + [1] * 6 + [2])

    def test_an_end_whose_begin_was_before_doesnt_count(self) -> None:
        found = self.counts("B1, B0, E0, B0, E1, E0, B1, E1, B0, E0", {0, 1})
        self.assertEqual(found, [0] * 4 + [1] * 5 + [2])

    def test_a_device_that_is_away_holds_no_round_up(self) -> None:
        found = self.counts("B0, E0, leave 1, B0, E0, join 1, B0, E0, B1, E1", {0, 1})
        self.assertEqual(found, [0, 0, 1, 1, 2, 2, 2, 3, 3, 3])
        found = self.counts("B0, E0, leave 1, join 1, B0, E0, B1, E1, B0, E0", {0, 1})
        self.assertEqual(found, [0, 0, 1, 1, 1, 2, 2, 2, 2, 3])


@needs_fc
class ChangesRuns(unittest.TestCase):
    def test_no_line_is_broken(self) -> None:
        for from_table in (False, True):
            found = changes_runs.looked(40, 1, from_table)
            self.assertGreater(min(found.lines, found.values, found.edits), 100)

    def test_a_bound_that_is_one_narrower_is_broken(self) -> None:
        for from_table in (False, True):
            with self.assertRaises(Broken):
                changes_runs.looked(30, 2, from_table, changes_runs.narrower)

    def test_a_round_too_early_is_broken(self) -> None:
        with self.assertRaises(Broken):
            changes_runs.looked(30, 3, False, changes_runs.too_early)


if __name__ == "__main__":
    unittest.main()
