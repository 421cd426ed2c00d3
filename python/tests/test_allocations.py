"""What memory firings take: a worker keeps the room for the values of an evaluation and for copies, so further firings
take memory for the exports that they publish alone, here of a program that keeps no pairs. Counted are calls of the C
library's malloc and realloc."""

from __future__ import annotations

import tempfile
import unittest
from pathlib import Path

from helping import EXAMPLES, needs_fc
from starved_runs import Starved

from fieldc import program as fc

DEVICES = 40
# what a published export takes: one block with its counter and value, and the list of its slots
EXPORT = 2


@needs_fc
class Allocations(unittest.TestCase):
    def setUp(self) -> None:
        room = tempfile.TemporaryDirectory()
        self.addCleanup(room.cleanup)
        self.starved = Starved(Path(fc.find()), Path(room.name))
        self.scene = tuple((EXAMPLES / "sensor_field_run.txt").read_text().split("%%\n")[:2])

    def taken(self, rounds: int) -> int:
        """How many allocations a run of so many rounds makes."""
        ended, asked = self.starved.run("run --workers 1", (*self.scene, f"run {rounds}\n"), 0)
        self.assertEqual((ended.status, ended.errors), (0, b""))
        return asked

    def test_a_firing_takes_memory_for_its_export_alone(self) -> None:
        firings = 500 * DEVICES
        self.assertLessEqual((self.taken(1000) - self.taken(500)) // firings, EXPORT)


if __name__ == "__main__":
    unittest.main()
