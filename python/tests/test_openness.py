"""Tests the search for two starts that rest apart. The rests that are wanted were worked out by hand."""

# mypy: no-strict-optional

from __future__ import annotations

import json
import tempfile
import unittest
from pathlib import Path
from typing import Any

import helping
from helping import LINE, missing, needs_fc

if missing("lark"):
    raise unittest.SkipTest(missing("lark"))

from fieldc import openness, results
from fieldc.language import reading
from fieldc.program import answered
from fieldc.refusals import Call, Section

GREATEST = "ceiling 10; input src: bool;\nmain = rep(0){(x) => maxHoodLoc(nbr{x}, mux(sense src, 3, 0))};\n"
NO_RISE = (
    "language 2; ceiling 10; input src: bool;\n"
    "main = rep(10){(d) => rise(minHoodLoc(nbr{d} + 1, mux(sense src, 0, 10)), d, mux(sense src, 1, 0))};\n"
)
FLIP = "ceiling 10; input src: bool;\nmain = rep(false){(x) => not x};\n"
SAME = "ceiling 10; input src: bool;\nmain = rep(0){(x) => mux(x = x, 5, 7)};\n"
BRANCHES = "ceiling 10; input src: bool;\nmain = if (sense src) {rep(0){(x) => max(x, 1)}} {(rep(0){(y) => y})};\n"
FIRST_COME = (
    "language 2; ceiling 10;\n"
    "main = share(0){(x) => max(maxHoodLoc(x, 0), mux(0 < maxHoodLoc(x, 0), 0, uid + 1))};\n"
)
PAIR = '{"devices": [{"id": 0, "inputs": {}}, {"id": 1, "inputs": {}}], "links": [[0, 1, 1]]}'


def again(text: str) -> tuple[results.Replayed, Any]:
    """What `fc replay --table` writes for an input, and the table of its network."""
    parts = text.split("\n%%\n")
    sections = tuple(Section(kind, "", 1, part + "\n") for kind, part in zip(("program", "network", "log"), parts))
    found = results.replayed(answered(Call(("replay", "--table"), sections)).text)
    return found, json.loads(parts[1]).get("table")


class Tables(unittest.TestCase):
    """Tables with one number everywhere."""

    def test_values(self) -> None:
        self.assertEqual(openness.filled([3, [True, 0]], 9, False), [9, [False, 9]])

    def test_branches_stay(self) -> None:
        program = reading(BRANCHES).unfolded
        table = {"format": 2, "rows": [{"id": 0, "kept": [[0, True], [2, 1]], "value": 1}]}
        found = openness.filled_table(table, program, 10, False)
        self.assertEqual(found, {"format": 2, "rows": [{"id": 0, "kept": [[0, True], [2, 10]], "value": 10}]})

    def test_rounds(self) -> None:
        self.assertEqual(openness.round_of([0, 1], openness.TOGETHER), "B0\nB1\nE0\nE1\n")
        self.assertEqual(openness.round_of([0, 1], openness.IN_TURN), "B0\nE0\nB1\nE1\n")
        self.assertEqual(openness.round_of([0, 1], openness.BACKWARDS), "B1\nE1\nB0\nE0\n")


@needs_fc
class Rests(unittest.TestCase):
    """What is found on small networks."""

    def test_a_greatest_value(self) -> None:
        found = openness.look(GREATEST, json.loads(LINE))
        self.assertEqual([dict(rest.values) for rest in found.rests], [{0: 3, 1: 3, 2: 3}, {0: 10, 1: 10, 2: 10}])
        self.assertEqual(found.devices, (0, 1, 2))
        self.assertEqual([rest.start for rest in found.rests], ["everything least", "everything greatest"])

    def test_rests_are_rests(self) -> None:
        found = openness.look(NO_RISE, json.loads(LINE))
        self.assertEqual([dict(rest.values) for rest in found.rests], [{0: 0, 1: 0, 2: 0}, {0: 0, 1: 1, 2: 2}])
        self.assertEqual(found.devices, (1, 2))
        for rest in found.rests:
            after, before = again(rest.text)
            self.assertEqual(dict(after.values), dict(rest.values))
            self.assertEqual(dict(after.table), before)

    def test_branches(self) -> None:
        found = openness.look(BRANCHES, json.loads(LINE))
        self.assertEqual([dict(rest.values) for rest in found.rests], [{0: 1, 1: 0, 2: 0}, {0: 10, 1: 10, 2: 10}])

    def test_a_swing(self) -> None:
        found = openness.look(FLIP, json.loads(LINE))
        self.assertIsNone(found.rests)
        self.assertEqual({found.swing.before[0], found.swing.after[0]}, {False, True})
        self.assertEqual(found.devices, (0, 1, 2))
        after, _ = again(found.swing.text)
        self.assertEqual(dict(after.values), dict(found.swing.after))
        twice, table = again(found.swing.text + found.swing.text.split("\n%%\n")[2])
        self.assertEqual(dict(twice.table), table)

    def test_nothing_is_found(self) -> None:
        found = openness.look(SAME, json.loads(LINE))
        self.assertIsNone(found.rests)
        self.assertIsNone(found.swing)
        self.assertEqual(len(found.tried), 21)
        text = openness.told(found, [])
        self.assertIn("No two starts were found that end at different values. There may be some all the same.", text)
        self.assertIn("everything greatest, in 3 orders of firings: at rest after at most 1 round", text)

    def test_a_program_that_settles(self) -> None:
        self.assertIsNone(openness.look(helping.HOPS, json.loads(LINE)).rests)

    def test_from_the_table(self) -> None:
        found = openness.look(FIRST_COME, json.loads(PAIR), from_table=True)
        self.assertEqual([dict(rest.values) for rest in found.rests], [{0: 1, 1: 1}, {0: 2, 1: 2}])
        for rest in found.rests:
            after, table = again(rest.text)
            self.assertIsNone(table)
            self.assertEqual(dict(after.values), dict(rest.values))

    def test_from_pending_firings(self) -> None:
        copy = {"id": 1, "inputs": {}, "own": None, "near": []}
        scene = {**json.loads(PAIR), "pending": [copy]}
        found = openness.look(FIRST_COME, scene, from_table=True)
        self.assertIsNone(found.rests)
        self.assertIn(
            ("one after the other", "at rest after at most 1 round"), [(t.order, t.outcome) for t in found.tried]
        )
        said = "No two orders of firings were found that end at different values."
        self.assertTrue(openness.told(found, []).startswith(said))


@needs_fc
class Command(unittest.TestCase):
    """`fieldc settle --why` writes the two inputs to files."""

    def test_files(self) -> None:
        with tempfile.TemporaryDirectory() as folder:
            place = Path(folder)
            (place / "max.fc").write_text(GREATEST)
            (place / "line.json").write_text(LINE)
            (place / "open_1.txt").write_text("mine")
            done = helping.fieldc("settle", "--why", "max.fc", "line.json", folder=place)
            self.assertEqual(done.status, 1)
            self.assertEqual((place / "open_1.txt").read_text(), "mine")
            self.assertIn("from everything least, all begin before one ends, after at most 8 rounds:", done.errors)
            self.assertIn("fieldc replay open_2.txt runs one round from there, which changes nothing", done.errors)
            again_by_command = helping.fieldc("replay", "open_3.txt", folder=place)
            self.assertEqual(again_by_command.output, "0 10\n1 10\n2 10\n")
            self.assertIn("They differ at the devices 0, 1 and 2.", done.errors)
            values = [dict(again((place / f"open_{number}.txt").read_text())[0].values) for number in (2, 3)]
            self.assertEqual(values, [{0: 3, 1: 3, 2: 3}, {0: 10, 1: 10, 2: 10}])


if __name__ == "__main__":
    unittest.main()
