"""What edits do to a network, as the lines say it."""

from __future__ import annotations

import unittest

from helping import sections_of

from fieldc import Fault, networks as network, read_scene
from fieldc.edits import by_numbers, moments, rounds_at_shows

SCRIPT = """\
show
run 2
show

mix 3 set 0 src true
show
run 1
link 0 2 4
join 7 false 9
scramble 3
unlink 2 1
run 5
show
leave 1
link 7 0 2
set 2 w 8
show
"""


class Scripts(unittest.TestCase):
    def setUp(self) -> None:
        self.start = network.with_inputs(network.line(3), [("src", False, None), ("w", 1, None)])

    def test_the_network_at_each_show(self) -> None:
        found = moments(self.start, SCRIPT, ("src", "w"))
        self.assertEqual(
            [(m.line, m.rounds, m.edited) for m in found],
            [(1, 0, False), (3, 2, False), (6, 3, True), (13, 5, True), (17, 0, True)],
        )
        self.assertEqual(found[0].network.links, self.start.links)
        self.assertEqual(found[2].network.inputs[0], {"src": True, "w": 1})
        self.assertEqual(found[1].network.inputs[0], {"src": False, "w": 1})
        self.assertEqual(found[3].network.links, ((0, 1, 1), (0, 2, 4)))
        self.assertEqual(found[3].network.inputs[7], {"src": False, "w": 9})
        self.assertEqual(found[4].network.devices, (0, 2, 7))
        self.assertEqual(found[4].network.links, ((0, 2, 4), (0, 7, 2)))
        self.assertEqual(found[4].network.inputs[2]["w"], 8)

    def test_rounds_since_the_last_edit(self) -> None:
        self.assertEqual(
            rounds_at_shows(SCRIPT), {1: (0, False), 3: (2, False), 6: (3, True), 13: (5, True), 17: (0, True)}
        )
        self.assertEqual(rounds_at_shows("run 2\r\nscramble 1\r\nrun 3\r\nshow\r\n"), {4: (3, True)})
        self.assertEqual(rounds_at_shows("poke 0 1\nrun 4\nrun 2\nshow"), {4: (6, True)})

    def test_the_network_behind_a_log(self) -> None:
        (found,) = moments(self.start, "B0\nset 0 src true\nE0\nleave 2\nI\n", ("src", "w"))
        self.assertEqual((found.line, found.rounds), (None, None))
        self.assertEqual(found.network.devices, (0, 1))
        self.assertEqual(found.network.inputs[0], {"src": True, "w": 1})

    def test_devices_by_their_names(self) -> None:
        names = {0: "mill", 1: "weir", 2: "1", 7: "roof"}
        given = "set mill src true\r\n\nmix 3 link weir 1 4\nrun 5\njoin roof false 9\npoke 1 (1,2)\nleave 7\nset\nB1\n"
        made = "set 0 src true\r\n\nmix 3 link 1 2 4\nrun 5\njoin 7 false 9\npoke 2 (1,2)\nleave 7\nset\nB1\n"
        self.assertEqual(by_numbers(given, names, "s.txt"), made)
        self.assertEqual(by_numbers(made, {}, "s.txt"), made)
        with self.assertRaisesRegex(Fault, "s.txt line 12: no device is called rof"):
            by_numbers("run 1\nleave rof\n", names, "s.txt", 11)

    def test_lines_of_another_network(self) -> None:
        for line in ("set 9 src true", "leave 9", "unlink 0 2", "join 7 true", "set 0 src yes"):
            with self.subTest(line), self.assertRaisesRegex(Fault, f"line 2 .*{line}"):
                moments(self.start, f"run 1\n{line}\nshow\n", ("src", "w"))


class Examples(unittest.TestCase):
    def test_the_crowd(self) -> None:
        _, scene, script = sections_of("crowd_run.txt")
        before, after = moments(read_scene(scene), script, ("beacon",))
        both = (before.network.inputs, after.network.inputs)
        beacons = [[device for device, own in inputs.items() if own["beacon"]] for inputs in both]
        self.assertEqual(beacons, [[4, 17, 30], [4, 30]])
        self.assertEqual(set(before.network.devices) ^ set(after.network.devices), {9, 36})
        self.assertEqual((before.rounds, after.rounds), (402, 402))
        gone = set(before.network.links) - set(after.network.links)
        self.assertTrue(gone and all(9 in link[:2] for link in gone))
        self.assertEqual(set(after.network.links) - set(before.network.links), {(4, 36, 7), (2, 36, 11)})


if __name__ == "__main__":
    unittest.main()
