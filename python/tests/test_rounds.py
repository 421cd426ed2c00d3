"""How fast a program settles, as runs show it, beside what is promised."""

from __future__ import annotations

import unittest

from helping import HOPS, LINE, fieldc, needs, needs_fc
from test_files import InFolder

from fieldc import Fault, networks as network, rounds

FLAT = "ceiling 10; input src: bool; main = rep(0){(x) => maxHoodLoc(nbr{x}, 0)};"


class Curves(unittest.TestCase):
    def test_settled_from_the_last_round_on_which_one_is_late(self) -> None:
        for held, wanted in {(1, 3, 2, 3, 3): 3, (3, 3): 0, (1, 2): None, (2, 3): 1}.items():
            self.assertEqual(rounds.Curve(1, held).settled(3), wanted)


@needs_fc
@needs("matplotlib")
class Runs(InFolder):
    def test_curves_keep_what_is_promised(self) -> None:
        made = network.with_inputs(network.grid(4, 3), [("src", True, [0])])
        promise = rounds.promised(HOPS, made)
        self.assertEqual((promise.time, promise.verdict.rounds), (11, 22))
        self.assertEqual(dict(promise.values), {x + 4 * y: x + y for y in range(3) for x in range(4)})
        found = rounds.curves(HOPS, made, promise, [5, 6, 7], 15)
        self.assertEqual([one.number for one in found], [5, 6, 7])
        for one in found:
            self.assertEqual((len(one.held), one.held[-1]), (16, 12))
            settled = one.settled(12)
            assert settled is not None
            self.assertLessEqual(settled, promise.time)
            for place, count in enumerate(one.held):
                self.assertGreaterEqual(count, sum(r <= place for r in promise.by_device.values()))
        for count in (0, 2001):
            with self.assertRaisesRegex(Fault, "are drawn"):
                rounds.curves(HOPS, made, promise, [1], count)

    def test_open_networks(self) -> None:
        with self.assertRaisesRegex(Fault, "the network is open") as caught:
            rounds.promised(FLAT, LINE)
        self.assertEqual(caught.exception.status, 1)

    def test_the_command(self) -> None:
        files = self.file(HOPS, "hops.fc"), self.file(LINE, "line.json")
        words = ["--number", 1, "--number", 2, "--number", 1, "--workers", 1]
        done = fieldc("rounds", *files, *words, "-o", "rounds.svg", folder=self.folder)
        self.assertEqual(done.status, 0, done.errors)
        rows = [line.split() for line in done.output.splitlines()]
        self.assertEqual([(row[0], row[2:]) for row in rows], [("1", ["5", "22"]), ("2", ["5", "22"])])
        self.assertTrue(all(int(row[1]) <= 5 for row in rows))
        drawn = (self.folder / "rounds.svg").read_text()
        for said in ("settle time R = 5", "rubbish of 2, settled after", "known to, from every start"):
            self.assertIn(f"<!-- {said}", drawn)
        self.assertEqual(fieldc("rounds", files[0], "-o", "x.svg", folder=self.folder).status, 2)
        done = fieldc("rounds", *files, "--rounds", 2001, "-o", "x.svg", folder=self.folder, FC="/bin/false")
        self.assertEqual((done.status, done.errors.count("\n")), (2, 1))
        self.assertIn("2001 rounds, and 1 to 2,000 are drawn", done.errors)
        flat = fieldc("rounds", self.file(FLAT, "flat.fc"), files[1], "-o", "x.svg", folder=self.folder)
        self.assertEqual((flat.status, flat.output), (1, ""))


if __name__ == "__main__":
    unittest.main()
