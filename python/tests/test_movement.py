"""What may change where devices move, and by the columns of a file of links: lines that hold whatever devices do."""

# mypy: no-strict-optional

from __future__ import annotations

import itertools
import json
import math
import random
import unittest

from helping import fieldc, needs
from test_files import InFolder

from fieldc import Fault, movement, networks as network, read_scene
from fieldc.envelopes import envelope_of

REACH = 10.0
DECLARED = network.Declared({}, (0, 1_000_000), None)


def weight(far: float) -> int:
    return network.weight_at(far, 1, 9, 2.0)


def walked(found: network.Network, moves: dict[int, float], dice: random.Random) -> network.Network:
    """The network when each device has gone as far as it may, or less, some way or other."""
    places = {}
    for device, (x, y) in found.positions.items():
        angle, far = dice.uniform(0, 2 * math.pi), moves[device] * dice.choice([1.0, dice.random()])
        places[device] = (x + far * math.cos(angle), y + far * math.sin(angle))
    return network.weighed(network.in_range(places, REACH), 1, 9, 2.0)


class Moves(unittest.TestCase):
    def test_by_hand(self) -> None:
        """Devices 0 and 1 are 6 apart and move by 1 each; 2 is 9 from 1, and 3 is 13 from 1 and moves by 2."""
        places = {0: (0.0, 0.0), 1: (6.0, 0.0), 2: (15.0, 0.0), 3: (6.0, 13.0)}
        made = network.weighed(network.in_range(places, REACH), 1, 20)
        self.assertEqual(made.links, ((0, 1, 6), (1, 2, 9)))
        moves = {0: 1.0, 1: 1.0, 2: 1.0, 3: 2.0}
        found = movement.of_moves(made, moves, REACH, lambda far: network.weight_at(far, 1, 20))
        self.assertEqual(found, ["link 0 1 4..8", "link 1 2 7..10", "unlink 1 2", "link 1 3 10"])

    def test_a_pair_that_just_stays_within_the_range(self) -> None:
        made = network.in_range({0: (0.0, 0.0), 1: (8.0, 0.0), 2: (20.0, 0.0)}, REACH)
        same = {device: 1.0 for device in made.devices}
        self.assertEqual(movement.of_moves(made, same, REACH, lambda far: 1), ["link 1 2 1"])
        self.assertEqual(movement.of_moves(made, dict.fromkeys(same, 0.9), REACH, lambda far: 1), [])
        self.assertEqual(
            movement.of_moves(made, dict.fromkeys(same, 1.1), REACH, lambda far: 1), ["unlink 0 1", "link 1 2 1"]
        )

    def test_whatever_devices_do_lies_within(self) -> None:
        links, came, went = 0, 0, 0
        for seed in range(30):
            dice = random.Random(seed)
            places = {device: (dice.uniform(0, 40), dice.uniform(0, 40)) for device in range(25)}
            moves = {device: dice.choice([0.0, 1.0, dice.uniform(0, 6)]) for device in places}
            now = network.weighed(network.in_range(places, REACH), 1, 9, 2.0)
            envelope = envelope_of(now, "\n".join(movement.of_moves(now, moves, REACH, weight)), DECLARED)
            first = {link[:2] for link in now.links}
            for _ in range(30):
                later = walked(now, moves, dice)
                there = {link[:2] for link in later.links}
                self.assertLessEqual(envelope.sure_links, there)
                for a, b, own in later.links:
                    low, high = envelope.links[a, b]
                    self.assertTrue(low <= own <= high, (seed, a, b))
                links, came, went = links + len(there), came + len(there - first), went + len(first - there)
        self.assertGreater(min(links, came, went), 1000)

    def test_no_line_says_too_much(self) -> None:
        """Two devices, moved to the ends of their ways on the line between them, have the ends of the weights."""
        for far, one, other in itertools.product((3.1, 7.4, 9.9, 12.0), (0.0, 1.5), (0.3, 2.0)):
            made = network.weighed(network.in_range({0: (0.0, 0.0), 1: (far, 0.0)}, REACH), 1, 9, 2.0)
            found = movement.of_moves(made, {0: one, 1: other}, REACH, weight)
            envelope = envelope_of(made, "\n".join(found), DECLARED)
            near, away = far - one - other, far + one + other
            self.assertEqual((0, 1) in envelope.links, near <= REACH)
            if near <= REACH:
                self.assertEqual(envelope.links[0, 1], (weight(near), weight(min(away, REACH))))
                self.assertEqual((0, 1) in envelope.sure_links, away <= REACH)

    def test_more_possible_neighbours_than_fc_takes(self) -> None:
        crowd = network.shaped({device: (device * 0.1, 0.0) for device in range(131)}, [])
        said = "device 0 may come within reach of 130 others, but fc takes 128: choose"
        with self.assertRaisesRegex(Fault, said) as found:
            movement.of_moves(crowd, dict.fromkeys(crowd.devices, 5.0), REACH, lambda far: 1)
        self.assertEqual(found.exception.status, 4)


class Points(InFolder):
    def made(self, text: str, *words: object) -> tuple[int, list[str], str]:
        """The status, the lines of changes, and what is said."""
        self.file(text, "at.csv")
        given = ("--points", "at.csv", "--range", 10, "--changes", "may.txt")
        done = fieldc("network", *given, *words, folder=self.folder)
        written = self.folder / "may.txt"
        return done.status, written.read_text().splitlines() if written.exists() else [], done.errors

    def test_one_number_for_all(self) -> None:
        rows = "a,0,0\nb,6,0\nc,15,0\n"
        status, lines, said = self.made(rows, "--move", 1, "--metric", "1..20", "-o", "net.json")
        self.assertEqual((status, lines), (0, ["link 0 1 4..8", "link 1 2 7..10", "unlink 1 2"]), said)
        self.assertEqual(read_scene((self.folder / "net.json").read_text()).links, ((0, 1, 6), (1, 2, 9)))

    def test_a_column(self) -> None:
        rows = "id,x,y,src,move\n0,0,0,true,1\n1,6,0,false,1\n2,15,0,false,0\n"
        status, lines, said = self.made(rows, "--metric", "1..20")
        self.assertEqual((status, lines), (0, ["link 0 1 4..8", "link 1 2 8..10"]), said)
        status, lines, said = self.made(rows, "--weight", 3)
        self.assertEqual((status, lines, said), (0, [], ""))
        status, lines, said = self.made(rows.replace("15", "16"), "--weight", 3)
        self.assertEqual((status, lines), (0, ["unlink 1 2"]), said)

    def test_a_column_of_points_in_geojson(self) -> None:
        def feature(lon: float, move: int) -> dict[str, object]:
            point = {"type": "Point", "coordinates": [lon, 0]}
            return {"type": "Feature", "geometry": point, "properties": {"move": move}}

        rows = {"type": "FeatureCollection", "features": [feature(8, 1), feature(8.00008, 0)]}
        status, lines, said = self.made(json.dumps(rows), "--metric", "1..20")
        self.assertEqual((status, lines), (0, ["link 0 1 8..10"]), said)

    def test_a_column_that_is_an_input(self) -> None:
        program = self.file("ceiling 9; input move: int 0..9; main = sense move;\n", "p.fc")
        rows = "id,x,y,move\n0,0,0,4\n1,9,0,5\n"
        status, _, said = self.made(rows, "--program", program)
        self.assertEqual(status, 2)
        self.assertIn("--changes needs --move", said)
        self.assertEqual(self.made(rows, "--program", program, "--move", 1)[:2], (0, ["unlink 0 1"]))

    def test_refusals(self) -> None:
        rows = "id,x,y\n0,0,0\n1,6,0\n"
        program = self.file("ceiling 9; metric 1..9; main = minHoodLoc(nbrLink, 9);\n", "p.fc")
        wanted: dict[str, tuple[int, str, tuple[object, ...]]] = {
            "--changes needs --move": (2, rows, ()),
            "--move 1 is for all devices, but at.csv has a column move": (2, "id,x,y,move\n0,0,0,1\n", ("--move", 1)),
            "at.csv line 2: move is -1, and a device moves at least 0": (3, "id,x,y,move\n0,0,0,-1\n", ()),
            "at.csv line 2: move is 'far', which isn't a number": (3, "id,x,y,move\n0,0,0,far\n", ()),
            "--max-degree: which links are nearest changes": (2, rows, ("--move", 1, "--max-degree", 3)),
            "the link that may be of 0 and 1 weighs 10, and a weight is from 1 to 9":
                (3, "0,0,0\n1,9,0\n", ("--move", 1, "--metric", "1..20", "--program", program)),
            "none/may.txt: there is no folder none": (6, rows, ("--move", 1, "--changes", "none/may.txt")),
        }  # fmt: skip
        for said, (status, text, words) in wanted.items():
            found = self.made(text, *words)
            self.assertEqual((found[0], found[2].count("\n")), (status, 1), found)
            self.assertIn(said, found[2])

    def test_words_that_dont_go_together(self) -> None:
        rows: dict[str, tuple[object, ...]] = {
            "--move needs --changes FILE": ("--line", 3, "--move", 1),
            "--changes needs --points, --disk or --edges": ("--line", 3, "--changes", "may.txt"),
            "--changes doesn't go with --moves": ("--moves", "m.csv", "--range", 3, "--changes", "may.txt"),
            "argument --move: -1 isn't a length": ("--disk", 3, "--range", 3, "--move", -1),
        }
        for said, words in rows.items():
            done = fieldc("network", *words, folder=self.folder)
            self.assertEqual((done.status, done.output, done.errors.count("\n")), (2, "", 1), done.errors)
            self.assertIn(said, done.errors)

    def test_devices_at_random(self) -> None:
        words = ("--disk", 30, "--range", 30, "--seed", 4, "--move", 5, "--changes", "may.txt", "-o", "net.json")
        done = fieldc("network", *words, folder=self.folder)
        self.assertEqual((done.status, done.output, done.errors), (0, "", ""))
        kinds = {line.split(" ")[0] for line in (self.folder / "may.txt").read_text().splitlines()}
        self.assertEqual(kinds, {"link", "unlink"})


@needs("networkx")
class Links(InFolder):
    def made(self, text: str, *words: object) -> tuple[int, list[str], str]:
        self.file(text, "links.txt")
        done = fieldc("network", "--edges", "links.txt", "--changes", "may.txt", *words, folder=self.folder)
        written = self.folder / "may.txt"
        return done.status, written.read_text().splitlines() if written.exists() else [], done.errors

    def test_columns_of_a_list(self) -> None:
        for mark in (",", ";", "\t"):
            rows = "source,target,weight,least,greatest,goes\na,b,3,2,5,false\nb,c,4,4,4,yes\nc,a,7,7,7,1\n"
            status, lines, said = self.made(rows.replace(",", mark))
            self.assertEqual((status, lines), (0, ["link 0 1 2..5", "unlink 0 2", "unlink 1 2"]), said)

    def test_columns_may_be_missing_and_fields_empty(self) -> None:
        rows = "a,b,weight,greatest\n0,1,3,\n1,2,3,6\n"
        self.assertEqual(self.made(rows)[:2], (0, ["link 1 2 3..6"]))
        self.assertEqual(self.made("from to goes\n0 1 true\n1 2 false\n")[:2], (0, ["unlink 0 1"]))
        rounded = "a,b,weight,least\n0,1,3.4,1.6\n1,2,3,\n"
        self.assertEqual(self.made(rounded, "--round")[:2], (0, ["link 0 1 2..3"]))

    def test_attributes_of_graphs(self) -> None:
        import networkx

        graph = networkx.Graph()
        graph.add_edge(0, 1, weight=3, least=2, greatest=5, goes=True)
        graph.add_edge(1, 2, weight=1)
        wanted = ["link 0 1 2..5", "unlink 0 1"]
        networkx.write_graphml(graph, self.folder / "net.graphml")
        self.assertEqual(self.made((self.folder / "net.graphml").read_text())[:2], (0, wanted))
        graph.edges[0, 1]["goes"] = 1
        networkx.write_gml(graph, self.folder / "net.gml")
        self.assertEqual(self.made((self.folder / "net.gml").read_text())[:2], (0, wanted))
        networkx.write_edgelist(graph, self.folder / "net.edges")
        self.assertEqual(self.made((self.folder / "net.edges").read_text())[:2], (0, wanted))

    def test_refusals(self) -> None:
        head = "a,b,weight,least,greatest,goes\n"
        rows = {
            "the link of 0 and 1 weighs 7, and its least and greatest weight are 2 and 5": head + "0,1,7,2,5,no\n",
            "goes of the link of 0 and 1 is 'perhaps'; it has to be true or false": head + "0,1,3,2,5,perhaps\n",
            "the least of the link of 0 and 1 weighs 'two', which isn't a number": head + "0,1,3,two,5,no\n",
            "links.txt line 2: not a link a b weight least greatest goes": head + "0,1,3\n",
        }
        for said, text in rows.items():
            found = self.made(text)
            self.assertEqual((found[0], found[2].count("\n")), (3, 1), found)
            self.assertIn(said, found[2])
        for option in ("--weight", "--move"):
            found = self.made(head + "0,1,3,2,5,no\n", option, 1)
            self.assertEqual(found[0], 2, found)
            self.assertIn(f"{option}: with --edges and --changes the file gives the weights", found[2])


if __name__ == "__main__":
    unittest.main()
