"""Files of what may change: patterns written out as lines, places of mistakes in the user's file, and envelopes."""

# mypy: no-strict-optional

from __future__ import annotations

import unittest
from dataclasses import replace

from helping import HOPS, LINE, fieldc
from test_files import InFolder

from fieldc import Explanation, Fault, Section, networks as network, read_scene
from fieldc.changes import around_of, for_fc, written_out
from fieldc.envelopes import envelope_of, widest
from fieldc.refusals import as_typed

PROGRAM = "ceiling 100; input src: bool; input temp: int 0..60; metric 1..9; main = sense temp;\n"
DECLARED = network.declared(PROGRAM)
NAMES = {0: "gate", 1: "mill", 2: "3..4"}
INPUTS = {device: {"src": device == 0, "temp": temp} for device, temp in enumerate([20, 50, 59, 1, 20])}
LINKS = ((0, 1, 2), (1, 2, 9), (2, 3, 5), (3, 4, 1))
NETWORK = network.Network(INPUTS, LINKS, names=NAMES)


def lines(text: str) -> list[str]:
    """The lines for which a text stands."""
    return written_out(Section("changes", "may.txt", 1, text), NETWORK, DECLARED).text.split("\n")


class Patterns(unittest.TestCase):
    def test_devices(self) -> None:
        rows = {
            "leave 1": ["leave 1"],
            "leave mill": ["leave 1"],
            "leave 3..4": ["leave 2"],
            "leave 3..9": ["leave 3", "leave 4"],
            "leave *": ["leave 0", "leave 1", "leave 2", "leave 3", "leave 4"],
            "leave temp=20": ["leave 0", "leave 4"],
            "leave src=true": ["leave 0"],
            "leave src=false": ["leave 1", "leave 2", "leave 3", "leave 4"],
            "leave temp=1": ["leave 3"],
        }
        for text, wanted in rows.items():
            self.assertEqual(lines(text), wanted, text)

    def test_inputs(self) -> None:
        rows = {
            "set gate temp 7": ["set 0 temp 7"],
            "set 0..1 src any": ["set 0 src any", "set 1 src any"],
            "set * temp +-2": [
                "set 0 temp 18..22", "set 1 temp 48..52", "set 2 temp 57..60", "set 3 temp 0..3", "set 4 temp 18..22",
            ],
            "set mill temp -20%..+20%": ["set 1 temp 40..60"],
            "set 1 temp +-25%": ["set 1 temp 37..60"],
            "set 0 temp -1..+3": ["set 0 temp 19..23"],
            "set 0 temp +2..+4": ["set 0 temp 22..24"],
            "set 0 temp -10%..+1": ["set 0 temp 18..21"],
            "set 0 temp +-0": ["set 0 temp 20"],
            "set 3 temp 2..7": ["set 3 temp 2..7"],
        }  # fmt: skip
        for text, wanted in rows.items():
            self.assertEqual(lines(text), wanted, text)

    def test_links(self) -> None:
        rows = {
            "link gate 9 1..4": ["link 0 9 1..4"],
            "link 0 2..3 any": ["link 0 2 any", "link 0 3 any"],
            "link 0..2 1..3 4": ["link 0 1 4", "link 0 2 4", "link 0 3 4", "link 1 2 4", "link 1 3 4", "link 2 3 4"],
            "link 2 1 +-2": ["link 1 2 7..9"],
            "links * +-1": ["link 0 1 1..3", "link 1 2 8..9", "link 2 3 4..6", "link 3 4 1..2"],
            "links mill any": ["link 0 1 any", "link 1 2 any"],
            "links 0 2..7": ["link 0 1 2..7"],
            "unlink *": ["unlink 0 1", "unlink 1 2", "unlink 2 3", "unlink 3 4"],
            "unlink 3": ["unlink 2 3", "unlink 3 4"],
            "unlink temp=20 *": ["unlink 0 1", "unlink 3 4"],
            "unlink mill gate": ["unlink 1 0"],
        }
        for text, wanted in rows.items():
            self.assertEqual(lines(text), wanted, text)

    def test_devices_that_come(self) -> None:
        self.assertEqual(lines("join 7..9 any 2..4"), [f"join {device} any 2..4" for device in (7, 8, 9)])
        self.assertEqual(lines("join 7 true 3"), ["join 7 true 3"])

    def test_other_lines_stay_as_they_are(self) -> None:
        rows = ("", "poke 0 1", "run 3", "leave", "set 0 temp", "link 0 1", "unlink 1 2 3", "# walks", "set 9 x 2")
        for text in rows:
            self.assertEqual(lines(text), [text])
        self.assertEqual(lines("leave 1\r\n\nleave 2\n"), ["leave 1", "", "leave 2", ""])

    def test_mistakes_are_named_with_their_line(self) -> None:
        rows = {
            "leave roof": "no device is called roof",
            "leave gat": "no device is called gat; did you mean gate",
            "leave 7..9": "no device of the network is 7..9",
            "leave 9..7": "9..7 is the wrong way round",
            "leave temp=21": "no device of the network is temp=21",
            "leave src=1": "no device of the network is src=1",
            "leave tmp=21": "no input is called tmp; the program declares src, temp",
            "set 0 src +-1": r"src is true or false, and \+-1 is about a number; write any",
            "set 0..1 tmp +-1": "no input is called tmp",
            "set 9 temp +-1": "device 9 has no temp",
            "link 0 3 +-1": r"gate and 3 aren't linked, so \+-1 has no weight",
            "link 1..1 mill 2": "1..1 and mill are the same device",
            "links 0 1 2": "it is written links DEVICES VALUE",
            "links temp=21 2": "no device of the network is temp=21",
            "unlink 0 2..4": "no link of the network is 0 2..4",
            "join 7..9 any +-2": r"a device that joins has no value yet from which \+-2",
            "join * any 2": r"\* can't be a device that joins",
            "join 9..65536 any 2": "9..65536 goes too far: the number of a device is at most 65,535",
            "join 7 any +-2": r"no value yet from which \+-2",
        }
        for text, said in rows.items():
            with self.subTest(text), self.assertRaisesRegex(Fault, f"^may.txt line 3: .*{said}") as caught:
                lines(f"leave 1\n\n{text}\n")
            self.assertEqual(caught.exception.status, 3)

    def test_amounts_about_a_number(self) -> None:
        self.assertEqual(around_of("-20%..+20%").of(33, 0, 100), (26, 40))
        self.assertEqual(around_of("+-10%").of(99, 0, 100), (89, 100))
        for word in ("2", "2..7", "any", "+-", "+-x", "+2", "1..+2", "+-2%..3"):
            self.assertIsNone(around_of(word), word)


class Places(unittest.TestCase):
    """What `fc` says of a line is told of the line that the user typed."""

    def typed(self, text: str, row: int, word: int) -> tuple[int, int]:
        section = written_out(Section("changes", "may.txt", 4, text), NETWORK, DECLARED)
        line = section.text.split("\n")[row]
        column = len(" ".join(line.split(" ")[:word])) + 1 + bool(word)
        found = as_typed(Explanation("so", section, row + 4, column))
        self.assertEqual(found.section.text, text)
        return found.line, found.column

    def test_lines_and_columns(self) -> None:
        text = "leave mill\nlinks 2..4 +-1\n\nset temp=20 temp +-5\nunlink *\n"
        self.assertEqual(self.typed(text, 0, 1), (4, 7))
        self.assertEqual([self.typed(text, row, 1) for row in (1, 2, 3)], [(5, 7)] * 3)
        self.assertEqual([self.typed(text, 1, word) for word in (0, 2, 3)], [(5, 1), (5, 7), (5, 12)])
        self.assertEqual([self.typed(text, 6, word) for word in range(4)], [(7, 1), (7, 5), (7, 13), (7, 18)])
        self.assertEqual([self.typed(text, 8, word) for word in range(3)], [(8, 1), (8, 8), (8, 8)])

    def test_sections_that_cant_be_read_are_left_to_fc(self) -> None:
        section = Section("changes", "may.txt", 1, "leave roof\n")
        parts = (Section("program", "p", 1, PROGRAM), Section("network", "n", 1, "{}"))
        self.assertEqual(for_fc(section, parts, {}), section)


class Command(InFolder):
    def setUp(self) -> None:
        super().setUp()
        self.file(HOPS, "hops.fc")
        self.file(LINE, "line.json")

    def test_lines_are_written(self) -> None:
        self.file("unlink *\nset src=false src any\nleave mill\n", "may.txt")
        self.file("id,name\n2,mill\n", "names.csv")
        done = fieldc("changes", "may.txt", "line.json", "hops.fc", "--names", "names.csv", folder=self.folder)
        wanted = ["unlink 0 1", "unlink 1 2", "set 1 src any", "set 2 src any", "leave 2"]
        self.assertEqual((done.status, done.output.splitlines(), done.errors), (0, wanted, ""))

    def test_refusals(self) -> None:
        self.file("unlink *\nleave roof\n", "may.txt")
        self.file("unlink *\n", "lines.txt")
        self.file("unlink *\n\nleave 1 2\n", "short.txt")
        self.file("join\n", "joins.txt")
        rows: dict[str, tuple[int, tuple[str, ...]]] = {
            "may.txt line 2: no device is called roof; devices have numbers here, and with --names":
                (3, ("may.txt", "line.json", "hops.fc")),
            "2 sections: CHANGES NETWORK PROGRAM are three": (2, ("may.txt", "line.json")),
            "hops.fc isn't a scene: line 1, column 1 isn't JSON": (3, ("lines.txt", "hops.fc", "line.json")),
            "hops.fc line 1: ceiling can't begin a line of changes; set, link, links,":
                (3, ("hops.fc", "line.json", "may.txt")),
            "short.txt line 3: it is written leave DEVICES": (3, ("short.txt", "line.json", "hops.fc")),
            "joins.txt line 1: it is written join DEVICE VALUE ..": (3, ("joins.txt", "line.json", "hops.fc")),
            "none.txt can't be read": (5, ("none.txt", "line.json", "hops.fc")),
        }  # fmt: skip
        for said, (status, words) in rows.items():
            done = fieldc("changes", *words, folder=self.folder)
            self.assertEqual((done.status, done.output, done.errors.count("\n")), (status, "", 1), done.errors)
            self.assertIn(said, done.errors)


class Envelopes(unittest.TestCase):
    def test_of_lines(self) -> None:
        text = "set 1 temp 40..45\nset 1 temp 52\nlink 3 2 7\nlink 0 4 any\nunlink 1 0\nleave 3\njoin 9 true 5\n"
        text += "set 9 temp 8\nset 0 src any\nlink 9 4 2..3\n"
        found = envelope_of(NETWORK, text, DECLARED)
        self.assertEqual(found.inputs[1], {"src": (False, False), "temp": (40, 52)})
        self.assertEqual(found.inputs[9], {"src": (True, True), "temp": (5, 8)})
        self.assertEqual(found.inputs[0]["src"], (False, True))
        links = {(0, 1): (2, 2), (0, 4): (1, 9), (1, 2): (9, 9), (2, 3): (5, 7), (3, 4): (1, 1), (4, 9): (2, 3)}
        self.assertEqual(found.links, links)
        self.assertEqual((found.sure_devices, found.sure_links), ({0, 1, 2, 4}, {(1, 2)}))
        self.assertEqual(found.away, {3, 9})

    def test_with_all_that_may_be_there(self) -> None:
        found = widest(NETWORK, envelope_of(NETWORK, "join 9 any 5..7\nlink 9 4 2..3\nlink 0 1 4\n", DECLARED))
        self.assertEqual(found.devices, (0, 1, 2, 3, 4, 9))
        self.assertEqual(found.inputs[9], {"src": False, "temp": 5})
        self.assertEqual(set(found.links), {*LINKS, (4, 9, 2)})

    def test_nothing_changes(self) -> None:
        found = envelope_of(NETWORK, "", DECLARED)
        self.assertEqual(widest(NETWORK, found).inputs, NETWORK.inputs)
        self.assertEqual((found.away, found.sure_links), (frozenset(), frozenset(found.links)))


class Known(unittest.TestCase):
    def test_scenes_keep_names_apart(self) -> None:
        """A name that is written as numbers goes before these numbers."""
        scene = replace(read_scene(LINE), names={2: "0"})
        found = written_out(Section("changes", "c", 1, "leave 0\nleave 1\n"), scene, network.declared(HOPS))
        self.assertEqual(found.text, "leave 2\nleave 1\n")


if __name__ == "__main__":
    unittest.main()
