"""Tables in, as people have them, and tables out. Distances are compared with those on a ball, found another way."""

from __future__ import annotations

import csv
import math
import random
import unittest

from helping import HOPS, LINE, Done, fieldc, needs, needs_fc
from test_files import InFolder

from fieldc import Fault, files, results
from fieldc.columns import EARTH, in_metres
from fieldc.tables import table_of

PROGRAM = "ceiling 9; input src: bool; input load: int 0..99; main = sense load;\n"


def on_a_ball(one: tuple[float, float], other: tuple[float, float]) -> float:
    """The distance of two places in metres, by the haversine formula."""
    (a, b), (c, d) = (tuple(map(math.radians, place)) for place in (one, other))
    half = math.sin((c - a) / 2) ** 2 + math.cos(a) * math.cos(c) * math.sin((d - b) / 2) ** 2
    return 2 * EARTH * math.asin(math.sqrt(half))


class In(InFolder):
    def read(self, text: str, **more: object) -> files.Points:
        return files.points(self.file(text), PROGRAM, **more)  # type: ignore[arg-type]

    def test_truth_values(self) -> None:
        for yes, no in (("yes", "no"), ("YES", "No"), ("1", "0"), ("true", "False")):
            found = self.read(f"id,x,y,src,load\n0,0,0,{yes},1\n1,1,0,{no},0\n").inputs
            self.assertEqual(found, {0: {"src": True, "load": 1}, 1: {"src": False, "load": 0}}, yes)
        found = files.points(self.file("id,x,y,a,b\n0,0,0,yes,1\n")).inputs
        self.assertEqual(found, {0: {"a": True, "b": 1}})
        for wrong in ("2", "maybe", "1.0", ""):
            with self.subTest(wrong), self.assertRaisesRegex(Fault, "src is '.*'; it has to be true or false"):
                self.read(f"id,x,y,src,load\n0,0,0,{wrong},1\n")

    def test_decimal_commas_and_points(self) -> None:
        wanted = {0: (0.5, -1.25), 1: (1000.0, 2.0)}
        for text in (
            "0;0,5;-1,25\n1;1000;2,0\n",
            "id\tx\ty\n0\t0.5\t-1.25\n1\t1e3\t2\n",
            'id,x,y\n0,"0,5","-1,25"\n1,1000,2\n',
        ):
            self.assertEqual(files.points(self.file(text)).positions, wanted, text)
        with self.assertRaisesRegex(Fault, "don't separate thousands"):
            files.points(self.file("id;x;y\n0;1.000,5;0\n"))

    def test_numbers_of_inputs_are_scaled_or_refused(self) -> None:
        text = "id;x;y;load\n0;0;0;4,7\n1;1;0;3\n2;2;0;0,25\n"
        with self.assertRaisesRegex(Fault, r"line 2: load is 4,7, .* --scale load=10 takes 47$"):
            self.read(text)
        found = self.read(text, scale={"load": 10}).inputs
        self.assertEqual([own["load"] for own in found.values()], [47, 30, 3])

    def test_rows_without_an_id_are_numbered(self) -> None:
        for text in ("x,y,src,load\n5,1,yes,2\n6,1,no,3\n", "src;y;x;load\nyes;1;5;2\nno;1;6;3\n"):
            found = self.read(text)
            self.assertEqual((found.positions, found.names), ({0: (5, 1), 1: (6, 1)}, {}))
            self.assertEqual(found.inputs[1], {"src": False, "load": 3})
        self.assertEqual(self.read("mote,x,y\nmill,1,2\n").names, {0: "mill"})
        with self.assertRaisesRegex(Fault, "with a line x,y in front rows are numbered"):
            files.points(self.file("1,2\n3,4\n"))

    def test_degrees(self) -> None:
        dice = random.Random(4)
        for lat, lon in ((48.2, 16.4), (-33.9, 179.99), (69.6, 18.9), (0.0, -0.001)):
            places = {d: (lat + dice.uniform(-1, 1), lon + dice.uniform(-1, 1)) for d in range(30)}
            rows = "".join(f"{d};{a:.9f};{(b + 180) % 360 - 180:.9f}\n" for d, (a, b) in places.items())
            found = files.points(self.file("id;lat;lon\n" + rows)).positions
            for one in range(30):
                for other in range(one):
                    wanted = on_a_ball(places[one], places[other])
                    self.assertAlmostEqual(math.dist(found[one], found[other]) / wanted, 1, delta=1e-3)
        self.assertGreater(in_metres({0: (1, 0), 1: (0, 0)})[0][1], 0, "north is up")
        self.assertGreater(in_metres({0: (0, 1), 1: (0, 0)})[0][0], 0, "east is to the right")

    def test_degrees_that_are_none_or_too_far_apart(self) -> None:
        for rows, said in (
            ("0,91,0\n", "lat is 91; it has to be from -90 to 90 degrees"),
            ("0,0,200\n", "lng is 200; it has to be from -180 to 180 degrees"),
            ("0,0,0\n1,0,20\n", "1,112 km away from the middle of all devices"),
        ):
            with self.assertRaisesRegex(Fault, said):
                files.points(self.file("id,lat,lng\n" + rows))

    @needs("networkx")
    def test_truth_values_of_gml_in_the_library(self) -> None:
        import fieldc as library

        name = self.file(
            'graph [ node [ id 0 label "a" src 1 ] node [ id 1 label "b" src 0 ] edge [ source 0 target 1 ] ]\n'
        )
        found = library.given.given(name, HOPS).network
        assert found is not None
        self.assertEqual(found.inputs, {0: {"src": True}, 1: {"src": False}})


class Out(unittest.TestCase):
    def test_each_result(self) -> None:
        names = {1: "mill, north"}
        rows: tuple[tuple[results.Result, str], ...] = (
            (results.stable("0 0\n1 -\n"), 'device,name,value\n0,,0\n1,"mill, north",\n'),
            (
                results.stable("0 (1,(true,2))\n1 -\n"),
                'device,name,value_1,value_2,value_3\n0,,1,true,2\n1,"mill, north",,,\n',
            ),
            (
                results.settled("no 4 nested\nopen\n0 1 3\n1 -\n"),
                'device,name,value,rounds\n0,,3,1\n1,"mill, north",,\n',
            ),
            (results.traced("yes 7\n0 0 0\n1 3 0 1\n"), 'device,name,value,walk\n0,,0,0\n1,"mill, north",3,0 1\n'),
            (results.ran("yes 7\n@2\n0 1\n@4\n0 2\n"), "line,device,name,value\n2,0,,1\n4,0,,2\n"),
            (results.stable("no 4 nested\n"), "device,name,value\n"),
        )
        for result, wanted in rows:
            self.assertEqual(table_of(result, names), wanted)


@needs_fc
class Commands(InFolder):
    def setUp(self) -> None:
        super().setUp()
        self.file(HOPS, "hops.fc")
        self.file(LINE, "line.json")
        self.file("id,name\n0,gate\n1,mill\n2,weir\n", "names.csv")

    def asked(self, *words: object) -> Done:
        done = fieldc(*words, folder=self.folder)
        self.assertEqual((done.status, done.errors), (0, ""))
        return done

    def test_values_with_names(self) -> None:
        done = self.asked("settle", "hops.fc", "line.json", "--csv", "--names", "names.csv")
        self.assertEqual(done.output, "device,name,value,rounds\n0,gate,0,1\n1,mill,1,3\n2,weir,2,5\n")
        self.file("run 22\nshow\n", "one.script")
        done = self.asked("run", "hops.fc", "line.json", "one.script", "--csv")
        self.assertEqual(done.output, "line,device,value\n2,0,0\n2,1,1\n2,2,2\n")
        done = fieldc("stable", "hops.fc", "line.json", "--csv", "--json", folder=self.folder)
        self.assertEqual(done.status, 2)

    @needs("matplotlib")
    def test_values_after_each_round(self) -> None:
        self.asked(
            "rounds", "hops.fc", "line.json", "-o", "r.svg", "--csv", "r.csv", "--names", "names.csv", "--rounds", 6
        )
        with open(self.folder / "r.csv", encoding="utf-8", newline="") as file:
            rows = list(csv.DictReader(file))
        self.assertEqual(len(rows), 7 * 3)
        last = [(row["name"], row["value"]) for row in rows if row["round"] == "6"]
        self.assertEqual(last, [("gate", "0"), ("mill", "1"), ("weir", "2")])
        self.assertEqual({row["number"] for row in rows}, {"1"})

    def test_degrees_by_the_command(self) -> None:
        self.file("lat;lon;src\n48,2082;16,3738;yes\n48,2172;16,3738;no\n48,2262;16,3738;no\n", "motes.csv")
        self.asked("network", "--points", "motes.csv", "--range", 1100, "--program", "hops.fc", "-o", "net.json")
        self.assertEqual(self.asked("stable", "hops.fc", "net.json").output, "0 0\n1 1\n2 2\n")


if __name__ == "__main__":
    unittest.main()
