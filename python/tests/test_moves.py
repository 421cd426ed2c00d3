"""Networks that move: files of moves, the networks of each time, the script between them, the page that moves, and how
far behind the values are. Expected values are distances and hop counts, or were written down by hand."""

# mypy: no-strict-optional

from __future__ import annotations

import json
import math
import random
import re
import subprocess
import unittest
from collections import deque

from helping import EXAMPLES, HOPS, LINE, browser, fieldc, needs, needs_browser, needs_fc
from test_files import InFolder

from fieldc import Fault, behind, library, moves, networks as network, read_scene
from fieldc.edits import MOST_LINES, moments

MOVES = EXAMPLES / "moves.csv"
HEAD = "t,id,x,y,src\n"


def geojson(*features: str) -> str:
    return '{"type": "FeatureCollection",\n "features": [\n' + ",\n".join(features) + "]}\n"


def feature(lon: object, lat: object, **properties: object) -> str:
    point = {"type": "Point", "coordinates": [lon, lat]}
    return json.dumps({"type": "Feature", "geometry": point, "properties": properties})


class Files(InFolder):
    def read(self, text: str, program: str | None = None, inputs: list[str] | None = None) -> moves.Moves:
        return moves.read(self.file(text, "moves.csv"), program, inputs)

    def test_rows_in_any_order(self) -> None:
        for text in ("0,a,1,2\n3,a,5,6\n0,b,7,8\n", "b 0 8 7\na 3 6 5\na 0 2 1\n"):
            head = "" if text[0] == "0" else "id time y x\n"
            found = self.read(head + text)
            by_name = {found.names[device]: sights for device, sights in found.seen.items()}
            places = {name: [(one.time, one.place) for one in sights] for name, sights in by_name.items()}
            self.assertEqual(places, {"a": [(0, (1, 2)), (3, (5, 6))], "b": [(0, (7, 8))]})

    def test_dates_are_seconds_since_the_earliest(self) -> None:
        rows = ("2026-05-01T12:00:30Z,a,0,0", "2026-05-01T14:00:00+02:00,a,1,0", "2026-05-01 12:01:00,b,0,0")
        found = self.read("timestamp,id,x,y\n" + "\n".join(rows) + "\n")
        times = {name: [one.time for one in found.seen[device]] for device, name in found.names.items()}
        self.assertEqual(times, {"a": [0, 30], "b": [60]})

    def test_points_of_geojson(self) -> None:
        north = 0.001 * math.pi / 180 * 6_371_008.8
        rows = [feature(8, 50, t=0, id="a", src=True), feature(8, 50.001, t=5, id="a", src=False)]
        found = self.read(geojson(*rows), "input src: bool; main = 1;")
        one, other = found.seen[0]
        self.assertAlmostEqual(math.dist(one.place, other.place), north, 3)
        self.assertEqual([dict(one.inputs), dict(other.inputs)], [{"src": True}, {"src": False}])
        self.assertEqual((one.time, other.time, found.names), (0, 5, {0: "a"}))

    def test_wrong_files(self) -> None:
        rows = [feature(8, 50, t=0, id=1), feature(8, 51, t=1, id=1)]
        wrong = {
            "line 2: t is 'noon'; it has to be a number, or a date and time": HEAD + "noon,0,0,0,true\n",
            "line 3: t is a date, and on line 2 it is a number": HEAD + "0,0,0,0,true\n2026-05-01T12:00,0,0,0,true\n",
            "line 3: device 0 is seen at this time on line 2 already": HEAD + "1,0,0,0,true\n1.0,0,3,4,true\n",
            "line 3: t is 1e308; it has to be from": HEAD + "0,0,0,0,true\n1e308,1,0,0,true\n",
            "line 2: x is 1e400; it has to be from": HEAD + "0,0,1e400,0,true\n",
            "line 2: src is 'so', and an input is true, false or .* name the inputs with --inputs or --program":
                HEAD + "0,0,0,0,so\n",
            "line 2: x is 'east'": HEAD + "0,0,east,0,true\n",
            "line 2: the device has no name": HEAD + "0,,0,0,true\n",
            "line 3: 4 fields, and line 1 has 5": HEAD + "0,0,0,0,true\n1,0,0,0\n",
            "line 1: no column is called t, nor time": "id,x,y\n0,0,0\n",
            "line 1: no column is called id, nor device": "t,x,y\n0,0,0\n",
            "line 1: neither a row t, id, x, y, nor names of columns": "0,0,0\n",
            "line 1: 5 fields, but no names of columns come first": "0,0,0,0,0\n",
            "line 2: lat is 99": "t,id,lat,lon\n0,0,99,0\n",
            "has no rows": "\n",
            "isn't GeoJSON: ": geojson(*rows)[:-9],
            'has to be of "type": "FeatureCollection"': "{}",
            "has no features": geojson(),
            "line 4: this feature is a LineString; it has to be a Point": geojson(
                rows[0], rows[1].replace("Point", "LineString")
            ),
            "line 3: this feature is nowhere": geojson('{"type": "Feature", "geometry": null}'),
            r"line 3: the coordinates of this feature aren't \[longitude, latitude\]": geojson(
                rows[0].replace("[8, 50]", "8")
            ),
            "line 3: lat is 91": geojson(rows[0].replace("[8, 50]", "[8, 91]")),
            "line 4: this feature has no t": geojson(rows[0], feature(8, 51, id=1)),
        }
        for said, text in wrong.items():
            with self.subTest(said), self.assertRaisesRegex(Fault, said) as caught:
                self.read(text)
            self.assertEqual(caught.exception.status, 3)

    def test_points_of_geojson_without_times(self) -> None:
        name = self.file(geojson(feature(8, 50, id="a", src=True), feature(8, 50.001, id="b", src=False)), "p.geojson")
        done = fieldc("network", "--points", name, "--range", 112)
        self.assertEqual((done.status, len(read_scene(done.output).links)), (0, 1), done.errors)


class Times(unittest.TestCase):
    def test_steps_up_to_the_last_time(self) -> None:
        def sights(*times: float) -> moves.Moves:
            return moves.Moves({0: tuple(moves.Sight(time, (0, 0), {}) for time in times)})

        self.assertEqual(moves.times_of(sights(1, 4), 1.5), [1, 2.5, 4])
        self.assertEqual(moves.times_of(sights(1, 4), 2), [1, 3])
        self.assertEqual(len(moves.times_of(sights(0, 0.3), 0.1)), 4)
        self.assertEqual(moves.times_of(sights(7), 5), [7])
        with self.assertRaisesRegex(Fault, "has to be above 0"):
            moves.times_of(sights(1, 4), 0)
        with self.assertRaisesRegex(Fault, "30,000,000,001 steps from t = 1 to 4 .* --every 0.00146556") as caught:
            moves.times_of(sights(1, 4), 1e-10)
        self.assertEqual(caught.exception.status, 4)
        self.assertLessEqual(2 * len(moves.times_of(sights(1, 4), 0.00146556)), MOST_LINES)

    def test_places_between_two_sights(self) -> None:
        own = (moves.Sight(0, (0, 0), {"w": 1}), moves.Sight(10, (20, 40), {"w": 2}))
        found = moves.Moves({3: own, 5: (moves.Sight(4, (1, 1), {}),)})
        self.assertEqual(moves.there(found, 0), {3: ((0, 0), {"w": 1})})
        self.assertEqual(moves.there(found, 5), {3: ((10, 20), {"w": 1}), 5: ((1, 1), {})})
        self.assertEqual(moves.there(found, 10)[3], ((20, 40), {"w": 2}))
        self.assertEqual(moves.there(found, 99)[3], ((20, 40), {"w": 2}))
        self.assertEqual(moves.there(found, 5, 4), {5: ((1, 1), {})})
        self.assertEqual(moves.there(found, 3, 4), {3: ((0, 0), {"w": 1})})
        self.assertEqual(set(moves.there(found, 13, 4)), {3})


def wandering(seed: int) -> moves.Moves:
    """Devices that go about, come late and leave early, with an input that changes."""
    dice, seen = random.Random(seed), {}
    for device in range(12):
        times = sorted(dice.sample(range(20), dice.randrange(1, 6)))
        inputs = [{"src": dice.random() < 0.3, "w": dice.randrange(3)} for _ in times]
        places = [(dice.uniform(0, 30), dice.uniform(0, 30)) for _ in times]
        seen[device] = tuple(map(moves.Sight, times, places, inputs))
    return moves.Moves(seen)


PROGRAM = HOPS.replace("input src: bool;", "metric 0..9; input w: int 0..2; input src: bool;")


class Scripts(unittest.TestCase):
    def steps(self, seed: int, gone_after: float) -> list[moves.Step]:
        def linked(places: dict[int, network.Position], inputs: dict[int, dict[str, network.Input]]) -> network.Network:
            made = network.Network(inputs, network.in_range(places, 14).links, places)
            return network.nearest(network.weighed(made, 1, 9, 2.0), 4)

        found = wandering(seed)
        return moves.steps(found, moves.times_of(found, 1.5), gone_after, linked)  # type: ignore[arg-type]

    def test_each_network_becomes_the_next(self) -> None:
        lines, kinds = 0, set()
        for seed in range(12):
            for gone_after in (math.inf, 6.0):
                try:
                    steps = self.steps(seed, gone_after)
                except Fault as fault:
                    self.assertRegex(str(fault), r"^at t = [0-9.]+ there is no device")
                    continue
                text = moves.script(steps, 2, ["w", "src"])
                kinds |= {line.split()[0] for line in text.splitlines()}
                lines += text.count("\n")
                shown = moments(steps[0].network, text, ("w", "src"))
                for one, step in zip(shown, steps, strict=True):
                    self.assertEqual(one.network.inputs, step.network.inputs)
                    self.assertEqual(set(one.network.links), set(step.network.links))
        self.assertEqual(kinds, {"run", "show", "link", "unlink", "set", "join", "leave"})
        self.assertGreater(lines, 1000)

    @needs_fc
    def test_fc_takes_each_script_and_settles_at_the_hop_counts(self) -> None:
        for seed in range(4):
            steps = self.steps(seed, math.inf)
            ran = library.run(PROGRAM, steps[0].network, moves.script(steps, 60, ["w", "src"]))
            for show, step in zip(ran.shows, steps, strict=True):
                sources = {device for device, own in step.network.inputs.items() if own["src"]}
                self.assertEqual(show.values, hops(step.network, sources), (seed, step.time))

    def test_everyone_is_another_one(self) -> None:
        one, other = (network.Network({device: {}}, ()) for device in (0, 1))
        self.assertEqual(list(moves.edits(one, other, [], 1.0)), ["join 1", "leave 0"])

    def test_inputs_that_have_no_order(self) -> None:
        one, other = (network.Network({device: {"a": 1, "b": 2} for device in range(count)}, ()) for count in (1, 2))
        with self.assertRaisesRegex(Fault, "device 1 joins at t = 3, .*: --program FILE"):
            list(moves.edits(one, other, None, 3.0))
        self.assertEqual(list(moves.edits(one, other, ["b", "a"], 3.0)), ["join 1 2 1"])


def hops(made: network.Network, sources: set[int]) -> dict[int, int]:
    """By device how many links it is from the nearest source, and 10 where none is nearer."""
    near: dict[int, list[int]] = {device: [] for device in made.devices}
    for a, b, _ in made.links:
        near[a].append(b)
        near[b].append(a)
    found, left = dict.fromkeys(sources, 0), deque(sources)
    while left:
        device = left.popleft()
        for other in near[device]:
            if other not in found:
                found[other] = min(found[device] + 1, 10)
                left.append(other)
    return {device: found.get(device, 10) for device in made.devices}


class Command(InFolder):
    def moved(self, *words: object, file: object = MOVES) -> tuple[int, str, str]:
        done = fieldc("network", "--moves", file, "--range", 25, "--every", 5, *words, folder=self.folder)
        return done.status, done.output, done.errors

    def test_two_sections(self) -> None:
        moved = self.moved("--set", "src=true@gate,ben", "--program", EXAMPLES / "hop_count.fc", "-o", "moves.txt")
        self.assertEqual(moved[:2], (0, ""))
        self.assertIn("last seen: gate, post1, post2, post3 (--gone-after S lets them leave)", moved[2])
        scene, script = (self.folder / "moves.txt").read_text().split("%%\n")
        self.assertEqual(len(read_scene(scene).devices), 5)
        self.assertIn("join 5 true\n", script)
        self.assertEqual(script.count("run 1\nshow\n"), 9)
        self.assertIn("5,ben\n", (self.folder / "moves.names.csv").read_text())
        done = fieldc("network", "--scene", "moves.txt", "--set", "src=false@anna", folder=self.folder)
        self.assertEqual(done.status, 0, done.errors)

    def test_refusals(self) -> None:
        crowd = "".join(f"0,{d},0,0\n1,{d},{d * 9},0\n" for d in range(40))
        late = self.file("0,a,0,0\n1,a,0,0\n20,b,0,0\n", "late.csv")
        rows: dict[str, tuple[int, tuple[object, ...]]] = {
            "--moves needs --range, and --every": (2, ("network", "--moves", MOVES, "--range", 3)),
            "--every needs --moves": (2, ("network", "--line", 3, "--every", 5)),
            "--run needs --moves": (2, ("network", "--line", 3, "--run", 5)),
            "there is no device roof; the devices are called gate": (
                2, ("network", "--moves", MOVES, "--range", 3, "--every", 5, "--set", "src=true@roof"),
            ),
            "at t = 0: device 0 has 39 links, but fc takes 32: --max-degree 32": (
                4, ("network", "--moves", self.file(crowd, "crowd.csv"), "--range", 3, "--every", 1),
            ),
            "at t = 15 there is no device": (
                3, ("network", "--moves", late, "--range", 3, "--every", 5, "--gone-after", 9),
            ),
            "at t = 0: device gate has no src, which the program declares": (
                3, ("network", "--moves", MOVES, "--range", 3, "--every", 5, "--program", EXAMPLES / "hop_count.fc"),
            ),
            "steps from t = 0 to 40 are at least": (4, ("network", "--moves", MOVES, "--range", 3, "--every", 1e-9)),
            "--every 0: it has to be above 0": (2, ("network", "--moves", MOVES, "--range", 3, "--every", 0)),
        }  # fmt: skip
        for said, (status, words) in rows.items():
            done = fieldc(*words, seconds=60)
            self.assertEqual((done.status, done.output, done.errors.count("\n")), (status, "", 1), done.errors)
            self.assertIn(said, done.errors)

    def test_links_that_are_left_out_are_said_once(self) -> None:
        done = self.moved("--max-degree", 2, "--positions", "at.csv")
        self.assertEqual(done[0], 0)
        self.assertRegex(done[2], r"--max-degree 2: [0-9] of [0-9] links are left out.*, and so in [0-9] of 9 steps\n")
        rows = (self.folder / "at.csv").read_text().splitlines()
        self.assertEqual((rows[0], rows[1], len(rows)), ("t,id,x,y", "0,0,0,0", 1 + 2 * 5 + 7 * 6))


@needs_fc
@needs("matplotlib")
class Pages(InFolder):
    def setUp(self) -> None:
        super().setUp()
        self.program = self.file(HOPS, "hops.fc")
        self.file("0,0,0,0\n2,0,0,0\n0,1,1,0\n2,1,5,4\n1,2,4,0\n", "moves.csv")
        words = ("--range", 3, "--every", 1, "--set", "src=true@0", "--positions", "at.csv", "-o", "moves.txt")
        done = fieldc("network", "--moves", "moves.csv", *words, folder=self.folder)
        self.assertEqual((done.status, done.output), (0, ""), done.errors)

    def picture(self, *words: object) -> tuple[int, str]:
        files = ("hops.fc", "moves.txt", "--of", "run", "--positions", "at.csv")
        done = fieldc("picture", *files, *words, folder=self.folder)
        return done.status, done.errors

    def test_each_show_has_its_places(self) -> None:
        self.assertEqual(self.picture("-o", "page.html"), (0, ""))
        page = (self.folder / "page.html").read_text()
        shows = json.loads(re.search(r"const shows = (.*);", page)[1])
        self.assertEqual([show["title"].split(":")[0] for show in shows], ["t = 0", "t = 1", "t = 2"])
        (scale,) = {(one["at"][1][0] - one["at"][0][0]) / x for one, x in zip(shows, (1, 3, 5))}
        self.assertEqual(scale, 180)
        self.assertEqual([show["at"][2] for show in shows], [None, shows[1]["at"][2], shows[1]["at"][2]])
        self.assertEqual(shows[2]["at"][0][1] - shows[2]["at"][1][1], 4 * scale)
        self.assertEqual(json.loads(re.search(r"const ends = (.*);", page)[1]), [[0, 1], [1, 2]])

    @needs_browser
    def test_a_browser_moves_devices_and_links(self) -> None:
        self.picture("-o", "page.html")
        page = (self.folder / "page.html").read_text()
        slide = 'slider.value = 1; slider.dispatchEvent(new Event("input"));'
        self.file(page.replace("</html>", f"<script>{slide}</script></html>"), "seen.html")
        flags = ["--headless", "--no-sandbox", "--disable-gpu", "--virtual-time-budget=500", "--dump-dom"]
        words = [browser(), *flags, f"file://{self.folder}/seen.html"]
        seen = subprocess.run(words, capture_output=True, text=True, check=True).stdout
        at = re.findall(r'data-id="\d" transform="translate\(([-.\d]+), ?([-.\d]+)\)"', seen)
        self.assertEqual([tuple(map(float, place)) for place in at], [(40, 760), (580, 400), (760, 760)])
        links = re.findall(r'<line x1="([\d.]+)" y1="([\d.]+)" x2="([\d.]+)" y2="([\d.]+)" class="(\w*)"', seen)
        self.assertEqual(links[1], ("580", "400", "760", "760", ""))
        self.assertEqual(links[0][4], "away")

    def test_one_show_as_a_picture(self) -> None:
        self.assertEqual(self.picture("--show", 2, "-o", "one.png"), (0, ""))

    def test_positions_that_arent_of_the_shows(self) -> None:
        text = (self.folder / "at.csv").read_text()
        self.file(text + "3,0,0,0\n", "at.csv")
        status, said = self.picture("-o", "page.html")
        self.assertEqual(status, 3)
        self.assertIn("there are positions of 4 times, and 3 shows to draw at them", said)
        self.file(text.replace("1,2,", "1,7,"), "at.csv")
        self.assertIn("there is no position of device 2 at t = 1", self.picture("-o", "page.html")[1])


CUT = "run 4\nunlink 0 1\nrun 2\nshow\nrun 1\nlink 0 1 1\nset 2 src true\nrun 9\nunlink 1 2\n"


@needs_fc
class Behind(InFolder):
    def stretches(self, script: str, program: str = HOPS, scene: str = LINE) -> list[behind.Stretch]:
        made, parts = behind.judged(*library.call_of([], program=program, network=scene, script=script).sections)
        return behind.stretches(program, made, parts, workers=1)

    def test_parts_of_a_script(self) -> None:
        found = behind.parts_of(CUT)
        rows = [(one.line, len(one.edits), one.rounds) for one in found]
        self.assertEqual(rows, [(1, 0, 4), (2, 1, 3), (6, 2, 9), (9, 1, 0)])
        self.assertEqual([one.line for one in behind.parts_of("set 0 src false\n\nset 1 src true\nrun 3\n")], [1])
        with self.assertRaisesRegex(Fault, "line 2 of the script: mix .*: write `set 0 src true` and `run 3` on lines"):
            behind.parts_of("run 1\nmix 3 set 0 src true\n")

    def test_settle_times_from_the_table_of_then(self) -> None:
        """On three devices in a line: from nothing they settle after 5 rounds; cut off, two count up from 1 and 2 by 1
        a round each, to 10; with a second source at the end the middle one is right at once."""
        first, cut, healed, last = self.stretches(CUT)
        self.assertEqual((first.before, first.time, first.rounds, first.late, first.devices), (0, 5, 4, 0, 3))
        self.assertEqual((cut.line, cut.before, cut.rounds, cut.in_time), (2, 4, 3, False))
        self.assertGreaterEqual(cut.time, 8)
        self.assertEqual(cut.late, 2)
        self.assertEqual((healed.line, healed.before, healed.rounds, healed.late, healed.in_time), (6, 7, 9, 0, True))
        self.assertEqual((last.time, last.rounds, last.in_time), (0, 0, True))

    def test_open_parts(self) -> None:
        toggling = "ceiling 10; input src: bool; main = rep(0){(x) => 1 - x};"
        found = self.stretches("run 3\nset 0 src false\nrun 5\n", toggling)
        self.assertEqual([(one.time, one.late) for one in found], [(None, 0), (None, 0)])

    def test_scripts_and_scenes_that_dont_go(self) -> None:
        with self.assertRaisesRegex(Fault, "runs no round"):
            self.stretches("show\nset 0 src true\n")
        program, scene = self.file(HOPS, "hops.fc"), self.file(LINE, "line.json")
        script = self.file("run 900000\nset 7 src true\nrun 2\n", "script.txt")
        done = fieldc("rounds", program, scene, script, "-o", "x.png", folder=self.folder)
        self.assertEqual((done.status, done.output), (3, ""))
        self.assertIn("script.txt:2:5: There is no device 7 in the network at this line.", done.errors)
        script = self.file("run 2\nset 0 src false\nrun 2\n", "script.txt")
        for option in ("--number", "--rounds"):
            done = fieldc("rounds", program, scene, script, option, 3, "-o", "x.png", folder=self.folder)
            self.assertEqual((done.status, done.output), (2, ""))
            self.assertIn(f"{option} doesn't go with a script", done.errors)

    @needs("matplotlib")
    def test_the_command(self) -> None:
        program, scene, script = self.file(HOPS, "hops.fc"), self.file(LINE, "line.json"), self.file(CUT, "script.txt")
        done = fieldc("rounds", program, scene, script, "--workers", 1, "-o", "x.svg", folder=self.folder)
        self.assertEqual(done.status, 0, done.errors)
        rows = [line.split() for line in done.output.splitlines()]
        wanted = [["1", "0", "4"], ["2", "4", "3"], ["6", "7", "9"], ["9", "16", "0"]]
        self.assertEqual([[row[0], row[1], row[3]] for row in rows], wanted)
        drawn = (self.folder / "x.svg").read_text()
        for said in ("rounds until the next edit", "settles before the next edit", "the next edit may come before"):
            self.assertIn(f"<!-- {said}", drawn)


if __name__ == "__main__":
    unittest.main()
