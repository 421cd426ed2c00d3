"""Pictures: the network as it is at each show, whole pairs, scales, numbers, names of files, and the time they take."""

# mypy: no-strict-optional

from __future__ import annotations

import json
import random
import re
import subprocess
import unittest
from pathlib import Path

from helping import (
    EXAMPLES, HOPS, LINE, Done, browser, expected, fieldc, fixed_work, needs, needs_browser, sections_of, used,
)  # fmt: skip
from test_files import InFolder

from fieldc import Fault, layout, networks as network, read_scene
from fieldc.colours import (
    APART, GREY, OUTLINES, TRUE, WHITE, Meaning, colours_of, entries, rungs, scales_of, shade,
)  # fmt: skip
from fieldc.picture import at_places, check_marks, gathered, latest

FIELD = EXAMPLES / "sensor_field.txt"
CROWD = EXAMPLES / "crowd_run.txt"
SETTLE = EXAMPLES / "crowd_settle.txt"


class Gathered(unittest.TestCase):
    def test_a_run_is_on_the_network_as_it_is_then(self) -> None:
        program, scene, script = sections_of("crowd_run.txt")
        found = gathered(program, read_scene(scene), script, expected("crowd_run"))
        self.assertEqual([frame.title for frame in found.frames], ["402 rounds after the last edit"] * 2)
        found = check_marks(found, ["beacon"])
        self.assertEqual([found.marked(frame) for frame in found.frames], [{4, 17, 30}, {4, 30}])
        self.assertNotIn(9, found.frames[1].values)
        self.assertIn((4, 36, 7), found.frames[1].network.links)
        self.assertEqual(found.verdict, "yes 402")

    def test_a_replay_is_on_the_network_behind_its_log(self) -> None:
        program, scene, log = sections_of("sensor_field.txt")
        found = check_marks(gathered(program, read_scene(scene), log, expected("sensor_field")), ["gateway"])
        self.assertEqual(found.marked(found.frames[0]), {0, 39})

    def test_what_isnt_of_this_network_is_refused(self) -> None:
        program, scene, script = sections_of("crowd_run.txt")
        shows, net = expected("crowd_run"), read_scene(scene)
        wrong = {
            "give its script too": (None, shows),
            "don't belong to this script": ("run 1\nshow\n", shows),
            "have device 36, but the network hasn't": (None, "".join(f"{d} (0,0)\n" for d in range(37))),
            "the network has device 35": (None, "".join(f"{d} (0,0)\n" for d in range(35))),
            "no values of devices": (None, "no 0 converging\n"),
        }
        for said, (lines, answer) in wrong.items():
            with self.subTest(said), self.assertRaisesRegex(Fault, said):
                gathered(program, net, lines, answer)
        with self.assertRaisesRegex(Fault, "no device has this input"):
            check_marks(gathered(program, net, script, shows), ["gateway"])

    def test_settle_rounds(self) -> None:
        program, scene = sections_of("crowd_settle.txt")[:2]
        found = gathered(program, read_scene(scene), None, expected("crowd_settle"))
        self.assertEqual((found.last, found.said), ((16,), "the last, after 35 rounds: device 16"))
        self.assertEqual(latest({0: None, 1: 4}), ((0,), "no settle round: device 0"))
        self.assertEqual(latest({0: 0, 1: 0}), ((), ""))
        self.assertEqual(latest({0: 2, 1: 2}, {1: "mill"}), ((0, 1), "the last, after 2 rounds: devices 0, mill"))

    def test_walks(self) -> None:
        program, scene = sections_of("sensor_field_trace.txt")[:2]
        (frame,) = gathered(program, read_scene(scene), None, expected("sensor_field_trace")).frames
        self.assertEqual(frame.walks[7], (0, 1, 2, 3, 4, 5, 6, 15, 7))

    @needs("numpy")
    def test_positions_of_all_devices_of_all_shows(self) -> None:
        program, scene, script = sections_of("crowd_run.txt")
        found = gathered(program, read_scene(scene), script, expected("crowd_run"))
        places = {device: (device, 0) for device in range(36)}
        with self.assertRaisesRegex(Fault, "no position of device 36"):
            at_places(found, places)
        self.assertEqual(set(at_places(found, None).places), set(range(37)))


@needs("matplotlib")
class Colours(unittest.TestCase):
    def test_pairs_are_whole(self) -> None:
        values = [(3, 1), (3, 2), (4, 1)]
        scales = scales_of(values, Meaning())
        shades = [colours_of(value, scales, Meaning()) for value in values]
        self.assertEqual(len(set(shades)), 3)
        self.assertEqual([len(shade) for shade in shades], [2, 2, 2])
        nested = scales_of([((1, True), (2, 9))], Meaning())
        self.assertEqual([scale.label for scale in nested], [f"value, part {n}" for n in (1, 2, 3, 4)])
        self.assertEqual(colours_of(((1, True), (2, 9)), nested, Meaning())[1], TRUE)

    def test_one_scale_for_all_parts_of_pairs(self) -> None:
        values = [((0, True), (10, 3)), ((40, False), (12, 3)), None]
        marks = rungs(scales_of(values, Meaning()), values)
        wanted = ["((0,\u00b7),(10,3))", "((10,\u00b7),(\u00b7,\u00b7))", "((20,\u00b7),(11,\u00b7))"]
        self.assertEqual([text for _, text in marks[:3]], wanted)
        self.assertEqual(marks[4], (1.0, "((40,\u00b7),(12,\u00b7))"))
        self.assertEqual(rungs(scales_of([(True, False)], Meaning()), [(True, False)]), [])
        self.assertEqual(rungs(scales_of([(2, True)], Meaning()), [(2, True)]), [(0.0, "(2,\u00b7)")])
        for place, text in marks:
            first = int(text[2:].split(",")[0])
            self.assertEqual(scales_of(values, Meaning())[0].colour(first), shade(place))

    def test_the_ceiling_doesnt_take_the_scale(self) -> None:
        values = [*range(9), 1_000_000]
        for meaning in (Meaning(ceiling=1_000_000), Meaning()):
            (scale,) = scales_of(values, meaning)
            self.assertEqual((scale.low, scale.high, scale.apart), (0, 8, 1_000_000))
            shades = [scale.colour(value) for value in values]
            self.assertEqual((len(set(shades)), shades[-1]), (10, APART))
        self.assertEqual(entries((scale,), False, Meaning(ceiling=1_000_000)), [(APART, "1,000,000, the ceiling")])
        (plain,) = scales_of(range(9), Meaning(ceiling=30))
        self.assertEqual((plain.high, plain.apart), (8, None))
        (alone,) = scales_of([30, 30], Meaning(ceiling=30))
        self.assertEqual((alone.low, alone.colour(30)), (None, APART))

    def test_devices_without_a_value_and_at_rest(self) -> None:
        settling = Meaning("settle round", "no settle round", WHITE, "hold their value now")
        scales = scales_of([0, 4, None], settling)
        self.assertEqual([colours_of(v, scales, settling) for v in (0, None)], [(GREY,), (WHITE,)])
        self.assertEqual(colours_of(None, scales_of([1], Meaning()), Meaning()), (GREY,))


@needs("numpy")
class Layout(unittest.TestCase):
    def test_hops_are_about_as_long_as_they_are_many(self) -> None:
        for made in (network.grid(6, 5), network.ring(20), network.line(30)):
            places = layout.laid_out(made.devices, [link[:2] for link in made.links])
            near: dict[int, list[int]] = {device: [] for device in made.devices}
            for a, b, _ in made.links:
                near[a].append(b)
                near[b].append(a)
            for device in made.devices:
                for other, hops in layout.hops_from(device, near).items():
                    (x, y), (u, v) = places[device], places[other]
                    self.assertLess(((x - u) ** 2 + (y - v) ** 2) ** 0.5, 1.6 * hops + 0.1)
                    if hops:
                        self.assertGreater(((x - u) ** 2 + (y - v) ** 2) ** 0.5, 0.4 * hops)

    def test_parts_dont_overlap_and_nothing_is_at_one_place(self) -> None:
        links = [(0, 1), (1, 2), (2, 0), (3, 4), *((5, d) for d in range(6, 16))]
        places = layout.laid_out(range(18), links)
        self.assertEqual(len({(round(x, 2), round(y, 2)) for x, y in places.values()}), 18)
        boxes = [[places[d] for d in part] for part in ((0, 1, 2), (3, 4), range(5, 16), (16,), (17,))]
        for one in boxes:
            for other in boxes:
                if one is not other:
                    apart = [
                        max(p[axis] for p in one) < min(p[axis] for p in other)
                        or max(p[axis] for p in other) < min(p[axis] for p in one)
                        for axis in (0, 1)
                    ]
                    self.assertTrue(any(apart))

    def test_both_ways_to_count_hops_agree(self) -> None:
        dice = random.Random(2)
        made = network.in_range({d: (dice.random(), dice.random()) for d in range(80)}, 0.25)
        near: dict[int, list[int]] = {device: [] for device in made.devices}
        for a, b, _ in made.links:
            near[a].append(b)
            near[b].append(a)
        part = layout.parts(near)[0]
        self.assertGreater(sum(len(near[d]) for d in part), 3 * len(part))
        for row, device in zip(layout._all_hops(part, near).tolist(), part):
            self.assertEqual(row, [layout.hops_from(device, near)[other] for other in part])


@needs("matplotlib")
class Command(InFolder):
    def vivid(self, name: str) -> int:
        """How many colours that are no grey a picture has, looked at in every fifth place."""
        from matplotlib.image import imread

        pixels = (imread(self.folder / name)[::5, ::5, :3] * 255).round().astype(int).reshape(-1, 3).tolist()
        return len({tuple(pixel) for pixel in pixels if max(pixel) - min(pixel) > 60})

    def picture(self, *words: object, **variables: str) -> Done:
        return fieldc("picture", *words, folder=self.folder, seconds=None, **variables)

    def test_a_field_in_each_form(self) -> None:
        for name in ("field.png", "field.svg", "field.pdf", "field.html"):
            done = self.picture(FIELD, "--values", EXAMPLES / "sensor_field.expected", "--mark", "gateway", "-o", name)
            self.assertEqual((done.status, done.output, done.errors), (0, "", ""))
        self.assertGreater(self.vivid("field.png"), 5)
        self.assertIn("<svg", (self.folder / "field.svg").read_text())
        self.assertEqual((self.folder / "field.pdf").read_bytes()[:5], b"%PDF-")

    def test_a_picture_is_the_same_each_time(self) -> None:
        for name in ("one.svg", "two.svg"):
            self.picture(FIELD, "--values", EXAMPLES / "sensor_field.expected", "-o", name)
        self.assertEqual((self.folder / "one.svg").read_bytes(), (self.folder / "two.svg").read_bytes())

    def test_device_numbers_on_demand(self) -> None:
        words = [SETTLE, "--values", EXAMPLES / "crowd_settle.expected", "-o", "crowd.svg"]

        def texts() -> set[str]:
            return set(re.findall("<!-- (.*?) -->", (self.folder / "crowd.svg").read_text()))

        self.picture(*words)
        without = texts()
        self.picture(*words, "--numbers")
        rounds = {line.split()[1] for line in expected("crowd_settle").splitlines()[2:]}
        self.assertEqual(texts() - without, {str(d) for d in range(36)} - rounds - without)
        self.file("id,name\n16,mill\n", "names.csv")
        done = self.picture(*words, "--numbers", "--names", "names.csv")
        self.assertEqual(done.output, "the last, after 35 rounds: device mill\n")
        self.assertIn("mill", texts())

    def test_open_devices_are_named(self) -> None:
        text = expected("crowd_settle").replace("settles 35", "open").replace("\n16 35 (34,17)\n", "\n16 -\n")
        done = self.picture(SETTLE, "--values", self.file(text), "-o", "crowd.png")
        self.assertEqual(done.output, "no settle round: device 16\n")
        self.assertGreater(self.vivid("crowd.png"), 5)

    def test_a_page_of_a_run(self) -> None:
        self.picture(
            CROWD,
            "--values",
            EXAMPLES / "crowd_run.expected",
            "--mark",
            "beacon",
            "-o",
            "run.html",
            "--title",
            "</script>",
        )
        page = (self.folder / "run.html").read_text()
        self.assertEqual(page.count("</script>"), 1)
        looks = json.loads(re.search(r"const looks = (.*);", page)[1])
        shows = json.loads(re.search(r"const shows = (.*);", page)[1])
        devices = [int(word) for word in re.findall(r'data-id="(\d+)"', page)]
        ends = re.findall(r"<line[^>]*>", page)
        self.assertEqual([len(show["devices"]) for show in shows], [37, 37])
        for show, left in zip(shows, (36, 9)):
            self.assertEqual([devices[at] for at, look in enumerate(show["devices"]) if look < 0], [left])
        self.assertEqual([[devices[at] for at in show["marked"]] for show in shows], [[4, 17, 30], [4, 30]])
        gone = json.loads(re.search(r"const gone = (.*);", page)[1])
        self.assertEqual(len(gone[shows[0]["away"]]), 2)
        self.assertLess(max(gone[shows[1]["away"]]), len(ends))
        written = [looks[look][0] for look in shows[1]["devices"] if look >= 0]
        last = expected("crowd_run").split("@10\n")[-1] if "@10\n" in expected("crowd_run") else expected("crowd_run")
        self.assertEqual(written, [line.split(" ")[1] for line in last.splitlines()[-36:]])
        self.assertNotIn("@", "".join(show["title"] for show in shows))

    def test_several_marks_are_told_apart(self) -> None:
        words = ["b=true@0,1", "a=true@1,2", "c=true@2"]
        net = network.with_inputs(network.line(4), [(w[0], True, [int(d) for d in w[7:].split(",")]) for w in words])
        self.file(net.scene(), "net.json")
        marks = [word for name in "bac" for word in ("--mark", name)]
        self.assertEqual(self.picture("net.json", *marks, "-o", "net.html").status, 0)
        page = (self.folder / "net.html").read_text()
        (show,) = json.loads(re.search(r"const shows = (.*);", page)[1])
        self.assertEqual((show["marked"], show["marks"]), ([0, 1], [[1, 2], [2]]))
        drawn = {int(d): re.findall(r"mark mark(\d)", row) for d, row in re.findall(r'data-id="(\d)"(.*)', page)}
        self.assertEqual(drawn, {0: [], 1: ["1"], 2: ["1", "2"], 3: []})
        looks = [(name, look[1]) for name, look in zip("bac", OUTLINES)]
        self.assertEqual(len({colour for _, colour in looks}), 3)
        for name, colour in looks[1:]:
            self.assertRegex(page, f'style="color:{colour}">.</span> {name}')
        self.assertIn("thick border: b", page)
        self.assertEqual(self.picture("net.json", *marks, "-o", "net.svg").status, 0)
        svg = (self.folder / "net.svg").read_text()
        for _, colour in looks:
            self.assertIn(f"stroke: {colour}", svg)
        done = self.picture("net.json", *marks, *["--mark", "a"] * 3, "-o", "net.svg")
        self.assertEqual((done.status, done.output), (2, ""))
        self.assertIn("6 are too many; at most 5 can be told apart", done.errors)
        self.file(network.with_inputs(network.line(2), [("load", 3, None)]).scene(), "net.json")
        done = self.picture("net.json", "--mark", "load", "-o", "net.svg")
        self.assertEqual((done.status, done.output), (2, ""))
        self.assertIn("--mark load: this input is a number", done.errors)

    def test_the_scale_of_a_page_is_that_of_the_settled_values(self) -> None:
        self.file(HOPS.replace("10", "90"), "hops.fc")
        self.file(LINE, "line.json")
        self.file("scramble 1\nshow\nrun 200\nshow\n", "script.txt")
        self.file("yes 182\n@2\n0 80\n1 0\n2 55\n@4\n0 0\n1 1\n2 2\n", "shows.txt")
        words = ["hops.fc", "line.json", "script.txt", "--values", "shows.txt", "-o", "run.html"]
        self.assertEqual(self.picture(*words).status, 0)
        page = (self.folder / "run.html").read_text()
        looks = {look[0]: look[1] for look in json.loads(re.search(r"const looks = (.*);", page)[1])}
        self.assertEqual((looks["80"], looks["55"]), (looks["2"], looks["2"]))
        self.assertEqual(len({*map(tuple, (looks["0"], looks["1"], looks["2"]))}), 3)
        self.assertIn("beyond the settled values: the colour of the nearest one", page)
        self.file("scramble 1\nshow\nrun 100\nshow\n", "script.txt")
        self.assertEqual(self.picture(*words).status, 0)
        self.assertNotIn("beyond the settled values", (self.folder / "run.html").read_text())

    def test_numbers_that_are_names_are_coloured_as_kinds(self) -> None:
        self.file(network.line(4).scene(), "net.json")
        self.file("0 (0,0)\n1 (1,3)\n2 (1,0)\n3 (0,7)\n", "values.txt")
        self.file("id,name\n0,gate\n3,mill\n", "names.csv")
        words = ["net.json", "--values", "values.txt", "--names", "names.csv"]
        self.file("ceiling 9; main = (1, 2);", "two.fc")
        self.assertEqual(self.picture("two.fc", *words, "--kinds", "2", "-o", "net.html").status, 0)
        page = (self.folder / "net.html").read_text()
        looks = {look[0]: look[1] for look in json.loads(re.search(r"const looks = (.*);", page)[1])}
        self.assertEqual(set(looks), {"(0,gate)", "(1,mill)", "(1,gate)", "(0,7)"})
        self.assertEqual(looks["(0,gate)"][1], looks["(1,gate)"][1])
        self.assertEqual(len({looks[name][1] for name in ("(0,gate)", "(1,mill)", "(0,7)")}), 3)
        self.assertEqual(looks["(0,7)"][1], WHITE)
        self.assertEqual((looks["(1,mill)"][0], looks["(0,gate)"][0]), (looks["(1,gate)"][0], looks["(0,7)"][0]))
        for colour, name in ((looks["(0,gate)"][1], "gate"), (looks["(1,mill)"][1], "mill"), (WHITE, "no device")):
            self.assertIn(f'style="background:{colour}"></span>{name}', page)
        for kinds, says in (("3", "a value has 2"), ("x", "a value has 2"), ("2,", "a value has 2")):
            done = self.picture("two.fc", *words, "--kinds", kinds, "-o", "net.html")
            self.assertEqual(done.status, 2)
            self.assertIn(says, done.errors)
        self.assertEqual(self.picture("net.json", "--kinds", "all", "-o", "net.png").status, 2)

    def test_arrows_lead_to_the_neighbour_that_is_held(self) -> None:
        self.file(network.line(4).scene(), "net.json")
        self.file("0 0\n1 0\n2 1\n3 1\n", "values.txt")
        words = ["net.json", "--values", "values.txt", "--arrows"]
        self.file("ceiling 9; main = 1;", "one.fc")
        self.assertEqual(self.picture("one.fc", *words, "-o", "net.html").status, 0)
        page = (self.folder / "net.html").read_text()
        (show,) = json.loads(re.search(r"const shows = (.*);", page)[1])
        self.assertEqual(show["next"], [-1, 0, 1, -1])
        self.assertEqual(page.count('<path class="arrow"'), 4)
        self.assertEqual(self.picture("one.fc", *words, "-o", "net.svg").status, 0)
        plain = [word for word in words if word != "--arrows"]
        self.assertEqual(self.picture("one.fc", *plain, "-o", "plain.svg").status, 0)
        count = [(self.folder / name).read_text().count("stroke: #222222") for name in ("net.svg", "plain.svg")]
        self.assertEqual((count[0] > 0, count[0] % 2, count[1]), (True, 0, 0))
        self.file("0 9\n1 9\n2 9\n3 9\n", "values.txt")
        done = self.picture("one.fc", *words, "-o", "net.html")
        self.assertEqual((done.status, done.output), (2, ""))
        self.assertIn("no device holds the number of a neighbour", done.errors)

    @needs_browser
    def test_a_browser_plays_and_slides(self) -> None:
        self.picture(CROWD, "--values", EXAMPLES / "crowd_run.expected", "--mark", "beacon", "-o", "run.html")
        which, drawn = self.seen("")
        self.assertEqual(which, "1 of 2: 402 rounds after the last edit")
        self.assertEqual(drawn[17], ("marked mixed", "(0,17)"))
        self.assertEqual(drawn[36][0], "away")
        which, drawn = self.seen('slider.value = 1; slider.dispatchEvent(new Event("input"));')
        self.assertEqual(which, "2 of 2: 402 rounds after the last edit")
        self.assertEqual(drawn[17], ("mixed", "(15,30)"))
        self.assertEqual((drawn[9][0], drawn[36]), ("away", ("", "(7,4)")))
        self.assertEqual(self.seen("play.click();", wait=3000)[0][:6], "2 of 2")

    @needs_browser
    def test_a_browser_shows_numbers_when_asked(self) -> None:
        self.picture(CROWD, "--values", EXAMPLES / "crowd_run.expected", "-o", "run.html")
        ask = "which.value = getComputedStyle(document.querySelector('text.number')).visibility;"
        ask = "const which = document.getElementById('which');" + ask
        self.assertEqual(self.seen(ask)[0], "hidden")
        self.assertEqual(self.seen("numbers.click();" + ask)[0], "visible")

    def seen(self, script: str, wait: int = 500) -> tuple[str, dict[int, tuple[str, str]]]:
        """What a browser shows after a script and some milliseconds: the show, and by device its classes and its
        text."""
        page = (self.folder / "run.html").read_text().replace("</html>", f"<script>{script}</script></html>")
        self.file(page, "seen.html")
        flags = ["--headless", "--no-sandbox", "--disable-gpu", f"--virtual-time-budget={wait}", "--dump-dom"]
        done = subprocess.run(
            [browser(), *flags, f"file://{self.folder}/seen.html"], capture_output=True, text=True, check=True
        )
        devices = re.findall(r'class="device ?([^"]*)" data-id="(\d+)".*?class="value"[^>]*>([^<]*)<', done.stdout)
        which = re.search(r'<output id="which">([^<]*)<', done.stdout)
        return which[1] if which else "", {int(device): (classes, text) for classes, device, text in devices}

    def test_names_are_refused_before_anything_is_computed(self) -> None:
        touched = self.folder / "touched"
        program = Path(self.file(f"#!/bin/sh\ntouch {touched}\necho '0 1'\n", "fc"))
        program.chmod(0o755)
        (self.folder / "there.png").mkdir()
        wrong = {
            ("picture", "-o", "x.gif", "--of", "stable"): (2, ".svg or .png"),
            ("picture", "-o", "x", "--of", "stable"): (2, ".svg or .png"),
            ("picture", "-o", "x.png", "--page", "--of", "stable"): (2, "end in .html"),
            ("picture", "-o", "nowhere/x.png", "--of", "stable"): (6, "no folder"),
            ("picture", "-o", "there.png", "--of", "stable"): (6, "is a folder"),
            ("rounds", "-o", "x.jpg"): (2, ".svg or .png"),
            ("rounds", "-o", "x.html"): (2, ".svg or .png"),
        }
        for words, (status, said) in wrong.items():
            with self.subTest(words):
                done = fieldc(
                    words[0], EXAMPLES / "sensor_field_stable.txt", *words[1:], folder=self.folder, FC=str(program)
                )
                self.assertEqual((done.status, done.output), (status, ""), done.errors)
                self.assertIn(said, done.errors)
        self.assertFalse(touched.exists())

    def test_wrong_shows(self) -> None:
        words = [CROWD, "--values", EXAMPLES / "crowd_run.expected", "-o", "x.png"]
        self.assertIn("there are 2 shows", self.picture(*words, "--show", 3).errors)
        self.assertIn("there are 2 shows", self.picture(*words, "--show", 0).errors)
        self.assertEqual(self.picture(*words, "--show", 1).status, 0)

    def test_a_network_alone(self) -> None:
        self.file(network.grid(3, 3).scene(), "net.json")
        self.assertEqual(self.picture("net.json", "-o", "net.png").status, 0)
        self.assertIn("give the program", self.picture("net.json", "--of", "stable", "-o", "net.png").errors)

    def test_time_for_a_thousand_devices(self) -> None:
        dice = random.Random(6)
        places = {d: (dice.uniform(0, 100), dice.uniform(0, 100)) for d in range(1024)}
        crowd = network.nearest(network.in_range(places, 5.5), 32)
        self.file(crowd.scene(), "net.json")
        self.file("id,x,y\n" + "".join(f"{d},{x},{y}\n" for d, (x, y) in places.items()), "at.csv")
        self.file("".join(f"{d} ({d % 37},{d % 11})\n" for d in range(1024)), "values.txt")
        words = ["net.json", "--values", "values.txt", "--numbers"]
        asked: tuple[tuple[list[str], int], ...] = ((["--positions", "at.csv"], 6), ([], 24))
        for more, most in asked:
            for name in ("crowd.png", "crowd.html"):
                unit = fixed_work()
                done: list[Done] = []
                took = used(lambda: done.append(self.picture(*words, *more, "-o", name)))
                self.assertEqual(done[0].status, 0)
                self.assertLess(took / unit, most, f"{name} {more}: {took:.1f} s, and {unit:.1f} s for the fixed work")


if __name__ == "__main__":
    unittest.main()
