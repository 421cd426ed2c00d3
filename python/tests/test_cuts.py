"""Values that the ceiling cuts: what is said of them, which ceiling is enough, and where nothing is said."""

from __future__ import annotations

import json
import unittest

from helping import HOPS, LINE, fieldc, needs_fc
from test_files import InFolder

from fieldc import cuts, library, networks as network, results
from fieldc.refusals import Section

SUM = "ceiling {}; input load: int 0..20; main = sumHood(nbr{{sense load}});\n"
MEAN = """language 2;
ceiling {};
input beacon: bool;
input value: int 0..20;
main = regionMean(sense beacon, 9, sense value);
"""
COUNTER = "ceiling 10;\nmain = rep(0){(x) => x + 1};\n"
STAR = json.dumps(
    {
        "devices": [{"id": device, "inputs": {"load": 20 if device else 1}} for device in range(4)],
        "links": [[0, device, 1] for device in range(1, 4)],
    }
)


class Texts(unittest.TestCase):
    def test_the_ceiling_alone_is_another_one(self) -> None:
        text = "// ceiling 3;\nlanguage 2; ceiling  7 ; main = min(7, ceilings(7));"
        self.assertEqual(cuts.with_ceiling(text, 90), text.replace("ceiling  7", "ceiling  90"))
        self.assertEqual(cuts.with_ceiling("main = 3;", 90), "main = 3;")

    def test_devices_that_have_one_pair_of_values_are_named_together(self) -> None:
        changed = {device: (10, 24) for device in range(12)} | {12: (10, 25), 13: (1, 2), 14: (True, False), 15: (3, 4)}
        said = cuts.others(cuts.Cut(10, changed, 20, 24, True), {3: "mill"})
        self.assertEqual(
            said,
            "16 of 20 devices have other values: 24 and not 10 at devices 0, 1, 2, mill, 4, 5, 6, 7 and 4 more, "
            "25 and not 10 at device 12, 2 and not 1 at device 13 and 2 more",
        )


class Known(cuts.Question):
    """A question of which the answers are those of a function, in place of those of fc."""

    def values(self, ceiling: int) -> results.Values:
        self.known[ceiling] = {0: min(ceiling, 2_881), 1: 5}
        return self.known[ceiling]


class Search(unittest.TestCase):
    def question(self, ceiling: int, *words: str) -> Known:
        program = Section("program", "p", 1, f"ceiling {ceiling}; main = 1;")
        return Known(program, Section("network", "n", 1, ""), words)

    def test_the_least_that_is_enough_is_found_with_few_questions(self) -> None:
        for words in (("stable",), ("check", "--settle")):
            asked = self.question(1000, *words)
            wanted = cuts.Cut(1000, {0: (1000, 2_881 if len(words) == 1 else 2000)}, 2, 2_881, True)
            self.assertEqual(cuts.cut_of(asked), wanted)
            self.assertLess(len(asked.known), 20)
            self.assertEqual(max(asked.known), 1_000_000 if len(words) == 1 else 8_000)
            self.assertIsNone(cuts.cut_of(self.question(2_881, *words)))

    def test_at_the_greatest_ceiling(self) -> None:
        self.assertIsNone(cuts.cut_of(self.question(1_000_000)))


@needs_fc
class Commands(InFolder):
    def test_logs_pictures_and_the_library(self) -> None:
        files = self.file(SUM.format(20), "sum.fc"), self.file(STAR, "star.json")
        log = self.file("B1\nE1\nB2\nE2\nB3\nE3\nB0\nE0\n", "log.txt")
        sent = self.file("B1\nE1\nB2\nE2\ndeliver 1 0\ndeliver 2 0\nB0\nE0\n", "mail.txt")
        for words, where in (
            (("replay", *files, log), "by this log"),
            (("mail", *files, sent), "by this log"),
            (("mail", *files, "--number", 3), "here"),
            (("picture", *files, "--of", "stable", "-o", self.folder / "x.png"), "here"),
            (("rounds", *files, "-o", self.folder / "x.png"), "here"),
        ):
            done = fieldc(*words)
            self.assertEqual(done.status, 0, done.errors)
            self.assertIn(f"sum.fc:1:9: The ceiling 20 cuts what is computed {where}: with a greater one", done.errors)
            self.assertNotIn("warning", fieldc(*words, "--no-cut-check").errors)
        found = library.cut(SUM.format(20), STAR)
        self.assertEqual(found, cuts.Cut(20, {0: (20, 60)}, 4, 60, True))
        self.assertIsNone(library.cut(SUM.format(60), STAR))

    def test_a_sum_that_is_cut(self) -> None:
        scene = self.file(STAR, "star.json")
        for ceiling, enough in ((20, 60), (59, 60)):
            done = fieldc("stable", self.file(SUM.format(ceiling), "sum.fc"), scene)
            self.assertEqual((done.status, done.output), (0, f"0 {ceiling}\n1 1\n2 1\n3 1\n"))
            place = f"{self.folder}/sum.fc:1:9"
            self.assertIn(f"warning: {place}: The ceiling {ceiling} cuts what is computed here", done.errors)
            self.assertIn(f"1 of 4 devices has another value: 60 and not {ceiling} at device 0.", done.errors)
            self.assertIn(f"Write `ceiling {enough};`, the least that is enough on this network", done.errors)
        for words in (("stable", "--no-cut-check"), ("settle", "--no-cut-check")):
            self.assertEqual(fieldc(*words, self.folder / "sum.fc", scene).errors, "")
        for command in ("stable", "settle"):
            self.assertEqual(fieldc(command, self.file(SUM.format(60), "sum.fc"), scene).errors, "", command)

    def test_in_json(self) -> None:
        done = fieldc("settle", "--json", self.file(SUM.format(20), "sum.fc"), self.file(STAR, "star.json"))
        (warning,) = json.loads(done.output)["warnings"]
        self.assertEqual((done.status, done.errors, warning["line"], warning["name"]), (0, "", 1, "ceiling"))
        self.assertIn("60 and not 20 at device 0", warning["what"])

    def test_a_number_of_the_program_is_not_a_cut(self) -> None:
        scene = self.file(LINE, "line.json")
        far = self.file(network.line(30).scene().replace("{}", '{"src": false}'), "far.json")
        for command in ("stable", "settle", "trace"):
            for name in (scene, far):
                self.assertEqual(fieldc(command, self.file(HOPS, "hops.fc"), name).errors, "", command)

    def test_a_program_whose_answer_is_the_ceiling(self) -> None:
        one = self.file('{"devices": [{"id": 0, "inputs": {}}], "links": []}', "one.json")
        flat = self.file("ceiling 1000; main = 1000 * 1000 * 1000;", "flat.fc")
        done = fieldc("stable", flat, one)
        self.assertIn("1000000 and not 1000 at device 0", done.errors)
        self.assertIn("No ceiling up to 1,000,000 is enough", done.errors)
        counter = fieldc("settle", self.file(COUNTER, "counter.fc"), one)
        self.assertEqual((counter.status, counter.output), (0, "no 0 unguarded\nsettles 10\n0 10 10\n"))
        self.assertIn("20 and not 10 at device 0", counter.errors)
        greatest = fieldc("stable", self.file("ceiling 1000000; main = 1000 * 1000 * 2;", "most.fc"), one)
        self.assertIn("cuts what is computed here: it is the greatest possible", greatest.errors)
        right = fieldc("stable", self.file("ceiling 1000000; main = 300 * 1000;", "most.fc"), one)
        self.assertEqual((right.output, right.errors), ("0 300000\n", ""))

    def test_a_run_is_looked_at_where_it_is_shown(self) -> None:
        program, scene = self.file(SUM.format(20), "sum.fc"), self.file(STAR.replace("20}", "5}"), "star.json")
        script = self.file("run 30\nshow\nset 1 load 15\nrun 30\nshow\n", "script.txt")
        done = fieldc("run", program, scene, script)
        self.assertEqual(done.status, 0)
        self.assertIn("on the network of line 5 of the script: with a greater one 1 of 4 devices has", done.errors)
        self.assertIn("25 and not 20 at device 0", done.errors)
        calm = self.file("run 30\nshow\n", "calm.txt")
        self.assertEqual(fieldc("run", program, scene, calm).errors, "")
        self.assertEqual(fieldc("run", program, scene, script, "--no-cut-check").errors, "")

    def test_a_composed_program_on_a_network(self) -> None:
        inputs = '{"beacon": %s, "value": 20}'
        text = network.line(8).scene().replace("{}", inputs % "true", 1).replace("{}", inputs % "false")
        scene = self.file(text, "line.json")
        rest = ("--network", scene, "-o", self.folder / "made.fc")
        done = fieldc("compose", self.file(MEAN.format(100), "mean.fc"), *rest)
        self.assertEqual(done.status, 0)
        self.assertIn("mean.fc:2:9: The ceiling 100 cuts what is computed here: with a greater one 8 of 8", done.errors)
        self.assertIn("20 and not 100 at devices", done.errors)
        for words in ((MEAN.format(1000),), (MEAN.format(100), "--no-cut-check")):
            self.assertEqual(fieldc("compose", self.file(words[0], "mean.fc"), *words[1:], *rest).errors, "")

    def test_a_sweep_says_it_once(self) -> None:
        words = ("sweep", self.file(SUM.format(20), "sum.fc"), "--ring", "3..9", "--set", "load=20", "--count", 5)
        done = fieldc(*words, "-o", "rows.csv", folder=self.folder)
        self.assertEqual(done.status, 0, done.errors)
        self.assertRegex(done.errors, "cuts what is computed on the deployment of seed [0-4]: with a greater one")
        self.assertEqual(done.errors.count("warning"), 1)
        done = fieldc(*words, "--no-cut-check", "-o", "rows.csv", folder=self.folder)
        self.assertNotIn("warning", done.errors)


if __name__ == "__main__":
    unittest.main()
