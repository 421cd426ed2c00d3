"""Bounds that hold while a network changes: what `fc` writes of them, how it is told, random runs that try it, seconds,
and pictures."""

# mypy: no-strict-optional

from __future__ import annotations

import csv
import io
import json
import os
import random
import re
import subprocess
import unittest
from decimal import Decimal

import bounds_of_fc
from bounds_of_fc import AWAY_FROM_TABLE, CROWD, DRIFT, EXAMPLES, GUIDE, LINK_GOES, MIDDLE_AWAY, OTHERS, SMOKE, Case
from helping import HOPS, LINE, Done, browser, fieldc, needs, needs_browser, needs_fc
from test_files import InFolder

import fieldc as library
from fieldc import Bound, Bounds, Call, Fault, Held, Section, confirm, networks as network, picture, read_scene, results
from fieldc.edits import moments
from fieldc.envelopes import Envelope
from fieldc.pace import Pace, timed


class Readers(unittest.TestCase):
    def test_bounds(self) -> None:
        rows: dict[str, tuple[results.Value, results.Value]] = {
            "3": (3, 3), "2..10": (2, 10), "any": (False, True), "true": (True, True), "(1,0..4)": ((1, 0), (1, 4)),
            "((any,3),2..2000)": (((False, 3), 2), ((True, 3), 2000)), "(0,0)": ((0, 0), (0, 0)),
        }  # fmt: skip
        for word, (low, high) in rows.items():
            found = results.bound_of(word)
            self.assertEqual((found, str(found)), (Bound(low, high), word))
            self.assertEqual(found.known, low == high)
        for word in ("", "-", "2..", "..3", "2...3", "any1", "(1,2", "(1)", "(1,2,3)", "(1,2)3", "1 2", "Any"):
            with self.assertRaises(Fault, msg=word):
                results.bound_of(word)

    def test_values_in_bounds(self) -> None:
        rows: list[tuple[str, results.Value, bool]] = [
            ("2..10", 2, True), ("2..10", 10, True), ("2..10", 1, False), ("2..10", 11, False), ("any", True, True),
            ("true", False, False), ("(1..2,any)", (2, False), True), ("(1..2,any)", (3, False), False),
            ("(1..2,3)", (1, 4), False),
        ]  # fmt: skip
        for word, value, held in rows:
            self.assertEqual(results.bound_of(word).holds(value), held, (word, value))

    def test_lines(self) -> None:
        found = results.bounded(MIDDLE_AWAY.written)
        self.assertEqual((found.verdict.line, found.within, found.from_table), ("yes 22", 3, False))
        held = {0: Held(1, Bound(0, 0)), 1: Held(1, Bound(1, 10), away=True), 2: Held(3, Bound(2, 10))}
        self.assertEqual((dict(found.by_device), dict(found.values)), (held, {0: 0, 1: None, 2: None}))
        found = results.bounded(AWAY_FROM_TABLE.written)
        self.assertEqual((found.within, found.from_table), (0, True))
        self.assertEqual(found.by_device[1], Held(0, Bound(1, 10), Bound(1, 10), True))
        found = results.bounded("no 0 unguarded\n0 rep int 0..9 -\nwithin 7\n0 7 10 3..10\n")
        self.assertEqual((found.verdict.reason, len(found.facts)), ("unguarded", 1))
        for text in ("yes 2\n", "yes 2\nsettles 5\n0 1 0\n", "yes 2\nwithin 1\n0 1 2 3 4\n", "yes 2\nwithin 1\n0 1\n"):
            with self.assertRaises((Fault, ValueError)):
                results.bounded(text)

    def test_what_holds_after_some_rounds(self) -> None:
        held = Held(3, Bound(2, 4), Bound(0, 9))
        self.assertEqual([held.after(rounds) for rounds in (0, 2, 3, 9)], [Bound(0, 9)] * 2 + [Bound(2, 4)] * 2)
        self.assertIsNone(Held(3, Bound(2, 4)).after(2))


class Played(InFolder):
    """Commands on a case, of the files `program.fc`, `network.json` and `may.txt`."""

    def of(self, case: Case, *words: object, command: str = "settle", program: str = "") -> Done:
        for text, name in ((case.program, "program.fc"), (case.network, "network.json"), (case.changes, "may.txt")):
            self.file(text, name)
        files = ("program.fc", "network.json", "--changes", "may.txt", *["--from-table"] * case.from_table)
        return fieldc(command, *files, *words, folder=self.folder, FC=program or os.environ["FC"])


@needs_fc
class Settled(Played):
    def test_lines_of_fc_are_written_as_they_are(self) -> None:
        for case in (*EXAMPLES.values(), *OTHERS):
            done = self.of(case)
            self.assertEqual((done.status, done.output, done.errors), (0, case.written, ""))
        self.assertEqual(self.of(LINK_GOES, "--settle", command="check").output, LINK_GOES.written)

    def test_patterns(self) -> None:
        """On a line of three, `unlink 2` is the link of 1 and 2, and `set src=true src any` is device 0."""
        for case, changes in ((LINK_GOES, "unlink 2\n"), (OTHERS[5], "set src=true src any\n")):
            done = self.of(Case(case.program, case.network, changes, ""))
            self.assertEqual((done.status, done.output), (0, case.written), done.errors)
        done = self.of(Case(HOPS, LINE, "unlink 1 2\nleave roof\n", ""))
        self.assertEqual((done.status, done.output), (3, ""))
        self.assertEqual(done.errors.count("\n"), 1)
        self.assertIn("fieldc settle: may.txt line 2: no device is called roof; devices have numbers here", done.errors)

    def test_names(self) -> None:
        self.file("id,name\n1,the mill\n2,post\n", "names.csv")
        done = self.of(Case(HOPS, LINE, "leave pots\n", ""), "--names", "names.csv")
        self.assertIn("no device is called pots; did you mean post?", done.errors)
        done = self.of(Case(HOPS, LINE, "unlink 1 post\n", ""), "--names", "names.csv")
        wanted = LINK_GOES.written.replace("\n1 ", "\nthe mill ").replace("\n2 ", "\npost ")
        self.assertEqual((done.status, done.output), (0, wanted), done.errors)

    def test_json(self) -> None:
        self.file("id,name\n1,mill\n", "names.csv")
        found = json.loads(self.of(AWAY_FROM_TABLE, "--json", "--names", "names.csv").output)
        self.assertEqual((found["within"], found["from_table"]), (0, True))
        self.assertEqual(found["verdict"], {"stabilises": True, "rounds": 12})
        row = {"id": 1, "name": "mill", "rounds": 0, "low": 1, "high": 10, "low_now": 1, "high_now": 10, "away": True}
        self.assertEqual(found["devices"][1], row)
        found = json.loads(self.of(DRIFT, "--json").output)
        row = {"id": 0, "rounds": 2, "low": [20, False], "high": [26, True], "away": False}
        self.assertEqual(found["devices"][0], row)

    def test_csv(self) -> None:
        rows = list(csv.DictReader(io.StringIO(self.of(DRIFT, "--csv").output)))
        row = {"device": "1", "rounds": "2", "low_1": "20", "low_2": "false", "high_1": "26", "high_2": "false"}
        self.assertEqual(rows[1], {**row, "away": "false"})
        rows = list(csv.DictReader(io.StringIO(self.of(AWAY_FROM_TABLE, "--csv", "--period", 2, "--lasts", 0).output)))
        row = {"device": "2", "rounds": "0", "seconds": "0", "low": "2", "high": "3", "low_now": "2", "high_now": "3"}
        self.assertEqual(rows[2], {**row, "away": "false"})

    def test_words_that_dont_go_together(self) -> None:
        rows = {
            "--why is about settle rounds": ("--why",),
            "--kinds is about values": ("--kinds", "all", "--names", "names.csv"),
            "--delivery: nothing is promised over message links with --changes":
                ("--period", 1, "--lasts", 1, "--delivery", 1),
            "argument --confirm: 0 isn't a number of runs": ("--confirm", 0),
        }  # fmt: skip
        self.file("id,name\n1,mill\n", "names.csv")
        for said, words in rows.items():
            done = self.of(LINK_GOES, *words)
            self.assertEqual((done.status, done.output, done.errors.count("\n")), (2, "", 1), done.errors)
            self.assertIn(said, done.errors)
        for option in ("--changes", "--confirm"):
            done = fieldc("check", "program.fc", "network.json", option, 3, folder=self.folder)
            self.assertEqual((done.status, done.output), (2, ""))
            self.assertIn(f"{option} needs --settle", done.errors)
        done = fieldc("settle", "program.fc", "network.json", "--confirm", 3, folder=self.folder)
        self.assertIn("--confirm needs --changes: it tries runs within them", done.errors)
        done = fieldc("settle", "-", "network.json", "--changes", "-", folder=self.folder)
        self.assertIn("standard input can be read only once", done.errors)


@needs_fc
class Library(unittest.TestCase):
    def test_calls(self) -> None:
        found = library.bounds(HOPS, LINE, ["unlink 1 2"])
        self.assertEqual(found, results.bounded(LINK_GOES.written))
        self.assertEqual((found.by_device[2].bound.low, found.by_device[2].bound.high), (2, 10))
        self.assertTrue(found)
        found = library.bounds(GUIDE.program, GUIDE.network, GUIDE.changes)
        self.assertEqual((found.of.network.devices, len(found.of.network.links)), ((0, 1, 2, 3, 4, 5, 9), 8))
        found = library.bounds(AWAY_FROM_TABLE.program, AWAY_FROM_TABLE.network, "leave 1\n", from_table=True)
        self.assertTrue(found.from_table)
        with self.assertRaisesRegex(Fault, "^changes line 1: no device is called roof"):
            library.bounds(HOPS, LINE, "leave roof\n")

    @needs("networkx")
    def test_nodes_of_graphs(self) -> None:
        import networkx

        graph = networkx.path_graph(["gate", "mill", "post"])
        networkx.set_node_attributes(graph, {"gate": True, "mill": False, "post": False}, "src")
        found = library.bounds(HOPS, graph, "unlink mill post\n")
        self.assertEqual({node: str(held.bound) for node, held in found.by_device.items()},
                         {"gate": "0", "mill": "1", "post": "2..10"})  # fmt: skip

    @needs("pandas")
    def test_tables(self) -> None:
        frame = library.bounds(HOPS, LINE, "leave 1\n").to_frame()
        self.assertEqual(list(frame.columns), ["rounds", "low", "high", "away"])
        self.assertEqual((list(frame["high"]), list(frame["away"])), ([0, 10, 10], [False, True, False]))
        frame = library.bounds(
            AWAY_FROM_TABLE.program, AWAY_FROM_TABLE.network, "leave 1\n", from_table=True
        ).to_frame()  # fmt: skip
        self.assertEqual(list(frame["low_now"]), [0, 1, 2, 1, 2, 3])

    @needs("matplotlib")
    def test_pictures(self) -> None:
        found = library.bounds(GUIDE.program, GUIDE.network, GUIDE.changes)
        self.assertTrue(found._repr_png_().startswith(b"\x89PNG"))
        self.assertIn("yes 22, within 6", found._repr_html_())


# ---- random runs ---------------------------------------------------------------------------------------------------


def call_of(case: Case) -> Call:
    """What `fc` is asked of a case."""
    kinds = ("program", "network", "changes")
    texts = (case.program, case.network, case.changes)
    return Call(tuple(case.words), tuple(Section(kind, "", 1, text) for kind, text in zip(kinds, texts)))


class Plans(unittest.TestCase):
    """Scripts are within the changes: each network between two edits is one that the lines allow."""

    def test_each_network_lies_within(self) -> None:
        verbs: set[str] = set()
        for name, case in {**EXAMPLES, **dict(zip(("none", "goes", "comes", "middle", "one", "any"), OTHERS))}.items():
            asked = confirm.Question.of(call_of(case), results.bounded(case.written))
            for seed in range(40):
                plan = confirm.planned(asked, random.Random(seed))
                text = "".join(line + "\n" for line in plan.lines)
                verbs |= {word for line in plan.lines for word in line.split(" ") if word.isalpha()}
                self.assertEqual(plan.lines[0].startswith("scramble "), not case.from_table)
                shows = moments(asked.scene, text, asked.order)
                self.assertEqual({moment.line for moment in shows}, set(plan.rounds), name)
                for moment in shows:
                    self.lies_within(moment.network, asked.envelope)
                lasting = [rounds for _, rounds in sorted(plan.rounds.items())]
                self.assertEqual((lasting, lasting[-1] > asked.bounds.within), (sorted(lasting), True))
        self.assertGreaterEqual(verbs, {"set", "link", "unlink", "leave", "join", "run", "mix", "show"})

    def lies_within(self, found: network.Network, envelope: Envelope) -> None:
        there = {(min(a, b), max(a, b)): weight for a, b, weight in found.links}
        self.assertTrue(envelope.sure_devices <= set(found.devices) <= set(envelope.inputs))
        self.assertTrue(envelope.sure_links <= set(there) <= set(envelope.links))
        for pair, weight in there.items():
            self.assertTrue(envelope.links[pair][0] <= weight <= envelope.links[pair][1])
        for device, own in found.inputs.items():
            for name, value in own.items():
                low, high = envelope.inputs[device][name]
                self.assertTrue(low <= value <= high)


@needs_fc
class Confirmed(Played):
    def test_no_run_leaves_its_bounds(self) -> None:
        for name, case in {**EXAMPLES, "middle": MIDDLE_AWAY, "one": OTHERS[4], "any": OTHERS[5]}.items():
            found = confirm.looked(call_of(case), results.bounded(case.written), 12)
            self.assertEqual((found.runs, found.broken), (12, None), name)
            self.assertGreater(found.values, 12 * 3)

    def test_a_bound_that_is_one_narrower_is_broken(self) -> None:
        """Both ends of the crowd's bounds, and of the row that a link may be missing from, are ways in the network."""
        for case, row, narrower in (
            (CROWD, "1 2 5..9", "1 2 6..9"), (CROWD, "1 2 5..9", "1 2 5..8"), (GUIDE, "3 4 1..3", "3 4 1..2"),
            (GUIDE, "3 4 1..3", "3 4 2..3"), (LINK_GOES, "2 3 2..10", "2 3 2..9"), (LINK_GOES, "2 3 2", "2 3 3"),
            (SMOKE, "5 1 any", "5 1 true"), (DRIFT, "(20..26,any)", "(20..25,any)"), (DRIFT, "26,any)", "26,false)"),
            (AWAY_FROM_TABLE, "2 0 2..3", "2 0 2"),
        ):  # fmt: skip
            self.assertIn(row, case.written)
            found = confirm.looked(call_of(case), results.bounded(case.written.replace(row, narrower)), 400)
            self.assertIsNotNone(found.broken, narrower)
            self.assertIn(found.broken.line, found.broken.plan.rounds)

    def test_a_round_that_is_too_early_is_broken(self) -> None:
        early = results.bounded(LINK_GOES.written.replace("1 3 1", "1 0 1"))
        self.assertIsNotNone(confirm.looked(call_of(LINK_GOES), early, 50).broken)

    def test_a_missing_value(self) -> None:
        sure, away = Held(2, Bound(1, 3)), Held(0, Bound(1, 3), away=True)
        self.assertEqual(confirm.outside(sure, None, 2), Bound(1, 3))
        self.assertIsNone(confirm.outside(sure, None, 1))
        self.assertIsNone(confirm.outside(away, None, 5))

    def test_the_command(self) -> None:
        done = self.of(LINK_GOES, "--confirm", 5)
        self.assertEqual((done.status, done.output), (0, LINK_GOES.written))
        self.assertRegex(done.errors, r"^fieldc: 5 runs, \d+ values, none outside its bound\n$")

    def test_a_defect_is_told_with_its_script(self) -> None:
        wrong = Case(HOPS, LINE, "unlink 1 2\n", LINK_GOES.written.replace("2 3 2..10", "2 3 2..9"))
        program = bounds_of_fc.wrong_program(self.folder, wrong.written)
        done = self.of(wrong, "--confirm", 400, program=program)
        self.assertEqual((done.status, done.output), (confirm.DEFECT, wrong.written))
        said = r"^fieldc: device 2 holds 10 on line (\d+) of this script, after \d+ rounds?, and its bound is 2..9. "
        self.assertRegex(done.errors, said)
        script = re.findall("(?m)^    (.*)$", done.errors)
        at = int(re.search(said, done.errors)[1])
        self.assertEqual((script[0].split(" ")[0], script[at - 1]), ("scramble", "show"))
        lines = [line + "\n" for line in script[:at]]
        shown = library.run(HOPS, LINE, lines).shows[-1]
        self.assertEqual((shown.line, shown.values[2]), (at, 10))


# ---- seconds -------------------------------------------------------------------------------------------------------


class Seconds(Played):
    def test_by_the_rule_of_the_headline(self) -> None:
        """With 1 and 0.1 seconds 62 rounds take 68.2 seconds, 13 take 14.3 and 7 take 7.7."""
        pace = Pace(Decimal("1"), Decimal("0.1"))
        self.assertEqual([pace.text(rounds) for rounds in (62, 13, 7, 0, 1000)], ["68.2", "14.3", "7.7", "0", "1100"])
        self.assertEqual(Pace(Decimal("1"), Decimal("0.1"), Decimal("0.4")).text(10), "15")

    def test_beside_each_number_of_rounds(self) -> None:
        pace = Pace(Decimal("0.5"), Decimal("0.25"))
        rows = {
            "yes 22\n": "yes 22 16.5s\n",
            "no 4 nested\nopen\n0 1 7\n1 -\n": "no 4 nested\nopen\n0 1 0.75s 7\n1 -\n",
            "yes 22\n0 rep int 0..9 22\nsettles 5\n0 1 (0,1)\n":
                "yes 22 16.5s\n0 rep int 0..9 22\nsettles 5 3.75s\n0 1 0.75s (0,1)\n",
            AWAY_FROM_TABLE.written[:41]: "yes 12 9s\nwithin 0 0s\n0 0 0s 0 0\n1 0 0s 1..10 1..10 a\n",
        }  # fmt: skip
        for text, wanted in rows.items():
            self.assertEqual(timed(text, pace), wanted)

    @needs_fc
    def test_commands(self) -> None:
        self.file(HOPS, "hops.fc")
        self.file(LINE, "line.json")
        files = ("hops.fc", "line.json", "--period", "1", "--lasts", "0.1")
        done = fieldc("settle", *files, folder=self.folder)
        self.assertEqual(done.output, "yes 22 24.2s\nsettles 5 5.5s\n0 1 1.1s 0\n1 3 3.3s 1\n2 5 5.5s 2\n")
        premise = "each device begins a firing at least every 1 s, and each firing ends within 0.1 s"
        self.assertEqual(done.errors, f"fieldc: a round takes at most 1.1 s where {premise}\n")
        done = fieldc("check", *files, "--delivery", "0.9", folder=self.folder)
        self.assertEqual(done.output, "yes 22 44s\n")
        self.assertIn("each link delivers a message within 0.9 s more", done.errors)
        found = json.loads(fieldc("settle", *files, "--json", folder=self.folder).output)
        seconds = found["round_seconds"], found["verdict"]["seconds"], found["settles_seconds"]
        self.assertEqual(seconds, (1.1, 24.2, 5.5))
        self.assertEqual([row["seconds"] for row in found["devices"]], [1.1, 3.3, 5.5])
        rows = fieldc("settle", *files, "--csv", folder=self.folder).output.splitlines()
        self.assertEqual(rows, ["device,value,rounds,seconds", "0,0,1,1.1", "1,1,3,3.3", "2,2,5,5.5"])
        self.file("id,name\n1,the mill\n", "names.csv")
        done = fieldc("settle", *files, "--names", "names.csv", "--from-table", folder=self.folder)
        self.assertIn("\nthe mill 3 3.3s 1\n", done.output)
        done = self.of(LINK_GOES, "--period", 2, "--lasts", 1)
        self.assertEqual(done.output, "yes 22 66s\nwithin 3 9s\n0 1 3s 0\n1 3 9s 1\n2 3 9s 2..10\n")

    def test_refusals(self) -> None:
        rows = {
            "seconds need both --period, how often each device fires, and --lasts": ("--period", 1),
            "--lasts, how long a firing takes": ("--delivery", 1),
            "--period 0 is too small: it has to be above 0": ("--period", 0, "--lasts", 1),
            "argument --lasts: soon isn't a number of seconds": ("--period", 1, "--lasts", "soon"),
            "argument --period: -1 isn't a number of seconds": ("--period", -1, "--lasts", 1),
            "argument --period: inf isn't a number of seconds": ("--period", "inf", "--lasts", 1),
            "--delivery: nothing is promised over message links with --from-table":
                ("--period", 1, "--lasts", 1, "--delivery", 1, "--from-table"),
        }  # fmt: skip
        self.file(HOPS, "hops.fc")
        self.file(LINE, "line.json")
        for said, words in rows.items():
            done = fieldc("settle", "hops.fc", "line.json", *words, folder=self.folder)
            self.assertEqual((done.status, done.output, done.errors.count("\n")), (2, "", 1), done.errors)
            self.assertIn(said, done.errors)


# ---- pictures ------------------------------------------------------------------------------------------------------


@needs("matplotlib")
class Pictures(InFolder):
    def drawn(self, case: Case, *words: object) -> Done:
        rows = ((case.program, "p.fc"), (case.network, "n.json"), (case.changes, "may.txt"), (case.written, "bounds"))
        for text, name in rows:
            self.file(text, name)
        return fieldc("picture", "p.fc", "n.json", "may.txt", "--values", "bounds", *words, folder=self.folder)

    def test_all_that_may_come_is_drawn(self) -> None:
        done = self.drawn(GUIDE, "-o", "guide.svg")
        self.assertEqual((done.status, done.output, done.errors), (0, "", ""))
        drawn = (self.folder / "guide.svg").read_text()
        for said in ("1..3", "1..4", "1..5", "(within 6)", "ring: how wide", "dashed border: may be", "dashed link"):
            self.assertIn(f"<!-- {said}", drawn)
        self.assertEqual(drawn.count("stroke-dasharray"), 3 + 1 + 2, "links, a border, and two signs of the legend")

    def test_values_that_are_known_have_no_ring(self) -> None:
        frame = self.gathered(bounds_of_fc.NOTHING).frames[-1]
        self.assertEqual(list(frame.values.values()), [Bound(0, 0), Bound(1, 1), Bound(2, 2)])
        self.assertEqual((frame.away, frame.loose), (frozenset(), frozenset()))
        self.drawn(bounds_of_fc.NOTHING, "-o", "still.svg")
        drawn = (self.folder / "still.svg").read_text()
        self.assertNotIn("<!-- ring", drawn)
        self.assertNotIn("stroke-dasharray", drawn)

    def gathered(self, case: Case, rounds: bool = False) -> picture.Picture:
        return picture.gathered(case.program, read_scene(case.network), case.changes, case.written, rounds)

    def test_each_example_is_drawn(self) -> None:
        for name, case in EXAMPLES.items():
            done = self.drawn(case, "-o", f"{name}.png")
            self.assertEqual((done.status, done.errors), (0, ""), name)

    def test_colours_and_rings(self) -> None:
        from fieldc.colours import WHITE, colours_of, scales_of, shade, width_of

        found = self.gathered(GUIDE)
        frame = found.frames[-1]
        scales = scales_of(frame.values.values(), found.meaning)
        self.assertEqual((scales[0].low, scales[0].high), (0, 5))
        self.assertEqual([width_of(frame.values[device], scales) for device in (2, 3, 5)], [0, 0.4, 0.8])
        self.assertEqual(colours_of(frame.values[3], scales, found.meaning), (shade(2 / 5),))
        found = self.gathered(DRIFT)
        frame = found.frames[-1]
        scales = scales_of(frame.values.values(), found.meaning)
        self.assertEqual(colours_of(frame.values[0], scales, found.meaning), (shade(3 / 7), WHITE))
        self.assertEqual(width_of(frame.values[0], scales), 1.0)

    def test_a_page_with_the_rounds(self) -> None:
        done = self.drawn(CROWD, "--rounds", "-o", "crowd.html")
        self.assertEqual((done.status, done.errors), (0, ""))
        page = (self.folder / "crowd.html").read_text()
        shows = json.loads(re.search(r"const shows = (.*);", page)[1])
        looks = [look[0] for look in json.loads(re.search(r"const looks = (.*);", page)[1])]
        rows = [(show["title"], [looks[place] for place in show["devices"]]) for show in shows]
        self.assertEqual([title for title, _ in rows], [f"after {n} round{'s' * (n != 1)}" for n in range(5)])
        self.assertEqual(rows[2][1], ["0", "5..9", "-", "-", "-", "-"])
        self.assertEqual(rows[4][1], ["0", "5..9", "10..18", "15..27", "7..18", "12..27"])
        done = self.drawn(AWAY_FROM_TABLE, "--rounds", "-o", "away.html")
        self.assertEqual(done.status, 0, done.errors)

    @needs_browser
    def test_a_browser_shows_rings(self) -> None:
        self.drawn(GUIDE, "--rounds", "-o", "page.html")
        page = (self.folder / "page.html").read_text()
        slide = 'slider.value = slider.max; slider.dispatchEvent(new Event("input"));'
        self.file(page.replace("</html>", f"<script>{slide}</script></html>"), "seen.html")
        flags = ["--headless", "--no-sandbox", "--disable-gpu", "--virtual-time-budget=500", "--dump-dom"]
        words = [browser(), *flags, f"file://{self.folder}/seen.html"]
        seen = subprocess.run(words, capture_output=True, text=True, check=True).stdout
        devices = dict(re.findall(r'<g class="device[^"]*" data-id="(\d+)".*?(<circle class="ring.*?)</g>', seen))
        rings = {device: re.search(r'<circle class="ring( away)?"', text)[1] for device, text in devices.items()}
        self.assertEqual({device for device, gone in rings.items() if not gone}, {"3", "4", "5"})
        self.assertIn('stroke-dasharray="40 200"', devices["3"])
        self.assertIn(">1..3</text>", devices["3"])
        self.assertEqual(re.findall(r'<g class="device leaves" data-id="(\d+)"', seen), ["9"])
        self.assertEqual(seen.count('<line class="loose"'), 3)

    def test_refusals(self) -> None:
        rows = {
            "--kinds all: it is about values; these are bounds": ("--kinds", "all"),
            "--arrows: no device holds the number of a neighbour": ("--arrows",),
        }
        for said, words in rows.items():
            done = self.drawn(GUIDE, "-o", "x.svg", *words)
            self.assertEqual((done.status, done.errors), (2, f"fieldc picture: {said}\n"))
        words = ("p.fc", "n.json", "--values", "bounds", "-o", "x.svg")
        done = fieldc("picture", *words, folder=self.folder)
        self.assertEqual(done.status, 3)
        self.assertIn("device 9 of these bounds isn't in the network but may come: give its file", done.errors)
        self.file("yes 22\nsettles 5\n0 1 0\n", "bounds")
        done = fieldc("picture", "p.fc", "n.json", "--rounds", "--values", "bounds", "-o", "x.svg", folder=self.folder)
        self.assertIn("--rounds is for bounds", done.errors)
        done = fieldc("picture", "p.fc", "n.json", "--of", "changes", "-o", "x.svg", folder=self.folder)
        self.assertIn("--of changes: the files have no changes", done.errors)

    @needs_fc
    def test_bounds_that_are_asked_for(self) -> None:
        self.drawn(GUIDE, "-o", "guide.svg")
        words = ("p.fc", "n.json", "may.txt", "--of", "changes", "-o", "asked.svg")
        done = fieldc("picture", *words, folder=self.folder)
        self.assertEqual((done.status, done.errors), (0, ""))
        self.assertEqual((self.folder / "asked.svg").read_text(), (self.folder / "guide.svg").read_text())


class Types(unittest.TestCase):
    def test_bounds_are_results(self) -> None:
        found = results.bounded(LINK_GOES.written)
        self.assertIsInstance(found, Bounds)
        self.assertEqual(hash(found), hash(results.bounded(LINK_GOES.written)))


if __name__ == "__main__":
    unittest.main()
