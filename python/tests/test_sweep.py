"""Sweeps: what is drawn from a seed, the rows that fc's answers make, one file whatever asks, stopping and going on, a
cluster of which a worker is ended, and rows that are confirmed by hand and by runs from rubbish."""

# mypy: no-strict-optional

from __future__ import annotations

import json
import math
import os
import random
import subprocess
import sys
import time
import unittest
from collections import Counter
from dataclasses import replace
from pathlib import Path
from unittest import mock

from helping import HOPS, TOP, fieldc, needs, needs_fc
from test_command import on_a_terminal
import test_pages
from test_files import InFolder

import fieldc as library
from fieldc import Fault, networks as network, program
from fieldc.sweep import Row, Rule, Setting, deployment, deployments, questions, report, rows, running

DISK = Rule("disk", count=(40, 40), reach=20.0)
NEAR = """ceiling 30; input src: bool;
main = rep((30, 30)){(p) => minHoodLoc((fst(nbr{p}) + 1, snd(nbr{p})), mux(sense src, (0, uid), (30, 30)))};
"""
SHAPE = ("--disk", 40, "--range", 20, "--set", "src=true@random:2")


class Deployments(unittest.TestCase):
    def test_a_disk_is_that_of_the_maker(self) -> None:
        found = deployment(replace(DISK, inputs=(Setting("src", True, 2),)), 17)
        self.assertEqual(found.links, network.disk(40, 100, 20, 17).links)
        self.assertEqual(found.positions, network.disk(40, 100, 20, 17).positions)
        self.assertEqual(found, deployment(replace(DISK, inputs=(Setting("src", True, 2),)), 17))
        self.assertNotEqual(found.links, deployment(DISK, 18).links)

    def test_numbers_of_devices_are_drawn_evenly_over_their_logarithms(self) -> None:
        counts = [len(deployment(Rule("line", count=(10, 1000)), seed).inputs) for seed in range(400)]
        self.assertTrue(10 <= min(counts) < 15 and 700 < max(counts) <= 1000)
        self.assertTrue(160 <= sum(count <= 100 for count in counts) <= 240)

    def test_a_density_is_kept(self) -> None:
        for count in (10, 250):
            places = deployment(Rule("disk", count=(count, count), reach=1.0, density=60.0), 3).positions.values()
            far = max(max(place) for place in places)
            side = 100 * math.sqrt(count / 60)
            self.assertTrue(0.7 * side < far <= side)

    def test_points_are_moved_and_linked_where_they_are_in_range(self) -> None:
        base = network.shaped({d: (10.0 * (d % 6), 10.0 * (d // 6)) for d in range(30)}, [])
        found = deployment(Rule("points", reach=13.0, base=base, jitter=2.0), 5)
        for device, (x, y) in found.positions.items():
            self.assertTrue(max(abs(x - base.positions[device][0]), abs(y - base.positions[device][1])) <= 2)
        for axis in (0, 1):
            shifts = [found.positions[d][axis] - base.positions[d][axis] for d in range(30)]
            self.assertTrue(min(shifts) < -1.5 and max(shifts) > 1.5)
        at = found.positions
        wanted = {(a, b) for a in range(30) for b in range(a + 1, 30) if math.dist(at[a], at[b]) <= 13}
        self.assertEqual({(a, b) for a, b, _ in found.links}, wanted)

    def test_links_fail_as_often_as_is_said(self) -> None:
        base = network.grid(10, 10)
        rule = Rule("edges", base=base, failing=0.25)
        kept = [deployment(rule, seed).links for seed in range(40)]
        self.assertTrue(all(set(links) <= set(base.links) for links in kept))
        self.assertAlmostEqual(sum(map(len, kept)) / (40 * len(base.links)), 0.75, delta=0.02)
        self.assertEqual(deployment(replace(rule, failing=0.0), 1).links, base.links)
        self.assertEqual(deployment(replace(rule, failing=1.0), 1).links, ())

    def test_inputs_are_drawn(self) -> None:
        rule = Rule("line", count=(5, 5), inputs=(Setting("load", (3, 6)), Setting("src", True, 2)))
        made = [deployment(rule, seed).inputs for seed in range(500)]
        self.assertTrue(all(sum(own["src"] for own in inputs.values()) == 2 for inputs in made))
        chosen = Counter(device for inputs in made for device, own in inputs.items() if own["src"])
        self.assertTrue(all(150 < chosen[device] < 250 for device in range(5)), chosen)
        loads = Counter(own["load"] for inputs in made for own in inputs.values())
        self.assertEqual(sorted(loads), [3, 4, 5, 6])
        self.assertTrue(all(500 < count < 750 for count in loads.values()), loads)
        more = deployment(replace(rule, inputs=(*rule.inputs, Setting("far", 7))), 3).inputs
        self.assertEqual([own["load"] for own in more.values()], [own["load"] for own in made[3].values()])
        twice = deployment(replace(rule, inputs=(Setting("a", (0, 99)), Setting("b", (0, 99)))), 3).inputs.values()
        self.assertNotEqual([own["a"] for own in twice], [own["b"] for own in twice])
        named = deployment(Rule("ring", count=(4, 4), inputs=(Setting("a", 9), Setting("a", 5, (1, 2)))), 0).inputs
        self.assertEqual([own["a"] for own in named.values()], [9, 5, 5, 9])

    def test_weights_and_degrees_are_those_of_the_maker(self) -> None:
        made = network.disk(40, 100, 20, 4)
        found = deployment(replace(DISK, metric=(1, 9), unit=2.5), 4)
        self.assertEqual(found.links, network.weighed(made, 1, 9, 2.5).links)
        self.assertEqual(deployment(replace(DISK, most_links=4), 4).links, network.nearest(made, 4).links)
        self.assertEqual({weight for _, _, weight in deployment(replace(DISK, weight=3), 4).links}, {3})

    def test_what_makes_no_network(self) -> None:
        for setting, said in {
            Setting("src", True, 6): "6 devices that are drawn, and there are 5",
            Setting("src", True, (7,)): "device 7, which doesn't exist",
            Setting("load", 3, 2): "load isn't set on device",
        }.items():
            with self.assertRaisesRegex(Fault, said):
                deployment(Rule("line", count=(5, 5), inputs=(setting,)), 1)

    @needs("networkx")
    def test_components_and_diameters_as_networkx_says(self) -> None:
        import networkx

        dice = random.Random(1)
        for _ in range(60):
            count, share = dice.randint(1, 40), dice.choice((0.02, 0.06, 0.2))
            pairs = [(a, b) for a in range(count) for b in range(a) if dice.random() < share]
            made = network.shaped({3 * d: (0.0, 0.0) for d in range(count)}, [(3 * b, 3 * a) for a, b in pairs])
            graph = made.graph()
            parts = [graph.subgraph(part) for part in networkx.connected_components(graph)]
            wanted = len(parts), max(networkx.diameter(part) for part in parts)
            self.assertEqual(deployments.components_and_diameter(made), wanted)

    def test_both_texts_of_a_scene_are_one(self) -> None:
        found = deployment(Rule("grid", sides=(3, 2), inputs=(Setting("a", (0, 9)), Setting('b"', True, 1))), 1)
        self.assertEqual(json.loads(deployments.scene_text(found)), json.loads(found.scene()))


class Kept(InFolder):
    def test_rows_are_read_back(self) -> None:
        shape = (7, 3, 2, 1, 2)
        some = [
            Row(*shape, "yes", 22, 5, 2, 5, ("0", "1", "2")),
            Row(*shape, "no 0 lead-at-ceiling", None, None, 1, None, ("(0,0)", "-", "(2,0)")),
            Row(*shape, "limit degree 33"),
        ]
        text = rows.header(True) + "".join(rows.line_of(row, True) for row in some)
        self.assertEqual(text.splitlines()[2], '7,3,2,1,2,no 0 lead-at-ceiling,,open,1,,"(0,0) - (2,0)"')
        self.assertEqual(rows.rows_of(text, "rows.csv"), some)
        self.assertEqual([(row.open, row.refused) for row in some], [(False, False), (True, False), (False, True)])
        with self.assertRaisesRegex(Fault, "rows.csv line 2: this is no row"):
            rows.rows_of(rows.header(False) + "1,2,3\n", "rows.csv")

    def test_a_row_of_what_fc_wrote(self) -> None:
        shape = (7, 4, 3, 1, 3)
        settles = ["yes 22", "settles 5", "0 1 0", "4 5 2", "10 5 2", "11 3 1"]
        self.assertEqual(rows.row_of(shape, settles, ()), Row(*shape, "yes", 22, 5, 4, 5))
        unknown = ["yes 6", "settles 6", "0 1 0", "1 -", "2 -"]
        self.assertEqual(rows.row_of(shape, unknown, ()), Row(*shape, "yes", 6, 6, 1, None))
        away = ["no 0 converging", "open", "0 4 1", "1 -"]
        self.assertEqual(rows.row_of(shape, away, ()), Row(*shape, "no 0 converging", None, None, 1, None))
        with self.assertRaisesRegex(Fault, "doesn't answer"):
            rows.row_of(shape, ["yes 6"], ())

    def test_a_summary(self) -> None:
        values = ("0", "10", "(1,10)")
        some = [Row(seed, 3, 2, 1, 2, "yes", 22, 5 + seed % 4, 2, 5, values[: 1 + seed % 3]) for seed in range(20)]
        some += [Row(20, 3, 2, 2, 2, "no 0 nested", None, None, 1), Row(21, 40, 2, 1, 2, "limit degree 33")]
        found = report.summary(some, 10)
        self.assertEqual([row.seed for row in found.worst], [3, 7, 11, 15, 19, 2, 6, 10, 14, 18])
        self.assertEqual((found.quantile(0.5), found.quantile(0.75), found.quantile(0.76)), (6, 7, 8))
        self.assertEqual([row.seed for row in found.open + found.refused], [20, 21])
        self.assertEqual(found.full, sum(1 + seed % 3 > 1 for seed in range(20)))
        ends = Row(1, 5, 4, 1, 4, "yes", 22, 5, 2, 5, ("(1,10)", "(10,2)", "110", "10", "1"))
        self.assertEqual((report.at_ceiling(ends, 10), report.at_ceiling(ends, 1)), (2, 2))
        told = report.told(found)
        self.assertIn("22 deployments, seeds 0 to 21\nsettled 20, open 1 (4.55 %), refused 1 (limit degree 33)\n", told)
        self.assertIn("open: seeds 20\n", told)
        self.assertIn("3 devices: 20 settled, R half at most 6, 9 in 10 at most 8; K 22\n", told)
        self.assertNotIn("3 devices", report.told(report.summary(some[:20], 10)))


@needs_fc
class Sweeps(InFolder):
    def setUp(self) -> None:
        super().setUp()
        self.program = self.file(HOPS.replace("10", "60"), "hops.fc")

    def sweep(self, *words: object, name: str = "rows.csv", **variables: str) -> str:
        done = fieldc("sweep", self.program, *words, "-o", name, folder=self.folder, seconds=None, **variables)
        self.assertEqual(done.status, 0, done.errors)
        return (self.folder / name).read_text()

    def slow(self, seconds: float = 0.02) -> str:
        """A program that does what fc does, and takes its time."""
        path = Path(self.file(f'#!/bin/sh\nsleep {seconds}\nexec {program.find()} "$@"\n', "slow_fc"))
        path.chmod(0o755)
        return str(path)

    def test_rows_are_a_function_of_seed_and_options(self) -> None:
        one = self.sweep(*SHAPE, "--count", 150, "--values", "--workers", 1, name="one.csv")
        four = self.sweep(*SHAPE, "--count", 150, "--values", "--workers", 4, name="four.csv")
        self.assertEqual(one, four)
        self.assertEqual([int(line.split(",")[0]) for line in one.splitlines()[1:]], list(range(150)))
        seconds = (self.folder / "one.seconds.csv").read_text().splitlines()
        self.assertEqual((seconds[0], len(seconds)), ("seed,seconds", 151))
        self.assertTrue(all(0 < float(line.split(",")[1]) < 60 for line in seconds[1:]))
        behind = self.sweep(*SHAPE, "--count", 60, "--values", "--seed", 90, name="behind.csv")
        self.assertEqual(behind.splitlines()[1:], one.splitlines()[91:])

    def test_more_of_the_same_sweep(self) -> None:
        whole = self.sweep(*SHAPE, "--count", 90, name="whole.csv")
        self.sweep(*SHAPE, "--count", 30)
        with (self.folder / "rows.csv").open("a") as opened:
            opened.write("30,40,")
        self.assertEqual(self.sweep(*SHAPE, "--count", 90), whole)
        again = fieldc("sweep", self.program, *SHAPE, "--count", 90, "-o", "rows.csv", folder=self.folder)
        self.assertEqual((again.status, again.errors), (0, ""))
        fewer = fieldc("sweep", self.program, *SHAPE, "--count", 30, "-o", "rows.csv", folder=self.folder)
        self.assertTrue(fewer.output.startswith("30 deployments, seeds 0 to 29\n"))
        seconds = self.folder / "rows.seconds.csv"
        seconds.write_text("".join(seconds.read_text().splitlines(keepends=True)[:21]))
        self.assertEqual(self.sweep(*SHAPE, "--count", 90), whole)
        kept = [line.split(",")[0] for line in seconds.read_text().splitlines()]
        self.assertEqual(kept, ["seed", *map(str, range(90))])
        for words in (("--seed", 5), ("--values",), ("--set", "src=false")):
            done = fieldc("sweep", self.program, *SHAPE, *words, "-o", "rows.csv", folder=self.folder)
            self.assertEqual((done.status, done.output), (3, ""))
            self.assertIn("rows of another sweep", done.errors)
        self.assertEqual((self.folder / "rows.csv").read_text(), whole)
        self.file("mine", "mine.csv")
        self.assertEqual(fieldc("sweep", self.program, *SHAPE, "-o", "mine.csv", folder=self.folder).status, 3)
        self.assertEqual((self.folder / "mine.csv").read_text(), "mine")

    def test_a_sweep_that_is_killed_goes_on_where_it_was(self) -> None:
        slow = self.slow()
        whole = self.sweep(*SHAPE, "--count", 200, name="whole.csv")
        words = ["sweep", self.program, *map(str, SHAPE), "--count", "200", "--workers", "3", "-o", "rows.csv"]
        environment = dict(os.environ, PYTHONPATH=str(TOP / "python"), FC=slow)
        with subprocess.Popen(
            [sys.executable, "-B", "-m", "fieldc", *words], cwd=self.folder, env=environment
        ) as process:
            self.wait_for(self.folder / "rows.csv", 40)
            process.kill()
        there = (self.folder / "rows.csv").read_text()
        self.assertTrue(whole.startswith(there))
        self.assertLess(len(there), len(whole))
        self.assertEqual(self.sweep(*SHAPE, "--count", 200, FC=slow), whole)

    def wait_for(self, path: Path, lines: int) -> None:
        """Waits until a file has so many lines."""
        end = time.monotonic() + 120
        while not path.exists() or path.read_text().count("\n") < lines:
            self.assertLess(time.monotonic(), end, f"{path} doesn't grow")
            time.sleep(0.01)

    @needs("distributed")
    def test_a_cluster_of_which_a_worker_is_ended(self) -> None:
        slow = self.slow()
        whole = self.sweep(*SHAPE, "--count", 250, "--workers", 1, name="whole.csv")
        address = self.scheduler()
        workers = [self.started("dask_worker", address, "--no-nanny", "--nthreads", "1", FC=slow) for _ in range(3)]
        words = ["sweep", self.program, *map(str, SHAPE), "--count", "250", "--scheduler", address, "-o", "rows.csv"]
        asking = self.run_beside([sys.executable, "-B", "-m", "fieldc", *words], FC=slow)
        self.wait_for(self.folder / "rows.csv", 50)
        workers[1].kill()
        there = (self.folder / "rows.csv").read_text().count("\n")
        self.assertEqual(asking.wait(120), 0)
        self.assertLess(there, 250)
        self.assertEqual([workers[0].poll(), workers[2].poll()], [None, None])
        self.assertEqual((self.folder / "rows.csv").read_text(), whole)

    def scheduler(self) -> str:
        """The address of a scheduler that is started for this test."""
        self.started("dask_scheduler", "--port", "0", "--scheduler-file", "scheduler.json")
        end, path = time.monotonic() + 60, self.folder / "scheduler.json"
        while True:
            self.assertLess(time.monotonic(), end, "the scheduler doesn't start")
            time.sleep(0.1)
            if path.exists() and path.read_text().strip().endswith("}"):
                return str(json.loads(path.read_text())["address"])

    def started(self, name: str, *words: str, **variables: str) -> subprocess.Popen[bytes]:
        """A program of Dask on loopback, which is ended with the test."""
        command = [
            sys.executable,
            "-B",
            "-m",
            f"distributed.cli.{name}",
            *words,
            "--host",
            "127.0.0.1",
            "--no-dashboard",
        ]
        return self.run_beside(command, **variables)

    def run_beside(self, command: list[str], **variables: str) -> subprocess.Popen[bytes]:
        environment = dict(os.environ, PYTHONPATH=str(TOP / "python"), **variables)
        quiet = subprocess.DEVNULL
        process = subprocess.Popen(command, cwd=self.folder, env=environment, stdout=quiet, stderr=quiet)
        self.addCleanup(process.wait)
        self.addCleanup(process.kill)
        return process

    def test_a_sample_is_confirmed_by_hand_and_by_runs_from_rubbish(self) -> None:
        found = rows.rows_of(self.sweep(*SHAPE, "--count", 200, "--values"), "rows.csv")
        text = Path(self.program).read_text()
        for row in random.Random(3).sample(found, 8):
            done = fieldc("sweep", self.program, *SHAPE, "--again", row.seed, "-o", "net.json", folder=self.folder)
            self.assertEqual((done.status, done.output, done.errors), (0, "", ""))
            net = (self.folder / "net.json").read_text()
            settled = library.settle(text, net)
            self.assertEqual((row.verdict, row.bound, row.rounds), ("yes", settled.verdict.rounds, settled.rounds))
            self.assertEqual(row.last_rounds, max(settled.by_device.values()))
            self.assertEqual(settled.by_device[row.last], row.last_rounds)
            stable = library.stable(text, net).values
            self.assertEqual([int(value) for value in row.values], list(stable.values()))
            script = [f"scramble {row.seed}", f"run {row.rounds}", "show"]
            self.assertEqual(library.run(text, net, script, workers=4).shows[0].values, stable)

    @needs("networkx")
    def test_hops_and_what_nobody_reaches_as_networkx_says(self) -> None:
        import networkx

        text = self.sweep(*SHAPE, "--count", 60, "--values", "--report", "page.html")
        found, left = rows.rows_of(text, "rows.csv"), 0
        rule = replace(DISK, inputs=(Setting("src", True, 2),))
        for row in found:
            made = deployment(rule, row.seed)
            sources = [device for device, own in made.inputs.items() if own["src"]]
            hops = networkx.multi_source_dijkstra_path_length(made.graph(), sources, weight=None)
            self.assertEqual(
                [int(value) for value in row.values], [int(hops.get(device, 60)) for device in made.devices]
            )
            self.assertEqual((row.devices, row.links), (40, len(made.links)))
            left += len(hops) < 40
        self.assertTrue(0 < left < 60)
        outcome = fieldc(
            "sweep", self.program, *SHAPE, "--count", 60, "--values", "-o", "rows.csv", folder=self.folder
        ).output
        self.assertIn(f"with a device at the ceiling: {left} (", outcome)

    @needs("networkx")
    def test_open_where_a_part_without_a_source_has_links(self) -> None:
        import networkx

        self.program = self.file(NEAR, "near.fc")
        words = ("--disk", 20, "--range", 28, "--set", "src=true@random:2", "--count", 60)
        found = rows.rows_of(self.sweep(*words), "rows.csv")
        rule = Rule("disk", count=(20, 20), reach=28.0, inputs=(Setting("src", True, 2),))
        for row in found:
            made = deployment(rule, row.seed)
            parts = networkx.connected_components(made.graph())
            bare = [part for part in parts if len(part) > 1 and not any(made.inputs[device]["src"] for device in part)]
            self.assertEqual((row.open, row.verdict), (bool(bare), "no 0 lead-at-ceiling"), row.seed)
            if bare:
                self.assertIn((row.last, row.last_rounds), [(device, None) for part in bare for device in part])
        self.assertTrue(0 < sum(row.open for row in found) < 60)

    def test_networks_that_fc_refuses_are_rows_too(self) -> None:
        words = ("--disk", 75, "--range", 40, "--set", "src=true@0", "--count", 30)
        found = rows.rows_of(self.sweep(*words), "rows.csv")
        for row in found:
            crowded = max(network.degrees(network.disk(75, 100, 40, row.seed)).values()) > 32
            self.assertEqual(row.verdict, "limit degree 33" if crowded else "yes", row.seed)
        self.assertTrue(0 < sum(row.refused for row in found) < 30)
        kept = rows.rows_of(self.sweep(*words, "--max-degree", 32, name="kept.csv"), "kept.csv")
        self.assertFalse(any(row.refused for row in kept))

    def test_what_else_fc_refuses_ends_the_sweep(self) -> None:
        def far(seed: int) -> int:
            return max([0, *(w for _, _, w in network.weighed(network.disk(2, 100, 150, seed), 1, 9, 20).links)])

        first = next(seed for seed in range(99) if far(seed) <= 3 < far(seed + 1))
        self.program = self.file(HOPS.replace("main", "metric 1..3; main"), "metric.fc")
        words = ("--disk", 2, "--range", 150, "--metric", "1..9", "--unit", 20, "--set", "src=true@0", "--seed", first)
        done = fieldc("sweep", self.program, *words, "--count", 9, "-o", "rows.csv", folder=self.folder)
        self.assertEqual((done.status, done.output), (3, ""))
        self.assertTrue(done.errors.startswith("fieldc: network /links/0 weight\n"), done.errors)

    def test_files_of_positions_and_links(self) -> None:
        points = self.file(
            "name,x,y,src\n" + "".join(f"m{d},{10 * d},0,{'true' if d == 0 else 'false'}\n" for d in range(6))
        )
        text = self.sweep("--points", points, "--range", 12, "--jitter", 1, "--count", 8)
        found = rows.rows_of(text, "rows.csv")
        self.assertTrue(all((row.devices, row.verdict) == (6, "yes") for row in found))
        self.assertEqual({row.links for row in found} | {5}, {5})
        words = (
            "--points",
            points,
            "--range",
            12,
            "--jitter",
            1,
            "--again",
            3,
            "-o",
            "net.json",
            "--positions",
            "at.csv",
        )
        self.assertEqual(fieldc("sweep", self.program, *words, folder=self.folder).status, 0)
        self.assertEqual((self.folder / "net.names.csv").read_text().splitlines()[1], "0,m0")
        places = [float(line.split(",")[1]) for line in (self.folder / "at.csv").read_text().splitlines()[1:]]
        self.assertTrue(all(0 < abs(x - 10 * d) <= 1 for d, x in enumerate(places)))
        edges = self.file("0 1\n1 2\n2 3\n3 0\n", "edges.txt")
        failing = ("--edges", edges, "--fail", 0.5, "--set", "src=true@0", "--count", 40)
        found = rows.rows_of(self.sweep(*failing, name="e.csv"), "e.csv")
        self.assertEqual({row.links for row in found} - {0, 1, 2, 3, 4}, set())
        self.assertGreater(len({row.links for row in found}), 2)
        for row in found:
            self.assertEqual(row.components, max(1, 4 - row.links))

    @needs("matplotlib")
    def test_the_report(self) -> None:
        words = ("--disk", "10..40", "--density", 40, "--range", 25, "--metric", "1..1", "--set", "src=true@random:2")
        text = self.sweep(
            *words, "--count", 40, "--title", "Hops & more", "--report", "page.html", "--report", "drawn.png"
        )
        self.assertEqual((self.folder / "drawn.png").read_bytes()[:4], b"\x89PNG")
        page = (self.folder / "page.html").read_text()
        found = rows.rows_of(text, "rows.csv")
        worst = sorted(found, key=lambda row: (-row.rounds, row.seed))[:10]
        for row in worst:
            self.assertIn(f"<tr><td>{row.seed}<td>{row.devices}<td>{row.links}<td>", page)
        for said in (
            "<h1>Hops &amp; more</h1>",
            "data:image/png;base64,iVBOR",
            "<h2>The slowest</h2>",
            "seeds 0 to 39",
        ):
            self.assertIn(said, page)
        again = next(line for line in page.splitlines() if line.endswith("--again SEED -o net.json</pre>"))
        called = again.split("hops.fc ")[1].split(" --again")[0].split(" ")
        self.assertEqual(sorted(called), sorted(map(str, words)))

    def test_a_line_says_how_far_it_is(self) -> None:
        words = ("sweep", self.program, *SHAPE, "--count", 150, "--workers", 2, "-o", self.folder / "rows.csv")
        said = on_a_terminal(*words, fc=self.slow(0.05))
        self.assertRegex(said, "fieldc: 150 deployments: [0-9]+ s, [1-9][0-9]* done, [0-9]+ a second, [0-9]+ s left")
        self.assertRegex(
            said, "fieldc sweep: 150 rows in [0-9.]+ s, [0-9.]+ CPU seconds in fc and [0-9.]+ outside"
        )

    def test_wrong_words_and_files(self) -> None:
        rows_of = {
            "--disk needs --range": ("--disk", 5, "-o", "rows.csv"),
            "--jitter needs --points, whose devices it moves": ("--line", 5, "--jitter", 2, "-o", "rows.csv"),
            "-o FILE is missing": ("--line", 5),
            "has to end in .csv": ("--line", 5, "-o", "rows.parquet"),
            "has to end in .svg or .png or .pdf or .html": ("--line", 5, "-o", "rows.csv", "--report", "rows.jpg"),
            "isn't a probability": ("--line", 5, "--fail", 1.5, "-o", "rows.csv"),
            "fc takes 1 to 1,024 devices": ("--line", "5..1025", "-o", "rows.csv"),
            "isn't NAME=VALUE": ("--line", 5, "--set", "src=true@random:x", "-o", "rows.csv"),
            "6 devices that are drawn, and there are 5": ("--line", 5, "--set", "src=true@random:6", "-o", "rows.csv"),
        }
        for said, words in rows_of.items():
            done = fieldc("sweep", self.program, *words, folder=self.folder)
            self.assertEqual((done.status, done.output), (2, ""), said)
            self.assertIn(said, done.errors)
        done = fieldc("sweep", self.program, "--line", 5, "-o", "rows.csv", folder=self.folder)
        self.assertEqual(done.status, 3)
        self.assertIn("device 0 has no src, which the program declares as an input", done.errors)
        load = self.file("ceiling 30; input load: int 0..20; main = sense load;\n", "load.fc")
        for wide, status in (("0..20", 0), ("0..21", 3), ("19..21", 3)):
            words = ("--line", 3, "--set", f"load={wide}", "--count", 2, "-o", "load.csv")
            done = fieldc("sweep", load, *words, folder=self.folder)
            self.assertEqual(done.status, status)
            if status:
                self.assertIn("load of device 0 is 21; it has to be a whole number from 0 to 20", done.errors)
        wrong = self.file("ceiling 10;\nmain = 1 == 2;\n", "wrong.fc")
        done = fieldc("sweep", wrong, "--line", 5, "-o", "rows.csv", folder=self.folder)
        self.assertEqual((done.status, done.output), (3, ""))
        self.assertTrue(done.errors.startswith("fieldc: syntax 2 2\n"))
        self.assertFalse((self.folder / "rows.csv").exists())
        done = fieldc("sweep", self.program, *SHAPE, "-o", "rows.csv", "--scheduler", "127.0.0.1:x", folder=self.folder)
        self.assertEqual((done.status, done.output), (2, ""))


@needs_fc
@needs("matplotlib", "networkx")
class Page(InFolder):
    """The commands of docs/sweep.md write what stands below them; what takes long is typed with three deployments."""

    SLOW = ("gradient",)

    def test_commands_write_what_stands_below_them(self) -> None:
        text = (TOP / "docs/sweep.md").read_text()
        commands = test_pages.commands_of(text)
        self.assertGreaterEqual(len(commands), 8)
        for command, _ in commands:
            if any(word in command for word in self.SLOW):
                self.assertTrue("--count 200" in command or command.startswith("sed "), command)
        short = [self.shortened(command, wanted) for command, wanted in commands]
        written = self.typed([command for command, _ in short])
        for (command, wanted), found in zip(short, written):
            if "--count 3 " in command:
                self.assertIn("settled, R half at most" if "| tail" in command else "settled 3, open 0 (0 %)", found)
            else:
                self.assertEqual(found, wanted, command)
        for name in test_pages.PICTURE.findall(text):
            self.assertGreaterEqual(test_pages.vivid(TOP / "docs/pictures" / name), 2, name)

    def shortened(self, command: str, wanted: str) -> tuple[str, str]:
        """A command that takes less, and what it writes, as far as that is known."""
        if any(word in command for word in self.SLOW):
            return command.replace("--count 200", "--count 3"), wanted
        if "in 16 20 24 28 32" in command:
            return command.replace("in 16 20 24 28 32", "in 28"), wanted.splitlines(keepends=True)[3]
        return command, wanted

    def typed(self, commands: list[str]) -> list[str]:
        """What each of some commands writes, typed one after the other in one shell."""
        for name in ("examples", "fieldc"):
            (self.folder / name).symlink_to(TOP / name)
        script = "".join(f"{command}\necho '{test_pages.MARK}'\n" for command in commands)
        environment = dict(os.environ, FC=program.find())
        shell = subprocess.run(
            ["bash"], cwd=self.folder, input=script, env=environment, capture_output=True, text=True, check=False
        )
        parts = shell.stdout.split(test_pages.MARK + "\n")
        self.assertEqual((len(parts), parts[-1]), (len(commands) + 1, ""), shell.stderr)
        return parts[:-1]


class Batches(unittest.TestCase):
    def test_a_worker_with_another_fc_is_refused(self) -> None:
        batch = questions.Batch(("row\n",), (0.1,), 0.1, "another")
        with mock.patch.object(running, "made_by", lambda: "another"):
            self.assertIs(running.checked(batch), batch)
        with mock.patch.object(running, "made_by", lambda: "this"):
            with self.assertRaisesRegex(Fault, "a worker has another fc"):
                running.checked(batch)

    def test_batches_cover_each_seed_once(self) -> None:
        for rule in (
            DISK,
            Rule("line", count=(10, 1000)),
            Rule("torus", sides=(3, 4)),
            Rule("edges", base=network.line(70)),
        ):
            found = list(running.batches(questions.Question(rule, "main = 1;"), 5, 333))
            self.assertEqual(
                [seed for first, count in found for seed in range(first, first + count)], list(range(5, 338))
            )


if __name__ == "__main__":
    unittest.main()
