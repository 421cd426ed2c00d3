"""Each call of the library, beside what networkx computes of the same graph and the worked rows of the pages."""

from __future__ import annotations

import json
import unittest
from collections.abc import Callable
from typing import Any

from helping import HOPS, LINE, expected, needs, needs_fc, sections_of

import fieldc

FAR = 30
CLIMB = "ceiling 30; input src: bool; main = rep(30){(d) => minHoodLoc(nbr{d} + 1, mux(sense src, 0, 30))};"
LENGTHS = (
    "ceiling 200; metric 1..9; input src: bool; "
    "main = rep(200){(d) => minHoodLoc(nbr{d} + nbrLink, mux(sense src, 0, 200))};"
)


@needs_fc
@needs("networkx")
class BesideNetworkx(unittest.TestCase):
    def graph(self, seed: int = 5) -> Any:
        import networkx

        graph = networkx.random_geometric_graph(40, 0.25, seed=seed)
        networkx.set_node_attributes(graph, {node: node in (3, 17) for node in graph}, "src")
        networkx.set_edge_attributes(graph, {edge: 1 + sum(edge) % 9 for edge in graph.edges}, "weight")
        return graph

    def hops(self, graph: Any) -> dict[int, int]:
        import networkx

        lengths = [networkx.single_source_shortest_path_length(graph, source) for source in (3, 17)]
        return {node: min(found.get(node, FAR) for found in lengths) for node in graph}

    def test_stable_values_are_hop_counts(self) -> None:
        graph = self.graph()
        for _, _, data in graph.edges(data=True):
            del data["weight"]
        found = fieldc.stable(CLIMB, graph)
        self.assertIsNone(found.verdict)
        self.assertEqual(dict(found.values), self.hops(graph))

    def test_walks_are_as_long_as_their_values(self) -> None:
        import networkx

        graph = self.graph()
        found = fieldc.trace(LENGTHS, graph)
        lengths = [networkx.single_source_dijkstra_path_length(graph, source) for source in (3, 17)]
        wanted = {node: min(one.get(node, 200) for one in lengths) for node in graph}
        self.assertEqual(dict(found.values), wanted)
        assert found.walks is not None
        for node, walk in found.walks.items():
            if wanted[node] < 200:
                self.assertIn(walk[0], (3, 17))
                self.assertEqual(walk[-1], node)
                self.assertEqual(networkx.path_weight(graph, list(walk), "weight"), wanted[node])

    def test_a_run_comes_to_the_stable_values_after_its_settle_time(self) -> None:
        graph = self.graph()
        lengths = CLIMB.replace("input", "metric 1..9; input")
        settled = fieldc.settle(lengths, graph)
        assert settled.rounds is not None
        ran = fieldc.run(lengths, graph, ["scramble 4", "show", f"run {settled.rounds}", "show"], workers=3)
        self.assertEqual(
            [(show.line, show.rounds, show.edited) for show in ran.shows], [(2, 0, True), (4, settled.rounds, True)]
        )
        self.assertEqual(dict(ran.shows[1].values), self.hops(graph))
        self.assertEqual(dict(settled.values), self.hops(graph))
        self.assertEqual(ran.verdict, settled.verdict)
        self.assertLessEqual(settled.rounds, settled.verdict.rounds or 0)

    def test_a_log_is_replayed(self) -> None:
        graph = self.graph()
        lengths = CLIMB.replace("input", "metric 1..9; input")
        ran = fieldc.run(lengths, graph, "run 3\nshow\n", log=True, table=True)
        assert ran.log is not None
        again = fieldc.replay(lengths, graph, ran.log, rounds=True, table=True)
        self.assertEqual((dict(again.values), again.rounds), (dict(ran.shows[0].values), 3))
        self.assertEqual(again.table, ran.table)
        scene = json.loads(fieldc.from_graph(graph, lengths).scene()) | {"table": dict(ran.table or {})}
        self.assertEqual(dict(fieldc.replay(lengths, scene, []).values), dict(again.values))


@needs_fc
class WorkedRows(unittest.TestCase):
    def test_check(self) -> None:
        self.assertEqual(fieldc.check(HOPS, LINE), fieldc.Checked(fieldc.Verdict("yes 22", rounds=22)))
        facts = fieldc.check(
            "ceiling 10; main = 3 + uid;", '{"devices":[{"id":0,"inputs":{}}],"links":[]}', facts=True
        ).facts
        self.assertEqual(
            [(fact.operator, fact.range) for fact in facts], [("+", "3..10"), ("3", "3..3"), ("uid", "0..10")]
        )
        no = fieldc.check(
            "ceiling 10; main = rep(0){(x) => x + 1};", '{"devices":[{"id":0,"inputs":{}}],"links":[]}'
        ).verdict
        self.assertEqual((no.place, no.reason, no.stabilises), (0, "unguarded", False))

    def test_settle(self) -> None:
        found = fieldc.settle(HOPS, LINE)
        self.assertEqual(
            (found.rounds, dict(found.by_device), dict(found.values)), (5, {0: 1, 1: 3, 2: 5}, {0: 0, 1: 1, 2: 2})
        )
        rows = [{"id": d, "kept": [[0, d], [4, d]], "value": d} for d in range(3)]
        scene = json.loads(LINE) | {"table": {"format": 2, "rows": rows}}
        scene["devices"][2]["inputs"]["src"] = True
        moved = fieldc.settle(HOPS, scene, from_table=True)
        self.assertEqual((moved.rounds, dict(moved.by_device)), (1, {0: 0, 1: 0, 2: 1}))
        self.assertTrue(moved.from_table)
        climbing = fieldc.settle(
            "ceiling 10; main = rep(0){(x) => maxHoodLoc(nbr{x}, 0)};",
            '{"devices":[{"id":0,"inputs":{}},{"id":1,"inputs":{}}],"links":[[0,1,1]]}',
        )
        self.assertTrue(climbing.open)

    def test_stable_trace_and_no_walks(self) -> None:
        self.assertEqual(dict(fieldc.stable(HOPS, LINE).values), {0: 0, 1: 1, 2: 2})
        self.assertEqual(dict(fieldc.trace(HOPS, LINE).walks or {}), {0: (0,), 1: (0, 1), 2: (0, 1, 2)})
        self.assertIsNone(fieldc.trace("ceiling 10; input src: bool; main = 3;", LINE).walks)
        no = fieldc.stable(HOPS.replace("+ 1", "+ 0"), LINE)
        assert no.verdict is not None
        self.assertEqual((no.verdict.reason, dict(no.values)), ("growth-zero", {}))

    def test_replay_of_the_first_example(self) -> None:
        program, scene, log = sections_of("two_devices.txt")
        self.assertEqual(dict(fieldc.replay(program, scene, log).values), {0: 5, 1: 2})
        self.assertEqual(dict(fieldc.replay(program, json.loads(scene), log.split()).values), {0: 5, 1: 2})

    def test_runs_with_edits(self) -> None:
        program, scene, script = sections_of("crowd_run.txt")
        found = fieldc.run(program, scene, script)
        self.assertEqual(found, with_values(program, scene, script))
        self.assertEqual([at for at, _ in found.verdicts], [1, 1])

    def test_mail(self) -> None:
        program, scene, log = sections_of("lossy_line.txt")
        text = expected("lossy_line").splitlines()
        found = fieldc.mail(program, scene, log)
        self.assertEqual([f"{d} {v}" for d, v in found.values.items()] + [f"rounds {found.rounds}"], text)
        driven = fieldc.mail(HOPS, LINE, number=7)
        self.assertEqual(
            (dict(driven.values), driven.verdict), ({0: 0, 1: 1, 2: 2}, fieldc.Verdict("yes 22", rounds=22))
        )
        with self.assertRaises(ValueError):
            fieldc.mail(HOPS, LINE)
        with self.assertRaises(ValueError):
            fieldc.mail(HOPS, LINE, "", number=3)

    def test_format(self) -> None:
        self.assertEqual(
            fieldc.format("ceiling 10 ; main=(1+2)*sumHood(nbr{ 1 });"),
            "ceiling 10;\nmain = (1 + 2) * sumHood(nbr{1});\n",
        )

    def test_generate(self) -> None:
        found = fieldc.generate(7)
        self.assertEqual(
            (found.devices, found.verdict.rounds, found.firings, found.agree, found.sum), (64, 130, 8320, 64, 1024)
        )
        self.assertEqual(fieldc.generate(2, devices=3, workers=1).devices, 3)

    def test_networks_in_each_form(self) -> None:
        made = fieldc.read_scene(LINE)
        for given in (LINE, json.loads(LINE), made):
            self.assertEqual(dict(fieldc.stable(HOPS, given).values), {0: 0, 1: 1, 2: 2})

    def test_refusals_have_word_and_line(self) -> None:
        wrong: dict[str, tuple[Callable[[], object], int]] = {
            "syntax 2 1": (lambda: fieldc.format("ceiling 10; main = 1 == 2;"), 3),
            "types 2 mismatch": (lambda: fieldc.check("ceiling 10; main = 1 + true;", LINE), 3),
            "json": (lambda: fieldc.check("ceiling 10; main = 1;", "{"), 3),
            "network /devices/0/inputs/src input-type": (lambda: fieldc.check(HOPS, LINE.replace("true", "4")), 3),
            "log 1 form": (lambda: fieldc.replay(HOPS, LINE, "begin 0\n"), 3),
            "script 2 no-device": (lambda: fieldc.run(HOPS, LINE, ["run 1", "leave 8"]), 3),
            "limit workers 17": (lambda: fieldc.run(HOPS, LINE, "show", workers=17), 4),
            "limit scrambles 5": (lambda: fieldc.run(HOPS, LINE, ["scramble 1"] * 5), 4),
        }  # fmt: skip
        for line, (call, status) in wrong.items():
            with self.subTest(line), self.assertRaises(fieldc.Refusal) as caught:
                call()
            self.assertEqual((caught.exception.line, caught.exception.status), (line, status))
            self.assertEqual(caught.exception.word, line.split(" ")[0])
            self.assertTrue(caught.exception.explanation.what)
        with self.assertRaisesRegex(fieldc.Refusal, "usage") as caught:
            fieldc.generate(1, devices=2)
        self.assertEqual((caught.exception.status, caught.exception.word), (2, "usage"))


def with_values(program: str, scene: str, script: str) -> fieldc.Ran:
    """The run of an example as its expected text says it, with rounds since the last edit counted by hand."""
    from fieldc.results import Show, ran
    from dataclasses import replace

    found = ran(expected("crowd_run"))
    shows = [Show(show.line, show.values, 402, True) for show in found.shows]
    return replace(found, shows=tuple(shows))


if __name__ == "__main__":
    unittest.main()
