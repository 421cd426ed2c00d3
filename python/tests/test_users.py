"""The library as users of networkx, numpy, scipy, pandas and notebooks expect it: what it takes, and what results can
do. Expected values are hop counts of networkx, or written down by hand."""

from __future__ import annotations

import copy
import json
import pickle
import tempfile
import unittest
from concurrent.futures import ProcessPoolExecutor
from dataclasses import asdict
from pathlib import Path
from typing import Any

from helping import HOPS, LINE, TOP, needs, needs_fc

import fieldc
from fieldc import results
from fieldc.kept import Kept

METRIC = HOPS.replace("input", "metric 1..9; input").replace("nbr{d} + 1", "nbr{d} + nbrLink")


def some_results() -> list[fieldc.answers.Answer]:
    """A result of each kind, with what it is of where it has values."""
    of = fieldc.answers.Origin(HOPS, fieldc.read_scene(LINE))
    return [
        results.checked("yes 22\n0 let int 3..6 1\n"),
        results.settled("no 4 nested\nopen\n0 1 (0,true)\n1 -\n2 5 (2,false)\n"),
        results.stable("0 0\n1 (1,true)\n2 -\n"),
        results.Traced(results.verdict_of("yes 22"), Kept({0: 0, 1: 1}), Kept({0: (0,), 1: (0, 1)}), of=of),
        results.ran('yes 22\n@2\n0 0\n1 -\nlog\nB0\nE0\n{"format":2,"rows":[{"id":0,"kept":[[0,1]],"value":0}]}\n'),
        results.replayed("0 0\n1 -\nrounds 2\n"),
        results.mailed("yes 22\n0 0\n1 1\nrounds 2\n"),
        results.generated("number 3\ndevices 4\nverdict yes 7\nfirings 28\nagree 4\nsum 5\n"),
    ]


class Results(unittest.TestCase):
    def test_pickled_copied_hashed_and_as_dictionaries(self) -> None:
        for one in some_results():
            with self.subTest(type(one).__name__):
                for again in (pickle.loads(pickle.dumps(one)), copy.copy(one), copy.deepcopy(one)):
                    self.assertEqual((again, hash(again)), (one, hash(one)))
                self.assertIsInstance(json.dumps(asdict(one)["verdict"] if hasattr(one, "verdict") else {}), str)
                self.assertEqual(asdict(one)["of"] is None, one.of is None)
        self.assertEqual(asdict(results.stable("0 0\n1 1\n"))["values"], {0: 0, 1: 1})

    def test_they_can_t_be_changed(self) -> None:
        kept: Any = Kept({0: 1})
        for change in (
            lambda: kept.update({0: 2}),
            lambda: kept.__setitem__(0, 2),
            lambda: kept.pop(0),
            lambda: kept.setdefault(1, 2),
            kept.clear,
        ):
            with self.assertRaises(TypeError):
                change()
        self.assertEqual(kept, {0: 1})

    def test_truth_is_the_yes_or_an_error(self) -> None:
        for text, wanted in (("yes 22\n", True), ("no 4 nested\n", False)):
            self.assertIs(bool(results.verdict_of(text.strip())), wanted)
            self.assertIs(bool(results.checked(text)), wanted)
            self.assertIs(bool(results.settled(text + "settles 0\n0 0 3\n")), wanted)
            self.assertIs(bool(results.stable("" if wanted else text)), wanted)
            self.assertIs(bool(results.ran(text)), wanted)
        for one in (results.replayed("0 0\n"), results.mailed("0 0\nrounds 1\n")):
            with self.assertRaisesRegex(TypeError, "has no verdict"):
                bool(one)

    @needs("pandas")
    def test_tables(self) -> None:
        frame = results.settled("yes 9\nsettles 5\n0 1 0\n1 5 7\n").to_frame()
        self.assertEqual((frame.index.name, list(frame.index)), ("device", [0, 1]))
        self.assertEqual(frame.to_dict("list"), {"value": [0, 7], "rounds": [1, 5]})
        self.assertEqual(str(frame["value"].dtype), "int64")
        gaps = results.settled("no 4 nested\nopen\n0 1 true\n1 -\n").to_frame()
        self.assertEqual([str(kind) for kind in gaps.dtypes], ["boolean", "Int64"])
        pairs = results.stable("0 (1,true)\n").to_frame()
        self.assertEqual(pairs["value"][0], (1, True))
        shows = some_results()[4].to_frame()
        self.assertEqual(shows[["line", "device"]].to_dict("list"), {"line": [2, 2], "device": [0, 1]})
        self.assertEqual(some_results()[3].to_frame()["walk"][1], (0, 1))
        self.assertEqual(some_results()[0].to_frame()["operator"][0], "let")
        self.assertEqual(some_results()[7].to_frame()["rounds"][3], 7)
        named = results.Stable(Kept({(0, 1): 3, "<b>": 4})).to_frame()
        self.assertEqual(list(named.index), [(0, 1), "<b>"])

    @needs("matplotlib")
    def test_notebooks(self) -> None:
        shown = [(one._repr_html_(), one._repr_png_()) for one in some_results()]
        self.assertIn("<code>no 4 nested, open</code>", shown[1][0])
        self.assertIn("<td>1</td><td>-</td><td>-</td>", shown[1][0])
        drawn = shown[3]
        assert drawn[1] is not None
        self.assertEqual(drawn[1][:4], b"\x89PNG")
        self.assertIn("data:image/png;base64,iVBOR", drawn[0])
        self.assertEqual([png is None for _, png in shown], [True] * 3 + [False] + [True] * 4)
        self.assertIn("&lt;b&gt;", results.Stable(Kept({"<b>": 4}))._repr_html_())


class Taken(unittest.TestCase):
    """What is taken as a network: each is the line of three devices, the first a source."""

    inputs = {"src": {"a": True, 0: True, "b": False, "c": False, 1: False, 2: False}}

    def scene(self, network: Any, program: str = HOPS, **more: Any) -> Any:
        return json.loads(fieldc.given.given(network, program, **more).scene)

    @needs("networkx", "numpy", "scipy")
    def test_each_kind(self) -> None:
        import networkx
        import numpy
        import scipy.sparse

        graph = networkx.path_graph(["a", "b", "c"])
        matrix = numpy.array([[0, 1, 0], [1, 0, 1], [0, 1, 0]])
        wanted = json.loads(LINE)
        ways: dict[str, Any] = {
            "graph": graph,
            "node-link data": networkx.node_link_data(graph),
            "node-link data with edges": {
                "nodes": [{"id": "a"}, {"id": "b"}, {"id": "c"}],
                "edges": [{"source": "a", "target": "b"}, {"source": "b", "target": "c"}],
            },
            "adjacency list": {"a": ["b"], "b": ["a", "c"], "c": []},
            "adjacency of dictionaries": networkx.to_dict_of_dicts(graph),
            "adjacency with weights": {"a": {"b": 1}, "b": {"c": 1}, "c": {}},
            "array": matrix,
            "sparse array": scipy.sparse.csr_array(matrix),
            "sparse matrix": scipy.sparse.coo_matrix(matrix),
        }
        for name, network in ways.items():
            with self.subTest(name):
                self.assertEqual(self.scene(network, inputs=self.inputs), wanted)

    @needs("networkx")
    def test_files(self) -> None:
        import networkx

        graph = networkx.path_graph(["a", "b", "c"])
        with tempfile.TemporaryDirectory() as kept:
            folder = Path(kept)
            networkx.write_graphml(graph, folder / "g.graphml")
            (folder / "g.json").write_text(json.dumps(networkx.node_link_data(graph)))
            (folder / "line.json").write_text(LINE)
            (folder / "edges.txt").write_text("a b\nb c\n")
            for name in ("g.graphml", "g.json", "edges.txt"):
                for path in (folder / name, str(folder / name)):
                    self.assertEqual(self.scene(path, inputs=self.inputs), json.loads(LINE), name)
            self.assertEqual(self.scene(folder / "line.json"), json.loads(LINE))
            with self.assertRaises(fieldc.Fault):
                self.scene(str(folder / "none.json"))

    def test_what_is_nothing_of_the_kind(self) -> None:
        for wrong in (7, None, [1, 2], [(0, 1)], {"a": 3}, {"a": "b"}, object()):
            with self.subTest(repr(wrong)), self.assertRaisesRegex(TypeError, "a network is a graph of networkx"):
                self.scene(wrong)

    @needs("networkx", "numpy")
    def test_refusals_say_what_to_pass(self) -> None:
        import networkx
        import numpy

        graph = networkx.path_graph(3)
        weighed = networkx.path_graph(3)
        weighed[0][1]["weight"] = 2
        one_way = numpy.array([[0, 1], [0, 0]])
        two = {0: {1: 2}, 1: {0: 3}}
        for said, network, program in (
            (r"pass inputs=\{'src': False\}", graph, HOPS),
            ("pass weight=1", weighed, METRIC),
            ("links 0 to 1 but not 1 to 0", one_way, HOPS),
            ("the link of 1 and 0 has two weights: 2 and 3", two, METRIC),
            (r"from_graph\(.., undirected=True\)", networkx.DiGraph([(0, 1)]), HOPS),
        ):
            inputs = None if "inputs" in said else {"src": False}
            with self.subTest(said), self.assertRaisesRegex(fieldc.Fault, said):
                self.scene(network, program, inputs=inputs)

    @needs("networkx")
    def test_weights_and_inputs_with_defaults(self) -> None:
        import networkx

        graph = networkx.path_graph(3)
        graph[0][1]["weight"] = 2
        graph[1][2]["metres"] = 5
        graph.nodes[0]["src"] = True
        found = self.scene(graph, METRIC, weight=1, inputs={"src": False})
        self.assertEqual(found["links"], [[0, 1, 2], [1, 2, 1]])
        self.assertEqual([device["inputs"]["src"] for device in found["devices"]], [True, False, False])
        graph[0][1]["metres"] = 3
        self.assertEqual(self.scene(graph, METRIC, weight="metres", inputs={"src": False})["links"][0], [0, 1, 3])


class Made(unittest.TestCase):
    """Networks that the library makes."""

    def test_positions(self) -> None:
        places = {"a": (0, 0), "b": (3, 4), "c": (6, 8)}
        made = fieldc.network(points=places, range=5, inputs={"src": {"a": True}, "load": 4})
        self.assertEqual((made.links, dict(made.names)), (((0, 1, 1), (1, 2, 1)), {0: "a", 1: "b", 2: "c"}))
        self.assertEqual(made.inputs[0], {"src": True, "load": 4})
        self.assertEqual(fieldc.network(points=[(0, 0), (3, 4)], range=4).links, ())
        self.assertEqual(fieldc.network(points=places, range=5, metric=(1, 9)).links[0], (0, 1, 5))
        with tempfile.TemporaryDirectory() as kept:
            file = Path(kept) / "at.csv"
            file.write_text("id,x,y,src\n0,0,0,true\n1,3,4,false\n")
            self.assertEqual(fieldc.network(points=file, range=5, program=HOPS).inputs[0], {"src": True})

    @needs("pandas")
    def test_a_table(self) -> None:
        import pandas

        frame = pandas.DataFrame({"x": [0, 3], "y": [0, 4], "src": [True, False], "note": ["n", "s"]}, ["a", "b"])
        made = fieldc.network(points=frame, range=5, program=HOPS)
        self.assertEqual((made.inputs[0], made.called(1), made.links), ({"src": True}, "b", ((0, 1, 1),)))

    def test_rules(self) -> None:
        self.assertEqual(len(fieldc.network(grid=(3, 2)).links), 7)
        self.assertEqual(len(fieldc.network(torus=(3, 3)).links), 18)
        self.assertEqual(fieldc.network(line=3, weight=4).links, ((0, 1, 4), (1, 2, 4)))
        for wrong in ({}, {"line": 2, "ring": 3}, {"points": {0: (0, 0)}}):
            with self.assertRaises(TypeError):
                fieldc.network(**wrong)  # type: ignore[arg-type]
        for size in (50_000_000, 0):
            with self.assertRaisesRegex(fieldc.Fault, "fc takes 1 to 1,024"):
                fieldc.network(line=size)

    @needs("matplotlib")
    def test_drawing_on_axes(self) -> None:
        from matplotlib.figure import Figure

        axes = Figure().subplots(1, 2)
        drawn = fieldc.draw(some_results()[3], ax=axes[0], title="Hops", marks=["src"])
        self.assertIs(drawn, axes[0])
        self.assertEqual(axes[0].get_title(), "Hops")
        self.assertTrue({"0", "1"} <= {text.get_text() for text in axes[0].texts})
        fieldc.draw(fieldc.network(grid=(2, 2)), ax=axes[1])
        self.assertGreater(len(axes[1].collections), 0)
        with self.assertRaises(fieldc.Fault):
            fieldc.draw(results.checked("yes 3\n"), ax=axes[0])

    def test_no_public_type_is_any(self) -> None:
        """The names of types that functions, methods and parts of classes have; `Inputs` and `Networks` say why not."""
        looked = 0
        for name in fieldc.__all__:
            thing = getattr(fieldc, name)
            parts = [thing, *vars(thing).values()] if isinstance(thing, type) else [thing]
            for part in parts:
                for key, kind in getattr(part, "__annotations__", {}).items():
                    self.assertNotRegex(str(kind), r"\bAny\b", f"{name} {key}")
                    looked += 1
        self.assertGreater(looked, 150)

    def test_version(self) -> None:
        self.assertIn(f'VERSION = "{fieldc.__version__}"', (TOP / "python/fieldc/version.py").read_text())


@needs_fc
class Asked(unittest.TestCase):
    @needs("networkx")
    def test_results_have_the_nodes_of_the_graph(self) -> None:
        import networkx

        graph = networkx.grid_2d_graph(3, 2)
        hops = networkx.single_source_shortest_path_length(graph, (0, 0))
        inputs = {"src": {(0, 0): True, **{node: False for node in graph if node != (0, 0)}}}
        found = fieldc.settle(HOPS, graph, inputs=inputs)
        self.assertEqual(found.values, hops)
        self.assertEqual(set(found.by_device), set(graph))
        self.assertEqual(fieldc.stable(HOPS, graph, inputs=inputs).values[(2, 1)], 3)
        walk = (fieldc.trace(HOPS, graph, inputs=inputs).walks or {})[(2, 1)]
        self.assertEqual((walk[0], walk[-1], len(walk)), ((0, 0), (2, 1), 4))
        shown = fieldc.run(HOPS, graph, ["run 22", "show"], inputs=inputs)
        self.assertEqual(shown.shows[0].values, hops)
        assert found.of is not None
        self.assertEqual(found.of.network.nodes[5], (2, 1))

    def test_the_table_of_a_run_goes_back(self) -> None:
        ran = fieldc.run(HOPS, LINE, ["run 22", "show"], table=True)
        assert ran.table is not None
        settled = fieldc.settle(HOPS, LINE, from_table=ran.table)
        self.assertEqual((settled.by_device, settled.from_table), ({0: 0, 1: 0, 2: 0}, True))

    def test_other_processes(self) -> None:
        with ProcessPoolExecutor(2) as pool:
            found = list(pool.map(fieldc.stable, [HOPS] * 2, [LINE] * 2))
        self.assertEqual([one.values for one in found], [{0: 0, 1: 1, 2: 2}] * 2)

    def test_composing(self) -> None:
        text = "language 2; ceiling 10; input src: bool; main = hops(sense src, 10);"
        self.assertEqual(fieldc.stable(fieldc.compose(text), LINE).values, {0: 0, 1: 1, 2: 2})
        with self.assertRaises(fieldc.Fault):
            fieldc.compose(text.replace("hops(", "hopps("))


if __name__ == "__main__":
    unittest.main()
