"""Networks that are made by a rule or from a graph, beside those that networkx makes, and graphs that are no
networks."""

from __future__ import annotations

import itertools
import math
import random
import unittest
from typing import Any

from helping import needs

from fieldc import Fault, from_graph, networks as network, read_scene


def pairs(found: network.Network) -> set[frozenset[int]]:
    return {frozenset(link[:2]) for link in found.links}


@needs("networkx")
class ByRule(unittest.TestCase):
    def test_shapes_are_those_of_networkx(self) -> None:
        import networkx

        for width, height, closed in itertools.product((1, 2, 3, 5), (1, 2, 4), (False, True)):
            wanted = {
                frozenset(y * width + x for y, x in edge)
                for edge in networkx.grid_2d_graph(height, width, periodic=closed).edges
                if edge[0] != edge[1]
            }
            self.assertEqual(pairs(network.grid(width, height, closed)), wanted, (width, height, closed))
        for count in range(1, 8):
            self.assertEqual(pairs(network.line(count)), set(map(frozenset, networkx.path_graph(count).edges)))
        for count in range(3, 8):
            self.assertEqual(pairs(network.ring(count)), set(map(frozenset, networkx.cycle_graph(count).edges)))

    def test_range_links_exactly_those_within_it(self) -> None:
        dice = random.Random(4)
        places = {d: (dice.randrange(12), dice.randrange(12)) for d in range(60)}
        for reach in (0, 1, 2.5, 5):
            near = {
                frozenset(p) for p in itertools.combinations(places, 2) if math.dist(*(places[d] for d in p)) <= reach
            }
            self.assertEqual(pairs(network.in_range(places, reach)), near)

    def test_rings_have_sides_of_one(self) -> None:
        ring = network.ring(9)
        for a, b, _ in ring.links:
            self.assertAlmostEqual(math.dist(ring.positions[a], ring.positions[b]), 1)


class Changes(unittest.TestCase):
    def test_weights_are_distances_within_the_metric(self) -> None:
        found = network.weighed(network.in_range({0: (0, 0), 1: (3, 4), 2: (0, 1)}, 9), 1, 3, 2.0)
        self.assertEqual(found.links, ((0, 1, 2), (0, 2, 1), (1, 2, 2)))
        for low, high, unit in ((5, 1, 1.0), (1, 5, 0.0), (1, 5, math.nan)):
            with self.assertRaises(Fault):
                network.weighed(found, low, high, unit)

    def test_ranges_that_are_no_lengths(self) -> None:
        for reach in (-1.0, math.nan, math.inf):
            with self.assertRaises(Fault):
                network.in_range({0: (0, 0), 1: (1, 0)}, reach)

    def test_inputs(self) -> None:
        found = network.with_inputs(network.line(3), [("w", 4, None), ("w", 5, [1]), ("src", True, [2])])
        self.assertEqual(found.inputs[1], {"w": 5, "src": False})
        self.assertEqual(found.inputs[2], {"w": 4, "src": True})
        with self.assertRaisesRegex(Fault, "w isn't set on device 0"):
            network.with_inputs(network.line(2), [("w", 4, [1])])
        with self.assertRaisesRegex(Fault, "device 7, which doesn't exist"):
            network.with_inputs(network.line(2), [("src", True, [7])])

    def test_nearest_links_are_kept(self) -> None:
        star = network.shaped({0: (0, 0), **{d: (d, 0) for d in range(1, 41)}}, [(0, d) for d in range(1, 41)])
        with self.assertRaisesRegex(Fault, "--max-degree 32 keeps the nearest") as caught:
            network.within_limits(star)
        self.assertEqual(caught.exception.status, 4)
        kept = network.within_limits(network.nearest(star, 32))
        self.assertEqual([b for _, b, _ in kept.links], list(range(1, 33)))
        dice = random.Random(3)
        crowd = network.in_range({d: (dice.random(), dice.random()) for d in range(120)}, 0.5)
        thin = network.nearest(crowd, 7)
        self.assertLessEqual(max(network.degrees(thin).values()), 7)
        for a, b, _ in set(crowd.links) - set(thin.links):
            self.assertTrue(network.degrees(thin)[a] == 7 or network.degrees(thin)[b] == 7)

    def test_nothing_is_nearest_without_lengths(self) -> None:
        bare = network.Network({0: {}, 1: {}, 2: {}}, ((0, 1, 1), (0, 2, 1)))
        with self.assertRaisesRegex(Fault, "nearest"):
            network.nearest(bare, 1)
        self.assertEqual(network.nearest(network.Network(bare.inputs, ((0, 1, 9), (0, 2, 1))), 1).links, ((0, 2, 1),))

    def test_scenes_are_read_back(self) -> None:
        made = network.with_inputs(network.grid(3, 2), [("src", True, [4])])
        found = read_scene(made.scene())
        self.assertEqual((found.inputs, found.links), (made.inputs, made.links))

    def test_what_is_no_scene(self) -> None:
        right = '{"devices":[{"id":0,"inputs":{"w":1}},{"id":1,"inputs":{"w":1}}],"links":[[0,1,1]]}'
        self.assertEqual(len(read_scene(right).devices), 2)
        wrong = [
            "",
            "[]",
            "{}",
            "3",
            '{"devices":[],"links":[]}',
            right.replace("[0,1,1]", "[0,2,1]"),
            right.replace("[0,1,1]", "[0,0,1]"),
            right.replace("[0,1,1]", "[0,1]"),
            right.replace("[0,1,1]", "[0,1,1.5]"),
            right.replace("[0,1,1]", "[0,1,true]"),
            right.replace("[0,1,1]", "[0,1,-1]"),
            right.replace("[0,1,1]", "[0,1,1],[1,0,1]"),
            right.replace('"id":1', '"id":0'),
            right.replace('"id":1', '"id":"1"'),
            right.replace('"w":1', '"w":"1"'),
            right.replace('"w":1', '"w":1.5'),
            right.replace('"w":1', '"w":NaN'),
            right.replace('"id":1', '"id":1,"name":"mill"'),
            right.replace('"links"', '"more":1,"links"'),
        ]
        for text in wrong:
            with self.subTest(text), self.assertRaisesRegex(Fault, "isn't a scene"):
                read_scene(text)


PROGRAM = "ceiling 20; // input no: bool;\ninput src: bool; input w: int 1 .. 5; metric 2..9; main = 3;"


class Declarations(unittest.TestCase):
    def test_words_of_declarations(self) -> None:
        found = network.declared(PROGRAM)
        self.assertEqual(dict(found.inputs), {"src": None, "w": (1, 5)})
        self.assertEqual((found.metric, found.ceiling), ((2, 9), 20))
        self.assertEqual(network.declared("main = 3;").metric, (1, 1))

    def test_networks_are_judged(self) -> None:
        right = network.Network({0: {"src": True, "w": 5}, 1: {"src": False, "w": 1}}, ((0, 1, 2),))
        self.assertIs(network.judged(right, PROGRAM), right)
        wrong: dict[str, tuple[dict[str, network.Input], int]] = {
            "has no w": ({"src": True}, 2),
            "w of device 1 is 6": ({"src": True, "w": 6}, 2),
            "w of device 1 is True": ({"src": True, "w": True}, 2),
            "src of device 1 is 1": ({"src": 1, "w": 2}, 2),
            "has more": ({"src": True, "w": 2, "more": 1}, 2),
            "weighs 1": ({"src": True, "w": 2}, 1),
        }
        for said, (own, weight) in wrong.items():
            with self.subTest(said), self.assertRaisesRegex(Fault, said):
                network.judged(network.Network({0: right.inputs[0], 1: own}, ((0, 1, weight),)), PROGRAM)


@needs("networkx")
class Graphs(unittest.TestCase):
    def graph(self, **attributes: object) -> Any:
        import networkx

        graph = networkx.path_graph(3)
        networkx.set_node_attributes(graph, {node: {"src": node == 0, "w": 2, **attributes} for node in graph})
        networkx.set_edge_attributes(graph, 3, "weight")
        return graph

    def test_attributes_are_inputs_and_weights(self) -> None:
        found = from_graph(self.graph(pos=(1, 2.5), x="no"))
        self.assertEqual(found.inputs[0], {"src": True, "w": 2})
        self.assertEqual(found.links, ((0, 1, 3), (1, 2, 3)))
        self.assertEqual(found.positions[2], (1.0, 2.5))
        self.assertEqual(from_graph(self.graph(note="x"), PROGRAM).inputs[1], {"src": False, "w": 2})

    @needs("numpy")
    def test_values_of_numpy_are_taken(self) -> None:
        numpy = __import__("numpy")
        found = from_graph(self.graph(a=numpy.bool_(True), b=numpy.int64(4)))
        self.assertEqual(found.inputs[1], {"src": False, "w": 2, "a": True, "b": 4})
        self.assertIs(type(found.inputs[1]["a"]), bool)
        heavy = self.graph()
        heavy.edges[0, 1]["weight"], heavy.edges[1, 2]["weight"] = numpy.float32(4), numpy.int32(5)
        self.assertEqual(from_graph(heavy).links, ((0, 1, 4), (1, 2, 5)))

    def test_names_are_kept(self) -> None:
        import networkx

        graph = networkx.relabel_nodes(self.graph(), {0: "gate", 1: "door", 2: "roof"})
        found = from_graph(graph)
        self.assertEqual(found.names, {0: "gate", 1: "door", 2: "roof"})
        self.assertEqual(found.named({0: 5, 2: 7}), {"gate": 5, "roof": 7})
        numbers = from_graph(networkx.relabel_nodes(self.graph(), {0: "5", 1: "7", 2: "9"}))
        self.assertEqual((numbers.devices, numbers.names), ((5, 7, 9), {}))
        padded = from_graph(networkx.relabel_nodes(self.graph(), {0: "01", 1: "1", 2: "2"}))
        self.assertEqual((len(padded.devices), padded.names), (3, {0: "01", 1: "1", 2: "2"}))

    def test_there_and_back(self) -> None:
        made = from_graph(self.graph(pos=(1, 2)))
        self.assertEqual(from_graph(made.graph()), made)

    def test_graphs_that_are_no_networks(self) -> None:
        import networkx

        loop, mixed, half = self.graph(), self.graph(), self.graph()
        loop.add_edge(1, 1, weight=1)
        mixed.add_edge(0, 2)
        half.edges[0, 1]["weight"] = 2.5
        several = networkx.MultiGraph(self.graph())
        several.add_edge(0, 1, weight=4)
        clash = networkx.Graph([(1, "1")])
        one_way = networkx.DiGraph([(0, 1, {"weight": 1}), (1, 0, {"weight": 2})])
        wrong: dict[str, tuple[Any, dict[str, Any]]] = {
            "linked to itself": (loop, {}),
            "has no weight, but others have one": (mixed, {}),
            "weighs 2.5, and a weight is a whole number": (half, {}),
            "linked twice": (several, {}),
            "two devices are called 1": (clash, {}),
            "has no direction": (networkx.DiGraph(self.graph()), {}),
            "1 and 0 are linked twice": (one_way, {"undirected": True}),
            "k of device 0 is 1.5": (self.graph(k=1.5), {}),
            "k of device 0 is 'yes'": (self.graph(k="yes"), {}),
            "k of device 0 is -1": (self.graph(k=-1), {}),
            "x of device 0 is nan": (self.graph(pos=(math.nan, 0)), {}),
            "weighs 3, and a weight is from 4 to 5": (self.graph(), {"program": "metric 4..5; input src: bool;"}),
            "device 0 has no far": (self.graph(), {"program": "metric 1..5; input far: bool;"}),
            "src of device 0 is True; it has to be a whole": (
                self.graph(),
                {"program": "metric 1..5; input src: int 0..9;"},
            ),
        }
        for said, (graph, options) in wrong.items():
            with self.subTest(said), self.assertRaisesRegex(Fault, said) as caught:
                from_graph(graph, **options)
            self.assertEqual(caught.exception.status, 3)

    def test_rounding_and_direction_when_asked(self) -> None:
        import networkx

        half = self.graph()
        half.edges[0, 1]["weight"] = 2.6
        self.assertEqual(from_graph(half, rounds=True).links, ((0, 1, 3), (1, 2, 3)))
        self.assertEqual(from_graph(networkx.DiGraph(self.graph()), undirected=True).links, ((0, 1, 3), (1, 2, 3)))


if __name__ == "__main__":
    unittest.main()
