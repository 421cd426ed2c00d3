"""`fc stable` on some two hundred devices, beside hop counts, lengths and numbers of walks that networkx finds."""

from __future__ import annotations

import json
import os
import subprocess
import unittest

import networkx as nx
from helping import needs_fc

DEVICES = 196
ROW = 14
CEILING = 200
SOURCES = {0, 90, 180}
SOURCE = "mux(sense src, 0, 200)"
HEAD = "language 2; ceiling 200; input src: bool; metric 1..9; main = "
HOPS = HEAD + f"rep(200){{(d) => minHoodLoc(nbr{{d}} + 1, {SOURCE})}};"
LENGTHS = HEAD + f"share(200){{(d) => minHoodLoc(d + nbrLink, {SOURCE})}};"
WALKS = (
    HEAD + f"let p = rep(200){{(d) => minHoodLoc(nbr{{d}} + nbrLink, {SOURCE})}} in "
    "rep(0){(x) => 1 + sumHood(mux(nbr{p} < p, nbr{x}, 0))};"
)


def graphs() -> dict[str, nx.Graph]:
    """A line, a ring, a grid and a tree, with weights by the greater device of a link."""
    grid = nx.grid_2d_graph(DEVICES // ROW, ROW)
    found = {
        "line": nx.path_graph(DEVICES),
        "ring": nx.cycle_graph(DEVICES),
        "grid": nx.convert_node_labels_to_integers(grid, ordering="sorted"),
        "tree": nx.full_rary_tree(2, DEVICES),
    }
    for graph in found.values():
        for a, b in graph.edges:
            graph[a][b]["weight"] = max(a, b) % 9 + 1
    return found


def lengths(graph: nx.Graph) -> dict[int, int]:
    """The length of a shortest way from a source, as far as the ceiling."""
    found = nx.multi_source_dijkstra_path_length(graph, SOURCES)
    return {device: min(found[device], CEILING) for device in graph}


def hops(graph: nx.Graph) -> dict[int, int]:
    """The least number of links from a source."""
    found = [nx.single_source_shortest_path_length(graph, source) for source in SOURCES]
    return {device: min(from_one[device] for from_one in found) for device in graph}


def walks(graph: nx.Graph) -> dict[int, int]:
    """How many walks lead downhill in length, that of no step among them."""
    down, found = lengths(graph), dict[int, int]()
    for device in sorted(graph, key=down.__getitem__):
        found[device] = min(1 + sum(found[near] for near in graph[device] if down[near] < down[device]), CEILING)
    return found


def scene(graph: nx.Graph) -> str:
    devices = [{"id": device, "inputs": {"src": device in SOURCES}} for device in sorted(graph)]
    return json.dumps({"devices": devices, "links": [[a, b, data["weight"]] for a, b, data in graph.edges(data=True)]})


def stable(program: str, network: str) -> str:
    words, text = [os.environ["FC"], "stable"], f"{program}\n%%\n{network}\n"
    return subprocess.run(words, input=text, capture_output=True, text=True, check=False).stdout


@needs_fc
class Fields(unittest.TestCase):
    def test_stable_finds_the_fields(self) -> None:
        for name, graph in graphs().items():
            fields = {HOPS: hops(graph), LENGTHS: lengths(graph), WALKS: walks(graph)}
            for program, field in fields.items():
                with self.subTest(graph=name, program=program):
                    wanted = "".join(f"{device} {value}\n" for device, value in sorted(field.items()))
                    self.assertEqual(stable(program, scene(graph)), wanted)


if __name__ == "__main__":
    unittest.main()
