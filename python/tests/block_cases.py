"""What the tests of the blocks share: three networks, and calls of every block with the values that are expected."""

from __future__ import annotations

import csv
import json
import random
from collections.abc import Callable
from dataclasses import dataclass, field
from pathlib import Path
from typing import Any

import block_values as v
import networkx as nx

ROOT = Path(__file__).resolve().parent.parent.parent
CEILING = 1000
HEAD = (
    "language 2; ceiling 1000; metric 1..9;\n"
    "input source: bool; input goal: bool; input beacon: bool; input blocked: bool; input here: bool; "
    "input value: int 0..20;\n"
)
TRUTHS = ("source", "goal", "beacon", "blocked", "here")
NAMES = (*TRUTHS, "value")
MOST = {"source": 3, "goal": 1, "beacon": 5, "blocked": 4, "here": 8}


@dataclass(frozen=True)
class Scene:
    """A network with the inputs of HEAD; `inputs` has for each name a value for each device."""

    name: str
    net: v.Net
    inputs: dict[str, dict[int, Any]]

    def __getattr__(self, name: str) -> dict[int, Any]:
        try:
            return self.inputs[name]
        except KeyError:
            raise AttributeError(name) from None

    def text(self, names: tuple[str, ...] = NAMES) -> str:
        """The scene in JSON, with some of its inputs."""
        devices = [{"id": d, "inputs": {name: self.inputs[name][d] for name in names}} for d in self.net.devices]
        links = [[a, b, data[v.WEIGHT]] for a, b, data in self.net.graph.edges(data=True)]
        return json.dumps({"devices": devices, "links": links})

    def same(self, number: int) -> dict[int, int]:
        """The same number at each device."""
        return self.net.each(lambda d: number)


def read_scene_text(name: str, text: str) -> Scene:
    """A scene of a text in JSON."""
    read = json.loads(text)
    graph = nx.Graph()
    graph.add_nodes_from(device["id"] for device in read["devices"])
    graph.add_weighted_edges_from(read["links"])
    names = read["devices"][0]["inputs"]
    inputs = {name: {device["id"]: device["inputs"][name] for device in read["devices"]} for name in names}
    return Scene(name, v.Net(graph, CEILING), inputs)


def thrown(name: str, graph: nx.Graph, seed: int, **truths: set[int]) -> Scene:
    """A graph with weights of 1 to 9 and values of 0 to 20 by dice; the named truths hold at the named devices."""
    dice = random.Random(seed)
    for a, b in graph.edges:
        graph[a][b][v.WEIGHT] = dice.randint(1, 9)
    inputs: dict[str, dict[int, int]] = {key: {d: d in truths[key] for d in graph} for key in truths}
    inputs["value"] = {d: dice.randint(0, 20) for d in sorted(graph)}
    return Scene(name, v.Net(graph, CEILING), inputs)


def grid() -> Scene:
    """24 devices, six in each of four rows, numbered row by row."""
    graph = nx.convert_node_labels_to_integers(nx.grid_2d_graph(4, 6), ordering="sorted")
    here = {2, 3, 8, 9, 10, 14, 20}
    return thrown("grid", graph, 3, source={0, 17}, goal={23}, beacon={1, 16, 22}, blocked={8, 9, 14}, here=here)


def split() -> Scene:
    """A ring of 14 devices; apart from it a tree of 9, and ten devices that are all linked; the numbers have gaps."""
    ring = nx.relabel_nodes(nx.cycle_graph(14), lambda d: 63 - 3 * d)
    tree = nx.relabel_nodes(nx.balanced_tree(2, 2), lambda d: 4 * d + 1)
    tree.add_edges_from([(25, 29), (29, 31)])
    dense = nx.relabel_nodes(nx.complete_graph(10), lambda d: 2 * d + 2)
    whole = nx.union_all([ring, tree, dense])
    here = {33, 36, 39, 5, 1, 13, 2, 8}
    return thrown("split", whole, 5, source={63}, goal={42}, beacon={63, 39, 5}, blocked={60, 5, 20}, here=here)


def tossed(seed: int) -> Scene:
    """A network by dice: 8 to 28 devices with any numbers below 64, in one part or in several."""
    dice = random.Random(seed)
    count = dice.randint(8, 28)
    graph = nx.gnp_random_graph(count, dice.choice([0.08, 0.15, 0.3]), seed=seed)
    numbers = dice.sample(range(64), count)
    some = {name: set(dice.sample(numbers, dice.randint(0, most))) for name, most in MOST.items()}
    return thrown(f"tossed {seed}", nx.relabel_nodes(graph, dict(enumerate(numbers))), seed, **some)


def spread(seed: int) -> v.Net:
    """A network for leaders: 20 to 64 devices thrown into a square, with any numbers below 64."""
    dice = random.Random(seed)
    count = dice.randint(20, 64)
    graph = nx.random_geometric_graph(count, dice.choice([0.15, 0.2, 0.3]), seed=seed)
    return v.Net(nx.relabel_nodes(graph, dict(enumerate(dice.sample(range(64), count)))), CEILING)


def scenes() -> list[Scene]:
    """The network of docs/blocks.md, a grid, and one in two parts."""
    page = ROOT / "examples" / "blocks_network.json"
    return [read_scene_text("page", page.read_text()), grid(), split()]


def positions() -> dict[int, tuple[float, float]]:
    """Where the devices of the network of docs/blocks.md are."""
    rows = csv.DictReader((ROOT / "examples" / "blocks_positions.csv").open())
    return {int(row["id"]): (float(row["x"]), float(row["y"])) for row in rows}


@dataclass(frozen=True)
class Case:
    """A call of a block, with the values that it gives on a scene.

    `known` has what its K speaks of beside the arguments: `w`, `m` and `values`.
    """

    call: str
    values: Callable[[Scene], dict[int, Any]]
    known: dict[str, int] = field(default_factory=dict)

    @property
    def block(self) -> str:
        return self.call.split("(")[0]


def entering(s: Scene) -> dict[int, dict[int, int]]:
    """The step from each neighbour of a device: the neighbour's value and 1."""
    return s.net.each(lambda d: {near: s.value[near] + 1 for near in s.net.graph[d]})


def counts(s: Scene, truths: dict[int, int]) -> dict[int, int]:
    return s.net.each(lambda d: int(truths[d]))


def hops12(s: Scene) -> dict[int, int]:
    return v.hops(s.net, s.source, 12)


def metres(s: Scene) -> dict[int, int]:
    return v.distance(s.net, s.source, 60)


def level(s: Scene) -> dict[int, int]:
    return v.crowding(s.net, s.beacon, s.here, 12, 2, 5)


HOPS, METRES = "hops(sense source, 12)", "distance(sense source, 60)"
LEVEL = "crowding(sense beacon, sense here, 12, 2, 5)"

CASES = (
    Case(HOPS, hops12),
    Case("hops(sense source, 3)", lambda s: v.hops(s.net, s.source, 3)),
    Case(METRES, metres),
    Case("distance(sense goal, 9)", lambda s: v.distance(s.net, s.goal, 9)),
    Case(
        "distanceBy(sense source, 200, nbr{sense value} + 1)",
        lambda s: v.distanceBy(s.net, s.source, 200, entering(s)),
    ),
    Case("distanceSlow(sense source, 60, 2)", lambda s: v.distanceSlow(s.net, s.source, 60, 2), {"m": 1}),
    Case("hopsAround(sense source, sense blocked, 16)", lambda s: v.hopsAround(s.net, s.source, s.blocked, 16)),
    Case("distanceAround(sense source, sense blocked, 80)", lambda s: v.distanceAround(s.net, s.source, s.blocked, 80)),
    Case("broadcast(sense source, sense value, 12, 99)", lambda s: v.broadcast(s.net, s.source, s.value, 12, 99)),
    Case("broadcast(sense beacon, sense value, 2, 99)", lambda s: v.broadcast(s.net, s.beacon, s.value, 2, 99)),
    Case("nearest(sense beacon, 12, 99)", lambda s: v.nearest(s.net, s.beacon, 12, 99)),
    Case("nearest(sense beacon, 2, 99)", lambda s: v.nearest(s.net, s.beacon, 2, 99)),
    Case("nearestByHops(sense beacon, 12, 99)", lambda s: v.nearestByHops(s.net, s.beacon, 12, 99)),
    Case("nearestByHops(sense beacon, 2, 99)", lambda s: v.nearestByHops(s.net, s.beacon, 2, 99)),
    Case("nearestByDistance(sense beacon, 60, 99)", lambda s: v.nearestByDistance(s.net, s.beacon, 60, 99)),
    Case("nearestByDistance(sense beacon, 8, 99)", lambda s: v.nearestByDistance(s.net, s.beacon, 8, 99)),
    Case(f"parent({HOPS})", lambda s: v.parent(s.net, hops12(s))),
    Case("parent(hops(sense beacon, 2))", lambda s: v.parent(s.net, v.hops(s.net, s.beacon, 2))),
    Case(f"parentIn(sense value, {HOPS})", lambda s: v.parentIn(s.net, s.value, hops12(s))),
    Case(f"nextHop({METRES})", lambda s: v.nextHop(s.net, metres(s))),
    Case(f"away({HOPS}, 12)", lambda s: v.away(s.net, hops12(s), 12)),
    Case(
        f"greatestAlong({METRES}, 0, sense value)",
        lambda s: v.greatestAlong(s.net, metres(s), s.same(0), s.value),
        {"values": 61},
    ),
    Case(
        f"sumAlong({METRES}, 0, sense value)",
        lambda s: v.sumAlong(s.net, metres(s), s.same(0), s.value),
        {"values": 61},
    ),
    Case(f"forecast({METRES}, sense blocked)", lambda s: v.forecast(s.net, metres(s), s.blocked), {"values": 61}),
    Case(f"onWay({HOPS}, 12, sense goal)", lambda s: v.onWay(s.net, hops12(s), 12, s.goal)),
    Case("distanceBetween(sense goal, sense beacon, 12)", lambda s: v.distanceBetween(s.net, s.goal, s.beacon, 12)),
    Case("channel(sense goal, sense source, 12, 1)", lambda s: v.channel(s.net, s.goal, s.source, 12, 1)),
    Case("evacuate(sense source, sense blocked, 1, 16)", lambda s: v.evacuate(s.net, s.source, s.blocked, 1, 16)),
    Case("evacuate(sense source, sense goal, 3, 16)", lambda s: v.evacuate(s.net, s.source, s.goal, 3, 16)),
    Case("widest8(sense source, sense value, 16)", lambda s: v.widest8(s.net, s.source, s.value, 16)),
    Case("widest8(sense source, sense value - 10, 16)", lambda s: v.widest8(s.net, s.source, lessened(s, 10), 16)),
    Case(f"collectSum({HOPS}, 12, sense value)", lambda s: v.collectSum(s.net, hops12(s), 12, s.value)),
    Case(f"collectMax({HOPS}, 12, sense value)", lambda s: v.collectMax(s.net, hops12(s), 12, s.value)),
    Case(f"collectMin({HOPS}, 12, sense value)", lambda s: v.collectMin(s.net, hops12(s), 12, s.value)),
    Case(f"collectAny({HOPS}, 12, sense blocked)", lambda s: v.collectAny(s.net, hops12(s), 12, s.blocked)),
    Case(f"collectAll({HOPS}, 12, sense here)", lambda s: v.collectAll(s.net, hops12(s), 12, s.here)),
    Case("summariseSum(sense goal, 12, sense value)", lambda s: v.summariseSum(s.net, s.goal, 12, s.value)),
    Case("summariseMax(sense goal, 12, sense value)", lambda s: v.summariseMax(s.net, s.goal, 12, s.value)),
    Case("mean(sense goal, 12, sense value)", lambda s: v.mean(s.net, s.goal, 12, s.value)),
    Case("size(sense goal, 12)", lambda s: v.size(s.net, s.goal, 12)),
    Case("eccentricity(sense goal, 12)", lambda s: v.eccentricity(s.net, s.goal, 12)),
    Case("majority(sense goal, 12, sense here)", lambda s: v.majority(s.net, s.goal, 12, s.here)),
    Case("majority(sense goal, 12, sense value < 13)", lambda s: v.majority(s.net, s.goal, 12, below(s, 13))),
    Case("anywhere(sense goal, 12)", lambda s: v.anywhere(s.net, s.goal, 12)),
    Case("everywhere(sense value < 21, 12)", lambda s: v.everywhere(s.net, below(s, 21), 12)),
    Case("everywhere(sense value < 20, 12)", lambda s: v.everywhere(s.net, below(s, 20), 12)),
    Case("leastOf64(sense value + 3, 12)", lambda s: v.leastOf64(s.net, s.net.each(lambda d: s.value[d] + 3), 12)),
    Case("leastOf1024(sense value * 37 + 3, 12)", lambda s: v.leastOf1024(s.net, scaled(s), 12)),
    Case("leastOf1024(uid * 9, 12)", lambda s: v.leastOf1024(s.net, s.net.each(lambda d: d * 9), 12)),
    Case("greatestOf64(sense value, 12)", lambda s: v.greatestOf64(s.net, s.value, 12)),
    Case("fadingMax(sense value, 20)", lambda s: v.fadingMax(s.net, s.value, 20)),
    Case("leader(12)", lambda s: v.leader(s.net, 12)),
    Case("leaderPacked(12, 63)", lambda s: v.leaderPacked(s.net, 12, 63)),
    Case("regionSum(sense beacon, 12, sense value)", lambda s: v.regionSum(s.net, s.beacon, 12, s.value)),
    Case("regionSum(sense beacon, 3, sense value)", lambda s: v.regionSum(s.net, s.beacon, 3, s.value)),
    Case("regionSum(sense beacon, 1, sense value)", lambda s: v.regionSum(s.net, s.beacon, 1, s.value)),
    Case("regionMean(sense beacon, 12, sense value)", lambda s: v.regionMean(s.net, s.beacon, 12, s.value)),
    Case("regionMean(sense beacon, 2, sense value)", lambda s: v.regionMean(s.net, s.beacon, 2, s.value)),
    Case("regionMean(sense beacon, 1, sense value)", lambda s: v.regionMean(s.net, s.beacon, 1, s.value)),
    Case("ruling(not sense blocked, 2)", lambda s: v.ruling(s.net, unblocked(s), 2)),
    Case("rulingOf1024(not sense blocked, 2)", lambda s: v.rulingOf1024(s.net, unblocked(s), 2)),
    Case("sparse(2)", lambda s: v.sparse(s.net, 2)),
    Case("heads(uid)", lambda s: v.heads(s.net, s.net.uid()), {"values": CEILING + 1}),
    Case("heads(100 - uid)", lambda s: v.heads(s.net, s.net.each(lambda d: 100 - d)), {"values": 101}),
    Case("colour(uid)", lambda s: v.colour(s.net, s.net.uid()), {"values": CEILING + 1}),
    Case("timer(sense here, 20)", lambda s: v.timer(s.net, s.here, 20)),
    Case("countDown(sense here, 20)", lambda s: v.countDown(s.net, s.here, 20)),
    Case("recently(sense here, 20)", lambda s: v.recently(s.net, s.here, 20)),
    Case("density(sense here)", lambda s: v.density(s.net, s.here)),
    Case(LEVEL, level),
    Case(f"crowdWarning({LEVEL}, 3)", lambda s: v.crowdWarning(s.net, level(s), 3)),
    Case(f"dispersal({LEVEL}, 12)", lambda s: v.dispersal(s.net, level(s), 12)),
    Case("div(sense value * 37, uid)", lambda s: v.div(s.net, s.net.each(lambda d: s.value[d] * 37), s.net.uid())),
    Case("div(sense value * 37, sense value)", lambda s: v.div(s.net, s.net.each(lambda d: s.value[d] * 37), s.value)),
    Case("rest(sense value * 37, uid)", lambda s: v.rest(s.net, s.net.each(lambda d: s.value[d] * 37), s.net.uid())),
)


def unblocked(s: Scene) -> dict[int, bool]:
    return s.net.each(lambda d: not s.blocked[d])


def scaled(s: Scene) -> dict[int, int]:
    return s.net.each(lambda d: s.value[d] * 37 + 3)


def below(s: Scene, bound: int) -> dict[int, bool]:
    return s.net.each(lambda d: s.value[d] < bound)


def lessened(s: Scene, by: int) -> dict[int, int]:
    return s.net.each(lambda d: max(0, s.value[d] - by))
