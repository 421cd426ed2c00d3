"""What the blocks of library/ stand for, found another way: by walks, sets and sums on a networkx graph.

Nothing here fires a device or hears a neighbour. Arguments and results are values by device; `far`, `limit` and the
like are numbers. The functions have the names and the order of arguments of the blocks.
"""

from __future__ import annotations

from collections.abc import Callable
from dataclasses import dataclass
from typing import Any

import networkx as nx

Field = dict[int, int]
Truths = dict[int, bool]
WEIGHT = "weight"


@dataclass(frozen=True)
class Net:
    """A network: an undirected graph whose links have a `weight`, and the greatest integer of its programs."""

    graph: nx.Graph
    ceiling: int

    @property
    def devices(self) -> list[int]:
        """The devices, rising."""
        return sorted(self.graph)

    def each(self, value: Callable[[int], Any]) -> dict[int, Any]:
        """A value for each device."""
        return {device: value(device) for device in self.devices}

    def uid(self) -> Field:
        """The device numbers."""
        return self.each(lambda d: d)


def where(truths: Truths) -> set[int]:
    """The devices at which it is true."""
    return {device for device, holds in truths.items() if holds}


def ways(net: Net, sources: set[int], weight: str | None) -> dict[int, float]:
    """The length of a least way from a source to each device that one reaches, in hops without a weight."""
    if not sources:
        return {}
    found = nx.multi_source_dijkstra_path_length(net.graph, sources, weight=weight or (lambda a, b, data: 1))
    return dict(found)


def cut(net: Net, lengths: dict[int, float], far: int) -> Field:
    """Lengths as a field: far at most, and where there is none."""
    return net.each(lambda d: min(lengths.get(d, far), far))


def close_to(net: Net, far: int) -> dict[int, set[int]]:
    """For each device those that are nearer than far hops, itself among them."""
    return net.each(lambda d: set(nx.single_source_shortest_path_length(net.graph, d, cutoff=far - 1)))


def hops(net: Net, source: Truths, far: int) -> Field:
    return cut(net, ways(net, where(source), None), far)


def distance(net: Net, source: Truths, far: int) -> Field:
    return cut(net, ways(net, where(source), WEIGHT), far)


def distanceBy(net: Net, source: Truths, far: int, step: dict[int, Field]) -> Field:
    """`step` has for each device the step from each of its neighbours."""
    directed = nx.DiGraph()
    directed.add_nodes_from(net.devices)
    directed.add_edges_from((near, d, {WEIGHT: step[d][near]}) for d in net.devices for near in net.graph[d])
    return cut(net, ways(Net(directed, net.ceiling), where(source), WEIGHT), far)


def distanceSlow(net: Net, source: Truths, far: int, speed: int) -> Field:
    return distance(net, source, far)


def without(net: Net, blocked: Truths) -> Net:
    return Net(net.graph.subgraph(set(net.devices) - where(blocked)), net.ceiling)


def hopsAround(net: Net, source: Truths, blocked: Truths, far: int) -> Field:
    free = without(net, blocked)
    return cut(net, ways(free, where(source) & set(free.devices), None), far)


def distanceAround(net: Net, source: Truths, blocked: Truths, far: int) -> Field:
    free = without(net, blocked)
    return cut(net, ways(free, where(source) & set(free.devices), WEIGHT), far)


def least_by(net: Net, source: Truths, value: Field, far: int, weight: str | None) -> dict[int, tuple[int, int] | None]:
    """For each device the length to its nearest source, and the least value of the sources that are so near."""
    found: dict[int, tuple[int, int] | None] = {device: None for device in net.devices}
    for start in where(source):
        for device, length in ways(net, {start}, weight).items():
            own, before = (int(length), value[start]), found[device]
            if length < far and (before is None or own < before):
                found[device] = own
    return found


def broadcast(net: Net, source: Truths, value: Field, far: int, none: int) -> Field:
    found = least_by(net, source, value, far, None)
    return net.each(lambda d: (found[d] or (far, none))[1])


def nearestByHops(net: Net, source: Truths, far: int, none: int) -> dict[int, tuple[int, int]]:
    found = least_by(net, source, net.uid(), far, None)
    return net.each(lambda d: found[d] or (far, none))


def nearestByDistance(net: Net, source: Truths, far: int, none: int) -> dict[int, tuple[int, int]]:
    found = least_by(net, source, net.uid(), far, WEIGHT)
    return net.each(lambda d: found[d] or (far, none))


def nearest(net: Net, source: Truths, far: int, none: int) -> Field:
    found = nearestByHops(net, source, far, none)
    return net.each(lambda d: found[d][1])


def lower(net: Net, p: Field, device: int) -> list[int]:
    return [near for near in net.graph[device] if p[near] < p[device]]


def parent(net: Net, p: Field) -> Field:
    return net.each(lambda d: min(lower(net, p, d), key=lambda near: (p[near], near), default=d))


def parentIn(net: Net, region: Field, p: Field) -> Field:
    inside = net.graph.edge_subgraph((a, b) for a, b in net.graph.edges if region[a] == region[b]).copy()
    inside.add_nodes_from(net.devices)
    return parent(Net(inside, net.ceiling), p)


def nextHop(net: Net, p: Field) -> Field:
    def length(d: int, near: int) -> int:
        return p[near] + int(net.graph[d][near][WEIGHT])

    return net.each(lambda d: min(lower(net, p, d), key=lambda near: (length(d, near), near), default=d))


def away(net: Net, p: Field, far: int) -> Field:
    higher = net.each(lambda d: [near for near in net.graph[d] if p[near] > p[d]])
    return net.each(lambda d: min(higher[d], key=lambda near: (-p[near], near), default=d))


def way_down(net: Net, p: Field, device: int, up: Field) -> list[int]:
    """The devices from one to where its way down ends."""
    way = [device]
    while up[way[-1]] != way[-1] and p[up[way[-1]]] < p[way[-1]]:
        way.append(up[way[-1]])
    return way


def along(net: Net, p: Field, start: Field, own: Field, gather: Callable[[int, int], int]) -> Field:
    """What is gathered from where no neighbour is lower; of several least ways that with the least outcome counts."""
    found: Field = {}
    for device in sorted(net.devices, key=lambda d: p[d]):
        links = net.graph[device]
        choices = [(p[near] + links[near][WEIGHT], gather(found[near], own[device])) for near in lower(net, p, device)]
        found[device] = min(choices)[1] if choices else start[device]
    return found


def greatestAlong(net: Net, p: Field, start: Field, own: Field) -> Field:
    return along(net, p, start, own, max)


def sumAlong(net: Net, p: Field, start: Field, own: Field) -> Field:
    return along(net, p, start, own, lambda told, here: min(told + here, net.ceiling))


def forecast(net: Net, p: Field, hazard: Truths) -> Truths:
    ones = net.each(lambda d: int(hazard[d]))
    found = greatestAlong(net, p, ones, ones)
    return net.each(lambda d: found[d] == 1)


def onWay(net: Net, p: Field, far: int, start: Truths) -> Truths:
    up = parent(net, p)
    met = {device for begin in where(start) for device in way_down(net, p, begin, up)}
    return net.each(lambda d: d in met)


def distanceBetween(net: Net, a: Truths, b: Truths, far: int) -> Field:
    return broadcast(net, a, hops(net, b, far), far, far)


def channel(net: Net, a: Truths, b: Truths, far: int, width: int) -> Truths:
    apart = distanceBetween(net, a, b, far)
    both = net.each(lambda d: hops(net, a, far)[d] + hops(net, b, far)[d])
    return net.each(lambda d: apart[d] < far and both[d] <= apart[d] + width)


def evacuate(net: Net, exit: Truths, hazard: Truths, margin: int, far: int) -> Field:
    near = hops(net, hazard, margin)
    out = hopsAround(net, exit, net.each(lambda d: near[d] < margin), far)
    return parent(net, net.each(lambda d: far + margin - near[d] if near[d] < margin else out[d]))


def widest8(net: Net, source: Truths, load: Field, far: int) -> Field:
    reached = [hopsAround(net, source, net.each(lambda d: load[d] > most), far) for most in range(8)]
    return net.each(lambda d: next((most for most in range(8) if reached[most][d] < far), 8))


def collectSum(net: Net, p: Field, far: int, value: Field) -> Field:
    up = parent(net, p)
    found = net.each(lambda d: 0)
    for device in net.devices:
        for met in way_down(net, p, device, up):
            found[met] = min(found[met] + value[device], net.ceiling)
    return found


def drawn(net: Net, p: Field) -> dict[int, set[int]]:
    """For each device those from which some way down leads to it, itself among them."""
    down = nx.DiGraph()
    down.add_nodes_from(net.devices)
    down.add_edges_from((d, near) for d in net.devices for near in lower(net, p, d))
    return net.each(lambda d: nx.ancestors(down, d) | {d})


def collectMax(net: Net, p: Field, far: int, value: Field) -> Field:
    above = drawn(net, p)
    return net.each(lambda d: max(value[met] for met in above[d]))


def collectMin(net: Net, p: Field, far: int, value: Field) -> Field:
    above = drawn(net, p)
    return net.each(lambda d: min(value[met] for met in above[d]))


def collectAny(net: Net, p: Field, far: int, value: Truths) -> Truths:
    above = drawn(net, p)
    return net.each(lambda d: any(value[met] for met in above[d]))


def collectAll(net: Net, p: Field, far: int, value: Truths) -> Truths:
    above = drawn(net, p)
    return net.each(lambda d: all(value[met] for met in above[d]))


def reached(net: Net, sink: Truths) -> dict[int, set[int]]:
    """For each device the devices of its part of the network, or none where no sink is in it."""
    parts = {device: part for part in nx.connected_components(net.graph) for device in part}
    return net.each(lambda d: parts[d] if parts[d] & where(sink) else set())


def summariseSum(net: Net, sink: Truths, far: int, value: Field) -> Field:
    parts = reached(net, sink)
    return net.each(lambda d: min(sum(value[met] for met in parts[d]), net.ceiling))


def summariseMax(net: Net, sink: Truths, far: int, value: Field) -> Field:
    parts = reached(net, sink)
    return net.each(lambda d: max((value[met] for met in parts[d]), default=0))


def mean(net: Net, sink: Truths, far: int, value: Field) -> Field:
    parts = reached(net, sink)
    return net.each(lambda d: sum(value[met] for met in parts[d]) // max(1, len(parts[d])))


def size(net: Net, sink: Truths, far: int) -> Field:
    parts = reached(net, sink)
    return net.each(lambda d: len(parts[d]))


def eccentricity(net: Net, sink: Truths, far: int) -> Field:
    lengths, parts = ways(net, where(sink), None), reached(net, sink)
    return net.each(lambda d: int(max((lengths[met] for met in parts[d]), default=0)))


def majority(net: Net, sink: Truths, far: int, voice: Truths) -> Truths:
    parts = reached(net, sink)
    return net.each(lambda d: len(where(voice) & parts[d]) * 2 > len(parts[d]))


def anywhere(net: Net, b: Truths, far: int) -> Truths:
    near = close_to(net, far)
    return net.each(lambda d: bool(near[d] & where(b)))


def everywhere(net: Net, b: Truths, far: int) -> Truths:
    near = close_to(net, far)
    return net.each(lambda d: near[d] <= where(b))


def leastOf64(net: Net, value: Field, far: int) -> Field:
    near = close_to(net, far)
    return net.each(lambda d: min(value[met] for met in near[d]))


def leastOf1024(net: Net, value: Field, far: int) -> Field:
    return leastOf64(net, value, far)


def greatestOf64(net: Net, value: Field, far: int) -> Field:
    near = close_to(net, far)
    return net.each(lambda d: max(value[met] for met in near[d]))


def leader(net: Net, far: int) -> Field:
    near = close_to(net, far)
    return net.each(lambda d: min(near[d]))


def leaderPacked(net: Net, far: int, ids: int) -> Field:
    near = close_to(net, far + 1)
    return net.each(lambda d: min(near[d]))


def fadingMax(net: Net, value: Field, top: int) -> Field:
    lengths = {d: ways(net, {d}, None) for d in net.devices}
    return net.each(lambda d: int(max(max(value[far] - length, 0) for far, length in lengths[d].items())))


def regions(net: Net, leader: Truths, far: int) -> dict[int, set[int]]:
    """For each device those that have the same nearest leader, or none where no leader is near."""
    near = nearest(net, leader, far, -1)
    return net.each(lambda d: {met for met in net.devices if near[met] == near[d] != -1})


def regionSum(net: Net, leader: Truths, far: int, value: Field) -> Field:
    inside = regions(net, leader, far)
    return net.each(lambda d: sum(value[met] for met in inside[d]))


def regionMean(net: Net, leader: Truths, far: int, value: Field) -> Field:
    inside = regions(net, leader, far)
    return net.each(lambda d: sum(value[met] for met in inside[d]) // max(1, len(inside[d])))


def ruling(net: Net, able: Truths, grain: int, bits: int = 6) -> Truths:
    near, left = close_to(net, grain + 1), where(able)
    for bit in reversed([2**place for place in range(bits)]):
        low = {device for device in left if not device & bit}
        left = low | {device for device in left if not near[device] & low}
    return net.each(lambda d: d in left)


def rulingOf1024(net: Net, able: Truths, grain: int) -> Truths:
    return ruling(net, able, grain, 10)


def sparse(net: Net, grain: int) -> Truths:
    near = close_to(net, grain + 1)
    chosen: set[int] = set()
    for _ in range(3):
        able = net.each(lambda d: not near[d] & chosen)
        chosen = chosen | where(ruling(net, able, grain))
    return net.each(lambda d: d in chosen)


def heads(net: Net, p: Field) -> Truths:
    chosen: set[int] = set()
    for device in sorted(net.devices, key=lambda d: p[d]):
        if not chosen & set(net.graph[device]):
            chosen.add(device)
    return net.each(lambda d: d in chosen)


def colour(net: Net, p: Field) -> Field:
    order = sorted(net.devices, key=lambda d: p[d])
    chosen = nx.greedy_color(net.graph, strategy=lambda graph, colours: order)
    return net.each(lambda d: min(chosen[d], 8))


def timer(net: Net, reset: Truths, limit: int) -> Field:
    return net.each(lambda d: 0 if reset[d] else limit)


def countDown(net: Net, reset: Truths, limit: int) -> Field:
    return net.each(lambda d: limit if reset[d] else 0)


def recently(net: Net, event: Truths, span: int) -> Truths:
    return dict(event)


def density(net: Net, here: Truths) -> Field:
    return net.each(lambda d: len(where(here) & ({d} | set(net.graph[d]))))


def crowding(net: Net, leader: Truths, here: Truths, far: int, least: int, most: int) -> Field:
    people = regionSum(net, leader, far, net.each(lambda d: int(here[d])))
    dense = density(net, here)
    return net.each(lambda d: 0 if dense[d] < least else 2 if people[d] >= most else 1)


def crowdWarning(net: Net, level: Field, reach: int) -> Truths:
    return anywhere(net, net.each(lambda d: level[d] >= 2), reach)


def dispersal(net: Net, level: Field, far: int) -> Field:
    return away(net, hops(net, net.each(lambda d: level[d] >= 2), far), far)


def div(net: Net, a: Field, b: Field) -> Field:
    return net.each(lambda d: min(a[d] // b[d], 255) if b[d] else min(255, net.ceiling))


def rest(net: Net, a: Field, b: Field) -> Field:
    times = div(net, a, b)
    return net.each(lambda d: a[d] - times[d] * b[d])
