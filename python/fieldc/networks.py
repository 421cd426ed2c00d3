"""Networks: devices with inputs, weighted links, positions and names; made by a rule, from a graph, or read from a
scene."""

from __future__ import annotations

import json
import math
import numbers
import operator
import random
import re
from collections.abc import Hashable, Iterable, Iterator, Mapping, Sequence
from dataclasses import dataclass, field, replace
from typing import TYPE_CHECKING, Any, Protocol, TypeVar, Union, runtime_checkable

from .refusals import Fault

if TYPE_CHECKING:
    import networkx

GREATEST_DEVICE = 65_535
GREATEST_NUMBER = 1_000_000
MOST_DEVICES = 1_024
MOST_LINKS = 32
PLACES = ("x", "y", "pos", "position", "label", "name", "id")

Input = Union[int, bool]
Position = tuple[float, float]
Pair = tuple[int, int]
Found = TypeVar("Found")

Json = Union[None, bool, int, float, str, "list[Json]", "dict[str, Json]"]
"""A value of JSON."""


@runtime_checkable
class Graph(Protocol):
    """A graph of networkx."""

    @property
    def nodes(self) -> Any:
        ...

    @property
    def edges(self) -> Any:
        ...

    def is_directed(self) -> bool:
        ...


@dataclass(frozen=True)
class Declared:
    """What a program declares of its network.

    `inputs` has for each input its least and greatest value, or nothing for a truth value; `metric` the least and
    greatest weight of a link. It is read from the words of the declarations alone; `fc` judges the program.
    """

    inputs: Mapping[str, Pair | None]
    metric: Pair
    ceiling: int | None


@dataclass(frozen=True)
class Network:
    """A network.

    `inputs` has each device, in ascending order, with its inputs; `links` each link once as `(a, b, weight)`.
    `positions` are there for all devices or for none; `names` are what the devices were called in the file or graph,
    where these were no numbers, and `nodes` the nodes of that graph, where they aren't the numbers. `state` may have
    the `table` and the `pending` firings of a scene, as they stand in its JSON.
    """

    inputs: Mapping[int, Mapping[str, Input]]
    links: tuple[tuple[int, int, int], ...]
    positions: Mapping[int, Position] = field(default_factory=dict)
    names: Mapping[int, str] = field(default_factory=dict)
    state: Mapping[str, object] = field(default_factory=dict)
    nodes: Mapping[int, Hashable] = field(default_factory=dict)

    @property
    def devices(self) -> tuple[int, ...]:
        """The numbers of the devices, in ascending order."""
        return tuple(self.inputs)

    def called(self, device: int) -> str:
        """The name of a device, or its number where it has none."""
        return self.names.get(device, str(device))

    def named(self, values: Mapping[int, Found]) -> dict[str, Found]:
        """Values by the names of the devices."""
        return {self.called(device): value for device, value in values.items()}

    def scene(self) -> str:
        """The scene in JSON, with a line for each device and link, and one for its table and for its pending
        firings."""

        def short(part: Any) -> str:
            return json.dumps(part, separators=(",", ":"))

        def in_lines(items: list[str]) -> str:
            return "[\n  " + ",\n  ".join(items) + "]" if items else "[]"

        devices = in_lines([json.dumps({"id": device, "inputs": dict(own)}) for device, own in self.inputs.items()])
        rest = "".join(f',\n "{name}": {short(part)}' for name, part in self.state.items())
        return f'{{"devices": {devices},\n "links": {in_lines([short(link) for link in self.links])}{rest}}}\n'

    def graph(self) -> networkx.Graph:
        """The network as a networkx graph of numbers: inputs, `pos` and `name` on nodes, `weight` on edges."""
        import networkx

        graph = networkx.Graph()
        for device, own in self.inputs.items():
            graph.add_node(device, **own)
            if device in self.positions:
                graph.nodes[device]["pos"] = self.positions[device]
            if device in self.names:
                graph.nodes[device]["name"] = self.names[device]
        graph.add_weighted_edges_from(self.links)
        return graph


def declared(program: str) -> Declared:
    """What a program's text declares of its network."""
    text = re.sub(r"//[^\n]*", "", program)
    inputs: dict[str, Pair | None] = {}
    for name, kind, low, high in re.findall(r"\binput\s+(\w+)\s*:\s*(?:(bool)|int\s+(\d+)\s*\.\.\s*(\d+))", text):
        inputs[name] = None if kind else (int(low), int(high))
    metric = re.search(r"\bmetric\s+(\d+)\s*\.\.\s*(\d+)", text)
    ceiling = re.search(r"\bceiling\s+(\d+)", text)
    span = (int(metric[1]), int(metric[2])) if metric else (1, 1)
    return Declared(inputs, span, int(ceiling[1]) if ceiling else None)


def numbered(names: Sequence[Any]) -> tuple[dict[Any, int], dict[int, str]]:
    """The number of each device by its name in a file or graph, and the names by number.

    Names that are all whole numbers up to 65,535 are the numbers; else devices are numbered from 0 in their order, and
    their names are kept. Raises Fault if two have one name.
    """
    words = [str(name) for name in names]
    if len(set(words)) < len(words):
        twice = next(word for place, word in enumerate(words) if word in words[:place])
        raise Fault(f"two devices are called {twice}", 3)
    if all(re.fullmatch("0|[1-9][0-9]{0,4}", word) and int(word) <= GREATEST_DEVICE for word in words):
        return {name: int(word) for name, word in zip(names, words)}, {}
    return {name: place for place, name in enumerate(names)}, dict(enumerate(words))


def plain(value: Any) -> Any:
    """A truth value or whole number of numpy or of a file as Python's own; anything else as it is."""
    if isinstance(value, bool) or type(value).__name__ in ("bool_", "bool"):
        return bool(value)
    try:
        return operator.index(value)
    except TypeError:
        return value


def kind_of(span: Pair | None) -> str:
    """How the type of a declared input is said."""
    return "true or false" if span is None else f"a whole number from {span[0]} to {span[1]}"


def fitting(value: Any, span: Pair | None, where: str) -> Input:
    """A value of a declared input. Raises Fault, which names `where`, if it isn't of the input's type and range."""
    found = plain(value)
    truth = isinstance(found, bool)
    if truth != (span is None) or not isinstance(found, int) or (span and not span[0] <= found <= span[1]):
        raise Fault(f"{where} is {value!r}; it has to be {kind_of(span)}", 3)
    return found


def input_of(value: Any, where: str) -> Input:
    """A value of an input of which nothing is declared. Raises Fault, which names `where`, if it can't be one."""
    found = plain(value)
    if not isinstance(found, int) or not 0 <= found <= GREATEST_NUMBER:
        raise Fault(
            f"{where} is {value!r}, and an input is true, false or a whole number from 0 to {GREATEST_NUMBER:,}", 3
        )
    return found


def weight_of(value: Any, where: str, rounds: bool = False, span: Pair = (0, GREATEST_NUMBER)) -> int:
    """The weight of a link; with `rounds` it is rounded to a whole number.

    Raises Fault, which names `where`, if it is no whole number, or outside `span`.
    """
    found = plain(value)
    if isinstance(found, str):
        try:
            found = int(found) if found.isdigit() else float(found)
        except ValueError:
            raise Fault(f"{where} weighs {value!r}, which isn't a number", 3) from None
    if isinstance(found, bool) or not isinstance(found, numbers.Real) or not math.isfinite(found):
        raise Fault(f"{where} weighs {value!r}, which isn't a number", 3)
    if found != int(found) and not rounds:
        raise Fault(
            f"{where} weighs {value!r}, and a weight is a whole number: "
            "round it (--round, or from_graph(.., rounds=True)), or scale the weights",
            3,
        )
    if not span[0] <= round(found) <= span[1]:
        raise Fault(f"{where} weighs {value!r}, and a weight is from {span[0]:,} to {span[1]:,}", 3)
    return round(found)


def finite(value: Any, where: str) -> float:
    """A number that is finite. Raises Fault, which names `where`, for any other."""
    try:
        found = float(value)
    except (TypeError, ValueError):
        raise Fault(f"{where} is {value!r}, which isn't a number", 3) from None
    if not math.isfinite(found):
        raise Fault(f"{where} is {value!r}; it has to be a finite number", 3)
    return found


def from_graph(
    graph: Graph,
    program: str | None = None,
    weight: str | int = "weight",
    rounds: bool = False,
    undirected: bool = False,
    inputs: Mapping[str, object] | None = None,
) -> Network:
    """The network of a networkx graph.

    Nodes are devices, by their own numbers or numbered in their order. Node attributes are inputs: those that `program`
    declares, or, without a program, all but positions (`x` and `y`, or `pos`) and names; `inputs` has values for nodes
    without one, for all or by node. The edge attribute `weight` is the weight of a link, 1 where no edge has it; a
    number in its place is the weight of edges without one. `rounds` rounds weights. With `undirected` the edges of a
    directed graph are links both ways.

    Raises Fault, of status 3, if an input is missing or of another type, an edge leads from a node to itself, two edges
    join the same nodes, or some edges have a weight and others none.
    """
    number, names = numbered(list(graph.nodes))
    wanted = declared(program) if program is not None else None
    own = {
        number[node]: _inputs(str(node), _given(node, data, inputs), wanted) for node, data in graph.nodes(data=True)
    }
    positions = {number[node]: place for node, data in graph.nodes(data=True) if (place := _place(str(node), data))}
    if graph.is_directed() and not undirected:
        direct = "make it undirected (--undirected, or from_graph(.., undirected=True))"
        raise Fault(f"the graph is directed, but a link has no direction: {direct}", 3)
    links = _links(graph, number, weight, rounds, wanted.metric if wanted else (0, GREATEST_NUMBER))
    ordered = {device: own[device] for device in sorted(own)}
    places = dict(sorted(positions.items())) if len(positions) == len(own) else {}
    nodes = {device: node for node, device in number.items() if node != device}
    return Network(ordered, links, places, names, nodes={device: nodes[device] for device in sorted(nodes)})


def _given(node: Hashable, data: Mapping[str, Any], inputs: Mapping[str, object] | None) -> Mapping[str, Any]:
    """The attributes of a node, with values for inputs that it hasn't."""
    more = {name: value.get(node) if isinstance(value, Mapping) else value for name, value in (inputs or {}).items()}
    return {**{name: value for name, value in more.items() if value is not None}, **data}


def _inputs(name: str, data: Mapping[str, Any], wanted: Declared | None) -> dict[str, Input]:
    where = f"{{}} of device {name}"
    if wanted is None:
        own = {key: value for key, value in data.items() if str(key).lower() not in PLACES}
        return {key: input_of(value, where.format(key)) for key, value in own.items()}
    for key in wanted.inputs:
        if key not in data:
            value = "False" if wanted.inputs[key] is None else str((wanted.inputs[key] or (0, 0))[0])
            remedy = f"give the node this attribute, or pass inputs={{'{key}': {value}}}"
            raise Fault(f"device {name} has no {key}, which the program declares as an input: {remedy}", 3)
    return {key: fitting(data[key], span, where.format(key)) for key, span in wanted.inputs.items()}


def _place(name: str, data: Mapping[str, Any]) -> Position | None:
    """The position of a node, from `x` and `y`, or `pos`; None if it has none."""
    found = data.get("pos", data.get("position"))
    if found is None and "x" in data and "y" in data:
        found = (data["x"], data["y"])
    if found is None or isinstance(found, str) or len(found) != 2:
        return None
    return (finite(found[0], f"x of device {name}"), finite(found[1], f"y of device {name}"))


def _links(
    graph: Any, number: Mapping[Any, int], weight: str | int, rounds: bool, span: Pair
) -> tuple[tuple[int, int, int], ...]:
    """The links of a graph, in ascending order."""
    found: dict[Pair, Any] = {}
    name, usual = (weight, None) if isinstance(weight, str) else ("weight", weight)
    for a, b, data in graph.edges(data=True):
        pair = (min(number[a], number[b]), max(number[a], number[b]))
        if a == b:
            raise Fault(f"device {a} is linked to itself", 3)
        if pair in found and (not graph.is_directed() or found[pair] != data.get(name, usual)):
            raise Fault(f"devices {a} and {b} are linked twice", 3)
        found[pair] = data.get(name, usual)
    bare = [pair for pair, value in found.items() if value is None]
    if bare and len(bare) < len(found):
        called = {place: str(node) for node, place in number.items()}
        link = f"the link of {called[bare[0][0]]} and {called[bare[0][1]]}"
        raise Fault(f"{link} has no weight, but others have one: give it one, or (in Python) pass weight=1", 3)
    where = {place: str(node) for node, place in number.items()}
    return tuple(
        (a, b, 1 if value is None else weight_of(value, f"the link of {where[a]} and {where[b]}", rounds, span))
        for (a, b), value in sorted(found.items())
    )


def read_scene(text: str, name: str = "the network", first_line: int = 1) -> Network:
    """The network of a scene that begins on a line of its file.

    Raises Fault, of status 3, with the place where the text isn't one.
    """
    scene = json_of(text, name, first_line)
    wrong = next(_wrong_form(scene), None) or next(_wrong_devices(scene["devices"]), None)
    wrong = wrong or next(_wrong_links(scene["links"], {device["id"] for device in scene["devices"]}), None)
    if wrong is not None:
        raise Fault(f"{name} isn't a scene: {wrong}", 3)
    inputs = {device["id"]: dict(device["inputs"]) for device in scene["devices"]}
    links = tuple((a, b, weight) for a, b, weight in scene["links"])
    state = {part: scene[part] for part in ("table", "pending") if part in scene}
    return Network({device: inputs[device] for device in sorted(inputs)}, links, state=state)


def json_of(text: str, name: str, first_line: int = 1) -> Any:
    """The value of a text in JSON. Raises Fault, of status 3, with the place where it isn't one."""
    try:
        return json.loads(text)
    except json.JSONDecodeError as error:
        what = error.msg[:1].lower() + error.msg[1:]
        place = f"line {error.lineno + first_line - 1}, column {error.colno}"
        raise Fault(f"{name} isn't a scene: {place} isn't JSON, {what}", 3) from None
    except ValueError as error:
        raise Fault(f"{name} isn't a scene: it isn't JSON, {error}", 3) from None
    except RecursionError:
        raise Fault(f"{name} isn't a scene: objects and arrays are nested too deeply", 3) from None


def is_whole(value: object) -> bool:
    """Whether a value of JSON is a whole number that isn't negative."""
    return type(value) is int and value >= 0


def _wrong_form(scene: Any) -> Iterator[str]:
    """What is wrong with the outermost members of a scene."""
    if not isinstance(scene, dict) or not {"devices", "links"} <= set(scene):
        yield 'a network is an object with the members "devices" and "links"'
        return
    for member in scene:
        if member not in ("devices", "links", "table", "pending"):
            yield f"/{member} isn't a member of a network, which has devices, links, table and pending"
    for member in ("devices", "links"):
        if not isinstance(scene[member], list):
            yield f"/{member} has to be a list"
    if not scene["devices"]:
        yield "/devices is empty; a network needs at least one"


def _wrong_devices(devices: list[Any]) -> Iterator[str]:
    """What is wrong with the devices of a scene."""
    seen: set[int] = set()
    for place, device in enumerate(devices):
        where = f"/devices/{place}"
        if not isinstance(device, dict) or set(device) != {"id", "inputs"} or not isinstance(device["inputs"], dict):
            yield f'{where}: a device is {{"id": NUMBER, "inputs": {{..}}}}'
            return
        if not is_whole(device["id"]) or device["id"] in seen:
            yield f"{where}/id: {json.dumps(device['id'])} isn't the number of a device, or is used twice"
            return
        seen.add(device["id"])
        for name, value in device["inputs"].items():
            if not isinstance(value, bool) and not is_whole(value):
                yield f"{where}/inputs/{name}: {json.dumps(value)[:40]} is neither true nor false nor a whole number"


def _wrong_links(links: list[Any], devices: set[int]) -> Iterator[str]:
    """What is wrong with the links of a scene."""
    seen: set[frozenset[int]] = set()
    for place, link in enumerate(links):
        where = f"/links/{place}"
        if not isinstance(link, list) or len(link) != 3 or not all(map(is_whole, link)):
            yield f"{where}: a link is [DEVICE, DEVICE, WEIGHT]"
            return
        pair = frozenset(link[:2])
        for device in sorted(pair - devices):
            yield f"{where}: there is no device {device}"
        if len(pair) < 2 or pair in seen:
            yield f"{where}: {link[0]} and {link[1]} are the same device, or linked twice"
        seen.add(pair)


def judged(network: Network, program: str) -> Network:
    """The network, where it has exactly the inputs that a program declares, of their types, and weights in its metric.

    Raises Fault, of status 3, with what isn't so.
    """
    wanted = declared(program)
    for device, own in network.inputs.items():
        called = network.called(device)
        for name, span in wanted.inputs.items():
            if name not in own:
                raise Fault(
                    f"device {called} has no {name}, which the program declares as an input: --set {name}=VALUE", 3
                )
            fitting(own[name], span, f"{name} of device {called}")
        for name in own:
            if name not in wanted.inputs:
                raise Fault(f"device {called} has {name}, which the program doesn't declare as an input", 3)
    for a, b, weight in network.links:
        weight_of(weight, f"the link of {network.called(a)} and {network.called(b)}", span=wanted.metric)
    return network


# ---- networks by a rule --------------------------------------------------------------------------------------------


def shaped(positions: Mapping[int, Position], links: Iterable[Pair]) -> Network:
    """A network without inputs, whose links weigh 1."""
    ordered = dict(sorted(positions.items()))
    return Network({device: {} for device in ordered}, tuple((a, b, 1) for a, b in sorted(links)), ordered)


def line(count: int) -> Network:
    """So many devices, each linked to the next."""
    return shaped({d: (float(d), 0.0) for d in range(count)}, [(d, d + 1) for d in range(count - 1)])


def ring(count: int) -> Network:
    """A line whose ends are linked."""
    turn = 2 * math.pi / max(count, 1)
    radius = 1 / (2 * math.sin(turn / 2)) if count > 1 else 0.0
    closing = [(0, count - 1)] if count > 2 else []
    places = {d: (radius * math.cos(d * turn), radius * math.sin(d * turn)) for d in range(count)}
    return shaped(places, [(d, d + 1) for d in range(count - 1)] + closing)


def grid(width: int, height: int, closed: bool = False) -> Network:
    """Devices row by row, linked to the left and right, up and down; closed, opposite borders are linked too."""

    def number(x: int, y: int) -> int:
        return (y % height) * width + x % width

    links = set()
    for y in range(height):
        for x in range(width):
            for right, down in ((1, 0), (0, 1)):
                inside = x + right < width and y + down < height
                a, b = number(x, y), number(x + right, y + down)
                if (inside or closed) and a != b:
                    links.add((min(a, b), max(a, b)))
    return shaped({number(x, y): (float(x), float(y)) for y in range(height) for x in range(width)}, links)


def disk(count: int, side: float, reach: float, seed: int = 0) -> Network:
    """Devices at random in a square of this side, linked where they are at most `reach` apart."""
    rng = random.Random(seed)
    return in_range({d: (rng.uniform(0, side), rng.uniform(0, side)) for d in range(count)}, reach)


def in_range(positions: Mapping[int, Position], reach: float) -> Network:
    """Devices at positions, linked where they are at most `reach` apart. Raises Fault if `reach` isn't a length."""
    if not math.isfinite(reach) or reach < 0:
        raise Fault(f"a range of {reach:g}: it has to be a number of at least 0")
    rows = sorted((x, y, device) for device, (x, y) in positions.items())
    links: list[Pair] = []
    first = 0
    for place, (x, y, device) in enumerate(rows):
        while rows[first][0] < x - reach - 1e-9 * (abs(x) + reach):
            first += 1
        near = [d for ox, oy, d in rows[first:place] if math.dist((x, y), (ox, oy)) <= reach]
        links += [(min(device, d), max(device, d)) for d in near]
    return shaped(positions, links)


# ---- changes of a network ------------------------------------------------------------------------------------------


def weighed(network: Network, low: int, high: int, unit: float = 1.0) -> Network:
    """Weights by distance, in units of so long, rounded into `low` to `high`.

    Raises Fault if there are no positions, or `low` is above `high`.
    """
    if not network.positions:
        raise Fault("weights by distance need positions, but the network has none")
    if not 0 <= low <= high <= GREATEST_NUMBER:
        raise Fault(f"a metric of {low}..{high}: it goes from its least to its greatest weight")
    if not math.isfinite(unit) or unit <= 0:
        raise Fault(f"a unit of {unit:g}: it has to be above 0")
    at = network.positions
    links = [(a, b, weight_at(math.dist(at[a], at[b]), low, high, unit)) for a, b, _ in network.links]
    return replace(network, links=tuple(links))


def weight_at(length: float, low: int, high: int, unit: float = 1.0) -> int:
    """The weight of a link of so great a length, in units of so long, rounded into `low` to `high`."""
    return min(max(round(length / unit), low), high)


def with_weight(network: Network, weight: int) -> Network:
    """The network with one weight on all links."""
    found = weight_of(weight, "each link")
    return replace(network, links=tuple((a, b, found) for a, b, _ in network.links))


def with_inputs(network: Network, settings: Sequence[tuple[str, Input, Sequence[int] | None]]) -> Network:
    """The network with inputs `(name, value, devices)` set one after the other; no devices stand for all.

    Where a truth value is set on some devices alone, it is false on those that have none. Raises Fault if a device
    isn't there, or a number is set on some devices and others have none.
    """
    inputs = {device: dict(own) for device, own in network.inputs.items()}
    for name, value, devices in settings:
        for device in inputs if devices is None else devices:
            if device not in inputs:
                raise Fault(f"{name} is set on device {device}, which doesn't exist")
            inputs[device][name] = value
    for name, value, _ in settings:
        for device, own in inputs.items():
            if name not in own and not isinstance(value, bool):
                raise Fault(f"{name} isn't set on device {network.called(device)}: set it on all devices first")
            own.setdefault(name, False)
    return replace(network, inputs=inputs)


def degrees(network: Network) -> dict[int, int]:
    """How many links each device has."""
    found = dict.fromkeys(network.inputs, 0)
    for a, b, _ in network.links:
        found[a] += 1
        found[b] += 1
    return found


def nearest(network: Network, most: int) -> Network:
    """The network with the nearest links kept, so that no device has more than `most`.

    Links are taken from the shortest on, and kept where both devices have room. Raises Fault if links have neither
    lengths nor different weights, so that none is the nearest.
    """
    at = network.positions

    def far(link: tuple[int, int, int]) -> float:
        return math.dist(at[link[0]], at[link[1]]) if at else link[2]

    if not at and len({weight for _, _, weight in network.links}) < 2:
        raise Fault("the nearest neighbours aren't known: there are no positions, and all links weigh the same")
    count = dict.fromkeys(network.inputs, 0)
    kept = []
    for link in sorted(network.links, key=lambda link: (far(link), link)):
        if count[link[0]] < most and count[link[1]] < most:
            kept.append(link)
            count[link[0]] += 1
            count[link[1]] += 1
    return replace(network, links=tuple(sorted(kept)))


def within_limits(network: Network) -> Network:
    """The network, where `fc` takes so many devices and links. Raises Fault, of status 4, with what to do."""
    devices = network.devices
    if not 1 <= len(devices) <= MOST_DEVICES:
        raise Fault(f"{len(devices):,} devices, but fc takes 1 to {MOST_DEVICES:,}", 4)
    if devices[0] < 0 or devices[-1] > GREATEST_DEVICE:
        raise Fault(f"a device's number is 0 to {GREATEST_DEVICE:,}", 3)
    count = degrees(network)
    crowded = max(devices, key=lambda device: count[device])
    if count[crowded] > MOST_LINKS:
        raise Fault(
            f"device {network.called(crowded)} has {count[crowded]} links, but fc takes {MOST_LINKS}: "
            f"--max-degree {MOST_LINKS} keeps the nearest, or choose a smaller range",
            4,
        )
    return network
