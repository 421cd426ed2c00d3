"""What a user of the library gives as a network: a Network, a graph, a scene, a file, an adjacency list or an array."""

from __future__ import annotations

import json
import os
from collections.abc import Hashable, Iterable, Mapping
from dataclasses import dataclass, replace
from typing import Any, Protocol, Union, cast, runtime_checkable

from .networks import Graph, Input, Network, declared, from_graph, read_scene
from .refusals import Fault
from .sections import read


@runtime_checkable
class Array(Protocol):
    """A matrix of weights: numpy's arrays, and scipy's sparse ones."""

    @property
    def shape(self) -> tuple[int, ...]:
        ...


Near = Union[Iterable[Hashable], Mapping[Any, object]]
Scene = Mapping[str, object]
Networks = Union[Network, Graph, Array, Scene, Mapping[Any, Near], str, "os.PathLike[str]"]
"""What is taken as a network. A mapping is a scene, what networkx's `node_link_data` makes, or an adjacency list: for
each node its neighbours, or a mapping of these to weights. A text is a scene in JSON, or the name of a file."""

Weight = Union[str, int]
"""The edge attribute with the weights of links, or the weight of links that have none in `weight`."""

Inputs = Mapping[str, Union[Input, Mapping[Any, Input]]]
"""The values of inputs for devices that have none: one for all, or one for each node. (A node is `Any` in the keys of
what is given, since a mapping from tuples isn't one from `Hashable`.)"""

KINDS = (
    "a network is a graph of networkx, a fieldc.Network, a scene (a mapping or JSON), a file's name, an adjacency list "
    "(a mapping from nodes to neighbours), or a square array of weights"
)


@dataclass(frozen=True)
class Given:
    """A network that was given: its scene as `fc` reads it, and the network where its text is one."""

    scene: str
    network: Network | None


def given(
    network: Networks, program: str, weight: Weight = "weight", inputs: Inputs | None = None, undirected: bool = False
) -> Given:
    """The scene of what was given. Raises Fault if it is no network, and TypeError if it is nothing of the kind.

    Texts and mappings that are scenes go to `fc` as they are, which says what is wrong with them.
    """
    found = _read(network, program, weight, inputs, undirected)
    if isinstance(found, str):
        made = _as_network(found)
        if inputs is None or made is None:
            return Given(found, made)
        found = made
    found = filled(found, inputs or {})
    return Given(found.scene(), found)


def _read(network: Networks, program: str, weight: Weight, inputs: Inputs | None, undirected: bool) -> Network | str:
    """The network that was given, or the text of its scene."""
    if isinstance(network, Network):
        return network
    if isinstance(network, os.PathLike) or (isinstance(network, str) and is_name(network)):
        return _of_file(os.fspath(network), program, weight, inputs, undirected)
    if isinstance(network, str):
        return network
    if isinstance(network, Mapping) and ("devices" in network or "links" in network or not network):
        if "nodes" not in network:
            return json.dumps(network)
    return from_graph(graph_of(network), program, weight, inputs=inputs, undirected=undirected)


def is_name(text: str) -> bool:
    """Whether a text is the name of a file, and not a scene."""
    return bool(text.strip()) and "\n" not in text and text.lstrip()[0] not in '{["'


def _of_file(name: str, program: str, weight: Weight, inputs: Inputs | None, undirected: bool) -> Network | str:
    """The network of a file: a scene or node-link data in JSON, GraphML, GML or a list of links."""
    from . import files

    text = read(name)
    if not text.lstrip().startswith("{"):
        graph = files.graph(name)
        files.truths_of_gml(graph, declared(program).inputs)
        return from_graph(graph, program, weight, inputs=inputs, undirected=undirected)
    try:
        found = json.loads(text)
    except ValueError:
        return text
    return text if "nodes" not in found else _read(cast("Scene", found), program, weight, inputs, undirected)


def _as_network(text: str) -> Network | None:
    try:
        return read_scene(text)
    except Fault:
        return None


def filled(network: Network, inputs: Inputs) -> Network:
    """The network with values of inputs for the devices that have none."""
    own = {device: dict(there) for device, there in network.inputs.items()}
    for device, there in own.items():
        for name, value in inputs.items():
            if isinstance(value, Mapping):
                node = network.nodes.get(device, device)
                if node in value:
                    there.setdefault(name, value[node])
            else:
                there.setdefault(name, value)
    return replace(network, inputs=own)


# ---- graphs --------------------------------------------------------------------------------------------------------


def graph_of(found: object) -> Any:
    """The graph of networkx that something is, or is like. Raises TypeError if it is nothing of the kind."""
    if isinstance(found, Graph):
        return found
    if isinstance(found, Mapping):
        return _of_node_link(found) if "nodes" in found else _of_adjacency(found)
    if hasattr(found, "tocoo") or hasattr(found, "__array__"):
        return _of_array(found)
    raise TypeError(f"{KINDS}; this is of type {type(found).__name__}")


def _networkx() -> Any:
    try:
        import networkx
    except ImportError:
        raise Fault("graphs need networkx (Debian: python3-networkx)") from None
    return networkx


def _of_node_link(data: Mapping[Any, Any]) -> Any:
    """The graph of what networkx's `node_link_data` made."""
    edges = data.get("links", data.get("edges", []))
    try:
        return _networkx().node_link_graph({**data, "links": edges})
    except Exception as error:  # networkx raises whatever it meets
        raise Fault(f"this isn't node-link data: {type(error).__name__} {error}", 3) from None


def _of_adjacency(near: Mapping[Any, Any]) -> Any:
    """The graph of an adjacency list; a link that two nodes name has one weight."""
    graph = _networkx().Graph()
    graph.add_nodes_from(near)
    for node, others in near.items():
        if isinstance(others, (str, bytes)) or not isinstance(others, Iterable):
            raise TypeError(f"{KINDS}; the neighbours of {node!r} are of type {type(others).__name__}")
        for other in others:
            data = others[other] if isinstance(others, Mapping) else None
            weight = data.get("weight") if isinstance(data, Mapping) else data
            _link(graph, node, other, weight)
    return graph


def _of_array(found: Any) -> Any:
    """The graph of a square array of weights; 0 is no link."""
    if len(found.shape) != 2 or found.shape[0] != found.shape[1]:
        raise TypeError(f"{KINDS}; this array has the shape {found.shape}")
    rows = found.tocoo() if hasattr(found, "tocoo") else None
    entries = zip(rows.row, rows.col, rows.data) if rows is not None else _entries(found)
    there = {(int(a), int(b)): weight for a, b, weight in entries if weight != 0}
    graph = _networkx().Graph()
    graph.add_nodes_from(range(found.shape[0]))
    for (a, b), weight in there.items():
        if (b, a) not in there:
            raise Fault(f"the array links {a} to {b} but not {b} to {a}; a link has no direction", 3)
        _link(graph, a, b, weight)
    return graph


def _entries(found: Any) -> Iterable[tuple[int, int, Any]]:
    import numpy

    return ((a, b, weight) for (a, b), weight in numpy.ndenumerate(numpy.asarray(found)))


def _link(graph: Any, a: Hashable, b: Hashable, weight: object) -> None:
    """A link, which may be there from its other end with the same weight."""
    if graph.has_edge(a, b) and a != b and graph[a][b].get("weight") != weight:
        raise Fault(f"the link of {a} and {b} has two weights: {graph[a][b].get('weight')} and {weight}", 3)
    graph.add_edge(a, b, **({} if weight is None else {"weight": weight}))
