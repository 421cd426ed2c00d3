"""Makes networks for users of the library: by a rule, from positions, or from a file or graph."""

from __future__ import annotations

import os
from collections.abc import Hashable, Mapping, Sequence
from dataclasses import replace
from types import MappingProxyType
from typing import Any, Union, cast

from . import networks
from .files import points as points_of_file
from .given import Inputs, Weight, filled, graph_of
from .networks import Network, Position, finite, fitting, from_graph, input_of
from .refusals import Fault
from .separated import IDS

Points = Union[str, "os.PathLike[str]", Mapping[Hashable, Sequence[float]], Sequence[Sequence[float]], object]
"""Positions: a file, a mapping from nodes to x and y, rows of x and y, or a table of pandas with columns `x` and `y`:
the index, or a column `id`, `device`, `name` or `node`, has the nodes, and further columns are inputs."""


def network(
    *,
    points: Points | None = None,
    range: float | None = None,
    edges: object | None = None,
    line: int | None = None,
    ring: int | None = None,
    grid: tuple[int, int] | None = None,
    torus: tuple[int, int] | None = None,
    disk: int | None = None,
    side: float = 100.0,
    seed: int = 0,
    program: str | None = None,
    inputs: Inputs | None = None,
    scale: Mapping[str, float] = MappingProxyType({}),
    weight: Weight = "weight",
    metric: tuple[int, int] | None = None,
    unit: float = 1.0,
    max_degree: int | None = None,
    round: bool = False,
    undirected: bool = False,
) -> Network:
    """A network of one of these shapes, as `fieldc network` makes it.

    `points`, and a `disk` of so many devices at random in a square of this `side`, are linked where they are at most
    `range` apart. `edges` is a graph or its file. `inputs` has values for devices without one, for all or by node.
    `scale` multiplies numbers of inputs of a file. `metric` weighs links by distance, in units of so long; else
    `weight` is the edge attribute, or one weight for all. Raises Fault, and TypeError if not one shape is given.
    """
    shapes = {"points": points, "edges": edges, "line": line, "ring": ring, "grid": grid, "torus": torus, "disk": disk}
    asked = [name for name, value in shapes.items() if value is not None]
    if len(asked) != 1:
        raise TypeError(
            f"network takes one of {', '.join(shapes)}; there {'are ' + ', '.join(asked) if asked else 'is none'}"
        )
    if asked[0] == "edges":
        made = of_edges(edges, program, weight, round, undirected, inputs)
    elif asked[0] in ("points", "disk"):
        if range is None:
            raise TypeError(f"{asked[0]} are linked if they are at most a range apart: pass range=")
        made = networks.disk(disk, side, range, seed) if disk is not None else of_points(points, range, program, scale)
    else:
        made = of_rule(asked[0], shapes[asked[0]])
    made = filled(made, inputs or {})
    if metric is not None:
        made = networks.weighed(made, *metric, unit)
    elif not isinstance(weight, str) and asked[0] != "edges":
        made = networks.with_weight(made, weight)
    made = made if max_degree is None else networks.nearest(made, max_degree)
    made = networks.within_limits(made)
    return made if program is None else networks.judged(made, program)


def of_rule(shape: str, size: Any) -> Network:
    """A line, ring, grid or torus."""
    if shape in ("line", "ring"):
        at_most(size)
        return networks.line(size) if shape == "line" else networks.ring(size)
    width, height = size
    at_most(width * height)
    return networks.grid(width, height, closed=shape == "torus")


def at_most(count: int) -> None:
    """Refuses more devices than `fc` takes before they are made."""
    if not 1 <= count <= networks.MOST_DEVICES:
        raise Fault(f"{count:,} devices, but fc takes 1 to {networks.MOST_DEVICES:,}", 4)


def of_edges(
    edges: object, program: str | None, weight: Weight, rounds: bool, undirected: bool, inputs: Inputs | None
) -> Network:
    """The network of a graph, or of its file."""
    if isinstance(edges, (str, os.PathLike)):
        from . import files

        edges = files.graph(os.fspath(edges))
    return from_graph(graph_of(edges), program, weight, rounds, undirected, inputs)


def of_points(points: Points, reach: float, program: str | None, scale: Mapping[str, float]) -> Network:
    """The network of positions, linked where they are in range."""
    if isinstance(points, (str, os.PathLike)):
        found = points_of_file(os.fspath(points), program, None, scale)
        made = networks.in_range(found.positions, reach)
        nodes = {device: name for device, name in found.names.items()}
        return replace(made, names=found.names, inputs=found.inputs, nodes=nodes)
    places, inputs = _table(points, program) if hasattr(points, "columns") else (_places(points), {})
    number, names = networks.numbered(list(places))
    made = networks.in_range(
        {number[node]: place for node, place in sorted(places.items(), key=lambda it: number[it[0]])}, reach
    )
    own = {device: inputs.get(node, {}) for node, device in number.items()}
    nodes = {device: node for node, device in number.items() if node != device}
    return replace(made, names=names, nodes=nodes, inputs={device: own[device] for device in made.devices})


def _places(points: object) -> dict[Hashable, Position]:
    """The positions of a mapping, or of rows, which are numbered."""
    rows = points.items() if isinstance(points, Mapping) else enumerate(cast("Sequence[Sequence[float]]", points))
    return {node: _place(node, place) for node, place in rows}


def _place(node: object, place: Sequence[float]) -> Position:
    if len(place) != 2:
        raise Fault(f"the position of {node} has {len(place)} parts, and has to have x and y", 3)
    return finite(place[0], f"x of {node}"), finite(place[1], f"y of {node}")


def _table(
    frame: Any, program: str | None
) -> tuple[dict[Hashable, Position], dict[Hashable, dict[str, networks.Input]]]:
    """The positions and inputs of a table of pandas."""
    named = {str(column).lower(): column for column in frame.columns}
    if "x" not in named or "y" not in named:
        raise Fault(
            f"the table has the columns {', '.join(map(str, frame.columns))}, and x and y have to be among them", 3
        )
    key = next((named[word] for word in IDS if word in named), None)
    nodes = list(frame.index) if key is None else list(frame[key])
    wanted = networks.declared(program).inputs if program is not None else None
    further = [column for column in frame.columns if column not in (named["x"], named["y"], key)]
    taken = [column for column in further if wanted is None or str(column) in wanted]
    places, inputs = {}, {}
    for node, (_, row) in zip(nodes, frame.iterrows()):
        places[node] = _place(node, (row[named["x"]], row[named["y"]]))
        inputs[node] = {str(column): _input(row[column], wanted, str(column), node) for column in taken}
    return places, inputs


def _input(value: Any, wanted: Mapping[str, Any] | None, name: str, node: object) -> networks.Input:
    where = f"{name} of {node}"
    return input_of(value, where) if wanted is None else fitting(value, wanted[name], where)
