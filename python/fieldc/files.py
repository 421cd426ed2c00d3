"""Networks from real files: positions as separated values, GraphML, GML, lists of links; and the files beside a
scene."""

from __future__ import annotations

import csv
import io
import json
import re
from collections.abc import Mapping, Sequence
from dataclasses import dataclass, field
from pathlib import Path
from types import MappingProxyType
from typing import Any

from .columns import in_metres
from .networks import Input, Network, Pair, Position, declared, from_graph, numbered
from .refusals import Fault
from .sections import read
from .separated import Columns, columns_of, is_number, text_of_file

ENDS = {"source", "target", "from", "to", "weight", "u", "v", "a", "b", "node1", "node2"}
OF_LINKS = ("weight", "least", "greatest", "goes")


@dataclass(frozen=True)
class Points:
    """Positions of devices, in ascending order, with the names that were no numbers, and inputs from further columns;
    and how far each may move, where a column says it."""

    positions: Mapping[int, Position]
    names: Mapping[int, str]
    inputs: Mapping[int, Mapping[str, Input]]
    left_out: tuple[str, ...] = ()
    moves: Mapping[int, float] = field(default_factory=dict)


# ---- positions -----------------------------------------------------------------------------------------------------


def points(
    name: str,
    program: str | None = None,
    inputs: Sequence[str] | None = None,
    scale: Mapping[str, float] = MappingProxyType({}),
    moving: bool = False,
) -> Points:
    """The positions of a file of rows `id x y` and further columns, separated by semicolons, tabs, bars, commas, colons
    or spaces, or of points in GeoJSON. Where the names of the columns have no id, rows are numbered.

    A row of names may stand first; with it the columns may stand in any order, and further ones are inputs: those that
    `program` declares or `inputs` names, else all. Columns `lat` and `lon` in place of `x` and `y` are degrees, of
    which metres are made. Numbers of inputs are multiplied by what `scale` has for them, and rounded. With `moving` a
    column `move`, unless it is an input that is asked for, says how far each device may move. Raises Fault, of status
    3, with the line that is at fault.
    """
    columns = columns_of(name, program, inputs, scale, moving=moving)
    number, names = _numbered_rows(columns)
    places, found, lines, moves = {}, {}, {}, {}
    for place, row in enumerate(columns.rows):
        device = place if columns.id is None else number[columns.id_of(row)]
        places[device], found[device], lines[device] = columns.place(row), columns.inputs(row), columns.where(row)
        moves[device] = columns.may_move(row)
    positions = in_metres(places, lines) if columns.in_degrees else places
    return Points(dict(sorted(positions.items())), names, dict(sorted(found.items())), columns.left_out, _there(moves))


def _there(moves: Mapping[int, float | None]) -> dict[int, float]:
    """How far devices may move, of those of which it is known."""
    return {device: move for device, move in moves.items() if move is not None}


def _numbered_rows(columns: Columns) -> tuple[dict[str, int], dict[int, str]]:
    """The numbers of devices by their ids, and the names that were no numbers; none where rows are numbered."""
    seen: dict[str, int] = {}
    for row in columns.rows if columns.id is not None else ():
        name = columns.id_of(row)
        if name in seen:
            raise Fault(f"{columns.where(row)}: device {name} is on line {seen[name]} already", 3)
        seen[name] = row[0]
    return numbered(list(seen))


def positions_for(name: str, devices: Sequence[int], names: Mapping[int, str]) -> dict[int, Position]:
    """The positions of these devices from a file, where they stand by their numbers or names.

    Raises Fault if one has none.
    """
    found = points(name, inputs=())
    by_name = {found.names.get(device, str(device)): place for device, place in found.positions.items()}
    placed = {}
    for device in devices:
        place = by_name.get(names.get(device, str(device)), by_name.get(str(device)))
        if place is None:
            without = found.names and not names
            hint = "; its rows have names: give `--names` too, the file beside the network" if without else ""
            raise Fault(f"{name} has no position of device {names.get(device, str(device))}{hint}", 3)
        placed[device] = place
    return placed


def positions_text(positions: Mapping[int, Position]) -> str:
    """A file of positions, one line `id,x,y` for each device, which `points` reads back."""
    return "id,x,y\n" + "".join(f"{d},{x:.6g},{y:.6g}\n" for d, (x, y) in sorted(positions.items()))


# ---- names ---------------------------------------------------------------------------------------------------------


def names_text(names: Mapping[int, str]) -> str:
    """A file of names, one line `id,name` for each device, which `names_from` reads back."""
    written = io.StringIO()
    rows = csv.writer(written, lineterminator="\n")
    rows.writerow(("id", "name"))
    rows.writerows(sorted(names.items()))
    return written.getvalue()


def names_from(name: str) -> dict[int, str]:
    """The names by device of a file of lines `id,name`. Raises Fault, of status 3, with the line that is at fault."""
    found: dict[int, str] = {}
    for line, row in enumerate(csv.reader(text_of_file(name).splitlines()), 1):
        if not row or (line == 1 and row == ["id", "name"]):
            continue
        if len(row) != 2 or not row[0].isdigit() or int(row[0]) in found:
            raise Fault(f"{name} line {line}: not id,name, or twice", 3)
        found[int(row[0])] = row[1]
    return found


def beside(name: str, part: str) -> str:
    """The name of a file that is written beside a scene: `net.names.csv` beside `net.json`."""
    path = Path(name)
    return str(path.with_name(f"{path.stem}.{part}.csv"))


# ---- graphs --------------------------------------------------------------------------------------------------------


def graph(name: str) -> Any:
    """The networkx graph of a file in GraphML or GML, or of a list of links. Raises Fault, of status 3, for any
    other."""
    text = text_of_file(name)
    try:
        import networkx
    except ImportError:
        raise Fault("graphs need networkx (Debian: python3-networkx)") from None
    try:
        if re.search(r"<graphml\b", text[:4000]):
            return networkx.parse_graphml(text)
        if re.search(r"^\s*graph\s*\[", text, re.MULTILINE):
            label = "label" if re.search(r"^\s*label\b", text, re.MULTILINE) else "id"
            found = networkx.parse_gml(text, label=label)
            found.graph["gml"] = True
            return found
    except Exception as error:  # networkx raises whatever its parsers meet
        raise Fault(f"{name} isn't a graph: {error}", 3) from None
    return listed(name, text)


def listed(name: str, text: str) -> Any:
    """The graph of a list of links: lines `a b`, `a b weight` or `a b {'weight': 2}`, as networkx writes them.

    Words may be separated by spaces, tabs, commas or semicolons. Lines that begin with `#`, and a first line of names
    such as `source,target,weight`, are skipped. After a first line of more names, such as
    `source,target,weight,least,greatest,goes`, rows have these columns. Raises Fault, of status 3, with the line that
    is at fault.
    """
    import networkx

    found = networkx.Graph()
    rows = [(number, line.strip()) for number, line in enumerate(text.splitlines(), 1)]
    rows = [(number, line) for number, line in rows if line and not line.startswith("#")]
    if not rows:
        raise Fault(f"{name} has no links", 3)
    columns: list[str] = []
    if _names_columns(*(re.split(r"[\s,;]+", line) for _, line in rows)):
        columns = re.split(r"[\s,;]+", rows[0][1].lower())[2:]
        rows = rows[1:]
    delimiter = next((mark for mark in ",;" if mark in rows[0][1].split("{")[0]), None)
    for number, line in rows:
        where = f"{name} line {number}"
        one = _row(where, line, delimiter, columns) if {*columns} - {"weight"} else _link(where, line, delimiter)
        ((a, b),) = one.edges
        if found.has_edge(a, b):
            raise Fault(f"{name} line {number}: {a} and {b} are linked already", 3)
        found.update(one)
    return found


def _names_columns(first: Sequence[str], *others: Sequence[str]) -> bool:
    """Whether the first row of a list of links names its columns: by words for ends that are no ends of another row; by
    letters where all other ends are numbers."""
    ends = {end for row in others for end in row[:2]}
    by_letters = any(len(word) == 1 for word in first)
    are_names = {*ENDS, *OF_LINKS}.issuperset(word.lower() for word in first)
    if not others or not are_names or not ends.isdisjoint(first[:2]):
        return False
    return not by_letters or all(is_number(end) for end in ends)


def _link(where: str, line: str, delimiter: str | None) -> Any:
    """The graph of one line of a list, as networkx reads it."""
    import networkx

    head = line.split("{")[0]
    if not head or re.search(r"[<>\[\]\"]", head):
        raise Fault(f"{where}: this isn't a list of links", 3)
    words = [word.strip() for word in head.split(delimiter)]
    words = words[:-1] if "{" in line and words and not words[-1] else words
    data: Any = True if "{" in line else (("weight", str),)[: len(words) - 2]
    if len(words) not in (2, 3) or (len(words) == 3 and ("{" in line or not is_number(words[2]))) or not all(words):
        raise Fault(f"{where}: not a link 'a b' or 'a b weight'", 3)
    try:
        one = networkx.parse_edgelist([line], comments=None, delimiter=delimiter, data=data)
    except Exception as error:
        raise Fault(f"{where}: {error}", 3) from None
    if one.number_of_edges() != 1:
        raise Fault(f"{where}: not a link 'a b' or 'a b weight'", 3)
    return networkx.relabel_nodes(one, {node: node.strip() for node in one})


def _row(where: str, line: str, delimiter: str | None, columns: Sequence[str]) -> Any:
    """The graph of one line of a list that has these columns after the ends; an empty field says nothing."""
    import networkx

    words = [word.strip() for word in line.split(delimiter)]
    if len(words) != len(columns) + 2 or not all(words[:2]):
        raise Fault(f"{where}: not a link {' '.join(['a', 'b', *columns])}", 3)
    found = networkx.Graph()
    found.add_edge(*words[:2], **{column: word for column, word in zip(columns, words[2:]) if word})
    return found


def truths_of_gml(found: Any, wanted: Mapping[str, Pair | None]) -> None:
    """In a graph from GML, which has no truth values, puts them where a program declares some and 0 or 1 stands."""
    for _, data in found.nodes(data=True) if found.graph.get("gml") else ():
        for word in wanted:
            if wanted[word] is None and data.get(word) in (0, 1):
                data[word] = bool(data[word])


def network(
    name: str,
    program: str | None = None,
    inputs: Sequence[str] | None = None,
    rounds: bool = False,
    undirected: bool = False,
) -> Network:
    """The network of a graph's file: node attributes are inputs, those that `inputs` names or `program` declares, else
    all but positions and names. In GML, which has no truth values, 0 and 1 stand for those that `program` declares.

    Raises Fault, of status 3, with what is wrong.
    """
    found, wanted = graph(name), declared(program).inputs if program is not None else {}
    keep = set(inputs) if inputs is not None else set(wanted) if program is not None else None
    for node, data in found.nodes(data=True):
        missing = [word for word in inputs or () if word not in data]
        if missing:
            raise Fault(f"{name}: device {node} has no {missing[0]}", 3)
        for word in [word for word in data if keep is not None and word not in keep and word not in ("x", "y", "pos")]:
            del data[word]
    truths_of_gml(found, wanted)
    try:
        return from_graph(found, rounds=rounds, undirected=undirected)
    except Fault as fault:
        raise Fault(f"{name}: {fault}", fault.status) from None


def table_of(name: str) -> Any:
    """The table of exports that `run --table` or `replay --table` wrote, on the last line of its output."""
    lines = read(name).splitlines()
    try:
        if lines[-1].startswith('{"format":2,'):
            return json.loads(lines[-1])
    except (IndexError, ValueError, RecursionError):
        pass
    raise Fault(f"{name} has no table; fc run --table and fc replay --table write one", 3)
