"""Results as tables of pandas, and as they are shown in notebooks."""

from __future__ import annotations

import base64
import html
import io
from collections.abc import Hashable, Sequence
from importlib.util import find_spec
from typing import TYPE_CHECKING, Any

from . import results
from .answers import Answer
from .refusals import Fault
from .results import Value, word_of

if TYPE_CHECKING:
    from pandas import DataFrame

MOST_ROWS = 40
MOST_DRAWN = 300


def columns_of(result: Answer) -> tuple[list[Hashable], dict[str, list[Any]]]:
    """The index and the columns of a result's table."""
    if isinstance(result, results.Checked):
        facts = {key: [getattr(fact, key) for fact in result.facts] for key in ("operator", "type", "range", "level")}
        return [fact.place for fact in result.facts], facts
    if isinstance(result, results.Settled):
        return list(result.values), {"value": list(result.values.values()), "rounds": list(result.by_device.values())}
    if isinstance(result, results.Bounds):
        return list(result.by_device), columns_of_bounds(list(result.by_device.values()))
    if isinstance(result, results.Traced) and result.walks is not None:
        return list(result.values), {"value": list(result.values.values()), "walk": list(result.walks.values())}
    if isinstance(result, results.Ran):
        rows = [(show.line, device, value) for show in result.shows for device, value in show.values.items()]
        return list(range(len(rows))), {
            key: [row[at] for row in rows] for at, key in enumerate(("line", "device", "value"))
        }
    if isinstance(result, results.Generated):
        keys = ("devices", "firings", "agree", "sum")
        rounds = {"rounds": [result.verdict.rounds]}
        return [result.number], {**{key: [getattr(result, key)] for key in keys}, **rounds}
    values: results.Values = getattr(result, "values")
    return list(values), {"value": list(values.values())}


def columns_of_bounds(held: Sequence[results.Held]) -> dict[str, list[Any]]:
    """The columns of bounds; those from now on are there where rounds are counted from a table."""
    found: dict[str, list[Any]] = {"rounds": [one.rounds for one in held]}
    found |= {"low": [one.bound.low for one in held], "high": [one.bound.high for one in held]}
    now = [one.now for one in held if one.now is not None]
    found |= {"low_now": [one.low for one in now], "high_now": [one.high for one in now]} if now else {}
    return {**found, "away": [one.away for one in held]}


def index_name(result: Answer) -> str | None:
    """What the rows of a result's table are."""
    names = {results.Checked: "place", results.Generated: "number"}
    return None if isinstance(result, results.Ran) else names.get(type(result), "device")


def kind_of(column: Sequence[Any]) -> str:
    """The type of a column: of whole numbers or truth values where all are, with gaps where one is missing."""
    there = [value for value in column if value is not None]
    gaps = len(there) < len(column)
    if there and all(isinstance(value, bool) for value in there):
        return "boolean" if gaps else "bool"
    if there and all(isinstance(value, int) and not isinstance(value, bool) for value in there):
        return "Int64" if gaps else "int64"
    return "object"


def frame_of(result: Answer) -> DataFrame:
    """The table of a result. Raises Fault if pandas isn't there."""
    try:
        import pandas
    except ImportError:
        raise Fault("tables need pandas (Debian: python3-pandas)") from None
    index, columns = columns_of(result)
    rows = pandas.Index(index, name=index_name(result), tupleize_cols=False)
    return pandas.DataFrame({key: pandas.Series(one, rows, kind_of(one)) for key, one in columns.items()}, rows)


# ---- notebooks -----------------------------------------------------------------------------------------------------


def headline(result: Answer) -> str:
    """A result in a few words: its verdict, and what it says of the whole network."""
    verdict = getattr(result, "verdict", None)
    words = [verdict.line] if verdict is not None else []
    if isinstance(result, results.Settled):
        words.append("open" if result.open else f"settles {result.rounds}")
    if isinstance(result, results.Bounds):
        words.append(f"within {result.within}")
    if isinstance(result, results.Traced) and result.walks is None:
        words.append("no walks")
    if isinstance(result, (results.Replayed, results.Mailed)) and result.rounds is not None:
        words.append(f"rounds {result.rounds}")
    return ", ".join(words)


def cell(value: Value | Hashable | None) -> str:
    """What stands in a cell."""
    if value is None or isinstance(value, (bool, int)):
        return word_of(value)
    return html.escape(str(value))


def html_of(result: Answer) -> str:
    """A result as a notebook shows it: its verdict, a table of its first rows, and a picture where one can be drawn."""
    index, columns = columns_of(result)
    heads = "".join(f"<th>{html.escape(str(key))}</th>" for key in (index_name(result) or "", *columns))
    rows = [
        "<tr>"
        + "".join(f"<td>{cell(value)}</td>" for value in (name, *(one[at] for one in columns.values())))
        + "</tr>"
        for at, name in enumerate(index[:MOST_ROWS])
    ]
    more = f"<p>and {len(index) - MOST_ROWS} more rows</p>" if len(index) > MOST_ROWS else ""
    table = f"<table><tr>{heads}</tr>{''.join(rows)}</table>{more}" if index else ""
    said = f"<p><code>{html.escape(headline(result))}</code></p>" if headline(result) else ""
    png = png_of(result)
    drawn = f'<img alt="the network" src="data:image/png;base64,{base64.b64encode(png).decode()}">' if png else ""
    return f"<div>{said}{drawn}{table}</div>"


def png_of(result: Answer) -> bytes | None:
    """The picture of a result, where its network is known and small, and matplotlib is there."""
    from .plots import can_be_drawn, draw

    if not can_be_drawn(result) or find_spec("matplotlib") is None:
        return None
    if result.of is None or len(result.of.network.inputs) > MOST_DRAWN:
        return None
    from matplotlib.figure import Figure

    figure, written = Figure(figsize=(7, 5.5), layout="constrained"), io.BytesIO()
    draw(result, ax=figure.subplots())
    figure.savefig(written, format="png", dpi=80)
    return written.getvalue()
