"""What `fc` answers as rows of separated values, for tables of others."""

from __future__ import annotations

import csv
import io
from collections.abc import Iterable, Mapping, Sequence
from typing import TYPE_CHECKING

from . import results
from .pace import Pace
from .results import Shown, Values, by_number, word_of

if TYPE_CHECKING:
    from .rounds import Curve

Row = tuple[Sequence[object], int, "Shown | None", Sequence[object]]
"""The words before a device, the device, its value, and the words after it."""


def leaves(value: Shown | None) -> list[str]:
    """The numbers, truth values and names of a value, from the left; none where there is none."""
    if isinstance(value, tuple):
        return [leaf for part in value for leaf in leaves(part)]
    return [] if value is None else [word_of(value)]


def written(front: Sequence[str], rows: Iterable[Row], names: Mapping[int, str], back: Sequence[str] = ()) -> str:
    """A table with a row of names: what stands before, the device, its name where some have one, a column for each part
    of a value, and what follows."""
    kept = list(rows)
    width = max((len(leaves(value)) for _, _, value, _ in kept), default=1)
    values = ["value"] if width <= 1 else [f"value_{place}" for place in range(1, width + 1)]
    text = io.StringIO()
    table = csv.writer(text, lineterminator="\n")
    table.writerow([*front, "device", *["name"] * bool(names), *values, *back])
    for before, device, value, behind in kept:
        own = [names.get(device, "")] if names else []
        parts = leaves(value) + [""] * (max(width, 1) - len(leaves(value)))
        table.writerow([*before, device, *own, *parts, *("" if word is None else word for word in behind)])
    return text.getvalue()


def rows_of(values: Values, *before: object) -> list[Row]:
    """A row for each device."""
    return [(before, device, value, ()) for device, value in by_number(values).items()]


def table_of_rounds(curves: Iterable[Curve], names: Mapping[int, str]) -> str:
    """What each device held after each round, from the rubbish of each number."""
    rows = [
        row for one in curves for count, values in enumerate(one.values) for row in rows_of(values, one.number, count)
    ]
    return written(["number", "round"], rows, names)


def table_of(result: results.Result | str, names: Mapping[int, str], pace: Pace | None = None) -> str:
    """The values of a result as a table; of a run those of all shows, with their lines. With a `pace` there are seconds
    after rounds."""
    if isinstance(result, results.Bounds):
        return table_of_bounds(result, names, pace)
    if isinstance(result, results.Ran):
        rows = [row for show in result.shows for row in rows_of(show.values, show.line)]
        return written(["line"], rows, names)
    if isinstance(result, results.Settled):
        known = by_number(result.by_device)
        rows = [
            ((), device, value, (known[device], *seconds_of(known[device], pace)))
            for device, value in by_number(result.values).items()
        ]
        return written([], rows, names, ["rounds", *["seconds"] * (pace is not None)])
    if isinstance(result, results.Traced):
        walks = results.walks_by_number(result)
        rows = [
            ((), device, value, (" ".join(map(str, walks[device])),))
            for device, value in by_number(result.values).items()
        ]
        return written([], rows, names, ["walk"])
    values: Values = getattr(result, "values")
    return written([], rows_of(values), names)


def seconds_of(rounds: int | None, pace: Pace | None) -> list[object]:
    """The seconds of some rounds as a field, where there is a pace; an empty one where the rounds aren't known."""
    return [] if pace is None else [None if rounds is None else pace.text(rounds)]


def table_of_bounds(found: results.Bounds, names: Mapping[int, str], pace: Pace | None) -> str:
    """Bounds as a table: for each device its rounds, the least and the greatest of each part of its value, those from
    now on where they are known, and whether it may be away."""
    rows: list[dict[str, object]] = []
    for device, held in by_number(found.by_device).items():
        ends = [("low", held.bound.low), ("high", held.bound.high)]
        ends += [("low_now", held.now.low), ("high_now", held.now.high)] if held.now is not None else []
        name = {"name": names.get(device, "")} if names else {}
        seconds = {"seconds": pace.text(held.rounds)} if pace is not None else {}
        parts = {column: part for end, value in ends for column, part in _parts(end, value)}
        rows.append({"device": device, **name, "rounds": held.rounds, **seconds, **parts, "away": word_of(held.away)})
    text = io.StringIO()
    table = csv.DictWriter(text, list(rows[0]), lineterminator="\n")
    table.writeheader()
    table.writerows(rows)
    return text.getvalue()


def _parts(name: str, value: results.Value) -> list[tuple[str, str]]:
    """The parts of a value, each with the name of its column."""
    parts = leaves(value)
    return [(name if len(parts) == 1 else f"{name}_{place}", part) for place, part in enumerate(parts, 1)]
