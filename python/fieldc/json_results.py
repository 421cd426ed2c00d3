"""Results as JSON, for `--json`: one object, with devices in a list in ascending order."""

from __future__ import annotations

import json
from collections.abc import Mapping, Sequence
from typing import Any

from . import results
from .pace import Pace, with_seconds
from .refusals import Explanation, Fault, Refusal


def written(
    result: results.Result | str,
    names: Mapping[int, str],
    why: Explanation | None = None,
    warnings: Sequence[Explanation] = (),
    pace: Pace | None = None,
) -> str:
    """A result as a text of JSON that ends with a line feed. Devices with a name have it beside their number.

    `why` explains a no, and stands in the member `explanation`, where it is there; so do `warnings`. With a `pace`
    there are seconds beside rounds.
    """
    beside: dict[str, Any] = {} if why is None else {"explanation": explained(why)}
    beside |= {"warnings": [explained(one) for one in warnings]} if warnings else {}
    found = plain(result, names) if pace is None else with_seconds(plain(result, names), pace)
    return json.dumps(found | beside, indent=1) + "\n"


def plain(result: results.Result | str, names: Mapping[int, str]) -> dict[str, Any]:
    """A result as dictionaries, lists, numbers, texts and truth values. A pair is a list of two."""
    if isinstance(result, str):
        return {"program": result}
    if isinstance(result, results.Checked):
        return {**verdict(result.verdict), **_facts(result.facts)}
    if isinstance(result, results.Settled):
        return _settled(result, names)
    if isinstance(result, results.Bounds):
        return _bounds(result, names)
    if isinstance(result, results.Stable):
        own = verdict(result.verdict) if result.verdict is not None else {}
        return {**own, "devices": devices(result.values, names)}
    if isinstance(result, results.Traced):
        return _traced(result, names)
    if isinstance(result, results.Ran):
        return _ran(result, names)
    if isinstance(result, results.Replayed):
        rounds = {} if result.rounds is None else {"rounds": result.rounds}
        return {"devices": devices(result.values, names), **rounds, **_table(result.table)}
    if isinstance(result, results.Mailed):
        own = verdict(result.verdict) if result.verdict is not None else {}
        return {**own, "devices": devices(result.values, names), "rounds": result.rounds}
    own = {"number": result.number, "devices": result.devices, **verdict(result.verdict)}
    return {**own, "firings": result.firings, "agree": result.agree, "sum": result.sum}


def verdict(found: results.Verdict) -> dict[str, Any]:
    """A verdict as a member `verdict`."""
    if found.stabilises:
        return {"verdict": {"stabilises": True, "rounds": found.rounds}}
    return {"verdict": {"stabilises": False, "place": found.place, "reason": found.reason}}


def devices(values: results.Values, names: Mapping[int, str], **more: Mapping[int, Any]) -> list[dict[str, Any]]:
    """A list of devices, each with its number, its name where it has one, its value, and more of it."""
    rows = []
    for device, value in results.by_number(values).items():
        own: dict[str, Any] = {"name": names[device]} if device in names else {}
        rows.append({"id": device, **own, "value": value, **{key: column[device] for key, column in more.items()}})
    return rows


def _facts(facts: tuple[results.Fact, ...]) -> dict[str, Any]:
    keys = ("place", "operator", "type", "range", "level")
    return {"facts": [{key: getattr(fact, key) for key in keys} for fact in facts]} if facts else {}


def _settled(result: results.Settled, names: Mapping[int, str]) -> dict[str, Any]:
    rows = devices(result.values, names, rounds=results.by_number(result.by_device))
    settling = {"open": result.open, "settles": result.rounds, "from_table": result.from_table}
    return {**verdict(result.verdict), **settling, "devices": rows, **_facts(result.facts)}


def _bounds(result: results.Bounds, names: Mapping[int, str]) -> dict[str, Any]:
    rows = []
    for device, held in results.by_number(result.by_device).items():
        own: dict[str, Any] = {"id": device, **({"name": names[device]} if device in names else {})}
        own |= {"rounds": held.rounds, "low": held.bound.low, "high": held.bound.high}
        own |= {} if held.now is None else {"low_now": held.now.low, "high_now": held.now.high}
        rows.append({**own, "away": held.away})
    whole = {"within": result.within, "from_table": result.from_table}
    return {**verdict(result.verdict), **whole, "devices": rows, **_facts(result.facts)}


def _traced(result: results.Traced, names: Mapping[int, str]) -> dict[str, Any]:
    if result.walks is None:
        return {**verdict(result.verdict), "walks": False, "devices": []}
    walks = {device: list(walk) for device, walk in results.by_number(result.walks).items()}
    return {**verdict(result.verdict), "walks": True, "devices": devices(result.values, names, walk=walks)}


def _ran(result: results.Ran, names: Mapping[int, str]) -> dict[str, Any]:
    shows = [
        {"line": show.line, "rounds_since_edit": show.rounds, "devices": devices(show.values, names)}
        for show in result.shows
    ]
    later = [{"shows_before": place, **verdict(found)} for place, found in result.verdicts]
    log = {} if result.log is None else {"log": list(result.log)}
    return {**verdict(result.verdict), "shows": shows, "later_verdicts": later, **log, **_table(result.table)}


def _table(table: Mapping[str, Any] | None) -> dict[str, Any]:
    return {} if table is None else {"table": dict(table)}


def refused(refusal: Refusal, explanation: Explanation) -> str:
    """A refusal as a text of JSON, for standard error."""
    return json.dumps({"status": refusal.status, "line": refusal.line, "explanation": explained(explanation)}) + "\n"


def faulted(fault: Fault) -> str:
    """What `fieldc` itself refuses, as a text of JSON, in the form of a refusal without a line of `fc`."""
    told = explained(Explanation(str(fault)))
    return json.dumps({"status": fault.status, "line": None, "explanation": told}) + "\n"


def explained(explanation: Explanation) -> dict[str, Any]:
    """An explanation as a dictionary; what isn't known is null."""
    place = {"line": explanation.line, "column": explanation.column, "name": explanation.name}
    file = explanation.section.name if explanation.section else None
    return {"what": explanation.what, "file": file, **place, "hint": explanation.hint, "page": explanation.page}
