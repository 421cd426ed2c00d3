"""Devices that move: where each is at which time, the networks of some times, and the script of edits between these."""

from __future__ import annotations

import bisect
import json
import math
from collections.abc import Callable, Iterator, Mapping, Sequence
from dataclasses import dataclass, field
from datetime import datetime, timezone
from types import MappingProxyType

from .columns import DECIMAL, in_metres, real
from .edits import MOST_LINES
from .networks import Input, Network, Position, numbered
from .refusals import Fault
from .separated import Columns, columns_of, has_times


@dataclass(frozen=True)
class Sight:
    """Where a device is at a time, and its inputs from then on."""

    time: float
    place: Position
    inputs: Mapping[str, Input]


@dataclass(frozen=True)
class Moves:
    """By device, in ascending order, where it is seen and when, with the names that were no numbers.

    Times are those of the file; of dates they are seconds since the earliest. `left_out` are columns that are nothing.
    """

    seen: Mapping[int, tuple[Sight, ...]]
    names: Mapping[int, str] = field(default_factory=dict)
    left_out: tuple[str, ...] = ()

    @property
    def span(self) -> tuple[float, float]:
        """The first and the last time."""
        times = [sight.time for sights in self.seen.values() for sight in sights]
        return min(times), max(times)


@dataclass(frozen=True)
class Step:
    """The network of a time."""

    time: float
    network: Network


def read(
    name: str,
    program: str | None = None,
    inputs: Sequence[str] | None = None,
    scale: Mapping[str, float] = MappingProxyType({}),
) -> Moves:
    """The moves of a file of rows `t id x y` in any order, or of points in GeoJSON, with inputs as `points` of `files`
    has them.

    A time is a number, or a date and time. Raises Fault, of status 3, with the line that is at fault.
    """
    columns = columns_of(name, program, inputs, scale, timed=True)
    times = _times(columns)
    number, names = numbered(list(dict.fromkeys(map(columns.id_of, columns.rows))))
    places = {place: columns.place(row) for place, row in enumerate(columns.rows)}
    places = in_metres(places, dict(enumerate(map(columns.where, columns.rows)))) if columns.in_degrees else places
    seen: dict[int, dict[float, Sight]] = {device: {} for device in sorted(number.values())}
    lines: dict[tuple[int, float], int] = {}
    for place, (row, time) in enumerate(zip(columns.rows, times)):
        device = number[columns.id_of(row)]
        if time in seen[device]:
            again = f"device {columns.id_of(row)} is seen at this time on line {lines[device, time]} already"
            raise Fault(f"{columns.where(row)}: {again}", 3)
        lines[device, time] = row[0]
        seen[device][time] = Sight(time, places[place], columns.inputs(row))
    sorted_by_time = {device: tuple(own[time] for time in sorted(own)) for device, own in seen.items()}
    return Moves(sorted_by_time, names, columns.left_out)


def _times(columns: Columns) -> list[float]:
    """The times of the rows: numbers, or of dates the seconds since the earliest. Raises Fault if both stand."""
    assert columns.time is not None
    found, dated = [], []
    for row in columns.rows:
        word, where = row[1][columns.time], columns.where(row, columns.header[columns.time])
        dated.append(not DECIMAL.fullmatch(word))
        found.append(_date(word, where) if dated[-1] else real(word, where))
        if dated[-1] != dated[0]:
            kinds = "a date" if dated[-1] else "a number", "a date" if dated[0] else "a number"
            raise Fault(f"{where} is {kinds[0]}, and on line {columns.rows[0][0]} it is {kinds[1]}", 3)
    return [time - min(found) for time in found] if dated[0] else found


def _date(word: str, where: str) -> float:
    """The seconds of a date and time; of one without a time zone it is that of Greenwich."""
    try:
        found = datetime.fromisoformat(word)
    except ValueError:
        wanted = "a number, or a date and time such as 2026-05-01T12:00:00"
        raise Fault(f"{where} is {word!r}; it has to be {wanted}", 3) from None
    return (found if found.tzinfo is not None else found.replace(tzinfo=timezone.utc)).timestamp()


# ---- networks of some times ----------------------------------------------------------------------------------------


def times_of(moves: Moves, every: float) -> list[float]:
    """The first time, and then a time each `every`, up to the last. Raises Fault if they are too many for a script, or
    `every` isn't above 0."""
    first, last = moves.span
    if every <= 0:
        raise Fault(f"--every {every:g}: it has to be above 0")
    count = math.floor((last - first) / every + 1e-9) + 1
    if 2 * count > MOST_LINES:
        least = (last - first) / (MOST_LINES / 2 - 1)
        steps = f"{count:,} steps from t = {first:g} to {last:g}"
        lines = f"at least {2 * count:,} lines of a script, but fc takes {MOST_LINES:,}"
        raise Fault(f"--every {every:g}: {steps} are {lines}; --every {least:.6g} has few enough steps", 4)
    return [first + place * every for place in range(count)]


def there(moves: Moves, time: float, gone_after: float = math.inf) -> dict[int, tuple[Position, Mapping[str, Input]]]:
    """By device that is there at a time its place and inputs.

    A device is there from when it is first seen, but not where it was last seen more than `gone_after` before. Between
    two sights its place lies on the straight line; where it isn't seen again it stays, and so it does up to
    `gone_after` where that is less than until the next sight. Its inputs are those of the last sight.
    """
    found = {}
    for device, sights in moves.seen.items():
        at = bisect.bisect_right([sight.time for sight in sights], time + 1e-9 * max(abs(time), 1.0)) - 1
        if at >= 0 and time - sights[at].time <= gone_after:
            following = sights[at + 1] if at + 1 < len(sights) else None
            on_the_way = following is not None and following.time - sights[at].time <= gone_after
            place = _between(sights[at], following, time) if following is not None and on_the_way else sights[at].place
            found[device] = (place, sights[at].inputs)
    return found


def _between(one: Sight, other: Sight, time: float) -> Position:
    part = max(time - one.time, 0.0) / (other.time - one.time)
    (x, y), (u, v) = one.place, other.place
    return x + (u - x) * part, y + (v - y) * part


def steps(
    moves: Moves,
    times: Sequence[float],
    gone_after: float,
    linked: Callable[[Mapping[int, Position], Mapping[int, Mapping[str, Input]]], Network],
) -> list[Step]:
    """The networks of some times, each made of positions and inputs by `linked`. Raises Fault with the time at which
    one can't be made."""
    found = []
    for time in times:
        now = there(moves, time, gone_after)
        if not now:
            raise Fault(f"at t = {time:g} there is no device; a network needs at least one", 3)
        places = {device: place for device, (place, _) in now.items()}
        inputs = {device: own for device, (_, own) in now.items()}
        try:
            found.append(Step(time, linked(places, inputs)))
        except Fault as fault:
            raise Fault(f"at t = {time:g}: {fault}", fault.status) from None
    return found


def still_there(moves: Moves, times: Sequence[float]) -> list[int]:
    """The devices that aren't seen any more when the last step is made."""
    before_last = times[-2] if len(times) > 1 else -math.inf
    return [device for device, sights in moves.seen.items() if sights[-1].time <= before_last]


# ---- the script ----------------------------------------------------------------------------------------------------


def script(found: Sequence[Step], rounds: int, declared: Sequence[str] | None) -> str:
    """The script that makes of each network the next, and runs so many rounds and shows the values on each.

    `declared` are the inputs of the program in their order, which a line `join` has. Raises Fault if a device with
    inputs joins and they aren't known, or the lines are too many.
    """
    lines = [f"run {rounds}", "show"]
    for before, after in zip(found, found[1:]):
        lines += [*edits(before.network, after.network, declared, after.time), f"run {rounds}", "show"]
    if len(lines) > MOST_LINES:
        fewer = "choose a greater --every, a smaller --range or a part of the file"
        raise Fault(f"the script has {len(lines):,} lines, but fc takes {MOST_LINES:,}: {fewer}", 4)
    return "".join(line + "\n" for line in lines)


def edits(before: Network, after: Network, declared: Sequence[str] | None, time: float) -> Iterator[str]:
    """The lines that make one network of another: who leaves and joins, links that are gone, links that are new or
    weigh otherwise, and inputs."""
    leaving = [f"leave {device}" for device in before.inputs if device not in after.inputs]
    joining = [_join(after, device, declared, time) for device in after.inputs if device not in before.inputs]
    # a network has at least one device at any time
    yield from joining + leaving if len(leaving) == len(before.inputs) else leaving + joining
    there, then = ({(a, b): weight for a, b, weight in one.links} for one in (before, after))
    for a, b in there:
        if (a, b) not in then and a in after.inputs and b in after.inputs:
            yield f"unlink {a} {b}"
    for (a, b), weight in then.items():
        if there.get((a, b)) != weight:
            yield f"link {a} {b} {weight}"
    for device, own in after.inputs.items():
        for name, value in own.items():
            if device in before.inputs and before.inputs[device].get(name) != value:
                yield f"set {device} {name} {json.dumps(value)}"


def _join(network: Network, device: int, declared: Sequence[str] | None, time: float) -> str:
    own = network.inputs[device]
    if declared is None and len(own) > 1:
        joins = f"device {network.called(device)} joins at t = {time:g}"
        raise Fault(f"{joins}, and a line join has its inputs in the order in which they are declared: --program FILE")
    return " ".join(["join", str(device), *(json.dumps(own[name]) for name in (own if declared is None else declared))])


# ---- positions in time ---------------------------------------------------------------------------------------------


def positions_text(found: Sequence[Step]) -> str:
    """A file of positions, a line `t,id,x,y` for each device of each step, which `positions_by_time` reads back."""
    rows = [(step.time, d, *at) for step in found for d, at in step.network.positions.items()]
    return "t,id,x,y\n" + "".join(f"{time:.10g},{d},{x:.6g},{y:.6g}\n" for time, d, x, y in rows)


def positions_by_time(name: str, names: Mapping[int, str]) -> dict[float, dict[int, Position]] | None:
    """The positions of a file by time, in ascending order, and by device, which may stand there by its name; None if
    the file has no times. Raises Fault."""
    if not has_times(name):
        return None
    moves = read(name, inputs=())
    number = {word: device for device, word in names.items()}
    found: dict[float, dict[int, Position]] = {}
    for device, sights in moves.seen.items():
        own = number.get(moves.names.get(device, str(device)), device)
        for sight in sights:
            found.setdefault(sight.time, {})[own] = sight.place
    return dict(sorted(found.items()))
