"""Why a network stays open: looks for two starts from which the devices come to rest at different values.

Everything is run by `fc`. A rest is a table of exports that a round in which all begin before one ends leaves as it is:
then no firing changes anything, in whatever order. Two rests with different values are evidence that the program
doesn't settle on this network, and so is a round that comes back after two to where it was with other values in
between. Both are given to `fc` once more as they are written to files. That nothing is found says nothing.
"""

from __future__ import annotations

import argparse
import itertools
import json
from collections.abc import Callable, Iterator, Mapping, Sequence
from dataclasses import dataclass, replace
from pathlib import Path
from typing import Any

from . import program as fc
from . import results
from .language import Unfolded, reading
from .progress import Progress
from .refusals import Call, Fault, Refusal, Section
from .results import Values, word_of
from .sections import write
from .streams import say
from .telling import counted, listed

MOST_BYTES = 1_000_000
MOST_FIRINGS = 100_000
NUMBERS = (1, 2, 3, 4)
SHOWN = 8
TOGETHER, IN_TURN, BACKWARDS = (
    "all begin before one ends",
    "one after the other",
    "one after the other, from the last on",
)
ORDERS = (TOGETHER, IN_TURN, BACKWARDS)
PAGE = "docs/settle.md"


@dataclass(frozen=True)
class Rest:
    """Where the devices came to rest.

    `start` says what they held at first, `order` in which order they fired, and `rounds` how many rounds it took at
    most. `values` is what they hold, and `text` an input of `fc replay` that shows it: its log ends with a round that
    changes nothing.
    """

    start: str
    order: str
    rounds: int
    values: Values
    text: str


@dataclass(frozen=True)
class Swing:
    """A start from which the devices get to where two rounds lead back, with other values in between.

    In these rounds all begin before one ends. `text` is an input of `fc replay` with one of them, after which the
    devices hold `after`; a second one leads back to `before`.
    """

    start: str
    before: Values
    after: Values
    text: str


@dataclass(frozen=True)
class Attempt:
    """A start and an order that were tried, and what came of it."""

    start: str
    order: str
    outcome: str


@dataclass(frozen=True)
class Openness:
    """What was found: two rests with different values, or a swing, or neither; and what was tried.

    `from_table` says whether the table and the pending firings of the network were the only start.
    """

    rests: tuple[Rest, Rest] | None
    swing: Swing | None
    tried: tuple[Attempt, ...]
    from_table: bool = False

    @property
    def devices(self) -> tuple[int, ...]:
        """The devices on which the two rests, or the two rounds of the swing, differ."""
        if self.rests is not None:
            return differing(self.rests[0].values, self.rests[1].values)
        return () if self.swing is None else differing(self.swing.before, self.swing.after)


def differing(first: Values, second: Values) -> tuple[int, ...]:
    """The devices that hold different values."""
    return tuple(device for device in results.by_number(first) if first[device] != second[device])


def round_of(devices: Sequence[int], order: str) -> str:
    """The log of a round in an order."""
    if order == TOGETHER:
        return "".join(f"B{d}\n" for d in devices) + "".join(f"E{d}\n" for d in devices)
    return "".join(f"B{d}\nE{d}\n" for d in (devices if order == IN_TURN else reversed(devices)))


class Search:
    """Runs one program on one network from tables, by `fc`."""

    def __init__(self, program: str, scene: Mapping[str, Any], waiting: Callable[[], None] | None = None) -> None:
        self.program = program
        self.scene = dict(scene)
        self.waiting = waiting
        self.devices = sorted(device["id"] for device in scene["devices"])
        self.together = round_of(self.devices, TOGETHER)

    def with_table(self, table: Mapping[str, Any] | None) -> str:
        """The network with a table and nothing in flight, as JSON."""
        kept = {name: self.scene[name] for name in ("devices", "links")}
        return json.dumps(kept if table is None else {**kept, "table": dict(table)}, separators=(",", ":"))

    def text(self, scene: str, log: str) -> str:
        """An input of `fc replay`."""
        return fc.text_of(fc.joined(self.call(scene, log).sections))

    def call(self, scene: str, log: str, kind: str = "log") -> Call:
        """What `fc replay` or `fc run` is asked."""
        texts = (("program", self.program), ("network", scene), (kind, log))
        words = ("replay", "--table") if kind == "log" else ("run", "--table")
        return Call(words, tuple(Section(kind, "", 1, text) for kind, text in texts))

    def replayed(self, scene: str, log: str) -> results.Replayed:
        """What the devices hold after a log, and the table. Raises Refusal."""
        return results.replayed(fc.answered(self.call(scene, log), self.waiting).text)

    def rubbish(self, number: int) -> Mapping[str, Any] | None:
        """The table of rubbish of a number. Raises Refusal."""
        call = self.call(self.with_table(None), f"scramble {number}\n", "script")
        return results.ran(fc.answered(call, self.waiting).text).table

    def rest(self, start: str, scene: str, before: str, order: str) -> Rest | Swing | str:
        """Where the devices come to rest from a network by an order, or between what they swing; else what was tried.

        `before` is a log that comes first. The rounds are doubled until one more changes nothing.
        """
        one = round_of(self.devices, order)
        most = max(1, MOST_FIRINGS // len(self.devices))
        rounds, now = 0, scene
        while rounds < most:
            fitting = max(1, (MOST_BYTES - len(now) - len(self.program) - len(before)) // len(one))
            count = min(max(1, rounds), fitting, most - rounds)
            found = self.replayed(now, ("" if rounds else before) + one * count)
            rounds += count
            now = self.with_table(found.table)
            after = self.replayed(now, self.together)
            if after.table == found.table:
                return Rest(start, order, rounds, found.values, self.text(now, self.together))
            back = self.replayed(self.with_table(after.table), self.together)
            if back.table == found.table and differing(found.values, after.values):
                return Swing(start, found.values, after.values, self.text(now, self.together))
        return f"no rest in {rounds:,} rounds"


def filled(value: Any, whole: int, truth: bool) -> Any:
    """A value of JSON with one number in place of all numbers, and one truth value in that of all others."""
    if isinstance(value, list):
        return [filled(part, whole, truth) for part in value]
    return truth if isinstance(value, bool) else whole


def filled_table(table: Mapping[str, Any], program: Unfolded, whole: int, truth: bool) -> dict[str, Any]:
    """A table with one number and one truth value everywhere, but for the branches that were taken."""
    branches = {node.place for node in program.nodes if node.form == "if"}
    rows = [
        {
            "id": row["id"],
            "kept": [[place, kept if place in branches else filled(kept, whole, truth)] for place, kept in row["kept"]],
            "value": filled(row["value"], whole, truth),
        }
        for row in table["rows"]
    ]
    return {"format": 2, "rows": rows}


def starts(search: Search) -> Iterator[tuple[str, Mapping[str, Any] | None]]:
    """Tables to start from, each with what it is."""
    first = search.replayed(search.with_table(None), search.together)
    known = reading(search.program).unfolded
    if known is not None and first.table is not None:
        yield "everything least", filled_table(first.table, known, 0, False)
        yield "everything greatest", filled_table(first.table, known, known.ceiling, True)
    yield "no exports", None
    for number in NUMBERS:
        yield f"the rubbish of {number}", search.rubbish(number)


def look(
    program: str, scene: Mapping[str, Any], *, from_table: bool = False, waiting: Callable[[], None] | None = None
) -> Openness:
    """Looks for two rests with different values, from several tables and by several orders.

    With `from_table` all starts are the table and the pending firings of the network, and only the orders differ.
    Raises Refusal if `fc` refuses program or network.
    """
    search = Search(program, scene, waiting)
    tried: list[Attempt] = []
    found: list[Rest] = []
    for start, given, before in _given(search, from_table):
        swing: Swing | None = None
        for order in ORDERS:
            rest = _tried(search, start, given, before, order)
            tried.append(Attempt(start, order, _outcome(rest)))
            if isinstance(rest, Swing):
                swing = swing or rest
            if not isinstance(rest, Rest):
                continue
            other = next((old for old in found if differing(old.values, rest.values)), None)
            if other is not None:
                pair = (other, rest)
                if from_table:
                    pair = (_led(search, given, before, other), _led(search, given, before, rest))
                return Openness(confirmed(search, pair), None, tuple(tried), from_table)
            found.append(rest)
        if swing is not None:
            return Openness(None, swing, tuple(tried), from_table)
    return Openness(None, None, tuple(tried), from_table)


def _tried(search: Search, start: str, scene: str, before: str, order: str) -> Rest | Swing | str:
    """What comes of a start and an order; a table that is too long for an input is told, and no refusal."""
    try:
        return search.rest(start, scene, before, order)
    except Refusal as refusal:
        if refusal.word != "limit":
            raise
        return f"not tried to its end, {refusal.line}"


def _outcome(rest: Rest | Swing | str) -> str:
    if isinstance(rest, Swing):
        return "swings for ever"
    return rest if isinstance(rest, str) else f"at rest after at most {counted(rest.rounds, 'round')}"


def _given(search: Search, from_table: bool) -> Iterator[tuple[str, str, str]]:
    """The networks to start from, each with what it is and the log that comes first."""
    if not from_table:
        for start, table in starts(search):
            yield start, search.with_table(table), ""
        return
    pending = sorted(copy["id"] for copy in search.scene.get("pending", ()))
    before = "".join(f"E{device}\n" for device in pending)
    yield "the table of the network", json.dumps(search.scene, separators=(",", ":")), before


def _led(search: Search, scene: str, before: str, rest: Rest) -> Rest:
    """A rest whose input begins at the network itself, where it isn't too long for that."""
    log = before + round_of(search.devices, rest.order) * rest.rounds + search.together
    text = search.text(scene, log)
    return replace(rest, text=text) if len(text) <= MOST_BYTES else rest


def confirmed(search: Search, pair: tuple[Rest, Rest]) -> tuple[Rest, Rest]:
    """The two rests, once `fc replay` has led from each input to these values. Raises Fault if it hasn't."""
    for rest in pair:
        program, scene, log = rest.text.split("\n%%\n")
        if search.replayed(scene, log).values != rest.values:
            raise Fault("fc doesn't confirm a state that was found: please report this, with the program and network")
    return pair


def told(found: Openness, names: Sequence[str]) -> str:
    """What was found, in words; `names` are the files to which the inputs were written."""
    if found.rests is not None:
        lines = _told_rests(found, found.rests, names)
    elif found.swing is not None:
        lines = _told_swing(found, found.swing, names[0])
    else:
        things = "orders of firings" if found.from_table else "starts"
        first = f"No two {things} were found that end at different values. There may be some all the same. Tried from"
        lines = [first, *_told_tries(found)]
    return "\n".join(lines) + "\n"


def _told_rests(found: Openness, rests: tuple[Rest, Rest], names: Sequence[str]) -> list[str]:
    lines = ["Two starts end at different values, so the program doesn't settle on this network:"]
    does = "runs one round from there, which changes nothing"
    if found.from_table:
        what = "Two orders of firings end at different values"
        lines = [f"{what}, so the program doesn't settle from this network's table:"]
        does = "gets there, and ends with a round that changes nothing"
    for rest, name in zip(rests, names):
        lines.append(f"  from {rest.start}, {rest.order}, after at most {counted(rest.rounds, 'round')}:")
        lines.append(f"    {shown(rest.values, found.devices)}")
        lines.append(f"    fieldc replay {name} {does}")
    return [*lines, _differ(found.devices)]


def _told_swing(found: Openness, swing: Swing, name: str) -> list[str]:
    return [
        "The devices swing for ever, so the program doesn't settle on this network:",
        f"  from {swing.start} they come to where they hold in turn, when {TOGETHER},",
        f"    {shown(swing.before, found.devices)}",
        f"    {shown(swing.after, found.devices)}",
        f"    fieldc replay {name} makes one round; a second one leads back",
        _differ(found.devices),
    ]


def _told_tries(found: Openness) -> list[str]:
    """What was tried, the orders of one start on one line where they came to the same."""
    lines = []
    for start, tries in itertools.groupby(found.tried, lambda attempt: attempt.start):
        all_tries = list(tries)
        if len({attempt.outcome for attempt in all_tries}) == 1:
            lines.append(f"  {start}, in {len(all_tries)} orders of firings: {all_tries[0].outcome}")
        else:
            lines.extend(f"  {start}, {attempt.order}: {attempt.outcome}" for attempt in all_tries)
    return lines


def _differ(devices: Sequence[int]) -> str:
    more = len(devices) - SHOWN
    named = listed([*map(str, devices[:SHOWN]), *([f"{more:,} more"] if more > 0 else [])])
    return f"They differ at {'device' if len(devices) == 1 else 'the devices'} {named}."


def shown(values: Values, devices: Sequence[int]) -> str:
    """The values of some devices, and that there are more."""
    words = [f"{device}: {word_of(values[device])}" for device in devices[:SHOWN]]
    return ", ".join(words) + (", .." if len(devices) > SHOWN else "")


def free_names(count: int, folder: Path) -> list[str]:
    """Names of files that aren't there yet."""
    free = (f"open_{number}.txt" for number in itertools.count(1))
    return list(itertools.islice((name for name in free if not (folder / name).exists()), count))


def perform(options: argparse.Namespace, call: Call) -> None:
    """Looks, writes the inputs that show what was found to files here, and tells of it on standard error."""
    texts = {section.kind: section.text for section in call.sections}
    scene = json.loads(texts["network"])
    with Progress(lambda: "looking for two starts that end at different values") as waiting:
        found = look(texts["program"], scene, from_table=getattr(options, "from_table", False), waiting=waiting)
    inputs = [rest.text for rest in found.rests] if found.rests else [found.swing.text] if found.swing else []
    names = free_names(len(inputs), Path.cwd())
    for name, text in zip(names, inputs):
        write(name, text)
    say(told(found, names))
