"""What `fc` answers, as frozen dataclasses, and the readers of its texts. Nothing of the calculus is computed here."""

from __future__ import annotations

import json
import re
from collections.abc import Hashable, Iterator, Mapping
from dataclasses import dataclass, field
from typing import Any, TypeVar, Union, cast

from .answers import Answer
from .kept import Kept
from .networks import Json
from .refusals import Fault

Found = TypeVar("Found")

Value = Union[int, bool, tuple["Value", "Value"]]
"""A value of the calculus: a whole number, a truth value, or a pair of values."""

Shown = Union[int, bool, str, tuple["Shown", "Shown"]]
"""A value as it is written: numbers that are devices may have their names."""

Values = Mapping[Hashable, Union[Value, None]]
"""By device, in ascending order, its value, or None if it has published none (or none is known). A device is its
number, or the node of the graph that the library was given."""


def by_number(found: Mapping[Hashable, Found]) -> Mapping[int, Found]:
    """What `fc` wrote of devices, whose numbers are whole numbers."""
    return cast("Mapping[int, Found]", found)


def walks_by_number(traced: Traced) -> Mapping[int, tuple[int, ...]]:
    """The walks that `fc` wrote, of whole numbers; none where there are none."""
    return cast("Mapping[int, tuple[int, ...]]", traced.walks or {})


@dataclass(frozen=True)
class Verdict:
    """`yes K` with the `rounds` K, or `no PLACE REASON`; `line` is as `fc` wrote it."""

    line: str
    rounds: int | None = None
    place: int | None = None
    reason: str | None = None

    @property
    def stabilises(self) -> bool:
        """Whether it is a yes."""
        return self.rounds is not None

    def __bool__(self) -> bool:
        return self.stabilises


@dataclass(frozen=True)
class Fact:
    """What is known of a node of the unfolded `main`, as `check --facts` writes it."""

    place: int
    operator: str
    type: str
    range: str
    level: int | None


@dataclass(frozen=True)
class Checked(Answer):
    """The verdict, and the facts of each node where they were asked for and it is a yes."""

    verdict: Verdict
    facts: tuple[Fact, ...] = ()


@dataclass(frozen=True)
class Settled(Answer):
    """After how many rounds each device of the network holds its value.

    `rounds` is the settle time, and None if the network is open. `by_device` has each device's settle round, and
    `values` the value that it then holds; both have nothing for a device without a settle round. `from_table` says
    whether the rounds are counted from the table and the pending firings of the network, or from every start.
    """

    verdict: Verdict
    rounds: int | None
    by_device: Mapping[Hashable, int | None]
    values: Values
    from_table: bool = False
    facts: tuple[Fact, ...] = ()

    @property
    def open(self) -> bool:
        """Whether no number of rounds is known for some device."""
        return self.rounds is None


@dataclass(frozen=True)
class Bound:
    """Between which values a value stays: the least and the greatest, of a pair part by part. Of a truth value that may
    be either, `low` is false and `high` true."""

    low: Value
    high: Value

    @property
    def known(self) -> bool:
        """Whether only one value is left."""
        return self.low == self.high

    def holds(self, value: Value) -> bool:
        """Whether a value of this type lies in the bound."""
        return _between(self.low, value, self.high)

    def __str__(self) -> str:
        """The bound in the words of `fc`: `3`, `2..10`, `any`, `(1,0..4)`."""
        return _span(self.low, self.high)


Drawn = Union[Value, Bound]
"""What a picture shows of a device: its value, or the bound of it."""


@dataclass(frozen=True)
class Held:
    """What is known of a device while the network changes: after `rounds` rounds its value stays within `bound`.

    `now` is the bound in which it is from now on, where rounds are counted from a table. `away` says that the device
    may be away, and so may have no value.
    """

    rounds: int
    bound: Bound
    now: Bound | None = None
    away: bool = False

    def after(self, rounds: int) -> Bound | None:
        """The bound that holds after so many rounds, or None if none is known yet."""
        return self.bound if self.rounds <= rounds else self.now


@dataclass(frozen=True)
class Bounds(Answer):
    """Between which values each device stays while the network changes within some lines, and after how many rounds.

    `within` is after how many rounds all devices are within their bounds. `from_table` says whether rounds are counted
    from the table and the pending firings of the network, or from every start.
    """

    verdict: Verdict
    within: int
    by_device: Mapping[Hashable, Held]
    from_table: bool = False
    facts: tuple[Fact, ...] = ()

    @property
    def values(self) -> Values:
        """By device the value that it holds whatever changes, or None if more than one is left."""
        return Kept({one: held.bound.low if held.bound.known else None for one, held in self.by_device.items()})


@dataclass(frozen=True)
class Stable(Answer):
    """The value to which each device stabilises; none where the verdict is a no. With a yes `verdict` is nothing."""

    values: Values
    verdict: Verdict | None = None

    def __bool__(self) -> bool:
        return self.verdict is None or self.verdict.stabilises


@dataclass(frozen=True)
class Traced(Answer):
    """For each device its value and a least walk that ends in it. `walks` is None if there are none."""

    verdict: Verdict
    values: Values = field(default_factory=dict)
    walks: Mapping[Hashable, tuple[Hashable, ...]] | None = None


@dataclass(frozen=True)
class Show:
    """What a line of a script showed: `line` is its number, `values` what the devices held.

    `rounds` is how many rounds the script asked for between the last edit before that line and the line itself, and
    `edited` whether there was an edit at all. Both are of the script, and None if it isn't known.
    """

    line: int
    values: Values
    rounds: int | None = None
    edited: bool | None = None


@dataclass(frozen=True)
class Ran(Answer):
    """A run: the verdict at the start, the shows, the verdicts after joins and leaves by the number of the show before
    which they were written, the log's lines and the table of exports where they were asked for."""

    verdict: Verdict
    shows: tuple[Show, ...]
    verdicts: tuple[tuple[int, Verdict], ...] = ()
    log: tuple[str, ...] | None = None
    table: Mapping[str, Json] | None = None


@dataclass(frozen=True)
class Replayed(Answer):
    """What the devices hold after a log, and the rounds and the table where they were asked for."""

    values: Values
    rounds: int | None = None
    table: Mapping[str, Json] | None = None


@dataclass(frozen=True)
class Mailed(Answer):
    """What the devices hold after a mail log, and its rounds. `verdict` is that of a log that was made from a
    number."""

    values: Values
    rounds: int | None
    verdict: Verdict | None = None


@dataclass(frozen=True)
class Generated(Answer):
    """The summary of the scenario of a number."""

    number: int
    devices: int
    verdict: Verdict
    firings: int
    agree: int
    sum: int


Result = Union[Checked, Settled, Bounds, Stable, Traced, Ran, Replayed, Mailed, Generated]


def value_of(word: str) -> Value | None:
    """A value as `fc` writes it; nothing for `-`. Raises Fault for any other word."""
    if word == "-":
        return None
    try:
        return _paired(json.loads(word.replace("(", "[").replace(")", "]")))
    except (ValueError, TypeError):
        raise Fault(f"{word} is no value that fc writes") from None


def _paired(found: Any) -> Value:
    if isinstance(found, list):
        first, second = found
        return (_paired(first), _paired(second))
    if isinstance(found, bool) or (isinstance(found, int) and found >= 0):
        return found
    raise ValueError


def word_of(value: Shown | None) -> str:
    """A value in the words of `fc`: `-` for nothing, `(1,true)` for a pair; a name is as it is."""
    if value is None or isinstance(value, str):
        return "-" if value is None else value
    if isinstance(value, tuple):
        return "(" + ",".join(word_of(part) for part in value) + ")"
    return json.dumps(value)


def _between(low: Value, value: Value, high: Value) -> bool:
    if isinstance(value, tuple):
        assert isinstance(low, tuple) and isinstance(high, tuple)
        return all(map(_between, low, value, high))
    assert not isinstance(low, tuple) and not isinstance(high, tuple)
    return low <= value <= high


def _span(low: Value, high: Value) -> str:
    if isinstance(low, tuple) and isinstance(high, tuple):
        return "(" + ",".join(map(_span, low, high)) + ")"
    if low == high:
        return word_of(low)
    return "any" if isinstance(low, bool) else f"{low}..{high}"


PART = re.compile(r"([0-9]+)\.\.([0-9]+)|([0-9]+|true|false)|any")


def bound_of(word: str) -> Bound:
    """A bound as `fc` writes it. Raises Fault for any other word."""
    try:
        found, rest = _bound(word)
    except ValueError:
        found, rest = None, ""
    if found is None or rest:
        raise Fault(f"{word} is no bound that fc writes")
    return found


def _bound(text: str) -> tuple[Bound, str]:
    """The bound at the front of a text, and what follows it. Raises ValueError if there is none."""
    if text.startswith("("):
        first, rest = _bound(text[1:])
        second, rest = _bound(rest[1:] if rest.startswith(",") else "")
        if not rest.startswith(")"):
            raise ValueError
        return Bound((first.low, second.low), (first.high, second.high)), rest[1:]
    part = PART.match(text)
    if part is None:
        raise ValueError
    low, high, value = part.groups()
    ends = (low, high) if low is not None else (value, value) if value is not None else ("false", "true")
    return Bound(json.loads(ends[0]), json.loads(ends[1])), text[part.end() :]


def verdict_of(line: str) -> Verdict:
    """The verdict of its line. Raises Fault if it is none."""
    words = line.split(" ")
    if len(words) == 2 and words[0] == "yes" and words[1].isdigit():
        return Verdict(line, rounds=int(words[1]))
    if len(words) == 3 and words[0] == "no" and words[1].isdigit():
        return Verdict(line, place=int(words[1]), reason=words[2])
    raise Fault(f"{line!r} is no verdict")


def is_verdict(line: str) -> bool:
    """Whether a line is a verdict's."""
    return line.startswith("yes ") or (line.startswith("no ") and line != "no walks")


def _values(lines: list[str]) -> Values:
    rows = (line.split(" ") for line in lines)
    return Kept({int(row[0]): value_of(row[1]) for row in rows})


FACT = re.compile(r"(\d+) (\S+(?: \d+)?) ((?:field )?(?:int|bool|\(.*\))) (\S+) (\d+|-)")


def _facts(lines: list[str]) -> Iterator[Fact]:
    for line in lines:
        found = FACT.fullmatch(line)
        if found is None:
            raise Fault(f"{line!r} is no fact of a node")
        place, operator, kind, span, level = found.groups()
        yield Fact(int(place), operator, kind, span, None if level == "-" else int(level))


def checked(text: str) -> Checked:
    """What `check`, with or without `--facts`, wrote."""
    first, *rest = text.splitlines()
    return Checked(verdict_of(first), tuple(_facts(rest)))


def settled(text: str, from_table: bool = False) -> Settled:
    """What `check --settle` wrote. Raises Fault if there is no settle line."""
    lines = text.splitlines()
    place = next((i for i, line in enumerate(lines) if line == "open" or line.startswith("settles ")), None)
    if place is None:
        raise Fault("there is no line of check --settle")
    rounds: dict[Hashable, int | None] = {}
    values: dict[Hashable, Value | None] = {}
    for device, *rest in (line.split(" ") for line in lines[place + 1 :]):
        known = len(rest) == 2
        rounds[int(device)] = int(rest[0]) if known else None
        values[int(device)] = value_of(rest[1]) if known else None
    time = None if lines[place] == "open" else int(lines[place].split(" ")[1])
    facts = tuple(_facts(lines[1:place]))
    return Settled(verdict_of(lines[0]), time, Kept(rounds), Kept(values), from_table, facts)


def bounded(text: str) -> Bounds:
    """What `check --settle --changes` wrote, of every start or from a table. Raises Fault if it is nothing of it."""
    lines = text.splitlines()
    place = next((i for i, line in enumerate(lines) if line.startswith("within ")), None)
    if place is None:
        raise Fault("there is no line of check --settle --changes")
    held: dict[Hashable, Held] = dict(map(_held, lines[place + 1 :]))
    facts = tuple(_facts(lines[1:place]))
    from_table = any(one.now is not None for one in held.values())
    return Bounds(verdict_of(lines[0]), int(lines[place].split(" ")[1]), Kept(held), from_table, facts)


def is_bounded(text: str) -> bool:
    """Whether a text is what `check --settle --changes` wrote."""
    return any(line.startswith("within ") for line in text.splitlines())


def _held(line: str) -> tuple[int, Held]:
    """The device of a line `ID ROUND BOUND`, perhaps with one more bound and `away`, and what is known of it."""
    device, rounds, *rest = line.split(" ")
    away = rest[-1:] == ["away"]
    first, *second = map(bound_of, rest[: len(rest) - away])
    if len(second) > 1:
        raise Fault(f"{line!r} is no line of check --settle --changes")
    return int(device), Held(int(rounds), first, second[0] if second else None, away)


def stable(text: str) -> Stable:
    """What `stable` wrote."""
    lines = text.splitlines()
    if lines and is_verdict(lines[0]):
        return Stable(Kept({}), verdict_of(lines[0]))
    return Stable(_values(lines))


def traced(text: str) -> Traced:
    """What `trace` wrote."""
    first, *rest = text.splitlines()
    if not rest or rest == ["no walks"]:
        return Traced(verdict_of(first), Kept({}))
    rows = [line.split(" ") for line in rest]
    walks: dict[Hashable, tuple[Hashable, ...]] = {int(row[0]): tuple(map(int, row[2:])) for row in rows}
    return Traced(verdict_of(first), _values(rest), Kept(walks))


def _table(lines: list[str]) -> tuple[list[str], Mapping[str, Json] | None]:
    """The lines before a table, and the table, which stands on the last line."""
    if lines and lines[-1].startswith('{"format":2,'):
        return lines[:-1], Kept(json.loads(lines[-1]))
    return lines, None


def ran(text: str) -> Ran:
    """What `run` wrote."""
    lines, table = _table(text.splitlines())
    log = None
    if "log" in lines:
        log = tuple(lines[lines.index("log") + 1 :])
        lines = lines[: lines.index("log")]
    first, *rest = lines
    shows: list[tuple[int, list[str]]] = []
    verdicts: list[tuple[int, Verdict]] = []
    for line in rest:
        if line.startswith("@"):
            shows.append((int(line[1:]), []))
        elif is_verdict(line):
            verdicts.append((len(shows), verdict_of(line)))
        else:
            shows[-1][1].append(line)
    found = tuple(Show(number, _values(rows)) for number, rows in shows)
    return Ran(verdict_of(first), found, tuple(verdicts), log, table)


def replayed(text: str) -> Replayed:
    """What `replay` wrote."""
    lines, table = _table(text.splitlines())
    rounds = None
    if lines and lines[-1].startswith("rounds "):
        rounds = int(lines.pop().split(" ")[1])
    return Replayed(_values(lines), rounds, table)


def mailed(text: str) -> Mailed:
    """What `mail` wrote, of a log or of a number."""
    lines = text.splitlines()
    verdict = verdict_of(lines.pop(0)) if lines and is_verdict(lines[0]) else None
    rounds = int(lines.pop().split(" ")[1]) if lines and lines[-1].startswith("rounds ") else None
    return Mailed(_values(lines), rounds, verdict)


def generated(text: str) -> Generated:
    """What `gen` wrote."""
    rows = dict(line.split(" ", 1) for line in text.splitlines())
    number, devices, firings, agree, whole = (
        int(rows[name]) for name in ("number", "devices", "firings", "agree", "sum")
    )
    return Generated(number, devices, verdict_of(rows["verdict"]), firings, agree, whole)
