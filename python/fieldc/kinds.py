"""Numbers in values that are devices and no amounts: which parts of the values have them, and by which names they are
written."""

from __future__ import annotations

from collections.abc import Iterable, Mapping
from dataclasses import dataclass, replace
from typing import TypeVar, cast

from . import results
from .refusals import Fault
from .results import Shown, Value, Values

Found = TypeVar("Found", bound="results.Result | str")


@dataclass(frozen=True)
class Kinds:
    """Which parts of the values are kinds and no amounts, from 1 on, or nothing for all; and the devices by name.

    A number that no device has stands apart from the kinds, unless none is a device's.
    """

    parts: frozenset[int] | None
    devices: Mapping[int, str]

    def has(self, part: int) -> bool:
        """Whether a part is of kinds."""
        return self.parts is None or part in self.parts


def parts_of(value: Value) -> tuple[int | bool, ...]:
    """The numbers and truth values of a value, from left to right: one, or those of the pairs."""
    if isinstance(value, tuple):
        return parts_of(value[0]) + parts_of(value[1])
    return (value,)


def kinds_of(word: str, values: Iterable[Value | None], devices: Mapping[int, str]) -> Kinds:
    """The kinds that a word names: `all` parts of the values, or some, as `2` or `1,3`. Raises Fault if a part isn't
    there."""
    parts = None if word == "all" else [int(part) for part in word.split(",") if part.isdecimal()]
    most = next((len(parts_of(value)) for value in values if value is not None), 0)
    if not most:
        raise Fault(f"--kinds {word}: it is about values; there are none")
    if parts is not None and (len(parts) != len(word.split(",")) or not all(1 <= part <= most for part in parts)):
        raise Fault(f"--kinds {word}: it is all, or numbers of parts, and a value has {most}")
    return Kinds(None if parts is None else frozenset(parts), devices)


def by_names(value: Value | None, kinds: Kinds) -> Shown | None:
    """A value in which devices have their names."""
    count = 0

    def named(part: Value) -> Shown:
        nonlocal count
        if isinstance(part, tuple):
            return named(part[0]), named(part[1])
        count += 1
        return part if isinstance(part, bool) or not kinds.has(count) else kinds.devices.get(part, part)

    return None if value is None else named(value)


def values_of(result: results.Result | str) -> list[Value | None]:
    """All values that a result has of devices; of a run those of all shows."""
    if isinstance(result, results.Ran):
        return [value for show in result.shows for value in show.values.values()]
    return list(getattr(result, "values", {}).values())


def with_names(result: Found, kinds: Kinds) -> Found:
    """A result in whose values devices have their names, to be written."""

    def named(values: Values) -> Values:
        return cast("Values", {device: by_names(value, kinds) for device, value in values.items()})

    if isinstance(result, results.Ran):
        shows = tuple(replace(show, values=named(show.values)) for show in result.shows)
        return cast(Found, replace(result, shows=shows))
    if isinstance(result, (results.Settled, results.Stable, results.Traced, results.Replayed, results.Mailed)):
        return cast(Found, replace(result, values=named(result.values)))
    return result
