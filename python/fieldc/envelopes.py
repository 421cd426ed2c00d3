"""Envelopes: what a network may be while it changes within some lines, by the rule of docs/envelopes.md.

The lines are those that `fc` has taken; what they do to values is known to `fc` alone.
"""

from __future__ import annotations

from collections.abc import Iterable, Iterator, Mapping
from dataclasses import dataclass, replace
from typing import TypeVar

from .edits import value
from .networks import Declared, Input, Network, Pair, weight_of

Span = tuple[Input, Input]
"""The least and the greatest that a number may be, or a truth value."""

Key = TypeVar("Key")


@dataclass(frozen=True)
class Envelope:
    """The devices that may be there, in ascending order, each with the span of each input; the links that may be there,
    each with the span of its weight; and those of both that are always there."""

    inputs: Mapping[int, Mapping[str, Span]]
    links: Mapping[Pair, Span]
    sure_devices: frozenset[int]
    sure_links: frozenset[Pair]

    @property
    def away(self) -> frozenset[int]:
        """The devices that may be away."""
        return frozenset(self.inputs) - self.sure_devices


def envelope_of(network: Network, lines: str, declared: Declared) -> Envelope:
    """The least envelope of a network and all networks that lines of changes allow."""
    rows = [line.removesuffix("\r").split(" ") for line in lines.split("\n")]
    joined = [row for row in rows if row[0] == "join"]
    leaving = {int(row[1]) for row in rows if row[0] == "leave"}
    going = {pair_of(row) for row in rows if row[0] == "unlink"}
    sure = frozenset(set(network.inputs) - leaving)
    now = {(min(a, b), max(a, b)): weight for a, b, weight in network.links}
    linked = [(pair_of(row), _span(row[3], declared.metric)) for row in rows if row[0] == "link"]
    links = _eithers([*((pair, (weight, weight)) for pair, weight in now.items()), *linked])
    inputs: dict[int, dict[str, Span]] = {device: {} for device in sorted({*network.inputs, *map(_device, joined)})}
    for (device, name), span in _eithers(_inputs(network, rows, declared)).items():
        inputs[device][name] = span
    lasting = frozenset(pair for pair in now if pair not in going and sure.issuperset(pair))
    return Envelope(inputs, dict(sorted(links.items())), sure, lasting)


def widest(network: Network, envelope: Envelope) -> Network:
    """The network with all devices and links that may be there, with values of now, or else the least ones."""
    inputs = {
        device: network.inputs.get(device, {name: low for name, (low, _) in own.items()})
        for device, own in envelope.inputs.items()
    }
    now = {(min(a, b), max(a, b)): weight for a, b, weight in network.links}
    links = tuple((*pair, now.get(pair, weight_of(low, "a link"))) for pair, (low, _) in envelope.links.items())
    return replace(network, inputs=inputs, links=links, state={})


def pair_of(row: list[str]) -> Pair:
    """The pair of devices of a line `link` or `unlink`."""
    a, b = int(row[1]), int(row[2])
    return min(a, b), max(a, b)


def _device(row: list[str]) -> int:
    return int(row[1])


def _inputs(network: Network, rows: Iterable[list[str]], declared: Declared) -> Iterator[tuple[tuple[int, str], Span]]:
    """What an input of a device may be, by the network and by each line."""
    for device, own in network.inputs.items():
        for name, now in own.items():
            yield (device, name), (now, now)
    for row in rows:
        if row[0] == "set":
            yield (int(row[1]), row[2]), _span(row[3], declared.inputs[row[2]])
        elif row[0] == "join":
            for name, word in zip(declared.inputs, row[2:], strict=True):
                yield (int(row[1]), name), _span(word, declared.inputs[name])


def _span(word: str, whole: Pair | None) -> Span:
    """The span of a word: one value, `LO..HI`, or `any` of a range, or of the truth values where there is none."""
    if word == "any":
        return (False, True) if whole is None else whole
    low, dots, high = word.partition("..")
    return (int(low), int(high)) if dots else (value(word), value(word))


def _eithers(found: Iterable[tuple[Key, Span]]) -> dict[Key, Span]:
    """By each key the least span that has all of its spans."""
    made: dict[Key, Span] = {}
    for key, (low, high) in found:
        before = made.get(key, (low, high))
        made[key] = (min(low, before[0]), max(high, before[1]))
    return made
