"""What may change where devices move about, or by the columns of a file of links, as lines of changes for `fc`."""

from __future__ import annotations

import math
from collections.abc import Callable, Mapping
from dataclasses import dataclass
from typing import Any

from .columns import DIGITS, TRUTHS
from .envelopes import envelope_of
from .networks import Declared, Network, Pair, in_range, numbered, plain, weight_of
from .refusals import Fault

MOST_PAIRS = 128
NEARLY = 1e-9
Weight = Callable[[float], int]
"""The weight of a link, by its length."""


# ---- devices that move ---------------------------------------------------------------------------------------------


@dataclass(frozen=True)
class Lengths:
    """How near and how far two devices may be. Numbers that differ by no more than `slack` count as one, since they are
    rounded."""

    nearest: float
    furthest: float
    slack: float

    def may_reach(self, reach: float) -> bool:
        """Whether the two may be within a range."""
        return self.nearest <= reach + self.slack

    def may_pass(self, reach: float) -> bool:
        """Whether the two may be out of a range."""
        return self.furthest > reach + self.slack

    def weights(self, reach: float, weight: Weight) -> Pair:
        """The least and the greatest weight that a link of the two may have, as long as they are within a range."""
        return weight(max(0.0, self.nearest - self.slack)), weight(min(self.furthest, reach) + self.slack)


def of_moves(network: Network, moves: Mapping[int, float], reach: float, weight: Weight) -> list[str]:
    """The lines of what may change while each device is at most so far from its place: how near and how far each pair
    may be says between which weights a link is, whether it may go, and whether it may come.

    Raises Fault, of status 4, if a device may come near more others than `fc` takes.
    """
    now = {(min(a, b), max(a, b)): w for a, b, w in network.links}
    lines, near = [], dict.fromkeys(network.inputs, 0)
    for a, b, _ in in_range(network.positions, reach + 2 * max(moves.values()) + NEARLY * reach).links:
        lengths = _lengths(network, (a, b), moves[a] + moves[b], reach)
        if (a, b) in now or lengths.may_reach(reach):
            near[a] += 1
            near[b] += 1
            lines += _of_pair((a, b), now.get((a, b)), lengths.weights(reach, weight), lengths.may_pass(reach))
    _within_limit(network, near)
    return lines


def _lengths(network: Network, pair: Pair, move: float, reach: float) -> Lengths:
    """How near and how far two devices may be that move so far together."""
    length = math.dist(network.positions[pair[0]], network.positions[pair[1]])
    return Lengths(max(0.0, length - move), length + move, NEARLY * (length + move + reach) if move else 0.0)


def _of_pair(pair: Pair, now: int | None, weights: Pair, goes: bool) -> list[str]:
    """The lines of a pair that is linked with a weight of now, or isn't, and may have these weights and go."""
    words = f"{pair[0]} {pair[1]}"
    changing = [f"link {words} {_span(*weights)}"] if now is None or weights != (now, now) else []
    return changing + [f"unlink {words}"] * (now is not None and goes)


def _span(least: int, greatest: int) -> str:
    return str(least) if least == greatest else f"{least}..{greatest}"


def _within_limit(network: Network, near: Mapping[int, int]) -> None:
    """Refuses more possible neighbours of a device than `fc` takes."""
    crowded = max(near, key=lambda device: near[device])
    if near[crowded] > MOST_PAIRS:
        raise Fault(
            f"device {network.called(crowded)} may come within reach of {near[crowded]} others, but fc takes "
            f"{MOST_PAIRS}: choose a smaller range, or a smaller move",
            4,
        )


def judged(lines: list[str], network: Network, wanted: Declared) -> list[str]:
    """The lines, where all weights that links may have are in the metric of a program. Raises Fault, of status 3."""
    for (a, b), weights in envelope_of(network, "\n".join(lines), wanted).links.items():
        where = f"the link that may be of {network.called(a)} and {network.called(b)}"
        for weight in weights:
            weight_of(weight, where, span=wanted.metric)
    return lines


# ---- the columns of links ------------------------------------------------------------------------------------------


def of_graph(graph: Any, network: Network, rounds: bool = False) -> list[str]:
    """The lines of what may change by the attributes of the links of a graph: `least` and `greatest` weight, and
    whether a link `goes`.

    The network is that of the graph. With `rounds` weights are rounded. Raises Fault, of status 3, if a weight of now
    isn't between these two, or an attribute is none.
    """
    number, _ = numbered(list(graph.nodes))
    now = {(min(a, b), max(a, b)): weight for a, b, weight in network.links}
    lines = []
    for one, other, data in sorted(graph.edges(data=True), key=lambda edge: sorted((number[edge[0]], number[edge[1]]))):
        pair = (min(number[one], number[other]), max(number[one], number[other]))
        where = f"the link of {one} and {other}"
        lines += _of_columns(pair, now[pair], data, where, rounds)
    return lines


def _of_columns(pair: Pair, now: int, data: Mapping[str, Any], where: str, rounds: bool) -> list[str]:
    ends = ("least", "greatest")
    least, greatest = (weight_of(data.get(name, now), f"the {name} of {where}", rounds) for name in ends)
    if not least <= now <= greatest:
        raise Fault(f"{where} weighs {now}, and its least and greatest weight are {least} and {greatest}", 3)
    return _of_pair(pair, now, (least, greatest), _truth(data.get("goes", False), f"goes of {where}"))


def _truth(value: Any, where: str) -> bool:
    """A truth value of a graph or a file, where 1 and 0 are some too. Raises Fault if it is none."""
    found = plain(value)
    if isinstance(found, bool):
        return found
    word = str(found).lower()
    if word not in TRUTHS and word not in DIGITS:
        raise Fault(f"{where} is {value!r}; it has to be true or false", 3)
    return {**TRUTHS, **DIGITS}[word]
