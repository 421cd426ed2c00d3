"""Deployments: networks that are drawn by a rule, each from its seed alone.

Only `random()` of Python's generator is used beside positions in a square, and each thing that is drawn has a generator
of its own, so that one option doesn't change what another one draws.
"""

from __future__ import annotations

import json
import math
from collections.abc import Sequence
from dataclasses import dataclass, replace
from random import Random
from typing import Union

from .. import networks as network
from ..networks import Input, Network, Pair
from ..refusals import Fault

SHAPES = ("line", "ring", "grid", "torus", "disk", "points", "edges")
SQUARE = 100.0


@dataclass(frozen=True)
class Setting:
    """An input that is set on devices: on those named, on so many that are drawn, or, with nothing, on all.

    A value that is a pair is a least and a greatest number, between which one is drawn for each device.
    """

    name: str
    value: Union[Input, Pair]
    devices: Union[tuple[int, ...], int, None] = None


@dataclass(frozen=True)
class Rule:
    """How deployments are drawn.

    `shape` is one of SHAPES. `count` is the least and the greatest number of devices of a line, ring or disk, between
    which one is drawn, evenly over their logarithms; `sides` are those of a grid or torus. A disk is a square of this
    `side`, or of so many devices in each square of side 100 (`density`). Devices at most `reach` apart are linked.
    `base` has the devices and positions of points, or the whole network of a graph; points are moved by up to `jitter`
    along each axis. Each link fails with the probability `failing`. `weight`, `metric` with `unit`, and `most_links`
    are those of `fieldc network`.
    """

    shape: str
    count: Pair = (1, 1)
    sides: Pair = (1, 1)
    reach: float = 0.0
    side: float = SQUARE
    density: float | None = None
    base: Network | None = None
    jitter: float = 0.0
    failing: float = 0.0
    weight: int | None = None
    metric: Pair | None = None
    unit: float = 1.0
    most_links: int | None = None
    inputs: tuple[Setting, ...] = ()


def deployment(rule: Rule, seed: int) -> Network:
    """The deployment of a seed. Raises Fault if the rule makes no network."""
    found = _shaped(rule, seed)
    if rule.failing:
        rng = Random(f"{seed} links")
        found = replace(found, links=tuple(link for link in found.links if rng.random() >= rule.failing))
    if rule.metric is not None:
        found = network.weighed(found, *rule.metric, rule.unit)
    elif rule.weight is not None:
        found = network.with_weight(found, rule.weight)
    if rule.most_links is not None and max(network.degrees(found).values(), default=0) > rule.most_links:
        found = network.nearest(found, rule.most_links)
    return _filled(found, rule.inputs, seed)


def _shaped(rule: Rule, seed: int) -> Network:
    """The devices, positions and links of the shape."""
    if rule.base is not None:
        return rule.base if rule.shape == "edges" else _moved(rule.base, rule, seed)
    if rule.shape in ("grid", "torus"):
        return network.grid(*rule.sides, closed=rule.shape == "torus")
    count = _count(rule, seed)
    if rule.shape == "line":
        return network.line(count)
    if rule.shape == "ring":
        return network.ring(count)
    side = rule.side if rule.density is None else SQUARE * math.sqrt(count / rule.density)
    return network.disk(count, side, rule.reach, seed)


def _count(rule: Rule, seed: int) -> int:
    """The number of devices: the one that is given, or one that is drawn evenly over the logarithms."""
    low, high = rule.count
    if low == high:
        return low
    drawn: float = low * (high / low) ** Random(f"{seed} devices").random()
    return min(high, max(low, round(drawn)))


def largest(rule: Rule, seeds: Sequence[int]) -> int:
    """The first of the seeds whose deployments have the most devices."""
    return seeds[0] if rule.base is not None else max(seeds, key=lambda seed: _count(rule, seed))


def _moved(base: Network, rule: Rule, seed: int) -> Network:
    """Points that are moved by up to the jitter along each axis, and linked where they are in range."""
    rng = Random(f"{seed} places")

    def shift() -> float:
        return rule.jitter * (2 * rng.random() - 1)

    places = {device: (x + shift(), y + shift()) for device, (x, y) in base.positions.items()}
    return replace(network.in_range(places, rule.reach), inputs=base.inputs, names=base.names)


def _filled(found: Network, settings: Sequence[Setting], seed: int) -> Network:
    """The network with its inputs set, one setting after the other. A truth value that isn't set on a device is false
    there.

    Raises Fault if a device isn't there, or a number is set on some devices and others have none.
    """
    inputs = {device: dict(own) for device, own in found.inputs.items()}
    for place, one in enumerate(settings):
        rng = Random(f"{seed} input {place}")
        for device in _chosen(found, one, rng):
            inputs[device][one.name] = _value(one, rng)
    for one in settings:
        for device, own in inputs.items():
            if one.name not in own and not isinstance(one.value, bool):
                raise Fault(f"{one.name} isn't set on device {device}: set it on all devices first")
            own.setdefault(one.name, False)
    return replace(found, inputs=inputs)


def _chosen(found: Network, one: Setting, rng: Random) -> Sequence[int]:
    """The devices on which an input is set: all, those named, or some that are drawn, each as likely as any other."""
    devices = found.devices
    if one.devices is None:
        return devices
    if isinstance(one.devices, tuple):
        for device in one.devices:
            if device not in found.inputs:
                raise Fault(f"{one.name} is set on device {device}, which doesn't exist")
        return one.devices
    if one.devices > len(devices):
        raise Fault(f"{one.name} is set on {one.devices:,} devices that are drawn, and there are {len(devices):,}")
    left = list(devices)
    return [left.pop(int(rng.random() * len(left))) for _ in range(one.devices)]


def _value(one: Setting, rng: Random) -> Input:
    """The value of an input: the one that is given, or one that is drawn."""
    if not isinstance(one.value, tuple):
        return one.value
    low, high = one.value
    return low + int(rng.random() * (high - low + 1))


# ---- what a network is like ----------------------------------------------------------------------------------------


def components_and_diameter(found: Network) -> tuple[int, int]:
    """How many parts a network has between which there are no links, and the greatest number of hops on a shortest way
    between two devices of one part."""
    place = {device: number for number, device in enumerate(found.inputs)}
    near: list[list[int]] = [[] for _ in place]
    for a, b, _ in found.links:
        near[place[a]].append(place[b])
        near[place[b]].append(place[a])
    whole = _parts(near)
    reached = [1 << number for number in range(len(near))]
    left = [number for number in range(len(near)) if reached[number] != whole[number]]
    steps = 0
    while left:
        steps += 1
        before = reached[:]
        for number in left:
            mask = before[number]
            for other in near[number]:
                mask |= before[other]
            reached[number] = mask
        left = [number for number in left if reached[number] != whole[number]]
    return len(set(whole)), steps


def _parts(near: Sequence[Sequence[int]]) -> list[int]:
    """For each device the devices of its part, as bits."""
    whole = [0] * len(near)
    for start in range(len(near)):
        if whole[start]:
            continue
        seen, todo = 1 << start, [start]
        part = [start]
        while todo:
            for other in near[todo.pop()]:
                if not seen >> other & 1:
                    seen |= 1 << other
                    todo.append(other)
                    part.append(other)
        for number in part:
            whole[number] = seen
    return whole


def scene_text(found: Network) -> str:
    """The scene of a network on one line; `Network.scene` writes the same one for people."""
    devices = [{"id": device, "inputs": own} for device, own in found.inputs.items()]
    return json.dumps({"devices": devices, "links": found.links}, separators=(",", ":")) + "\n"
