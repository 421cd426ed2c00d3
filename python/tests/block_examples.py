"""The examples that are made of blocks: what their devices are expected to hold, found by block_values.py."""

from __future__ import annotations

from typing import Any

import block_values as v
from block_cases import Scene


def field(s: Scene) -> dict[int, Any]:
    """The hops to the nearest gateway, and the mote to which this one sends."""
    hops = v.hops(s.net, s.gateway, 20)
    up = v.parent(s.net, hops)
    return s.net.each(lambda d: (hops[d], up[d]))


def crowd(s: Scene) -> dict[int, Any]:
    """How crowded it is, and whether a phone with level 2 is nearer than 2 hops."""
    level = v.crowding(s.net, s.beacon, s.net.each(lambda d: True), 12, 6, 12)
    warned = v.crowdWarning(s.net, level, 2)
    return s.net.each(lambda d: (level[d], warned[d]))


def region_mean(s: Scene) -> dict[int, Any]:
    """The mean in the region of the nearest chosen leader."""
    return v.regionMean(s.net, v.sparse(s.net, 2), 12, s.value)


def leader(s: Scene) -> dict[int, Any]:
    """The least number of all."""
    return v.leader(s.net, 12)


def evacuation(s: Scene) -> dict[int, Any]:
    """The next device on the way out."""
    return v.evacuate(s.net, s.exit, s.hazard, 2, 20)


EXAMPLES = {
    "blocks_crowd": crowd,
    "blocks_evacuation": evacuation,
    "blocks_field": field,
    "blocks_leader": leader,
    "blocks_region_mean": region_mean,
}
