"""Places for the devices of a network that has no positions, so that hops are about as long as they are many.

Each part of the network is laid out by stress majorization over the hops between its devices: it begins with the two
directions in which the hops differ most, and moves all devices until distances fit the hops. Parts are put side by
side.
"""

from __future__ import annotations

import functools
import math
import operator
from collections.abc import Mapping, Sequence
from typing import Any

from .networks import Position

STEPS = 60
STILL = 1e-4


def laid_out(devices: Sequence[int], links: Sequence[tuple[int, int]]) -> dict[int, Position]:
    """A place for each device, in hops. The same network has the same places each time."""
    near: dict[int, list[int]] = {device: [] for device in devices}
    for a, b in links:
        near[a].append(b)
        near[b].append(a)
    return packed([placed(part, near) for part in parts(near)])


def parts(near: Mapping[int, Sequence[int]]) -> list[list[int]]:
    """The parts between which there are no links, the greatest first."""
    found, seen = [], set()
    for device in near:
        if device not in seen:
            part = list(hops_from(device, near))
            seen.update(part)
            found.append(part)
    return sorted(found, key=len, reverse=True)


def hops_from(start: int, near: Mapping[int, Sequence[int]]) -> dict[int, int]:
    """By device how many hops it is from one, for those that can be reached."""
    hops, row = {start: 0}, [start]
    while row:
        fresh = []
        for device in row:
            for other in near[device]:
                if other not in hops:
                    hops[other] = hops[device] + 1
                    fresh.append(other)
        row = fresh
    return hops


def placed(part: Sequence[int], near: Mapping[int, Sequence[int]]) -> dict[int, Position]:
    """Places of the devices of one part."""
    if len(part) == 1:
        return {part[0]: (0.0, 0.0)}
    if len(part) == 2:
        return {part[0]: (0.0, 0.0), part[1]: (1.0, 0.0)}
    far = _all_hops(part, near)
    places = _settled(_first(far), far)
    return {device: (float(x), float(y)) for device, (x, y) in zip(part, places)}


def _all_hops(part: Sequence[int], near: Mapping[int, Sequence[int]]) -> Any:
    """The hops between all devices of a part: by searches where links are few, else by sets that grow by a hop."""
    import numpy

    place = {device: number for number, device in enumerate(part)}
    far = numpy.zeros((len(part), len(part)), dtype=numpy.float32)
    if sum(len(near[device]) for device in part) <= 3 * len(part):
        for device in part:
            hops = hops_from(device, near)
            far[place[device]] = [hops[other] for other in part]
        return far
    rows = [[place[other] for other in near[device]] for device in part]
    seen = [1 << number for number in range(len(part))]
    whole, width = (1 << len(part)) - 1, (len(part) + 7) // 8
    while any(reached != whole for reached in seen):
        bits = numpy.frombuffer(b"".join(reached.to_bytes(width, "little") for reached in seen), dtype=numpy.uint8)
        table = numpy.unpackbits(bits.reshape(len(part), width), axis=1, bitorder="little")[:, : len(part)]
        far += 1 - table
        seen = [functools.reduce(operator.or_, (seen[other] for other in row), own) for own, row in zip(seen, rows)]
    return far


def _first(far: Any) -> Any:
    """Places by the two directions in which the squared hops, centred, differ most."""
    import numpy

    squares = far.astype(float) ** 2
    centred = -0.5 * (squares - squares.mean(0) - squares.mean(1)[:, None] + squares.mean())
    rng = numpy.random.default_rng(1)
    basis, _ = numpy.linalg.qr(rng.standard_normal((len(far), 2)))
    for _ in range(50):
        basis, _ = numpy.linalg.qr(centred @ basis)
    strength = numpy.sqrt(numpy.maximum(numpy.einsum("ij,ij->j", basis, centred @ basis), 1e-9))
    places = basis * strength
    return places + rng.standard_normal(places.shape) * 0.01


def _settled(places: Any, far: Any) -> Any:
    """Moves all devices until distances fit the hops; a pair counts the less the farther it is apart."""
    import numpy

    apart = far + numpy.eye(len(far), dtype=far.dtype)
    weights = 1.0 / apart.astype(float) ** 2
    numpy.fill_diagonal(weights, 0)
    balance = numpy.diag(weights.sum(1)) - weights
    back = numpy.linalg.inv(balance + 1.0 / len(far)) - 1.0 / len(far)
    for _ in range(STEPS):
        squares = (places**2).sum(1)
        length = numpy.sqrt(numpy.maximum(squares[:, None] + squares - 2 * places @ places.T, 1e-12))
        pull = weights * far / length
        numpy.fill_diagonal(pull, 0)
        moved = back @ (pull.sum(1)[:, None] * places - pull @ places)
        step = numpy.abs(moved - places).max()
        places = moved
        if step < STILL * far.max():
            break
    return places


def packed(groups: Sequence[Mapping[int, Position]]) -> dict[int, Position]:
    """The places of some parts, side by side in rows, the first part at the upper left."""
    boxes = []
    for group in groups:
        left, low = min(x for x, _ in group.values()), min(y for _, y in group.values())
        moved = {device: (x - left, y - low) for device, (x, y) in group.items()}
        boxes.append((moved, max(x for x, _ in moved.values()) + 1.5, max(y for _, y in moved.values()) + 1.5))
    widest = max(max(width for _, width, _ in boxes), 1.3 * math.sqrt(sum(width * high for _, width, high in boxes)))
    found: dict[int, Position] = {}
    across, down, tallest = 0.0, 0.0, 0.0
    for moved, width, high in boxes:
        if across > 0 and across + width > widest:
            across, down, tallest = 0.0, down - tallest, 0.0
        found.update({device: (x + across, y + down - high) for device, (x, y) in moved.items()})
        across, tallest = across + width, max(tallest, high)
    return found
