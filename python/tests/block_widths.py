#!/usr/bin/env python3
"""How wide the bounds of each block are on the network of docs/blocks.md, where each device may be up to a quarter of
the range from its place: what docs/block_widths.txt has, and in part docs/changes.md.

It runs the built program, or what the variable FC names.
"""

from __future__ import annotations

import json
import re
import sys
from dataclasses import dataclass

import block_cases as cases
from helping import TOP

import fieldc
from fieldc import blocks, composing, movement, networks
from fieldc.results import Value

REACH = 24.0
QUARTER = REACH / 4
UNIT = 3.0
METRIC = (1, 9)
LIBRARY = blocks.read_library([TOP / "library"])
CALLS = re.compile(r"^\| [^|]+ \| `([^`]+)` \| .* \| \d+ \| \d+ \|$", re.MULTILINE)


def calls() -> list[str]:
    """A call of each block, as the tables of docs/blocks.md have it."""
    return CALLS.findall((TOP / "docs/blocks.md").read_text())


def lines_of_moves(far: float = QUARTER) -> list[str]:
    """What may change while each device of the page's network is up to so far from its place."""
    made = networks.weighed(networks.in_range(cases.positions(), REACH), *METRIC, UNIT)
    moves = dict.fromkeys(made.devices, far)
    return movement.of_moves(made, moves, REACH, lambda length: networks.weight_at(length, *METRIC, UNIT))


def width(low: Value, high: Value) -> int:
    """How far the ends of a bound are apart: of truth values 1 where both may be, of pairs that of both parts."""
    if isinstance(low, tuple) and isinstance(high, tuple):
        return width(low[0], high[0]) + width(low[1], high[1])
    assert not isinstance(low, tuple) and not isinstance(high, tuple)
    return high - low


@dataclass(frozen=True)
class Widths:
    """The mean width of the bounds of a block: from the state in which the devices have settled on the network of now,
    and from every start; and whether its values are truth values."""

    settled: str
    anywhere: str
    truths: bool

    @property
    def order(self) -> tuple[float, float]:
        """The sharpest come first."""
        return float(self.settled), float(self.anywhere)


def mean_width(bounds: fieldc.Bounds) -> str:
    """The mean width of the bounds of all devices."""
    found = [width(held.bound.low, held.bound.high) for held in bounds.by_device.values()]
    return f"{sum(found) / len(found):.1f}"


def composed(call: str) -> str:
    """The program of a call, with the inputs of the page's network."""
    return composing.compose(f"{cases.HEAD}main = {call};", LIBRARY)


def widths_of(call: str, changes: list[str]) -> Widths:
    """How wide the bounds of a call are."""
    program, network = composed(call), cases.scenes()[0].text()
    run = fieldc.run(program, network, [f"run {fieldc.check(program, network).verdict.rounds}", "show"], table=True)
    there = json.dumps({**json.loads(network), "table": run.table})
    from_there = fieldc.bounds(program, there, changes, from_table=True)
    truths = all(isinstance(value, bool) for value in run.shows[0].values.values())
    return Widths(mean_width(from_there), mean_width(fieldc.bounds(program, network, changes)), truths)


def table() -> str:
    """The table: blocks by their widths, those with truth values first."""
    changes = lines_of_moves()
    found: dict[Widths, list[str]] = {}
    for call in calls():
        found.setdefault(widths_of(call, changes), []).append(call.split("(")[0])
    lines = []
    for truths, title in ((True, "truth values"), (False, "numbers")):
        rows = sorted((one for one in found if one.truths == truths), key=lambda one: one.order)
        lines.append(f" width  settled  {title}")
        lines += [f"{one.anywhere:>6} {one.settled:>8}  {', '.join(found[one])}" for one in rows]
    return "".join(line + "\n" for line in lines)


def main() -> int:
    print(table(), end="")
    return 0


if __name__ == "__main__":
    sys.exit(main())
