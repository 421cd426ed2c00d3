"""How far behind the edits of a script its values are: from each edit on, after how many rounds they would hold still,
beside how many rounds there are until the next edit."""

from __future__ import annotations

import os
import re
from collections.abc import Callable, Iterable, Mapping, Sequence
from concurrent.futures import Future, ThreadPoolExecutor
from dataclasses import dataclass, replace
from typing import Any

from . import library, results
from . import program as fc
from .edits import EDITS, moments, steps
from .networks import Json, Network, declared, read_scene
from .refusals import Call, Fault, Section

ON_TIME, LATE, OPEN = "#1f4e9c", "#d6381e", "#c9c9c9"


@dataclass(frozen=True)
class Part:
    """Lines of a script that edit without a round between, the line of the first, and the rounds that follow."""

    line: int
    edits: tuple[str, ...]
    rounds: int


@dataclass(frozen=True)
class Stretch:
    """A part of a script as it ran.

    `before` is how many rounds ran before it. From what devices hold after the edits, all hold their values after
    `time` rounds without another edit; it is None if that is open. `late` is how many of the `devices` didn't hold
    theirs when the rounds of this part were over, of those whose value is known.
    """

    line: int
    before: int
    time: int | None
    rounds: int
    late: int
    devices: int

    @property
    def in_time(self) -> bool:
        """Whether the rounds of this part are enough for all devices."""
        return self.time is not None and self.time <= self.rounds


def parts_of(script: str) -> list[Part]:
    """The parts of a script. The first may have no edit. Raises Fault if an edit comes among firings."""
    found = [Part(1, (), 0)]
    for number, words, rounds in steps(script):
        if rounds and words[0] != "run":
            where = f"line {number} of the script: mix edits during firings, so what devices hold at that moment isn't"
            raise Fault(f"{where} known: write `{' '.join(words)}` and `run {rounds}` on lines of their own", 3)
        if words[0] in EDITS:
            if found[-1].rounds or not found[-1].edits:
                found.append(Part(number, (), 0))
            found[-1] = replace(found[-1], edits=(*found[-1].edits, " ".join(words)))
        else:
            found[-1] = replace(found[-1], rounds=found[-1].rounds + rounds)
    return found if found[0].rounds else found[1:]


def judged(program: Section, network: Section, script: Section) -> tuple[Network, list[Part]]:
    """The network and the parts of a script that `fc` takes. Raises Fault if it has no rounds, and Refusal.

    What `fc` says of a line it says of the whole script; each `run` runs one round for that.
    """
    short = re.sub(r"(?m)^run [0-9]+(?=\r?$)", "run 1", script.text)
    fc.answered(Call(("run",), (program, network, replace(script, text=short))))
    made, parts = read_scene(network.text, network.name, network.first_line), parts_of(script.text)
    if not any(part.rounds for part in parts):
        raise Fault("the script runs no round", 3)
    if "pending" in made.state and parts[0].edits:
        line = f"line {parts[0].line} of the script edits while firings are in progress"
        raise Fault(f"{line}: put a run line before it", 3)
    return made, parts


def stretches(
    program: str,
    network: Network,
    parts: Sequence[Part],
    workers: int = 4,
    waiting: Callable[[str], None] | None = None,
) -> list[Stretch]:
    """Runs a script part by part, and asks for the settle times from what the devices hold after the edits of each.

    `waiting` is called with how many parts are done. Raises Refusal.
    """
    ran: list[results.Ran] = []
    with ThreadPoolExecutor(os.cpu_count() or 1) as pool:
        asked: list[Future[results.Settled]] = []
        now = edited(program, network, parts[0].edits, workers)
        for place, part in enumerate(parts):
            asked.append(pool.submit(library.settle, program, now, from_table=True))
            following = parts[place + 1].edits if place + 1 < len(parts) else ()
            lines = [f"run {part.rounds}"] * bool(part.rounds) + ["show", *following]
            ran.append(library.run(program, now, lines, workers=workers, table=True))
            now = behind(program, now, following, ran[-1].table)
            if waiting is not None:
                waiting(f", {place + 1} of {len(parts)} parts run")
        settled = [one.result() for one in asked]
    starts = [sum(part.rounds for part in parts[:place]) for place in range(len(parts))]
    return [
        Stretch(part.line, start, found.rounds, part.rounds, late(found, one), len(found.values))
        for part, start, found, one in zip(parts, starts, settled, ran)
    ]


def edited(program: str, network: Network, edits: Sequence[str], workers: int) -> Network:
    """The network after some edits, with what its devices hold."""
    if not edits:
        return network
    return behind(program, network, edits, library.run(program, network, edits, workers=workers, table=True).table)


def behind(program: str, network: Network, edits: Iterable[str], table: Mapping[str, Json] | None) -> Network:
    """The network after some edits, with a table."""
    found = moments(network, "\n".join(edits), tuple(declared(program).inputs))[-1].network
    return replace(found, state={"table": table})


def late(settled: results.Settled, ran: results.Ran) -> int:
    """How many devices don't hold the value to which they are known to settle."""
    held = ran.shows[-1].values
    return sum(value is not None and held.get(device) != value for device, value in settled.values.items())


def draw(found: Sequence[Stretch], name: str, title: str = "") -> None:
    """Draws stretches into a file, by its ending `.svg`, `.png` or `.pdf`: above their settle times beside the rounds
    until the next edit, below how many devices are late when that comes."""
    from matplotlib.ticker import MaxNLocator

    from .drawing import pyplot_ready, saved

    pyplot = pyplot_ready()
    figure, (times, lates) = pyplot.subplots(
        2, 1, figsize=(9, 6), layout="constrained", sharex=True, height_ratios=(2, 1)
    )
    _times(times, found)
    span = [(one.before, one.before + one.rounds) for one in found]
    lates.bar(
        [start for start, _ in span], [one.late for one in found], [end - start for start, end in span],
        align="edge", color=LATE, edgecolor="white", linewidth=0.5,
    )  # fmt: skip
    lates.set_ylim(0, max(1, *(one.late for one in found)) * 1.1)
    lates.set_ylabel("devices that are late\nat the next edit")
    lates.set_xlabel("rounds since the start")
    for axes in (times, lates):
        axes.xaxis.set_major_locator(MaxNLocator(integer=True))
        axes.yaxis.set_major_locator(MaxNLocator(integer=True))
    times.set_title(title)
    saved(figure, name)
    pyplot.close(figure)


def _times(axes: Any, found: Sequence[Stretch]) -> None:
    """The settle time of each stretch as a bar, and the rounds until the next edit as a line over it."""
    greatest = max([1, *(one.time or 0 for one in found), *(one.rounds for one in found)])
    kinds = (
        (ON_TIME, "settles before the next edit", [one for one in found if one.in_time]),
        (LATE, "the next edit may come before", [one for one in found if one.time is not None and not one.in_time]),
        (OPEN, "open: no settle time is known", [one for one in found if one.time is None]),
    )
    for colour, label, some in kinds:
        if some:
            heights = [greatest if one.time is None else one.time for one in some]
            places, widths = [one.before for one in some], [one.rounds for one in some]
            axes.bar(
                places, heights, widths, align="edge", color=colour, edgecolor="white", linewidth=0.5, label=label
            )
    ends = [one.before for one in found] + [found[-1].before + found[-1].rounds]
    axes.stairs([one.rounds for one in found], ends, color="#111111", lw=2, label="rounds until the next edit")
    axes.set_ylim(0, greatest * 1.3)
    axes.set_ylabel("rounds until all devices\nhold their values, at most")
    axes.legend(loc="upper center", bbox_to_anchor=(0.5, 1.0), ncols=2, frameon=True)
