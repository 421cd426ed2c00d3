"""How fast a program settles: round by round from tables of rubbish, how many devices hold their value."""

from __future__ import annotations

import os
import signal
from collections.abc import Callable, Mapping, Sequence
from concurrent.futures import FIRST_COMPLETED, ProcessPoolExecutor, wait
from dataclasses import dataclass
from typing import Any

from . import library, results
from . import program as fc
from .given import Networks
from .refusals import Fault
from .results import Values, Verdict

MOST_ROUNDS = 2_000


@dataclass(frozen=True)
class Promise:
    """What is promised of a program on a network: the verdict, the settle time, and by device its rounds and its value.

    A device without a settle round, which comes beside a settle time with a yes alone, holds its value after that time.
    """

    verdict: Verdict
    time: int
    by_device: Mapping[int, int]
    values: Values


@dataclass(frozen=True)
class Curve:
    """From the rubbish of `number`, after 0, 1, .. rounds, how many devices hold their value; and what they hold, where
    that was asked for."""

    number: int
    held: tuple[int, ...]
    values: tuple[Values, ...] = ()

    def settled(self, devices: int) -> int | None:
        """The first round from which on all devices hold their value, or None."""
        late = [number for number, count in enumerate(self.held) if count < devices]
        first = late[-1] + 1 if late else 0
        return first if first < len(self.held) else None


def promised(program: str, network: Networks, waiting: Callable[[], None] | None = None) -> Promise:
    """What `check --settle` says; `waiting` is called now and then as long as it takes.

    Raises Fault, of status 1, if the network is open, and Refusal.
    """
    scene = library.scene_of(network, program)
    asked = library.call_of(["check", "--settle"], program=program, network=scene)
    found = results.settled(fc.answered(asked, waiting).text)
    if found.rounds is None:
        open_too = "but the network is open: not all devices are known to settle (docs/patterns.md)"
        raise Fault(f"{found.verdict.line}, {open_too}", 1)
    values = found.values
    if None in values.values():
        values = library.stable(program, scene).values
    time = found.rounds
    known = results.by_number(found.by_device)
    by_device = {device: time if rounds is None else rounds for device, rounds in known.items()}
    return Promise(found.verdict, time, by_device, values)


def check_rounds(rounds: int) -> None:
    """Raises Fault if so many rounds can't be drawn."""
    if not 1 <= rounds <= MOST_ROUNDS:
        raise Fault(f"{rounds} rounds, and 1 to {MOST_ROUNDS:,} are drawn: choose --rounds")


def curve(program: str, scene: str, values: Values, number: int, rounds: int, workers: int, keep: bool) -> Curve:
    """Runs a program from the rubbish of a number, and counts after each round who holds its value. Raises Refusal."""
    script = ["scramble " + str(number), "show"] + ["run 1", "show"] * rounds
    shows = library.run(program, scene, script, workers=workers).shows
    held = tuple(sum(show.values[d] == value for d, value in values.items()) for show in shows)
    return Curve(number, held, tuple(show.values for show in shows) if keep else ())


def curves(
    program: str,
    network: Networks,
    promise: Promise,
    numbers: Sequence[int],
    rounds: int,
    workers: int = 4,
    waiting: Callable[[str], None] | None = None,
    keep: bool = False,
) -> list[Curve]:
    """The curves of some numbers, made by as many processes as there are processors; with `keep` with all values.

    `waiting` is called about five times a second with how many are done. Raises Fault if so many rounds can't be drawn,
    and Refusal.
    """
    check_rounds(rounds)
    scene, values = library.scene_of(network, program), dict(promise.values)
    processes = min(len(numbers), os.cpu_count() or 1)
    with ProcessPoolExecutor(processes, initializer=signal.signal, initargs=(signal.SIGINT, signal.SIG_IGN)) as pool:
        asked = [pool.submit(curve, program, scene, values, number, rounds, workers, keep) for number in numbers]
        left = set(asked)
        try:
            while left:
                done, left = wait(left, timeout=0.2, return_when=FIRST_COMPLETED)
                for one in done:
                    one.result()
                if waiting is not None:
                    waiting(f", {len(asked) - len(left)} of {len(asked)} runs done")
        except BaseException:
            pool.shutdown(cancel_futures=True)
            raise
        return [one.result() for one in asked]


def draw(promise: Promise, found: Sequence[Curve], name: str, title: str = "") -> None:
    """Draws curves beside what is known of every start, into a file, by its ending `.svg`, `.png` or `.pdf`."""
    from matplotlib.ticker import MaxNLocator

    from .drawing import pyplot_ready, saved

    pyplot, devices = pyplot_ready(), len(promise.by_device)
    figure, axes = pyplot.subplots(figsize=(9, 5), layout="constrained")
    for one in found:
        settled = one.settled(devices)
        label = f"rubbish of {one.number}" + (f", settled after {settled}" if settled is not None else "")
        axes.step(range(len(one.held)), one.held, where="post", lw=2, alpha=0.8, label=label)
    _promises(axes, promise, max(len(one.held) for one in found) - 1)
    axes.axhline(devices, color="#999999", lw=0.8)
    axes.set_xlabel("rounds")
    axes.set_ylabel(f"devices that hold their value, of {devices}")
    axes.set_ylim(0, devices * 1.05)
    axes.set_xlim(left=0)
    axes.xaxis.set_major_locator(MaxNLocator(integer=True))
    axes.yaxis.set_major_locator(MaxNLocator(integer=True))
    axes.legend(loc="center", frameon=True)
    axes.set_title(title)
    saved(figure, name)
    pyplot.close(figure)


def _promises(axes: Any, promise: Promise, longest: int) -> None:
    """The devices that are known to hold their value, in grey, and the settle time and the bound as lines."""
    lines = [("settle time R", promise.time, "#1f4e9c")]
    lines += [] if promise.verdict.rounds is None else [("bound K", promise.verdict.rounds, "#d6381e")]
    far = max([longest] + [bound for _, bound, _ in lines if bound <= 4 * longest])
    known = [sum(r <= number for r in promise.by_device.values()) for number in range(far + 1)]
    axes.fill_between(range(far + 1), known, step="post", color="#d0d0d0", label="known to, from every start")
    for name, bound, colour in lines:
        if bound <= far:
            axes.axvline(bound, color=colour, ls="--", lw=2, label=f"{name} = {bound}")
        else:
            axes.plot([], [], color=colour, ls="--", lw=2, label=f"{name} = {bound}, further to the right")
