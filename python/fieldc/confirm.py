"""Tries bounds: random runs of `fc` within the changes, each value of which has to lie in its device's bound."""

from __future__ import annotations

import argparse
import os
from collections.abc import Iterator, Mapping
from concurrent.futures import ThreadPoolExecutor
from dataclasses import dataclass
from random import Random

from . import program as fc
from . import results
from .edits import MOST_LINES
from .envelopes import Envelope, Span, envelope_of
from .networks import MOST_LINKS, Input, Network, Pair, declared, read_scene
from .progress import Progress
from .refusals import Call, Section
from .results import Bounds, Held, word_of
from .streams import say
from .telling import counted

DEFECT = 70
MORE_ROUNDS = 6
MOST_EDITS = 6
MOST_FIRINGS = 200_000
MOST_SCRAMBLE = 1_000_000
MIXED = ("link", "unlink", "set")


def runs(word: str) -> int:
    """A number of runs."""
    if not word.isdecimal() or not int(word):
        raise argparse.ArgumentTypeError(f"{word} isn't a number of runs, of at least 1")
    return int(word)


# ---- a script within an envelope -----------------------------------------------------------------------------------


@dataclass(frozen=True)
class Plan:
    """A script, and by the number of each of its `show` lines how many rounds have run since the start or the last
    rubbish."""

    lines: tuple[str, ...]
    rounds: Mapping[int, int]


@dataclass(frozen=True)
class Question:
    """Bounds that are tried: what was asked of `fc`, the network of now, what may change about it, and the inputs in
    declared order."""

    program: Section
    network: Section
    bounds: Bounds
    scene: Network
    envelope: Envelope
    order: tuple[str, ...]

    @staticmethod
    def of(call: Call, bounds: Bounds) -> Question:
        """The bounds that a call of `check --settle --changes` answered."""
        program, network, changes = call.sections
        scene, wanted = read_scene(network.text), declared(program.text)
        envelope = envelope_of(scene, changes.text, wanted)
        return Question(program, network, bounds, scene, envelope, tuple(wanted.inputs))


class Walk:
    """A network that changes at random within an envelope: each edit is one that the lines of changes allow. `there`
    are the devices of now; those of `flying` can't leave, as their firings are under way."""

    def __init__(self, asked: Question, rng: Random) -> None:
        self.envelope = asked.envelope
        self.order = asked.order
        self.rng = rng
        self.flying: set[int] = set()
        self.there = set(asked.scene.inputs)
        self.near: dict[int, set[int]] = {device: set() for device in asked.envelope.inputs}
        for a, b, _ in asked.scene.links:
            self._join_ends((a, b))

    def edit(self) -> str | None:
        """One edit, which is done; None if the one that was drawn can't be done now."""
        return self.rng.choice((self._set, self._link, self._link, self._unlink, self._leave, self._join))()

    def _join_ends(self, pair: Pair) -> None:
        for one, other in (pair, pair[::-1]):
            self.near[one].add(other)

    def _set(self) -> str | None:
        inputs = self.envelope.inputs
        found = [(d, name) for d in sorted(self.there) for name, (low, high) in inputs[d].items() if low != high]
        if not found:
            return None
        device, name = self.rng.choice(found)
        return f"set {device} {name} {word_of(self._drawn(inputs[device][name]))}"

    def _drawn(self, span: Span) -> Input:
        """A number or truth value of a span; its ends come more often."""
        low, high = span
        if isinstance(low, bool) or self.rng.random() < 0.5:
            return self.rng.choice(span)
        return self.rng.randint(low, high)

    def _link(self) -> str | None:
        found = [pair for pair in self.envelope.links if self.there.issuperset(pair) and self._has_room(pair)]
        if not found:
            return None
        pair = self.rng.choice(found)
        self._join_ends(pair)
        return f"link {pair[0]} {pair[1]} {self._drawn(self.envelope.links[pair])}"

    def _has_room(self, pair: Pair) -> bool:
        """Whether two devices are linked, or can be: each has fewer links than a device may have."""
        return pair[1] in self.near[pair[0]] or all(len(self.near[end]) < MOST_LINKS for end in pair)

    def _unlink(self) -> str | None:
        loose = self.envelope.links.keys() - self.envelope.sure_links
        found = sorted(pair for pair in loose if pair[1] in self.near[pair[0]])
        if not found:
            return None
        a, b = self.rng.choice(found)
        self.near[a].remove(b)
        self.near[b].remove(a)
        return f"unlink {a} {b}"

    def _leave(self) -> str | None:
        found = sorted((self.there & self.envelope.away) - self.flying)
        if not found or len(self.there) == 1:
            return None
        device = self.rng.choice(found)
        self.there.remove(device)
        for other in self.near[device]:
            self.near[other].remove(device)
        self.near[device] = set()
        return f"leave {device}"

    def _join(self) -> str | None:
        found = sorted(set(self.envelope.inputs) - self.there)
        if not found:
            return None
        device = self.rng.choice(found)
        self.there.add(device)
        own = self.envelope.inputs[device]
        return " ".join(["join", str(device), *(word_of(self._drawn(own[name])) for name in self.order)])


def planned(asked: Question, rng: Random) -> Plan:
    """A script of a bit more rounds than those of the bounds, with edits before and among them, and shows between.

    It begins with rubbish, unless rounds are counted from the table of the network. Where firings are under way there,
    nothing is edited before they have ended, as no device leaves before.
    """
    walk, lines, rounds = Walk(asked, rng), list[str](), dict[int, int]()
    past, still = 0, bool(asked.scene.state.get("pending"))
    target = min(asked.bounds.within + rng.randrange(1, MORE_ROUNDS), max(1, MOST_FIRINGS // len(walk.near)))
    if not asked.bounds.from_table:
        lines.append(f"scramble {rng.randrange(MOST_SCRAMBLE)}")
    while len(lines) < MOST_LINES - MOST_EDITS:
        lines.append("show")
        rounds[len(lines)] = past
        if past >= target:
            break
        count = min(rng.randint(1, max(1, target // 3)), target - past)
        lines += _stretch(walk, 0 if still and not past else rng.randrange(MOST_EDITS - 1), count)
        past += count
    return Plan(tuple(lines), rounds)


def _stretch(walk: Walk, edits: int, rounds: int) -> list[str]:
    """Up to so many edits, and then so many rounds; the last edit may be one among firings."""
    found = list(_edits(walk, edits))
    if found and found[-1].split(" ")[0] in MIXED and walk.rng.random() < 0.7:
        return [*found[:-1], f"mix {rounds} {found[-1]}"]
    return [*found, f"run {rounds}"]


def _edits(walk: Walk, count: int) -> Iterator[str]:
    """Up to so many edits, one after the other."""
    for _ in range(count):
        edit = walk.edit()
        if edit is not None:
            yield edit


# ---- trying --------------------------------------------------------------------------------------------------------


@dataclass(frozen=True)
class Broken:
    """A value outside of its bound, or missing where it has to be there: what the script showed on which line."""

    device: int
    value: results.Value | None
    bound: results.Bound
    line: int
    rounds: int
    plan: Plan

    def told(self, called: str) -> str:
        """The defect in words, with the script that shows it."""
        holds = "has no value" if self.value is None else f"holds {word_of(self.value)}"
        what = f"device {called} {holds} on line {self.line} of this script, after {counted(self.rounds, 'round')}"
        lines = "".join(f"    {line}\n" for line in self.plan.lines)
        report = "This is a defect of fc: please report it, with the files."
        return f"{what}, and its bound is {self.bound}. {report}\n{lines}"


@dataclass(frozen=True)
class Tried:
    """How many runs were tried, how many values were held against their bounds, and one that lay outside, where one
    did."""

    runs: int
    values: int
    broken: Broken | None


def outside(held: Held, value: results.Value | None, rounds: int) -> results.Bound | None:
    """The bound that a value breaks after so many rounds; None if it breaks none."""
    bound = held.after(rounds)
    if bound is None:
        return None
    if value is None:
        return bound if held.rounds <= rounds and not held.away else None
    return None if bound.holds(value) else bound


def tried(asked: Question, number: int) -> Tried:
    """The run of a number. Raises Refusal."""
    plan = planned(asked, Random(number))
    script = Section("script", "", 1, "".join(line + "\n" for line in plan.lines))
    words = ("run", "--workers", str(number % 4 + 1))
    shows = results.ran(fc.answered(Call(words, (asked.program, asked.network, script))).text).shows
    held, count = results.by_number(asked.bounds.by_device), 0
    for show in shows:
        rounds = plan.rounds[show.line]
        for device, value in results.by_number(show.values).items():
            bound = outside(held[device], value, rounds)
            if bound is not None:
                return Tried(1, count, Broken(device, value, bound, show.line, rounds, plan))
            count += 1
    return Tried(1, count, None)


def looked(call: Call, bounds: Bounds, count: int) -> Tried:
    """Tries the bounds that a call answered by so many runs, up to one that breaks a bound. Raises Refusal."""
    asked, done, values = Question.of(call, bounds), 0, 0
    with Progress(lambda: f"tries {count:,} runs") as waiting, ThreadPoolExecutor(os.cpu_count()) as pool:
        for one in pool.map(lambda number: tried(asked, number), range(count)):
            done, values = done + 1, values + one.values
            waiting(f", {done:,} done")
            if one.broken is not None:
                pool.shutdown(cancel_futures=True)
                return Tried(done, values, one.broken)
    return Tried(done, values, None)


def perform(call: Call, bounds: Bounds, count: int) -> int:
    """Tries so many runs, and tells on standard error what came of it. Returns a status."""
    found = looked(call, bounds, count)
    if found.broken is not None:
        say(f"fieldc: {found.broken.told(str(found.broken.device))}")
        return DEFECT
    say(f"fieldc: {counted(found.runs, 'run')}, {counted(found.values, 'value')}, none outside its bound\n")
    return 0
