#!/usr/bin/env python3
"""Looks for a log that breaks a line of `fc check --settle --changes`: programs of a list and random ones, on random
networks, with random lines of what may change. Logs have firings in any order and edits that the lines allow at any
moment, also between the begin and the end of a firing, and begin from random exports and copies, on any network that
the lines allow. `fc` makes tables, bounds and values; rounds are counted here.

With --from-table the lines are those of `check --settle --from-table --changes`, and a log begins from the table and
the copies of the network: the second bound of a device has to hold at once.

It runs the built program, or what the variable FC names.
"""

from __future__ import annotations

import argparse
import json
import sys
import time
from collections.abc import Callable, Iterable, Iterator
from concurrent.futures import ThreadPoolExecutor
from dataclasses import dataclass, replace
from random import Random

import helping  # noqa: F401
import settle_runs
from firmware_programs import made
from settle_runs import Broken, Json, numbers_of, run_fc

from fieldc import Bound, Bounds, Call, Held, Section, confirm, results
from fieldc.edits import moments
from fieldc.networks import Declared, Pair, declared
from fieldc.results import Value, by_number

PROGRAMS = (
    *settle_runs.PROGRAMS,
    "ceiling {c}; input w: int 0..9; main = (maxHoodLoc(nbr{{sense w}}, sense w), anyHood(sense w < nbr{{sense w}}));",
    "language 2; ceiling {c}; input w: int 0..3; main = let p = sense w in "
    "share(0){{(x) => maxHoodLoc(mux(nbr{{p}} < p, x, 0) - 1, 5)}};",
    "ceiling {c}; metric 1..9; input src: bool; main = let d = "
    + settle_runs.HOP.replace("+ 1", "+ nbrLink")
    + " in sumHood(mux(nbr{{d}} < d, nbrLink, 0));",
)
GREATEST_CEILING = 30
MOST_ROUNDS = 60
MOST_ENTRIES = 3_000
MOST_LOOKS = 8
Spoil = Callable[[Random, Bounds], Bounds]
"""What makes other bounds of those that `fc` wrote: a test of this tool makes wrong ones."""


# --- programs, starts and lines -------------------------------------------------------------------------------------


def program_of(dice: Random) -> str:
    """A program of the list, or a random one with a small ceiling."""
    if dice.random() < 0.5:
        return dice.choice(PROGRAMS).format(c=dice.choice([12, 20]))
    while True:
        found = made(str(dice.random()))
        if found.ceiling <= GREATEST_CEILING:
            return found.text


def moved(asked: confirm.Question, dice: Random) -> confirm.Question:
    """The question with another network of its envelope: the one to which some edits lead."""
    walk = confirm.Walk(asked, dice)
    edits = [edit for edit in (walk.edit() for _ in range(dice.choice([0, 0, 2, 9]))) if edit is not None]
    script = "".join(line + "\n" for line in [*edits, "show"])
    return replace(asked, scene=moments(asked.scene, script, asked.order)[0].network)


def anywhere(dice: Random, program: str, scene: Json) -> Json:
    """A start on the network of a scene: exports and copies that stood on other networks, of which some are missing."""
    left = settle_runs.edited_start(dice, program, scene)
    there = set(numbers_of(scene))
    rows = [row for row in left["table"]["rows"] if row["id"] in there]
    pending = [copy for copy in left["pending"] if copy["id"] in there]
    return dict(scene, table=dict(left["table"], rows=rows), pending=pending)


def value_word(dice: Random, span: Pair | None) -> str:
    """What may happen to an input or weight: one value, two ends, or any."""
    kind = dice.randrange(3)
    if kind == 0:
        return "any"
    if span is None:
        return dice.choice(["true", "false"])
    low, high = sorted(dice.randint(*span) for _ in range(2))
    return f"{low}..{high}" if kind == 1 else str(low)


def changes_of(dice: Random, wanted: Declared, scene: Json) -> str:
    """Up to nine lines of what may happen to the network of a scene, each of which is in order."""
    numbers = numbers_of(scene)
    coming = dice.sample([number for number in range(24) if number not in numbers], dice.choice([0, 0, 1, 2]))
    lines = [" ".join(["join", str(one), *(value_word(dice, span) for span in wanted.inputs.values())])
             for one in coming]  # fmt: skip
    hand = [*numbers, *coming]
    pairs = [(link[0], link[1]) for link in scene["links"]]
    for _ in range(dice.randint(0, 4) if len(hand) > 1 else 0):
        a, b = dice.sample(hand, 2)
        pairs.append((a, b))
        lines.append(f"link {a} {b} {value_word(dice, wanted.metric)}")
    if pairs:
        going = dice.sample(pairs, dice.randint(0, min(3, len(pairs))))
        lines += [f"unlink {a} {b}" for a, b in going]
    for name, span in wanted.inputs.items():
        lines += [f"set {one} {name} {value_word(dice, span)}" for one in hand if dice.random() < 0.2]
    if len(hand) > 1:
        lines += [f"leave {one}" for one in hand if dice.random() < 0.15]
    dice.shuffle(lines)
    return "".join(line + "\n" for line in lines)


# --- logs -----------------------------------------------------------------------------------------------------------


class Rounds:
    """Counts the rounds of a log as it grows: each part is as short as can be, and in it each device that may be there
    begins a firing and later ends one, or isn't there at some moment."""

    def __init__(self, there: Iterable[int]) -> None:
        self.count = 0
        self._begin(there)

    def _begin(self, there: Iterable[int]) -> None:
        self.left = set(there)
        self.begun: set[int] = set()

    def take(self, entry: str, there: Iterable[int]) -> None:
        """Takes the next entry; `there` are the devices after it."""
        if entry[0] == "B":
            self.begun.add(int(entry[1:]))
        elif entry[0] == "E" and int(entry[1:]) in self.begun:
            self.left.discard(int(entry[1:]))
        elif entry.startswith("leave "):
            self.left.discard(int(entry.split(" ")[1]))
        if not self.left:
            self.count += 1
            self._begin(there)


@dataclass
class Log:
    """A log that stays within an envelope, and how many rounds are over before each of its entries and at its end."""

    walk: confirm.Walk
    entries: list[str]
    rounds: list[int]
    counter: Rounds

    @staticmethod
    def of(asked: confirm.Question, flying: Iterable[int], dice: Random) -> Log:
        """The empty log on the network of a question, where some firings are in flight."""
        walk = confirm.Walk(asked, dice)
        walk.flying.update(flying)
        return Log(walk, [], [0], Rounds(walk.there))

    def add(self, entry: str) -> None:
        """Adds an entry that the state of now allows; an edit has been made already."""
        if entry[0] == "B":
            self.walk.flying.add(int(entry[1:]))
        elif entry[0] == "E":
            self.walk.flying.remove(int(entry[1:]))
        self.entries.append(entry)
        self.counter.take(entry, self.walk.there)
        self.rounds.append(self.counter.count)

    def allows(self, step: str) -> bool:
        """Whether a begin or an end can be taken now."""
        number, flying = int(step[1:]), self.walk.flying
        return number in flying if step[0] == "E" else number in self.walk.there - flying


def log_of(asked: confirm.Question, flying: Iterable[int], dice: Random, wanted: int) -> Log:
    """A log of at least so many rounds, or as many as it may have entries for: firings as the dice fall, and edits
    among them."""
    log, often, kind = Log.of(asked, flying, dice), dice.choice([0.02, 0.1, 0.3, 0.5]), dice.choice([None, 0, 1, 1, 2])
    while log.counter.count < wanted and len(log.entries) < MOST_ENTRIES:
        for step in settle_runs.one_round(dice, sorted(log.walk.there), set(log.walk.flying), kind):
            for edit in edits_before(log.walk, often):
                log.add(edit)
            if log.allows(step):
                log.add(step)
    return log


def edits_before(walk: confirm.Walk, often: float) -> Iterator[str]:
    """Edits before a step: none, one or more, by how often they come."""
    while walk.rng.random() < often:
        edit = walk.edit()
        if edit is not None:
            yield edit


# --- holding lines against logs -------------------------------------------------------------------------------------


def looks_of(log: Log, bounds: Bounds, dice: Random) -> list[int]:
    """After how many entries values are looked at: once the rounds of a line are over, later, and at the end; from a
    table before that as well."""
    due = {held.rounds for held in bounds.by_device.values()}
    firsts = [log.rounds.index(count) for count in due if count <= log.rounds[-1]]
    others = [dice.randint(0, len(log.entries)) for _ in range(3)]
    found = {*dice.sample(firsts, min(len(firsts), MOST_LOOKS)), *others, len(log.entries)}
    return sorted(found)


def values_after(program: str, scene: Json, entries: Iterable[str]) -> dict[int, Value | None]:
    """By device that is there what it holds after a log."""
    shown = run_fc(["replay"], [program, json.dumps(scene), "".join(entry + "\n" for entry in entries)])
    rows = (line.split(" ", 1) for line in shown.splitlines())
    return {int(number): results.value_of(word) for number, word in rows}


@dataclass(frozen=True)
class Found:
    """What was looked at: lines of devices, values that were held against bounds, entries of logs, and edits among
    them."""

    lines: int = 0
    values: int = 0
    entries: int = 0
    edits: int = 0

    def __add__(self, other: Found) -> Found:
        return Found(
            self.lines + other.lines, self.values + other.values, self.entries + other.entries,
            self.edits + other.edits,
        )  # fmt: skip


def held_against(program: str, start: Json, bounds: Bounds, log: Log, dice: Random) -> int:
    """How many values of a log were held against the lines. Raises Broken."""
    lines, count = by_number(bounds.by_device), 0
    for look in looks_of(log, bounds, dice):
        over = log.rounds[look]
        for number, value in values_after(program, start, log.entries[:look]).items():
            bound = confirm.outside(lines[number], value, over)
            if bound is not None:
                held = "nothing" if value is None else results.word_of(value)
                raise Broken(f"device {number} holds {held} and not {bound} after {look} entries, {over} rounds")
            count += lines[number].after(over) is not None
    return count


def tried(dice: Random, from_table: bool, spoil: Spoil | None = None) -> Found:
    """One program, network, lines and log. Raises Broken."""
    program = program_of(dice)
    scene = settle_runs.network(dice, program)
    if from_table:
        scene = settle_runs.edited_start(dice, program, scene)
    changes = changes_of(dice, declared(program), scene)
    words = ["check", "--settle", *["--from-table"] * from_table, "--changes"]
    written = run_fc(words, [program, json.dumps(scene), changes])
    bounds = results.bounded(written) if spoil is None else spoil(dice, results.bounded(written))
    parts = ((program, "program"), (json.dumps(scene), "network"), (changes, "changes"))
    call = Call(tuple(words), tuple(Section(kind, "", 1, text) for text, kind in parts))
    asked = confirm.Question.of(call, bounds)
    if not from_table:
        asked = moved(asked, dice)
    start = scene if from_table else anywhere(dice, program, json.loads(asked.scene.scene()))
    flying = [copy["id"] for copy in start.get("pending", [])]
    log = log_of(asked, flying, dice, min(bounds.within + 2, MOST_ROUNDS))
    try:
        values = held_against(program, start, bounds, log, dice)
    except Broken as broken:
        parts_told = [program, json.dumps(scene), changes, written, json.dumps(start), "\n".join(log.entries)]
        raise Broken("\n%%\n".join([str(broken), *parts_told])) from None
    edits = sum(entry[0] not in "BE" for entry in log.entries)
    return Found(len(bounds.by_device), values, len(log.entries), edits)


def looked(
    count: int, seed: int, from_table: bool, spoil: Spoil | None = None, first: int = 0, jobs: int = 1
) -> Found:
    """Looks at so many logs, each of a number and of the seed. Raises Broken."""
    with ThreadPoolExecutor(jobs) as pool:
        numbers = range(first, first + count)
        found = pool.map(lambda number: tried(Random(f"{seed} {number} {from_table}"), from_table, spoil), numbers)
        try:
            return sum(found, Found())
        finally:
            pool.shutdown(cancel_futures=True)


# --- wrong lines, for the test of this tool -------------------------------------------------------------------------


def narrower(dice: Random, bounds: Bounds) -> Bounds:
    """The bounds, of which those that aren't known have a value less, at one end."""

    def wrong(held: Held) -> Held:
        low, high = held.bound.low, held.bound.high
        if held.bound.known or isinstance(low, tuple) or isinstance(high, tuple):
            return held
        above = Bound(type(low)(low + 1), high)
        return replace(held, bound=above if dice.random() < 0.5 else Bound(low, type(high)(high - 1)))

    return replace(bounds, by_device={one: wrong(held) for one, held in bounds.by_device.items()})


def too_early(_dice: Random, bounds: Bounds) -> Bounds:
    """The bounds, of which each is said to hold a round before it does."""
    rows = bounds.by_device.items()
    return replace(bounds, by_device={one: replace(held, rounds=max(0, held.rounds - 1)) for one, held in rows})


def main() -> int:
    parser = argparse.ArgumentParser(description=__doc__, formatter_class=argparse.RawDescriptionHelpFormatter)
    parser.add_argument("--count", type=int, default=1000, help="how many logs (1000)")
    parser.add_argument("--seed", type=int, default=1, help="of the random numbers (1)")
    parser.add_argument("--first", type=int, default=0, help="the number of the first log (0)")
    parser.add_argument("--jobs", type=int, default=1, help="logs at one time (1)")
    parser.add_argument("--from-table", action="store_true", help="looks at lines from one start")
    words = parser.parse_args()
    begun = time.monotonic()
    try:
        found = looked(words.count, words.seed, words.from_table, first=words.first, jobs=words.jobs)
    except Broken as broken:
        print(broken)
        return 1
    took = time.monotonic() - begun
    told = f"{found.lines} lines, {found.values} values, {found.entries} entries, {found.edits} of them edits"
    print(f"{words.count} logs, {told}, none broken, {took:.0f} s")
    return 0


if __name__ == "__main__":
    sys.exit(main())
