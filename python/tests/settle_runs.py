#!/usr/bin/env python3
"""Looks for a run that breaks a line of `fc check --settle`: programs of a list on random networks, from random tables
and by random schedules. Each device has to hold its value after its settle round. `fc` makes tables, verdicts and runs.

With --from-table the lines are those of `check --settle --from-table`, and the starts are settled, early or rubbish
tables with up to three edits behind them, half of them with firings in flight; a device with 0 rounds has to hold its
value at once, and all along.

It runs the built program, or what the variable FC names.
"""

from __future__ import annotations

import argparse
import bisect
import itertools
import json
from collections.abc import Sequence
from random import Random
from typing import Any

import helping  # noqa: F401

from fieldc import Call, Section
from fieldc import program as fc
from fieldc.networks import declared

HOP = "rep({c}){{(d) => minHoodLoc(nbr{{d}} + 1, mux(sense src, 0, {c}))}}"
PROGRAMS = (
    "ceiling {c}; input src: bool; main = " + HOP + ";",
    "language 2; ceiling {c}; input src: bool; main = share({c}){{(d) => minHoodLoc(d + 1, mux(sense src, 0, {c}))}};",
    "ceiling {c}; metric 1..9; input src: bool; main = " + HOP.replace("+ 1", "+ nbrLink") + ";",
    "ceiling {c}; input src: bool; main = let p = "
    + HOP
    + " in rep(0){{(x) => 1 + sumHood(mux(nbr{{p}} < p, nbr{{x}}, 0))}};",
    "language 2; ceiling {c}; input src: bool; main = rep({c}){{(d) => "
    "rise(minHoodLoc(nbr{{d}} + 4, mux(sense src, 0, {c})), d, 2)}};",
    "ceiling {c}; input src: bool; main = if (sense src) {{sumHood(nbr{{1}})}} {{7}};",
    "ceiling {c}; input src: bool; main = let p = "
    + HOP
    + " in if (p < 2) {{sumHood(nbr{{p + 1}})}} {{rep(3){{(x) => minHoodLoc(nbr{{x}} + 1, p)}}}};",
    "ceiling {c}; metric 1..9; input src: bool; main = snd(rep(({c}, 0)){{(d) => "
    "minHoodLoc((fst(nbr{{d}}) + nbrLink, snd(nbr{{d}})), mux(sense src, (0, uid), ({c}, 0)))}});",
    "ceiling {c}; main = rep(9){{(d) => let y = nbr{{d}} in minHoodLoc(y + 1, 5)}};",
    "ceiling {c}; main = rep(0){{(x) => x + 1}};",
    "ceiling {c}; main = if (allHood(nbrLink < 2)) {{sumHood(nbrLink)}} {{sumHood(nbr{{uid}})}};",
    "ceiling {c}; input src: bool; main = let h = "
    + HOP
    + " in if (anyHood(nbr{{h}} < h) or allHood(nbr{{sense src}})) {{maxHoodLoc(nbr{{h}}, h)}} {{h - 1}};",
    "ceiling {c}; main = rep(0){{(x) => maxHoodLoc(nbr{{x}}, 0)}};",
)
Json = dict[str, Any]
Line = tuple[str, int, str]
NO_TABLE: Json = {"format": 2, "rows": []}


class Broken(Exception):
    """A run that breaks a line."""


def run_fc(words: Sequence[str], sections: Sequence[str]) -> str:
    """What `fc` writes of sections of input."""
    return fc.answered(Call(tuple(words), tuple(Section("", "", 1, text) for text in sections))).text


def weight(dice: Random, program: str) -> int:
    """A weight of the metric."""
    return dice.randint(*declared(program).metric)


def inputs(dice: Random, program: str) -> Json:
    """A value for each input; a truth value is mostly false."""
    spans = declared(program).inputs
    return {name: dice.random() < 0.3 if span is None else dice.randint(*span) for name, span in spans.items()}


def numbers_of(scene: Json) -> list[int]:
    return [device["id"] for device in scene["devices"]]


def network(dice: Random, program: str) -> Json:
    """One to seven devices, most of them linked."""
    numbers = sorted(dice.sample(range(12), dice.randint(1, 7)))
    pairs = {(dice.choice(numbers[:at]), numbers[at]) for at in range(1, len(numbers)) if dice.random() < 0.9}
    pairs |= {(a, b) for a in numbers for b in numbers if a < b and dice.random() < 0.2}
    return {
        "devices": [{"id": number, "inputs": inputs(dice, program)} for number in numbers],
        "links": [[a, b, weight(dice, program)] for a, b in sorted(pairs)],
    }


def one_round(dice: Random, numbers: list[int], flying: set[int], kind: int | None = None) -> list[str]:
    """A stretch in which each device begins a firing and ends it: as the dice fall, or (`kind` is 1) all begin before
    one ends, or (2) one after another. Firings from before end in it, and some that begin in it fly on."""
    kind = dice.randrange(3) if kind is None else kind
    todo = {n: (["E"] if n in flying else []) + ["B", "E"] * (1 if kind else dice.randint(1, 2)) for n in numbers}
    flying.clear()
    log = []
    if kind == 1:
        log += [f"E{n}" for n in dice.sample(numbers, len(numbers)) if len(todo[n]) == 3]
        log += [step + str(n) for step in "BE" for n in dice.sample(numbers, len(numbers))]
    elif kind == 2:
        log += [step + str(n) for n in dice.sample(numbers, len(numbers)) for step in todo[n]]
    while kind == 0 and any(todo.values()):
        number = dice.choice([n for n in numbers if todo[n]])
        log.append(todo[number].pop(0) + str(number))
    flying |= {n for n in numbers if dice.random() < 0.3}
    return log + [f"B{n}" for n in sorted(flying)]


def table_after(words: Sequence[str], program: str, scene: Json, lines: Sequence[str]) -> Json:
    """The table to which the lines of a script or of a log lead."""
    said = run_fc([*words, "--table"], [program, json.dumps(scene), "\n".join(lines)])
    return dict(json.loads(said.splitlines()[-1]))


def scrambled(dice: Random, program: str, scene: Json, *more: str) -> Json:
    """The table of rubbish, and of more lines behind it."""
    return table_after(["run", "--workers", "1"], program, scene, [f"scramble {dice.randrange(10**6)}", *more])


def table(dice: Random, program: str, scene: Json) -> Json:
    """A table of rubbish, of which rows may be missing."""
    rubbish = scrambled(dice, program, scene)
    if dice.random() < 0.5:
        rubbish["rows"] = [row for row in rubbish["rows"] if dice.random() < 0.6]
    return rubbish


def first_table(dice: Random, program: str, scene: Json) -> Json:
    """A table that has settled, or not yet, or one of rubbish, or none."""
    kind = dice.randrange(8)
    if kind < 5:
        return scrambled(dice, program, scene, f"run {dice.randint(1, 6) if kind < 2 else 80}")
    return NO_TABLE if kind == 5 else table(dice, program, scene)


def copy_of(scene: Json, number: int) -> Json:
    """The copy that a begin of a device takes."""
    rows = {row["id"]: row for row in scene["table"]["rows"]}

    def export(row: Json) -> Json:
        return {"value": row["value"], "kept": [value for _, value in row["kept"]]}

    weights = {a + b - number: w for a, b, w in scene["links"] if number in (a, b)}
    return {
        "id": number,
        "inputs": next(device["inputs"] for device in scene["devices"] if device["id"] == number),
        "own": export(rows[number]) if number in rows else None,
        "near": [{"id": n, "weight": weights[n], **export(rows[n])} for n in sorted(weights) if n in rows],
    }


def with_flights(dice: Random, scene: Json) -> Json:
    """The scene with some more devices in flight."""
    flying = {copy["id"] for copy in scene["pending"]}
    begun = [n for n in numbers_of(scene) if n not in flying and dice.random() < 0.4]
    return dict(scene, pending=[*scene["pending"], *(copy_of(scene, n) for n in begun)])


def with_firings(dice: Random, program: str, scene: Json) -> Json:
    """The scene after some devices have landed, and some others have fired."""
    flying = [copy["id"] for copy in scene["pending"]]
    landed = [n for n in flying if dice.random() < 0.4]
    fired = [n for n in numbers_of(scene) if n not in flying and dice.random() < 0.3]
    log = [f"E{n}" for n in landed] + [step + str(n) for n in dice.sample(fired, len(fired)) for step in "BE"]
    later = table_after(["replay"], program, scene, log)
    return dict(scene, table=later, pending=[copy for copy in scene["pending"] if copy["id"] not in landed])


def with_input(dice: Random, program: str, scene: Json) -> Json:
    """Other inputs of a device."""
    one = dice.choice(numbers_of(scene))

    def changed(device: Json) -> Json:
        return dict(device, inputs=inputs(dice, program)) if device["id"] == one else device

    return dict(scene, devices=[changed(device) for device in scene["devices"]])


def with_link(dice: Random, program: str, scene: Json) -> Json:
    """A link less, another weight of one, or a link more."""
    a, b = sorted(dice.sample(numbers_of(scene), 2)) if len(scene["devices"]) > 1 else (0, 0)
    others = [link for link in scene["links"] if link[:2] != [a, b]]
    gone = a == b or (len(others) < len(scene["links"]) and dice.random() < 0.5)
    return dict(scene, links=others if gone else [*others, [a, b, weight(dice, program)]])


def with_device(dice: Random, program: str, scene: Json) -> Json:
    """A device more, with up to two links."""
    numbers = numbers_of(scene)
    one = dice.choice([n for n in range(20) if n not in numbers])
    near = dice.sample(numbers, min(len(numbers), dice.randint(0, 2)))
    links = [[min(one, n), max(one, n), weight(dice, program)] for n in near]
    joined = {"id": one, "inputs": inputs(dice, program)}
    return dict(scene, devices=[*scene["devices"], joined], links=[*scene["links"], *links])


def without_device(dice: Random, program: str, scene: Json) -> Json:
    """A device less, unless all are in flight or it is the last."""
    flying = {copy["id"] for copy in scene["pending"]}
    landed = [n for n in numbers_of(scene) if n not in flying]
    if not landed or len(scene["devices"]) == 1:
        return scene
    one = dice.choice(landed)
    return dict(
        scene,
        devices=[device for device in scene["devices"] if device["id"] != one],
        links=[link for link in scene["links"] if one not in link[:2]],
        table=dict(scene["table"], rows=[row for row in scene["table"]["rows"] if row["id"] != one]),
    )


def with_poke(dice: Random, program: str, scene: Json) -> Json:
    """Rubbish in the place of an export."""
    one = dice.choice(scrambled(dice, program, {name: scene[name] for name in ("devices", "links")})["rows"])
    others = [row for row in scene["table"]["rows"] if row["id"] != one["id"]]
    return dict(scene, table=dict(scene["table"], rows=[*others, one]))


EDITS = (with_input, with_input, with_link, with_link, with_device, without_device, with_poke)


def edited_start(dice: Random, program: str, scene: Json) -> Json:
    """A table with up to three edits behind it, some firings among them, and copies in flight in half."""
    flies = dice.random() < 0.67
    scene = dict(scene, table=table(dice, program, scene), pending=[])
    if flies and dice.random() < 0.5:
        scene = with_flights(dice, scene)
    scene["table"] = first_table(dice, program, dict(scene, pending=[]))
    for _ in range(dice.randint(0, 3)):
        scene = with_firings(dice, program, with_flights(dice, scene) if flies else scene)
        scene = dice.choice(EDITS)(dice, program, scene)
    return with_flights(dice, scene) if flies and dice.random() < 0.5 else scene


def broken_line(
    dice: Random, program: str, scene: Json, settled: Sequence[Line], stretches: Sequence[list[str]]
) -> str | None:
    """The first line of settled that the run breaks, if one does. All are looked at once their rounds are over, and
    again after those of the others, and at two places more."""
    log = [entry for stretch in stretches for entry in stretch]
    ends = list(itertools.accumulate(map(len, stretches), initial=0))
    looks = {ends[rounds] for _, rounds, _ in settled} | {dice.randint(0, len(log)) for _ in range(2)}
    for look in sorted(looks):
        shown = run_fc(["replay"], [program, json.dumps(scene), "\n".join(log[:look])])
        held = dict(line.split(" ", 1) for line in shown.splitlines())
        over = bisect.bisect(ends, look) - 1
        for number, rounds, value in settled:
            if rounds <= over and held[number] != value:
                return f"{number} {rounds} {value} after {look} entries"
    return None


def settled_lines(program: str, scene: Json, words: Sequence[str]) -> list[Line]:
    """The lines of the devices that have a settle round."""
    lines = run_fc(["check", "--settle", *words], [program, json.dumps(scene)]).splitlines()[2:]
    split = [line.split(" ", 2) for line in lines]
    return [(row[0], int(row[1]), row[2]) for row in split if row[1] != "-"]


def tried(dice: Random, from_table: bool) -> tuple[list[int], bool]:
    """One start and schedule: the rounds of its lines, and whether a firing is in flight. Raises Broken."""
    program = dice.choice(PROGRAMS).format(c=dice.choice([12, 20]))
    scene = network(dice, program)
    if from_table:
        start = edited_start(dice, program, scene)
        settled = settled_lines(program, start, ["--from-table"])
    else:
        settled = settled_lines(program, scene, [])
        start = dict(scene, table=table(dice, program, scene))
    rounds = [after for _, after, _ in settled]
    flying = {copy["id"] for copy in start.get("pending", [])}
    flies = bool(flying)
    stretches = [one_round(dice, numbers_of(start), flying) for _ in range(max(rounds, default=0) + 1)]
    line = broken_line(dice, program, start, settled, stretches)
    if line is not None:
        raise Broken(f"{line} of {program} on {json.dumps(start)} by {stretches}")
    return rounds, flies


def looked(count: int, seed: int, from_table: bool) -> str:
    """Looks at so many starts and schedules, and says how many. Raises Broken."""
    dice = Random(seed)
    found = [tried(dice, from_table) for _ in range(count)]
    lines = [after for rounds, _ in found for after in rounds]
    flights = sum(flies for _, flies in found)
    more = f", {lines.count(0)} of them of 0 rounds, {flights} starts with firings in flight" if from_table else ""
    return f"{count} starts and schedules, {len(lines)} lines{more}, none broken"


def main() -> None:
    parser = argparse.ArgumentParser(description=__doc__, formatter_class=argparse.RawDescriptionHelpFormatter)
    parser.add_argument("--count", type=int, default=1000, help="how many tables and schedules (1000)")
    parser.add_argument("--seed", type=int, default=1, help="of the random numbers (1)")
    parser.add_argument(
        "--from-table", action="store_true", help="looks at lines from one start, such as an edit leaves"
    )
    words = parser.parse_args()
    print(looked(words.count, words.seed, words.from_table))


if __name__ == "__main__":
    main()
