#!/usr/bin/env python3
"""Runs random scripts on several threads, and replays each log: the values of the last `show` have to be those that
`fc replay` finds after the log, and no run may take longer than ten seconds.

Scripts have runs, mixes, edits, joins, leaves and scrambles, on networks of two to forty devices, with 2, 4 and 16
workers. With --load so many processes compute for ever beside them. It runs what the variable FC names.
"""

from __future__ import annotations

import argparse
import json
import multiprocessing
import os
import random
import subprocess
import time
from dataclasses import dataclass, field

LONGEST = 10.0
HOPS = "rep({c}){{(d) => minHoodLoc(nbr{{d}} + 1, mux(sense src, 0, {c}))}}"
PROGRAMS = (
    "ceiling {c}; input src: bool; main = " + HOPS + ";",
    "language 2; ceiling {c}; input src: bool; main = share({c}){{(d) => minHoodLoc(d + 1, mux(sense src, 0, {c}))}};",
    "ceiling {c}; metric 1..9; input src: bool; main = " + HOPS.replace("+ 1", "+ nbrLink") + ";",
    "ceiling {c}; input src: bool; main = let p = "
    + HOPS
    + " in rep(0){{(x) => 1 + sumHood(mux(nbr{{p}} < p, nbr{{x}}, 0))}};",
    "ceiling {c}; input src: bool; main = let p = "
    + HOPS
    + " in if (p < 2) {{sumHood(nbr{{p + 1}})}} {{rep(3){{(x) => minHoodLoc(nbr{{x}} + 1, p)}}}};",
    "ceiling {c}; input src: bool; main = rep(0){{(x) => x + mux(sense src, 1, 2)}};",
    "ceiling {c}; input src: bool; main = sumHood(nbr{{rep(0){{(x) => maxHoodLoc(nbr{{x}}, uid)}}}});",
)


@dataclass
class Network:
    """A network as the lines of a script leave it."""

    metric: bool
    inputs: dict[int, bool] = field(default_factory=dict)
    links: dict[tuple[int, int], int] = field(default_factory=dict)

    def weight(self, dice: random.Random) -> int:
        return dice.randint(1, 9) if self.metric else 1

    def degree(self, number: int) -> int:
        return sum(number in pair for pair in self.links)

    def scene(self) -> str:
        devices = [{"id": n, "inputs": {"src": v}} for n, v in sorted(self.inputs.items())]
        return json.dumps({"devices": devices, "links": [[a, b, w] for (a, b), w in sorted(self.links.items())]})


def network(dice: random.Random, metric: bool) -> Network:
    made = Network(metric)
    numbers = sorted(dice.sample(range(60), dice.choice((2, 3, 4, 6, 9, 40))))
    made.inputs = {n: dice.random() < 0.2 for n in numbers}
    for at in range(1, len(numbers)):
        made.links[dice.choice(numbers[max(0, at - 5) : at]), numbers[at]] = made.weight(dice)
    return made


def edit(dice: random.Random, now: Network) -> str:
    """A link, an unlink or an input, which the network allows; it is made in it."""
    numbers = sorted(now.inputs)
    kind = dice.randrange(3)
    if kind == 0 and now.links:
        pair = dice.choice(sorted(now.links))
        del now.links[pair]
        return f"unlink {pair[0]} {pair[1]}"
    a, b = sorted(dice.sample(numbers, 2)) if len(numbers) > 1 else (numbers[0], numbers[0])
    if kind == 1 and a != b and now.degree(a) < 32 and now.degree(b) < 32:
        now.links[a, b] = now.weight(dice)
        return f"link {a} {b} {now.links[a, b]}"
    number = dice.choice(numbers)
    now.inputs[number] = dice.random() < 0.5
    return f"set {number} src {str(now.inputs[number]).lower()}"


def membership(dice: random.Random, now: Network) -> str:
    """A join or a leave."""
    if dice.random() < 0.5 and len(now.inputs) > 1:
        number = dice.choice(sorted(now.inputs))
        del now.inputs[number]
        now.links = {pair: w for pair, w in now.links.items() if number not in pair}
        return f"leave {number}"
    number = dice.choice([n for n in range(70) if n not in now.inputs])
    now.inputs[number] = dice.random() < 0.2
    return f"join {number} {str(now.inputs[number]).lower()}"


def script(dice: random.Random, now: Network) -> str:
    lines, scrambles = [], 0
    for _ in range(dice.randint(3, 12)):
        kind = dice.randrange(8)
        if kind < 3:
            lines.append(f"run {dice.choice((1, 1, 2, 5, 30))}")
        elif kind < 5:
            rounds = dice.choice((1, 2, 5))
            lines.append(f"mix {rounds} {edit(dice, now)}")
        elif kind == 5:
            lines.append(edit(dice, now))
        elif kind == 6:
            lines.append(membership(dice, now))
        elif scrambles < 4:
            scrambles += 1
            lines.append(f"scramble {dice.randrange(10**6)}")
    return "\n".join([*lines, "show"]) + "\n"


def ask(words: list[str], sections: list[str]) -> str:
    text = "%%\n".join(one if one.endswith("\n") else one + "\n" for one in sections)
    done = subprocess.run([os.environ["FC"], *words], input=text, capture_output=True, text=True, timeout=120)
    if done.returncode:
        raise ValueError(f"status {done.returncode}: {done.stdout[:200]!r} of {words}\n{text}")
    return done.stdout


def one_run(seed: int) -> tuple[float, int, str | None]:
    """The seconds of a run, how many steps it has, and what is wrong with it."""
    dice = random.Random(seed)
    program = dice.choice(PROGRAMS)
    now = network(dice, "metric" in program)
    text = program.format(c=dice.choice((10, 60, 1000)))
    scene = now.scene()
    lines = script(dice, now)
    begun = time.monotonic()
    output = ask(["run", "--log", "--workers", str((2, 4, 16)[seed % 3])], [text, scene, lines])
    took = time.monotonic() - begun
    shown, log = output.split("\nlog\n") if "\nlog\n" in output else (output.removesuffix("log\n"), "")
    values = shown[shown.rindex("@") :].split("\n", 1)[1].strip().split("\n")
    found = ask(["replay"], [text, scene, log]).strip().split("\n")
    wrong = None if values == found else f"seed {seed}: shown {values}, replayed {found}"
    return took, log.count("\n"), wrong or (f"seed {seed}: {took:.1f} seconds" if took > LONGEST else None)


def burn() -> None:
    while True:
        pass


def main() -> int:
    parser = argparse.ArgumentParser(description=__doc__, formatter_class=argparse.RawDescriptionHelpFormatter)
    parser.add_argument("--count", type=int, default=1000, help="how many runs")
    parser.add_argument("--first", type=int, default=0, help="the number of the first")
    parser.add_argument("--load", type=int, default=0, help="so many processes compute beside")
    parser.add_argument("--seconds", type=float, default=float("inf"), help="stop after so long")
    options = parser.parse_args()
    load = [multiprocessing.Process(target=burn, daemon=True) for _ in range(options.load)]
    for one in load:
        one.start()
    bad, steps, longest, done, begun = [], 0, 0.0, 0, time.monotonic()
    for seed in range(options.first, options.first + options.count):
        if time.monotonic() - begun > options.seconds:
            break
        took, more, wrong = one_run(seed)
        done, steps, longest = done + 1, steps + more, max(longest, took)
        if wrong:
            bad.append(wrong)
            print(wrong, flush=True)
    print(f"{done} runs, {steps} steps, {len(bad)} bad, the longest took {longest:.2f} seconds")
    return 1 if bad else 0


if __name__ == "__main__":
    raise SystemExit(main())
