"""`fieldc sweep`: a program over many deployments."""

from __future__ import annotations

import argparse
import json
import math
import shlex
import time
from collections.abc import Callable
from dataclasses import replace
from typing import Any

from .. import cuts, files, networks as network
from .. import program as fc
from ..asking import add_cut_check
from ..asking import tell as told_beside
from ..drawing import pyplot_ready
from ..networks import Pair
from ..progress import Progress
from ..refusals import Call, Fault, Section
from ..sections import PAGES, PICTURES, cut, read, writable, write
from ..streams import say
from ..sweep import report, rows, running
from ..sweep.deployments import SQUARE, Rule, Setting, deployment, largest
from ..sweep.questions import Question
from ..sweep.running import Spent
from .network import length, sides, span, whole

MOST_LOOKED_AT = 1_000
SUMMARY = "says after how many rounds a program settles on many random networks"
EPILOG = """\
Example: fieldc sweep hops.fc --disk 60 --range 20 --set src=true@random:2 --count 1000 -o hops.csv --report hops.html

Each deployment depends only on its seed, and has a row in the file: seed, devices, links, components, diameter,
verdict, K, R (or open), and the device that settles last, with its rounds. The same command continues a sweep that was
stopped. With the same options and --again SEED it makes the network of a seed."""


def numbers(word: str) -> Pair:
    """N or LOW..HIGH, from 1 on."""
    found = span(word) if ".." in word else (whole(1, "a number of devices")(word),) * 2
    if not 1 <= found[0] <= found[1] <= network.MOST_DEVICES:
        raise argparse.ArgumentTypeError(f"{word}: fc takes 1 to {network.MOST_DEVICES:,} devices")
    return found


def probability(word: str) -> float:
    """A number from 0 to 1."""
    try:
        found = float(word)
    except ValueError:
        found = math.nan
    if not 0 <= found <= 1:
        raise argparse.ArgumentTypeError(f"{word} isn't a probability, a number from 0 to 1")
    return found


def above(word: str) -> float:
    """A length or density above 0."""
    found = length(word)
    if not found:
        raise argparse.ArgumentTypeError(f"{word} has to be above 0")
    return found


def drawn(word: str) -> Setting:
    """NAME=VALUE, with @ID,ID.. or @random:N after it; a value may be LOW..HIGH."""
    name, equals, rest = word.partition("=")
    text, at, listed = rest.partition("@")
    try:
        value = span(text) if ".." in text else json.loads(text)
        count = int(listed.removeprefix("random:")) if listed.startswith("random:") else None
        devices = count if count is not None else tuple(map(int, listed.split(","))) if at else None
    except (ValueError, RecursionError, argparse.ArgumentTypeError):
        value, devices = None, None
    right = isinstance(value, (int, tuple)) and (isinstance(value, tuple) or value >= 0)
    if not name or not equals or not right or (isinstance(devices, int) and devices < 0):
        form = "NAME=VALUE, NAME=VALUE@ID,ID.. or NAME=VALUE@random:N, with true, false, a number or LOW..HIGH"
        raise argparse.ArgumentTypeError(f"{word} isn't {form}")
    return Setting(name, value, devices)


def arguments(parser: argparse.ArgumentParser) -> None:
    parser.add_argument("program", metavar="PROGRAM", help="the program's file")
    shape = parser.add_mutually_exclusive_group(required=True)
    shape.add_argument(
        "--line", metavar="N", type=numbers, help="N devices, each linked to the next; N may be LOW..HIGH"
    )
    shape.add_argument("--ring", metavar="N", type=numbers, help="a line whose ends are linked; N may be LOW..HIGH")
    shape.add_argument("--grid", metavar="WxH", type=sides, help="W times H devices, linked across and up and down")
    shape.add_argument("--torus", metavar="WxH", type=sides, help="a grid whose opposite borders are linked")
    shape.add_argument(
        "--disk", metavar="N", type=numbers, help="N devices at random in a square, or LOW..HIGH; needs --range"
    )
    shape.add_argument(
        "--points", metavar="FILE", help="rows id, x, y of positions, which --jitter moves; needs --range"
    )
    shape.add_argument("--edges", metavar="FILE", help="links, GraphML or GML, of which --fail removes some")
    _drawing(parser)
    _asking(parser)


def _drawing(parser: argparse.ArgumentParser) -> None:
    parser.add_argument("--range", metavar="R", type=length, help="devices at most this far apart are linked")
    parser.add_argument("--side", metavar="S", type=above, default=SQUARE, help="the side of the square (100)")
    parser.add_argument(
        "--density", metavar="D", type=above, help="D devices in each square of side 100, in place of --side"
    )
    parser.add_argument(
        "--jitter", metavar="J", type=length, default=0.0, help="moves points by up to J along each axis (0)"
    )
    parser.add_argument(
        "--fail", metavar="P", type=probability, default=0.0, help="each link fails with this probability (0)"
    )
    parser.add_argument(
        "--weight", metavar="W", type=whole(0, "a weight"), help="the weight of each link (1, or the file's)"
    )
    parser.add_argument("--metric", metavar="LOW..HIGH", type=span, help="weights by distance, rounded into this range")
    parser.add_argument("--unit", metavar="U", type=above, default=1.0, help="how far a weight of 1 is (1)")
    most = whole(1, "a number of links")
    parser.add_argument(
        "--max-degree", metavar="N", type=most, help="keeps the nearest links, at most N of each device"
    )
    parser.add_argument(
        "--set",
        metavar="NAME=VALUE[@WHERE]",
        type=drawn,
        action="append",
        default=[],
        help="an input of all devices, of those named (@ID,ID..), or of N that are drawn (@random:N); "
        "a value LOW..HIGH is drawn for each device",
    )


def _asking(parser: argparse.ArgumentParser) -> None:
    parser.add_argument(
        "--count", metavar="N", type=whole(1, "a number of deployments"), default=100, help="how many (100)"
    )
    parser.add_argument(
        "--seed", metavar="S", type=whole(0, "a seed"), default=0, help="the first seed (0); the others follow"
    )
    parser.add_argument(
        "--values", action="store_true", help="also keeps the final values, as fc stable writes them"
    )
    parser.add_argument("-o", "--output", metavar="FILE", help="the rows, a file .csv; with --again the network")
    parser.add_argument(
        "--report", metavar="FILE", action="append", default=[], help="a picture or a page, by its ending"
    )
    parser.add_argument("--title", help="a line above the report (the program's name)")
    parser.add_argument(
        "--workers", metavar="W", type=whole(1, "a number of processes"), help="processes (one for each processor)"
    )
    parser.add_argument("--scheduler", metavar="ADDRESS", help="asks on the Dask cluster of this scheduler, host:port")
    add_cut_check(parser)
    parser.add_argument(
        "--again", metavar="SEED", type=whole(0, "a seed"), help="makes the network of this seed, and asks nothing"
    )
    parser.add_argument(
        "--positions", metavar="FILE", help="with --again: writes the positions to FILE, a line id,x,y for each"
    )


def perform(options: argparse.Namespace) -> int:
    program = cut(options.program, read(options.program))[0][1]
    rule = rule_of(options, program)
    if options.again is not None:
        return again(rule, options)
    if options.output is None:
        raise Fault("-o FILE is missing: it keeps the rows")
    writable(options.output, (".csv",))
    for name in options.report:
        writable(name, (*PICTURES, *PAGES))
    if options.report:
        pyplot_ready()
    question = Question(rule, program, options.values, options.program)
    stabilises = judge(question, options.seed)
    if not options.no_cut_check:
        tell_cuts(question, range(options.seed, options.seed + min(options.count, MOST_LOOKED_AT)), stabilises)
    spent = asked(question, options)
    text = read(options.output)
    found = rows.rows_of(text, options.output)[: options.count]
    outcome = report.summary(found, network.declared(program).ceiling)
    for name in options.report:
        report.write(outcome, name, options.title or options.program, said(options))
    write("-", report.told(outcome))
    tell(spent)
    return 0


def rule_of(options: argparse.Namespace, program: str) -> Rule:
    """The rule that is asked for. Raises Fault if options don't go together, or a file can't be read."""
    shape = next(
        name for name in ("line", "ring", "grid", "torus", "disk", "points", "edges") if getattr(options, name)
    )
    if shape in ("disk", "points") and options.range is None:
        raise Fault(f"--{shape} needs --range")
    if options.jitter and shape != "points":
        raise Fault("--jitter needs --points, whose devices it moves")
    given = getattr(options, shape)
    base = None
    if shape == "points":
        points = files.points(given, program)
        bare = network.shaped(points.positions, [])
        base = replace(bare, names=points.names, inputs=points.inputs)
    if shape == "edges":
        base = files.network(given, program)
    return Rule(
        shape,
        count=given if shape in ("line", "ring", "disk") else (1, 1),
        sides=given if shape in ("grid", "torus") else (1, 1),
        reach=options.range or 0.0,
        side=options.side,
        density=options.density,
        base=base,
        jitter=options.jitter,
        failing=options.fail,
        weight=options.weight,
        metric=options.metric,
        unit=options.unit,
        most_links=options.max_degree,
        inputs=tuple(options.set),
    )


def again(rule: Rule, options: argparse.Namespace) -> int:
    """Writes the network of a seed."""
    found = deployment(rule, options.again)
    for name in (options.output, options.positions):
        if name:
            writable(name)
    if options.positions:
        if not found.positions:
            raise Fault("--positions: this network has no positions to write")
        write(options.positions, files.positions_text(found.positions))
    write(options.output or "-", found.scene())
    if found.names and options.output:
        write(files.beside(options.output, "names"), files.names_text(found.names))
        say(f"fieldc sweep: the names of the devices are in {files.beside(options.output, 'names')}\n")
    return 0


def judge(question: Question, seed: int) -> bool:
    """Whether the verdict is a yes.

    Refuses a program or inputs that are wrong on all deployments, before many are asked.
    """
    for end in (0, 1):
        inputs = [
            replace(one, value=one.value[end]) if isinstance(one.value, tuple) else one for one in question.rule.inputs
        ]
        found = network.judged(deployment(replace(question.rule, inputs=tuple(inputs)), seed), question.program)
    first = min(found.inputs)
    alone = replace(found, inputs={first: found.inputs[first]}, links=(), state={})
    program = Section("program", question.name, 1, question.program)
    return fc.answered(Call(("check",), (program, Section("network", "", 1, alone.scene())))).status == 0


def tell_cuts(question: Question, seeds: range, stabilises: bool) -> None:
    """Warns of a ceiling that cuts what is computed on the largest deployment of some seeds."""
    seed = largest(question.rule, seeds)
    program, scene = Section("program", question.name, 1, question.program), deployment(question.rule, seed).scene()
    warnings = cuts.in_program(program, program.text, scene, stabilises, f"on the deployment of seed {seed}")
    told_beside(None, warnings)


def asked(question: Question, options: argparse.Namespace) -> Spent:
    """Asks for all rows that aren't there, and shows on a terminal how far it is."""
    where = (
        running.on_a_cluster(options.scheduler)
        if options.scheduler
        else running.on_this_machine(options.workers or running.processors())
    )
    start = time.monotonic()
    with where as place, Progress(lambda: f"{options.count:,} deployments") as progress:

        def waiting(done: int, before: int) -> None:
            rate = (done - before) / max(time.monotonic() - start, 1e-9)
            left = f", {(options.count - done) / rate:.0f} s left" if rate else ""
            progress(f", {done:,} done, {rate:.0f} a second{left}")

        return running.sweep(question, options.seed, options.count, rows.files_of(options.output), place, waiting)


def tell(spent: Spent) -> None:
    """Says on standard error what the sweep took."""
    if spent.rows:
        used = f"{spent.inside:.1f} CPU seconds in fc and {spent.beside:.1f} outside"
        say(f"fieldc sweep: {spent.rows:,} rows in {spent.clock:.1f} s, {used}\n")


def _both(found: tuple[int, ...]) -> str:
    return f"{found[0]}..{found[1]}"


def _span(found: tuple[int, int]) -> str:
    return str(found[0]) if found[0] == found[1] else _both(found)


def _sides(found: tuple[int, int]) -> str:
    return f"{found[0]}x{found[1]}"


def _number(found: float) -> str:
    return repr(found).removesuffix(".0")


def said(options: argparse.Namespace) -> str:
    """The command that makes the network of a seed again."""
    forms: dict[str, Callable[[Any], str]] = {
        "line": _span, "ring": _span, "grid": _sides, "torus": _sides, "disk": _span, "points": str, "edges": str,
        "range": _number, "side": _number, "density": _number, "jitter": _number, "fail": _number, "weight": str,
        "metric": _both, "unit": _number, "max_degree": str,
    }  # fmt: skip
    usual = {"side": SQUARE, "jitter": 0.0, "fail": 0.0, "unit": 1.0}
    words = ["fieldc", "sweep", options.program]
    for name, form in forms.items():
        value = getattr(options, name)
        if value is not None and value != usual.get(name):
            words += ["--" + name.replace("_", "-"), form(value)]
    for one in options.set:
        value = _both(one.value) if isinstance(one.value, tuple) else json.dumps(one.value)
        at = f"@random:{one.devices}" if isinstance(one.devices, int) else ""
        at = "@" + ",".join(map(str, one.devices)) if isinstance(one.devices, tuple) else at
        words += ["--set", f"{one.name}={value}{at}"]
    return shlex.join(words) + " --again SEED -o net.json"
