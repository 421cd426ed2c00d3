"""`fieldc network`: a network made by a rule, or from a file, or one that moves, with its script."""

from __future__ import annotations

import argparse
import json
import math
from collections.abc import Callable, Iterable, Mapping, Sequence
from dataclasses import replace
from pathlib import Path

from .. import files, movement, moves, streams
from .. import networks as network
from ..networks import Input, Network, Position
from ..refusals import Fault
from ..sections import cut, read, writable, write

MOST_CALLED = 5
SUMMARY = "makes a network: a line, a ring, a grid, a torus, random places, or from positions, links, a graph or moves"
EPILOG = """\
Example: fieldc network --grid 8x5 --set source=true@0 > grid.json

If the names of devices aren't numbers, devices are numbered in the order of the file, and their names kept in a file
of lines id,name: NET.names.csv beside NET.json, or the file of --names. fieldc picture --names and the commands that
write values take it.

Example: fieldc network --moves moves.csv --range 20 --every 5 --program hops.fc --positions at.csv -o moves.txt

With --moves it writes two sections: the network at the first time, and a script that edits it at each step. So fieldc
run hops.fc moves.txt runs it, fieldc picture draws a page that moves, and fieldc rounds draws how far the values lag
behind the motion.

Example: fieldc network --points at.csv --range 20 --metric 1..20 --move 2 --changes walk.txt -o now.json

With --changes it writes the network as it is now, and what may change while each device stays near its place, as lines
for fieldc settle --changes: links whose weight may change, that may go, and that may come."""
ONLY_CHANGING = ("changes", "move")
ONLY_MOVING = {"every": "--every", "run": "--run", "gone_after": "--gone-after"}


def whole(least: int, what: str) -> Callable[[str], int]:
    """A reader of a whole number that is at least so great."""

    def read_number(word: str) -> int:
        if not word.isdecimal() or int(word) < least:
            raise argparse.ArgumentTypeError(f"{word} isn't {what} of at least {least}")
        return int(word)

    return read_number


def length(word: str) -> float:
    """A length: finite, and at least 0."""
    try:
        found = float(word)
    except ValueError:
        found = math.nan
    if not math.isfinite(found) or found < 0:
        raise argparse.ArgumentTypeError(f"{word} isn't a length: a number of at least 0")
    return found


def sides(word: str) -> tuple[int, int]:
    """WxH."""
    width, cross, height = word.partition("x")
    if not cross or not width.isdecimal() or not height.isdecimal() or not int(width) or not int(height):
        raise argparse.ArgumentTypeError(f"{word} isn't WxH, such as 8x5")
    return int(width), int(height)


def span(word: str) -> tuple[int, int]:
    """LOW..HIGH."""
    low, dots, high = word.partition("..")
    if not dots or not low.isdecimal() or not high.isdecimal():
        raise argparse.ArgumentTypeError(f"{word} isn't LOW..HIGH, such as 1..9")
    if int(low) > int(high):
        raise argparse.ArgumentTypeError(f"{word} is the wrong way round: the least weight comes first")
    return int(low), int(high)


def setting(word: str) -> tuple[str, int | bool, list[str] | None]:
    """NAME=VALUE or NAME=VALUE@ID,ID.. ."""
    name, equals, rest = word.partition("=")
    text, at, listed = rest.partition("@")
    try:
        value = json.loads(text)
    except (ValueError, RecursionError):
        value = None
    if not name or not equals or not isinstance(value, int) or value < 0 or (at and not all(listed.split(","))):
        raise argparse.ArgumentTypeError(f"{word} isn't NAME=VALUE or NAME=VALUE@ID,ID.., with true, false or a number")
    return name, value, listed.split(",") if at else None


def factor(word: str) -> tuple[str, float]:
    """NAME=F, with a number above 0."""
    name, _, text = word.partition("=")
    try:
        found = float(text)
    except ValueError:
        found = 0.0
    if not name or not 0 < found < math.inf:
        raise argparse.ArgumentTypeError(f"{word} isn't NAME=F with a number above 0, such as load=10")
    return name, found


def arguments(parser: argparse.ArgumentParser) -> None:
    shape = parser.add_mutually_exclusive_group(required=True)
    count = whole(1, "a number of devices")
    shape.add_argument("--line", metavar="N", type=count, help="N devices, each linked to the next")
    shape.add_argument("--ring", metavar="N", type=count, help="a line whose ends are linked")
    shape.add_argument("--grid", metavar="WxH", type=sides, help="W times H devices, linked across and up and down")
    shape.add_argument("--torus", metavar="WxH", type=sides, help="a grid whose opposite borders are linked")
    shape.add_argument("--disk", metavar="N", type=count, help="N devices at random in a square; needs --range")
    shape.add_argument(
        "--points", metavar="FILE", help="rows id, x, y, or columns with their names in the first line; needs --range"
    )
    shape.add_argument("--edges", metavar="FILE", help="links: a line 'a b' or 'a b weight' for each, GraphML, or GML")
    shape.add_argument(
        "--scene", metavar="FILE", help="a network in JSON, or an input of fc that has one"
    )
    shape.add_argument(
        "--moves", metavar="FILE", help="rows t, id, x, y, or points in GeoJSON with times; needs --range and --every"
    )
    parser.add_argument(
        "-o", "--output", metavar="FILE", default="-", help="where the network is written (standard output)"
    )
    _moving(parser)
    _changing(parser)
    _shaping(parser)
    _filling(parser)


def _changing(parser: argparse.ArgumentParser) -> None:
    parser.add_argument(
        "--changes", metavar="FILE",
        help="writes to FILE what may change as devices move, or by the columns least, greatest and goes of --edges",
    )  # fmt: skip
    parser.add_argument(
        "--move", metavar="M", type=length,
        help="with --changes: how far a device may be from its place (the column move of --points)",
    )  # fmt: skip


def _moving(parser: argparse.ArgumentParser) -> None:
    parser.add_argument("--every", metavar="S", type=length, help="with --moves: a step every S, in the file's time")
    rounds = whole(1, "a number of rounds")
    parser.add_argument("--run", metavar="N", type=rounds, help="with --moves: the rounds of each step (1)")
    parser.add_argument(
        "--gone-after", metavar="S", type=length,
        help="with --moves: a device leaves when it was last seen more than S ago",
    )  # fmt: skip


def _shaping(parser: argparse.ArgumentParser) -> None:
    parser.add_argument("--range", metavar="R", type=length, help="devices at most this far apart are linked")
    parser.add_argument(
        "--scale", metavar="NAME=F", type=factor, action="append", default=[],
        help="multiplies numbers of this input in the file by F, and rounds them",
    )  # fmt: skip
    parser.add_argument("--side", metavar="S", type=length, default=100.0, help="the side of the square (100)")
    parser.add_argument("--seed", metavar="S", type=whole(0, "a seed"), default=0, help="the seed of --disk (0)")
    parser.add_argument("--undirected", action="store_true", help="takes each edge of a directed graph as a link")
    weight = whole(0, "a weight")
    parser.add_argument("--weight", metavar="W", type=weight, help="the weight of each link (1, or that of the file)")
    parser.add_argument("--metric", metavar="LOW..HIGH", type=span, help="weights by distance, rounded into this range")
    parser.add_argument("--unit", metavar="U", type=length, default=1.0, help="how far a weight of 1 is (1)")
    parser.add_argument("--round", action="store_true", help="rounds the file's weights to whole numbers")
    most = whole(1, "a number of links")
    parser.add_argument(
        "--max-degree", metavar="N", type=most, help="keeps the nearest links, at most N of each device"
    )


def _filling(parser: argparse.ArgumentParser) -> None:
    parser.add_argument(
        "--set",
        metavar="NAME=VALUE[@ID,ID..]",
        type=setting,
        action="append",
        default=[],
        help="an input of all devices, or of those named; else it is as in the file, or false",
    )
    parser.add_argument(
        "--inputs", metavar="NAME,NAME..", help="the columns or attributes of the file to take as inputs (all)"
    )
    parser.add_argument(
        "--program", metavar="FILE", help="a program: takes the inputs that it declares, and checks all values"
    )
    parser.add_argument(
        "--table", metavar="FILE", help="starts from the table of fc run --table, with nothing in flight"
    )
    parser.add_argument(
        "--positions", metavar="FILE", help="writes the positions to FILE: lines id,x,y, or t,id,x,y with --moves"
    )
    parser.add_argument("--names", metavar="FILE", help="writes the names of devices to FILE, a line id,name for each")


def perform(options: argparse.Namespace) -> int:
    for name in (options.positions, options.names, options.output, options.changes):
        if name and name != "-":
            writable(name)
    program = cut(options.program, read(options.program))[0][1] if options.program else None
    if options.moves:
        for name in ONLY_CHANGING:
            if getattr(options, name) is not None:
                raise Fault(f"--{name} doesn't go with --moves")
        return perform_moves(options, program)
    for name, option in ONLY_MOVING.items():
        if getattr(options, name) is not None:
            raise Fault(f"{option} needs --moves")
    if options.move is not None and options.changes is None:
        raise Fault("--move needs --changes FILE, to which what may change is written")
    found = shaped(options, program)
    found, lost = finished(found, options, program, by_name(found.devices, found.names))
    tell_lost(options, lost)
    if options.positions and not found.positions:
        raise Fault("--positions: this network has no positions to write")
    lines = changing(options, program, found) if options.changes else []
    keep_beside(options, found.names, files.positions_text(found.positions))
    write(options.output, found.scene())
    if options.changes:
        write(options.changes, "".join(line + "\n" for line in lines))
    return 0


def changing(options: argparse.Namespace, program: str | None, found: Network) -> list[str]:
    """What may change about a network, as lines: by how far devices move, or by the columns of a file of links."""
    if options.max_degree is not None:
        raise Fault("--max-degree: which links are nearest changes as devices move; choose a smaller --range")
    if options.edges:
        lines = by_columns(options, found)
    elif options.points or options.disk:
        lines = movement.of_moves(found, moves_of(options, program, found), options.range, weight_by_length(options))
    else:
        raise Fault("--changes needs --points, --disk or --edges")
    return lines if program is None else movement.judged(lines, found, network.declared(program))


def by_columns(options: argparse.Namespace, found: Network) -> list[str]:
    """What may change by the columns of a file of links."""
    given = next((name for name in ("metric", "weight", "move") if getattr(options, name) is not None), None)
    if given is not None:
        raise Fault(f"--{given}: with --edges and --changes the file gives the weights")
    return movement.of_graph(files.graph(options.edges), found, options.round)


def weight_by_length(options: argparse.Namespace) -> movement.Weight:
    """The rule by which a link of some length has its weight: by distance, or one weight for all."""
    if not options.metric:
        return lambda _: 1 if options.weight is None else int(options.weight)
    low, high = options.metric
    return lambda far: network.weight_at(far, low, high, options.unit)


def moves_of(options: argparse.Namespace, program: str | None, found: Network) -> Mapping[int, float]:
    """How far each device may be from its place: so far as one number says of all, or a column of the file."""
    in_file = points_of(options, program).moves if options.points else {}
    if in_file and options.move is not None:
        raise Fault(f"--move {options.move:g} is for all devices, but {options.points} has a column move: omit one")
    if not in_file and options.move is None:
        raise Fault("--changes needs --move, how far a device may be from its place, or a column move in --points")
    return in_file or dict.fromkeys(found.devices, options.move)


def points_of(options: argparse.Namespace, program: str | None) -> files.Points:
    """The positions of a file."""
    moving = options.changes is not None
    return files.points(options.points, program, inputs_of(options), dict(options.scale), moving)


def finished(
    found: Network, options: argparse.Namespace, program: str | None, numbers: Mapping[str, int]
) -> tuple[Network, str]:
    """The network with inputs, weights and few enough links, and what is said of links that were left out."""
    found = weighed(network.with_inputs(found, placed(options.set, found, numbers)), options)
    found, lost = thinned(found, options.max_degree)
    found = network.within_limits(found)
    if program is not None:
        found = network.judged(found, program)
    if options.table:
        found = replace(found, state={"table": files.table_of(options.table)})
    return found, lost


def perform_moves(options: argparse.Namespace, program: str | None) -> int:
    """Writes the first network of devices that move, and the script that makes the others of it."""
    if options.range is None or options.every is None:
        raise Fault("--moves needs --range, and --every, the time of a step")
    found = moves.read(options.moves, program, inputs_of(options), dict(options.scale))
    say_left_out(options.moves, found.left_out)
    numbers, lost = by_name(found.seen, found.names), list[str]()

    def linked(places: Mapping[int, Position], inputs: Mapping[int, Mapping[str, Input]]) -> Network:
        at_most(len(places))
        names = {device: found.names[device] for device in places if device in found.names}
        made = replace(network.in_range(places, options.range), names=names, inputs=inputs)
        made, less = finished(made, options, program, numbers)
        lost.extend([less] if less else [])
        return made

    times = moves.times_of(found, options.every)
    gone_after = math.inf if options.gone_after is None else options.gone_after
    steps = moves.steps(found, times, gone_after, linked)
    script = moves.script(steps, options.run or 1, list(network.declared(program).inputs) if program else None)
    if lost:
        tell_lost(options, f"{lost[0]}, and so in {len(lost)} of {len(steps)} steps")
    still = moves.still_there(found, times) if options.gone_after is None else []
    if still:
        called = first_of([found.names.get(device, str(device)) for device in still])
        say(f"not seen at the end, and left where they were last seen: {called} (--gone-after S lets them leave)")
    keep_beside(options, found.names, moves.positions_text(steps))
    write(options.output, f"{steps[0].network.scene()}%%\n{script}")
    return 0


def shaped(options: argparse.Namespace, program: str | None) -> Network:
    """The devices, positions and links of the shape or file that is asked for."""
    inputs = inputs_of(options)
    if options.scene:
        sections = cut(options.scene, read(options.scene))
        first, text = next((part for part in sections[:2] if part[1].lstrip()[:1] == "{"), sections[:2][-1])
        return with_names_beside(network.read_scene(text, options.scene, first), options.scene)
    if options.edges:
        return files.network(options.edges, program, inputs, options.round, options.undirected)
    if options.line is not None:
        return network.line(at_most(options.line))
    if options.ring is not None:
        return network.ring(at_most(options.ring))
    if options.grid or options.torus:
        width, height = options.grid or options.torus
        at_most(width * height)
        return network.grid(width, height, closed=options.torus is not None)
    if options.range is None:
        raise Fault("--disk and --points need --range")
    if options.disk is not None:
        return network.disk(at_most(options.disk), options.side, options.range, options.seed)
    points = points_of(options, program)
    say_left_out(options.points, points.left_out)
    at_most(len(points.positions))
    return replace(network.in_range(points.positions, options.range), names=points.names, inputs=points.inputs)


def with_names_beside(found: Network, name: str) -> Network:
    """A network with the names of its devices from the file beside its scene, where there is one."""
    beside = files.beside(name, "names")
    if name == "-" or not Path(beside).is_file():
        return found
    names = files.names_from(beside)
    return replace(found, names={device: names[device] for device in found.devices if device in names})


def at_most(count: int) -> int:
    """A number of devices that `fc` takes, so that no more are linked in vain."""
    if count > network.MOST_DEVICES:
        raise Fault(f"{count:,} devices, but fc takes 1 to {network.MOST_DEVICES:,}", 4)
    return count


def inputs_of(options: argparse.Namespace) -> list[str] | None:
    """The inputs that `--inputs` names."""
    return options.inputs.split(",") if options.inputs is not None else None


def say_left_out(name: str, left_out: Sequence[str]) -> None:
    """Says which columns of a file are nothing."""
    if left_out:
        say(f"{name}: left out, not being inputs: {', '.join(left_out)}")


def by_name(devices: Iterable[int], names: Mapping[int, str]) -> dict[str, int]:
    """The devices by what they are called."""
    return {names.get(device, str(device)): device for device in devices}


def first_of(words: Sequence[str]) -> str:
    """The first of some words."""
    return f"{', '.join(words[:MOST_CALLED])}{', ..' if len(words) > MOST_CALLED else ''}"


def placed(
    settings: Sequence[tuple[str, int | bool, list[str] | None]], found: Network, numbers: Mapping[str, int]
) -> list[tuple[str, int | bool, list[int] | None]]:
    """Settings with the numbers of their devices, which the user may call by their names; of these those that are there
    now."""
    made = []
    for name, value, listed in settings:
        for word in listed or ():
            if word not in numbers:
                where = f"--set {name}={json.dumps(value)}@{','.join(listed or ())}"
                raise Fault(f"{where}: there is no device {word}; the devices are called {first_of(list(numbers))}")
        devices = None if listed is None else [numbers[word] for word in listed if numbers[word] in found.inputs]
        made.append((name, value, devices))
    return made


def weighed(found: Network, options: argparse.Namespace) -> Network:
    """The links with their weights: by distance, or one for all, or the file's, or 1."""
    if options.metric:
        low, high = options.metric
        return network.weighed(found, low, high, options.unit)
    return found if options.weight is None else network.with_weight(found, options.weight)


def thinned(found: Network, most: int | None) -> tuple[Network, str]:
    """The network with the nearest links kept, at most so many of a device; and what is said of those left out."""
    if most is None or max(network.degrees(found).values(), default=0) <= most:
        return found, ""
    kept = network.nearest(found, most)
    lost = len(found.links) - len(kept.links)
    more = f"; the network now has {parts(kept)} parts instead of {parts(found)}" if parts(kept) > parts(found) else ""
    return kept, f"{lost} of {len(found.links)} links are left out{more}"


def tell_lost(options: argparse.Namespace, lost: str) -> None:
    """Says on standard error that links were left out."""
    if lost:
        say(f"--max-degree {options.max_degree}: {lost}")


def parts(found: Network) -> int:
    """How many parts a network has between which there are no links."""
    near: dict[int, list[int]] = {device: [] for device in found.devices}
    for a, b, _ in found.links:
        near[a].append(b)
        near[b].append(a)
    count, seen = 0, set()
    for device in near:
        if device in seen:
            continue
        count, todo = count + 1, [device]
        seen.add(device)
        while todo:
            fresh = [other for other in near[todo.pop()] if other not in seen]
            seen.update(fresh)
            todo += fresh
    return count


def keep_beside(options: argparse.Namespace, names: Mapping[int, str], positions: str) -> None:
    """Writes the positions and the names where they are wanted; says so where names would be lost."""
    if options.positions:
        write(options.positions, positions)
    if names:
        name = options.names or (files.beside(options.output, "names") if options.output != "-" else None)
        if name is None:
            say(f"{len(names)} devices have names; --names FILE would keep them")
        else:
            write(name, files.names_text(names))
            say(f"the names of the devices are in {name}")


def say(line: str) -> None:
    """One line on standard error."""
    streams.say(f"fieldc network: {line}\n")
