"""`fieldc picture`: a network with values, as a picture or as a page with a slider."""

from __future__ import annotations

import argparse
import time
from collections.abc import Callable, Mapping, Sequence
from dataclasses import replace
from pathlib import Path

from .. import changes, program as fc, results
from ..asking import add_cut_check, cut_warnings, numbered, tell, understood, why_no
from ..drawing import draw, pyplot_ready
from ..files import names_from, positions_for
from ..moves import positions_by_time
from ..networks import Network, read_scene
from ..page import page
from ..picture import Picture, at_places, at_times, check_arrows, check_kinds, check_marks, everywhere, gathered
from ..progress import Progress, described
from ..refusals import Call, Fault, Section
from ..sections import PAGES, PICTURES, read, sections, writable, write

SUMMARY = "draws a network with the values of its devices, or a run as a page with a slider"
EPILOG = """\
Example: fieldc picture hops.fc net.json --of stable --positions points.csv -o hops.svg

The files are a program and a network. A run also needs its script, and a replay its log, since each show is drawn on
the network of that moment. Bounds while the network changes also need the file of changes, so that everything that may
come is drawn. A network alone is drawn without values. --values reads what fc wrote, and --of asks fc."""
OF: dict[str, tuple[tuple[str, ...], Callable[[str], results.Result]]] = {
    "stable": (("stable",), results.stable),
    "settle": (("check", "--settle"), results.settled),
    "from-table": (("check", "--settle", "--from-table"), results.settled),
    "trace": (("trace",), results.traced),
    "run": (("run",), results.ran),
    "replay": (("replay",), results.replayed),
    "mail": (("mail",), results.mailed),
    "changes": (("check", "--settle", "--changes"), results.bounded),
    "changes-from-table": (("check", "--settle", "--from-table", "--changes"), results.bounded),
}
CHANGING = ("changes", "changes-from-table")
WITH_LINES = {"run": "script", "replay": "log", "mail": "log", **dict.fromkeys(CHANGING, "changes")}
KINDS = ("program", "network", "script")


def arguments(parser: argparse.ArgumentParser) -> None:
    parser.add_argument(
        "files", nargs="+", metavar="FILE",
        help="PROGRAM NETWORK [SCRIPT, LOG or CHANGES], in one file or several; or just a network",
    )
    parser.add_argument(
        "-o", "--output", metavar="FILE", required=True, help="the picture, by its ending .svg, .png, .pdf, .html"
    )
    values = parser.add_mutually_exclusive_group()
    values.add_argument("--values", metavar="FILE", help="what fc wrote of this network (- is standard input)")
    values.add_argument("--of", choices=tuple(OF), help="asks fc for the values")
    parser.add_argument("--show", metavar="N", type=int, help="which show of a run to draw, from 1 (the last)")
    parser.add_argument("--page", action="store_true", help="a page of HTML, with a slider over all shows")
    parser.add_argument(
        "--rounds", action="store_true", help="for bounds while the network changes: a show for each number of rounds"
    )
    parser.add_argument(
        "--positions", metavar="FILE", help="positions: lines id,x,y, or t,id,x,y with a time for each show (a layout)"
    )
    parser.add_argument("--names", metavar="FILE", help="names of devices: a line id,name for each")
    parser.add_argument("--numbers", action="store_true", help="writes the number, or name, beside each device")
    parser.add_argument(
        "--mark", metavar="NAME", action="append", default=[], help="marks devices whose input NAME is true"
    )
    parser.add_argument(
        "--kinds", metavar="PARTS", help="numbers are names, not amounts: in all parts of the values, or 2, or 1,3"
    )
    parser.add_argument("--arrows", action="store_true", help="arrows to the neighbour whose number a device holds")
    parser.add_argument("--title", default="", help="a line above the picture")
    add_cut_check(parser)


def perform(options: argparse.Namespace) -> int:
    as_page = options.page or options.output.lower().endswith(PAGES)
    writable(options.output, PAGES if as_page else (*PICTURES, *PAGES))
    pyplot_ready()
    if options.values == "-" and "-" in options.files:
        raise Fault("standard input can be read only once: use a single -")
    names = names_from(options.names) if options.names else {}
    answer = read(options.values) if options.values else None
    of_changes = options.of in CHANGING or (answer is not None and results.is_bounded(answer))
    parts = tuple(numbered(part, names) for part in parted(options.files, of_changes))
    if of_changes and len(parts) > 2:
        parts = (*parts[:2], changes.for_fc(parts[2], parts[:2], names))
    network = replace(read_scene(parts[1].text, parts[1].name), names=names)
    answer = asked(options, parts, names) if options.of else answer
    program, lines = (parts[0].text or None), (parts[2].text if len(parts) > 2 else None)
    picture = check_marks(gathered(program, network, lines, answer, options.rounds), options.mark)
    picture = check_arrows(check_kinds(picture, options.kinds, network.names), options.arrows)
    picture = replace(picture, title=options.title, numbers=options.numbers)
    with Progress(lambda: f"draws {len(everywhere(picture)[0]):,} devices", ticking=True):
        drawn(options, placed(options.positions, picture, network), as_page)
    if picture.said:
        write("-", picture.said + "\n")
    return 0


def parted(names: Sequence[str], of_changes: bool = False) -> tuple[Section, ...]:
    """The program, network, and script, log or changes of the files; a network alone has an empty program before it."""
    parts = sections(names, (*KINDS[:2], "changes") if of_changes else KINDS)
    if len(parts) == 1 and parts[0].text.lstrip()[:1] in ("{", "["):
        return (Section("program", "", 1, ""), replace(parts[0], kind="network"))
    if len(parts) not in (2, 3):
        more = "of a run or replay, SCRIPT or LOG, of bounds CHANGES"
        raise Fault(f"{len(parts)} sections: PROGRAM NETWORK and, {more}; or a network alone")
    return parts


def asked(options: argparse.Namespace, parts: Sequence[Section], names: Mapping[int, str]) -> str:
    """What `fc` writes of the sections. Raises Refusal if it refuses them."""
    of = options.of
    if (len(parts) > 2) < (of in WITH_LINES):
        raise Fault(f"--of {of}: the files have no {WITH_LINES[of]}")
    if not parts[0].text:
        raise Fault(f"--of {of}: a network alone has no values: give the program before it")
    words, reader = OF[of]
    call, start = Call(words, tuple(parts if of in WITH_LINES else parts[:2])), time.monotonic()
    with Progress(lambda: described(call)) as waiting:
        reply = fc.answered(call, waiting)
    took = time.monotonic() - start
    result = understood(lambda text, _: reader(text), reply.text, call)
    tell(why_no(call, reply.text) if reply.status == 1 else None, cut_warnings(options, call, result, names, took))
    return reply.text


def placed(positions: str | None, picture: Picture, network: Network) -> Picture:
    """The picture with places, from a file, in which they may change with time, or from a layout."""
    if positions is None:
        return at_places(picture, None)
    moving = positions_by_time(positions, network.names)
    if moving is not None:
        return at_times(picture, moving)
    return at_places(picture, positions_for(positions, everywhere(picture)[0], network.names))


def drawn(options: argparse.Namespace, picture: Picture, as_page: bool) -> None:
    """Draws the picture, or the page of all its shows. Raises Fault if there is no such show."""
    count = len(picture.frames)
    if options.show is not None and not 1 <= options.show <= count:
        raise Fault(f"--show {options.show}: there {'is 1 show' if count == 1 else f'are {count} shows'}")
    if options.show is not None or not as_page:
        picture = picture.one((options.show or count) - 1)
    if as_page:
        write(str(Path(options.output)), page(picture))
    else:
        draw(picture, options.output)
