"""`fieldc rounds`: how many devices hold their value, round by round, from tables of rubbish; and how far behind the
edits of a script the values are."""

from __future__ import annotations

import argparse
from collections.abc import Sequence

from .. import behind, results, rounds
from ..asking import add_cut_check, cut_warnings, numbered, tell
from ..drawing import pyplot_ready
from ..files import names_from
from ..progress import Progress
from ..refusals import Call, Fault, Section
from ..sections import PICTURES, sections, writable, write
from ..tables import table_of_rounds

SUMMARY = "draws how many devices hold their value after each round, from rubbish, or how far they lag behind edits"
EPILOG = """\
Example: fieldc rounds hops.fc net.json --number 1 --number 2 -o rounds.svg

For each table it writes NUMBER ROUNDS R K: after how many rounds it had settled, the settle time and the bound of the
verdict (- with a no).

With a script it runs the script, and draws for each group of edits the settle time from what devices hold then, and the
rounds until the next edit. It writes LINE BEFORE R ROUNDS LATE: the line of the first edit, the rounds that had run,
the settle time (- where it is open), the rounds until the next edit, and how many devices don't hold their value
then."""
NOT_OF_SCRIPTS = {"number": "--number", "rounds": "--rounds", "csv": "--csv"}


def arguments(parser: argparse.ArgumentParser) -> None:
    parser.add_argument(
        "files", nargs="+", metavar="FILE", help="PROGRAM NETWORK [SCRIPT], in one file or several"
    )
    parser.add_argument(
        "-o", "--output", metavar="FILE", required=True, help="the picture, by its ending .svg, .png or .pdf"
    )
    parser.add_argument(
        "--number",
        metavar="N",
        type=int,
        action="append",
        help="the number from which rubbish is made (1); several give several curves",
    )
    parser.add_argument(
        "--rounds", metavar="R", type=int, help=f"how many rounds to run (R, at most {rounds.MOST_ROUNDS:,})"
    )
    parser.add_argument("--workers", metavar="W", type=int, default=4, help="threads that fire devices in each run (4)")
    parser.add_argument("--title", default="", help="a line above the picture")
    parser.add_argument("--csv", metavar="FILE", help="writes to FILE what each device holds after each round")
    parser.add_argument("--names", metavar="FILE", help="lines id,name: names of devices in --csv and in a script")
    add_cut_check(parser)


def perform(options: argparse.Namespace) -> int:
    writable(options.output, PICTURES)
    if options.csv:
        writable(options.csv)
    pyplot_ready()
    names = names_from(options.names) if options.names else {}
    parts = sections(options.files, ("program", "network", "script"))
    if len(parts) not in (2, 3):
        raise Fault(f"{len(parts)} sections: PROGRAM NETWORK and, to draw how far behind it is, SCRIPT")
    if len(parts) == 3:
        return perform_script(options, tuple(numbered(part, names) for part in parts))
    program, network = parts[0].text, parts[1].text
    numbers = list(dict.fromkeys(options.number or [1]))
    if options.rounds is not None:
        rounds.check_rounds(options.rounds)
    with Progress(lambda: "fc check --settle") as waiting:
        promise = rounds.promised(program, network, waiting)
    promised = results.Stable(promise.values, promise.verdict)
    tell(None, cut_warnings(options, Call(("check", "--settle"), parts), promised, names, 0.0))
    count = promise.time if options.rounds is None else options.rounds
    what = f"{len(numbers)} runs of {count:,} rounds on {len(promise.values):,} devices"
    with Progress(lambda: what) as waiting:
        found = rounds.curves(program, network, promise, numbers, count, options.workers, waiting, bool(options.csv))
    rounds.draw(promise, found, options.output, options.title)
    if options.csv:
        write(options.csv, table_of_rounds(found, names))
    for one in found:
        settled = one.settled(len(promise.values))
        bound = promise.verdict.rounds
        words = (one.number, "unsettled" if settled is None else settled, promise.time, "-" if bound is None else bound)
        write("-", " ".join(map(str, words)) + "\n")
    return 0


def perform_script(options: argparse.Namespace, parts: Sequence[Section]) -> int:
    """Draws how far behind the edits of a script the values are."""
    for name, option in NOT_OF_SCRIPTS.items():
        if getattr(options, name) is not None:
            raise Fault(f"{option} doesn't go with a script, which itself says what happens")
    network, lines = behind.judged(*parts)
    with Progress(lambda: f"runs the script on {len(network.devices):,} devices") as waiting:
        found = behind.stretches(parts[0].text, network, lines, options.workers, waiting)
    behind.draw(found, options.output, options.title)
    for one in found:
        words = (one.line, one.before, "-" if one.time is None else one.time, one.rounds, one.late)
        write("-", " ".join(map(str, words)) + "\n")
    return 0
