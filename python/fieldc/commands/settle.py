"""`fieldc settle`: after how many rounds each device of one network holds its value, and why it may stay open; or
between which values it stays while the network changes."""

from __future__ import annotations

import argparse

from .. import confirm, pace, results
from ..asking import add_answers, add_cut_check, add_files, ask
from ..refusals import Call, Fault, has_lark
from ..streams import say

SUMMARY = "says after how many rounds each device of this network holds its value"
EPILOG = """\
With --changes it says between which values each device stays, and after how many rounds, while the network changes as
the lines of the file allow. The lines are set, link, unlink, leave and join, as in scripts. A value may be 2..7 or any,
and lines may have patterns (fieldc changes --help)."""
KINDS = ("program", "network")


def arguments(parser: argparse.ArgumentParser) -> None:
    add_files(parser, KINDS)
    parser.add_argument("--facts", action="store_true", help="adds the facts of each node of the unfolded main")
    settle_arguments(parser)
    add_cut_check(parser)
    add_answers(parser, values=True)


def settle_arguments(parser: argparse.ArgumentParser) -> None:
    """The options that `check --settle` has too."""
    parser.add_argument(
        "--from-table",
        action="store_true",
        help="counts from the network's table and pending firings, as after an edit, instead of from every start",
    )
    why = "if it is open, looks for two starts that end at different values"
    parser.add_argument("--why", action="store_true", help=why)
    parser.add_argument(
        "--changes", metavar="FILE", help="a file of what may change: gives bounds that hold meanwhile, not values"
    )
    parser.add_argument(
        "--confirm", metavar="N", type=confirm.runs, help="with --changes: tries N random runs within the changes"
    )
    pace.arguments(parser)


def perform(options: argparse.Namespace) -> int:
    words = ["check"] + ["--facts"] * options.facts + ["--settle"] + ["--from-table"] * options.from_table
    if options.changes is not None:
        return bounds(options, words)
    if options.confirm is not None:
        raise Fault("--confirm needs --changes: it tries runs within them")
    call, found, status = ask(options, words, KINDS, lambda text, _: results.settled(text, options.from_table))
    why_open(options, call, found)
    return status


def bounds(options: argparse.Namespace, words: list[str]) -> int:
    """Asks for the bounds that hold while the network changes, tries them where that is wanted, and returns the
    status."""
    if options.why:
        raise Fault("--why is about settle rounds; with --changes there are bounds")
    if getattr(options, "kinds", None):
        raise Fault("--kinds is about values; with --changes there are bounds")
    call, found, status = ask(options, [*words, "--changes"], KINDS, lambda text, _: results.bounded(text))
    return status if options.confirm is None else confirm.perform(call, found, options.confirm) or status


def why_open(options: argparse.Namespace, call: Call, found: results.Settled) -> None:
    """Where a network is open, says for how many devices, and with `--why` looks for two starts that rest apart."""
    if not found.open:
        return
    count = sum(rounds is None for rounds in found.by_device.values())
    say(f"fieldc: open: no number of rounds is known for {count} of {len(found.by_device)} devices\n")
    if not options.why:
        say("try: fieldc settle --why, which looks for two starts that end at different values\n")
        return
    if not has_lark():
        raise Fault("--why needs Lark to read the program (Debian: python3-lark)")
    from .. import openness

    openness.perform(options, call)
