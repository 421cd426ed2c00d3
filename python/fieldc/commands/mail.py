"""`fieldc mail`: devices that hear of each other by messages alone."""

from __future__ import annotations

import argparse

from .. import results
from ..asking import add_answers, add_cut_check, add_files, ask

SUMMARY = "replays a log of messages, which links lose, repeat and deliver late, or makes one from a number"


def arguments(parser: argparse.ArgumentParser) -> None:
    add_files(parser, ("program", "network", "log"))
    parser.add_argument("--number", metavar="N", type=int, help="makes the log from this number; then no LOG is given")
    add_cut_check(parser)
    add_answers(parser, values=True)


def perform(options: argparse.Namespace) -> int:
    made = options.number is not None
    words = ["mail"] + (["--number", str(options.number)] if made else [])
    kinds = ("program", "network") if made else ("program", "network", "log")
    return ask(options, words, kinds, lambda text, _: results.mailed(text))[2]
