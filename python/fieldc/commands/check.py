"""`fieldc check`: whether a program stabilises, and after how many rounds."""

from __future__ import annotations

import argparse

from .. import results
from ..asking import add_answers, add_cut_check, add_files, ask
from ..diagnostics import diagnosed
from ..refusals import Fault
from . import settle

SUMMARY = "says whether a program stabilises, and after how many rounds"
KINDS = ("program", "network")


def arguments(parser: argparse.ArgumentParser) -> None:
    add_files(parser, KINDS)
    parser.add_argument("--facts", action="store_true", help="adds the facts of each node of the unfolded main")
    parser.add_argument("--settle", action="store_true", help="adds after how many rounds each device holds its value")
    settle.settle_arguments(parser)
    add_cut_check(parser)
    parser.add_argument(
        "--format",
        choices=("text", "gcc"),
        default="text",
        help="gcc: what is found as lines FILE:LINE:COLUMN: error: ..",
    )
    add_answers(parser)


def perform(options: argparse.Namespace) -> int:
    for name in ("from_table", "why", "changes", "confirm"):
        if getattr(options, name) and not options.settle:
            raise Fault(f"--{name.replace('_', '-')} needs --settle")
    words = ["check"] + ["--facts"] * options.facts
    if options.format == "gcc":
        if options.settle or options.facts or options.json or options.names:
            raise Fault("--format=gcc goes with no other option: an editor wants only what is wrong")
        return diagnosed(options.files, words)
    if options.settle:
        return settle.perform(options)
    return ask(options, words, KINDS, lambda text, _: results.checked(text))[2]
