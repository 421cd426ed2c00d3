"""`fieldc run`: rounds on several threads, edits, and what a script shows."""

from __future__ import annotations

import argparse

from .. import results
from ..asking import add_answers, add_cut_check, add_files, ask
from ..library import with_rounds
from ..refusals import Call

SUMMARY = "runs a script: rounds on several threads, edits, rubbish, and what to show"
KINDS = ("program", "network", "script")


def arguments(parser: argparse.ArgumentParser) -> None:
    add_files(parser, KINDS)
    parser.add_argument("--workers", metavar="N", type=int, default=4, help="threads that fire devices, 1 to 16 (4)")
    parser.add_argument("--log", action="store_true", help="adds the log of all steps")
    parser.add_argument("--table", action="store_true", help="adds the table of what the devices have published")
    add_cut_check(parser)
    add_answers(parser, values=True)


def perform(options: argparse.Namespace) -> int:
    words = ["run", "--workers", str(options.workers)] + ["--log"] * options.log + ["--table"] * options.table
    return ask(options, words, KINDS, read)[2]


def read(text: str, call: Call) -> results.Ran:
    """The run, with the rounds of its shows as the script says them."""
    return with_rounds(results.ran(text), call.sections[2].text)
