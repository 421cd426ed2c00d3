"""`fieldc replay`: what each device holds after a log."""

from __future__ import annotations

import argparse

from .. import results
from ..asking import add_answers, add_cut_check, add_files, ask

SUMMARY = "replays a log, and writes what each device then holds"
KINDS = ("program", "network", "log")


def arguments(parser: argparse.ArgumentParser) -> None:
    add_files(parser, KINDS)
    parser.add_argument("--rounds", action="store_true", help="adds how many rounds the log has after its last edit")
    parser.add_argument("--table", action="store_true", help="adds the table of what the devices have published")
    add_cut_check(parser)
    add_answers(parser, values=True)


def perform(options: argparse.Namespace) -> int:
    words = ["replay"] + ["--rounds"] * options.rounds + ["--table"] * options.table
    return ask(options, words, KINDS, lambda text, _: results.replayed(text))[2]
