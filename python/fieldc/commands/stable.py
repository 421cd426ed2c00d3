"""`fieldc stable`: the value to which each device stabilises."""

from __future__ import annotations

import argparse

from .. import results
from ..asking import add_answers, add_cut_check, add_files, ask

SUMMARY = "writes the final value of each device, without running the program"
KINDS = ("program", "network")


def arguments(parser: argparse.ArgumentParser) -> None:
    add_files(parser, KINDS)
    add_cut_check(parser)
    add_answers(parser, values=True)


def perform(options: argparse.Namespace) -> int:
    return ask(options, ["stable"], KINDS, lambda text, _: results.stable(text))[2]
