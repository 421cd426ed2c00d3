"""`fieldc trace`: a least walk for each device."""

from __future__ import annotations

import argparse

from .. import results
from ..asking import add_answers, add_cut_check, add_files, ask

SUMMARY = "writes for each device its final value and a cheapest path"
KINDS = ("program", "network")


def arguments(parser: argparse.ArgumentParser) -> None:
    add_files(parser, KINDS)
    add_cut_check(parser)
    add_answers(parser, values=True)


def perform(options: argparse.Namespace) -> int:
    return ask(options, ["trace"], KINDS, lambda text, _: results.traced(text))[2]
