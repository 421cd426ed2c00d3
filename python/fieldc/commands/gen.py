"""`fieldc gen`: a scenario that is made from a number."""

from __future__ import annotations

import argparse

from .. import results
from ..asking import add_answers, ask

SUMMARY = "runs a scenario made from a number: a hop count on a ring of devices that hold rubbish"


def arguments(parser: argparse.ArgumentParser) -> None:
    parser.add_argument("number", metavar="NUMBER", type=int, help="the number of the scenario")
    parser.add_argument("--devices", metavar="D", type=int, default=64, help="devices of the ring, 3 to 512 (64)")
    parser.add_argument("--workers", metavar="N", type=int, default=4, help="threads that fire devices, 1 to 16 (4)")
    add_answers(parser, names=False)


def perform(options: argparse.Namespace) -> int:
    options.files = []
    words = ["gen", str(options.number), "--devices", str(options.devices), "--workers", str(options.workers)]
    return ask(options, words, (), lambda text, _: results.generated(text))[2]
