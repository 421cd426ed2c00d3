"""`fieldc format`: the canonical text of a program."""

from __future__ import annotations

import argparse

from ..asking import add_answers, add_files, ask

SUMMARY = "writes a program in its standard layout, or says what is wrong with it and where"


def arguments(parser: argparse.ArgumentParser) -> None:
    add_files(parser, ("program",))
    add_answers(parser, names=False)


def perform(options: argparse.Namespace) -> int:
    return ask(options, ["format"], ("program",), lambda text, _: text)[2]
