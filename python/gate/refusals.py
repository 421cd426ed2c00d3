"""Reads what `rt` says of the edits that it tried."""

from __future__ import annotations

import re
from collections.abc import Iterable
from dataclasses import dataclass

from .edits import Edit

TRIED = re.compile(r"rt: must-fail (?P<crate>\w+)/(?P<edit>[\w.-]+)\.edit: (?P<said>.*)")
REFUSED = "refused, as it must be"
OPEN = re.compile(r"note: (?P<file>src/[\w/.]+):\d+:\d+: .*?\(`(?P<goal>[^`]+)`\)")
BROKEN = re.compile(r"note: (?P<file>src/[\w/.]+):\d+:\d+: it is not proved that the `invariant` of the struct")
ANSWER = re.compile(r"(?:\./)?(?P<file>proofs/[\w/+.]+\.antt):\d+:\d+: error: `(?P<goal>[^`]+)`")


@dataclass(frozen=True)
class Try:
    """What a try of an edit came to: whether the proofs refuse it, what it left open, and in which file."""

    is_refused: bool
    left_open: str
    where: str


def read(said: str) -> Try:
    """What `rt` says of one edit."""
    is_refused = said.startswith(REFUSED)
    if is_refused and (found := OPEN.search(said)):
        return Try(True, found["goal"], found["file"])
    if is_refused and (found := BROKEN.search(said)):
        return Try(True, "the invariant of the struct", found["file"])
    if is_refused and (found := ANSWER.search(said)):
        return Try(True, f"{found['goal']}, whose answer no longer fits", found["file"])
    return Try(is_refused, said.removeprefix(REFUSED).lstrip(": ")[:80], "")


def read_log(lines: Iterable[str]) -> dict[Edit, Try]:
    """What the lines of `rt` say of edits; the last line of an edit counts."""
    found = (TRIED.match(line) for line in lines)
    return {Edit(it["crate"], it["edit"]): read(it["said"]) for it in found if it}
