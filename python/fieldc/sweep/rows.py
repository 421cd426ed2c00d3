"""Rows of a sweep: what `fc` said of each deployment, in a file of separated values that grows as they come.

Rows stand in the order of their seeds and have nothing but what the question and the seed decide, so that a sweep has
one file, whatever asked it. How long `fc` took stands in a file of its own beside it.
"""

from __future__ import annotations

import csv
import json
import math
import os
from collections.abc import Callable, Iterator, Mapping, Sequence
from contextlib import contextmanager
from dataclasses import dataclass
from pathlib import Path

from ..program import bytes_of
from ..refusals import Fault
from ..results import verdict_of
from ..sections import read, write

COLUMNS = ("seed", "devices", "links", "components", "diameter", "verdict", "K", "R", "last", "last_rounds")
OPEN = "open"


@dataclass(frozen=True)
class Row:
    """What is known of the deployment of a seed.

    `verdict` is `yes`, `no PLACE REASON`, or the line with which `fc` refused this network (`limit degree 33`). `bound`
    is the K of a yes. `rounds` is the settle time R, and None if the network is open or was refused. `last` is the
    device that is known last, the smallest of several, or one without a settle round; `last_rounds` is its settle
    round, if it has one. `values` are those of the devices, in ascending order, as `fc` writes them, where they were
    asked for.
    """

    seed: int
    devices: int
    links: int
    components: int
    diameter: int
    verdict: str
    bound: int | None = None
    rounds: int | None = None
    last: int | None = None
    last_rounds: int | None = None
    values: tuple[str, ...] = ()

    @property
    def refused(self) -> bool:
        """Whether `fc` refused this network."""
        return self.verdict.split(" ")[0] not in ("yes", "no")

    @property
    def open(self) -> bool:
        """Whether no number of rounds is known for some device."""
        return self.rounds is None and not self.refused


def row_of(shape: tuple[int, int, int, int, int], settling: Sequence[str], values: Sequence[str]) -> Row:
    """The row of what `check --settle` wrote of a network of this seed, devices, links, components and diameter.

    The lines are the verdict, `settles R` or `open`, and one for each device. Raises Fault if they aren't.
    """
    try:
        verdict = verdict_of(settling[0])
        rounds = None if settling[1] == OPEN else int(settling[1].removeprefix("settles "))
        last, late = min((_lateness(line) for line in settling[2:]), key=lambda found: (-found[1], found[0]))
    except (IndexError, ValueError):
        raise Fault(f"fc doesn't answer like check --settle: {settling[:2]}") from None
    word = "yes" if verdict.stabilises else verdict.line
    return Row(*shape, word, verdict.rounds, rounds, last, None if late == math.inf else int(late), tuple(values))


def _lateness(line: str) -> tuple[int, float]:
    """A device, and its settle round, without end where it has none."""
    device, rounds, *_ = line.split(" ")
    return int(device), math.inf if rounds == "-" else int(rounds)


# ---- rows as text --------------------------------------------------------------------------------------------------


def header(values: bool) -> str:
    """The first line of a file of rows."""
    return ",".join([*COLUMNS, *["values"] * values]) + "\n"


def line_of(row: Row, values: bool) -> str:
    """The line of a row."""
    rounds = OPEN if row.open else row.rounds
    parts = [row.seed, row.devices, row.links, row.components, row.diameter, row.verdict, row.bound, rounds]
    words = ["" if part is None else str(part) for part in [*parts, row.last, row.last_rounds]]
    listed = " ".join(row.values)
    words += [f'"{listed}"' if "," in listed else listed] * values
    return ",".join(words) + "\n"


def rows_of(text: str, name: str) -> list[Row]:
    """The rows of a text. Raises Fault, which names the file, if there is another line."""
    reader = csv.DictReader(text.splitlines())
    try:
        return [_row(one) for one in reader]
    except (KeyError, ValueError, TypeError, AttributeError):
        raise Fault(f"{name} line {reader.line_num}: this is no row of a sweep", 3) from None


def _row(one: Mapping[str, str]) -> Row:
    def number(name: str) -> int | None:
        return int(one[name]) if one[name] else None

    seed, devices, links, components, diameter = (int(one[name]) for name in COLUMNS[:5])
    rounds = None if one["R"] == OPEN else number("R")
    values = tuple((one.get("values") or "").split())
    known = (one["verdict"], number("K"), rounds, number("last"), number("last_rounds"), values)
    return Row(seed, devices, links, components, diameter, *known)


# ---- the files -----------------------------------------------------------------------------------------------------


@dataclass(frozen=True)
class Files:
    """The three files of a sweep: the rows, how long `fc` took for each, and what the sweep is."""

    rows: Path
    seconds: Path
    sweep: Path


def files_of(name: str) -> Files:
    """The files of a sweep by the name of its rows: `ROWS.csv`, `ROWS.seconds.csv`, and `ROWS.sweep.json`."""
    path = Path(name)
    return Files(path, path.with_suffix(".seconds.csv"), path.with_suffix(".sweep.json"))


def taken_up(files: Files, sweep: Mapping[str, object], values: bool) -> int:
    """How many rows are there already. New files are begun; what was written of a row in part is taken away.

    Raises Fault if the rows are of another sweep than this one, or a file can't be read or written.
    """
    if not files.rows.exists():
        write(str(files.sweep), json.dumps(sweep, indent=1) + "\n")
        write(str(files.seconds), "seed,seconds\n")
        write(str(files.rows), header(values))
        return 0
    _same(files, sweep)
    kept = [_whole_lines(path) for path in (files.rows, files.seconds)]
    count = min(len(lines) for lines in kept)
    for path, lines in zip((files.rows, files.seconds), kept):
        _cut(path, sum(len(line) for line in lines[:count]))
    if not count:
        raise Fault(f"{files.rows} exists but has no rows of a sweep: choose another file", 3)
    return count - 1


def _same(files: Files, sweep: Mapping[str, object]) -> None:
    """Refuses rows of another sweep."""
    try:
        found = json.loads(files.sweep.read_text())
    except (OSError, ValueError):
        raise Fault(
            f"{files.rows} exists, but {files.sweep} doesn't say of which sweep: choose another file", 3
        ) from None
    wanted = json.loads(json.dumps(sweep))
    other = [name for name in wanted if not isinstance(found, dict) or found.get(name) != wanted[name]]
    if other:
        raise Fault(f"{files.rows} has rows of another sweep, with another {other[0]}: choose another file", 3)


def _whole_lines(path: Path) -> list[bytes]:
    """The lines of a file that have their ends."""
    content = bytes_of(read(str(path))) if path.exists() else b""
    return content[: content.rfind(b"\n") + 1].splitlines(keepends=True)


def _cut(path: Path, length: int) -> None:
    try:
        os.truncate(path, length)
    except OSError as error:
        raise Fault(f"{path} can't be written: {error.strerror}", 6) from None


@contextmanager
def growing(path: Path) -> Iterator[Callable[[str], None]]:
    """Gives a function that appends a text to a file, at once. Raises Fault, of status 6, if that fails."""
    try:
        opened = path.open("ab", buffering=0)
    except OSError as error:
        raise Fault(f"{path} can't be written: {error.strerror}", 6) from None

    def put(text: str) -> None:
        left = memoryview(text.encode())
        try:
            while left:
                left = left[opened.write(left) or 0 :]
        except OSError as error:
            raise Fault(f"{path} can't be written: {error.strerror}", 6) from None

    with opened:
        yield put
