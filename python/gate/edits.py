"""The wrong bodies of the crates, each an edit that the proofs have to refuse, and what is known of each.

An edit is a file `wrong/CRATE/NAME.edit`, in the form in which `rt` reads edits: a line `file: PATH`, then pairs of
lines `old: TEXT` and `new: TEXT`. `wrong/tried.json` has a row for each that was tried: its checksum then, what it left
open, and in which file.
"""

from __future__ import annotations

import json
import random
import shutil
from collections.abc import Iterable, Iterator
from contextlib import contextmanager
from dataclasses import dataclass
from pathlib import Path

from .checksums import checksum
from .places import CRATES, TOP, WRONG

TRIED = WRONG / "tried.json"
# where `rt` looks for edits
TRYING = "must-fail"


@dataclass(frozen=True, order=True)
class Edit:
    """A wrong body of a crate."""

    crate: str
    name: str

    def __str__(self) -> str:
        return f"{self.crate}/{self.name}"

    @property
    def path(self) -> Path:
        """Its file."""
        return WRONG / self.crate / f"{self.name}.edit"

    def checksum(self) -> str:
        """The sum of all that it is tried against, as it stands now."""
        return checksum(self.crate, self.path.read_text())


@dataclass(frozen=True)
class Row:
    """What a try of an edit came to: its checksum then, what it left open, and in which file."""

    checksum: str
    left_open: str
    where: str


def standing() -> list[Edit]:
    """The edits of the repository."""
    return sorted(Edit(path.parent.name, path.stem) for path in WRONG.glob("*/*.edit"))


def read_rows() -> dict[Edit, Row]:
    """The rows of `tried.json`."""
    if not TRIED.exists():
        return {}
    found = json.loads(TRIED.read_text())
    return {Edit(*name.split("/")): Row(*row) for name, row in found.items()}


def text_of(rows: dict[Edit, Row]) -> str:
    """The text of `tried.json` with these rows: a line for each edit that stands in the repository."""
    known = [edit for edit in standing() if edit in rows]
    lines = [f"{json.dumps(str(edit))}: {json.dumps([*vars(rows[edit]).values()])}" for edit in known]
    return "{\n" + ",\n".join(lines) + "\n}\n"


def complaints(rows: dict[Edit, Row]) -> list[str]:
    """What is wrong with `tried.json` before anything is tried."""
    told = [f"{edit}: it was never tried (tools/wrong {edit.crate})" for edit in standing() if edit not in rows]
    if rows and TRIED.read_text() != text_of(rows):
        told.append(f"{TRIED.relative_to(TOP)} isn't what tools/wrong would write")
    return told


def changed(edits: Iterable[Edit], rows: dict[Edit, Row]) -> list[Edit]:
    """Those of some edits that have no row, or against which something has changed since they were tried."""
    return [edit for edit in edits if edit not in rows or rows[edit].checksum != edit.checksum()]


def sample(edits: Iterable[Edit], size: int, seed: str) -> list[Edit]:
    """So many of some edits, or all where these are fewer. The crates come in an order that the seed draws, each with
    all of its edits: the first edit of a crate costs as much as several others."""
    order = random.Random(seed)
    crates: dict[str, list[Edit]] = {}
    for edit in sorted(edits):
        crates.setdefault(edit.crate, []).append(edit)
    drawn = [edit for name in order.sample([*crates], len(crates)) for edit in crates[name]]
    return sorted(drawn[:size])


@contextmanager
def placed(edits: Iterable[Edit]) -> Iterator[None]:
    """Puts edits where `rt` tries them, and nothing else, for as long as it lasts."""
    clear()
    try:
        for edit in edits:
            folder = CRATES / edit.crate / TRYING
            folder.mkdir(exist_ok=True)
            shutil.copy(edit.path, folder)
        yield
    finally:
        clear()


def clear() -> None:
    """Takes away all edits from where `rt` tries them."""
    for folder in CRATES.glob(f"*/{TRYING}"):
        shutil.rmtree(folder)
