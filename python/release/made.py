"""The folder `release`: the proved program, the WebAssembly module with what calls it, the page, their checksums, and
from what they were made."""

from __future__ import annotations

import hashlib
import os
import shutil
from collections.abc import Iterator
from pathlib import Path

from fieldc.released import SOURCES, released_sum, sources, sum_of_sources
from gate.places import PROGRAM, TOP

from . import library, module, page
from .library import EMBED, Failed

FOLDER = TOP / "release"
SUMS = FOLDER / "SHA256SUMS"
NAMES = ("fc", "fc.mjs", "fc.wasm", "play.html")


def check_program() -> None:
    """Raises Failed if the program isn't built, or is older than a source."""
    if not os.access(PROGRAM, os.X_OK):
        raise Failed("fc isn't built (./build)")
    made = PROGRAM.stat().st_mtime_ns
    newer = next((path for path in sources(TOP) if path.stat().st_mtime_ns > made), None)
    if newer is not None:
        raise Failed(f"{newer.relative_to(TOP)} is newer than the program (./build)")


def origin() -> str:
    """From what a release is made now: the checksum of the sources, the toolchain, and the tool for the module."""
    return f"{sum_of_sources(TOP)}\n{library.identity()}\n{module.tool()}\n"


def digest(file: Path) -> str:
    """The checksum of a file."""
    return hashlib.sha256(file.read_bytes()).hexdigest()


def sums(folder: Path) -> str:
    """The checksums of a release, as sha256sum writes them."""
    return "".join(f"{digest(folder / name)}  {name}\n" for name in NAMES)


def make(folder: Path = FOLDER) -> None:
    """Makes the release of what is built; it takes the place of the old one once it is whole. Raises Failed."""
    check_program()
    before = origin()
    library.build()
    compiled = module.make()
    room = library.OUT / FOLDER.name
    shutil.rmtree(room, ignore_errors=True)
    room.mkdir()
    shutil.copy(PROGRAM, room / "fc")
    (room / "fc").chmod(0o755)
    shutil.copyfile(EMBED / "fc.mjs", room / "fc.mjs")
    shutil.copyfile(compiled, room / "fc.wasm")
    shutil.copyfile(page.make(compiled), room / "play.html")
    (room / SUMS.name).write_text(sums(room))
    (room / Path(SOURCES).name).write_text(before)
    if before != origin():
        raise Failed("the sources have changed meanwhile")
    shutil.rmtree(folder, ignore_errors=True)
    shutil.move(room, folder)


def is_of_these_sources() -> bool:
    """Whether the release says that it was made from today's sources, by the tools that are here."""
    return released_sum(TOP) == sum_of_sources(TOP) and (TOP / SOURCES).read_text() == origin()


def age() -> str:
    """What is to be said of a release that isn't of today's sources or tools; empty where it is."""
    if not (TOP / SOURCES).exists():
        return "there is no release (tools/release)"
    if released_sum(TOP) != sum_of_sources(TOP):
        return "the release is older than the sources (tools/release makes a new one)"
    return "" if is_of_these_sources() else "the release was made by other tools than those here"


def differences() -> Iterator[str]:
    """Where the release isn't what today's sources give, byte for byte. Raises Failed."""
    if SUMS.read_text() != sums(FOLDER):
        yield f"{SUMS.relative_to(TOP)} doesn't have the sums of the files beside it"
    library.build()
    compiled = module.make()
    made = {"fc": PROGRAM, "fc.mjs": EMBED / "fc.mjs", "fc.wasm": compiled, "play.html": page.make(compiled)}
    for name, file in made.items():
        if digest(FOLDER / name) != digest(file):
            yield f"release/{name} isn't what the sources give, which is {file.relative_to(TOP)}"
