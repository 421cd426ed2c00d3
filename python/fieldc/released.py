"""The proved program of a checkout: the one that was built there, or the one of its release where that was made from
the same sources."""

from __future__ import annotations

import hashlib
import os
import platform
from functools import lru_cache
from pathlib import Path

BUILT = "crates/fc_program/out/fc_program"
RELEASED = "release/fc"
SOURCES = "release/SOURCES"
PARTS = ("src", "specs", "proofs")


def sources(checkout: Path) -> list[Path]:
    """The files that decide what a build gives, beside the toolchain."""
    of_crates = (path for part in PARTS for path in checkout.glob(f"crates/*/{part}/**/*") if path.is_file())
    return [checkout / "crates.txt", checkout / "HANDLES", *of_crates]


def sum_of_sources(checkout: Path) -> str:
    """The checksum of the sources, as `./fc` makes it too."""
    named = sorted((os.fsencode(path.relative_to(checkout)), path) for path in sources(checkout))
    lines = (b"%s  %s\n" % (hashlib.sha256(path.read_bytes()).hexdigest().encode(), name) for name, path in named)
    return hashlib.sha256(b"".join(lines)).hexdigest()


def released_sum(checkout: Path) -> str:
    """The checksum of the sources from which the release was made; empty where there is none."""
    try:
        return (checkout / SOURCES).read_text().split("\n")[0]
    except OSError:
        return ""


def runs_here() -> bool:
    """Whether the program of a release runs on this machine."""
    return (platform.system(), platform.machine()) == ("Linux", "x86_64")


@lru_cache(maxsize=None)
def proved_program(checkout: Path) -> Path | None:
    """The proved program of a checkout, or None if it is neither built nor in a release of these sources."""
    built, released = checkout / BUILT, checkout / RELEASED
    if os.access(built, os.X_OK):
        return built
    is_there = runs_here() and os.access(released, os.X_OK)
    return released if is_there and released_sum(checkout) == sum_of_sources(checkout) else None
