"""Makes the release of what ./build built: the proved program, the module, the page, and their checksums."""

from __future__ import annotations

import argparse
import sys

from . import made
from .library import Failed

EPILOG = """\
Call it last before a commit, once ./build or ./test has passed, and commit the folder release. With --compare it writes
nothing: it makes the release again, and compares."""


def compare() -> int:
    """Tells where the release isn't what the sources give, and returns a status."""
    told = [made.age()] if made.age() else [*made.differences()]
    for line in told:
        print(f"release: {line}")
    if not told:
        print("release: it is what the sources give, byte for byte")
    return 1 if told else 0


def make() -> int:
    """Makes the release, and tells what stands there."""
    made.make()
    for name in made.NAMES:
        file = made.FOLDER / name
        print(f"release: {name}, {file.stat().st_size:,} bytes, {made.digest(file)[:16]}")
    return 0


def main() -> int:
    as_it_is = argparse.RawDescriptionHelpFormatter
    parser = argparse.ArgumentParser(prog="tools/release", description=__doc__, epilog=EPILOG, formatter_class=as_it_is)
    parser.add_argument("--compare", action="store_true", help="compares the release with what the sources give")
    words = parser.parse_args()
    try:
        return compare() if words.compare else make()
    except Failed as failed:
        print(f"release: {failed}", file=sys.stderr)
        return 1


if __name__ == "__main__":
    sys.exit(main())
