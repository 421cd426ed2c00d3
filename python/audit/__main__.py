"""Writes docs/audit.md: what to read to believe what `fc` promises, from the definitions as they stand.

It also looks for names with several meanings among these definitions, and fails where it finds one.
"""

from __future__ import annotations

import argparse
import sys

from gate.places import CRATES, TOP

from . import doubles
from .closure import Repository
from .page import Page

PAGE = TOP / "docs/audit.md"


def main() -> int:
    as_it_is = argparse.RawDescriptionHelpFormatter
    parser = argparse.ArgumentParser(prog="tools/audit", description=__doc__, formatter_class=as_it_is)
    parser.add_argument("--names", action="store_true", help="prints the names with several meanings, writes nothing")
    words = parser.parse_args()
    repository = Repository(CRATES)
    page = Page(repository)
    found = doubles.doubles(repository.rests_on([page.root]))
    if words.names:
        for name, files in found.items():
            print(f"{name}: {' '.join(files)}")
        return 0
    PAGE.write_text(page.write())
    for name, files in found.items():
        print(f"{name} has several meanings: {' '.join(files)}")
    return 1 if found else 0


if __name__ == "__main__":
    sys.exit(main())
