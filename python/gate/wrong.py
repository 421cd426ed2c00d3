"""Tries the wrong bodies of the crates, each of which the proofs have to refuse, and keeps what they left open."""

from __future__ import annotations

import argparse
import subprocess
import sys
from collections.abc import Iterator
from itertools import groupby

from . import edits
from .edits import Edit, Row
from .places import TOP
from .refusals import Try, read_log

EPILOG = """\
With no words it tries the edits that were never tried, and those for which something has changed: the edit, a file of
its crate, or the definitions or public lines of a crate that its crate names. It keeps the results in
wrong/tried.json."""


def must_fail(chosen: list[Edit]) -> Iterator[str]:
    """Has `rt` try some edits, and gives the lines that it writes."""
    crates = sorted({edit.crate for edit in chosen})
    with edits.placed(chosen):
        rt = subprocess.Popen(
            ["rt", "must-fail", *crates], cwd=TOP, stdin=subprocess.DEVNULL, stdout=subprocess.PIPE,
            stderr=subprocess.STDOUT, encoding="utf-8", errors="replace",
        )  # fmt: skip
        for line in rt.stdout or ():
            print(line, end="", flush=True)
            yield line
        rt.wait()


def rows_of(tries: dict[Edit, Try]) -> dict[Edit, Row]:
    """The rows of the edits that were refused."""
    return {edit: Row(edit.checksum(), it.left_open, it.where) for edit, it in tries.items() if it.is_refused}


def keep(rows: dict[Edit, Row]) -> None:
    """Writes the rows."""
    edits.TRIED.write_text(edits.text_of(rows))


def try_them(chosen: list[Edit]) -> int:
    """Tries some edits, keeps their rows, and gives how many were not refused."""
    if not chosen:
        print("no edit is to be tried")
        return 0
    rows = edits.read_rows()
    tries = read_log(must_fail(chosen))
    missed = [edit for edit in chosen if edit not in tries or not tries[edit].is_refused]
    keep({edit: row for edit, row in rows.items() if edit not in missed} | rows_of(tries))
    for edit in missed:
        print(f"{edit}: NOT REFUSED: {tries[edit].left_open if edit in tries else 'rt says nothing of it'}")
    print(f"{len(chosen) - len(missed)} passed, {len(missed)} failed")
    return len(missed)


def show() -> None:
    """Prints for each crate what its wrong bodies left open."""
    rows = edits.read_rows()
    for crate, found in groupby(edits.standing(), key=lambda edit: edit.crate):
        print(crate)
        for edit in found:
            row = rows.get(edit)
            said = f"{row.left_open} {row.where}" if row else "not tried"
            print(f"    {edit.name.replace('_', ' ')}: {said.strip()}")


def wanted(words: argparse.Namespace) -> list[Edit]:
    """The edits that are to be tried."""
    every = [edit for edit in edits.standing() if not words.crates or edit.crate in words.crates]
    return every if words.all or words.crates else edits.changed(every, edits.read_rows())


def main() -> int:
    as_it_is = argparse.RawDescriptionHelpFormatter
    parser = argparse.ArgumentParser(prog="tools/wrong", description=__doc__, epilog=EPILOG, formatter_class=as_it_is)
    parser.add_argument("crates", metavar="CRATE", nargs="*", help="tries all edits of these crates")
    parser.add_argument("--all", action="store_true", help="tries all edits, which takes an hour or two")
    parser.add_argument("--list", action="store_true", help="prints what each edit left open, and tries none")
    words = parser.parse_args()
    unknown = sorted({*words.crates} - {edit.crate for edit in edits.standing()})
    if unknown:
        parser.error(f"there are no edits of {', '.join(unknown)}")
    if words.list:
        show()
        return 0
    return 1 if try_them(wanted(words)) else 0


if __name__ == "__main__":
    sys.exit(main())
