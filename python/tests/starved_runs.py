#!/usr/bin/env python3
"""Runs each command with each of its allocations failing in turn: it ends with the right text, or with 7 and no text.

The gate takes some of them (test_hardships.py); this takes all, or with --every N each Nth. It runs what the variable
FC names, which has to ask the C library for its memory, as the built program does.
"""

from __future__ import annotations

import argparse
import os
import subprocess
import sys
import tempfile
from collections.abc import Iterator
from concurrent.futures import ThreadPoolExecutor
from dataclasses import dataclass
from pathlib import Path

from helping import BUILT, HERE, HOPS, LINE

TABLE = (
    '{"devices":[{"id":0,"inputs":{"src":true}},{"id":1,"inputs":{"src":false}}],"links":[[0,1,1]],'
    '"table":{"format":2,"rows":[{"id":0,"kept":[[0,0],[4,0]],"value":0},{"id":1,"kept":[[0,9],[4,9]],"value":9}]}}\n'
)
SCRIPT = "scramble 7\nrun 2\nmix 2 set 0 src false\nlink 0 2 1\njoin 5 true\nlink 2 5 1\nrun 22\nshow\nleave 5\n"
CHANGES = "unlink 1 2\nset 2 src any\nleave 1\nlink 0 2 1\njoin 5 any\nlink 5 2 1\n"
LOG = "B0\nE0\nB1\nE1\nset 1 src true\nB1\nB2\nE2\nE1\n"
MAIL = "B0\nE0\nB1\nE1\nlose 0 1 0\nB0\nE0\nagain 0 1\ndeliver 1 2\nB1\nE1\n"
# words, and the sections of the input
COMMANDS = (
    ("check --facts", HOPS, LINE),
    ("check --settle", HOPS, LINE),
    ("check --settle --from-table", HOPS, TABLE),
    ("check --settle --changes", HOPS, LINE, CHANGES),
    ("check --settle --from-table --changes", HOPS, TABLE, "set 1 src any\nunlink 0 1\njoin 4 false\nlink 0 4 1\n"),
    ("check --settle --changes", HOPS, LINE, "leave 4\n"),
    ("check", HOPS, "{}"),
    ("stable", HOPS, LINE),
    ("trace", HOPS, LINE),
    ("run --table --workers 1", HOPS, LINE, SCRIPT),
    ("run --workers 4", HOPS, LINE, SCRIPT),
    ("replay --table --rounds", HOPS, LINE, LOG),
    ("mail", HOPS, LINE, MAIL),
    ("mail --number 3", HOPS, LINE),
    ("format", HOPS),
    ("gen 7 --devices 4 --workers 2",),
)


@dataclass(frozen=True)
class Ended:
    """How a run ended: its status, or the negative number of a signal; and what it wrote to either stream."""

    status: int
    output: bytes
    errors: bytes


class Starved:
    """Runs of a program in which one allocation finds no memory."""

    def __init__(self, program: Path, folder: Path) -> None:
        self.program = program
        self.folder = folder
        self.shim = folder / "starved.so"
        subprocess.run(["gcc", "-O1", "-shared", "-fPIC", "-o", self.shim, HERE / "starved.c"], check=True)

    def run(self, words: str, sections: tuple[str, ...], wanting: int) -> tuple[Ended, int]:
        """Runs a command in which the allocation of this number fails, and gives how many there were."""
        with tempfile.NamedTemporaryFile(dir=self.folder) as count:
            count.write(bytes(8))
            count.flush()
            variables = {"LD_PRELOAD": str(self.shim), "WANTING": str(wanting), "COUNT": count.name}
            done = subprocess.run(
                [self.program, *words.split()], input="%%\n".join(sections).encode(), capture_output=True,
                env=dict(os.environ, **variables), check=False, timeout=300,
            )  # fmt: skip
            asked = int.from_bytes(Path(count.name).read_bytes(), sys.byteorder)
        return Ended(done.returncode, done.stdout, done.stderr), asked

    def complaints(self, words: str, sections: tuple[str, ...], every: int) -> Iterator[str]:
        """What is wrong where each allocation fails whose number is 1, 1 + every, and so on."""
        right, asked = self.run(words, sections, 0)
        if not asked or right.status > 4 or right.errors:
            yield f"fc {words}: {right} with {asked} allocations"
        with ThreadPoolExecutor(os.cpu_count()) as pool:
            numbers = range(1, asked + 1, every)
            for number, (ended, _) in zip(numbers, pool.map(lambda n: self.run(words, sections, n), numbers)):
                if ended not in (right, Ended(7, b"", b"")):
                    yield f"fc {words}: without allocation {number} of {asked} it ends with {ended}"


def main() -> int:
    as_it_is = argparse.RawDescriptionHelpFormatter
    parser = argparse.ArgumentParser(description=__doc__, formatter_class=as_it_is)
    parser.add_argument("--every", metavar="N", type=int, default=1, help="takes each Nth allocation (each)")
    every = parser.parse_args().every
    failed = 0
    with tempfile.TemporaryDirectory() as folder:
        starved = Starved(Path(os.environ.get("FC", BUILT)), Path(folder))
        for words, *sections in COMMANDS:
            for complaint in starved.complaints(words, tuple(sections), every):
                print(complaint)
                failed += 1
            print(f"fc {words}: done", flush=True)
    return 1 if failed else 0


if __name__ == "__main__":
    sys.exit(main())
