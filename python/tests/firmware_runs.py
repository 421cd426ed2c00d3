#!/usr/bin/env python3
"""Runs random programs as firmware and by `fc`, over random networks and logs, and compares the values of all firings.

It runs what the variable FC names.
"""

from __future__ import annotations

import argparse
import importlib
import subprocess
import sys
import tempfile
import time
from collections.abc import Iterator, Sequence
from concurrent.futures import ThreadPoolExecutor
from dataclasses import dataclass
from pathlib import Path
from typing import Any

import helping
from firmware_driver import Compiler, compiled, driven, quick, written
from firmware_logs import Run, mailed, replayed
from firmware_programs import TELLING, Made, made

from fieldc import program as fc
from fieldc.firmware import Firmware, firmware_of
from fieldc.language import reading
from fieldc.refusals import Call, Section


@dataclass(frozen=True)
class Case:
    """A program with its firmware and its runs."""

    seed: str
    made: Made
    firmware: Firmware
    runs: tuple[Run, ...]


def made_of(text: str, firmware: Firmware) -> Made:
    """What a network needs of a program that was read."""
    inputs = {
        one.name: (one.bounds[0][0], one.bounds[1][0]) if one.bounds else None for one in firmware.unfolded.inputs
    }
    return Made(text, firmware.known.ceiling, inputs, firmware.unfolded.metric)


def case_of(seed: str, text: str, number: int, firings: int) -> Case:
    """The case of a program."""
    firmware = firmware_of(text, f"p{number}", (4, 8, 16, 32)[number % 4])
    given = made_of(text, firmware)
    return Case(seed, given, firmware, (mailed(given, firmware, seed, firings), replayed(given, seed, firings)))


def asked(case: Case, run: Run) -> str:
    """What `fc` writes of a run: the values of all devices."""
    parts = (("program", case.made.text), ("network", run.network), ("log", run.log))
    call = Call((run.command,), tuple(Section(kind, "", 1, text) for kind, text in parts))
    text = fc.answered(call).text
    return text if run.command == "replay" else text[: text.rindex("rounds")]


def compared(cases: Sequence[Case], compilers: Sequence[Compiler], folder: Path, name: str) -> int:
    """Compares all runs of some cases; answers how many firings were compared. Fails with the first difference."""
    path = written([case.firmware for case in cases], folder, name)
    runs = [(place, case, run) for place, case in enumerate(cases) for run in case.runs]
    actions = "".join(f"p {place}\n{run.actions}e\n" for place, _, run in runs)
    with ThreadPoolExecutor() as pool:
        answers = pool.map(lambda one: driven(compiled(path, one), actions, one.runner), compilers)
        wanted = [asked(case, run) for _, case, run in runs]
        for compiler, found in zip(compilers, answers):
            if len(found) != len(wanted):
                raise AssertionError(f"{compiler.command}: {len(found)} answers")
            for (_, case, run), mine, its in zip(runs, found, wanted):
                if mine != its:
                    raise AssertionError(
                        f"{compiler.command}, seed {case.seed}, {run.command}:\n{case.made.text}\n{run.network}\n"
                        f"{run.log}\nfc: {its}\nfirmware: {mine}"
                    )
    return sum(line.startswith("B") for _, _, run in runs for line in run.log.splitlines())


def conformance() -> Any:
    """The module that reads the conformance cases."""
    sys.path.insert(0, str(helping.TOP / "conformance"))
    return importlib.import_module("run")


def programs_of_cases() -> Iterator[tuple[str, str]]:
    """The programs of the conformance cases that can be read, each once."""
    found: dict[str, str] = {}
    for case in conformance().read_all():
        text = fc.text_of((case.sections or [b""])[0])
        if reading(text).fault is None:
            found.setdefault(text, case.name)
    for text, name in found.items():
        yield name, text


def programs(first: int, count: int, of_cases: bool) -> Iterator[tuple[str, str]]:
    """The programs: those of the conformance cases, if they are wanted, and then random ones."""
    if of_cases:
        yield from ((f"telling {place}", text) for place, text in enumerate(TELLING))
        yield from programs_of_cases()
    for seed in range(first, first + count):
        yield str(seed), made(seed).text


def batches(found: Iterator[tuple[str, str]], size: int, firings: int) -> Iterator[list[Case]]:
    """The cases, so many in one C file."""
    batch: list[Case] = []
    for seed, text in found:
        batch.append(case_of(seed, text, len(batch), firings))
        if len(batch) == size:
            yield batch
            batch = []
    if batch:
        yield batch


def compiler_of(name: str, words: argparse.Namespace) -> Compiler:
    """A compiler as the command line has it."""
    if words.runner:
        return Compiler(name, ("-O2", "-static"), tuple(words.runner.split()))
    if words.plain:
        return Compiler(name, ("-O2",))
    return quick(name, words.level)


def main() -> int:
    parser = argparse.ArgumentParser(description=__doc__, formatter_class=argparse.RawDescriptionHelpFormatter)
    parser.add_argument("--seed", type=int, default=1, help="of the first program (1)")
    parser.add_argument("--count", type=int, default=20_000, help="how many random programs (20000)")
    parser.add_argument("--batch", type=int, default=100, help="programs in one C file (100)")
    parser.add_argument("--firings", type=int, default=10, help="firings of a run (10)")
    parser.add_argument(
        "--cases",
        action="store_true",
        help="takes the programs of the conformance cases too, first, and some that tell much",
    )
    parser.add_argument("--compiler", nargs="*", default=["gcc", "clang"], help="compilers (gcc and clang)")
    parser.add_argument("--plain", action="store_true", help="without sanitizers")
    parser.add_argument("--level", type=int, default=2, help="of optimisation, with sanitizers (2)")
    parser.add_argument("--runner", default="", help="what runs the program that is compiled, such as qemu-arm")
    words = parser.parse_args()
    compilers = [compiler_of(name, words) for name in words.compiler]
    start, done, firings = time.monotonic(), 0, 0
    for batch in batches(programs(words.seed, words.count, words.cases), words.batch, words.firings):
        with tempfile.TemporaryDirectory() as folder:
            firings += compared(batch, compilers, Path(folder), "all")
        done += len(batch)
        spent = time.monotonic() - start
        print(f"{done} programs, up to {batch[-1].seed}, {firings} firings, {spent:.0f} s", flush=True)
    return 0


if __name__ == "__main__":
    try:
        sys.exit(main())
    except (AssertionError, subprocess.SubprocessError) as error:
        print(error)
        sys.exit(1)
