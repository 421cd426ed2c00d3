"""The stages of `./test`: each gives how many checks passed and how many failed."""

from __future__ import annotations

import os
import re
import subprocess
import time
from collections.abc import Callable, Iterable
from concurrent.futures import ThreadPoolExecutor
from dataclasses import dataclass
from pathlib import Path

from fieldc.released import proved_program
from release import library, made, module

from . import edits
from .edits import Edit, Row
from .places import TOP
from .refusals import Try, read_log

PYTHON = "/usr/bin/python3"
TESTS = TOP / "python/tests"
CONFORMANCE = TOP / "conformance/run.py"
COUNTS = re.compile(r"(\d+) passed, (\d+) failed")
SAMPLE = 12
# the tests of the library and of the page, of which ./test has the toolchain build what they want
OF_LIBRARY = ("test_embedded", "test_page", "test_page_changes", "test_page_looks")
# the modules that take longest, which begin first
LONG = (*OF_LIBRARY, "test_sweep", "test_blocks", "test_pages", "test_picture", "test_stable_in_time")


@dataclass(frozen=True)
class Counts:
    """How many checks of a stage passed, and how many failed."""

    passed: int = 0
    failed: int = 0

    def __add__(self, other: Counts) -> Counts:
        return Counts(self.passed + other.passed, self.failed + other.failed)


def say(line: str) -> None:
    """A line of the gate's own."""
    print(f"test: {line}", flush=True)


def failures(told: Iterable[str]) -> Counts:
    """Tells of failures, and counts them."""
    lines = list(told)
    for line in lines:
        say(line)
    return Counts(0, len(lines))


def counted(text: str) -> Counts:
    """What the last line of a tool says that counts; one failure where none does."""
    found = COUNTS.findall(text)
    return Counts(*map(int, found[-1])) if found else Counts(0, 1)


# --- proofs and wrong bodies ----------------------------------------------------------------------------------------


def commit() -> str:
    """The name of the commit that is tested."""
    done = subprocess.run(["git", "rev-parse", "HEAD"], cwd=TOP, capture_output=True, text=True, check=False)
    return done.stdout.strip()


def proofs(prove: Callable[[], list[str]]) -> Counts:
    """Has all crates proved by a call that gives the lines which `rt` wrote, and with them some wrong bodies tried:
    those against which something has changed since they were tried, and a sample of the others."""
    rows = edits.read_rows()
    new = edits.changed(edits.standing(), rows)
    old = edits.sample({*edits.standing()} - {*new}, SAMPLE, commit())
    say(f"wrong bodies: tries {len(new)} that changed, and of the others {', '.join(map(str, old)) or 'none'}")
    with edits.placed([*new, *old]):
        lines = prove()
    tries = read_log(lines)
    told = [*edits.complaints(rows), *unrefused([*new, *old], tries), *differing(old, rows, tries)]
    return counted("".join(lines[-1:])) + failures(told)


def unrefused(chosen: list[Edit], tries: dict[Edit, Try]) -> list[str]:
    """What to say of the edits of which nothing is known, or that weren't refused."""
    unknown = [f"{edit}: it was not tried" for edit in chosen if edit not in tries]
    bad = [f"{edit}: {tries[edit].left_open}" for edit in chosen if edit in tries and not tries[edit].is_refused]
    return unknown + bad


def differing(chosen: list[Edit], rows: dict[Edit, Row], tries: dict[Edit, Try]) -> list[str]:
    """What to say of edits that left open something else than their rows tell."""
    seen = [(edit, rows[edit], tries[edit]) for edit in chosen if edit in tries and tries[edit].is_refused]
    return [
        f"{edit}: it left open {seen.left_open} {seen.where}, and wrong/tried.json says {row.left_open} {row.where}"
        for edit, row, seen in seen
        if (row.left_open, row.where) != (seen.left_open, seen.where)
    ]


# --- the library and the release --------------------------------------------------------------------------------------


def built_library() -> Counts:
    """Has the library and the WebAssembly module built, for their tests and for the release."""
    try:
        library.build()
        module.make()
    except library.Failed as failed:
        return failures([f"the library: {failed}"])
    return Counts(2, 0)


def release() -> Counts:
    """Whether the release is what its sources give, where these are today's; an older one is told of, and passes."""
    try:
        if why := made.age():
            say(f"{why}; nothing is compared")
            return Counts()
        told = failures(made.differences())
    except library.Failed as failed:
        return failures([f"the release: {failed}"])
    return told if told.failed else Counts(len(made.NAMES), 0)


# --- what needs the program -----------------------------------------------------------------------------------------


def program() -> Path | None:
    """The program that is tested: what the variable FC names, else the one that was built, else that of the release."""
    named = Path(os.environ["FC"]) if "FC" in os.environ else proved_program(TOP)
    return named if named and named.exists() else None


def conformance(fc: Path) -> Counts:
    """Runs the conformance cases."""
    done = subprocess.run([PYTHON, "-B", CONFORMANCE, fc], stdout=subprocess.PIPE, text=True, check=False)
    print(done.stdout, end="", flush=True)
    return counted(done.stdout)


def modules() -> list[str]:
    """The modules of the tests, those that take longest first. Those of the library and of the page want it built."""
    found = sorted(path.stem for path in TESTS.glob("test_*.py"))
    found = [name for name in found if name not in OF_LIBRARY or library.is_there()]
    return sorted(found, key=lambda name: name not in LONG)


def tests(fc: Path, names: list[str]) -> Counts:
    """Runs modules of tests side by side, and shows what those say that fail."""
    with ThreadPoolExecutor(len(os.sched_getaffinity(0))) as pool:
        return sum(pool.map(lambda name: test(fc, name), names), Counts())


def tests_with_library(fc: Path) -> Counts:
    """Runs all modules of tests. The library, which takes one processor, is built beside those that don't want it."""
    with ThreadPoolExecutor(1) as pool:
        built = pool.submit(built_library)
        counts = tests(fc, [name for name in modules() if name not in OF_LIBRARY])
        counts += built.result()
    return counts + tests(fc, [name for name in modules() if name in OF_LIBRARY])


def test(fc: Path, name: str) -> Counts:
    """Runs a module, class or test in a process of its own."""
    start = time.monotonic()
    done = subprocess.run(
        [PYTHON, "-B", TESTS / "all.py", name], env=dict(os.environ, FC=str(fc)), stdin=subprocess.DEVNULL,
        stdout=subprocess.PIPE, stderr=subprocess.STDOUT, text=True, errors="replace", check=False,
    )  # fmt: skip
    counts = counted(done.stdout)
    shown = done.stdout if counts.failed or done.returncode else "".join(done.stdout.splitlines(keepends=True)[-1:])
    print(f"== {name}, {time.monotonic() - start:.0f} s\n{shown}", end="", flush=True)
    return counts if counts.failed or not done.returncode else counts + Counts(0, 1)
