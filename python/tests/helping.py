"""What the tests share: where fc is, what is missing, and how the command is run."""

from __future__ import annotations

import importlib.util
import os
import re
import resource
import shutil
import subprocess
import sys
import unittest
from collections.abc import Callable
from dataclasses import dataclass
from pathlib import Path
from typing import Any, TypeVar

Test = TypeVar("Test", bound=Callable[..., Any])
HERE = Path(__file__).resolve().parent
TOP = HERE.parent.parent
EXAMPLES = TOP / "examples"
PATCHES = sorted((TOP / "docs" / "recipes").glob("*.patch"))
FIXED_WORK = "sum(number * number % 7 for number in range(10_000_000))"
BROWSERS = ("chromium", "chromium-browser", "google-chrome")

sys.path.insert(0, str(TOP / "python"))

from fieldc.released import BUILT as BUILT_THERE, proved_program  # noqa: E402

BUILT = proved_program(TOP) or TOP / BUILT_THERE
HOPS = "ceiling 10; input src: bool; main = rep(10){(d) => minHoodLoc(nbr{d} + 1, mux(sense src, 0, 10))};\n"
LINE = (
    '{"devices":[{"id":0,"inputs":{"src":true}},{"id":1,"inputs":{"src":false}},{"id":2,"inputs":{"src":false}}],'
    '"links":[[0,1,1],[1,2,1]]}\n'
)


def touched(patch: Path, before: str = "") -> list[str]:
    """The files that a patch touches, from the top; those that it makes, where they are `/dev/null` before."""
    return re.findall(rf"^--- .*{before}\n\+\+\+ b/(.+)$", patch.read_text(encoding="utf-8"), re.MULTILINE)


def made_by_patches() -> frozenset[str]:
    """The files that are there only with a patch of the recipes."""
    return frozenset(file for patch in PATCHES for file in touched(patch, "/dev/null"))


def missing_fc() -> str:
    """Says that fc isn't there, if it isn't."""
    if "FC" in os.environ or BUILT.exists():
        return ""
    return "fc isn't built (./build)"


def missing(*modules: str) -> str:
    """Says which of some modules aren't there."""
    absent = [name for name in modules if importlib.util.find_spec(name) is None]
    return ", ".join(f"{name} isn't there (Debian: python3-{name})" for name in absent)


def needs(*modules: str) -> Callable[[Test], Test]:
    """Skips a test where one of some modules is missing."""
    skips: Callable[[Test], Test] = unittest.skipIf(bool(missing(*modules)), missing(*modules))
    return skips


needs_fc = unittest.skipIf(bool(missing_fc()), missing_fc())


def browser() -> str | None:
    """A browser that is there."""
    return next((name for name in BROWSERS if shutil.which(name)), None)


needs_browser = unittest.skipIf(browser() is None, "no browser is there (Debian: chromium)")


@dataclass(frozen=True)
class Done:
    """How a run of the command ended."""

    status: int
    output: str
    errors: str


def fieldc(
    *words: object, text: str = "", folder: Path | None = None, seconds: float | None = None, **variables: str
) -> Done:
    """Runs the command in a process of its own, for at most so many seconds."""
    environment = dict(os.environ, PYTHONPATH=str(TOP / "python"), **variables)
    if "FC" not in environment and BUILT.exists():
        environment["FC"] = str(BUILT)
    done = subprocess.run(
        [sys.executable, "-B", "-m", "fieldc", *map(str, words)],
        input=text.encode("utf-8", "surrogateescape"), capture_output=True, cwd=folder, env=environment, check=False,
        timeout=seconds,
    )  # fmt: skip
    errors = done.stderr.decode("utf-8", "replace")
    return Done(done.returncode, done.stdout.decode("utf-8", "surrogateescape"), errors)


def used(work: Callable[[], object]) -> float:
    """The CPU seconds that the processes take that some work starts and ends."""
    before = resource.getrusage(resource.RUSAGE_CHILDREN)
    work()
    after = resource.getrusage(resource.RUSAGE_CHILDREN)
    return after.ru_utime + after.ru_stime - before.ru_utime - before.ru_stime


def fixed_work() -> float:
    """The CPU seconds that a fixed piece of work takes now: about one where nothing else runs, and more on a
    busy machine, as what is compared with it."""
    return used(lambda: subprocess.run([sys.executable, "-c", FIXED_WORK], check=True))


def sections_of(name: str) -> list[str]:
    """The sections of an example."""
    return [part.strip("\n") + "\n" for part in (EXAMPLES / name).read_text().split("\n%%\n")]


def expected(name: str) -> str:
    """What is expected of an example."""
    return (EXAMPLES / f"{name}.expected").read_text()


if "FC" not in os.environ and BUILT.exists():
    os.environ["FC"] = str(BUILT)
