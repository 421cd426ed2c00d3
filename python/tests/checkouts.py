"""Copies of the checkout with a stand-in for `rt`, to try `./build` and `./fc` without the toolchain."""

from __future__ import annotations

import shutil
import subprocess
from dataclasses import dataclass, field
from pathlib import Path

from helping import TOP, Done

from fieldc.released import sum_of_sources

PARTS = (
    "build", "fc", "crates.txt", "HANDLES", "README.md", "CHANGELOG.md", "CONTRIBUTING.md", "docs", "examples",
    "editors", "man", "completions", "library", "python/fieldc", "python/gate", "python/release",
)  # fmt: skip
FOLDERS = ("crates/fc_values", "crates/fc_answers", "crates/fc_program/src")
# what a program that was built answers, in its place
PROGRAM = '#!/bin/sh\necho "proved $*"\n'
# and what one in a release does
RELEASED = '#!/bin/sh\necho "released $*"\n'


@dataclass
class Checkout:
    """A copy of what `./build` and `./fc` read, in a folder of its own."""

    folder: Path
    variables: dict[str, str] = field(default_factory=dict)

    def __post_init__(self) -> None:
        self.folder.mkdir(exist_ok=True)
        for name in PARTS:
            if (TOP / name).is_dir():
                shutil.copytree(
                    TOP / name, self.folder / name, ignore=shutil.ignore_patterns("__pycache__", "pictures")
                )
            elif (TOP / name).exists():
                shutil.copy(TOP / name, self.folder / name)
        for name in FOLDERS:
            (self.folder / name).mkdir(parents=True)
        (self.folder / "tools").mkdir()

    def rt(self, script: str) -> None:
        """Puts a stand-in for `rt` on the PATH."""
        file = self.folder / "tools/rt"
        file.write_text("#!/usr/bin/env bash\n" + script)
        file.chmod(0o755)

    def built(self, text: str = PROGRAM) -> Path:
        """The program, as if it had been built."""
        file = self.folder / "crates/fc_program/out/fc_program"
        file.parent.mkdir(exist_ok=True)
        file.write_text(text)
        file.chmod(0o755)
        return file

    def released(self, text: str = RELEASED) -> Path:
        """A release, as if it had been made from the sources that stand there now."""
        file = self.folder / "release/fc"
        file.parent.mkdir(exist_ok=True)
        file.write_text(text)
        file.chmod(0o755)
        (file.parent / "SOURCES").write_text(f"{sum_of_sources(self.folder)}\nrattle\nwasm-opt\n")
        return file

    def run(self, name: str, *words: str, text: str = "") -> Done:
        """Runs a program of the checkout, where no other rt and no other fc is found."""
        path = f"{self.folder}/tools:/usr/bin:/bin"
        environment = {"PATH": path, "HOME": str(self.folder), "LC_ALL": "C.UTF-8", **self.variables}
        done = subprocess.run(
            [self.folder / name, *words], input=text, capture_output=True, text=True, check=False, env=environment,
            cwd=self.folder,
        )  # fmt: skip
        return Done(done.returncode, done.stdout, done.stderr)
