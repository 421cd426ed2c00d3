"""Puts the blocks of the checkout's `library` into the installed package, beside what pyproject.toml says."""

from __future__ import annotations

import shutil
from pathlib import Path

from setuptools import setup
from setuptools.command.build_py import build_py

BLOCKS = Path(__file__).resolve().parent.parent / "library"


class WithBlocks(build_py):
    """Builds the package, and copies the blocks where they are there."""

    def run(self) -> None:
        super().run()
        if BLOCKS.is_dir():
            shutil.copytree(BLOCKS, Path(self.build_lib) / "fieldc" / "library", dirs_exist_ok=True)


setup(cmdclass={"build_py": WithBlocks})
