"""The recipes: each patch applies to these sources, and touches the files that its page names."""

from __future__ import annotations

import re
import subprocess
import unittest
from fnmatch import fnmatchcase
from pathlib import Path

from helping import PATCHES, TOP, touched

ITEM = re.compile(r"^- (.*)$", re.MULTILINE)
CRATE = re.compile(r"`(\w+)`")
FILE = re.compile(r"`([^`\s]*[./][^`\s]*)`")


def applies(patch: Path, *words: str) -> str:
    """What `git` says against applying a patch."""
    command = ["git", "apply", "--check", *words, str(patch)]
    return subprocess.run(command, cwd=TOP, capture_output=True, text=True, check=False).stderr


def named(patch: Path) -> set[str]:
    """The files that the page of a patch names as those to change, from the top; or patterns of them."""
    found: set[str] = set()
    for part in patch.with_suffix(".md").read_text(encoding="utf-8").split("\n## "):
        for said in ITEM.findall(part):
            if part.startswith("The crates\n"):
                crate = CRATE.match(said)
                assert crate is not None, said
                found |= {f"crates/{crate[1]}/{file}" for file in FILE.findall(said)}
            elif part.startswith("Outside the crates\n"):
                found |= set(FILE.findall(said)) - {"tools/pages"}
    return found


class Recipes(unittest.TestCase):
    def test_there_are_three(self) -> None:
        self.assertEqual([patch.stem for patch in PATCHES], ["builtin", "command", "option"])

    def test_the_patches_apply(self) -> None:
        """Where one has been applied already, it can be taken back, and others may meet its lines."""
        if any(applies(patch, "--reverse") == "" for patch in PATCHES):
            return
        for patch in PATCHES:
            with self.subTest(patch=patch.name):
                self.assertEqual(applies(patch), "")

    def test_the_pages_name_what_the_patches_touch(self) -> None:
        for patch in PATCHES:
            with self.subTest(patch=patch.name):
                files, patterns = touched(patch), named(patch)
                self.assertGreater(len(files), 40)
                self.assertEqual([one for one in files if not any(fnmatchcase(one, like) for like in patterns)], [])
                self.assertEqual([like for like in patterns if not any(fnmatchcase(one, like) for one in files)], [])


if __name__ == "__main__":
    unittest.main()
