"""Types and layout of all Python code: Debian's mypy, strictly, and flake8 find nothing in this folder."""

from __future__ import annotations

import subprocess
import sys
import tempfile
import unittest
from pathlib import Path

from helping import HERE

FOLDER = HERE.parent


def findings(tool: str, *words: str) -> str:
    """What a tool writes where it isn't content: of files, or of all that stands here, with the settings that do."""
    done = subprocess.run([sys.executable, "-m", tool, *words], cwd=FOLDER, capture_output=True, text=True, check=False)
    return done.stdout + done.stderr if done.returncode else ""


class Quality(unittest.TestCase):
    def test_types(self) -> None:
        self.assertEqual(findings("mypy", "--no-error-summary"), "")

    def test_layout(self) -> None:
        self.assertEqual(findings("flake8"), "")

    def test_the_tools_find_what_is_wrong(self) -> None:
        """A file that is wrong is found by each with these settings, so that the two tests above look at something."""
        with tempfile.TemporaryDirectory() as kept:
            wrong = Path(kept) / "wrong.py"
            wrong.write_text("import json\n\n\ndef half(number):\n    return number / 2\n")
            self.assertIn("[no-untyped-def]", findings("mypy", str(wrong)))
            self.assertIn("F401", findings("flake8", str(wrong)))


if __name__ == "__main__":
    unittest.main()
