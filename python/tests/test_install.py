"""The package is installed by Debian's setuptools, without a network, and finds an installed fc."""

from __future__ import annotations

import importlib.util
import os
import shutil
import subprocess
import sys
import tempfile
import unittest
from pathlib import Path

from helping import TOP, needs

ABSENT = [name for name in ("ensurepip", "wheel") if importlib.util.find_spec(name) is None]


@needs("setuptools")
@unittest.skipIf(bool(ABSENT), f"{' and '.join(ABSENT)} isn't there (Debian: python3-venv and python3-wheel)")
class Install(unittest.TestCase):
    def test_pip_installs_the_command(self) -> None:
        with tempfile.TemporaryDirectory() as kept:
            folder = Path(kept)
            shutil.copytree(TOP / "python", folder / "python", ignore=shutil.ignore_patterns("__pycache__", "tests"))
            if (TOP / "library").is_dir():
                shutil.copytree(TOP / "library", folder / "library")
            environment = {name: value for name, value in os.environ.items() if name not in ("FC", "PYTHONPATH")}

            def run(*words: str) -> subprocess.CompletedProcess[str]:
                return subprocess.run(words, cwd=folder, env=environment, capture_output=True, text=True, check=True)

            run(sys.executable, "-m", "venv", "--system-site-packages", "there")
            run("there/bin/pip", "install", "--no-index", "--no-build-isolation", "./python")
            self.assertEqual(run("there/bin/fieldc", "--version").stdout, "fieldc 1.0\n")
            program = folder / "there/libexec/fc/fc"
            program.parent.mkdir(parents=True)
            program.write_text("#!/bin/sh\necho 'main = 3;'\n")
            program.chmod(0o755)
            (folder / "x.fc").write_text("main = 3;")
            self.assertEqual(run("there/bin/fieldc", "format", "x.fc").stdout, "main = 3;\n")
            if (TOP / "library").is_dir():
                listed = run("there/bin/fieldc", "compose", "--list").stdout.splitlines()
                self.assertEqual(listed, run(str(TOP / "fieldc"), "compose", "--list").stdout.splitlines())
                self.assertTrue(listed)
            call = "import fieldc; print(fieldc.format('main = 3;'), fieldc.__file__)"
            self.assertRegex(run("there/bin/python3", "-c", call).stdout, "^main = 3;\n /.*/there/lib/")


if __name__ == "__main__":
    unittest.main()
