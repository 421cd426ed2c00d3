"""Lark is the one part that may be missing: what doesn't read programs works without it, and the rest says so."""

from __future__ import annotations

import os
import subprocess
import sys
import unittest

from helping import HOPS, LINE, TOP, Done, needs_fc
from test_files import InFolder

HIDDEN = "import sys; sys.modules['lark'] = None; from fieldc.command import main; sys.exit(main(sys.argv[1:]))"


@needs_fc
class WithoutLark(InFolder):
    def asked(self, *words: str) -> Done:
        environment = dict(os.environ, PYTHONPATH=str(TOP / "python"))
        done = subprocess.run(
            [sys.executable, "-B", "-c", HIDDEN, *words],
            capture_output=True, text=True, check=False, cwd=self.folder, env=environment,
        )  # fmt: skip
        return Done(done.returncode, done.stdout, done.stderr)

    def setUp(self) -> None:
        super().setUp()
        self.file(HOPS, "hops.fc")
        self.file(HOPS.replace("d}", "e}"), "wrong.fc")
        self.file("ceiling 10; input src: bool; main = rep(0){(x) => 1 - x};\n", "no.fc")
        self.file(LINE, "line.json")

    def test_what_fc_answers_is_written(self) -> None:
        self.file("run 1\nshow\n", "one.script")
        self.file("B0\nE0\n", "one.log")
        for words, wanted in (
            (("check", "hops.fc", "line.json"), "yes 22\n"),
            (("settle", "hops.fc", "line.json"), "yes 22\nsettles 5\n0 1 0\n1 3 1\n2 5 2\n"),
            (("stable", "hops.fc", "line.json"), "0 0\n1 1\n2 2\n"),
            (("run", "hops.fc", "line.json", "one.script"), "yes 22\n@2\n"),
            (("replay", "hops.fc", "line.json", "one.log"), "0 0\n1 -\n2 -\n"),
            (("network", "--line", "1"), '{"devices"'),
            (("compose", "--list"), "anywhere(b, far)"),
            (("format", "hops.fc"), "ceiling 10;\n"),
        ):
            done = self.asked(*words)
            self.assertEqual((done.status, done.errors), (0, ""), words)
            self.assertTrue(done.output.startswith(wanted), (words, done.output))

    def test_refusals_and_nos_say_what_is_missing(self) -> None:
        done = self.asked("check", "wrong.fc", "line.json")
        self.assertEqual(done.status, 3)
        self.assertIn("python3-lark", done.errors)
        done = self.asked("check", "no.fc", "line.json")
        self.assertEqual(done.status, 1)
        self.assertIn("python3-lark", done.errors)

    def test_what_reads_programs_is_refused(self) -> None:
        done = self.asked("settle", "no.fc", "line.json", "--why")
        self.assertEqual(done.status, 2)
        self.assertIn("--why needs Lark to read the program (Debian: python3-lark)\n", done.errors)


if __name__ == "__main__":
    unittest.main()
