"""Streams and files that can't be written or read: one line and a status, and never that of a no."""

from __future__ import annotations

import json
import os
import subprocess
import sys
import unittest
from pathlib import Path

from helping import BUILT, HOPS, LINE, TOP, Done, needs, needs_fc
from test_files import InFolder

NO = HOPS.replace("+ 1", "+ 0")
LOG = "B0\nE0\n"


class InShell(InFolder):
    def in_shell(self, line: str) -> Done:
        """Runs a line of the shell in the folder, with `fieldc` in it."""
        environment = dict(os.environ, PYTHONPATH=str(TOP / "python"))
        if "FC" not in environment and BUILT.exists():
            environment["FC"] = str(BUILT)
        fieldc = f'fieldc() {{ {sys.executable} -B -m fieldc "$@"; }}\n'
        words = ["sh", "-c", fieldc + line]
        done = subprocess.run(
            words, capture_output=True, text=True, cwd=self.folder, env=environment, timeout=120, check=False
        )
        return Done(done.returncode, done.stdout, done.stderr)

    def refused(self, line: str, status: int, says: str) -> None:
        """Wants a line to end with a status and one line on standard error that says so."""
        done = self.in_shell(line)
        self.assertEqual((done.status, done.output), (status, ""), f"{line}: {done}")
        self.assertRegex(done.errors, f"^fieldc[^\n]*{says}[^\n]*\n$", line)


class Words(InShell):
    def test_help_that_cannot_be_written(self) -> None:
        for words in ("--help", "--version", "check --help", "compose --list", "network --line 3"):
            self.refused(f"fieldc {words} > /dev/full", 6, "standard output can't be written: No space left")
            self.refused(f"fieldc {words} >&-", 6, "standard output can't be written: Bad file descriptor")

    def test_standard_error_that_cannot_be_written(self) -> None:
        for words in ("", "chek", "check", "check none none"):
            done = self.in_shell(f"fieldc {words} 2> /dev/full")
            self.assertEqual((done.status, done.output, done.errors), (6, "", ""), words)
        self.assertEqual(self.in_shell("fieldc check none none 2>&-").status, 5)

    def test_standard_input_that_is_closed(self) -> None:
        self.refused("fieldc check - <&-", 5, "standard input can't be read: Bad file descriptor")
        self.refused("fieldc network --scene - <&- >&-", 5, "standard input can't be read: Bad file descriptor")
        self.refused("fieldc network --scene / ", 5, "/ can't be read: Is a directory")

    def test_a_file_that_cannot_be_written(self) -> None:
        Path(self.folder / "full.json").symlink_to("/dev/full")
        self.refused("fieldc network --line 3 -o full.json", 6, "full.json can't be written: No space left")
        self.refused("fieldc network --line 3 --positions full.json", 6, "full.json can't be written: No space left")


@needs_fc
class Answers(InShell):
    def setUp(self) -> None:
        super().setUp()
        texts = {"hops.fc": HOPS, "no.fc": NO, "line.json": LINE, "run.txt": "run 1\nshow\n", "log.txt": LOG}
        for name, text in texts.items():
            self.file(text, name)

    def test_answers_that_cannot_be_written(self) -> None:
        for words in (
            "check hops.fc line.json",
            "check no.fc line.json",
            "settle hops.fc line.json",
            "stable hops.fc line.json",
            "run hops.fc line.json run.txt",
            "mail hops.fc line.json log.txt",
            "gen 3",
            "format hops.fc",
            "compose hops.fc",
        ):
            self.refused(f"fieldc {words} > /dev/full", 6, "standard output can't be written: No space left")
        for words in ("trace hops.fc line.json", "replay hops.fc line.json log.txt"):
            self.refused(f"fieldc {words} >&-", 6, "standard output can't be written: Bad file descriptor")

        done = self.in_shell("fieldc stable hops.fc line.json --json > /dev/full")
        self.assertEqual((done.status, json.loads(done.errors)["status"]), (6, 6))

    def test_with_closed_streams_all_else_goes_on(self) -> None:
        done = self.in_shell("fieldc stable hops.fc line.json <&-")
        self.assertEqual((done.status, done.output, done.errors), (0, "0 0\n1 1\n2 2\n", ""))
        done = self.in_shell("fieldc check no.fc line.json <&- 2>&-")
        self.assertEqual((done.status, done.output, done.errors), (1, "no 0 growth-zero\n", ""))
        done = self.in_shell("fieldc network --line 3 -o made.json <&- >&- 2>&- && wc -l < made.json")
        self.assertEqual((done.status, done.output.strip()), (0, "7"))

    def test_why_it_is_a_no_that_cannot_be_written(self) -> None:
        done = self.in_shell("fieldc check no.fc line.json 2> /dev/full")
        self.assertEqual((done.status, done.output, done.errors), (6, "no 0 growth-zero\n", ""))

    @needs("matplotlib")
    def test_pictures_and_what_is_said_of_them(self) -> None:
        Path(self.folder / "full.png").symlink_to("/dev/full")
        picture = "fieldc picture hops.fc line.json --of settle -o"
        self.refused(f"{picture} full.png", 6, "full.png can't be written")
        self.refused(f"{picture} made.png > /dev/full", 6, "standard output can't be written: No space left")
        rounds = "fieldc rounds hops.fc line.json --rounds 2 -o"
        self.refused(f"{rounds} full.png", 6, "full.png can't be written")
        self.refused(f"{rounds} made.png > /dev/full", 6, "standard output can't be written: No space left")

    def test_a_sweep_names_what_it_could_not_write(self) -> None:
        sweep = "fieldc sweep hops.fc --line 3 --set src=true@0 --count 1 -o rows.csv"
        for name in ("rows.sweep.json", "rows.seconds.csv"):
            Path(self.folder / name).symlink_to("/dev/full")
            self.refused(sweep, 6, f"{name} can't be written: No space left")
            (self.folder / name).unlink()
            (self.folder / "rows.sweep.json").unlink(missing_ok=True)
        done = self.in_shell(f"{sweep} > /dev/full")
        self.assertEqual(done.status, 6)
        self.assertEqual(done.errors, "fieldc sweep: standard output can't be written: No space left on device\n")


if __name__ == "__main__":
    unittest.main()
