"""What is wrong as compilers write it, and the editors that are set up to read it."""

from __future__ import annotations

import json
import os
import re
import shutil
import subprocess
import unittest

from helping import HOPS, LINE, TOP, fieldc, needs_fc
from test_files import InFolder

EDITORS = TOP / "editors"
VIM = next((name for name in ("vim", "vim.basic", "vim.nox") if shutil.which(name)), None)
WRONG = "ceiling 10;\ninput src: bool;\nmain = rep(10){(d) =>\n  minHoodLoc(nbr{e} + 1, mux(sense src, 0, 10))};\n"
NO = "ceiling 10;\ninput src: bool;\nmain = 1 +\n  rep(0){(x) => 1 - x};\n"


def place(text: str, part: str) -> str:
    """The line and the column at which a part of a text stands, from 1."""
    front = text[: text.index(part)]
    return f"{front.count(chr(10)) + 1}:{len(front) - front.rfind(chr(10))}"


@needs_fc
class Gcc(InFolder):
    def found(self, text: str, *more: str) -> tuple[int, list[str]]:
        self.file(text, "mine.fc")
        done = fieldc("check", "--format=gcc", "mine.fc", *more, folder=self.folder)
        self.assertEqual(done.errors, "")
        return done.status, done.output.splitlines()

    def test_a_refusal(self) -> None:
        status, rows = self.found(WRONG)
        at = f"mine.fc:{place(WRONG, 'e} + 1')}"
        self.assertEqual(status, 3)
        self.assertTrue(rows[0].startswith(f"{at}: error: Nothing named `e` is bound here. ["), rows)
        self.assertTrue(rows[1].startswith(f"{at}: note: "), rows)

    def test_a_no(self) -> None:
        status, rows = self.found(NO)
        self.assertEqual((status, rows[0].split(" ")[0]), (1, "no"))
        self.assertTrue(rows[1].startswith(f"mine.fc:{place(NO, 'rep(0)')}: error: "), rows)
        self.assertTrue(rows[1].endswith(f"[{rows[0]}]"))

    def test_a_yes_with_its_own_network_or_another_file(self) -> None:
        self.assertEqual(self.found(HOPS)[0], 0)
        self.assertEqual(self.found(HOPS + "%%\n" + LINE), (0, ["yes 22"]))
        self.file(LINE.replace("[1,2,1]", "[1,9,1]"), "net.json")
        status, rows = self.found(HOPS, "net.json")
        self.assertEqual(status, 3)
        self.assertRegex(rows[0], r"^net\.json:1:\d+: error: ")

    def test_it_stands_alone(self) -> None:
        self.file(HOPS, "mine.fc")
        for more in ("--json", "--facts", "--settle"):
            self.assertEqual(fieldc("check", "--format=gcc", "mine.fc", more, folder=self.folder).status, 2)

    def test_the_matcher_of_vs_code(self) -> None:
        matcher = json.loads((EDITORS / "vscode/package.json").read_text())["contributes"]["problemMatchers"][0]
        pattern = matcher["pattern"]
        rows = [re.match(pattern["regexp"], row) for row in self.found(WRONG)[1]]
        line, column = place(WRONG, "e} + 1").split(":")
        keys = ("file", "line", "column", "severity")
        found = [tuple(row[pattern[key]] for key in keys) for row in rows if row is not None]
        self.assertEqual(found, [("mine.fc", line, column, kind) for kind in ("error", "note")])
        self.assertIsNone(re.match(pattern["regexp"], "yes 22"))

    @unittest.skipIf(VIM is None, "vim isn't there (Debian: vim)")
    def test_make_of_vim(self) -> None:
        self.file(WRONG, "mine.fc")
        self.file(
            f"set runtimepath^={EDITORS}/vim nocompatible\nfiletype plugin on\nedit mine.fc\nsilent make!\n"
            "let rows = map(getqflist(), {_, it -> join([bufname(it.bufnr), it.lnum, it.col, it.type])})\n"
            "call writefile(rows, 'found')\n"
            "qall!\n",
            "run.vim",
        )
        path = f"{TOP}:{os.environ['PATH']}"
        words = [str(VIM), "-e", "-s", "-u", "NONE", "-i", "NONE", "-n", "-S", "run.vim"]
        environment = dict(os.environ, PATH=path, FC=os.environ.get("FC", ""))
        subprocess.run(
            words,
            check=True,
            timeout=120,
            stdin=subprocess.DEVNULL,
            capture_output=True,
            cwd=self.folder,
            env=environment,
        )
        line, column = place(WRONG, "e} + 1").split(":")
        wanted = [f"mine.fc {line} {column} {kind}" for kind in "en"]
        self.assertEqual((self.folder / "found").read_text().splitlines(), wanted)


if __name__ == "__main__":
    unittest.main()
