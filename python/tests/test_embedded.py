"""The library in C, Rust and Python, and the WebAssembly module in node: they answer the conformance cases of all
commands for which no thread works, four threads at once and under valgrind too."""

from __future__ import annotations

import base64
import importlib
import json
import os
import shutil
import struct
import subprocess
import sys
import tempfile
import unittest
from concurrent.futures import ThreadPoolExecutor
from pathlib import Path
from typing import Any, NamedTuple

from helping import EXAMPLES, HERE, TOP
from test_build import build_itself

from fieldc.shared import Shared
from release import library, module

THREADED = {"run", "gen"}
THREADS = 4
# of a thread, in KiB: FC_STACK of fc.h; and of node
STACK = 2 << 10
STACK_OF_NODE = 4 << 10
# what fc writes of examples/hop_count_line.txt, which README.md reads aloud
SETTLES = "yes 22\nsettles 5\n0 1 0\n1 3 1\n2 5 2\n"
IN_CPP = """\
#include <fc.h>
int main() { return (int)fc_call("format", "ceiling 9; main = 1;").status; }
"""
USAGE = "usage: fc check|stable|run|replay|format|gen|trace|mail\n"


class Given(NamedTuple):
    """A conformance case: words and an input, and the status and text that are expected."""

    words: str
    input: bytes
    status: int
    text: bytes


def read_cases() -> list[Given]:
    """The conformance cases of the commands for which no thread works."""
    sys.path.insert(0, str(TOP / "conformance"))
    cases: list[Any] = importlib.import_module("run").read_all()
    return [
        Given(" ".join(case.call()), case.input(), case.status, case.expected())
        for case in cases
        if not THREADED.intersection(case.call()[:1]) and not any(" " in word for word in case.call())
    ]


def packed(cases: list[Given]) -> bytes:
    """Cases as library_cases.c reads them."""
    rows = ((case.words.encode(), case.input, case.text, case.status) for case in cases)
    return b"".join(struct.pack("<4I", *map(len, row[:3]), row[3]) + b"".join(row[:3]) for row in rows)


class Embedded(unittest.TestCase):
    folder: Path
    prefix: Path
    cases: list[Given]

    @classmethod
    def setUpClass(cls) -> None:
        kept = tempfile.TemporaryDirectory()
        cls.addClassCleanup(kept.cleanup)
        cls.folder, cls.prefix = Path(kept.name), Path(kept.name) / "prefix"
        build_itself().install_library(cls.prefix)
        cls.cases = read_cases()

    def done(self, *words: object, text: bytes = b"", status: int = 0) -> str:
        """What a call writes that ends with a status."""
        found = {"PKG_CONFIG_PATH": str(self.prefix / "lib/pkgconfig"), "LD_LIBRARY_PATH": str(self.prefix / "lib")}
        environment = {**os.environ, **found}
        done = subprocess.run([*map(str, words)], input=text, capture_output=True, check=False, env=environment)
        self.assertEqual(done.returncode, status, (words, done.stdout[-2000:], done.stderr[-2000:]))
        return done.stdout.decode()

    def of_package(self, *words: str) -> list[str]:
        """What `pkg-config` says of the installed library."""
        return self.done("pkg-config", *words, "fc").split()

    def driver(self, *flags: str) -> Path:
        """The program that answers cases in threads, linked to the static library."""
        source, made = HERE / "library_cases.c", self.folder / "library_cases"
        shared = [word for word in self.of_package("--libs") if word != "-lfc"]
        words = ("-O2", "-g", "-Wall", "-Wextra", "-Werror", "-pthread", *self.of_package("--cflags"))
        self.done("gcc", *words, source, "-o", made, *shared, "-l:libfc.a", *flags)
        return made

    def answers(self, made: Path) -> None:
        """An example program answers as `fc` does, and with status 8 where `fc` needs threads."""
        text = (EXAMPLES / "hop_count_line.txt").read_bytes()
        self.assertEqual(self.done(made, "check --settle", text=text), SETTLES)
        self.assertEqual(self.done(made, "gen 7", status=8), "")
        self.assertEqual(self.done(made, "stable 7", status=2), USAGE)

    def test_there_are_cases_of_each_status(self) -> None:
        self.assertEqual({case.status for case in self.cases}, {0, 1, 2, 3, 4})
        commands = {case.words.split(" ")[0] for case in self.cases}
        self.assertLessEqual({"check", "stable", "trace", "replay", "mail", "format"}, commands)

    def answers_all(self, *watched: str) -> None:
        """The library answers all cases, in threads with as much stack as fc.h asks for."""
        file = self.folder / "cases"
        file.write_bytes(packed(self.cases))
        said = self.done(*watched, self.driver(), file, THREADS, STACK)
        self.assertEqual(said, f"{len(self.cases)} passed, 0 failed\n")

    def test_cases_in_threads(self) -> None:
        self.answers_all()

    def test_cases_under_valgrind(self) -> None:
        self.answers_all("valgrind", "--quiet", "--error-exitcode=9", "--leak-check=full", "--show-leak-kinds=all")

    def test_a_wrong_answer_is_told_of(self) -> None:
        """The program that compares sees a wrong status, and a text with a wrong or a further byte."""
        right = next(case for case in self.cases if case.status == 0 and len(case.text) > 2)
        texts = (b"x" + right.text[1:], right.text[:-1], right.text + b"x")
        wrong = [right._replace(status=1), *(right._replace(text=text) for text in texts)]
        file = self.folder / "wrong"
        file.write_bytes(packed([right, *wrong]))
        self.assertIn("1 passed, 4 failed\n", self.done(self.driver(), file, 1, STACK, status=1))

    def test_python(self) -> None:
        shared = Shared(self.prefix / "lib/libfc.so.1")
        with ThreadPoolExecutor(THREADS) as pool:
            replies = [*pool.map(lambda case: shared.answer(case.words, case.input), self.cases[::20])]
        wanted = [(case.status, case.text) for case in self.cases[::20]]
        self.assertEqual([(reply.status, reply.output) for reply in replies], wanted)
        for words in ("run", "gen 7"):
            self.assertEqual(shared.answer(words, b"").status, 8)

    def test_the_example_in_c(self) -> None:
        source, made = self.prefix / "share/doc/fc/embed/settle.c", self.folder / "in_c"
        words = ("-Wall", "-Wextra", "-Werror", source, "-o", made, *self.of_package("--cflags", "--libs"))
        for compiler in ("gcc", "clang"):
            self.done(compiler, *words)
            self.answers(made)

    def test_the_header_in_cpp(self) -> None:
        source, made = self.folder / "header.cpp", self.folder / "header"
        source.write_text(IN_CPP)
        words = ("-Wall", "-Wextra", "-Werror", source, "-o", made, *self.of_package("--cflags", "--libs"))
        self.done("g++", *words)
        self.assertEqual(self.done(made), "")

    def test_the_example_in_rust(self) -> None:
        source, made = self.prefix / "share/doc/fc/embed/settle.rs", self.folder / "in_rust"
        self.done("rustc", "-D", "warnings", source, "-o", made, *self.of_package("--libs-only-L"))
        self.answers(made)

    def test_what_the_shared_library_gives(self) -> None:
        listed = self.done("nm", "--dynamic", "--defined-only", self.prefix / "lib/libfc.so").split("\n")
        names = {line.split()[-1] for line in listed if line}
        self.assertEqual(names, {"fc_reply", "fc_call", "fc_call_bytes", "fc_free"})

    def test_webassembly(self) -> None:
        rows = [
            {"words": case.words, "input": base64.b64encode(case.input).decode(), "status": case.status,
             "text": case.text.decode()} for case in self.cases
        ]  # fmt: skip
        file = self.folder / "cases.json"
        file.write_text(json.dumps(rows))
        shutil.copy(module.MADE, self.folder / "fc.wasm")
        node = ("node", f"--stack-size={STACK_OF_NODE}", HERE / "module_cases.mjs", library.EMBED / "fc.mjs")
        said = self.done(*node, self.folder / "fc.wasm", file)
        self.assertEqual(said.splitlines()[-1], f"{len(rows)} passed, 0 failed")


if __name__ == "__main__":
    unittest.main()
