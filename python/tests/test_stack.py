"""The deepest programs: every command answers them with as much stack as README and docs/commands.md ask for."""

from __future__ import annotations

import os
import re
import resource
import subprocess
import unittest
from concurrent.futures import ThreadPoolExecutor

from deep_programs import mixed, programs
from helping import TOP, needs_fc

from fieldc import program as fc

# of each thread, in KiB, as `ulimit -s` has it: what the pages ask for, and what is enough for programs of one form
STACK = 1280
ENOUGH = 1024
PAGES = ("README.md", "docs/headline.md", "docs/commands.md")
NETWORK = '%%\n{"devices":[{"id":0,"inputs":{}},{"id":1,"inputs":{}}],"links":[[0,1,1]]}\n'
LOG = "%%\nB0\nE0\nB1\nE1\n"
SCRIPT = "%%\nrun 2\nshow\n"
CHANGES = "%%\nunlink 0 1\nleave 1\njoin 2\nlink 1 2 1\n"
COMMANDS = {
    "format": "",
    "check": NETWORK,
    "check --settle": NETWORK,
    "check --settle --changes": NETWORK + CHANGES,
    "stable": NETWORK,
    "trace": NETWORK,
    "run --workers 1": NETWORK + SCRIPT,
    "run --workers 16": NETWORK + SCRIPT,
    "replay": NETWORK + LOG,
    "mail": NETWORK + LOG,
    "mail --number 3": NETWORK,
}
SIMPLE = "ceiling 1; main = 1;\n"
NESTED = "[" * 127 + "]" * 127


def answer(words: str, text: str, stack: int | None = None) -> tuple[int, bytes]:
    """The status and the output of a call, with so much stack, or with as much as this process may have."""

    def begin() -> None:
        if stack is not None:
            resource.setrlimit(resource.RLIMIT_STACK, (stack << 10, stack << 10))

    done = subprocess.run(
        [fc.find(), *words.split()], input=text.encode(), capture_output=True, preexec_fn=begin, check=False,
        timeout=300,
    )  # fmt: skip
    return done.returncode, done.stdout


def differs(words: str, text: str, stack: int) -> bool:
    """Whether a call answers otherwise with so little stack than with much, or not at all."""
    status, output = answer(words, text)
    return status < 0 or answer(words, text, stack) != (status, output)


@needs_fc
class Stack(unittest.TestCase):
    def answered(self, calls: dict[str, tuple[str, str]], stack: int) -> None:
        """Wants each of some calls answered alike with much stack and with so little."""
        with ThreadPoolExecutor(os.cpu_count()) as pool:
            found = pool.map(lambda call: differs(call[0], call[1], stack), calls.values())
            self.assertEqual([name for name, is_other in zip(calls, found, strict=True) if is_other], [])

    def with_all_commands(self, deep: dict[str, str], stack: int, statuses: set[int]) -> None:
        """Wants each of some programs answered by every command, by `check` with one of these statuses."""
        self.answered(
            {
                f"fc {words}: {name}": (words, text + sections)
                for name, text in deep.items()
                for words, sections in COMMANDS.items()
            },
            stack,
        )
        self.assertLessEqual({answer("check", text + NETWORK)[0] for text in deep.values()}, statuses)
        self.assertEqual({answer("format", text)[0] for text in deep.values()}, {0})

    def test_the_deepest_programs(self) -> None:
        self.with_all_commands(programs(), ENOUGH, {0, 1, 4})

    def test_mixed_forms(self) -> None:
        self.with_all_commands(dict(mixed()), STACK, {3})

    def test_without_a_deep_program(self) -> None:
        self.answered(
            {
                "gen": ("gen 7 --devices 512 --workers 16", ""),
                "a nested scene": ("check", f"{SIMPLE}%%\n{NESTED}\n"),
            },
            ENOUGH,
        )

    def test_pages(self) -> None:
        """Each page that says what the premises are says how much stack is asked for."""
        for name in PAGES:
            text = (TOP / name).read_text()
            named = {int(size.replace(",", "")) for size in re.findall(r"`ulimit -s ([0-9,]+)`", text)}
            self.assertEqual(named, {STACK}, name)


if __name__ == "__main__":
    unittest.main()
