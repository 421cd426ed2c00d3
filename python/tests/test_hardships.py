"""Hardships: threads that can't be started, one processor, little memory, and allocations that fail. The program ends
with the right text all the same, or with status 7 and no text, and never by a signal."""

from __future__ import annotations

import os
import resource
import shutil
import subprocess
import tempfile
import unittest
from collections.abc import Callable
from pathlib import Path

from helping import EXAMPLES, expected, needs_fc
from starved_runs import COMMANDS, Ended, Starved

from fieldc import program as fc

NOBODY = 65534
# starts a thread, and says whether it could
THREAD = "import _thread, time\ntry:\n    _thread.start_new_thread(time.sleep, (0,))\n    print('yes')\n" + (
    "except RuntimeError:\n    print('no')\n"
)
# how much address space a program gets, in kilobytes: with the least it begins, and has little left
SPACES = (5_000, 6_000, 8_000, 60_000)
# which allocations fail, of all that there are; starved_runs.py takes each
EVERY = 40
NO_MEMORY = Ended(7, b"", b"")


def limited(kind: int, limit: int) -> Callable[[], None]:
    """Sets a limit of a process that is about to begin."""
    return lambda: resource.setrlimit(kind, (limit, limit))


@needs_fc
class Hardships(unittest.TestCase):
    def setUp(self) -> None:
        room = tempfile.TemporaryDirectory()
        self.addCleanup(room.cleanup)
        self.folder = Path(room.name)
        # where another user may read it
        self.folder.chmod(0o755)
        self.program = Path(shutil.copy(fc.find(), self.folder / "fc"))
        self.program.chmod(0o755)

    def run_with(self, begin: Callable[[], None], words: str, text: str, user: int | None = None) -> Ended:
        """Runs the program, once something is done in its process."""
        done = subprocess.run(
            [self.program, *words.split()], input=text.encode(), capture_output=True, cwd=self.folder, user=user,
            preexec_fn=begin, check=False, timeout=300,
        )  # fmt: skip
        return Ended(done.returncode, done.stdout, done.stderr)

    def runs_well(self, begin: Callable[[], None], user: int | None = None) -> None:
        """Both commands that fire on threads write what they always do."""
        text = (EXAMPLES / "sensor_field_run.txt").read_text()
        right = Ended(0, expected("sensor_field_run").encode(), b"")
        self.assertEqual(self.run_with(begin, "run --workers 16", text, user), right)
        words = "gen 7 --devices 16 --workers 16"
        self.assertEqual(self.run_with(begin, words, "", user), self.run_with(lambda: None, words, ""))

    def test_no_thread_can_be_started(self) -> None:
        # a limit on processes doesn't bind root
        user = NOBODY if os.geteuid() == 0 else None
        for processes in (1, 3):
            self.runs_well(limited(resource.RLIMIT_NPROC, processes), user)
        told = subprocess.run(
            ["/usr/bin/python3", "-c", THREAD], capture_output=True, text=True, cwd="/", user=user, check=True,
            preexec_fn=limited(resource.RLIMIT_NPROC, 1),
        )  # fmt: skip
        self.assertEqual(told.stdout, "no\n")

    def test_one_processor(self) -> None:
        first = min(os.sched_getaffinity(0))
        self.runs_well(lambda: os.sched_setaffinity(0, {first}))

    def skip_where_checked(self) -> None:
        """A sanitizer takes more address space than there is, and memory that isn't the C library's."""
        if b"AddressSanitizer" in self.program.read_bytes():
            self.skipTest("the program is built with a sanitizer (./build)")

    def test_little_memory(self) -> None:
        self.skip_where_checked()
        for words, *sections in COMMANDS:
            text = "%%\n".join(sections)
            right = self.run_with(lambda: None, words, text)
            found = [self.run_with(limited(resource.RLIMIT_AS, space * 1024), words, text) for space in SPACES]
            self.assertLessEqual({*found}, {right, NO_MEMORY}, f"fc {words}")
            self.assertEqual(found[-1], right, f"fc {words}")

    def test_too_little_memory(self) -> None:
        self.skip_where_checked()
        for name, space in (("sensor_field_run", SPACES[0]), ("crowd_run", SPACES[-1])):
            text = (EXAMPLES / f"{name}.txt").read_text()
            found = self.run_with(limited(resource.RLIMIT_AS, space * 1024), "run --workers 16", text)
            self.assertEqual(found, NO_MEMORY, name)

    @unittest.skipIf(shutil.which("gcc") is None, "gcc isn't there (Debian: gcc)")
    def test_allocations_that_fail(self) -> None:
        self.skip_where_checked()
        starved = Starved(self.program, self.folder)
        for words, *sections in COMMANDS:
            self.assertEqual([*starved.complaints(words, tuple(sections), EVERY)], [])
        ended, _ = starved.run(COMMANDS[0][0], COMMANDS[0][1:], 1)
        self.assertEqual(ended, NO_MEMORY)


if __name__ == "__main__":
    unittest.main()
