"""The manual pages: up to date, without a warning of man, and with each command, option and status."""

# mypy: no-strict-optional

from __future__ import annotations

import re
import shutil
import subprocess
import unittest

from helping import TOP, needs_fc

from fieldc import program
from making import lines
from making.__main__ import stale

PAGES = TOP / "man"
needs_man = unittest.skipIf(shutil.which("man") is None, "man isn't there (Debian: man-db)")


def calls() -> list[str]:
    """The calls of fc as the page on commands has them."""
    text = (TOP / "docs/commands.md").read_text()
    return re.search(r"## The calls\n\n```\n(.*?)\n```", text, re.S)[1].split("\n")


def shown(name: str) -> str:
    """A page as man shows it, without hyphenation."""
    done = subprocess.run(
        ["man", "-l", "--warnings", "-Tascii", str(PAGES / name)],
        capture_output=True, text=True, check=True, env={"MANWIDTH": "130", "PATH": "/usr/bin:/bin", "LC_ALL": "C"},
    )  # fmt: skip
    if done.stderr:
        raise AssertionError(done.stderr)
    return re.sub(r".\x08", "", done.stdout)


def sections_of_page(text: str) -> dict[str, str]:
    """The sections of a page that man showed, by their titles."""
    parts = re.split(r"(?m)^([A-Z][A-Z ]+)\n", text)
    return dict(zip(parts[1::2], parts[2::2], strict=True))


class Made(unittest.TestCase):
    def test_up_to_date(self) -> None:
        self.assertEqual(stale(), [], "run tools/pages")
        done = subprocess.run([TOP / "tools/pages", "--check"], capture_output=True, text=True, check=False)
        self.assertEqual((done.returncode, done.stdout, done.stderr), (0, "", ""))


@needs_man
class Shown(unittest.TestCase):
    def test_fieldc(self) -> None:
        parts = sections_of_page(shown("fieldc.1"))
        for command in lines.of_fieldc().commands:
            part = re.search(rf"(?ms)^   {command.name}$\n(.*?)(?=^   \w|\Z)", parts["COMMANDS"])[1]
            self.assertIn(f"fieldc {command.name} ", parts["SYNOPSIS"])
            for name in (name for option in command.options for name in option.names):
                self.assertRegex(part, rf"(?m)^ +(.*, )?{name}( |,|$)", command.name)
        self.assertEqual(re.findall(r"(?m)^ +(\d) ", parts["EXIT STATUS"]), list("01234567"))

    @unittest.skipIf(shutil.which("mandoc") is None, "mandoc isn't there (Debian: mandoc)")
    def test_nothing_is_found_by_mandoc(self) -> None:
        for name in ("fc.1", "fieldc.1"):
            done = subprocess.run(["mandoc", "-Tlint", PAGES / name], capture_output=True, text=True, check=False)
            self.assertEqual((done.returncode, done.stdout), (0, ""), name)

    def test_lines_that_join_sections(self) -> None:
        self.assertIn("with lines %% between them", re.sub(r"\s+", " ", shown("fieldc.1")))

    def test_fc(self) -> None:
        parts = sections_of_page(shown("fc.1"))
        self.assertEqual([line.strip() for line in parts["SYNOPSIS"].strip().split("\n")], calls())
        for command in lines.of_fc().commands:
            part = re.search(rf"(?ms)^   {command.name}$\n(.*?)(?=^   \w|\Z)", parts["COMMANDS"])[1]
            for name in (name for option in command.options for name in option.names):
                self.assertRegex(part, rf"(?m)^ +{name}( |$)", command.name)
        self.assertEqual(re.findall(r"(?m)^ +(\d) ", parts["EXIT STATUS"]), list("01234567"))

    @needs_fc
    def test_example_of_fc(self) -> None:
        given, wanted = example(sections_of_page(shown("fc.1"))["EXAMPLES"])
        done = subprocess.run([program.find(), "replay"], input=given, capture_output=True, text=True, check=False)
        self.assertEqual((done.returncode, done.stdout), (0, wanted))


def example(text: str) -> tuple[str, str]:
    """The input of the example of a page, and what it has to write."""
    rows = [row.strip() for row in text.strip().split("\n")]
    first, end = next(at for at, row in enumerate(rows) if row.endswith("<< 'END'")), rows.index("END")
    return "".join(row + "\n" for row in rows[first + 1 : end]), "".join(row + "\n" for row in rows[end + 1 :])


if __name__ == "__main__":
    unittest.main()
