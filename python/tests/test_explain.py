"""Tests the explanations of refusals and of noes, against tables that were written by hand."""

# mypy: no-strict-optional

from __future__ import annotations

import os
import re
import subprocess
import unittest
from pathlib import Path

from helping import TOP, missing, needs_fc

if missing("lark"):
    raise unittest.SkipTest(missing("lark"))

import wrong_inputs
from fieldc.explain import explain, warnings
from fieldc.program import joined
from fieldc.refusals import Call, Refusal, Section
from fieldc.telling import place_of, quoted

CASES = wrong_inputs.all_cases()


def words_in_first_columns(text: str) -> set[str]:
    """What stands in quotes of code in the first column of a table."""
    rows = re.findall(r"^\| ([^|]*) \|", text, re.MULTILINE)
    return {word for row in rows for word in re.findall(r"`([^`]+)`", row)}


def headings(path: Path) -> set[str]:
    """The anchors of a page, as its readers write them."""
    found = re.findall(r"^#+ (.*)$", path.read_text(encoding="utf-8"), re.MULTILINE)
    return {re.sub(r"[^a-z0-9 -]", "", heading.lower()).replace(" ", "-") for heading in found}


class Tables(unittest.TestCase):
    """Each wrong input of the tables is explained as it is wanted."""

    def test_sentences_and_places(self) -> None:
        for file, case in CASES:
            with self.subTest(file=file, case=case.name):
                call = case.call()
                found = explain(call, case.refusal())
                self.assertEqual(found.what, case.says)
                where = None if found.section is None else (found.section.kind, found.line, found.column)
                self.assertEqual(where, case.at)
                if case.hint is not None:
                    self.assertEqual(found.hint, case.hint)

    def test_pages(self) -> None:
        anchors = {}
        for file, case in CASES:
            with self.subTest(file=file, case=case.name):
                page = explain(case.call(), case.refusal()).page
                self.assertIsNotNone(page)
                path, _, anchor = page.partition("#")
                if path not in anchors:
                    anchors[path] = headings(TOP / path)
                if anchor:
                    self.assertIn(anchor, anchors[path])

    def test_carets(self) -> None:
        for file, case in CASES:
            with self.subTest(file=file, case=case.name):
                found = explain(case.call(), case.refusal())
                if case.at is None:
                    self.assertEqual(quoted(found), [])
                    continue
                kind, line, column = case.at
                self.assertEqual(place_of(found), f"{kind}.txt:{line}:{column}: ")
                text = found.section.text.split("\n")[line - 1]
                if not text.strip():
                    self.assertEqual(quoted(found), [])
                    continue
                shown, under = quoted(found)
                self.assertEqual(shown[len(under) - 1 :][:1], text[column - 1 : column])

    @needs_fc
    def test_lines_of_fc(self) -> None:
        for file, case in CASES:
            if case.status in (5, 6, 7):
                continue
            with self.subTest(file=file, case=case.name):
                words = [os.environ["FC"], *case.words]
                done = subprocess.run(words, input=joined(case.call().sections), capture_output=True, check=False)
                self.assertIn(case.line, done.stdout.decode("utf-8").split("\n")[:2])


class Words(unittest.TestCase):
    """No word of the documents is without a case."""

    def words_of(self, document: str, heading: str) -> set[str]:
        text = (TOP / "docs" / document).read_text(encoding="utf-8")
        part = text.split(f"\n{heading}\n", 1)[1]
        part = re.split(r"\n#+ ", part, maxsplit=1)[0]
        return words_in_first_columns(part)

    def told(self) -> set[str]:
        return {word for _, case in CASES for word in case.line.split(" ")}

    def test_reasons(self) -> None:
        self.assertLessEqual(self.words_of("patterns.md", "## The reasons"), self.told())

    def test_kinds_of_types(self) -> None:
        text = (TOP / "docs" / "language.md").read_text(encoding="utf-8")
        kinds = words_in_first_columns(text.split("\n| Kind | What is wrong |\n", 1)[1].split("\n\n", 1)[0])
        self.assertEqual(len(kinds), 9)
        self.assertLessEqual(kinds, self.told())

    def test_words_of_lines(self) -> None:
        text = (TOP / "docs" / "formats.md").read_text(encoding="utf-8")
        part = text.split("\n| Word | When |\n", 1)[1].split("\n\n", 1)[0]
        words = words_in_first_columns(part)
        self.assertGreaterEqual(len(words), 14)
        self.assertLessEqual(words | {"empty"}, self.told())

    def test_statuses(self) -> None:
        lines = self.words_of("commands.md", "## Refusals")
        first = {" ".join(line.split(" ")[: 2 if line.startswith("limit") else 1]) for line in lines}
        told = {" ".join(case.line.split(" ")[: 2 if case.line.startswith("limit") else 1]) for _, case in CASES}
        self.assertGreaterEqual(len(first), 20)
        self.assertLessEqual(first, told)
        self.assertLessEqual({5, 6, 7}, {case.status for _, case in CASES})

    def test_count(self) -> None:
        self.assertGreaterEqual(len(CASES), 120)


class Disagreement(unittest.TestCase):
    """Where the reader finds something else than `fc` wrote, only what `fc` wrote is said."""

    def said(self, line: str, program: str, status: int = 3) -> str:
        sections = (Section("program", "p", 1, program), Section("network", "n", 1, wrong_inputs.ONE))
        call = Call(("check",), sections)
        found = explain(call, Refusal(status, line.split(" ")[0], line, call))
        self.assertIsNone(found.line)
        return found.what

    def test_another_declaration(self) -> None:
        self.assertEqual(self.said("syntax 1 1", "ceiling 10;\nmain = 1 == 2;\n"), "syntax 1 1")

    def test_another_word(self) -> None:
        self.assertEqual(self.said("types 2 unknown", "ceiling 10;\nmain = 1 + true;\n"), "types 2 unknown")

    def test_another_place(self) -> None:
        self.assertEqual(
            self.said("no 1 unguarded", "ceiling 10;\nmain = rep(0){(x) => x + 1};\n", 1), "no 1 unguarded"
        )

    def test_another_reason(self) -> None:
        self.assertEqual(self.said("no 0 nested", "ceiling 10;\nmain = rep(0){(x) => x + 1};\n", 1), "no 0 nested")

    def test_no_fault(self) -> None:
        self.assertEqual(self.said("lexical 5", "ceiling 10;\nmain = 1;\n"), "lexical 5")

    def test_a_line_that_is_unknown(self) -> None:
        self.assertEqual(self.said("new-word 1 2", "ceiling 10;\nmain = 1;\n"), "new-word 1 2")


class Joined(unittest.TestCase):
    """Lines are those of the user's file, also where one file has several sections."""

    def test_a_section_that_begins_further_down(self) -> None:
        text = '{"devices": [{"id": 0, "inputs": {}}],\n "links": [[0, 0, 1]]}\n'
        sections = (Section("program", "all", 1, "ceiling 10;\nmain = 1;\n"), Section("network", "all", 4, text))
        call = Call(("check",), sections)
        found = explain(call, Refusal(3, "network", "network /links/0 self-link", call))
        self.assertEqual((found.line, found.column), (5, 12))
        self.assertEqual(place_of(found), "all:5:12: ")


class Warned(unittest.TestCase):
    """A `uid` that the ceiling cuts is warned of."""

    def warned(self, program: str, ids: list[int]) -> list[str]:
        devices = ", ".join(f'{{"id": {number}, "inputs": {{}}}}' for number in ids)
        scene = f'{{"devices": [{devices}], "links": []}}'
        call = Call(("stable",), (Section("program", "p", 1, program), Section("network", "n", 1, scene)))
        return [f"{found.line}:{found.column}: {found.what}" for found in warnings(call)]

    def test_one_device(self) -> None:
        found = self.warned("ceiling 10;\nmain = uid;\n", [3, 10, 12])
        self.assertEqual(found, ["2:8: `uid` is cut at the ceiling 10, so it is 10 at device 12."])

    def test_several(self) -> None:
        found = self.warned("ceiling 10;\ndef f(): int = uid;\nmain = f();\n", [3, 11, 12, 200])
        self.assertEqual(found, ["2:16: `uid` is cut at the ceiling 10, so it is 10 at the 3 devices from 11 on."])

    def test_none(self) -> None:
        self.assertEqual(self.warned("ceiling 12;\nmain = uid;\n", [3, 12]), [])
        self.assertEqual(self.warned("ceiling 10;\nmain = 1;\n", [3, 12]), [])
        self.assertEqual(self.warned("ceiling 10;\ndef f(): int = uid;\nmain = 1;\n", [12]), [])


if __name__ == "__main__":
    unittest.main()
