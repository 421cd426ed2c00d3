"""What the gate does of its own: public lines, checksums, samples, rows, what `rt` says of edits, conformance cases."""

from __future__ import annotations

import importlib.util
import stat
import sys
import tempfile
import threading
import unittest
from pathlib import Path
from types import ModuleType
from unittest import mock

from helping import TOP

from gate import checksums, edits, packages, refusals, stages
from gate.edits import Edit, Row
from gate.refusals import Try
from gate.stages import Counts

SOURCE = """\
//! A crate.
use other::Thing;
ghost use Std.specs.Prelude.{◌≡◌, ◌∷◌, ⊤};
ghost use Low.specs.Laws.{Proved,
    Holds as Law};
pub use inner::Part;

/// A pair.
pub struct Pair {
    left: u32,
}

impl Pair {
    /// Adds.
    #[cycle(sum)]
    #[inline(never)]
    pub fn add(&self) -> u32
        requires { self.left ≤ 9 }
        ensures value { result ≡ self.left + 1
            × ⊤ }
    {
        let one = 1;
        self.left + one
    }

    pub(crate) fn hidden(&self) -> u32 {
        7
    }

    #[cycle(sum)]
    fn private(&self) -> u32
        ensures value { result ≡ 8 }
    {
        8
    }
}

impl Default for Pair {
    fn default() -> Self {
        Pair { left: 0 }
    }
}

pub trait Source {
    fn read(&mut self) -> u32
        ensures any { ⊤ };
}

fn law() {}

pub fn public_law()
    ensures law { Law }
{
}
"""
SEEN = """\
ghost use Std.specs.Prelude.◌≡◌
ghost use Std.specs.Prelude.⊤
ghost use Low.specs.Laws.Holds as Law
pub use inner::Part;
pub struct Pair {
    left: u32,
}
impl Pair {
    #[cycle(sum)]
    pub fn add(&self) -> u32
        requires { self.left ≤ 9 }
        ensures value { result ≡ self.left + 1
            × ⊤ }
    {
}
impl Default for Pair {
    fn default() -> Self {
}
pub trait Source {
    fn read(&mut self) -> u32
        ensures any { ⊤ };
}
pub fn public_law()
    ensures law { Law }
{
"""
SAID = {
    "note: src/values.rt:46:1: it is not proved that what the function ensures holds (`returns-in_compare`)": (
        "returns-in_compare", "src/values.rt"
    ),
    "note: src/a/b.rt:4:1: it is not proved that the `invariant` of the struct holds": (
        "the invariant of the struct", "src/a/b.rt"
    ),
    "./proofs/f/Answers.antt:4:5: error: `returns-value`: a goal": (
        "returns-value, whose answer no longer fits", "proofs/f/Answers.antt"
    ),
}  # fmt: skip


def runner() -> ModuleType:
    """The runner of the conformance cases, which stands alone."""
    spec = importlib.util.spec_from_file_location("run", TOP / "conformance/run.py")
    assert spec is not None and spec.loader is not None
    module = importlib.util.module_from_spec(spec)
    sys.modules["run"] = module
    spec.loader.exec_module(module)
    return module


class Sums(unittest.TestCase):
    def test_public_lines_are_those_on_which_others_lean(self) -> None:
        self.assertEqual("\n".join(checksums.public_lines(SOURCE)) + "\n", SEEN)

    def test_functions_of_a_private_module_are_seen_where_they_are_given_out(self) -> None:
        with_law = checksums.public_lines(SOURCE, {"public_law"}.__contains__)
        self.assertEqual("\n".join(with_law) + "\n", SEEN)
        without = checksums.public_lines(SOURCE, {"add"}.__contains__)
        of_law = ["ghost use Low.specs.Laws.Holds as Law", "pub fn public_law()", "    ensures law { Law }", "{"]
        self.assertEqual(without, [line for line in with_law if line not in of_law])

    def test_every_public_function_of_the_crates_is_seen(self) -> None:
        texts = [path.read_text() for path in TOP.glob("crates/*/src/**/*.rt")]
        for text in texts:
            heads = [line for line in text.splitlines() if line.lstrip().startswith("pub fn ")]
            seen = [line for line in checksums.public_lines(text) if line.lstrip().startswith("pub fn ")]
            self.assertEqual(seen, heads)
        self.assertGreater(len(texts), 100)

    def test_what_changes_a_checksum(self) -> None:
        with tempfile.TemporaryDirectory() as folder:
            for crate in ("low", "high"):
                for part in ("src", "specs", "proofs"):
                    (Path(folder) / crate / part).mkdir(parents=True)
                (Path(folder) / crate / "src/lib.rt").write_text(SOURCE)
            before = self.sum_in(folder)
            self.assertEqual(self.sum_in(folder), before)
            self.assertNotEqual(self.sum_in(folder, "new: b"), before)
            files = {"low/proofs/F.antt": False, "low/specs/S.antt": True, "high/proofs/F.antt": True}
            for change, is_seen in files.items():
                (Path(folder) / change).write_text("lemma")
                self.assertEqual(self.sum_in(folder) != before, is_seen, change)
                before = self.sum_in(folder)
            for old, new, is_seen in (("let one = 1", "let one = 2", False), ("self.left ≤ 9", "self.left ≤ 8", True)):
                (Path(folder) / "low/src/lib.rt").write_text(SOURCE.replace(old, new))
                self.assertEqual(self.sum_in(folder) != before, is_seen, new)
                (Path(folder) / "low/src/lib.rt").write_text(SOURCE)
            inlined = SOURCE.replace("    #[inline(never)]\n", "")
            self.assertNotEqual(inlined, SOURCE)
            for crate in ("low", "high"):
                (Path(folder) / crate / "src/lib.rt").write_text(inlined)
                self.assertEqual(self.sum_in(folder), before, crate)

    def sum_in(self, folder: str, edit: str = "new: a") -> str:
        """The checksum of an edit of the crate `high`, which names `low`."""
        checksums.seen_from_above.cache_clear()
        checksums.surroundings.cache_clear()
        named: dict[str, list[str]] = {"low": [], "high": ["low"]}
        with mock.patch.multiple(checksums, CRATES=Path(folder), libraries=lambda: named):
            found = checksums.checksum("high", edit)
        checksums.seen_from_above.cache_clear()
        checksums.surroundings.cache_clear()
        return found


class Rows(unittest.TestCase):
    def test_each_wrong_body_can_be_applied_and_has_its_row(self) -> None:
        self.assertEqual(edits.complaints(edits.read_rows()), [])
        for edit in edits.standing():
            lines = edit.path.read_text().splitlines()
            file = TOP / "crates" / edit.crate / lines[0].removeprefix("file: ")
            olds = [line.removeprefix("old: ") for line in lines if line.startswith("old: ")]
            self.assertEqual(file.read_text().count(olds[0]), 1, edit)

    def test_a_sample_takes_whole_crates_and_is_drawn_by_its_seed(self) -> None:
        every = [Edit(f"crate{number}", name) for number in range(20) for name in "abcd"]
        drawn = {seed: edits.sample(every, 12, seed) for seed in ("1f", "2e", "3d", "1f ")}
        for found in drawn.values():
            self.assertEqual((len(found), len({edit.crate for edit in found})), (12, 3))
        self.assertEqual(edits.sample(reversed(every), 12, "1f"), drawn["1f"])
        self.assertGreater(len({tuple(found) for found in drawn.values()}), 1)
        self.assertEqual(edits.sample(every[:5], 12, "1f"), every[:5])

    def test_what_the_gate_complains_of(self) -> None:
        first, second = edits.standing()[:2]
        rows = {first: Row("sum", "returns-a", "src/lib.rt")}
        self.assertIn(f"{second}: it was never tried (tools/wrong {second.crate})", edits.complaints(rows))
        self.assertIn("wrong/tried.json isn't what tools/wrong would write", edits.complaints(rows))
        self.assertEqual(edits.changed([first, second], rows), [first, second])
        self.assertEqual(edits.changed([first], {first: Row(first.checksum(), "", "")}), [])
        tries = {first: Try(True, "returns-b", "src/lib.rt"), second: Try(False, "BAD EDIT", "")}
        self.assertEqual(len(stages.differing([first], rows, tries)), 1)
        self.assertEqual(stages.differing([first], rows, {first: Try(True, "returns-a", "src/lib.rt")}), [])
        self.assertEqual(stages.unrefused([first, second], tries), [f"{second}: BAD EDIT"])
        self.assertEqual(stages.unrefused([first], {}), [f"{first}: it was not tried"])

    def test_edits_stand_where_rt_tries_them_only_meanwhile(self) -> None:
        chosen = edits.standing()[:2]
        with tempfile.TemporaryDirectory() as folder, mock.patch.object(edits, "CRATES", Path(folder)):
            for edit in chosen:
                (Path(folder) / edit.crate).mkdir(exist_ok=True)
            with edits.placed(chosen):
                self.assertEqual(len([*Path(folder).glob("*/must-fail/*.edit")]), 2)
            self.assertEqual([*Path(folder).glob("*/must-fail")], [])

    def test_what_rt_says_of_edits(self) -> None:
        for said, (left_open, where) in SAID.items():
            line = f"rt: must-fail a/b_c.edit: refused, as it must be: {said}\n"
            self.assertEqual(refusals.read_log([line]), {Edit("a", "b_c"): Try(True, left_open, where)})
        missed = "rt: must-fail a/b.edit: NOT REFUSED: the crate is still proved with this edit\n"
        self.assertFalse(refusals.read_log(["rt: ok\n", missed])[Edit("a", "b")].is_refused)


class Stages(unittest.TestCase):
    def test_what_a_tool_counted(self) -> None:
        self.assertEqual(stages.counted("1 passed, 2 failed\nx\n30 passed, 4 failed\n"), Counts(30, 4))
        self.assertEqual(stages.counted("Traceback\n"), Counts(0, 1))

    def test_the_library_is_built_beside_tests_and_before_those_that_want_it(self) -> None:
        begun = threading.Event()
        done: list[str] = []

        def built() -> Counts:
            self.assertTrue(begun.wait(10), "no test begins beside the library")
            done.append("library")
            return Counts(2, 0)

        def tests(_: Path, names: list[str]) -> Counts:
            begun.set()
            done.extend(names)
            return Counts(len(names), 0)

        with mock.patch.multiple(stages, built_library=built, tests=tests, modules=lambda: ["test_page", "test_cuts"]):
            self.assertEqual(stages.tests_with_library(Path("fc")), Counts(4, 0))
        self.assertEqual(sorted(done[:2]), ["library", "test_cuts"])
        self.assertEqual(done[2:], ["test_page"])

    def test_missing_packages_are_named(self) -> None:
        self.assertIn("python3-lark", packages.wanted())
        with mock.patch.object(packages, "is_installed", lambda name: name != "python3-lark"):
            with mock.patch("os.geteuid", lambda: 1000):
                with self.assertRaisesRegex(packages.Missing, "install python3-lark$"):
                    packages.missing()
            with mock.patch("os.geteuid", lambda: 0):
                self.assertEqual(packages.missing(), ["python3-lark"])


class Conformance(unittest.TestCase):
    CASE = "=== one\nwords: format\nprogram:\n| main = 1;\nexpect:\n| main = 1;\n"

    def setUp(self) -> None:
        room = tempfile.TemporaryDirectory()
        self.addCleanup(room.cleanup)
        self.folder = Path(room.name)
        (self.folder / "common.blocks").write_text('--- two\n| a\nrepeat 2 "b"\ncount 1 3 "," "#"\n')

    def cases(self, text: str) -> list[object]:
        (self.folder / "some.case").write_text(text)
        return list(runner().read_all(self.folder))

    def test_bodies(self) -> None:
        case = self.cases(f'{self.CASE}=== two\nwords: "" x\nraw:\nuse two\n"\\x41\\n\\""\n> c\nexpect:\n')[1]
        self.assertEqual(getattr(case, "raw"), b'a\nbb1,2,3A\n"c')
        self.assertEqual((getattr(case, "words"), getattr(case, "expect")), (["", "x"], b""))

    def test_wrong_files_are_told_with_their_place(self) -> None:
        for text, said in (
            (self.CASE + self.CASE, "some.case:7: the name stands also at some.case:1"),
            ("=== one\nexpect:\n", "some.case:1: the words or what is expected are missing"),
            (self.CASE + "use three\n", "some.case:7: not a line of a body"),
            (self.CASE + '"a\n', "some.case:7: a quoted text"),
        ):
            with self.assertRaises(Exception) as raised:
                self.cases(text)
            self.assertTrue(str(raised.exception).startswith(said), raised.exception)

    def test_an_answer_that_differs_fails(self) -> None:
        case = self.cases(self.CASE)[0]
        for script, told in (
            ("cat", []),
            ("cat; exit 1", ["status: expected 0, given 1"]),
            ("cat >/dev/null; echo 'main = 2;'", ["from line 1 of the output on (- expected, + given):"]),
            ("cat; echo no >&2", ["standard error isn't empty: no"]),
        ):
            program = self.folder / "fc"
            program.write_text(f"#!/bin/sh\n{script}\n")
            program.chmod(program.stat().st_mode | stat.S_IXUSR)
            self.assertEqual(runner().complaints(str(program), case)[:1], told, script)


if __name__ == "__main__":
    unittest.main()
