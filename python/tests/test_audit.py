"""The audit: docs/audit.md is what tools/audit makes, its rows are in order and whole, and no name gets a second
meaning among the definitions on which the clause of `fc` leans."""

from __future__ import annotations

import re
import tempfile
import unittest
from pathlib import Path

from helping import TOP

from audit import doubles
from audit.closure import Repository
from audit.definitions import Definition, read_code, read_definitions
from audit.notation import NOTATION, OUTSIDE
from audit.page import FEW, Page, place, sentence

ROW = re.compile(r"^\| `(\w+/(?:specs|src)/[\w/]+\.\w+)` \| ([\d–, ]+) \|", re.MULTILINE)

LOW = """\
-- Numbers.
use Rattle.std.specs.Prelude.{ℕ, List, map}
use Rattle.low.specs.declared.kinds.Kind.{Kind}
use Rattle.low.specs.declared.kinds.Kind.TheVariants as kind
use Rattle.low.specs.declared.kinds.TheConstants.{MOST}

-- how often
abbrev pub times : Kind → ℕ
times kind.One = 1
times (kind.Many parts) = MOST

-- a tree, and its branches
mutual
  pub data Tree : Type 0 where
    Leaf : ℕ → Tree
    Fork : Trees → Tree

  pub data Trees : Type 0 where
    Row : List Tree → Trees

abbrev mutual
  pub size : Tree → ℕ
  size (Leaf times) = times
  size (Fork (Row ts)) = 0

  other : Tree → ℕ
  other t = 0
"""
HIGH = """\
-- A promise.
use Rattle.low.specs.Numbers.{Tree, Leaf, size}
use Rattle.low.specs.Numbers as numbers

-- of each tree
pub record Promise (t : Tree) : Type 0 where
  -- size
  pub times : numbers.times kind ≡ 2
  pub small : (size : ℕ) → times ≡ size

abbrev pub made : ℕ → Tree
made n =
    Leaf n
"""
KINDS = """\
//! Kinds.
use crate::parts::Part;

/// The most.
pub const MOST: u32 = 2;

/// A kind.
#[derive(Drop)]
pub enum Kind {
    One,
    Many(Vec<Part>),
}
"""
TOP_CALL = """\
//! The call.
ghost use Rattle.low.specs.Numbers.{size};
ghost use Rattle.high.specs.Promise.{Promise, made};

use low::Kind;

/// Something outside.
pub trait Outside {
    fn left(&self) -> u32
        ensures least { size (made result) ≡ 0 };
}

/// Calls.
pub fn call<O: Outside>(outside: &O) -> Kind
    ensures kept { Promise result }
{
    made(outside)
}
"""


def repository(folder: Path) -> Repository:
    """Two small crates."""
    texts = {
        "low/specs/Numbers.antt": LOW,
        "high/specs/Promise.antt": HIGH,
        "low/src/kinds.rt": KINDS,
        "low/src/parts.rt": "//! Parts.\n\npub struct Part {\n    pub size: u32,\n}\n",
        "high/src/top.rt": TOP_CALL,
    }
    for name, text in texts.items():
        (folder / name).parent.mkdir(parents=True, exist_ok=True)
        (folder / name).write_text(text)
    return Repository(folder)


class Closure(unittest.TestCase):
    def setUp(self) -> None:
        room = tempfile.TemporaryDirectory()
        self.addCleanup(room.cleanup)
        self.small = repository(Path(room.name))

    def named(self, file: str, name: str) -> list[str]:
        return [it.name for it in self.small.named(self.small.find(file, name))]

    def test_what_a_definition_names(self) -> None:
        self.assertEqual(self.named("low/specs/Numbers.antt", "times"), ["Kind", "MOST"])
        self.assertEqual(self.named("low/specs/Numbers.antt", "Tree"), ["Trees"])
        self.assertEqual(self.named("low/specs/Numbers.antt", "size"), ["Tree", "Trees"])
        self.assertEqual(self.named("high/specs/Promise.antt", "Promise"), ["Tree", "times"])
        self.assertEqual(self.named("high/specs/Promise.antt", "made"), ["Tree"])
        self.assertEqual(self.named("low/src/kinds.rt", "Kind"), ["Part"])
        self.assertEqual(self.named("high/src/top.rt", "call"), ["Outside", "Kind", "Promise"])
        self.assertEqual(self.named("high/src/top.rt", "Outside"), ["size", "made"])

    def test_what_it_rests_on_and_what_is_cut(self) -> None:
        promise = self.small.find("high/specs/Promise.antt", "Promise")
        times = self.small.find("low/specs/Numbers.antt", "times")
        found = {it.name for it in self.small.rests_on([promise])}
        self.assertEqual(found, {"Promise", "Tree", "Trees", "times", "Kind", "Part", "MOST"})
        found = {it.name for it in self.small.rests_on([promise], lambda it: it == times)}
        self.assertEqual(found, {"Promise", "Tree", "Trees", "times"})
        self.assertEqual(self.small.named_outside(times), ["Rattle.std.specs.Prelude.ℕ"])

    def test_where_definitions_stand(self) -> None:
        file = self.small.file("low/specs/Numbers.antt")
        assert file is not None
        found = {it.name: (it.first, it.last, it.comment) for it in file.definitions}
        self.assertEqual(found["times"], (7, 10, "how often"))
        self.assertEqual(found["Tree"], (12, 16, "a tree, and its branches"))
        self.assertEqual(found["Trees"], (18, 19, ""))
        self.assertEqual((found["size"][1], found["other"][:2]), (24, (26, 27)))
        self.assertEqual(file.said, "Numbers.")

    def test_what_is_said_of_a_definition(self) -> None:
        with tempfile.TemporaryDirectory() as room:
            written = Path(room, "Lengths.antt")
            written.write_text("-- Lengths.\n\n-- ---- of lists\nabbrev pub one : ℕ\none = 1\n\n-- two\ntwo = 2\n")
            read = read_definitions(written, "low/specs/Lengths.antt")
            found = {it.name: (it.first, it.comment) for it in read.definitions}
            self.assertEqual(found, {"one": (4, ""), "two": (7, "two")})
            written = Path(room, "cut.rt")
            written.write_text("//! Cuts.\n\n// The cut.\nconst CUT: u32 = 1;\n")
            (cut,) = read_code(written, "low/src/cut.rt").definitions
            self.assertEqual((cut.first, cut.last, cut.comment), (3, 4, "The cut."))

    def test_names_with_several_meanings(self) -> None:
        first = Definition("a/specs/A.antt", "size", 1, 1, "", "", False)
        second = Definition("b/specs/B.antt", "Tree", 1, 1, "", "", True, ("size", "Leaf"))
        third = Definition("c/specs/C.antt", "Leaf", 1, 1, "", "", True)
        self.assertEqual(doubles.doubles([first, second, third]), {"Leaf": ["b/specs/B.antt", "c/specs/C.antt"]})

    def test_a_struct_and_the_record_of_its_crate_are_one_meaning(self) -> None:
        record = Definition("a/specs/A.antt", "Core", 1, 1, "", "pub record Core : Type 0 where", True)
        other = Definition("a/specs/B.antt", "Core", 1, 1, "", "pub data Core : Type 0 where", True)
        struct = Definition("a/src/a.rt", "Core", 1, 1, "", "pub struct Core {", True)
        above = Definition("b/src/b.rt", "Core", 1, 1, "", "pub struct Core {", True)
        self.assertEqual(doubles.doubles([record, struct]), {})
        for several in ([record, above], [other, struct], [record, other], [record, struct, above]):
            self.assertEqual(doubles.doubles(several), {"Core": sorted(it.file for it in several)})


class Audit(unittest.TestCase):
    repository: Repository
    page: Page
    every: dict[Definition, Definition | None]

    @classmethod
    def setUpClass(cls) -> None:
        cls.repository = Repository(TOP / "crates")
        cls.page = Page(cls.repository)
        cls.every = cls.repository.rests_on([cls.page.root])

    def test_the_page_is_what_the_tool_makes(self) -> None:
        self.assertEqual((TOP / "docs/audit.md").read_text(), self.page.write(), "call tools/audit")

    def test_all_on_which_the_clause_leans_stands_on_the_page(self) -> None:
        on_page: dict[str, set[int]] = {}
        for file, lines in ROW.findall((TOP / "docs/audit.md").read_text()):
            for span in lines.split(", "):
                first, _, last = span.partition("–")
                on_page.setdefault(file, set()).update(range(int(first), int(last or first) + 1))
        for it in self.every:
            with self.subTest(it.name):
                self.assertLessEqual({*range(it.first, it.last + 1)}, on_page[it.file])

    def test_each_row_rests_on_those_above_it(self) -> None:
        above: set[Definition] = {*self.page.cuts}
        for promise, found in self.page.soundness():
            left = {self.repository.find(*place(it)) for it in promise.cut}
            for _, definitions in self.page.in_order(found):
                above.update(definitions)
                for it in definitions:
                    self.assertLessEqual({*self.repository.named(it)} - left, above, it)
        for _, definitions in self.page.in_order(self.page.exactness()):
            above.update(definitions)
            for it in definitions:
                self.assertLessEqual({*self.repository.named(it)}, above, it)

    def test_each_row_names_what_its_lines_define(self) -> None:
        page = self.page.write()
        for number, (promise, found) in enumerate(self.page.soundness(), 1):
            section = page.partition(f"### {number}. {promise.title}")[2].partition("\n#")[0]
            rows = {file: row for row in section.splitlines() for file in ROW.findall(row + "\n")}
            for (file, _), row in rows.items():
                its = [it for it in found if it.file == file]
                for it in its:
                    self.assertIn(f"`{it.name}`", row)
                    self.assertTrue(len(its) > FEW or sentence(it.comment) in row, it)

    def test_each_name_of_the_kit_has_a_meaning(self) -> None:
        said = [name for names, _ in OUTSIDE for name in names.split()]
        self.assertEqual(len({*said}), len(said))
        self.assertEqual({*said}, self.page.outside(), "python/audit/notation.py says what they mean")
        self.assertEqual(len({sign for sign, _ in NOTATION}), len(NOTATION))

    def test_each_name_of_the_way_has_a_section(self) -> None:
        """But for what is never gone into."""
        cut = {f"`{it.name}`" for it in self.page.cuts}
        for it in self.page.ends():
            never = [part for part in self.page.beside(it).split("; ") if part.startswith("never: ")]
            self.assertLessEqual({*", ".join(never).replace("never: ", "").split(", ")} - {""}, cut, it)

    def test_each_promise_of_the_headline_has_a_section(self) -> None:
        """What the last section adds of the headline says which promise is kept, and is none."""
        _, last = self.page.soundness()[-1]
        added = [it for it in last if it.file == "fc_answers/specs/Headline.antt"]
        self.assertEqual([it.name for it in added if it.is_type], [])

    def test_each_name_that_is_cut_is_met(self) -> None:
        met = self.repository.rests_on([self.page.root], lambda it: it in self.page.cuts)
        self.assertLessEqual({*self.page.cuts}, {*met})

    def test_no_name_that_a_file_brings_in_is_overlooked(self) -> None:
        for file in {it.file for it in self.every}:
            read = self.repository.file(file)
            assert read is not None
            if file.endswith(".antt"):
                named = {one for it in read.definitions for one in self.repository.named(it)}
                brought = {self.repository.at(*it) for it in read.names.values()} - {None}
                self.assertLessEqual(brought, named, file)

    def test_each_name_has_one_meaning(self) -> None:
        self.assertEqual(doubles.doubles(self.every), {})


if __name__ == "__main__":
    unittest.main()
