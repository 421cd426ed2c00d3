"""Tests of `fieldc compose`: what is put in front of a program, what is refused, and where `fc`'s refusals are told."""

# mypy: no-strict-optional

from __future__ import annotations

import contextlib
import io
import sys
import tempfile
import unittest
from pathlib import Path
from unittest import mock

ROOT = Path(__file__).resolve().parent.parent.parent
sys.path.insert(0, str(ROOT / "python"))

from fieldc import blocks, composing as compose  # noqa: E402
from fieldc.command import main  # noqa: E402
from fieldc.refusals import Call, Explanation, Fault, Refusal, Section  # noqa: E402

LIBRARY = blocks.read_library([ROOT / "library"])
FRONT = "language 2; ceiling 100; input source: bool;\n"
DEVICES = '[{"id": 0, "inputs": {"source": true}}, {"id": 80, "inputs": {"source": false}}]'
LINE = f'{{"devices": {DEVICES}, "links": [[0, 80, 1]]}}'
CUT = "the ceiling {} is below device 80 of net.json: uid is cut there, so devices aren't told apart"
LOW = "language 2; ceiling 70; input source: bool; main = parent(uid);"
NEEDS_FC = unittest.skipUnless(compose.built(), "fc isn't built (./build)")


def library_of(**files: str) -> blocks.Library:
    """The blocks of a folder with these files."""
    with tempfile.TemporaryDirectory() as folder:
        for name, text in files.items():
            (Path(folder) / f"{name}.fc").write_text(text)
        return blocks.read_library([Path(folder)])


def asked(*words: str, standing: str = "") -> tuple[int, str, str]:
    """What `fieldc compose` answers on standard input: its status, its output, and what it says on standard error."""
    with tempfile.TemporaryDirectory() as folder:
        path = Path(folder) / "out.fc"
        said = io.StringIO()
        reader = io.TextIOWrapper(io.BytesIO(standing.encode()), encoding="utf-8")
        with mock.patch.object(sys, "stdin", reader), contextlib.redirect_stderr(said):
            status = main(["compose", "-o", str(path), *words])
        return status, path.read_text() if path.exists() else "", said.getvalue()


def refused(test: unittest.TestCase, text: str, library: blocks.Library = LIBRARY) -> str:
    """The fault of a program."""
    with test.assertRaises(Fault) as met:
        compose.composed(text, library)
    return str(met.exception)


class Composing(unittest.TestCase):
    """The composed text: which blocks, in which order, at which place."""

    def names(self, text: str) -> list[str]:
        return [block.name for block in compose.composed(text, LIBRARY).taken]

    def test_a_block_stands_behind_what_it_calls_in_the_order_of_the_calls(self) -> None:
        self.assertEqual(self.names(FRONT + "main = hops(sense source, 9);"), ["hops"])
        found = self.names(FRONT + "main = channel(sense source, sense source, 9, 1);")
        self.assertEqual(found, ["broadcast", "hops", "distanceBetween", "channel"])
        found = self.names(FRONT + "main = hops(sense source, parent(uid)) + div(1, 2);")
        self.assertEqual(found, ["hops", "parent", "div"])
        self.assertEqual(self.names(FRONT + "main = hops(sense source, 9) + hops(sense source, 8);"), ["hops"])

    def test_they_stand_in_front_of_the_first_function_and_all_else_stays(self) -> None:
        text = (
            "// mine\nlanguage 2; ceiling 100;\ninput source: bool; // where it begins\n\n"
            "// twice as far\ndef twice(b: bool): int = 2 * hops(b, 9);\nmain = twice(sense source);\n"
        )
        made = compose.composed(text, LIBRARY)
        self.assertEqual(made.text.replace(made.inserted, ""), text)
        front, behind = made.text.split(made.inserted)
        self.assertTrue(front.endswith("// where it begins\n"))
        self.assertTrue(behind.startswith("\n// twice as far\ndef twice"))
        self.assertIn(LIBRARY["hops"].text, made.inserted)

    def test_a_program_on_one_line(self) -> None:
        made = compose.composed("language 2; ceiling 100; main = hops(true, 9);", LIBRARY)
        self.assertEqual(made.text.splitlines()[0], "language 2; ceiling 100;")
        self.assertEqual(made.text.splitlines()[-1], " " * 24 + " main = hops(true, 9);")

    def test_a_program_without_blocks_stays(self) -> None:
        own = "ceiling 10; def hops(a: int): int = a; main = hops(1);"
        for text in ("ceiling 10; main = 1;", own, "", "// nothing"):
            self.assertEqual(compose.compose(text, LIBRARY), text)

    def test_comments_and_words_of_the_language_are_no_calls(self) -> None:
        text = "language 2; ceiling 9; // distance(a, 3)\nmain = min(1, mux(true, 2, minHoodLoc(nbr{3}, 4)));"
        self.assertEqual(compose.compose(text, LIBRARY), text)

    def test_an_own_function_goes_before_a_block_of_its_name(self) -> None:
        text = FRONT + "def parent(p: int): int = p;\nmain = parent(hops(sense source, 9));"
        self.assertEqual([block.name for block in compose.composed(text, LIBRARY).taken], ["hops"])

    def test_composing_twice_changes_nothing_more(self) -> None:
        once = compose.compose(FRONT + "main = regionMean(sense source, 9, 1);", LIBRARY)
        self.assertEqual(compose.compose(once, LIBRARY), once)

    def test_lines_of_the_composed_text_lead_back(self) -> None:
        parted = FRONT + "// a\nmain = hops(sense source, 9) +\n  parent(1);\n"
        for text in (parted, "language 2;\nceiling 3; main = hops(true, 9)\n+ 1;"):
            made = compose.composed(text, LIBRARY)
            rows, found = text.splitlines(), []
            for number, row in enumerate(made.text.splitlines(), 1):
                line, block = made.origin(number)
                if block is None:
                    self.assertTrue(row in rows[line - 1] or rows[line - 1].find(row.strip()) == row.find(row.strip()))
                    found.append(line)
                else:
                    self.assertIn(row, block.text + f"// {block.name}: the block of library/{block.file}")
                    self.assertIn(block.name, rows[line - 1])
            self.assertEqual(sorted(set(found)), list(range(1, len(rows) + 1)))


class Refusing(unittest.TestCase):
    """What `compose` refuses by itself."""

    def test_a_name_that_no_block_has_is_named_with_the_nearest(self) -> None:
        calls = "broadcst(sense source, 1, 9, 0) +\n  distanceTo(sense source, 9) + zzz(1) + zzz(2)"
        said = refused(self, FRONT + f"main = {calls};")
        first, second, third = said.splitlines()
        self.assertEqual(first, "line 2: no block is called broadcst; the nearest: broadcast")
        self.assertTrue(second.startswith("line 3: no block is called distanceTo; the nearest: distance, "), second)
        self.assertEqual(third, "line 3: no block is called zzz; --list has all")

    def test_names_of_elsewhere_lead_to_the_block(self) -> None:
        self.assertEqual(blocks.near("summarize", LIBRARY)[0], "summariseSum")
        self.assertEqual(blocks.near("findParent", LIBRARY)[0], "parent")
        self.assertEqual(blocks.near("classicGradient", LIBRARY)[0], "distance")
        self.assertEqual(blocks.near("recentTrue", LIBRARY)[0], "recently")
        self.assertIn("minHoodLoc", blocks.near("minHood", LIBRARY))
        self.assertEqual(blocks.near("recentlyTrue", LIBRARY)[0], "recently")
        self.assertEqual(blocks.near("round_since", LIBRARY)[0], "timer")
        self.assertEqual(blocks.near("S", LIBRARY), ["sparse", "heads", "leader"])
        self.assertTrue(all(name in LIBRARY for names in blocks.FOUR_LETTERS.values() for name in names))

    def test_a_name_that_a_taken_block_has(self) -> None:
        said = refused(self, FRONT + "def hops(b: bool): int = 1;\nmain = anywhere(sense source, hops(true));")
        self.assertEqual(said, "line 2: def hops has the name of a block that anywhere calls: choose another name")
        said = refused(self, "language 2; ceiling 9; input parent: bool; main = parent(uid);")
        self.assertEqual(said, "line 1: input parent has the name of a block that is called here: choose another name")

    def test_the_first_language_goes_with_blocks_without_share_and_rise_alone(self) -> None:
        said = refused(self, "ceiling 9;\nmain = hops(true, 9);")
        self.assertEqual(said, "line 2: the block hops needs language 2: begin the program with `language 2;`")
        said = refused(self, "ceiling 9;\nmain = parent(uid) +\n summariseSum(true, 5, hops(true, 3)) + leader(4);")
        self.assertEqual(said, "line 3: the block summariseSum needs language 2: begin the program with `language 2;`")
        self.assertIn(LIBRARY["parent"].text, compose.compose("ceiling 9; main = parent(uid);", LIBRARY))

    def test_a_library_that_is_none(self) -> None:
        with self.assertRaisesRegex(Fault, "has no blocks"):
            library_of()
        with self.assertRaisesRegex(Fault, "b.fc line 1: f is in a.fc too"):
            library_of(a="def f(): int = 1;", b="def f(): int = 2;")
        with self.assertRaisesRegex(Fault, "a.fc line 2: a file of blocks may have only functions"):
            library_of(a="def f(): int = 1;\nmain = 2;")
        with self.assertRaisesRegex(Fault, "a.fc line 1: a file of blocks may have only functions"):
            library_of(a="def f(): int = 1")
        round_about = library_of(a="def f(): int = g();", b="def g(): int = f();")
        self.assertEqual(refused(self, "ceiling 1; main = f();", round_about), "the library: f calls g calls f")
        said = refused(self, "ceiling 1; main = f();", library_of(a="def f(): int = g();"))
        self.assertEqual(said, "the library: f of a.fc calls g, which no block is")


class Warning(unittest.TestCase):
    """Device numbers that aren't told apart."""

    def said(self, main_text: str) -> list[str]:
        return compose.warnings(compose.composed(f"language 2; ceiling {main_text};", LIBRARY), LINE, "net.json")

    def test_a_ceiling_below_a_device_number(self) -> None:
        self.assertEqual(self.said("79; main = parent(1)"), [CUT.format(79)])
        self.assertEqual(self.said("80; main = parent(1)"), [])
        self.assertEqual(self.said("79; main = hops(true, 9)"), [])
        self.assertEqual(len(self.said("79; main = uid + hops(true, 9)")), 1)

    def test_a_block_that_tells_fewer_numbers_apart(self) -> None:
        said = self.said("99; main = leader(9)")
        self.assertEqual(said, ["the block leader tells devices apart up to 63, and net.json has device 80"])

    def test_a_network_that_is_none(self) -> None:
        for text in ("", "{}", '{"devices": []}', '{"devices": [{"id": "a"}]}', "[]"):
            with self.assertRaisesRegex(Fault, "net.json isn't a scene"):
                compose.warnings(compose.Composition("", 0, ""), text, "net.json")


class Telling(unittest.TestCase):
    """A refusal of `fc` is told at the line of the program as it was."""

    def told(self, text: str, line: str) -> str:
        made = compose.composed(text, LIBRARY)
        refusal = Refusal(3, line.split()[0], line, Call(("check",), (Section("program", "", 1, made.text),)))
        return compose.told(compose.own_explanation(made, refusal, "mine.fc"))

    def test_a_line_behind_the_blocks(self) -> None:
        text = FRONT + "// ours\ndef f(a: int): int = a\n;\nmain = hops(sense source, f(2)) + ;"
        made = compose.composed(text, LIBRARY)
        front, _ = made.text.split("main")
        said = self.told(text, f"syntax 6 {front.count(chr(10)) + 1}")
        self.assertTrue(said.startswith("fieldc compose: mine.fc:5"), said)
        self.assertIn("    main = hops(sense source, f(2)) + ;\n", said)

    def test_a_line_of_a_block(self) -> None:
        said = self.told("language 2; ceiling 5;\nmain = 1 +\n colour(uid);", "types 3 literal")
        self.assertIn("mine.fc:3", said)
        self.assertIn("in the block colour of library/heads.fc, to which this line leads", said)

    def test_an_explanation_is_moved_to_the_line_as_it_was(self) -> None:
        text = "language 2; ceiling 9; main = hops(true, 9)\n  + 1;"
        made = compose.composed(text, LIBRARY)
        last = made.text.count("\n") + 1
        said = Explanation(
            "It is on line 1 and on line 3.", line=last - 1, column=31, hint=f"See line {last}.", page="docs/x.md"
        )
        refusal = Refusal(3, "types", "types 4 mismatch", Call(("check",), ()))
        with mock.patch.object(compose, "explained", lambda call, refusal: said):
            found = compose.own_explanation(made, refusal, "mine.fc")
        self.assertEqual((found.line, found.column, found.hint), (1, 31, "See line 2."))
        self.assertEqual(found.what, "It is on line 1 and on a line of the block hops.")
        self.assertEqual(made.text.split("\n")[last - 2][30:34], "hops")
        self.assertEqual(text.split("\n")[0][30:34], "hops")

    def test_an_offset_counts_bytes(self) -> None:
        text = FRONT + "// \u00e4\u00f6\u00fc\nmain = hops(true, 9) \u00a7;"
        made = compose.composed(text, LIBRARY)
        offset = len(made.text[: made.text.index("\u00a7")].encode())
        said = self.told(text, f"lexical {offset}")
        self.assertRegex(said, r"^fieldc compose: mine\.fc:3:")
        self.assertIn("    main = hops(true, 9) \u00a7;\n", said)

    def test_a_refusal_without_a_place(self) -> None:
        self.assertIn("mine.fc: ", self.told(FRONT + "main = hops(true, 1);", "limit nodes 3000"))


@NEEDS_FC
class Command(unittest.TestCase):
    """The command as a user calls it, with `fc` beside it."""

    def test_a_composed_program_is_taken_by_fc(self) -> None:
        status, text, said = asked("-", standing=FRONT + "main = regionSum(sense source, 9, 1);\n")
        self.assertEqual((status, said), (0, ""))
        self.assertEqual(text, compose.compose(FRONT + "main = regionSum(sense source, 9, 1);\n", LIBRARY))

    def test_the_sections_behind_a_program_stay(self) -> None:
        behind = "%%\n" + LINE + "\n%%\nrun 1\n"
        status, text, said = asked("-", standing=FRONT + "main = parent(uid);\n" + behind)
        self.assertEqual((status, said), (0, ""))
        self.assertTrue(text.endswith(behind))
        self.assertEqual(text.count("%%"), 2)

    def test_what_fc_refuses_is_told_at_the_users_line(self) -> None:
        for text, line, row in (
            (FRONT + "main = hops(sense source, 9) +\n  hops(1, 9);", (2, 3), "hops"),
            (FRONT + "\nmain = hops(sense source, 9) == 1;", (3,), "main"),
            (FRONT + "main = hops(sense source, 9) + 1 ! 2;", (2,), "main"),
            ("language 2; ceiling 5;\n\nmain = colour(uid);", (3,), "main"),
            ("language 2; ceiling 5; main =\n hops(true, 9);", (1, 2), ""),
        ):
            status, written, said = asked("-", standing=text)
            self.assertEqual((status, written), (3, ""), said)
            self.assertIn(said.splitlines()[0].split(":")[2], map(str, line), said)
            self.assertIn(row, said)

    def test_limits_have_their_status(self) -> None:
        many = "language 2; ceiling 99;\nmain = (sparse(2), (sparse(3), sparse(4)));"
        status, written, said = asked("-", standing=many)
        self.assertEqual((status, written), (4, ""))
        self.assertIn("nodes", said)
        status, written, _ = asked("--unjudged", "-", standing="language 2; ceiling 5; main = colour(uid);")
        self.assertEqual(status, 0)
        self.assertIn("def colour", written)

    def test_a_network_beside_is_looked_at(self) -> None:
        with tempfile.TemporaryDirectory() as folder:
            path = Path(folder) / "net.json"
            path.write_text(LINE)
            status, _, said = asked("--network", str(path), "-", standing=LOW)
            self.assertEqual(status, 0)
            self.assertIn(f"warning: the ceiling 70 is below device 80 of {path}", said)
        status, _, said = asked("-", standing=LOW + "\n%%\n" + LINE)
        self.assertEqual(status, 0)
        self.assertIn("warning: the ceiling 70 is below device 80", said)

    def test_a_network_that_isnt_taken_is_said(self) -> None:
        with tempfile.TemporaryDirectory() as folder:
            path = Path(folder) / "net.json"
            path.write_text(LINE.replace("[0, 80, 1]", "[0, 80, 7]"))
            status, made, said = asked("--network", str(path), "-", standing=LOW)
            self.assertEqual((status, made[:8]), (0, "language"))
            self.assertIn(f"fieldc: warning: {path}:1:", said)
            self.assertIn("In this program each link weighs 1, but this one weighs 7.", said)

    def test_a_no_that_comes_of_a_blocks_arguments(self) -> None:
        text = FRONT + "main = broadcast(sense source, 1, 100, 0);"
        made = compose.composed(text, LIBRARY)
        no = compose.judged(made, Section("network", "", 1, compose.least_network(text)))
        self.assertRegex(no.line, r"^no \d+ lead-at-ceiling$")
        there = made.text[: made.text.index("share")].count("\n") + 1
        with mock.patch.object(compose, "explained", lambda call, refusal: Explanation("so", line=there)):
            self.assertEqual(
                compose.wanting(made, no, "mine.fc"),
                f"mine.fc:2: the block broadcast gets {no.line} with these arguments; it needs: far below the ceiling.",
            )
        with mock.patch.object(compose, "explained", lambda call, refusal: Explanation("so", line=1)):
            self.assertIsNone(compose.wanting(made, no, "mine.fc"))
        status, written, _ = asked("-", standing=text)
        self.assertEqual((status, written), (0, made.text))

    def test_an_own_folder_of_blocks(self) -> None:
        with tempfile.TemporaryDirectory() as folder:
            (Path(folder) / "mine.fc").write_text("// far: apart.\ndef far(b: bool): bool = not anywhere(b, 5);\n")
            status, text, said = asked("--library", folder, "-", standing=FRONT + "main = far(sense source);")
            self.assertEqual((status, said), (0, ""))
            defined = [part.name for part in blocks.declarations(text) if part.kind == "def"]
            self.assertEqual(defined, ["hops", "anywhere", "far"])

    def test_the_list_has_a_line_for_each_block(self) -> None:
        status, text, _ = asked("--list")
        self.assertEqual(status, 0)
        self.assertEqual(len(text.splitlines()), sum(not block.is_part for block in LIBRARY.values()))
        self.assertRegex(text, r"(?m)^hops\(source, far\) +how many hops away the nearest source is")

    def test_one_block_is_shown(self) -> None:
        status, text, _ = asked("--show", "hops")
        self.assertEqual(status, 0)
        self.assertEqual(text, (ROOT / "library" / "hops.fc").read_text())
        status, text, said = asked("--show", "hop")
        self.assertEqual((status, text), (3, ""))
        self.assertIn("no block is called hop; the nearest: hops", said)

    def test_faults_name_the_file(self) -> None:
        status, text, said = asked("-", standing=FRONT + "main = zzz(1);")
        self.assertEqual((status, text), (3, ""))
        self.assertIn("standard input:2: no block is called zzz", said)
        status, _, said = asked("nowhere.fc")
        self.assertEqual(status, 5)
        self.assertIn("nowhere.fc can't be read", said)


if __name__ == "__main__":
    unittest.main()
