"""Tests the reader of programs: tokens, grammar, types, the unfolded nodes, ranges and patterns.

Wanted are what the documents say, counts that were worked out by hand, and, where `fc` is there, what it says.
"""

# mypy: no-strict-optional

from __future__ import annotations

import json
import re
import unittest

import helping
from helping import EXAMPLES, TOP, missing, needs_fc

if missing("lark"):
    raise unittest.SkipTest(missing("lark"))

from fieldc.language import Unfolded, reading
from fieldc.elsewhere import similar
from fieldc.language.patterns import Patterns
from fieldc.language.ranges import Ranges, text_of
from fieldc.language.tree import At, quoted, within
from fieldc.program import answered
from fieldc.refusals import Call, Refusal, Section

BLOCK = re.compile(r"^`((?:yes|no) [^`\n]*)`\n\n```fc\n(.*?)^```$", re.MULTILINE | re.DOTALL)
DOCUMENTED = [
    (verdict, text) for verdict, text in BLOCK.findall((TOP / "docs" / "patterns.md").read_text(encoding="utf-8"))
]
FACTS = re.compile(r"^The hop count on three devices in a line:\n\n```\n(.*?)^```$", re.MULTILINE | re.DOTALL)
HOPS = helping.HOPS


def unfolded(text: str) -> Unfolded:
    """The nodes of a program that is in order."""
    found = reading(text)
    assert found.unfolded is not None, found.fault
    return found.unfolded


def facts(program: Unfolded) -> list[str]:
    """The nodes as `check --facts` writes them, but for the levels."""
    ranges = Ranges(program)
    names = [part.name for part in program.inputs]
    lines = []
    for node in program.nodes:
        operator = node.name if node.form == "apply" else node.form
        if node.form in ("number", "truth"):
            operator = json.dumps(node.expr.value)
        elif node.form == "variable":
            operator = f"var {node.binder}"
        elif node.form == "sense":
            operator = f"sense {names.index(node.name)}"
        lines.append(f"{node.place} {operator} {node.type} {text_of(ranges[node.place])}")
    return lines


def programs() -> list[tuple[str, str]]:
    """All programs of the examples, the patterns and the tables of wrong inputs, by where they stand."""
    import wrong_inputs

    found = [(f"docs/patterns.md, {verdict}", text) for verdict, text in DOCUMENTED]
    for path in sorted([*EXAMPLES.glob("*.txt"), *EXAMPLES.glob("*.fc")]):
        found.append((path.name, path.read_text(encoding="utf-8").split("\n%%\n")[0]))
    for file, case in wrong_inputs.all_cases():
        texts = [section.text for section in case.call().sections[:1] if len(section.text) <= 1_048_576]
        found += [(f"wrong/{file}.txt, {case.name}", text) for text in texts]
    return found


def scene_for(program: Unfolded) -> str:
    """A network of one device with the least values of its inputs."""
    inputs = {part.name: part.bounds[0][0] if part.bounds else False for part in program.inputs}
    return json.dumps({"devices": [{"id": 0, "inputs": inputs}], "links": []})


def said(words: list[str], *texts: str) -> str:
    """What `fc` writes, a refusal too."""
    kinds = ("program", "network", "log")
    try:
        return answered(Call(tuple(words), tuple(Section(kind, "", 1, text) for kind, text in zip(kinds, texts)))).text
    except Refusal as refusal:
        return refusal.line


class Reading(unittest.TestCase):
    """Tokens and declarations, with places."""

    def test_places(self) -> None:
        found = reading("ceiling 10;\n\n// hops\ndef f(a: int): int =\n\ta + (2 * a);\nmain = f(3);\n").program
        body = found.declarations[1].body
        self.assertEqual([part.at for part in within(body)], [At(5, 2), At(5, 2), At(5, 7), At(5, 7), At(5, 11)])
        self.assertEqual(body.mark, At(5, 4))
        self.assertEqual(quoted(found.text, body.kids[1]), "`(2 * a)`")
        self.assertEqual(found.declarations[1].parameters[0].at, At(4, 7))
        self.assertEqual(found.main.body.at, At(6, 8))

    def test_longest_token(self) -> None:
        found = reading("ceiling 10; def lets(a: int): int = a; main = lets(1)-0007;").program
        self.assertEqual([part.form for part in within(found.main.body)], ["apply", "call", "number", "number"])
        self.assertEqual(found.main.body.kids[1].value, 7)

    def test_left_to_right(self) -> None:
        found = unfolded("ceiling 10; main = 5 - 2 - 1;")
        self.assertEqual([node.name or node.expr.value for node in found.nodes], ["-", "-", 5, 2, 1])

    def test_long_texts_are_cut(self) -> None:
        text = "ceiling 10; main = " + " + ".join(["1"] * 200) + ";"
        shown = quoted(text, reading(text).program.main.body)
        self.assertLessEqual(len(shown), 62)
        self.assertIn(" .. ", shown)

    def test_deep_programs(self) -> None:
        nots = "ceiling 10; main = " + "not " * 2040 + "true;"
        self.assertEqual(len(unfolded(nots).nodes), 2041)
        sums = "ceiling 10; main = " + " + ".join(["1"] * 1024) + ";"
        self.assertEqual(text_of(Ranges(unfolded(sums))[0]), "10..10")
        heard = "ceiling 10; main = rep(10){(d) => minHoodLoc(nbr{d}" + " + 0" * 900 + ", 5)};"
        self.assertEqual(Patterns(unfolded(heard)).first().reason, "growth-zero")
        wrong = "ceiling 10; main = " + "not " * 4000 + "true true;"
        self.assertEqual(reading(wrong).fault.line, "syntax 2 1")

    def test_numbers_of_many_digits(self) -> None:
        self.assertEqual(reading("ceiling " + "0" * 5000 + "9; main = 1;").unfolded.ceiling, 9)
        self.assertEqual(reading("ceiling " + "9" * 5000 + "; main = 1;").fault.line, "syntax 1 1")

    def test_similar_names(self) -> None:
        self.assertEqual(similar("distanse", ["distance", "source"]), "distance")
        self.assertEqual(similar("Source", ["distance", "source"]), "source")
        self.assertIsNone(similar("x", ["distance", "source"]))


class Nodes(unittest.TestCase):
    """The unfolded `main`: numbers of nodes and places, and the calls that lead there."""

    def test_hop_count(self) -> None:
        found = unfolded(
            "ceiling 10; input src: bool; main = rep(10){(d) => minHoodLoc(nbr{d} + 1, mux(sense src, 0, 10))};"
        )
        wanted = ["rep", "10", "minHoodLoc", "+", "nbr", "var 0", "1", "mux", "sense 0", "0", "10"]
        self.assertEqual([re.sub(r"^\d+ (.*?) (int|bool|field).*$", r"\1", line) for line in facts(found)], wanted)

    def test_documented_facts(self) -> None:
        page = (TOP / "docs" / "analysis.md").read_text(encoding="utf-8")
        lines = FACTS.search(page).group(1).splitlines()[1:]
        self.assertEqual(facts(unfolded(HOPS)), [line.rpartition(" ")[0] for line in lines])

    def test_counts(self) -> None:
        counts = {
            "main = 1;": 1,
            "main = " + " + ".join(["1"] * 1024) + ";": 2047,
            "def f(): int = 1; main = f() + f();": 3,
            "def f(a: int): int = a; main = f(1) + f(2);": 7,
            "def f(a: int, b: int): int = a + b; def g(a: int): int = f(a, 1); main = g(2);": 9,
        }
        for text, count in counts.items():
            with self.subTest(text=text[:40]):
                self.assertEqual(len(unfolded(f"ceiling 10; {text}").nodes), count)

    def test_too_many(self) -> None:
        ones = "ceiling 10; main = " + " + ".join(["1"] * 2047) + ";"
        self.assertEqual(reading(ones).fault.line, "limit nodes 4093")
        doubling = ["def f0(): int = 1 + 1;"] + [f"def f{n}(): int = f{n - 1}() + f{n - 1}();" for n in range(1, 60)]
        text = "ceiling 10; " + " ".join(doubling) + " main = f59();"
        self.assertEqual(reading(text).fault.line, "limit nodes 1000000")

    def test_names_in_calls(self) -> None:
        found = unfolded("ceiling 10; def f(a: int, b: int): int = a - b; main = let b = 7 in f(b, 2);")
        wanted = ["0 let", "1 7", "2 let", "3 var 0", "4 let", "5 2", "6 -", "7 var 2", "8 var 4"]
        self.assertEqual([line.split(" int")[0] for line in facts(found)], wanted)

    def test_calls(self) -> None:
        text = "ceiling 10;\ndef f(): int = uid;\ndef g(): int = f() + f();\nmain = g();\n"
        leaves = [node for node in unfolded(text).nodes if node.form == "uid"]
        chains = [[(site.function, site.at) for site in node.calls] for node in leaves]
        self.assertEqual(chains, [[("g", At(4, 8)), ("f", At(3, 16))], [("g", At(4, 8)), ("f", At(3, 22))]])
        self.assertEqual([node.expr.at for node in leaves], [At(2, 16), At(2, 16)])


class Judging(unittest.TestCase):
    """Patterns, as the documents say them."""

    def test_documented(self) -> None:
        self.assertGreaterEqual(len(DOCUMENTED), 16)
        for verdict, text in DOCUMENTED:
            with self.subTest(verdict=verdict):
                blame = Patterns(unfolded(text)).first()
                found = "yes" if blame is None else f"no {blame.place} {blame.reason}"
                self.assertTrue(
                    re.split(", | ", verdict)[0] == "yes" if found == "yes" else verdict.startswith(found + ",")
                )

    def test_first_values_are_left_out(self) -> None:
        text = "ceiling 10; main = rep(rep(0){(x) => x + 1}){(d) => minHoodLoc(nbr{d} + 1, 5)};"
        self.assertIsNone(Patterns(unfolded(text)).first())

    def test_first_in_preorder(self) -> None:
        text = "ceiling 10; main = rep(0){(x) => maxHoodLoc(nbr{x}, 1)} + rep(0){(y) => y + 1};"
        blame = Patterns(unfolded(text)).first()
        self.assertEqual((blame.place, blame.reason), (1, "converging"))


@needs_fc
class AsFc(unittest.TestCase):
    """The reader and `fc` agree on every program that stands in the repository."""

    def test_faults_and_verdicts(self) -> None:
        for where, text in programs():
            with self.subTest(where=where):
                found = reading(text)
                scene = scene_for(found.unfolded) if found.unfolded is not None else helping.LINE
                answer = said(["check"], text, scene).split("\n")[0]
                if found.unfolded is None:
                    self.assertEqual(found.fault.line, answer)
                    continue
                blame = Patterns(found.unfolded).first()
                wanted = "yes" if blame is None else f"no {blame.place} {blame.reason}"
                self.assertEqual(answer.split(" ")[0] if blame is None else answer, wanted)

    def test_nodes(self) -> None:
        for where, text in programs():
            found = reading(text).unfolded
            if found is None:
                continue
            with self.subTest(where=where):
                lines = said(["check", "--facts"], text, scene_for(found)).splitlines()
                if lines[0].startswith("yes"):
                    self.assertEqual([line.rpartition(" ")[0] for line in lines[1:]], facts(found))
                self.assertEqual(self.count(text, found), len(found.nodes))

    def count(self, text: str, found: Unfolded) -> int:
        """How many nodes `fc` has: it says so of an export with a kept value too many. Its kept places are compared."""
        scene = json.loads(scene_for(found))
        table = json.loads(said(["replay", "--table"], text, json.dumps(scene), "B0\nE0\n").splitlines()[-1])
        kept = table["rows"][0]["kept"]
        places = {node.place for node in found.nodes if node.keeps}
        self.assertLessEqual({place for place, _ in kept}, places)
        kept.append([0, 0])
        scene["table"] = table
        line = said(["check"], text, json.dumps(scene))
        self.assertTrue(line.startswith("kept /table/rows/0 "), line)
        return int(line.split(" ")[2])


if __name__ == "__main__":
    unittest.main()
