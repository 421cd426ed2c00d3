"""The readers of what fc writes, on texts of its pages."""

from __future__ import annotations

import json
import pickle
import unittest
from typing import Any

import helping  # noqa: F401

from fieldc import Call, Fault, Refusal, Section, Verdict, results
from fieldc.json_results import plain, refused
from fieldc.program import joined
from fieldc.refusals import plain_explanation
from fieldc.sections import cut
from fieldc.telling import told


class Readers(unittest.TestCase):
    def test_values(self) -> None:
        written: dict[str, results.Value | None] = {"0": 0, "true": True, "(1,(false,3))": (1, (False, 3)), "-": None}
        for word, value in written.items():
            self.assertEqual(results.value_of(word), value)
            self.assertEqual(results.word_of(value), word)
        for word in ("x", "(1)", "(1,2,3)", "-1", "1.5", '"a"', ""):
            with self.assertRaises(Fault):
                results.value_of(word)

    def test_verdicts(self) -> None:
        self.assertEqual(results.verdict_of("yes 22"), Verdict("yes 22", rounds=22))
        self.assertFalse(results.verdict_of("no 41 converging").stabilises)
        self.assertEqual(results.verdict_of("no 41 converging").reason, "converging")
        for line in ("yes", "no walks", "no x converging", "yes -1", "perhaps 3"):
            with self.assertRaises(Fault):
                results.verdict_of(line)

    def test_facts(self) -> None:
        text = (
            "yes 1\n0 let int 3..6 1\n1 pair (int, bool) (2..5,-) 1\n2 sense 1 int 2..5 1\n3 nbr field int 2..5 -\n"
            "4 + field (int, bool) (0..1,-) 2\n"
        )
        found = results.checked(text).facts
        self.assertEqual([fact.operator for fact in found], ["let", "pair", "sense 1", "nbr", "+"])
        self.assertEqual([fact.type for fact in found], ["int", "(int, bool)", "int", "field int", "field (int, bool)"])
        self.assertEqual([fact.level for fact in found], [1, 1, 1, None, 2])
        self.assertEqual(found[1].range, "(2..5,-)")

    def test_settle_rounds(self) -> None:
        found = results.settled("no 0 lead-at-ceiling\nopen\n0 1 (0,0)\n1 -\n")
        self.assertTrue(found.open)
        self.assertEqual((dict(found.by_device), dict(found.values)), ({0: 1, 1: None}, {0: (0, 0), 1: None}))
        self.assertEqual(results.settled("yes 22\nsettles 5\n0 1 0\n").rounds, 5)
        with self.assertRaises(Fault):
            results.settled("yes 22\n")

    def test_runs(self) -> None:
        text = 'yes 22\n@2\n0 0\n1 -\nyes 24\nno 0 nested\n@5\n0 3\nlog\nB0\nE0\n{"format":2,"rows":[]}\n'
        found = results.ran(text)
        self.assertEqual([(show.line, dict(show.values)) for show in found.shows], [(2, {0: 0, 1: None}), (5, {0: 3})])
        self.assertEqual([(at, verdict.line) for at, verdict in found.verdicts], [(1, "yes 24"), (1, "no 0 nested")])
        self.assertEqual((found.log, dict(found.table or {})), (("B0", "E0"), {"format": 2, "rows": []}))
        self.assertEqual(results.ran("yes 1\n").shows, ())

    def test_results_cant_be_changed(self) -> None:
        found = results.replayed("0 5\n1 2\nrounds 3\n")
        self.assertEqual(found.rounds, 3)
        with self.assertRaises(TypeError):
            found.values[0] = 1  # type: ignore[index]
        with self.assertRaises(AttributeError):
            found.rounds = 1  # type: ignore[misc]


class Sections(unittest.TestCase):
    def test_they_keep_their_lines(self) -> None:
        rows = {
            "a\nb\n%%\nc\n": [(1, "a\nb\n"), (4, "c\n")],
            "%%\n%%": [(1, ""), (2, ""), (3, "")],
            "a\r\n%%\r\nb": [(1, "a\r\n"), (3, "b")],
            " %%\n%% \n%%%\n": [(1, " %%\n%% \n%%%\n")],
            "a\x0b%%\x85\u2028%%\rb": [(1, "a\x0b%%\x85\u2028%%\rb")],
            "": [(1, "")],
        }
        for text, wanted in rows.items():
            self.assertEqual(cut("-", text), wanted, repr(text))

    def test_an_input_is_put_together_as_it_was(self) -> None:
        for text in ("a\nb\n%%\nc\n", "a\n%%\n%%\nb", "%%\nx\n%%\n"):
            parts = [Section("x", "-", first, part) for first, part in cut("-", text)]
            self.assertEqual(joined(parts), text.encode())


class Json(unittest.TestCase):
    def test_each_result(self) -> None:
        names = {1: "mill"}
        no: dict[str, Any] = {"verdict": {"stabilises": False, "place": 4, "reason": "nested"}}
        yes: dict[str, Any] = {"verdict": {"stabilises": True, "rounds": 7}}
        mill: dict[str, Any] = {"id": 1, "name": "mill", "value": 3}
        devices = [{"id": 0, "value": [1, True]}, {**mill, "value": None}]
        unknown = {"id": 0, "value": None, "rounds": None}
        show = {"line": 2, "rounds_since_edit": None, "devices": [{"id": 0, "value": 1}]}
        rows: dict[str, tuple[results.Result | str, dict[str, Any]]] = {
            "check": (results.checked("no 4 nested\n"), no),
            "stable": (results.stable("0 (1,true)\n1 -\n"), {"devices": devices}),
            "no stable": (results.stable("no 4 nested\n"), {**no, "devices": []}),
            "replay": (results.replayed("0 (1,true)\n1 -\nrounds 2\n"), {"devices": devices, "rounds": 2}),
            "mail": (results.mailed("yes 7\n1 3\nrounds 2\n"), {**yes, "devices": [mill], "rounds": 2}),
            "trace": (
                results.traced("yes 7\n1 3 0 1\n"),
                {**yes, "walks": True, "devices": [{**mill, "walk": [0, 1]}]},
            ),
            "no walks": (results.traced("yes 7\nno walks\n"), {**yes, "walks": False, "devices": []}),
            "settle": (
                results.settled("no 4 nested\nopen\n0 -\n", True),
                {**no, "open": True, "settles": None, "from_table": True, "devices": [unknown]},
            ),
            "run": (
                results.ran("yes 7\n@2\n0 1\nno 4 nested\n"),
                {**yes, "shows": [show], "later_verdicts": [{"shows_before": 1, **no}]},
            ),
            "gen": (
                results.generated("number 3\ndevices 4\nverdict yes 7\nfirings 28\nagree 4\nsum 5\n"),
                {"number": 3, "devices": 4, **yes, "firings": 28, "agree": 4, "sum": 5},
            ),
            "format": ("main = 3;\n", {"program": "main = 3;\n"}),
        }  # fmt: skip
        for name, (result, wanted) in rows.items():
            with self.subTest(name):
                self.assertEqual(json.loads(json.dumps(plain(result, names))), wanted)


class Refusals(unittest.TestCase):
    call = Call(("check",), (Section("program", "mine.fc", 1, "main = 3;\n"),))

    def test_they_are_told(self) -> None:
        refusal = Refusal(3, "sections", "sections 1", self.call)
        plainly = plain_explanation(refusal)
        self.assertEqual(told(refusal, plainly).splitlines()[0], "fieldc: sections 1")
        self.assertEqual(json.loads(refused(refusal, plainly))["line"], "sections 1")
        self.assertIn(
            "Memory ran out", told(Refusal(7, "", "", self.call), plain_explanation(Refusal(7, "", "", self.call)))
        )
        self.assertIn("Memory ran out", str(Refusal(7, "", "", self.call)))
        self.assertTrue(str(refusal).startswith("sections 1"))
        self.assertEqual((refusal.place, Refusal(3, "types", "types 4 mismatch", self.call).place), ("1", "4 mismatch"))

    def test_the_place_is_shown(self) -> None:
        from fieldc.refusals import Explanation

        section = Section("program", "mine.fc", 3, "first\n\tmain == 3;\nlast\n")
        refusal = Refusal(3, "syntax", "syntax 2 1", self.call)
        text = told(refusal, Explanation("That is no mark.", section, 4, 7, "==", "write =", "docs/language.md"))
        self.assertEqual(
            text,
            "fieldc: syntax 2 1\nmine.fc:4:7: That is no mark.\n    \tmain == 3;\n    \t     ^\n"
            "try: write =\nread: docs/language.md\n",
        )
        long = Section("network", "-", 1, "a" * 500 + "!" + "b" * 500)
        rows = told(refusal, Explanation("x", long, 1, 501)).splitlines()
        self.assertEqual(rows[1], "standard input:1:501: x")
        self.assertEqual(rows[2][rows[3].index("^")], "!")
        self.assertLess(len(rows[2]), 180)

    def test_they_can_be_sent_between_processes(self) -> None:
        found = pickle.loads(pickle.dumps(Refusal(3, "json", "json", self.call)))
        self.assertEqual((found.status, found.line, found.call), (3, "json", self.call))
        fault = pickle.loads(pickle.dumps(Fault("it is so", 4)))
        self.assertEqual((str(fault), fault.status), ("it is so", 4))

    def test_inputs_are_joined_by_lines(self) -> None:
        parts = [Section("x", "", 1, text) for text in ("a", "b\n", "", "c")]
        self.assertEqual(joined(parts), b"a\n%%\nb\n%%\n%%\nc")
        self.assertEqual(joined([Section("x", "", 1, "\udcff")]), b"\xff")


if __name__ == "__main__":
    unittest.main()
