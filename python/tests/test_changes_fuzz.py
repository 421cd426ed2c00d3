"""Lines of changes that were changed are answered or refused as docs/formats.md has it, with few of them; run
changes_fuzz by itself for many."""

from __future__ import annotations

import unittest

from helping import needs_fc

import changes_fuzz
from changes_fuzz import BASES, refusal_of


class Judged(unittest.TestCase):
    """The judge refuses what the page of formats refuses."""

    def test_lines(self) -> None:
        rows = {
            b"unlink 1 2\n\nset 7 src any": "changes 3 no-device",
            b"unlink 0 3\nlink 0 3 1\r\njoin 3 false\n": None,
            b"unlink 0 2": "changes 1 no-link",
            b"leave 3\njoin 3 1..2\n": "changes 2 input-type",
            b"link 1 1 9\n": "changes 1 self-link",
            b"link 1 2 2\n": "changes 1 weight",
            b"link 1 2 any\nset 0 w 1\n": "changes 2 no-input",
            b"set 0 def true": "changes 1 form",
            b"set 0 src (true,1)": "changes 1 input-type",
            b"set 0 src 2..1": "changes 1 form",
            b"unlink  1 2": "changes 1 form",
            b"join 0 any": "changes 1 twice",
            b"join 65536 any": "changes 1 form",
        }
        for text, wanted in rows.items():
            self.assertEqual(refusal_of(BASES[0], text), wanted, text)
        for base in BASES:
            self.assertIsNone(refusal_of(base, "\n".join(base.lines).encode()))
        self.assertEqual(refusal_of(BASES[2], b"leave 3"), "changes 1 last")

    def test_limits(self) -> None:
        joins = [b"join %d\n" % device for device in range(10, 1034)]
        links = [b"link 3 %d 1\n" % device for device in range(10, 139)]
        for lines, wanted in (
            (joins, "limit devices 1025"), (joins[:-1], None), (joins[:129] + links, "limit degree 129"),
            (joins[:129] + links[:-1] + links[:9], None), (links[:-1] + joins[:-1], None),
        ):  # fmt: skip
            self.assertEqual(refusal_of(BASES[2], b"".join(lines)), wanted)


@needs_fc
class Fuzzed(unittest.TestCase):
    def test_lines_that_were_changed(self) -> None:
        found = changes_fuzz.looked(600, 1)
        self.assertEqual(found.total(), 600)
        wanted = {"answered", "form", "no-device", "no-link", "no-input", "input-type", "input-range", "weight", "last"}
        self.assertLessEqual({*wanted, "self-link", "twice"}, {*found})

    def test_long_lines_and_limits(self) -> None:
        """Of the huge inputs those that have few lines, which are judged soon."""
        few = [(base, text) for base, text in changes_fuzz.huge() if text.count(b"\n") < 2000]
        found = [changes_fuzz.look(base, text, ("check", "--settle", "--changes")) for base, text in few]
        self.assertEqual({*found}, {"form", "no-input", "answered", "limit"})


if __name__ == "__main__":
    unittest.main()
