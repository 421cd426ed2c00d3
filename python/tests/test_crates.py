"""The layers and tables of docs/architecture.md are those of crates.txt, and its picture has their arrows."""

from __future__ import annotations

import os
import re
import tempfile
import unittest
from pathlib import Path

from helping import TOP

from making import crates

PAGE = (TOP / "docs/architecture.md").read_text()


def drawn_layers() -> dict[str, set[str]]:
    """The layers of the page's drawing, from the base on; a row without a name belongs to the layer above it."""
    block = PAGE.split("## The layers\n\n```\n")[1].split("```")[0]
    found: dict[str, set[str]] = {}
    layer = ""
    for row in block.splitlines():
        layer = row[:17].strip() or layer
        found.setdefault(layer, set()).update(re.split(" {3,}", row[17:])[0].split())
    return dict(reversed(found.items()))


def listed_layers() -> dict[str, list[str]]:
    """The crates of the page's tables, by the heading above each table."""
    parts = re.split(r"^### (.*)$", PAGE.split("## The crates\n")[1], flags=re.MULTILINE)[1:]
    tables = {
        layer.lower(): re.findall(r"^\| `(\w+)` \|", text, re.MULTILINE) for layer, text in zip(parts[::2], parts[1::2])
    }
    return {layer: rows for layer, rows in tables.items() if layer != "crates of the kit"}


class Crates(unittest.TestCase):
    def test_every_crate_has_a_layer(self) -> None:
        found = [name for names in crates.layers().values() for name in names]
        self.assertEqual(sorted(found), sorted(path.name for path in (TOP / "crates").iterdir() if path.is_dir()))
        self.assertEqual(sorted(found), sorted(crates.graph()))

    def test_the_layers_of_the_page(self) -> None:
        wanted = {layer: set(names) for layer, names in crates.layers().items()}
        tests = wanted.pop("tests")
        self.assertEqual(list(drawn_layers().items()), list(wanted.items()))
        self.assertEqual({layer: set(names) for layer, names in listed_layers().items()}, {**wanted, "tests": tests})

    def test_no_crate_stands_on_one_of_a_layer_above(self) -> None:
        height = {name: at for at, names in enumerate(crates.layers().values()) for name in names}
        above = [
            (name, other) for name, others in crates.graph().items() for other in others if height[other] > height[name]
        ]
        self.assertEqual(above, [])

    def test_what_is_left_out_is_implied(self) -> None:
        """What is reached by the arrows of the picture is what is reached by all names of crates.txt."""
        named, drawn = crates.graph(), crates.reduced(crates.graph())

        def reached(arrows: dict[str, set[str]], name: str) -> set[str]:
            return arrows[name].union(*(reached(arrows, other) for other in arrows[name]))

        few = {name: set(others) for name, others in drawn.items()}
        for name in named:
            self.assertEqual(reached(few, name), reached(named, name), name)
            for other in few[name]:
                fewer = {**few, name: few[name] - {other}}
                self.assertNotIn(other, reached(fewer, name), "an arrow that others imply")


class Picture(unittest.TestCase):
    """`PICTURES` in the environment draws it again."""

    wanted = {(name, other) for name, others in crates.reduced(crates.graph()).items() for other in others}

    def test_it_is_that_of_crates_txt(self) -> None:
        if "PICTURES" in os.environ:
            crates.draw()
        self.assertEqual(crates.arrows(crates.PICTURE.read_text()), self.wanted)

    def test_it_is_drawn_the_same_each_time(self) -> None:
        with tempfile.TemporaryDirectory() as kept:
            pictures = [Path(kept) / name for name in ("one.svg", "two.svg")]
            for picture in pictures:
                crates.draw(picture)
            self.assertEqual(*(picture.read_bytes() for picture in pictures))
            self.assertEqual(crates.arrows(pictures[0].read_text()), self.wanted)


if __name__ == "__main__":
    unittest.main()
