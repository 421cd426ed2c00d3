"""The JSON Schema of networks: it takes each network of the examples and pages, and refuses only what fc refuses."""

from __future__ import annotations

import copy
import json
import random
import re
import unittest
from collections.abc import Iterator
from typing import Any

from helping import EXAMPLES, TOP, fieldc, needs, needs_fc, sections_of

from fieldc import program
from fieldc.refusals import Call, Section

SCHEMA = TOP / "docs/scene.schema.json"
PROGRAM = "ceiling 10; input src: bool; input load: int 0..9; metric 1..9;\n" + (
    "main = (rep(10){(d) => minHoodLoc(nbr{d} + nbrLink, mux(sense src, 0, 10))}, sense load < 5);\n"
)
SCENE: dict[str, Any] = {
    "devices": [
        {"id": 0, "inputs": {"src": True, "load": 3}},
        {"id": 1, "inputs": {"src": False, "load": 9}},
        {"id": 65535, "inputs": {"src": False, "load": 0}},
    ],
    "links": [[0, 1, 1], [65535, 1, 9]],
    "table": {"format": 2, "rows": [{"id": 0, "kept": [[1, 0], [5, 10]], "value": [0, True]}]},
    "pending": [
        {
            "id": 1,
            "inputs": {"src": False, "load": 9},
            "own": {"value": [4, False], "kept": [4, 10]},
            "near": [{"id": 0, "weight": 2, "value": [0, True], "kept": [0, 10]}],
        },
        {"id": 0, "inputs": {"src": True, "load": 3}, "own": None, "near": []},
    ],
}
DEVICE = {"id": 7, "inputs": {"src": True, "load": 3}}
# where in the scene, and what stands there in place of what is right; a scene that is one of these is no network
WRONG: tuple[tuple[tuple[str | int, ...], object], ...] = (
    ((), []),
    ((), {}),
    ((), {"devices": [DEVICE]}),
    ((), {"links": []}),
    (("devices",), []),
    (("devices",), {}),
    (("devices",), [{"id": n, "inputs": {"src": True, "load": 0}} for n in range(1025)]),
    (("devices", 0), 0),
    (("devices", 1), SCENE["devices"][0]),
    (("devices", 0, "id"), 65536),
    (("devices", 0, "id"), -1),
    (("devices", 0, "id"), "0"),
    (("devices", 0, "id"), 0.5),
    (("devices", 0, "id"), True),
    (("devices", 0, "inputs"), []),
    (("devices", 0, "inputs"), None),
    (("devices", 0, "inputs"), {"src": True, "load": 3, "": 1}),
    (("devices", 0, "inputs", "src"), "true"),
    (("devices", 0, "inputs", "src"), None),
    (("devices", 0, "inputs", "load"), [3, 3]),
    (("devices", 0, "inputs", "load"), -1),
    (("devices", 0, "inputs", "load"), 2.5),
    (("devices", 0, "inputs", "load"), 1000001),
    (("devices", 0, "position"), [1, 2]),
    (("links",), {}),
    (("links", 0), [0, 1]),
    (("links", 0), [0, 1, 1, 1]),
    (("links", 0), "0 1 1"),
    (("links", 0), {"source": 0, "target": 1, "weight": 1}),
    (("links", 0, 2), 1.5),
    (("links", 0, 2), -1),
    (("links", 0, 2), 1000001),
    (("links", 0, 0), "0"),
    (("links", 0, 0), 70000),
    (("links", 1), [0, 1, 1]),
    (("table",), None),
    (("table",), "rows"),
    (("table",), {"rows": []}),
    (("table",), {"format": 2}),
    (("table", "format"), 1),
    (("table", "format"), "2"),
    (("table", "more"), []),
    (("table", "rows", 0, "id"), None),
    (("table", "rows", 0, "value"), [0]),
    (("table", "rows", 0, "value"), [0, True, 1]),
    (("table", "rows", 0, "value"), "0"),
    (("table", "rows", 0, "kept"), [0, 10]),
    (("table", "rows", 0, "kept", 0), [1]),
    (("table", "rows", 0, "kept", 0), [1, 0, 0]),
    (("table", "rows", 0, "kept", 0), [2048, 0]),
    (("table", "rows", 0, "kept", 0), [-1, 0]),
    (("table", "rows", 0, "more"), 0),
    (("table",), [{"id": 0, "value": [0, True], "kept": [[1, 0]]}, 3]),
    (("table",), [{"id": 0, "value": [0, True]}]),
    (("pending",), {}),
    (("pending", 0, "own"), []),
    (("pending", 0, "own"), {"value": [4, False]}),
    (("pending", 0, "own"), {"value": [4, False], "kept": [4, 10], "id": 1}),
    (("pending", 0, "near"), None),
    (("pending", 0, "near", 0, "weight"), "2"),
    (("pending", 0, "near", 0, "kept"), {}),
    (("pending", 0, "near", 0, "more"), 0),
    (("pending", 0, "id"), [1]),
    (("more",), 1),
    (("comment",), "a network"),
)
# what only the program or the other devices can say, or a fraction that is none
OTHERWISE: tuple[tuple[tuple[str | int, ...], object], ...] = (
    (("devices", 0, "inputs"), {"src": True}),
    (("devices", 0, "inputs", "load"), 10),
    (("links", 0), [0, 0, 1]),
    (("links", 0), [0, 2, 1]),
    (("links", 0), [0, 1, 10]),
    (("devices", 0, "id"), 0.0),
    (("table", "rows", 0, "kept", 0), [0, 0]),
)
MUTANTS: tuple[object, ...] = (
    None,
    True,
    -1,
    0,
    1,
    2.5,
    1000001,
    "x",
    [],
    [0],
    [0, 1],
    [0, 1, 1],
    {},
    {"id": 0},
    {"format": 2, "rows": []},
)


def changed(place: tuple[str | int, ...], value: object) -> object:
    """The scene with this in that place."""
    if not place:
        return value
    scene = copy.deepcopy(SCENE)
    inner: Any = scene
    for step in place[:-1]:
        inner = inner[step]
    inner[place[-1]] = value
    return scene


def places(part: object, here: tuple[str | int, ...] = ()) -> Iterator[tuple[str | int, ...]]:
    """Each place of a scene, from the whole to the smallest."""
    yield here
    for step, inner in part.items() if isinstance(part, dict) else enumerate(part) if isinstance(part, list) else ():
        yield from places(inner, (*here, step))


def refused(scene: object) -> bool:
    """Whether fc refuses a scene of the program."""
    texts = (PROGRAM, json.dumps(scene), "")
    return program.ask(Call(("replay",), tuple(Section("", "", 1, text) for text in texts))).status in (3, 4)


def networks_of_pages() -> list[tuple[str, object]]:
    """The networks that stand in the pages."""
    found = []
    for page in sorted([*(TOP / "docs").glob("*.md"), TOP / "README.md"]):
        for block in re.findall(r"(?ms)^```\w*\n(.*?)^```", page.read_text()):
            for part in re.split(r"(?m)^%%$", block):
                if part.lstrip().startswith('{"devices"'):
                    found.append((page.name, json.loads(part)))
    return found


@needs("jsonschema")
class Schema(unittest.TestCase):
    def setUp(self) -> None:
        import jsonschema

        schema = json.loads(SCHEMA.read_text())
        jsonschema.Draft7Validator.check_schema(schema)
        self.judge = jsonschema.Draft7Validator(schema)

    def takes(self, scene: object) -> bool:
        return self.judge.is_valid(scene)

    def test_networks_of_examples(self) -> None:
        names = [path.name for path in sorted(EXAMPLES.glob("*.txt"))]
        self.assertGreater(len(names), 9)
        for name in names:
            self.assertEqual(list(self.judge.iter_errors(json.loads(sections_of(name)[1]))), [], name)

    def test_networks_of_pages(self) -> None:
        found = networks_of_pages()
        self.assertGreaterEqual(len(found), 2)
        for name, scene in found:
            self.assertEqual(list(self.judge.iter_errors(scene)), [], name)

    def test_wrong_networks(self) -> None:
        self.assertTrue(self.takes(SCENE))
        for place, value in WRONG:
            self.assertFalse(self.takes(changed(place, value)), f"{place} {value}"[:200])

    def test_what_only_fc_can_say(self) -> None:
        for place, value in OTHERWISE:
            self.assertTrue(self.takes(changed(place, value)), (place, value))

    @needs_fc
    def test_fc_refuses_what_is_wrong(self) -> None:
        self.assertFalse(refused(SCENE))
        for place, value in (*WRONG, *OTHERWISE):
            self.assertTrue(refused(changed(place, value)), f"{place} {value}"[:200])

    @needs_fc
    def test_fc_refuses_what_the_schema_refuses(self) -> None:
        draw = random.Random(5)
        every = list(places(SCENE))
        scenes = [changed(draw.choice(every), draw.choice(MUTANTS)) for _ in range(200)]
        judged = [(self.takes(scene), refused(scene)) for scene in scenes]
        for scene, (is_taken, is_refused) in zip(scenes, judged, strict=True):
            self.assertTrue(is_taken or is_refused, scene)
        self.assertGreater(sum(is_taken for is_taken, _ in judged), 3)

    @needs_fc
    def test_tables_that_fc_writes(self) -> None:
        for name in ("sensor_field.txt", "crowd.txt"):
            table = json.loads(fieldc("replay", "--table", EXAMPLES / name).output.splitlines()[-1])
            self.assertTrue(self.takes({**json.loads(sections_of(name)[1]), "table": table}), name)


if __name__ == "__main__":
    unittest.main()
