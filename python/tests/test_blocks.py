"""Tests of the blocks of library/, of docs/blocks.md, and of the examples that are made of blocks.

Each call of block_cases.py is checked, solved, and run from rubbish for K rounds on three networks; what comes out is
compared with block_values.py, which finds it by walks, sets and sums.
"""

# mypy: no-strict-optional

from __future__ import annotations

import os
import re
import subprocess
import sys
import tempfile
import unittest
from collections.abc import Iterable
from pathlib import Path
from typing import Any

ROOT = Path(__file__).resolve().parent.parent.parent
sys.path[:0] = [str(ROOT / "python"), str(ROOT / "python" / "tests")]

from fieldc import blocks, composing as compose, program  # noqa: E402
from fieldc.refusals import Call, Section  # noqa: E402

try:
    import networkx  # noqa: F401

    import block_cases as cases
    import block_examples as examples
    import block_values
except ImportError as error:
    raise unittest.SkipTest(f"{error.name} isn't there (Debian: python3-{error.name})") from None

LIBRARY = blocks.read_library([ROOT / "library"])
PAGE = ROOT / "docs" / "blocks.md"
RUBBISH = 9
LEAST_WEIGHT = 1
KINDS = ("program", "network", "script")
OTHERWISE = "an `if` in the `rep`"
CONSOLE = re.compile(r"^```console\n\$ (.*?)^```$", re.MULTILINE | re.DOTALL)


def ask(words: Iterable[str], *texts: str) -> str:
    """What `fc` writes; its line and status where it refuses."""
    reply = program.ask(Call(tuple(words), tuple(Section(kind, "", 1, text) for kind, text in zip(KINDS, texts))))
    return reply.text if reply.status in (0, 1) else f"status {reply.status}: {reply.text}"


def whole(text: str) -> str:
    """The program of a `main`, or of functions and a `main`, with the inputs of the cases in front."""
    return compose.compose(cases.HEAD + (text if "main =" in text else f"main = {text};"), LIBRARY)


def written(value: object) -> str:
    """A value as `fc` writes it."""
    if isinstance(value, tuple):
        return f"({','.join(map(written, value))})"
    return str(value).lower()


def lines(values: dict[int, Any]) -> str:
    """The values of devices as `fc` writes them."""
    return "".join(f"{device} {written(value)}\n" for device, value in sorted(values.items()))


def arguments(call: str) -> list[str]:
    """The arguments of a call, as they are written."""
    inside, found, depth = call[call.index("(") + 1 : -1], [""], 0
    for mark in inside:
        depth += {"(": 1, "{": 1, ")": -1, "}": -1}.get(mark, 0)
        if mark == "," and depth == 0:
            found.append("")
        else:
            found[-1] += mark
    return [argument.strip() for argument in found]


def level(argument: str, kind: str, network: str) -> int:
    """After how many rounds an argument holds its value, as `fc` says it."""
    local = f"minHoodLoc({argument}, 0)" if kind.startswith("field") else argument
    verdict = ask(["check"], whole(local), network)
    return int(verdict.split()[1]) if verdict.startswith("yes") else 0


def formula(block: blocks.Block) -> str:
    """The K of a block by its arguments, as an expression of Python."""
    return block.notes["K"].rstrip(".").split(", where")[0]


def expected_rounds(case: cases.Case, scene: cases.Scene) -> int:
    """What the formula of a block says of a call on a network."""
    block = LIBRARY[case.block]
    named = dict(zip(block.parameters, arguments(case.call)))
    numbers = {name: int(text) for (name, _), text in named.items() if text.isdigit()}
    deepest = max(level(text, kind, scene.text()) for (_, kind), text in named.items())
    known = {"n": len(scene.net.devices), "w": LEAST_WEIGHT, "L": deepest, **numbers, **case.known}
    return int(eval(formula(block), {"__builtins__": {}}, {"max": max, "min": min, **known}))


@unittest.skipUnless(compose.built(), "fc isn't built (./build)")
class Blocks(unittest.TestCase):
    """Each block on three networks."""

    def test_blocks_have_their_rounds_and_their_values(self) -> None:
        looked = 0
        for scene in cases.scenes():
            for case in cases.CASES:
                with self.subTest(network=scene.name, call=case.call):
                    self.judge(case, scene)
                looked += 1
        print(f"{len({case.block for case in cases.CASES})} blocks, {looked} calls on networks", file=sys.stderr)

    def judge(self, case: cases.Case, scene: cases.Scene) -> None:
        text, network = whole(case.call), scene.text()
        rounds = expected_rounds(case, scene)
        self.assertEqual(ask(["check"], text, network), f"yes {rounds}\n")
        wanted = lines(case.values(scene))
        self.assertEqual(ask(["stable"], text, network), wanted)
        run = ask(["run"], text, network, f"scramble {RUBBISH}\nrun {rounds}\nshow\n")
        self.assertEqual(run, f"yes {rounds}\n@3\n{wanted}")

    def test_a_wrong_block_is_found(self) -> None:
        case = next(case for case in cases.CASES if case.block == "collectSum")
        wrong = whole(case.call).replace("value + sumHood", "value + 1 + sumHood")
        for scene in cases.scenes():
            self.assertNotEqual(ask(["stable"], wrong, scene.text()), lines(case.values(scene)))

    def test_blocks_have_their_values_on_networks_by_dice(self) -> None:
        for scene in map(cases.tossed, range(6)):
            for case in cases.CASES:
                with self.subTest(network=scene.name, call=case.call):
                    self.assertEqual(ask(["stable"], whole(case.call), scene.text()), lines(case.values(scene)))

    def test_sparse_leaves_nobody_out_on_networks_by_dice(self) -> None:
        for net in [scene.net for scene in cases.scenes()] + [cases.spread(seed) for seed in range(100)]:
            chosen = block_values.where(block_values.sparse(net, 2))
            near = block_values.close_to(net, 3)
            self.assertTrue(all(near[device] & chosen for device in net.devices))
            self.assertTrue(all(near[device] & chosen == {device} for device in chosen))


class Library(unittest.TestCase):
    """What stands above each block."""

    def test_each_block_says_what_it_needs(self) -> None:
        for block in LIBRARY.values():
            with self.subTest(block=block.name):
                if block.is_part:
                    self.assertTrue(block.gives.startswith("Part of "), block.gives)
                    self.assertEqual(block.notes, {})
                    continue
                self.assertTrue(block.comment.startswith(f"// {block.name}: "))
                self.assertEqual(list(block.notes), ["Elsewhere", "K", "Uses", "Needs"])
                self.assertEqual(block.notes["Uses"], (", ".join(block.calls) or "nothing") + ".")
                self.assertTrue(all(len(line) <= 120 for line in (block.comment + block.text).splitlines()))

    def test_each_block_has_a_case(self) -> None:
        wanted = {block.name for block in LIBRARY.values() if not block.is_part}
        self.assertEqual({case.block for case in cases.CASES}, wanted)
        self.assertGreaterEqual(len(cases.scenes()), 2)


@unittest.skipUnless(compose.built(), "fc isn't built (./build)")
class Page(unittest.TestCase):
    """docs/blocks.md: its tables, its programs and its commands."""

    text = PAGE.read_text() if PAGE.exists() else ""
    network = cases.scenes()[0].text()

    def rows(self, header: str) -> list[list[str]]:
        """The rows of the tables with this first header, as cells."""
        found, within = [], False
        for line in self.text.splitlines():
            cells = [cell.strip() for cell in line.strip("|").split("|")] if line.startswith("|") else []
            within = bool(cells) and (within or cells[0] == header)
            if within and cells[0] != header and not cells[0].startswith("---"):
                found.append(cells)
        return found

    def said(self, text: str) -> tuple[str, str]:
        """The verdict and the settle line of a program on the page's network."""
        first, second = ask(["check", "--settle"], text, self.network).splitlines()[:2]
        return first, second

    def test_the_table_of_blocks(self) -> None:
        seen = set()
        for purpose, call, rounds, settles, nodes in self.rows("What you want"):
            with self.subTest(call=call):
                code = call.strip("`")
                block = LIBRARY[code.split("(")[0]]
                seen.add(block.name)
                verdict, settled = self.said(whole(code))
                self.assertEqual((f"yes {rounds}", f"settles {settles}"), (verdict, settled))
                facts = ask(["check", "--facts"], whole(code), self.network).splitlines()
                self.assertEqual(int(nodes), len(facts) - 1)
                self.assertTrue(purpose)
        self.assertEqual(seen, {block.name for block in LIBRARY.values() if not block.is_part})

    def test_the_table_of_idioms(self) -> None:
        rows, counted = self.rows("You would write"), {"no": 0, "settles": 0}
        for theirs, no, ours in rows:
            with self.subTest(theirs=theirs):
                left = whole(re.search(r": `(.*)`$", theirs).group(1))
                verdict, settled = self.said(left)
                self.assertEqual(no, f"`{verdict}, {settled}`")
                counted["no"] += verdict.startswith("no")
                counted["settles"] += verdict.startswith("no") and settled != "open"
                if ours == "-":
                    continue
                right = whole(ours.strip("`"))
                self.assertTrue(self.said(right)[0].startswith("yes "))
                if settled != "open":
                    self.assertEqual(self.settled(left) == self.settled(right), not theirs.startswith(OTHERWISE))
        self.assertIn("of the {} programs on the left, {no} do.".format(len(rows), **counted), self.text)
        self.assertIn("finds that {settles} of these settle all the same".format(**counted), self.text)

    def settled(self, text: str) -> list[str]:
        """The values to which the devices settle on the page's network."""
        return [line.split()[2] for line in ask(["check", "--settle"], text, self.network).splitlines()[2:]]

    def test_the_programs(self) -> None:
        programs = re.findall(r"^```fc\n(.*?)^```\n\n(.*?)$", self.text, re.MULTILINE | re.DOTALL)
        self.assertGreaterEqual(len(programs), 6)
        for code, below in programs:
            with self.subTest(code=code):
                said = re.match(r"`([^`]*)`", below)
                self.assertIsNotNone(said, below)
                self.assertEqual(said.group(1), ", ".join(self.said(whole(code))))

    def test_the_commands(self) -> None:
        commands = [command for block in CONSOLE.findall(self.text) for command in block.split("\n$ ")]
        environment = dict(os.environ, FC=program.find())
        with tempfile.TemporaryDirectory() as folder:
            for name in ("examples", "fieldc"):
                (Path(folder) / name).symlink_to(ROOT / name)
            for command in commands:
                end = "\nEND\n" if "<<'END'" in command else "\n"
                typed, _, wanted = (command.rstrip("\n") + "\n").partition(end)
                typed += end
                done = subprocess.run(
                    ["bash", "-c", typed], cwd=folder, env=environment, capture_output=True, text=True, check=False
                )
                self.assertEqual((done.stdout.splitlines(), done.stderr), (wanted.splitlines(), ""), typed)

    def test_the_pictures_are_there(self) -> None:
        """`PICTURES` in the environment draws them again."""
        if "PICTURES" in os.environ:
            import block_pictures

            block_pictures.draw_all()
        names = re.findall(r"\(pictures/([^)]*)\)", self.text)
        self.assertGreaterEqual(len(names), 6)
        for name in names:
            self.assertTrue((ROOT / "docs" / "pictures" / name).exists(), name)


@unittest.skipUnless(compose.built(), "fc isn't built (./build)")
class Examples(unittest.TestCase):
    """The examples that are made of blocks."""

    def test_they_write_what_is_expected(self) -> None:
        for name, example in examples.EXAMPLES.items():
            with self.subTest(example=name):
                folder = ROOT / "examples"
                text = (folder / f"{name}.txt").read_text()
                front, network = text.split("\n%%\n")
                short = (folder / f"{name}.fc").read_text()
                self.assertEqual(compose.compose(short, LIBRARY), front + "\n")
                scene = cases.read_scene_text(name, network)
                self.assertEqual((folder / f"{name}.expected").read_text(), lines(example(scene)))
                self.assertEqual(ask(["stable"], front, network), lines(example(scene)))
                verdict = ask(["check"], front, network)
                self.assertRegex(verdict, r"^yes \d+\n$")
                rounds = verdict.split()[1]
                run = ask(["run"], front, network, f"scramble {RUBBISH}\nrun {rounds}\nshow\n")
                self.assertEqual(run, f"{verdict}@3\n{lines(example(scene))}")


if __name__ == "__main__":
    unittest.main()
