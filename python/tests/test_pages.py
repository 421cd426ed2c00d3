"""The pages stay true: the programs of docs/patterns.md have the verdicts and settle lines that stand there, the
commands of README.md, docs/tour.md, docs/fieldc.md and docs/changes.md write what stands below them, the programs of
docs/language.md are read, the example of docs/commands.md and the examples write what is expected, the calls of
docs/fieldc.md answer what stands beside them, the commands of docs/proofs.md list files as it says, and each page,
anchor and picture that a page names is there."""

# mypy: no-strict-optional

from __future__ import annotations

import ast
import os
import re
import shutil
import subprocess
import tempfile
import unittest
from collections.abc import Mapping
from pathlib import Path

from helping import HOPS, LINE, TOP, made_by_patches, needs, needs_fc

import fieldc
from fieldc import networks as network
from fieldc import program as fc

BLOCK = re.compile(r"^`((?:yes|no) [^`\n]*)`\n\n```fc\n(.*?)^```$", re.MULTILINE | re.DOTALL)
CONSOLE = re.compile(r"^```console\n(.*?)^```$", re.MULTILINE | re.DOTALL)
PICTURE = re.compile(r"\(pictures/([^)]*)\)")
MARK = "-- end of a command --"
OFF = ", switched off "
# how files begin that a page names and that its reader makes
FREE = ("mine/", "NAME", "DIR/", "specs/", "src/", "proofs/", "crates/CRATE/", "crates/NAME/")


@needs_fc
class Patterns(unittest.TestCase):
    def test_each_program_has_the_lines_above_it(self) -> None:
        blocks = BLOCK.findall((TOP / "docs/patterns.md").read_text())
        self.assertGreater(len(blocks), 10)
        for lines, program in blocks:
            with self.subTest(program.strip().splitlines()[-1]):
                made = self.line(program, True)
                found = fieldc.settle(program, made)
                said = f"{found.verdict.line}, {self.time(found)}"
                self.assertEqual(said + (OFF + self.switched_off(program, made) if OFF in lines else ""), lines)

    def line(self, program: str, source: bool) -> network.Network:
        """Three devices in a line, device 0 a source where the program has one."""
        sources = [("src", source, [0])] if "input src" in program else []
        return network.with_inputs(network.line(3), sources)

    def time(self, found: fieldc.Settled) -> str:
        return "open" if found.open else f"settles {found.rounds}"

    def switched_off(self, program: str, made: network.Network) -> str:
        """The settle line once the network has settled and its source is switched off."""
        table = fieldc.run(program, made, [f"run {fieldc.check(program, made).verdict.rounds}"], table=True).table
        dark = self.line(program, False)
        later = network.Network(dark.inputs, dark.links, state={"table": dict(table or {})})
        return self.time(fieldc.settle(program, later, from_table=True))


def commands_of(tour: str) -> list[tuple[str, str]]:
    """The commands of a tour, each with the text that stands below it; a `<<'END'` goes on to its END."""
    commands: list[tuple[str, list[str]]] = []
    for block in CONSOLE.findall(tour):
        lines = iter(block.splitlines())
        for line in lines:
            if not line.startswith("$ "):
                commands[-1][1].append(line)
                continue
            command = [line[2:]]
            while command[0].endswith("<<'END'") and command[-1] != "END":
                command.append(next(lines))
            commands.append(("\n".join(command), []))
    return [(command, "".join(line + "\n" for line in expected)) for command, expected in commands]


def typed(test: unittest.TestCase, folder: Path, commands: list[tuple[str, str]]) -> None:
    """Types commands one after the other in one shell, and compares what they write."""
    (folder / "examples").symlink_to(TOP / "examples")
    (folder / "fieldc").symlink_to(TOP / "fieldc")
    (folder / "fc").write_text(f'#!/bin/sh\nexec "{fc.find()}" "$@"\n')
    (folder / "fc").chmod(0o755)
    script = "".join(f"{command}\necho '{MARK}'\n" for command, _ in commands)
    environment = dict(os.environ, FC=str(folder / "fc"))
    shell = subprocess.run(
        ["bash"], cwd=folder, input=script, env=environment, capture_output=True, text=True, check=False
    )
    written = shell.stdout.split(MARK + "\n")
    for (command, wanted), found in zip(commands, written):
        test.assertEqual(found, wanted, f"{command.splitlines()[0]}: {shell.stderr[-300:]}")


def plain(value: object) -> object:
    """A value with dictionaries in the place of mappings."""
    if isinstance(value, Mapping):
        return dict(value)
    return tuple(map(plain, value)) if isinstance(value, tuple) else value


@needs_fc
@needs("networkx")
class Library(unittest.TestCase):
    def test_the_calls_of_the_page_answer_what_stands_beside_them(self) -> None:
        page = (TOP / "docs/fieldc.md").read_text()
        code = re.search(r"^```python\n(.*?)^```$", page, re.MULTILINE | re.DOTALL)
        assert code is not None
        names: dict[str, object] = {}
        lines, compared = code[1].splitlines(), 0
        for statement in ast.parse(code[1]).body:
            text = ast.get_source_segment(code[1], statement) or ""
            beside = lines[(statement.end_lineno or 0) - 1].partition("  # ")[2]
            if isinstance(statement, ast.Expr) and beside:
                self.assertEqual(plain(eval(text, names)), ast.literal_eval(beside), text)
                compared += 1
            else:
                exec(text, names)
        self.assertEqual(compared, 5)


def colours(path: Path) -> list[list[int]]:
    """The colours of a picture: those that an SVG names, or what is seen in every fifth place of a PNG."""
    from matplotlib.image import imread

    if path.suffix == ".svg":
        return [[*bytes.fromhex(name)] for name in re.findall(r"(?:fill|stroke): #([0-9a-f]{6})", path.read_text())]
    pixels: list[list[int]] = (imread(path)[::5, ::5, :3] * 255).round().astype(int).reshape(-1, 3).tolist()
    return pixels


def vivid(path: Path) -> int:
    """How many colours that are no grey a picture has."""
    return len({tuple(colour) for colour in colours(path) if max(colour) - min(colour) > 60})


def lettering(path: Path) -> list[str]:
    """The texts in a picture that is an SVG, as matplotlib writes each above its shapes."""
    return re.findall(r"<!-- (.*?) -->", path.read_text()) if path.suffix == ".svg" else []


@needs_fc
@needs("matplotlib", "networkx")
class Tour(unittest.TestCase):
    """`PICTURES` in the environment puts the pictures of a page into docs/pictures. Those in SVG that stand there say
    what is written on new ones."""

    def follow(self, page: str, *made: str) -> None:
        """Types the commands of a page, and looks at its pictures and at the pages that they make."""
        text = (TOP / page).read_text()
        with tempfile.TemporaryDirectory() as kept:
            folder = Path(kept)
            typed(self, folder, commands_of(text))
            for name in PICTURE.findall(text):
                drawn, kept_there = folder / "mine" / name, TOP / "docs/pictures" / name
                self.assertGreaterEqual(vivid(drawn), 2, name)
                if "PICTURES" in os.environ:
                    shutil.copy(drawn, kept_there)
                self.assertEqual(lettering(drawn), lettering(kept_there), name)
            for name in made:
                self.assertIn("const shows", (folder / "mine" / name).read_text())

    def test_commands_write_what_stands_below_them(self) -> None:
        self.follow("docs/tour.md", "run.html", "healed.html")

    def test_commands_of_networks_that_move(self) -> None:
        self.follow("docs/fieldc.md", "moves.html")

    def test_commands_of_networks_that_change(self) -> None:
        self.follow("docs/changes.md")


@needs_fc
class Readme(unittest.TestCase):
    text = (TOP / "README.md").read_text()

    def test_commands_write_what_stands_below_them(self) -> None:
        with tempfile.TemporaryDirectory() as kept:
            typed(self, Path(kept), commands_of(self.text))

    def test_examples_of_the_commands_are_answered(self) -> None:
        lines = re.findall(r"`\./(fc [^`]+)`", self.text)
        calls = [line.split() for line in lines if " examples/" in line or "gen" in line]
        self.assertEqual(
            {words[1] for words in calls}, {"check", "stable", "trace", "run", "replay", "mail", "gen", "format"}
        )
        for words in calls:
            given = (TOP / words[-1]).read_bytes() if "<" in words else b""
            words = [fc.find(), *(words[1 : words.index("<")] if "<" in words else words[1:])]
            self.assertEqual(subprocess.run(words, input=given, capture_output=True, check=False).returncode, 0, words)

    def test_examples_write_what_is_expected(self) -> None:
        commands = {
            "stable": "stable", "trace": "trace", "settle": "check --settle", "changes": "check --settle --changes",
            "run": "run", "line": "mail",
        }  # fmt: skip
        for path in sorted((TOP / "examples").glob("*.expected")):
            if path.stem.startswith("blocks_"):
                continue
            words = commands.get(path.stem.rpartition("_")[2], "replay").split()
            given = path.with_suffix(".txt").read_bytes()
            done = subprocess.run([fc.find(), *words], input=given, capture_output=True, check=False)
            self.assertEqual(done.stdout.decode(), path.read_text(), path.stem)


class Specs(unittest.TestCase):
    """What docs/proofs.md says of the files of crates, and the commands by which it lists them."""

    text = (TOP / "docs/proofs.md").read_text()

    def written(self, command: str) -> list[str]:
        """What a command of the page writes, line by line."""
        self.assertIn(f"`{command}`", self.text)
        done = subprocess.run(["bash", "-c", command], cwd=TOP, capture_output=True, text=True, check=True)
        return done.stdout.splitlines()

    def test_each_file_says_what_it_defines(self) -> None:
        firsts = self.written("head -q -n 1 crates/*/specs/*.antt")
        self.assertEqual([line for line in firsts if not line.startswith(("-- ", "pub mod "))], [])
        self.assertGreater(len([line for line in firsts if line.startswith("-- ")]), 300)

    def test_modules_that_crates_above_may_cite(self) -> None:
        listed = self.written("grep -l 'Crates above cite this module' crates/*/proofs/*.antt")
        self.assertGreater(len(listed), 100)
        part = self.text.split("Offered too, without that line, are ")[1].split("\n")[0]
        for names, crate in re.findall(r"((?:`[A-Z]\w+`(?:, | and )?)+) of `(\w+)`", part):
            for name in re.findall(r"`(\w+)`", names):
                path = f"crates/{crate}/proofs/{name}.antt"
                self.assertTrue((TOP / path).exists(), path)
                self.assertNotIn(path, listed)


class Words(unittest.TestCase):
    def test_pages_that_are_short(self) -> None:
        recipes = [(f"docs/recipes/{name}.md", 500) for name in ("README", "builtin", "option", "command")]
        for page, most in (("README.md", 900), ("docs/changes.md", 1500), *recipes):
            self.assertLessEqual(len((TOP / page).read_text().split()), most, page)


@needs_fc
class Language(unittest.TestCase):
    """The programs of docs/language.md are read; the collection along a potential gets a yes, and settles at the
    sum."""

    text = (TOP / "docs/language.md").read_text()

    def test_programs_are_read(self) -> None:
        blocks = re.findall(r"(?ms)^```(?:fc)?\n(.*?)^```", self.text)
        programs = [block for block in blocks if re.match(r"language 2;|ceiling \d+;", block)]
        self.assertGreaterEqual(len(programs), 3)
        for program in programs:
            self.assertEqual(fieldc.format(fieldc.format(program)), fieldc.format(program))

    def test_the_collection_settles_at_the_sum(self) -> None:
        program = re.search(r"(?ms)^```fc\n(.*?)^```", self.text)[1]
        inputs = [("sink", True, [0]), ("value", 3, None)]
        made = network.with_inputs(network.grid(3, 4), inputs)
        self.assertTrue(fieldc.check(program, made).verdict.stabilises)
        self.assertEqual(fieldc.stable(program, made).values[0], 36)


@needs_fc
class Commands(unittest.TestCase):
    text = (TOP / "docs/commands.md").read_text()

    def test_the_example_of_changes(self) -> None:
        (wanted,) = re.findall(r"(?ms)^```\n(.*?)^```", self.text.split("### `--changes`")[1].split("\n## ")[0])
        given = "%%\n".join((HOPS, LINE, "unlink 1 2\n"))
        words = [fc.find(), "check", "--settle", "--changes"]
        done = subprocess.run(words, input=given, capture_output=True, text=True, check=False)
        self.assertEqual((done.returncode, done.stdout), (0, wanted))


PAGES = sorted(
    [*TOP.glob("*.md"), *(TOP / "docs").rglob("*.md"), TOP / "examples/README.md", TOP / "editors/README.md"]
)


class Links(unittest.TestCase):
    """Each page, anchor, picture and file that a page names is there."""

    def test_links_and_pictures(self) -> None:
        for page in PAGES:
            for target in re.findall(r"\]\(([^)\s]+)\)", page.read_text()):
                path, _, anchor = target.partition("#")
                with self.subTest(page=page.name, target=target):
                    self.assertTrue(path == "" or (page.parent / path).exists())
                    if anchor:
                        self.assertIn(anchor, anchors_of(page if path == "" else page.parent / path))

    def test_named_pages(self) -> None:
        for page in PAGES:
            found = re.findall(
                r"(?<![\w/.])((?:\.\./)?[\w/]+\.(?:md|json|fc|txt|py|antt|rt))(?![\w/])", page.read_text()
            )
            for named in found:
                if named.startswith(FREE) or not (named.endswith(".md") or "/" in named):
                    continue
                with self.subTest(page=page.name, named=named):
                    places = (page.parent, TOP, TOP / "crates", TOP / "python/tests")
                    self.assertTrue(named in made_by_patches() or any((place / named).exists() for place in places))

    def test_the_list_of_pages_is_whole(self) -> None:
        listed = set(re.findall(r"^\| \[([\w.]+\.md)\]", (TOP / "docs/README.md").read_text(), re.MULTILINE))
        self.assertEqual(listed, {path.name for path in (TOP / "docs").glob("*.md")} - {"README.md"})


def anchors_of(page: Path) -> set[str]:
    """The anchors of a page, as its readers write them."""
    headings = re.findall(r"^#+ (.*)$", page.read_text(), re.MULTILINE)
    return {re.sub(r"[^a-z0-9 _-]", "", heading.lower()).replace(" ", "-") for heading in headings}


if __name__ == "__main__":
    unittest.main()
