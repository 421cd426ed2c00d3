"""Each name that a page of the repository has in quotes of code is there.

Which words are looked at, and where they have to stand:

- `crate::name`, `Type::name` and `crate::Type::name`: the crate or type, which has to define that name.
- a word of small letters with `_`, or of several capitalised parts (`same_branch`, `IsWellTyped`): it is a word of the
  crates, of the Python code or of another file that is read or run, or an edit's name.
- a word with `/` or an ending of a file: that file, from the top, from the page, or in `crates/` or `python/tests`. A
  file of `specs/`, `src/` or `proofs/` has to be in the crate of its row of a table, else in some crate. Words of
  the patches in `docs/recipes`, and files that they make, are there too.
- `./X`, `tools/X`, and commands of `fc` and `fieldc` with their options: that program, command and option.

Words of the toolchain (`rt ci`), of programs of the language and of files that the reader makes aren't looked at.
"""

from __future__ import annotations

import os
import re
import unittest
from collections.abc import Iterator
from dataclasses import dataclass
from functools import lru_cache
from pathlib import Path

from helping import PATCHES, TOP, made_by_patches

from making import lines

PAGES = (TOP / "README.md", TOP / "CONTRIBUTING.md", *sorted((TOP / "docs").rglob("*.md")))
CODE = re.compile(r"`([^`\n]+)`")
BLOCK = re.compile(r"^```.*?^```$", re.MULTILINE | re.DOTALL)
MEMBER = re.compile(r"\w+(?:::\w+)+")
WORD = re.compile(r"[a-z][a-z0-9]*(?:_[a-z0-9]+)+|(?:[A-Z][a-z0-9]+){2,}")
FILE = re.compile(r"(?:\.{0,2}[\w.*+-]+/)+[\w.*+-]*|[\w-]+\.(?:rt|antt|md|py|edit|case|lark)")
DEFINED = re.compile(r"\b(?:fn|struct|enum|trait|type|const|mod)\s+(\w+)|^\s*(?:pub )?(\w+)\s*[({,:=]", re.MULTILINE)
# files that the reader of a page makes, or that stand for any of a kind
MADE = (
    "mine/", "crates/fc_program/out/", "NAME", "DIR/", "crates/CRATE/", "crates/NAME/", "wrong/CRATE/", "wrong/NAME/",
    "~", "/", "lib/", "bin/", "libexec/", "usr/", "release/", "mine.fc",
)  # fmt: skip


def pages() -> Iterator[tuple[str, str]]:
    for page in PAGES:
        yield page.name, page.read_text(encoding="utf-8")


@dataclass(frozen=True)
class Quoted:
    """A word in quotes of code: its page, its line, and the crate that its row, or one above it, begins with."""

    page: str
    line: int
    text: str
    crate: str

    def __str__(self) -> str:
        return f"{self.page}:{self.line}: {self.text}"


@lru_cache(maxsize=1)
def crates() -> tuple[str, ...]:
    return tuple(sorted(path.name for path in (TOP / "crates").iterdir() if path.is_dir()))


@lru_cache(maxsize=1)
def quoted() -> tuple[Quoted, ...]:
    """All words in quotes of code, blocks left out."""
    found = []
    for page, text in pages():
        bare = BLOCK.sub(lambda block: "\n" * block[0].count("\n"), text)
        row = ""
        for number, line in enumerate(bare.split("\n"), 1):
            head = line.split("|")[1].strip(" `") if line.startswith("| ") else "-"
            row = (head if head in crates() else "") if head else row
            found += [Quoted(page, number, word, row) for word in CODE.findall(line)]
    return tuple(found)


@lru_cache(maxsize=None)
def sources_of(crate: str) -> str:
    """The code and definitions of a crate, without comments."""
    folder = TOP / "crates" / crate
    code = [re.sub(r"//.*", "", path.read_text()) for path in sorted(folder.glob("src/**/*.rt"))]
    definitions = [re.sub(r"--.*", "", path.read_text()) for path in sorted(folder.glob("specs/**/*.antt"))]
    return "\n".join(code + definitions)


@lru_cache(maxsize=1)
def words_of_sources() -> frozenset[str]:
    """Each word of the sources, of the Python code, of what it reads, and the names of crates and of kit's crates."""
    texts = [sources_of(crate) for crate in crates()] + [(TOP / "crates.txt").read_text()]
    texts += [path.read_text() for path in (TOP / "crates").glob("*/proofs/**/*.antt")]
    for kind in ("fieldc/**/*.py", "making/*.py", "gate/*.py", "tests/*.py", "fieldc/**/*.lark"):
        texts += [path.read_text() for path in (TOP / "python").glob(kind) if path.name != Path(__file__).name]
    texts += [path.read_text() for path in (TOP / "docs").glob("*.json")]
    texts += [path.read_text() for folder in ("library", "examples") for path in (TOP / folder).glob("*.fc")]
    texts += [(TOP / name).read_text() for name in ("fc", "build", "test", "tools/wrong")]
    texts += [path.read_text() for path in (TOP / "embed").glob("*.mjs")]
    texts += [path.stem for path in (TOP / "wrong").glob("*/*.edit")] + [path.read_text() for path in PATCHES]
    return frozenset(word for text in texts for word in re.findall(r"\w+", text))


@lru_cache(maxsize=None)
def defined_by(crate: str) -> frozenset[str]:
    """The names that a crate defines: functions, types, constants, variants and parts."""
    return frozenset(name for found in DEFINED.findall(sources_of(crate)) for name in found if name)


@lru_cache(maxsize=1)
def file_names() -> frozenset[str]:
    """The names of all files, without their folders."""
    found = (names for folder, _, names in os.walk(TOP) if "/.git" not in folder and "/out" not in folder)
    return frozenset(name for names in found for name in names)


def missing_member(word: str) -> bool:
    """Whether a `crate::name` or `Type::name` isn't there."""
    first, *rest = word.split("::")
    if first in crates():
        return not defined_by(first).issuperset(rest)
    return not any(defined_by(crate).issuperset((first, *rest)) for crate in crates())


def missing_file(one: Quoted, word: str) -> bool:
    """Whether a file isn't there; in one of the places from which pages name files."""
    if any(f"/{file}".endswith(f"/{word}") for file in made_by_patches()):
        return False
    if word.startswith(("specs/", "src/", "proofs/")):
        names = (one.crate,) if one.crate else crates()
        return not any(there(TOP / "crates" / name, word) for name in names)
    if "/" not in word:
        return word not in file_names()
    return not any(there(place, word) for place in (TOP, TOP / "docs", TOP / "crates", TOP / "python/tests"))


def there(folder: Path, word: str) -> bool:
    return any(folder.glob(word.rstrip("/"))) if "*" in word else (folder / word).exists()


def options_of(line: lines.Line) -> dict[str, set[str]]:
    """The names of options by command."""
    return {one.name: {name for option in one.options for name in option.names} for one in line.commands}


def spoken() -> Iterator[tuple[str, list[str]]]:
    """The command lines of the pages: those in quotes, and the lines of their blocks; each with where it stands."""
    for one in quoted():
        yield str(one), one.text.split()
    for page, text in pages():
        for block in BLOCK.findall(text):
            for line in block.splitlines()[1:-1]:
                yield f"{page}: {line}", line.removeprefix("$ ").split()


class Names(unittest.TestCase):
    def test_enough_is_looked_at(self) -> None:
        counts = [sum(kind.fullmatch(one.text) is not None for one in quoted()) for kind in (MEMBER, WORD, FILE)]
        self.assertGreater(min(counts), 90, counts)

    def test_what_isnt_there_is_found(self) -> None:
        self.assertTrue(missing_member("value_trees::overwritten_export"))
        self.assertTrue(missing_member("Core::began"))
        self.assertFalse(missing_member("mail_book::Mail::new"))
        self.assertTrue(missing_file(Quoted("x.md", 1, "", "fc_lexer"), "src/operators.rt"))
        self.assertFalse(missing_file(Quoted("x.md", 1, "", "fc_values"), "src/operators.rt"))

    def test_names_of_crates(self) -> None:
        wrong = [str(one) for one in quoted() if MEMBER.fullmatch(one.text) and missing_member(one.text)]
        self.assertEqual(wrong, [])

    def test_words_of_the_sources(self) -> None:
        words = [one for one in quoted() if WORD.fullmatch(one.text)]
        self.assertEqual([str(one) for one in words if one.text not in words_of_sources()], [])

    def test_files(self) -> None:
        named = [(one, word) for one in quoted() for word in one.text.split() if FILE.fullmatch(word)]
        named = [(one, word) for one, word in named if not word.startswith(MADE)]
        self.assertEqual([f"{one}: {word}" for one, word in named if missing_file(one, word)], [])

    def test_programs(self) -> None:
        for where, words in spoken():
            for word in words[:1]:
                if re.fullmatch(r"\./\w+|tools/\w+|\.ci/\w+", word):
                    self.assertTrue(os.access(TOP / word, os.X_OK), where)

    def test_commands_and_options(self) -> None:
        known = {"fc": options_of(lines.of_fc()), "fieldc": options_of(lines.of_fieldc())}
        looked = 0
        for where, words in spoken():
            program = words[0].removeprefix("./") if words else ""
            if program not in known or len(words) < 2 or not re.fullmatch("[a-z]+", words[1]):
                continue
            self.assertIn(words[1], known[program], where)
            given = {word.split("=")[0] for word in words[2:] if word.startswith("--") and word != "--"}
            self.assertEqual(given - known[program][words[1]] - {"--help"}, set(), where)
            looked += 1
        self.assertGreater(looked, 100)


if __name__ == "__main__":
    unittest.main()
