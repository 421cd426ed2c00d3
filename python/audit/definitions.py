"""Reads the definitions of `specs/*.antt`, and the types, constants and clauses of `src/*.rt` on which they lean."""

from __future__ import annotations

import re
from collections.abc import Iterable, Iterator
from dataclasses import dataclass, field
from itertools import takewhile
from pathlib import Path

WORD = r"[^\W\d][\w'?]*"
# the first line of a definition, a case of a type, and a `use` line
HEAD = re.compile(rf"(?:abbrev |unfoldable )?(?:pub )?(?P<kind>record |data )?(?P<name>{WORD}|◌\S+◌)(?= |$)")
CASE = re.compile(rf" +({WORD}) :")
USE = re.compile(r"(?:pub |ghost )*use (?P<module>[\w.]+?)(?:\.\{(?P<names>.*)\})?(?: as (?P<alias>\w+))?;?$")
# the first lines of what is no definition
OTHERS = ("use ", "pub use ", "pub mod ", "infixl ", "module ", "--")
CODE = re.compile(r"(?:pub(?:\(\w+\))? )?(?P<kind>enum|struct|trait|const|fn) (?P<name>\w+)")
CODE_USE = re.compile(r"^(?:pub )?use (?P<crate>\w+)(?P<rest>::[^;]*);", re.MULTILINE)
TYPES = ("enum", "struct", "trait")
# a name of a type in the code
TYPE = re.compile(r"(?<![\w.])([A-Z]\w*)")


@dataclass(frozen=True)
class Definition:
    """A definition, or a type, trait, constant or function of the code: its file below `crates`, and its lines."""

    file: str
    name: str
    first: int = field(compare=False)
    last: int = field(compare=False)
    comment: str = field(compare=False, repr=False)
    text: str = field(compare=False, repr=False)
    is_type: bool = field(compare=False)
    # the constructors of a type
    cases: tuple[str, ...] = field(compare=False, default=())

    @property
    def crate(self) -> str:
        """The crate in which it stands."""
        return self.file.partition("/")[0]


@dataclass
class File:
    """A file: what it says of itself, and its definitions."""

    path: str
    said: str
    definitions: list[Definition]
    # the module, and the name there, of each name that is brought in
    names: dict[str, tuple[str, str]]
    # the module of each name that stands for one
    aliases: dict[str, str]

    def named(self, name: str) -> Definition | None:
        """The definition of this name, or the one that has a case of this name."""
        return next((it for it in self.definitions if name == it.name or name in it.cases), None)


@dataclass
class Part:
    """A definition while its lines are read."""

    name: str
    comment: list[str]
    first: int
    last: int
    lines: list[str]

    def whole(self, file: str) -> Definition:
        """The definition once all its lines are read."""
        head = HEAD.match(self.lines[0])
        kind = head["kind"] if head else None
        cases = [CASE.match(line) for line in self.lines[1:]] if kind == "data " else []
        named = tuple(it[1] for it in cases if it)
        text = "\n".join(self.lines)
        return Definition(file, self.name, self.first, self.last, said(self.comment), text, kind is not None, named)


def said(comment: Iterable[str]) -> str:
    """What comment lines say."""
    return " ".join(line.strip().lstrip("-/!").strip() for line in comment).strip()


# ---- definitions


def parts_of(lines: Iterable[tuple[int, str]], indent: int) -> Iterator[Part]:
    """The definitions that begin so far in: what stands further in, or begins with the same name, is of one."""
    part: Part | None = None
    comment: list[str] = []
    for number, line in lines:
        text = line[indent:]
        head = None if text.startswith((" ", "}", ")", *OTHERS)) else HEAD.match(text)
        if text.startswith("--") and not text.startswith("-- ----"):
            comment.append(text)
        elif not text or text.startswith("--"):
            comment = []
        elif head and head["name"] != (part.name if part else ""):
            if part:
                yield part
            part = Part(head["name"], comment, number - len(comment), number, [text])
            comment = []
        elif part and not text.startswith(OTHERS):
            part.lines.append(text)
            part.last = number
    if part:
        yield part


def blocks_of(lines: Iterable[tuple[int, str]]) -> Iterator[tuple[int, list[tuple[int, str]]]]:
    """The lines in blocks, each with how far in its definitions begin: those of a `mutual` begin two further in."""
    block: list[tuple[int, str]] = []
    indent = 0
    for number, line in lines:
        if line.endswith("mutual"):
            above = [*takewhile(lambda it: it[1].startswith("--"), reversed(block))]
            yield indent, block[: len(block) - len(above)]
            # what is said above of all of them is said of the first
            block, indent = [(one, "  " + text) for one, text in [*reversed(above), (number, "--")]], 2
            continue
        if indent and line and not line.startswith(" "):
            yield indent, block
            block, indent = [], 0
        block.append((number, line))
    yield indent, block


def uses_of(lines: Iterable[str]) -> tuple[dict[str, tuple[str, str]], dict[str, str]]:
    """The names that `use` lines bring in, and the names that stand for modules."""
    names: dict[str, tuple[str, str]] = {}
    aliases: dict[str, str] = {}
    for used in filter(None, map(USE.match, lines)):
        if used["alias"]:
            aliases[used["alias"]] = used["module"]
        for one in filter(None, (used["names"] or "").split(", ")):
            there, _, here = one.partition(" as ")
            names[here or there] = (used["module"], there)
    return names, aliases


def read_definitions(path: Path, file: str) -> File:
    """A file of definitions."""
    lines = path.read_text().splitlines()
    names, aliases = uses_of(lines)
    head = [*takewhile(lambda line: line.startswith("--"), lines)]
    rest = [(number, line) for number, line in enumerate(lines, 1) if number > len(head)]
    found = [part.whole(file) for indent, block in blocks_of(rest) for part in parts_of(block, indent)]
    return File(file, said(head), found, names, aliases)


# ---- code


def code_parts(lines: Iterable[str]) -> Iterator[tuple[str, Part]]:
    """The types, traits, constants and functions that begin at the left, each with its kind; of a function the head
    alone, with its clauses."""
    above: list[str] = []
    rest = iter(enumerate(lines, 1))
    for number, line in rest:
        found = CODE.match(line)
        if line.startswith(("//", "#[")):
            above.append(line)
            continue
        if found:
            taken = [line]
            while not taken[-1].startswith(("{", "}")) and not (taken[-1].endswith(";") and found["kind"] != "trait"):
                taken.append(next(rest)[1])
            comment = [it for it in above if it.startswith("//")]
            yield found["kind"], Part(found["name"], comment, number - len(above), number + len(taken) - 1, taken)
        above = []


def read_code(path: Path, file: str) -> File:
    """A file of code."""
    text = path.read_text()
    lines = text.splitlines()
    names, aliases = uses_of(line for line in lines if line.startswith("ghost use"))
    for used in CODE_USE.finditer(text):
        for name in TYPE.findall(used["rest"]):
            names.setdefault(name, (used["crate"], name))
    found = [
        Definition(file, it.name, it.first, it.last, said(it.comment), "\n".join(it.lines), kind in TYPES)
        for kind, it in code_parts(lines)
    ]
    return File(file, said(takewhile(lambda line: line.startswith("//!"), lines)), found, names, aliases)
