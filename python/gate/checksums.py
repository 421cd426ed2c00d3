"""Checksums of all that an edit was tried against: where none of it has changed, the edit needn't be tried again."""

from __future__ import annotations

import hashlib
import re
from collections.abc import Callable, Iterable, Iterator
from functools import lru_cache
from pathlib import Path

from .places import CRATES, libraries

# a function in the layout of `rt fmt`: its indentation, who sees it, and its name
FUNCTION = re.compile(r"( *)(pub |pub\(\w+\) )?(?:const |unsafe )*fn (\w+)")
# a block whose functions are as public as the trait: `impl Trait for Type`, or the trait itself
OF_TRAIT = re.compile(r"( *)(?:(?:pub )?trait |impl\b[^{]* for )")
CLAUSE = re.compile(r" +(requires|ensures|decreases|where|ghost)\b")
# an import for the crate's own use, in front of its semicolon: its path, and the name or the names that it brings
OWN_IMPORT = re.compile(r" *((?:ghost )?use )")
NAMES = re.compile(r"(.*?)(?:{(.*)}|([^:.{}]+));$")
PUBLIC_IMPORT = re.compile(r"^ *pub use ([^;]*);", re.MULTILINE)
PUBLIC_MODULE = re.compile(r"^ *pub mod (\w+);", re.MULTILINE)
ATTRIBUTE = re.compile(r" *#\[")
# how a function is compiled, of which proofs know nothing
APART = re.compile(r" *#\[inline\b.*\]$")


def files_of(folder: Path) -> list[Path]:
    """The files of a folder, in a fixed order."""
    return sorted(path for path in folder.rglob("*") if path.is_file())


def head_of(first: str, lines: Iterator[str]) -> list[str]:
    """The head of a function with its clauses. What is taken from the lines ends with the function's body."""
    indent = first[: len(first) - len(first.lstrip())]
    head = [first]
    while not head[-1].endswith((";", "{}")) and head[-1] != f"{indent}{{" and not opens_body(head):
        head.append(next(lines))
    if head[-1].endswith("{"):
        for line in lines:
            if line == f"{indent}}}":
                break
    return head


def opens_body(head: list[str]) -> bool:
    """Whether the last line of a head opens the body on the line of the result, as it does where there is no clause."""
    return head[-1].endswith("{") and not any(CLAUSE.match(line) for line in head)


def import_of(first: str, lines: Iterator[str]) -> str:
    """An import, which may take several lines."""
    whole = first.strip()
    while not whole.endswith(";"):
        whole += next(lines).strip()
    return whole


def brought(imports: Iterable[str], text: str) -> Iterator[str]:
    """What some imports bring that a text names, a line for each. An operator is named where all of its parts stand."""
    for line in imports:
        found = NAMES.match(line)
        assert found, line
        for name in (found[2] or found[3]).split(","):
            parts = name.split(" as ")[-1].strip().split("◌")
            if name.strip() and all(part in text for part in parts):
                yield found[1] + name.strip()


def every(_: str) -> bool:
    """Whether a function of a public module is given to other crates: all are."""
    return True


def public_lines(text: str, is_given: Callable[[str], bool] = every) -> list[str]:
    """The lines of a source in the layout of `rt fmt` on which other crates can lean: all but comments, imports of what
    these lines don't name, bodies of functions, functions that aren't public, those beside the types that aren't given
    to other crates, and whether functions are inlined."""
    lines = iter([line for line in text.splitlines() if line.strip() and not line.lstrip().startswith("//")])
    end_of_trait = ""
    attributes: list[str] = []
    imports: list[str] = []
    public: list[str] = []
    for line in lines:
        if found := OF_TRAIT.match(line):
            end_of_trait = f"{found[1]}}}"
        elif line == end_of_trait:
            end_of_trait = ""
        if ATTRIBUTE.match(line):
            if not APART.match(line):
                attributes.append(line)
            continue
        if found := FUNCTION.match(line):
            head = head_of(line, lines)
            if end_of_trait or found[2] == "pub " and (found[1] or is_given(found[3])):
                public += [*attributes, *head]
        elif OWN_IMPORT.match(line):
            imports.append(import_of(line, lines))
        else:
            public += [*attributes, line]
        attributes = []
    return [*brought(imports, "\n".join(public)), *public]


def sees(crate: str) -> Iterator[tuple[str, list[str]]]:
    """The sources of a crate, by name, with the lines that other crates see. Of a private module they see those
    functions beside its types that a `pub use` names."""
    texts = {path: path.read_text() for path in files_of(CRATES / crate / "src")}
    whole = "\n".join(texts.values())
    given = {name for found in PUBLIC_IMPORT.findall(whole) for name in re.split(r"\W+", found)}
    public = {"lib", "main", *PUBLIC_MODULE.findall(whole)}
    for path, text in texts.items():
        yield named(path), public_lines(text, every if path.stem in public else given.__contains__)


def as_proved(path: Path) -> bytes:
    """The content of a file of a crate, without how its functions are compiled."""
    lines = path.read_text().splitlines(keepends=True)
    return "".join(line for line in lines if not APART.match(line.rstrip("\n"))).encode()


def digest(parts: Iterable[tuple[str, bytes]]) -> str:
    """The checksum of some named texts."""
    lines = (f"{name} {hashlib.sha256(content).hexdigest()}\n" for name, content in parts)
    return hashlib.sha256("".join(lines).encode()).hexdigest()


def named(path: Path) -> str:
    """The name of a file of a crate in a checksum."""
    return str(path.relative_to(CRATES))


@lru_cache(maxsize=None)
def seen_from_above(crate: str) -> str:
    """The checksum of what other crates see of a crate: its definitions, and the public lines of its sources."""
    definitions = [(named(path), path.read_bytes()) for path in files_of(CRATES / crate / "specs")]
    return digest([*definitions, *((name, "\n".join(lines).encode()) for name, lines in sees(crate))])


@lru_cache(maxsize=None)
def surroundings(crate: str) -> str:
    """The checksum of a crate's files, and of what it sees of the crates that its line in crates.txt names."""
    folders = (CRATES / crate / part for part in ("src", "specs", "proofs"))
    own = [(named(path), as_proved(path)) for folder in folders for path in files_of(folder)]
    return digest([*own, *((name, seen_from_above(name).encode()) for name in libraries()[crate])])


def checksum(crate: str, text: str) -> str:
    """The checksum of an edit of a crate."""
    return digest([(crate, surroundings(crate).encode()), ("edit", text.encode())])[:32]
