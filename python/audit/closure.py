"""Which definitions a definition rests on."""

from __future__ import annotations

import re
from collections.abc import Callable, Iterable, Iterator
from pathlib import Path

from .definitions import TYPE, WORD, Definition, File, read_code, read_definitions

# a name with what is taken of it, or an operator between two spaces
NAMED = re.compile(rf"(?<![\w.'?])({WORD})((?:\.{WORD})*)|(?<= )([^\w\s(){{}}\[\];,.:λ→×]+)(?= )")
WORDS = re.compile(WORD)
TEXT = re.compile(r'"(?:[^"\\]|\\.)*"')
COMMENT = re.compile(r"(?:--|//).*")
EQUALS = re.compile(r"\s=\s")
# what a line binds: the variables of a telescope or of a function, the fields of a record
BOUND = re.compile(r"[({]((?:[^\W\d][\w'?]* )+):|λ ((?:[^\W\d][\w'?]* ?)+)\.")
FIELD = re.compile(r"(?m)^ +pub ([\w'?]+) :")
# the name of a field that a record is made with
LABEL = re.compile(r"([{;]\s*)[\w']+ =(?= )")
CLAUSE = re.compile(r"\b(?:requires|ensures)\b")
DECLARED = re.compile(r"Rattle\.(?P<crate>\w+)\.specs\.(?:declared|contracts)\.(?P<module>[a-z\d_.]+)\.(?P<type>\w+)")
DEFINED = re.compile(r"Rattle\.(?P<crate>\w+)\.specs\.(?P<module>[\w.]+)$")

# what a name stands for: a definition, the name of what stands outside the repository, or nothing that is looked for
Meaning = Definition | str | None


class Repository:
    """The definitions of all crates, and which others each names."""

    def __init__(self, crates: Path) -> None:
        self.crates = crates
        self._files: dict[str, File | None] = {}
        self._named: dict[Definition, list[Definition | str]] = {}

    def file(self, path: str) -> File | None:
        """A file below `crates`, if it is there."""
        if path not in self._files:
            there = self.crates / path
            read = read_code if path.endswith(".rt") else read_definitions
            self._files[path] = read(there, path) if there.is_file() else None
        return self._files[path]

    def find(self, path: str, name: str) -> Definition:
        """A definition by its file and its name."""
        file = self.file(path)
        found = file.named(name) if file else None
        if not found:
            raise KeyError(f"{path} has no {name}")
        return found

    # ---- what a name stands for

    def type_of(self, crate: str, name: str) -> Definition | None:
        """A type of a crate's code."""
        for path in sorted((self.crates / crate / "src").rglob("*.rt")):
            file = self.file(str(path.relative_to(self.crates)))
            found = file.named(name) if file else None
            if found and found.is_type:
                return found
        return None

    def at(self, module: str, name: str) -> Definition | None:
        """What a name of a module stands for, if it stands in the repository."""
        if found := DECLARED.match(module):
            file = self.file(f"{found['crate']}/src/{found['module'].replace('.', '/')}.rt")
            return file.named(name if found["type"] == "TheConstants" else found["type"]) if file else None
        found = DEFINED.match(module)
        file = self.file(f"{found['crate']}/specs/{found['module'].replace('.', '/')}.antt") if found else None
        if not file:
            return None
        return file.named(name) or (self.at(*file.names[name]) if name in file.names else None)

    def meaning(self, file: File, name: str, rest: str) -> Meaning:
        """What a name in a file stands for, with what is taken of it."""
        if name in file.aliases and rest:
            module, there = file.aliases[name], rest.split(".")[1]
        elif here := file.named(name):
            return here
        elif name in file.names:
            module, there = file.names[name]
        else:
            return None
        return self.at(module, there) or f"{module}.{there}"

    # ---- what a definition names

    def in_code(self, file: File, it: Definition) -> Iterator[Meaning]:
        """The types and traits that a part of the code names, and what it names in its clauses."""
        for name in TYPE.findall(it.text.partition(it.name)[2]):
            crate = file.names[name][0] if name in file.names else ""
            outer = self.type_of(it.crate if crate == "crate" else crate, name) if crate else None
            yield file.named(name) or outer
        if clause := CLAUSE.search(it.text):
            yield from self.in_clauses(file, it, it.text[clause.start() :])

    def in_clause(self, file: File, it: Definition, clause: str, fields: set[str]) -> Iterator[Meaning]:
        """What a clause of a definition names, but for the names that it binds."""
        bound = fields | {name for pair in BOUND.findall(clause) for side in pair for name in side.split()}
        is_equation = clause.startswith(it.name + " ")
        left = {*WORDS.findall(EQUALS.split(clause)[0])} if is_equation else set[str]()
        for name, rest, sign in NAMED.findall(clause):
            meaning = self.meaning(file, name or f"◌{sign}◌", rest)
            # on the left of an equation stand cases and variables
            is_variable = name in bound or (name in left and not is_case(meaning, name))
            if not is_variable:
                yield meaning

    def in_clauses(self, file: File, it: Definition, text: str) -> Iterator[Meaning]:
        """What the lines of a definition name."""
        text = LABEL.sub(r"\1", COMMENT.sub("", TEXT.sub('""', text)))
        fields = {*FIELD.findall(text)}
        for clause_text in [text] if it.is_type else equations(it.name, text):
            yield from self.in_clause(file, it, clause_text, fields)

    def all_named(self, it: Definition) -> list[Definition | str]:
        """All that a definition names, in the order in which it does."""
        if it not in self._named:
            file = self.file(it.file)
            assert file is not None
            found = self.in_code(file, it) if it.file.endswith(".rt") else self.in_clauses(file, it, it.text)
            self._named[it] = [one for one in dict.fromkeys(found) if one is not None and one != it]
        return self._named[it]

    def named(self, it: Definition) -> list[Definition]:
        """The definitions of the repository that a definition names."""
        return [one for one in self.all_named(it) if isinstance(one, Definition)]

    def named_outside(self, it: Definition) -> list[str]:
        """The names of what stands outside that a definition names, each with its module."""
        return [one for one in self.all_named(it) if isinstance(one, str)]

    def rests_on(
        self, roots: Iterable[Definition], is_cut: Callable[[Definition], bool] = lambda it: False
    ) -> dict[Definition, Definition | None]:
        """All that some definitions rest on, each with the first that names it. What is cut isn't gone into."""
        met: dict[Definition, Definition | None] = {it: None for it in roots}
        waiting = [*met]
        for it in waiting:
            for one in () if is_cut(it) else self.named(it):
                if one not in met:
                    met[one] = it
                    waiting.append(one)
        return met


def is_case(meaning: Meaning, name: str) -> bool:
    """Whether a name stands for a case of a type, of the definitions, of the code or of outside."""
    if isinstance(meaning, Definition):
        return name in meaning.cases or meaning.file.endswith(".rt")
    return meaning is not None


def equations(name: str, text: str) -> Iterator[str]:
    """What stands before the equations of a definition, and each equation."""
    clause: list[str] = []
    for line in text.splitlines():
        if line.startswith(name + " ") and clause:
            yield "\n".join(clause)
            clause = []
        clause.append(line)
    yield "\n".join(clause)
