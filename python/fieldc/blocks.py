"""The blocks of a library: functions in files NAME.fc, each with a comment above it that says what it gives."""

from __future__ import annotations

import difflib
import re
from collections.abc import Iterable
from dataclasses import dataclass
from pathlib import Path

from . import program as fc
from .elsewhere import hint_for
from .refusals import Fault
from .sections import read

WORDS = frozenset(
    "ceiling input metric def main let in if nbr rep sense uid nbrLink not and or true false int bool field min max mux"
    " fst snd minHoodLoc maxHoodLoc sumHood anyHood allHood share rise language".split()
)
LIKE_CALLS = ("minHoodLoc", "maxHoodLoc", "sumHood", "anyHood", "allHood", "min", "max", "mux", "fst", "snd", "rise")
TOKEN = re.compile(r"//[^\n]*|[A-Za-z][A-Za-z0-9_]*|[0-9]+|\.\.|=>|[^\sA-Za-z0-9]")
NOTE = re.compile(r"(Elsewhere|K|Uses|Needs): ?(.*)")
PARAMETER = re.compile(r"(\w+)\s*:\s*(.*?)(?=,\s*\w+\s*:|$)", re.DOTALL)
SHORTEST_ELSEWHERE = 4
FOUR_LETTERS = {
    "G": ("hops", "distance", "broadcast", "sumAlong"),
    "C": ("collectSum", "collectMax", "collectMin", "collectAny"),
    "S": ("sparse", "heads", "leader"),
    "T": ("countDown", "timer"),
}


@dataclass(frozen=True)
class Token:
    """A token of a program: its text, the offset at which it begins, and its line, from 1."""

    text: str
    at: int
    line: int


@dataclass(frozen=True)
class Declaration:
    """A declaration of a program: its tokens, the `;` included."""

    tokens: tuple[Token, ...]

    @property
    def kind(self) -> str:
        """Its first token, as `def` or `main`."""
        return self.tokens[0].text

    @property
    def name(self) -> str:
        """The function or input that it declares; else its first token."""
        named = self.kind in ("def", "input") and len(self.tokens) > 1
        return self.tokens[1].text if named else self.kind

    @property
    def line(self) -> int:
        """The line of its first token, from 1."""
        return self.tokens[0].line

    @property
    def end(self) -> int:
        """The offset after its last token."""
        return self.tokens[-1].at + len(self.tokens[-1].text)

    def calls(self) -> list[Token]:
        """The names that are called, in their order; the name that is defined here isn't among them."""
        first = 2 if self.kind == "def" else 0
        following = zip(self.tokens[first:], self.tokens[first + 1 :])
        return [t for t, then in following if then.text == "(" and t.text[0].isalpha() and t.text not in WORDS]


@dataclass(frozen=True)
class Block:
    """A function of a library.

    `gives` says what it gives; `notes` has what follows `Elsewhere`, `K`, `Uses` and `Needs`, and a part of other
    blocks has no `K`. `comment` and `text` are its lines in `file`; `parameters` have a name and a type each; `calls`
    are the functions that it calls.
    """

    name: str
    file: str
    gives: str
    notes: dict[str, str]
    comment: str
    text: str
    parameters: tuple[tuple[str, str], ...]
    calls: tuple[str, ...]
    second_language: bool

    @property
    def is_part(self) -> bool:
        """Whether it is only a part of other blocks."""
        return "K" not in self.notes

    @property
    def call(self) -> str:
        """How it is called: its name and its parameters."""
        return f"{self.name}({', '.join(name for name, _ in self.parameters)})"

    @property
    def summary(self) -> str:
        """What it gives, up to the first stop."""
        return re.split(r"[.;] ", self.gives + " ")[0]


Library = dict[str, Block]


def tokens(text: str) -> list[Token]:
    """The tokens of a program, comments left out; what begins no token is one of a single character."""
    found, line, passed = [], 1, 0
    for match in TOKEN.finditer(text):
        line += text.count("\n", passed, match.start())
        passed = match.start()
        if not match.group().startswith("//"):
            found.append(Token(match.group(), match.start(), line))
    return found


def declarations(text: str) -> list[Declaration]:
    """The declarations of a program, cut after each `;`; tokens after the last one are one more."""
    found: list[Declaration] = []
    waiting: list[Token] = []
    for token in tokens(text):
        waiting.append(token)
        if token.text == ";":
            found.append(Declaration(tuple(waiting)))
            waiting = []
    return [*found, Declaration(tuple(waiting))] if waiting else found


def _noted(comment: str) -> tuple[str, dict[str, str]]:
    """What the comment of a block says: what it gives, and its notes."""
    gives, notes, last = "", {}, ""
    for line in comment.splitlines():
        said = line.lstrip("/").strip()
        note = NOTE.match(said)
        if note:
            last = note.group(1)
            notes[last] = note.group(2).strip()
        elif last:
            notes[last] += " " + said
        else:
            gives = f"{gives} {said}".strip()
    return gives, notes


def _parameters(text: str) -> tuple[tuple[str, str], ...]:
    """The parameters of the text of a function, each with its type as it is written."""
    begin, depth = text.index("("), 0
    for end in range(begin, len(text)):
        depth += {"(": 1, ")": -1}.get(text[end], 0)
        if depth == 0:
            break
    return tuple((name, " ".join(kind.split())) for name, kind in PARAMETER.findall(text[begin + 1 : end]))


def _block(path: Path, text: str, function: Declaration) -> Block:
    """A function of a file of a library, with the lines of comment right above it."""
    above = text[: function.tokens[0].at].split("\n")[:-1]
    first = len(above)
    while first and above[first - 1].startswith("//"):
        first -= 1
    comment = "".join(line + "\n" for line in above[first:])
    gives, notes = _noted(comment)
    own = text[function.tokens[0].at : function.end]
    return Block(
        name=function.name,
        file=path.name,
        gives=gives.removeprefix(function.name + ": "),
        notes=notes,
        comment=comment,
        text=own,
        parameters=_parameters(own),
        calls=tuple(dict.fromkeys(token.text for token in function.calls())),
        second_language=any(token.text in ("share", "rise") for token in function.tokens),
    )


def read_library(folders: Iterable[Path]) -> Library:
    """The blocks of some folders, by name: the functions of their files NAME.fc.

    Raises Fault if a folder has no such file, one can't be read or has another declaration than `def`, or two functions
    have one name.
    """
    found: Library = {}
    for folder in folders:
        paths = sorted(folder.glob("*.fc"))
        if not paths:
            raise Fault(f"{folder} has no blocks: it has no file NAME.fc", 5)
        for path in paths:
            text = read(str(path))
            for function in declarations(text):
                words = [token.text for token in function.tokens]
                if words[:1] != ["def"] or words[2:3] != ["("] or words[-1] != ";":
                    raise Fault(f"{path} line {function.line}: a file of blocks may have only functions", 3)
                if function.name in found:
                    other = found[function.name].file
                    raise Fault(f"{path} line {function.line}: {function.name} is in {other} too", 3)
                found[function.name] = _block(path, text, function)
    return found


def own_library() -> Path:
    """The folder of the project's own blocks: `library` of the checkout, or beside this file where it is installed."""
    here = fc.checkout()
    return here / "library" if here is not None else fc.PACKAGE / "library"


def called_elsewhere(name: str, library: Library) -> list[str]:
    """The blocks that other languages call so; for G, C, S and T the first that come to mind."""
    if name in FOUR_LETTERS:
        return [block for block in FOUR_LETTERS[name] if block in library]
    if len(name) < SHORTEST_ELSEWHERE:
        return []
    blocks = [block for block in library.values() if not block.is_part]
    wanted = name.lower()
    return [b.name for b in blocks if wanted in re.findall(r"[a-z0-9_]+", b.notes.get("Elsewhere", "").lower())]


def near(name: str, library: Library) -> list[str]:
    """At most four blocks and builtins whose name is near: those that are called so elsewhere, then by spelling."""
    blocks = [block for block in library.values() if not block.is_part]
    wanted = name.lower()
    names = {known.lower(): known for known in (*LIKE_CALLS, *(block.name for block in blocks))}
    spelled = [names[found] for found in difflib.get_close_matches(wanted, names, n=4, cutoff=0.55)]
    return list(dict.fromkeys([*called_elsewhere(name, library), *spelled]))[:4]


def not_there(name: str, library: Library) -> str:
    """That no block has a name, with what stands for it here, or the nearest that there are."""
    if not called_elsewhere(name, library) and (hint := hint_for(name)) is not None:
        return f"no block is called {name}. {hint}"
    found = near(name, library)
    return f"no block is called {name}; " + (f"the nearest: {', '.join(found)}" if found else "--list has all")


def listing(library: Library) -> str:
    """A line for each block that isn't only a part, by name: how it is called, and what it gives."""
    shown = sorted((b for b in library.values() if not b.is_part), key=lambda block: block.name.lower())
    width = max((len(block.call) for block in shown), default=0)
    return "".join(f"{block.call:{width}}  {block.summary}\n" for block in shown)


def shown(name: str, library: Library) -> str:
    """A block with its comment, as it stands in its file. Raises Fault if no block has the name."""
    if name not in library:
        raise Fault(not_there(name, library), 3)
    return f"{library[name].comment}{library[name].text}\n"
