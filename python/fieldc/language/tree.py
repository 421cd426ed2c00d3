"""The parts of a program's text, and where each stands. Lines and columns are from 1, columns in characters."""

from __future__ import annotations

from dataclasses import dataclass
from typing import Iterator, Union


@dataclass(frozen=True)
class At:
    """A place in a section: its line and its column, both from 1."""

    line: int
    column: int


@dataclass(frozen=True)
class Pair:
    """The local type of pairs."""

    first: Local
    second: Local


Local = Union[str, Pair]
"""A local type: "int", "bool" or a pair."""


@dataclass(frozen=True)
class Type:
    """A local type, or the field of one."""

    local: Local
    field: bool = False

    def __str__(self) -> str:
        return ("field " if self.field else "") + local_text(self.local)


def local_text(local: Local) -> str:
    """A local type as a program writes it."""
    if isinstance(local, Pair):
        return f"({local_text(local.first)}, {local_text(local.second)})"
    return local


def leaves(local: Local) -> int:
    """How many integers and truth values a value of the type has."""
    return leaves(local.first) + leaves(local.second) if isinstance(local, Pair) else 1


@dataclass(frozen=True, eq=False)
class Expr:
    """An expression.

    `form` is one of number, truth, variable, sense, uid, nbrLink, apply, nbr, rep, share, if, let and call. `name` is
    the variable, input, function, the bound name, or the builtin as a program writes it (`pair` for a pair). `value` is
    that of a number or truth value. `at` is the first token of the expression, brackets around it left out; `mark` is
    its operator or word; `bound` the bound name. `start` and `end` are offsets in the section's text, brackets around
    it included.
    """

    form: str
    at: At
    mark: At
    start: int
    end: int
    kids: tuple[Expr, ...] = ()
    name: str = ""
    value: int | bool = 0
    bound: At | None = None

    def __deepcopy__(self, _memo: object) -> Expr:
        """Itself, as an expression never changes."""
        return self


@dataclass(frozen=True, eq=False)
class Parameter:
    """A parameter of a function."""

    name: str
    type: Type
    at: At


@dataclass(frozen=True, eq=False)
class Declaration:
    """A declaration.

    `form` is one of language, ceiling, input, metric, def and main, `number` its number from 1 and `at` its first
    token. `bounds` are the number of a `ceiling` or the two of a range, each with its place; an input of truth values
    has none.
    """

    form: str
    at: At
    name: str = ""
    name_at: At | None = None
    bounds: tuple[tuple[int, At], ...] = ()
    parameters: tuple[Parameter, ...] = ()
    result: Type | None = None
    result_at: At | None = None
    body: Expr | None = None
    number: int = 0


def within(expr: Expr) -> Iterator[Expr]:
    """An expression and all its parts, in the order of the text."""
    left = [expr]
    while left:
        found = left.pop()
        yield found
        left.extend(reversed(found.kids))


def quoted(text: str, expr: Expr, most: int = 60) -> str:
    """The text of an expression on one line and in quotes of code; its middle is left out where it is long."""
    words = " ".join(text[expr.start : expr.end].split())
    if len(words) > most:
        words = f"{words[: most - 20]} .. {words[-16:]}"
    return f"`{words}`"
