"""Where reading a declaration ended, and what may be said of a token there."""

from __future__ import annotations

from dataclasses import dataclass

from lark import Token

from .faults import GRAMMAR
from .tree import At

DECLARING = ("LANGUAGE", "CEILING", "INPUT", "METRIC", "DEF", "MAIN")
CLOSERS = {"OPEN": "CLOSE", "BEGIN": "END"}


@dataclass(frozen=True, eq=False)
class Stuck:
    """Where reading a declaration ended: its number, its tokens, the index of the first that can't stand where it does
    (as many as there are tokens where the declaration ends too early), the kinds of tokens that could, the place of the
    declaration (first, second, item or end), and whether the program is of language 2."""

    number: int
    tokens: tuple[Token, ...]
    index: int
    expected: frozenset[str]
    start: str
    second: bool

    @property
    def here(self) -> Token | None:
        """The token at fault; nothing at the end."""
        return self.tokens[self.index] if self.index < len(self.tokens) else None

    @property
    def kind(self) -> str:
        """The kind of the token at fault."""
        return self.here.type if self.here is not None else "END_OF_TEXT"

    @property
    def before(self) -> Token | None:
        """The token before the one at fault."""
        return self.tokens[self.index - 1] if self.index else None

    @property
    def operand(self) -> bool:
        """Whether an expression could begin here."""
        return "NUMBER" in self.expected and "TRUE" in self.expected

    def kind_of(self, index: int) -> str:
        """The kind of a token, and nothing outside of the declaration."""
        return self.tokens[index].type if 0 <= index < len(self.tokens) else ""

    def opener(self, index: int) -> int:
        """The index of the bracket that the closing one at this index closes, or -1."""
        depth = 0
        for place in range(index, -1, -1):
            kind = self.kind_of(place)
            depth += (kind in ("CLOSE", "END")) - (kind in ("OPEN", "BEGIN"))
            if depth == 0:
                return place
        return -1

    def closer(self) -> str:
        """The kind of the bracket that closes, after the token at fault, what is open there."""
        depth = 0
        for place in range(self.index, len(self.tokens)):
            kind = self.kind_of(place)
            if kind in CLOSERS.values() and depth == 0:
                return kind
            depth += (kind in CLOSERS) - (kind in CLOSERS.values())
        return ""

    def open_brackets(self) -> list[int]:
        """The indices of the brackets that are open before the token at fault."""
        found: list[int] = []
        for place in range(self.index):
            kind = self.kind_of(place)
            if kind in CLOSERS:
                found.append(place)
            elif kind in CLOSERS.values() and found:
                found.pop()
        return found

    def owner(self) -> str:
        """The kind of the word whose round brackets, or whose first curly ones, end right before the token at fault."""
        place = self.index - 1
        while self.kind_of(place) in ("CLOSE", "END"):
            place = self.opener(place) - 1
        return self.kind_of(place)


Advice = tuple[At, str, "str | None", "str | None", str]
"""A place, a sentence, the name that is meant, a hint and a page."""


def place_of(token: Token) -> At:
    """Where a token begins; a token that Lark only tries has no place."""
    return At(token.line or 1, token.column or 1)


def behind(token: Token) -> At:
    """The place right after a token."""
    return At(token.end_line or 1, token.end_column or 1)


def code(token: Token | None) -> str:
    """A token in quotes of code."""
    return f"`{token.value}`" if token is not None else "the end of the text"


def advice(
    token: Token | None, what: str, hint: str | None = None, page: str = GRAMMAR, *, end: bool = False
) -> Advice:
    """An advice at a token, or right after it."""
    place = At(1, 1) if token is None else behind(token) if end else place_of(token)
    return (place, what, token.value if token is not None and not end else None, hint, page)
