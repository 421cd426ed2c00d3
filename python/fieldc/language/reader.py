"""Reads a program's text with places: tokens, declarations, limits of a declaration, and the grammar."""

from __future__ import annotations

from dataclasses import dataclass, replace
from functools import lru_cache
from typing import Any, cast

from lark import Lark, Token, Transformer, UnexpectedCharacters, UnexpectedToken, v_args

from .faults import LIMITS, Fault
from .grammar import GRAMMAR, STARTS
from .mistakes import lexical, missing_main, syntax
from .stuck import Stuck
from .stuck import place_of as at
from .tree import At, Declaration, Expr, Local, Pair, Parameter, Type

MOST_TOKENS = 4096
MOST_DEPTH = 200
MOST_NUMBER = 1_000_000
FORMS = {"first": "ceiling", "second": "ceiling", "item": "input metric def main"}


@dataclass(frozen=True, eq=False)
class Program:
    """A program that the grammar takes: its text, its declarations, and whether it is of language 2."""

    text: str
    declarations: tuple[Declaration, ...]
    second: bool

    @property
    def main(self) -> Declaration:
        """The last declaration."""
        return self.declarations[-1]


@dataclass(frozen=True, eq=False)
class Piece:
    """The tokens of one declaration, its `;` included where it has one, and its number from 1."""

    number: int
    tokens: tuple[Token, ...]


def begin_of(token: Token) -> int:
    """The offset in the text at which a token begins; a token that Lark only tries has none."""
    return token.start_pos or 0


def end_of(token: Token) -> int:
    """The offset right after a token; a token that Lark only tries has none."""
    return token.end_pos or 0


def number_of(token: Token) -> int:
    """The number of a token of digits; 1,000,001 stands for all that are greater than 1,000,000."""
    digits = token.value.lstrip("0") or "0"
    return min(int(digits), MOST_NUMBER + 1) if len(digits) <= 7 else MOST_NUMBER + 1


@v_args(inline=True)
class Builder(Transformer[Token, Any]):
    """Makes declarations and expressions of what the grammar finds: a method for each rule, with the parts of that
    rule."""

    def first(self, found: Declaration) -> Declaration:
        return found

    second = item = first

    def language(self, word: Token, number: Token, _end: Token) -> Declaration:
        return Declaration("language", at(word), bounds=((number_of(number), at(number)),))

    def ceiling(self, word: Token, number: Token, _end: Token) -> Declaration:
        return Declaration("ceiling", at(word), bounds=((number_of(number), at(number)),))

    def truth_input(self, word: Token, name: Token, *_rest: Token) -> Declaration:
        return Declaration("input", at(word), name.value, at(name))

    def whole_input(
        self, word: Token, name: Token, _c: Token, _i: Token, low: Token, _d: Token, high: Token, _e: Token
    ) -> Declaration:
        return Declaration(
            "input", at(word), name.value, at(name), ((number_of(low), at(low)), (number_of(high), at(high)))
        )

    def metric(self, word: Token, low: Token, _dots: Token, high: Token, _end: Token) -> Declaration:
        return Declaration("metric", at(word), bounds=((number_of(low), at(low)), (number_of(high), at(high))))

    def define(
        self, word: Token, name: Token, _o: Token, parameters: tuple[Parameter, ...], _c: Token, _k: Token, *rest: Any
    ) -> Declaration:
        (kind, place), _is, body, _end = rest
        return Declaration("def", at(word), name.value, at(name), (), parameters, kind, place, body)

    def main(self, word: Token, _is: Token, body: Expr, _end: Token) -> Declaration:
        return Declaration("main", at(word), body=body)

    def parameters(self, *found: Any) -> tuple[Parameter, ...]:
        return tuple(part for part in found if isinstance(part, Parameter))

    def parameter(self, name: Token, _colon: Token, kind: tuple[Type, At]) -> Parameter:
        return Parameter(name.value, kind[0], at(name))

    def local_type(self, local: tuple[Local, At]) -> tuple[Type, At]:
        return Type(local[0]), local[1]

    def field_type(self, word: Token, local: tuple[Local, At]) -> tuple[Type, At]:
        return Type(local[0], True), at(word)

    def simple(self, word: Token) -> tuple[Local, At]:
        return word.value, at(word)

    def pair_type(
        self, first: Token, left: tuple[Local, At], _comma: Token, right: tuple[Local, At], _close: Token
    ) -> tuple[Local, At]:
        return Pair(left[0], right[0]), at(first)

    def let(self, word: Token, name: Token, _is: Token, bound: Expr, _in: Token, body: Expr) -> Expr:
        place = at(word)
        return Expr("let", place, place, begin_of(word), body.end, (bound, body), name.value, bound=at(name))

    def binary(self, left: Expr, mark: Token, right: Expr) -> Expr:
        return Expr("apply", left.at, at(mark), left.start, right.end, (left, right), mark.value)

    def negation(self, word: Token, part: Expr) -> Expr:
        return Expr("apply", at(word), at(word), begin_of(word), part.end, (part,), "not")

    def _leaf(self, form: str, word: Token, last: Token, **more: Any) -> Expr:
        return Expr(form, at(word), at(word), begin_of(word), end_of(last), **more)

    def number(self, word: Token) -> Expr:
        return self._leaf("number", word, word, value=number_of(word))

    def truth(self, word: Token) -> Expr:
        return self._leaf("truth", word, word, value=word.value == "true")

    def plain(self, word: Token) -> Expr:
        return self._leaf(word.value, word, word)

    def variable(self, word: Token) -> Expr:
        return self._leaf("variable", word, word, name=word.value)

    def sense(self, word: Token, name: Token) -> Expr:
        return self._leaf("sense", word, name, name=name.value, bound=at(name))

    def call(self, word: Token, *rest: Any) -> Expr:
        kids = tuple(part for part in rest if isinstance(part, Expr))
        return self._leaf("call", word, rest[-1], name=word.value, kids=kids)

    def nbr(self, word: Token, _begin: Token, part: Expr, end: Token) -> Expr:
        return self._leaf("nbr", word, end, kids=(part,))

    def keeping(
        self, word: Token, _o: Token, first: Expr, _c: Token, _b: Token, _p: Token, name: Token, *rest: Any
    ) -> Expr:
        kids = (first, rest[2])
        return self._leaf(word.value, word, rest[-1], kids=kids, name=name.value, bound=at(name))

    def choice(self, word: Token, *rest: Any) -> Expr:
        return self._leaf("if", word, rest[-1], kids=tuple(part for part in rest if isinstance(part, Expr)))

    def builtin(self, word: Token, *rest: Any) -> Expr:
        kids = tuple(part for part in rest if isinstance(part, Expr))
        return self._leaf("apply", word, rest[-1], kids=kids, name=word.value)

    def group(self, first: Token, part: Expr, last: Token) -> Expr:
        return replace(part, start=begin_of(first), end=end_of(last))

    def pair(self, first: Token, left: Expr, _comma: Token, right: Expr, last: Token) -> Expr:
        return self._leaf("apply", first, last, kids=(left, right), name="pair")


@lru_cache(maxsize=1)
def parser() -> Lark:
    """The parser; it is made once."""
    return Lark(GRAMMAR, parser="lalr", lexer="basic", start=list(STARTS), transformer=Builder())


def tokens_of(text: str) -> list[Token]:
    """The tokens of a text; a number above 1,000,000 is of the kind GREAT. Raises Fault if nothing begins."""
    found = []
    try:
        for token in parser().lex(text):
            great = token.type == "NUMBER" and number_of(token) > MOST_NUMBER
            found.append(token.update(type="GREAT") if great else token)
    except UnexpectedCharacters as error:
        raise lexical(text, error.pos_in_stream or 0, At(error.line, error.column)) from None
    return found


def pieces_of(tokens: list[Token]) -> list[Piece]:
    """The declarations: the tokens cut after each `;`, and what is left."""
    pieces: list[Piece] = []
    start = 0
    for place, token in enumerate(tokens):
        if token.type == "SEMI":
            pieces.append(Piece(len(pieces) + 1, tuple(tokens[start : place + 1])))
            start = place + 1
    if start < len(tokens):
        pieces.append(Piece(len(pieces) + 1, tuple(tokens[start:])))
    return pieces


def within_limits(piece: Piece) -> None:
    """Raises Fault if a declaration has too many tokens or open brackets."""
    count = len(piece.tokens)
    if count > MOST_TOKENS:
        raise Fault(
            f"limit tokens {count}",
            f"Declaration {piece.number} has {count:,} tokens; the limit is {MOST_TOKENS:,}.",
            at(piece.tokens[0]),
            hint="Move parts of it into functions.",
            page=LIMITS,
        )
    depth = 0
    for token in piece.tokens:
        if token.type in ("OPEN", "BEGIN"):
            depth += 1
        elif token.type in ("CLOSE", "END"):
            depth = max(0, depth - 1)
        if depth > MOST_DEPTH:
            raise Fault(
                f"limit depth {depth}",
                f"This bracket is inside {MOST_DEPTH} others, and no more than that may be open at one place.",
                at(token),
                hint="Move the inner parts into functions or a `let`; look for a bracket that is never closed.",
                page=LIMITS,
            )


def declaration_of(piece: Piece, start: str, second: bool) -> Declaration:
    """The declaration of a piece, of the form that its place allows. Raises Fault if it isn't."""
    state = parser().parse_interactive(start=start)
    place = 0
    try:
        for place, token in enumerate(piece.tokens):
            if _of_language_2(token, second) or (place == 1 and _other_language(piece)):
                raise UnexpectedToken(token, set())  # type: ignore[no-untyped-call]
            state.feed_token(token)
        place = len(piece.tokens)
        found = cast(Declaration, state.feed_eof())  # type: ignore[no-untyped-call]
        return replace(found, number=piece.number)
    except UnexpectedToken:
        expected = accepted(piece, start, place)
        raise syntax(Stuck(piece.number, piece.tokens, place, expected, start, second)) from None


def accepted(piece: Piece, start: str, count: int) -> frozenset[str]:
    """The kinds of tokens that may follow the first `count` of a piece."""
    state = parser().parse_interactive(start=start)
    for token in piece.tokens[:count]:
        state.feed_token(token)
    return frozenset(state.accepts())  # type: ignore[no-untyped-call]


def _of_language_2(token: Token, second: bool) -> bool:
    return token.type in ("SHARE", "RISE") and not second


def _other_language(piece: Piece) -> bool:
    word, number = piece.tokens[:2]
    return word.type == "LANGUAGE" and number.type == "NUMBER" and number_of(number) != 2


def read(text: str) -> Program:
    """The program of a text. Raises Fault with the first fault of tokens, limits or grammar, as `fc` names it."""
    tokens = tokens_of(text)
    pieces = pieces_of(tokens)
    for piece in pieces:
        within_limits(piece)
    found: list[Declaration] = []
    second = False
    for piece in pieces:
        last = found[-1].form if found else ""
        if last == "main":
            raise syntax(Stuck(piece.number, piece.tokens, 0, frozenset(), "end", second))
        start = "first" if not found else "second" if last == "language" else "item"
        found.append(declaration_of(piece, start, second))
        second = second or found[0].form == "language"
    if not found or found[-1].form != "main":
        raise missing_main(len(found) + 1, tokens, [part.form for part in found])
    return Program(text, tuple(found), second)
