"""Between which integers the values of each node lie (docs/analysis.md, Ranges)."""

from __future__ import annotations

from collections.abc import Callable
from dataclasses import dataclass
from typing import Union

from .tree import Local, Pair
from .types import deep
from .unfold import Node, Unfolded


@dataclass(frozen=True)
class Span:
    """The integers from a least to a greatest."""

    low: int
    high: int


@dataclass(frozen=True)
class Both:
    """The ranges of the parts of a pair."""

    first: Range
    second: Range


Range = Union[Span, Both, None]
"""Of integers, of pairs, or nothing for truth values. Of a field it is that of each entry."""


def full(local: Local, ceiling: int) -> Range:
    """The range of all values of a type."""
    if isinstance(local, Pair):
        return Both(full(local.first, ceiling), full(local.second, ceiling))
    return Span(0, ceiling) if local == "int" else None


def hull(a: Range, b: Range) -> Range:
    """What lies in either of two ranges of one type."""
    if isinstance(a, Span) and isinstance(b, Span):
        return Span(min(a.low, b.low), max(a.high, b.high))
    if isinstance(a, Both) and isinstance(b, Both):
        return Both(hull(a.first, b.first), hull(a.second, b.second))
    return None


def leading(found: Range) -> Span | None:
    """The range of an integer, or of the first part of a pair where that is one."""
    if isinstance(found, Both):
        found = found.first if isinstance(found.first, Span) else None
    return found if isinstance(found, Span) else None


def text_of(found: Range) -> str:
    """A range as `check --facts` writes it."""
    if isinstance(found, Both):
        return f"({text_of(found.first)},{text_of(found.second)})"
    return f"{found.low}..{found.high}" if isinstance(found, Span) else "-"


def _by_first(rule: Callable[[Span, Span], Span], a: Range, b: Range) -> Range:
    """A rule on integers, for pairs on their first parts, with the hull of the second ones."""
    if isinstance(a, Both) and isinstance(b, Both):
        return Both(_by_first(rule, a.first, b.first), hull(a.second, b.second))
    return rule(a, b) if isinstance(a, Span) and isinstance(b, Span) else None


def _least(a: Span, b: Span) -> Span:
    return Span(min(a.low, b.low), min(a.high, b.high))


def _greatest(a: Span, b: Span) -> Span:
    return Span(max(a.low, b.low), max(a.high, b.high))


class Ranges:
    """The range of each node, by its place."""

    def __init__(self, program: Unfolded) -> None:
        self.program = program
        self.found: dict[int, Range] = {}
        with deep():
            self._of(0)

    def __getitem__(self, place: int) -> Range:
        return self.found[place]

    def _of(self, place: int) -> Range:
        node = self.program.nodes[place]
        kids = [self._of(kid) for kid in node.kids]
        self.found[place] = found = self._rule(node, kids)
        return found

    def _rule(self, node: Node, kids: list[Range]) -> Range:
        ceiling = self.program.ceiling
        if node.form in ("let", "rep", "share"):
            return kids[1]
        if node.form == "nbr":
            return kids[0]
        if node.form == "if":
            return hull(kids[1], kids[2])
        if node.form == "variable":
            return self._variable(node)
        if node.form == "apply":
            return self._builtin(node.name, kids)
        if node.form == "number":
            return Span(node.expr.value, node.expr.value)
        if node.form == "nbrLink":
            return Span(*self.program.metric)
        if node.form == "sense":
            declared = next(part for part in self.program.inputs if part.name == node.name)
            return Span(declared.bounds[0][0], declared.bounds[1][0]) if declared.bounds else None
        return Span(0, ceiling) if node.form == "uid" else None

    def _variable(self, node: Node) -> Range:
        binder = self.program.nodes[node.binder]
        if binder.form == "let":
            return self.found[binder.kids[0]]
        return full(binder.type.local, self.program.ceiling)

    def _builtin(self, name: str, kids: list[Range]) -> Range:
        if name == "pair":
            return Both(kids[0], kids[1])
        if name in ("fst", "snd"):
            pair = kids[0]
            assert isinstance(pair, Both)
            return pair.first if name == "fst" else pair.second
        if name == "mux":
            return hull(kids[1], kids[2])
        if name in ("min", "max"):
            return _by_first(_least if name == "min" else _greatest, kids[0], kids[1])
        if name == "minHoodLoc":
            return _by_first(lambda first, last: Span(min(first.low, last.low), last.high), kids[0], kids[1])
        if name == "maxHoodLoc":
            return _by_first(lambda first, last: Span(last.low, max(first.high, last.high)), kids[0], kids[1])
        return self._arithmetic(name, kids)

    def _arithmetic(self, name: str, kids: list[Range]) -> Range:
        ceiling = self.program.ceiling
        if name == "sumHood":
            return Span(0, ceiling)
        spans = [kid for kid in kids if isinstance(kid, Span)]
        if name not in ("+", "-", "*", "rise") or len(spans) != len(kids):
            return None
        a, b = spans[0], spans[1]
        if name == "+":
            return Span(min(ceiling, a.low + b.low), min(ceiling, a.high + b.high))
        if name == "*":
            return Span(min(ceiling, a.low * b.low), min(ceiling, a.high * b.high))
        if name == "-":
            return Span(max(0, a.low - b.high), max(0, a.high - b.low))
        step = spans[2]
        return _least(a, Span(min(ceiling, b.low + step.low), min(ceiling, b.high + step.high)))
