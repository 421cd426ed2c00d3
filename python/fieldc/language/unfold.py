"""The unfolded `main`: its nodes with their numbers, where each comes from, and through which calls."""

from __future__ import annotations

from collections.abc import Mapping
from dataclasses import dataclass, field

from .faults import LANGUAGE, Fault
from .tree import At, Declaration, Expr, Type
from .types import Known, deep

MOST_NODES = 2048
MOST_COUNT = 1_000_000
KEEPING = ("nbr", "rep", "share", "if")


@dataclass(frozen=True)
class Site:
    """A call that was replaced by the body of its function: the function, and where the call stands."""

    function: str
    at: At


@dataclass(eq=False)
class Node:
    """A node of the unfolded `main`.

    `form` is one of number, truth, variable, sense, uid, nbrLink, apply, nbr, rep, share, if and let; a call is a `let`
    for each argument, and `name` is then the parameter. `kids` are places. `binder` is the place of the node that binds
    a variable. `expr` is the text that it comes from, `calls` the calls that lead there, the outermost first.
    """

    place: int
    form: str
    name: str
    expr: Expr
    calls: tuple[Site, ...]
    type: Type
    binder: int = -1
    parent: int = -1
    kids: list[int] = field(default_factory=list)

    @property
    def bound(self) -> Expr:
        """The text of what it is; of a call that became a `let`, of that argument."""
        return self.expr

    @property
    def keeps(self) -> bool:
        """Whether an export keeps a value here."""
        return self.form in KEEPING


@dataclass(frozen=True, eq=False)
class Unfolded:
    """The nodes of a program in preorder, and what it declares."""

    nodes: tuple[Node, ...]
    ceiling: int
    inputs: tuple[Declaration, ...]
    metric: tuple[int, int]
    text: str

    def within(self, place: int) -> range:
        """The places of a node and of all beneath it."""
        last = place
        while self.nodes[last].kids:
            last = self.nodes[last].kids[-1]
        return range(place, last + 1)


def sizes_of(known: Known) -> dict[str, int]:
    """By function, how many nodes its unfolded body has."""
    sizes: dict[str, int] = {}
    for name, function in known.functions.items():
        assert function.body is not None
        sizes[name] = size_of(function.body, sizes)
    return sizes


def size_of(expr: Expr, sizes: Mapping[str, int]) -> int:
    """How many nodes an expression has when it is unfolded."""
    count = 0
    left = [expr]
    while left:
        found = left.pop()
        count += len(found.kids) + sizes[found.name] if found.form == "call" else 1
        left.extend(found.kids)
    return count


class _Unfolding:
    """Makes the nodes, in preorder."""

    def __init__(self, known: Known) -> None:
        self.known = known
        self.nodes: list[Node] = []

    def node(self, form: str, name: str, expr: Expr, calls: tuple[Site, ...], kind: Type, parent: int) -> Node:
        """A new node, the last kid of its parent."""
        found = Node(len(self.nodes), form, name, expr, calls, kind, parent=parent)
        if parent >= 0:
            self.nodes[parent].kids.append(found.place)
        self.nodes.append(found)
        return found

    def add(self, expr: Expr, scope: Mapping[str, int], calls: tuple[Site, ...], parent: int) -> None:
        """Adds the nodes of an expression; `scope` has by name the place of what binds it."""
        if expr.form == "call":
            self.call(expr, scope, calls, parent)
            return
        found = self.node(expr.form, expr.name, expr, calls, self.known.types[expr], parent)
        if expr.form == "variable":
            found.binder = scope[expr.name]
        elif expr.form in ("rep", "share", "let"):
            self.add(expr.kids[0], scope, calls, found.place)
            self.add(expr.kids[1], {**scope, expr.name: found.place}, calls, found.place)
        else:
            for kid in expr.kids:
                self.add(kid, scope, calls, found.place)

    def call(self, expr: Expr, scope: Mapping[str, int], calls: tuple[Site, ...], parent: int) -> None:
        """Adds a call: a `let` for each argument, and the function's body in them."""
        function = self.known.functions[expr.name]
        inner: dict[str, int] = {}
        for kid, parameter in zip(expr.kids, function.parameters):
            bound = self.node("let", parameter.name, expr, calls, self.known.types[expr], parent)
            self.add(kid, scope, calls, bound.place)
            inner[parameter.name] = bound.place
            parent = bound.place
        assert function.body is not None
        self.add(function.body, inner, (*calls, Site(expr.name, expr.at)), parent)


def unfolded(known: Known, main: Expr) -> Unfolded:
    """The unfolded `main` of a typed program. Raises Fault if it has too many nodes."""
    count = min(size_of(main, sizes_of(known)), MOST_COUNT)
    if count > MOST_NODES:
        shown = "1,000,000 or more" if count == MOST_COUNT else f"{count:,}"
        raise Fault(
            f"limit nodes {count}",
            f"`main` has {shown} nodes with each call replaced by the function's body; the limit is 2,048.",
            main.at,
            "main",
            "Bind what is used several times with one `let`, and call a function once instead of often.",
            LANGUAGE + "#types",
        )
    work = _Unfolding(known)
    with deep():
        work.add(main, {}, (), -1)
    low, high = (1, 1) if known.metric is None else (known.metric.bounds[0][0], known.metric.bounds[1][0])
    return Unfolded(tuple(work.nodes), known.ceiling, tuple(known.inputs.values()), (low, high), known.text)
