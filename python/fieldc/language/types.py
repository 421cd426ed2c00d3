"""The typing rules: the type of each expression of a program, or the first fault."""

from __future__ import annotations

import sys
from collections.abc import Iterator, Mapping
from contextlib import contextmanager
from dataclasses import dataclass, field

from ..errors import Error
from . import complaints
from .complaints import Complaint
from .faults import TYPES, Fault
from .reader import Program
from .tree import At, Declaration, Expr, Local, Pair, Type, leaves

INT = Type("int")
BOOL = Type("bool")
MOST_LEAVES = 8
DEEP = 40_000


@dataclass(frozen=True)
class Bound:
    """What a name in scope is: its type, and where it is bound."""

    type: Type
    at: At


Scope = Mapping[str, Bound]


@dataclass
class Known:
    """What the declarations before have declared, and the types of the expressions that were judged."""

    text: str
    ceiling: int = 0
    inputs: dict[str, Declaration] = field(default_factory=dict)
    functions: dict[str, Declaration] = field(default_factory=dict)
    metric: Declaration | None = None
    later: tuple[Declaration, ...] = ()
    types: dict[Expr, Type] = field(default_factory=dict)


class Wrong(Error):
    """A fault of typing before it has the number of its declaration: its kind and what is said of it."""

    def __init__(self, kind: str, complaint: Complaint) -> None:
        super().__init__(kind)
        self.kind = kind
        self.complaint = complaint


@contextmanager
def deep() -> Iterator[None]:
    """Lets functions call themselves as deeply as the longest declaration asks."""
    before = sys.getrecursionlimit()
    sys.setrecursionlimit(max(before, DEEP))
    try:
        yield
    finally:
        sys.setrecursionlimit(before)


def typed(program: Program) -> Known:
    """The declarations of a program and the types of its expressions. Raises Fault with the first fault, as `fc` names
    it."""
    known = Known(program.text)
    with deep():
        for declaration in program.declarations:
            known.later = program.declarations[declaration.number - 1 :]
            try:
                RULES[declaration.form](declaration, known)
            except Wrong as wrong:
                given = wrong.complaint
                line = f"types {declaration.number} {wrong.kind}"
                raise Fault(line, given.what, given.at, given.name, given.hint, TYPES) from None
    return known


def _language(_declaration: Declaration, _known: Known) -> None:
    """Nothing is judged of a language."""


def _ceiling(declaration: Declaration, known: Known) -> None:
    number, place = declaration.bounds[0]
    if number == 0:
        raise Wrong("range", complaints.no_ceiling(place))
    known.ceiling = number


def _in_range(declaration: Declaration, known: Known) -> None:
    (low, _), (high, _) = declaration.bounds
    if low > high or high > known.ceiling:
        raise Wrong("range", complaints.bad_range(declaration, known.ceiling))


def _input(declaration: Declaration, known: Known) -> None:
    before = known.inputs.get(declaration.name)
    if before is not None:
        raise Wrong("twice", complaints.twice("An input", declaration.name, declaration.name_at, before.name_at))
    if declaration.bounds:
        _in_range(declaration, known)
    known.inputs[declaration.name] = declaration


def _metric(declaration: Declaration, known: Known) -> None:
    if known.metric is not None:
        raise Wrong("twice", complaints.second_metric(declaration.at, known.metric.at))
    _in_range(declaration, known)
    known.metric = declaration


def _def(declaration: Declaration, known: Known) -> None:
    before = known.functions.get(declaration.name)
    if before is not None:
        raise Wrong("twice", complaints.twice("A function", declaration.name, declaration.name_at, before.name_at))
    scope: dict[str, Bound] = {}
    for parameter in declaration.parameters:
        if parameter.name in scope:
            raise Wrong(
                "twice", complaints.twice("A parameter", parameter.name, parameter.at, scope[parameter.name].at)
            )
        _not_wide(parameter.type.local, parameter.at, f"The parameter `{parameter.name}`")
        scope[parameter.name] = Bound(parameter.type, parameter.at)
    assert declaration.result is not None and declaration.body is not None
    _not_wide(declaration.result.local, declaration.result_at, f"The result of `{declaration.name}`")
    found = type_of(declaration.body, scope, known)
    if found != declaration.result:
        raise Wrong("result", complaints.other_result(declaration, found))
    known.functions[declaration.name] = declaration


def _main(declaration: Declaration, known: Known) -> None:
    assert declaration.body is not None
    found = type_of(declaration.body, {}, known)
    if found.field:
        raise Wrong("not-local", complaints.field_in_main(known.text, declaration.body))


def _not_wide(local: Local, place: At | None, what: str) -> None:
    count = leaves(local)
    if count > MOST_LEAVES:
        raise Wrong("wide", complaints.wide(what, count, place))


RULES = {"language": _language, "ceiling": _ceiling, "input": _input, "metric": _metric, "def": _def, "main": _main}


def type_of(expr: Expr, scope: Scope, known: Known) -> Type:
    """The type of an expression in a scope.

    Raises Wrong with the first fault, kids from left to right before their parent.
    """
    found = FORMS[expr.form](expr, scope, known)
    known.types[expr] = found
    return found


def _number(expr: Expr, _scope: Scope, known: Known) -> Type:
    if expr.value > known.ceiling:
        raise Wrong("literal", complaints.great_literal(expr, known.ceiling))
    return INT


def _variable(expr: Expr, scope: Scope, known: Known) -> Type:
    if expr.name not in scope:
        raise Wrong("unknown", complaints.unknown_variable(expr, scope, known))
    return scope[expr.name].type


def _sense(expr: Expr, scope: Scope, known: Known) -> Type:
    declared = known.inputs.get(expr.name)
    if declared is None:
        raise Wrong("unknown", complaints.unknown_input(expr, scope, known))
    return INT if declared.bounds else BOOL


def _nbr(expr: Expr, scope: Scope, known: Known) -> Type:
    found = type_of(expr.kids[0], scope, known)
    if found.field:
        raise Wrong("not-local", complaints.field_in_nbr(known.text, expr))
    return Type(found.local, True)


def _keeping(expr: Expr, scope: Scope, known: Known) -> Type:
    first = type_of(expr.kids[0], scope, known)
    heard = Type(first.local, True) if expr.form == "share" else first
    body = type_of(expr.kids[1], {**scope, expr.name: Bound(heard, expr.bound or expr.at)}, known)
    for part, found in zip(expr.kids, (first, body)):
        if found.field:
            raise Wrong("not-local", complaints.field_in_keeping(known.text, expr, part))
    if first != body:
        raise Wrong("mismatch", complaints.other_body(known.text, expr, first, body))
    if expr.name in scope:
        raise Wrong("twice", complaints.bound_twice(expr, scope[expr.name].at))
    return first


def _if(expr: Expr, scope: Scope, known: Known) -> Type:
    found = [type_of(kid, scope, known) for kid in expr.kids]
    for kid, kind in zip(expr.kids, found):
        if kind.field:
            raise Wrong("not-local", complaints.field_in_if(known.text, expr, kid))
    if found[0] != BOOL:
        raise Wrong("mismatch", complaints.no_condition(known.text, "if", expr.kids[0], found[0]))
    if found[1] != found[2]:
        raise Wrong("mismatch", complaints.other_choices(known.text, "if", expr.kids[2], found[1], found[2]))
    return found[1]


def _let(expr: Expr, scope: Scope, known: Known) -> Type:
    bound = type_of(expr.kids[0], scope, known)
    found = type_of(expr.kids[1], {**scope, expr.name: Bound(bound, expr.bound or expr.at)}, known)
    if expr.name in scope:
        raise Wrong("twice", complaints.bound_twice(expr, scope[expr.name].at))
    return found


def _call(expr: Expr, scope: Scope, known: Known) -> Type:
    found = [type_of(kid, scope, known) for kid in expr.kids]
    function = known.functions.get(expr.name)
    if function is None:
        raise Wrong("unknown", complaints.unknown_function(expr, scope, known))
    if len(found) != len(function.parameters):
        raise Wrong("count", complaints.other_count(expr, function))
    for kid, kind, parameter in zip(expr.kids, found, function.parameters):
        if kind != parameter.type:
            raise Wrong("mismatch", complaints.other_argument(known.text, expr, kid, kind, parameter))
    assert function.result is not None
    return function.result


def _apply(expr: Expr, scope: Scope, known: Known) -> Type:
    found = [type_of(kid, scope, known) for kid in expr.kids]
    result = applied(expr.name, found)
    if result is None:
        raise Wrong("mismatch", complaints.mismatch(known.text, expr, found))
    if leaves(result.local) > MOST_LEAVES:
        raise Wrong("wide", complaints.wide("This pair", leaves(result.local), expr.at))
    return result


def applied(name: str, found: list[Type]) -> Type | None:
    """The type of a builtin of arguments of these types, or None if they don't fit."""
    if name.endswith(("Hood", "HoodLoc")):
        return _hood(name, found)
    local = _pointwise(name, [kind.local for kind in found])
    return None if local is None else Type(local, any(kind.field for kind in found))


def _hood(name: str, found: list[Type]) -> Type | None:
    if not found[0].field:
        return None
    entry = Type(found[0].local)
    if name in ("minHoodLoc", "maxHoodLoc"):
        return entry if found[1] == entry else None
    return entry if entry == (INT if name == "sumHood" else BOOL) else None


def _pointwise(name: str, locals_: list[Local]) -> Local | None:
    if name == "pair":
        return Pair(locals_[0], locals_[1])
    if name in ("fst", "snd"):
        if not isinstance(locals_[0], Pair):
            return None
        return locals_[0].first if name == "fst" else locals_[0].second
    if name == "mux":
        return locals_[1] if locals_[0] == "bool" and locals_[1] == locals_[2] else None
    if name in ("min", "max", "<", "="):
        if locals_[0] != locals_[1]:
            return None
        return locals_[0] if name in ("min", "max") else "bool"
    wanted = "bool" if name in ("and", "or", "not") else "int"
    return wanted if all(local == wanted for local in locals_) else None


FORMS = {
    "number": _number,
    "truth": lambda _expr, _scope, _known: BOOL,
    "uid": lambda _expr, _scope, _known: INT,
    "nbrLink": lambda _expr, _scope, _known: Type("int", True),
    "variable": _variable,
    "sense": _sense,
    "apply": _apply,
    "nbr": _nbr,
    "rep": _keeping,
    "share": _keeping,
    "if": _if,
    "let": _let,
    "call": _call,
}
