"""What is wrong with the types of a program, in one sentence, and what to try."""

from __future__ import annotations

from collections.abc import Mapping
from dataclasses import dataclass
from typing import TYPE_CHECKING

from ..blocks import called_elsewhere, own_library, read_library
from ..elsewhere import hint_for, similar
from ..refusals import Fault
from .grammar import WORDS
from .tree import At, Declaration, Expr, Parameter, Type, quoted

if TYPE_CHECKING:
    from .types import Bound, Known

OUT_OF_A_FIELD = "Make one value of a field with `minHoodLoc`, `maxHoodLoc`, `sumHood`, `anyHood` or `allHood`."
ANOTHER_NAME = "Give one of them another name."
PLURAL = {"int": "integers", "bool": "truth values"}
CALLED = [
    word for word in WORDS if word.endswith(("Hood", "Loc")) or word in ("min", "max", "mux", "fst", "snd", "rise")
]


@dataclass(frozen=True)
class Complaint:
    """A sentence, its place, the name that is meant, and a hint."""

    what: str
    at: At | None
    name: str | None = None
    hint: str | None = None


def kind_text(kind: Type) -> str:
    """A type with an article, in quotes of code."""
    return f"{'an' if str(kind).startswith('int') else 'a'} `{kind}`"


def no_ceiling(place: At) -> Complaint:
    """A ceiling of 0."""
    what = "The ceiling is 0; it has to be at least 1."
    return Complaint(what, place, "ceiling", "Write the greatest number that the program needs.")


def bad_range(declaration: Declaration, ceiling: int) -> Complaint:
    """A range that is reversed, or that passes the ceiling."""
    (low, low_at), (high, high_at) = declaration.bounds
    of = f"the input `{declaration.name}`" if declaration.form == "input" else "the metric"
    name = declaration.name or "metric"
    if low > high:
        what = f"The range of {of} begins at {low} and ends at {high}, which is less."
        return Complaint(what, low_at, name, "Swap them.")
    hint = f"Lower it, or raise the ceiling to {high}."
    return Complaint(f"The range of {of} ends at {high}, which is above the ceiling {ceiling}.", high_at, name, hint)


def twice(what: str, name: str, place: At | None, before: At | None) -> Complaint:
    """An input, function or parameter whose name is declared already."""
    where = f"line {before.line}, column {before.column}" if before else "another line"
    return Complaint(f"{what} `{name}` is declared already, on {where}.", place, name, ANOTHER_NAME)


def second_metric(place: At, before: At) -> Complaint:
    """A metric after another one."""
    what = f"This is a second metric; the first is on line {before.line}, column {before.column}."
    return Complaint(what, place, "metric", "Keep one of them.")


def bound_twice(expr: Expr, before: At) -> Complaint:
    """A `let`, `rep` or `share` that binds a name which is bound around it."""
    what = f"`{expr.name}` is bound here, but also around it, on line {before.line}, column {before.column}."
    return Complaint(what, expr.bound, expr.name, "Give one of them another name: a name can't hide another one.")


def wide(what: str, count: int, place: At | None) -> Complaint:
    """A type of more than 8 integers and truth values."""
    hint = "Split it into two values, or pack two small numbers into one."
    return Complaint(f"{what} has {count} integers and truth values; the limit is 8.", place, None, hint)


def great_literal(expr: Expr, ceiling: int) -> Complaint:
    """A number above the ceiling."""
    what = f"The number {expr.value} is above the ceiling {ceiling}."
    return Complaint(what, expr.at, str(expr.value), f"Lower it, or raise the ceiling to {expr.value}.")


def unknown_variable(expr: Expr, scope: Mapping[str, Bound], known: Known) -> Complaint:
    """A name that nothing binds."""
    name = expr.name
    what = f"Nothing named `{name}` is bound here."
    near = similar(name, [*scope, "uid", "true", "false", "nbrLink"])
    hint: str | None
    if name in known.inputs:
        hint = f"Read an input with `sense {name}`."
    elif name in known.functions:
        dots = ", ".join(".." for _ in known.functions[name].parameters)
        hint = f"Call a function with round brackets: `{name}({dots})`."
    elif hint_for(name):
        hint = hint_for(name)
    elif near:
        hint = f"Did you mean `{near}`?"
    elif similar(name, known.inputs):
        hint = f"Did you mean the input `sense {similar(name, known.inputs)}`?"
    else:
        hint = "A name has to be a parameter, or be bound around this place by `let`, `rep` or `share`."
    return Complaint(what, expr.at, name, hint)


def unknown_input(expr: Expr, scope: Mapping[str, Bound], known: Known) -> Complaint:
    """A `sense` of what is no input, or of one that is declared later."""
    name = expr.name
    what = f"No input named `{name}` is declared before."
    near = similar(name, known.inputs)
    if any(part.form == "input" and part.name == name for part in known.later):
        hint = "It is declared below: move its declaration up."
    elif name in scope:
        hint = f"`{name}` is a variable: write it without `sense`."
    elif near:
        hint = f"Did you mean `sense {near}`?"
    else:
        hint = f"Declare it: `input {name}: bool;`."
    return Complaint(what, expr.bound, name, hint)


def block_hint(name: str) -> str | None:
    """How a program comes by the block of a name, or by the first that is called so elsewhere, or None."""
    try:
        library = read_library([own_library()])
    except Fault:
        return None
    if name in library and not library[name].is_part:
        return f"`{name}` is a block: `fieldc compose` puts it in front of the program."
    found = called_elsewhere(name, library)
    return f"The nearest block is `{found[0]}`: `fieldc compose` puts it in front of the program." if found else None


def unknown_function(expr: Expr, scope: Mapping[str, Bound], known: Known) -> Complaint:
    """A call of what is no function, or of one that is declared later."""
    name = expr.name
    what = f"No function named `{name}` is declared before."
    near = similar(name, [*known.functions, *CALLED])
    later = [part for part in known.later if part.form == "def" and part.name == name]
    hint: str | None
    if later and later[0] is known.later[0]:
        hint = "A function can't call itself. What goes on from firing to firing is kept by `rep`."
    elif later:
        hint = "It is declared below: move its declaration up."
    elif hint_for(name):
        hint = hint_for(name)
    elif near:
        hint = f"Did you mean `{near}`?"
    elif name in scope:
        hint = f"`{name}` is a variable and takes no brackets."
    elif block_hint(name):
        hint = block_hint(name)
    else:
        hint = f"Declare it: `def {name}(..): int = ..;`."
    return Complaint(what, expr.at, name, hint)


def other_count(expr: Expr, function: Declaration) -> Complaint:
    """A call with another number of arguments."""
    count = len(function.parameters)
    wanted = f"{count} argument{'' if count == 1 else 's'}"
    what = f"`{expr.name}` takes {wanted}, but gets {len(expr.kids)}."
    names = ", ".join(f"{part.name}: {part.type}" for part in function.parameters)
    return Complaint(what, expr.at, expr.name, f"It is declared as `{expr.name}({names})`.")


def other_argument(text: str, expr: Expr, kid: Expr, found: Type, parameter: Parameter) -> Complaint:
    """An argument of another type than its parameter."""
    wanted = f"The argument `{parameter.name}` of `{expr.name}` is {kind_text(parameter.type)}"
    what = f"{wanted}, but {quoted(text, kid)} is {kind_text(found)}."
    return Complaint(what, kid.at, parameter.name, _towards(parameter.type, found))


def other_result(declaration: Declaration, found: Type) -> Complaint:
    """A body of another type than the result of its function."""
    assert declaration.result is not None and declaration.body is not None
    what = f"The body of `{declaration.name}` is {kind_text(found)}"
    what += f", but its result is declared as {kind_text(declaration.result)}."
    hint = _towards(declaration.result, found) or f"Declare the result as `{found}`, or change the body."
    return Complaint(what, declaration.body.at, declaration.name, hint)


def field_in_main(text: str, body: Expr) -> Complaint:
    """A `main` that is a field."""
    return Complaint(f"`main` has to be local, but {quoted(text, body)} is a field.", body.at, "main", OUT_OF_A_FIELD)


def field_in_nbr(text: str, expr: Expr) -> Complaint:
    """A field that would be shared."""
    kid = expr.kids[0]
    already = f"It is heard from the neighbours already: write `{kid.name}` instead of `nbr{{{kid.name}}}`."
    hint = already if kid.form == "variable" else OUT_OF_A_FIELD
    return Complaint(f"`nbr` shares a local value, but {quoted(text, kid)} is a field.", kid.at, "nbr", hint)


def field_in_keeping(text: str, expr: Expr, part: Expr) -> Complaint:
    """A `rep` or `share` whose first value or body is a field."""
    of = "first value" if part is expr.kids[0] else "body"
    what = f"The {of} of a `{expr.form}` has to be local, but {quoted(text, part)} is a field."
    return Complaint(what, part.at, expr.name, OUT_OF_A_FIELD)


def field_in_if(text: str, expr: Expr, kid: Expr) -> Complaint:
    """An `if` with a part that is a field."""
    of = "condition" if kid is expr.kids[0] else "branch"
    what = f"The {of} of an `if` has to be local, but {quoted(text, kid)} is a field."
    return Complaint(what, kid.at, "if", "`mux(c, a, b)` chooses between fields, neighbour by neighbour.")


def other_body(text: str, expr: Expr, first: Type, body: Type) -> Complaint:
    """A `rep` or `share` whose body is of another type than its first value."""
    what = f"The body of this `{expr.form}` is {kind_text(body)}"
    what += f", but its first value {quoted(text, expr.kids[0])} is {kind_text(first)}."
    return Complaint(what, expr.kids[1].at, expr.name, "Both need the type of what is kept.")


def no_condition(text: str, word: str, kid: Expr, found: Type) -> Complaint:
    """A condition that is no truth value."""
    what = f"The condition of `{word}` is a truth value, but {quoted(text, kid)} is {kind_text(found)}."
    hint = "Compare it, as in `x = 1`." if found.local == "int" else None
    return Complaint(what, kid.at, word, hint)


def other_choices(text: str, word: str, kid: Expr, first: Type, second: Type) -> Complaint:
    """Two choices of different types."""
    what = f"Both choices of `{word}` need the same type; the first is {kind_text(first)}"
    what += f", but {quoted(text, kid)} is {kind_text(second)}."
    return Complaint(what, kid.at, word, None)


def mismatch(text: str, expr: Expr, found: list[Type]) -> Complaint:
    """A builtin whose arguments fit none of its types."""
    name = expr.name
    if name.endswith(("Hood", "HoodLoc")):
        return _hood_mismatch(text, expr, found)
    if name == "mux":
        if found[0].local != "bool":
            return no_condition(text, "mux", expr.kids[0], found[0])
        return other_choices(text, "mux", expr.kids[2], found[1], found[2])
    if name in ("fst", "snd"):
        what = f"`{name}` takes a pair, but {quoted(text, expr.kids[0])} is {kind_text(found[0])}."
        return Complaint(what, expr.kids[0].at, name, None)
    if name in ("min", "max", "<", "="):
        what = f"`{name}` takes two values of the same type; the first is {kind_text(found[0])}"
        what += f", and the second is {kind_text(found[1])}."
        return Complaint(what, expr.kids[1].at, name, None)
    wanted = "bool" if name in ("and", "or", "not") else "int"
    place = next(place for place, kind in enumerate(found) if kind.local != wanted)
    what = f"`{name}` takes {PLURAL[wanted]}, but {quoted(text, expr.kids[place])} is {kind_text(found[place])}."
    if len(found) == 1:
        what = f"`{name}` takes a truth value, but {quoted(text, expr.kids[0])} is {kind_text(found[0])}."
    hint = (
        "Make a truth value a number with `mux(c, 1, 0)`."
        if wanted == "int" and found[place].local == "bool"
        else None
    )
    hint = "Compare it, as in `x = 1`." if wanted == "bool" and found[place].local == "int" else hint
    return Complaint(what, expr.kids[place].at, name, hint)


def _hood_mismatch(text: str, expr: Expr, found: list[Type]) -> Complaint:
    name, kid = expr.name, expr.kids[0]
    if not found[0].field:
        what = f"`{name}` takes a field of what the neighbours share, but {quoted(text, kid)} is {kind_text(found[0])}."
        return Complaint(what, kid.at, name, "`nbr{..}` is what the neighbours share.")
    if name in ("minHoodLoc", "maxHoodLoc"):
        second = expr.kids[1]
        what = f"The second argument of `{name}` is one value of the type of the first one's; "
        what += f"{quoted(text, second)} is {kind_text(found[1])}, and wanted is {kind_text(Type(found[0].local))}."
        return Complaint(what, second.at, name, OUT_OF_A_FIELD if found[1].field else None)
    wanted = "int" if name == "sumHood" else "bool"
    what = f"`{name}` takes a field of {PLURAL[wanted]}, but {quoted(text, kid)} is {kind_text(found[0])}."
    hint = "Count what is true with `sumHood(mux(f, 1, 0))`." if wanted == "int" and found[0].local == "bool" else None
    return Complaint(what, kid.at, name, hint)


def _towards(wanted: Type, found: Type) -> str | None:
    """What to try where a type of one kind stands in place of another."""
    if found.field and not wanted.field:
        return OUT_OF_A_FIELD
    if wanted.field and not found.field:
        return "`nbr{..}` is the field of what the neighbours have."
    return None
