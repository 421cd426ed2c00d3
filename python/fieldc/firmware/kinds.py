"""Types and operators in C: numbers, truth values and pairs."""

from __future__ import annotations

from dataclasses import dataclass

from ..language.tree import Local, Pair


@dataclass(frozen=True)
class Helper:
    """A function, type or table of the C file, which is written if something that is written names it."""

    name: str
    text: str


def suffix(local: Local) -> str:
    """A type as a part of a name: the word `pair` and both parts, so that different types have different names."""
    return f"pair_{suffix(local.first)}_{suffix(local.second)}" if isinstance(local, Pair) else local


def c_type(local: Local) -> str:
    """A type in C."""
    if isinstance(local, Pair):
        return "@" + suffix(local)
    return "bool" if local == "bool" else "@number"


def operator(word: str, local: Local) -> str:
    """The name of the function of an operator on a type; that on numbers is called as the operator alone."""
    return "@" + word if local == "int" else f"@{word}_{suffix(local)}"


def pairs_in(local: Local) -> list[Pair]:
    """The pair types of a type, each after those in it."""
    return [*pairs_in(local.first), *pairs_in(local.second), local] if isinstance(local, Pair) else []


def struct_of(pair: Pair) -> str:
    """The struct of a pair type."""
    return (
        f"typedef struct {{\n    {c_type(pair.first)} first;\n    {c_type(pair.second)} second;\n}} {c_type(pair)};\n"
    )


def number_type(ceiling: int) -> str:
    """The type of numbers up to a ceiling."""
    return "uint8_t" if ceiling < 1 << 8 else "uint16_t" if ceiling < 1 << 16 else "uint32_t"


def number_bytes(most: int) -> int:
    """How many bytes the type of numbers up to `most` has."""
    return 1 if most < 1 << 8 else 2 if most < 1 << 16 else 4


def arithmetic(ceiling: int) -> list[Helper]:
    """The operators on numbers that are cut at the ceiling or at 0."""
    wide = "uint32_t" if ceiling < 1 << 16 else "uint64_t"
    cut = "(@number)(exact < @@CEILING ? exact : @@CEILING)"
    return [
        _function("add", "int", "int", "const uint32_t exact = (uint32_t)a + b;", cut),
        _function("multiply", "int", "int", f"const {wide} exact = ({wide})a * b;", cut),
        _function("subtract", "int", "int", "", "(@number)(a > b ? a - b : 0)"),
    ]


def orders(local: Local) -> list[Helper]:
    """The operators on all types: comparisons, the lesser, the greater, and the choice between two."""
    kind, less = c_type(local), operator("less", local)
    if isinstance(local, Pair):
        lower, alike = (f"{operator(word, local.first)}(a.first, b.first)" for word in ("less", "equal"))
        below, too = (f"{operator(word, local.second)}(a.second, b.second)" for word in ("less", "equal"))
        lesser, same = f"{lower}\n        || ({alike} && {below})", f"{alike} && {too}"
    else:
        lesser, same = ("a < b", "a == b") if local == "int" else ("!a && b", "a == b")
    mux = f"static {kind} {operator('mux', local)}(bool which, {kind} a, {kind} b)\n{{\n    return which ? a : b;\n}}\n"
    return [
        _function("equal", local, "bool", "", same),
        _function("less", local, "bool", "", lesser),
        _function("min", local, local, "", f"{less}(b, a) ? b : a"),
        _function("max", local, local, "", f"{less}(a, b) ? b : a"),
        Helper(operator("mux", local), mux),
    ]


def _function(word: str, local: Local, result: Local, first: str, value: str) -> Helper:
    """A function of two values of one type."""
    kind, name = c_type(local), operator(word, local)
    before = f"    {first}\n" if first else ""
    return Helper(name, f"static {c_type(result)} {name}({kind} a, {kind} b)\n{{\n{before}    return {value};\n}}\n")
