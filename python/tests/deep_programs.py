"""Programs that are nested as deeply as the limits allow, in each way in which an expression has others in it."""

from __future__ import annotations

import re
from collections.abc import Iterator
from dataclasses import dataclass

MOST_NODES = 2048
MOST_TOKENS = 4096
MOST_BRACKETS = 200
START = "language 2;\nceiling 1000;\n"


@dataclass(frozen=True)
class Form:
    """A form with an expression `E` in it, in which `N` stands for a number of its own: its value is that of `E`."""

    name: str
    text: str
    nodes: int
    is_truth: bool = False

    @property
    def brackets(self) -> int:
        """How many brackets are open where `E` stands."""
        before = self.text.partition("E")[0]
        return sum(before.count(it) for it in "({") - sum(before.count(it) for it in ")}")

    @property
    def type(self) -> str:
        """The type of its value."""
        return "bool" if self.is_truth else "int"

    def around(self, inner: str, count: int) -> str:
        """An expression with so many of this form around it."""
        before, _, after = self.text.partition("E")
        levels = range(count)
        opened = "".join(before.replace("N", str(n)) for n in levels)
        return opened + inner + "".join(after.replace("N", str(n)) for n in reversed(levels))


FORMS = (
    Form("not", "not E", 1, True),
    Form("left operand", "E + 0", 2),
    Form("right operand", "0 + (E)", 2),
    Form("right comparison", "false = (E)", 2, True),
    Form("fst", "fst((E, 0))", 3),
    Form("snd", "snd((0, E))", 3),
    Form("min", "min(E, 9)", 2),
    Form("mux, its condition", "mux(E, false, true)", 3, True),
    Form("mux, the second value", "mux(false, 0, E)", 3),
    Form("rise", "rise(E, 1, 1)", 3),
    Form("nbr", "anyHood(nbr{E})", 2, True),
    Form("minHoodLoc", "minHoodLoc(nbr{9} + 1, E)", 5),
    Form("rep, the body", "rep(1){(xN) => E}", 2),
    Form("rep, the first value", "rep(E){(xN) => 1}", 2),
    Form("share, the body", "share(1){(xN) => E}", 2),
    Form("share, the first value", "share(E){(xN) => 1}", 2),
    Form("if, the condition", "if (E) {false} {true}", 3, True),
    Form("if, the first branch", "if (true) {E} {9}", 3),
    Form("if, the second branch", "if (false) {9} {E}", 3),
    Form("let, the body", "let xN = 1 in E", 2),
    Form("let, what it binds", "let xN = E in xN", 2),
    Form("argument", "same(E)", 2),
    Form("operators of each strength", "mux(false or true and 0 < 0 + 1 * (E), 1, 0)", 13),
)


def declared(form: Form, levels: int, each: int) -> str:
    """A program with so many levels of a form in its `main`, of which each function has so many."""
    inner = "false" if form.is_truth else "1"
    text = [START + "def same(x: int): int = x;"]
    for number in range(0, levels, each):
        body = form.around(inner, min(each, levels - number))
        text.append(f"def f{number}(): {form.type} = {body};")
        inner = f"f{number}()"
    return "\n".join([*text, f"main = {inner};\n"])


def within_functions() -> Iterator[tuple[str, str]]:
    """Each form as often as a program may have it, with a function for each level, and with as few as may be."""
    for form in FORMS:
        levels = (MOST_NODES - 1) // form.nodes
        yield f"{form.name}, {levels} functions", declared(form, levels, 1)
        most = (MOST_BRACKETS - 5) // form.brackets if form.brackets else 800 if "let" in form.text else levels
        yield f"{form.name}, {most} in a function", declared(form, levels, most)


def with_far_names() -> Iterator[tuple[str, str]]:
    """Binders within one another, of which the innermost reads the outermost."""
    for name, text, count in (
        ("let", "let xN = 1 in E", 800),
        ("rep", "rep(1){(xN) => E}", MOST_BRACKETS - 5),
        ("share", "share(1){(xN) => maxHoodLoc(xN, E)}", MOST_BRACKETS // 2 - 5),
    ):
        inner = "maxHoodLoc(x0, 1)" if name == "share" else "x0"
        yield f"{name}, the outermost of {count}", f"{START}main = {Form(name, text, 2).around(inner, count)};\n"


def with_arguments() -> Iterator[tuple[str, str]]:
    """Functions that hand on an argument, and a call with as many arguments as may be."""
    levels = MOST_NODES // 2 - 1
    chain = [f"def f{n + 1}(x: int): int = f{n}(x);" for n in range(levels - 1)]
    text = [START + "def f0(x: int): int = x;", *chain, f"main = f{levels - 1}(1);\n"]
    yield f"an argument through {levels} functions", "\n".join(text)
    many = 1000
    params = ", ".join(f"x{n}: int" for n in range(many))
    given = ", ".join(["1"] * many)
    yield f"{many} arguments", f"{START}def f({params}): int = x0;\nmain = f({given});\n"


def uncalled() -> Iterator[tuple[str, str]]:
    """Expressions of as many tokens as a declaration may have, in a function that isn't called."""
    room = MOST_TOKENS - len("def f ( ) : bool = false ;".split())
    for name, body, kind in (
        ("not", "not " * room + "false", "bool"),
        ("left operand", "1" + " + 1" * (room // 2), "int"),
    ):
        yield f"{name}, in a function that isn't called", f"{START}def f(): {kind} = {body};\nmain = 1;\n"
        yield f"{name}, too many nodes", f"{START}main = {body};\n"


def tokens(text: str) -> int:
    """How many tokens a text has."""
    return len(re.findall(r"\w+|=>|[^\w\s]", text))


def mixed() -> Iterator[tuple[str, str]]:
    """Operators of each strength within one another, with other forms between them or `let` around, in a function that
    isn't called. They are read, and refused by their types."""
    most = MOST_BRACKETS - 3
    for name, text, has_let_around in (
        ("brackets", "(E)", False),
        ("if", "if (true) {1} {E}", False),
        ("let", "(let x = E in x)", False),
        ("brackets in let", "(E)", True),
        ("pairs in let", "(0, E)", True),
        ("min in let", "min(0, E)", True),
        ("nbr in let", "nbr{E}", True),
        ("calls in let", "same(E)", True),
    ):
        body = Form(name, f"0 or 0 and 0 = 0 + 0 * {text}", 0).around("1", most)
        if has_let_around:
            room = MOST_TOKENS - tokens(f"def f(): int = {body};")
            body = Form("let", "let x = E in x", 0).around(body, room // tokens("let x = in x"))
        yield f"operators and {name}, {most} in a function", f"{START}def f(): int = {body};\nmain = 1;\n"


def programs() -> dict[str, str]:
    """Those of one form each, by name."""
    kinds = (within_functions, with_far_names, with_arguments, uncalled)
    return {name: text for made in kinds for name, text in made()}
