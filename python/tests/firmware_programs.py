"""Random well-typed programs, for the tests of `fieldc firmware`: of both languages, with every form and operator."""

from __future__ import annotations

import random
from dataclasses import dataclass, field

import helping  # noqa: F401  (it knows where fieldc is)

from fieldc.language.tree import Local, Pair, Type, leaves

CEILINGS = (1, 2, 3, 7, 10, 20, 100, 255, 256, 1000, 65534, 65535, 65536, 1_000_000)
KINDS = {"not": ("bool",), "and": ("bool", "bool"), "or": ("bool", "bool"), "rise": ("int", "int", "int")}


TELLING = (
    "language 2; ceiling 20; main = rep(2){(x) => rep(x){(y) => 3}} + share(rep(1){(z) => z}){(w) => 2};\n",
    "ceiling 100; input b: bool; main = if (sense b) {rep(5){(x) => x + 1 + sumHood(nbr{0})}} {7};\n",
    "ceiling 100; input b: bool; main = if (sense b) {rep(5){(x) => x + 1}} {rep(50){(x) => x + 2}};\n",
    "ceiling 9; input b: bool; input c: bool;\n"
    "def f(g: field int, t: bool): int = if (t) {sumHood(g)} {minHoodLoc(g, 8)};\n"
    "main = let g = nbr{uid} in\n"
    "  if (sense b) {(f(g, sense c), if (sense c) {rep(1){(x) => x + sumHood(nbr{x})}} {3})} {(9, 0)};\n",
    "language 2; ceiling 300; metric 2..90; input b: bool;\n"
    "main = (share((0, true)){(x) => maxHoodLoc((fst(x) + nbrLink, not snd(x)), (uid, sense b))}, 1);\n",
)
"""Programs that tell what random ones tell rarely."""


def nested(inner: str, around: str, count: int) -> str:
    """An expression inside of others: `{e}` stands for the inner one, `{i}` for a number."""
    for place in range(count):
        inner = around.replace("{e}", inner).replace("{i}", str(place % 9))
    return inner


LETS = " ".join(f"let x{place} = x{place - 1} + 1 in" for place in range(1, 500))
DEEP = tuple(
    f"ceiling 10; input b: bool; main = {main};\n"
    for main in (
        nested("sumHood(nbr{1})", "if (sense b) {{e}} {{i}}", 190),
        nested("rep(1){(x) => x}", "if (sense b) {{i}} {{e}}", 190),
        " + ".join(["1"] * 1000),
        f"let x0 = 1 in {LETS} x499",
        f"if ({'not ' * 1500} true) {{1}} {{2}}",
        f"sumHood({' + '.join(['nbr{1}'] * 500)})",
        f"sumHood({nested('nbr{1}', '({e} + 1)', 150)})",
        nested("rep(1){(x) => x}", "rep({e}){(y) => y + {i}}", 90),
    )
)
"""Programs that are nested as deeply, or are as long, as a program may be, or nearly."""


@dataclass(frozen=True)
class Function:
    """A function that may be called."""

    name: str
    parameters: tuple[Type, ...]
    result: Type


@dataclass
class Maker:
    """Makes one program from a seed."""

    dice: random.Random
    ceiling: int
    second: bool
    inputs: dict[str, tuple[int, int] | None] = field(default_factory=dict)
    functions: list[Function] = field(default_factory=list)
    count: int = 0
    left: int = 0

    def name(self) -> str:
        """A name that none has; some mean something in C."""
        self.count += 1
        front = self.dice.choice(
            ("x", "x", "d", "int32_t", "device", "least", "far", "part", "here", "i", "result", "double")
        )
        return (
            f"{front}{self.count}"
            if self.dice.random() < 0.8 or front in ("here", "x", "d")
            else f"{front}_{self.count}"
        )

    def type(self, deep: int = 2) -> Local:
        if deep and self.dice.random() < 0.3:
            pair = Pair(self.type(deep - 1), self.type(deep - 1))
            return pair if leaves(pair) <= 4 else "int"
        return "bool" if self.dice.random() < 0.3 else "int"

    def number(self) -> int:
        most = self.dice.choice((1, 2, 5, self.ceiling, self.ceiling))
        return self.dice.randint(0, min(most, self.ceiling))

    def local(self, wanted: Local, scope: dict[str, Type]) -> str:
        """A local expression."""
        self.left -= 1
        forms = self.forms(wanted, scope)
        return self.made(self.dice.choice(forms), wanted, scope)

    def forms(self, wanted: Local, scope: dict[str, Type]) -> list[str]:
        """The forms that an expression of a type may have here; variables come often, and small forms at the end."""
        variable = ["variable"] * 3 if Type(wanted) in scope.values() else []
        sense = ["sense"] if any((bounds is None) == (wanted == "bool") for bounds in self.inputs.values()) else []
        plain = [
            *variable,
            *(["literal"] if wanted != "int" else ["literal", "uid"]),
            *(sense if isinstance(wanted, str) else []),
        ]
        if self.left <= 0:
            return plain
        forms = [
            *plain[:3],
            "mux",
            "min",
            "max",
            "if",
            "if",
            "let",
            "let",
            "rep",
            "rep",
            "part",
            "least",
            "least",
            "greatest",
        ]
        forms += ["share", "share", "share"] * self.second
        if wanted == "int":
            forms += ["+", "+", "-", "*", "sum", "sum"] + ["rise"] * self.second
        if wanted == "bool":
            forms += ["<", "=", "and", "or", "not", "any", "all"]
        if any(function.result == Type(wanted) for function in self.functions):
            forms += ["call"] * 4
        return forms

    def made(self, form: str, wanted: Local, scope: dict[str, Type]) -> str:
        """An expression of a form."""
        if form == "literal":
            return self.literal(wanted, scope)
        if form == "variable":
            return self.dice.choice([name for name, kind in scope.items() if kind == Type(wanted)])
        if form == "uid":
            return "uid"
        if form == "sense":
            return "sense " + self.dice.choice(
                [n for n, bounds in self.inputs.items() if (bounds is None) == (wanted == "bool")]
            )
        if form in ("least", "greatest"):
            word = "minHoodLoc" if form == "least" else "maxHoodLoc"
            return f"{word}({self.field(wanted, scope)}, {self.local(wanted, scope)})"
        if form in ("sum", "any", "all"):
            return f"{form}Hood({self.field(wanted, scope)})"
        if form in ("rep", "share"):
            return self.keeping(form, wanted, scope)
        if form == "if":
            return f"(if ({self.split(scope)}) {{{self.branch(wanted, scope)}}} {{{self.branch(wanted, scope)}}})"
        if form == "let":
            return self.let(Type(wanted), scope)
        if form == "call":
            return self.call(Type(wanted), scope)
        return self.operator(form, wanted, scope, False)

    def split(self, scope: dict[str, Type]) -> str:
        """A condition, which mostly not all devices agree on."""
        truths = [f"sense {name}" for name, bounds in self.inputs.items() if bounds is None]
        if self.dice.random() < 0.4:
            return self.local("bool", scope)
        return self.dice.choice([*truths, *truths, f"uid < {self.number()}", f"(uid - {self.number()}) < 1"])

    def branch(self, wanted: Local, scope: dict[str, Type]) -> str:
        """A branch, in which mostly something is heard."""
        if self.dice.random() < 0.4:
            return self.local(wanted, scope)
        words = {"int": ["sum"], "bool": ["any", "all"]}.get(wanted, []) if isinstance(wanted, str) else []
        return self.made(self.dice.choice(["least", "greatest", "rep", *words * 2]), wanted, scope)

    def literal(self, wanted: Local, scope: dict[str, Type]) -> str:
        if isinstance(wanted, Pair):
            return f"({self.local(wanted.first, scope)}, {self.local(wanted.second, scope)})"
        return str(self.number()) if wanted == "int" else self.dice.choice(("true", "false"))

    def keeping(self, form: str, wanted: Local, scope: dict[str, Type]) -> str:
        name = self.name()
        inner = {**scope, name: Type(wanted, form == "share")}
        first = self.local(wanted, scope)
        if form == "rep" and wanted == "int" and self.dice.random() < 0.4:
            body = f"{name} + {self.number()}"
        elif self.dice.random() < 0.4:
            body = self.local(wanted, inner)
        else:
            body = self.spread(name if form == "share" else f"nbr{{{name}}}", wanted, inner)
        return f"{form}({first}){{({name}) => {body}}}"

    def spread(self, heard: str, wanted: Local, scope: dict[str, Type]) -> str:
        """A body that hears what neighbours have held."""
        if wanted == "int":
            heard = self.dice.choice((heard, f"{heard} + 1", f"{heard} + nbrLink", f"max({heard}, {self.number()})"))
        words = {"int": ["sumHood"], "bool": ["anyHood", "allHood"]}.get(wanted, []) if isinstance(wanted, str) else []
        word = self.dice.choice(["minHoodLoc", "maxHoodLoc", *words])
        if word in words:
            return f"{word}({heard})"
        return f"{word}({heard}, {self.local(wanted, scope)})"

    def let(self, wanted: Type, scope: dict[str, Type]) -> str:
        kind, name = Type(self.type(1), self.dice.random() < 0.4), self.name()
        bound = self.of(kind, scope)
        return f"(let {name} = {bound} in {self.of(wanted, {**scope, name: kind})})"

    def call(self, wanted: Type, scope: dict[str, Type]) -> str:
        function = self.dice.choice([one for one in self.functions if one.result == wanted])
        return f"{function.name}({', '.join(self.of(kind, scope) for kind in function.parameters)})"

    def of(self, wanted: Type, scope: dict[str, Type]) -> str:
        return self.field(wanted.local, scope) if wanted.field else self.local(wanted.local, scope)

    def operator(self, form: str, wanted: Local, scope: dict[str, Type], field: bool) -> str:
        """An operator; over fields at least one of its arguments is one."""
        if form == "part" and leaves(wanted) == 8:
            form = "mux"
        if form == "part":
            other = self.type(1)
            if leaves(other) + leaves(wanted) > 8:
                other = "int"
            first = self.dice.random() < 0.5
            pair = Pair(wanted, other) if first else Pair(other, wanted)
            return f"{'fst' if first else 'snd'}({self.of(Type(pair, field), scope)})"
        if form in ("<", "="):
            kinds: list[Local] = [self.type()] * 2
        elif form == "mux":
            kinds = ["bool", wanted, wanted]
        elif form == "pair":
            assert isinstance(wanted, Pair)
            kinds = [wanted.first, wanted.second]
        elif form in ("min", "max"):
            kinds = [wanted, wanted]
        else:
            kinds = [*KINDS.get(form, ("int", "int"))]
        fields = [field and self.dice.random() < 0.5 for _ in kinds]
        if field and not any(fields):
            fields[self.dice.randrange(len(fields))] = True
        parts = [self.of(Type(kind, one), scope) for kind, one in zip(kinds, fields)]
        if form == "pair":
            return f"({parts[0]}, {parts[1]})"
        if form == "not":
            return f"(not {parts[0]})"
        if form in ("+", "-", "*", "<", "=", "and", "or"):
            return f"({parts[0]} {form} {parts[1]})"
        return f"{form}({', '.join(parts)})"

    def field(self, wanted: Local, scope: dict[str, Type]) -> str:
        """A field."""
        self.left -= 1
        forms = (
            ["nbr", "nbr"] + ["variable"] * 3 * (Type(wanted, True) in scope.values()) + ["links"] * (wanted == "int")
        )
        if self.left > 0:
            forms += ["mux", "min", "max", "let", "part"] + ["pair"] * 2 * isinstance(wanted, Pair)
            forms += {
                "int": ["+", "+", "-", "*"] + ["rise"] * self.second,
                "bool": ["<", "=", "and", "or", "not"],
            }.get(wanted if isinstance(wanted, str) else "", [])
            forms += ["call"] * 3 * any(function.result == Type(wanted, True) for function in self.functions)
        form = self.dice.choice(forms)
        if form == "nbr":
            return f"nbr{{{self.local(wanted, scope)}}}"
        if form == "links":
            return "nbrLink"
        if form == "variable":
            return self.dice.choice([name for name, kind in scope.items() if kind == Type(wanted, True)])
        if form == "let":
            return self.let(Type(wanted, True), scope)
        if form == "call":
            return self.call(Type(wanted, True), scope)
        return self.operator(form, wanted, scope, True)


@dataclass(frozen=True)
class Made:
    """A program with what a network needs of it."""

    text: str
    ceiling: int
    inputs: dict[str, tuple[int, int] | None]
    metric: tuple[int, int]


def made(seed: int | str) -> Made:
    """The program of a seed."""
    dice = random.Random(seed)
    size = dice.choice((8, 12, 16, 24, 40))
    ceiling = dice.choice(CEILINGS) if dice.random() < 0.8 else dice.randint(1, 1_000_000)
    maker = Maker(dice, ceiling, dice.random() < 0.7)
    lines = ["language 2;"] * maker.second + [f"ceiling {ceiling};"]
    for number in range(dice.randint(0, 3)):
        name = dice.choice(("src", "class", "value", "near", "this")) + str(number) * dice.randint(0, 1) + "_" * number
        ends = sorted((maker.number(), maker.number()))
        maker.inputs[name] = None if dice.random() < 0.5 else (ends[0], ends[1])
        lines.append(f"input {name}: " + ("bool;" if maker.inputs[name] is None else f"int {ends[0]}..{ends[1]};"))
    low, high = sorted((maker.number(), maker.number()))
    metric = (low, high) if dice.random() < 0.7 else (1, 1)
    if metric != (1, 1) or dice.random() < 0.2:
        lines.append(f"metric {metric[0]}..{metric[1]};")
    for number in range(dice.choice((0, 1, 1, 2, 3))):
        maker.left = dice.randint(1, size // 2)
        name = dice.choice(("f", "send", "min", "hops", "main_")) + str(number)
        parameters = {maker.name(): Type(maker.type(1), dice.random() < 0.3) for _ in range(dice.randint(0, 3))}
        result = Type(maker.type(1), dice.random() < 0.2)
        body = maker.of(result, dict(parameters))
        shown = ", ".join(f"{one}: {kind}" for one, kind in parameters.items())
        lines.append(f"def {name}({shown}): {result} = {body};")
        maker.functions.append(Function(name, tuple(parameters.values()), result))
    maker.left = dice.randint(5, size)
    lines.append(f"main = {maker.local(maker.type(), {})};")
    return Made("\n".join(lines) + "\n", ceiling, maker.inputs, metric)
