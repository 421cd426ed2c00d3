"""The body of a function in C.

A local expression becomes an expression of C, with statements before it for all that is sent, kept or heard. A field
has a value for each neighbour: where a hood takes it, it becomes what stands in the hood's loop, in terms of the
neighbour `i`; where a name or a parameter is bound to it, an array with a value for each neighbour.
"""

from __future__ import annotations

import re
import textwrap
from collections.abc import Callable, Iterator
from contextlib import contextmanager
from dataclasses import dataclass

from ..language.tree import Expr, Local, Pair, Type
from .kinds import c_type, operator
from .layout import Frame, Layout, Leaf, Slot, shown, uses
from .names import Names, members

DEEPEST = 6
DEEPEST_INDENT = 12
LONGEST = 70
WIDEST = 110
LITERAL = re.compile(r"\d+|true|false")
WORDS = {"+": "add", "-": "subtract", "*": "multiply", "<": "less", "=": "equal", "and": "&&", "or": "||", "not": "!"}
HOODS = {"minHoodLoc": "least", "maxHoodLoc": "greatest", "sumHood": "sum", "anyHood": "any", "allHood": "all"}


@dataclass(frozen=True)
class Code:
    """An expression of C, how deeply it is nested, and whether it costs nothing to write it again."""

    text: str
    depth: int = 0
    simple: bool = True


@dataclass(frozen=True)
class Array:
    """A field that has a value for each neighbour in an array."""

    text: str


Bound = Code | Array | Slot
"""What a name of the program is: an expression of C, an array, or what neighbours say at a slot."""


def declared(kind: str, name: str, value: str) -> str:
    """A constant of a function."""
    return f"const {kind} {name} = {value};"


class Body:
    """Writes the body of one function."""

    def __init__(self, layout: Layout, frame: Frame, firmware: str) -> None:
        self.layout = layout
        self.frame = frame
        self.known = layout.known
        self.names = Names(firmware)
        self.members = members(layout.known.inputs)
        self.lines: list[str] = []
        self.indent = 1
        self.place = "here"
        self.scope: dict[str, Bound] = {}
        self.said = ""

    @property
    def front(self) -> str:
        """What stands before a statement; of deeply nested ones no more than of less deep ones."""
        return "    " * min(self.indent, DEEPEST_INDENT)

    def line(self, text: str) -> None:
        """Writes a statement."""
        front = self.front
        if len(front) + len(text) <= WIDEST:
            self.lines.append(front + text)
        else:
            wrapped = textwrap.wrap(text, WIDEST - len(front), subsequent_indent=" " * 8, break_long_words=False)
            self.lines.extend(front + part for part in wrapped)

    def comment(self, expr: Expr) -> None:
        """Writes the text of the program from which the next statements come, unless it stands there."""
        room = WIDEST - len(self.front) - 16
        text = f"/* {expr.at.line}: {shown(self.known.text, expr, room)} */"
        if text != self.said:
            self.said = text
            self.lines.append(self.front + text)

    @contextmanager
    def block(self, head: str, end: str = "}") -> Iterator[None]:
        """Writes statements inside of braces."""
        self.line(head + " {")
        self.indent += 1
        yield
        self.indent -= 1
        self.line(end)

    def type_of(self, expr: Expr) -> Type:
        return self.known.types[expr]

    def local(self, expr: Expr) -> Code:
        """An expression of local type."""
        return self._shallow(LOCAL[expr.form](self, expr), self.type_of(expr).local, self.line)

    def field(self, expr: Expr, inside: list[str]) -> Code:
        """A field at the neighbour `i`; `inside` takes statements that have to stand before it in the loop."""
        if not self.type_of(expr).field:
            return self.held(expr)
        return self._shallow(FIELDS[expr.form](self, expr, inside), self.type_of(expr).local, inside.append)

    def _shallow(self, code: Code, local: Local, write: Callable[[str], None]) -> Code:
        """An expression that isn't nested too deeply to be read: a name for it, where it is."""
        if code.depth <= DEEPEST and len(code.text) <= LONGEST:
            return code
        name = self.names.new("part")
        write(declared(c_type(local), name, code.text))
        return Code(name)

    def held(self, expr: Expr) -> Code:
        """A local expression that may be written in a loop: what costs something has a name."""
        return self.once("uid" if expr.form == "uid" else "part", self.type_of(expr).local, self.local(expr))

    def once(self, wanted: str, local: Local, code: Code) -> Code:
        """An expression that may be written twice: what costs something has a name."""
        return code if code.simple else self.named(wanted, local, code)

    def named(self, wanted: str, local: Local, code: Code) -> Code:
        """A name for an expression."""
        name = self.names.new(wanted)
        self.line(declared(c_type(local), name, code.text))
        return Code(name)

    def dropped(self, expr: Expr) -> None:
        """An expression whose value nobody reads, evaluated for what it sends and keeps."""
        code = self.local(expr)
        if not LITERAL.fullmatch(code.text):
            self.line(f"(void){code.text};")

    # ---- forms of local type

    def number(self, expr: Expr) -> Code:
        return Code(str(expr.value))

    def truth(self, expr: Expr) -> Code:
        return Code("true" if expr.value else "false")

    def uid(self, _expr: Expr) -> Code:
        return Code("@uid(device)", 1, False)

    def sense(self, expr: Expr) -> Code:
        return Code(f"inputs->{self.members[expr.name]}")

    def variable(self, expr: Expr) -> Code:
        found = self.scope[expr.name]
        assert isinstance(found, Code)
        return found

    def apply(self, expr: Expr) -> Code:
        if expr.name in HOODS:
            return self.hood(expr)
        return self.operated(expr, [self.local(kid) for kid in expr.kids])

    def operated(self, expr: Expr, kids: list[Code]) -> Code:
        """An operator that isn't a hood."""
        texts = [kid.text for kid in kids]
        local, result = self.type_of(expr.kids[-1]).local, self.type_of(expr).local
        depth = 1 + max(kid.depth for kid in kids)
        if expr.name == "pair":
            return Code(f"({c_type(result)}){{{', '.join(texts)}}}", depth, False)
        if expr.name in ("fst", "snd"):
            return Code(f"{texts[0]}.{'first' if expr.name == 'fst' else 'second'}", depth, kids[0].simple)
        if expr.name == "not":
            return Code(f"!{texts[0]}", depth, False)
        if expr.name in ("and", "or"):
            return Code(f"({texts[0]} {WORDS[expr.name]} {texts[1]})", depth, False)
        if expr.name == "rise":
            return Code(f"@min({texts[0]}, @add({texts[1]}, {texts[2]}))", depth + 1, False)
        return Code(f"{operator(WORDS.get(expr.name, expr.name), local)}({', '.join(texts)})", depth, False)

    def hood(self, expr: Expr) -> Code:
        """A hood: a loop over the neighbours that are aligned here."""
        local = self.type_of(expr).local
        inside: list[str] = []
        value = self.field(expr.kids[0], inside)
        name = self.names.new(HOODS[expr.name])
        if expr.name in ("minHoodLoc", "maxHoodLoc"):
            first = self.local(expr.kids[1]).text
            after = f"{operator('min' if name.startswith('least') else 'max', local)}({name}, {value.text})"
        elif expr.name == "sumHood":
            first, after = "0", f"@add({name}, {value.text})"
        else:
            first = "false" if expr.name == "anyHood" else "true"
            after = f"{name} {'||' if expr.name == 'anyHood' else '&&'} {value.text}"
        self.comment(expr)
        self.line(f"{c_type(local)} {name} = {first};")
        self.each(inside, f"{name} = {after};")
        return Code(name)

    def each(self, inside: list[str], last: str) -> None:
        """A loop over the neighbours that are aligned here."""
        with self.block("for (uint8_t i = 0; i < device->count; i++)"):
            with self.block(f"if (@aligned({self.place}, i))"):
                for statement in (*inside, last):
                    self.line(statement)

    def rep(self, expr: Expr) -> Code:
        """What the device held here, or the first value; then the body, which is kept."""
        first, body = expr.kids
        local = self.type_of(expr).local
        slot = self.frame.slots.get(expr)
        if slot is None:
            self.dropped(first)
            return self.local(body)
        start = self.local(first)
        name = self.names.new(expr.name)
        self.comment(expr)
        self.line(f"{c_type(local)} {name} = {start.text};")
        with self.block(f"if ({self.place}.own)"):
            self.line(f"{name} = {self.read(slot, local, 'device->kept')};")
        self.scope[expr.name] = Code(name)
        result = self.once("result", local, self.local(body))
        self.put(slot, result.text)
        return result

    def share(self, expr: Expr) -> Code:
        """The body, in which the name is what neighbours say here; its result is sent."""
        first, body = expr.kids
        local = self.type_of(expr).local
        self.dropped(first)
        slot = self.frame.slots[expr]
        self.scope[expr.name] = slot
        result = self.once("shared", local, self.local(body))
        self.comment(expr)
        self.put(slot, result.text)
        return result

    def let(self, expr: Expr) -> Code:
        self.bind(expr.name, expr.kids[0], uses(expr.kids[1], expr.name), expr)
        return self.local(expr.kids[1])

    def bind(self, wanted: str, bound: Expr, used: bool, shown_by: Expr) -> None:
        """A name for what a `let` binds."""
        kind = self.type_of(bound)
        if kind.field:
            array = self.array(bound, wanted, shown_by)
            self.scope[wanted] = array
            name = array.text
        else:
            code = self.local(bound)
            self.comment(shown_by)
            found = self.named(wanted, kind.local, code)
            self.scope[wanted], name = found, found.text
        if not used:
            self.line(f"(void){name};")

    def array(self, expr: Expr, wanted: str, shown_by: Expr) -> Array:
        """An array for a field: that of a name that has one, or a new one."""
        if expr.form == "variable":
            found = self.scope[expr.name]
            if isinstance(found, Array):
                return found
        kind = self.type_of(expr)
        inside: list[str] = []
        code = self.field(expr, inside)
        name = self.names.new(wanted)
        self.comment(shown_by)
        self.line(f"{c_type(kind.local)} {name}[@@NEIGHBOURS] = {{0}};")
        self.each(inside, f"{name}[i] = {code.text};")
        return Array(name)

    def choice(self, expr: Expr) -> Code:
        """An `if`: only one branch is evaluated, and in it only those are near that took the same one."""
        condition, *branches = expr.kids
        local = self.type_of(expr).local
        test = self.local(condition)
        slot = self.frame.slots.get(expr)
        before, outer = self.lines, self.place
        if slot is not None:
            test = self.once("truth", "bool", test)
            self.comment(expr)
            outer, self.place = self.place, self.branch(expr, slot, test.text)
        bodies: list[tuple[list[str], Code]] = []
        for branch in branches:
            self.lines = []
            self.indent += 1
            self.said = ""
            bodies.append((self.lines, self.local(branch)))
            self.indent -= 1
        inner, self.place, self.lines = self.place, outer, before
        if slot is None and not bodies[0][0] and not bodies[1][0]:
            (_, yes), (_, no) = bodies
            depth = 1 + max(test.depth, yes.depth, no.depth)
            return Code(f"{operator('mux', local)}({test.text}, {yes.text}, {no.text})", depth, False)
        return self._chosen(expr, test, bodies, inner if slot is not None else "")

    def branch(self, expr: Expr, slot: Slot, truth: str) -> str:
        """The place in the branch that is taken; its truth is sent, or kept."""
        name = self.names.new("branch")
        at = slot.leaves[0].at
        if slot.sent:
            first, count = self.frame.branches[expr]
            value = f"@branch(device, {self.place}, {at}, {truth}, {first}, {count})"
        else:
            value = f"@recall(device, {self.place}, {at}, {truth})"
        self.line(declared("@place", name, value))
        return name

    def _chosen(self, expr: Expr, test: Code, bodies: list[tuple[list[str], Code]], place: str) -> Code:
        local = self.type_of(expr).local
        (yes_lines, yes), (no_lines, no) = bodies
        name = self.names.new("chosen")
        if place and not any(place in line for line in (*yes_lines, *no_lines)):
            self.line(f"(void){place};")
        if not place:
            self.comment(expr)
        self.line(f"{c_type(local)} {name};")
        with self.block(f"if ({test.text})", "} else {"):
            self.lines.extend(yes_lines)
            self.line(f"{name} = {yes.text};")
        self.indent += 1
        self.lines.extend(no_lines)
        self.line(f"{name} = {no.text};")
        self.indent -= 1
        self.line("}")
        self.said = ""
        return Code(name)

    def call(self, expr: Expr) -> Code:
        """A call; one that sends, keeps or hears is a statement of its own, so that it is done once."""
        code = self.called(expr, "")
        if not self.effective(expr.name):
            return code
        self.comment(expr)
        return self.named(expr.name, self.type_of(expr).local, code)

    def effective(self, name: str) -> bool:
        """Whether a function sends, keeps or hears."""
        return self.layout.hearing[name] or self.layout.remembering[name]

    def called(self, expr: Expr, result: str) -> Code:
        """The text of a call; `result` is the array of a field that it gives."""
        function = self.known.functions[expr.name]
        words = self.context(expr)
        depth = 0
        for kid, parameter in zip(expr.kids, function.parameters):
            if parameter.type.field:
                words.append(self.array(kid, parameter.name, expr).text)
            else:
                code = self.local(kid)
                depth = max(depth, code.depth)
                words.append(code.text)
        return Code(f"@def_{expr.name}({', '.join(words + [result] * bool(result))})", depth + 1, False)

    def context(self, expr: Expr) -> list[str]:
        """The first arguments of every call: the device, its inputs, and the place."""
        words = []
        needs = self.needs(expr.name)
        if "device" in needs:
            words.append("device")
        if "inputs" in needs:
            words.append("inputs")
        if "here" in needs:
            start = self.frame.calls[expr]
            inner = (start.sent, start.kept) != (0, 0)
            words.append(f"@inner({self.place}, {start.sent}, {start.kept})" if inner else self.place)
        return words

    def needs(self, name: str) -> frozenset[str]:
        """Which of `device`, `inputs` and `here` a function takes."""
        return self.layout.needs[name]

    # ---- slots

    def put(self, slot: Slot, value: str) -> None:
        """Writes a value to a slot."""
        bits, base = ("@said(device)", "here.sent") if slot.sent else ("device->kept", "here.kept")
        if not any(leaf.width for leaf in slot.leaves):
            self.line(f"(void){value};")
        for leaf in slot.leaves:
            if leaf.width:
                part = "".join(f".{step}" for step in leaf.part)
                self.line(f"@put({bits}, {position(base, leaf)}, {leaf.width}, {value}{part});")

    def read(self, slot: Slot, local: Local, bits: str) -> str:
        """The value of a slot."""
        base = "here.sent" if slot.sent else "here.kept"
        leaves = iter(slot.leaves)

        def value(kind: Local) -> str:
            if isinstance(kind, Pair):
                return f"({c_type(kind)}){{{value(kind.first)}, {value(kind.second)}}}"
            leaf = next(leaves)
            text = f"@get({bits}, {position(base, leaf)}, {leaf.width})" if leaf.width else "0"
            return f"{text} != 0" if leaf.truth else text

        return value(local) if isinstance(local, Pair) or local == "int" else f"({value(local)})"

    # ---- forms of field type

    def field_variable(self, expr: Expr, _inside: list[str]) -> Code:
        found = self.scope[expr.name]
        if isinstance(found, Array):
            return Code(f"{found.text}[i]")
        assert isinstance(found, Slot)
        return Code(self.read(found, self.type_of(expr).local, "device->neighbours[i].said"), 1, False)

    def links(self, _expr: Expr, _inside: list[str]) -> Code:
        return Code("device->neighbours[i].weight")

    def nbr(self, expr: Expr, _inside: list[str]) -> Code:
        """What the device says here; and what each neighbour said."""
        slot, local = self.frame.slots[expr], self.type_of(expr).local
        code = self.local(expr.kids[0])
        if len(slot.leaves) > 1 and not code.simple:
            code = self.named("own", local, code)
        self.comment(expr)
        self.put(slot, code.text)
        return Code(self.read(slot, local, "device->neighbours[i].said"), 1, False)

    def field_apply(self, expr: Expr, inside: list[str]) -> Code:
        return self.operated(expr, [self.field(kid, inside) for kid in expr.kids])

    def field_let(self, expr: Expr, inside: list[str]) -> Code:
        self.bind(expr.name, expr.kids[0], uses(expr.kids[1], expr.name), expr)
        return self.field(expr.kids[1], inside)

    def field_call(self, expr: Expr, _inside: list[str]) -> Code:
        local = self.type_of(expr).local
        name = self.names.new(expr.name)
        code = self.called(expr, name)
        self.comment(expr)
        self.line(f"{c_type(local)} {name}[@@NEIGHBOURS] = {{0}};")
        self.line(f"{code.text};")
        return Code(f"{name}[i]")


LOCAL: dict[str, Callable[[Body, Expr], Code]] = {
    "number": Body.number,
    "truth": Body.truth,
    "uid": Body.uid,
    "sense": Body.sense,
    "variable": Body.variable,
    "apply": Body.apply,
    "rep": Body.rep,
    "share": Body.share,
    "let": Body.let,
    "if": Body.choice,
    "call": Body.call,
}
FIELDS: dict[str, Callable[[Body, Expr, list[str]], Code]] = {
    "variable": Body.field_variable,
    "nbrLink": Body.links,
    "nbr": Body.nbr,
    "apply": Body.field_apply,
    "let": Body.field_let,
    "call": Body.field_call,
}


def position(base: str, leaf: Leaf) -> str:
    """The first bit of a leaf, from where the bits of the function begin."""
    return f"{base} + {leaf.at}" if leaf.at else base
