"""What of a program is sent and what is kept, and at which bits.

A message has what `nbr` and `share` keep and the truths of the branches that neighbours have to agree on; a device
keeps for itself what a `rep` remembers, and the truths of the branches around one. Each function has a frame: its own
bits, counted from where a call of it begins, with those of the functions that it calls inside.
"""

from __future__ import annotations

from collections.abc import Iterator
from dataclasses import dataclass, field, replace

from ..language import Known, Unfolded
from ..language.ranges import Both, Range, Ranges, Span, full, hull
from ..language.tree import Declaration, Expr, Local, Pair, within

HEAD = 3
"""Bytes before what is said: two of the program, one that counts."""


@dataclass(frozen=True)
class Leaf:
    """A number or truth value in bits: the first bit, how many, the greatest value, and which part of a pair it is."""

    at: int
    width: int
    most: int
    truth: bool
    part: tuple[str, ...] = ()


@dataclass(frozen=True, eq=False)
class Slot:
    """Where an expression is kept: in what is sent, or in what the device keeps for itself."""

    expr: Expr
    sent: bool
    leaves: tuple[Leaf, ...]


@dataclass(frozen=True)
class Start:
    """Where the bits of a call begin, from those of the function in which it stands."""

    sent: int
    kept: int


@dataclass(eq=False)
class Frame:
    """The bits of a function: slots, calls, and of each `if` that is sent the first bit of its branches and a count."""

    function: Declaration
    slots: dict[Expr, Slot] = field(default_factory=dict)
    calls: dict[Expr, Start] = field(default_factory=dict)
    branches: dict[Expr, tuple[int, int]] = field(default_factory=dict)
    sent: int = 0
    kept: int = 0


@dataclass(frozen=True)
class Row:
    """A line of the table of a message, or of what is kept: a leaf, what it is, and the row of the branch around it.

    `guard` is the number of a row that has to have the truth `wanted`, or else these bits are 0; -1 for none.
    """

    leaf: Leaf
    what: str
    function: str
    guard: int = -1
    wanted: bool = True


def leaves_of(local: Local, found: Range, at: int, part: tuple[str, ...] = ()) -> Iterator[Leaf]:
    """The leaves of a type whose values are in a range, one after the other."""
    if isinstance(local, Pair):
        first, second = (found.first, found.second) if isinstance(found, Both) else (None, None)
        for leaf in leaves_of(local.first, first, at, (*part, "first")):
            yield leaf
            at = leaf.at + leaf.width
        yield from leaves_of(local.second, second, at, (*part, "second"))
    elif local == "bool":
        yield Leaf(at, 1, 1, True, part)
    else:
        assert isinstance(found, Span)
        yield Leaf(at, found.high.bit_length(), found.high, False, part)


def spans_of(unfolded: Unfolded) -> dict[Expr, Range]:
    """The values that each `nbr`, `rep` and `share` keeps: of one that stands in several calls, those of all."""
    ranges, found = Ranges(unfolded), dict[Expr, Range]()
    for node in unfolded.nodes:
        if node.form in ("nbr", "rep", "share"):
            span = ranges[node.place]
            found[node.expr] = hull(found[node.expr], span) if node.expr in found else span
    return found


class Layout:
    """Where everything of a program is sent or kept."""

    def __init__(self, known: Known, unfolded: Unfolded, main: Declaration) -> None:
        self.known = known
        self.spans = spans_of(unfolded)
        self.hearing: dict[str, bool] = {}
        self.remembering: dict[str, bool] = {}
        self.needs: dict[str, frozenset[str]] = {}
        self.frames: dict[str, Frame] = {}
        self.main = main
        for function in (*known.functions.values(), main):
            assert function.body is not None
            self.hearing[function.name] = self.hears(function.body)
            self.remembering[function.name] = self.remembers(function.body)
            self.frames[function.name] = self._frame(function)
            self.needs[function.name] = self._needs(function)
        self.rows = tuple(self._rows(main.name, True))
        self.kept_rows = tuple(self._rows(main.name, False))

    @property
    def frame(self) -> Frame:
        """That of `main`."""
        return self.frames[self.main.name]

    @property
    def said_bytes(self) -> int:
        """Bytes of a message after its head."""
        return -(-self.frame.sent // 8)

    @property
    def kept_bytes(self) -> int:
        """Bytes that a device keeps for itself."""
        return -(-self.frame.kept // 8)

    @property
    def message_bytes(self) -> int:
        """Bytes of a message."""
        return HEAD + self.said_bytes

    def hears(self, expr: Expr) -> bool:
        """Whether what neighbours say is read in an expression, or whether they agree on a branch."""
        return any(
            part.form in ("nbr", "share", "nbrLink")
            or (part.form == "variable" and self.known.types[part].field)
            or (part.form == "call" and self.hearing[part.name])
            for part in within(expr)
        )

    def remembers(self, expr: Expr) -> bool:
        """Whether the device's own last result is read in an expression."""
        return any(
            (part.form == "rep" and uses(part.kids[1], part.name))
            or (part.form == "call" and self.remembering[part.name])
            for part in within(expr)
        )

    def _needs(self, function: Declaration) -> frozenset[str]:
        """What a function in C takes of `device`, `inputs` and `here`."""
        found: set[str] = set()
        for part in within(self._body_of(function)):
            if part.form == "call":
                found |= self.needs[part.name]
            elif part.form == "sense":
                found.add("inputs")
            elif part.form == "uid":
                found.add("device")
            elif part in self.frames[function.name].slots or self.known.types[part].field:
                found |= {"device", "here"}
        return frozenset(found)

    def _frame(self, function: Declaration) -> Frame:
        """The frame of a function: bits for all its parts in the order of their places in the unfolded `main`."""
        frame = Frame(function)
        for part in placed(self._body_of(function)):
            self._own_bits(part, frame)
        for part, slot in frame.slots.items():
            if part.form == "if" and slot.sent:
                frame.branches[part] = self._branch_bits(part, frame)
        return frame

    def _branch_bits(self, choice: Expr, frame: Frame) -> tuple[int, int]:
        """The bits that the two branches of an `if` have, first and count: they stand one after the other."""
        first, last = frame.sent, 0
        for part in (part for branch in choice.kids[1:] for part in within(branch)):
            if part in frame.slots and frame.slots[part].sent:
                for leaf in frame.slots[part].leaves:
                    first, last = min(first, leaf.at), max(last, leaf.at + leaf.width)
            if part in frame.calls:
                begin = frame.calls[part].sent
                first, last = min(first, begin), max(last, begin + self.frames[part.name].sent)
        return (first, last - first) if last > first else (0, 0)

    def _own_bits(self, expr: Expr, frame: Frame) -> None:
        if expr.form == "call":
            inner = self.frames[expr.name]
            frame.calls[expr] = Start(frame.sent, frame.kept)
            frame.sent, frame.kept = frame.sent + inner.sent, frame.kept + inner.kept
        elif expr.form in ("nbr", "share"):
            self._slot(expr, frame, True)
        elif expr.form == "rep" and uses(expr.kids[1], expr.name):
            self._slot(expr, frame, False)
        elif expr.form == "if":
            branches = expr.kids[1:]
            if any(map(self.hears, branches)):
                self._slot(expr, frame, True)
            elif any(map(self.remembers, branches)):
                self._slot(expr, frame, False)

    def _slot(self, expr: Expr, frame: Frame, sent: bool) -> None:
        at = frame.sent if sent else frame.kept
        if expr.form == "if":
            leaves: tuple[Leaf, ...] = (Leaf(at, 1, 1, True),)
        else:
            local = self.known.types[expr].local
            span = self.spans[expr] if expr in self.spans else full(local, self.known.ceiling)
            leaves = tuple(leaves_of(local, span, at))
        frame.slots[expr] = Slot(expr, sent, leaves)
        end = leaves[-1].at + leaves[-1].width
        frame.sent, frame.kept = (end, frame.kept) if sent else (frame.sent, end)

    def _rows(self, name: str, sent: bool) -> list[Row]:
        """The rows of all that is sent, or kept, in the order of their places, so each before those in its branches."""
        rows: list[Row] = []
        left = [(name, self._body(name), 0, -1, True)]
        while left:
            function, expr, start, guard, wanted = left.pop()
            kids = [(function, kid, start, guard, wanted) for kid in expr.kids]
            slot = self.frames[function].slots.get(expr)
            if slot is not None and slot.sent == sent:
                if expr.form == "if" and sent:
                    kids[1:] = [
                        (function, kid, start, len(rows), truth) for kid, truth in zip(expr.kids[1:], (True, False))
                    ]
                for leaf in slot.leaves:
                    what = shown(self.known.text, expr)
                    rows.append(Row(replace(leaf, at=start + leaf.at), what, function or "main", guard, wanted))
            if expr.form == "call":
                begin = self.frames[function].calls[expr]
                inner = start + (begin.sent if sent else begin.kept)
                kids.append((expr.name, self._body(expr.name), inner, guard, wanted))
            left.extend(reversed(kids))
        return rows

    def _body(self, name: str) -> Expr:
        return self._body_of(self.frames[name].function)

    def _body_of(self, function: Declaration) -> Expr:
        assert function.body is not None
        return function.body


def placed(expr: Expr) -> Iterator[Expr]:
    """An expression and all its parts in the order of their places: a call, which becomes its function, comes last."""
    left: list[tuple[Expr, bool]] = [(expr, False)]
    while left:
        found, done = left.pop()
        if found.form != "call" or done:
            yield found
        if found.form == "call" and not done:
            left.append((found, True))
        if not done:
            left.extend((kid, False) for kid in reversed(found.kids))


def uses(body: Expr, name: str) -> bool:
    """Whether a variable occurs; no name is bound twice in one scope."""
    return any(part.form == "variable" and part.name == name for part in within(body))


def plain(text: str) -> str:
    """The text of a part of a program on one line, without comments; what is left has no `/`, so it ends none of C."""
    lines = (line.partition("//")[0] for line in text.split("\n"))
    return " ".join(" ".join(lines).split())


def shown(text: str, expr: Expr, most: int = 60) -> str:
    """The text of an expression, its end left out where it is long."""
    words = plain(text[expr.start : expr.end])
    return words if len(words) <= most else words[: most - 3].rstrip() + " .."
