"""Why a `rep` or `share` isn't of a form that is known to stabilise, and which part of it is to blame.

The rules are those of docs/analysis.md, Growth and Patterns. They serve explanations alone: whether a program
stabilises is what `fc` says.
"""

from __future__ import annotations

from collections.abc import Iterator
from dataclasses import dataclass

from .ranges import Both, Ranges, Span, leading
from .types import deep
from .unfold import Node, Unfolded

NESTING = ("let", "if", "rep", "share")


@dataclass(frozen=True)
class Blame:
    """The reason of a no at a place, with the place of the part that is to blame, and what is wrong with it.

    `part` is a place; `round` is another one that matters (what stands around the part), or -1. `case` tells the forms
    of one reason apart.
    """

    place: int
    reason: str
    part: int
    case: str = ""
    round: int = -1


class Patterns:
    """Judges the `rep` and `share` nodes of a program."""

    def __init__(self, program: Unfolded) -> None:
        self.program = program
        self.nodes = program.nodes
        self.ranges = Ranges(program)

    def kept(self) -> Iterator[int]:
        """The places of all `rep` and `share` outside every first value."""
        left = [0]
        while left:
            node = self.nodes[left.pop()]
            if node.form in ("rep", "share"):
                yield node.place
                left.append(node.kids[1])
            else:
                left.extend(reversed(node.kids))

    def first(self) -> Blame | None:
        """The first `rep` or `share` without a pattern, and why; None if each has one."""
        with deep():
            return next((found for place in self.kept() if (found := self.blame(place)) is not None), None)

    def blame(self, place: int) -> Blame | None:
        """Why a `rep` or `share` has no pattern; None if it has one."""
        uses = self.uses(place)
        if not uses:
            return None
        for use in uses:
            outer = self.nesting(place, use)
            if outer is not None:
                return Blame(place, "nested", use, self.nodes[outer].form, outer)
        for use in uses:
            if not self.heard_at(place, use) and not self.risen(place, use):
                return Blame(place, "unguarded", use, round=self.nodes[use].parent)
        guarded = all(self.guard(place, use) is not None for use in uses)
        if guarded and self.potential(place, uses) is not None:
            return None
        formed = self.minimising(place)
        if formed is not NotImplemented:
            return formed
        if guarded:
            return self.no_potential(place, uses)
        return self.converging(place, uses)

    def uses(self, place: int) -> list[int]:
        """The places of the variable in the body of its `rep` or `share`."""
        body = self.nodes[place].kids[1]
        return [inner for inner in self.program.within(body) if self.nodes[inner].binder == place]

    def has(self, place: int, node: int) -> bool:
        """Whether the variable of the `rep` or `share` at `place` occurs in a node."""
        return any(self.nodes[inner].binder == place for inner in self.program.within(node))

    def heard(self, place: int, node: int) -> bool:
        """Whether a node is what is heard: `nbr{x}` in a `rep`, `x` in a `share`."""
        found = self.nodes[node]
        if self.nodes[place].form == "share":
            return found.binder == place
        return found.form == "nbr" and self.nodes[found.kids[0]].binder == place

    def heard_at(self, place: int, use: int) -> int | None:
        """The node that is what is heard and has this occurrence, or None."""
        if self.nodes[place].form == "share":
            return use
        parent = self.nodes[use].parent
        return parent if self.heard(place, parent) else None

    def nesting(self, place: int, use: int) -> int | None:
        """The innermost `let`, `if`, `rep`, `share`, or `nbr` of more than what is heard, between body and
        occurrence."""
        inner = use
        while inner != self.nodes[place].kids[1]:
            inner = self.nodes[inner].parent
            node = self.nodes[inner]
            if node.form in NESTING or (node.form == "nbr" and not self.heard(place, inner)):
                return inner
        return None

    def risen(self, place: int, use: int) -> bool:
        """Whether an occurrence is the second argument of a body that is `rise(a, x, s)`, in a `rep`."""
        body = self.nodes[self.nodes[place].kids[1]]
        return self.nodes[place].form == "rep" and body.form == "apply" and body.name == "rise" and body.kids[1] == use

    def guard(self, place: int, use: int) -> Node | None:
        """The `mux(nbr{a} < b, X, s)` in which an occurrence is guarded, or None."""
        heard = self.heard_at(place, use)
        if heard is None or heard == self.nodes[place].kids[1]:
            return None
        choice = self.nodes[self.nodes[heard].parent]
        if choice.form != "apply" or choice.name != "mux" or choice.kids[1] != heard:
            return None
        less = self.nodes[choice.kids[0]]
        if less.form != "apply" or less.name != "<" or self.nodes[less.kids[0]].form != "nbr":
            return None
        return None if self.has(place, less.place) or self.has(place, choice.kids[2]) else choice

    def compared(self, choice: Node) -> tuple[Node, Node]:
        """What a guard compares: `a` and `b` of `nbr{a} < b`."""
        less = self.nodes[choice.kids[0]]
        return self.nodes[self.nodes[less.kids[0]].kids[0]], self.nodes[less.kids[1]]

    def potential(self, place: int, uses: list[int]) -> int | None:
        """The one binder of an integer that all guards compare, or None."""
        found = set()
        for use in uses:
            choice = self.guard(place, use)
            assert choice is not None
            for part in self.compared(choice):
                found.add(part.binder if part.form == "variable" and str(part.type) == "int" else -1)
        return found.pop() if len(found) == 1 and -1 not in found else None

    def no_potential(self, place: int, uses: list[int]) -> Blame:
        """Which guard doesn't compare one bound integer with itself."""
        binders: list[int] = []
        for use in uses:
            choice = self.guard(place, use)
            assert choice is not None
            for part in self.compared(choice):
                if part.form != "variable":
                    return Blame(place, "potential", part.place, "unbound", choice.kids[0])
                if str(part.type) != "int":
                    return Blame(place, "potential", part.place, "no-integer", choice.kids[0])
                if binders and part.binder != binders[0]:
                    return Blame(place, "potential", part.place, "another", choice.kids[0])
                binders.append(part.binder)
        return Blame(place, "potential", uses[0])

    def minimising(self, place: int) -> Blame | None:
        """What the rules of the least value and of limited rise say: a blame or nothing; NotImplemented where none
        applies."""
        body = self.nodes[self.nodes[place].kids[1]]
        rising = self.nodes[place].form == "rep" and body.form == "apply" and body.name == "rise"
        if rising and (self.nodes[body.kids[1]].binder != place or self.has(place, body.kids[2])):
            return NotImplemented
        least = self.nodes[body.kids[0]] if rising else body
        if least.form != "apply" or least.name != "minHoodLoc" or self.has(place, least.kids[1]):
            return NotImplemented
        heard, local = least.kids
        growth, part, case = self.growth(place, heard)
        if growth is None:
            return Blame(place, "no-growth", part, case, heard)
        if growth == 0:
            return Blame(place, "growth-zero", heard, self._zero(place, heard))
        if rising:
            step = self.ranges[body.kids[2]]
            assert isinstance(step, Span)
            return Blame(place, "rise-zero", body.kids[2]) if step.low == 0 else None
        kept = self.ranges[local]
        lead = leading(kept)
        if isinstance(kept, Both) and lead is not None and lead.high == self.program.ceiling:
            return Blame(place, "lead-at-ceiling", self._lead(local))
        return None

    def growth(self, place: int, node: int) -> tuple[int | None, int, str]:
        """The growth of a node, or nothing with the place that has none and why."""
        found = self.nodes[node]
        if not self.has(place, node):
            lead = leading(self.ranges[node])
            if lead is not None and lead.low == self.program.ceiling:
                return lead.low, node, ""
            return None, node, "without"
        if self.heard(place, node):
            return (0, node, "") if leading(self.ranges[node]) is not None else (None, node, "no-integer")
        if found.form != "apply":
            return None, node, "other"
        return self._growth_of(place, found)

    def _growth_of(self, place: int, found: Node) -> tuple[int | None, int, str]:
        kids = found.kids
        if found.name == "fst" and self.heard(place, kids[0]) and isinstance(self.ranges[found.place], Span):
            return 0, found.place, ""
        if found.name in ("+", "max", "*"):
            return self._growth_beside(place, found)
        if found.name in ("min", "mux"):
            if found.name == "mux" and self.has(place, kids[0]):
                return None, found.place, "choice"
            first, second = self.growth(place, kids[-2]), self.growth(place, kids[-1])
            if first[0] is None or second[0] is None:
                return first if first[0] is None else second
            return min(first[0], second[0]), found.place, ""
        if found.name == "pair":
            other = self.nodes[kids[1]]
            kept = other.form == "apply" and other.name == "snd" and self.heard(place, other.kids[0])
            if isinstance(self.ranges[kids[0]], Span) and (kept or not self.has(place, kids[1])):
                return self.growth(place, kids[0])
            return None, found.place, "pair"
        return None, found.place, found.name

    def _growth_beside(self, place: int, found: Node) -> tuple[int | None, int, str]:
        inside = [kid for kid in found.kids if self.has(place, kid)]
        if len(inside) != 1:
            return None, found.place, "twice"
        outside = next(kid for kid in found.kids if kid != inside[0])
        lead = self.ranges[outside]
        if found.name == "*" and not (isinstance(lead, Span) and lead.low >= 1):
            return None, found.place, "times-zero"
        growth, part, case = self.growth(place, inside[0])
        if growth is None:
            return None, part, case
        if found.name == "+":
            assert isinstance(lead, Span)
            growth = min(self.program.ceiling, growth + lead.low)
        return growth, found.place, ""

    def _zero(self, place: int, heard: int) -> str:
        """What is added to what is heard where that may be 0: the weights of links, something else, or None."""
        forms = {self.nodes[inner].form for inner in self.program.within(heard)}
        names = {self.nodes[inner].name for inner in self.program.within(heard) if self.nodes[inner].form == "apply"}
        if "nbrLink" in forms:
            return "weights"
        return "added" if "+" in names else "plain"

    def _lead(self, local: int) -> int:
        """The part of a local pair whose first component may be the ceiling."""
        node = self.nodes[local]
        while node.form == "apply" and node.name in ("mux", "min", "max"):
            kids = node.kids[-2:]
            reach = [kid for kid in kids if self._may_lead_at_ceiling(kid)]
            if not reach:
                break
            node = self.nodes[reach[0]]
        return node.place

    def _may_lead_at_ceiling(self, place: int) -> bool:
        """Whether the first number of a value may be the ceiling."""
        lead = leading(self.ranges[place])
        return lead is not None and lead.high == self.program.ceiling

    def converging(self, place: int, uses: list[int]) -> Blame:
        """Which part of a body is of no known form, where no other reason is there."""
        body = self.nodes[self.nodes[place].kids[1]]
        for use in uses:
            found = self._half_guarded(place, use)
            if found is not None:
                return found
        if body.form == "apply" and body.name in ("minHoodLoc", "rise"):
            return self._twice_heard(place, body)
        for form in ("maxHoodLoc", "minHoodLoc", "sumHood", "anyHood", "allHood"):
            for use in uses:
                if self.guard(place, use) is None:
                    hood = self._hood_round(place, use)
                    if hood is not None and self.nodes[hood].name == form:
                        return Blame(place, "converging", hood, form)
        return Blame(place, "converging", body.place)

    def _twice_heard(self, place: int, body: Node) -> Blame:
        """A least value, alone or in a `rise`, beside which the variable occurs a second time."""
        least = body
        if body.name == "rise":
            if self.has(place, body.kids[2]):
                return Blame(place, "converging", body.kids[2], "limit")
            least = self.nodes[body.kids[0]]
            if least.form != "apply" or least.name != "minHoodLoc":
                return Blame(place, "converging", body.kids[0], "risen")
        return Blame(place, "converging", least.kids[1], "local")

    def _hood_round(self, place: int, use: int) -> int | None:
        """The fold over the neighbours that takes what is heard here."""
        inner = use
        while inner != self.nodes[place].kids[1]:
            inner = self.nodes[inner].parent
            if self.nodes[inner].form == "apply" and self.nodes[inner].name.endswith(("Hood", "HoodLoc")):
                return inner
        return None

    def _half_guarded(self, place: int, use: int) -> Blame | None:
        """A guard around an occurrence that isn't quite one."""
        if self.guard(place, use) is not None:
            return None
        inner, body = use, self.nodes[place].kids[1]
        while inner != body:
            below, inner = inner, self.nodes[inner].parent
            node = self.nodes[inner]
            if node.form == "apply" and node.name == "mux" and not self.has(place, node.kids[0]):
                found = self._as_guard(place, node, below)
                if found is not None:
                    return found
        return None

    def _as_guard(self, place: int, choice: Node, below: int) -> Blame | None:
        """What is wrong with a `mux` as a guard of what stands below it; None if none is meant."""
        condition = self.nodes[choice.kids[0]]
        if all(self.nodes[inner].form != "nbr" for inner in self.program.within(condition.place)):
            return None
        shares = [self.nodes[kid].form == "nbr" for kid in condition.kids]
        if condition.form != "apply" or condition.name != "<" or shares not in ([True, False], [False, True]):
            return Blame(place, "converging", condition.place, "condition", choice.place)
        if shares == [False, True]:
            return Blame(place, "converging", condition.place, "turned", choice.place)
        if below == choice.kids[2]:
            return Blame(place, "converging", below, "otherwise", choice.place)
        if self.has(place, choice.kids[2]):
            return Blame(place, "converging", choice.kids[2], "both", choice.place)
        return Blame(place, "converging", below, "behind", choice.place)
