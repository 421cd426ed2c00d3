"""Explains a `no PLACE REASON`: which `rep` or `share` it is, how `main` comes to it, and which part of it is to
blame."""

from __future__ import annotations

from .language import At, Node, Unfolded
from .language.patterns import Blame, Patterns
from .language.tree import quoted
from .places import Said

PATTERNS = "docs/patterns.md"
GUARD = "mux(nbr{p} < p, nbr{x}, 0)"


class Verdict:
    """Puts the reason of a no into words."""

    def __init__(self, program: Unfolded) -> None:
        self.program = program
        self.nodes = program.nodes

    def said(self, place: int, reason: str) -> Said | None:
        """What is said of a no; None if the reader finds another place or reason than `fc`."""
        blame = Patterns(self.program).first()
        if blame is None or (blame.place, blame.reason) != (place, reason):
            return None
        node = self.nodes[place]
        why, hint = getattr(self, "_" + reason.replace("-", "_"))(blame)
        what = f"This `{node.form}` of `{node.name}`{self.way(node)} isn't of a form that is known to stabilise: {why}."
        return Said(what, node.expr.at, node.name, hint, f"{PATTERNS}#{reason}")

    def way(self, node: Node) -> str:
        """The function in which a node stands, and the calls that lead to it, the innermost first."""
        if not node.calls:
            return ""
        steps = [f"`{site.function}`, called on {self.where(site.at)}" for site in reversed(node.calls)]
        return ", in " + ", in ".join(steps) + ","

    def where(self, at: At) -> str:
        """A place in words."""
        return f"line {at.line}, column {at.column}"

    def part(self, place: int) -> str:
        """A part of the program in code, and where it stands."""
        node = self.nodes[place]
        return f"{quoted(self.program.text, node.expr)} on {self.where(node.expr.at)}"

    def heard(self, blame: Blame) -> str:
        """What is heard, as a program writes it."""
        node = self.nodes[blame.place]
        return f"nbr{{{node.name}}}" if node.form == "rep" else node.name

    def _nested(self, blame: Blame) -> tuple[str, str]:
        node, outer = self.nodes[blame.place], self.nodes[blame.round]
        use = f"its `{node.name}` on {self.where(self.nodes[blame.part].expr.at)}"
        if blame.case == "if":
            hint = f"Choose with `mux`, which separates nobody, or put the whole `{node.form}` into the branches."
            why = f"{use}, is inside the `if` on {self.where(outer.expr.at)}"
            return f"{why}, where only neighbours in the same branch are heard", hint
        if blame.case == "let" and outer.expr.form == "call":
            hint = f"Write the body of `{outer.expr.name}` here, or call it outside of the `{node.form}`."
            call = f"the call of `{outer.expr.name}` on {self.where(outer.expr.at)}"
            return f"{use}, is inside {call}, which is unfolded to a `let` of its arguments", hint
        if blame.case == "nbr":
            if node.form == "share":
                hint = f"In a `share`, `{node.name}` is what is heard already: leave the `nbr` out."
                return f"{use}, is inside the `nbr` on {self.where(outer.expr.at)}", hint
            share = f"`{self.heard(blame)} + 1` instead of `nbr{{{node.name} + 1}}`"
            hint = f"Share `{node.name}` alone, and compute with what is heard: {share}."
            return f"{self.part(blame.round)}, shares more than just `{node.name}`", hint
        hint = f"Move it out of the body, and write `{self.heard(blame)}` where it is used."
        return f"{use}, is inside the `{outer.form}` of `{outer.name}` on {self.where(outer.expr.at)}", hint

    def _unguarded(self, blame: Blame) -> tuple[str, str]:
        name = self.nodes[blame.place].name
        why = f"its `{name}` on {self.where(self.nodes[blame.part].expr.at)}, is what the device itself held"
        if self.nodes[blame.round].name == "rise":
            return why, f"Only a `rise(a, {name}, s)` that is the whole body may use it, as its second argument."
        heard = f"nbr{{{name}}}"
        guard = GUARD.replace("nbr{x}", heard)
        return why, f"Use what the neighbours held, `{heard}`, inside `minHoodLoc` or in a guard `{guard}`."

    def _potential(self, blame: Blame) -> tuple[str, str]:
        guard, part = self.part(blame.round), self.nodes[blame.part]
        hint = "Bind one integer outside, `let p = .. in`, and write `nbr{p} < p` in every guard."
        if blame.case == "no-integer":
            return f"its guard {guard}, compares `{part.name}`, which is a `{part.type}` and not an integer", hint
        if blame.case == "another":
            return f"its guard {guard}, compares `{part.name}` with another potential", hint
        compared = quoted(self.program.text, part.expr)
        return f"its guard {guard}, compares {compared}, which isn't a name bound outside", hint

    def _no_growth(self, blame: Blame) -> tuple[str, str]:
        heard, name = self.heard(blame), self.nodes[blame.place].name
        part = self.part(blame.part)
        if blame.case == "-":
            hint = (
                f"Add to what is heard, as `{heard} + 1`, and subtract outside of the `{self.nodes[blame.place].form}`."
            )
            return f"what it hears may shrink from neighbour to neighbour, by {part}", hint
        if blame.case == "without":
            hint = self._in_step(blame, heard) or "Move it into the second argument of `minHoodLoc`."
            return f"{part}, is beside what it hears and doesn't grow from neighbour to neighbour", hint
        if blame.case == "no-integer":
            hint = "Keep a pair whose first part is an integer that grows, such as a hop count."
            return (
                f"what it hears, {part}, is of type `{self.nodes[blame.part].type.local}`; only an integer can grow",
                hint,
            )
        if blame.case == "times-zero":
            return (
                f"what it hears may be multiplied by 0, in {part}",
                "Multiply by at least 1, as in `max(1, ..)`.",
            )
        if blame.case == "twice":
            hint = f"Write `{heard}` once: `2 * {heard}` instead of a sum of two."
            return f"what it hears is on both sides of {part}", hint
        if blame.case == "choice":
            return f"what it hears decides the choice of {part}", f"Choose by what doesn't depend on `{name}`."
        if blame.case == "pair":
            hint = "The first part has to be an integer that grows"
            hint += f", and the second one `snd({heard})`, or without `{name}`."
            return f"the pair {part}, isn't known to grow", hint
        why = f"{part}, isn't known to grow from neighbour to neighbour"
        return why, f"Add to what is heard, as in `{heard} + 1`."

    def _in_step(self, blame: Blame, heard: str) -> str | None:
        """How a value is chosen in place of what is heard, where that depends on the neighbour, or None."""
        choice = next((node for node in self.nodes if node.name == "mux" and blame.part in node.kids[1:]), None)
        if choice is None or not choice.expr.kids:
            return None
        condition, great = quoted(self.program.text, self.nodes[choice.kids[0]].expr), self.program.ceiling
        steps = f"{great}, 1" if choice.kids[1] == blame.part else f"1, {great}"
        chosen = f"`{heard} + mux({condition.strip('`')}, {steps})`"
        return f"Choose the step in its place: {chosen}. With a step of {great} what is heard isn't passed on."

    def _growth_zero(self, blame: Blame) -> tuple[str, str]:
        why = f"what it hears, {self.part(blame.part)}, may stay as it is from neighbour to neighbour"
        if blame.case == "weights":
            low = self.program.metric[0]
            if low == 0:
                return (
                    f"{why}, as links may weigh 0",
                    "Declare a metric from 1 on, as in `metric 1..9;`, or add 1 as well.",
                )
        if blame.case == "plain":
            return why, f"Add 1: `{self.heard(blame)} + 1`."
        return why, "Add at least 1: a number, or `nbrLink` with a metric from 1 on."

    def _lead_at_ceiling(self, blame: Blame) -> tuple[str, str]:
        ceiling = self.program.ceiling
        why = f"its local pair {self.part(blame.part)}, may have the ceiling {ceiling} as its first part"
        return f"{why}, where pairs no longer grow", f"Keep the first part below the ceiling, at most {ceiling - 1}."

    def _rise_zero(self, blame: Blame) -> tuple[str, str]:
        why = f"the limit of its `rise`, {self.part(blame.part)}, may be 0, and then a value may never rise"
        return why, "Use a limit of at least 1."

    def _converging(self, blame: Blame) -> tuple[str, str]:
        heard, part = self.heard(blame), self.part(blame.part)
        guard = GUARD.replace("nbr{x}", heard)
        words = self._half_guarded(blame, heard, part, guard) | self._half_formed(blame, heard, part)
        collected = (
            f"{part}, hears all neighbours, without a guard",
            f"Bind a potential outside, `let p = .. in`, and hear only those that are lower: `{guard}`.",
        )
        return words.get(blame.case, collected)

    def _half_guarded(self, blame: Blame, heard: str, part: str, guard: str) -> dict[str, tuple[str, str]]:
        """What is said where a guard isn't quite one."""
        name = self.nodes[blame.place].name
        return {
            "behind": (
                f"the second argument of its guard, {part}, isn't just `{heard}`",
                f"Guard first, `{guard}`, and compute with the result outside of the guard.",
            ),
            "condition": (
                f"the condition of its guard, {part}, isn't of the form `nbr{{p}} < p`",
                f"Write `{guard}` with one comparison, and put any other condition into a `mux` around it: "
                f"`mux(c, {guard}, 0)`.",
            ),
            "turned": (
                f"its guard {part}, has the neighbour's value on the right",
                "Write `nbr{p} < p`, which hears those that are lower. To hear those that are higher, bind "
                "`let q = far - p` outside, with a number `far` that no `p` is above, and write `nbr{q} < q`.",
            ),
            "otherwise": (
                f"{part}, is the third argument of `mux`, for neighbours at which the guard is false",
                f"Write `{guard}`, with what is heard as its second argument.",
            ),
            "both": (
                f"the third argument of its guard, {part}, hears `{name}` too",
                f"Write `{guard}`, with a third argument without `{name}`.",
            ),
        }

    def _half_formed(self, blame: Blame, heard: str, part: str) -> dict[str, tuple[str, str]]:
        """What is said where a least value, or a rise, isn't quite of the form."""
        node = self.nodes[blame.place]
        return {
            "maxHoodLoc": (
                f"{part}, takes a greatest value, which may go round in circles for ever",
                f"Use a least value that grows: `minHoodLoc({heard} + 1, ..)`; "
                "or collect along a potential, with guards.",
            ),
            "minHoodLoc": (
                f"{part}, isn't the whole body, and what is done with it has no known form",
                f"Keep the `minHoodLoc` alone in the `{node.form}`, and compute with it outside.",
            ),
            "limit": (f"the limit of its `rise`, {part}, depends on `{node.name}`", "Use a limit that doesn't."),
            "risen": (
                f"the first argument of its `rise`, {part}, isn't a `minHoodLoc`",
                f"Write `rise(minHoodLoc({heard} + 1, ..), {node.name}, s)`.",
            ),
            "local": (
                f"the second argument of its `minHoodLoc`, {part}, hears `{node.name}` too",
                "Use a second argument that doesn't.",
            ),
            "": (
                f"its body {part}, has none of the known forms",
                "Write it as a least value over the neighbours, or collect along a potential.",
            ),
        }


def no_walks(program: Unfolded, main: At) -> Said:
    """What is said where a program has no walks."""
    root = program.nodes[0]
    what = "The program stabilises, but doesn't have the form for walks."
    hint = "The root of `main` has to be a `rep` of integers whose body is `minHoodLoc(nbr{x} + s, l)`."
    if root.form == "let":
        hint += f" Here it is a `{'call' if root.expr.form == 'call' else 'let'}`."
    return Said(what, main, "main", hint, "docs/commands.md#trace")
