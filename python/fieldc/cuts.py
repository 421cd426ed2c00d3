"""Whether the ceiling of a program cuts what is computed: `fc` is asked once more with a greater one.

Only the number of the declaration `ceiling N;` is another one then; the program's other numbers stay. Of a program
with a yes, `stable` is asked with the greatest ceiling that there is. Else `check --settle` is asked with one twice as
great, since the rounds of bounds may be as many as a ceiling is great, and devices without a value aren't compared.
"""

from __future__ import annotations

import time
from collections.abc import Callable, Mapping
from dataclasses import dataclass, field, replace
from typing import Union

from . import program as fc
from . import results
from .blocks import Token, tokens
from .edits import moments
from .networks import GREATEST_NUMBER, declared, read_scene
from .refusals import Call, Explanation, Fault, Refusal, Section
from .results import Value, Values, by_number, word_of
from .telling import listed

SECONDS, TIMES = 10.0, 5.0
MOST_PAIRS, MOST_CALLED = 3, 8
MOST_NETWORKS = 4
PAGE = "docs/fieldc.md#values-that-the-ceiling-cuts"
OPTION = "--no-cut-check"
WithValues = Union[results.Settled, results.Traced, results.Stable, results.Replayed, results.Mailed]
VALUES_OF: Mapping[str, Callable[[str], WithValues]] = {
    "stable": results.stable, "check": results.settled, "replay": results.replayed, "mail": results.mailed,
}  # fmt: skip


class Late(Exception):
    """A question took longer than it may."""


@dataclass(frozen=True)
class Cut:
    """Values that the ceiling of a program decides.

    `changed` has, for each device whose values differ, its value with the program's ceiling and with a greater one.
    `enough` is a ceiling with which nothing is cut, or None; `least` tells whether it is the least, or there is none.
    """

    ceiling: int
    changed: Mapping[int, tuple[Value, Value]]
    devices: int
    enough: int | None
    least: bool


@dataclass(frozen=True)
class Untold:
    """That it can't be told whether the ceiling cuts something, and why."""

    why: str


@dataclass
class Question:
    """What values a program has on a network with one ceiling or another; each ceiling is asked once.

    `words` are those that are asked: `check --settle` where the verdict is a no, and `replay` or `mail` where the
    values are those after a `log`. What takes more than `seconds` in all is given up, and `waiting` is called now and
    then.
    """

    program: Section
    network: Section
    words: tuple[str, ...] = ("stable",)
    log: Section | None = None
    seconds: float = SECONDS
    waiting: Callable[[], None] | None = None
    known: dict[int, Values] = field(default_factory=dict)
    start: float = field(default_factory=time.monotonic)

    def values(self, ceiling: int) -> Values:
        """The values with a ceiling. Raises Late, Refusal, and Fault if `fc` answers as it never does."""
        if ceiling not in self.known:
            program = replace(self.program, text=with_ceiling(self.program.text, ceiling))
            sections = (program, self.network) + ((self.log,) if self.log is not None else ())
            reply = fc.answered(Call(self.words, sections), self._tick)
            self.known[ceiling] = VALUES_OF[self.words[0]](reply.text).values
        return self.known[ceiling]

    def above(self, ceiling: int) -> int:
        """The ceiling with which that one is compared."""
        return min(2 * ceiling, GREATEST_NUMBER) if "--settle" in self.words else GREATEST_NUMBER

    def _tick(self) -> None:
        if self.waiting is not None:
            self.waiting()
        if time.monotonic() > self.start + self.seconds:
            raise Late


def ceiling_of(program: str) -> Token | None:
    """The number of the declaration of the ceiling; None if there is none."""
    found = tokens(program)
    pairs = zip(found, found[1:])
    return next((number for word, number in pairs if word.text == "ceiling" and number.text.isdigit()), None)


def with_ceiling(program: str, ceiling: int) -> str:
    """A program with another ceiling."""
    found = ceiling_of(program)
    return program if found is None else f"{program[: found.at]}{ceiling}{program[found.at + len(found.text) :]}"


def cut_of(question: Question) -> Cut | Untold | None:
    """What the ceiling cuts on a network; None if nothing is seen of it.

    Where the program's ceiling is the greatest that there is, half of it is asked for: if the values are the same with
    it, nothing is cut. Raises Refusal if `fc` refuses the program or network as they are.
    """
    declaration = ceiling_of(question.program.text)
    ceiling = int(declaration.text) if declaration is not None else GREATEST_NUMBER
    greatest = Untold("it is the greatest possible") if ceiling >= GREATEST_NUMBER else None
    late = Untold(f"fc took longer than {question.seconds:.0f} s")
    try:
        here = question.values(ceiling)
    except Late:
        return late
    try:
        changed = differing(here, question.values(ceiling // 2 if greatest else question.above(ceiling)))
    except Late:
        return late
    except (Refusal, Fault) as fault:
        return greatest or Untold(f"with a greater one fc says: {fault}")
    if not changed:
        return None
    return greatest or Cut(ceiling, changed, len(here), *enough(question, ceiling))


def differing(here: Values, there: Values) -> dict[int, tuple[Value, Value]]:
    """The devices whose values differ, where both are known."""
    found = {}
    for device, value in by_number(here).items():
        other = there.get(device)
        if value is not None and other is not None and value != other:
            found[device] = (value, other)
    return found


def enough(question: Question, ceiling: int) -> tuple[int | None, bool]:
    """The least ceiling above this one with which the values are those of a greater one, and whether all were tried.

    With a yes the greater one is the greatest that there is, else twice as great a one. It is None if there is none, or
    none was found in time.
    """
    low, high, found = ceiling, min(2 * ceiling, GREATEST_NUMBER), False
    try:
        while differing(question.values(high), question.values(question.above(high))):
            low, high = high, min(2 * high, GREATEST_NUMBER)
        found = high < GREATEST_NUMBER
        while high - low > 1:
            middle = (low + high) // 2
            if differing(question.values(middle), question.values(high)):
                low = middle
            else:
                high, found = middle, True
    except (Late, Refusal, Fault):
        return (high if found else None), False
    return (high if found else None), True


# ---- what is said of it --------------------------------------------------------------------------------------------


def told(found: Cut | Untold, program: Section, names: Mapping[int, str], where: str = "here") -> Explanation:
    """What is said of a cut, or of one that can't be told, at the ceiling of a program."""
    number = ceiling_of(program.text)
    ceiling = GREATEST_NUMBER if number is None else int(number.text)
    if isinstance(found, Untold):
        what = f"We can't tell whether the ceiling {ceiling} cuts what is computed {where}: {found.why}."
        hint = f"{OPTION} skips this check."
    else:
        what = f"The ceiling {ceiling} cuts what is computed {where}: with a greater one {others(found, names)}."
        hint = remedy(found)
    if number is None:
        return Explanation(what, program, name="ceiling", hint=hint, page=PAGE)
    line, column = number.line + program.first_line - 1, number.at - program.text.rfind("\n", 0, number.at)
    return Explanation(what, program, line, column, "ceiling", hint, PAGE)


def others(found: Cut, names: Mapping[int, str]) -> str:
    """Which devices have other values, and which."""
    at: dict[tuple[Value, Value], list[str]] = {}
    for device, pair in found.changed.items():
        at.setdefault(pair, []).append(names.get(device, str(device)))
    rows = [f"{word_of(there)} and not {word_of(here)} at {called(at[here, there])}" for here, there in at]
    rows = [*rows[:MOST_PAIRS], *[f"{len(rows) - MOST_PAIRS} more"] * (len(rows) > MOST_PAIRS)]
    has = "has another value" if len(found.changed) == 1 else "have other values"
    return f"{len(found.changed)} of {found.devices} devices {has}: {listed(rows)}"


def called(devices: list[str]) -> str:
    """Some devices by their names, all or the first of them."""
    more = [f"{len(devices) - MOST_CALLED} more"] * (len(devices) > MOST_CALLED)
    return f"device{'s' if len(devices) > 1 else ''} {listed([*devices[:MOST_CALLED], *more])}"


def remedy(found: Cut) -> str:
    """What is to be done about a cut."""
    meant = f"If the cut is meant, {OPTION} skips this check."
    if found.enough is None:
        none = f"up to {GREATEST_NUMBER:,} is enough" if found.least else "that is enough was found in time"
        return f"No ceiling {none}: if the ceiling itself is the answer, write a number instead. {meant}"
    least = "the least that is" if found.least else "which is"
    return f"Write `ceiling {found.enough};`, {least} enough on this network, and leave the other numbers. {meant}"


def warned(
    call: Call,
    result: results.Result | str,
    names: Mapping[int, str],
    took: float = 0.0,
    waiting: Callable[[], None] | None = None,
) -> tuple[Explanation, ...]:
    """What the ceiling cuts of the values of a result that took so many seconds; None if no cut is seen.

    Of a run it is the values to which its program settles on the networks of its last shows; of a log those after it.
    """
    if isinstance(result, (str, results.Checked, results.Generated, results.Bounds)):
        return ()
    program, network, *log = call.sections
    words = words_of(call, result)
    after = log[0] if words[0] in ("replay", "mail") else None
    question = Question(program, network, words, after, SECONDS + TIMES * took, waiting)
    if isinstance(result, results.Ran):
        for line, scene in networks_shown(result, call):
            found = cut_of(replace(question, network=replace(network, text=scene), known={}))
            if found is not None:
                return (told(found, program, names, f"on the network of line {line} of the script"),)
        return ()
    number = ceiling_of(program.text)
    if not result.values or number is None:
        return ()
    question.known[int(number.text)] = result.values
    found = cut_of(question)
    return () if found is None else (told(found, program, names, "by this log" if after is not None else "here"),)


def words_of(call: Call, result: WithValues | results.Ran) -> tuple[str, ...]:
    """The words that are asked of a result: `stable` where its values are those of the one field."""
    if isinstance(result, (results.Replayed, results.Mailed)):
        return ("stable",) if "--number" in call.words else call.words[:1]
    if result.verdict is None or result.verdict.stabilises:
        return ("stable",)
    return ("check", "--settle") + ("--from-table",) * ("--from-table" in call.words)


def networks_shown(result: results.Ran, call: Call) -> list[tuple[int, str]]:
    """The last networks on which a run was shown, each once, as scenes with the lines of their last shows."""
    program, network, script = (section.text for section in call.sections[:3])
    inputs = tuple(declared(program).inputs)
    shown = [one for one in moments(read_scene(network), script, inputs) if one.line is not None]
    by_scene = {one.network.scene(): one.line or 0 for one in shown}
    return [(line, scene) for scene, line in by_scene.items()][-MOST_NETWORKS:][::-1]


def in_program(
    program: Section, made: str, network: str, stabilises: bool, where: str = "here", took: float = 0.0
) -> tuple[Explanation, ...]:
    """What the ceiling cuts on a network in a text that was made of a program, whose ceiling it has.

    `took` is how many seconds `fc` took for the network before. Nothing is said where it refuses that.
    """
    words = ("stable",) if stabilises else ("check", "--settle")
    try:
        beside = Section("network", "", 1, network)
        found = cut_of(Question(replace(program, text=made), beside, words, seconds=SECONDS + TIMES * took))
    except Refusal:
        return ()
    return () if found is None else (told(found, program, {}, where),)
