"""What colours mean in a picture: a scale for each part of a value, and colours for what stands outside of a scale."""

from __future__ import annotations

import math
from collections.abc import Iterable, Iterator, Sequence
from dataclasses import dataclass, replace

from .kinds import Kinds, by_names, parts_of
from .results import Bound, Drawn, Value, word_of

GREY, WHITE, FALSE, TRUE, APART, LAST, MARK, LINK = (
    "#c9c9c9", "#ffffff", "#d9d9d9", "#1b7837", "#f29ac0", "#d6381e", "#111111", "#b5b5b5",
)  # fmt: skip
MOST_APART = 4
OUTLINES = (
    ("o", MARK, 1.0), ("s", "#0072b2", 1.7), ("D", "#e69f00", 2.1), ("^", "#009e73", 4.6), ("h", "#cc79a7", 2.8),
)  # fmt: skip
"""Of each mark the shape of its outline, its colour, told apart by colour-blind people too, and its area in circles."""

KINDS = (
    "#0072b2", "#e69f00", "#009e73", "#cc79a7", "#56b4e9", "#d55e00",
    "#f0e442", "#882255", "#44aa99", "#332288", "#999933", "#aa4499",
)  # fmt: skip
"""The colours of kinds, which colour-blind people tell apart too; from the thirteenth kind on they come again."""

MAP = "viridis_r"
RUNGS = 5
NOTHING = "\u00b7"


@dataclass(frozen=True)
class Meaning:
    """What the numbers of a picture are.

    `scale` names the scale, `none` what a device without a value is, which has the colour `bare`; with `resting` a 0
    has the colour grey and this meaning. `ceiling` is that of the program, where it is known: it has a colour of its
    own. With `bounds` a device has a bound in place of a value.
    """

    scale: str = "value"
    none: str = "nothing published"
    bare: str = GREY
    resting: str = ""
    ceiling: int | None = None
    kinds: Kinds | None = None
    bounds: bool = False


@dataclass(frozen=True)
class Scale:
    """The colours of one part of the values: numbers from `low` to `high`, or truth values.

    `apart` is a number outside of the scale with a colour of its own: the ceiling, or one that is far above all others.
    `clipped` says that there are numbers beyond its ends, which have the colours of these. `kinds` are numbers with a
    colour each, in place of a scale; all others are white then.
    """

    label: str
    low: int | None
    high: int | None
    apart: int | None
    truths: bool
    resting: str
    clipped: bool = False
    kinds: tuple[int, ...] = ()

    @property
    def has_numbers(self) -> bool:
        """Whether there are numbers from `low` to `high`."""
        return self.low is not None and self.high is not None

    def at(self, place: float) -> str:
        """The number about a place of the scale, from 0 to 1; a dot where there is none."""
        if self.low is None or self.high is None:
            return NOTHING
        wide = self.high - self.low
        above = math.floor(wide * place + 0.5)
        is_near = abs(place - above / max(wide, 1)) * 2 * (RUNGS - 1) <= 1
        return f"{self.low + above}" if is_near else NOTHING

    def colour(self, part: int | bool) -> str:
        """The colour of a number or truth value, as `#rrggbb`."""
        if isinstance(part, bool):
            return TRUE if part else FALSE
        if self.kinds:
            return KINDS[self.kinds.index(part) % len(KINDS)] if part in self.kinds else WHITE
        if part == self.apart:
            return APART
        if self.resting and part == 0:
            return GREY
        if self.low is None or self.high is None:
            return WHITE
        return shade((part - self.low) / max(self.high - self.low, 1))

    def of_bound(self, low: int | bool, high: int | bool) -> str:
        """The colour of a part of a bound: that of its middle; white for a truth value that may be either."""
        if low == high:
            return self.colour(low)
        if isinstance(low, bool) or self.low is None or self.high is None:
            return WHITE
        middle = (min(max(low, self.low), self.high) + min(max(high, self.low), self.high)) / 2
        return shade((middle - self.low) / max(self.high - self.low, 1))

    def width(self, low: int | bool, high: int | bool) -> float:
        """How wide a part of a bound is, from 0 to 1, which is as wide as all numbers of the picture."""
        if isinstance(low, bool) or self.low is None or self.high is None:
            return float(low != high)
        whole = max(self.high, self.apart or 0) - self.low
        return (high - low) / max(whole, 1)


def shade(place: float) -> str:
    """The colour at a place of a scale, which goes from 0 to 1."""
    from matplotlib import colormaps, colors

    return str(colors.to_hex(colormaps[MAP](min(max(place, 0.0), 1.0))))


def scales_of(
    values: Iterable[Drawn | None], meaning: Meaning, settled: Iterable[Drawn | None] | None = None
) -> tuple[Scale, ...]:
    """A scale for each part of the values, so that one colour is one number in all of them.

    With `settled` the scale is that of these values alone, and what lies beyond it has the colour of its end.
    """
    columns = _columns(values)
    labels = [f"{meaning.scale}, part {place}" for place in range(1, len(columns) + 1)]
    labels = labels if len(columns) > 1 else [meaning.scale]
    whole = tuple(_scale(label, column, meaning) for label, column in zip(labels, columns))
    if meaning.kinds is not None:
        return _with_kinds(whole, columns, meaning.kinds, meaning.ceiling)
    return whole if settled is None else tuple(map(_clipped, whole, _columns(settled)))


def _with_kinds(
    scales: Sequence[Scale], columns: Sequence[Sequence[int | bool]], kinds: Kinds, ceiling: int | None
) -> tuple[Scale, ...]:
    """Scales of which some have kinds, the same colour for one number in all of them."""
    chosen = [column if kinds.has(place) else () for place, column in enumerate(columns, 1)]
    numbers = sorted({part for column in chosen for part in column if not isinstance(part, bool)})
    known = tuple(number for number in numbers if number in kinds.devices and number != ceiling)
    known = known or tuple(number for number in numbers if number != ceiling)
    return tuple(
        replace(scale, low=None, high=None, apart=None, clipped=not set(column) <= set(known), kinds=known)
        if column and not scale.truths
        else scale
        for scale, column in zip(scales, chosen)
    )


def rungs(scales: Sequence[Scale], values: Iterable[Drawn | None]) -> list[tuple[float, str]]:
    """One scale for all parts of pairs: places from 0 to 1 on it, each with the value whose parts have that place on
    scales of their own, written as the values are.

    A dot stands for a part that has no number about there.
    """
    form = next(iter(ends_of(values)), None)
    if form is None or not any(scale.has_numbers for scale in scales):
        return []
    places = [number / (RUNGS - 1) for number in range(RUNGS)]
    rows = [(place, [scale.at(place) for scale in scales]) for place in places]
    return [(place, shaped(form, words)) for place, words in rows if set(words) != {NOTHING}]


def shaped(form: Value, words: Sequence[str]) -> str:
    """Words in place of the parts of a value, from left to right."""
    left = iter(words)

    def said(part: Value) -> str:
        return f"({said(part[0])},{said(part[1])})" if isinstance(part, tuple) else next(left)

    return said(form)


def ends_of(values: Iterable[Drawn | None]) -> Iterator[Value]:
    """The values that are there, and both ends of bounds."""
    for value in values:
        if isinstance(value, Bound):
            yield from (value.low, value.high)
        elif value is not None:
            yield value


def _columns(values: Iterable[Drawn | None]) -> list[tuple[int | bool, ...]]:
    """The parts of some values, by their places."""
    return list(zip(*map(parts_of, ends_of(values))))


def _clipped(scale: Scale, column: Sequence[int | bool]) -> Scale:
    """A scale from the least to the greatest number of a column."""
    rests = {part for part in column if scale.resting and part == 0}
    inside = [part for part in column if not isinstance(part, bool) and part != scale.apart and part not in rests]
    if not inside:
        return scale
    low, high = min(inside), max(inside)
    return replace(scale, low=low, high=high, clipped=(low, high) != (scale.low, scale.high))


def _scale(label: str, column: Sequence[int | bool], meaning: Meaning) -> Scale:
    numbers = sorted({part for part in column if not isinstance(part, bool) and not (meaning.resting and part == 0)})
    apart = _apart(numbers, meaning.ceiling)
    inside = [number for number in numbers if number != apart]
    low, high = (inside[0], inside[-1]) if inside else (None, None)
    truths = any(isinstance(part, bool) for part in column)
    resting = meaning.resting if any(part == 0 and not isinstance(part, bool) for part in column) else ""
    return Scale(label, low, high, apart, truths, resting)


def _apart(numbers: Sequence[int], ceiling: int | None) -> int | None:
    """The number that stands outside of the scale: the ceiling, or one that would take most of the scale."""
    if ceiling is not None:
        return ceiling if ceiling in numbers else None
    if len(numbers) > 2 and numbers[-1] - numbers[-2] > MOST_APART * (numbers[-2] - numbers[0]):
        return numbers[-1]
    return None


def colours_of(value: Drawn | None, scales: Sequence[Scale], meaning: Meaning) -> tuple[str, ...]:
    """The colours of a device: one for each part of its value, or of its bound."""
    if value is None:
        return (meaning.bare,)
    if isinstance(value, Bound):
        parts = zip(scales, parts_of(value.low), parts_of(value.high))
        return tuple(scale.of_bound(low, high) for scale, low, high in parts)
    return tuple(scale.colour(part) for scale, part in zip(scales, parts_of(value)))


def width_of(value: Drawn | None, scales: Sequence[Scale]) -> float:
    """How wide a bound is, from 0 to 1: that of its widest part; 0 for a value."""
    if not isinstance(value, Bound):
        return 0.0
    parts = zip(scales, parts_of(value.low), parts_of(value.high))
    return max(scale.width(low, high) for scale, low, high in parts)


def is_dark(colours: Sequence[str]) -> bool:
    """Whether white letters are read better on these colours than black ones."""
    light = 0.0
    for colour in colours:
        red, green, blue = (int(colour[place : place + 2], 16) for place in (1, 3, 5))
        light += 0.3 * red + 0.59 * green + 0.11 * blue
    return light / len(colours) < 130


def entries(scales: Sequence[Scale], some_none: bool, meaning: Meaning) -> list[tuple[str, str]]:
    """The legend beside the scales: colours, and what they mean."""
    found = kinds_shown(scales, meaning)
    if any(scale.truths for scale in scales):
        found += [(TRUE, "true"), (FALSE, "false"), *[(WHITE, "true or false")] * meaning.bounds]
    for number in dict.fromkeys(scale.apart for scale in scales if scale.apart is not None):
        name = "the ceiling" if number == meaning.ceiling else "apart from the scale"
        found.append((APART, f"{number:,}, {name}"))
    if some_none:
        found.append((meaning.bare, meaning.none))
    if meaning.resting and any(scale.resting for scale in scales):
        found.append((GREY, meaning.resting))
    return found


def kinds_shown(scales: Sequence[Scale], meaning: Meaning) -> list[tuple[str, str]]:
    """The legend of kinds: the first of them by their names, and what is no kind."""
    found = next(((scale, scale.kinds) for scale in scales if scale.kinds), None)
    if found is None or meaning.kinds is None:
        return []
    scale, kinds = found
    rows = [(scale.colour(number), meaning.kinds.devices.get(number, str(number))) for number in kinds[: len(KINDS)]]
    if len(kinds) > len(KINDS):
        rows[-1] = (rows[-1][0], f"{rows[-1][1]}, and {len(kinds) - len(KINDS)} more in these colours again")
    return [*rows, *[(WHITE, "no device")] * any(one.kinds and one.clipped for one in scales)]


def label_of(value: Drawn | None, scales: Sequence[Scale] = (), meaning: Meaning = Meaning()) -> str:
    """What is written in a device: its whole value, with kinds by their names, or its bound."""
    if isinstance(value, Bound):
        return str(value)
    if value is None or meaning.kinds is None:
        return word_of(value)
    known = {number for scale in scales for number in scale.kinds}
    devices = {device: name for device, name in meaning.kinds.devices.items() if device in known}
    return word_of(by_names(value, replace(meaning.kinds, devices=devices)))
