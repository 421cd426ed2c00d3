"""Words and characters of other languages, and what stands for them here."""

from __future__ import annotations

import difflib
from collections.abc import Iterable

BRANCHES = "There is no `then` or `else`: write `if (c) {a} {b}`."
ONE_EXPRESSION = "A body is one expression; name parts of it with `let x = a in b`."
KEPT = "There are no assignments: `rep(e){(x) => b}` keeps a value from firing to firing."
LEAST = "`minHoodLoc(f, l)` is the least of the neighbours' values in `f` and the device's own `l`."
GREATEST = "`maxHoodLoc(f, l)` is the greatest of the neighbours' values in `f` and the device's own `l`."
FOLDS = "The only folds over neighbours are `minHoodLoc`, `maxHoodLoc`, `sumHood`, `anyHood` and `allHood`."
MEAN = (
    "The mean of a number over the neighbours and the device itself is "
    "`div(a + sumHood(nbr{a}), 1 + sumHood(nbr{1}))`; over the whole network it is the block `mean(sink, far, value)`, "
    "over regions `regionMean(leader, far, value)`. `fieldc compose` puts blocks in front."
)
FUNCTION = "Declare a function with `def f(x: int): int = x + 1;`."
WEIGHT = "The weight of the link to each neighbour is `nbrLink`."
NUMBERS = "The number of the device is `uid`."
TRUTHS = "Truth values are `true` and `false`."
PARTS = "The parts of a pair are `fst(p)` and `snd(p)`."
KINDS = "The types are `int`, `bool`, pairs as `(int, bool)`, and `field` in front of one of these."
WHOLE = "All numbers are whole. Choose a smaller unit: 15 tenths instead of 1.5."

HINTS = {
    "else": BRANCHES,
    "elif": BRANCHES,
    "then": BRANCHES,
    "return": ONE_EXPRESSION,
    "var": ONE_EXPRESSION,
    "val": ONE_EXPRESSION,
    "const": ONE_EXPRESSION,
    "mut": ONE_EXPRESSION,
    "for": "There are no loops: a device fires again and again, and `rep` keeps what it has computed.",
    "while": "There are no loops: a device fires again and again, and `rep` keeps what it has computed.",
    "fn": FUNCTION,
    "fun": FUNCTION,
    "func": FUNCTION,
    "function": FUNCTION,
    "lambda": "Functions have names: declare them with `def`.",
    "True": TRUTHS,
    "False": TRUTHS,
    "None": "There is no empty value: use a number for it, such as the ceiling.",
    "null": "There is no empty value: use a number for it, such as the ceiling.",
    "Infinity": "The greatest number is the ceiling: write it as a number.",
    "inf": "The greatest number is the ceiling: write it as a number.",
    "self": NUMBERS,
    "mid": NUMBERS,
    "id": NUMBERS,
    "minHood": LEAST,
    "minHoodPlus": LEAST,
    "minHoodSelf": LEAST,
    "hoodMin": LEAST,
    "maxHood": GREATEST,
    "maxHoodPlus": GREATEST,
    "foldhood": FOLDS,
    "foldhoodPlus": FOLDS,
    "foldHood": FOLDS,
    "foldHoodPlus": FOLDS,
    "unionHood": FOLDS,
    "meanHood": MEAN,
    "avgHood": MEAN,
    "averageHood": MEAN,
    "avg": MEAN,
    "average": MEAN,
    "everyHood": "`allHood(f)` is true if `f` is true at all neighbours.",
    "countHood": "`sumHood(nbr{1})` is the number of neighbours.",
    "nbrRange": WEIGHT,
    "nbrDist": WEIGHT,
    "nbrRangeHood": WEIGHT,
    "any": "`anyHood(f)` is true if `f` is true at some neighbour.",
    "all": "`allHood(f)` is true if `f` is true at all neighbours.",
    "fold": FOLDS,
    "reduce": FOLDS,
    "branch": "`if (c) {a} {b}` separates devices by branch; `mux(c, a, b)` only chooses a value.",
    "sum": "`sumHood(f)` is a sum over the neighbours, and `a + b` a sum of two numbers.",
    "abs": "Numbers are never negative; the distance of two numbers is `max(a - b, b - a)`.",
    "first": "The first part of a pair is `fst(p)`.",
    "second": "The second part of a pair is `snd(p)`.",
    "Int": KINDS,
    "Bool": KINDS,
    "Boolean": KINDS,
    "boolean": KINDS,
    "integer": KINDS,
    "num": KINDS,
    "number": KINDS,
    "float": WHOLE,
    "double": WHOLE,
    "f64": WHOLE,
    "i32": KINDS,
    "u32": KINDS,
}

CHARACTERS = {
    "!": "Write `not a`, and `not (a = b)` for two values that differ.",
    "&": "Write `a and b`.",
    "|": "Write `a or b`.",
    ">": "Write the lesser first: `b < a` instead of `a > b`, and `not (a < b)` instead of `a >= b`.",
    "/": "The block `div(a, b)` divides; `fieldc compose` adds it. A comment begins with `//`.",
    "%": "The block `rest(a, b)` is the remainder; `fieldc compose` adds it. A line `%%` separates sections.",
    "#": "A comment begins with `//`.",
    '"': "There are no strings; write the name of an input without quotes: `sense src`.",
    "'": "There are no strings; write the name of an input without quotes: `sense src`.",
    "[": "There are no lists. A pair is `(a, b)`, and `fst` and `snd` give its parts.",
    "]": "There are no lists. A pair is `(a, b)`, and `fst` and `snd` give its parts.",
    ".": WHOLE,
    "_": "A name begins with a letter; a number has digits only.",
    "?": "Choose with `mux(c, a, b)` or `if (c) {a} {b}`.",
    "\ufeff": "Save the file as UTF-8 without a byte order mark.",
    "\u00a0": "This is another kind of space: replace it by a plain one.",
}


def hint_for(name: str) -> str | None:
    """What stands for a word of another language, or None if it is none."""
    return HINTS.get(name)


def similar(name: str, known: Iterable[str]) -> str | None:
    """The known name that is nearest to a name, where one is near."""
    names = {word.lower(): word for word in known}
    if name.lower() in names:
        return names[name.lower()]
    near = difflib.get_close_matches(name, sorted(set(names.values())), 1, 0.7)
    return near[0] if near else None
