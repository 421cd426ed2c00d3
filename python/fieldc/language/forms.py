"""What is wrong inside an expression that no grammar takes."""

from __future__ import annotations

from .faults import GRAMMAR, TYPES
from .grammar import MARKS
from .stuck import CLOSERS, DECLARING, Advice, Stuck, advice, code, place_of

TAKES = {
    **dict.fromkeys(("FST", "SND", "SUMHOOD", "ANYHOOD", "ALLHOOD"), ("one argument", "(a)")),
    **dict.fromkeys(("MIN", "MAX", "MINHOODLOC", "MAXHOODLOC"), ("two arguments", "(a, b)")),
    **dict.fromkeys(("MUX", "RISE"), ("three arguments", "(a, b, c)")),
}
KEEPING = ("REP", "SHARE")
REP = "Write `rep(0){(x) => x + 1}`."
IF = "Write `if (c) {a} {b}`."


def in_let(stuck: Stuck) -> Advice | None:
    """Faults of a `let`."""
    if stuck.kind == "LET" and stuck.operand:
        what = "A `let` on the right of an operator needs brackets."
        return advice(stuck.here, what, "Write `1 + (let x = 2 in x)`.")
    if "IN" in stuck.expected:
        what = "A `let` needs `in` and the expression that uses its name, but here is {}."
        return advice(stuck.here or stuck.before, what.format(code(stuck.here)), "Write `let x = 1 in x + 1`.")
    if stuck.kind_of(stuck.index - 1) == "LET":
        if stuck.kind == "OPEN":
            return advice(stuck.here, "A `let` binds one name.", "The parts of a pair are `fst(p)` and `snd(p)`.")
        what = f"A name has to follow `let`, not {code(stuck.here)}."
        return advice(stuck.here, what, "Write `let x = 1 in x + 1`.")
    if stuck.kind_of(stuck.index - 2) == "LET" and stuck.expected == {"IS"}:
        why = ": it has the type of what it is bound to" if stuck.kind == "COLON" else ""
        return advice(stuck.here, f"`=` has to follow the name of a `let`{why}.", "Write `let x = 1 in x + 1`.")
    return None


def in_keeping(stuck: Stuck) -> Advice | None:
    """Faults of the form of `rep`, `share` and `nbr`."""
    before, here = stuck.kind_of(stuck.index - 1), stuck.here
    if before == "NBR":
        return advice(here, "What `nbr` shares belongs in curly brackets.", "Write `nbr{x}`.")
    if before in KEEPING:
        what = f"The first value of a {code(stuck.before)} belongs in round brackets."
        return advice(here, what, REP)
    if stuck.expected == {"BEGIN"} and before == "CLOSE" and stuck.owner() in KEEPING:
        return advice(here, "The variable and the body of a `rep` or `share` belong in curly brackets.", REP)
    if stuck.expected == {"OPEN"} and before == "BEGIN":
        return advice(here, "The variable of a `rep` or `share` belongs in round brackets.", REP)
    if stuck.expected == {"ARROW"}:
        return advice(here, "`=>` is missing between the variable of a `rep` or `share` and its body.", REP)
    if stuck.expected == {"NAME"} and stuck.kind_of(stuck.index - 2) == "BEGIN":
        return advice(here, f"A `rep` or `share` needs the name of its variable here, not {code(here)}.", REP)
    if stuck.kind_of(stuck.index - 3) == "BEGIN" and stuck.kind == "COLON":
        what = "The variable of a `rep` or `share` has the type of the first value: don't write one."
        return advice(here, what, REP)
    if stuck.kind_of(stuck.index - 3) == "BEGIN" and stuck.kind == "COMMA" and stuck.expected == {"CLOSE"}:
        return advice(
            here, "A `rep` or `share` has one variable.", "Keep two values as a pair: `rep((0, 0)){(p) => ..}`."
        )
    return None


def in_choice(stuck: Stuck) -> Advice | None:
    """Faults of the form of `if`."""
    before = stuck.kind_of(stuck.index - 1)
    if before == "IF":
        return advice(stuck.here, "The condition of an `if` belongs in round brackets.", IF)
    if stuck.expected == {"BEGIN"} and stuck.owner() == "IF":
        if before == "END":
            return advice(stuck.here or stuck.before, "An `if` has two branches; the second is missing.", IF)
        return advice(stuck.here, "A branch of an `if` belongs in curly brackets.", IF)
    if stuck.kind == "BEGIN" and before == "END" and stuck.owner() == "IF":
        what = "An `if` has two branches; this is a third."
        return advice(stuck.here, what, "Nest: `if (c) {a} {if (d) {b} {e}}`.")
    if stuck.kind == "IF" and not stuck.operand:
        return advice(stuck.here, "An `if` comes before its condition and its two branches.", IF)
    return None


def in_words(stuck: Stuck) -> Advice | None:
    """Faults of `sense`, `uid`, `nbrLink` and of the arguments of builtins."""
    before, here = stuck.kind_of(stuck.index - 1), stuck.here
    if before == "SENSE":
        return advice(here, "The name of an input follows `sense`, without brackets.", "Write `sense src`.")
    if before in ("UID", "NBRLINK") and stuck.kind == "OPEN":
        return advice(here, f"{code(stuck.before)} isn't a function and takes no brackets.", "Remove them.")
    if before in TAKES and stuck.before is not None:
        count, form = TAKES[before]
        what = f"The arguments of {code(stuck.before)} belong in round brackets."
        return advice(here, what, f"Write `{stuck.before.value}{form}`.")
    brackets = stuck.open_brackets()
    owner = stuck.kind_of(brackets[-1] - 1) if brackets else ""
    if owner in TAKES and stuck.kind in ("COMMA", "CLOSE"):
        word = stuck.tokens[brackets[-1] - 1]
        count, form = TAKES[owner]
        what = f"{code(word)} takes {count}."
        return advice(here, what, f"Write `{word.value}{form}`.")
    return None


def in_commas(stuck: Stuck) -> Advice | None:
    """A comma where none can stand."""
    if stuck.kind != "COMMA":
        return None
    here, brackets = stuck.here, stuck.open_brackets()
    if not brackets:
        hint = "A declaration ends with `;`; a pair has round brackets around it."
        return advice(here, "This `,` isn't inside any brackets.", hint)
    owner = stuck.tokens[brackets[-1] - 1]
    if owner.type in TAKES or CLOSERS[stuck.kind_of(brackets[-1])] != stuck.closer():
        return None
    if owner.type in KEEPING:
        what = f"The first value of a {code(owner)} is one expression."
        return advice(here, what, REP + " To keep two values, keep a pair: `rep((0, 0)){(p) => ..}`.")
    if owner.type == "IF":
        return advice(here, "The condition of an `if` is one expression.", "Join two with `and` or `or`.")
    if owner.type == "NBR":
        return advice(here, "What `nbr` shares is one expression.", "Share a pair: `nbr{(a, b)}`.")
    if stuck.kind_of(brackets[-1]) == "BEGIN":
        return advice(here, "These curly brackets hold one expression.", "A pair is written `(a, b)`.")
    if "CLOSE" in stuck.expected:
        return advice(here, "A pair has two parts; this is a third.", "Nest pairs: `((a, b), c)`.")
    return None


def in_brackets(stuck: Stuck) -> Advice | None:
    """Brackets that don't fit each other."""
    brackets = stuck.open_brackets()
    if stuck.kind in CLOSERS.values():
        if not brackets:
            return advice(stuck.here, f"This {code(stuck.here)} closes no bracket.", "Remove it.")
        first = stuck.tokens[brackets[-1]]
        if CLOSERS[first.type] != stuck.kind:
            what = f"The {code(first)} on line {first.line}, column {first.column}, is closed by {code(stuck.here)}."
            return advice(stuck.here, what, f"Close it by `{MARKS[CLOSERS[first.type]]}`.")
    if not brackets or not stuck.expected & {CLOSERS[stuck.kind_of(brackets[-1])], "COMMA"}:
        return None
    first = stuck.tokens[brackets[-1]]
    hint = f"Write `{MARKS[CLOSERS[first.type]]}` where it ends"
    if stuck.here is None or stuck.kind == "SEMI" or stuck.kind in DECLARING:
        commas = "; `,` separates parts, and `;` ends the declaration" if "COMMA" in stuck.expected else ""
        return advice(first, f"This {code(first)} is never closed.", f"{hint}{commas}.")
    if stuck.kind == "COMMA" and first.type == "BEGIN":
        what = f"The {code(first)} on line {first.line}, column {first.column}, isn't closed before this `,`."
        return advice(stuck.here, what, f"{hint}.")
    return None


def in_operators(stuck: Stuck) -> Advice | None:
    """Operands and operators that are missing or one too many."""
    here, before = stuck.here, stuck.before
    if stuck.operand:
        if stuck.kind == "MINUS":
            what = "There are no negative numbers: `-` needs an operand on both sides."
            return advice(here, what, "Numbers go from 0 to the ceiling, and a difference is never below 0.", TYPES)
        if stuck.kind == "BEGIN":
            return advice(here, "Curly brackets can't group an expression.", "Use round ones.")
        if stuck.kind in DECLARING:
            return advice(before, f"An expression is missing after {code(before)}.", end=True)
        return advice(here or before, f"An expression is missing between {code(before)} and {code(here)}.")
    if "STAR" not in stuck.expected:
        return None
    if stuck.kind in ("LESS", "IS"):
        what = "Comparisons can't be chained."
        return advice(here, what, "Join two with `and`, as in `a < b and b < c`, or put one in brackets.")
    if "SEMI" in stuck.expected and (here is None or stuck.kind in DECLARING):
        return None
    if before is None or here is None:
        return None
    if (before.type, here.type) == ("NUMBER", "NAME") and before.end_pos == here.start_pos:
        whole = before.value + here.value
        hint = "A number has decimal digits only."
        return (place_of(before), f"`{whole}` isn't a number of the language.", whole, hint, GRAMMAR)
    if stuck.kind not in ("SEMI", "COMMA", "COLON", "ARROW", "IN", "DOTS"):
        return advice(here, f"An operator is missing between {code(before)} and {code(here)}.")
    return None
