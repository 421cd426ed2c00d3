"""What is wrong with a text that no grammar takes, in one sentence, and what to try."""

from __future__ import annotations

from collections.abc import Callable

from lark import Token

from ..elsewhere import CHARACTERS, KEPT, KINDS, PARTS, hint_for
from .faults import GRAMMAR, TOKENS, TWO, TYPES, Fault
from .forms import in_brackets, in_choice, in_commas, in_keeping, in_let, in_operators, in_words
from .grammar import MARKS, WORDS
from .stuck import DECLARING, Advice, Stuck, advice, behind, code
from .tree import At

NAMED = "Write `let x = a in b` in the body of a function or of `main`."
SIGNS = "It has letters, digits, spaces, comments after `//`, and `( ) { } , ; : .. = => + - * <`."


def lexical(text: str, offset: int, place: At) -> Fault:
    """The fault where no token begins at a character."""
    sign = text[offset]
    around = text[max(0, offset - 1) : offset + 2]
    shown = sign if sign.isprintable() and not sign.isspace() else f"U+{ord(sign):04X}"
    what = f"`{shown}` isn't a character of the language."
    hint = CHARACTERS.get(sign, SIGNS)
    if text.lstrip().startswith("{"):
        hint = "This looks like a network. The program comes first."
    elif around.startswith("->"):
        place, what = At(place.line, place.column - 1), "`->` isn't a mark of the language."
        hint = (
            "`=>` follows the variable of a `rep`, and `:` precedes the type of a result: `def f(x: int): int`."
        )
        shown = "->"
    elif sign == "." and text[:offset].endswith(")"):
        hint = PARTS
    elif sign == "." and offset and text[offset - 1].isalpha():
        hint = "Nothing has members: call a function by its name alone, as in `f(x)`."
    elif sign.isalpha():
        hint = "Names have the letters a to z and A to Z, digits and `_`; use other letters in comments only."
    line = f"lexical {len(text[:offset].encode('utf-8', 'surrogateescape'))}"
    return Fault(line, what, place, shown, hint, TOKENS)


def missing_main(number: int, tokens: list[Token], forms: list[str]) -> Fault:
    """The fault of a program whose declarations are in order, but which no `main` ends."""
    line = tokens[-1].line if tokens else 1
    place = behind(tokens[-1]) if tokens else At(1, 1)
    what = "The program has no `main`." if tokens else "The program is empty."
    hint = "End it with `main = ..;`: each device publishes its value."
    if not tokens:
        hint = "It begins with `ceiling 10;` and ends with `main = ..;`."
    elif forms == ["language"]:
        what, hint = "The program has no ceiling.", "Write `ceiling 10;` after `language 2;`."
    return Fault(f"syntax {number} {line}", what, place, "main" if tokens else None, hint, GRAMMAR)


def first_of(stuck: Stuck) -> Advice | None:
    """Where a declaration begins with what can't begin one there."""
    if stuck.index:
        return None
    here = stuck.here
    if stuck.kind == "SEMI":
        return advice(here, "This `;` ends nothing.", "Remove it: each declaration has one `;`.")
    if stuck.start == "end":
        if stuck.kind == "MAIN":
            return advice(here, "`main` is declared a second time.", "A program has one `main`, at its end.")
        return advice(here, f"Nothing may follow `main`, but {code(here)} does.", "Move it above `main`.")
    if stuck.start == "first":
        what = f"A program begins with its ceiling, but this one begins with {code(here)}."
        return advice(here, what, "Write `ceiling 10;` first, with the greatest number that the program needs.")
    if stuck.start == "second":
        return advice(
            here, f"The ceiling has to follow `language 2;`, not {code(here)}.", "Write `ceiling 10;` there."
        )
    return _no_declaration(stuck)


def _no_declaration(stuck: Stuck) -> Advice:
    here = stuck.here
    if stuck.kind == "CEILING":
        return advice(here, "The ceiling is declared a second time.", "Declare it once, at the beginning.")
    if stuck.kind == "LANGUAGE":
        return advice(here, "`language 2;` comes before all other declarations.", "Move it to the front.", TWO)
    if stuck.kind == "LET" or stuck.kind_of(1) == "IS":
        return advice(here, f"A value can be named only inside an expression, and {code(here)} is outside.", NAMED)
    hint = (
        hint_for(here.value if here is not None else "")
        or "Declare inputs, a metric, functions and `main`, and end each with `;`."
    )
    return advice(
        here, f"A declaration begins with `input`, `metric`, `def` or `main`, not with {code(here)}.", hint
    )


def other_language(stuck: Stuck) -> Advice | None:
    """Where a number of a language other than 2 stands."""
    if stuck.kind_of(0) != "LANGUAGE" or stuck.index != 1 or stuck.kind != "NUMBER" or stuck.here is None:
        return None
    hint = "Write `language 2;`, or leave it out for language 1."
    return advice(stuck.here, f"There is no language {stuck.here.value}.", hint, TWO)


def second_language(stuck: Stuck) -> Advice | None:
    """Where a form of language 2 stands in a program of language 1."""
    if stuck.kind not in ("SHARE", "RISE") or stuck.second or not stuck.operand:
        return None
    what = f"{code(stuck.here)} belongs to language 2, but this program is in language 1."
    return advice(stuck.here, what, "Write `language 2;` before the ceiling.", TWO)


def great_number(stuck: Stuck) -> Advice | None:
    """Where a number is above 1,000,000."""
    if stuck.kind != "GREAT" or stuck.here is None:
        return None
    what = f"The number {stuck.here.value} is above 1,000,000, the greatest that a program may have."
    return advice(stuck.here, what, "Choose a greater unit, so that the numbers get smaller.")


def doubled_marks(stuck: Stuck) -> Advice | None:
    """Operators of other languages that are two marks here."""
    if stuck.here is None or stuck.before is None or stuck.before.end_pos != stuck.here.start_pos:
        return None
    both = stuck.before.value + stuck.here.value
    hints = {
        "==": "Compare two values with a single `=`.",
        "<=": "Write `not (b < a)` instead of `a <= b`.",
        "=<": "Write `not (b < a)` instead of `a <= b`.",
        "<-": "Write a `rep` as `rep(0){(x) => x + 1}`: the first value, then the variable and the body.",
        "**": "Write the product out: `x * x`.",
        "+=": KEPT,
        "-=": KEPT,
        "*=": KEPT,
        "++": KEPT,
        "--": KEPT,
    }
    if both not in hints:
        return None
    place, what, _, hint, page = advice(stuck.before, f"`{both}` isn't an operator of the language.", hints[both])
    return (place, what, both, hint, page)


def word_as_name(stuck: Stuck) -> Advice | None:
    """Where a word stands in place of a name."""
    if stuck.here is None or "NAME" not in stuck.expected or stuck.operand or stuck.here.value not in WORDS:
        return None
    if stuck.start == "item" and stuck.kind in ("INT", "BOOL") and stuck.kind_of(0) == "DEF" and stuck.index > 2:
        what = "The name of a parameter comes before its type."
        return advice(stuck.here, what, "Write `x: int`, with a `:` between them.")
    what = f"{code(stuck.here)} is a word of the language, so it can't be a name."
    return advice(stuck.here, what, "Choose another name.", TOKENS)


def strange_word(stuck: Stuck) -> Advice | None:
    """Where a word of another language stands between expressions."""
    for token in (stuck.here, stuck.before):
        if token is None or token.type != "NAME" or token.value in ("first", "second", "id", "sum"):
            continue
        if token is stuck.before and stuck.kind not in ("NAME", "NUMBER", "OPEN", "NOT", "LET", "BEGIN"):
            continue
        hint = hint_for(token.value)
        if hint is not None and hint != KINDS and stuck.kind_of(0) in ("DEF", "MAIN") and "BOOL" not in stuck.expected:
            return advice(token, f"`{token.value}` isn't a word of the language.", hint)
    return None


def in_head(stuck: Stuck) -> Advice | None:
    """Faults of declarations but for their bodies."""
    rules: dict[str, Callable[[Stuck], Advice | None]] = {
        "CEILING": _in_ceiling,
        "INPUT": _in_input,
        "METRIC": _in_input,
        "DEF": _in_define,
        "MAIN": _in_main,
    }
    return rules.get(stuck.kind_of(0), lambda _: None)(stuck)


def _in_ceiling(stuck: Stuck) -> Advice | None:
    if stuck.index == 1:
        return advice(stuck.here, "Only a number may follow `ceiling`.", "Write `ceiling 10;`.")
    return None


def _in_input(stuck: Stuck) -> Advice | None:
    here = stuck.here
    if stuck.index == 1 and stuck.expected == {"NAME"} and here is not None and here.value not in WORDS:
        return advice(here, f"An input needs a name here, not {code(here)}.", "Write `input src: bool;`.")
    if "COLON" in stuck.expected:
        return advice(here, "`:` is missing between the name of an input and its type.", "Write `input src: bool;`.")
    if "BOOL" in stuck.expected:
        hint = "The types of inputs are `bool` and `int` with a range, as in `int 0..10`."
        return advice(here, f"An input is a truth value or a whole number; {code(here)} is neither.", hint, TYPES)
    if "NUMBER" in stuck.expected and stuck.kind_of(stuck.index - 1) in ("INT", "METRIC"):
        what = "A range is missing here: a least number, `..` and a greatest number."
        return advice(here, what, "Write `int 0..10`." if stuck.kind_of(0) == "INPUT" else "Write `metric 1..9;`.")
    if "DOTS" in stuck.expected:
        return advice(here, "`..` is missing between the least and the greatest number of a range.", "Write `0..10`.")
    if stuck.kind == "COMMA" and stuck.expected == {"SEMI"}:
        return advice(here, "Each input needs its own declaration.", "Write `input a: bool; input b: bool;`.")
    if stuck.kind == "IS":
        return advice(here, "An input gets its value from the network, not from the program.", "End it with `;`.")
    return None


def _in_define(stuck: Stuck) -> Advice | None:
    here, expected = stuck.here, stuck.expected
    if stuck.index == 1 and here is not None and here.value not in WORDS:
        return advice(here, f"A function needs a name here, not {code(here)}.", "Write `def f(x: int): int = x;`.")
    if stuck.index == 2 and expected == {"OPEN"}:
        what = "Round brackets follow the name of a function, even if it has no parameters."
        return advice(here, what, "Write `def f(): int = 1;`.")
    if "BOOL" in expected:
        if stuck.kind == "FIELD":
            return advice(here, "A field can't be part of a pair or of a field.", KINDS, TYPES)
        return advice(here, f"A type is missing here; {code(here)} isn't one.", KINDS, TYPES)
    if expected == {"COMMA"} and stuck.kind == "CLOSE":
        what = "Brackets in a type are for a pair, which has two parts."
        return advice(here, what, "Write `(int, bool)`, or one type without brackets.", TYPES)
    if expected == {"COLON"}:
        if stuck.kind in ("COMMA", "CLOSE") and stuck.before is not None:
            what = f"The parameter {code(stuck.before)} has no type."
            return advice(stuck.before, what, f"Write `{stuck.before.value}: int`.", TYPES)
        return advice(here, "The type of the result is missing.", "Write `def f(x: int): int = x;`.", TYPES)
    if expected == {"IS"}:
        return advice(
            here, "`=` is missing between the type of the result and the body.", "Write `def f(x: int): int = x;`."
        )
    if "NAME" in expected and not stuck.operand and stuck.kind == "CLOSE":
        return advice(here, "A parameter is missing after the comma.", "Remove the comma.")
    return None


def _in_main(stuck: Stuck) -> Advice | None:
    if stuck.index == 1:
        return advice(stuck.here, "`=` and one expression follow `main`.", "Write `main = ..;`.")
    return None


def missing_end(stuck: Stuck) -> Advice | None:
    """Where a declaration isn't ended by `;`."""
    if "SEMI" not in stuck.expected:
        return None
    if stuck.here is None or stuck.kind in DECLARING:
        what = f"A `;` is missing after {code(stuck.before)}."
        return advice(stuck.before, what, "Each declaration ends with `;`.", end=True)
    return None


def anything_else(stuck: Stuck) -> Advice:
    """What could stand in place of the token at fault."""
    names = [f"`{MARKS[kind]}`" for kind in MARKS if kind in stuck.expected]
    names += ["a name"] * ("NAME" in stuck.expected) + ["a number"] * ("NUMBER" in stuck.expected)
    wanted = ", ".join(names[:-1]) + (" or " if len(names) > 1 else "") + names[-1] if names else "something else"
    found = code(stuck.here)
    if 0 < len(names) <= 4:
        return advice(
            stuck.here or stuck.before, f"Expected {wanted} here, but found {found}.", end=stuck.here is None
        )
    hint = NAMED if stuck.here is not None and stuck.here.value == ":" else None
    return advice(stuck.here or stuck.before, f"{found} isn't allowed here.".capitalize(), hint, end=stuck.here is None)


RULES = (
    first_of,
    other_language,
    great_number,
    second_language,
    doubled_marks,
    in_head,
    word_as_name,
    missing_end,
    strange_word,
    in_let,
    in_keeping,
    in_choice,
    in_commas,
    in_brackets,
    in_words,
    in_operators,
)


def syntax(stuck: Stuck) -> Fault:
    """The fault of a declaration that is outside the grammar."""
    line = stuck.tokens[0].line if stuck.tokens else 1
    found = next((given for rule in RULES if (given := rule(stuck)) is not None), None)
    place, what, name, hint, page = found or anything_else(stuck)
    return Fault(f"syntax {stuck.number} {line}", what, place, name, hint, page)
