"""Reads JSON with the place of each value, and finds the place of a path such as `/devices/3/inputs/src`."""

from __future__ import annotations

import bisect
import re
from dataclasses import dataclass, field
from typing import Any

from .errors import Error
from .language.tree import At

SPACES = " \t\r\n"
NUMBER = re.compile(r"-?(0|[1-9][0-9]*)(\.[0-9]+)?([eE][+-]?[0-9]+)?")
WORD = re.compile(r"[A-Za-z_][A-Za-z0-9_]*|[^\s,\[\]{}:\"]+|.", re.DOTALL)
LETTERS = re.compile(r"[-+.0-9A-Za-z_]*")
NAME = re.compile(r"[^\s:,{}]*")
LITERALS = {"true": True, "false": False, "null": None}
STRANGE = {
    "True": "true",
    "False": "false",
    "None": "null",
    "NaN": "a number",
    "Infinity": "a number",
    "nan": "a number",
}
ESCAPES = {'"': '"', "\\": "\\", "/": "/", "b": "\b", "f": "\f", "n": "\n", "r": "\r", "t": "\t"}
DEEPEST = 127


@dataclass(frozen=True, eq=False)
class Json:
    """A value with its place.

    `kind` is object, array, number, string, truth or null. `value` is that of a number (whole or not), string or truth
    value. `members` are those of an object by name, `items` those of an array, `keys` the places of the names. `start`
    and `end` are offsets in the text.
    """

    kind: str
    at: At
    start: int
    end: int
    value: Any = None
    members: dict[str, Json] = field(default_factory=dict)
    items: tuple[Json, ...] = ()
    keys: dict[str, At] = field(default_factory=dict)

    @property
    def whole(self) -> int | None:
        """The whole number that it is, no less than 0; None if it is none."""
        is_number = self.kind == "number" and isinstance(self.value, int) and self.value >= 0
        return self.value if is_number else None


class JsonFault(Error):
    """A text that isn't JSON: what is wrong, where, the name that is meant, and what to try."""

    def __init__(self, what: str, at: At, name: str | None = None, hint: str | None = None) -> None:
        super().__init__(what)
        self.what, self.at, self.name, self.hint = what, at, name, hint


class _Reader:
    """Reads a text from the front."""

    def __init__(self, text: str, first_line: int) -> None:
        self.text = text
        self.place = 0
        self.first_line = first_line
        self.starts = [0, *(found.end() for found in re.finditer("\n", text))]

    def at(self, offset: int) -> At:
        line = bisect.bisect_right(self.starts, offset)
        return At(line - 1 + self.first_line, offset - self.starts[line - 1] + 1)

    def spaces(self) -> str:
        """Skips spaces; returns the sign after them, "" at the end."""
        while self.place < len(self.text) and self.text[self.place] in SPACES:
            self.place += 1
        return self.text[self.place : self.place + 1]

    def fault(
        self, what: str, name: str | None = None, hint: str | None = None, offset: int | None = None
    ) -> JsonFault:
        return JsonFault(what, self.at(self.place if offset is None else offset), name, hint)

    def ended(self, kind: str, start: int) -> JsonFault:
        place = self.at(start)
        what = f"The text ends within the {kind} that begins on line {place.line}, column {place.column}."
        closer = {"object": "}", "array": "]", "text": '"'}[kind]
        return self.fault(what, None, f"Write `{closer}` where it ends.", len(self.text.rstrip(SPACES)))

    def value(self, depth: int) -> Json:
        sign = self.spaces()
        start = self.place
        if sign == "":
            raise self.fault("The text ends where a value is expected.", None, None, len(self.text.rstrip(SPACES)))
        if sign in "{[":
            if depth >= DEEPEST:
                raise self.fault("Objects and arrays are nested too deeply here.")
            return self.object(depth + 1) if sign == "{" else self.array(depth + 1)
        if sign == '"':
            found = self.string()
            return Json("string", self.at(start), start, self.place, found)
        if sign in "-0123456789":
            return self.number()
        return self.literal()

    def literal(self) -> Json:
        start = self.place
        found = WORD.match(self.text, start)
        assert found is not None
        word = found.group()
        if word in LITERALS:
            self.place = found.end()
            kind = "null" if word == "null" else "truth"
            return Json(kind, self.at(start), start, self.place, LITERALS[word])
        if word in STRANGE:
            raise self.fault(f"`{word}` isn't a word of JSON.", word, f"Write {_code(STRANGE[word])}.")
        if word[0] == "'":
            raise self.fault(
                "A string in JSON needs double quotes, not single ones.", None, 'Write `"src"`.'
            )
        if word.startswith(("//", "/*", "#")):
            raise self.fault("JSON has no comments.", None, "Remove it.")
        if word[0] in "+." or word[0].isdigit():
            raise self.fault(f"`{word}` isn't a number of JSON.", word, "Write numbers like `12`.")
        if word[0] in "]},:":
            raise self.fault(
                f"Expected a value here, but found `{word[0]}`.", None, _comma_hint(self.text, start)
            )
        if word[0] == "\ufeff":
            raise self.fault("The text begins with a byte order mark.", None, "Save it as UTF-8 without one.")
        raise self.fault(f"`{_shown(word)}` isn't a value of JSON.", word, "Put names and strings in double quotes.")

    def number(self) -> Json:
        start = self.place
        found = NUMBER.match(self.text, start)
        word = _whole(LETTERS, self.text, start)
        if found is None or found.group() != word:
            hint = "A number can't begin with a zero." if re.match(r"-?0[0-9]", word) else "Write numbers like `12`."
            raise self.fault(f"`{word}` isn't a number of JSON.", word, hint)
        self.place = found.end()
        whole = found.group(2) is None and found.group(3) is None and not word.startswith("-") and len(word) <= 19
        value = int(word) if whole else float(word)
        if value in (float("inf"), float("-inf")):
            raise self.fault(f"The number `{word}` is too large.", word, None, start)
        return Json("number", self.at(start), start, self.place, value)

    def string(self) -> str:
        start = self.place
        self.place += 1
        found: list[str] = []
        while True:
            sign = self.text[self.place : self.place + 1]
            if sign == "":
                raise self.ended("text", start)
            if sign == '"':
                self.place += 1
                return "".join(found)
            if sign < " ":
                place = self.at(start)
                what = (
                    f"The string that begins on line {place.line}, column {place.column}, isn't closed on its line."
                )
                raise self.fault(what, None, 'Close it with `"`.') if sign in "\r\n" else self.fault(
                    "A string in JSON can't have such a character."
                )
            if "\udc80" <= sign <= "\udcff":
                raise self.fault("This isn't UTF-8.", None, "Save the file as UTF-8.")
            found.append(self.escape() if sign == "\\" else sign)
            self.place += 1

    def escape(self) -> str:
        self.place += 1
        sign = self.text[self.place : self.place + 1]
        if sign in ESCAPES and sign:
            return ESCAPES[sign]
        digits = self.text[self.place + 1 : self.place + 5]
        if sign == "u" and re.fullmatch("[0-9A-Fa-f]{4}", digits):
            self.place += 4
            return chr(int(digits, 16))
        raise self.fault(f"`\\{sign}` isn't an escape of JSON.", None, "Write a backslash as `\\\\`.", self.place - 1)

    def array(self, depth: int) -> Json:
        start = self.place
        self.place += 1
        items: list[Json] = []
        if self.spaces() == "]":
            self.place += 1
            return Json("array", self.at(start), start, self.place)
        while True:
            if self.spaces() == "":
                raise self.ended("array", start)
            items.append(self.value(depth))
            if self.between("array", start, "]"):
                return Json("array", self.at(start), start, self.place, items=tuple(items))

    def between(self, kind: str, start: int, closer: str) -> bool:
        """Goes over a comma, or over the end of an object or array; returns whether it was the end."""
        sign = self.spaces()
        if sign == "":
            raise self.ended(kind, start)
        if sign not in (",", closer):
            place = self.at(start)
            where = f"the {kind} that begins on line {place.line}, column {place.column}"
            raise self.fault(f"A `,` or `{closer}` is missing here, in {where}.")
        self.place += 1
        if sign == "," and self.spaces() == closer:
            comma = self.text.rindex(",", 0, self.place)
            raise self.fault(f"There is a comma before `{closer}`.", None, "Remove the comma.", comma)
        return sign == closer

    def object(self, depth: int) -> Json:
        start = self.place
        self.place += 1
        members: dict[str, Json] = {}
        keys: dict[str, At] = {}
        if self.spaces() == "}":
            self.place += 1
            return Json("object", self.at(start), start, self.place)
        while True:
            sign = self.spaces()
            if sign == "":
                raise self.ended("object", start)
            if sign != '"':
                word = _whole(NAME, self.text, self.place) or sign
                what = f"Expected the name of a member in double quotes, but found `{_shown(word)}`."
                raise self.fault(what, word, 'Write `"id"`.')
            key_at = self.at(self.place)
            name = self.string()
            if self.spaces() != ":":
                shown = name if len(name) <= 30 else name[:30] + ".."
                raise self.fault(f'A `:` is missing after `"{shown}"`.', name, None)
            self.place += 1
            members[name] = self.value(depth)
            keys[name] = key_at
            if self.between("object", start, "}"):
                return Json("object", self.at(start), start, self.place, members=members, keys=keys)


def _whole(pattern: re.Pattern[str], text: str, offset: int) -> str:
    """What a pattern that may be empty finds at an offset."""
    found = pattern.match(text, offset)
    return found.group() if found is not None else ""


def _code(word: str) -> str:
    return word if " " in word else f"`{word}`"


def _shown(word: str) -> str:
    return word if word.isprintable() and len(word) <= 20 else f"U+{ord(word[0]):04X}"


def _comma_hint(text: str, offset: int) -> str | None:
    return (
        "Remove one of the commas." if text[:offset].rstrip(SPACES).endswith(",") and text[offset] == "," else None
    )


def read(text: str, first_line: int = 1) -> Json:
    """The value of a text that begins on a line. Raises JsonFault if it is no JSON."""
    reader = _Reader(text, first_line)
    if reader.spaces() == "":
        raise JsonFault("The text is empty.", At(first_line, 1), None, 'A network begins with `{"devices": [`.')
    found = reader.value(0)
    sign = reader.spaces()
    if sign in ("}", "]"):
        raise reader.fault(
            f"This `{sign}` closes nothing.", sign, "Remove it, or look for one that comes too early."
        )
    if sign != "":
        hint = "A line `%%` separates two sections."
        raise reader.fault("There is more text after the end of the value.", None, hint)
    return found


def find(found: Json, path: str) -> Json | None:
    """The value at a path of `fc`, as `/devices/3/id`; None if there is none."""
    for step in path.strip("/").split("/") if path != "/" else ():
        if found.kind == "array" and step.isdigit() and int(step) < len(found.items):
            found = found.items[int(step)]
        elif found.kind == "object" and step in found.members:
            found = found.members[step]
        else:
            return None
    return found


def parent(found: Json, path: str) -> tuple[Json | None, str]:
    """The value that a path's last step goes from, and that step."""
    before, _, step = path.rstrip("/").rpartition("/")
    return find(found, before or "/"), step
