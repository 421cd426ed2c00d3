"""What is asked of `fc`, what it refuses, and how a refusal is explained to a person."""

from __future__ import annotations

from dataclasses import dataclass, replace
from importlib.util import find_spec

from .errors import Error


class Fault(Error):
    """What `fieldc` itself refuses, in one line.

    Its status is one of `fc`: 2 for options, 3 for what a file or graph says, 5 and 6 for files that can't be read and
    written.
    """

    def __init__(self, message: str, status: int = 2) -> None:
        super().__init__(message, status)
        self.message = message
        self.status = status

    def __str__(self) -> str:
        return self.message


@dataclass(frozen=True)
class Section:
    """One section of an input.

    `kind` is "program", "network", "script", "log" or "changes"; `name` is the file as the user typed it, "-" for
    standard input, or "" for a text that came from no file; `first_line` is the line of that file on which the section
    begins, from 1. `typed` is the text as it stands in the file where others stand in place of its words: of names of
    devices, or of patterns. Where a line of it was written out as several, `rows` has for each line of `text` that of
    `typed`, from 0.
    """

    kind: str
    name: str
    first_line: int
    text: str
    typed: str = ""
    rows: tuple[int, ...] = ()


@dataclass(frozen=True)
class Call:
    """What `fc` is asked: the words of its command line after `fc`, and the sections of its input."""

    words: tuple[str, ...]
    sections: tuple[Section, ...]


@dataclass(frozen=True)
class Explanation:
    """A refusal, or the reason of a no, in plain words.

    `what` is one plain sentence. `section`, `line` and `column` are the place, `line` in the user's file and both from
    1; `name` is the name that is meant, `hint` what to try, and `page` where to read on. Each but `what` may be
    missing.
    """

    what: str
    section: Section | None = None
    line: int | None = None
    column: int | None = None
    name: str | None = None
    hint: str | None = None
    page: str | None = None


@dataclass(eq=False)
class Refusal(Error):
    """An answer of `fc` with a status above 1.

    `status` is that of `fc` (2 to 7), `line` the whole line that it wrote ("" where it wrote none), `word` the first
    word of that line, and `call` what was asked. It isn't frozen, as Python itself sets an exception's traceback;
    nobody else changes it.
    """

    status: int
    word: str
    line: str
    call: Call

    def __post_init__(self) -> None:
        super().__init__(self.status, self.word, self.line, self.call)

    def __str__(self) -> str:
        """The line of `fc`, and the explanation where more is known."""
        line, explanation = self.line or f"status {self.status}", self.explanation
        if explanation.what == line:
            return line
        place = "" if explanation.line is None else f"line {explanation.line}, column {explanation.column}: "
        hint = f" {explanation.hint}" if explanation.hint else ""
        return f"{line}: {place}{explanation.what}{hint}"

    @property
    def place(self) -> str:
        """What `fc` said after the word: the place, and the reason."""
        return self.line.removeprefix(self.word).lstrip(": ")

    @property
    def explanation(self) -> Explanation:
        """The explanation of this refusal; only what `fc` said where nothing more is known."""
        return explained(self.call, self)


UNSAID = {
    5: "Reading the input failed.",
    6: "Writing the output failed.",
    7: "Memory ran out.",
}


def plain_explanation(refusal: Refusal) -> Explanation:
    """What `fc` said, with nothing added."""
    page = "docs/commands.md#refusals"
    if refusal.line:
        return Explanation(what=refusal.line, page=page)
    return Explanation(what=UNSAID.get(refusal.status, f"fc ended with status {refusal.status}."), page=page)


def has_lark() -> bool:
    """Whether the library is there with which programs are read to be explained."""
    return find_spec("lark") is not None


def explained(call: Call, refusal: Refusal) -> Explanation:
    """The explanation of a refusal or of a no; only what `fc` said if Lark isn't there."""
    if not has_lark():
        return replace(plain_explanation(refusal), hint="with Debian's python3-lark fieldc says where and why")
    from .explain import explain

    return as_typed(explain(call, refusal))


def as_typed(found: Explanation) -> Explanation:
    """An explanation whose place is that in the text as the user typed it.

    A line has as many words there, or a pattern stands for both of its devices: then they have the pattern's place.
    """
    section = found.section
    if section is None or not section.typed or found.line is None or found.column is None:
        return found
    place = found.line - section.first_line
    row = section.rows[place] if section.rows else place
    given, typed = section.text.split("\n")[place].split(" "), section.typed.split("\n")[row].split(" ")
    at = " ".join(given)[: found.column - 1].count(" ")
    before = at if len(given) == len(typed) else min(at, 1) if at + 1 < len(given) else len(typed) - 1
    column = found.column - sum(len(word) + 1 for word in given[:at]) + sum(len(word) + 1 for word in typed[:before])
    whole = replace(section, text=section.typed, typed="", rows=())
    return replace(found, section=whole, line=section.first_line + row, column=column)


def warned(call: Call) -> tuple[Explanation, ...]:
    """What `fc` takes and a user may not have meant; None without Lark."""
    if not has_lark():
        return ()
    from .explain import warnings

    return warnings(call)
