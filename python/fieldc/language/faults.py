"""What the reader of the language says of a text that isn't a program."""

from __future__ import annotations

from dataclasses import dataclass

from ..errors import Error
from .tree import At

LANGUAGE = "docs/language.md"
GRAMMAR = LANGUAGE + "#grammar"
TOKENS = LANGUAGE + "#tokens"
TYPES = LANGUAGE + "#types"
LIMITS = "docs/formats.md#limits"
TWO = LANGUAGE + "#two-languages-in-one"


@dataclass(eq=False)
class Fault(Error):
    """The first fault of a program.

    `line` is what `fc` has to have written for this fault, `what` says it in one sentence, and `at` is its place in the
    section; `name` is the name that is meant, `hint` what to try, `page` where to read on.
    """

    line: str
    what: str
    at: At | None = None
    name: str | None = None
    hint: str | None = None
    page: str = GRAMMAR

    def __post_init__(self) -> None:
        super().__init__(self.line)
