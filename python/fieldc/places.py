"""What the explanations share: what is said, and places in the user's files."""

from __future__ import annotations

from dataclasses import dataclass

from .jsonplaces import Json, JsonFault, read
from .language import Reading, reading
from .language.tree import At
from .refusals import Call, Explanation, Section

FORMATS = "docs/formats.md"
COMMANDS = "docs/commands.md"
NETWORK = FORMATS + "#the-checks-of-a-scene"
LOG = FORMATS + "#the-log"
SCRIPT = FORMATS + "#the-script"
MAIL = FORMATS + "#the-mail-log"


@dataclass(frozen=True)
class Said:
    """What is said of one section: a sentence, its place in the user's file, the name that is meant, a hint and a
    page."""

    what: str
    at: At | None = None
    name: str | None = None
    hint: str | None = None
    page: str | None = None


def section_of(call: Call, *kinds: str) -> Section | None:
    """The first section of a kind."""
    return next((section for section in call.sections if section.kind in kinds), None)


def in_file(section: Section | None, said: Said) -> Explanation:
    """What is said of a section, as an explanation."""
    line = said.at.line if said.at is not None else None
    column = said.at.column if said.at is not None else None
    return Explanation(said.what, section, line, column, said.name, said.hint, said.page)


def moved(section: Section | None, at: At | None) -> At | None:
    """A place of a section as one of the user's file."""
    if at is None or section is None:
        return at
    return At(at.line + section.first_line - 1, at.column)


def program_of(call: Call) -> Reading:
    """The program of a call, as far as it can be read."""
    section = section_of(call, "program")
    return reading(section.text if section is not None else "")


def scene_of(call: Call) -> Json | JsonFault | None:
    """The network of a call as JSON, or why it is none; None if there is no network."""
    section = section_of(call, "network")
    if section is None:
        return None
    try:
        return read(section.text, section.first_line)
    except JsonFault as fault:
        return fault
