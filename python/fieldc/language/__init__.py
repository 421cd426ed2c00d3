"""A reader of the language with places, used to explain what `fc` says and to write firmware, and for nothing else.

Where it and `fc` don't agree, what it explains isn't used.
"""

from __future__ import annotations

from dataclasses import dataclass

from .faults import Fault
from .reader import Program, read
from .tree import At
from .types import Known, typed
from .unfold import Node, Unfolded, unfolded

__all__ = ["At", "Fault", "Known", "Node", "Program", "Reading", "Unfolded", "read", "reading", "typed", "unfolded"]


@dataclass(frozen=True, eq=False)
class Reading:
    """How far a text can be read: the program, what it declares, its nodes, and the first fault where there is one."""

    program: Program | None = None
    known: Known | None = None
    unfolded: Unfolded | None = None
    fault: Fault | None = None


def reading(text: str) -> Reading:
    """Reads a text as far as it goes: tokens, grammar, types, and the unfolded `main`."""
    program = known = None
    try:
        program = read(text)
        known = typed(program)
        assert program.main.body is not None
        return Reading(program, known, unfolded(known, program.main.body))
    except Fault as fault:
        return Reading(program, known, None, fault)
