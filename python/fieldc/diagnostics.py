"""Refusals and nos as compilers write what they find, for editors: `FILE:LINE:COLUMN: error: ..`."""

from __future__ import annotations

from collections.abc import Sequence
from dataclasses import replace

from . import program as fc
from .asking import why_no
from .composing import least_network
from .refusals import Call, Explanation, Refusal, Section, warned
from .sections import sections, write

KINDS = ("program", "network")


def diagnosed(files: Sequence[str], words: Sequence[str]) -> int:
    """Asks `fc check`, writes the verdict and what is found on standard output, and returns the status.

    A program alone is judged on a network of one device. Raises Fault.
    """
    call = with_network(Call(tuple(words), sections(files, KINDS)))
    try:
        reply = fc.answered(call)
    except Refusal as refusal:
        write("-", lines(refusal.explanation, "error", call, refusal.line))
        return refusal.status
    why, found = why_no(call, reply.text) if reply.status == 1 else None, reply.text
    found += lines(why, "error", call, reply.text.split("\n")[0]) if why is not None else ""
    write("-", found + "".join(lines(one, "warning", call) for one in warned(call)))
    return reply.status


def with_network(call: Call) -> Call:
    """The call with a network of one device, where it has a program alone."""
    if len(call.sections) != 1:
        return call
    network = Section("network", "", 1, least_network(call.sections[0].text))
    return replace(call, sections=(*call.sections, network))


def lines(one: Explanation, kind: str, call: Call, said: str = "") -> str:
    """The lines of a finding: what is wrong and what `fc` said, and what to try."""
    section = one.section if one.section is not None and one.section.name else call.sections[0]
    name = "<stdin>" if section.name == "-" else section.name
    at = f"{name}:{one.line or section.first_line}:{one.column or 1}"
    more = f" [{said}]" if said and said != one.what else ""
    hint = f"{at}: note: {one.hint}\n" if one.hint else ""
    return f"{at}: {kind}: {one.what}{more}\n{hint}"
