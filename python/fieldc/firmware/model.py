"""A program that is to become C: its reading, its layout, and its names."""

from __future__ import annotations

import binascii
import re
from dataclasses import dataclass
from functools import cached_property

from ..blocks import tokens
from ..language import Known, Unfolded, reading
from ..language.tree import Declaration, Local, Pair, within
from ..refusals import Fault
from .kinds import number_type, pairs_in
from .layout import Layout
from .names import members

FORM = "fieldc firmware 1"
"""What the messages of this generator are like; it counts in the checksum of a program."""
MOST_NEIGHBOURS = 32
LATEST = 32
"""So many sendings late, a message is known to be old; the counter goes to 255."""


@dataclass(frozen=True, eq=False)
class Firmware:
    """A program as C: its name there, its text, what the reader found, and for how many neighbours there is room."""

    name: str
    text: str
    known: Known
    unfolded: Unfolded
    main: Declaration
    neighbours: int = MOST_NEIGHBOURS

    @cached_property
    def layout(self) -> Layout:
        """Where everything is sent or kept."""
        return Layout(self.known, self.unfolded, self.main)

    @cached_property
    def functions(self) -> list[Declaration]:
        """The functions that `main` calls, itself or by way of others, each after what it calls; and `main`."""
        wanted, left = set[str](), [self.main]
        while left:
            body = left.pop().body
            assert body is not None
            for part in within(body):
                if part.form == "call" and part.name not in wanted:
                    wanted.add(part.name)
                    left.append(self.known.functions[part.name])
        return [*(function for name, function in self.known.functions.items() if name in wanted), self.main]

    @cached_property
    def members(self) -> dict[str, str]:
        """By input, its name as a member of the struct."""
        return members(self.known.inputs)

    @cached_property
    def forms(self) -> frozenset[str]:
        """The forms that the functions have."""
        return frozenset(part.form for one in self.functions if one.body is not None for part in within(one.body))

    @property
    def result(self) -> Local:
        """The type of `main`."""
        assert self.main.body is not None
        return self.known.types[self.main.body].local

    @property
    def public_pairs(self) -> list[Pair]:
        """The pairs that the header has, since `main` has a value of them."""
        return list(dict.fromkeys(pairs_in(self.result)))

    @cached_property
    def checksum(self) -> int:
        """Two bytes that tell programs apart, mostly: of the tokens, so that spaces and comments don't count."""
        words = " ".join([FORM, *(token.text for token in tokens(self.text))])
        return binascii.crc_hqx(words.encode("utf-8", "surrogateescape"), 0xFFFF)

    @property
    def bit(self) -> str:
        """The type that counts bits."""
        most = max(self.layout.frame.sent, self.layout.frame.kept)
        return "unsigned" if most < 65_000 else "uint32_t"

    @property
    def set(self) -> str:
        """The type that has a bit for each neighbour."""
        return "uint8_t" if self.neighbours <= 8 else "uint16_t" if self.neighbours <= 16 else "uint32_t"

    @property
    def number(self) -> str:
        """The type of numbers."""
        return number_type(self.known.ceiling)

    def spelled(self, text: str) -> str:
        """A text in which `@name` and `@@NAME` stand for names of this firmware."""
        return re.sub(r"@(\w)", rf"{self.name}_\1", re.sub(r"@@(\w)", rf"{self.name.upper()}_\1", text))


def firmware_of(text: str, name: str, neighbours: int = MOST_NEIGHBOURS) -> Firmware:
    """The firmware of a program. Raises Fault if it is none."""
    found = reading(text)
    if found.fault is not None:
        place = f"line {found.fault.at.line}: " if found.fault.at is not None else ""
        raise Fault(place + found.fault.what, 4 if found.fault.line.startswith("limit") else 3)
    assert found.program is not None and found.known is not None and found.unfolded is not None
    return Firmware(name, text, found.known, found.unfolded, found.program.main, neighbours)
