"""Exports as `fc` has them in a table, and as the bits of a firmware: what a device may hold without a firing."""

from __future__ import annotations

import random
from collections.abc import Callable, Iterator
from dataclasses import dataclass

import helping  # noqa: F401  (it knows where fieldc is)

from fieldc.firmware import Firmware
from fieldc.firmware.layout import HEAD, Leaf, Row, Slot
from fieldc.language import Node
from fieldc.language.tree import Local, Pair

Value = int | bool | list["Value"]
Choice = Callable[[Leaf, bool], int]
"""What a leaf of a slot holds, sent or kept."""


@dataclass(frozen=True)
class Export:
    """An export: its row in a table, and the bytes that are said and kept."""

    value: Value
    kept: list[list[Value]]
    said: bytes
    held: bytes

    def row(self, device: int) -> dict[str, object]:
        """The row of a device."""
        return {"id": device, "kept": self.kept, "value": self.value}

    def message(self, firmware: Firmware, count: int) -> bytes:
        """The message that says so."""
        return bytes([*divmod(firmware.checksum, 256), count]) + self.said


def slot_of(firmware: Firmware, node: Node) -> Slot | None:
    """The slot of a node of the unfolded program."""
    function = node.calls[-1].function if node.calls else ""
    return firmware.layout.frames[function].slots.get(node.expr) if node.keeps else None


def any_value(local: Local, ceiling: int, dice: random.Random) -> Value:
    """Any value of a type."""
    if isinstance(local, Pair):
        return [any_value(local.first, ceiling, dice), any_value(local.second, ceiling, dice)]
    return dice.random() < 0.5 if local == "bool" else dice.randint(0, ceiling)


def shaped(local: Local, leaves: Iterator[int]) -> Value:
    """A value of a type from its leaves."""
    if isinstance(local, Pair):
        return [shaped(local.first, leaves), shaped(local.second, leaves)]
    return next(leaves) != 0 if local == "bool" else next(leaves)


def write(bits: bytearray, leaf: Leaf, value: int) -> None:
    """Writes a leaf."""
    for place in range(leaf.width):
        if value >> (leaf.width - 1 - place) & 1:
            bits[(leaf.at + place) // 8] |= 0x80 >> (leaf.at + place) % 8


def read(bits: bytes, leaf: Leaf) -> int:
    """The number of a leaf."""
    whole = int.from_bytes(bits, "big")
    return whole >> (8 * len(bits) - leaf.at - leaf.width) & ((1 << leaf.width) - 1)


def export(firmware: Firmware, choose: Choice, dice: random.Random) -> Export:
    """An export whose slots hold what is chosen, and that keeps any values where there is no slot."""
    layout, ceiling = firmware.layout, firmware.known.ceiling
    rows: dict[bool, Iterator[Row]] = {True: iter(layout.rows), False: iter(layout.kept_rows)}
    bits = {True: bytearray(layout.said_bytes), False: bytearray(layout.kept_bytes)}
    kept: list[list[Value]] = []
    alive: dict[int, bool] = {}
    truths: dict[int, bool] = {}
    for node in firmware.unfolded.nodes:
        alive[node.place] = is_alive(firmware.unfolded.nodes, node, alive, truths)
        slot = slot_of(firmware, node)
        leaves = [next(rows[slot.sent]).leaf for _ in slot.leaves] if slot is not None else []
        if not alive[node.place] or not node.keeps:
            continue
        local: Local = "bool" if node.form == "if" else node.type.local
        if slot is None:
            value = any_value(local, ceiling, dice)
        else:
            chosen = [choose(leaf, slot.sent) for leaf in leaves]
            for leaf, number in zip(leaves, chosen):
                write(bits[slot.sent], leaf, number)
            value = shaped(local, iter(chosen))
        if node.form == "if":
            truths[node.place] = bool(value)
        kept.append([node.place, value])
    return Export(any_value(firmware.result, ceiling, dice), kept, bytes(bits[True]), bytes(bits[False]))


def is_alive(nodes: tuple[Node, ...], node: Node, alive: dict[int, bool], truths: dict[int, bool]) -> bool:
    """Whether an export has a node: it stands in no branch that wasn't taken."""
    if node.parent < 0:
        return True
    parent = nodes[node.parent]
    place = parent.kids.index(node.place)
    taken = parent.form != "if" or place == 0 or (place == 1) == truths.get(parent.place, False)
    return alive[parent.place] and taken


def rubbish(firmware: Firmware, dice: random.Random) -> Export:
    """Any export that the bits can hold."""
    return export(firmware, lambda leaf, _sent: dice.randint(0, leaf.most), dice)


def of_message(firmware: Firmware, message: bytes, dice: random.Random) -> Export:
    """An export that says what a message does."""
    said = message[HEAD:]
    return export(firmware, lambda leaf, sent: read(said, leaf) if sent else dice.randint(0, leaf.most), dice)
