#!/usr/bin/env python3
"""Writes docs/firmware_costs.csv: what each call of docs/blocks.md costs as firmware with eight neighbours.

The columns of the two machines need their compilers.
"""

from __future__ import annotations

import csv
import re
import shutil
import sys

import helping

from fieldc.blocks import Library, own_library, read_library
from fieldc.composing import compose
from fieldc.firmware import firmware_of
from fieldc.firmware.cost import MACHINES, device_bytes, machine_cost, work

PAGE = helping.TOP / "docs/blocks.md"
HEAD = (helping.TOP / "examples/blocks_head.fc").read_text()
CALL = re.compile(r"^\| [^|`]+ \| `(\w+\([^|`]*\))` \|", re.MULTILINE)
TITLE = (
    "call", "message", "device", "expressions", "for each neighbour", "Cortex-M0 code", "Cortex-M0 stack", "AVR code",
    "AVR stack",
)  # fmt: skip
ROOM = 8


def calls() -> list[str]:
    """The calls of the tables of the page of blocks, each once."""
    return list(dict.fromkeys(CALL.findall(PAGE.read_text())))


def row(call: str, library: Library, machines: bool) -> list[str]:
    """The cells of a call; without machines up to their columns."""
    firmware = firmware_of(compose(f"{HEAD}main = {call};\n", library), "block", ROOM)
    spent = work(firmware)
    cells = [call, firmware.layout.message_bytes, device_bytes(firmware, ROOM), spent.once, spent.each]
    if machines:
        for machine in MACHINES:
            found = machine_cost(firmware, machine)
            cells += [found.text, found.stack]
    return list(map(str, cells))


def main() -> None:
    library = read_library([own_library()])
    there = all(shutil.which(machine.front + "gcc") for machine in MACHINES)
    table = csv.writer(sys.stdout, lineterminator="\n")
    table.writerow(TITLE)
    table.writerows(row(call, library, there) for call in calls())


if __name__ == "__main__":
    main()
