"""What a firmware costs: bytes of a message and a device, work of a firing, bytes of code and stack on two machines."""

from __future__ import annotations

import re
import shutil
import subprocess
import tempfile
from collections.abc import Iterator, Mapping
from dataclasses import dataclass, replace
from pathlib import Path

from ..language import Node
from ..language.types import deep
from ..refusals import Fault
from .header import header_text
from .kinds import number_bytes
from .model import Firmware
from .source import source_text

ROOMS = (8, 16, 32)
CALLED = re.compile(r"^(?:static )?[\w ]+?[ *](\w+)\([^;{]*\)\n\{\n(.*?)^\}", re.MULTILINE | re.DOTALL)


@dataclass(frozen=True)
class Machine:
    """A machine without an operating system, its compiler, and the bytes of the stack that a call takes by itself."""

    name: str
    front: str
    options: tuple[str, ...]
    call: int = 0


MACHINES = (
    Machine("Cortex-M0", "arm-none-eabi-", ("-mcpu=cortex-m0", "-mthumb")),
    Machine("AVR", "avr-", ("-mmcu=atmega328p",), 2),
)


@dataclass(frozen=True)
class Work:
    """Expressions that are evaluated: so many, and so many for each neighbour."""

    once: int
    each: int

    def __add__(self, other: Work) -> Work:
        return Work(self.once + other.once, self.each + other.each)


def work(firmware: Firmware) -> Work:
    """The most that a firing evaluates; of an `if` the greater branch."""
    nodes = firmware.unfolded.nodes

    def of(node: Node) -> Work:
        found = Work(0, 1) if node.type.field else Work(1, 0)
        kids = [of(nodes[kid]) for kid in node.kids]
        if node.form == "if":
            kids[1:] = [Work(max(kids[1].once, kids[2].once), max(kids[1].each, kids[2].each))]
        return sum(kids, found)

    with deep():
        return of(nodes[0])


def device_bytes(firmware: Firmware, neighbours: int) -> int:
    """Bytes of a device on a machine where a number stands at a multiple of its size."""
    layout = firmware.layout
    number = number_bytes(firmware.known.ceiling)
    members = [(2, 1), *([(number, 1)] if "nbrLink" in firmware.forms else []), (1, 1), (1, layout.said_bytes)]
    each, most = _struct(members)
    head, _ = _struct([(2, 1), (1, 1), (1, 1), (1, layout.message_bytes), (1, layout.kept_bytes)], False)
    return _round(_round(head, most) + each * neighbours, most)


def _struct(members: list[tuple[int, int]], whole: bool = True) -> tuple[int, int]:
    """The size and the alignment of a struct with members of so many bytes, so many of each."""
    at, most = 0, 1
    for size, count in members:
        if count:
            at, most = _round(at, size) + size * count, max(most, size)
    return (_round(at, most) if whole else at), most


def _round(at: int, to: int) -> int:
    return -(-at // to) * to


def cost_text(firmware: Firmware) -> str:
    """All costs, as lines."""
    spent = work(firmware)
    rooms = ", ".join(f"{device_bytes(firmware, room)} with {room}" for room in ROOMS)
    lines = [
        f"message: {firmware.layout.message_bytes} bytes",
        f"device: {rooms} neighbours",
        f"firing: at most {spent.once} expressions, and {spent.each} for each neighbour",
    ]
    for machine in MACHINES:
        if shutil.which(machine.front + "gcc") is None:
            lines.append(f"{machine.name}: {machine.front}gcc is missing (Debian: gcc-{machine.front.strip('-')})")
        else:
            found = machine_cost(replace(firmware, neighbours=8), machine)
            bytes_ = f"{found.text} bytes of code, {found.stack} of stack, {found.device} of a device"
            lines.append(f"{machine.name}, 8 neighbours: {bytes_}")
    return "\n".join(lines) + "\n"


@dataclass(frozen=True)
class MachineCost:
    """Bytes of code with its tables, of the deepest stack, and of a device."""

    text: int
    stack: int
    device: int


def machine_cost(firmware: Firmware, machine: Machine) -> MachineCost:
    """What a firmware costs on a machine. Raises Fault if the compiler fails."""
    source = source_text(firmware)
    with tempfile.TemporaryDirectory() as folder:
        path = Path(folder) / f"{firmware.name}.c"
        path.write_text(source)
        path.with_suffix(".h").write_text(header_text(firmware))
        probe = Path(folder) / "probe.c"
        probe.write_text(
            f'#include "{firmware.name}.h"\nconst char probe[{firmware.name.upper()}_DEVICE_BYTES] = {{1}};\n'
        )
        options = (
            machine.front + "gcc",
            *machine.options,
            "-Os",
            "-std=c99",
            "-ffreestanding",
            "-fstack-usage",
            "-c",
        )
        for name in (path.name, probe.name):
            _done((*options, name), folder)
        text, device = (_sections(machine, name, folder) for name in (f"{firmware.name}.o", "probe.o"))
        return MachineCost(text, deepest(source, dict(_frames(path.with_suffix(".su"))), machine.call), device)


def _done(words: tuple[str, ...], folder: str) -> str:
    done = subprocess.run(words, cwd=folder, capture_output=True, text=True, check=False)
    if done.returncode != 0:
        raise Fault(f"{words[0]} fails: {done.stderr.strip()[:200]}", 6)
    return done.stdout


def _sections(machine: Machine, name: str, folder: str) -> int:
    """The bytes of code and constants of an object file."""
    rows = _done((machine.front + "size", "-A", name), folder).splitlines()
    found = (row.split() for row in rows if row.startswith((".text", ".rodata", ".data", ".progmem")))
    return sum(int(words[1]) for words in found)


def _frames(path: Path) -> Iterator[tuple[str, int]]:
    """By function, the bytes of its frame."""
    for row in path.read_text().splitlines():
        place, count, _ = row.split("\t")
        yield place.rpartition(":")[2].partition(".")[0], int(count)


def deepest(source: str, frames: Mapping[str, int], call: int) -> int:
    """The most stack that a call of a firmware takes, by which function calls which; none calls itself."""
    bodies = dict(CALLED.findall(source))
    known: dict[str, int] = {}
    for name, body in bodies.items():
        inner = [known[word] for word in set(re.findall(r"(\w+)\(", body)) if word in known]
        own = frames[name] + call if name in frames else 0
        known[name] = own + max(inner, default=0)
    return max(known.values(), default=0)
