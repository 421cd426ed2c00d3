"""Random runs of devices that hear each other: as a log of `fc`, and as what a driver of firmware has to do.

A run is cut behind each firing, and each cut is done on a copy of the network of its own, all in one log: so `fc`,
which writes what devices hold at the end, tells what they hold behind every firing. Copies have other device numbers.
"""

from __future__ import annotations

import json
import random
from dataclasses import dataclass, field

from firmware_exports import Export, rubbish
from firmware_programs import Made

from fieldc.firmware import Firmware

IN_TRANSIT = 4


@dataclass(frozen=True)
class Run:
    """A run: how `fc` is asked (the command, the network, the log), and what the driver does."""

    command: str
    network: str
    log: str
    actions: str
    devices: int


@dataclass
class Link:
    """What is between one device and another: messages in transit, and those that were heard, the oldest first."""

    transit: list[int] = field(default_factory=list)
    heard: list[int] = field(default_factory=list)


@dataclass
class World:
    """The devices of one copy, by place; messages have numbers in the order in which all copies' are sent."""

    numbers: list[int]
    inputs: dict[int, list[int]]
    weights: dict[tuple[int, int], int]
    links: dict[tuple[int, int], Link] = field(default_factory=dict)
    sent: dict[int, int] = field(default_factory=dict)


class Writer:
    """Writes the log and the actions of all copies."""

    def __init__(self) -> None:
        self.log: list[str] = []
        self.actions: list[str] = []
        self.messages = 0
        self.devices = 0
        self.slots: dict[int, int] = {}

    def device(self, number: int) -> None:
        """A new device."""
        self.slots[number] = self.devices
        self.actions.append(f"i {self.devices} {number}")
        self.devices += 1

    def hold(self, number: int, one: Export, firmware: Firmware) -> None:
        """A device begins with an export."""
        message = one.message(firmware, number % 256).hex()
        self.actions.append(f"r {self.slots[number]} {message} {one.held.hex() or '00'} {told(one.value)}")

    def fire(self, world: World, device: int) -> int:
        """A begin and an end; answers the number of the message."""
        number = world.numbers[device]
        self.log += [f"B{number}", f"E{number}"]
        self.actions.append(" ".join(map(str, ["f", self.slots[number], *world.inputs[device]])))
        world.sent[device] = self.messages
        self.messages += 1
        return self.messages - 1

    def hear(self, world: World, to: int, sender: int, message: int, status: str, cut: int = 0, turn: int = -1) -> None:
        """A message is heard; `cut` bytes are missing, and the byte `turn` is another one."""
        weight = world.weights[min(to, sender), max(to, sender)]
        slot = self.slots[world.numbers[to]]
        self.actions.append(f"h {slot} {world.numbers[sender]} {weight} {message} {status} {cut} {turn}")


def values_of(made: Made, dice: random.Random) -> list[int]:
    """A value for each input."""
    return [dice.randint(0, 1) if ends is None else dice.randint(*ends) for ends in made.inputs.values()]


def world_of(made: Made, dice: random.Random, count: int) -> World:
    """Devices with inputs and links, still without numbers."""
    inputs = {device: values_of(made, dice) for device in range(count)}
    pairs = [(a, b) for a in range(count) for b in range(a + 1, count)]
    linked = [pair for pair in pairs if pair[1] == pair[0] + 1 or dice.random() < 0.5]
    return World([], inputs, {pair: dice.randint(*made.metric) for pair in linked})


def numbered(worlds: list[World], count: int, dice: random.Random) -> None:
    """Gives numbers to the devices of all copies: small ones, or any."""
    wanted = count * len(worlds)
    numbers = list(range(wanted)) if dice.random() < 0.5 else dice.sample(range(65_536), wanted)
    dice.shuffle(numbers)
    for place, world in enumerate(worlds):
        world.numbers = numbers[place * count : (place + 1) * count]


def scene(made: Made, worlds: list[World], held: dict[int, Export] | None = None) -> str:
    """The network of all copies, in which some devices hold an export."""
    devices, links = [], []
    for world in worlds:
        for device, values in world.inputs.items():
            given = {
                name: bool(value) if ends is None else value for (name, ends), value in zip(made.inputs.items(), values)
            }
            devices.append({"id": world.numbers[device], "inputs": given})
        links += [[world.numbers[a], world.numbers[b], weight] for (a, b), weight in world.weights.items()]
    rows = [one.row(number) for number, one in (held or {}).items()]
    return json.dumps({"devices": devices, "links": links, "table": {"format": 2, "rows": rows}}) + "\n"


def copied(world: World) -> World:
    """A copy of a network before its run."""
    return World([], {device: list(values) for device, values in world.inputs.items()}, dict(world.weights))


def mailed(made: Made, firmware: Firmware, seed: int | str, firings: int = 10, most: int = 4) -> Run:
    """A run over messages that are lost, repeated and late; the driver also gets old, cut and foreign ones.

    Half of the devices begin with any export.
    """
    dice = random.Random(f"mail {seed}")
    count = dice.randint(1, most)
    first = world_of(made, dice, count)
    steps = plan(dice, count, sorted(first.weights), firings)
    ends = [place + 1 for place, step in enumerate(steps) if step[0] == "fire"]
    worlds = [copied(first) for _ in ends]
    numbered(worlds, count, dice)
    writer = Writer()
    first_held = {device: rubbish(firmware, dice) for device in range(count) if dice.random() < 0.5}
    held: dict[int, Export] = {}
    for world, end in zip(worlds, ends):
        for device, number in enumerate(world.numbers):
            writer.device(number)
            if device in first_held:
                held[number] = first_held[device]
                writer.hold(number, held[number], firmware)
        for step in steps[:end]:
            mail_step(step, world, writer, dice)
    network, log = scene(made, worlds, held), "\n".join(writer.log) + "\n"
    return Run("mail", network, log, "\n".join(writer.actions) + "\n", writer.devices)


Step = tuple[str, int, int]


def plan(dice: random.Random, count: int, pairs: list[tuple[int, int]], firings: int) -> list[Step]:
    """What happens, in order."""
    steps: list[Step] = []
    both = [*pairs, *((b, a) for a, b in pairs)]
    while firings:
        if not both or dice.random() < 0.35:
            steps.append(("fire", dice.randrange(count), 0))
            firings -= 1
        else:
            word = dice.choices(("deliver", "again", "lose", "old", "cut", "foreign"), (8, 2, 1, 2, 1, 1))[0]
            steps.append((word, *dice.choice(both)))
    return steps


def mail_step(step: Step, world: World, writer: Writer, dice: random.Random) -> None:
    """One step of a run over messages; one that can't be taken is left out."""
    word, a, b = step
    if word == "fire":
        message = writer.fire(world, a)
        for sender, to in [pair for low, high in world.weights for pair in ((low, high), (high, low))]:
            if sender == a:
                link = world.links.setdefault((sender, to), Link())
                link.transit = [*link.transit, message][-IN_TRANSIT:]
        return
    link = world.links.setdefault((a, b), Link())
    if word in ("deliver", "again") and link.transit:
        message = link.transit[0] if word == "again" else link.transit.pop(0)
        writer.log.append(f"{word} {world.numbers[a]} {world.numbers[b]}")
        old = bool(link.heard) and message <= link.heard[-1]
        writer.hear(world, b, a, message, "OLD" if old else "HEARD")
        if not old:
            link.heard.append(message)
    elif word == "lose" and link.transit:
        place = dice.randrange(len(link.transit))
        writer.log.append(f"lose {world.numbers[a]} {world.numbers[b]} {place}")
        link.transit.pop(place)
    elif word == "old" and link.heard:
        writer.hear(world, b, a, dice.choice(link.heard[:-1] or link.heard), "OLD")
    elif word == "cut" and link.transit:
        writer.hear(world, b, a, link.transit[-1], "LENGTH", dice.randint(1, 3))
    elif word == "foreign" and link.transit:
        writer.hear(world, b, a, link.transit[-1], "PROGRAM", 0, dice.randint(0, 1))


def replayed(made: Made, seed: int | str, firings: int = 10, most: int = 4) -> Run:
    """A run in which each message comes at once, with links, inputs and devices that come and go."""
    dice = random.Random(f"replay {seed}")
    count = dice.randint(2, most)
    first = world_of(made, dice, count)
    worlds, orders = [], []
    state = dice.randint(0, 1 << 30)
    for place in range(firings):
        worlds.append(copied(first))
        orders.append(random.Random(state))
    numbered(worlds, count, dice)
    network = scene(made, worlds)
    writer = Writer()
    for place, (world, order) in enumerate(zip(worlds, orders)):
        for number in world.numbers:
            writer.device(number)
        left = place + 1
        while left:
            left -= edited_step(made, world, writer, order, count)
    return Run("replay", network, "\n".join(writer.log) + "\n", "\n".join(writer.actions) + "\n", writer.devices)


def edited_step(made: Made, world: World, writer: Writer, dice: random.Random, count: int) -> int:
    """A firing, which counts 1, or an edit."""
    word = dice.choices(("fire", "link", "unlink", "set", "leave"), (12, 2, 2, 4, 1))[0]
    a, b = dice.sample(range(count), 2)
    low, high = min(a, b), max(a, b)
    if word == "fire":
        message = writer.fire(world, a)
        for other in near(world, a):
            writer.hear(world, other, a, message, "HEARD")
        return 1
    if word == "link":
        unlink(world, writer, low, high)
        world.weights[low, high] = dice.randint(*made.metric)
        writer.log.append(f"link {world.numbers[low]} {world.numbers[high]} {world.weights[low, high]}")
        for to, sender in ((low, high), (high, low)):
            if sender in world.sent:
                writer.hear(world, to, sender, world.sent[sender], "HEARD")
    elif word == "unlink" and (low, high) in world.weights:
        writer.log.append(f"unlink {world.numbers[low]} {world.numbers[high]}")
        unlink(world, writer, low, high)
    elif word == "set" and made.inputs:
        place = dice.randrange(len(made.inputs))
        world.inputs[a][place] = values_of(made, dice)[place]
        name, ends = list(made.inputs.items())[place]
        writer.log.append(f"set {world.numbers[a]} {name} {value_text(world.inputs[a][place], ends)}")
    elif word == "leave":
        restart(made, world, writer, a)
    return 0


def near(world: World, device: int) -> list[int]:
    """The devices that are linked to one."""
    return [a + b - device for a, b in world.weights if device in (a, b)]


def unlink(world: World, writer: Writer, low: int, high: int) -> None:
    """Takes a link away: each of the two forgets the other, if it has heard of it."""
    if world.weights.pop((low, high), None) is None:
        return
    for device, other in ((low, high), (high, low)):
        known = int(other in world.sent)
        writer.actions.append(f"g {writer.slots[world.numbers[device]]} {world.numbers[other]} {known}")


def restart(made: Made, world: World, writer: Writer, device: int) -> None:
    """A device leaves and joins again, without links and without an export."""
    for other in near(world, device):
        unlink(world, writer, min(device, other), max(device, other))
    number = world.numbers[device]
    words = [value_text(value, ends) for value, ends in zip(world.inputs[device], made.inputs.values())]
    writer.log += [f"leave {number}", " ".join(["join", str(number), *words])]
    writer.actions.append(f"i {writer.slots[number]} {number}")
    world.sent.pop(device, None)


def told(value: object) -> str:
    """A value as `fc` writes it."""
    if isinstance(value, list):
        return f"({','.join(map(told, value))})"
    return str(value).lower()


def value_text(value: int, ends: tuple[int, int] | None) -> str:
    """A value as a log has it."""
    return ("true" if value else "false") if ends is None else str(value)
