"""Explains what `fc` says of a line of changes."""

from __future__ import annotations

from collections.abc import Iterator

from .explain_script import devices_of, value_of, with_words
from .jsonplaces import Json
from .language import Unfolded
from .language.tree import Declaration
from .places import Said
from .refusals import Section
from .scripts import PAGES, SPAN, Line, Net, Word, form_fault, lines_of, start_of
from .telling import counted

PAGE = PAGES["changes"]
MOST_PAIRS = 128
MOST_DEVICES = 1024


def line_fault(section: Section, number: int, word: str, scene: Json, program: Unfolded) -> Said | None:
    """What is wrong with a line; None if it isn't seen. `number` is the line's in the section, from 1."""
    lines = lines_of(section)
    if not 0 < number <= len(lines) or not lines[number - 1].words:
        return None
    line = lines[number - 1]
    fault = form_fault(line, "changes")
    if word == "form" or fault is not None:
        return fault if word == "form" else None
    rule = RULES.get(word)
    return rule(line, at_hand(section, scene), program) if rule is not None else None


def of_form(section: Section, verb: str) -> list[Line]:
    """The lines of a form, whatever else is wrong with them."""
    return [line for line in with_words(section) if line.verb == verb and form_fault(line, "changes") is None]


def at_hand(section: Section, scene: Json) -> Net:
    """The devices of the scene and of all lines of the form of `join`."""
    net = start_of(scene)
    for device in joining(section):
        net.near.setdefault(device, set())
    return net


def joining(section: Section) -> Iterator[int]:
    """The numbers of the devices that may come."""
    return (int(line.words[1].text) for line in of_form(section, "join"))


def ends_of(word: Word) -> list[Word]:
    """The ends of a span, or one value; none of `any`."""
    ends = SPAN.fullmatch(word.text)
    if word.text == "any":
        return []
    return [word] if ends is None else [Word(end, word.at) for end in ends.groups()]


def _no_device(line: Line, net: Net, _program: Unfolded) -> Said | None:
    for device, word in devices_of(line):
        if device not in net.devices:
            what = f"There is no device {device}, neither in the network nor on a `join` line."
            return Said(what, word.at, str(device), "A line `join` would say that it may come.", PAGE)
    return None


def _self_link(line: Line, _net: Net, _program: Unfolded) -> Said:
    _, (device, word) = devices_of(line)
    return Said(f"Device {device} can't be linked to itself.", word.at, str(device), None, PAGE)


def _weight(line: Line, _net: Net, program: Unfolded) -> Said | None:
    word, (low, high) = line.words[3], program.metric
    wrong = next((end.text for end in ends_of(word) if not low <= int(end.text) <= high), None)
    if wrong is None:
        return None
    if (low, high) == (1, 1):
        hint = "Write 1, or declare a metric in the program, as `metric 1..9;`."
        return Said(f"In this program each link weighs 1, but this one may weigh {wrong}.", word.at, wrong, hint, PAGE)
    what = f"The metric of the program goes from {low} to {high}; {wrong} is outside."
    return Said(what, word.at, wrong, "Change the weight, or the metric in the program.", PAGE)


def _no_link(line: Line, _net: Net, _program: Unfolded) -> Said:
    (a, word), (b, _) = devices_of(line)
    what = f"{a} and {b} aren't linked, neither in the network nor by a `link` line, so their link can't go."
    return Said(what, word.at, f"{a} {b}", None, PAGE)


def _no_input(line: Line, _net: Net, program: Unfolded) -> Said:
    names = ", ".join(f"`{part.name}`" for part in program.inputs) or "none"
    if line.verb == "join":
        device = line.words[1].text
        given, wanted = counted(len(line.words) - 2, "value"), counted(len(program.inputs), "input")
        what = f"Device {device} may come with {given}, but the program declares {wanted}."
        return Said(what, line.words[1].at, device, f"Write a value for each, in declared order: {names}.", PAGE)
    name = line.words[2]
    what = f"The program declares no input named `{name.text}`."
    return Said(what, name.at, name.text, f"It declares {names}.", PAGE)


def _inputs(line: Line, program: Unfolded) -> list[tuple[Declaration, Word]]:
    """The inputs of which a line says something, each with its word."""
    if line.verb == "join":
        return list(zip(program.inputs, line.words[2:]))
    return [(part, line.words[3]) for part in program.inputs if part.name == line.words[2].text]


def _input_type(line: Line, _net: Net, program: Unfolded) -> Said | None:
    for declared, word in _inputs(line, program):
        kinds = {value_of(end).kind for end in ends_of(word)}
        if kinds - {"number" if declared.bounds else "truth"}:
            wanted, remedy = ("an `int`", "2..7") if declared.bounds else ("a `bool`", "any")
            what = f"The input `{declared.name}` is {wanted}; `{word.text}` isn't one."
            return Said(what, word.at, declared.name, f"Write a value of it, or `{remedy}`.", PAGE)
    return None


def _input_range(line: Line, _net: Net, program: Unfolded) -> Said | None:
    for declared, word in _inputs(line, program):
        if declared.bounds:
            low, high = declared.bounds[0][0], declared.bounds[1][0]
            for end in ends_of(word):
                number = value_of(end).whole
                if number is not None and not low <= number <= high:
                    what = f"The input `{declared.name}` goes from {low} to {high}; {number} is outside."
                    return Said(what, word.at, declared.name, "Change the value, or the range in the program.", PAGE)
    return None


def _twice(line: Line, _net: Net, _program: Unfolded) -> Said:
    device, word = devices_of(line)[0]
    hint = f"Write `leave {device}` if it may leave and come back; else choose another number."
    return Said(f"Device {device} is in the network already.", word.at, str(device), hint, PAGE)


def _last(line: Line, _net: Net, _program: Unfolded) -> Said:
    device, word = devices_of(line)[0]
    what = f"Device {device} is the only one; a network needs at least one."
    return Said(what, word.at, str(device), None, PAGE)


RULES = {
    "no-device": _no_device,
    "self-link": _self_link,
    "weight": _weight,
    "no-link": _no_link,
    "no-input": _no_input,
    "input-type": _input_type,
    "input-range": _input_range,
    "twice": _twice,
    "last": _last,
}


def limit(section: Section, name: str, scene: Json) -> Said | None:
    """The line on which a device has a 129th possible neighbour, or one device too many may come."""
    return _limit_degree(section, scene) if name == "degree" else _limit_devices(section, scene)


def _limit_degree(section: Section, scene: Json) -> Said | None:
    net = start_of(scene)
    for line in of_form(section, "link"):
        ends = devices_of(line)
        (a, _), (b, _) = ends
        for device, word in ends if b not in net.near.get(a, ()) else ():
            if len(net.near.get(device, ())) >= MOST_PAIRS:
                what = f"By this line device {device} may have {MOST_PAIRS} other neighbours already, the limit."
                hint = "Choose a smaller range or a smaller move, or leave out long links."
                return Said(what, word.at, str(device), hint, PAGE)
        net.near.setdefault(a, set()).add(b)
        net.near.setdefault(b, set()).add(a)
    return None


def _limit_devices(section: Section, scene: Json) -> Said | None:
    there = set(start_of(scene).devices)
    for line in of_form(section, "join"):
        device = line.words[1]
        if int(device.text) not in there and len(there) >= MOST_DEVICES:
            what = f"There may be {MOST_DEVICES:,} other devices by this line, and there may be no more."
            return Said(what, device.at, device.text, "Let fewer devices come.", PAGE)
        there.add(int(device.text))
    return None
