"""Explains what `fc` says of a line of a script or log."""

from __future__ import annotations

import re
from dataclasses import replace

from .edits import MOST_LINES
from .jsonplaces import Json, read
from .kept_lists import fits, misfit, missing, too_many, walk
from .language import Unfolded
from .language.tree import Declaration
from .places import Said
from .refusals import Section
from .scripts import PAGES, Line, Net, Word, after, form_fault, lines_of, start_of
from .telling import counted

MOST_SCRAMBLES = 4
MOST_FIRINGS = 1_000_000
MOST_LINKS = 32
MOST_DEVICES = 1024
PAIRED = ("link", "unlink", "deliver", "again", "lose")


def line_fault(section: Section, kind: str, number: int, word: str, scene: Json, program: Unfolded) -> Said | None:
    """What is wrong with a line; None if it isn't seen. `number` is the line's in the section, from 1."""
    lines = lines_of(section)
    if not 0 < number <= len(lines) or not lines[number - 1].words:
        return None
    line = lines[number - 1]
    fault = form_fault(line, kind)
    if word == "form" or fault is not None:
        return fault if word == "form" else None
    net = after(start_of(scene, kind == "mail"), (part for part in lines[: number - 1] if part.words))
    rule = RULES.get(word)
    return rule(edit_of(line), kind, net, program) if rule is not None else None


def with_words(section: Section) -> list[Line]:
    """The lines of a section that aren't empty."""
    return [line for line in lines_of(section) if line.words]


def edit_of(line: Line) -> Line:
    """The edit of a `mix`, which follows its rounds; any other line itself."""
    return replace(line, words=line.words[2:]) if line.verb == "mix" else line


def devices_of(line: Line) -> list[tuple[int, Word]]:
    """The devices that a line names, each with its word."""
    if line.verb in ("B", "E"):
        return [(int(line.words[0].text[1:]), line.words[0])]
    return [(int(word.text), word) for word in line.words[1 : 3 if line.verb in PAIRED else 2]]


def value_of(word: Word) -> Json:
    """The value of a word, at the word's place."""
    text = re.sub(r"(?<![0-9])0+(?=[0-9])", "", word.text.replace("(", "[").replace(")", "]"))
    return replace(read(text), at=word.at)


def _no_device(line: Line, kind: str, net: Net, _program: Unfolded) -> Said | None:
    for device, word in devices_of(line):
        if device not in net.devices:
            what = f"There is no device {device} in the network at this line."
            hint = f"It left on line {net.left[device]}." if device in net.left else None
            return Said(what, word.at, str(device), hint, PAGES[kind])
    return None


def _self_link(line: Line, kind: str, _net: Net, _program: Unfolded) -> Said:
    _, (device, word) = devices_of(line)
    return Said(f"Device {device} can't be linked to itself.", word.at, str(device), None, PAGES[kind])


def _weight(line: Line, kind: str, _net: Net, program: Unfolded) -> Said:
    word = line.words[3]
    low, high = program.metric
    if (low, high) == (1, 1):
        hint = "Write 1, or declare a metric in the program, as `metric 1..9;`."
        what = f"In this program each link weighs 1, but this one weighs {word.text}."
        return Said(what, word.at, word.text, hint, PAGES[kind])
    what = f"The metric of the program goes from {low} to {high}; {word.text} is outside."
    return Said(what, word.at, word.text, "Change the weight, or the metric in the program.", PAGES[kind])


def _no_link(line: Line, kind: str, _net: Net, _program: Unfolded) -> Said:
    (a, word), (b, _) = devices_of(line)
    return Said(f"The devices {a} and {b} aren't linked at this line.", word.at, f"{a} {b}", None, PAGES[kind])


def _no_input(line: Line, kind: str, _net: Net, program: Unfolded) -> Said:
    names = ", ".join(f"`{part.name}`" for part in program.inputs) or "none"
    if line.verb == "join":
        device = line.words[1].text
        given, wanted = counted(len(line.words) - 2, "value"), counted(len(program.inputs), "input")
        what = f"Device {device} joins with {given}, but the program declares {wanted}."
        return Said(what, line.words[1].at, device, f"Write a value for each, in declared order: {names}.", PAGES[kind])
    name = line.words[2]
    what = f"The program declares no input named `{name.text}`."
    return Said(what, name.at, name.text, f"It declares {names}.", PAGES[kind])


def _inputs(line: Line, program: Unfolded) -> list[tuple[Declaration, Word]]:
    """The inputs that a line sets, each with its word."""
    if line.verb == "join":
        return list(zip(program.inputs, line.words[2:]))
    return [(part, line.words[3]) for part in program.inputs if part.name == line.words[2].text]


def _input_type(line: Line, kind: str, _net: Net, program: Unfolded) -> Said | None:
    for declared, word in _inputs(line, program):
        if value_of(word).kind != ("number" if declared.bounds else "truth"):
            wanted = "an `int`" if declared.bounds else "a `bool`"
            what = f"The input `{declared.name}` is {wanted}; `{word.text}` isn't one."
            return Said(what, word.at, declared.name, None, PAGES[kind])
    return None


def _input_range(line: Line, kind: str, _net: Net, program: Unfolded) -> Said | None:
    for declared, word in _inputs(line, program):
        if declared.bounds:
            low, high = declared.bounds[0][0], declared.bounds[1][0]
            number = value_of(word).whole
            if number is not None and not low <= number <= high:
                what = f"The input `{declared.name}` goes from {low} to {high}; {number} is outside."
                return Said(what, word.at, declared.name, "Change the value, or the range in the program.", PAGES[kind])
    return None


def _twice(line: Line, kind: str, _net: Net, _program: Unfolded) -> Said:
    device, word = devices_of(line)[0]
    return Said(
        f"Device {device} is in the network already.", word.at, str(device), "Choose another number.", PAGES[kind]
    )


def _last(line: Line, kind: str, _net: Net, _program: Unfolded) -> Said:
    device, word = devices_of(line)[0]
    what = f"Device {device} is the last one; a network needs at least one."
    return Said(what, word.at, str(device), None, PAGES[kind])


def _kept(line: Line, kind: str, _net: Net, program: Unfolded) -> Said | None:
    value = line.words[2]
    main = program.nodes[0].type
    hint = "A `poke` has the value of `main` first, then the kept values in the order of their places."
    if not fits(value_of(value), main.local, program.ceiling):
        upto = f" with numbers up to {program.ceiling}" if "int" in str(main) else ""
        what = f"The value of `main` is of type `{main}`{upto}, and `{value.text}` isn't."
        return Said(what, value.at, value.text, hint, PAGES[kind])
    words = line.words[3:]
    steps = list(walk(tuple(value_of(word) for word in words), False, program))
    node, item = steps[-1] if steps else (None, None)
    if node is None and item is None:
        return None
    if node is None:
        return Said(too_many(len(steps) - 1), words[len(steps) - 1].at, None, hint, PAGES[kind])
    if item is None:
        return Said(missing(node, program), line.words[0].at, str(node.place), hint, PAGES[kind])
    word = words[len(steps) - 1]
    return Said(misfit(node, word.text, program), word.at, word.text, hint, PAGES[kind])


def _flying(line: Line, kind: str, net: Net, _program: Unfolded) -> Said | None:
    device, word = devices_of(line)[0]
    if device not in net.flying:
        return None
    begun = f"on line {net.flying[device]}" if net.flying[device] else "before the log, as the network says"
    what = f"Device {device} has begun a firing {begun}, and hasn't ended it."
    return Said(what, word.at, str(device), f"End it first, with `E{device}`.", PAGES[kind])


def _not_flying(line: Line, kind: str, net: Net, _program: Unfolded) -> Said | None:
    device, word = devices_of(line)[0]
    if device in net.flying:
        return None
    what = f"Device {device} ends a firing that it hasn't begun."
    return Said(what, word.at, str(device), f"Begin it first, with `B{device}`.", PAGES[kind])


def _in_flight(line: Line, kind: str, net: Net, _program: Unfolded) -> Said | None:
    device, word = devices_of(line)[0]
    if device not in net.flying:
        return None
    begun = f"on line {net.flying[device]}" if net.flying[device] else "before, as the network says"
    what = f"Device {device} leaves during a firing: it was begun {begun}, and isn't ended."
    hint = f"End it first, with `E{device}`." if kind == "log" else "Put a `run` line before it."
    return Said(what, word.at, str(device), hint, PAGES[kind])


def _empty(line: Line, kind: str, net: Net, _program: Unfolded) -> Said:
    (a, word), (b, _) = devices_of(line)
    count = net.transit.get((a, b), 0)
    if line.verb == "lose" and count:
        place = line.words[3]
        numeral = f"One message from {a} to {b} is" if count == 1 else f"{count} messages from {a} to {b} are"
        what = f"{numeral} in transit at this line, counted from 0, and none is number {place.text}."
        return Said(what, place.at, place.text, None, PAGES[kind])
    what = f"No message from {a} to {b} is in transit at this line."
    return Said(what, word.at, f"{a} {b}", f"Device {a} sends one whenever it ends a firing.", PAGES[kind])


RULES = {
    "no-device": _no_device,
    "self-link": _self_link,
    "weight": _weight,
    "no-link": _no_link,
    "no-input": _no_input,
    "input-type": _input_type,
    "input-range": _input_range,
    "twice": _twice,
    "last": _last,
    "kept": _kept,
    "flying": _flying,
    "not-flying": _not_flying,
    "in-flight": _in_flight,
    "empty": _empty,
}


def limit_lines(section: Section, count: int) -> Said | None:
    """The first line of a script past the limit."""
    lines = lines_of(section)
    if len(lines) != count:
        return None
    what = f"The script has {count:,} lines, and at most {MOST_LINES:,} are read."
    return Said(what, lines[MOST_LINES].at, None, "One `run 100` does the same as a hundred `run 1`.", PAGES["script"])


def limit_scrambles(section: Section) -> Said | None:
    """The fifth `scramble` of a script."""
    found = [line for line in with_words(section) if line.verb == "scramble"]
    if len(found) <= MOST_SCRAMBLES:
        return None
    what = "This is the fifth `scramble`, and a script has at most four."
    return Said(what, found[MOST_SCRAMBLES].at, "scramble", None, PAGES["script"])


def limit_firings(section: Section, count: int, scene: Json) -> Said | None:
    """The line up to which a script asks for too many firings."""
    net, total = start_of(scene), 0
    for line in with_words(section):
        if line.verb in ("run", "mix"):
            total += (int(line.words[1].text) + (line.verb == "mix")) * len(net.devices)
        if total > MOST_FIRINGS:
            if total != count:
                return None
            what = f"Up to this line the script asks for {count:,} firings, rounds times devices"
            what += f", and at most {MOST_FIRINGS:,} are run."
            hint = "Run fewer rounds; `check --settle` says how many are enough."
            return Said(what, line.words[1].at, None, hint, PAGES["script"])
        net.step(line)
    return None


def limit_degree(section: Section, kind: str, scene: Json) -> Said | None:
    """The line that would give a device a 33rd link."""
    net = start_of(scene)
    for line in with_words(section):
        edit = edit_of(line)
        if edit.verb == "link" and edit.words:
            ends = devices_of(edit)
            if not net.linked(ends[0][0], ends[1][0]):
                for device, word in ends:
                    if len(net.near.get(device, ())) >= MOST_LINKS:
                        most = f"and a device has at most {MOST_LINKS}"
                        what = f"Device {device} has {MOST_LINKS} links at this line, {most}."
                        return Said(what, word.at, str(device), "Remove another one of its links first.", PAGES[kind])
        net.step(line)
    return None


def limit_devices(section: Section, kind: str, scene: Json) -> Said | None:
    """The line on which a device joins that is one too many."""
    net = start_of(scene)
    for line in with_words(section):
        if line.verb == "join" and len(net.devices) >= MOST_DEVICES:
            device = line.words[1]
            what = f"The network has {MOST_DEVICES:,} devices at this line, and may have no more."
            return Said(what, device.at, device.text, "Let another device leave first.", PAGES[kind])
        net.step(line)
    return None
