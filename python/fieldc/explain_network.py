"""Explains what `fc` says of a network: JSON, forms, devices, links, tables and pending firings."""

from __future__ import annotations

import re

from .jsonplaces import Json, JsonFault, find, parent
from .kept_lists import kept_fault
from .language import At, Unfolded
from .places import NETWORK, Said
from .telling import counted, listed

SCENE = "docs/formats.md#the-network-a-scene-in-json"
MOST_DEVICES = 1024
MOST_LINKS = 32
MOST_ID = 65_535
MEMBERS = {
    "scene": (("devices", "links"), ("table", "pending")),
    "device": (("id", "inputs"), ()),
    "row": (("id", "value", "kept"), ()),
    "copy": (("id", "inputs", "own", "near"), ()),
    "own": (("value", "kept"), ()),
    "neighbour": (("id", "weight", "value", "kept"), ()),
    "table": (("format", "rows"), ()),
}
SHAPES = (
    (r"/", "scene"),
    (r"/table", "table"),
    (r"/devices/\d+", "device"),
    (r"/table(/rows)?/\d+", "row"),
    (r"/pending/\d+", "copy"),
    (r"/pending/\d+/own", "own"),
    (r"/pending/\d+/near/\d+", "neighbour"),
)
FORMS = {
    "scene": "a network",
    "device": "a device",
    "row": "a row of a table",
    "copy": "a pending firing",
    "own": "an export",
    "neighbour": "a neighbour",
    "table": "a table of format 2",
}
LISTS = ("devices", "links", "pending", "rows", "kept", "near")


def shown(found: Json, text: str) -> str:
    """A value of JSON in quotes of code, on one line and not too long."""
    words = " ".join(text[found.start : found.end].split())
    return f"`{words if len(words) <= 40 else words[:30] + ' ..'}`"


def not_json(fault: JsonFault) -> Said:
    """What is wrong with a text that is no JSON."""
    return Said(
        f"The network isn't JSON: {fault.what[0].lower() + fault.what[1:]}", fault.at, fault.name, fault.hint, SCENE
    )


def shape(text: str, scene: Json, path: str, program: Unfolded) -> Said | None:
    """What is wrong with the form of a part of a network; None if it isn't seen."""
    found = find(scene, path)
    if found is None:
        return None
    for pattern, form in SHAPES:
        if re.fullmatch(pattern, path):
            return _object(text, found, form) or _member(text, scene, path, found, program)
    return _member(text, scene, path, found, program)


def _object(text: str, found: Json, form: str) -> Said | None:
    needed, more = MEMBERS[form]
    names = listed([f"`{name}`" for name in needed])
    if found.kind != "object":
        if form == "table" and found.kind == "array":
            return None
        hint = {
            "table": "It is an array of rows, or what `--table` writes.",
            "own": f"It has the members {names}; where the device had none, write `null`.",
        }.get(form, f"It has the members {names}.")
        what = f"{FORMS[form].capitalize()} is an object; {shown(found, text)} isn't one."
        return Said(what, found.at, None, hint, SCENE)
    for name, place in found.keys.items():
        if name not in needed + more:
            what = f"{FORMS[form].capitalize()} has no member `{name}`."
            return Said(what, place, name, f"Its members are {listed([f'`{word}`' for word in needed + more])}.", SCENE)
    for name in needed:
        if name not in found.members:
            hint = f"{FORMS[form].capitalize()} has {names}."
            return Said(f"The member `{name}` is missing here.", found.at, name, hint, SCENE)
    return None


def _member(text: str, scene: Json, path: str, found: Json, program: Unfolded) -> Said | None:
    _, step = parent(scene, path)
    rules = ((r"/links/\d+", _link), (r".*/inputs", _inputs), (r".*/inputs/[^/]+", _value), (r".*/kept/\d+", _item))
    for pattern, rule in rules:
        if re.fullmatch(pattern, path):
            return rule(text, scene, path, found, program)
    if step in LISTS:
        return _list(text, step, found, path)
    if step == "id":
        return _id(text, scene, path, found)
    if step == "value":
        return _main_value(text, found, program)
    if step == "weight" and found.whole is None:
        return Said(f"A weight is a whole number; {shown(found, text)} isn't one.", found.at, step, None, SCENE)
    if step == "format":
        what = f"There is no format {shown(found, text)} of tables."
        return Said(what, found.at, step, "Write `2`, as `--table` does.", SCENE)
    return None


def _list(text: str, step: str, found: Json, path: str) -> Said | None:
    if found.kind != "array":
        return Said(f"`{step}` is an array; {shown(found, text)} isn't one.", found.at, step, None, SCENE)
    if path == "/devices" and not found.items:
        return Said("A network needs at least one device.", found.at, step, None, NETWORK)
    if step == "near" and len(found.items) > MOST_LINKS:
        what = f"This pending firing has {len(found.items)} neighbours, but a device has at most {MOST_LINKS} links."
        return Said(what, found.items[MOST_LINKS].at, step, None, NETWORK)
    return None


def _link(text: str, scene: Json, path: str, found: Json, _program: Unfolded) -> Said | None:
    hint = "Write `[0, 1, 1]`: two devices and the weight of their link."
    if found.kind != "array" or len(found.items) != 3:
        count = f"has {counted(len(found.items), 'item')}" if found.kind == "array" else "is none"
        return Said(
            f"A link is an array of three numbers; {shown(found, text)} {count}.", found.at, None, hint, SCENE
        )
    for item in found.items:
        if item.whole is None or item.whole > 1_000_000:
            what = f"A link has whole numbers of at most 1,000,000; {shown(item, text)} isn't one."
            return Said(what, item.at, None, hint, SCENE)
    ends = {found.items[0].whole, found.items[1].whole}
    links = find(scene, "/links")
    for other in links.items[: int(path.rpartition("/")[2])] if links is not None else ():
        if other.kind == "array" and {item.whole for item in other.items[:2]} == ends:
            a, b = found.items[0].whole, found.items[1].whole
            what = f"The devices {a} and {b} are linked already, on line {other.at.line}, column {other.at.column}."
            return Said(what, found.at, None, "Remove one of the two; a link goes both ways.", NETWORK)
    return None


def _inputs(text: str, _scene: Json, path: str, found: Json, program: Unfolded) -> Said | None:
    names = [part.name for part in program.inputs]
    if found.kind != "object":
        hint = 'Write `{"src": true}`, or `{}` if the program has no inputs.'
        return Said(f"`inputs` is an object; {shown(found, text)} isn't one.", found.at, "inputs", hint, SCENE)
    for name, place in found.keys.items():
        if name not in names:
            what = f"The program declares no input named `{name}`."
            return Said(what, place, name, f"It declares {_declared(program)}.", NETWORK)
    for name in names:
        if name not in found.members:
            hint = f"The program declares {_declared(program)}."
            return Said(f"The input `{name}` has no value here.", found.at, name, hint, NETWORK)
    return None


def _declared(program: Unfolded) -> str:
    kinds = []
    for part in program.inputs:
        kind = f"int {part.bounds[0][0]}..{part.bounds[1][0]}" if part.bounds else "bool"
        kinds.append(f"`{part.name}: {kind}`")
    return listed(kinds) if kinds else "no inputs"


def _value(text: str, _scene: Json, path: str, found: Json, _program: Unfolded) -> Said | None:
    if is_value(found):
        return None
    none = f"{shown(found, text)} is none of these"
    what = f"A value is a whole number, a truth value or an array of two values; {none}."
    hint = "There are no negative numbers and no fractions." if found.kind == "number" else None
    if found.kind == "string":
        hint = "Write values without quotes: `true`, `12`."
    return Said(what, found.at, path.rpartition("/")[2], hint, SCENE)


def is_value(found: Json) -> bool:
    """Whether a value of JSON is one of `fc`."""
    if found.kind == "array":
        return len(found.items) == 2 and all(is_value(item) for item in found.items)
    return found.kind == "truth" or found.whole is not None


def _item(text: str, scene: Json, path: str, found: Json, program: Unfolded) -> Said | None:
    if re.fullmatch(r"/table/rows/\d+/kept/\d+", path):
        what = f"A kept item of format 2 is an array of a place and a value; {shown(found, text)} isn't one."
        return Said(what, found.at, None, "Write `[4, 10]`.", SCENE)
    return _value(text, scene, path, found, program)


def _id(text: str, scene: Json, path: str, found: Json) -> Said | None:
    number = found.whole
    if number is None or number > MOST_ID:
        what = f"The number of a device is a whole number of at most 65,535; {shown(found, text)} isn't one."
        return Said(what, found.at, "id", None, NETWORK)
    owner = path.rpartition("/")[0]
    before = _before(scene, owner, number)
    if before is not None:
        kind = "neighbour" if "/near/" in path else "pending firing" if path.startswith("/pending") else "row"
        return Said(
            f"Device {number} has a {kind} already, on line {before.line}.", found.at, str(number), None, NETWORK
        )
    if "/near/" in path:
        return Said(f"Device {number} can't be its own neighbour.", found.at, str(number), None, NETWORK)
    return Said(f"There is no device {number} in this network.", found.at, str(number), "Remove it.", NETWORK)


def _before(scene: Json, path: str, number: int | None) -> At | None:
    """Where an item of the same list before this one has the same number."""
    owner, step = parent(scene, path)
    for other in owner.items[: int(step)] if owner is not None else ():
        if other.kind == "object" and "id" in other.members and other.members["id"].whole == number:
            return other.members["id"].at
    return None


def _main_value(text: str, found: Json, program: Unfolded) -> Said | None:
    if not is_value(found):
        return _value(text, found, "/value", found, program)
    kind = program.nodes[0].type
    what = f"What is published is a value of `main`, of type `{kind}` with numbers up to {program.ceiling}"
    return Said(f"{what}; {shown(found, text)} isn't one.", found.at, "value", None, NETWORK)


def network(text: str, scene: Json, path: str, word: str, program: Unfolded) -> Said | None:
    """What is wrong with a device or link of a network; None if it isn't seen."""
    found = find(scene, path)
    if found is None:
        return None
    if word in ("input-type", "input-range"):
        return _input(text, path, found, word, program)
    if word == "twice":
        before = _before(scene, path.rpartition("/")[0], found.whole)
        where = f", on line {before.line}, column {before.column}" if before is not None else ""
        what = f"Device {found.whole} is there already{where}."
        return Said(what, found.at, str(found.whole), "Give it another number.", NETWORK)
    if word == "weight":
        weight = found.items[2] if found.kind == "array" and len(found.items) == 3 else found
        return _weight(weight, program)
    if found.kind != "array" or len(found.items) != 3:
        return None
    if word == "self-link":
        what = f"Device {found.items[0].whole} is linked to itself."
        return Said(what, found.at, str(found.items[0].whole), "Remove the link.", NETWORK)
    if word == "no-device":
        devices = device_numbers(scene)
        missing = next((item for item in found.items[:2] if item.whole not in devices), None)
        if missing is not None:
            return Said(
                f"There is no device {missing.whole} in this network.", missing.at, str(missing.whole), None, NETWORK
            )
    return None


def device_numbers(scene: Json) -> dict[int, At]:
    """The numbers of the devices, each with its place."""
    devices = find(scene, "/devices")
    found = {}
    for device in devices.items if devices is not None else ():
        number = device.members.get("id") if device.kind == "object" else None
        if number is not None and number.whole is not None:
            found[number.whole] = number.at
    return found


def _input(text: str, path: str, found: Json, word: str, program: Unfolded) -> Said | None:
    name = path.rpartition("/")[2]
    declared = next((part for part in program.inputs if part.name == name), None)
    if declared is None:
        return None
    if word == "input-type":
        kind = "an `int`" if declared.bounds else "a `bool`"
        hint = "Write a whole number." if declared.bounds else "Write `true` or `false`."
        return Said(f"The input `{name}` is {kind}; {shown(found, text)} isn't one.", found.at, name, hint, NETWORK)
    low, high = declared.bounds[0][0], declared.bounds[1][0]
    what = f"The input `{name}` goes from {low} to {high}; {shown(found, text)} is outside."
    return Said(what, found.at, name, "Change the value, or the range in the program.", NETWORK)


def _weight(found: Json, program: Unfolded) -> Said | None:
    low, high = program.metric
    if (low, high) == (1, 1):
        hint = "Write 1, or declare a metric in the program, as `metric 1..9;`."
        what = f"In this program each link weighs 1, but this one weighs {found.whole}."
        return Said(what, found.at, str(found.whole), hint, NETWORK)
    what = f"The metric of the program goes from {low} to {high}, but this link weighs {found.whole}."
    return Said(what, found.at, str(found.whole), "Change the weight, or the metric in the program.", NETWORK)


def degree(scene: Json) -> Said | None:
    """The first link that is a device's 33rd; None if there is none."""
    found = find(scene, "/links")
    links = found.items if found is not None else ()
    count: dict[int | None, int] = {}
    for link in links:
        for item in link.items[:2]:
            count[item.whole] = count.get(item.whole, 0) + 1
            if count[item.whole] > MOST_LINKS:
                total = sum(item.whole in (end.whole for end in other.items[:2]) for other in links)
                what = (
                    f"Device {item.whole} has {total} links; the limit is {MOST_LINKS}, and this is its 33rd."
                )
                return Said(what, link.at, str(item.whole), "Keep the 32 nearest neighbours of each device.", NETWORK)
    return None


def too_many(scene: Json, count: int) -> Said | None:
    """The first device past the limit; None if there is none."""
    devices = find(scene, "/devices")
    if devices is None or len(devices.items) != count:
        return None
    what = f"The network has {count:,} devices, and a network has at most {MOST_DEVICES:,}."
    return Said(what, devices.items[MOST_DEVICES].at, "devices", "Leave some out.", NETWORK)


def kept(text: str, scene: Json, path: str, place: int, program: Unfolded) -> Said | None:
    """What is wrong with a kept list; None if it isn't seen."""
    found = find(scene, path)
    if found is None or "kept" not in found.members:
        return None
    pairs = path.startswith("/table/rows/")
    return kept_fault(text, found.members["kept"], place, pairs, program)
