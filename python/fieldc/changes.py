"""Files of changes: lines of what may happen to a network, and patterns that stand for many of them.

A line of `fc` stays as it is, but for names of devices. A line with a pattern is written out: one line for each device
or link that it means, in the order of their numbers.
"""

from __future__ import annotations

import math
import re
from collections.abc import Callable, Iterable, Iterator, Mapping, Sequence
from dataclasses import dataclass, replace

from .edits import DEVICES_OF
from .elsewhere import similar
from .networks import GREATEST_DEVICE, Declared, Input, Network, Pair, declared, kind_of, read_scene
from .refusals import Fault, Section

FORMS = {
    "set": "set DEVICES NAME VALUE",
    "link": "link DEVICES DEVICES VALUE",
    "links": "links DEVICES VALUE",
    "unlink": "unlink DEVICES [DEVICES]",
    "leave": "leave DEVICES",
    "join": "join DEVICE VALUE ..",
}
BY_NUMBER = "; devices have numbers here, and with --names FILE their names"
NUMBERS = re.compile(r"([0-9]{1,7})\.\.([0-9]{1,7})")
WITH_INPUT = re.compile(r"([A-Za-z][A-Za-z0-9_]*)=(true|false|[0-9]{1,7})")
AROUND = re.compile(r"\+-([0-9]{1,7})(%?)")
FROM_TO = re.compile(r"([+-])([0-9]{1,7})(%?)\.\.([+-])([0-9]{1,7})(%?)")


@dataclass(frozen=True)
class Around:
    """How far a number may be from what it is now: from `low` to `high`, each an amount or a percentage."""

    low: int
    high: int
    low_in_percent: bool = False
    high_in_percent: bool = False

    def of(self, now: int, least: int, greatest: int) -> Pair:
        """The least and the greatest number about that of now, within the range from `least` to `greatest`."""
        low = self.low if not self.low_in_percent else math.floor(now * self.low / 100)
        high = self.high if not self.high_in_percent else math.ceil(now * self.high / 100)
        return min(max(now + low, least), greatest), max(min(now + high, greatest), least)


def around_of(word: str) -> Around | None:
    """What a word such as `+-2`, `-20%..+20%` or `-1..+3` says; None for any other."""
    found = AROUND.fullmatch(word)
    if found is not None:
        amount, percent = int(found[1]), bool(found[2])
        return Around(-amount, amount, percent, percent)
    found = FROM_TO.fullmatch(word)
    if found is None:
        return None
    low, high = (int(sign + digits) for sign, digits in (found.group(1, 2), found.group(4, 5)))
    return Around(low, high, bool(found[3]), bool(found[6]))


@dataclass(frozen=True)
class Known:
    """What the patterns of a file are about: the network, what its program declares, the devices by their names, and
    the weights of links by their devices, the smaller number first."""

    network: Network
    declared: Declared
    number: Mapping[str, int]
    weights: Mapping[Pair, int]

    @staticmethod
    def of(network: Network, wanted: Declared) -> Known:
        """What is known of a network and of what a program declares."""
        number = {name: device for device, name in network.names.items()}
        weights = {(min(a, b), max(a, b)): weight for a, b, weight in network.links}
        return Known(network, wanted, number, weights)


def for_fc(section: Section, parts: Sequence[Section], names: Mapping[int, str]) -> Section:
    """A section of changes as `fc` reads it after a program and a network. Raises Fault if a pattern means nothing.

    Where these can't be read it stays as it is: `fc` refuses them first.
    """
    texts = {part.kind: part.text for part in parts}
    try:
        network = replace(read_scene(texts.get("network", "")), names=names)
    except Fault:
        return section
    return written_out(section, network, declared(texts.get("program", "")))


def written_out(section: Section, network: Network, wanted: Declared) -> Section:
    """A section of changes as `fc` reads it, which knows the lines that the user typed.

    Raises Fault, of status 3, with the line of the file, if a pattern means nothing.
    """
    known, written, rows = Known.of(network, wanted), list[str](), list[int]()
    typed = section.text.split("\n")
    for place, line in enumerate(typed):
        where = f"{section.name or section.kind} line {place + section.first_line}"
        made = list(lines_of(line.removesuffix("\r").split(" "), known, where))
        written += made
        rows += [place] * len(made)
    return Section(section.kind, section.name, section.first_line, "\n".join(written), section.text, tuple(rows))


def check_forms(section: Section) -> None:
    """Raises Fault, of status 3, with the line of the file, if one is of none of the forms, as `fc` would say it."""
    for place, line in enumerate(section.text.split("\n")):
        verb, *rest = line.removesuffix("\r").split(" ")
        where = f"{section.name or section.kind} line {place + section.first_line}"
        if verb not in FORMS and line.strip():
            raise Fault(f"{where}: {verb[:40]} can't begin a line of changes; {', '.join(FORMS)} can", 3)
        if verb in FORMS and (verb, len(rest)) not in RULES and ((verb, None) not in RULES or not rest):
            raise Fault(f"{where}: it is written {FORMS[verb]}", 3)


def lines_of(words: Sequence[str], known: Known, where: str) -> Iterator[str]:
    """The lines of `fc` for a line of a user's file. Raises Fault."""
    verb, rest = words[0], list(words[1:])
    rule = RULES.get((verb, len(rest)), RULES.get((verb, None)))
    if rule is None and verb == "links":
        raise Fault(f"{where}: it is written {FORMS[verb]}", 3)
    if rule is None or (verb != "links" and (verb, len(rest)) != ("unlink", 1) and _is_plain(words, known)):
        yield " ".join(_with_numbers(words, known))
    else:
        yield from rule(rest, known, where)


def _is_plain(words: Sequence[str], known: Known) -> bool:
    """Whether a line is one of `fc`, with names of devices perhaps: one device in each place, and no value about
    another."""
    count = DEVICES_OF.get(words[0], 0)
    devices, values = words[1 : count + 1], words[count + 1 :]
    return all(word in known.number or word.isdecimal() for word in devices) and not any(map(around_of, values))


def _with_numbers(words: Sequence[str], known: Known) -> list[str]:
    """The words of a line with the numbers of its devices in place of their names."""
    count = DEVICES_OF.get(words[0], 0)
    return [str(known.number.get(word, word)) if 0 < at <= count else word for at, word in enumerate(words)]


# ---- devices -------------------------------------------------------------------------------------------------------


def devices_of(word: str, known: Known, where: str) -> list[int]:
    """The devices that a word means: one by its name or number, `*` for all, `3..9`, or `input=value` for all of which
    an input has a value. Raises Fault if it means none."""
    there = known.network.inputs
    if word in known.number:
        return [known.number[word]]
    if word.isdecimal():
        return [int(word)]
    if word == "*":
        return list(there)
    given = WITH_INPUT.fullmatch(word)
    if NUMBERS.fullmatch(word):
        low, high = _numbers(word, where)
        found = [device for device in there if low <= device <= high]
    elif given is not None:
        name, value = _input(given[1], known, where), _value(given[2])
        found = [device for device in there if _is_same(there[device].get(name), value)]
    else:
        near = similar(word, known.number)
        hint = f"; did you mean {near}?" if near is not None else "" if known.number else BY_NUMBER
        raise Fault(f"{where}: no device is called {word}{hint}", 3)
    if not found:
        raise Fault(f"{where}: no device of the network is {word}", 3)
    return found


def _numbers(word: str, where: str) -> Pair:
    """The ends of numbers of devices such as `3..9`. Raises Fault if they are in the wrong order."""
    low, high = map(int, word.split(".."))
    if low > high:
        raise Fault(f"{where}: {word} is the wrong way round: the least number comes first", 3)
    return low, high


def _is_same(one: Input | None, other: Input) -> bool:
    """Whether two values are one: a truth value is no number."""
    return one == other and isinstance(one, bool) == isinstance(other, bool)


def _value(word: str) -> Input:
    return {"true": True, "false": False}[word] if word in ("true", "false") else int(word)


def _input(name: str, known: Known, where: str) -> str:
    """The name of an input. Raises Fault if the program declares none that is called so."""
    if name not in known.declared.inputs:
        there = ", ".join(known.declared.inputs) or "none"
        raise Fault(f"{where}: no input is called {name}; the program declares {there}", 3)
    return name


# ---- lines ---------------------------------------------------------------------------------------------------------


def _set(words: Sequence[str], known: Known, where: str) -> Iterator[str]:
    devices, name, value = words
    for device in devices_of(devices, known, where):
        yield f"set {device} {name} {_drift(value, device, name, known, where)}"


def _drift(word: str, device: int, name: str, known: Known, where: str) -> str:
    """The value of a `set` line: as it stands there, or, about the value of now, two numbers."""
    around = around_of(word)
    if around is None:
        return word
    span = known.declared.inputs[_input(name, known, where)]
    now = known.network.inputs.get(device, {}).get(name)
    if span is None:
        raise Fault(f"{where}: {name} is {kind_of(None)}, and {word} is about a number; write any", 3)
    if now is None or isinstance(now, bool):
        raise Fault(f"{where}: device {known.network.called(device)} has no {name} that {word} could be about", 3)
    return _ends(around.of(now, *span))


def _ends(span: Pair) -> str:
    low, high = span
    return f"{low}..{high}" if low < high else str(low)


def _link(words: Sequence[str], known: Known, where: str) -> Iterator[str]:
    first, second, weight = words
    pairs = _pairs(first, second, known, where)
    around = around_of(weight)
    for a, b in pairs:
        now = known.weights.get((a, b))
        if around is not None and now is None:
            called = f"{known.network.called(a)} and {known.network.called(b)}"
            raise Fault(f"{where}: {called} aren't linked, so {weight} has no weight to start from", 3)
        yield f"link {a} {b} {_weight(weight, now, known)}"


def _weight(word: str, now: int | None, known: Known) -> str:
    around = around_of(word)
    return word if around is None or now is None else _ends(around.of(now, *known.declared.metric))


def _pairs(first: str, second: str, known: Known, where: str) -> list[Pair]:
    """The pairs of different devices that two words mean, each once. Raises Fault if there are none."""
    ones, others = devices_of(first, known, where), devices_of(second, known, where)
    found = sorted({(min(a, b), max(a, b)) for a in ones for b in others if a != b})
    if not found:
        raise Fault(f"{where}: {first} and {second} are the same device, but a link has two", 3)
    return found


def _links_of(word: str, known: Known, where: str) -> list[Pair]:
    """The links of the network that end at a device which a word means. Raises Fault if there are none."""
    ends = set(devices_of(word, known, where))
    return _some((pair for pair in known.weights if not ends.isdisjoint(pair)), word, where)


def _some(pairs: Iterable[Pair], words: str, where: str) -> list[Pair]:
    """The pairs that some words mean, in ascending order. Raises Fault if there are none."""
    found = sorted(pairs)
    if not found:
        raise Fault(f"{where}: no link of the network is {words}", 3)
    return found


def _links(words: Sequence[str], known: Known, where: str) -> Iterator[str]:
    for a, b in _links_of(words[0], known, where):
        yield f"link {a} {b} {_weight(words[1], known.weights[a, b], known)}"


def _unlink(words: Sequence[str], known: Known, where: str) -> Iterator[str]:
    if len(words) == 1:
        found = _links_of(words[0], known, where)
    else:
        first, second = words
        there = known.weights.keys() & set(_pairs(first, second, known, where))
        found = _some(there, " ".join(words), where)
    for a, b in found:
        yield f"unlink {a} {b}"


def _leave(words: Sequence[str], known: Known, where: str) -> Iterator[str]:
    for device in devices_of(words[0], known, where):
        yield f"leave {device}"


def _join(words: Sequence[str], known: Known, where: str) -> Iterator[str]:
    """A `join` of several devices, which aren't in the network yet, so `3..9` has all these numbers."""
    about = next(filter(around_of, words[1:]), None)
    if about is not None:
        raise Fault(f"{where}: a device that joins has no value yet from which {about} could start", 3)
    if not NUMBERS.fullmatch(words[0]):
        raise Fault(f"{where}: {words[0]} can't be a device that joins: write its number, or numbers such as 7..9", 3)
    low, high = _numbers(words[0], where)
    if high > GREATEST_DEVICE:
        raise Fault(f"{where}: {words[0]} goes too far: the number of a device is at most {GREATEST_DEVICE:,}", 3)
    for device in range(low, high + 1):
        yield " ".join(["join", str(device), *words[1:]])


Rule = Callable[[Sequence[str], Known, str], Iterator[str]]
RULES: dict[tuple[str, int | None], Rule] = {
    ("set", 3): _set,
    ("link", 3): _link,
    ("links", 2): _links,
    ("unlink", 1): _unlink,
    ("unlink", 2): _unlink,
    ("leave", 1): _leave,
    ("join", None): _join,
}
"""The rule of a line by its first word, and by how many words stand after it."""
