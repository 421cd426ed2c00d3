"""Lines of scripts and logs with the place of each word, their forms, and the network as the lines before leave it."""

from __future__ import annotations

import difflib
import re
from collections.abc import Collection, Iterable
from dataclasses import dataclass, field, replace

from .jsonplaces import Json, find
from .language.grammar import WORDS
from .language.tree import At
from .places import Said
from .refusals import Section

NUMBER = re.compile(r"[0-9]{1,7}")
NAME = re.compile(r"[A-Za-z][A-Za-z0-9_]*")
STEP = re.compile(r"[BE][0-9]{1,7}")
VALUE = re.compile(r"[0-9]{1,7}|true|false")
SPAN = re.compile(r"([0-9]{1,7})\.\.([0-9]{1,7})")
MOST_ID = 65_535
EDITS = {
    "link": "link A B W",
    "unlink": "unlink A B",
    "set": "set D NAME V",
    "poke": "poke D V K1 K2 ..",
    "join": "join D V1 V2 ..",
    "leave": "leave D",
}
LINES = {
    "script": {"run": "run R", "mix": "mix R EDIT", "show": "show", "scramble": "scramble N", **EDITS},
    "log": {"B": "B3", "E": "E3", "I": "I", **EDITS},
    "changes": {verb: form for verb, form in EDITS.items() if verb != "poke"},
    "mail": {"B": "B3", "E": "E3", "I": "I", "deliver": "deliver A B", "again": "again A B", "lose": "lose A B I"},
}
BY_NUMBER = (
    "Devices have their numbers here: the file of names beside the network, as net.names.csv, has them. "
    "With --names and that file, edits may have their names."
)
TITLES = {"script": "a script", "log": "a log", "mail": "a mail log", "changes": "the changes"}
PAGES = {
    "script": "docs/formats.md#the-script",
    "log": "docs/formats.md#the-log",
    "mail": "docs/formats.md#the-mail-log",
    "changes": "docs/changes.md#the-lines",
}
MIXED = ("link", "unlink", "set", "poke")


@dataclass(frozen=True)
class Word:
    """A word of a line, and its place in the user's file."""

    text: str
    at: At


@dataclass(frozen=True)
class Line:
    """A line of a script or log: its number in the section, from 1, its place, its text and its words."""

    number: int
    at: At
    text: str
    words: tuple[Word, ...]

    @property
    def verb(self) -> str:
        """What the line does: its first word, `B` and `E` without the device."""
        return self.words[0].text[0] if STEP.fullmatch(self.words[0].text) else self.words[0].text


def lines_of(section: Section) -> list[Line]:
    """The lines of a section, empty ones included."""
    texts = section.text.split("\n")
    if texts[-1] == "":
        texts.pop()
    found = []
    for number, text in enumerate(texts, 1):
        text = text[:-1] if text.endswith("\r") else text
        row = section.first_line + number - 1
        words, column = [], 1
        for word in text.split(" ") if text else ():
            words.append(Word(word, At(row, column)))
            column += len(word) + 1
        found.append(Line(number, At(row, 1), text, tuple(words)))
    return found


def is_value(word: str) -> bool:
    """Whether a word is a value: a number, `true`, `false`, or a pair `(v,w)`."""
    found = word
    while True:
        shorter = re.sub(r"\((?:[0-9]{1,7}|true|false),(?:[0-9]{1,7}|true|false)\)", "0", found)
        if shorter == found:
            return VALUE.fullmatch(found) is not None
        found = shorter


def form_fault(line: Line, kind: str) -> Said | None:
    """Why a line is none of its section; None if it is one."""
    for word in line.words:
        if word.text == "" or "\t" in word.text or "\r" in word.text:
            return Said("Write one space between words, and no others.", word.at, None, None, PAGES[kind])
    if line.verb not in LINES[kind] or line.words[0].text in ("B", "E"):
        return _strange(line, kind)
    rules = {"mix": _mix, "poke": _poke, "join": _join, "set": _set}
    return rules.get(line.verb, _plain)(line.words, kind)


def _strange(line: Line, kind: str) -> Said:
    first = line.words[0]
    hint = None
    for other, lines in LINES.items():
        if line.verb in lines and other != kind:
            hint = f"It belongs in {TITLES[other]}; this is {TITLES[kind]}."
            break
    if first.text in ("B", "E") and "B" in LINES[kind]:
        hint = f"Write `{first.text}{line.words[1].text if len(line.words) > 1 else 3}`, without a space."
    elif first.text.lower() in LINES[kind]:
        hint = f"Write `{first.text.lower()}`."
    elif re.fullmatch(r"[be][0-9]+", first.text) and "B" in LINES[kind]:
        hint = f"Write `{first.text.upper()}`."
    elif first.text.startswith(("#", "//")):
        hint = "There are no comments here."
    elif hint is None:
        near = difflib.get_close_matches(first.text, LINES[kind], 1)
        forms = ", ".join(f"`{form}`" for form in LINES[kind].values())
        hint = f"Did you mean `{near[0]}`?" if near else f"The lines are {forms}."
    return Said(f"No line of {TITLES[kind]} begins with `{first.text}`.", first.at, first.text, hint, PAGES[kind])


def _count(words: tuple[Word, ...], form: str, page: str) -> Said | None:
    wanted = len(form.split(" ")) - 1
    given = len(words) - 1
    if given == wanted:
        return None
    verb = words[0].text
    place = words[wanted + 1].at if given > wanted else At(words[-1].at.line, words[-1].at.column + len(words[-1].text))
    numeral = f"{wanted} word{'' if wanted == 1 else 's'}" if wanted else "no word"
    what = f"`{verb}` takes {numeral}, but {given or 'none'} {'are' if given > 1 else 'is'} given."
    what = what.replace("stands", "stand") if wanted > 1 else what
    return Said(what, place, verb, f"Write `{form}`.", page)


def _number(word: Word, page: str) -> Said | None:
    if NUMBER.fullmatch(word.text):
        return None
    return Said(f"Expected a number of 1 to 7 digits; `{word.text}` isn't one.", word.at, word.text, None, page)


def _device(word: Word, page: str) -> Said | None:
    fault = _number(word, page)
    return fault if fault is None or not word.text[:1].isalpha() else replace(fault, hint=BY_NUMBER)


def _value(word: Word, page: str) -> Said | None:
    if is_value(word.text):
        return None
    hint = "Values are numbers, `true`, `false`, and pairs as `(1,true)`, without spaces."
    return Said(f"`{word.text}` isn't a value.", word.at, word.text, hint, page)


def _span(word: Word, page: str) -> Said | None:
    """Why a word of the changes is none of a value, `LO..HI` and `any`; None if it is one."""
    ends = SPAN.fullmatch(word.text)
    if word.text == "any" or (ends is None and is_value(word.text)):
        return None
    if ends is None:
        hint = "Values are numbers, `true`, `false`, two numbers as `2..7`, and `any`, without spaces."
        return Said(f"`{word.text}` isn't a value.", word.at, word.text, hint, page)
    if int(ends[1]) <= int(ends[2]):
        return None
    hint = f"Write `{ends[2]}..{ends[1]}`."
    return Said(f"`{word.text}` is the wrong way round: the least comes first.", word.at, word.text, hint, page)


def _weight(word: Word, page: str) -> Said | None:
    """Why a word of the changes is no weight, which is no truth value and no pair; None if it is one."""
    fault = _span(word, page)
    if fault is None and not word.text[0].isdigit() and word.text != "any":
        hint = "A weight is a number, two numbers as `2..7`, or `any`."
        return Said(f"`{word.text}` isn't a weight.", word.at, word.text, hint, page)
    return fault


def _plain(words: tuple[Word, ...], kind: str) -> Said | None:
    page, verb = PAGES[kind], words[0].text
    if STEP.fullmatch(verb):
        verb = verb[0]
    form = LINES[kind][verb]
    if verb in ("B", "E"):
        form = words[0].text
    wanted = zip(words[1:], form.split(" ")[1:])
    other = _weight if kind == "changes" else _number
    found = (_device(word, page) if named in ("A", "B", "D") else other(word, page) for word, named in wanted)
    fault = _count(words, form, page) or next(filter(None, found), None)
    if fault is None and verb == "run" and int(words[1].text) == 0:
        return Said("A `run` needs at least one round.", words[1].at, "run", None, page)
    return fault


def _set(words: tuple[Word, ...], kind: str) -> Said | None:
    page = PAGES[kind]
    fault = _count(words, EDITS["set"], page) or _device(words[1], page)
    if fault is None and (not NAME.fullmatch(words[2].text) or words[2].text in WORDS):
        return Said(
            f"`{words[2].text}` can't be an input's name.", words[2].at, words[2].text, "Write `set 3 src true`.", page
        )
    return fault or _values(words[3:], kind)


def _values(words: tuple[Word, ...], kind: str) -> Said | None:
    rule = _span if kind == "changes" else _value
    return next((found for word in words if (found := rule(word, PAGES[kind]))), None)


def _poke(words: tuple[Word, ...], kind: str) -> Said | None:
    page = PAGES[kind]
    if len(words) < 3:
        return _count(words, "poke D V", page)
    return _device(words[1], page) or _values(words[2:], kind)


def _join(words: tuple[Word, ...], kind: str) -> Said | None:
    page = PAGES[kind]
    if len(words) < 2:
        return _count(words, "join D", page)
    fault = _device(words[1], page)
    if fault is None and int(words[1].text) > MOST_ID:
        return Said("The number of a device is at most 65,535.", words[1].at, words[1].text, None, page)
    return fault or _values(words[2:], kind)


def _mix(words: tuple[Word, ...], kind: str) -> Said | None:
    page = PAGES[kind]
    if len(words) < 3:
        place = At(words[-1].at.line, words[-1].at.column + len(words[-1].text))
        what = "`mix` takes a number of rounds and an edit."
        return Said(what, place, "mix", "Write `mix 5 set 0 src false`.", page)
    fault = _number(words[1], page)
    if fault is not None:
        return fault
    if int(words[1].text) == 0:
        return Said("A `mix` needs at least one round.", words[1].at, "mix", None, page)
    if words[2].text not in MIXED:
        what = f"The edit of a `mix` has to be a `link`, `unlink`, `set` or `poke`, not `{words[2].text}`."
        return Said(what, words[2].at, words[2].text, None, page)
    rules = {"poke": _poke, "set": _set}
    return rules.get(words[2].text, _plain)(words[2:], kind)


@dataclass
class Net:
    """What lines change: devices, who is linked to whom, where firings were begun, and messages in transit by ordered
    pair.

    A device of `flying` has the line on which its firing was begun, 0 where it is pending at the start. `left` has the
    line on which a device left. Messages are counted where `mail` is true.
    """

    near: dict[int, set[int]] = field(default_factory=dict)
    flying: dict[int, int] = field(default_factory=dict)
    left: dict[int, int] = field(default_factory=dict)
    transit: dict[tuple[int, int], int] = field(default_factory=dict)
    mail: bool = False

    @property
    def devices(self) -> Collection[int]:
        """The numbers of the devices."""
        return self.near.keys()

    def linked(self, a: int, b: int) -> bool:
        """Whether two devices are linked."""
        return b in self.near.get(a, ())

    def link(self, a: int, b: int) -> None:
        """Links two devices."""
        if a in self.near and b in self.near:
            self.near[a].add(b)
            self.near[b].add(a)

    def unlink(self, a: int, b: int) -> None:
        """Takes a link away, where there is one."""
        self.near.get(a, set()).discard(b)
        self.near.get(b, set()).discard(a)

    def step(self, line: Line) -> None:
        """What a line of any section that is in order changes."""
        words = [word.text for word in line.words]
        if line.verb == "mix":
            words, self.flying = words[2:], {}
        verb = line.verb if line.verb in ("B", "E") else words[0]
        if verb in ("B", "E"):
            self._fire(verb, int(words[0][1:]), line.at.line)
        elif verb == "link":
            self.link(int(words[1]), int(words[2]))
        elif verb == "unlink":
            self.unlink(int(words[1]), int(words[2]))
        elif verb == "join":
            self.near.setdefault(int(words[1]), set())
        elif verb == "leave":
            self._leave(int(words[1]), line.at.line)
        elif verb == "run":
            self.flying = {}
        elif verb in ("deliver", "lose"):
            pair = (int(words[1]), int(words[2]))
            self.transit[pair] = max(0, self.transit.get(pair, 0) - 1)

    def _fire(self, verb: str, device: int, row: int) -> None:
        if verb == "B":
            self.flying[device] = row
            return
        self.flying.pop(device, None)
        for other in self.near.get(device, ()) if self.mail else ():
            self.transit[device, other] = min(4, self.transit.get((device, other), 0) + 1)

    def _leave(self, device: int, row: int) -> None:
        for other in self.near.pop(device, ()):
            self.near[other].discard(device)
        self.left[device] = row


def start_of(scene: Json, mail: bool = False) -> Net:
    """The network of a scene that `fc` took; with `mail` its messages are counted."""
    net = Net(mail=mail)
    devices, links, pending = (find(scene, path) for path in ("/devices", "/links", "/pending"))
    for device in devices.items if devices is not None else ():
        net.near[device.members["id"].whole or 0] = set()
    for link in links.items if links is not None else ():
        net.link(link.items[0].whole or 0, link.items[1].whole or 0)
    for copy in pending.items if pending is not None else ():
        net.flying[copy.members["id"].whole or 0] = 0
    return net


def after(net: Net, lines: Iterable[Line]) -> Net:
    """The network after lines that are in order."""
    for line in lines:
        net.step(line)
    return net
