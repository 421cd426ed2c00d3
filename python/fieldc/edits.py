"""What the lines of a script or log do to a network: links, inputs, joins and leaves, and the rounds between edits.

The lines are those that `fc` has taken; what they do to values is known to `fc` alone.
"""

from __future__ import annotations

from collections.abc import Iterator, Mapping
from dataclasses import dataclass, replace

from .elsewhere import similar
from .networks import Input, Network
from .refusals import Fault

MOST_LINES = 4096
DEVICES_OF = {"link": 2, "unlink": 2, "set": 1, "poke": 1, "join": 1, "leave": 1}
EDITS = ("link", "unlink", "set", "poke", "join", "leave", "scramble")


@dataclass(frozen=True)
class Moment:
    """The network at a `show` line of a script, or at the end of a log.

    `line` is the number of the `show` line, and nothing at the end of a log. `rounds` is how many rounds the script
    asked for since its last edit, or since its start where there was none before, which `edited` tells; nothing for a
    log.
    """

    line: int | None
    network: Network
    rounds: int | None
    edited: bool


def steps(text: str) -> Iterator[tuple[int, list[str], int]]:
    """The lines of a script or log that aren't empty: the number, the words of its edit, or of the line, and the rounds
    that it asks for."""
    for number, line in enumerate(text.split("\n"), 1):
        words = line.removesuffix("\r").split(" ")
        if words[0] == "mix" and len(words) > 2 and words[1].isdigit():
            yield number, words[2:], int(words[1])
        elif words[0] == "run" and len(words) == 2 and words[1].isdigit():
            yield number, words, int(words[1])
        elif words != [""]:
            yield number, words, 0


def by_numbers(text: str, names: Mapping[int, str], name: str, first_line: int = 1) -> str:
    """A script or log whose edits have the numbers of devices in place of their names; a name goes before a number that
    is written like it. Raises Fault, with the line of the file, if a word is neither a name nor a number."""
    number = {word: str(device) for device, word in names.items()}
    lines = text.split("\n")
    for place, line in enumerate(lines):
        words = line.removesuffix("\r").split(" ")
        first = 2 if words[0] == "mix" else 0
        count = DEVICES_OF.get(words[first], 0) if first < len(words) else 0
        for at in range(first + 1, min(first + 1 + count, len(words))):
            if words[at] not in number and not words[at].isdecimal():
                near = similar(words[at], names.values())
                hint = f"; did you mean {near}?" if near is not None else ""
                raise Fault(f"{name} line {place + first_line}: no device is called {words[at]}{hint}", 3)
            words[at] = number.get(words[at], words[at])
        lines[place] = " ".join(words) + "\r" * line.endswith("\r")
    return "\n".join(lines)


def rounds_at_shows(script: str) -> dict[int, tuple[int, bool]]:
    """By the line of each show the rounds since the last edit before it, and whether there was an edit."""
    found: dict[int, tuple[int, bool]] = {}
    rounds, edited = 0, False
    for number, words, more in steps(script):
        if words[0] in EDITS:
            rounds, edited = 0, True
        rounds += more
        if words == ["show"]:
            found[number] = (rounds, edited)
    return found


class _Changing:
    """A network that edits change, in dictionaries of its own."""

    def __init__(self, network: Network, declared: tuple[str, ...]) -> None:
        self.start = network
        self.declared = declared
        self.inputs: dict[int, Mapping[str, Input]] = dict(network.inputs)
        self.links = {(a, b): weight for a, b, weight in network.links}
        self.made: Network | None = None

    def take(self, words: list[str]) -> None:
        """Takes one edit; lines that leave the network as it is change nothing."""
        kind = words[0]
        self.made = None if kind in EDITS else self.made
        if kind == "link":
            a, b, weight = (int(word) for word in words[1:])
            self.links[self._pair(a, b)] = weight
        elif kind == "unlink":
            del self.links[self._pair(int(words[1]), int(words[2]))]
        elif kind == "set":
            device = int(words[1])
            self.inputs[device] = {**self.inputs[device], words[2]: value(words[3])}
        elif kind == "join":
            self.inputs[int(words[1])] = dict(zip(self.declared, map(value, words[2:]), strict=True))
        elif kind == "leave":
            del self.inputs[int(words[1])]
            self.links = {pair: weight for pair, weight in self.links.items() if int(words[1]) not in pair}

    def _pair(self, a: int, b: int) -> tuple[int, int]:
        """The pair of a link, as it stands there or would be written."""
        return (b, a) if (b, a) in self.links else (a, b) if (a, b) in self.links else (min(a, b), max(a, b))

    def now(self) -> Network:
        """The network as it is now; the same one as long as no edit comes."""
        if self.made is None:
            inputs = {device: self.inputs[device] for device in sorted(self.inputs)}
            links = tuple((a, b, weight) for (a, b), weight in sorted(self.links.items()))
            self.made = replace(self.start, inputs=inputs, links=links, state={})
        return self.made


def value(word: str) -> Input:
    """The value of an input as a line says it."""
    return {"true": True, "false": False}[word] if word in ("true", "false") else int(word)


def moments(network: Network, text: str, declared: tuple[str, ...]) -> tuple[Moment, ...]:
    """The network at each show of a script, or, where there is none, at the end of the lines as of a log.

    `declared` are the program's inputs in their order, which a `join` line has in that order. Raises Fault, of status
    3, if a line can't be taken: `fc` says why.
    """
    changing, found = _Changing(network, declared), []
    rounds, edited = 0, False
    for number, words, more in steps(text):
        try:
            changing.take(words)
        except (ValueError, KeyError, IndexError):
            raise Fault(f"line {number} of the script or log isn't of this network: {' '.join(words)}", 3) from None
        if words[0] in EDITS:
            rounds, edited = 0, True
        rounds += more
        if words == ["show"]:
            found.append(Moment(number, changing.now(), rounds, edited))
    return tuple(found) or (Moment(None, changing.now(), None, edited),)
