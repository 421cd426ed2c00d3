#!/usr/bin/env python3
"""Gives `fc check --settle --changes` lines that were changed: words, numbers at their limits, bytes, lines in great
numbers. Each refusal is compared with the one that docs/formats.md wants, judged here apart from `fc`; an answer has a
line for each device that may be there. No call ends by a signal, with a status above 4, or with errors.

It runs the built program, or what the variable FC names.
"""

from __future__ import annotations

import argparse
import json
import os
import re
import subprocess
import sys
import time
from collections import Counter
from collections.abc import Callable, Iterable, Iterator
from concurrent.futures import ThreadPoolExecutor
from dataclasses import dataclass
from random import Random

from helping import BUILT, HOPS, LINE

from fieldc import results
from fieldc.blocks import WORDS
from fieldc.networks import Declared, Pair, declared

MOST_BYTES = 1_048_576
MOST_DEVICES = 1_024
MOST_PAIRS = 128
GREATEST_DEVICE = 65_535
SECONDS = 300
NUMBER = re.compile(r"[0-9]{1,7}")
NAME = re.compile(r"[A-Za-z][A-Za-z0-9_]*")
ENDS = re.compile(r"([0-9]{1,7})\.\.([0-9]{1,7})")
PAIR = re.compile(r"\((?:[0-9]{1,7}|true|false),(?:[0-9]{1,7}|true|false)\)")


class Wrong(Exception):
    """An answer that isn't wanted."""


# --- which line is refused, and why ---------------------------------------------------------------------------------


@dataclass(frozen=True)
class Base:
    """A program and a network in order, with lines of changes in order."""

    program: str
    network: str
    lines: tuple[str, ...]

    @property
    def scene(self) -> dict[str, list[dict[str, int] | list[int]]]:
        """The network as it is read."""
        return dict(json.loads(self.network))

    @property
    def devices(self) -> set[int]:
        """The numbers of the devices."""
        return {device["id"] for device in self.scene["devices"] if isinstance(device, dict)}

    @property
    def pairs(self) -> set[Pair]:
        """The pairs that are linked, the smaller number first."""
        return {pair_of(*link[:2]) for link in self.scene["links"] if isinstance(link, list)}


def pair_of(a: int, b: int) -> Pair:
    """A pair, the smaller number first."""
    return min(a, b), max(a, b)


def words_of(text: bytes) -> list[list[str]]:
    """The words of each line of a section; none of an empty one. A byte is one character."""
    lines = text.decode("latin-1").split("\n")
    lines = [line.removesuffix("\r") for line in lines[: len(lines) - (lines[-1] == "")]]
    return [line.split(" ") if line else [] for line in lines]


def is_value(word: str) -> bool:
    """Whether a word is a number, a truth value, or a pair of such or of pairs."""
    while PAIR.search(word):
        word = PAIR.sub("0", word)
    return word in ("true", "false") or NUMBER.fullmatch(word) is not None


def is_span(word: str) -> bool:
    """Whether a word says what a value may be: `any`, two ends, or a value."""
    ends = ENDS.fullmatch(word)
    return word == "any" or is_value(word) if ends is None else int(ends[1]) <= int(ends[2])


def has_form(words: list[str]) -> bool:
    """Whether a line has one of the five forms."""
    verb, *rest = words
    count = {"set": 3, "link": 3, "unlink": 2, "leave": 1, "join": max(1, len(rest))}.get(verb)
    devices = {"link": 2, "unlink": 2}.get(verb, 1)
    if count != len(rest) or not all(NUMBER.fullmatch(word) for word in rest[:devices]):
        return False
    if verb == "set":
        return NAME.fullmatch(rest[1]) is not None and rest[1] not in WORDS and is_span(rest[2])
    if verb == "link":
        return is_span(rest[2]) and re.fullmatch("any|[0-9.]+", rest[2]) is not None
    return verb != "join" or (int(rest[0]) <= GREATEST_DEVICE and all(map(is_span, rest[1:])))


def ends_of(word: str) -> list[str]:
    """The ends of what a value may be; none of `any`."""
    found = ENDS.fullmatch(word)
    return [] if word == "any" else [word] if found is None else [found[1], found[2]]


def input_fault(span: Pair | None, word: str) -> str | None:
    """What is wrong with the value of an input."""
    ends = ends_of(word)
    if span is None:
        return "input-type" if any(end not in ("true", "false") for end in ends) else None
    if not all(NUMBER.fullmatch(end) for end in ends):
        return "input-type"
    return "input-range" if any(not span[0] <= int(end) <= span[1] for end in ends) else None


class Judge:
    """Judges the lines of changes one after the other, against all devices and pairs at hand."""

    def __init__(self, base: Base, wanted: Declared, lines: list[list[str]]) -> None:
        self.wanted = wanted
        self.scene = base.devices
        self.there = base.devices
        self.near = {one: {a + b - one for a, b in base.pairs if one in (a, b)} for one in self.scene}
        formed = [words for words in lines if words and has_form(words)]
        self.devices = self.scene | {int(words[1]) for words in formed if words[0] == "join"}
        linked = [pair_of(int(words[1]), int(words[2])) for words in formed if words[0] == "link"]
        self.pairs = base.pairs | set(linked)

    def fault(self, words: list[str]) -> str | None:
        """What is wrong with a line of a form: a word, or a limit."""
        rules: dict[str, Callable[[list[str]], str | None]] = {
            "set": self._set, "link": self._link, "unlink": self._unlink, "leave": self._leave, "join": self._join,
        }  # fmt: skip
        return rules[words[0]](words[1:])

    def _set(self, words: list[str]) -> str | None:
        if int(words[0]) not in self.devices:
            return "no-device"
        if words[1] not in self.wanted.inputs:
            return "no-input"
        return input_fault(self.wanted.inputs[words[1]], words[2])

    def _link(self, words: list[str]) -> str | None:
        a, b, (low, high) = int(words[0]), int(words[1]), self.wanted.metric
        if not {a, b} <= self.devices:
            return "no-device"
        if a == b:
            return "self-link"
        if any(not low <= int(end) <= high for end in ends_of(words[2])):
            return "weight"
        near = [self.near.setdefault(end, set()) for end in (a, b)]
        if b not in near[0] and max(map(len, near)) >= MOST_PAIRS:
            return f"limit degree {MOST_PAIRS + 1}"
        near[0].add(b)
        near[1].add(a)
        return None

    def _unlink(self, words: list[str]) -> str | None:
        a, b = int(words[0]), int(words[1])
        if not {a, b} <= self.devices:
            return "no-device"
        return None if pair_of(a, b) in self.pairs else "no-link"

    def _leave(self, words: list[str]) -> str | None:
        if int(words[0]) not in self.devices:
            return "no-device"
        return "last" if len(self.devices) == 1 else None

    def _join(self, words: list[str]) -> str | None:
        device = int(words[0])
        if device in self.scene:
            return "twice"
        if device not in self.there and len(self.there) >= MOST_DEVICES:
            return f"limit devices {MOST_DEVICES + 1}"
        self.there.add(device)
        if len(words) - 1 != len(self.wanted.inputs):
            return "no-input"
        faults = (input_fault(span, word) for span, word in zip(self.wanted.inputs.values(), words[1:]))
        return next((fault for fault in faults if fault is not None), None)


def refusal_of(base: Base, text: bytes) -> str | None:
    """The line that refuses lines of changes; nothing where they are in order."""
    lines = words_of(text)
    judge = Judge(base, declared(base.program), lines)
    for number, words in enumerate(lines, 1):
        fault = None if not words else judge.fault(words) if has_form(words) else "form"
        if fault is not None:
            return fault if fault.startswith("limit") else f"changes {number} {fault}"
    return None


# --- lines that were changed ----------------------------------------------------------------------------------------

MANY = "language 2; ceiling 9; input w: int 2..9; input src: bool; metric 1..9; main = (sense w, sumHood(nbrLink));\n"
FOUR = """\
{"devices": [{"id": 0, "inputs": {"w": 2, "src": true}}, {"id": 5, "inputs": {"w": 9, "src": false}},
             {"id": 65535, "inputs": {"w": 4, "src": false}}, {"id": 7, "inputs": {"w": 5, "src": true}}],
 "links": [[0, 5, 1], [5, 65535, 9], [7, 0, 3]]}
"""
BASES = (
    Base(HOPS, LINE, ("set 2 src any", "link 0 2 1", "unlink 1 2", "leave 1", "join 3 false", "link 3 0 1")),
    Base(
        MANY,
        FOUR,
        (
            "set 5 w 3..7", "set 0 src false", "set 8 w any", "link 0 5 2..4", "link 65535 0 any", "link 8 7 9",
            "unlink 7 0", "unlink 65535 0", "leave 65535", "leave 8", "join 8 2 any", "join 9 any true",
            "join 65534 4..9 false",
        ),
    ),
    Base("ceiling 4; main = 3;\n", '{"devices": [{"id": 3, "inputs": {}}], "links": []}\n', ("join 4", "leave 3")),
)  # fmt: skip
ODD = (
    "", "0", "00", "0000000", "1", "2", "3", "5", "7", "8", "9", "10", "127", "128", "255", "256", "65534", "65535",
    "65536", "99999", "999999", "1000000", "1000001", "9999999", "00000001", "99999999", "4294967296",
    "18446744073709551616", "-1", "+1", "1.0", "1e3", "0x1", "any", "Any", "any..any", "true", "false", "true..false",
    "1..2", "2..1", "0..0", "1..", "..1", "..", "...", "1...2", "1..2..3", "0..9999999", "0..10000000", "(1,2)",
    "((1,2),true)", "(1,2", "()", "(1,)", "(1, 2)", "set", "link", "unlink", "leave", "join", "poke", "mix", "run",
    "show", "B0", "src", "w", "def", "share", "nbrLink", "_w", "w_", "w1", "1w", "é", "#", "%%", "%", "\t", "\r",
    "\x00", "\x7f", "\xff", "²", "１",
)  # fmt: skip
FITTING = (
    ("0", "1", "2", "3", "4", "5", "7", "8", "9", "10", "65534", "65535"),
    ("src", "w", "s", "src1"),
    ("any", "true", "false", "0", "1", "2", "4", "9", "10", "0..1", "1..9", "2..9", "2..10", "1..1", "(2,true)"),
)
Mutation = Callable[[Random, list[bytes]], None]


def other_word(dice: Random, lines: list[bytes]) -> None:
    """Another word in the place of one, an odd one or one of another line; or one more, or one less."""
    at = dice.randrange(len(lines))
    words = lines[at].split(b" ")
    place = dice.randrange(len(words))
    kind = dice.randrange(6)
    if kind == 0:
        del words[place]
    elif kind == 1:
        words[place] = dice.choice(dice.choice(lines).split(b" "))
    else:
        words[place : place + (kind > 2)] = [dice.choice(ODD).encode()]
    lines[at] = b" ".join(words)


def fitting_word(dice: Random, lines: list[bytes]) -> None:
    """Another word of its kind in the place of one: of a device, an input, or what a value may be."""
    at = dice.randrange(len(lines))
    words = lines[at].split(b" ")
    place = dice.randrange(len(words))
    kind = FITTING[0 if words[place].isdigit() else 1 if words[place] in (b"src", b"w") else 2]
    if place or dice.random() < 0.1:
        words[place] = dice.choice(kind).encode()
    lines[at] = b" ".join(words)


def other_byte(dice: Random, lines: list[bytes]) -> None:
    """A byte more, less, or another one."""
    at = dice.randrange(len(lines))
    line = lines[at]
    place = dice.randint(0, len(line))
    new = bytes([dice.choice([dice.randrange(256), *b" 0123456789.,()\r\t"])])
    lines[at] = line[:place] + new * dice.randint(0, 1) + line[place + dice.randint(0, 1) :]


def other_number(dice: Random, lines: list[bytes]) -> None:
    """A number that is one more or less, or has more digits."""
    at = dice.randrange(len(lines))
    numbers = list(re.finditer(rb"[0-9]+", lines[at]))
    if numbers:
        found = dice.choice(numbers)
        new = str(max(0, int(found[0]) + dice.choice([-1, 1, 10**6, 10**7]))).encode()
        lines[at] = lines[at][: found.start()] + dice.choice([new, b"0" + found[0]]) + lines[at][found.end() :]


def other_order(dice: Random, lines: list[bytes]) -> None:
    """Lines in another order, one twice, or one less; or an empty one."""
    kind = dice.randrange(4)
    if kind == 0:
        dice.shuffle(lines)
    elif kind == 1:
        lines.insert(dice.randint(0, len(lines)), dice.choice(lines))
    elif kind == 2 and len(lines) > 1:
        del lines[dice.randrange(len(lines))]
    else:
        lines.insert(dice.randint(0, len(lines)), b"")


MUTATIONS: tuple[Mutation, ...] = (fitting_word, fitting_word, other_word, other_byte, other_number, other_order)


def mutated(dice: Random, base: Base) -> bytes:
    """The lines of a base, of which some were changed, or none."""
    lines = [line.encode() for line in base.lines]
    dice.shuffle(lines)
    for _ in range(dice.choice([0, 1, 1, 1, 2, 4])):
        dice.choice(MUTATIONS)(dice, lines)
    end = dice.choice([b"\n", b"\n", b"\r\n", b"\r\r\n"])
    text = end.join(lines) + dice.choice([b"", end])
    return text if dice.random() < 0.97 else text[: dice.randint(0, len(text))]


def huge() -> Iterator[tuple[Base, bytes]]:
    """Lines in as great numbers, and of as great a length, as an input may have, and more."""
    plain = Base("ceiling 4; main = 3;\n", '{"devices": [{"id": 0, "inputs": {}}], "links": []}\n', ())
    rest = MOST_BYTES - len(f"{plain.program}%%\n{plain.network}%%\n")
    joins = [b"join %d\n" % device for device in range(1, MOST_DEVICES + 1)]
    pairs = [b"link %d %d 1\n" % (a, (a + far) % MOST_DEVICES) for far in range(1, 65) for a in range(MOST_DEVICES)]
    yield plain, b"\n" * rest
    yield plain, b"\n" * (rest + 1)
    yield plain, b"x" * rest
    yield plain, b"join " + b"1" * (rest - 5)
    yield plain, b"join 1 " + b"(" * (rest - 7)
    yield plain, b"join 1" + b" 1" * ((rest - 6) // 2)
    yield plain, b"join 1\n" * (rest // 7)
    yield plain, b"join 1\n" + b"link 0 1 1\n" * ((rest - 7) // 11)
    yield plain, b"".join(joins[:-1])
    yield plain, b"".join(joins)
    yield plain, b"".join([*joins[:-1], *pairs])
    yield plain, b"".join([*joins[:-1], *pairs, b"link 0 512 1\n"])
    yield plain, b"".join(joins[:200]) + b"".join(b"link 0 %d 1\n" % device for device in range(1, 129))
    yield plain, b"".join(joins[:200]) + b"".join(b"link 0 %d 1\n" % device for device in range(1, 130))
    yield plain, b"%%\n" * 300_000


# --- asking ---------------------------------------------------------------------------------------------------------


def asked(base: Base, text: bytes, words: Iterable[str]) -> tuple[int, bytes]:
    """The status and the output of a call. Raises Wrong where something came on standard error."""
    given = b"%%\n".join([base.program.encode(), base.network.encode(), text])
    program = os.environ.get("FC", str(BUILT))
    done = subprocess.run([program, *words], input=given, capture_output=True, timeout=SECONDS, check=False)
    if done.stderr:
        raise Wrong(f"standard error has {done.stderr[:200]!r}")
    return done.returncode, done.stdout


def wanted_line(base: Base, text: bytes) -> str | None:
    """The refusal of an input with these lines, or nothing."""
    if len(base.program) + len(base.network) + 6 + len(text) > MOST_BYTES:
        return f"limit bytes {MOST_BYTES + 1}"
    cuts = sum(line.removesuffix(b"\r") == b"%%" for line in text.split(b"\n"))
    return f"sections {3 + cuts}" if cuts else refusal_of(base, text)


def look(base: Base, text: bytes, words: tuple[str, ...]) -> str:
    """Asks for lines, and gives the word of the answer. Raises Wrong where it isn't the one that is wanted."""
    status, output = asked(base, text, words)
    wanted, written = wanted_line(base, text), output.decode("latin-1")
    if wanted is not None:
        if (status, written) != (4 if wanted.startswith("limit") else 3, wanted + "\n"):
            raise Wrong(f"status {status} and {written[:200]!r}, and {wanted!r} is wanted")
        return wanted.split(" ")[2 if wanted.startswith("changes") else 0]
    if status != 0:
        raise Wrong(f"status {status} and {written[:200]!r}, and an answer is wanted")
    lines = [line for line in words_of(text) if line]
    devices = base.devices | {int(line[1]) for line in lines if line[0] == "join"}
    away = devices - base.devices | {int(line[1]) for line in lines if line[0] == "leave"}
    found = results.by_number(results.bounded(written).by_device)
    if sorted(devices) != list(found) or away != {one for one, held in found.items() if held.away}:
        raise Wrong(f"lines of {list(found)}, and {sorted(devices)} may be there")
    return "answered"


def tried(number: int, seed: int) -> str:
    """The lines of a number: the word of the answer. Raises Wrong."""
    dice = Random(f"{seed} {number}")
    base = dice.choice(BASES)
    text = mutated(dice, base)
    flags = ["--settle", "--changes", *["--from-table"] * dice.randint(0, 1), *["--facts"] * (dice.random() < 0.2)]
    dice.shuffle(flags)
    try:
        return look(base, text, ("check", *flags))
    except Wrong as wrong:
        raise Wrong(f"{wrong}: {flags} with {text[:2000]!r} behind {base.program!r}") from None


def looked(count: int, seed: int, jobs: int = 1) -> Counter[str]:
    """How often each word was the answer to so many inputs. Raises Wrong."""
    with ThreadPoolExecutor(jobs) as pool:
        return Counter(pool.map(lambda number: tried(number, seed), range(count)))


def looked_at_huge() -> Counter[str]:
    """The same of huge inputs."""
    return Counter(look(base, text, ("check", "--settle", "--changes")) for base, text in huge())


def main() -> int:
    parser = argparse.ArgumentParser(description=__doc__, formatter_class=argparse.RawDescriptionHelpFormatter)
    parser.add_argument("--count", type=int, default=20_000, help="how many inputs (20000)")
    parser.add_argument("--seed", type=int, default=1, help="of the random numbers (1)")
    parser.add_argument("--jobs", type=int, default=1, help="inputs at one time (1)")
    words = parser.parse_args()
    begun = time.monotonic()
    try:
        found = looked(words.count, words.seed, words.jobs) + looked_at_huge()
    except Wrong as wrong:
        print(wrong)
        return 1
    told = ", ".join(f"{count} {word}" for word, count in found.most_common())
    print(f"{found.total()} inputs: {told}; {time.monotonic() - begun:.0f} s")
    return 0


if __name__ == "__main__":
    sys.exit(main())
