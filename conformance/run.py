#!/usr/bin/python3
"""Runs the conformance cases of this folder on a program that answers as `fc` does.

README.md beside this file has the format of the cases. A case passes where the status and every byte of the output are
as expected and nothing came on standard error. The last line is `N passed, N failed`; the status is 0 where all passed,
1 where one failed, and 2 where a case file isn't in the format or no case was chosen.

Needs Python 3.9 or later, and nothing beside its standard library.
"""

from __future__ import annotations

import argparse
import os
import re
import shlex
import subprocess
import sys
from collections.abc import Iterable, Iterator
from concurrent.futures import ThreadPoolExecutor
from dataclasses import dataclass, field
from pathlib import Path

HERE = Path(__file__).resolve().parent
SECONDS = 20.0
KINDS = ("plain", "log-replayed", "log-counted")
SECTIONS = ("program", "network", "script", "log", "changes", "section")
SEPARATOR = b"%%\n"
HEAD = re.compile(rb"(words|status|timeout|kind|then):(?: (.*))?")
PART = re.compile(rb"([a-z]+):")
ESCAPES = {b"n": b"\n", b"r": b"\r", b"t": b"\t", b"\\": b"\\", b'"': b'"'}
QUOTED = re.compile(rb'"((?:[^"\\]|\\x[0-9a-fA-F]{2}|\\[nrt\\"])*)"')
ESCAPE = re.compile(rb"\\(?:x([0-9a-fA-F]{2})|(.))")


class FormatError(Exception):
    """A case file isn't in the format of README.md; the text says where and why."""


@dataclass
class Case:
    """One call, with what it has to answer."""

    theme: str
    name: str
    place: str
    words: list[str] | None = None
    status: int = 0
    seconds: float = SECONDS
    kind: str = "plain"
    then: list[str] = field(default_factory=lambda: ["replay"])
    sections: list[bytes] = field(default_factory=list)
    raw: bytes | None = None
    expect: bytes | None = None

    def input(self) -> bytes:
        """What the call gets on standard input."""
        return SEPARATOR.join(self.sections) if self.raw is None else self.raw

    def call(self) -> list[str]:
        """The words of the call."""
        return self.words or []

    def expected(self) -> bytes:
        """What the call has to write."""
        return self.expect or b""


# --- reading --------------------------------------------------------------------------------------------------------


def unquoted(text: bytes, place: str) -> tuple[bytes, bytes]:
    """A quoted text at the front: its bytes, and what stands behind it."""
    found = QUOTED.match(text)
    if found is None:
        raise FormatError(f"{place}: a quoted text is missing, has no end or an unknown escape")
    content = ESCAPE.sub(lambda it: bytes([int(it[1], 16)]) if it[1] else ESCAPES[it[2]], found[1])
    return content, text[found.end():].strip()


def alone(text: bytes, place: str) -> bytes:
    """A quoted text behind which nothing stands."""
    content, rest = unquoted(text.strip(), place)
    if rest:
        raise FormatError(f"{place}: something stands behind the quoted text")
    return content


def counted(text: bytes, place: str) -> bytes:
    """What `count A B "between" "text"` stands for, without its first word."""
    first, last, rest = text.split(b" ", 2)
    between, rest = unquoted(rest.strip(), place)
    pattern = alone(rest, place)
    return between.join(pattern.replace(b"#", b"%d" % number) for number in range(int(first), int(last) + 1))


def body(line: bytes, place: str, blocks: dict[str, bytes]) -> bytes:
    """The bytes for which one line of a body stands."""
    if line == b"|":
        return b"\n"
    if line.startswith(b"| "):
        return line[2:] + b"\n"
    if line.startswith(b"> "):
        return line[2:]
    if line.startswith(b'"'):
        return alone(line, place)
    word, _, rest = line.partition(b" ")
    if word == b"use" and rest.strip().decode() in blocks:
        return blocks[rest.strip().decode()]
    if word == b"repeat":
        number, _, text = rest.partition(b" ")
        return alone(text, place) * int(number)
    if word == b"count":
        return counted(rest, place)
    raise FormatError(f"{place}: not a line of a body, or a block that isn't there: {line.decode(errors='replace')}")


def lines_of(file: Path) -> Iterator[tuple[str, bytes]]:
    """The lines of a file that are no comment and not empty, each with its place."""
    for number, line in enumerate(file.read_bytes().split(b"\n"), 1):
        if line and not line.startswith(b"#"):
            yield f"{file.name}:{number}", line


def read_blocks(file: Path) -> dict[str, bytes]:
    """The texts that many cases share, by their names."""
    blocks: dict[str, bytes] = {}
    name = ""
    for place, line in lines_of(file):
        if line.startswith(b"--- "):
            name = line[4:].strip().decode()
            if name in blocks:
                raise FormatError(f"{place}: the block {name} stands twice")
            blocks[name] = b""
        elif name:
            blocks[name] += body(line, place, blocks)
        else:
            raise FormatError(f"{place}: a line outside a block")
    return blocks


def head(case: Case, key: str, value: str, place: str) -> None:
    """Takes a line that says how a case is called."""
    if key in ("words", "then"):
        setattr(case, key, shlex.split(value))
    elif key == "status":
        case.status = int(value)
    elif key == "timeout":
        case.seconds = float(value)
    elif value in KINDS:
        case.kind = value
    else:
        raise FormatError(f"{place}: unknown kind {value}")


def begin(case: Case, part: str, place: str) -> str:
    """Begins a part of a case, and gives the name under which its lines are taken."""
    if part in SECTIONS:
        case.sections.append(b"")
        return "section"
    if part == "raw" and case.raw is None:
        case.raw = b""
    elif part == "expect" and case.expect is None:
        case.expect = b""
    else:
        raise FormatError(f"{place}: unknown or second part {part}")
    return part


def take(case: Case, part: str, text: bytes, place: str) -> None:
    """Adds a line's text to a part of a case."""
    if part == "section":
        case.sections[-1] += text
    elif part == "raw":
        case.raw = (case.raw or b"") + text
    elif part == "expect":
        case.expect = (case.expect or b"") + text
    else:
        raise FormatError(f"{place}: a line outside a part")


def whole(case: Case) -> Case:
    """The case, if nothing of it is missing."""
    if case.words is None or case.expect is None:
        raise FormatError(f"{case.place}: the words or what is expected are missing")
    if case.raw is not None and case.sections:
        raise FormatError(f"{case.place}: both raw and sections")
    if any(text and not text.endswith(b"\n") for text in case.sections[:-1]):
        raise FormatError(f"{case.place}: a section that isn't the last has no line feed at its end")
    return case


def read_cases(file: Path, blocks: dict[str, bytes]) -> Iterator[Case]:
    """The cases of a file."""
    case: Case | None = None
    part = ""
    for place, line in lines_of(file):
        if line.startswith(b"=== "):
            if case is not None:
                yield whole(case)
            case, part = Case(file.stem, line[4:].strip().decode(), place), ""
        elif case is None:
            raise FormatError(f"{place}: a line before the first case")
        elif found := HEAD.fullmatch(line):
            head(case, found[1].decode(), (found[2] or b"").decode(), place)
            part = ""
        elif found := PART.fullmatch(line):
            part = begin(case, found[1].decode(), place)
        else:
            take(case, part, body(line, place, blocks), place)
    if case is not None:
        yield whole(case)


def read_all(folder: Path = HERE) -> list[Case]:
    """All cases of the folder, whose names are distinct."""
    blocks = read_blocks(folder / "common.blocks")
    cases = [case for file in sorted(folder.glob("*.case")) for case in read_cases(file, blocks)]
    places: dict[str, str] = {}
    for case in cases:
        if case.name in places:
            raise FormatError(f"{case.place}: the name stands also at {places[case.name]}")
        places[case.name] = case.place
    return cases


# --- running --------------------------------------------------------------------------------------------------------


@dataclass(frozen=True)
class Reply:
    """How a call ended."""

    status: int
    output: bytes
    errors: bytes


class Failed(Exception):
    """A call that can't be compared; the text says why."""


def called(program: str, words: list[str], content: bytes, seconds: float) -> Reply:
    """Runs the program once. Raises Failed."""
    try:
        done = subprocess.run([program, *words], input=content, capture_output=True, timeout=seconds, check=False)
    except subprocess.TimeoutExpired:
        raise Failed(f"no answer within {seconds:g} seconds") from None
    except OSError as error:
        raise Failed(f"can't be started: {error.strerror}") from None
    return Reply(done.returncode, done.stdout, done.stderr)


def log_of(reply: Reply) -> bytes:
    """The log that a run wrote behind its line `log`. Raises Failed."""
    if reply.status:
        raise Failed(f"the run ended with status {reply.status}")
    _, mark, log = reply.output.partition(b"\nlog\n")
    if not mark:
        raise Failed("the run wrote no line that is `log`")
    return log


def in_flight(lines: list[bytes], device: bytes, wanted: bytes) -> bool:
    """Whether a line stands once in a log, while the firing with which the log begins is in flight."""
    begins = [place for place, line in enumerate(lines) if line.startswith(b"B")]
    places = [place for place, line in enumerate(lines) if line == wanted]
    if len(places) != 1 or not begins or lines[begins[0]] != b"B" + device:
        return False
    ends = [place for place in range(begins[0], len(lines)) if lines[place] == b"E" + device]
    return bool(ends) and begins[0] < places[0] < ends[0]


def counts_of(case: Case, log: bytes) -> bytes:
    """What a log has of each line that a case counts, in the form of what it expects. Raises Failed."""
    lines = log.split(b"\n")
    told = []
    for wanted in case.expected().split(b"\n")[:-1]:
        if found := re.fullmatch(rb"in flight of (\d+): (.*)", wanted):
            told.append(wanted if in_flight(lines, found[1], found[2]) else b"not " + wanted)
        elif found := re.fullmatch(rb"(\d+) (.*)", wanted):
            told.append(b"%d %s" % (lines.count(found[2]), found[2]))
        else:
            raise Failed("a case that counts expects counts")
    return b"\n".join(told) + b"\n"


def answered(program: str, case: Case) -> Reply:
    """What the program answers to a case. Raises Failed."""
    first = called(program, case.call(), case.input(), case.seconds)
    if case.kind == "plain":
        return first
    log = log_of(first)
    if case.kind == "log-counted":
        return Reply(first.status, counts_of(case, log), first.errors)
    again = called(program, case.then, SEPARATOR.join([*case.sections[:2], log]), case.seconds)
    return Reply(again.status, again.output, first.errors + again.errors)


def shown(line: bytes) -> str:
    """A line for a person, cut where it is long."""
    text = line.decode("utf-8", "backslashreplace")
    text = "".join(mark if mark.isprintable() else f"\\x{ord(mark):02x}" for mark in text)
    return text if len(text) <= 160 else f"{text[:120]} ... ({len(text)} characters)"


def differences(wanted: bytes, given: bytes) -> Iterator[str]:
    """Where two texts part, with three lines of each."""
    texts = wanted.split(b"\n"), given.split(b"\n")
    same = next((at for at, (one, other) in enumerate(zip(*texts)) if one != other), min(map(len, texts)))
    yield f"from line {same + 1} of the output on (- expected, + given):"
    for sign, lines in zip("-+", texts):
        yield from (f"  {sign} {shown(line)}" for line in lines[same:same + 3] or [b"(end of output)"])


def complaints(program: str, case: Case) -> list[str]:
    """What is wrong with the program's answer to a case; nothing where it passes."""
    try:
        reply = answered(program, case)
    except Failed as failed:
        return [str(failed)]
    told = []
    if reply.status != case.status:
        told.append(f"status: expected {case.status}, given {reply.status}")
    if reply.output != case.expected():
        told += differences(case.expected(), reply.output)
    if reply.errors:
        told.append(f"standard error isn't empty: {shown(reply.errors.splitlines()[0])}")
    return told


def run(program: str, cases: list[Case], jobs: int) -> int:
    """Runs cases side by side, tells of each that fails, and gives how many did."""
    failed = 0
    with ThreadPoolExecutor(jobs) as pool:
        for case, told in zip(cases, pool.map(lambda it: complaints(program, it), cases)):
            if told:
                failed += 1
                print(f"FAILED {case.theme}: {case.name} ({case.place})", *told, sep="\n    ", flush=True)
    return failed


def chosen(cases: Iterable[Case], words: argparse.Namespace) -> list[Case]:
    """The cases that the options ask for."""
    found = [it for it in cases if words.theme in (None, it.theme) and words.command in (None, *it.call()[:1])]
    exact = [it for it in found if it.name == words.only]
    return exact or [it for it in found if words.only is None or words.only.lower() in it.name.lower()]


def main() -> int:
    as_it_is = argparse.RawDescriptionHelpFormatter
    parser = argparse.ArgumentParser(description=__doc__, formatter_class=as_it_is)
    parser.add_argument("program", metavar="PROGRAM", help="the path of the program")
    parser.add_argument("--only", metavar="NAME", help="the case of this name, or those with this text in their names")
    parser.add_argument("--theme", metavar="THEME", help="the cases of this file, named without .case")
    parser.add_argument("--command", metavar="COMMAND", help="the cases of this command")
    parser.add_argument("--list", action="store_true", help="lists the cases and runs none")
    parser.add_argument("--jobs", metavar="N", type=int, default=os.cpu_count() or 1, help="cases run at one time")
    words = parser.parse_args()
    try:
        cases = chosen(read_all(), words)
    except FormatError as error:
        print(error)
        return 2
    if words.list:
        print(*(f"{case.theme}: {case.name}" for case in cases), f"{len(cases)} cases", sep="\n")
        return 0
    if not cases:
        print("no case is chosen")
        return 2
    failed = run(os.path.abspath(words.program), cases, max(1, words.jobs))
    print(f"{len(cases) - failed} passed, {failed} failed")
    return 1 if failed else 0


if __name__ == "__main__":
    sys.exit(main())
