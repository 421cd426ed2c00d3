"""Reads the tables of wrong inputs in the folder `wrong`.

A case begins with `=== NAME`. `words:` are those of the command, `check` where none are said. `program:`, `network:`,
`script:`, `log:` and `changes:` begin a section; what follows is its text, up to the next word with a colon. In it
the line `repeat N "text"` stands for the text N times, and `count A B "text"` for the text for each number, in the
place of `#`; neither adds a line feed. `network: three` is three devices in a line, the first of them a source. `fc:`
is the line that `fc` writes, `at:` the place that is wanted (section, line and column, or none), `says:` the
sentence, and `try:` the hint, where it is told.

A program that is left out is a hop count, and a network three devices in a line, or one device where a program is
given.
"""

from __future__ import annotations

import json
import re
from dataclasses import dataclass, field
from pathlib import Path

import helping  # noqa: F401

from fieldc.refusals import Call, Refusal, Section

FOLDER = Path(__file__).resolve().parent / "wrong"
HOPS = "ceiling 10; input src: bool;\nmain = rep(10){(d) => minHoodLoc(nbr{d} + 1, mux(sense src, 0, 10))};\n"
ONE = '{"devices": [{"id": 0, "inputs": {}}], "links": []}\n'
THREE = """{"devices": [{"id": 0, "inputs": {"src": true}}, {"id": 1, "inputs": {"src": false}},
             {"id": 2, "inputs": {"src": false}}],
 "links": [[0, 1, 1], [1, 2, 1]]}
"""
SECTIONS = {
    "format": ("program",),
    "run": ("program", "network", "script"),
    "replay": ("program", "network", "log"),
    "mail": ("program", "network", "log"),
}
HEAD = re.compile(r"(words|status|program|network|script|log|changes|fc|at|says|try):(?: (.*))?")
REPEAT = re.compile(r'repeat (\d+) (".*")')
COUNT = re.compile(r'count (\d+) (\d+) (".*")')


@dataclass
class Wrong:
    """A wrong input, and what is wanted to be said of it."""

    name: str
    words: list[str] = field(default_factory=lambda: ["check"])
    texts: dict[str, str] = field(default_factory=dict)
    status: int = 0
    line: str = ""
    at: tuple[str, int, int] | None = None
    says: str = ""
    hint: str | None = None

    def call(self) -> Call:
        """What `fc` is asked."""
        texts = dict(self.texts)
        kinds = SECTIONS.get(self.words[0] if self.words else "", ("program", "network"))
        if "--number" in self.words:
            kinds = ("program", "network")
        if "--changes" in self.words:
            kinds = ("program", "network", "changes")
        judged_before = self.line.startswith(("usage", "sections", "limit workers", "limit bytes"))
        if judged_before or self.status > 4 or "gen" in self.words:
            kinds = tuple(texts)
        if "program" not in texts:
            texts.setdefault("network", THREE)
        texts.setdefault("program", HOPS)
        texts.setdefault("network", ONE)
        texts.setdefault("script", "")
        texts.setdefault("log", "")
        texts.setdefault("changes", "")
        return Call(tuple(self.words), tuple(Section(kind, f"{kind}.txt", 1, texts[kind]) for kind in kinds))

    def refusal(self) -> Refusal:
        """The answer of `fc`."""
        first = self.line.split(" ")[0]
        if not self.status:
            self.status = {"usage:": 2, "limit": 4, "no": 1, "open": 1}.get(first, 3)
        return Refusal(self.status, first.rstrip(":"), self.line, self.call())


def written(line: str) -> str:
    """The text for which a line of a section stands."""
    found = REPEAT.fullmatch(line)
    if found:
        return str(json.loads(found.group(2))) * int(found.group(1))
    found = COUNT.fullmatch(line)
    if found:
        numbers = range(int(found.group(1)), int(found.group(2)) + 1)
        return "".join(json.loads(found.group(3)).replace("#", str(number)) for number in numbers)
    return line + "\n"


def cases_of(path: Path) -> list[Wrong]:
    """The cases of a file."""
    found: list[Wrong] = []
    section = ""
    for line in path.read_text(encoding="utf-8").split("\n"):
        if line.startswith("=== "):
            found.append(Wrong(line[4:]))
            section = ""
            continue
        head = HEAD.fullmatch(line)
        if not found:
            continue
        if head is None:
            if section:
                found[-1].texts[section] += written(line)
            continue
        section = take(found[-1], head.group(1), head.group(2) or "")
    return found


def take(case: Wrong, key: str, rest: str) -> str:
    """Takes a line with a word and a colon; answers the section that it begins, or nothing."""
    if key in ("program", "network", "script", "log", "changes"):
        case.texts[key] = THREE if rest == "three" else ""
        return "" if rest else key
    if key == "words":
        case.words = rest.split()
    elif key == "status":
        case.status = int(rest)
    elif key == "fc":
        case.line = rest
    elif key == "at":
        words = rest.split()
        case.at = None if rest == "none" else (words[0], int(words[1]), int(words[2]))
    elif key == "says":
        case.says = rest
    elif key == "try":
        case.hint = rest
    return ""


def all_cases() -> list[tuple[str, Wrong]]:
    """All cases, each with the name of its file."""
    return [(path.stem, case) for path in sorted(FOLDER.glob("*.txt")) for case in cases_of(path)]
