"""Files of the user, and the sections that stand in them."""

from __future__ import annotations

import codecs
import sys
from collections.abc import Sequence
from pathlib import Path

from .program import bytes_of, text_of
from .refusals import Fault, Section
from .streams import pour

KINDS = {
    "format": ("program",),
    "check": ("program", "network"),
    "settle": ("program", "network"),
    "stable": ("program", "network"),
    "trace": ("program", "network"),
    "run": ("program", "network", "script"),
    "replay": ("program", "network", "log"),
    "mail": ("program", "network", "log"),
}
PICTURES = (".svg", ".png", ".pdf")
PAGES = (".html",)


def read(name: str) -> str:
    """The text of a file, or of standard input for `-`.

    Raises Fault, of status 5, if it can't be read, and of status 3 if it isn't a text.
    """
    called = "standard input" if name == "-" else name
    try:
        content = sys.stdin.buffer.read() if name == "-" else Path(name).read_bytes()
    except OSError as error:
        raise Fault(f"{called} can't be read: {error.strerror}", 5) from None
    if content.startswith((codecs.BOM_UTF16_LE, codecs.BOM_UTF16_BE)):
        raise Fault(f"{called} is in UTF-16: save it as UTF-8", 3)
    if b"\0" in content:
        raise Fault(f"{called} is a binary file, not text: byte {content.index(0):,} is zero", 3)
    return text_of(content)


def write(name: str, text: str) -> None:
    """Writes a text to a file, or to standard output for `-`. Raises Fault, of status 6, if it can't be written."""
    if name == "-":
        return pour(bytes_of(text))
    try:
        Path(name).write_bytes(bytes_of(text))
    except OSError as error:
        raise Fault(f"{name} can't be written: {error.strerror}", 6) from None


def cut(name: str, text: str) -> list[tuple[int, str]]:
    """The sections of a text, each with the line on which it begins; lines that are exactly `%%` part them."""
    found: list[tuple[int, list[str]]] = [(1, [])]
    for number, line in enumerate(_lines(text), 1):
        if line in ("%%", "%%\n", "%%\r\n"):
            found.append((number + 1, []))
        else:
            found[-1][1].append(line)
    return [(first, "".join(lines)) for first, lines in found]


def _lines(text: str) -> list[str]:
    """The lines of a text, each with its line feed: a carriage return alone ends none."""
    parts = text.split("\n")
    return [part + "\n" for part in parts[:-1]] + ([parts[-1]] if parts[-1] else [])


def sections(names: Sequence[str], kinds: Sequence[str]) -> tuple[Section, ...]:
    """The sections of some files, one after the other; a file may have several. `kinds` names them in their order.

    There may be more or fewer sections than kinds: `fc` refuses them. Raises Fault if standard input is named twice.
    """
    if list(names).count("-") > 1:
        raise Fault("standard input can be read only once: use a single -")
    parts = [(name, first, text) for name in names for first, text in cut(name, read(name))]
    named = [kinds[place] if place < len(kinds) else "section" for place in range(len(parts))]
    return tuple(Section(kind, name, first, text) for kind, (name, first, text) in zip(named, parts))


def writable(name: str, endings: Sequence[str] = ()) -> str:
    """The name of a file that will be written, looked at before anything is computed.

    Raises Fault if its ending is none of `endings`, or its folder isn't there, or it can't be written.
    """
    path = Path(name)
    if endings and path.suffix.lower() not in endings:
        raise Fault(f"{name}: this file's name has to end in {' or '.join(endings)}")
    if not path.parent.is_dir():
        raise Fault(f"{name}: there is no folder {path.parent}", 6)
    if path.is_dir():
        raise Fault(f"{name} is a folder", 6)
    return name
