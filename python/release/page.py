"""Makes the page `play.html` of its sources in `page`: one file, with the module, the blocks and the examples in it."""

from __future__ import annotations

import base64
import gzip
import json
import re
from collections.abc import Iterator
from pathlib import Path

from fieldc.blocks import Block, own_library, read_library
from fieldc.version import VERSION
from gate.places import TOP

from .library import OUT, Failed

FOLDER = TOP / "page"
BLOCKS = TOP / "docs/blocks.md"
MADE = OUT / "play.html"
IMPORT = re.compile(r'^import [^;]*? from "([^"]+)";\n', re.MULTILINE | re.DOTALL)
EXPORT = re.compile(r"^export (?=(?:async )?(?:const|let|function|class) )", re.MULTILINE)
NAMED = re.compile(r"^(?:async )?(?:const|let|function|class) (\w+)", re.MULTILINE)
PLACE = re.compile(r"@([A-Z]+)@")
SECTION = re.compile(r"^## The blocks\n(.*?)^## ", re.MULTILINE | re.DOTALL)
GROUP = re.compile(r"^### (.*)\n|^\| [^|]* \| `(\w+)\(", re.MULTILINE)
# a name for people, and the example's program with its network, and what may change in those that are called so
EXAMPLES = (
    ("Field: hops to a gateway, with paths", "sensor_field_trace"),
    ("Field: the next mote on the way", "blocks_field"),
    ("Channel between two groups", "channel_stable"),
    ("Crowd: nearest beacon, a no that settles", "crowd_settle"),
    ("Crowd: where it is too crowded", "blocks_crowd"),
    ("Crowd: phones that walk, with bounds", "phones_changes"),
    ("Leader: the least number of all", "blocks_leader"),
    ("Regions: the mean of each", "blocks_region_mean"),
    ("Building: ways out of a fire", "blocks_evacuation"),
)


def scripts(file: Path, taken: list[Path]) -> Iterator[str]:
    """A script of modules: what a module imports, and then itself, each once."""
    if file in taken:
        return
    taken.append(file)
    text = file.read_text()
    for name in IMPORT.findall(text):
        yield from scripts((file.parent / name).resolve(), taken)
    yield EXPORT.sub("", IMPORT.sub("", text)).lstrip("\n")


def script(name: str) -> str:
    """The script of a module of the page, with all that it imports. Raises Failed if two names are one."""
    text = "".join(scripts(FOLDER / name, []))
    names = NAMED.findall(text)
    twice = sorted({name for name in names if names.count(name) > 1})
    if twice:
        raise Failed(f"page: {', '.join(twice)}: a name of two modules")
    if "</script" in text.lower():
        raise Failed(f"page/{name}: a script can't have its own end in it")
    return text


def groups() -> dict[str, str]:
    """The group of each block, by name: its heading in docs/blocks.md, in the order of that page."""
    section, group = SECTION.search(BLOCKS.read_text()), ""
    found: dict[str, str] = {}
    for heading, name in GROUP.findall(section[1] if section else ""):
        group = heading or group
        if name:
            found.setdefault(name, group)
    return found


def block_data(block: Block, group: str) -> dict[str, object]:
    """A block as the page wants it."""
    return {
        "name": block.name, "group": group, "call": block.call, "gives": block.gives,
        "needs": block.notes.get("Needs", ""), "text": block.text, "calls": block.calls,
        "isSecond": block.second_language, "isPart": block.is_part,
    }  # fmt: skip


def blocks() -> list[dict[str, object]]:
    """The blocks of the library, in the order of docs/blocks.md; parts of blocks, which it doesn't list, come last.
    Raises Failed if it doesn't list a block."""
    library, known = read_library([own_library()]), groups()
    parts = sorted(name for name, block in library.items() if block.is_part)
    if missing := sorted({*library} - {*known, *parts}):
        raise Failed(f"docs/blocks.md has no row for {', '.join(missing)}")
    return [block_data(library[name], known.get(name, "")) for name in (*known, *parts)]


def examples() -> list[dict[str, str]]:
    """The examples: programs as a user writes them, with their networks and what may change in them."""
    folder, found = TOP / "examples", []
    for name, file in EXAMPLES:
        program, scene, *rest = (folder / f"{file}.txt").read_text().split("\n%%\n")
        own, changes = folder / f"{file}.fc", rest[0] if file.endswith("_changes") else ""
        text = own.read_text() if own.exists() else f"{program}\n"
        found.append({"name": name, "program": text, "scene": scene, "changes": changes})
    return found


def data() -> str:
    """The blocks and the examples, as JSON that may stand in a page."""
    return json.dumps({"blocks": blocks(), "examples": examples()}, separators=(",", ":")).replace("<", "\\u003c")


def packed(module: bytes) -> str:
    """A module packed by gzip, in base 64. The same bytes give the same text."""
    return base64.b64encode(gzip.compress(module, 9, mtime=0)).decode()


def text(module: bytes) -> str:
    """The page with a module. Raises Failed."""
    parts = {
        "STYLE": (FOLDER / "style.css").read_text(),
        "DATA": data(),
        "MODULE": packed(module),
        "WORKER": script("worker.mjs"),
        "SCRIPT": script("play.mjs"),
        "MADE": f"fc {VERSION}",
    }
    return PLACE.sub(lambda found: parts[found[1]], (FOLDER / "play.html").read_text())


def make(module: Path) -> Path:
    """Makes the page with a module, and gives its file. Raises Failed."""
    MADE.parent.mkdir(parents=True, exist_ok=True)
    MADE.write_text(text(module.read_bytes()))
    return MADE
