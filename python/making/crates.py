"""The layers of crates.txt, the graph of who stands on whom, and its picture, which Graphviz draws."""

from __future__ import annotations

import re
import subprocess
from collections.abc import Mapping
from graphlib import TopologicalSorter
from pathlib import Path

TOP = Path(__file__).resolve().parent.parent.parent
PICTURE = TOP / "docs/pictures/crates.svg"
LOOK = """\
digraph crates {
 graph [rankdir=TB, ranksep=0.45, nodesep=0.12, bgcolor=white, fontname="sans-serif", fontsize=13]
 node [shape=box, style="rounded,filled", fillcolor="#eef3fb", color="#4a6fa5", fontname="sans-serif", fontsize=11]
 node [height=0.28, margin="0.08,0.04"]
 edge [color="#55555599", arrowsize=0.5, penwidth=0.8]
"""


def layers() -> dict[str, list[str]]:
    """The crates of each layer of crates.txt, from the base on."""
    found: dict[str, list[str]] = {}
    for line in (TOP / "crates.txt").read_text().splitlines():
        if line.startswith("# "):
            layer = line.removeprefix("# ").lower()
            found[layer] = []
        elif ":" in line:
            found[layer].append(line.partition(":")[0].split()[0])
    return found


def graph() -> dict[str, set[str]]:
    """The crates of the repository that each one names in crates.txt."""
    rows = [line.partition(":") for line in (TOP / "crates.txt").read_text().splitlines() if not line.startswith("#")]
    named = {name.split()[0]: set(words.split()) for name, mark, words in rows if mark}
    return {name: words & named.keys() for name, words in named.items()}


def reduced(named: Mapping[str, set[str]]) -> dict[str, list[str]]:
    """Each crate with those that it names and that no other one of those stands on."""
    below: dict[str, set[str]] = {}
    for name in TopologicalSorter(named).static_order():
        below[name] = named[name].union(*(below[other] for other in named[name]))
    return {name: sorted(named[name] - set().union(*(below[other] for other in named[name]))) for name in named}


def described() -> str:
    """The graph in the language of Graphviz: a box a layer, and an arrow from each crate to those it stands on."""
    lines = [LOOK]
    for number, (layer, crates) in enumerate(layers().items()):
        lines.append(f' subgraph cluster_{number} {{ label="{layer}"; labeljust=l; color="#bbbbbb"; style=rounded')
        lines += [f"  {crate}" for crate in crates]
        lines.append(" }")
    lines += [f" {name} -> {other}" for name, others in reduced(graph()).items() for other in others]
    return "\n".join([*lines, "}", ""])


def draw(path: Path = PICTURE) -> None:
    """Draws the picture. Without Graphviz (Debian: graphviz) it raises FileNotFoundError."""
    done = subprocess.run(["dot", "-Tsvg"], input=described(), capture_output=True, text=True, check=True)
    path.write_text(re.sub(r"<!--.*?-->\n?", "", done.stdout, flags=re.DOTALL))


def arrows(drawn: str) -> set[tuple[str, str]]:
    """The arrows of a picture that was drawn here."""
    return set(re.findall(r"<title>(\w+)&#45;&gt;(\w+)</title>", drawn))
