"""Makes the pictures of docs/blocks.md: the programs of the page, solved by `fc` and drawn by `fieldc picture`."""

from __future__ import annotations

import io
import re
import tempfile
from pathlib import Path

import block_cases as cases
from fieldc import blocks, composing as compose
from fieldc.command import main

PAGE = cases.ROOT / "docs" / "blocks.md"
PICTURES = cases.ROOT / "docs" / "pictures"
POSITIONS = cases.ROOT / "examples" / "blocks_positions.csv"
PROGRAM = re.compile(r"^```fc\n(.*?)^```\n.*?!\[([^\]]*)\]\(pictures/([^)]*)\)", re.MULTILINE | re.DOTALL)
COLOURS = 256
OF_NUMBERS = ("nearest(", "evacuate(")


def marks(code: str) -> list[str]:
    """The inputs that a program names and that are true at few devices, for `--mark`."""
    return [name for name in ("source", "goal", "beacon", "blocked") if f"sense {name}" in code]


def shrunk(path: Path) -> None:
    """Makes the file of a picture smaller by giving it a palette."""
    from PIL import Image

    image = Image.open(io.BytesIO(path.read_bytes())).convert("RGB")
    image.quantize(COLOURS, dither=Image.Dither.NONE).save(path, optimize=True)


def draw(code: str, title: str, path: Path) -> None:
    """Draws what the devices of the page's network hold for a program."""
    library = blocks.read_library([cases.ROOT / "library"])
    with tempfile.TemporaryDirectory() as folder:
        program, network = Path(folder) / "program.fc", Path(folder) / "network.json"
        program.write_text(compose.compose(cases.HEAD + code, library))
        network.write_text(cases.scenes()[0].text())
        words = [str(program), str(network), "--of", "stable", "--positions", str(POSITIONS)]
        words += ["--title", title, "-o", str(path)]
        words += ["--numbers"] * any(block in code for block in OF_NUMBERS)
        status = main(["picture", *words, *(word for name in marks(code) for word in ("--mark", name))])
    if status != 0:
        raise SystemExit(status)
    shrunk(path)


def draw_all() -> None:
    """Draws each program of the page that has a picture."""
    for code, title, name in PROGRAM.findall(PAGE.read_text()):
        draw(code, title, PICTURES / name)
        print(f"{name}: {(PICTURES / name).stat().st_size:,} bytes")
