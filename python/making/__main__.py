"""Writes the manual pages and the completions anew. With `--check` it writes nothing, and names what is out of date."""

from __future__ import annotations

import argparse
import sys
from pathlib import Path

TOP = Path(__file__).resolve().parent.parent.parent
sys.path.insert(0, str(TOP / "python"))

from fieldc.version import DATE, VERSION  # noqa: E402
from making import bash, fish, lines, manual, zsh  # noqa: E402


def made() -> dict[str, str]:
    """The text of each file that is made, by its path from the top of the repository."""
    fieldc, fc = lines.of_fieldc(), lines.of_fc()
    files = {"man/fieldc.1": manual.page(fieldc, VERSION, DATE), "man/fc.1": manual.page_of_fc(fc, VERSION, DATE)}
    for line in (fc, fieldc):
        files[f"completions/{line.program}.bash"] = bash.completion(line)
        files[f"completions/{zsh.file_name(line)}"] = zsh.completion(line)
        files[f"completions/{line.program}.fish"] = fish.completion(line)
    return files


def stale() -> list[str]:
    """The files that aren't what would be made."""
    return [name for name, text in made().items() if not (TOP / name).exists() or (TOP / name).read_text() != text]


def main() -> int:
    parser = argparse.ArgumentParser(prog="tools/pages", description=__doc__)
    parser.add_argument("--check", action="store_true", help="writes nothing; status 1 where a file is out of date")
    words = parser.parse_args()
    found = stale()
    for name in found:
        print(f"{name} {'is out of date: run tools/pages' if words.check else 'is rewritten'}")
        if not words.check:
            (TOP / name).parent.mkdir(exist_ok=True)
            (TOP / name).write_text(made()[name])
    return 1 if words.check and found else 0


if __name__ == "__main__":
    sys.exit(main())
