"""Where the parts of the repository stand that the gate reads."""

from __future__ import annotations

from pathlib import Path

TOP = Path(__file__).resolve().parent.parent.parent
CRATES = TOP / "crates"
WRONG = TOP / "wrong"
PROGRAM = CRATES / "fc_program/out/fc_program"


def libraries() -> dict[str, list[str]]:
    """Each crate of crates.txt with the crates of the repository that its line names."""
    lines = [line.partition("#")[0].partition(":") for line in (TOP / "crates.txt").read_text().splitlines()]
    named = {name.split()[0]: rest.split() for name, _, rest in lines if name.split()}
    return {name: [other for other in rest if other in named] for name, rest in named.items()}
