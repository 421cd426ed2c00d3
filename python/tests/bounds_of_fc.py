"""Programs on networks that change, and what `fc check --settle --changes` writes of them: by the definition, worked
out apart from the program."""

from __future__ import annotations

import json
import os
import shlex
from dataclasses import dataclass
from pathlib import Path

from helping import HOPS, LINE


@dataclass(frozen=True)
class Case:
    """A program, a network, what may change, and what is written of them."""

    program: str
    network: str
    changes: str
    written: str
    from_table: bool = False

    @property
    def words(self) -> list[str]:
        """The words behind `fc`."""
        return ["check", "--settle", *["--from-table"] * self.from_table, "--changes"]


def scene(inputs: dict[int, dict[str, object]], links: list[list[int]]) -> str:
    """The scene of devices with these inputs, and of links."""
    devices = [{"id": device, "inputs": own} for device, own in inputs.items()]
    return json.dumps({"devices": devices, "links": links}) + "\n"


def sources(name: str, count: int) -> dict[int, dict[str, object]]:
    """So many devices, of which the first is a source by this input."""
    return {device: {name: device == 0} for device in range(count)}


def line(count: int) -> list[list[int]]:
    """The links of so many devices in a line."""
    return [[device, device + 1, 1] for device in range(count - 1)]


NOTHING = Case(HOPS, LINE, "", "yes 22\nwithin 5\n0 1 0\n1 3 1\n2 5 2\n")
LINK_GOES = Case(HOPS, LINE, "unlink 1 2\n", "yes 22\nwithin 3\n0 1 0\n1 3 1\n2 3 2..10\n")
LINK_COMES = Case(HOPS, LINE, "link 0 2 1\n", "yes 22\nwithin 5\n0 1 0\n1 3 1\n2 5 1..2\n")
MIDDLE_AWAY = Case(HOPS, LINE, "leave 1\n", "yes 22\nwithin 3\n0 1 0\n1 1 1..10 away\n2 3 2..10\n")
ONE_COMES = Case(
    HOPS, LINE, "join 3 any\nlink 2 3 1\n", "yes 22\nwithin 5\n0 1 0\n1 3 1\n2 5 1..2\n3 0 0..10 away\n"
)  # fmt: skip
ANY_SOURCE = Case(HOPS, LINE, "set 0 src any\n", "yes 22\nwithin 3\n0 1 0..10\n1 1 1..10\n2 3 2..10\n")

CROWD = Case(
    "language 2;\nceiling 100;\ninput exit: bool;\nmetric 1..10;\n"
    "main = share(100){(d) => minHoodLoc(d + nbrLink, mux(sense exit, 0, 100))};\n",
    scene(
        sources("exit", 6),
        [
            [0, 1, 7], [0, 4, 9], [1, 2, 7], [1, 4, 7], [1, 5, 9], [2, 3, 7], [2, 4, 10], [2, 5, 7], [3, 5, 7],
            [4, 5, 9],
        ],
    ),
    "link 0 1 5..9\nlink 0 4 7..10\nunlink 0 4\nlink 1 2 5..9\nlink 1 4 5..9\nlink 1 5 7..10\nunlink 1 5\n"
    "link 2 3 5..9\nlink 2 4 8..10\nunlink 2 4\nlink 2 5 5..9\nlink 3 5 5..9\nlink 4 5 7..10\nunlink 4 5\n",
    "yes 102\nwithin 4\n0 1 0\n1 2 5..9\n2 3 10..18\n3 4 15..27\n4 3 7..18\n5 4 12..27\n",
)  # fmt: skip
SMOKE = Case(
    "language 2;\nceiling 3;\ninput smoke: bool;\n"
    "main = share(3){(d) => minHoodLoc(d + 1, mux(sense smoke, 0, 3))} < 3;\n",
    scene(sources("smoke", 8), line(8)),
    "set 5 smoke any\n",
    "yes 5\nwithin 3\n0 1 true\n1 2 true\n2 3 true\n3 1 any\n4 1 any\n5 1 any\n6 1 any\n7 1 any\n",
)
DRIFT = Case(
    "ceiling 60;\ninput temp: int 0..60;\n"
    "main = (maxHoodLoc(nbr{sense temp}, sense temp), anyHood(25 < nbr{sense temp}));\n",
    scene({device: {"temp": temp} for device, temp in enumerate([20, 22, 19, 27])}, line(4)),
    "set 1 temp 20..26\nset 2 temp 17..21\n",
    "yes 2\nwithin 2\n0 2 (20..26,any)\n1 2 (20..26,false)\n2 2 (27,true)\n3 2 (27,false)\n",
)
GUIDE = Case(
    "language 2;\nceiling 20;\ninput guide: bool;\n"
    "main = share(20){(d) => minHoodLoc(d + 1, mux(sense guide, 0, 20))};\n",
    scene(sources("guide", 6), line(6)),
    "join 9 true\nlink 9 3 1\nlink 9 4 1\nlink 9 5 1\n",
    "yes 22\nwithin 6\n0 1 0\n1 2 1\n2 3 2\n3 4 1..3\n4 5 1..4\n5 6 1..5\n9 1 0 away\n",
)
SINK = (
    "language 2;\nceiling 10;\ninput sink: bool;\n"
    "main = share(10){(d) => minHoodLoc(d + 1, mux(sense sink, 0, 10))};\n"
)
WAYS = [[0, 1, 1], [1, 2, 1], [0, 3, 1], [3, 4, 1], [4, 2, 1], [2, 5, 1]]
AWAY = Case(
    SINK,
    scene(sources("sink", 6), WAYS),
    "leave 1\n",
    "yes 12\nwithin 5\n0 1 0\n1 1 1..10 away\n2 4 2..3\n3 2 1\n4 3 2\n5 5 3..4\n",
)
TABLE = [{"id": device, "value": hops, "kept": [hops]} for device, hops in enumerate([0, 1, 2, 1, 2, 3])]
AWAY_FROM_TABLE = Case(
    SINK,
    json.dumps({**json.loads(AWAY.network), "table": TABLE}) + "\n",
    "leave 1\n",
    "yes 12\nwithin 0\n0 0 0 0\n1 0 1..10 1..10 away\n2 0 2..3 2..3\n3 0 1 1\n4 0 2 2\n5 0 3..4 3..4\n",
    from_table=True,
)
EXAMPLES = {"crowd": CROWD, "smoke": SMOKE, "drift": DRIFT, "guide": GUIDE, "away": AWAY, "table": AWAY_FROM_TABLE}
OTHERS = (NOTHING, LINK_GOES, LINK_COMES, MIDDLE_AWAY, ONE_COMES, ANY_SOURCE)

PLAYER = """#!/bin/sh
case "$*" in
    *--changes*) cat >/dev/null && exec cat {answer} ;;
    *) exec {real} "$@" ;;
esac
"""


def wrong_program(folder: Path, written: str) -> str:
    """A program that writes this text where it is asked what holds while a network changes, and is `fc` else."""
    path, answer = folder / "wrong_fc", folder / "written.txt"
    answer.write_text(written)
    path.write_text(PLAYER.format(answer=shlex.quote(str(answer)), real=shlex.quote(os.environ["FC"])))
    path.chmod(0o755)
    return str(path)
