"""How many seconds rounds take, by what a user says of the devices: the rule of docs/headline.md."""

from __future__ import annotations

import argparse
from dataclasses import dataclass
from decimal import Decimal, InvalidOperation
from typing import Any

from .refusals import Fault

ROUNDS_BEHIND = ("yes", "settles", "within")


@dataclass(frozen=True)
class Pace:
    """What a user says of the devices: each begins a firing within `period` seconds of any moment, a firing ends within
    `lasts` seconds, and over message links each link has brought a message within `delivery` seconds more."""

    period: Decimal
    lasts: Decimal
    delivery: Decimal | None = None

    @property
    def of_a_round(self) -> Decimal:
        """The seconds in which a round passes."""
        return self.period + self.lasts + (self.delivery or 0)

    def seconds(self, rounds: int) -> Decimal:
        """The seconds in which so many rounds pass, from any moment on."""
        return self.of_a_round * rounds

    def text(self, rounds: int) -> str:
        """The seconds of so many rounds, as `24.2`."""
        return _plain(self.seconds(rounds))

    @property
    def premise(self) -> str:
        """What the seconds rest on."""
        parts = [f"each device begins a firing at least every {_plain(self.period)} s"]
        parts += [f"each firing ends within {_plain(self.lasts)} s"]
        if self.delivery is not None:
            parts += [f"each link delivers a message within {_plain(self.delivery)} s more"]
        return f"a round takes at most {_plain(self.of_a_round)} s where " + ", and ".join(parts)


def _plain(number: Decimal) -> str:
    """A number without an exponent, and without zeros at its end."""
    return f"{number.normalize():f}"


def seconds(word: str) -> Decimal:
    """A number of seconds: finite, and at least 0."""
    try:
        found = Decimal(word)
    except InvalidOperation:
        found = Decimal("NaN")
    if not found.is_finite() or found < 0:
        raise argparse.ArgumentTypeError(f"{word} isn't a number of seconds, such as 0.5")
    return found


def arguments(parser: argparse.ArgumentParser) -> None:
    """The options that say how fast devices are."""
    parser.add_argument(
        "--period", metavar="S", type=seconds,
        help="writes seconds beside rounds: each device begins a firing at least every S; needs --lasts",
    )  # fmt: skip
    parser.add_argument("--lasts", metavar="S", type=seconds, help="with --period: a firing takes at most S")
    parser.add_argument(
        "--delivery", metavar="S", type=seconds,
        help="with --period, over message links: each link delivers a message within S more",
    )  # fmt: skip


def pace_of(options: argparse.Namespace) -> Pace | None:
    """The pace that the options tell; None if they tell none.

    Raises Fault if they tell half of it, or of message links if nothing is promised of these.
    """
    period, lasts, delivery = (getattr(options, name, None) for name in ("period", "lasts", "delivery"))
    if period is None and lasts is None and delivery is None:
        return None
    if period is None or lasts is None:
        raise Fault("seconds need both --period, how often each device fires, and --lasts, how long a firing takes")
    if not period:
        raise Fault("--period 0 is too small: it has to be above 0")
    beside = next((name for name in ("from_table", "changes") if getattr(options, name, None)), None)
    if delivery is not None and beside is not None:
        raise Fault(f"--delivery: nothing is promised over message links with --{beside.replace('_', '-')}")
    return Pace(period, lasts, delivery)


def timed(text: str, pace: Pace) -> str:
    """What `check` wrote, with or without `--settle`: after each number of rounds the seconds in which they pass."""
    rows = [line.split(" ") for line in text.splitlines()]
    first = next((at for at, row in enumerate(rows) if row[0] in ("open", "settles", "within")), len(rows))
    for at, row in enumerate(rows):
        if (row[0] in ROUNDS_BEHIND or at > first) and row[1] != "-":
            row.insert(2, f"{pace.text(int(row[1]))}s")
    return "".join(" ".join(row) + "\n" for row in rows)


def with_seconds(found: dict[str, Any], pace: Pace) -> dict[str, Any]:
    """A result of `check` as a dictionary, with the seconds of a round and those beside each number of rounds."""

    def beside(row: dict[str, Any]) -> dict[str, Any]:
        rounds = row.get("rounds")
        return row if rounds is None else {**row, "seconds": float(pace.seconds(rounds))}

    more = {
        f"{name}_seconds": float(pace.seconds(found[name]))
        for name in ("settles", "within")
        if found.get(name) is not None
    }
    devices = {"devices": list(map(beside, found["devices"]))} if "devices" in found else {}
    own = {"verdict": beside(found["verdict"]), "round_seconds": float(pace.of_a_round)}
    return {**found, **own, **more, **devices}
