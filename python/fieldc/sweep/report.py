"""What came of a sweep: in a few lines, as a picture, and as a page of HTML that needs nothing beside it."""

from __future__ import annotations

import base64
import html
import io
import math
import re
from collections import Counter
from collections.abc import Sequence
from dataclasses import dataclass
from pathlib import Path
from typing import Any

from ..drawing import pyplot_ready, saved
from ..refusals import Fault
from .rows import Row

WORST = 10
ONE, SEVERAL, BAD, BOUND = "#1f4e9c", "#e08214", "#b2182b", "#d6381e"


@dataclass(frozen=True)
class Summary:
    """What came of a sweep.

    `settled` are the rows with a settle time, from the slowest on, `open` and `refused` the others by seed. `bounds`
    are all K, in ascending order. `full` is how many rows have a device whose value is the ceiling or begins with it;
    nothing without values.
    """

    rows: tuple[Row, ...]
    settled: tuple[Row, ...]
    open: tuple[Row, ...]
    refused: tuple[Row, ...]
    bounds: tuple[int, ...]
    full: int | None

    @property
    def worst(self) -> tuple[Row, ...]:
        """The ten rows with the greatest settle times, by seed where they are the same."""
        return self.settled[:WORST]

    def quantile(self, part: float) -> int | None:
        """The least R that so great a part of the rows with a settle time doesn't pass; None if there are none."""
        rising = self.settled[::-1]
        return rising[max(math.ceil(part * len(rising)), 1) - 1].rounds if rising else None


def summary(rows: Sequence[Row], ceiling: int | None) -> Summary:
    """The summary of some rows; `ceiling` is that of the program."""
    settled = sorted((row for row in rows if row.rounds is not None), key=lambda row: (-(row.rounds or 0), row.seed))
    valued = [row for row in rows if row.values]
    full = sum(at_ceiling(row, ceiling) > 0 for row in valued) if valued and ceiling is not None else None
    return Summary(
        tuple(rows),
        tuple(settled),
        tuple(row for row in rows if row.open),
        tuple(row for row in rows if row.refused),
        tuple(sorted({row.bound for row in rows if row.bound is not None})),
        full,
    )


def at_ceiling(row: Row, ceiling: int) -> int:
    """How many devices have a value that is the ceiling, or a pair that begins with it."""
    return sum(re.split("[,)]", value.lstrip("("))[0] == str(ceiling) for value in row.values)


def told(found: Summary) -> str:
    """The summary in a few lines."""
    count = len(found.rows)
    seeds = f"seeds {found.rows[0].seed} to {found.rows[-1].seed}" if found.rows else "no seeds"
    parts = [f"settled {len(found.settled):,}", f"open {len(found.open):,} ({share(len(found.open), count)})"]
    lines_of_fc = ", ".join(sorted({row.verdict for row in found.refused}))
    parts += [f"refused {len(found.refused):,} ({lines_of_fc})"] * bool(found.refused)
    lines = [f"{count:,} deployments, {seeds}", ", ".join(parts)]
    if found.settled:
        spread = f"R from {found.settled[-1].rounds:,} to {found.settled[0].rounds:,}"
        most = f"half at most {found.quantile(0.5):,}, 9 in 10 at most {found.quantile(0.9):,}"
        lines.append(f"{spread}, {most}; {bound_of(found)}")
        lines.append("slowest: " + ", ".join(f"seed {row.seed} ({row.rounds:,})" for row in found.worst))
    lines += by_size(found)
    if found.open:
        more = f" and {len(found.open) - 2 * WORST:,} more" if len(found.open) > 2 * WORST else ""
        lines.append("open: seeds " + ", ".join(str(row.seed) for row in found.open[: 2 * WORST]) + more)
    if found.full is not None:
        lines.append(f"with a device at the ceiling: {found.full:,} ({share(found.full, count)})")
    return "".join(line + "\n" for line in lines)


def by_size(found: Summary) -> list[str]:
    """Where the deployments aren't all of one size, a line for each half of a power of ten in which some are."""

    def step(row: Row) -> int:
        return int(2 * math.log10(row.devices) + 1e-9)

    steps = sorted({step(row) for row in found.settled})
    lines = []
    for one in steps if len({row.devices for row in found.rows}) > 1 else ():
        rows = [row for row in found.settled if step(row) == one]
        part = summary(rows, None)
        low, high = min(row.devices for row in rows), max(row.devices for row in rows)
        size = f"{low:,} to {high:,} devices" if low < high else f"{low:,} devices"
        most = f"half at most {part.quantile(0.5):,}, 9 in 10 at most {part.quantile(0.9):,}"
        lines.append(f"{size}: {len(rows):,} settled, R {most}; {bound_of(part)}")
    return lines


def share(part: int, whole: int) -> str:
    """A part in per cent."""
    return f"{100 * part / max(whole, 1):.3g} %"


def bound_of(found: Summary) -> str:
    """K, or from which to which K the deployments have."""
    if not found.bounds:
        return "no K, since the verdict is a no"
    low, high = found.bounds[0], found.bounds[-1]
    return f"K {low:,}" if low == high else f"K from {low:,} to {high:,}"


# ---- the picture ---------------------------------------------------------------------------------------------------


def drawn(found: Summary, title: str) -> Any:
    """The figure: a histogram of R beside K, R against the diameter, and against the devices where they aren't all as
    many."""
    pyplot = pyplot_ready()
    many = len({row.devices for row in found.rows}) > 1
    figure, panels = pyplot.subplots(1, 3 if many else 2, figsize=(15 if many else 11, 4.5), layout="constrained")
    _histogram(panels[0], found)
    _scatter(panels[1], found, "diameter", "diameter, in hops")
    if many:
        _scatter(panels[2], found, "devices", "devices")
        panels[2].set_xscale("log")
        bounds = sorted((row.devices, row.bound) for row in found.rows if row.bound is not None)
        if bounds:
            panels[2].plot(*zip(*bounds), color=BOUND, lw=1.5, label="K")
            panels[2].set_yscale("log")
            panels[2].legend()
    left = [f"{len(found.open):,} of {len(found.rows):,} open"] if found.open else []
    left += [f"{len(found.refused):,} refused"] if found.refused else []
    figure.suptitle(" - ".join(filter(None, [title, ", ".join(left)])))
    return figure


def _histogram(axes: Any, found: Summary) -> None:
    """How many deployments settle after so many rounds, in at most some sixty bins of whole rounds, and K as a line."""
    from matplotlib.ticker import MaxNLocator

    times = [row.rounds for row in found.settled if row.rounds is not None]
    if times:
        width = max(1, (max(times) - min(times)) // 60 + 1)
        low, high = min(times) - 0.5, max(times) + width + 0.5
        axes.hist(times, [low + width * step for step in range(int((high - low) / width) + 1)], color=ONE)
    for bound in found.bounds if len(found.bounds) < 4 else (found.bounds[0], found.bounds[-1]):
        if bound <= 2 * max(times, default=0):
            axes.axvline(bound, color=BOUND, ls="--", lw=2, label=f"K = {bound:,}")
        else:
            axes.plot([], [], color=BOUND, ls="--", lw=2, label=f"K = {bound:,}, further to the right")
    if found.bounds:
        axes.legend()
    axes.set_xlabel("settle time R, in rounds")
    axes.set_ylabel(f"deployments, of {len(found.rows):,}")
    axes.xaxis.set_major_locator(MaxNLocator(integer=True))
    axes.yaxis.set_major_locator(MaxNLocator(integer=True))


def _scatter(axes: Any, found: Summary, name: str, label: str) -> None:
    """R against a column of the rows: the greater a dot, the more deployments. A cross above all is one that is
    open."""
    from matplotlib.ticker import MaxNLocator

    for said, colour, several in (("one component", ONE, False), ("several components", SEVERAL, True)):
        rows = [row for row in found.settled if (row.components > 1) is several]
        many = Counter((getattr(row, name), row.rounds) for row in rows)
        if many:
            sizes = [12 * count**0.5 for count in many.values()]
            axes.scatter(*zip(*many), s=sizes, alpha=0.5, linewidths=0, color=colour, label=said)
    if found.open:
        above = 1.1 * max((row.rounds or 0 for row in found.settled), default=1)
        places = [getattr(row, name) for row in found.open]
        axes.scatter(places, [above] * len(places), marker="x", color=BAD, label="open")
    axes.set_xlabel(label)
    axes.set_ylabel("settle time R, in rounds")
    axes.xaxis.set_major_locator(MaxNLocator(integer=True))
    if found.settled:
        axes.yaxis.set_major_locator(MaxNLocator(integer=True))
    else:
        axes.set_yticks([])
    if found.settled or found.open:
        axes.legend()


# ---- files ---------------------------------------------------------------------------------------------------------

PAGE = """<!doctype html>
<html lang="en"><meta charset="utf-8"><title>{title}</title>
<style>
 body {{ font: 15px sans-serif; margin: 1em auto; padding: 0 1em; max-width: 75em; color: #222 }}
 img {{ width: 100% }} table {{ border-collapse: collapse }} pre {{ white-space: pre-wrap }}
 td, th {{ border: 1px solid #ccc; padding: .2em .6em; text-align: right }}
</style>
<h1>{title}</h1>
<pre>{told}</pre>
<img alt="A histogram of the settle times, and the settle times against the diameter"
 src="data:image/png;base64,{picture}">
{tables}<p>The network of a seed is made again by</p>
<pre>{again}</pre>
</html>
"""


def write(found: Summary, name: str, title: str, again: str) -> None:
    """Writes a report into a file by its ending: `.png`, `.svg` or `.pdf`, or `.html`, which says with `again` how the
    network of a seed is made again. Raises Fault, of status 6, if it can't be written."""
    figure = drawn(found, title)
    if not name.lower().endswith(".html"):
        saved(figure, name)
    else:
        try:
            Path(name).write_text(page(found, title, again, figure))
        except OSError as error:
            raise Fault(f"{name} can't be written: {error.strerror}", 6) from None
    pyplot_ready().close(figure)


def page(found: Summary, title: str, again: str, figure: Any) -> str:
    """The page of a sweep, with its picture in it."""
    picture = io.BytesIO()
    figure.savefig(picture, dpi=120, format="png")
    tables = [("The slowest", found.worst), ("Open", found.open), ("Refused", found.refused)]
    return PAGE.format(
        title=html.escape(title),
        told=html.escape(told(found)),
        picture=base64.b64encode(picture.getvalue()).decode(),
        tables="".join(table(said, rows) for said, rows in tables if rows),
        again=html.escape(again),
    )


def table(said: str, rows: Sequence[Row]) -> str:
    """A table of some rows."""
    names = ("seed", "devices", "links", "components", "diameter", "verdict", "K", "R", "last device", "its rounds")
    head = "".join(f"<th>{name}" for name in names)
    lines = []
    for row in rows:
        rounds = "open" if row.open else row.rounds
        parts = (row.seed, row.devices, row.links, row.components, row.diameter, row.verdict, row.bound, rounds)
        words = ["" if part is None else html.escape(str(part)) for part in (*parts, row.last, row.last_rounds)]
        lines.append("<tr>" + "".join(f"<td>{word}" for word in words))
    return f"<h2>{said}</h2>\n<table>\n<tr>{head}\n" + "\n".join(lines) + "\n</table>\n"
