"""Draws one frame of a picture as SVG, PNG or PDF, with matplotlib."""

from __future__ import annotations

import math
import os
import sys
from collections.abc import Sequence
from typing import Any

from .colours import (
    LAST, LINK, MAP, OUTLINES, Scale, colours_of, entries, is_dark, label_of, rungs, scales_of, width_of,
)  # fmt: skip
from .networks import Position
from .picture import Frame, Picture
from .refusals import Fault
from .results import Bound

WALK = LAST
BORDER = "#555555"
ARROW = "#222222"
RING, WIDER, STEPS = "#222222", 1.3, 48
"""The ring around a device that is as long as its bound is wide: its colour, how much wider it is than the circle, and
how many lengths are told apart."""

MOST_LABELS, MOST_INSIDE = 120, 6
WIDTH = "ring: how wide the bound is"
AWAY = "dashed border: may be away"
LOOSE = "dashed link: may be missing"


def pyplot_ready() -> Any:
    """matplotlib's pyplot, which draws to files alone. Raises Fault if it isn't there."""
    if "matplotlib" not in sys.modules:
        os.environ["MPLBACKEND"] = "Agg"
    try:
        import matplotlib
    except ImportError:
        raise Fault("matplotlib is missing (Debian: python3-matplotlib)") from None
    matplotlib.use("Agg")
    matplotlib.rcParams["svg.hashsalt"] = "fc"
    from matplotlib import pyplot

    return pyplot


def saved(figure: Any, name: str) -> None:
    """Writes a figure to a file, the same each time. Raises Fault, of status 6, if it can't be written."""
    dated = name.lower().endswith((".svg", ".pdf"))
    key = "Date" if name.lower().endswith(".svg") else "CreationDate"
    try:
        figure.savefig(name, dpi=120, metadata={key: None} if dated else None)
    except OSError as error:
        raise Fault(f"{name} can't be written: {error.strerror or error}", 6) from None


def draw(picture: Picture, name: str) -> None:
    """Draws the last frame of a picture into a file, by its ending `.svg`, `.png` or `.pdf`."""
    pyplot = pyplot_ready()
    figure, axes = pyplot.subplots(figsize=(9, 7), layout="constrained")
    paint(axes, picture)
    saved(figure, name)
    pyplot.close(figure)


def paint(axes: Any, picture: Picture) -> None:
    """Draws the last frame of a picture on axes."""
    frame = picture.frames[-1]
    scales = scales_of(frame.values.values(), picture.meaning)
    _links(axes, picture, frame)
    _arrows(axes, picture, frame)
    _devices(axes, picture, frame, scales)
    _rings(axes, picture, frame, scales)
    _labels(axes, picture, frame, scales)
    _legend(axes, picture, frame, scales)
    _bar(axes.figure, axes, scales, picture)
    axes.set_title(" ".join(filter(None, (picture.title, frame.title))))
    axes.set_aspect("equal", adjustable="datalim")
    axes.margins(0.12 if picture.meaning.bounds else 0.06)
    axes.axis("off")


def walked(frame: Frame) -> set[tuple[int, int]]:
    """The pairs of devices between which a least walk leads."""
    return {(min(pair), max(pair)) for walk in frame.walks.values() for pair in zip(walk, walk[1:])}


def _links(axes: Any, picture: Picture, frame: Frame) -> None:
    from matplotlib.collections import LineCollection

    thick, at = walked(frame), picture.places
    on_walk = [(min(a, b), max(a, b)) in thick for a, b, _ in frame.network.links]
    rows = [(at[a], at[b]) for a, b, _ in frame.network.links]
    colours = [WALK if one else LINK for one in on_walk]
    styles = ["--" if (min(a, b), max(a, b)) in frame.loose else "-" for a, b, _ in frame.network.links]
    widths = [3 if one else 0.8 for one in on_walk]
    axes.add_collection(LineCollection(rows, colors=colours, linewidths=widths, linestyles=styles, zorder=1))


def _arrows(axes: Any, picture: Picture, frame: Frame) -> None:
    """An arrow from each device to the neighbour whose number it holds."""
    away = math.sqrt(area(len(frame.network.devices))) / 2
    look = {"arrowstyle": "-|>", "color": ARROW, "lw": 1.6, "shrinkA": 0, "shrinkB": away, "mutation_scale": 11}
    for start, end in picture.arrows_of(frame):
        ends = {"xy": picture.places[end], "xytext": picture.places[start]}
        axes.annotate("", **ends, arrowprops=look, zorder=1.5).set_in_layout(False)


def area(count: int) -> float:
    """The area of a device's circle, in square points, among so many."""
    return min(420.0, 30_000 / count)


def _devices(axes: Any, picture: Picture, frame: Frame, scales: Sequence[Scale]) -> None:
    """A circle for each device; of pairs, a sector for each part, the first at the upper left."""
    marked = picture.marked(frame)
    devices = sorted(frame.network.devices, key=marked.__contains__)
    xs, ys = zip(*(picture.places[device] for device in devices))
    size = area(len(devices))
    colours = {device: colours_of(frame.values.get(device), scales, picture.meaning) for device in devices}
    whole = [device for device in devices if len(colours[device]) == 1]
    if whole:
        places = list(zip(*(picture.places[device] for device in whole)))
        axes.scatter(*places, s=size, c=[colours[device][0] for device in whole], linewidths=0, zorder=2)
    parted = [device for device in devices if len(colours[device]) > 1]
    for place in range(len(scales) if parted else 0):
        corners = sector(place, len(scales))
        reach = max(abs(part) for corner in corners for part in corner)
        places = list(zip(*(picture.places[device] for device in parted)))
        shades = [colours[device][place] for device in parted]
        axes.scatter(*places, s=size * reach**2, c=shades, marker=corners, linewidths=0, zorder=2)
    edges = [LAST if d in picture.last else BORDER for d in devices]
    widths = [2.5 if d in picture.last else 0.5 for d in devices]
    styles = ["--" if d in frame.away else "-" for d in devices]
    widths = [1.5 if d in frame.away else width for d, width in zip(devices, widths)]
    axes.scatter(xs, ys, s=size, facecolors="none", edgecolors=edges, linewidths=widths, linestyles=styles, zorder=3)
    for found, (shape, colour, wide) in zip(picture.marked_by(frame), OUTLINES):
        places = [picture.places[device] for device in sorted(found - (set(picture.last) if shape == "o" else set()))]
        if places:
            look = {"marker": shape, "facecolors": "none", "edgecolors": colour, "linewidths": 2.5, "zorder": 6}
            axes.scatter(*zip(*places), s=size * wide, **look)


def _rings(axes: Any, picture: Picture, frame: Frame, scales: Sequence[Scale]) -> None:
    """Around each device whose value isn't known a part of a ring, as long as its bound is wide, clockwise from
    above."""
    from matplotlib.path import Path

    by_steps: dict[int, list[Position]] = {}
    for device in frame.network.devices:
        steps = math.ceil(width_of(frame.values.get(device), scales) * STEPS)
        by_steps.setdefault(steps, []).append(picture.places[device])
    size = area(len(frame.network.devices)) * WIDER**2
    for steps, places in by_steps.items():
        if steps:
            angles = [2 * math.pi * step / STEPS for step in range(steps + 1)]
            arc = Path([(math.sin(angle), math.cos(angle)) for angle in angles])
            look = {"marker": arc, "facecolors": "none", "edgecolors": RING, "linewidths": 3, "zorder": 2.5}
            axes.scatter(*zip(*places), s=size, **look)


def sector(place: int, count: int) -> list[tuple[float, float]]:
    """The corners of one of so many equal sectors of a circle of radius 1, counted to the right from straight down."""
    start, turn = -math.pi / 2 - place * 2 * math.pi / count, 2 * math.pi / count
    steps = max(4, 48 // count)
    angles = [start - turn * step / steps for step in range(steps + 1)]
    return [(0.0, 0.0), *((math.cos(angle), math.sin(angle)) for angle in angles)]


def _labels(axes: Any, picture: Picture, frame: Frame, scales: Sequence[Scale]) -> None:
    """The value in each circle, whole, where there are few devices; and the numbers or names beside, where asked
    for."""
    from matplotlib.patheffects import withStroke

    devices = frame.network.devices
    across, wider = math.sqrt(area(len(devices))), WIDER if picture.meaning.bounds else 1.0
    for device in devices:
        value, at = frame.values.get(device), picture.places[device]
        text = label_of(value, scales, picture.meaning)
        if isinstance(value, Bound) and MOST_INSIDE < len(text) and len(devices) <= MOST_LABELS:
            below = {"xytext": (0, -across * 0.85), "textcoords": "offset points", "fontsize": 8, "zorder": 5}
            axes.annotate(text, at, ha="center", va="top", **below).set_in_layout(False)
        elif frame.values and len(devices) <= MOST_LABELS:
            colours = colours_of(value, scales, picture.meaning)
            ink, halo = ("white", "black") if is_dark(colours) else ("black", "white")
            font = min(8 if len(devices) <= 60 else 6, across / (0.55 * len(text)))
            mixed = len({is_dark([colour]) for colour in colours}) > 1
            round_it = [withStroke(linewidth=0.14 * font, foreground=halo)] if mixed else None
            axes.text(
                *at, text, ha="center", va="center", fontsize=font, color=ink, zorder=4, path_effects=round_it
            ).set_in_layout(False)
        if picture.numbers:
            away = (across * 0.38 * wider, across * 0.38 * wider)
            axes.annotate(
                frame.network.called(device),
                at,
                xytext=away,
                textcoords="offset points",
                color="#404040",
                fontsize=7 if len(devices) <= MOST_LABELS else 4,
                zorder=5,
            ).set_in_layout(False)


def _legend(axes: Any, picture: Picture, frame: Frame, scales: Sequence[Scale]) -> None:
    from matplotlib.lines import Line2D

    def dot(colour: str, label: str, edge: str = BORDER) -> Line2D:
        return Line2D([], [], marker="o", ls="", color=colour, mec=edge, ms=9, label=label)

    some_none = any(frame.values.get(device) is None for device in frame.network.devices)
    shown = some_none and bool(frame.values) and not picture.last
    handles = [dot(colour, label) for colour, label in entries(scales, shown, picture.meaning)]
    for name, (shape, colour, _) in zip(picture.marks, OUTLINES):
        handles.append(Line2D([], [], marker=shape, ls="", color="white", mec=colour, mew=2, ms=9, label=name))
    if picture.last:
        handles.append(dot("white", picture.said.partition("; ")[0], LAST))
    handles += [Line2D([], [], marker=shape, ls=line, label=label, **look) for shape, line, label, look in signs(frame)]
    if frame.walks:
        handles.append(Line2D([], [], color=WALK, lw=3, label="least walks"))
    columns = min(len(handles), 3 if picture.meaning.bounds else 4)
    if handles:
        axes.legend(handles=handles, loc="upper left", bbox_to_anchor=(0, -0.01), ncols=columns, frameon=False)


def signs(frame: Frame) -> list[tuple[str, str, str, dict[str, Any]]]:
    """The signs of bounds in the legend: of each its marker, its line, what it means, and its look."""
    found: list[tuple[str, str, str, dict[str, Any]]] = []
    if any(isinstance(value, Bound) and not value.known for value in frame.values.values()):
        found.append(("o", "", WIDTH, {"color": "white", "mec": RING, "mew": 3, "ms": 9}))
    if frame.away:
        found.append(("", "--", AWAY, {"color": BORDER, "lw": 1.5}))
    if frame.loose:
        found.append(("", "--", LOOSE, {"color": LINK, "lw": 0.8}))
    return found


def _bar(figure: Any, axes: Any, scales: Sequence[Scale], picture: Picture) -> None:
    """A bar of colours beside the numbers of the values; of pairs beside values whose parts have these colours."""
    from matplotlib import colormaps, colors
    from matplotlib.cm import ScalarMappable
    from matplotlib.ticker import MaxNLocator

    marks = rungs(scales, picture.frames[-1].values.values()) if len(scales) > 1 else []
    scale = scales[0] if len(scales) == 1 else None
    if marks:
        mapped = ScalarMappable(colors.Normalize(0, 1), colormaps[MAP])
        bar = figure.colorbar(mapped, ax=axes, label=picture.meaning.scale, shrink=0.8)
        bar.set_ticks([place for place, _ in marks], labels=[text for _, text in marks])
    elif scale is not None and scale.low is not None and scale.high is not None:
        span = colors.Normalize(scale.low, max(scale.high, scale.low + 1))
        mapped = ScalarMappable(span, colormaps[MAP])
        figure.colorbar(mapped, ax=axes, label=scale.label, shrink=0.8, ticks=MaxNLocator(integer=True))
