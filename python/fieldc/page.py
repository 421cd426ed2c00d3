"""A page of HTML that shows the frames of a picture one after the other: a slider, a play button, and device
numbers."""

from __future__ import annotations

import html
import json
import math
from collections.abc import Sequence
from dataclasses import dataclass
from typing import Any

from .colours import OUTLINES, Scale, colours_of, entries, is_dark, label_of, rungs, scales_of, shade, width_of
from .drawing import AWAY, LOOSE, WIDER, WIDTH, sector, walked
from .networks import Position
from .picture import Picture, everywhere
from .results import Drawn

BOUNDED = "Between which values devices stay while the network changes"
SIGNS = "\u25a1\u25c7\u25b3\u2b21"
CORNERS = (
    ((-1.15, -1.15), (1.15, -1.15), (1.15, 1.15), (-1.15, 1.15)),
    ((0.0, -1.8), (1.8, 0.0), (0.0, 1.8), (-1.8, 0.0)),
    ((0.0, -2.3), (2.0, 1.2), (-2.0, 1.2)),
    ((0.0, -1.6), (1.4, -0.8), (1.4, 0.8), (0.0, 1.6), (-1.4, 0.8), (-1.4, -0.8)),
)
"""The corners of the outlines of the second mark and those after it, around a circle of radius 1."""

TIP = (
    '<marker id="tip" viewBox="0 0 10 10" refX="9" refY="5" markerWidth="6" markerHeight="6" orient="auto">'
    '<path d="M0,0 L10,5 L0,10 Z" fill="#222"/></marker>'
)

PAGE = """<!doctype html>
<html lang="en"><meta charset="utf-8"><title>{title}</title>
<style>
 * {{ box-sizing: border-box }}
 body {{ font: 15px sans-serif; margin: 1em auto; padding: 0 1em; max-width: 60em; color: #222 }}
 svg {{ width: 100%; height: auto; border: 1px solid #ddd }}
 line {{ stroke: #b5b5b5 }} line.walk {{ stroke: #d6381e; stroke-width: 3 }}
 line.loose {{ stroke-dasharray: 7 5 }} .leaves circle.border {{ stroke-dasharray: 4 3; stroke-width: 2 }}
 circle.ring {{ stroke: #222; stroke-width: 4 }}
 circle {{ stroke: #555; fill: none }} .marked circle.border {{ stroke: #111; stroke-width: 3 }}
 .last circle.border {{ stroke: #d6381e; stroke-width: 3 }}
 path.mark {{ display: none; fill: none; stroke-width: 3 }} path.mark.shown {{ display: inline }}
 text {{ text-anchor: middle; stroke-width: 0; dominant-baseline: central; pointer-events: none }}
 .mixed text.value {{ paint-order: stroke; stroke-width: 1.5px }}
 text.number {{ text-anchor: start; fill: #404040; visibility: hidden }}
 svg.numbered text.number {{ visibility: visible }}
 .away {{ display: none }} path.arrow {{ stroke: #222; stroke-width: 2; fill: none }}
 #slider {{ width: 100%; margin: 0 }}
 #legend span {{ white-space: nowrap }} #legend > span:not(.swatch) {{ margin-right: 1em }}
 .swatch {{ display: inline-block; width: 1em; height: 1em; border: 1px solid #555; margin: 0 .3em 0 1em }}
</style>
<h1>{title}</h1>
<p id="verdict">{verdict}</p>
<p><label>Show <output id="which"></output><input id="slider" type="range" min="0" max="{last}" value="0"></label></p>
<p><button id="play" type="button">Play</button>
<label><input id="numbers" type="checkbox"{numbered}> device numbers</label></p>
{picture}
<p id="legend">{legend}</p>
<script>
 const looks = {looks};
 const gone = {gone};
 const ends = {ends};
 const shows = {shows};
 const devices = [...document.querySelectorAll("g.device")];
 const links = [...document.querySelectorAll("line")];
 const arrows = [...document.querySelectorAll("path.arrow")];
 const at = place => devices[place].getAttribute("transform").match(/[-.0-9]+/g).map(Number);
 const slider = document.getElementById("slider"), play = document.getElementById("play");
 const numbers = document.getElementById("numbers"), drawn = document.querySelector("svg");
 let playing = null;
 function draw() {{
  const show = shows[slider.value], marked = new Set(show.marked), away = new Set(gone[show.away]);
  const place = (Number(slider.value) + 1) + " of " + shows.length;
  document.getElementById("which").textContent = place + (show.title && ": " + show.title);
  devices.forEach((node, place) => {{
   const look = looks[show.devices[place]];
   node.classList.toggle("away", !look);
   if (!look) return;
   node.classList.toggle("marked", marked.has(place));
   const parts = node.querySelectorAll("path:not(.mark)");
   parts.forEach((part, at) => part.setAttribute("fill", look[1][at % look[1].length]));
   const text = node.querySelector("text.value");
   text.setAttribute("fill", look[2]);
   text.setAttribute("stroke", look[2] === "#ffffff" ? "#000000" : "#ffffff");
   node.classList.toggle("mixed", look[3]);
   const ring = node.querySelector("circle.ring");
   if (ring) {{
    ring.setAttribute("stroke-dasharray", look[4] + " 200");
    ring.classList.toggle("away", !look[4]);
   }}
   text.setAttribute("font-size", Math.min({font}, {radius} * 3.4 / Math.max(look[0].length, 1)));
   text.textContent = look[0];
  }});
  devices.forEach((node, place) => {{
   const at = show.at && show.at[place];
   if (at) node.setAttribute("transform", `translate(${{at}})`);
  }});
  links.forEach((line, place) => {{
   line.classList.toggle("away", away.has(place));
   if (!show.at || away.has(place)) return;
   const [one, other] = ends[place].map(end => show.at[end]);
   [["x1", one[0]], ["y1", one[1]], ["x2", other[0]], ["y2", other[1]]].forEach(part => line.setAttribute(...part));
  }});
  show.marks.forEach((list, mark) => {{
   const there = new Set(list);
   devices.forEach((node, place) => {{
    node.querySelectorAll(".mark" + (mark + 1)).forEach(one => one.classList.toggle("shown", there.has(place)));
    if (there.has(place)) marked.add(place);
   }});
  }});
  marked.forEach(place => drawn.append(devices[place]));
  arrows.forEach((arrow, place) => {{
   const next = show.next[place];
   arrow.classList.toggle("away", next < 0);
   if (next < 0) return;
   const [x, y] = at(place), [u, v] = at(next), far = Math.hypot(u - x, v - y) || 1, part = 1 - {radius} / far;
   arrow.setAttribute("d", "M" + x + "," + y + " L" + (x + (u - x) * part) + "," + (y + (v - y) * part));
  }});
 }}
 function stop() {{
  clearInterval(playing);
  playing = null;
  play.textContent = "Play";
 }}
 play.addEventListener("click", () => {{
  if (playing) return stop();
  if (Number(slider.value) === shows.length - 1) slider.value = 0;
  draw();
  play.textContent = "Pause";
  playing = setInterval(() => {{
   if (Number(slider.value) === shows.length - 1) return stop();
   slider.value = Number(slider.value) + 1;
   draw();
  }}, 700);
 }});
 slider.addEventListener("input", draw);
 const number = () => drawn.classList.toggle("numbered", numbers.checked);
 numbers.addEventListener("change", number);
 number();
 draw();
</script>
</html>
"""


def page(picture: Picture) -> str:
    """The page of a picture's frames, as a text of HTML that needs nothing beside it."""
    values = {value for frame in picture.frames for value in frame.values.values()}
    settled = {value for frame in picture.frames if frame.settled for value in frame.values.values()}
    scales = scales_of(values, picture.meaning, settled or None)
    screen = Screen.of(picture)
    drawn, radius = _network(picture, max(len(scales), 1), screen)
    looks, gone, shows = _shows(picture, scales, screen)
    moving = any(frame.places for frame in picture.frames)
    return PAGE.format(
        title=html.escape(picture.title or (BOUNDED if picture.meaning.bounds else "A run of fc")),
        verdict=html.escape(picture.verdict),
        last=len(picture.frames) - 1,
        numbered=" checked" if picture.numbers else "",
        picture=drawn,
        radius=f"{radius:.1f}",
        font=f"{radius * 0.8:.1f}",
        legend=_legend(picture, scales),
        looks=_script(looks),
        gone=_script(gone),
        ends=_script(_ends(picture) if moving else []),
        shows=_script(shows),
    )


def _script(data: Any) -> str:
    """Data as a text within a script."""
    return json.dumps(data, separators=(",", ":")).replace("</", "<\\/")


@dataclass(frozen=True)
class Screen:
    """Where places are on the page: the picture's box, and how long a length of 1 is."""

    left: float
    top: float
    width: float
    height: float
    scale: float

    @staticmethod
    def of(picture: Picture) -> Screen:
        """The box that has all places of all frames."""
        moved = [place for frame in picture.frames for place in frame.places.values()]
        xs, ys = zip(*picture.places.values(), *moved)
        wide, high = max(xs) - min(xs), max(ys) - min(ys)
        scale = 900 / (max(wide, high) or 1)
        return Screen(min(xs), max(ys), 80 + wide * scale, 80 + high * scale, scale)

    def at(self, place: Position) -> Position:
        """Where a place is: so far to the right, and so far down."""
        return 40 + (place[0] - self.left) * self.scale, 40 + (self.top - place[1]) * self.scale


def _ends(picture: Picture) -> list[list[int]]:
    """The ends of all links, by the places of the devices."""
    devices, links = everywhere(picture)
    place = {device: number for number, device in enumerate(devices)}
    return [[place[a], place[b]] for a, b in links]


def _network(picture: Picture, sectors: int, screen: Screen) -> tuple[str, float]:
    """All devices and links of all frames as SVG, which the script shows, hides and colours; and the radius of a
    device."""
    devices, links = everywhere(picture)
    at = {device: screen.at(picture.places[device]) for device in devices}
    radius = max(4, min(22, 220 / len(devices) ** 0.5))
    thick = set().union(*(walked(frame) for frame in picture.frames))
    loose = set().union(*(frame.loose for frame in picture.frames))
    leaving = set().union(*(frame.away for frame in picture.frames))
    wider = f'<circle class="ring" pathLength="100" transform="rotate(-90)" r="{radius * WIDER:.1f}"/>'
    ring, out = (wider, radius * WIDER) if picture.meaning.bounds else ("", radius)
    parts = [f'<svg viewBox="0 0 {screen.width:.0f} {screen.height:.0f}" xmlns="http://www.w3.org/2000/svg">']
    for a, b in links:
        (x1, y1), (x2, y2) = at[a], at[b]
        kinds = ["walk"] * ((a, b) in thick) + ["loose"] * ((a, b) in loose)
        named = f' class="{" ".join(kinds)}"' if kinds else ""
        parts.append(f'<line{named} x1="{x1:.1f}" y1="{y1:.1f}" x2="{x2:.1f}" y2="{y2:.1f}"/>')
    parts += [TIP, *['<path class="arrow" marker-end="url(#tip)"/>'] * len(devices)] if picture.arrows else []
    names = {device: frame.network.called(device) for frame in picture.frames for device in frame.network.devices}
    paths = [_path(sector(place, sectors), radius) if sectors > 1 else _disk(radius) for place in range(sectors)]
    outlines = _outlines(picture, radius)
    for device in devices:
        x, y = at[device]
        last = " last" * (device in picture.last) + " leaves" * (device in leaving)
        parts.append(
            f'<g class="device{last}" data-id="{device}" transform="translate({x:.1f},{y:.1f})">'
            f"<title>device {html.escape(names[device])}</title>{''.join(paths)}"
            f'<circle class="border" r="{radius:.1f}"/>{ring}{outlines.get(device, "")}<text class="value"></text>'
            f'<text class="number" x="{out * 0.8:.1f}" y="{-out * 0.9:.1f}" '
            f'font-size="{max(radius * 0.6, 5):.1f}">'
            f"{html.escape(names[device])}</text></g>"
        )
    return "\n".join([*parts, "</svg>"]), radius


def _outlines(picture: Picture, radius: float) -> dict[int, str]:
    """By device the outlines of the second mark and those after it, which the script shows and hides."""
    found: dict[int, str] = {}
    for mark, corners in enumerate(CORNERS[: max(len(picture.marks) - 1, 0)], 1):
        line = " ".join(f"{x * radius:.1f},{y * radius:.1f}" for x, y in corners)
        path = f'<path class="mark mark{mark}" stroke="{OUTLINES[mark][1]}" d="M{line} Z"/>'
        for device in set().union(*(picture.marked_by(frame)[mark] for frame in picture.frames)):
            found[device] = found.get(device, "") + path
    return found


def _path(corners: Sequence[tuple[float, float]], radius: float) -> str:
    (x1, y1), (x2, y2) = corners[1], corners[-1]
    large = 1 if len(corners) < 4 else 0
    r = f"{radius:.1f}"
    first, last = f"{x1 * radius:.1f},{-y1 * radius:.1f}", f"{x2 * radius:.1f},{-y2 * radius:.1f}"
    return f'<path d="M0,0 L{first} A{r},{r} 0 {large} 1 {last} Z"/>'


def _disk(radius: float) -> str:
    r = f"{radius:.1f}"
    return f'<path d="M-{r},0 A{r},{r} 0 1 1 {r},0 A{r},{r} 0 1 1 -{r},0 Z"/>'


def _shows(
    picture: Picture, scales: Sequence[Scale], screen: Screen
) -> tuple[list[list[Any]], list[list[int]], list[dict[str, Any]]]:
    """The looks of devices and the sets of links that aren't there, each once, and the frames by their numbers.

    A device that isn't there has the look -1. Where devices move, a frame has the place of each.
    """
    devices, links = everywhere(picture)
    place = {device: number for number, device in enumerate(devices)}
    looks: dict[str, list[Any]] = {}
    numbers: dict[str, int] = {}
    gone: dict[tuple[int, ...], int] = {}
    shows = []
    for frame in picture.frames:
        values = [frame.values.get(d) for d in frame.network.devices]
        texts = [label_of(value, scales, picture.meaning) if frame.values else "" for value in values]
        for device, text in zip(frame.network.devices, texts):
            if text not in looks:
                numbers[text] = len(looks)
                looks[text] = _look(text, frame.values.get(device), scales, picture)
        row = [-1] * len(devices)
        for device, text in zip(frame.network.devices, texts):
            row[place[device]] = numbers[text]
        there = {(min(a, b), max(a, b)) for a, b, _ in frame.network.links}
        away = tuple(number for number, link in enumerate(links) if link not in there)
        first, *others = [sorted(place[device] for device in found) for found in picture.marked_by(frame)] or [[]]
        which = gone.setdefault(away, len(gone))
        shows.append({"title": frame.title, "devices": row, "marked": first, "marks": others, "away": which})
        if frame.places:
            at = {device: [round(part, 1) for part in screen.at(place)] for device, place in frame.places.items()}
            shows[-1]["at"] = [at.get(device) for device in devices]
        if picture.arrows:
            ends = dict(picture.arrows_of(frame))
            shows[-1]["next"] = [place[ends[device]] if device in ends else -1 for device in devices]
    return list(looks.values()), [list(away) for away in gone], shows


def _look(text: str, value: Drawn | None, scales: Sequence[Scale], picture: Picture) -> list[Any]:
    """The look of a device: what is written in it, its colours, the ink, whether dark and light colours meet, and how
    much of its ring is drawn, in hundredths."""
    colours = colours_of(value, scales, picture.meaning)
    mixed = len({is_dark([colour]) for colour in colours}) > 1
    ink = "#ffffff" if is_dark(colours) else "#000000"
    return [text, colours, ink, mixed, math.ceil(100 * width_of(value, scales))]


def _legend(picture: Picture, scales: Sequence[Scale]) -> str:
    """The legend: five numbers of the scale, or values of pairs, and what else colours and borders mean."""

    def swatch(colour: str, label: str) -> str:
        return f'<span class="swatch" style="background:{colour}"></span>{html.escape(label)}'

    values = [value for frame in picture.frames for value in frame.values.values()]
    row = [swatch(shade(place), text) for place, text in rungs(scales, values)] if len(scales) > 1 else []
    for scale in scales if len(scales) == 1 else ():
        if scale.low is not None and scale.high is not None:
            steps = {scale.low + math.floor((scale.high - scale.low) * part / 4 + 0.5) for part in range(5)}
            row = [swatch(scale.colour(number), f"{number:,}") for number in sorted(steps)]
    none = any(value is None for value in values)
    more = [swatch(colour, label) for colour, label in entries(scales, none, picture.meaning)]
    more += [f"thick border: {html.escape(picture.marks[0])}"] if picture.marks else []
    for name, (_, colour, _), sign in zip(picture.marks[1:], OUTLINES[1:], SIGNS):
        more.append(f'<span style="color:{colour}">{sign}</span> {html.escape(name)}')
    clipped = any(scale.clipped and not scale.kinds for scale in scales)
    more += ["beyond the settled values: the colour of the nearest one"] if clipped else []
    drawn = picture.meaning.bounds, any(f.away for f in picture.frames), any(f.loose for f in picture.frames)
    more += [sign for sign, shown in zip((WIDTH, AWAY, LOOSE), drawn) if shown]
    more += [html.escape("red border: " + picture.said.partition("; ")[0])] if picture.last else []
    return "<br>".join(filter(None, [" ".join(row), " ".join(f"<span>{one}</span>" for one in more)]))
