"""Pictures of networks with values: what is drawn is gathered here, and `drawing` and `page` draw it."""

from __future__ import annotations

from collections.abc import Hashable, Mapping, Sequence
from dataclasses import dataclass, field, replace

from . import results
from .colours import OUTLINES, WHITE, Meaning
from .edits import Moment, moments
from .envelopes import envelope_of, widest
from .kinds import kinds_of, parts_of
from .layout import laid_out
from .networks import Declared, Network, Pair, Position, declared
from .refusals import Fault
from .results import Bound, Drawn
from .telling import counted

SETTLING = "settle round"
LINES_OF_A_RUN = ("run", "mix", "show", "scramble")


@dataclass(frozen=True)
class Frame:
    """One view of a network: its title, the network as it is then, values or bounds by device, and least walks where
    there are some. Where devices move, `places` are those of then. `away` are devices that may be away, and `loose`
    links that may be missing."""

    title: str
    network: Network
    values: Mapping[Hashable, Drawn | None]
    walks: Mapping[int, tuple[int, ...]] = field(default_factory=dict)
    settled: bool = False
    places: Mapping[int, Position] = field(default_factory=dict)
    away: frozenset[int] = frozenset()
    loose: frozenset[Pair] = frozenset()


@dataclass(frozen=True)
class Picture:
    """All that is drawn: frames over the same places, what their numbers mean, and which devices have a border.

    `last` are devices with a red border, of which `said` tells; `marks` are inputs whose devices have a thick border
    where they are true.
    """

    frames: tuple[Frame, ...]
    places: Mapping[int, Position]
    meaning: Meaning = Meaning()
    verdict: str = ""
    title: str = ""
    marks: tuple[str, ...] = ()
    last: tuple[int, ...] = ()
    said: str = ""
    numbers: bool = False
    arrows: bool = False

    def marked_by(self, frame: Frame) -> list[set[int]]:
        """For each of the marks the devices of a frame for which it is true then."""
        return [{d for d, own in frame.network.inputs.items() if own.get(name) is True} for name in self.marks]

    def arrows_of(self, frame: Frame) -> list[tuple[int, int]]:
        """The devices that hold the number of a neighbour, each with it; of a pair it is the last part."""
        if not self.arrows:
            return []
        near = {pair for a, b, _ in frame.network.links for pair in ((a, b), (b, a))}
        values = [(device, frame.values.get(device)) for device in frame.network.devices]
        there = [(device, value) for device, value in values if value is not None and not isinstance(value, Bound)]
        held = [(device, parts_of(value)[-1]) for device, value in there]
        return [(device, end) for device, end in held if not isinstance(end, bool) and (device, end) in near]

    def marked(self, frame: Frame) -> set[int]:
        """The devices of a frame for which one of the marks is true then."""
        return set().union(*self.marked_by(frame))

    def one(self, place: int) -> Picture:
        """The picture of one frame alone."""
        frame = self.frames[place]
        return replace(self, frames=(replace(frame, places={}),), places=frame.places or self.places)


def gathered(
    program: str | None, network: Network, lines: str | None, answer: str | None, rounds: bool = False
) -> Picture:
    """The picture of a network and what `fc` answered of it, without places.

    `program` is the program's text, where there is one, `lines` the script, log or changes that `answer` belongs to.
    With `rounds` there is a frame for each number of rounds after which a bound holds. Raises Fault, of status 3, if
    the answer isn't of this network, or a script is missing without which it can't be told which network a show is of.
    """
    ceiling = declared(program).ceiling if program is not None else None
    inputs = tuple(declared(program).inputs) if program is not None else ()
    if answer is None:
        return Picture((Frame("", network, {}),), {}, Meaning(none=""))
    texts = answer.splitlines()
    verdict = next((line for line in texts[:1] if results.is_verdict(line)), "")
    if results.is_bounded(answer):
        return bounding(network, results.bounded(answer), lines, declared(program or ""), rounds)
    if rounds:
        raise Fault("--rounds is for bounds that hold while a network changes; these aren't")
    if any(line == "open" or line.startswith("settles ") for line in texts):
        return settling(network, results.settled(answer), verdict)
    if any(line.startswith("@") for line in texts):
        found = _run(network, results.ran(answer), lines, inputs)
    else:
        found = (_one(network, answer, lines, inputs),)
    for frame in found:
        _agree(frame)
    return Picture(found, {}, Meaning(ceiling=ceiling), verdict)


def _run(network: Network, run: results.Ran, lines: str | None, inputs: tuple[str, ...]) -> tuple[Frame, ...]:
    """A frame for each show of a run, on the network as it is at that line of the script."""
    if lines is None:
        raise Fault("these are shows of a run: give its script too, since it may edit the network", 3)
    by_line = {moment.line: moment for moment in moments(network, lines, inputs) if moment.line is not None}
    missing = [show.line for show in run.shows if show.line not in by_line]
    if missing or len(by_line) != len(run.shows):
        raise Fault(f"these shows don't belong to this script: line {missing[0] if missing else max(by_line)}", 3)
    return tuple(_shown(run, place, by_line[show.line]) for place, show in enumerate(run.shows))


def _shown(run: results.Ran, place: int, moment: Moment) -> Frame:
    """The frame of a show; it has settled where as many rounds have run as the verdict of then says."""
    verdict = [run.verdict, *(found for before, found in run.verdicts if before <= place)][-1]
    settled = verdict.rounds is not None and moment.rounds is not None and moment.rounds >= verdict.rounds
    return Frame(when(moment), moment.network, run.shows[place].values, settled=settled)


def when(moment: Moment) -> str:
    """When a show of a script is: so many rounds after the last edit, or after the start."""
    since = "the last edit" if moment.edited else "the start"
    if not moment.rounds:
        return f"right after {since}" if moment.edited else "at the start"
    return f"{moment.rounds} round{'s' if moment.rounds > 1 else ''} after {since}"


def is_script(lines: str) -> bool:
    """Whether lines are those of a script, and not of a log."""
    return any(line.split(" ")[0] in LINES_OF_A_RUN for line in lines.split("\n"))


def _one(network: Network, answer: str, lines: str | None, inputs: tuple[str, ...]) -> Frame:
    """The frame of `stable`, `trace`, `mail` or `replay`; that of a log is of the network after it."""
    texts = answer.splitlines()
    if any(len(line.split(" ")) > 2 for line in texts if line[:1].isdigit()):
        traced = results.traced(answer)
        return Frame("", network, traced.values, results.walks_by_number(traced))
    while texts and results.is_verdict(texts[0]):
        texts.pop(0)
    if not texts or not texts[0][:1].isdigit():
        raise Fault("it has no values of devices", 3)
    values = results.replayed("\n".join(texts)).values
    if lines is not None and not is_script(lines):
        network = moments(network, lines, inputs)[0].network
    return Frame("", network, values)


def _agree(frame: Frame) -> None:
    """Refuses values of other devices than those of the network."""
    there = set(frame.network.inputs)
    for device in sorted(there ^ set(results.by_number(frame.values))):
        lacks, has = ("values have", "network hasn't") if device not in there else ("network has", "values haven't")
        raise Fault(f"these values don't belong to this network: the {lacks} device {device}, but the {has}", 3)


def settling(network: Network, found: results.Settled, verdict: str) -> Picture:
    """The picture of settle rounds: grey where a device rests, a red border where it is the last."""
    title = "open" if found.open else f"settles {found.rounds}"
    last, said = latest(results.by_number(found.by_device), network.names)
    still = sum(rounds == 0 for rounds in found.by_device.values())
    resting = f"{still} of {len(found.by_device)} hold their value now" if still else ""
    frame = Frame(f"({title})", network, found.by_device)
    _agree(frame)
    meaning = Meaning(SETTLING, "no settle round", WHITE, resting)
    return Picture((frame,), {}, meaning, verdict, last=last, said="; ".join(filter(None, (said, resting))))


def bounding(
    network: Network, found: results.Bounds, changes: str | None, wanted: Declared, rounds: bool = False
) -> Picture:
    """The picture of bounds, on the network with all that may come, where the changes are known.

    Raises Fault, of status 3, if bounds have a device that comes and the changes aren't known.
    """
    held, loose = results.by_number(found.by_device), frozenset[Pair]()
    if changes is not None:
        envelope = envelope_of(network, changes, wanted)
        network, loose = widest(network, envelope), frozenset(envelope.links) - envelope.sure_links
    elif held.keys() - network.inputs.keys():
        comes = min(held.keys() - network.inputs.keys())
        raise Fault(f"device {comes} of these bounds isn't in the network but may come: give its file of changes", 3)
    away = frozenset(device for device, one in held.items() if one.away)

    def frame(title: str, after: int) -> Frame:
        bounds: dict[Hashable, Drawn | None] = {device: one.after(after) for device, one in held.items()}
        return Frame(title, network, bounds, away=away, loose=loose)

    times = sorted({0, *(one.rounds for one in held.values())})
    frames = [frame(f"after {counted(time, 'round')}", time) for time in times] if rounds else []
    frames = frames or [frame(f"(within {found.within})", found.within)]
    _agree(frames[-1])
    meaning = Meaning(none="nothing known yet", ceiling=wanted.ceiling, bounds=True)
    return Picture(tuple(frames), {}, meaning, found.verdict.line)


def latest(rounds: Mapping[int, int | None], called: Mapping[int, str] | None = None) -> tuple[tuple[int, ...], str]:
    """The devices that are known last, and how that is said: those without a settle round where there are some."""
    greatest = max((r for r in rounds.values() if r is not None), default=0)
    last = tuple(device for device, r in rounds.items() if r is None)
    how = "no settle round"
    if not last and not greatest:
        return (), ""
    if not last:
        last = tuple(device for device, r in rounds.items() if r == greatest)
        how = f"the last, after {greatest} round{'s' if greatest > 1 else ''}"
    more = f" and {len(last) - 8} more" if len(last) > 8 else ""
    words = ", ".join((called or {}).get(device, str(device)) for device in last[:8])
    return last, f"{how}: device{'s' if len(last) > 1 else ''} {words}{more}"


def everywhere(picture: Picture) -> tuple[list[int], list[tuple[int, int]]]:
    """All devices and links of all frames, so that a device has one place throughout."""
    devices = sorted({device for frame in picture.frames for device in frame.network.inputs})
    links = sorted({(min(a, b), max(a, b)) for frame in picture.frames for a, b, _ in frame.network.links})
    return devices, links


def at_places(picture: Picture, positions: Mapping[int, Position] | None) -> Picture:
    """The picture with places: positions of all its devices, or a layout of its own. Raises Fault if one is missing."""
    devices, links = everywhere(picture)
    if positions is None:
        return replace(picture, places=laid_out(devices, links))
    for device in devices:
        if device not in positions:
            raise Fault(f"there is no position of device {device}", 3)
    return replace(picture, places={device: positions[device] for device in devices})


def at_times(picture: Picture, places: Mapping[float, Mapping[int, Position]]) -> Picture:
    """The picture whose frames are drawn one after the other at the places of these times.

    Raises Fault if there are more or fewer times than frames, or a device of a frame has no place then.
    """
    if len(places) != len(picture.frames):
        times, shows = counted(len(places), "time"), counted(len(picture.frames), "show")
        raise Fault(f"there are positions of {times}, and {shows} to draw at them: --of run draws all of a script", 3)
    found = []
    for frame, (time, then) in zip(picture.frames, places.items()):
        for device in frame.network.devices:
            if device not in then:
                raise Fault(f"there is no position of device {frame.network.called(device)} at t = {time:g}", 3)
        title = ": ".join(filter(None, (f"t = {time:g}", frame.title)))
        found.append(replace(frame, title=title, places={device: then[device] for device in frame.network.devices}))
    first = {device: place for frame in reversed(found) for device, place in frame.places.items()}
    return replace(picture, frames=tuple(found), places=first)


def check_marks(picture: Picture, marks: Sequence[str]) -> Picture:
    """The picture with marks. Raises Fault if no device has such an input, or there are more than are told apart."""
    if len(marks) > len(OUTLINES):
        raise Fault(f"--mark: {len(marks)} are too many; at most {len(OUTLINES)} can be told apart")
    for name in marks:
        inputs = [own for frame in picture.frames for own in frame.network.inputs.values()]
        if not any(name in own for own in inputs):
            raise Fault(f"--mark {name}: no device has this input")
        if not any(isinstance(own.get(name), bool) for own in inputs):
            raise Fault(f"--mark {name}: this input is a number; only a truth value can mark devices")
    return replace(picture, marks=tuple(marks))


def check_kinds(picture: Picture, word: str | None, names: Mapping[int, str]) -> Picture:
    """The picture with kinds: of `all` parts of the values, or of some, as `2` or `1,3`.

    Raises Fault if a part isn't there, or the picture is of settle rounds.
    """
    if word is None:
        return picture
    if picture.meaning.scale == SETTLING:
        raise Fault(f"--kinds {word}: it is about values; these are settle rounds")
    shown = [value for frame in picture.frames for value in frame.values.values()]
    values = [value for value in shown if not isinstance(value, Bound)]
    if picture.meaning.bounds:
        raise Fault(f"--kinds {word}: it is about values; these are bounds")
    devices = {device: names.get(device, str(device)) for device in everywhere(picture)[0]}
    return replace(picture, meaning=replace(picture.meaning, kinds=kinds_of(word, values, devices)))


def check_arrows(picture: Picture, wanted: bool) -> Picture:
    """The picture with arrows, where they are wanted. Raises Fault if no device holds the number of a neighbour."""
    found = replace(picture, arrows=wanted)
    if wanted and not any(found.arrows_of(frame) for frame in found.frames):
        raise Fault("--arrows: no device holds the number of a neighbour")
    return found
