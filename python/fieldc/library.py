"""The calls of the library: a program's text and a network in, results of `fc` out."""

from __future__ import annotations

from collections.abc import Callable, Hashable, Iterable, Mapping
from dataclasses import fields, replace
from pathlib import Path
from typing import TypeVar, Union

from . import composing, cuts, results
from . import program as fc
from .answers import Answer, Origin
from .blocks import own_library, read_library
from .changes import for_fc as written_changes
from .edits import moments, rounds_at_shows
from .envelopes import envelope_of, widest
from .given import Given, Inputs, Networks, Weight, given
from .kept import Kept
from .networks import Json, Network, declared
from .refusals import Call, Fault, Section
from .sections import read

Lines = Union[str, Iterable[str]]
Program = Union[str, Path]
"""The text of a program, or its file."""

Found = TypeVar("Found", bound=Answer)
Content = TypeVar("Content")


def scene_of(network: Networks, program: str) -> str:
    """The scene of a network. Raises Fault if it is none, and TypeError if it is nothing of the kind."""
    return given(network, program).scene


def call_of(words: Iterable[str], **texts: str) -> Call:
    """What `fc` is asked: words, and sections by their kind."""
    return Call(tuple(words), tuple(Section(kind, "", 1, text) for kind, text in texts.items()))


def text_of(lines: Lines) -> str:
    """A script or a log, given as a text or as lines."""
    return lines if isinstance(lines, str) else "".join(line.rstrip("\n") + "\n" for line in lines)


def flags(**chosen: bool) -> list[str]:
    """The flags of a command line: `from_table` is `--from-table`."""
    return ["--" + name.replace("_", "-") for name, asked in chosen.items() if asked]


def _answer(words: Iterable[str], **texts: str) -> str:
    return fc.answered(call_of(words, **texts)).text


def format(program: Program) -> str:
    """The canonical text of a program. Raises Refusal."""
    return _answer(["format"], program=text_of_program(program))


def compose(program: Program, *, library: Iterable[str | Path] = ()) -> str:
    """A program with the blocks that it calls in front of it, those of folders of your own among them.

    Raises Fault if a block isn't there, or isn't called right.
    """
    return composing.compose(text_of_program(program), read_library([own_library(), *map(Path, library)]))


def text_of_program(program: Program) -> str:
    """The text of a program. Raises Fault if its file can't be read."""
    return read(str(program)) if isinstance(program, Path) else program


def about(found: Found, program: str, asked: Given, behind: Network | None = None) -> Found:
    """A result that knows what it is of, with devices called by the nodes of the graph that was given."""
    if asked.network is None:
        return found
    changes: dict[str, object] = {"of": Origin(program, behind or asked.network)}
    nodes = asked.network.nodes
    own = {field.name for field in fields(found)}
    for name in ("values", "by_device", "walks", "shows") if nodes else ():
        if name in own and getattr(found, name) is not None:
            changes[name] = by_nodes(name, getattr(found, name), nodes)
    return replace(found, **changes)


def by_nodes(name: str, part: object, nodes: Mapping[int, Hashable]) -> object:
    """A part of a result with nodes in place of numbers; a device that joined in a script has its number."""
    if isinstance(part, tuple):
        return tuple(replace(show, values=by_nodes("values", show.values, nodes)) for show in part)
    assert isinstance(part, Mapping)
    if name == "walks":
        part = {device: tuple(nodes.get(one, one) for one in walk) for device, walk in part.items()}
    return Kept({nodes.get(device, device): content for device, content in part.items()})


def _asked(
    reader: Callable[[str], Found],
    words: Iterable[str],
    program: Program,
    network: Networks,
    weight: Weight,
    inputs: Inputs | None,
    **texts: str,
) -> Found:
    """What `fc` answers to a command line, a program, a network and further sections."""
    text = text_of_program(program)
    asked = given(network, text, weight, inputs)
    return about(reader(_answer(words, program=text, network=asked.scene, **texts)), text, asked)


def check(
    program: Program,
    network: Networks,
    *,
    facts: bool = False,
    weight: Weight = "weight",
    inputs: Inputs | None = None,
) -> results.Checked:
    """The verdict of a program on networks of so many devices; with `facts` and a yes what is known of each node.

    Raises Refusal.
    """
    return _asked(results.checked, ["check", *flags(facts=facts)], program, network, weight, inputs)


def settle(
    program: Program,
    network: Networks,
    *,
    from_table: bool | Mapping[str, Json] = False,
    facts: bool = False,
    weight: Weight = "weight",
    inputs: Inputs | None = None,
) -> results.Settled:
    """After how many rounds each device of this network holds its value, from every start.

    With `from_table` it is from the table and the pending firings of the network, or from the table that is given, as
    a run has it. Raises Refusal.
    """
    text = text_of_program(program)
    asked = given(network, text, weight, inputs)
    if not isinstance(from_table, bool):
        asked = with_table(asked, from_table)
    words = ["check", *flags(facts=facts), "--settle", *flags(from_table=from_table is not False)]
    found = results.settled(_answer(words, program=text, network=asked.scene), from_table is not False)
    return about(found, text, asked)


def bounds(
    program: Program,
    network: Networks,
    changes: Lines,
    *,
    from_table: bool | Mapping[str, Json] = False,
    facts: bool = False,
    weight: Weight = "weight",
    inputs: Inputs | None = None,
) -> results.Bounds:
    """Between which values each device stays while the network changes within lines, given as a text or as lines, in
    which patterns may stand; and after how many rounds.

    With `from_table` it is from the table and the pending firings of the network, or from the table that is given.
    Raises Refusal, and Fault if a pattern means nothing.
    """
    text = text_of_program(program)
    asked = given(network, text, weight, inputs)
    if not isinstance(from_table, bool):
        asked = with_table(asked, from_table)
    own, scene = call_of([], program=text, network=asked.scene).sections
    names = asked.network.names if asked.network is not None else {}
    lines = written_changes(Section("changes", "", 1, text_of(changes)), (own, scene), names)
    words = ("check", *flags(facts=facts), "--settle", *flags(from_table=from_table is not False, changes=True))
    found = results.bounded(fc.answered(Call(words, (own, scene, lines))).text)
    if asked.network is None:
        return found
    return about(found, text, asked, widest(asked.network, envelope_of(asked.network, lines.text, declared(text))))


def cut(
    program: Program, network: Networks, *, weight: Weight = "weight", inputs: Inputs | None = None
) -> cuts.Cut | cuts.Untold | None:
    """What the ceiling of a program cuts of the values that `stable` has, or with a no `settle`; None if nothing is
    seen of it, and `Untold` where it can't be told. Raises Refusal."""
    text = text_of_program(program)
    asked = given(network, text, weight, inputs)
    words = ("stable",) if check(text, network, weight=weight, inputs=inputs) else ("check", "--settle")
    own, scene = call_of(words, program=text, network=asked.scene).sections
    return cuts.cut_of(cuts.Question(own, scene, words))


def with_table(asked: Given, table: Mapping[str, Json]) -> Given:
    """The network with a table, and nothing in flight. Raises Fault if it is no network."""
    if asked.network is None:
        raise Fault("this isn't a scene; fieldc.check says where it is wrong", 3)
    network = replace(asked.network, state={"table": table})
    return Given(network.scene(), network)


def stable(
    program: Program, network: Networks, *, weight: Weight = "weight", inputs: Inputs | None = None
) -> results.Stable:
    """The value to which each device stabilises; the verdict instead where that is a no. Raises Refusal."""
    return _asked(results.stable, ["stable"], program, network, weight, inputs)


def trace(
    program: Program, network: Networks, *, weight: Weight = "weight", inputs: Inputs | None = None
) -> results.Traced:
    """For each device its value and a cheapest path, where the program has walks. Raises Refusal."""
    return _asked(results.traced, ["trace"], program, network, weight, inputs)


def run(
    program: Program,
    network: Networks,
    script: Lines,
    *,
    workers: int = 4,
    log: bool = False,
    table: bool = False,
    weight: Weight = "weight",
    inputs: Inputs | None = None,
) -> results.Ran:
    """Runs a script, given as a text or as lines: rounds on so many threads, edits, rubbish, and what is shown.

    Each show has the rounds that the script asked for since its last edit. With `log` the steps that were taken come
    too, and with `table` what the devices have published. Raises Refusal.
    """
    text, lines = text_of_program(program), text_of(script)
    asked = given(network, text, weight, inputs)
    words = ["run", "--workers", str(workers), *flags(log=log, table=table)]
    found = results.ran(_answer(words, program=text, network=asked.scene, script=lines))
    return about(with_rounds(found, lines), text, asked, behind(asked, text, lines))


def behind(asked: Given, program: str, lines: str) -> Network | None:
    """The network at the last line that shows something, or after a log."""
    found = moments(asked.network, lines, tuple(declared(program).inputs)) if asked.network is not None else []
    return found[-1].network if found else asked.network


def with_rounds(found: results.Ran, script: str) -> results.Ran:
    """A run whose shows have their rounds since the last edit, as the script says them."""
    rounds = rounds_at_shows(script)
    shows = tuple(
        replace(show, rounds=rounds[show.line][0], edited=rounds[show.line][1]) if show.line in rounds else show
        for show in found.shows
    )
    return replace(found, shows=shows)


def replay(
    program: Program,
    network: Networks,
    log: Lines,
    *,
    rounds: bool = False,
    table: bool = False,
    weight: Weight = "weight",
    inputs: Inputs | None = None,
) -> results.Replayed:
    """What each device holds after a log, given as a text or as lines. Raises Refusal."""
    text, lines = text_of_program(program), text_of(log)
    asked = given(network, text, weight, inputs)
    words = ["replay", *flags(rounds=rounds, table=table)]
    found = results.replayed(_answer(words, program=text, network=asked.scene, log=lines))
    return about(found, text, asked, behind(asked, text, lines))


def mail(
    program: Program,
    network: Networks,
    log: Lines | None = None,
    *,
    number: int | None = None,
    weight: Weight = "weight",
    inputs: Inputs | None = None,
) -> results.Mailed:
    """What each device holds after a mail log, or, where the verdict is a yes, after one that is made from a number.

    Raises Refusal, and ValueError if not one of `log` and `number` is given.
    """
    if (log is None) == (number is None):
        raise ValueError("mail takes a log, or a number from which one is made")
    if log is None:
        return _asked(results.mailed, ["mail", "--number", str(number)], program, network, weight, inputs)
    return _asked(results.mailed, ["mail"], program, network, weight, inputs, log=text_of(log))


def generate(number: int, *, devices: int = 64, workers: int = 4) -> results.Generated:
    """The summary of the scenario of a number: a hop count on a ring of so many devices. Raises Refusal."""
    words = ["gen", str(number), "--devices", str(devices), "--workers", str(workers)]
    return results.generated(_answer(words))
