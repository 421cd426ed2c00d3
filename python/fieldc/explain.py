"""Explains what `fc` refuses, and why its verdict is a no: in plain words, with the place, the name that is meant and
what to try.

An explanation is made by reading the input once more. Where that finds another place or word than `fc`, the explanation
is what `fc` said, and nothing more.
"""

from __future__ import annotations

from collections.abc import Callable

from . import explain_changes, explain_network, explain_script
from .explain_script import with_words
from .explain_verdict import Verdict, no_walks
from .explain_words import usage, wrong_sections
from .jsonplaces import Json, JsonFault
from .language import Unfolded
from .places import COMMANDS, FORMATS, Said, in_file, moved, program_of, scene_of, section_of
from .refusals import Call, Explanation, Refusal, Section, plain_explanation

STATUSES = COMMANDS + "#refusals"
PROGRAM_LIMITS = ("tokens", "depth", "nodes")
SILENT = {
    5: ("Reading the input failed; nothing was done.", "Try again, or give the input as a file."),
    6: ("Writing the output failed; only a part of it was written.", "Is the disk full, or has a pipe closed?"),
    7: ("Memory ran out.", "Use fewer devices, or a program with fewer nodes."),
}


def explain(call: Call, refusal: Refusal) -> Explanation:
    """The explanation of a refusal, or of the line of a no; only what `fc` said where nothing more is known."""
    try:
        section, said = _said(call, refusal)
    except Exception:  # an explanation that fails must not hide what fc said
        section, said = None, None
    return plain_explanation(refusal) if said is None else in_file(section, said)


def _said(call: Call, refusal: Refusal) -> tuple[Section | None, Said | None]:
    if not refusal.line:
        if refusal.status not in SILENT:
            return None, None
        what, hint = SILENT[refusal.status]
        return None, Said(what, None, None, hint, STATUSES)
    words = refusal.line.split(" ")
    rule = RULES.get(refusal.word)
    return rule(call, words) if rule is not None else (None, None)


def _usage(call: Call, _words: list[str]) -> tuple[Section | None, Said | None]:
    return None, usage(call.words)


def _sections(call: Call, words: list[str]) -> tuple[Section | None, Said | None]:
    return None, wrong_sections(call.words, int(words[1]))


def _program(call: Call, words: list[str]) -> tuple[Section | None, Said | None]:
    section = section_of(call, "program")
    fault = program_of(call).fault
    if fault is None or fault.line != " ".join(words):
        return None, None
    return section, Said(fault.what, moved(section, fault.at), fault.name, fault.hint, fault.page)


def _no(call: Call, words: list[str]) -> tuple[Section | None, Said | None]:
    section, found = section_of(call, "program"), program_of(call)
    if found.unfolded is None or found.program is None or found.program.main.body is None:
        return None, None
    said: Said | None
    if words[1:] == ["walks"]:
        said = no_walks(found.unfolded, found.program.main.body.at)
    else:
        said = Verdict(found.unfolded).said(int(words[1]), words[2])
    if said is None:
        return None, None
    return section, Said(said.what, moved(section, said.at), said.name, said.hint, said.page)


def _open(_call: Call, _words: list[str]) -> tuple[Section | None, Said | None]:
    what = "For some device no number of rounds was found after which it holds one value"
    what += ", whatever the devices hold at the start."
    hint = "`fieldc settle --why` looks for two starts that end at different values."
    return None, Said(what, None, None, hint, "docs/settle.md")


def _scene(call: Call, words: list[str]) -> tuple[Section | None, Said | None]:
    section, scene = section_of(call, "network"), scene_of(call)
    if section is None or scene is None:
        return None, None
    if isinstance(scene, JsonFault):
        return (section, explain_network.not_json(scene)) if words[0] == "json" else (None, None)
    program = program_of(call).unfolded
    if words[0] == "json" or program is None:
        return None, None
    return section, _in_scene(section.text, scene, words, program)


def _in_scene(text: str, scene: Json, words: list[str], program: Unfolded) -> Said | None:
    if words[0] == "shape":
        return explain_network.shape(text, scene, words[1], program)
    if words[0] == "kept":
        return explain_network.kept(text, scene, words[1], int(words[2]), program)
    return explain_network.network(text, scene, words[1], words[2], program)


def _lines(call: Call) -> tuple[Section | None, str]:
    """The script or log of a call, and which of the three kinds it is."""
    section = section_of(call, "script", "log")
    kind = "mail" if call.words[:1] == ("mail",) else "script" if call.words[:1] == ("run",) else "log"
    return section, kind


def _line(call: Call, words: list[str]) -> tuple[Section | None, Said | None]:
    section, kind = _lines(call)
    scene, program = scene_of(call), program_of(call).unfolded
    if section is None or not isinstance(scene, Json) or program is None:
        return None, None
    return section, explain_script.line_fault(section, kind, int(words[1]), words[2], scene, program)


def _changes(call: Call, words: list[str]) -> tuple[Section | None, Said | None]:
    section, scene, program = section_of(call, "changes"), scene_of(call), program_of(call).unfolded
    if section is None or not isinstance(scene, Json) or program is None:
        return None, None
    return section, explain_changes.line_fault(section, int(words[1]), words[2], scene, program)


def _limit(call: Call, words: list[str]) -> tuple[Section | None, Said | None]:
    name, count = words[1], int(words[2])
    if name in PROGRAM_LIMITS:
        return _program(call, words)
    if name in ("lines", "scrambles", "firings"):
        return _script_limit(call, name, count)
    if name in ("degree", "devices"):
        return _network_limit(call, name, count)
    return None, _other_limit(call, name, count)


def _script_limit(call: Call, name: str, count: int) -> tuple[Section | None, Said | None]:
    section, _ = _lines(call)
    scene = scene_of(call)
    if section is None or not isinstance(scene, Json):
        return None, None
    if name == "firings":
        return section, explain_script.limit_firings(section, count, scene)
    return section, explain_script.limit_lines(section, count) if name == "lines" else explain_script.limit_scrambles(
        section
    )


def _network_limit(call: Call, name: str, count: int) -> tuple[Section | None, Said | None]:
    scene = scene_of(call)
    if not isinstance(scene, Json):
        return None, _other_limit(call, name, count)
    said = explain_network.degree(scene) if name == "degree" else explain_network.too_many(scene, count)
    if said is not None:
        return section_of(call, "network"), said
    section = section_of(call, "changes")
    if section is not None:
        return section, explain_changes.limit(section, name, scene)
    section, kind = _lines(call)
    if section is None:
        return None, None
    rule = explain_script.limit_degree if name == "degree" else explain_script.limit_devices
    return section, rule(section, kind, scene)


def _other_limit(call: Call, name: str, count: int) -> Said | None:
    words = {
        "workers": (
            f"{count} workers are too many; the limit is 16.",
            "Write `--workers 16`.",
            COMMANDS + "#run",
        ),
        "devices": (
            f"{count} devices are too many; a scenario has at most 512.",
            "Write `--devices 512`.",
            COMMANDS + "#gen",
        ),
        "bytes": (
            "The input has more than 1,048,576 bytes.",
            "Use a smaller network or a shorter log.",
            FORMATS + "#limits",
        ),
        "mail": (
            f"It would take {count:,} steps, the rounds of the verdict times the sum of the devices and twice the links"
            ", and at most 1,000,000 are made.",
            "Take a smaller network, or a lower ceiling, with which the verdict has fewer rounds.",
            COMMANDS + "#mail",
        ),
    }
    if name not in words:
        return None
    what, hint, page = words[name]
    return Said(what, None, name if name in ("bytes", "mail") else str(count), hint, page)


RULES: dict[str, Callable[[Call, list[str]], tuple[Section | None, Said | None]]] = {
    "usage": _usage,
    "sections": _sections,
    "lexical": _program,
    "syntax": _program,
    "types": _program,
    "limit": _limit,
    "json": _scene,
    "shape": _scene,
    "network": _scene,
    "kept": _scene,
    "script": _line,
    "log": _line,
    "changes": _changes,
    "no": _no,
    "open": _open,
}


def warnings(call: Call) -> tuple[Explanation, ...]:
    """What `fc` takes, and a user may not have meant: a `uid` that the ceiling cuts."""
    section, found, scene = section_of(call, "program"), program_of(call).unfolded, scene_of(call)
    if found is None or not isinstance(scene, Json):
        return ()
    uses = [node for node in found.nodes if node.form == "uid"]
    numbers = {*explain_network.device_numbers(scene), *_joining(call)}
    above = sorted(number for number in numbers if number > found.ceiling)
    if not uses or not above:
        return ()
    devices = f"device {above[0]}" if len(above) == 1 else f"the {len(above):,} devices from {above[0]} on"
    what = f"`uid` is cut at the ceiling {found.ceiling}, so it is {found.ceiling} at {devices}."
    hint = f"Raise the ceiling to {above[-1]}, or give these devices lower numbers."
    place = moved(section, uses[0].expr.at)
    return (in_file(section, Said(what, place, "uid", hint, "docs/language.md#what-a-program-means")),)


def _joining(call: Call) -> list[int]:
    """The numbers of the devices that join in a script or log, or may come by changes."""
    changes = section_of(call, "changes")
    if changes is not None:
        return list(explain_changes.joining(changes))
    section, kind = _lines(call)
    if section is None or kind == "mail":
        return []
    return [int(line.words[1].text) for line in with_words(section) if line.verb == "join"]
