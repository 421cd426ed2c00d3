"""What the commands that ask `fc` have in common: files in, the answer out, and the explanation of a no beside it."""

from __future__ import annotations

import argparse
import functools
import time
from collections.abc import Callable, Mapping, Sequence
from dataclasses import replace
from typing import TypeVar, Union

from . import changes, cuts, results
from . import program as fc
from .edits import by_numbers
from .files import names_from
from .json_results import written
from .kinds import Kinds, by_names, kinds_of, values_of, with_names
from .pace import pace_of, timed
from .progress import Progress, described
from .refusals import Call, Explanation, Fault, Refusal, Section, explained, warned
from .results import value_of, word_of
from .sections import read, sections, write
from .streams import pour, say
from .tables import table_of
from .telling import place_of, rest_of

WHY_NO = "docs/patterns.md#the-reasons"
Answer = TypeVar("Answer", bound=Union[results.Result, str])
OF_DEVICES = ("stable", "trace", "run", "replay", "mail", "settle")


def add_files(parser: argparse.ArgumentParser, kinds: Sequence[str]) -> None:
    """The files of a command: one for each section, or some sections joined by lines `%%` in one file."""
    wanted = " ".join(kind.upper() for kind in kinds)
    parser.add_argument(
        "files",
        nargs="+",
        metavar="FILE",
        help=f"{wanted}: one file each, or one file with lines %%%% between them; - is standard input",
    )


def add_answers(parser: argparse.ArgumentParser, names: bool = True, values: bool = False) -> None:
    """How the answer is written; `values` is whether it has values of devices."""
    forms = parser.add_mutually_exclusive_group()
    forms.add_argument("--json", action="store_true", help="writes the answer, or a refusal, as JSON")
    if values:
        forms.add_argument("--csv", action="store_true", help="writes only the values, as a table, a row each")
    if names:
        parser.add_argument(
            "--names", metavar="FILE", help="a file of lines id,name: the names by which devices are shown"
        )
    if names and values:
        parser.add_argument(
            "--kinds", metavar="PARTS",
            help="numbers in these parts of the values are devices, written by their names: all, or 2, or 1,3",
        )  # fmt: skip


def add_cut_check(parser: argparse.ArgumentParser) -> None:
    """Whether values are looked at that the ceiling may have cut."""
    asks = "doesn't ask fc again, with a greater ceiling, whether values are cut"
    parser.add_argument(cuts.OPTION, action="store_true", help=asks)


def ask(
    options: argparse.Namespace,
    words: Sequence[str],
    kinds: Sequence[str],
    reader: Callable[[str, Call], Answer],
) -> tuple[Call, Answer, int]:
    """Asks `fc`, writes its answer, and tells why where it is a no. Returns the call, the result and the status.

    Raises Refusal and Fault.
    """
    names, pace = names_from(options.names) if getattr(options, "names", None) else {}, pace_of(options)
    if getattr(options, "kinds", None) and not options.names:
        raise Fault("--kinds writes devices by their names: give --names too")
    call = Call(tuple(words), parts_of(options, kinds, names))
    start = time.monotonic()
    with Progress(lambda: described(call)) as waiting:
        reply = fc.answered(call, waiting)
    cuts_of = functools.partial(cut_warnings, options, call, names=names, took=time.monotonic() - start)
    result = understood(reader, reply.text, call)
    parts = kinds_of(options.kinds, values_of(result), names) if getattr(options, "kinds", None) else None
    shown = result if parts is None else with_names(result, parts)
    why, warnings = why_no(call, reply.text) if reply.status == 1 else None, warned(call)
    if options.json:
        warnings += cuts_of(result)
        write("-", written(shown, names, why, warnings, pace))
        return call, result, reply.status
    if getattr(options, "csv", False):
        write("-", table_of(shown, names, pace))
    elif names or pace is not None:
        text = reply.text if pace is None else timed(reply.text, pace)
        write("-", named(text, names, "settle" if "--settle" in words else words[0], parts))
    else:
        pour(reply.output)
    if pace is not None:
        say(f"fieldc: {pace.premise}\n")
    tell(why, warnings)
    tell(None, cuts_of(result))
    return call, result, reply.status


def parts_of(options: argparse.Namespace, kinds: Sequence[str], names: Mapping[int, str]) -> tuple[Section, ...]:
    """The sections of the files, and after them that of the changes, where there are some. Raises Fault."""
    given = getattr(options, "changes", None)
    if given == "-" and "-" in options.files:
        raise Fault("standard input can be read only once: use a single -")
    parts = tuple(numbered(section, names) for section in sections(options.files, kinds))
    return parts if given is None else (*parts, changes.for_fc(Section("changes", given, 1, read(given)), parts, names))


def cut_warnings(
    options: argparse.Namespace, call: Call, result: results.Result | str, names: Mapping[int, str], took: float
) -> tuple[Explanation, ...]:
    """What the ceiling cuts of values that took so many seconds, where the command looks for it and `fc` is built."""
    if getattr(options, "no_cut_check", True) or not fc.built():
        return ()
    with Progress(lambda: "fc with a greater ceiling") as waiting:
        return cuts.warned(call, result, names, took, waiting)


def understood(reader: Callable[[str, Call], Answer], text: str, call: Call) -> Answer:
    """What `fc` wrote, as a result. Raises Fault if it is no answer of its."""
    try:
        return reader(text, call)
    except (Fault, ValueError, KeyError, IndexError, TypeError):
        raise Fault(f"{fc.find()} doesn't answer like fc: {text[:60]!r}") from None


def numbered(section: Section, names: Mapping[int, str]) -> Section:
    """A section; a script or log with the numbers of its devices in place of names. Raises Fault."""
    if section.kind not in ("script", "log") or not names:
        return section
    text = by_numbers(section.text, names, section.name, section.first_line)
    return replace(section, text=text, typed=section.text)


def named(text: str, names: Mapping[int, str], command: str, kinds: Kinds | None = None) -> str:
    """An answer of `fc` in which devices are called by their names, where they have one; in values those of `kinds`."""
    if command not in OF_DEVICES:
        return text
    lines = text.splitlines()
    first = next((i + 1 for i, line in enumerate(lines) if line.split(" ")[0] in ("open", "settles", "within")), 0)
    last = lines.index("log") if "log" in lines else len(lines)

    def call(word: str) -> str:
        return names.get(int(word), word)

    for place in range(first, last):
        device, *rest = lines[place].split(" ")
        if device.isdigit():
            walk = [call(word) for word in rest[1:]] if command == "trace" else rest[1:]
            rest, at = [*rest[:1], *walk], len(rest) - 1 if command == "settle" else 0
            if kinds is not None and at < len(rest):
                rest[at] = word_of(by_names(value_of(rest[at]), kinds))
            lines[place] = " ".join([call(device), *rest])
    return "".join(line + "\n" for line in lines)


def why_no(call: Call, text: str) -> Explanation | None:
    """Why an answer is a no, or has no walks; None if it is neither."""
    lines = text.splitlines()
    line = next((line for line in [*lines[:1], *lines[1:2]] if line.startswith("no ")), None)
    if line is None:
        return None
    explanation = explained(call, Refusal(1, "no", line, call))
    return replace(explanation, page=WHY_NO) if explanation.what == line else explanation


def tell(why: Explanation | None, warnings: Sequence[Explanation] = ()) -> None:
    """Tells on standard error why an answer is a no, whose line stands on standard output, and warnings."""
    if why is not None:
        say(f"fieldc: {place_of(why)}{why.what}\n{rest_of(why)}")
    for warning in warnings:
        say(f"fieldc: warning: {place_of(warning)}{warning.what}\n{rest_of(warning)}")
