"""`fieldc firmware`: a checked program as C for devices."""

from __future__ import annotations

import argparse
from dataclasses import replace
from pathlib import Path

from .. import program as fc
from ..asking import tell
from ..blocks import own_library, read_library
from ..composing import OF_PROGRAMS, Composition, composed, least_network, own_explanation, told
from ..refusals import Call, Fault, Refusal, Section, has_lark
from ..sections import cut, read, write
from ..streams import say

SUMMARY = "writes a program as C for devices, or says what it costs"
EPILOG = "docs/firmware.md says what to call when. Example: fieldc firmware mine/hops.fc --name hops -o mine"
MOST = 32


def neighbours(word: str) -> int:
    """How many neighbours a device has room for."""
    if not word.isdigit() or not 1 <= int(word) <= MOST:
        raise argparse.ArgumentTypeError(f"{word} is no number from 1 to {MOST}")
    return int(word)


def arguments(parser: argparse.ArgumentParser) -> None:
    add = parser.add_argument
    add("program", metavar="PROGRAM", help="the program's file; blocks that it calls are put in front of it")
    add(
        "--name",
        metavar="NAME",
        help="the prefix of all names in C and of the files (the name of the program's file)",
    )
    add(
        "--neighbours",
        metavar="N",
        type=neighbours,
        default=MOST,
        help=f"the room of a device, in neighbours, 1 to {MOST} ({MOST})",
    )
    add("-o", "--output", metavar="FOLDER", default=".", help="where NAME.h and NAME.c go (here)")
    shown = parser.add_mutually_exclusive_group()
    shown.add_argument("--cost", action="store_true", help="says what it costs, and writes no files")
    shown.add_argument("--layout", action="store_true", help="writes what a message is like, as JSON, and no files")
    add("--network", metavar="FILE", help="a network: if check says no, asks --settle on it")
    add("--library", metavar="DIR", action="append", default=[], help="a further folder, of your own blocks")
    add("--unjudged", action="store_true", help="doesn't ask fc for the verdict")


def perform(options: argparse.Namespace) -> int:
    """The command: 0, or the status of what `fc` refuses."""
    if not has_lark():
        raise Fault("reading the program needs Lark (Debian: python3-lark)")
    from .. import firmware
    from ..firmware.cost import cost_text
    from ..firmware.names import firmware_name, name_of_file

    text = cut(options.program, read(options.program))[0][1]
    made = composed(text, read_library([own_library(), *map(Path, options.library)]))
    name = firmware_name(options.name) if options.name is not None else name_of_file(options.program)
    if not options.unjudged and fc.built():
        status = judged(made, options)
        if status:
            return status
    found = firmware.firmware_of(made.text, name, options.neighbours)
    if options.cost:
        write("-", cost_text(found))
        return 0
    if options.layout:
        write("-", firmware.layout_text(found))
        return 0
    folder = Path(options.output)
    if not folder.is_dir():
        raise Fault(f"{folder}: there is no such folder", 6)
    for ending, content in ((".h", firmware.header_text(found)), (".c", firmware.source_text(found))):
        write(str(folder / (name + ending)), content)
    return 0


def judged(made: Composition, options: argparse.Namespace) -> int:
    """Tells of a no, and of what `fc` refuses, whose status it returns. Raises Refusal if the network is refused."""
    network = least_network(made.text) if options.network is None else read(options.network)
    sections = (
        Section("program", options.program, 1, made.text),
        Section("network", options.network or "", 1, network),
    )
    call = Call(("check",) if options.network is None else ("check", "--settle"), sections)
    try:
        lines = fc.answered(call).text.splitlines()
    except Refusal as refusal:
        if not refusal.line.startswith(OF_PROGRAMS):
            raise
        say(told(own_explanation(made, refusal, options.program)).replace("compose", "firmware", 1))
        return refusal.status
    if lines[0].startswith("no "):
        why = own_explanation(made, Refusal(1, "no", lines[0], call), options.program)
        tell(None, [replace(why, what=f"{lines[0]}: {why.what}")])
        if options.network is not None:
            say(f"fieldc: on {options.network}: {lines[1]}\n")
    return 0
