"""`fieldc changes`: a file of what may change, in which patterns stand for many lines, written out for `fc`."""

from __future__ import annotations

import argparse
from dataclasses import replace

from ..asking import add_files
from ..changes import check_forms, written_out
from ..files import names_from
from ..networks import declared, read_scene
from ..refusals import Fault
from ..sections import sections, write

SUMMARY = "writes out the patterns of a file of what may change, as the lines that fc check --settle --changes reads"
EPILOG = """\
Example: fieldc changes may.txt net.json hops.fc

A line says what may happen, at any time and any number of times:

  set DEVICES NAME VALUE      the input has such a value
  link DEVICES DEVICES VALUE  devices are linked with such a weight
  links DEVICES VALUE         the links of these devices have such a weight
  unlink DEVICES [DEVICES]    the links of these devices, or between these, go
  leave DEVICES               they leave, and come back
  join DEVICE VALUE ..        a device that isn't there comes with such inputs, and may leave again

DEVICES are one device by its number or name, * for all, 3..9, or input=value for all whose input has this value now.
A VALUE is one value, 2..7, any, or relative to the present one: +-2, -1..+3, +-20%, -20%..+20%. It stays within the
range of the input or the metric. fieldc settle --changes takes the same file."""
KINDS = ("changes", "network", "program")


def arguments(parser: argparse.ArgumentParser) -> None:
    add_files(parser, KINDS)
    parser.add_argument("--names", metavar="FILE", help="a file of lines id,name: the names by which devices are shown")


def perform(options: argparse.Namespace) -> int:
    parts = sections(options.files, KINDS)
    if len(parts) != len(KINDS):
        raise Fault(f"{len(parts)} sections: CHANGES NETWORK PROGRAM are three")
    changes, network, program = parts
    check_forms(changes)
    found = read_scene(network.text, network.name, network.first_line)
    names = names_from(options.names) if options.names else {}
    write("-", written_out(changes, replace(found, names=names), declared(program.text)).text)
    return 0
