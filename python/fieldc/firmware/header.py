"""The header of a firmware, and the layout of its messages."""

from __future__ import annotations

import json

from .kinds import c_type, struct_of
from .layout import HEAD, Row
from .model import LATEST, Firmware
from .parts import named


def header_text(firmware: Firmware) -> str:
    """The whole header."""
    text = (
        HEADER.replace("%FRONT%", front(firmware))
        .replace("%TYPES%", types(firmware))
        .replace("%CALLS%", calls(firmware))
    )
    return firmware.spelled(text)


HEADER = """\
%FRONT%
#ifndef @@H
#define @@H

#include <stdbool.h>
#include <stddef.h>
#include <stdint.h>

#ifdef __cplusplus
extern "C" {
#endif

%TYPES%
%CALLS%
#ifdef __cplusplus
}
#endif

#endif
"""


def front(firmware: Firmware) -> str:
    """The comment at the top: what a message is like."""
    most = LATEST - 1
    lines = [
        "Made by `fieldc firmware`; docs/firmware.md says what has to be called when.",
        "",
        *table(firmware),
        "",
        "Numbers have their greatest bit first. A device counts its exports from 0 to 255, and then from 0. Of each",
        f"neighbour a message is dropped as old if its count is that of the last one taken, or one of the {most}",
        f"before it. So of messages that come at most {most} exports late none is taken after a younger one; one that",
        f"comes later may be. A neighbour that starts again is heard again after at most {LATEST} of its exports.",
    ]
    return "\n".join(["/*", *(f" * {line}".rstrip() for line in lines), " */"])


def table(firmware: Firmware) -> list[str]:
    """The layout of a message, as lines."""
    rows = [
        ("bits", "at most", "what"),
        *((f"{at}..{at + width - 1}", most, what) for at, width, most, what in slots(firmware)),
    ]
    widths = [max(len(str(row[column])) for row in rows) for column in (0, 1)]
    title = f"A message has {firmware.layout.message_bytes} bytes:"
    return [title, "", *(f"  {a:{widths[0]}}  {b!s:>{widths[1]}}  {c}" for a, b, c in rows)]


def slots(firmware: Firmware) -> list[tuple[int, int, int, str]]:
    """What a message says: the first bit, how many, the greatest value, and what it is."""
    layout = firmware.layout
    found = [(0, 16, 0xFFFF, f"the program: {firmware.checksum:#06x}"), (16, 8, 255, "the count of the export")]
    for row in layout.rows:
        if row.leaf.width:
            around = f", if bit {8 * HEAD + layout.rows[row.guard].leaf.at} is {int(row.wanted)}, or else 0"
            what = f"{row.function}: {named(row)}{around * (row.guard >= 0)}"
            found.append((8 * HEAD + row.leaf.at, row.leaf.width, row.leaf.most, what))
    spare = layout.said_bytes * 8 - layout.frame.sent
    return [*found, *[(8 * HEAD + layout.frame.sent, spare, 0, "nothing")] * (spare > 0)]


def layout_text(firmware: Firmware) -> str:
    """The layout of a message as JSON, for sniffers."""
    layout = firmware.layout

    def slot(row: Row) -> dict[str, object]:
        made: dict[str, object] = {
            "at": 8 * HEAD + row.leaf.at,
            "bits": row.leaf.width,
            "most": row.leaf.most,
            "type": "bool" if row.leaf.truth else "int",
            "function": row.function,
            "of": row.what,
            "part": list(row.leaf.part),
        }
        if row.guard >= 0:
            made["if"] = {"at": 8 * HEAD + layout.rows[row.guard].leaf.at, "is": row.wanted}
        return made

    whole = {
        "name": firmware.name,
        "bytes": layout.message_bytes,
        "program": {"at": 0, "bits": 16, "is": firmware.checksum},
        "count": {"at": 16, "bits": 8},
        "slots": [slot(row) for row in layout.rows],
    }
    return json.dumps(whole, indent=1) + "\n"


def types(firmware: Firmware) -> str:
    """The constants and types."""
    layout = firmware.layout
    inputs = "".join(
        f"    {'@number' if one.bounds else 'bool'} {firmware.members[one.name]};"
        + (f" /* {one.bounds[0][0]} to {one.bounds[1][0]}; what is outside is cut to it */" if one.bounds else "")
        + "\n"
        for one in firmware.unfolded.inputs
    )
    weight = "    @number weight;\n" * ("nbrLink" in firmware.forms)
    said = f"    uint8_t said[{layout.said_bytes}];\n" * (layout.said_bytes > 0)
    kept = f"    uint8_t kept[{layout.kept_bytes}]; /* what the device keeps for itself */\n" * (layout.kept_bytes > 0)
    parts = [
        f"#define @@CEILING {firmware.known.ceiling}\n"
        f"#define @@NEIGHBOURS {firmware.neighbours}\n"
        f"#define @@HEAD_BYTES {HEAD}\n"
        f"#define @@MESSAGE_BYTES {layout.message_bytes}\n"
        f"#define @@LATEST {LATEST}\n"
        "#define @@DEVICE_BYTES (sizeof(@device))\n",
        f"typedef {firmware.number} @number; /* 0 to @@CEILING */\n",
        *map(struct_of, firmware.public_pairs),
        *([f"/* What a device senses. */\ntypedef struct {{\n{inputs}}} @inputs;\n"] if inputs else []),
        "/* What a device has heard of a neighbour. */\n"
        f"typedef struct {{\n    uint16_t number;\n{weight}    uint8_t counter;\n{said}}} @neighbour;\n",
        "/* A device: all its state. Its members are its own. */\n"
        "typedef struct {\n    uint16_t number;\n    uint8_t count; /* of neighbours */\n    bool fired;\n"
        f"    uint8_t message[@@MESSAGE_BYTES]; /* the last export */\n{kept}"
        "    @neighbour neighbours[@@NEIGHBOURS];\n} @device;\n",
        STATUS,
    ]
    return "\n".join(parts)


STATUS = """\
/* What became of a message. All but the first leave the device as it was. */
typedef enum {
    @@HEARD,   /* it is now what was last heard of this neighbour */
    @@OLD,     /* it is the last one again, or an older one */
    @@FULL,    /* there is no room for one more neighbour */
    @@LENGTH,  /* it hasn't @@MESSAGE_BYTES bytes */
    @@PROGRAM, /* it is of another program */
    @@VALUE,   /* no export says this */
    @@LINK     /* it comes from this device itself, or the weight isn't in the metric */
} @status;
"""


def calls(firmware: Firmware) -> str:
    """The functions. None of them may be called while another one works on the same device."""
    least, greatest = firmware.unfolded.metric
    given = ", const @inputs *given" if firmware.unfolded.inputs else ""
    return f"""\
/* None of these may be called while another one works on the same device. */

/* A device with its number, nothing heard, nothing kept. */
void @init(@device *device, uint16_t number);

/* A message of a neighbour, over a link of this weight ({least} to {greatest}). Any bytes may come. */
@status @hear(@device *device, uint16_t from, uint32_t weight, const uint8_t *message, size_t length);

/* A neighbour is gone. False if it wasn't there. */
bool @forget(@device *device, uint16_t neighbour);

/* One firing: the value of `main`. */
{c_type(firmware.result)} @fire(@device *device{given});

/* The message to broadcast, of @@MESSAGE_BYTES bytes, which stays until the next firing; NULL before the first. */
const uint8_t *@send(const @device *device);

#ifdef @@TEST
/* For tests: the device's last export is that of a message, with these kept bits. False if no export says this. */
bool @hold(@device *device, const uint8_t *message, const uint8_t *kept);
#endif
"""
