"""What the C file of every firmware has: bits, places, and the calls for the device."""

from __future__ import annotations

from ..language.tree import Declaration
from .kinds import Helper, c_type
from .layout import Row
from .model import Firmware

GET = """\
/* The number in `count` bits, from the bit `at` on; the first one counts most. */
static @number @get(const uint8_t *bytes, @bit at, uint8_t count)
{
    @number value = 0;
    for (; count > 0; count--, at++) {
        value = (@number)((uint32_t)value << 1 | ((uint32_t)bytes[at / 8] >> (7 - at % 8) & 1));
    }
    return value;
}
"""
PUT = """\
/* Writes a number to `count` bits, from the bit `at` on. */
static void @put(uint8_t *bytes, @bit at, uint8_t count, @number value)
{
    for (; count > 0; count--, at++) {
        const uint8_t mask = (uint8_t)(0x80u >> at % 8);
        const bool one = ((uint32_t)value >> (count - 1) & 1) != 0;
        bytes[at / 8] = (uint8_t)(one ? bytes[at / 8] | mask : bytes[at / 8] & ~mask);
    }
}
"""
SAID = """\
/* What this device's message says, behind its head. */
static uint8_t *@said(@device *device)
{
    return device->message + @@HEAD_BYTES;
}
"""
ALIGNED = """\
/* Whether the neighbour `i` is aligned here: its last message comes from the branches that this device has taken. */
static bool @aligned(@place here, uint8_t i)
{
    return ((uint32_t)here.near >> i & 1) != 0;
}
"""
INNER = """\
/* The place of a call: its bits begin so much further on. */
static @place @inner(@place here, @bit sent, @bit kept)
{
    here.sent += sent;
    here.kept += kept;
    return here;
}
"""
BRANCH = """\
/* The place in the branch that is taken: near are those that took it too, and own says whether this device had.
 * What it said in the other branch is said no more. */
static @place @branch(@device *device, @place here, @bit at, bool truth, @bit first, @bit count)
{
    uint8_t *said = @said(device);
    for (uint8_t i = 0; i < device->count; i++) {
        if ((@get(device->neighbours[i].said, here.sent + at, 1) != 0) != truth) {
            here.near = (@set)(here.near & ~((uint32_t)1 << i));
        }
    }
    if (here.own && (@get(said, here.sent + at, 1) != 0) != truth) {
        here.own = false;
        for (@bit bit = 0; bit < count; bit++) {
            @put(said, here.sent + first + bit, 1, 0);
        }
    }
    @put(said, here.sent + at, 1, truth);
    return here;
}
"""
RECALL = """\
/* The place in the branch that is taken, where neighbours don't matter. */
static @place @recall(@device *device, @place here, @bit at, bool truth)
{
    if ((@get(device->kept, here.kept + at, 1) != 0) != truth) {
        here.own = false;
    }
    @put(device->kept, here.kept + at, 1, truth);
    return here;
}
"""
UID = """\
/* This device's number, at most the ceiling. */
static @number @uid(const @device *device)
{
    return %s;
}
"""
WITHIN = """\
/* A number that is no less than one and no greater than another. */
static @number @within(@number value, @number least, @number greatest)
{
    return value < least ? least : value > greatest ? greatest : value;
}
"""
FIND = """\
/* The place of a neighbour in the table, or how many there are. */
static uint8_t @find(const @device *device, uint16_t number)
{
    uint8_t i = 0;
    while (i < device->count && device->neighbours[i].number != number) {
        i++;
    }
    return i;
}
"""
PLACES = """\
/* Where a firing is: the neighbours that are aligned, whether this device's last export has this place, and where
 * the bits of the function begin, in a message and in what is kept. */
typedef struct {
    @set near;
    bool own;
    @bit sent;
    @bit kept;
} @place;
"""


def before(firmware: Firmware) -> list[Helper]:
    """Types."""
    bits = f"typedef {firmware.bit} @bit; /* counts bits of a message, or of what is kept */\n"
    sets = f"typedef {firmware.set} @set; /* has a bit for each neighbour */\n"
    return [Helper("@bit", bits), Helper("@set", sets), Helper("@place", PLACES)]


def behind(firmware: Firmware) -> list[Helper]:
    """Functions."""
    return [
        Helper("@get", GET),
        Helper("@put", PUT),
        Helper("@said", SAID),
        Helper("@aligned", ALIGNED),
        Helper("@inner", INNER),
        Helper("@branch", BRANCH),
        Helper("@recall", RECALL),
        Helper("@uid", UID % number_of_device(firmware.known.ceiling)),
        Helper("@within", WITHIN),
        Helper("@find", FIND),
        *slots(firmware),
    ]


def number_of_device(ceiling: int) -> str:
    """A device's number, cut at the ceiling; without a comparison that always holds."""
    if ceiling >= 0xFFFF:
        return "device->number"
    return "(@number)(device->number < @@CEILING ? device->number : @@CEILING)"


TAKEN = """\
/* Whether the branches around a slot are taken. */
static bool @taken(const uint8_t *said, uint16_t i)
{
    while (@slots[i].guard != 0) {
        const bool wanted = @slots[i].wanted;
        i = (uint16_t)(@slots[i].guard - 1);
        if ((@get(said, @slots[i].at, 1) != 0) != wanted) {
            return false;
        }
    }
    return true;
}
"""
FITS = """\
/* Whether some export says this: each value is of its type, and nothing is said in a branch that isn't taken. */
static bool @fits(const uint8_t *said)
{
    for (uint16_t i = 0; i < sizeof @slots / sizeof @slots[0]; i++) {
        if (@get(said, @slots[i].at, @slots[i].width) > %s) {
            return false;
        }
    }
    return true;
}
"""


def slots(firmware: Firmware) -> list[Helper]:
    """The table of a message, and the test of one."""
    layout = firmware.layout
    spare = layout.said_bytes * 8 - layout.frame.sent
    rows = [row for row in layout.rows if row.leaf.width]
    guarded = any(row.guard >= 0 for row in rows)
    kept = [place for place, row in enumerate(layout.rows) if row.leaf.width]
    places = {place: number for number, place in enumerate(kept, 1)}
    lines = [slot_line(row, places, guarded) for row in rows]
    if spare:
        lines.append(f"    {{{layout.frame.sent}, {spare}, 0{', 0, false' * guarded}}}, /* not used */\n")
    more = "    uint16_t guard; /* the slot, from 1, of the branch around it; 0 for none */\n    bool wanted;\n"
    table = (
        "/* What a message says: so many bits, from which on, and the greatest value. */\n"
        "static const struct {\n    @bit at;\n    uint8_t width;\n    @number most;\n"
        f"{more * guarded}}} @slots[] = {{\n"
        f"{''.join(lines)}}};\n"
    )
    most = "(@taken(said, i) ? @slots[i].most : 0)" if guarded else "@slots[i].most"
    return [Helper("@slots", table), Helper("@taken", TAKEN), Helper("@fits", FITS % most)]


def slot_line(row: Row, places: dict[int, int], guarded: bool) -> str:
    """A line of the table."""
    leaf = row.leaf
    guard = f", {places.get(row.guard, 0)}, {'true' if row.wanted else 'false'}" if guarded else ""
    return f"    {{{leaf.at}, {leaf.width}, {leaf.most}{guard}}}, /* {row.function}: {named(row)} */\n"


def named(row: Row) -> str:
    """What a row is."""
    return " of ".join([*reversed(row.leaf.part), row.what])


def api(firmware: Firmware) -> str:
    """The functions of the header."""
    return "\n".join([init(firmware), hear(firmware), FORGET, fire(firmware), SEND, hold(firmware)])


def init(firmware: Firmware) -> str:
    """`NAME_init`."""
    high, low = divmod(firmware.checksum, 256)
    return f"""\
void @init(@device *device, uint16_t number)
{{
    *device = (@device){{0}};
    device->number = number;
    device->message[0] = {high}; /* of this program */
    device->message[1] = {low};
    device->message[2] = 255; /* the first export counts 0 */
}}
"""


def hear(firmware: Firmware) -> str:
    """`NAME_hear`."""
    high, low = divmod(firmware.checksum, 256)
    least, greatest = firmware.unfolded.metric
    links = "from == device->number" + f" || weight < {least}" * (least > 0) + f" || weight > {greatest}"
    fits = """\
    if (!@fits(message + @@HEAD_BYTES)) {
        return @@VALUE;
    }
"""
    weight = "    device->neighbours[i].weight = (@number)weight;\n"
    said = """\
    for (size_t byte = 0; byte < sizeof device->neighbours[i].said; byte++) {
        device->neighbours[i].said[byte] = message[@@HEAD_BYTES + byte];
    }
"""
    return f"""\
@status @hear(@device *device, uint16_t from, uint32_t weight, const uint8_t *message, size_t length)
{{
    if (length != @@MESSAGE_BYTES) {{
        return @@LENGTH;
    }}
    if (message[0] != {high} || message[1] != {low}) {{
        return @@PROGRAM;
    }}
{fits * (firmware.layout.said_bytes > 0)}\
    if ({links}) {{
        return @@LINK;
    }}
    const uint8_t i = @find(device, from);
    if (i == device->count) {{
        if (i == @@NEIGHBOURS) {{
            return @@FULL;
        }}
        device->count++;
    }} else if ((uint8_t)(device->neighbours[i].counter - message[2]) < @@LATEST) {{
        return @@OLD;
    }}
    device->neighbours[i].number = from;
    device->neighbours[i].counter = message[2];
{weight * ("nbrLink" in firmware.forms)}{said * (firmware.layout.said_bytes > 0)}\
    return @@HEARD;
}}
"""


FORGET = """\
bool @forget(@device *device, uint16_t neighbour)
{
    const uint8_t i = @find(device, neighbour);
    if (i == device->count) {
        return false;
    }
    device->count--;
    device->neighbours[i] = device->neighbours[device->count];
    return true;
}
"""
SEND = """\
const uint8_t *@send(const @device *device)
{
    return device->fired ? device->message : NULL;
}
"""


def fire(firmware: Firmware) -> str:
    """`NAME_fire`."""
    kind, needs = c_type(firmware.result), firmware.layout.needs[firmware.main.name]
    lines, words = [], []
    given = ", const @inputs *given" if firmware.unfolded.inputs else ""
    if "device" in needs:
        words.append("device")
    if "inputs" in needs:
        words.append("&inputs")
        values = ", ".join(given_value(firmware, one) for one in firmware.unfolded.inputs)
        lines.append(f"const @inputs inputs = {{{values}}};")
    elif given:
        lines.append("(void)given;")
    if "here" in needs:
        words.append("here")
        lines += [
            "@place here = {0, device->fired, 0, 0};",
            "for (uint8_t i = 0; i < device->count; i++) {",
            "    here.near = (@set)(here.near | (uint32_t)1 << i);",
            "}",
        ]
    lines.append(f"const {kind} value = @main({', '.join(words)});")
    lines += ["device->message[2]++;", "device->fired = true;", "return value;"]
    body = "".join(f"    {line}\n" for line in lines)
    return f"{kind} @fire(@device *device{given})\n{{\n{body}}}\n"


def given_value(firmware: Firmware, declared: Declaration) -> str:
    """An input as it is given, cut to its range."""
    name = f"given->{firmware.members[declared.name]}"
    if not declared.bounds:
        return name
    return f"@within({name}, {declared.bounds[0][0]}, {declared.bounds[1][0]})"


def hold(firmware: Firmware) -> str:
    """`NAME_hold`, which tests have: it puts in place of the last export what a message and kept bits say."""
    layout = firmware.layout
    rows = "".join(
        f"    if (@get(kept, {row.leaf.at}, {row.leaf.width}) > {row.leaf.most}) {{\n        return false;\n    }}\n"
        for row in layout.kept_rows
        if row.leaf.most + 1 != 1 << row.leaf.width
    )
    fits = " || !@fits(message + @@HEAD_BYTES)" if layout.said_bytes else ""
    keep = """\
    for (size_t byte = 0; byte < sizeof device->kept; byte++) {
        device->kept[byte] = kept[byte];
    }
"""
    return f"""\
#ifdef @@TEST
bool @hold(@device *device, const uint8_t *message, const uint8_t *kept)
{{
    if (message[0] != device->message[0] || message[1] != device->message[1]{fits}) {{
        return false;
    }}
    {'' if rows else '(void)kept;'}
{rows}    for (size_t byte = 0; byte < sizeof device->message; byte++) {{
        device->message[byte] = message[byte];
    }}
{keep * (layout.kept_bytes > 0)}    device->fired = true;
    return true;
}}
#endif
"""
