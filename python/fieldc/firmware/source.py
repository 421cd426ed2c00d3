"""The C file of a firmware."""

from __future__ import annotations

import re
import textwrap

from ..language.tree import Declaration, Local, Pair
from ..language.types import deep
from .expressions import WIDEST, Array, Body, Code
from .kinds import Helper, arithmetic, c_type, orders, pairs_in, struct_of
from .layout import plain
from .model import Firmware
from .parts import api, behind, before

NAMED = re.compile(r"@(\w+)")


def source_text(firmware: Firmware) -> str:
    """The whole C file, with `@` for the firmware's name where it isn't written out."""
    with deep():
        functions = [function_text(firmware, function) for function in firmware.functions]
    own = "\n".join([*functions, api(firmware)])
    helpers = wanted([*before(firmware), *operators(firmware), *behind(firmware)], own)
    parts = [head(firmware), *helpers, *functions, api(firmware)]
    return firmware.spelled("\n".join(parts))


def head(firmware: Firmware) -> str:
    """The first lines: what the file is made from."""
    rows = [row.partition("//")[0].rstrip().expandtabs() for row in firmware.text.split("\n")]
    lines = [f" *   {row}" for row in rows if row]
    made = "Made by `fieldc firmware` from the program below; change the program, and make it again."
    return "\n".join([f"/* {made}", " *", *lines, " */", "", f'#include "{firmware.name}.h"', ""])


def wanted(helpers: list[Helper], text: str) -> list[str]:
    """The helpers that a text names, and those that these name, in their order."""
    left, found = set(NAMED.findall(text)), set[str]()
    by_name = {helper.name[1:]: helper for helper in helpers}
    while left:
        name = left.pop()
        if name in by_name and name not in found:
            found.add(name)
            left |= set(NAMED.findall(by_name[name].text))
    return [helper.text for helper in helpers if helper.name[1:] in found]


def operators(firmware: Firmware) -> list[Helper]:
    """All operators on numbers, truth values, and the pairs of the program."""
    locals_: dict[Local, None] = {"int": None, "bool": None}
    for kind in firmware.known.types.values():
        locals_.update(dict.fromkeys(pairs_in(kind.local)))
    pairs = [local for local in sorted(locals_, key=c_size) if isinstance(local, Pair)]
    structs = [Helper(c_type(pair), struct_of(pair)) for pair in pairs if pair not in firmware.public_pairs]
    order: list[Local] = ["int", "bool", *pairs]
    ordered = [helper for local in order for helper in orders(local)]
    return [*structs, *arithmetic(firmware.known.ceiling), *ordered]


def c_size(local: Local) -> int:
    """How many parts a type has, so that a pair comes after its parts."""
    return 1 + c_size(local.first) + c_size(local.second) if isinstance(local, Pair) else 1


def function_text(firmware: Firmware, function: Declaration) -> str:
    """A function of the program in C, below its text."""
    layout = firmware.layout
    assert function.body is not None
    body = Body(layout, layout.frames[function.name], firmware.name)
    words = []
    needs = layout.needs[function.name]
    if "device" in needs:
        words.append("@device *device")
    if "inputs" in needs:
        words.append("const @inputs *inputs")
    if "here" in needs:
        words.append("@place here")
    for parameter in function.parameters:
        name = body.names.new(parameter.name)
        words.append(f"const {c_type(parameter.type.local)} {'*' * parameter.type.field}{name}")
        body.scope[parameter.name] = bound(parameter.type.field, name)
    result = layout.known.types[function.body]
    if result.field:
        words.append(f"{c_type(result.local)} *result")
        inside: list[str] = []
        code = body.field(function.body, inside)
        body.each(inside, f"result[i] = {code.text};")
    else:
        body.line(f"return {body.local(function.body).text};")
    kind = "void" if result.field else c_type(result.local)
    name = f"@def_{function.name}" if function.name else "@main"
    front = [f"/* {number}: {line} */" for number, line in lines_of(firmware.text, function)]
    unused = [f"    (void){name};" for name in names_of(words) if not used(name, body.lines)]
    title = textwrap.wrap(f"static {kind} {name}({', '.join(words) or 'void'})", WIDEST, subsequent_indent=" " * 8)
    return "\n".join([*front, *title, "{", *unused, *body.lines, "}", ""])


def lines_of(text: str, function: Declaration) -> list[tuple[int, str]]:
    """The lines of a function's text that say something, each with its number."""
    assert function.body is not None
    first = function.at.line
    last = text.count("\n", 0, function.body.end) + 1
    rows = [(number, plain(row)) for number, row in enumerate(text.split("\n")[first - 1 : last], first)]
    return [(number, row) for number, row in rows if row]


def bound(field: bool, name: str) -> Code | Array:
    """What a parameter is in the body."""
    return Array(name) if field else Code(name)


def names_of(words: list[str]) -> list[str]:
    """The names of parameters."""
    return [re.findall(r"\w+", word)[-1] for word in words]


def used(name: str, lines: list[str]) -> bool:
    """Whether lines of C, comments aside, name a variable."""
    word = re.compile(rf"\b{name}\b")
    return any(word.search(re.sub(r"/\*.*?\*/", "", line)) for line in lines)
