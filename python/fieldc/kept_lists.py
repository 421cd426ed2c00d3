"""Which kept value of an export is at fault, and of what part of the program it is."""

from __future__ import annotations

from collections.abc import Iterator

from .jsonplaces import Json
from .language import Node, Unfolded
from .language.tree import Local, Pair, local_text, quoted
from .places import Said
from .telling import counted

PAGE = "docs/formats.md#the-network-a-scene-in-json"
ANEW = "A table belongs to one program: make a new one with `--table`."


def kept_type(node: Node) -> Local:
    """The type of what a node keeps."""
    return "bool" if node.form == "if" else node.type.local


def fits(found: Json, kind: Local, ceiling: int) -> bool:
    """Whether a value of JSON is one of a type, with integers up to the ceiling."""
    if isinstance(kind, Pair):
        pair = found.kind == "array" and len(found.items) == 2
        return pair and fits(found.items[0], kind.first, ceiling) and fits(found.items[1], kind.second, ceiling)
    if kind == "bool":
        return found.kind == "truth"
    return found.whole is not None and found.whole <= ceiling


def walk(items: tuple[Json, ...], pairs: bool, program: Unfolded) -> Iterator[tuple[Node | None, Json | None]]:
    """The places that an export keeps and the items that stand for them, in order, up to the first that misfits.

    The last has no item where one is missing, and no node where items are left over; nothing more where all fit.
    """
    left = [0]
    count = 0
    while left:
        node = program.nodes[left.pop()]
        if not node.keeps:
            left.extend(reversed(node.kids))
            continue
        item = items[count] if count < len(items) else None
        yield node, item
        value = item.items[1] if item is not None and pairs and len(item.items) == 2 else item
        if item is None or value is None or not fits(value, kept_type(node), program.ceiling):
            return
        if pairs and item.items[0].whole != node.place:
            return
        count += 1
        kids = [node.kids[0], node.kids[1 if value.value else 2]] if node.form == "if" else node.kids
        left.extend(reversed(kids))
    if count < len(items):
        yield None, items[count]


def kept_fault(text: str, found: Json, place: int, pairs: bool, program: Unfolded) -> Said | None:
    """What is wrong with the kept list of an export at a place; None if it isn't seen."""
    if found.kind != "array":
        return None
    steps = list(walk(found.items, pairs, program))
    node, item = steps[-1] if steps else (None, None)
    if node is None:
        if place != len(program.nodes) or item is None:
            return None
        return Said(too_many(len(steps) - 1), item.at, None, ANEW, PAGE)
    if node.place != place:
        return None
    if item is None:
        return Said(missing(node, program), found.at, str(place), ANEW, PAGE)
    shown = " ".join(text[item.start : item.end].split())
    if pairs and item.items[0].whole != node.place:
        what = f"The kept value of {part(node, program)}, is expected here, but `{shown}` belongs to another place."
        return Said(what, item.at, str(place), ANEW, PAGE)
    return Said(misfit(node, shown, program), item.at, str(place), ANEW, PAGE)


def part(node: Node, program: Unfolded) -> str:
    """A kept place in words: its number, its text and where that stands."""
    at = node.expr.at
    return (
        f"place {node.place}, {quoted(program.text, node.expr)} on line {at.line}, column {at.column}, of the program"
    )


def too_many(count: int) -> str:
    """Said where items are left over."""
    return f"The export keeps {counted(count, 'value')}, but more are given here."


def missing(node: Node, program: Unfolded) -> str:
    """Said where the item of a place is missing."""
    return f"The kept value of {part(node, program)}, is missing: one of type `{local_text(kept_type(node))}`."


def misfit(node: Node, shown: str, program: Unfolded) -> str:
    """Said where the item of a place is of another type, or above the ceiling."""
    kind = local_text(kept_type(node))
    upto = f" with numbers up to {program.ceiling}" if "int" in kind else ""
    return f"The kept value of {part(node, program)}, is of type `{kind}`{upto}, and `{shown}` isn't."
