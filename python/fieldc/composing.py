"""Programs made of blocks: adds the blocks that a program calls."""

from __future__ import annotations

import argparse
import json
import os
import re
import time
from collections.abc import Iterable, Sequence
from dataclasses import dataclass, field, replace
from pathlib import Path

from . import cuts
from . import program as fc
from .asking import add_cut_check, tell
from .blocks import Block, Declaration, Library, Token, declarations, not_there, tokens
from .blocks import listing, own_library, read_library, shown
from .networks import read_scene
from .refusals import Call, Explanation, Fault, Refusal, Section, explained, has_lark, plain_explanation
from .sections import cut, read, write
from .streams import say
from .telling import place_of, quoted

SUMMARY = "adds the blocks that a program calls"
EPILOG = "docs/blocks.md has the blocks. Example: fieldc compose mine.fc > composed.fc"
LINE = re.compile(r"\bline (\d+)")
NUMBERS = re.compile(r"device numbers of 0 to (\d+)")
OF_PROGRAMS = ("lexical", "syntax", "types", "limit tokens", "limit depth", "limit nodes")


@dataclass(frozen=True)
class Composition:
    """A program with the blocks that it calls.

    `own` is the program as it was; `taken` are the blocks, each after what it calls, and `asked` has for each the line
    of `own` that led to it. `inserted` stands in `text` at the offset `at`.
    """

    own: str
    at: int
    inserted: str
    taken: tuple[Block, ...] = ()
    asked: dict[str, int] = field(default_factory=dict)

    @property
    def text(self) -> str:
        """The composed program."""
        return self.own[: self.at] + self.inserted + self.own[self.at :]

    def origin(self, line: int) -> tuple[int, Block | None]:
        """Where a line of `text` comes from: the line of `own`, or the one that led to the block in which it stands."""
        last = self.own.count("\n", 0, self.at) + self.inserted.startswith("\n")
        if line <= last:
            return line, None
        for block in self.taken:
            last += block.text.count("\n") + 2
            if line <= last:
                return self.asked[block.name], block
        return line - self.inserted.count("\n"), None


def _unknown(called: Sequence[Token], library: Library) -> Fault:
    """The refusal of names that no block has, each at its first line with what is near it."""
    first = {token.text: token for token in reversed(called)}
    wanted = sorted(first.values(), key=lambda token: token.at)
    return Fault("\n".join(f"line {token.line}: {not_there(token.text, library)}" for token in wanted), 3)


def _with_their_own(called: Iterable[Token], library: Library) -> dict[str, int]:
    """The blocks that are called and what they call, each after its own, with the line that led to it.

    Raises Fault if a block calls what isn't there or comes back to itself.
    """
    asked: dict[str, int] = {}

    def take(name: str, line: int, over: tuple[str, ...]) -> None:
        if name in over:
            raise Fault(f"the library: {' calls '.join([*over[over.index(name):], name])}", 3)
        if name in asked:
            return
        for inner in library[name].calls:
            if inner not in library:
                raise Fault(f"the library: {name} of {library[name].file} calls {inner}, which no block is", 3)
            take(inner, line, (*over, name))
        asked[name] = line

    for token in called:
        take(token.text, token.line, ())
    return asked


def _leading_to(name: str, parts: Sequence[Declaration], taken: Sequence[Block]) -> str:
    """The first block that a program calls itself and that is of a name, or calls it by way of others."""
    leading = {name}
    for block in taken:
        if leading.intersection(block.calls):
            leading.add(block.name)
    return next(token.text for part in parts for token in part.calls() if token.text in leading)


def _refuse_clashes(parts: Sequence[Declaration], taken: Sequence[Block], asked: dict[str, int]) -> None:
    """Raises Fault if the program declares a name that a taken block has, or isn't of the language of one."""
    names = {block.name for block in taken}
    for part in parts:
        if part.kind in ("def", "input") and part.name in names:
            users = [f"that {block.name} calls" for block in taken if part.name in block.calls]
            user = (users or ["that is called here"])[0]
            what = f"line {part.line}: {part.kind} {part.name} has the name of a block {user}"
            raise Fault(f"{what}: choose another name", 3)
    later = [block.name for block in taken if block.second_language]
    if later and [token.text for token in parts[0].tokens] != ["language", "2", ";"]:
        line = asked[later[0]]
        name = _leading_to(later[0], parts, taken)
        raise Fault(f"line {line}: the block {name} needs language 2: begin the program with `language 2;`", 3)


def composed(text: str, library: Library) -> Composition:
    """A program with the blocks that it calls and doesn't define, and those that these call.

    They stand in front of its first `def` or `main`, each after what it calls, in the order of the calls. All else
    stays. Raises Fault if a name that is called is no block's, or a name or the language doesn't go with the blocks.
    """
    parts = declarations(text)
    own = {part.name for part in parts if part.kind == "def"}
    called = [token for part in parts for token in part.calls() if token.text not in own]
    missing = [token for token in called if token.text not in library]
    if missing:
        raise _unknown(missing, library)
    asked = _with_their_own(called, library)
    taken = tuple(library[name] for name in asked)
    if not taken:
        return Composition(text, len(text), "")
    _refuse_clashes(parts, taken, asked)
    place = next(place for place, part in enumerate(parts) if part.kind in ("def", "main") or part.calls())
    at = parts[place - 1].end if place else 0
    rest = re.compile(r"[ \t\r]*(//[^\n]*)?\n").match(text, at) if place else None
    lines = "".join(f"// {block.name}: the block of library/{block.file}\n{block.text}\n" for block in taken)
    if place and not rest:
        lines = "\n" + lines + " " * (at - text.rfind("\n", 0, at) - 1)
    return Composition(text, rest.end() if rest else at, lines, taken, asked)


def compose(text: str, library: Library) -> str:
    """The text of a program with the blocks that it calls. Raises Fault as `composed` does."""
    return composed(text, library).text


def warnings(made: Composition, network: str, name: str) -> list[str]:
    """What a network makes of the blocks: device numbers that the ceiling cuts, or that a block doesn't tell apart.

    Raises Fault if the network is no scene.
    """
    greatest = max(read_scene(network, name).devices)
    words = [token.text for token in tokens(made.text)]
    found = []
    ceilings = [int(number) for word, number in zip(words, words[1:]) if word == "ceiling" and number.isdigit()]
    if "uid" in words and ceilings and ceilings[0] < greatest:
        cut_off = f"the ceiling {ceilings[0]} is below device {greatest} of {name}"
        found.append(f"{cut_off}: uid is cut there, so devices aren't told apart")
    for block in made.taken:
        limit = NUMBERS.search(block.notes.get("Needs", ""))
        if limit and int(limit.group(1)) < greatest:
            apart = f"the block {block.name} tells devices apart up to {limit.group(1)}"
            found.append(f"{apart}, and {name} has device {greatest}")
    return found


def least_network(text: str) -> str:
    """A network of one device, with the least value of each input that a program declares: to have its types judged."""
    inputs: dict[str, int | bool] = {}
    for part in declarations(text):
        words = [token.text for token in part.tokens]
        if part.kind == "input" and len(words) > 4:
            inputs[part.name] = int(words[4]) if words[3] == "int" and words[4].isdigit() else False
    return json.dumps({"devices": [{"id": 0, "inputs": inputs}], "links": []})


def _line(made: Composition, words: Sequence[str]) -> int | None:
    """The line of the composed text that a refusal means, or None if it means none."""
    numbers = [int(word) for word in words if word.isdigit()]
    parts = declarations(made.text)
    if words[0] == "lexical" and numbers:
        return fc.bytes_of(made.text)[: numbers[0]].count(b"\n") + 1
    if words[0] in ("syntax", "types") and numbers and parts:
        return parts[min(numbers[0], len(parts)) - 1].line
    return None


def _at_own_lines(made: Composition, said: str) -> str:
    """A sentence that speaks of lines of the composed text, with the lines of the program as it was."""

    def own(match: re.Match[str]) -> str:
        line, block = made.origin(int(match.group(1)))
        return f"line {line}" if block is None else f"a line of the block {block.name}"

    return LINE.sub(own, said)


def own_explanation(made: Composition, refusal: Refusal, name: str) -> Explanation:
    """What `fc` refuses in a composed program, explained at the line of the program as it was, in the file `name`."""
    words = refusal.line.split()
    found = explained(refusal.call, refusal)
    what = _at_own_lines(made, found.what)
    if found == plain_explanation(refusal) and words[0] in ("lexical", "syntax", "types"):
        what = " ".join(word for word in words if not word.isdigit())
    hint = _at_own_lines(made, found.hint) if found.hint else None
    mine = replace(found, what=what, hint=hint, section=Section("program", name, 1, made.own), line=None, column=None)
    line = _line(made, words) if found.line is None else found.line
    if line is None:
        return mine
    own, block = made.origin(line)
    if block is not None:
        within = f"in the block {block.name} of library/{block.file}, to which this line leads: {what}"
        return replace(mine, what=within, line=own)
    return replace(mine, line=own, column=found.column)


def outside_grammar(name: str, text: str) -> Explanation | None:
    """What is wrong with a program that no grammar takes, where that is known."""
    if not has_lark():
        return None
    from .language import reading

    found = reading(text).fault
    if found is None or not found.line.startswith(("lexical", "syntax")):
        return None
    section, at = Section("program", name, 1, text), found.at
    line, column = (None, None) if at is None else (at.line, at.column)
    return Explanation(found.what, section, line, column, found.name, found.hint, found.page)


def told(explanation: Explanation) -> str:
    """An explanation as lines for standard error."""
    lines = [f"fieldc compose: {place_of(explanation)}{explanation.what}"]
    lines += ["    " + row for row in quoted(explanation)]
    lines += [f"{word}: {said}" for word, said in (("try", explanation.hint), ("read", explanation.page)) if said]
    return "\n".join(lines) + "\n"


def judged(made: Composition, network: Section) -> Refusal | None:
    """What `fc check` refuses in a composed program on a network, or its no, as a refusal of status 1, or None."""
    call = Call(("check",), (Section("program", "", 1, made.text), network))
    try:
        reply = fc.answered(call)
    except Refusal as refusal:
        return refusal
    return Refusal(1, "no", reply.text.strip(), call) if reply.status == 1 else None


def wanting(made: Composition, no: Refusal, name: str) -> str | None:
    """That a block gets a no with these arguments, and what it needs; None if the no isn't known to be a block's."""
    line = explained(no.call, no).line
    own, block = (0, None) if line is None else made.origin(line)
    if block is None:
        return None
    needs = block.notes.get("Needs", "see its comment")
    return f"{name}:{own}: the block {block.name} gets {no.line} with these arguments; it needs: {needs}"


def built() -> bool:
    """Whether a built `fc` is there: `./fc` of a checkout where none is takes minutes at its first call."""
    return bool(os.environ.get("FC")) or fc.built()


def arguments(parser: argparse.ArgumentParser) -> None:
    """The command line of `compose`."""
    add = parser.add_argument
    joined = "the program, or an input of fc that begins with one (- is standard input)"
    add("program", metavar="FILE", nargs="?", default="-", help=joined)
    add("--network", metavar="FILE", help="a network: warns of device numbers that can't be told apart on it")
    add("--library", metavar="DIR", action="append", default=[], help="a further folder, of your own blocks")
    add_cut_check(parser)
    add("--unjudged", action="store_true", help="doesn't ask fc whether it accepts the composed program")
    add("-o", "--output", metavar="FILE", default="-", help="where to write the composed program (standard output)")
    add("--list", action="store_true", help="lists the blocks, a line for each")
    add("--show", metavar="NAME", help="shows one block")


def _placed(name: str, line: str) -> str:
    """A line of a fault, which names its file where it says its place."""
    at = re.match(r"line (\d+):", line)
    return line if at is None else f"{name}:{at[1]}:{line[at.end() :]}"


def _composed_of(name: str, text: str, library: Library) -> Composition:
    """The composition of a file's program; a fault of its names the file."""
    try:
        return composed(text, library)
    except Fault as fault:
        lines = [_placed(name, line) for line in str(fault).splitlines()]
        raise Fault("\n".join(lines), fault.status) from None


def perform(options: argparse.Namespace) -> int:
    """The command `compose`: 0, or the status of what `fc` refuses, which it tells on standard error. Raises Fault."""
    library = read_library([own_library(), *map(Path, options.library)])
    if options.list or options.show is not None:
        write(options.output, listing(library) if options.list else shown(options.show, library))
        return 0
    (_, text), *others = cut(options.program, read(options.program))
    name = "standard input" if options.program == "-" else options.program
    try:
        made = _composed_of(name, text, library)
    except Fault:
        wrong = outside_grammar(options.program, text)
        if wrong is None:
            raise
        say(told(wrong))
        return 3
    network = Section("network", name, *others[0]) if others else None
    if options.network is not None:
        network = Section("network", options.network, 1, read(options.network))
    for warning in [] if network is None else warnings(made, network.text, network.name):
        say(f"warning: {warning}\n")
    if not options.unjudged and built():
        start = time.monotonic()
        refusal = judged(made, Section("network", "", 1, least_network(text)) if network is None else network)
        if refusal is not None and refusal.status > 1 and not refusal.line.startswith(OF_PROGRAMS):
            tell(None, () if network is None else (explained(refusal.call, refusal),))
            refusal = None
        doubt = wanting(made, refusal, name) if refusal is not None and refusal.status == 1 else None
        if doubt is not None:
            say(f"warning: {doubt}\n")
        if network is not None and not options.no_cut_check and (refusal is None or refusal.status == 1):
            own = Section("program", options.program, 1, text)
            took = time.monotonic() - start
            tell(None, cuts.in_program(own, made.text, network.text, refusal is None, took=took))
        if refusal is not None and refusal.status > 1:
            say(told(own_explanation(made, refusal, options.program)))
            return refusal.status
    front = made.text if not others or made.text.endswith("\n") else made.text + "\n"
    write(options.output, "%%\n".join([front, *(part for _, part in others)]))
    return 0
