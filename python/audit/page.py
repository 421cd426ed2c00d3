"""Writes docs/audit.md."""

from __future__ import annotations

from collections.abc import Collection, Iterable, Iterator
from itertools import groupby, pairwise

from gate.places import libraries

from .closure import Repository
from .definitions import Definition
from .notation import NOTATION, OUTSIDE
from .promises import BRANCHES, CUTS, PROMISES, WAY, Promise

TITLE = """\
# The audit

What to read to believe what `fc` promises, by file and lines. `docs/headline.md` says the promises in words. \
`tools/audit` makes this page from the definitions as they stand, and the gate fails if the page isn't what the tool \
makes.

**In an hour** one reads *How it is written*, *From the clause to the rules* and section 1. These are {hour} lines of \
definitions, which lead from the clause of `fc` to the rules by which a device evaluates, and say all that a yes \
means. The other sections are for a second reading: what a text, a line or an option is, and what else is promised.

**In which order.** A row rests only on the rows above it in its section and on the names of *What stands outside*: \
nothing has to be looked up elsewhere. A row names what its lines define, so a search on this page finds where a name \
is defined.

A definition stands here if the clause of `fc` leans on it. The tool walks from name to name, through the definitions \
and the types and constants of the code that they name. Proofs aren't among them: the toolchain checks these.

**What decides.** A definition is *needed for soundness* if a promise would say something else with another one in its \
place: the rules of evaluation, what a round is, which program a text is. It is *needed for exactness alone* if it \
only says which answer `fc` gives: the verdict, typing, refusals. With another definition in its place the \
promises would be the same. The tool goes from each promise to all that it names, but not into \
the names of *What only says which answer it is*, which are chosen by hand, each for the reason beside it. What is met \
through these alone is needed for exactness alone.
"""
NOTATION_SAID = """\
Definitions are in `crates/*/specs/*.antt`, in the language of the proofs. A few are types and constants of the code, \
in `crates/*/src/*.rt`."""
WAY_SAID = """\
`fc` ensures `CallEnds`. Each row names the next one, down to the rules by which a device evaluates. The last three \
are the other ends: what a solution is, what a round is, and what a start may be. The last column has the sections in \
which the other names of a row are defined, or *never* for those of the table above. From `Stabilises` on all are in \
section 1, but for `Edits`: a log that has rounds has no edit."""
SOUND_SAID = """\
Section 1 is all of *stabilises*, from the rules of the calculus on: to know what a yes means takes its {first} lines \
and no others. Sections 2 to {last} add what ties it to the bytes that are read and written; together these are \
{sound} lines. What is needed for exactness alone has {exact} more."""
EXACT_SAID = """\
Who wants to know not only that a yes is right, but when there is one, reads on: the verdict, typing, settle rounds, \
refusals with their places, what each command writes, and what the data of the code stand for."""
OUTSIDE_SAID = """\
What the lines of soundness take from the kit, whose own documents say it exactly: its crates `std` and `serde_json`."""
# so many definitions of a row are said one by one
FEW = 3


def place(found: str) -> tuple[str, str]:
    """The file and the name of a definition that is named by both."""
    file, _, name = found.partition(" ")
    return file, name


def spans(found: Iterable[Definition], text: list[str]) -> Iterator[tuple[int, int]]:
    """The lines of some definitions of a file: those between which nothing stands are one span."""
    first = last = 0
    for it in sorted(found, key=lambda it: it.first):
        if last and not any(line and not line.startswith("-- ----") for line in text[last : it.first - 1]):
            last = it.last
        else:
            if last:
                yield first, last
            first, last = it.first, it.last
    yield first, last


class Page:
    """The page, and what it is made of."""

    def __init__(self, repository: Repository) -> None:
        self.repository = repository
        self.cuts = {repository.find(*place(it)): why for it, why in CUTS.items()}
        self.crates = [*libraries(), "fc_program"]
        self.root = repository.find(*place(WAY[0]))

    # ---- order

    def in_order(self, found: Collection[Definition]) -> Iterator[tuple[str, list[Definition]]]:
        """Definitions by files: by the order of crates, and in a crate each file behind those on which it rests."""
        by_crate = sorted(found, key=lambda it: (self.crates.index(it.crate), it.file, it.first))
        for _, group in groupby(by_crate, key=lambda it: it.crate):
            files = {file: [*its] for file, its in groupby(group, key=lambda it: it.file)}
            done: list[str] = []
            for file in files:
                self.behind(file, files, done)
            yield from ((file, files[file]) for file in done)

    def behind(self, file: str, files: dict[str, list[Definition]], done: list[str]) -> None:
        """Puts a file behind those of its crate on which it rests."""
        if file in done:
            return
        named = [one.file for it in files[file] for one in self.repository.named(it)]
        for other in dict.fromkeys(named):
            if other != file and other in files:
                self.behind(other, files, done)
        done.append(file)

    # ---- what is read

    def of(self, promise: Promise) -> set[Definition]:
        """What a promise rests on, but for what it isn't gone into."""
        here = {self.repository.find(*place(it)) for it in promise.cut}
        roots = [self.repository.find(*place(it)) for it in promise.roots]
        met = self.repository.rests_on(roots, lambda it: it in self.cuts or it in here)
        return {*met} - here - self.cuts.keys()

    def way(self) -> list[Definition]:
        """The definitions by which the clause of `fc` leads to the rules."""
        stops = [self.repository.find(*place(it)) for it in WAY]
        steps = [self.root]
        for start, end in pairwise(stops):
            met = self.repository.rests_on([start], lambda it: it in self.cuts)
            back: Definition | None = end
            found: list[Definition] = []
            while back and back != start:
                found.insert(0, back)
                back = met[back]
            steps += found
        return steps

    # ---- rows

    def text(self, file: str) -> list[str]:
        """The lines of a file."""
        return (self.repository.crates / file).read_text().splitlines()

    def rows(self, found: Collection[Definition], *, names: bool = True) -> list[tuple[str, str, str, int]]:
        """A row for each file: its name, the lines, what for, and how many lines these are."""
        rows = []
        for file, its in self.in_order(found):
            text = self.text(file)
            its_spans = [*spans(its, text)]
            lines = ", ".join(f"{first}–{last}" if last > first else str(first) for first, last in its_spans)
            count = sum(1 for first, last in its_spans for line in text[first - 1 : last] if line)
            rows.append((file, lines, self.what_for(file, its, names=names), count))
        return rows

    def what_for(self, file: str, its: list[Definition], *, names: bool) -> str:
        """What the definitions of a row are: each with what is said of it, where they are few; else what the file says
        of itself, with their names where these are asked for."""
        if len(its) <= FEW:
            return "; ".join(f"`{it.name}`" + (f": {sentence(it.comment)}" if it.comment else "") for it in its)
        read = self.repository.file(file)
        assert read is not None
        return sentence(read.said) + (": " + ", ".join(f"`{it.name}`" for it in its) if names else "")

    def table(self, found: Collection[Definition], *, names: bool = True) -> Iterator[str]:
        """The table of some definitions."""
        yield "| File in `crates` | Lines | What for |"
        yield "|---|---|---|"
        for file, lines, why, _ in self.rows(found, names=names):
            yield f"| `{file}` | {lines} | {why} |"

    def count(self, found: Collection[Definition]) -> int:
        """How many lines some definitions have."""
        return sum(row[3] for row in self.rows(found))

    # ---- the page

    def soundness(self) -> list[tuple[Promise, set[Definition]]]:
        """Each promise with what it adds to those before it."""
        seen: set[Definition] = set()
        parts = []
        for promise in PROMISES:
            found = self.of(promise) - seen
            seen |= found
            parts.append((promise, found))
        return parts

    def exactness(self) -> set[Definition]:
        """What the clause of `fc` rests on beside that."""
        sound = {it for _, found in self.soundness() for it in found}
        return {*self.repository.rests_on([self.root])} - sound

    def cut_names(self) -> Iterator[str]:
        """The names that aren't gone into."""
        yield "| Name | File in `crates` | Why a promise holds whatever it means |"
        yield "|---|---|---|"
        for it, why in self.cuts.items():
            yield f"| `{it.name}` | `{it.file}` | {why} |"

    def ends(self) -> list[Definition]:
        """The way from the clause to the rules, and its other ends."""
        return [*self.way(), *(self.repository.find(*place(one)) for one in BRANCHES)]

    def way_down(self) -> Iterator[str]:
        """The way from the clause to the rules."""
        yield "| Definition | File in `crates` | Lines | What it says | Section: its other names |"
        yield "|---|---|---|---|---|"
        for it in self.ends():
            where = f"`{it.name}` | `{it.file}` | {it.first}–{it.last}"
            yield f"| {where} | {self.what(it)} | {self.beside(it)} |"

    def beside(self, it: Definition) -> str:
        """What a definition names beside those of the way, by the sections in which they are defined."""
        parts, ends = self.soundness(), self.ends()
        section = {one: str(number) for number, (_, found) in enumerate(parts, 1) for one in found}
        named = [one for one in self.repository.named(it) if one not in ends]
        by_section: dict[str, list[str]] = {}
        for one in named:
            by_section.setdefault(section.get(one, "never"), []).append(f"`{one.name}`")
        only = "1" if {*by_section} == {"1"} else ""
        return only or "; ".join(f"{where}: {', '.join(names)}" for where, names in by_section.items())

    def promised(self, number: int, promise: Promise, found: Collection[Definition]) -> Iterator[str]:
        """The section of a promise."""
        added, whole = self.count(found), self.count(self.of(promise))
        lines = f"{added} lines." if added == whole else f"{added} lines; with all on which they rest {whole}."
        yield from (f"### {number}. {promise.title}", "", f"{promise.said} {lines}", "")
        yield from (*self.table(found), "")

    def write(self) -> str:
        """The page."""
        parts, exact = self.soundness(), self.exactness()
        sound = {it for _, found in parts for it in found}
        counts = {"first": self.count(parts[0][1]), "sound": self.count(sound), "exact": self.count(exact)}
        lines = [TITLE.format(hour=self.count({*self.ends(), *parts[0][1]}))]
        lines += ["## How it is written", "", NOTATION_SAID, "", *both("Written", "Read", NOTATION), ""]
        lines += ["## What only says which answer it is", "", *self.cut_names(), ""]
        lines += ["## From the clause to the rules", "", WAY_SAID, "", *self.way_down(), ""]
        lines += ["## Needed for soundness", "", SOUND_SAID.format(last=len(parts), **counts), ""]
        for number, (promise, found) in enumerate(parts, 1):
            lines += self.promised(number, promise, found)
        lines += ["## Needed for exactness alone", "", EXACT_SAID, "", *self.table(exact, names=False), ""]
        outside = [(", ".join(f"`{name}`" for name in names.split()), what) for names, what in OUTSIDE]
        lines += ["## What stands outside", "", OUTSIDE_SAID, "", *both("Names", "What they mean", outside)]
        return "\n".join(lines) + "\n"

    def what(self, it: Definition) -> str:
        """What is said of a definition, or of its file."""
        file = self.repository.file(it.file)
        return sentence(it.comment or (file.said if file else ""))

    def outside(self) -> set[str]:
        """The names of the kit that definitions needed for soundness take."""
        sound = {it for _, found in self.soundness() for it in found}
        return {one.rpartition(".")[2] for it in sound for one in self.repository.named_outside(it)}


def both(left: str, right: str, rows: Iterable[tuple[str, str]]) -> Iterator[str]:
    """A table of two columns."""
    yield f"| {left} | {right} |"
    yield "|---|---|"
    for one, other in rows:
        yield f"| {one} | {other} |".replace("◌||◌", "◌\\|\\|◌")


def sentence(text: str) -> str:
    """The first sentence of a text, for a cell of a table."""
    first = text.partition(". ")[0].rstrip(".")
    return first.replace("|", "\\|")
