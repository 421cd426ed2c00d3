"""What is asked of `fc` about a deployment, and many such questions one after the other, in any process and on any
machine."""

from __future__ import annotations

import hashlib
import os
import time
from collections.abc import Sequence
from dataclasses import dataclass
from functools import lru_cache
from pathlib import Path

from .. import networks as network
from .. import program as fc
from ..refusals import Call, Fault, Refusal, Section
from ..released import proved_program
from ..shared import Shared, shared
from . import deployments, rows
from .deployments import Rule
from .rows import Row

BAD_DEPLOYMENTS = ("limit degree ", "limit devices ")
DECIDING = (network.__file__, deployments.__file__, rows.__file__, __file__)


@dataclass(frozen=True)
class Question:
    """What is asked of each deployment of a rule: `check --settle` of a program, and, with `values`, `stable` too.

    `name` is the program's file, for refusals.
    """

    rule: Rule
    program: str
    values: bool = False
    name: str = ""

    def row(self, seed: int) -> Row:
        """The row of a seed, which the question and the seed alone decide. Raises Fault and Refusal."""
        return asked(self, seed, [])

    def batch(self, first: int, count: int) -> Batch:
        """The rows of so many seeds from the first on. Raises Fault and Refusal."""
        start, inside, found, seconds = time.thread_time(), 0.0, [], []
        for seed in range(first, first + count):
            spent: list[float] = []
            found.append(rows.line_of(asked(self, seed, spent), self.values))
            seconds.append(sum(spent))
            inside += sum(spent)
        return Batch(tuple(found), tuple(seconds), time.thread_time() - start, made_by())


@dataclass(frozen=True)
class Batch:
    """Some rows as lines of a file, the CPU seconds that `fc` took for each, those that were taken beside it
    for all, and by what they were made."""

    lines: tuple[str, ...]
    seconds: tuple[float, ...]
    beside: float
    made_by: str


@lru_cache(maxsize=1)
def made_by() -> str:
    """A digest of what decides rows beside the question: the program `fc`, and the modules that draw and ask."""
    whole = hashlib.sha256()
    library = shared()
    for name in (str(library.file) if library else executable(), *DECIDING):
        whole.update(Path(name).read_bytes())
    return whole.hexdigest()


@lru_cache(maxsize=1)
def executable() -> str:
    """The program `fc`; in a checkout the proved program itself where there is one, since `./fc` looks at all sources
    first."""
    found, here = fc.find(), fc.checkout()
    if here is None or found != str(here / "fc"):
        return found
    return str(proved_program(here) or found)


@lru_cache(maxsize=1)
def environment() -> dict[str, str]:
    """The variables that `fc` is given: those of this process."""
    return dict(os.environ)


def asked(question: Question, seed: int, spent: list[float]) -> Row:
    """The row of a seed; the CPU seconds of each run of `fc` are appended to `spent`."""
    found = deployments.deployment(question.rule, seed)
    components, diameter = deployments.components_and_diameter(found)
    scene = Section("network", f"the network of seed {seed}", 1, deployments.scene_text(found))
    sections = (Section("program", question.name, 1, question.program), scene)
    shape = (seed, len(found.inputs), len(found.links), components, diameter)
    try:
        settling = answer(Call(("check", "--settle"), sections), spent).splitlines()
    except Refusal as refusal:
        if refusal.line.startswith(BAD_DEPLOYMENTS):
            return Row(*shape, refusal.line)
        raise
    values: Sequence[str] = ()
    if question.values and settling[0].startswith("yes "):
        values = [line.split(" ", 1)[1] for line in answer(Call(("stable",), sections), spent).splitlines()]
    elif question.values:
        values = [line.split(" ")[-1] for line in settling[2:]]
    return rows.row_of(shape, settling, values)


def answer(call: Call, spent: list[float]) -> str:
    """What `fc` writes. Raises Refusal if its status is above 1, and Fault if it can't be run."""
    library = shared()
    reply = replied(call, spent) if library is None else called(library, call, spent)
    if reply.status not in (0, 1):
        line = reply.text.strip("\n") if reply.status in (2, 3, 4) else ""
        raise Refusal(reply.status, line.split(" ")[0].rstrip(":"), line, call)
    return reply.text


def called(library: Shared, call: Call, spent: list[float]) -> fc.Reply:
    """The answer of the library."""
    start = time.thread_time()
    reply = library.answer(" ".join(call.words), fc.joined(call.sections))
    spent.append(time.thread_time() - start)
    return reply


def replied(call: Call, spent: list[float]) -> fc.Reply:
    """The answer of the program. Raises Fault if it can't be run."""
    with fc.memory(fc.joined(call.sections)) as given, fc.memory() as written:
        ends = [(os.POSIX_SPAWN_DUP2, given, 0), (os.POSIX_SPAWN_DUP2, written, 1)]
        try:
            process = os.posix_spawn(executable(), ["fc", *call.words], environment(), file_actions=ends)
        except OSError as error:
            raise Fault(f"{executable()} can't be run: {error.strerror}") from None
        _, status, used = os.wait4(process, 0)
        spent.append(used.ru_utime + used.ru_stime)
        return fc.Reply(os.waitstatus_to_exitcode(status), os.pread(written, os.fstat(written).st_size, 0))
