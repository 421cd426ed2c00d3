"""Finds the program `fc` and runs it: words and bytes in, a status and bytes out."""

from __future__ import annotations

import os
import shutil
import subprocess
import sys
from collections.abc import Callable, Iterator, Sequence
from contextlib import contextmanager
from dataclasses import dataclass
from pathlib import Path

from .refusals import Call, Fault, Refusal, Section
from .released import proved_program

PACKAGE = Path(__file__).resolve().parent
INSTALLED = ("libexec/fc/fc", "libexec/fc")
TICK = 0.2
REFUSING = {
    2: ("usage:",),
    3: ("sections", "lexical", "syntax", "types", "json", "shape", "network", "kept", "script", "log", "changes"),
    4: ("limit",),
}
MAY_BE_NO = (("check",), ("stable",), ("trace",), ("mail",))


@dataclass(frozen=True)
class Reply:
    """How `fc` ended: its status, and all that it wrote on standard output."""

    status: int
    output: bytes

    @property
    def text(self) -> str:
        """The output as text."""
        return text_of(self.output)


def text_of(content: bytes) -> str:
    """Bytes as text; what isn't UTF-8 is kept, and `bytes_of` gives it back."""
    return content.decode("utf-8", "surrogateescape")


def bytes_of(text: str) -> bytes:
    """The bytes of a text that came from `text_of`, or of any other."""
    return text.encode("utf-8", "surrogateescape")


def checkout() -> Path | None:
    """The folder of the repository from which this package runs, or None if it is installed."""
    folder = PACKAGE.parent.parent
    return folder if (folder / "crates.txt").exists() and (folder / "fc").exists() else None


def find() -> str:
    """The path of `fc`.

    It is what the variable FC names; else the installed program, under `libexec` of a folder that holds this package or
    Python; else `fc` of the checkout, which runs the proved program, or says that there is none.

    Raises Fault if there is none.
    """
    named = os.environ.get("FC")
    if named:
        found = shutil.which(named)
        if found is None:
            raise Fault(f"{named} isn't a program; the variable FC has to name fc")
        return found
    for folder in (*PACKAGE.parents, Path(sys.prefix)):
        for place in INSTALLED:
            if os.access(folder / place, os.X_OK) and (folder / place).is_file():
                return str(folder / place)
    here = checkout()
    if here is not None:
        return str(here / "fc")
    raise Fault("fc is missing: install it with ./build --prefix, or set the variable FC to its name")


def built() -> bool:
    """Whether `fc` is a built program; `./fc` of a checkout where none is takes minutes at its first call."""
    here = checkout()
    return here is None or find() != str(here / "fc") or proved_program(here) is not None


def joined(sections: Sequence[Section]) -> bytes:
    """The input of `fc`: the sections with a line `%%` between each two of them."""
    ended = [s.text if not s.text or s.text.endswith("\n") else s.text + "\n" for s in sections[:-1]]
    return bytes_of("%%\n".join([*ended, *(s.text for s in sections[-1:])]))


@contextmanager
def memory(content: bytes = b"") -> Iterator[int]:
    """A file in memory that has this content and is read from its front, by its descriptor.

    `fc` is given its input as one: it reads all of it however late it starts, and nobody has to write meanwhile.
    """
    place = os.memfd_create("fieldc")
    try:
        left = memoryview(content)
        while left:
            left = left[os.write(place, left) :]
        os.lseek(place, 0, os.SEEK_SET)
    except OSError as error:
        os.close(place)
        raise Fault(f"there is no room for the input of fc: {error.strerror}", 7) from None
    try:
        yield place
    finally:
        os.close(place)


def ask(call: Call, waiting: Callable[[], None] | None = None) -> Reply:
    """Runs `fc` on a call to its end, whatever its status.

    `waiting` is called about five times a second as long as it runs. What `fc` writes on standard error goes there.
    Raises Fault if `fc` can't be started.
    """
    with memory(joined(call.sections)) as given:
        try:
            process = subprocess.Popen([find(), *call.words], stdin=given, stdout=subprocess.PIPE)
        except OSError as error:
            raise Fault(f"{find()} can't be run: {error.strerror}") from None
    try:
        while True:
            try:
                output, _ = process.communicate(timeout=TICK)
                return Reply(process.returncode, output)
            except subprocess.TimeoutExpired:
                if waiting is not None:
                    waiting()
    except BaseException:
        process.kill()
        process.wait()
        raise


def answered(call: Call, waiting: Callable[[], None] | None = None) -> Reply:
    """Runs `fc` on a call. Raises Refusal if its status is above 1, or it was killed, and Fault if it can't have been
    `fc` that wrote this."""
    reply = ask(call, waiting)
    if not possible(call, reply):
        wrote = f"it ended with status {reply.status} and wrote {reply.text[:60]!r}"
        raise Fault(f"{find()} doesn't answer like fc: {wrote}")
    if reply.status not in (0, 1):
        line = reply.text.strip("\n") if reply.status in REFUSING else ""
        raise Refusal(reply.status, line.split(" ")[0].rstrip(":"), line, call)
    return reply


def possible(call: Call, reply: Reply) -> bool:
    """Whether `fc` may have written this, by its status and the first words."""
    command, text = call.words[:1], reply.text
    if reply.status in REFUSING:
        return text.split(" ")[0].rstrip("\n") in REFUSING[reply.status] and text.count("\n") == 1
    if command == ("format",) and reply.status == 0:
        return text.endswith(";\n") and text[text.rfind("\n", 0, -1) + 1 :].startswith("main = ")
    if reply.status == 1:
        return command in MAY_BE_NO and text != ""
    return reply.status != 0 or text != "" or command == ("replay",)
