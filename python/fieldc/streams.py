"""The three standard streams: what goes to them is written whole, or its want is a fault of status 6."""

from __future__ import annotations

import os
import sys
from typing import TextIO

from .refusals import Fault


def ready() -> None:
    """Puts a file in place of each stream that was closed, so that no other file takes its number.

    It can't be read in place of standard input, nor written in that of standard output. What goes to a standard error
    that was closed is left out.
    """
    for number, way in ((0, os.O_WRONLY), (1, os.O_RDONLY), (2, os.O_WRONLY)):
        try:
            os.fstat(number)
        except OSError:
            os.open(os.devnull, way)
    given: tuple[TextIO | None, TextIO | None, TextIO | None] = (sys.stdin, sys.stdout, sys.stderr)
    sys.stdin = given[0] or open(0, closefd=False)
    sys.stdout = given[1] or open(1, "w", closefd=False)
    sys.stderr = given[2] or open(2, "w", closefd=False)


def pour(content: bytes) -> None:
    """Writes bytes to standard output, all of them: a stream without a buffer takes a part at a time.

    Raises Fault, of status 6, if that fails, and BrokenPipeError if the reader went away.
    """
    try:
        left = memoryview(content)
        while left:
            left = left[sys.stdout.buffer.write(left) or 0 :]
        sys.stdout.buffer.flush()
    except OSError as error:
        _failed(sys.stdout, "standard output", error)


def say(text: str) -> None:
    """Writes a text to standard error. Raises as `pour` does."""
    try:
        sys.stderr.write(text)
        sys.stderr.flush()
    except OSError as error:
        _failed(sys.stderr, "standard error", error)


def _failed(stream: TextIO, name: str, error: OSError) -> None:
    """Lets go what a stream still holds, so that it isn't written once more at the end, and raises."""
    empty = os.open(os.devnull, os.O_WRONLY)
    os.dup2(empty, stream.fileno())
    os.close(empty)
    if isinstance(error, BrokenPipeError):
        raise error
    raise Fault(f"{name} can't be written: {error.strerror}", 6) from None
