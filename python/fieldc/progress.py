"""A line on standard error that says, above a second and on a terminal, what is being done and how long it has
taken."""

from __future__ import annotations

import contextlib
import json
import shutil
import sys
import threading
import time
from collections.abc import Callable
from types import TracebackType
from typing import TextIO

from . import program as fc
from .edits import steps
from .refusals import Call, has_lark

PATIENCE = 1.0


class Progress:
    """Shows the line while it is called now and then, and takes it away at the end.

    `what` says what is done; it is asked once, when the line first shows. With `ticking` a thread calls it, for work
    that can't.
    """

    def __init__(self, what: Callable[[], str], ticking: bool = False, stream: TextIO | None = None) -> None:
        self._what = what
        self._stream = sys.stderr if stream is None else stream
        self._start = time.monotonic()
        self._said: str | None = None
        self._width = 0
        self._over = threading.Event()
        self._ticker = threading.Thread(target=self._tick, daemon=True) if ticking else None

    def _tick(self) -> None:
        while not self._over.wait(fc.TICK):
            self()

    def __enter__(self) -> Progress:
        if self._ticker is not None:
            self._ticker.start()
        return self

    def __exit__(
        self, kind: type[BaseException] | None, error: BaseException | None, trace: TracebackType | None
    ) -> None:
        self._over.set()
        if self._ticker is not None:
            self._ticker.join()
        if self._width:
            self._show("\r" + " " * self._width + "\r")

    def __call__(self, more: str = "") -> None:
        """Shows the line, with more at its end, where a second is over and the stream is a terminal."""
        past = time.monotonic() - self._start
        if past < PATIENCE or not self._stream.isatty():
            return
        if self._said is None:
            self._said = self._what()
        line = f"fieldc: {self._said}: {past:.0f} s{more}"[: shutil.get_terminal_size().columns - 1]
        self._show("\r" + line.ljust(self._width))
        self._width = max(self._width, len(line))

    def _show(self, text: str) -> None:
        """Writes to the stream; a terminal that went away doesn't end the work."""
        with contextlib.suppress(OSError):
            self._stream.write(text)
            self._stream.flush()


def described(call: Call) -> str:
    """What a call does, in a few words: its words, and how many devices, nodes and rounds it has, as far as is
    known."""
    parts = [" ".join(["fc", *call.words])]
    texts = {section.kind: section.text for section in call.sections}
    counts = [_devices(texts.get("network", "")), _nodes(texts.get("program", "")), _rounds(call, texts)]
    return ", ".join([*parts, *(count for count in counts if count)])


def _devices(network: str) -> str:
    try:
        return f"{len(json.loads(network)['devices']):,} devices"
    except (ValueError, KeyError, TypeError, RecursionError):
        return ""


def _nodes(program: str) -> str:
    """How many nodes the unfolded program has, where it can be read, for which Lark has to be there."""
    if not has_lark():
        return ""
    from .language import reading

    try:
        found = reading(program).unfolded
    except Exception:  # only a word beside a clock: without it the line says less
        return ""
    return f"{len(found.nodes):,} nodes" if found is not None else ""


def _rounds(call: Call, texts: dict[str, str]) -> str:
    """The rounds that a script asks for; else the bound of the verdict."""
    if "script" in texts:
        return f"{sum(rounds for _, _, rounds in steps(texts['script'])):,} rounds"
    if call.words[:1] in (("check",), ("stable",), ("mail",)) and "network" in texts and fc.built():
        asked = fc.ask(Call(("check",), tuple(s for s in call.sections if s.kind in ("program", "network"))))
        return f"at most {int(asked.text.split()[1]):,} rounds" if asked.text.startswith("yes ") else ""
    return ""
