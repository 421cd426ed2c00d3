"""The shared library `libfc` beside an installed `fc`: the same answers, without a process for each call."""

from __future__ import annotations

import ctypes
from functools import lru_cache
from pathlib import Path

from .program import Reply, find

PROGRAM = "libexec/fc/fc"
LIBRARY = "lib/libfc.so.1"
FIRST_ROOM = 65536
WITH_TEXT = 4


class Shared:
    """The library of a file. Raises OSError if it can't be loaded, and AttributeError if it isn't `libfc`."""

    def __init__(self, file: Path) -> None:
        self.file = file
        self._reply = ctypes.CDLL(str(file)).fc_reply
        self._reply.restype = ctypes.c_uint32
        text = (ctypes.c_char_p, ctypes.c_size_t)
        self._reply.argtypes = [*text, *text, *text, ctypes.POINTER(ctypes.c_size_t)]

    def answer(self, words: str, given: bytes) -> Reply:
        """The answer to words with one space between each two and to an input, where no thread works for the words."""
        asked, needed, length = words.encode(), ctypes.c_size_t(), FIRST_ROOM
        while True:
            room = ctypes.create_string_buffer(length)
            size = ctypes.byref(needed)
            status = self._reply(asked, len(asked), given, len(given), room, length, size)
            if status > WITH_TEXT or needed.value <= length:
                return Reply(status, room.raw[: needed.value])
            length = needed.value


@lru_cache(maxsize=1)
def shared() -> Shared | None:
    """The library that was installed with the program that is run, if it was. Raises Fault if no program is."""
    program = find()
    if not program.endswith("/" + PROGRAM):
        return None
    try:
        return Shared(Path(program.removesuffix(PROGRAM)) / LIBRARY)
    except (OSError, AttributeError):
        return None
