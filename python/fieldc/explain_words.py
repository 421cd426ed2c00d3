"""Explains command lines that are no command's, and inputs with another number of sections."""

from __future__ import annotations

import difflib
import re
from collections.abc import Iterable

from .places import COMMANDS, FORMATS, Said
from .telling import counted

CALLS = COMMANDS + "#the-calls"
FLAGS = {
    "format": (),
    "check": ("--facts", "--settle", "--from-table", "--changes"),
    "stable": (),
    "trace": (),
    "run": ("--workers", "--log", "--table"),
    "gen": ("--devices", "--workers"),
    "replay": ("--rounds", "--table"),
    "mail": ("--number",),
}
VALUED = ("--workers", "--devices", "--number")
SECTIONS = {
    "format": ("program",),
    "check": ("program", "network"),
    "stable": ("program", "network"),
    "trace": ("program", "network"),
    "run": ("program", "network", "script"),
    "replay": ("program", "network", "log"),
    "mail": ("program", "network", "mail log"),
}
NUMBER = re.compile(r"[0-9]{1,7}")


def usage(words: tuple[str, ...]) -> Said | None:
    """Which word of a command line is no command's."""
    if not words:
        return Said("A command is missing.", None, None, f"The commands are {_listed(FLAGS)}.", CALLS)
    if words[0] not in FLAGS:
        return _no_command(words[0])
    command = words[0]
    seen: set[str] = set()
    place, numbers = 1, 0
    while place < len(words):
        word, _, value = words[place].partition("=")
        place += 1
        if word.startswith("-"):
            fault = _no_flag(command, word, seen)
            if fault is not None:
                return fault
            seen.add(word)
            if word not in VALUED and "=" in words[place - 1]:
                return Said(f"`{word}` takes no value.", None, word, f"Write `{word}` without a value.", CALLS)
            if word in VALUED:
                if "=" not in words[place - 1]:
                    value = words[place] if place < len(words) else ""
                    place += 1
                fault = _no_number(word, value)
                if fault is not None:
                    return fault
        elif command == "gen" and NUMBER.fullmatch(word) and not numbers and "=" not in words[place - 1]:
            numbers += 1
        else:
            return _strange_word(command, words[place - 1])
    if command == "gen" and not numbers:
        return Said("`gen` needs the number of a scenario.", None, "gen", "Write `gen 7`.", CALLS)
    for flag in ("--from-table", "--changes"):
        if flag in seen and "--settle" not in seen:
            return Said(
                f"`{flag}` needs `--settle`.", None, flag, f"Write `check --settle {flag}`.", CALLS
            )
    if "--changes" in seen:
        hint = "It is too old: build it again with `./build`."
        return Said("This fc has no flag `--changes`.", None, "--changes", hint, CALLS)
    return None


def _listed(names: Iterable[str]) -> str:
    return ", ".join(f"`{name}`" for name in names)


def _no_command(word: str) -> Said:
    if word in ("help", "--help", "-h", "--version", "-V"):
        hint = f"`fieldc --help` lists the commands; those of fc are {_listed(FLAGS)}."
        return Said(f"`{word}` isn't a command of fc.", None, word, hint, CALLS)
    near = difflib.get_close_matches(word, FLAGS, 1)
    hint = f"Did you mean `{near[0]}`?" if near else f"The commands are {_listed(FLAGS)}."
    return Said(f"`{word}` isn't a command of fc.", None, word, hint, CALLS)


def _no_flag(command: str, word: str, seen: set[str]) -> Said | None:
    if word in seen:
        return Said(f"`{word}` is given twice.", None, word, "Write it once.", CALLS)
    if word in FLAGS[command]:
        return None
    known = f"It has {_listed(FLAGS[command])}." if FLAGS[command] else "It has no flags."
    others = [name for name, flags in FLAGS.items() if word in flags]
    near = difflib.get_close_matches(word, FLAGS[command], 1)
    hint = f"Did you mean `{near[0]}`?" if near else f"It is a flag of {_listed(others)}." if others else known
    return Said(f"`{command}` has no flag `{word}`.", None, word, hint, CALLS)


def _no_number(word: str, value: str) -> Said | None:
    least = {"--workers": 1, "--devices": 3, "--number": 0}[word]
    if not NUMBER.fullmatch(value):
        given = f"`{value}` isn't one" if value else "there is none"
        return Said(f"`{word}` needs a number of 1 to 7 digits, but {given}.", None, word, f"Write `{word} 4`.", CALLS)
    if int(value) < least:
        return Said(f"`{word}` needs a number of at least {least}.", None, word, None, CALLS)
    return None


def _strange_word(command: str, word: str) -> Said:
    hint = (
        "fc reads its input from standard input; `fieldc` takes files by name." if not NUMBER.fullmatch(word) else None
    )
    return Said(f"`{command}` doesn't take the word `{word}`.", None, word, hint, CALLS)


def wrong_sections(words: tuple[str, ...], count: int) -> Said | None:
    """Which sections a command takes, where another number of them is given."""
    command = words[0] if words else ""
    wanted = SECTIONS.get(command)
    if command == "mail" and any(word.partition("=")[0] == "--number" for word in words):
        wanted = SECTIONS["check"]
    if "--changes" in words:
        wanted = (*SECTIONS["check"], "changes")
    if wanted is None:
        return None
    names = " and ".join(", ".join(wanted).rsplit(", ", 1))
    given = f"{count} {'is' if count == 1 else 'are'} given"
    what = f"`{command}` takes {counted(len(wanted), 'section')}, {names}, and {given}."
    hint = "A line that is exactly `%%` separates two sections."
    if count > len(wanted) and len(wanted) == 2:
        hint = "No script is taken here: `fieldc network --scene FILE` extracts the network from what `--moves` wrote."
    if 0 < count < len(wanted):
        hint = f"The {wanted[count]} is missing: give its file too, or add it after a line that is exactly `%%`."
    return Said(what, None, command, hint, FORMATS + "#the-input")
